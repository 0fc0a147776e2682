//! Turns the backward faces of a cell by request 3 (SCOPE 14) alone: the second teller of
//! `turn_faces`.
//!
//! The Rust has no such pass. So every choice of reversals is tried where the faces are few; where they
//! are many, they are visited side by side. Both ways must agree where both are gone.

use std::collections::{BTreeMap, BTreeSet, VecDeque};

use crate::cells::Cell;
use crate::compare_cells::is_closed;
use crate::refusals;

/// Most faces of a cell for which every choice is tried.
const MOST_TRIED: usize = 12;

/// Two vertices that differ, the lower first: a side without its direction.
pub type Side = (u32, u32);

/// What the pass leaves and answers.
#[derive(Debug)]
pub struct Turned {
    pub corners: Vec<u32>,
    /// How many faces were reversed.
    pub reversals: usize,
}

/// The cell with its backward faces turned, or the refusal: 1 to 4, then 11, then 12.
pub fn turned(cell: &Cell) -> Result<Turned, u8> {
    if let Some(number) = refusals::of_cell(cell, false) {
        return Err(number);
    }
    let faces = cell.faces();
    if !has_every_side_twice(&faces) || faces.iter().any(|face| holds_a_vertex_twice(face)) {
        return Err(11);
    }
    let choice = by_visits(&faces);
    if faces.len() <= MOST_TRIED {
        assert_eq!(by_tries(&faces), choice, "the two ways differ on {cell:?}");
    }
    let choice = choice.ok_or(12)?;
    let turned = cell.clone().with_faces(|faces| {
        let pairs = faces.iter_mut().zip(&choice);
        pairs
            .filter(|(_, reversed)| **reversed)
            .for_each(|(face, _)| face.reverse());
    });
    assert!(is_closed(&turned), "this is not closed: {turned:?}");
    Ok(Turned {
        corners: turned.corners,
        reversals: choice.iter().filter(|&&reversed| reversed).count(),
    })
}

/// The sides of a face between vertices that differ, each from a corner to the next.
fn directed(face: &[u32]) -> impl Iterator<Item = (u32, u32)> {
    let next = face.iter().cycle().skip(1);
    let both = face.iter().zip(next).map(|(&from, &to)| (from, to));
    both.filter(|(from, to)| from != to)
}

fn undirected((from, to): (u32, u32)) -> Side {
    (from.min(to), from.max(to))
}

/// The sides of a face without their direction. A face of two corners has its side twice.
pub fn sides(face: &[u32]) -> impl Iterator<Item = Side> {
    directed(face).map(undirected)
}

/// How often each side occurs over all faces.
pub fn occurrences(faces: &[Vec<u32>]) -> BTreeMap<Side, usize> {
    let mut times = BTreeMap::new();
    for side in faces.iter().flat_map(|face| sides(face)) {
        *times.entry(side).or_default() += 1;
    }
    times
}

fn has_every_side_twice(faces: &[Vec<u32>]) -> bool {
    occurrences(faces).values().all(|&times| times == 2)
}

pub fn holds_a_vertex_twice(face: &[u32]) -> bool {
    let different: BTreeSet<&u32> = face.iter().collect();
    different.len() < face.len()
}

/// For each face the lowest-numbered face of its group: numbers go down over sides until none moves.
pub fn lowest_joined(faces: &[Vec<u32>]) -> Vec<usize> {
    let mut lowest: Vec<usize> = (0..faces.len()).collect();
    loop {
        let mut along: BTreeMap<Side, usize> = BTreeMap::new();
        for (face, &low) in faces.iter().zip(&lowest) {
            for side in sides(face) {
                let so_far = along.entry(side).or_insert(low);
                *so_far = low.min(*so_far);
            }
        }
        let before = lowest.clone();
        for (face, low) in faces.iter().zip(&mut lowest) {
            for side in sides(face) {
                *low = along[&side].min(*low);
            }
        }
        if lowest == before {
            return lowest;
        }
    }
}

/// Tries every choice. Of those that close the cell, one lets the lowest-numbered face of every group
/// keep its direction.
fn by_tries(faces: &[Vec<u32>]) -> Option<Vec<bool>> {
    let count = Count::new(faces);
    let choices = (0..1 << faces.len()).map(|number: usize| -> Vec<bool> {
        let places = 0..faces.len();
        places.map(|face| number >> face & 1 == 1).collect()
    });
    let closing: Vec<Vec<bool>> = choices.filter(|choice| count.closes(choice)).collect();
    if closing.is_empty() {
        return None;
    }
    let lowest = lowest_joined(faces);
    let keeps = |choice: &Vec<bool>| {
        let mut firsts = (0..faces.len()).filter(|&face| lowest[face] == face);
        firsts.all(|face| !choice[face])
    };
    let mut keeping: Vec<Vec<bool>> = closing.into_iter().filter(keeps).collect();
    assert_eq!(keeping.len(), 1, "not one choice: {faces:?}");
    keeping.pop()
}

/// The sides of each face by their place in a list of all, and whether they run from the lower vertex
/// to the higher.
struct Count {
    all: usize,
    faces: Vec<Vec<(usize, bool)>>,
}

impl Count {
    fn new(faces: &[Vec<u32>]) -> Count {
        let all: Vec<Side> = occurrences(faces).into_keys().collect();
        let place = |side| all.binary_search(&side).expect("every side is listed");
        let of_face = |face: &Vec<u32>| {
            let sides = directed(face).map(|(from, to)| (place(undirected((from, to))), from < to));
            sides.collect()
        };
        Count {
            faces: faces.iter().map(of_face).collect(),
            all: all.len(),
        }
    }

    /// Whether each side runs one way as often as the other once the chosen faces are reversed.
    fn closes(&self, choice: &[bool]) -> bool {
        let mut more_upward = vec![0; self.all];
        for (face, &reversed) in self.faces.iter().zip(choice) {
            for &(side, upward) in face {
                more_upward[side] += if upward != reversed { 1 } else { -1 };
            }
        }
        more_upward.iter().all(|&more| more == 0)
    }
}

/// Visits the faces of each group from its lowest-numbered one, over one side after another. Two faces
/// on one side must run against each other.
fn by_visits(faces: &[Vec<u32>]) -> Option<Vec<bool>> {
    let mut along: BTreeMap<Side, Vec<(usize, bool)>> = BTreeMap::new();
    for (number, face) in faces.iter().enumerate() {
        for (from, to) in directed(face) {
            let there = along.entry(undirected((from, to))).or_default();
            there.push((number, from < to));
        }
    }
    let mut choice: BTreeMap<usize, bool> = BTreeMap::new();
    for first in 0..faces.len() {
        if choice.contains_key(&first) {
            continue;
        }
        choice.insert(first, false);
        let mut waiting = VecDeque::from([first]);
        while let Some(face) = waiting.pop_front() {
            for (from, to) in directed(&faces[face]) {
                for &(other, upward) in &along[&undirected((from, to))] {
                    if other == face {
                        continue;
                    }
                    let reversed = choice[&face] != ((from < to) == upward);
                    match choice.insert(other, reversed) {
                        None => waiting.push_back(other),
                        Some(before) if before != reversed => return None,
                        Some(_) => {}
                    }
                }
            }
        }
    }
    Some(choice.into_values().collect())
}

#[cfg(test)]
mod tests {
    use super::*;
    use crate::cells::unit_cube;

    /// The corners left and the reversals, or the refusal, for faces over so many vertices.
    fn answer(vertices: usize, faces: &[&[u32]]) -> Result<(Vec<u32>, usize), u8> {
        let faces: Vec<Vec<u32>> = faces.iter().map(|face| face.to_vec()).collect();
        let cell = Cell::new(&vec![[0.0; 3]; vertices], &faces);
        turned(&cell).map(|turned| (turned.corners, turned.reversals))
    }

    #[test]
    fn a_pillow_has_its_second_face_turned() {
        let turned = Ok((vec![0, 1, 2, 2, 1, 0], 1));
        assert_eq!(answer(3, &[&[0, 1, 2], &[0, 1, 2]]), turned);
        let kept = Ok((vec![2, 1, 0, 1, 2, 0], 0));
        assert_eq!(answer(3, &[&[2, 1, 0], &[1, 2, 0]]), kept);
    }

    #[test]
    fn a_backward_face_of_a_cube_is_turned_and_the_first_keeps_its_direction() {
        let cube = unit_cube();
        for face in 0..6 {
            let copy = cube.clone().with_faces(|faces| faces[face].reverse());
            let turned = turned(&copy).unwrap();
            if face == 0 {
                let all = cube.clone().with_faces(|faces| {
                    faces.iter_mut().for_each(|face| face.reverse());
                });
                assert_eq!((turned.corners, turned.reversals), (all.corners, 5));
            } else {
                assert_eq!(
                    (turned.corners, turned.reversals),
                    (cube.corners.clone(), 1)
                );
            }
        }
    }

    #[test]
    fn thin_faces_keep_their_direction() {
        let faces: [&[u32]; 5] = [&[1, 0], &[], &[2], &[2], &[1, 2]];
        assert_eq!(answer(3, &faces), Ok((vec![1, 0, 2, 2, 1, 2], 0)));
        assert_eq!(answer(1, &[]), Ok((vec![], 0)));
    }

    #[test]
    fn conditions_that_fail_are_refused() {
        assert_eq!(answer(3, &[&[0, 1, 2]]), Err(11));
        assert_eq!(answer(2, &[&[0, 1], &[0, 1]]), Err(11));
        assert_eq!(answer(1, &[&[0, 0]]), Err(11));
        // Every side twice, but a vertex twice in a face.
        assert_eq!(answer(3, &[&[0, 1, 0, 2]]), Err(11));
        assert_eq!(answer(1, &[&[0, 1, 0]]), Err(4));
    }

    #[test]
    fn a_hemicube_cannot_be_closed() {
        let faces: [&[u32]; 3] = [&[0, 1, 2, 3], &[0, 1, 3, 2], &[0, 2, 1, 3]];
        assert_eq!(answer(4, &faces), Err(12));
    }
}
