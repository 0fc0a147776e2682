//! Cells with backward faces that are made small and plain.

use crate::cells::Cell;
use crate::refusals::has_bad_ends;
use crate::shrink::{Input, Shrink, turn_into, within};
use crate::turn_judge::{Side, lowest_joined, occurrences, sides};
use crate::turn_surfaces::{both_on, merged};

/// A cell that is asked about. It shrinks as a cell does, and also in ways that leave a closed surface
/// closed.
#[derive(Clone)]
pub struct Drawn(pub Cell);

impl Input for Drawn {
    fn print(&self) {
        self.0.print();
    }
}

impl Shrink for Drawn {
    fn shrink(&mut self, fails: &mut dyn FnMut(&Drawn) -> bool) {
        if !has_bad_ends(&self.0) {
            let ways = [only_a_pillow, only_two, without_group, contracted, joined];
            for fewer in ways {
                self.shrink_by_sides(fewer, fails);
            }
        }
        within(self, |drawn| &mut drawn.0, Cell::shrink, fails);
    }
}

/// Other faces, made at a side, where there is such a side.
type Fewer = fn(&[Vec<u32>], Side) -> Option<Vec<Vec<u32>>>;

impl Drawn {
    /// Tries other faces at each side where they have fewer corners.
    fn shrink_by_sides(&mut self, fewer: Fewer, fails: &mut dyn FnMut(&Drawn) -> bool) {
        for side in occurrences(&self.0.faces()).into_keys() {
            if let Some(fewer) = fewer(&self.0.faces(), side) {
                let smaller = self.0.clone().with_faces(|faces| *faces = fewer);
                if smaller.corners.len() < self.0.corners.len() {
                    turn_into(self, Drawn(smaller), fails);
                }
            }
        }
    }
}

/// Empties all faces but the two that have a side. The second becomes like the first.
fn only_a_pillow(faces: &[Vec<u32>], side: Side) -> Option<Vec<Vec<u32>>> {
    let [first, second] = both_on(faces, side)?;
    let mut fewer = vec![Vec::new(); faces.len()];
    fewer[first] = faces[first].clone();
    fewer[second] = faces[first].clone();
    Some(fewer)
}

/// Empties all faces but the two that have a side and the last of the others, which becomes the outline
/// of the two.
fn only_two(faces: &[Vec<u32>], side: Side) -> Option<Vec<Vec<u32>>> {
    let both = both_on(faces, side)?;
    let outline = merged(faces, side)?.swap_remove(both[0]);
    let mut others = (0..faces.len()).rev().filter(|face| !both.contains(face));
    let mut fewer = vec![Vec::new(); faces.len()];
    fewer[others.next()?] = outline;
    for face in both {
        fewer[face] = faces[face].clone();
    }
    Some(fewer)
}

/// Empties a group of faces.
fn without_group(faces: &[Vec<u32>], side: Side) -> Option<Vec<Vec<u32>>> {
    let on_side = |face: &Vec<u32>| sides(face).any(|other| other == side);
    let lowest = lowest_joined(faces);
    let group = lowest[faces.iter().position(on_side)?];
    let mut fewer = faces.to_vec();
    let of_group = fewer
        .iter_mut()
        .zip(lowest)
        .filter(|(_, low)| *low == group);
    of_group.for_each(|(face, _)| face.clear());
    Some(fewer)
}

/// Draws both ends of a side as one vertex, and empties faces that have under three corners then.
fn contracted(faces: &[Vec<u32>], (kept, dropped): Side) -> Option<Vec<Vec<u32>>> {
    let smaller = |face: &Vec<u32>| {
        let mut smaller = face.clone();
        for corner in smaller.iter_mut().filter(|corner| **corner == dropped) {
            *corner = kept;
        }
        smaller.dedup();
        if smaller.len() > 1 && smaller.first() == smaller.last() {
            smaller.pop();
        }
        if smaller.len() < face.len().min(3) {
            smaller.clear();
        }
        smaller
    };
    Some(faces.iter().map(smaller).collect())
}

/// Makes one face of the two that have a side, and empties the second.
fn joined(faces: &[Vec<u32>], side: Side) -> Option<Vec<Vec<u32>>> {
    let [_, second] = both_on(faces, side)?;
    let mut fewer = merged(faces, side)?;
    fewer.insert(second, Vec::new());
    Some(fewer)
}
