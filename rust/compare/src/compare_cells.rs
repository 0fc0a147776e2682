//! `compare cells`: random cells and damaged copies, by the port and by the Rust.
//!
//! Every entry is asked with a list that has places to spare and, now and then, with too few. The values
//! must be those of the Rust, bit for bit; every other place must be as it was.

use std::collections::HashMap;

use oracle::plain as rust;

use crate::calls::{Calls, print_list, unless_refused};
use crate::cells::{self, Cell};
use crate::comparison::{Compared, ask};
use crate::cut::{compare_face, triangles_by_the_rust};
use crate::limits::{BAD_NUMBERS, MOST_QUERIES};
use crate::lists::{self, Points};
use crate::marked::{self, Marked};
use crate::random::Random;
use crate::refusals::is_bad_number;
use crate::shrink::{Input, Shrink, within};
use crate::{ours, refusals};

/// Query points a cell, not counting one that is no point of the domain.
const QUERIES: usize = 4;

/// Asks every entry about random cells, sound and damaged.
pub fn compare(calls: &mut Calls, count: u64, seed: u64) -> Compared {
    cells::compare_many(calls, count, seed, |calls, cell, random| {
        let question = Question::any(cell, random);
        let marked = Marked::of_cell(cell, &question.queries, random);
        ask(calls, &question, random, compare_question)?;
        ask(calls, &marked, random, marked::compare)?;
        let points = Points(cell.coords.clone());
        ask(calls, &points, random, lists::compare_in_space)?;
        let points = Points(any_flat(&cell.coords, random));
        ask(calls, &points, random, lists::compare_in_the_plane)
    })
}

/// The same numbers as points of the plane, mostly without the odd one at the end.
fn any_flat(coords: &[f64], random: &mut Random) -> Vec<f64> {
    let even = coords.len() - coords.len() % 2;
    match random.below(8) {
        0 => coords.to_vec(),
        1 => {
            let around = coords.iter().cycle();
            around.take(random.between(1020, 1028)).copied().collect()
        }
        _ => coords[..even].to_vec(),
    }
}

/// A cell and the points that are asked about it.
#[derive(Clone)]
pub struct Question {
    pub cell: Cell,
    pub queries: Vec<[f64; 3]>,
}

impl Question {
    /// Some points near the cell or on it, and one with a bad number.
    fn any(cell: &Cell, random: &mut Random) -> Question {
        let sound = refusals::of_cell(cell, false).is_none();
        let mut queries: Vec<[f64; 3]> = (0..QUERIES)
            .map(|_| match sound {
                true => cells::any_query(cell, random),
                false => cells::any_point(random),
            })
            .collect();
        let mut bad = [0.0; 3];
        bad[random.below(3)] = random.pick(&BAD_NUMBERS);
        queries.push(bad);
        Question {
            cell: cell.clone(),
            queries,
        }
    }
}

impl Input for Question {
    fn print(&self) {
        self.cell.print();
        print_list("queries", "[f64; 3]", &self.queries);
    }
}

impl Shrink for Question {
    fn shrink(&mut self, fails: &mut dyn FnMut(&Question) -> bool) {
        within(self, |question| &mut question.queries, Vec::shrink, fails);
        within(self, |question| &mut question.cell, Cell::shrink, fails);
    }
}

/// Asks every entry that takes a whole cell and no shape.
pub fn compare_question(calls: &mut Calls, question: &Question, random: &mut Random) {
    let Question { cell, queries } = question;
    measures(calls, cell, &mut random.fork());
    containment(calls, cell, queries, &mut random.fork());
    surveys(calls, cell, queries, &mut random.fork());
    triangles(calls, cell, &mut random.fork());
}

fn measures(calls: &mut Calls, cell: &Cell, random: &mut Random) {
    let refusal = refusals::of_cell(cell, false);
    let by = |values: &dyn Fn(oracle::Cell) -> Vec<f64>| {
        unless_refused(refusal, || values(cell.for_the_rust()))
    };
    let volume = by(&|cell| vec![rust::volume(cell)]);
    calls.asked("volume", 1, volume, random, |out| ours::volume(cell, out));
    let centroid = by(&|cell| rust::centroid(cell).to_vec());
    calls.asked("centroid", 3, centroid, random, |out| {
        ours::centroid(cell, out)
    });
    let centroid = by(&|cell| rust::geometric_centroid(cell).to_vec());
    calls.asked("geometric_centroid", 3, centroid, random, |out| {
        ours::geometric_centroid(cell, out)
    });
    let bounds = by(&|cell| rust::bounds(cell).as_flattened().to_vec());
    calls.asked_for_bounds("bounds", 6, bounds, random, |out| ours::bounds(cell, out));
    let scale = by(&|cell| vec![rust::scale(cell)]);
    calls.asked("scale", 1, scale, random, |out| ours::scale(cell, out));
    let closed = unless_refused(refusal, || vec![usize::from(is_closed(cell))]);
    calls.asked("closed", 1, closed, random, |out| ours::closed(cell, out));
}

fn containment(calls: &mut Calls, cell: &Cell, queries: &[[f64; 3]], random: &mut Random) {
    for &query in queries {
        let expected = unless_refused(refusals::of_queries(cell, &query), || {
            vec![usize::from(rust::contains(cell.for_the_rust(), query))]
        });
        calls.asked("contains", 1, expected, random, |out| {
            ours::contains(cell, query, out)
        });
    }
}

/// Surveys with the good query points, with all, with one number too few, and now and then with as many
/// points as there may be, or one more.
fn surveys(calls: &mut Calls, cell: &Cell, queries: &[[f64; 3]], random: &mut Random) {
    let is_good = |query: &&[f64; 3]| !query.iter().any(|&value| is_bad_number(value));
    let good: Vec<[f64; 3]> = queries.iter().filter(is_good).copied().collect();
    survey(calls, cell, good.as_flattened(), random);
    let all = queries.as_flattened();
    survey(calls, cell, all, random);
    survey(calls, cell, &all[..all.len().saturating_sub(1)], random);
    if random.once_in(64) {
        let many = MOST_QUERIES + random.below(2);
        let many: Vec<[f64; 3]> = good.iter().cycle().take(many).copied().collect();
        survey(calls, cell, many.as_flattened(), random);
    }
}

fn survey(calls: &mut Calls, cell: &Cell, queries: &[f64], random: &mut Random) {
    let refusal = refusals::of_queries(cell, queries);
    let expected = unless_refused(refusal, || survey_by_the_rust(cell, queries));
    calls.asked_for_two("survey", [4, 1], expected, random, |counts, volume| {
        ours::survey(cell, queries, counts, volume)
    });
}

/// The triangles of every face, by vertex and by place, and of a face that is not there.
fn triangles(calls: &mut Calls, cell: &Cell, random: &mut Random) {
    let faces = cell.ends.len() as u32;
    let asked = match refusals::of_cell(cell, false) {
        None => faces,
        Some(_) => faces.min(1),
    };
    let beyond = [faces + random.below(3) as u32, u32::MAX];
    for face in (0..asked).chain(beyond) {
        compare_face(calls, cell, face, random);
    }
}

// What is expected.

/// Whether face sides i to j are as many as j to i, for all i and j that differ: by a plain count.
pub fn is_closed(cell: &Cell) -> bool {
    let mut sides: HashMap<(u32, u32), i32> = HashMap::new();
    for face in cell.faces() {
        for (place, &corner) in face.iter().enumerate() {
            let next = face[(place + 1) % face.len()];
            if corner != next {
                *sides.entry((corner, next)).or_default() += 1;
                *sides.entry((next, corner)).or_default() -= 1;
            }
        }
    }
    sides.values().all(|&more| more == 0)
}

/// Triangles, closed, short, contained; and the volume.
fn survey_by_the_rust(cell: &Cell, queries: &[f64]) -> (Vec<usize>, Vec<f64>) {
    let sound = cell.for_the_rust();
    let is_short =
        |face: &&Vec<u32>| triangles_by_the_rust(cell.points(), face).len() + 2 < face.len();
    let points = queries.as_chunks::<3>().0;
    let contained = points.iter().filter(|&&query| rust::contains(sound, query));
    let counts = vec![
        rust::face_triangles(sound).len(),
        usize::from(is_closed(cell)),
        cell.faces().iter().filter(is_short).count(),
        contained.count(),
    ];
    (counts, vec![rust::volume(sound)])
}

#[cfg(test)]
mod tests {
    use super::*;
    use crate::comparison::tests::smallest_of;

    fn any(random: &mut Random) -> Question {
        let cell = cells::any(random).cell;
        Question::any(&cell, random)
    }

    /// The slip 'faces under 3 corners counted as short'.
    fn survey_with_thin_faces(cell: &Cell, counts: &mut [usize], volume: &mut [f64]) -> u8 {
        let answer = ours::survey(cell, &[], counts, volume);
        if answer == 0 {
            counts[2] += cell.faces().iter().filter(|face| face.len() < 3).count();
        }
        answer
    }

    #[test]
    fn thin_faces_counted_as_short_shrink_to_an_empty_face() {
        let any = |random: &mut Random| cells::any(random).cell;
        let small = smallest_of(any, |calls, cell, random| {
            let refusal = refusals::of_cell(cell, false);
            let expected = unless_refused(refusal, || survey_by_the_rust(cell, &[]));
            calls.asked_for_two("survey", [4, 1], expected, random, |counts, volume| {
                survey_with_thin_faces(cell, counts, volume)
            });
        });
        assert_eq!((small.corners, small.ends), (vec![], vec![0]));
        assert_eq!(small.coords, [0.0; 3]);
    }

    /// A containment that looks at the first face only.
    #[test]
    fn a_containment_of_one_face_shrinks_to_two_faces() {
        let small = smallest_of(any, |calls, Question { cell, queries }, _| {
            for &query in queries {
                if refusals::of_queries(cell, &query).is_none() && !cell.ends.is_empty() {
                    let first = Cell::of_one_face(&cell.coords, &cell.faces()[0]);
                    let found = rust::contains(first.for_the_rust(), query);
                    let wanted = rust::contains(cell.for_the_rust(), query);
                    calls.gave("contains", found, wanted);
                }
            }
        });
        assert_eq!((small.cell.ends.len(), small.queries.len()), (2, 1));
        assert_eq!(small.cell.corners.len(), 3);
    }

    /// A list of ends that falls, taken for sound.
    #[test]
    fn damaged_ends_shrink_too() {
        let mut damaged = |random: &mut Random| loop {
            let copy = cells::any_damaged(&cells::any(random).cell, random);
            if refusals::of_cell(&copy, false) == Some(3) {
                return copy;
            }
        };
        let small = smallest_of(&mut damaged, |calls, cell: &Cell, _| {
            let refused = refusals::of_cell(cell, false) == Some(3);
            calls.gave("closed", refused && !cell.ends.is_sorted(), false);
        });
        assert_eq!((small.corners, small.ends), (vec![], vec![1, 0]));
    }
}
