//! `compare turning`: convexity, faces turned outward, the planes of faces and which faces have no
//! area, by the port and by the Rust.

use oracle::{Shape, plain as rust};

use crate::calls::{Calls, Expected, departure, unless_refused};
use crate::cells::{self, Cell};
use crate::comparison::{Compared, ask};
use crate::random::Random;
use crate::scale::shrink;
use crate::{ours, refusals};

const PLANE: &str = "plane_of_face";

/// Asks about random cells, sound and damaged, and about shrunk copies.
pub fn compare(calls: &mut Calls, count: u64, seed: u64) -> Compared {
    cells::compare_many(calls, count, seed, |calls, cell, random| {
        ask(calls, cell, random, compare_cell)?;
        if random.once_in(8) {
            let mut small = cell.clone();
            shrink(small.points_mut(), random);
            ask(calls, &small, random, compare_cell)?;
        }
        Ok(())
    })
}

pub fn compare_cell(calls: &mut Calls, cell: &Cell, random: &mut Random) {
    for number in [0, 1, random.between(2, 255) as u8] {
        description(calls, cell, number, random);
        convexity(calls, cell, number, random);
    }
    outward(calls, cell);
    planes(calls, cell, random);
    // The lengths of its lists come from a copy of the generator, so that later inputs stay what they were.
    no_area(calls, cell, &mut random.clone());
}

/// What is known of the cell's shape by a number: 0, 1, or any other.
fn shape_of(number: u8) -> Shape {
    match number {
        0 => Shape::Convex,
        1 => Shape::Concave,
        _ => Shape::Unknown,
    }
}

fn description(calls: &mut Calls, cell: &Cell, number: u8, random: &mut Random) {
    let expected = unless_refused(refusals::of_cell(cell, false), || {
        let counts = [cell.points().len(), cell.corners.len(), cell.ends.len()];
        let shape = match shape_of(number) {
            Shape::Convex => 0,
            Shape::Concave => 1,
            Shape::Unknown => 2,
        };
        [&counts[..], &[shape]].concat()
    });
    calls.asked("describe", 4, expected, random, |out| {
        ours::describe(cell, number, out)
    });
}

fn convexity(calls: &mut Calls, cell: &Cell, number: u8, random: &mut Random) {
    let expected = unless_refused(refusals::of_cell(cell, false), || {
        let shape = shape_of(number);
        let convex = rust::is_convex(cell.for_the_rust(), shape);
        if shape == Shape::Unknown {
            calls.count("found convex", convex);
        }
        vec![usize::from(convex)]
    });
    calls.asked("is_convex", 1, expected, random, |out| {
        ours::is_convex(cell, number, out)
    });
}

fn outward(calls: &mut Calls, cell: &Cell) {
    let refusal = refusals::of_cell(cell, true);
    let wanted = match refusal {
        None => rust::into_ccw(cell.for_the_rust()),
        Some(_) => cell.corners.clone(),
    };
    if refusal.is_none() {
        calls.count("faces turned", wanted != cell.corners);
    }
    let mut corners = cell.corners.clone();
    let answer = ours::into_ccw(&cell.coords, &mut corners, &cell.ends);
    let departure = departure("corners", &corners, &wanted);
    let lent = [corners.len()];
    calls.held("into_ccw", &lent, answer, refusal.unwrap_or(0), departure);
}

/// The planes of the first, the last and a random face, and of one that is not there.
fn planes(calls: &mut Calls, cell: &Cell, random: &mut Random) {
    let faces = cell.ends.len() as u32;
    let any = random.below(faces.max(1) as usize) as u32;
    let beyond = random.pick(&[faces, faces + 1, u32::MAX]);
    for face in [0, any, faces.saturating_sub(1), beyond] {
        plane(calls, cell, face, random);
    }
}

/// The plane of one face.
pub fn plane(calls: &mut Calls, cell: &Cell, face: u32, random: &mut Random) {
    plane_by(calls, cell, face, random, |out, area| {
        ours::plane_of_face(cell, face, out, area)
    });
}

/// Holds a call to what the plane of a face must be.
pub fn plane_by(
    calls: &mut Calls,
    cell: &Cell,
    face: u32,
    random: &mut Random,
    call: impl FnMut(&mut [f64], &mut [usize]) -> u8,
) {
    let expected = told_plane(calls, cell, face);
    let parts = expected.as_ref().map_or(4, |(parts, _)| parts.len());
    calls.asked_for_two(PLANE, [parts, 1], expected, random, call);
}

/// The same with every length of both lists up to one place to spare.
pub fn plane_in_every_length(calls: &mut Calls, cell: &Cell, face: u32) {
    let told = told_plane(calls, cell, face);
    let lengths = (0..=5).flat_map(|parts| [0, 1, 2].map(|area| [parts, area]));
    for places in lengths {
        let fits = |(parts, area): &Told| parts.len() <= places[0] && area.len() <= places[1];
        let expected = told
            .clone()
            .and_then(|told| if fits(&told) { Ok(told) } else { Err(6) });
        calls.lent_two(PLANE, places, &expected, &mut |out, area| {
            ours::plane_of_face(cell, face, out, area)
        });
    }
}

/// What a plane is told as: its four parts and 1, or no part and 0 where the face has no area.
type Told = (Vec<f64>, Vec<usize>);

/// What the plane of a face must be. Where the face has no area the Rust has a plane of nothing but NaN,
/// which is read so.
fn told_plane(calls: &mut Calls, cell: &Cell, face: u32) -> Result<Told, u8> {
    let refusal = refusals::of_face(cell, face).or_else(|| refusals::of_cell(cell, true));
    unless_refused(refusal, || {
        let corners = cell.face(face);
        let plane = cell.plane(corners);
        if cell.has_no_area(corners) {
            let all_nan = plane.iter().all(|part| part.is_nan());
            calls.expect(all_nan, PLANE, "has a number in the Rust, and no area");
            calls.count("planes", Parts::NoArea);
            return (Vec::new(), vec![0]);
        }
        calls.count("planes", Parts::of(plane));
        (plane.to_vec(), vec![1])
    })
}

/// Which faces have no area.
pub fn no_area(calls: &mut Calls, cell: &Cell, random: &mut Random) {
    let expected = told_no_area(cell);
    calls.asked("no_area_faces", cell.ends.len(), expected, random, |out| {
        ours::no_area_faces(cell, out)
    });
}

/// The flags of all faces, or the refusal.
pub fn told_no_area(cell: &Cell) -> Expected<usize> {
    let faces = 0..cell.ends.len() as u32;
    let flag = |face: u32| usize::from(cell.has_no_area(cell.face(face)));
    unless_refused(refusals::of_cell(cell, true), || faces.map(flag).collect())
}

/// What the parts of a plane are, for the counts.
#[derive(Debug)]
enum Parts {
    NoArea,
    Finite,
    SomeInfinite,
    SomeNan,
}

impl Parts {
    fn of(plane: [f64; 4]) -> Parts {
        if plane.iter().any(|part| part.is_nan()) {
            Parts::SomeNan
        } else if plane.iter().any(|part| part.is_infinite()) {
            Parts::SomeInfinite
        } else {
            Parts::Finite
        }
    }
}

#[cfg(test)]
mod tests {
    use super::*;
    use crate::comparison::tests::smallest_of;

    /// A turning that does nothing.
    #[test]
    fn a_turning_that_does_nothing_shrinks_to_one_face() {
        let any = |random: &mut Random| cells::any(random).cell;
        let small = smallest_of(any, |calls, cell, _| {
            if refusals::of_cell(cell, true).is_none() {
                let wanted = rust::into_ccw(cell.for_the_rust());
                calls.gave("into_ccw", cell.corners != wanted, false);
            }
        });
        assert_eq!((small.corners.len(), small.ends.len()), (3, 1));
    }

    #[test]
    fn a_shape_that_is_not_heeded_is_found() {
        let any = |random: &mut Random| cells::any(random).cell;
        let small = smallest_of(any, |calls, cell, random| {
            let expected = unless_refused(refusals::of_cell(cell, false), || vec![1]);
            calls.asked("is_convex", 1, expected, random, |out| {
                ours::is_convex(cell, 2, out)
            });
        });
        assert!(!rust::compute_convexity(small.for_the_rust()));
        assert_eq!(small.ends.len(), 1);
    }
}
