//! Random inputs of clipping in space: a face, planes and a tolerance.

use crate::calls::{pasteable, print_list};
use crate::cells::{self, Cell};
use crate::faces;
use crate::limits::{LARGEST, MOST_CORNERS, MOST_PLANES, MOST_VERTICES};
use crate::random::Random;
use crate::refusals::of_face;
use crate::shrink::{Input, Shrink, in_groups, turn_into, within};
use crate::vectors::{Vector, cross, difference, dot, scaled, sum, unit};

/// Most planes of a random case.
const PLANES: usize = 12;

/// A face of a cell, and what it is clipped by.
#[derive(Clone)]
pub struct Case {
    pub cell: Cell,
    pub face: u32,
    /// Four numbers a plane.
    pub planes: Vec<f64>,
    pub eps: f64,
}

impl Input for Case {
    fn print(&self) {
        self.cell.print();
        print_list("planes", "f64", &self.planes);
        let (face, eps) = (self.face, pasteable(&self.eps));
        println!("let (face, eps): (u32, f64) = ({face}, {eps});");
    }
}

impl Shrink for Case {
    fn shrink(&mut self, fails: &mut dyn FnMut(&Case) -> bool) {
        if self.cell.ends.len() > 1 && of_face(&self.cell, self.face).is_none() {
            turn_into(self, self.of_one_face(), fails);
        }
        within(self, |case| &mut case.planes, in_groups::<4>, fails);
        within(self, |case| &mut case.cell, Cell::shrink, fails);
        within(self, |case| &mut case.face, u32::shrink, fails);
        within(self, |case| &mut case.eps, f64::shrink, fails);
    }
}

impl Case {
    /// The same with no face but the one that is clipped.
    fn of_one_face(&self) -> Case {
        Case {
            cell: Cell::of_one_face(&self.cell.coords, self.cell.face(self.face)),
            face: 0,
            ..self.clone()
        }
    }
}

/// A face of a random cell, or a random face as the only one of a cell. A cell may have no face.
pub fn any(random: &mut Random) -> Case {
    let cell = match random.below(100) {
        0 => with_a_long_face(random),
        1..50 => cells::any(random).cell,
        _ => faces::any_with_a_vertex(random, MOST_VERTICES).cell,
    };
    let face = random.below(cell.ends.len().max(1));
    let outline = match cell.faces().get(face) {
        Some(corners) => cell.outline(corners),
        None => Vec::new(),
    };
    let planes = (0..random.below(PLANES + 1))
        .flat_map(|_| any_plane(&cell, &outline, random))
        .collect();
    Case {
        eps: any_tolerance(&outline, random),
        face: face as u32,
        planes,
        cell,
    }
}

/// A face that runs to and fro, of so many corners that the longest work list may be too short for
/// it or for what a plane leaves of it.
fn with_a_long_face(random: &mut Random) -> Cell {
    let coords = cells::any(random).cell.coords;
    let corners = random.between(600, MOST_CORNERS);
    let face = cells::any_face(corners, coords.len() / 3, random);
    Cell::of_one_face(&coords, &face)
}

/// A case with one or more things wrong: the cell, the face's number, or the list of planes.
pub fn damaged(mut case: Case, random: &mut Random) -> Case {
    if random.once_in(2) {
        case.cell = cells::any_damaged(&case.cell, random);
    }
    if random.once_in(3) {
        let faces = case.cell.ends.len() as u32;
        case.face = random.pick(&[faces, faces + 1, u32::MAX]);
    }
    if random.once_in(3) {
        let whole = 4 * random.pick(&[0, 1, MOST_PLANES, MOST_PLANES + 1]);
        case.planes.resize(whole + random.below(4), 0.5);
    }
    case
}

/// The same so small that the square of the tolerance within which points are doubled, 2^-46 of the
/// largest coordinate, lies about 1e-300. Down to there the port knows the root of a rounded square
/// without taking it.
pub fn shrunk_to_an_end(case: &Case, random: &mut Random) -> Case {
    let by = 0.5_f64.powi(random.between(448, 456) as i32);
    let mut case = case.clone();
    case.cell.coords.iter_mut().for_each(|x| *x *= by);
    let offsets = case.planes.iter_mut().skip(3).step_by(4);
    offsets.for_each(|offset| *offset *= by);
    case.eps *= by;
    case
}

/// A plane near an outline, mostly with the middle of the outline inside.
fn any_plane(cell: &Cell, outline: &[Vector], random: &mut Random) -> [f64; 4] {
    let points = if outline.is_empty() {
        cell.points()
    } else {
        outline
    };
    let plane = any_plane_at(cell, points, random);
    let [x, y, z, offset] = plane;
    let middle = oracle::plain::vertex_centroid3(points);
    let is_outside = dot([x, y, z], middle) > offset;
    if is_outside != random.once_in(12) {
        plane.map(|part| -part)
    } else {
        plane
    }
}

fn any_plane_at(cell: &Cell, points: &[Vector], random: &mut Random) -> [f64; 4] {
    let [a, b] = [(); 2].map(|()| random.pick(points));
    let any = unit(cells::any_point(random));
    match random.below(12) {
        0..=3 => through(any, between(a, b, random)),
        // Along two points.
        4 | 5 => through(unit(cross(difference(b, a), any)), a),
        // Across an axis, at a point.
        6 => through(any_axis(random), a),
        // Whole numbers, so that distances are exact and tie with the tolerance.
        7 => {
            let way = [(); 3].map(|()| random.whole(2));
            through(way, between(a, b, random).map(f64::round))
        }
        8 => plane_of_any_face(cell, random),
        9 => {
            let size = random.pick(&[1e-300, 1e-160, 1e-20, 1e20, 1e160, 1e300]);
            through(scaled(any, size), a)
        }
        10 => [(); 4].map(|()| random.pick(&ODD_PARTS)),
        _ => with_an_odd_part(through(any, a), random),
    }
}

/// Parts of planes that no face gives, or only one without area.
const ODD_PARTS: [f64; 14] = [
    f64::NAN,
    f64::INFINITY,
    f64::INFINITY,
    f64::NEG_INFINITY,
    f64::NEG_INFINITY,
    f64::MAX,
    f64::MIN,
    f64::MIN_POSITIVE,
    f64::EPSILON,
    0.0,
    -0.0,
    1.0,
    -1.0,
    0.5,
];

/// A fair plane with one odd part, or with any bits in it.
fn with_an_odd_part(mut plane: [f64; 4], random: &mut Random) -> [f64; 4] {
    plane[random.below(4)] = match random.below(3) {
        0 => f64::from_bits(random.bits()),
        _ => random.pick(&ODD_PARTS),
    };
    plane
}

fn through(way: Vector, place: Vector) -> [f64; 4] {
    [way[0], way[1], way[2], dot(way, place)]
}

/// A place on the line of two points, mostly between them.
fn between(a: Vector, b: Vector, random: &mut Random) -> Vector {
    let any = 1.2 * random.unit() - 0.1;
    let share = random.pick(&[0.5, any]);
    sum(a, scaled(difference(b, a), share))
}

fn any_axis(random: &mut Random) -> Vector {
    let mut way = [0.0; 3];
    way[random.below(3)] = 1.0;
    way
}

/// The plane of a face of the cell, as the Rust has it. Without area it has parts that are NaN.
fn plane_of_any_face(cell: &Cell, random: &mut Random) -> [f64; 4] {
    let faces = cell.faces();
    let place = random.below(faces.len().max(1));
    match faces.get(place).map(Vec::as_slice) {
        None | Some([]) => [f64::NAN; 4],
        Some(corners) => cell.plane(corners),
    }
}

/// A tolerance: none, small or large beside the outline, below 0, or no number.
fn any_tolerance(outline: &[Vector], random: &mut Random) -> f64 {
    let size = oracle::plain::bounds_iter3(outline)
        .as_flattened()
        .iter()
        .fold(0.0_f64, |most, value| most.max(value.abs()))
        .min(LARGEST);
    let small = 64.0 * f64::EPSILON * size;
    match random.below(12) {
        0..=3 => 0.0,
        4..=6 => small,
        7 => 0.1 * size * random.unit(),
        8 => random.pick(&[size, 1.0, 0.5]),
        9 => -random.pick(&[small, 0.1 * size, size, 0.0]),
        10 => random.pick(&[
            f64::NAN,
            f64::INFINITY,
            f64::NEG_INFINITY,
            f64::MIN_POSITIVE,
        ]),
        _ => f64::from_bits(random.bits()),
    }
}

#[cfg(test)]
mod tests {
    use super::*;
    use crate::refusals;

    /// Cases pass the checks, but for cells that have no face; damaged ones meet every refusal.
    #[test]
    fn cases_are_sound_and_damage_is_seen() {
        let mut random = Random::new(8);
        let mut met = [false; 6];
        for _ in 0..5000 {
            let case = any(&mut random);
            let sound = refusals::of_planes(&case.planes).or(refusals::of_cell(&case.cell, false));
            assert_eq!(sound, None);
            let case = damaged(case, &mut random);
            let refusal = refusals::of_planes(&case.planes)
                .or_else(|| refusals::of_face(&case.cell, case.face));
            met[usize::from(refusal.unwrap_or(0))] = true;
        }
        assert_eq!(met, [true, true, true, true, true, false]);
    }
}
