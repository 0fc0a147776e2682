//! Random pairs of cells for the overlaps.

use std::collections::HashMap;
use std::f64::consts::TAU;

use crate::cells::{self, Cell};
use crate::random::Random;
use crate::retold::reach;
use crate::scale::{Scale, shrink};
use crate::shrink::Input;
use crate::vectors::{Vector, cross, difference, dot, scaled, sum, unit};

/// Two cells and how they were made.
pub struct Pair {
    pub kind: Kind,
    pub size: Size,
    pub cells: [Cell; 2],
}

impl Input for [Cell; 2] {
    fn print(&self) {
        self[0].print_as("first_");
        self[1].print_as("second_");
    }
}

/// How the two cells lie to each other.
#[derive(Clone, Copy, Debug)]
pub enum Kind {
    /// Boxes of whole or any sides, often with faces in one plane.
    Boxes,
    RotatedBoxes,
    /// Convex cells of many faces.
    Hulls,
    /// A cell and its mirror image over one of its faces.
    SharedFace,
    /// The same, or the cell and a copy, apart by about the tolerance of offsets.
    OffsetAtTolerance,
    /// The same, turned by about the tolerance of directions.
    TiltAtTolerance,
    /// A cell and a copy, apart by about the tolerance of distances.
    DistanceAtTolerance,
    /// A cell and itself, with its faces and corners in another order.
    Identical,
    FarApart,
    /// A convex cell and a partner as `cells` makes it.
    Partners,
    /// Any two cells, sound solids or not.
    Arbitrary,
}

const KINDS: [Kind; 11] = [
    Kind::Boxes,
    Kind::RotatedBoxes,
    Kind::Hulls,
    Kind::SharedFace,
    Kind::OffsetAtTolerance,
    Kind::TiltAtTolerance,
    Kind::DistanceAtTolerance,
    Kind::Identical,
    Kind::FarApart,
    Kind::Partners,
    Kind::Arbitrary,
];

/// Where both lie together, and how large they are.
#[derive(Clone, Copy, Debug)]
pub enum Size {
    Scaled(Scale),
    /// So small that products vanish.
    Shrunk,
}

pub fn any(random: &mut Random) -> Pair {
    let kind = random.pick(&KINDS);
    let size = match random.below(8) {
        0 => Size::Shrunk,
        _ => Size::Scaled(Scale::any(random)),
    };
    Pair {
        kind,
        size,
        cells: size.apply(kind.cells(random), random),
    }
}

impl Size {
    fn apply(self, cells: [Cell; 2], random: &mut Random) -> [Cell; 2] {
        let mut points = [cells[0].points(), cells[1].points()].concat();
        match self {
            Size::Scaled(scale) => scale.apply(&mut points, random),
            Size::Shrunk => shrink(&mut points, random),
        }
        let numbers = points.as_flattened();
        let [mut first, mut second] = cells;
        let (own, others) = numbers.split_at(first.coords.len());
        first.coords = own.to_vec();
        second.coords = others.to_vec();
        [first, second]
    }
}

impl Kind {
    fn cells(self, random: &mut Random) -> [Cell; 2] {
        match self {
            Kind::Boxes => {
                let way = [(); 3].map(|()| random.pick(&[0.0, 1.0, -1.0, 2.0, 0.5]));
                [cells::any_box(random), cells::any_box(random).moved(way)]
            }
            Kind::RotatedBoxes => {
                let first = any_rotated_box(random);
                let way = scaled(cells::any_point(random), 1.5);
                [first, any_rotated_box(random).moved(way)]
            }
            Kind::Hulls => {
                let way = scaled(cells::any_point(random), 1.5);
                [any_hull(random), any_hull(random).moved(way)]
            }
            Kind::SharedFace => beside_a_face(any_solid(random), random).cells,
            Kind::OffsetAtTolerance => offset_at_tolerance(random),
            Kind::TiltAtTolerance => tilt_at_tolerance(random),
            Kind::DistanceAtTolerance => distance_at_tolerance(random),
            Kind::Identical => {
                let cell = any_solid(random);
                [cell.clone(), reordered(cell, random)]
            }
            Kind::FarApart => {
                let way = [(); 3].map(|()| random.pick(&[0.0, 1.9, -2.5, 7.0]));
                [any_solid(random), any_solid(random).moved(way)]
            }
            Kind::Partners => {
                let cell = cells::any_convex(random).cell;
                let partner = cells::partner(&cell, random);
                [cell, partner]
            }
            Kind::Arbitrary => any_two(random),
        }
    }
}

fn any_rotated_box(random: &mut Random) -> Cell {
    let cell = cells::any_box(random);
    cells::rotated(cell, random)
}

/// Any two cells, the second mostly brought to where the first is.
fn any_two(random: &mut Random) -> [Cell; 2] {
    let [first, second] = [(); 2].map(|()| cells::any(random).cell);
    if random.once_in(4) {
        return [first, second];
    }
    let bounds = first.bounds();
    [first, cells::fitted(second, bounds)]
}

fn any_solid(random: &mut Random) -> Cell {
    match random.below(4) {
        0 => cells::any_box(random),
        1 => any_rotated_box(random),
        2 => cells::any_wedge(random),
        _ => any_hull(random),
    }
}

/// The same cell with its faces in another order, each from another corner on.
fn reordered(cell: Cell, random: &mut Random) -> Cell {
    cell.with_faces(|faces| {
        random.shuffle(faces);
        for face in faces {
            let first = random.below(face.len());
            face.rotate_left(first);
        }
    })
}

// Hulls.

/// A convex cell with the origin inside: the hull of points on a sphere, whose faces are triangles,
/// or what planes that touch a sphere cut out, whose faces have more corners.
fn any_hull(random: &mut Random) -> Cell {
    let points: Vec<Vector> = (0..random.between(4, 18))
        .map(|_| unit(cells::any_point(random)))
        .collect();
    let hull = hull(&points);
    if random.once_in(2) {
        return hull;
    }
    polar(&hull).unwrap_or(hull)
}

/// The hull of points on a sphere: a face for every three of them that have all others behind them.
fn hull(points: &[Vector]) -> Cell {
    let mut faces = Vec::new();
    let count = points.len();
    for a in 0..count {
        for b in a + 1..count {
            for c in b + 1..count {
                let heights = (0..count)
                    .filter(|place| ![a, b, c].contains(place))
                    .map(|place| [a, b, c, place].map(|corner| points[corner]))
                    .map(|corners| oracle::plain::tet_volume(&corners));
                let [a, b, c] = [a, b, c].map(|corner| corner as u32);
                if heights.clone().all(|height| height < 0.0) {
                    faces.push(vec![a, b, c]);
                } else if heights.clone().all(|height| height > 0.0) {
                    faces.push(vec![a, c, b]);
                }
            }
        }
    }
    Cell::new(points, &faces)
}

/// The cell that the planes through the hull's vertices, across their ways from the origin, cut out.
/// Each of its vertices belongs to a face of the hull and each of its faces to a vertex. `None` where
/// the origin is not well inside the hull.
fn polar(hull: &Cell) -> Option<Cell> {
    let planes = oracle::ruled::planes(hull.for_the_rust());
    if planes.iter().any(|plane| plane[3] < 0.1) {
        return None;
    }
    let poles: Vec<Vector> = planes
        .iter()
        .map(|&[x, y, z, offset]| [x / offset, y / offset, z / offset])
        .collect();
    let faces: Option<Vec<Vec<u32>>> = (0..hull.points().len() as u32)
        .map(|vertex| faces_around(hull, vertex))
        .collect();
    Some(Cell::new(&poles, &faces?))
}

/// The numbers of the triangles around a vertex, counter-clockwise, or `None` where they do not
/// close to a ring.
fn faces_around(hull: &Cell, vertex: u32) -> Option<Vec<u32>> {
    let mut after: HashMap<u32, (u32, u32)> = HashMap::new();
    for (number, face) in hull.faces().iter().enumerate() {
        if let Some(place) = face.iter().position(|&corner| corner == vertex) {
            let (from, to) = (face[(place + 1) % 3], face[(place + 2) % 3]);
            after.insert(from, (to, number as u32));
        }
    }
    let mut ring = Vec::new();
    let mut at = *after.keys().min()?;
    for _ in 0..after.len() {
        let (to, number) = *after.get(&at)?;
        ring.push(number);
        at = to;
    }
    Some(ring)
}

// Pairs beside a face.

/// Two cells that meet in the plane of a face of the first, from both sides or from the same one.
struct Beside {
    cells: [Cell; 2],
    /// A point of that face, and the way out of it.
    place: Vector,
    out: Vector,
}

/// A cell and its mirror image over one of its faces.
fn beside_a_face(cell: Cell, random: &mut Random) -> Beside {
    let faces = cell.faces();
    let face = &faces[random.below(faces.len())];
    let [x, y, z, offset] = cell.plane(face);
    let out = [x, y, z];
    let image = |point: Vector| {
        let height = dot(out, point) - offset;
        sum(point, scaled(out, -2.0 * height))
    };
    let mut mirrored = cell.clone().with_points(image).with_faces(|faces| {
        for face in faces {
            face.reverse();
        }
    });
    // The corners of the face itself stay, to the last place.
    for &corner in face {
        mirrored.points_mut()[corner as usize] = cell.points()[corner as usize];
    }
    Beside {
        place: cell.points()[face[0] as usize],
        cells: [cell, mirrored],
        out,
    }
}

/// The same, or the cell and a copy of itself.
fn beside_or_on_a_face(cell: Cell, random: &mut Random) -> Beside {
    let mut beside = beside_a_face(cell, random);
    if random.once_in(2) {
        beside.cells[1] = beside.cells[0].clone();
    }
    beside
}

/// A little more or less than a tolerance, or that itself.
fn about(tolerance: f64, step: f64, random: &mut Random) -> f64 {
    let steps = random.pick(&[0.0, 0.0, 0.0, 1.0, -1.0, 2.0, -2.0, 4.0, -4.0]);
    tolerance * (1.0 + step * steps)
}

/// The tolerance of offsets goes with the cells' reach, which goes with how far they are moved: some
/// rounds find the way at which the two are equal. A box that starts at the origin has faces with
/// the offset 0, beside which the way of the other cell is its offset, to the last place.
fn offset_at_tolerance(random: &mut Random) -> [Cell; 2] {
    let cell = match random.below(2) {
        0 => cells::any_box(random),
        _ => any_solid(random),
    };
    let Beside { cells, out, .. } = beside_or_on_a_face(cell, random);
    let [first, second] = cells;
    let sign = random.pick(&[1.0, -1.0]);
    let moved = |far: f64| second.clone().moved(scaled(out, sign * far));
    let mut far = 0.0;
    for _ in 0..8 {
        far = 1e-4 * reach(&first, &moved(far));
    }
    let step = random.pick(&[f64::EPSILON, 1e-13, 1e-3]);
    let second = moved(about(far, step, random));
    [first, second]
}

/// The tolerance of directions is 1e-10 of a cosine, so a turn by the root of twice that.
fn tilt_at_tolerance(random: &mut Random) -> [Cell; 2] {
    let Beside { cells, place, out } = beside_or_on_a_face(any_solid(random), random);
    let [first, second] = cells;
    let axis = unit(cross(out, cells::any_point(random)));
    let step = random.pick(&[1e-7, 1e-6, 1e-2]);
    let angle = about(2e-10_f64.sqrt(), step, random);
    let (sin, cos) = random.pick(&[angle, -angle, angle + TAU / 4.0]).sin_cos();
    let turned = |point: Vector| {
        let from = difference(point, place);
        let along = scaled(axis, (1.0 - cos) * dot(axis, from));
        let across = sum(scaled(from, cos), scaled(cross(axis, from), sin));
        sum(place, sum(across, along))
    };
    let second = second.with_points(turned);
    [first, second]
}

/// The tolerance of distances in a cut goes with the first cell's scale.
fn distance_at_tolerance(random: &mut Random) -> [Cell; 2] {
    let cell = any_solid(random);
    let eps = 64.0 * f64::EPSILON * oracle::ruled::scale(cell.for_the_rust());
    let mut way = [0.0; 3];
    way[random.below(3)] = random.pick(&[1.0, -1.0]) * about(eps, 0.02, random);
    let other = cell.clone().moved(way);
    if random.once_in(2) {
        return [cell, other];
    }
    // Turned so far that no two planes coincide and only points tie.
    let other = cells::rotated(other, random);
    [cell, other]
}

#[cfg(test)]
mod tests {
    use super::*;
    use crate::check_cells::tests::assert_convex;
    use crate::compare_cells::is_closed;
    use crate::refusals;

    #[test]
    fn hulls_are_closed_and_convex_and_look_outward() {
        let mut random = Random::new(5);
        for _ in 0..500 {
            let hull = any_hull(&mut random);
            assert!(is_closed(&hull));
            assert_convex(&hull);
        }
    }

    /// All pairs pass the checks but for faces of no corner, which any cell may have.
    #[test]
    fn pairs_are_sound() {
        let mut random = Random::new(6);
        for _ in 0..5000 {
            for cell in any(&mut random).cells {
                assert_eq!(refusals::of_cell(&cell, false), None);
            }
        }
    }

    /// How far the parallel planes of two cells are from the tolerance that a pair was made for, as a
    /// share of it: above 0 where they are beyond it.
    fn beyond_tolerance(kind: Kind, [first, second]: &[Cell; 2]) -> Vec<f64> {
        let tolerance = 1e-4 * reach(first, second);
        let planes = oracle::ruled::planes(first.for_the_rust());
        let others = oracle::ruled::planes(second.for_the_rust());
        let beyond = |a: &[f64; 4], b: &[f64; 4]| {
            let cosine = dot([a[0], a[1], a[2]], [b[0], b[1], b[2]]);
            match kind {
                Kind::TiltAtTolerance => (1.0 - cosine.abs()) / 1e-10 - 1.0,
                _ => (a[3] - cosine.signum() * b[3]).abs() / tolerance - 1.0,
            }
        };
        let pairs = planes
            .iter()
            .flat_map(|a| others.iter().map(move |b| (a, b)));
        pairs.map(|(a, b)| beyond(a, b)).collect()
    }

    #[test]
    fn pairs_at_a_tolerance_fall_on_both_sides_of_it() {
        let mut random = Random::new(7);
        for kind in [Kind::OffsetAtTolerance, Kind::TiltAtTolerance] {
            let all = (0..400).flat_map(|_| beyond_tolerance(kind, &kind.cells(&mut random)));
            let close: Vec<f64> = all.filter(|beyond| beyond.abs() < 1e-5).collect();
            let outside = close.iter().filter(|&&beyond| beyond > 0.0).count();
            assert!(outside > 50 && close.len() - outside > 50, "{kind:?}");
        }
    }
}
