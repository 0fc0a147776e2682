//! Random faces: an outline in the plane, placed in space, scaled, and numbered.

use std::f64::consts::TAU;

use crate::cells::Cell;
use crate::limits::{LARGEST, MOST_CORNERS, clamped};
use crate::random::Random;
use crate::refusals::is_bad_number;
use crate::scale::Scale;

/// A random face, as the only one of a cell, and how it was made.
pub struct Made {
    pub cell: Cell,
    pub outline: Outline,
    pub placement: Placement,
    pub scale: Scale,
    pub numbering: Numbering,
}

/// The shape of the face in its own plane.
#[derive(Clone, Copy, Debug)]
pub enum Outline {
    Regular,
    Convex,
    Star,
    Comb,
    Spiral,
    /// Any points in any order.
    Crossing,
    /// The regular star polygons, which cross themselves evenly.
    Pentagram,
    /// All points on one line.
    Collinear,
    /// All points on one line but for one.
    NearlyCollinear,
    /// Whole numbers from -3 to 3.
    SmallWhole,
    /// Sixteenths and smaller parts, whose products are exact.
    Dyadic,
    /// Nothing but 0, -0, 1 and -1.
    SignedZeros,
    /// Small multiples of the least positive number.
    Subnormal,
    /// Every exponent from the least to the limit.
    AllExponents,
}

const OUTLINES: [Outline; 14] = [
    Outline::Regular,
    Outline::Convex,
    Outline::Star,
    Outline::Comb,
    Outline::Spiral,
    Outline::Crossing,
    Outline::Pentagram,
    Outline::Collinear,
    Outline::NearlyCollinear,
    Outline::SmallWhole,
    Outline::Dyadic,
    Outline::SignedZeros,
    Outline::Subnormal,
    Outline::AllExponents,
];

/// How the plane of the face lies in space.
#[derive(Clone, Copy, Debug)]
pub enum Placement {
    /// One axis, named by its number, stands still.
    FlatX,
    FlatY,
    FlatZ,
    Tilted,
    /// Not quite in one plane, or not at all.
    Warped,
}

const PLACEMENTS: [Placement; 5] = [
    Placement::FlatX,
    Placement::FlatY,
    Placement::FlatZ,
    Placement::Tilted,
    Placement::Warped,
];

/// How the corners name the vertices.
#[derive(Clone, Copy, Debug)]
pub enum Numbering {
    /// Each corner has its own vertex, in any order, with some vertices unused.
    Own,
    /// Some corners name a vertex that an earlier corner has named.
    RepeatedCorners,
    /// Some vertices lie where an earlier one lies.
    RepeatedPoints,
    /// The corners run around the same vertices more than once.
    Wound,
}

const NUMBERINGS: [Numbering; 6] = [
    Numbering::Own,
    Numbering::Own,
    Numbering::Own,
    Numbering::RepeatedCorners,
    Numbering::RepeatedPoints,
    Numbering::Wound,
];

/// A random face over at most `most_vertices` vertices.
pub fn any(random: &mut Random, most_vertices: usize) -> Made {
    let corner_count = any_count(random);
    let outline = random.pick(&OUTLINES);
    let placement = random.pick(&PLACEMENTS);
    let scale = Scale::any(random);
    let numbering = random.pick(&NUMBERINGS);

    let ring = numbering.ring(corner_count, most_vertices, random);
    let point_count = ring.iter().max().map_or(0, |most| most + 1);
    let mut flat = outline.points(point_count, random);
    if random.once_in(2) {
        flat.reverse();
    }
    let mut points = placement.points(&flat, random);
    scale.apply(&mut points, random);
    if let Numbering::RepeatedPoints = numbering {
        repeat_points(&mut points, random);
    }
    assert!(points.iter().flatten().all(|&value| !is_bad_number(value)));
    let spare = random.below(4).min(most_vertices - point_count);
    Made {
        cell: numbered(&points, &ring, spare, random),
        outline,
        placement,
        scale,
        numbering,
    }
}

/// A cell of no vertex is refused, so a face without one is drawn again.
pub fn any_with_a_vertex(random: &mut Random, most_vertices: usize) -> Made {
    loop {
        let made = any(random, most_vertices);
        if !made.cell.coords.is_empty() {
            return made;
        }
    }
}

/// The points of a random outline in the plane.
pub fn any_outline(count: usize, random: &mut Random) -> Vec<[f64; 2]> {
    random.pick(&OUTLINES).points(count, random)
}

/// A number of corners: mostly small, for the cost of a cut may grow with its cube.
fn any_count(random: &mut Random) -> usize {
    match random.below(20_000) {
        0 if random.once_in(4) => MOST_CORNERS,
        0 => random.between(1000, MOST_CORNERS),
        1..=4 => random.between(257, 999),
        5..=200 => random.between(65, 256),
        201..=3000 => random.between(17, 64),
        3001..=3600 => random.below(3),
        _ => random.between(3, 16),
    }
}

impl Numbering {
    /// For each corner, which point of the outline it names.
    fn ring(self, corners: usize, most_vertices: usize, random: &mut Random) -> Vec<usize> {
        let own: Vec<usize> = (0..corners).map(|place| place % most_vertices).collect();
        match self {
            Numbering::Own | Numbering::RepeatedPoints => own,
            Numbering::RepeatedCorners => repeated(own, random),
            Numbering::Wound => {
                let around = random.between(1, corners.max(1)).min(most_vertices);
                (0..corners).map(|place| place % around).collect()
            }
        }
    }
}

/// Lets some places repeat an earlier one, mostly the one just before.
fn repeated(mut ring: Vec<usize>, random: &mut Random) -> Vec<usize> {
    for place in 1..ring.len() {
        if random.once_in(4) {
            let earlier = if random.once_in(2) {
                place - 1
            } else {
                random.below(place)
            };
            ring[place] = ring[earlier];
        }
    }
    ring
}

/// Moves some points onto earlier ones, now and then with the other zero.
fn repeat_points(points: &mut [[f64; 3]], random: &mut Random) {
    for place in 1..points.len() {
        if random.once_in(4) {
            points[place] = points[random.below(place)];
            if random.once_in(4) {
                points[place] =
                    points[place].map(|value| if value == 0.0 { -value } else { value });
            }
        }
    }
}

/// Writes the points in a random order, with spare vertices among them, and the corners so.
fn numbered(points: &[[f64; 3]], ring: &[usize], spare: usize, random: &mut Random) -> Cell {
    let mut numbers: Vec<usize> = (0..points.len() + spare).collect();
    random.shuffle(&mut numbers);
    let mut coords = vec![0.0; 3 * numbers.len()];
    for (place, &number) in numbers.iter().enumerate() {
        let unused = [random.whole(9), random.whole(9), random.whole(9)];
        let point = points.get(place).copied().unwrap_or(unused);
        coords[3 * number..3 * number + 3].copy_from_slice(&point);
    }
    let corners: Vec<u32> = ring.iter().map(|&place| numbers[place] as u32).collect();
    Cell::of_one_face(&coords, &corners)
}

impl Outline {
    fn points(self, count: usize, random: &mut Random) -> Vec<[f64; 2]> {
        match self {
            Outline::Regular => regular(count),
            Outline::Convex => convex(count, random),
            Outline::Star => star(count, random),
            Outline::Comb => comb(count),
            Outline::Spiral => spiral(count),
            Outline::Crossing => any_points(count, || [random.signed(), random.signed()]),
            Outline::Pentagram => pentagram(count, random),
            Outline::Collinear => line(count, random),
            Outline::NearlyCollinear => nearly_line(count, random),
            Outline::SmallWhole => any_points(count, || [random.whole(3), random.whole(3)]),
            Outline::Dyadic => any_points(count, || [dyadic(random), dyadic(random)]),
            Outline::SignedZeros => {
                any_points(count, || [zero_or_one(random), zero_or_one(random)])
            }
            Outline::Subnormal => any_points(count, || [subnormal(random), subnormal(random)]),
            Outline::AllExponents => any_points(count, || [any_float(random), any_float(random)]),
        }
    }
}

fn any_points(count: usize, mut point: impl FnMut() -> [f64; 2]) -> Vec<[f64; 2]> {
    (0..count).map(|_| point()).collect()
}

/// The corners of a regular polygon, counter-clockwise.
pub fn regular(count: usize) -> Vec<[f64; 2]> {
    let angles: Vec<f64> = (0..count).map(|k| TAU * k as f64 / count as f64).collect();
    around(&angles, |_| 1.0)
}

/// Points on a circle, counter-clockwise.
pub fn convex(count: usize, random: &mut Random) -> Vec<[f64; 2]> {
    around(&any_angles(count, random), |_| 1.0)
}

/// Points around the origin at different distances: an outline that is mostly concave.
pub fn star(count: usize, random: &mut Random) -> Vec<[f64; 2]> {
    around(&any_angles(count, random), |_| 0.2 + 0.8 * random.unit())
}

/// Points around the origin at the given angles.
fn around(angles: &[f64], mut radius: impl FnMut(usize) -> f64) -> Vec<[f64; 2]> {
    let at = |(place, angle): (usize, &f64)| {
        let far = radius(place);
        [far * angle.cos(), far * angle.sin()]
    };
    angles.iter().enumerate().map(at).collect()
}

fn any_angles(count: usize, random: &mut Random) -> Vec<f64> {
    let mut angles: Vec<f64> = (0..count).map(|_| TAU * random.unit()).collect();
    angles.sort_by(f64::total_cmp);
    angles
}

/// A comb of square teeth: up, over, down, over, and back along its base.
pub fn comb(count: usize) -> Vec<[f64; 2]> {
    let teeth = count.saturating_sub(2);
    let mut points: Vec<[f64; 2]> = (0..teeth)
        .map(|k| {
            [
                (k / 2) as f64,
                if k % 4 == 1 || k % 4 == 2 { 5.0 } else { 1.0 },
            ]
        })
        .collect();
    points.push([teeth as f64 / 2.0, 0.0]);
    points.push([0.0, 0.0]);
    points.truncate(count);
    points.reverse();
    points
}

/// A band that winds inward and comes back beside itself.
fn spiral(count: usize) -> Vec<[f64; 2]> {
    let there = count / 2;
    let at = |step: usize, width: f64| {
        let turn = step as f64 * 0.7;
        let far = 1.0 + width + 0.2 * turn;
        [far * turn.cos(), far * turn.sin()]
    };
    let out = (0..there).map(|step| at(step, 0.3));
    let back = (0..count - there).rev().map(|step| at(step, 0.0));
    out.chain(back).collect()
}

fn pentagram(count: usize, random: &mut Random) -> Vec<[f64; 2]> {
    let corners = regular(count);
    let step = random.between(1, count.max(1));
    (0..count).map(|k| corners[k * step % count]).collect()
}

fn line(count: usize, random: &mut Random) -> Vec<[f64; 2]> {
    let way = random.pick(&[[1.0, 0.0], [0.0, 1.0], [1.0, 1.0], [3.0, -2.0], [0.1, 0.7]]);
    any_points(count, || {
        let far = random.whole(8);
        [far * way[0], far * way[1]]
    })
}

fn nearly_line(count: usize, random: &mut Random) -> Vec<[f64; 2]> {
    let mut points = line(count, random);
    if count > 0 {
        let off = random.below(count);
        points[off][0] += random.pick(&[1.0, -1.0, 1e-9, f64::EPSILON]);
    }
    points
}

fn dyadic(random: &mut Random) -> f64 {
    random.whole(64) / random.pick(&[1.0, 2.0, 16.0, 1024.0])
}

fn zero_or_one(random: &mut Random) -> f64 {
    random.pick(&[0.0, -0.0, 0.0, -0.0, 1.0, -1.0])
}

fn subnormal(random: &mut Random) -> f64 {
    let magnitude = f64::from_bits(random.below(60) as u64);
    random.pick(&[1.0, -1.0]) * magnitude
}

/// Any float of the domain: any bits, brought under the limit.
pub fn any_float(random: &mut Random) -> f64 {
    let value = f64::from_bits(random.bits());
    if value.abs() <= LARGEST {
        value
    } else {
        random.signed() * LARGEST
    }
}

impl Placement {
    fn points(self, flat: &[[f64; 2]], random: &mut Random) -> Vec<[f64; 3]> {
        match self {
            Placement::FlatX => across(flat, random, |still, [a, b]| [still, a, b]),
            Placement::FlatY => across(flat, random, |still, [a, b]| [a, still, b]),
            Placement::FlatZ => across(flat, random, |still, [a, b]| [a, b, still]),
            Placement::Tilted => tilted(flat, random),
            Placement::Warped => {
                let warp = random.pick(&[1.0, 1e-3, 1e-12]);
                let raised = |&[a, b]: &[f64; 2]| [a, b, warp * random.signed()];
                flat.iter().map(raised).collect()
            }
        }
    }
}

/// Puts the outline across one axis, at a place on that axis.
fn across(
    flat: &[[f64; 2]],
    random: &mut Random,
    put: impl Fn(f64, [f64; 2]) -> [f64; 3],
) -> Vec<[f64; 3]> {
    let still = random.pick(&[0.0, -0.0, 1.0, -2.5, 1e6, LARGEST, -LARGEST]);
    flat.iter().map(|&point| put(still, point)).collect()
}

/// Puts the outline along two ways in space: whole ones, which keep exact numbers exact, or any.
fn tilted(flat: &[[f64; 2]], random: &mut Random) -> Vec<[f64; 3]> {
    let whole = random.once_in(2);
    let mut way = || {
        [(); 3].map(|()| {
            if whole {
                random.whole(2)
            } else {
                random.signed()
            }
        })
    };
    let (u, v) = (way(), way());
    let place = |&[a, b]: &[f64; 2]| [0, 1, 2].map(|axis| clamped(a * u[axis] + b * v[axis]));
    flat.iter().map(place).collect()
}
