//! `compare shapes`: random tetrahedra, wedges and hexahedra, by the port and by the Rust.
//!
//! The entries take any bits, so half of the shapes are far from anything that could be built.

use oracle::plain as rust;

use crate::calls::{Calls, print_list, unless_refused};
use crate::cells;
use crate::comparison::{Compared, ask};
use crate::faces::any_float;
use crate::ours;
use crate::random::Random;
use crate::shrink::{Input, Shrink, in_groups, within};
use crate::vectors::{Vector, scaled, sum};

/// Query points a shape.
const QUERIES: usize = 3;

/// A fixed shape: its entries, and the faces on which queries are put.
pub struct Form {
    pub corners: usize,
    volume: &'static str,
    contains: &'static str,
    ours_volume: fn(&[f64], &mut [f64]) -> u8,
    ours_contains: fn(&[f64], Vector, &mut [usize]) -> u8,
    rust_volume: fn(&[Vector]) -> f64,
    rust_contains: fn(&[Vector], Vector) -> bool,
    /// A shape of this kind that is as it should be.
    pub solid: fn(&mut Random) -> Vec<Vector>,
    faces: &'static [&'static [usize]],
}

/// The points of a form as the array that the Rust takes.
fn all<const N: usize>(points: &[Vector]) -> &[Vector; N] {
    points
        .try_into()
        .expect("a form has its own number of points")
}

/// A form by the names of its entries, which are those of the Rust's functions.
macro_rules! form {
    ($corners:literal $volume:ident $contains:ident $solid:expr, $($face:expr),*) => {
        Form {
            corners: $corners,
            volume: stringify!($volume),
            contains: stringify!($contains),
            ours_volume: ours::$volume,
            ours_contains: ours::$contains,
            rust_volume: |points| rust::$volume(all(points)),
            rust_contains: |points, query| rust::$contains(query, all(points)),
            solid: $solid,
            faces: &[$(&$face),*],
        }
    };
}

pub const FORMS: [Form; 3] = [
    form!(
        4 tet_volume tet_contains any_tetrahedron,
        [0, 1, 3], [1, 2, 3], [2, 0, 3], [0, 2, 1]
    ),
    form!(
        6 wedge_volume wedge_contains any_wedge,
        [0, 2, 1], [3, 4, 5], [0, 1, 4, 3], [1, 2, 5, 4], [2, 0, 3, 5]
    ),
    form!(
        8 hex_volume hex_contains any_hexahedron,
        [0, 3, 2, 1], [4, 5, 6, 7], [0, 1, 5, 4], [2, 3, 7, 6], [1, 2, 6, 5], [3, 0, 4, 7]
    ),
];

fn any_tetrahedron(random: &mut Random) -> Vec<Vector> {
    (0..4).map(|_| cells::any_point(random)).collect()
}

fn any_wedge(random: &mut Random) -> Vec<Vector> {
    cells::any_wedge(random).points().to_vec()
}

fn any_hexahedron(random: &mut Random) -> Vec<Vector> {
    let mut cell = cells::any_box(random);
    if random.once_in(2) {
        cell = cells::rotated(cell, random);
    }
    cell.points().to_vec()
}

/// Asks about random shapes of each form.
pub fn compare(calls: &mut Calls, count: u64, seed: u64) -> Compared {
    let random = &mut Random::new(seed);
    for _ in 0..count {
        let kind = random.pick(&KINDS);
        calls.count("kind", kind);
        let form = &FORMS[random.below(FORMS.len())];
        let points = kind.points(form, random);
        let queries = (0..QUERIES).map(|_| any_query(form, &points, random));
        let queries = queries.collect();
        let numbers = any_numbers(&points, random);
        ask(calls, &Solid { numbers, queries }, random, of_form(form))?;
    }
    Ok(())
}

/// The numbers of a fixed shape's points, and the points that are asked about.
#[derive(Clone)]
pub struct Solid {
    pub numbers: Vec<f64>,
    pub queries: Vec<Vector>,
}

impl Input for Solid {
    fn print(&self) {
        print_list("points", "f64", &self.numbers);
        print_list("queries", "[f64; 3]", &self.queries);
    }
}

impl Shrink for Solid {
    fn shrink(&mut self, fails: &mut dyn FnMut(&Solid) -> bool) {
        within(self, |solid| &mut solid.queries, Vec::shrink, fails);
        within(self, |solid| &mut solid.numbers, in_groups::<3>, fails);
    }
}

/// How a shape is compared as one of a form.
pub fn of_form(form: &Form) -> impl Fn(&mut Calls, &Solid, &mut Random) {
    move |calls, Solid { numbers, queries }, random| {
        let refusal = (numbers.len() != 3 * form.corners).then_some(1);
        let points = numbers.as_chunks::<3>().0;
        let volume = unless_refused(refusal, || vec![(form.rust_volume)(points)]);
        calls.asked(form.volume, 1, volume, random, |out| {
            (form.ours_volume)(numbers, out)
        });
        for &query in queries {
            let contained = unless_refused(refusal, || {
                let is_in = (form.rust_contains)(points, query);
                calls.count("query points inside", is_in);
                vec![usize::from(is_in)]
            });
            calls.asked(form.contains, 1, contained, random, |out| {
                (form.ours_contains)(numbers, query, out)
            });
        }
    }
}

/// The points' numbers; now and then some are lost, or there are too many.
fn any_numbers(points: &[Vector], random: &mut Random) -> Vec<f64> {
    let mut numbers = points.as_flattened().to_vec();
    if random.once_in(32) {
        let whole = 3 * random.pick(&[0, 3, 4, 6, 8, 9]);
        let length = random.pick(&[whole, numbers.len() - 1, numbers.len() + 1]);
        numbers.resize(length, 0.5);
    }
    numbers
}

/// How a shape was made.
#[derive(Clone, Copy, Debug)]
enum Kind {
    Solid,
    /// A solid with its points moved a little.
    Warped,
    /// Small whole numbers, so that points often coincide.
    Whole,
    AnyPoints,
    /// All points in one plane.
    Flat,
    /// Points on top of each other.
    Collapsed,
    /// A solid that is so large or so small that products overflow or vanish.
    Stretched,
    /// A solid with one odd number.
    OneOdd,
    /// Every exponent from the least to the limit of the domain.
    AllExponents,
    AnyBits,
}

const KINDS: [Kind; 12] = [
    Kind::Solid,
    Kind::Solid,
    Kind::Solid,
    Kind::Warped,
    Kind::Whole,
    Kind::AnyPoints,
    Kind::Flat,
    Kind::Collapsed,
    Kind::Stretched,
    Kind::OneOdd,
    Kind::AllExponents,
    Kind::AnyBits,
];

/// Numbers that a solid has not.
const ODD: [f64; 9] = [
    f64::NAN,
    f64::INFINITY,
    f64::NEG_INFINITY,
    f64::MAX,
    f64::MIN,
    f64::MIN_POSITIVE,
    1e200,
    -1e160,
    -0.0,
];

impl Kind {
    fn points(self, form: &Form, random: &mut Random) -> Vec<Vector> {
        let mut points = (form.solid)(random);
        match self {
            Kind::Solid => {}
            Kind::Warped => {
                let far = random.pick(&[1e-15, 1e-9, 1e-4, 0.1]);
                each(&mut points, |value| value + far * random.signed());
            }
            Kind::Whole => each(&mut points, |_| random.whole(2)),
            Kind::AnyPoints => each(&mut points, |_| random.signed()),
            Kind::Flat => {
                let axis = random.below(3);
                points.iter_mut().for_each(|point| point[axis] = 0.25);
            }
            Kind::Collapsed => {
                let place = random.below(points.len());
                points[place] = random.pick(&points);
                points[random.below(form.corners)] = points[place];
            }
            Kind::Stretched => {
                let size = random.pick(&[1e300, 1e160, 1e100, 1e-100, 1e-160, 1e-300, 1e-320]);
                each(&mut points, |value| value * size);
            }
            Kind::OneOdd => points[random.below(form.corners)][random.below(3)] = random.pick(&ODD),
            Kind::AllExponents => each(&mut points, |_| any_float(random)),
            Kind::AnyBits => each(&mut points, |_| f64::from_bits(random.bits())),
        }
        points
    }
}

fn each(points: &mut [Vector], mut change: impl FnMut(f64) -> f64) {
    for value in points.as_flattened_mut() {
        *value = change(*value);
    }
}

/// A point in the shape, on it, level with it, or anywhere.
fn any_query(form: &Form, points: &[Vector], random: &mut Random) -> Vector {
    let vertex = random.pick(points);
    let within = any_mean(points, random);
    let face = random.pick(form.faces);
    let face: Vec<Vector> = face.iter().map(|&corner| points[corner]).collect();
    match random.below(10) {
        0 => vertex,
        // On an edge or across a face.
        1 => scaled(sum(face[0], face[1]), 0.5),
        2 => scaled(sum(face[0], face[2]), 0.5),
        3 => any_mean(&face, random),
        // Level with a vertex, so that the ray runs through it.
        4 => [within[0], vertex[1], vertex[2]],
        5 => [within[0], vertex[1], within[2]],
        6 => sum(within, scaled(cells::any_point(random), 2.0)),
        7 if random.once_in(2) => [(); 3].map(|()| f64::from_bits(random.bits())),
        7 => {
            let mut query = within;
            query[random.below(3)] = random.pick(&ODD);
            query
        }
        _ => within,
    }
}

/// A mean of the points with any weights.
fn any_mean(points: &[Vector], random: &mut Random) -> Vector {
    let weights: Vec<f64> = points.iter().map(|_| random.unit()).collect();
    let all: f64 = weights.iter().sum();
    let parts = points.iter().zip(&weights);
    parts.fold([0.0; 3], |mean, (&point, weight)| {
        sum(mean, scaled(point, weight / all))
    })
}

#[cfg(test)]
mod tests {
    use super::*;
    use crate::comparison::tests::smallest_of;

    /// A volume without its sign.
    fn magnitude(numbers: &[f64], out: &mut [f64]) -> u8 {
        let answer = ours::hex_volume(numbers, out);
        if answer == 0 {
            out[0] = out[0].abs();
        }
        answer
    }

    #[test]
    fn a_lost_sign_shrinks_to_a_plain_hexahedron() {
        let wrong = Form {
            ours_volume: magnitude,
            ..FORMS[2]
        };
        let any = |random: &mut Random| Solid {
            numbers: Kind::AnyPoints.points(&wrong, random).into_flattened(),
            queries: vec![[0.5; 3]],
        };
        let small = smallest_of(any, of_form(&wrong));
        assert!(small.queries.is_empty());
        assert_eq!(small.numbers.len(), 24);
        let is_plain = |value: &f64| [0.0, 1.0, -1.0].contains(value);
        assert!(small.numbers.iter().all(is_plain));
    }
}
