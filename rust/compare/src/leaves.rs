//! `compare leaves`: the entries that take numbers only, any bits, by the port and by the Rust.

use oracle::plain as rust;

use crate::calls::{Calls, print_list};
use crate::cells;
use crate::comparison::{Compared, ask};
use crate::faces::any_float;
use crate::limits::LARGEST;
use crate::ours;
use crate::random::Random;
use crate::shrink::{Input, Shrink, plain_numbers, within};
use crate::vectors::{cross, scaled, sum, unit};

/// Numbers of which none can be left out.
#[derive(Clone)]
pub struct Numbers(pub Vec<f64>);

impl Input for Numbers {
    fn print(&self) {
        print_list("numbers", "f64", &self.0);
    }
}

impl Shrink for Numbers {
    fn shrink(&mut self, fails: &mut dyn FnMut(&Numbers) -> bool) {
        within(self, |numbers| &mut numbers.0, plain_numbers, fails);
    }
}

/// A leaf by how many numbers it takes and how it is compared on them.
pub struct Leaf {
    pub takes: usize,
    compare: fn(&mut Calls, &[f64], &mut Random),
}

impl Leaf {
    pub fn ask(&self, calls: &mut Calls, numbers: &[f64], random: &mut Random) -> Compared {
        let numbers = Numbers(numbers[..self.takes].to_vec());
        ask(
            calls,
            &numbers,
            random,
            |calls, Numbers(numbers), random| {
                (self.compare)(calls, numbers, random);
            },
        )
    }
}

/// Most numbers that a leaf takes.
const MOST: usize = 9;

pub const LEAVES: [Leaf; 7] = [
    Leaf {
        takes: 6,
        compare: cross2,
    },
    Leaf {
        takes: 3,
        compare: dominant_axis,
    },
    Leaf {
        takes: 3,
        compare: project2,
    },
    Leaf {
        takes: 8,
        compare: segment_intersection,
    },
    Leaf {
        takes: 8,
        compare: segment_plane_intersection,
    },
    Leaf {
        takes: MOST,
        compare: plane_same_side,
    },
    Leaf {
        takes: MOST,
        compare: plane_coplanar_opposite,
    },
];

/// Asks all leaves about random numbers.
pub fn compare(calls: &mut Calls, count: u64, seed: u64) -> Compared {
    let random = &mut Random::new(seed);
    for _ in 0..count {
        let kind = random.pick(&KINDS);
        calls.count("kind", kind);
        let numbers = kind.numbers(random);
        for leaf in &LEAVES {
            leaf.ask(calls, &numbers, random)?;
        }
    }
    Ok(())
}

/// The numbers as the array that a leaf takes them in.
fn all<const N: usize>(numbers: &[f64]) -> [f64; N] {
    let numbers = numbers.try_into();
    numbers.expect("a leaf has its own count of numbers")
}

fn cross2(calls: &mut Calls, numbers: &[f64], _: &mut Random) {
    let [ax, ay, bx, by, cx, cy] = all(numbers);
    let (a, b, c) = ([ax, ay], [bx, by], [cx, cy]);
    calls.gave("cross2", ours::cross2(a, b, c), rust::cross2(a, b, c));
}

fn dominant_axis(calls: &mut Calls, numbers: &[f64], _: &mut Random) {
    let normal = all(numbers);
    let axis = rust::dominant_axis(normal);
    calls.count("dominant axis", axis);
    calls.gave("dominant_axis", ours::dominant_axis(normal), axis);
}

/// Any axis other than 0 and 1 drops the third number.
fn project2(calls: &mut Calls, numbers: &[f64], random: &mut Random) {
    let point = all(numbers);
    for axis in [0, 1, 2, 3, usize::MAX] {
        let expected = Ok(rust::project2(point, axis).to_vec());
        calls.asked("project2", 2, expected, random, |out| {
            ours::project2(point, axis, out)
        });
    }
}

fn segment_intersection(calls: &mut Calls, numbers: &[f64], random: &mut Random) {
    let [ax, ay, bx, by, px, py, qx, qy] = all(numbers);
    let (a, b, p, q) = ([ax, ay], [bx, by], [px, py], [qx, qy]);
    let expected = Ok(rust::segment_intersection(a, b, p, q).to_vec());
    calls.asked("segment_intersection", 2, expected, random, |out| {
        ours::segment_intersection(a, b, p, q, out)
    });
}

fn segment_plane_intersection(calls: &mut Calls, numbers: &[f64], random: &mut Random) {
    let [ax, ay, az, bx, by, bz, da, db] = all(numbers);
    let (a, b) = ([ax, ay, az], [bx, by, bz]);
    let expected = Ok(rust::segment_plane_intersection(a, b, da, db).to_vec());
    calls.asked("segment_plane_intersection", 3, expected, random, |out| {
        ours::segment_plane_intersection(a, b, da, db, out)
    });
}

/// A leaf that takes two planes and a tolerance and says yes or no.
macro_rules! of_planes {
    ($($name:ident)*) => { $(
        fn $name(calls: &mut Calls, numbers: &[f64], _: &mut Random) {
            let [ax, ay, az, ad, bx, by, bz, bd, tolerance] = all(numbers);
            let (a, b) = ([ax, ay, az, ad], [bx, by, bz, bd]);
            let found = ours::$name(a, b, tolerance);
            let wanted = rust::$name(a, b, tolerance);
            calls.count(stringify!($name), wanted);
            calls.gave(stringify!($name), u32::from(found), u32::from(wanted));
        }
    )* };
}

of_planes!(plane_same_side plane_coplanar_opposite);

/// How the numbers were made.
#[derive(Clone, Copy, Debug)]
enum Kind {
    AnyBits,
    Special,
    /// Whole numbers from -3 to 3.
    SmallWhole,
    /// Every exponent from the least to the limit of the domain.
    AllExponents,
    /// Numbers that differ in their last places only.
    Close,
    /// Two segments along the same way.
    Parallel,
    /// Two planes of about the same place and way, or of opposite ways, and a tolerance.
    Planes,
}

const KINDS: [Kind; 7] = [
    Kind::AnyBits,
    Kind::Special,
    Kind::SmallWhole,
    Kind::AllExponents,
    Kind::Close,
    Kind::Parallel,
    Kind::Planes,
];

pub const SPECIAL: [f64; 20] = [
    0.0,
    1.0,
    -1.0,
    f64::INFINITY,
    f64::NAN,
    -0.0,
    f64::NEG_INFINITY,
    0.5,
    2.0,
    1.0 - 1e-10,
    -1.0 + 1e-10,
    1e-10,
    f64::EPSILON,
    f64::MIN_POSITIVE,
    5e-324,
    LARGEST,
    1e160,
    -1e-160,
    f64::MAX,
    f64::MIN,
];

impl Kind {
    fn numbers(self, random: &mut Random) -> [f64; MOST] {
        match self {
            Kind::AnyBits => each(|| f64::from_bits(random.bits())),
            Kind::Special => each(|| random.pick(&SPECIAL)),
            Kind::SmallWhole => each(|| random.whole(3)),
            Kind::AllExponents => each(|| any_float(random)),
            Kind::Close => {
                let near = random.signed().to_bits();
                each(|| f64::from_bits(near + random.below(5) as u64))
            }
            Kind::Parallel => parallel(random),
            Kind::Planes => planes(random),
        }
    }
}

fn each(mut number: impl FnMut() -> f64) -> [f64; MOST] {
    [(); MOST].map(|()| number())
}

fn parallel(random: &mut Random) -> [f64; MOST] {
    let [a, b, p] = [(); 3].map(|()| [random.signed(), random.signed()]);
    let share = random.pick(&[1.0, -1.0, 2.0, -0.5, 0.1]);
    let q = [0, 1].map(|axis| p[axis] + share * (b[axis] - a[axis]));
    [
        a[0],
        a[1],
        b[0],
        b[1],
        p[0],
        p[1],
        q[0],
        q[1],
        random.unit(),
    ]
}

/// The tolerance of ways is 1e-10 of a cosine, so a turn by the root of twice that; the tolerance of
/// places is the last number.
fn planes(random: &mut Random) -> [f64; MOST] {
    let way = unit(cells::any_point(random));
    let aside = unit(cross(way, cells::any_point(random)));
    let tilt = 2e-10_f64.sqrt() * random.pick(&[0.0, 1.0 - 1e-6, 1.0, 1.0 + 1e-6, 3.0]);
    let tilted = unit(sum(way, scaled(aside, tilt)));
    let sign = random.pick(&[1.0, -1.0]);
    let (offset, tolerance) = (random.signed(), random.unit());
    let off = tolerance * random.pick(&[0.0, 1.0, -1.0, 1.0 + f64::EPSILON, 2.0]);
    let [[x, y, z], [u, v, w]] = [way, scaled(tilted, sign)];
    [x, y, z, offset, u, v, w, sign * (offset + off), tolerance]
}

#[cfg(test)]
mod tests {
    use super::*;
    use crate::comparison::tests::smallest_of;

    /// A crossing that answers p, not q, where the segments are parallel.
    #[test]
    fn a_wrong_end_of_parallel_segments_shrinks_to_one_number() {
        let any = |random: &mut Random| Numbers(random.pick(&KINDS).numbers(random).to_vec());
        let Numbers(small) = smallest_of(any, |calls, Numbers(numbers), _| {
            let [ax, ay, bx, by, px, py, qx, qy, _] = all(numbers);
            let (a, b, p, q) = ([ax, ay], [bx, by], [px, py], [qx, qy]);
            let wanted = rust::segment_intersection(a, b, p, q);
            let found = if wanted == q { p } else { wanted };
            for axis in 0..2 {
                calls.gave("segment_intersection", found[axis], wanted[axis]);
            }
        });
        assert_eq!(small.iter().filter(|&&number| number != 0.0).count(), 1);
        assert_eq!(small.len(), MOST);
    }
}
