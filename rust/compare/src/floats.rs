//! `compare floats`: the proved leaves on f64 and the machine's own, bit for bit, `hypot` and the rule of
//! SCOPE 1 in whole numbers, since the machine's need not be the nearest; and how long the root takes.

use std::hint::black_box;
use std::time::Instant;

use crate::calls::Calls;
use crate::comparison::{Compared, ask};
use crate::leaves::Numbers;
use crate::random::Random;
use crate::{hypots, ours};

const SIGN: u64 = 1 << 63;
pub const INFINITY: u64 = 0x7ff << 52;
const NAN: u64 = 0x7ff8 << 48;

/// How many different digits can stand behind an exponent.
pub const DIGITS: u64 = 1 << 52;

/// Compares so many random patterns, and other kinds in proportion.
pub fn compare(calls: &mut Calls, count: u64, seed: u64) -> Compared {
    let random = &mut Random::new(seed);
    for (kind, patterns) in patterns(count, random) {
        println!("{:>9} {kind}", patterns.len());
        for pattern in patterns {
            let other = beside(pattern, random);
            ask_two(calls, [pattern, other], random)?;
        }
    }
    for (kind, pairs) in hypots::pairs(count / 15, random) {
        println!("{:>9} {kind}", pairs.len());
        for pair in pairs {
            let signs = [(); 2].map(|()| random.bits() & SIGN);
            ask_two(calls, [pair[0] | signs[0], pair[1] | signs[1]], random)?;
        }
    }
    let special = special();
    for &one in &special {
        for &other in &special {
            ask_two(calls, [one, other], random)?;
        }
    }
    time_the_root(random);
    Ok(())
}

fn ask_two(calls: &mut Calls, patterns: [u64; 2], random: &mut Random) -> Compared {
    let numbers = Numbers(patterns.map(f64::from_bits).to_vec());
    ask(calls, &numbers, random, |calls, Numbers(numbers), _| {
        let (x, y) = (numbers[0], numbers[1]);
        of_one(calls, x);
        of_two(calls, x, y);
        of_two(calls, y, x);
    })
}

fn of_one(calls: &mut Calls, x: f64) {
    let pattern = if x.is_nan() { NAN } else { x.to_bits() };
    calls.gave("magnitude", ours::magnitude(x), x.abs());
    calls.gave("root", ours::root(x), x.sqrt());
    calls.gave("pattern", ours::pattern(x), pattern);
    calls.gave("of_pattern", ours::of_pattern(x.to_bits()), x);
}

/// Of two zeros Rust may answer either; ours must be the earlier. Of a number and a signalling NaN Rust
/// answers the number on some machines and a NaN on others; ours must answer the number, as Rust does
/// on every machine where the NaN is quiet.
fn of_two(calls: &mut Calls, x: f64, y: f64) {
    let tied = x == 0.0 && y == 0.0;
    let [a, b] = [x, y].map(|number| if number.is_nan() { f64::NAN } else { number });
    let (least, largest) = if tied { (x, x) } else { (a.min(b), a.max(b)) };
    calls.gave("least", ours::least(x, y), least);
    calls.gave("largest", ours::largest(x, y), largest);
    calls.gave("hypot", ours::hypot(x, y), oracle::hypot(x, y));
}

/// The patterns of single numbers, by kind.
fn patterns(count: u64, random: &mut Random) -> Vec<(&'static str, Vec<u64>)> {
    vec![
        ("special values", special()),
        ("random patterns", many(count, || [random.bits()])),
        ("every exponent", every_exponent(count / 16_000, random)),
        (
            "subnormal numbers",
            many(count / 5, || {
                let digits = any_digits(random);
                [(digits >> random.below(52)).max(1)]
            }),
        ),
        ("powers of two and neighbours", powers_of_two()),
        (
            "perfect squares and neighbours",
            many(count / 10, || beside_a_square(random)),
        ),
        (
            "beside rounding boundaries",
            many(count / 7, || beside_a_boundary(random)),
        ),
        (
            "beside boundaries at a carry",
            (1..count / 30).flat_map(beside_a_carry).collect(),
        ),
    ]
}

pub fn any_digits(random: &mut Random) -> u64 {
    random.bits() % DIGITS
}

fn many<const N: usize>(count: u64, mut some: impl FnMut() -> [u64; N]) -> Vec<u64> {
    (0..count).flat_map(|_| some()).collect()
}

fn special() -> Vec<u64> {
    let edges = [
        0,
        1,
        2,
        3,
        DIGITS - 1,
        DIGITS,
        DIGITS + 1,
        INFINITY - 1,
        INFINITY,
        INFINITY + 1,
        NAN,
        NAN + 1,
        SIGN - 1,
    ];
    let values = [
        0.5,
        1.0,
        1.5,
        2.0,
        3.0,
        4.0,
        6.0,
        1e-30,
        1e-16,
        1e300,
        f64::EPSILON,
        f64::MAX,
        f64::MIN_POSITIVE,
    ];
    let both_signs = edges.map(|pattern| [pattern, pattern | SIGN]);
    let with_neighbours = values.map(|value: f64| {
        let pattern = value.to_bits();
        [pattern, pattern | SIGN, pattern + 1, pattern - 1]
    });
    [both_signs.as_flattened(), with_neighbours.as_flattened()].concat()
}

/// Every finite exponent with digits at the edges and in the middle, and with random ones.
fn every_exponent(random_ones: u64, random: &mut Random) -> Vec<u64> {
    let half = DIGITS / 2;
    let edges = [0, 1, 2, half - 1, half, half + 1, DIGITS - 2, DIGITS - 1];
    let mut patterns = Vec::new();
    for exponent in 0..2047 {
        patterns.extend(edges.map(|digits| (exponent << 52) | digits));
        patterns.extend((0..random_ones).map(|_| (exponent << 52) | any_digits(random)));
    }
    patterns
}

fn powers_of_two() -> Vec<u64> {
    let subnormal = (0..52).map(|place| 1 << place);
    let normal = (1..2047).map(|exponent| exponent << 52);
    let with_neighbours = |pattern: u64| [pattern - 1, pattern, pattern + 1, pattern | SIGN];
    subnormal.chain(normal).flat_map(with_neighbours).collect()
}

fn beside_a_square(random: &mut Random) -> [u64; 5] {
    let root = (random.bits() % (1 << 26)) >> random.below(26);
    let scale = 2f64.powi(2 * random.below(400) as i32 - 400);
    let square = ((root * root) as f64 * scale).to_bits();
    [0, 1, 2, 3, 4].map(|step| (square + step).saturating_sub(2))
}

/// (q + 1/2) squared, where the rounding of a root turns, is q * q + q + 1/4: the values beside it.
fn beside_a_boundary(random: &mut Random) -> [u64; 4] {
    let q = u128::from(DIGITS + any_digits(random));
    let pattern = from_digits(q * q + q, random.below(400) as i32);
    [pattern - 1, pattern, pattern + 1, pattern + 2]
}

/// The same beside a power of two, where the result may carry into the next exponent.
fn beside_a_carry(step: u64) -> [u64; 4] {
    let digits = u128::from(DIGITS);
    let [below, above] = [2 * digits - u128::from(step), digits + u128::from(step)]
        .map(|q| from_digits(q * q + q, (step % 300) as i32));
    [below, below + 1, above, above + 1]
}

/// The pattern of the value nearest to m / 2^(2j) from below, for m of up to 106 binary digits.
fn from_digits(m: u128, j: i32) -> u64 {
    let more = (128 - m.leading_zeros() as i32 - 53).max(0);
    let digits = (m >> more) as u64 as f64;
    (digits * 2f64.powi(more - 2 * j)).to_bits()
}

/// A number whose size is close to that of another, or that one itself, or its negation, so that sums,
/// ties and comparisons are close; or a zero, beside which the other is alone.
fn beside(pattern: u64, random: &mut Random) -> u64 {
    match random.below(7) {
        0 => pattern,
        1 => pattern ^ SIGN,
        2 => pattern.wrapping_add(1),
        3 => (pattern & !(DIGITS - 1)) | any_digits(random),
        4 => pattern.wrapping_add((random.below(60) as u64) << 52),
        5 => random.bits() & SIGN,
        _ => random.bits(),
    }
}

fn time_the_root(random: &mut Random) {
    let normal = |random: &mut Random| {
        let exponent = random.between(1, 0x7fe) as u64;
        f64::from_bits((exponent << 52) | any_digits(random))
    };
    let numbers: Vec<f64> = (0..1_000_000).map(|_| normal(random)).collect();
    let ours = fastest(&numbers, ours::root);
    let machine = fastest(&numbers, f64::sqrt);
    let ratio = ours / machine;
    println!("root {ours:.2} ns, the machine's sqrt {machine:.2} ns, ratio {ratio:.1}");
}

/// Nanoseconds a call, in the fastest of some rounds.
fn fastest(numbers: &[f64], function: impl Fn(f64) -> f64) -> f64 {
    let mut best = f64::INFINITY;
    for _ in 0..7 {
        let start = Instant::now();
        for &number in numbers {
            black_box(function(black_box(number)));
        }
        best = best.min(start.elapsed().as_nanos() as f64 / numbers.len() as f64);
    }
    best
}
