//! Random pairs of numbers for `hypot`: those whose length lies at a border of rounding, at an end of
//! the range, or is one number alone.

use crate::floats::{DIGITS, INFINITY, any_digits};
use crate::random::Random;

/// How many exponents a finite number can have.
const EXPONENTS: usize = 0x7ff;

/// The length about the middle of two numbers is given in halves of their last place: 54 digits.
const MOST_HALVES: u128 = 4 * DIGITS as u128;

/// A way to draw a pair of magnitudes, as patterns. Not every draw makes one.
type Draw = fn(&mut Random) -> Option<[u64; 2]>;

const KINDS: [(&str, Draw); 8] = [
    ("exponents up to 30 apart", of_near_exponents),
    ("lengths that tie", tie),
    ("a unit or two beside these", beside_a_tie),
    ("lengths about a middle of two", beside_a_middle),
    ("squares that add about half a unit", of_a_last_square),
    ("lengths about the largest number", about_the_largest),
    ("subnormal pairs", subnormal),
    ("squares out of range", with_squares_out_of_range),
];

/// So many pairs of each kind.
pub fn pairs(count: u64, random: &mut Random) -> Vec<(&'static str, Vec<[u64; 2]>)> {
    KINDS
        .into_iter()
        .map(|(kind, draw)| (kind, drawn(draw, random).take(count as usize).collect()))
        .collect()
}

/// One pair after another, without the draws that make none.
fn drawn(draw: Draw, random: &mut Random) -> impl Iterator<Item = [u64; 2]> {
    std::iter::repeat_with(move || draw(random)).flatten()
}

fn at(exponent: usize, random: &mut Random) -> u64 {
    ((exponent as u64) << 52) | any_digits(random)
}

fn at_both(exponent: usize, gap: usize, random: &mut Random) -> Option<[u64; 2]> {
    Some([at(exponent, random), at(exponent + gap, random)])
}

fn of_near_exponents(random: &mut Random) -> Option<[u64; 2]> {
    let gap = random.below(31);
    at_both(random.below(EXPONENTS - gap), gap, random)
}

/// Whole numbers with a · a + b · b = c · c, where c is odd and has 54 digits: the half of its last
/// place is a tie.
fn tie(random: &mut Random) -> Option<[u64; 2]> {
    let [m, n] = [(); 2].map(|()| u128::from(random.bits() >> random.between(37, 62)));
    let length = m * m + n * n;
    if m <= n || length % 2 == 0 {
        return None;
    }
    let most = (MOST_HALVES - 1) / length;
    let times = (most - u128::from(random.bits()) % (most / 2 + 1)) | 1;
    let is_tie = (MOST_HALVES / 2..MOST_HALVES).contains(&(length * times));
    let sides = [(m * m - n * n) * times, 2 * m * n * times];
    if is_tie && sides.iter().all(|&side| has_room(side)) {
        let scale = any_scale(random);
        Some(sides.map(|side| (side as f64 * scale).to_bits()))
    } else {
        None
    }
}

/// Whether a whole number is an f64.
fn has_room(n: u128) -> bool {
    n >> n.trailing_zeros().min(127) < 2 * u128::from(DIGITS)
}

/// A power of two by which numbers of 54 digits stay in range.
fn any_scale(random: &mut Random) -> f64 {
    2f64.powi(random.between(0, 1900) as i32 - 950)
}

fn beside_a_tie(random: &mut Random) -> Option<[u64; 2]> {
    tie(random).map(|pair| beside(pair, random))
}

/// One of the two a unit or two aside.
fn beside(mut pair: [u64; 2], random: &mut Random) -> [u64; 2] {
    let side = &mut pair[random.below(2)];
    let units = random.pick(&[0, 1, 3, 4]);
    *side = (*side + units).saturating_sub(2).min(INFINITY - 1);
    pair
}

/// A number of 53 digits, and one with which the length is about a middle of two f64s, both times a
/// power of two: the square that is missing has a root of 53 digits.
fn to_a_middle(digits: u128, middle: u128, scale: f64, random: &mut Random) -> Option<[u64; 2]> {
    let halves = 2 * digits;
    let missing = ((middle * middle - halves * halves) as f64).sqrt();
    let pair = [halves as f64, missing].map(|number| (number * scale).to_bits());
    Some(beside(pair, random))
}

fn any_whole(random: &mut Random) -> u128 {
    u128::from(DIGITS + any_digits(random))
}

fn beside_a_middle(random: &mut Random) -> Option<[u64; 2]> {
    let digits = any_whole(random);
    let more = u128::from(any_digits(random) >> random.below(52));
    let length = (digits + more).min(digits * 7 / 5).min(MOST_HALVES / 2 - 1);
    to_a_middle(digits, 2 * length + 1, any_scale(random), random)
}

/// Mostly such that the square adds about half a unit; else 26, 27, 28, 53 or 54 places below.
fn of_a_last_square(random: &mut Random) -> Option<[u64; 2]> {
    if random.once_in(3) {
        let gap = random.pick(&[26, 27, 28, 53, 54]);
        return at_both(random.below(EXPONENTS - gap), gap, random);
    }
    let digits = any_whole(random);
    to_a_middle(digits, 2 * digits + 1, any_scale(random), random)
}

/// About the middle of the largest f64 and 2^1024, from which on the length is infinite.
fn about_the_largest(random: &mut Random) -> Option<[u64; 2]> {
    let digits = match random.below(4) {
        0 => 2 * u128::from(DIGITS) - 1 - u128::from(any_digits(random) >> random.between(30, 51)),
        _ => any_whole(random),
    };
    to_a_middle(digits, MOST_HALVES - 1, 2f64.powi(970), random)
}

/// Both subnormal or just above, of all lengths.
fn subnormal(random: &mut Random) -> Option<[u64; 2]> {
    Some([(); 2].map(|()| random.bits() >> random.between(10, 63)))
}

/// Squares that underflow, wholly or in their last digits, or overflow.
fn with_squares_out_of_range(random: &mut Random) -> Option<[u64; 2]> {
    let low = random.between(0, 540);
    let high = random.between(1533, 2016);
    let gap = random.below(30);
    at_both(random.pick(&[low, high]), gap, random)
}

#[cfg(test)]
mod tests {
    use super::*;

    fn length([x, y]: [u64; 2]) -> f64 {
        oracle::hypot(f64::from_bits(x), f64::from_bits(y))
    }

    /// Of other lengths one in two would be odd.
    #[test]
    fn ties_go_to_the_even_one() {
        let random = &mut Random::new(1);
        let mut ties = drawn(tie, random).take(1000);
        assert!(ties.all(|pair| length(pair).to_bits().is_multiple_of(2)));
    }

    #[test]
    fn both_sides_of_the_largest_number_are_met() {
        let random = &mut Random::new(1);
        let is_infinite = |_| {
            let pair = about_the_largest(random).expect("every draw makes a pair");
            length(pair).is_infinite()
        };
        let infinite = (0..1000).map(is_infinite).filter(|&is| is).count();
        assert!((100..900).contains(&infinite), "{infinite} of 1,000");
    }

    #[test]
    fn every_kind_has_its_pairs() {
        for (kind, pairs) in pairs(100, &mut Random::new(1)) {
            assert_eq!(pairs.len(), 100, "{kind}");
            assert!(pairs.iter().flatten().all(|&pattern| pattern < INFINITY));
        }
    }
}
