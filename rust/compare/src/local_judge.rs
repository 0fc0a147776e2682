//! Moves vertices to a local origin by the sentences of SCOPE 19 alone: the second teller of
//! `to_local`.
//!
//! A coordinate is taken apart into digits and a power of two, and differences are taken in integers.
//! No f64 is added or subtracted here, and none is rounded: each comment below says why.

use crate::refusals;

/// What the move leaves and answers.
#[derive(Clone, Debug, PartialEq)]
pub struct Moved {
    pub coords: Vec<f64>,
    /// What was taken off every vertex.
    pub vector: [f64; 3],
}

/// The vertices moved, or the refusal: 1, then 2, then 15.
pub fn moved(coords: &[f64]) -> Result<Moved, u8> {
    if let Some(number) = refusals::of_points(coords) {
        return Err(number);
    }
    let origin = [coords[0], coords[1], coords[2]].map(whole_part);
    let numbers = coords.iter().enumerate();
    let differences = numbers.map(|(place, &number)| less(number, origin[place % 3]));
    match differences.collect() {
        None => Err(15),
        Some(coords) => Ok(Moved {
            coords,
            // Whole numbers up to 2^40, which an f64 holds; the integer 0 becomes +0.
            vector: origin.map(|whole| whole as f64),
        }),
    }
}

/// A number that is not 0 as an odd integer below 2^53 times a power of two, by its bits. Exact: the
/// bits say which digits there are, and the zeros behind the last 1 go into the power.
fn in_odd_steps(number: f64) -> Option<(i64, i32)> {
    let bits = number.to_bits();
    let fraction = (bits & ((1 << 52) - 1)) as i64;
    let (digits, power) = match (bits >> 52 & 0x7FF) as i32 {
        // Subnormal: no 1 before the fraction.
        0 => (fraction, -1074),
        exponent => (1 << 52 | fraction, exponent - 1075),
    };
    if digits == 0 {
        return None;
    }
    let zeros = digits.trailing_zeros();
    let odd = digits >> zeros;
    let signed = if number.is_sign_negative() { -odd } else { odd };
    Some((signed, power + zeros as i32))
}

/// A coordinate, at most 2^40 in magnitude, brought to a whole number towards zero.
fn whole_part(number: f64) -> i64 {
    match in_odd_steps(number) {
        None => 0,
        // A whole number as it is. The product is at most 2^40.
        Some((steps, power @ 0..)) => steps << power,
        // Integers are divided towards zero.
        Some((steps, power @ -62..0)) => steps / (1 << -power),
        // Fewer than 2^53 steps of 2^-63 at most are less than 1.
        Some(_) => 0,
    }
}

/// A coordinate less a whole number, both at most 2^40 in magnitude, where that is an f64.
fn less(number: f64, whole: i64) -> Option<f64> {
    // Less nothing it is the number itself, also where that is -0.
    if whole == 0 {
        return Some(number);
    }
    match in_odd_steps(number) {
        // Whole numbers up to 2^41, which an f64 holds; the integer 0 becomes +0.
        None => Some(-whole as f64),
        Some((steps, power @ 0..)) => Some(((steps << power) - whole) as f64),
        // The number is an odd count of steps of 2^power and the whole number an even one, so that their
        // difference is odd: no power of two can be taken out of it, and it is an f64 exactly where it is
        // below 2^53.
        Some((steps, power @ -53..0)) => {
            // Up to 2^53 and 2^93.
            let difference = i128::from(steps) - (i128::from(whole) << -power);
            let is_held = difference.unsigned_abs() < 1 << 53;
            // Below 2^53 the integer is an f64. Over a power of two it keeps its digits, for it is 2^-53 or
            // more and so not subnormal.
            is_held.then(|| difference as f64 / (1_u64 << -power) as f64)
        }
        // Odd as well, and above 2^53: the whole number has 2^54 steps or more, the number fewer than 2^53.
        Some(_) => None,
    }
}

#[cfg(test)]
mod tests {
    use super::*;
    use crate::calls::same_lists;
    use crate::limits::LARGEST;
    use crate::local_lists;
    use crate::random::Random;

    /// Whether a list is moved by a vector to another, told by bits.
    fn moves(coords: &[f64], vector: [f64; 3], to: &[f64]) -> bool {
        let moved = moved(coords).unwrap();
        same_lists(&moved.vector, &vector) && same_lists(&moved.coords, to)
    }

    #[test]
    fn numbers_are_cut_towards_zero() {
        let cut = [2.9, -2.9, 0.5, -0.5, 3.0, -4.0, -0.0, 5e-324, LARGEST];
        let whole = [2, -2, 0, 0, 3, -4, 0, 0, 1 << 40];
        assert_eq!(cut.map(whole_part), whole);
        assert_eq!(whole_part(LARGEST.next_down()), (1 << 40) - 1);
    }

    #[test]
    fn a_list_is_moved_by_its_first_vertex() {
        let coords = [7.75, -2.5, -0.25, 8.0, 3.0, -0.0];
        let to = [0.75, -0.5, -0.25, 1.0, 5.0, -0.0];
        assert!(moves(&coords, [7.0, -2.0, 0.0], &to));
        let coords = [-3.0, 2.0, 1.0, -3.0, -0.0, 0.0];
        let to = [0.0, 0.0, 0.0, 0.0, -2.0, -1.0];
        assert!(moves(&coords, [-3.0, 2.0, 1.0], &to));
        let coords = [-LARGEST, 0.0, 0.0, LARGEST, 0.0, 5e-324];
        let to = [0.0, 0.0, 0.0, 2.0 * LARGEST, 0.0, 5e-324];
        assert!(moves(&coords, [-LARGEST, 0.0, 0.0], &to));
    }

    #[test]
    fn fifty_three_digits_are_held_and_no_more() {
        // 1 - 2^-53 and 1 + 2^-53.
        let half = f64::EPSILON / 2.0;
        assert_eq!(less(half, 1), Some(-1.0_f64.next_down()));
        assert_eq!(less(-half, 1), None);
        assert_eq!(less(half / 2.0, 1), None);
        assert_eq!(less(5e-324, -1), None);
        // 2^40 + 2^-12 and 2^40 + 2^-13.
        let digit = 0.5_f64.powi(12);
        assert_eq!(less(-digit, 1 << 40), Some(-LARGEST - digit));
        assert_eq!(less(-digit / 2.0, 1 << 40), None);
    }

    #[test]
    fn refusals_come_in_their_order() {
        let mut coords = vec![1.0; 771];
        assert_eq!(moved(&coords), Err(1));
        assert_eq!(moved(&coords[..767]), Err(1));
        assert_eq!(moved(&[]), Err(1));
        coords[767] = 5e-324;
        assert_eq!(moved(&coords[..768]), Err(15));
        coords[766] = f64::NAN;
        assert_eq!(moved(&coords[..768]), Err(2));
        assert_eq!(moved(&coords), Err(1));
    }

    /// What the machine's subtraction loses is known exactly, by Knuth's sum of two terms.
    #[test]
    fn the_machine_loses_nothing_exactly_where_a_difference_is_told() {
        let mut random = Random::new(3);
        let mut told = [0, 0];
        for _ in 0..20_000 {
            let coords = local_lists::any(&mut random).coords;
            let place = random.below(coords.len());
            let (number, whole) = (coords[place], whole_part(coords[place % 3]));
            let origin = -(whole as f64);
            let sum = number + origin;
            let of_origin = sum - number;
            let lost = (number - (sum - of_origin)) + (origin - of_origin);
            match less(number, whole) {
                None => assert_ne!(lost, 0.0, "{number:e} less {whole}"),
                Some(difference) => {
                    assert_eq!(lost, 0.0, "{number:e} less {whole}");
                    assert_eq!(difference, sum, "{number:e} less {whole}");
                }
            }
            told[usize::from(lost == 0.0)] += 1;
        }
        assert!(told.iter().all(|&times| times > 1000), "{told:?}");
    }
}
