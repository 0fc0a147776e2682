//! The rule that stands in for `hypot` in the ruled build: the f64 nearest to the exact root of the
//! exact sum of squares, ties to even. It is written from that sentence alone, over whole numbers,
//! and takes no operation of the machine on f64.

/// The bits of an f64 behind its sign and exponent; with a 1 in front where it is not subnormal
/// they are its digits.
const FRACTION_BITS: u32 = 52;

/// How many binary digits an f64 has at most.
const DIGITS: u32 = FRACTION_BITS + 1;

const SIGN: u64 = 1 << 63;
const INFINITY: u64 = 0x7FF << FRACTION_BITS;

/// So many places above the smaller magnitude, the larger one is the answer. It has 53 digits then,
/// since only the lowest place has numbers with fewer. Counted in units of its last place, it is
/// L ≥ 2^52, and the smaller one S < 2^53 / 2^60 = 2^-7. The root of L² + S² is at least L, and
/// below L + S² / (2 · L) < L + 2^-67, so that no other f64 is as near; below a power of two f64s
/// stand closer together, but the root is not below L. From 27 places on it is so already: the limit
/// is as high as there is room, so that the border is computed and not argued.
const FAR_APART: u64 = 60;

/// Gives `f64` a hypot by rule, in the place of its own, whose precision Rust leaves open.
pub(crate) trait RuledHypot {
    /// What [`hypot`] gives.
    fn ruled_hypot(self, other: Self) -> Self;
}

impl RuledHypot for f64 {
    fn ruled_hypot(self, other: f64) -> f64 {
        hypot(self, other)
    }
}

/// hypot as IEEE 754 recommends it. Of an infinity and anything, a NaN too, it is +infinity; of a
/// NaN and anything else a NaN; of two zeros +0.
pub fn hypot(x: f64, y: f64) -> f64 {
    let [x, y] = [x, y].map(|number| number.to_bits() & !SIGN);
    if x == INFINITY || y == INFINITY {
        return f64::INFINITY;
    }
    if x > INFINITY || y > INFINITY {
        return f64::NAN;
    }
    // The patterns of magnitudes lie in the order of their values.
    f64::from_bits(of_magnitudes(x.max(y), x.min(y)))
}

/// The pattern of the answer for the patterns of two finite magnitudes.
fn of_magnitudes(larger: u64, smaller: u64) -> u64 {
    let (larger_digits, larger_place) = taken_apart(larger);
    let (smaller_digits, place) = taken_apart(smaller);
    let gap = larger_place - place;
    if gap >= FAR_APART {
        return larger;
    }
    // Both are counted in halves of the smaller one's last place, and so the root is. They are whole
    // numbers below 2^(53 + 59 + 1), and the sum of their squares is below 2^227.
    let sum = square(larger_digits << (gap + 1)).plus(square(smaller_digits << 1));
    let root = whole_root(sum);
    rounded(root, square(root) == sum, place)
}

/// The digits of a finite magnitude, and how many places its last digit stands above that of the
/// least f64: its value is digits · 2^place · 2^-1074.
fn taken_apart(pattern: u64) -> (u128, u64) {
    let fraction = pattern % (1 << FRACTION_BITS);
    match pattern >> FRACTION_BITS {
        0 => (fraction.into(), 0),
        exponent => ((fraction + (1 << FRACTION_BITS)).into(), exponent - 1),
    }
}

/// The pattern of the f64 nearest to a root, ties to even. The root is given in halves of the place,
/// as its whole part and whether that is all of it. It has 53 digits before the half, or the place
/// is the lowest; so no digit that an f64 has room for is missing.
fn rounded(root: u128, is_whole: bool, place: u64) -> u64 {
    let digits = u128::BITS - root.leading_zeros();
    let dropped = digits.saturating_sub(DIGITS).max(1);
    let kept = (root >> dropped) as u64;
    let rest = root % (1 << dropped);
    let half = 1 << (dropped - 1);
    let is_up = rest > half || (rest == half && (!is_whole || kept % 2 == 1));

    // The first of 53 digits is added to the exponent, which counts from 1 there. What is rounded up
    // to the next power of two carries into it as well, and past the largest f64 stands infinity.
    let exponent = place + u64::from(dropped) - 1;
    let pattern = (exponent << FRACTION_BITS) + kept + u64::from(is_up);
    pattern.min(INFINITY)
}

/// A whole number of 256 binary digits. The derived order is that of the numbers, since the higher
/// half is compared first.
#[derive(Clone, Copy, Debug, PartialEq, Eq, PartialOrd, Ord)]
struct Wide {
    high: u128,
    low: u128,
}

impl Wide {
    /// The sum, which must have room.
    fn plus(self, other: Wide) -> Wide {
        let (low, carry) = self.low.overflowing_add(other.low);
        Wide {
            high: self.high + other.high + u128::from(carry),
            low,
        }
    }

    /// How many binary digits it has.
    fn digits(self) -> u32 {
        match self.high {
            0 => u128::BITS - self.low.leading_zeros(),
            high => 2 * u128::BITS - high.leading_zeros(),
        }
    }
}

/// With n = a · 2^64 + b the square is a² · 2^128 + a · b · 2^65 + b².
fn square(n: u128) -> Wide {
    let (a, b) = (n >> 64, n % (1 << 64));
    let of_each = Wide {
        high: a * a,
        low: b * b,
    };
    of_each.plus(Wide {
        high: (a * b) >> 63,
        low: (a * b) << 65,
    })
}

/// The largest whole number whose square is not above n: each binary digit of it, from the highest
/// on, is 1 where the square still is not.
fn whole_root(n: Wide) -> u128 {
    let places = n.digits().div_ceil(2);
    (0..places).rev().fold(0, |root, place| {
        let tried = root + (1 << place);
        if square(tried) <= n { tried } else { root }
    })
}

#[cfg(test)]
mod tests {
    use super::*;

    const LEAST: f64 = f64::from_bits(1);

    /// Holds both orders and all signs of a pair to one answer.
    fn gives(x: f64, y: f64, answer: f64) {
        for (x, y) in [(x, y), (y, x)] {
            for (x, y) in [(x, y), (-x, y), (x, -y), (-x, -y)] {
                let given = hypot(x, y);
                assert_eq!(given.to_bits(), answer.to_bits(), "{x:e} {y:e}: {given:e}");
            }
        }
    }

    fn bits(x: u64, y: u64, answer: u64) {
        gives(f64::from_bits(x), f64::from_bits(y), f64::from_bits(answer));
    }

    fn two_to(power: i32) -> f64 {
        2f64.powi(power)
    }

    #[test]
    fn an_infinity_comes_before_a_nan() {
        for other in [0.0, LEAST, 1.0, f64::MAX, f64::INFINITY, f64::NAN] {
            gives(f64::INFINITY, other, f64::INFINITY);
        }
        for other in [0.0, LEAST, 1.0, f64::MAX, f64::NAN] {
            for nan in [f64::NAN, f64::from_bits(INFINITY + 1)] {
                assert!(hypot(nan, other).is_nan());
                assert!(hypot(other, -nan).is_nan());
            }
        }
    }

    #[test]
    fn beside_a_zero_stands_the_magnitude() {
        for magnitude in [0.0, LEAST, f64::MIN_POSITIVE, 1.0, 1.0 / 3.0, f64::MAX] {
            gives(0.0, magnitude, magnitude);
        }
    }

    #[test]
    fn whole_roots() {
        let small = [LEAST, 4.0 * LEAST, two_to(-1000), two_to(-540)];
        for e in small.into_iter().chain([1.0, two_to(500), two_to(1015)]) {
            gives(3.0 * e, 4.0 * e, 5.0 * e);
            gives(65.0 * e, 72.0 * e, 97.0 * e);
        }
    }

    #[test]
    fn ties_go_to_the_even_one() {
        bits(
            0x433F_A26A_FDDB_0384,
            0x4326_C8F2_A305_5062,
            0x4340_CFC8_73E3_E534,
        );
        bits(
            0x4342_9899_D5AB_D726,
            0x432A_575D_458A_CB06,
            0x4343_BA49_0718_AC62,
        );
    }

    #[test]
    fn beside_a_tie_the_nearer_one_is_taken() {
        // The exact root of the first tie is rounded up. One unit less of a part it is below the
        // middle, and one unit more of it above; the second tie is rounded down.
        bits(
            0x433F_A26A_FDDB_0384,
            0x4326_C8F2_A305_5061,
            0x4340_CFC8_73E3_E533,
        );
        bits(
            0x433F_A26A_FDDB_0384,
            0x4326_C8F2_A305_5063,
            0x4340_CFC8_73E3_E534,
        );
        bits(
            0x4342_9899_D5AB_D726,
            0x432A_575D_458A_CB05,
            0x4343_BA49_0718_AC62,
        );
        bits(
            0x4342_9899_D5AB_D726,
            0x432A_575D_458A_CB07,
            0x4343_BA49_0718_AC63,
        );
    }

    #[test]
    fn the_lowest_place() {
        // The root of 2 is nearer to 1 than to 2, that of 5 nearer to 2, that of 8 to 3.
        gives(LEAST, LEAST, LEAST);
        gives(LEAST, 2.0 * LEAST, 2.0 * LEAST);
        gives(2.0 * LEAST, 2.0 * LEAST, 3.0 * LEAST);
        // Two subnormal numbers with a root that is none: 2^51 · 1.5 · √2 units are above 2^52.
        bits(
            0x0008_0000_0000_0000,
            0x0000_0000_0000_0001,
            0x0008_0000_0000_0000,
        );
        bits(
            0x000C_0000_0000_0000,
            0x000C_0000_0000_0000,
            0x0010_F876_CCDF_6CD9,
        );
    }

    #[test]
    fn infinity_stands_where_rounding_puts_it() {
        gives(f64::MAX, f64::MAX, f64::INFINITY);
        gives(f64::MAX, 0.0, f64::MAX);
        // From the middle of the largest f64, (2^53 - 1) · 2^971, and 2^1024 on it is infinity. The
        // square of the other part is 2^1995 - 3 · 2^1940 there, just below that of 2^997 · √2.
        let below = 0x7E46_A09E_667F_3BCC;
        bits(f64::MAX.to_bits(), below, f64::MAX.to_bits());
        bits(f64::MAX.to_bits(), below + 1, INFINITY);
        gives(
            two_to(1023),
            two_to(1023),
            two_to(1023) * f64::from_bits(0x3FF6_A09E_667F_3BCD),
        );
    }

    #[test]
    fn a_square_stops_counting() {
        // Beside 1 the unit is 2^-52, and half of it is what a square of 2^-52 adds.
        gives(1.0, two_to(-26), 1.0);
        gives(
            1.0,
            f64::from_bits(two_to(-26).to_bits() + 1),
            1.0 + two_to(-52),
        );
        gives(1.0, two_to(-27), 1.0);
        gives(1.0, two_to(-60), 1.0);
        gives(1.0, LEAST, 1.0);
    }

    #[test]
    fn squares_and_their_roots() {
        let most = u128::MAX;
        let whole = Wide {
            high: most - 1,
            low: 1,
        };
        assert_eq!(square(most), whole);
        assert_eq!(whole_root(whole), most);
        for n in [
            0,
            1,
            2,
            3,
            1 << 63,
            (1 << 64) - 1,
            1 << 64,
            3 << 100,
            most >> 1,
        ] {
            let squared = square(n);
            assert_eq!(whole_root(squared), n);
            // The number before the next square has the same root.
            let up_to = squared.plus(Wide {
                high: n >> 127,
                low: n << 1,
            });
            assert_eq!(whole_root(up_to), n);
        }
    }
}
