//! The leaves on f64. They take any bits and refuse nothing.
//!
//! The two C names that are left out, `wegrusamt_pattern` and `wegrusamt_of_pattern`, are
//! [`f64::to_bits`] and [`f64::from_bits`].

use crate::c;

/// The magnitude |x|.
pub fn magnitude(x: f64) -> f64 {
    c::magnitude(x)
}

/// The lesser number: the other one where one is NaN, the first on a tie.
pub fn least(a: f64, b: f64) -> f64 {
    c::least(a, b)
}

/// The larger number: the other one where one is NaN, the first on a tie.
pub fn largest(a: f64, b: f64) -> f64 {
    c::largest(a, b)
}

/// The correctly rounded square root: of -0 it is -0, of a negative number NaN.
///
/// ```
/// assert_eq!(wegrusamt::floats::root(2.0), 2.0_f64.sqrt());
/// ```
pub fn root(x: f64) -> f64 {
    c::root(x)
}

/// `hypot` as IEEE 754 recommends it: the number nearest to the exact root of the exact sum of
/// squares, ties to even. No square overflows or underflows on the way. Of an infinity and anything,
/// a NaN too, it is infinite; of a NaN and anything else a NaN.
///
/// ```
/// assert_eq!(wegrusamt::floats::hypot(3e-200, -4e-200), 5e-200);
/// ```
pub fn hypot(x: f64, y: f64) -> f64 {
    c::hypot(x, y)
}
