//! Stands in for `robust`: the exact sign of an orientation, for whole numbers.
//!
//! What rests on `robust` stays out of the port, save for whole-number plans, where the exact sign
//! is asked for. There 128-bit whole numbers hold every step, so the sign is exact. Elsewhere the
//! stand-in panics instead of guessing.

/// Whole numbers up to here pass: the products of their differences fit 128 bits.
const LARGEST: f64 = 9_007_199_254_740_992.0;

#[derive(Clone, Copy)]
pub(crate) struct Coord<T> {
    pub(crate) x: T,
    pub(crate) y: T,
}

/// 1, 0 or -1: the sign of the orientation of a, b, c. The crate itself answers a number with that
/// sign; `polygon.rs` reads no more of it than the sign.
pub(crate) fn orient2d(a: Coord<f64>, b: Coord<f64>, c: Coord<f64>) -> f64 {
    let [(ax, ay), (bx, by), (cx, cy)] = [a, b, c].map(|p| (whole(p.x), whole(p.y)));
    let left = (ax - cx) * (by - cy);
    let right = (ay - cy) * (bx - cx);
    (left - right).signum() as f64
}

fn whole(value: f64) -> i128 {
    assert!(
        value.trunc() == value && value.abs() <= LARGEST,
        "the stand-in for robust judges whole numbers only"
    );
    value as i128
}
