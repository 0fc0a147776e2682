//! Functions of a few numbers. They take any bits and refuse nothing.

use crate::c;
use crate::refusal::answered;

/// (b - a) x (c - a), each step rounded once: above 0 where the way from a to b and on to c turns
/// left.
///
/// ```
/// use wegrusamt::leaves::cross2;
///
/// assert_eq!(cross2([0.0, 0.0], [1.0, 0.0], [0.0, 1.0]), 1.0);
/// ```
pub fn cross2([ax, ay]: [f64; 2], [bx, by]: [f64; 2], [cx, cy]: [f64; 2]) -> f64 {
    c::cross2(ax, ay, bx, by, cx, cy)
}

/// The axis along which a normal is longest, 0, 1 or 2; the earlier one on a tie.
pub fn dominant_axis([x, y, z]: [f64; 3]) -> usize {
    c::dominant_axis(x, y, z)
}

/// The point without that axis; any number but 0 and 1 drops z.
///
/// ```
/// use wegrusamt::leaves::project2;
///
/// assert_eq!(project2([1.0, 2.0, 3.0], 1), [1.0, 3.0]);
/// ```
pub fn project2([x, y, z]: [f64; 3], axis: usize) -> [f64; 2] {
    let mut out = [0.0; 2];
    answered(c::project2(x, y, z, axis, &mut out));
    out
}

/// Where the line from a to b meets that from p to q; q where they are parallel.
pub fn segment_intersection(
    [ax, ay]: [f64; 2],
    [bx, by]: [f64; 2],
    [px, py]: [f64; 2],
    [qx, qy]: [f64; 2],
) -> [f64; 2] {
    let mut out = [0.0; 2];
    answered(c::segment_intersection(
        ax, ay, bx, by, px, py, qx, qy, &mut out,
    ));
    out
}

/// Where the way from a to b crosses a plane from which they are da and db away. The point need not
/// lie between them.
///
/// ```
/// use wegrusamt::leaves::segment_plane_intersection;
///
/// let point = segment_plane_intersection([0.75, 0.0, 0.0], [1.25, 4.0, 0.0], 0.75, 1.25);
/// assert_eq!(point, [0.0, -6.0, 0.0]);
/// ```
pub fn segment_plane_intersection(
    [ax, ay, az]: [f64; 3],
    [bx, by, bz]: [f64; 3],
    da: f64,
    db: f64,
) -> [f64; 3] {
    let mut out = [0.0; 3];
    answered(c::segment_plane_intersection(
        ax, ay, az, bx, by, bz, da, db, &mut out,
    ));
    out
}
