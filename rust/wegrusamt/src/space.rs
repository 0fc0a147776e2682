//! Lists of points of space, of 1 to 256 points. Refused as [`Refusal::Size`] or
//! [`Refusal::Number`]; the move to a local origin also as [`Refusal::Inexact`].

use crate::{Refusal, c};

/// The Newell sums of an outline: a normal, twice as long as the outline's area where that is flat.
///
/// ```
/// let square = [[0.0, 0.0, 0.0], [1.0, 0.0, 0.0], [1.0, 1.0, 0.0], [0.0, 1.0, 0.0]];
/// assert_eq!(wegrusamt::space::newell_normal(&square), Ok([0.0, 0.0, 2.0]));
/// ```
pub fn newell_normal(points: &[[f64; 3]]) -> Result<[f64; 3], Refusal> {
    let mut out = [0.0; 3];
    let number = c::newell_normal(points.as_flattened(), &mut out);
    Refusal::answer(number, out)
}

/// The mean of the points.
pub fn vertex_centroid(points: &[[f64; 3]]) -> Result<[f64; 3], Refusal> {
    let mut out = [0.0; 3];
    let number = c::vertex_centroid(points.as_flattened(), &mut out);
    Refusal::answer(number, out)
}

/// The box of the points: the least coordinates, then the largest.
pub fn bounds(points: &[[f64; 3]]) -> Result<[[f64; 3]; 2], Refusal> {
    let mut out = [[0.0; 3]; 2];
    let number = c::list_bounds(points.as_flattened(), out.as_flattened_mut());
    Refusal::answer(number, out)
}

/// Moves the points to a local origin: takes one vector of whole numbers off each, the first point's
/// coordinates brought to whole numbers towards zero, and answers that vector. Every difference is
/// exact, so a cell keeps its exact volume over the same triangles, and is measured near the origin,
/// where less is rounded.
///
/// Where a difference is not an f64 the call is refused as [`Refusal::Inexact`]; a refused list is as
/// it was. A coordinate of a list wider than 2^40 may be above 2^40 in magnitude once it is moved,
/// and is then refused as [`Refusal::Number`], here too.
///
/// ```
/// // The vertices of a thin box: 0.05 wide, 0.25 deep, 2 high, and far away.
/// let foot = [[0.0, 0.0], [0.05, 0.0], [0.05, 0.25], [0.0, 0.25]];
/// let at = |z| foot.map(|[x, y]| [8588590.0 + x, 8529546.0 + y, 2969498.0 + z]);
/// let mut points = [at(0.0), at(2.0)].concat();
///
/// let vector = wegrusamt::space::to_local(&mut points)?;
/// assert_eq!(vector, [8588590.0, 8529546.0, 2969498.0]);
/// assert_eq!(points[0], [0.0, 0.0, 0.0]);
/// // Far away 0.05 had been stored as a number nearby, which the move keeps.
/// assert_eq!(points[6], [0.05000000074505806, 0.25, 2.0]);
/// # Ok::<(), wegrusamt::Refusal>(())
/// ```
pub fn to_local(points: &mut [[f64; 3]]) -> Result<[f64; 3], Refusal> {
    let mut out = [0.0; 3];
    let number = c::to_local(points.as_flattened_mut(), &mut out);
    Refusal::answer(number, out)
}
