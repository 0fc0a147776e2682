//! Outlines of the plane, of 0 to 512 points. Refused as [`Refusal::Size`] or [`Refusal::Number`];
//! clipping and overlap also as [`Refusal::Room`].

use crate::{Refusal, c, work};

/// The signed area: positive where the outline runs counterclockwise, 0 for no points.
///
/// ```
/// let square = [[0.0, 0.0], [2.0, 0.0], [2.0, 2.0], [0.0, 2.0]];
/// assert_eq!(wegrusamt::planar::signed_area2(&square), Ok(4.0));
/// ```
pub fn signed_area2(points: &[[f64; 2]]) -> Result<f64, Refusal> {
    let mut out = [0.0];
    let number = c::signed_area2(points.as_flattened(), &mut out);
    Refusal::answer(number, out[0])
}

/// Turns an outline counterclockwise: reverses it where its signed area is below 0.
///
/// ```
/// let mut clockwise = [[0.0, 0.0], [0.0, 1.0], [1.0, 0.0]];
/// wegrusamt::planar::into_ccw2(&mut clockwise)?;
/// assert_eq!(clockwise, [[1.0, 0.0], [0.0, 1.0], [0.0, 0.0]]);
/// # Ok::<(), wegrusamt::Refusal>(())
/// ```
pub fn into_ccw2(points: &mut [[f64; 2]]) -> Result<(), Refusal> {
    let number = c::into_ccw2(points.as_flattened_mut());
    Refusal::answer(number, ())
}

/// The mean of the points; of no points, two NaN.
pub fn vertex_centroid2(points: &[[f64; 2]]) -> Result<[f64; 2], Refusal> {
    let mut out = [0.0; 2];
    let number = c::vertex_centroid2(points.as_flattened(), &mut out);
    Refusal::answer(number, out)
}

/// The box of the points: the least coordinates, then the largest. For no points the least are
/// +infinity and the largest -infinity.
pub fn bounds2(points: &[[f64; 2]]) -> Result<[[f64; 2]; 2], Refusal> {
    let mut out = [[0.0; 2]; 2];
    let number = c::bounds2(points.as_flattened(), out.as_flattened_mut());
    Refusal::answer(number, out)
}

/// What is left of `subject` when every edge of `clip` cuts it, or `None` where nothing is. Both
/// are convex and run counterclockwise; that is not checked. With no clip edge the subject itself
/// is left.
///
/// The work lists are made here, as long as they may be: 1,536 points each. A call is refused as
/// [`Refusal::Room`] only where an outline on the way has more.
///
/// ```
/// let subject = [[0.0, 0.0], [2.0, 0.0], [2.0, 2.0], [0.0, 2.0]];
/// let clip = [[1.0, 1.0], [3.0, 1.0], [3.0, 3.0], [1.0, 3.0]];
/// let left = wegrusamt::planar::clip_convex(&subject, &clip)?.expect("they overlap");
/// assert_eq!(left.len(), 4);
/// # Ok::<(), wegrusamt::Refusal>(())
/// ```
pub fn clip_convex(
    subject: &[[f64; 2]],
    clip: &[[f64; 2]],
) -> Result<Option<Vec<[f64; 2]>>, Refusal> {
    work::with_lists(|first, second| {
        Ok(clip_convex_in(subject, clip, first, second)?.map(<[_]>::to_vec))
    })
}

/// [`clip_convex`] in two work lists that are lent, for many calls: it makes no list itself. The
/// outline is shown as the filled stretch of one of the two, and every other number in both ends as
/// +0. A refusal [`Refusal::Room`] leaves +0 in all of both; any other leaves both as they were.
pub fn clip_convex_in<'w>(
    subject: &[[f64; 2]],
    clip: &[[f64; 2]],
    first: &'w mut [[f64; 2]],
    second: &'w mut [[f64; 2]],
) -> Result<Option<&'w [[f64; 2]]>, Refusal> {
    let mut shown = [0; 2];
    let number = c::clip_convex(
        subject.as_flattened(),
        clip.as_flattened(),
        first.as_flattened_mut(),
        second.as_flattened_mut(),
        &mut shown,
    );
    work::outline(number, shown, first, second)
}

/// The area of what [`clip_convex`] leaves; 0 where that is nothing.
///
/// ```
/// let subject = [[0.0, 0.0], [2.0, 0.0], [2.0, 2.0], [0.0, 2.0]];
/// let clip = [[1.0, 1.0], [3.0, 1.0], [3.0, 3.0], [1.0, 3.0]];
/// assert_eq!(wegrusamt::planar::convex_intersection_area(&subject, &clip), Ok(1.0));
/// assert_eq!(wegrusamt::planar::convex_intersection_area(&subject, &[]), Ok(4.0));
/// ```
pub fn convex_intersection_area(subject: &[[f64; 2]], clip: &[[f64; 2]]) -> Result<f64, Refusal> {
    work::with_lists(|first, second| convex_intersection_area_in(subject, clip, first, second))
}

/// [`convex_intersection_area`] in two work lists that are lent, for many calls. Every number in
/// both ends as +0, on a refusal [`Refusal::Room`] too; any other leaves both as they were.
pub fn convex_intersection_area_in(
    subject: &[[f64; 2]],
    clip: &[[f64; 2]],
    first: &mut [[f64; 2]],
    second: &mut [[f64; 2]],
) -> Result<f64, Refusal> {
    let mut out = [0.0];
    let number = c::convex_intersection_area(
        subject.as_flattened(),
        clip.as_flattened(),
        first.as_flattened_mut(),
        second.as_flattened_mut(),
        &mut out,
    );
    Refusal::answer(number, out[0])
}
