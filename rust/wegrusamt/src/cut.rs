//! Cuts of a face that others have made.

use crate::{Refusal, c};

/// Whether triangles are a cut of a face of so many corners, 3 to 256. A triangle is three places
/// of the face's own corner list, from 0 to `corners` - 1, as [`Cell::triangle_places`] gives them;
/// where the points lie is not asked.
///
/// The answer is yes exactly when there are `corners` - 2 triangles of three different places each,
/// each side of the face (from a place to the next, and from the last to the first) occurs in
/// exactly one triangle in its own direction and in none reversed, and every other side that occurs
/// does so once each way. The order of the triangles does not matter, nor the place at which each
/// begins.
///
/// Refused as [`Refusal::Size`] where there are fewer than 3 or more than 256 corners, or over 254
/// triangles; then as [`Refusal::Index`] where a place is not below `corners`.
///
/// ```
/// use wegrusamt::{Refusal, check_cut};
///
/// // A square, cut from its corner 0 to its corner 2, and from 1 to 3 instead.
/// assert!(check_cut(4, &[[0, 1, 2], [0, 2, 3]])?);
/// assert!(check_cut(4, &[[1, 2, 3], [3, 0, 1]])?);
///
/// // One triangle is turned round; one is missing.
/// assert!(!check_cut(4, &[[0, 1, 2], [0, 3, 2]])?);
/// assert!(!check_cut(4, &[[0, 1, 2]])?);
///
/// // A square has no corner 4.
/// assert_eq!(check_cut(4, &[[0, 1, 2], [0, 2, 4]]), Err(Refusal::Index));
/// # Ok::<(), Refusal>(())
/// ```
///
/// [`Cell::triangle_places`]: crate::Cell::triangle_places
pub fn check_cut(corners: usize, triangles: &[[u32; 3]]) -> Result<bool, Refusal> {
    // A number that does not fit becomes the largest, which is refused as it would be.
    let n = u32::try_from(corners).unwrap_or(u32::MAX);
    let mut out = [0];
    let number = c::check_cut(n, triangles.as_flattened(), &mut out);
    Refusal::answer(number, out[0] != 0)
}
