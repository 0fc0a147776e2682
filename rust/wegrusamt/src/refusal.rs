//! Why a call is refused.

use std::error::Error;
use std::fmt;

/// Why a call is refused, by the table of SCOPE 3. The first row that applies is answered,
/// [`Refusal::Room`] after all others.
///
/// ```
/// use wegrusamt::{Cell, Refusal};
///
/// let too_far = [[0.0, 0.0, f64::INFINITY]];
/// let refusal = Cell::new(&too_far, &[], &[]).volume().unwrap_err();
/// assert_eq!(refusal, Refusal::Number);
/// assert_eq!(refusal.number(), 2);
/// ```
#[derive(Clone, Copy, Debug, PartialEq, Eq, Hash)]
#[repr(u8)]
pub enum Refusal {
    /// 1: 0 or over 256 vertices; over 256 faces, 2,048 corners, 256 query points, 256 planes or
    /// 512 points of the plane; over 2,304 entries of a list with marks; a work list of over 3,072
    /// numbers; a face to check of under 3 or over 256 corners, or over 254 triangles of it.
    Size = 1,
    /// 2: a coordinate or query value is NaN, infinite or above 2^40 in magnitude.
    Number = 2,
    /// 3: the ends fall, or the last is not the corner count.
    Ends = 3,
    /// 4: a corner is not below the vertex count, a face number not below the face count, or a
    /// place of a face to check not below its corner count.
    Index = 4,
    /// 5: a face has no corners. Only planes, faces of no area, outward turning and intersection
    /// refuse it.
    EmptyFace = 5,
    /// 6: a list that is written to is too short. Here that can only be a work list.
    Room = 6,
    /// 11: a side between two different vertices, taken without direction, does not occur exactly
    /// twice over all faces, or a face holds a vertex twice. Only the turning of backward faces
    /// refuses it.
    Sides = 11,
    /// 12: no choice of faces to reverse closes the cell. Only the turning of backward faces
    /// refuses it.
    Unclosable = 12,
    /// 15: a coordinate less the local origin is not an f64. Only the move to a local origin refuses
    /// it.
    Inexact = 15,
}

impl Refusal {
    /// All refusals, by their numbers.
    pub const ALL: [Refusal; 9] = [
        Refusal::Size,
        Refusal::Number,
        Refusal::Ends,
        Refusal::Index,
        Refusal::EmptyFace,
        Refusal::Room,
        Refusal::Sides,
        Refusal::Unclosable,
        Refusal::Inexact,
    ];

    /// The refusal's number in the table of SCOPE 3: 1 to 6, 11, 12 and 15.
    pub const fn number(self) -> u8 {
        self as u8
    }

    /// The value where the archive answers 0, else the refusal.
    ///
    /// Panics at a number that no entry answers: then the archive is not Wegrusamt's.
    pub(crate) fn answer<T>(number: u8, value: T) -> Result<T, Refusal> {
        if number == 0 {
            return Ok(value);
        }
        let mut all = Refusal::ALL.into_iter();
        match all.find(|refusal| refusal.number() == number) {
            Some(refusal) => Err(refusal),
            None => panic!("the archive answers {number}, which is no refusal: is it Wegrusamt's?"),
        }
    }
}

impl fmt::Display for Refusal {
    fn fmt(&self, f: &mut fmt::Formatter<'_>) -> fmt::Result {
        let why = match self {
            Refusal::Size => "a list is empty, too long or not of whole points",
            Refusal::Number => "a number is NaN, infinite or above 2^40 in magnitude",
            Refusal::Ends => "the face ends fall, or the last is not the corner count",
            Refusal::Index => "a corner or face number is out of range",
            Refusal::EmptyFace => "a face has no corners",
            Refusal::Room => "a list that is written to is too short",
            Refusal::Sides => "a side does not occur exactly twice, or a face holds a vertex twice",
            Refusal::Unclosable => "no choice of faces to reverse closes the cell",
            Refusal::Inexact => "a coordinate less the local origin is not an f64",
        };
        write!(f, "refusal {}: {why}", self.number())
    }
}

impl Error for Refusal {}

/// Makes sure that a call was not refused, for entries that refuse nothing but a wrong length.
pub(crate) fn answered(number: u8) {
    if let Err(refusal) = Refusal::answer(number, ()) {
        panic!("the archive refuses what it takes ({refusal}): is it Wegrusamt's?");
    }
}
