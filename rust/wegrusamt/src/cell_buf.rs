//! A cell that owns its lists.

use crate::{Cell, Refusal, into_ccw, space, turn_faces};

/// A cell that owns its lists, to build one face by face, to turn its faces and to move it.
///
/// ```
/// use wegrusamt::CellBuf;
///
/// let mut cell = CellBuf::from_faces(
///     [[0.0; 3], [1.0, 0.0, 0.0], [0.0, 1.0, 0.0], [0.0, 0.0, 1.0]],
///     [[0, 1, 2], [0, 1, 3], [1, 2, 3], [2, 0, 3]],
/// );
/// assert!(!cell.as_cell().closed()?);
///
/// cell.into_ccw()?;
/// assert_eq!(cell.corners[..3], [2, 1, 0]);
/// assert!(cell.as_cell().closed()?);
/// # Ok::<(), wegrusamt::Refusal>(())
/// ```
#[derive(Clone, Debug, Default, PartialEq)]
pub struct CellBuf {
    /// The points, three coordinates each.
    pub points: Vec<[f64; 3]>,
    /// The corners of all faces, as numbers of points.
    pub corners: Vec<u32>,
    /// Where each face ends in the corners.
    pub ends: Vec<u32>,
}

impl CellBuf {
    /// A cell with no point and no face yet.
    pub fn new() -> Self {
        CellBuf::default()
    }

    /// The cell with these points and faces. Nothing is checked yet.
    pub fn from_faces<F: AsRef<[u32]>>(
        points: impl Into<Vec<[f64; 3]>>,
        faces: impl IntoIterator<Item = F>,
    ) -> Self {
        let mut cell = CellBuf::new();
        cell.points = points.into();
        for face in faces {
            cell.push_face(face.as_ref());
        }
        cell
    }

    /// Adds a face: its corners, and their end.
    pub fn push_face(&mut self, corners: &[u32]) {
        self.corners.extend_from_slice(corners);
        self.end_face();
    }

    /// Ends a face whose corners were pushed to the list one by one.
    pub fn end_face(&mut self) {
        // A corner list of that length is refused for its size, whatever its ends are.
        let end = u32::try_from(self.corners.len()).unwrap_or(u32::MAX);
        self.ends.push(end);
    }

    /// The cell over these lists, to ask.
    pub fn as_cell(&self) -> Cell<'_> {
        Cell::new(&self.points, &self.corners, &self.ends)
    }

    /// Turns the backward faces in the corner list, so that the cell becomes closed, and answers
    /// how many it reversed: see [`turn_faces()`].
    ///
    /// ```
    /// use wegrusamt::{CellBuf, Refusal};
    ///
    /// let mut cell = CellBuf::from_faces(
    ///     [[0.0; 3], [1.0, 0.0, 0.0], [0.0, 1.0, 0.0], [0.0, 0.0, 1.0]],
    ///     [[0, 2, 1], [3, 1, 0], [1, 2, 3], [2, 0, 3]],
    /// );
    /// assert_eq!(cell.turn_faces()?, 1);
    /// assert!(cell.as_cell().closed()?);
    ///
    /// // With a face too few there is a side that only one face has.
    /// let mut open = CellBuf::from_faces(cell.points.clone(), cell.as_cell().faces().take(3));
    /// assert_eq!(open.turn_faces(), Err(Refusal::Sides));
    /// # Ok::<(), Refusal>(())
    /// ```
    pub fn turn_faces(&mut self) -> Result<usize, Refusal> {
        turn_faces(&self.points, &mut self.corners, &self.ends)
    }

    /// Turns every face outward in the corner list: see [`into_ccw()`].
    pub fn into_ccw(&mut self) -> Result<(), Refusal> {
        into_ccw(&self.points, &mut self.corners, &self.ends)
    }

    /// Moves the points to a local origin, and answers the vector of whole numbers that was taken off
    /// each: see [`space::to_local()`].
    ///
    /// ```
    /// use wegrusamt::CellBuf;
    ///
    /// let foot = [[0.0, 0.0], [0.05, 0.0], [0.05, 0.25], [0.0, 0.25]];
    /// let at = |z| foot.map(|[x, y]| [8588590.0 + x, 8529546.0 + y, 2969498.0 + z]);
    /// let mut cell = CellBuf::from_faces(
    ///     [at(0.0), at(2.0)].concat(),
    ///     [[0, 3, 2, 1], [4, 5, 6, 7], [0, 1, 5, 4], [2, 3, 7, 6], [1, 2, 6, 5], [3, 0, 4, 7]],
    /// );
    /// // So far away a face is cut short, and its part of the volume is missing.
    /// assert_eq!(cell.as_cell().survey(&[])?.short, 1);
    ///
    /// assert_eq!(cell.to_local()?, [8588590.0, 8529546.0, 2969498.0]);
    /// let survey = cell.as_cell().survey(&[])?;
    /// assert_eq!((survey.short, survey.volume), (0, 0.02500000037252903));
    /// # Ok::<(), wegrusamt::Refusal>(())
    /// ```
    pub fn to_local(&mut self) -> Result<[f64; 3], Refusal> {
        space::to_local(&mut self.points)
    }
}
