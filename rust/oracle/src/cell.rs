//! What the flat functions take for a cell.

/// What is known of a cell's shape.
#[derive(Clone, Copy, Debug, PartialEq, Eq)]
pub enum Shape {
    Convex,
    Concave,
    Unknown,
}

/// A cell as SCOPE 2 lists it: vertices, corners, and where each face ends.
///
/// Face k is the stretch of `corners` from the previous end (0 for the first) up to `ends[k]`.
#[derive(Clone, Copy, Debug)]
pub struct Cell<'a> {
    pub points: &'a [[f64; 3]],
    pub corners: &'a [u32],
    pub ends: &'a [u32],
}

impl<'a> Cell<'a> {
    /// A cell over coordinates that stand one after another, three a vertex.
    ///
    /// Panics when they are not in threes: such a cell has no form in the Rust.
    pub fn flat(coords: &'a [f64], corners: &'a [u32], ends: &'a [u32]) -> Self {
        let (points, rest) = coords.as_chunks::<3>();
        assert!(rest.is_empty(), "coordinates are not in threes");
        Cell {
            points,
            corners,
            ends,
        }
    }
}
