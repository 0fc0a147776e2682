//! What the tests of all formats share: random cells, damaged files, and when two cells are one.

use proptest::prelude::*;

use crate::model::{CornerWidth, Drawing, FacePlace, Piece};

/// A piece as a test by hand looks at it.
#[derive(Debug, PartialEq)]
pub struct Shape {
    /// Its name.
    pub name: Option<String>,
    /// The numbers of its vertices.
    pub vertex_numbers: Vec<u32>,
    /// The corners of each face.
    pub faces: Vec<Vec<u32>>,
}

impl Shape {
    /// The shape of a piece.
    pub fn of(piece: &Piece) -> Shape {
        Shape {
            name: piece.name.clone(),
            vertex_numbers: piece.vertex_numbers.clone(),
            faces: piece.cell.as_cell().faces().map(<[u32]>::to_vec).collect(),
        }
    }
}

/// Up to so many random cells: several are called `cell 1`, `cell 2`, .., one alone has no name.
/// Coordinates have any bits but those of a NaN.
pub fn cells(most: usize) -> impl Strategy<Value = Vec<Piece>> {
    let coordinate = any::<u64>().prop_map(f64::from_bits).prop_filter("no NaN", |x| !x.is_nan());
    let points = prop::collection::vec(prop::array::uniform3(coordinate), 1..8);
    let faces = prop::collection::vec(prop::collection::vec(any::<prop::sample::Index>(), 0..6), 0..6);
    prop::collection::vec((points, faces), 1..=most).prop_map(|cells| {
        let several = cells.len() > 1;
        let numbered = cells.into_iter().zip(1..);
        let named = numbered.map(|((points, faces), place)| {
            let name = several.then(|| format!("cell {place}"));
            Piece { name, ..piece(points, &faces) }
        });
        named.collect()
    })
}

fn piece(points: Vec<[f64; 3]>, faces: &[Vec<prop::sample::Index>]) -> Piece {
    let mut piece = Piece::default();
    for (number, face) in (0..).zip(faces) {
        let corners = face.iter().map(|corner| corner.index(points.len()) as u32);
        piece.cell.corners.extend(corners);
        piece.end_face(FacePlace { number, line: None, start: 0 });
    }
    piece.vertex_numbers = (0..points.len() as u32).collect();
    piece.cell.points = points;
    piece
}

/// Whether two lists of cells are the same, in every bit of every coordinate.
pub fn same_cells(left: &[Piece], right: &[Piece]) -> Result<(), TestCaseError> {
    prop_assert_eq!(left.len(), right.len());
    for (a, b) in left.iter().zip(right) {
        let bits = |piece: &Piece| piece.cell.points.iter().map(|point| point.map(f64::to_bits)).collect::<Vec<_>>();
        prop_assert_eq!(&a.name, &b.name);
        prop_assert_eq!(bits(a), bits(b));
        prop_assert_eq!(&a.cell.corners, &b.cell.corners);
        prop_assert_eq!(&a.cell.ends, &b.cell.ends);
        prop_assert_eq!(a.faces.len(), b.faces.len());
        prop_assert_eq!(b.corner_starts.len(), b.cell.corners.len());
        prop_assert_eq!(b.vertex_numbers.len(), b.cell.points.len());
    }
    Ok(())
}

/// A file with up to eight bytes or stretches changed, left out or put in.
pub fn damaged(file: &'static [u8]) -> impl Strategy<Value = Vec<u8>> {
    let change = (any::<prop::sample::Index>(), 0..4usize, prop::collection::vec(any::<u8>(), 0..5));
    prop::collection::vec(change, 1..8).prop_map(move |changes| {
        let mut bytes = file.to_vec();
        for (place, taken, put) in changes {
            let start = place.index(bytes.len() + 1);
            let end = (start + taken).min(bytes.len());
            bytes.splice(start..end, put);
        }
        bytes
    })
}

/// Makes sure that the lists of what was read fit each other and the file.
pub fn holds_together(drawing: &Drawing, bytes: &[u8]) -> Result<(), TestCaseError> {
    let width = match drawing.corner_width {
        CornerWidth::Bytes(width) => width,
        _ => 1,
    };
    for piece in &drawing.pieces {
        prop_assert_eq!(piece.vertex_numbers.len(), piece.cell.points.len());
        prop_assert_eq!(piece.cell.ends.len(), piece.faces.len());
        prop_assert_eq!(piece.cell.corners.len(), piece.corner_starts.len());
        prop_assert_eq!(piece.cell.ends.last().copied().unwrap_or(0) as usize, piece.cell.corners.len());
        let starts = &piece.corner_starts;
        prop_assert!(starts.windows(2).all(|pair| pair[0] + width <= pair[1]));
        prop_assert!(starts.iter().all(|start| start + width <= bytes.len()));
    }
    Ok(())
}

/// Makes sure, besides, that every corner names a vertex, as it does in all files but those of cells.
pub fn holds(drawing: &Drawing, bytes: &[u8]) -> Result<(), TestCaseError> {
    for piece in &drawing.pieces {
        let vertices = piece.cell.points.len();
        prop_assert!(piece.cell.corners.iter().all(|&corner| (corner as usize) < vertices));
    }
    holds_together(drawing, bytes)
}
