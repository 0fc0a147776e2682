//! Which refusal SCOPE 3 gives: the checks 1 to 5 in their order. Where a call has more than one
//! input, `or_else` puts the checks of one behind those of another.

use crate::cells::Cell;
use crate::limits::{
    FACE_END, LARGEST, LONGEST_LIST, LONGEST_WORK, MOST_CORNERS, MOST_FACES, MOST_PLANES,
    MOST_POINTS, MOST_QUERIES, MOST_VERTICES,
};

/// The number of the first check that the cell fails. Check 5 is made only where it is asked for.
pub fn of_cell(cell: &Cell, empty_faces_too: bool) -> Option<u8> {
    let too_long = cell.ends.len() > MOST_FACES || cell.corners.len() > MOST_CORNERS;
    let points = of_points(&cell.coords);
    if too_long {
        Some(1)
    } else if points.is_some() {
        points
    } else if has_bad_ends(cell) {
        Some(3)
    } else if has_bad_corner(cell) {
        Some(4)
    } else if empty_faces_too && has_empty_face(cell) {
        Some(5)
    } else {
        None
    }
}

/// The checks 1 to 4 of a cell and of a face's number.
pub fn of_face(cell: &Cell, face: u32) -> Option<u8> {
    of_cell(cell, false).or((face as usize >= cell.ends.len()).then_some(4))
}

/// The checks 1 to 4 of a cell and of query points, whose size is judged with the cell's and whose
/// values with its coordinates.
pub fn of_queries(cell: &Cell, queries: &[f64]) -> Option<u8> {
    let bad_size = !queries.len().is_multiple_of(3) || queries.len() / 3 > MOST_QUERIES;
    match of_cell(cell, false) {
        _ if bad_size => Some(1),
        Some(1) => Some(1),
        _ if has_bad_number(queries) => Some(2),
        refusal => refusal,
    }
}

/// The checks of faces in one list, with marks after them, and of a query point.
pub fn of_marked(coords: &[f64], list: &[u32], query: [f64; 3]) -> Option<u8> {
    let vertices = coords.len() / 3;
    let strays = |&corner: &u32| corner != FACE_END && corner as usize >= vertices;
    match of_points(coords) {
        Some(1) => Some(1),
        _ if list.len() > LONGEST_LIST => Some(1),
        Some(2) => Some(2),
        _ if has_bad_number(&query) => Some(2),
        _ if list.iter().any(strays) => Some(4),
        _ => None,
    }
}

/// The size of a list of planes.
pub fn of_planes(planes: &[f64]) -> Option<u8> {
    let bad_size = !planes.len().is_multiple_of(4) || planes.len() / 4 > MOST_PLANES;
    bad_size.then_some(1)
}

/// The sizes of work lists, which are judged with the first input's.
pub fn of_work(lengths: [usize; 2]) -> Option<u8> {
    lengths
        .iter()
        .any(|&length| length > LONGEST_WORK)
        .then_some(1)
}

/// A list of points in space.
pub fn of_points(coords: &[f64]) -> Option<u8> {
    let vertices = coords.len() / 3;
    let bad_size = !coords.len().is_multiple_of(3) || vertices == 0 || vertices > MOST_VERTICES;
    of_numbers(bad_size, coords)
}

/// A list of points in the plane.
pub fn of_points2(numbers: &[f64]) -> Option<u8> {
    let bad_size = !numbers.len().is_multiple_of(2) || numbers.len() / 2 > MOST_POINTS;
    of_numbers(bad_size, numbers)
}

fn of_numbers(bad_size: bool, numbers: &[f64]) -> Option<u8> {
    if bad_size {
        Some(1)
    } else if has_bad_number(numbers) {
        Some(2)
    } else {
        None
    }
}

fn has_bad_number(numbers: &[f64]) -> bool {
    numbers.iter().any(|&value| is_bad_number(value))
}

/// Whether a coordinate or a query value is refused.
pub fn is_bad_number(value: f64) -> bool {
    !value.is_finite() || value.abs() > LARGEST
}

/// Whether the ends fall, or the last is not the corner count.
pub fn has_bad_ends(cell: &Cell) -> bool {
    let last = cell.ends.last().copied().unwrap_or(0);
    !cell.ends.is_sorted() || last as usize != cell.corners.len()
}

fn has_bad_corner(cell: &Cell) -> bool {
    let vertices = cell.coords.len() / 3;
    cell.corners
        .iter()
        .any(|&corner| corner as usize >= vertices)
}

fn has_empty_face(cell: &Cell) -> bool {
    let starts = std::iter::once(&0).chain(&cell.ends);
    starts.zip(&cell.ends).any(|(start, end)| start == end)
}
