//! A cell made ready for drawing: checked, moved to the origin and brought to a common size.

use std::array::from_fn;

use super::text::measure;
use super::views::Point;
use crate::findings::{Measured, ShortFace, Side};
use crate::model::Piece;
use crate::words::{Report, counted};

/// How many faces a drawn cell may have. The library's own limit is far below; this one is for
/// cells that it refuses.
const MOST_FACES: usize = 2_000;

/// How many vertices, and how many corners, a drawn cell may have, for the same reason.
const MOST_VERTICES: usize = 10_000;

/// A cell that can be drawn. Every number of a vertex or of a face in it is in range.
pub struct Scene<'a> {
    /// The points about the middle of their box, whose longest side is 1.
    pub points: Vec<Point>,
    /// How long that side is in the file; not finite where no f64 says it.
    pub unit: f64,
    /// The corners of each face.
    pub faces: Vec<&'a [u32]>,
    /// The torn sides.
    pub torn: Vec<Side>,
    /// The faces that lie against the others.
    pub against: Vec<usize>,
    /// The faces that are cut short.
    pub short: Vec<&'a ShortFace>,
    /// The vertices that no face names.
    pub lone: Vec<usize>,
    piece: &'a Piece,
}

impl<'a> Scene<'a> {
    /// The cell to be drawn, or nothing where no drawing of it could be true.
    pub fn of(drawn: &Report<'a>) -> Option<Scene<'a>> {
        let piece = drawn.piece;
        if !can_be_drawn(piece) {
            return None;
        }
        let (points, unit) = centred(&piece.cell.points);
        let faces: Vec<&[u32]> = piece.cell.as_cell().faces().collect();
        let lone = lone_vertices(points.len(), &faces);
        let (torn, against, short) = (Vec::new(), Vec::new(), Vec::new());
        let mut scene = Scene { points, unit, faces, torn, against, short, lone, piece };
        if let Ok(found) = drawn.findings {
            scene.mark(found);
        }
        Some(scene)
    }

    /// Takes over what was found, as far as it names vertices and faces of this cell.
    fn mark(&mut self, found: &'a Measured) {
        let (vertices, faces) = (self.points.len(), self.faces.len());
        let named = |vertex: &u32| (*vertex as usize) < vertices;
        let torn = found.torn.iter().copied();
        self.torn = torn.filter(|side| named(&side.from) && named(&side.to)).collect();
        self.against = found.against.iter().copied().filter(|&face| face < faces).collect();
        let short = found.short.iter();
        self.short = short.filter(|short| short.face < faces && short.left.iter().all(named)).collect();
    }

    /// The number of a vertex in the file.
    pub fn vertex_number(&self, vertex: u32) -> String {
        let number = self.piece.vertex_numbers.get(vertex as usize);
        number.map_or_else(|| "?".to_string(), u32::to_string)
    }

    /// The number of a face in the file.
    pub fn face_number(&self, face: usize) -> String {
        let place = self.piece.faces.get(face);
        place.map_or_else(|| "?".to_string(), |place| place.number.to_string())
    }

    /// The vertices at which torn sides end, each once, in their order.
    pub fn torn_vertices(&self) -> Vec<u32> {
        let mut ends: Vec<u32> = self.torn.iter().flat_map(|side| [side.from, side.to]).collect();
        ends.sort_unstable();
        ends.dedup();
        ends
    }

    /// The faces that bear a mark, each once, in their order.
    pub fn marked_faces(&self) -> Vec<usize> {
        let short = self.short.iter().map(|short| short.face);
        let mut marked: Vec<usize> = self.against.iter().copied().chain(short).collect();
        marked.sort_unstable();
        marked.dedup();
        marked
    }
}

/// Whether the lists of a cell hold together, are finite and are not too long.
fn can_be_drawn(piece: &Piece) -> bool {
    let cell = &piece.cell;
    let few =
        cell.ends.len() <= MOST_FACES && cell.points.len() <= MOST_VERTICES && cell.corners.len() <= MOST_VERTICES;
    few && !cell.points.is_empty()
        && cell.points.iter().flatten().all(|x| x.is_finite())
        && cell.corners.iter().all(|&corner| (corner as usize) < cell.points.len())
        && cell.ends.is_sorted()
        && cell.ends.last().copied().unwrap_or(0) as usize == cell.corners.len()
}

/// The points about the middle of their box, whose longest side becomes 1, and how long that is. The
/// box's corner is taken off first, so that a small cell far away keeps its shape.
fn centred(points: &[Point]) -> (Vec<Point>, f64) {
    // The difference of two of the largest numbers has no f64, that of their eighths has.
    let largest = points.iter().flatten().fold(0.0, |most: f64, x| most.max(x.abs()));
    let part = if largest > 1e300 { 0.125 } else { 1.0 };
    let coordinates = |k: usize| points.iter().map(move |point| point[k] * part);
    let low: Point = from_fn(|k| coordinates(k).fold(f64::INFINITY, f64::min));
    let high: Point = from_fn(|k| coordinates(k).fold(f64::NEG_INFINITY, f64::max));
    let unit = (0..3).map(|k| high[k] - low[k]).fold(0.0, f64::max);
    // All points at one place: there they stay, at the origin.
    let divisor = if unit > 0.0 { unit } else { 1.0 };
    let half: Point = from_fn(|k| (high[k] - low[k]) / divisor / 2.0);
    let place = |point: &Point| from_fn(|k| (point[k] * part - low[k]) / divisor - half[k]);
    (points.iter().map(place).collect(), unit / part)
}

/// The vertices that no face names.
fn lone_vertices(count: usize, faces: &[&[u32]]) -> Vec<usize> {
    let mut lone = vec![true; count];
    for &corner in faces.iter().copied().flatten() {
        lone[corner as usize] = false;
    }
    (0..count).filter(|&vertex| lone[vertex]).collect()
}

/// What a cell measures, in a line.
pub fn measures(drawn: &Report<'_>) -> String {
    let cell = &drawn.piece.cell;
    let mut parts = vec![counted(cell.points.len(), "vertex", "vertices"), counted(cell.ends.len(), "face", "faces")];
    if let Ok(found) = drawn.findings {
        parts.push(format!("volume {}", measure(found.volume)));
        parts.push(format!("closed {}", if found.closed { "yes" } else { "no" }));
        parts.push(format!("short {}", found.short.len()));
    }
    parts.join(", ")
}

/// What is wrong with a cell, in a line; empty where nothing is.
pub fn faults(drawn: &Report<'_>) -> String {
    let found = match drawn.findings {
        Ok(found) => found,
        Err(refusal) => return drawn.refused(*refusal),
    };
    let mut parts = Vec::new();
    for (count, one, more) in [
        (found.against.len(), "face against the others", "faces against the others"),
        (found.torn.len(), "torn side", "torn sides"),
        (found.short.len(), "face cut short", "faces cut short"),
    ] {
        if count > 0 {
            parts.push(counted(count, one, more));
        }
    }
    if found.unturnable.is_some() {
        parts.push("turning cannot close it".to_string());
    }
    parts.join(", ")
}

#[cfg(test)]
mod tests {
    use super::*;

    #[test]
    fn a_small_cell_far_away_keeps_its_shape() {
        let far = 2f64.powi(40) - 1.0;
        let (points, unit) = centred(&[[far, far, far], [far + 0.5, far + 0.25, far]]);
        assert_eq!(points, [[-0.5, -0.25, 0.0], [0.5, 0.25, 0.0]]);
        assert_eq!(unit, 0.5);
    }

    #[test]
    fn no_extent_and_the_largest_extent_stay_finite() {
        assert_eq!(centred(&[[7.0, 8.0, 9.0]]), (vec![[0.0; 3]], 0.0));
        let (points, unit) = centred(&[[f64::MAX, 0.0, 0.0], [-f64::MAX, 0.0, 0.0]]);
        assert_eq!(points, [[0.5, 0.0, 0.0], [-0.5, 0.0, 0.0]]);
        assert!(unit.is_infinite());
        let least = f64::from_bits(1);
        assert_eq!(centred(&[[0.0; 3], [0.0, 0.0, least]]).0, [[0.0, 0.0, -0.5], [0.0, 0.0, 0.5]]);
    }

    #[test]
    fn vertices_that_no_face_names_are_found() {
        assert_eq!(lone_vertices(5, &[&[0, 2, 3], &[2, 0]]), [1, 4]);
    }
}
