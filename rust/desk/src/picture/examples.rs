//! Cells for the tests, each with what is to be found about it.

use wegrusamt::{CellBuf, Refusal};

use crate::findings::{Findings, Measured, ShortFace, Side};
use crate::model::{FacePlace, Piece};
use crate::words::Report;

/// A cell and what was found about it.
pub struct Example {
    /// Its name.
    pub title: &'static str,
    /// The cell.
    pub piece: Piece,
    /// What was found.
    pub findings: Findings,
}

impl Example {
    /// The example as it is handed to the picture.
    pub fn drawn(&self) -> Report<'_> {
        Report { file: self.title, piece: &self.piece, findings: &self.findings }
    }
}

/// A cell whose vertices and faces are numbered from 1, as in an OBJ file.
pub fn piece(cell: CellBuf) -> Piece {
    let vertex_numbers = (1..=cell.points.len() as u32).collect();
    let place = |number| FacePlace { number, line: None, start: 0 };
    let faces = (1..=cell.ends.len() as u32).map(place).collect();
    Piece { cell, vertex_numbers, faces, ..Piece::default() }
}

/// A cell in which nothing is wrong.
pub fn sound(volume: f64) -> Measured {
    Measured {
        volume,
        closed: true,
        against: Vec::new(),
        torn: Vec::new(),
        unturnable: None,
        short: Vec::new(),
        groups: 1,
        local: None,
    }
}

/// The sides of a ring, each as often as that.
pub fn torn(ring: &[u32], there: usize) -> Vec<Side> {
    let sides = crate::findings::sides(ring);
    sides.map(|(from, to)| Side { from, to, there, back: 0 }).collect()
}

const CUBE: [[u32; 4]; 6] = [[0, 3, 2, 1], [4, 5, 6, 7], [0, 1, 5, 4], [2, 3, 7, 6], [1, 2, 6, 5], [3, 0, 4, 7]];

fn block([x, y, z]: [f64; 3], [w, d, h]: [f64; 3]) -> Vec<[f64; 3]> {
    let foot = |z| [[x, y, z], [x + w, y, z], [x + w, y + d, z], [x, y + d, z]];
    [foot(z), foot(z + h)].concat()
}

/// The unit cube.
pub fn cube() -> Example {
    let cell = CellBuf::from_faces(block([0.0; 3], [1.0; 3]), CUBE);
    Example { title: "cube", piece: piece(cell), findings: Ok(sound(1.0)) }
}

/// The unit cube with its third face backward.
pub fn backward() -> Example {
    let mut faces = CUBE;
    faces[2].reverse();
    let cell = CellBuf::from_faces(block([0.0; 3], [1.0; 3]), faces);
    let found = Measured { closed: false, against: vec![2], torn: torn(&faces[2], 2), ..sound(2.0 / 3.0) };
    Example { title: "cube with a face backward", piece: piece(cell), findings: Ok(found) }
}

/// The unit cube without its lid.
pub fn open() -> Example {
    let faces = [CUBE[0], CUBE[2], CUBE[3], CUBE[4], CUBE[5]];
    let cell = CellBuf::from_faces(block([0.0; 3], [1.0; 3]), faces);
    let found =
        Measured { closed: false, torn: torn(&[7, 6, 5, 4], 1), unturnable: Some(Refusal::Sides), ..sound(5.0 / 6.0) };
    Example { title: "cube without lid", piece: piece(cell), findings: Ok(found) }
}

/// A thin box far away, of which a face is cut short.
pub fn far() -> Example {
    let cell = CellBuf::from_faces(block([8588590.0, 8529546.0, 2969498.0], [0.05, 0.25, 2.0]), CUBE);
    let short = vec![ShortFace { face: 3, triangles: 1, left: vec![2, 3, 7] }];
    let found = Measured { short, ..sound(0.0208) };
    Example { title: "thin box far away", piece: piece(cell), findings: Ok(found) }
}

/// A cell that the library refuses for an infinite coordinate.
pub fn infinite() -> Example {
    let mut example = cube();
    example.piece.cell.points[3][1] = f64::INFINITY;
    Example { title: "a refused cell", findings: Err(Refusal::Number), ..example }
}

/// A cell that the library refuses for its size and that can be drawn still: a tower of slices.
pub fn too_large() -> Example {
    let mut cell = CellBuf::new();
    for level in 0..80u32 {
        let slice = block([0.0, 0.0, f64::from(level)], [30.0, 20.0, 0.5]);
        let first = cell.points.len() as u32;
        cell.points.extend(slice);
        for face in CUBE {
            cell.push_face(&face.map(|corner| corner + first));
        }
    }
    Example { title: "too many vertices", piece: piece(cell), findings: Err(Refusal::Size) }
}
