//! A file with its backward faces turned, and every other byte as it was.

use std::ops::Range;

use wegrusamt::{Cell, Refusal};

use crate::findings::against_the_others;
use crate::formats::{Format, stl};
use crate::model::{CornerWidth, Drawing, Piece};

/// What turning does to a cell.
#[derive(Clone, Debug, PartialEq, Eq)]
pub enum Turning {
    /// It is closed as it is.
    Closed,
    /// These faces are turned, and it is closed then.
    Turned(Vec<usize>),
    /// It is kept as it was: why.
    Kept(Refusal),
}

impl Turning {
    /// The faces that are turned.
    pub fn faces(&self) -> Vec<usize> {
        if let Turning::Turned(faces) = self { faces.clone() } else { Vec::new() }
    }
}

/// What turning does to a cell, as the library judges it.
pub fn turning(cell: Cell<'_>) -> Turning {
    let judged = cell.closed().and_then(|closed| if closed { Ok(Vec::new()) } else { against_the_others(cell) });
    match judged {
        Ok(faces) if faces.is_empty() => Turning::Closed,
        Ok(faces) => Turning::Turned(faces),
        Err(refusal) => Turning::Kept(refusal),
    }
}

/// The file with the faces of a piece turned that are named for it.
pub fn turned_file(bytes: &[u8], format: Format, drawing: &Drawing, faces: &[Vec<usize>]) -> Vec<u8> {
    let mut changes: Vec<(Range<usize>, Vec<u8>)> = Vec::new();
    for (piece, turned) in drawing.pieces.iter().zip(faces) {
        for &face in turned {
            changes.extend(reversed_corners(bytes, piece, face, drawing.corner_width));
            if format == Format::Stl {
                changes.extend(stl::turned_normal(bytes, &piece.faces[face]));
            }
        }
    }
    changes.sort_by_key(|(range, _)| range.start);
    let mut out = Vec::with_capacity(bytes.len());
    let mut done = 0;
    for (range, put) in changes {
        out.extend_from_slice(&bytes[done..range.start]);
        out.extend_from_slice(&put);
        done = range.end;
    }
    out.extend_from_slice(&bytes[done..]);
    out
}

/// The bytes of each corner of a face, and those of the corner that takes its place.
fn reversed_corners(bytes: &[u8], piece: &Piece, face: usize, width: CornerWidth) -> Vec<(Range<usize>, Vec<u8>)> {
    let starts = &piece.corner_starts[piece.corners_of(face)];
    let ranges = starts.iter().map(|&start| corner_bytes(bytes, start, width));
    let ranges: Vec<Range<usize>> = ranges.collect();
    let others = ranges.iter().rev().map(|range| bytes[range.clone()].to_vec());
    ranges.iter().cloned().zip(others).collect()
}

/// The bytes of the corner that starts here.
fn corner_bytes(bytes: &[u8], start: usize, width: CornerWidth) -> Range<usize> {
    let words = match width {
        CornerWidth::Bytes(count) => return start..start + count,
        CornerWidth::Word => 1,
        CornerWidth::ThreeWords => 3,
    };
    let mut end = start;
    for _ in 0..words {
        end += bytes[end..].iter().take_while(|byte| byte.is_ascii_whitespace()).count();
        end += bytes[end..].iter().take_while(|byte| in_word(**byte)).count();
    }
    start..end
}

/// Whether a byte goes on with a word: white space ends it, and so does what begins a comment or
/// continues a line.
fn in_word(byte: u8) -> bool {
    !byte.is_ascii_whitespace() && byte != b'#' && byte != b'\\'
}

#[cfg(test)]
mod tests {
    use super::*;

    /// A file whose faces 0 and 2 of the first piece are turned.
    fn turned(format: Format, file: &[u8]) -> Vec<u8> {
        let drawing = format.read(file).unwrap();
        let mut faces = vec![Vec::new(); drawing.pieces.len()];
        faces[0] = vec![0, 2];
        turned_file(file, format, &drawing, &faces)
    }

    #[test]
    fn words_of_different_lengths_change_places() {
        let file = "v 0 0 0\nv 1 0 0\nv 0 1 0\nf 1/10 2 3//7#c\nf 1 2 3\nf -1 \\\r\n1\\\n\t2 # d\n";
        let after = "v 0 0 0\nv 1 0 0\nv 0 1 0\nf 3//7 2 1/10#c\nf 1 2 3\nf 2 \\\r\n1\\\n\t-1 # d\n";
        assert_eq!(String::from_utf8(turned(Format::Obj, file.as_bytes())).unwrap(), after);
    }

    #[test]
    fn what_follows_the_corners_stays() {
        let file = "OFF\n3 3 0\n0 0 0\n1 0 0\n0 1 0\n3 0 1 2 255 0 0\n3 0 1 2\n4  0 1 2 2 9\n";
        let after = "OFF\n3 3 0\n0 0 0\n1 0 0\n0 1 0\n3 2 1 0 255 0 0\n3 0 1 2\n4  2 2 1 0 9\n";
        assert_eq!(String::from_utf8(turned(Format::Off, file.as_bytes())).unwrap(), after);
    }

    #[test]
    fn turning_twice_gives_the_file_back() {
        let file = include_bytes!("../../../examples/prism.cell");
        let once = turned(Format::Cell, file);
        assert_ne!(once, file);
        assert_eq!(turned(Format::Cell, &once), file);
    }
}
