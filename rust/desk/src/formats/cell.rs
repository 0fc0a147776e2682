//! Cells as records of 32 bytes (docs/FORMAT.md).

use super::Written;
use super::text::{MOST_CELLS, numbered, too_many};
use crate::model::{BadFile, CornerWidth, Drawing, FacePlace, Piece};

/// The bytes of a record: a kind, seven zeros and three fields of eight bytes.
const RECORD: usize = 32;

const VERTEX: u8 = 1;
const CORNER: u8 = 2;
const FACE_END: u8 = 3;
const CELL_END: u8 = 4;
const QUERY: u8 = 5;

/// What a cell file holds.
pub fn read(bytes: &[u8]) -> Result<Drawing, BadFile> {
    let mut pieces = Vec::new();
    let mut reader = Reader::default();
    let records = bytes.chunks_exact(RECORD);
    let tail = records.remainder().len();
    for (place, record) in records.enumerate() {
        let start = place * RECORD;
        let taken = reader.take(record, start);
        let ended = taken.map_err(|what| BadFile::byte(start, format!("record {}: {what}", place + 1)))?;
        if ended && pieces.len() >= MOST_CELLS {
            return Err(BadFile::byte(start, too_many(MOST_CELLS, "cells")));
        }
        if ended {
            pieces.push(std::mem::take(&mut reader).piece);
        }
    }
    if tail != 0 {
        return Err(BadFile::byte(bytes.len() - tail, format!("{tail} bytes follow the last whole record")));
    }
    if reader != Reader::default() {
        return Err(BadFile::byte(bytes.len(), "the file ends in a cell that has no end"));
    }
    name_several(&mut pieces);
    Ok(Drawing { pieces, corner_width: CornerWidth::Bytes(8), ..Drawing::default() })
}

/// Gives names to the cells of a file that has several.
fn name_several(pieces: &mut [Piece]) {
    if pieces.len() > 1 {
        for (piece, place) in pieces.iter_mut().zip(1..) {
            piece.name = Some(format!("cell {place}"));
        }
    }
}

/// The cell that is being read, and the byte at which its open face starts.
#[derive(Default, PartialEq)]
struct Reader {
    piece: Piece,
    open: Option<usize>,
}

impl Reader {
    /// Takes a record, and says whether it ends the cell.
    fn take(&mut self, record: &[u8], start: usize) -> Result<bool, String> {
        let fields = fields(record)?;
        let piece = &mut self.piece;
        match record[0] {
            VERTEX => {
                piece.vertex_numbers.push(numbered(piece.cell.points.len(), 0));
                piece.cell.points.push(fields.map(f64::from_bits));
            }
            CORNER => {
                let corner =
                    u32::try_from(fields[0]).map_err(|_| format!("the corner {} is over 32 bits", fields[0]))?;
                piece.push_corner(corner, start + 8);
                self.open.get_or_insert(start);
            }
            FACE_END => {
                let start = self.open.take().unwrap_or(start);
                piece.end_face(FacePlace { number: numbered(piece.faces.len(), 0), line: None, start });
            }
            QUERY => piece.queries.push(fields.map(f64::from_bits)),
            _ if self.open.is_some() => return Err("the cell ends in an open face".to_string()),
            _ => return Ok(true),
        }
        Ok(false)
    }
}

/// The three fields of a record, where its kind is one and what must be 0 is.
fn fields(record: &[u8]) -> Result<[u64; 3], String> {
    let kind = record[0];
    let fields = [8, 16, 24].map(|at| u64::from_le_bytes(std::array::from_fn(|k| record[at + k])));
    let used = match kind {
        VERTEX | QUERY => 3,
        CORNER => 1,
        FACE_END | CELL_END => 0,
        _ => return Err(format!("{kind} is no kind of record")),
    };
    if record[1..8].iter().any(|&byte| byte != 0) || fields[used..].iter().any(|&field| field != 0) {
        return Err("a byte or field that must be 0 is not".to_string());
    }
    Ok(fields)
}

/// The cells as records: vertices, faces, query points, the end.
pub fn write(pieces: &[Piece]) -> Result<Written, String> {
    let mut bytes = Vec::new();
    let mut record = |kind: u8, fields: [u64; 3]| {
        bytes.extend_from_slice(&[kind, 0, 0, 0, 0, 0, 0, 0]);
        bytes.extend(fields.iter().flat_map(|field| field.to_le_bytes()));
    };
    for piece in pieces {
        piece.cell.points.iter().for_each(|point| record(VERTEX, point.map(f64::to_bits)));
        for face in piece.cell.as_cell().faces() {
            face.iter().for_each(|&corner| record(CORNER, [corner.into(), 0, 0]));
            record(FACE_END, [0; 3]);
        }
        piece.queries.iter().for_each(|point| record(QUERY, point.map(f64::to_bits)));
        record(CELL_END, [0; 3]);
    }
    let named =
        pieces.len() == 1 || pieces.iter().zip(1..).any(|(piece, place)| piece.name != Some(format!("cell {place}")));
    let lost = named && pieces.iter().any(|piece| piece.name.is_some());
    let told = if lost { vec!["names of cells are not carried over".to_string()] } else { Vec::new() };
    Ok(Written { bytes, told })
}

#[cfg(test)]
mod tests {
    use super::*;
    use crate::formats::testing::{cells, damaged, holds_together, same_cells};
    use proptest::prelude::*;

    fn record(kind: u8, fields: [u64; 3]) -> Vec<u8> {
        let fields = fields.into_iter().flat_map(u64::to_le_bytes);
        [kind, 0, 0, 0, 0, 0, 0, 0].into_iter().chain(fields).collect()
    }

    fn refusal(bytes: &[u8]) -> String {
        read(bytes).unwrap_err().to_string()
    }

    #[test]
    fn the_cube_of_the_examples() {
        let drawing = read(include_bytes!("../../../../examples/cube.cell")).unwrap();
        let piece = &drawing.pieces[0];
        assert_eq!((piece.cell.points.len(), piece.cell.ends.len(), piece.queries.len()), (8, 6, 1));
        assert_eq!(piece.name, None);
        assert_eq!(piece.faces[1], FacePlace { number: 1, line: None, start: 13 * 32 });
        assert_eq!(piece.corner_starts[0], 8 * 32 + 8);
    }

    #[test]
    fn each_example_is_written_as_it_is() {
        let examples: [&[u8]; 3] = [
            include_bytes!("../../../../examples/cube.cell"),
            include_bytes!("../../../../examples/ray-on-side.cell"),
            include_bytes!("../../../../examples/thin-and-far.cell"),
        ];
        for bytes in examples {
            let written = write(&read(bytes).unwrap().pieces).unwrap();
            assert_eq!((&written.bytes[..], written.told.len()), (bytes, 0));
        }
    }

    #[test]
    fn bad_records_are_told_with_their_byte() {
        let vertex = record(1, [0; 3]);
        let told = |second: Vec<u8>| refusal(&[vertex.clone(), second].concat());
        assert_eq!(told(record(6, [0; 3])), "byte 32: record 2: 6 is no kind of record");
        assert_eq!(told(record(2, [1 << 32, 0, 0])), "byte 32: record 2: the corner 4294967296 is over 32 bits");
        assert_eq!(told(record(2, [0, 0, 1])), "byte 32: record 2: a byte or field that must be 0 is not");
        assert_eq!(told(record(3, [0, 1 << 63, 0])), "byte 32: record 2: a byte or field that must be 0 is not");
        let open = [record(2, [0; 3]), record(4, [0; 3])].concat();
        assert_eq!(told(open), "byte 64: record 3: the cell ends in an open face");
        assert_eq!(told(vec![]), "byte 32: the file ends in a cell that has no end");
        assert_eq!(told(vec![0; 31]), "byte 32: 31 bytes follow the last whole record");
    }

    proptest! {
        #[test]
        fn what_is_written_reads_back(pieces in cells(3)) {
            let written = write(&pieces).unwrap();
            same_cells(&pieces, &read(&written.bytes).unwrap().pieces)?;
        }

        #[test]
        fn damage_is_no_panic(bytes in damaged(include_bytes!("../../../../examples/prism.cell"))) {
            if let Ok(drawing) = read(&bytes) {
                holds_together(&drawing, &bytes)?;
            }
        }
    }
}
