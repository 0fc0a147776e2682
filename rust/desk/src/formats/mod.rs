//! The formats: for each a reader and a writer, in a file of its own with its tests.

pub mod cell;
pub mod obj;
pub mod off;
pub mod ply;
pub mod stl;
#[cfg(test)]
pub(crate) mod testing;
pub mod text;

use std::path::Path;

use crate::model::{BadFile, Drawing, Piece};

/// A format of files.
#[derive(Clone, Copy, Debug, PartialEq, Eq)]
pub enum Format {
    /// Wavefront OBJ.
    Obj,
    /// The Object File Format.
    Off,
    /// The polygon file format, text or binary.
    Ply,
    /// Stereolithography, text or binary.
    Stl,
    /// Records of 32 bytes (docs/FORMAT.md).
    Cell,
}

/// How numbers are written, where the format leaves a choice.
#[derive(Clone, Copy, Debug, Default, PartialEq, Eq, clap::ValueEnum)]
pub enum Encoding {
    /// Decimals.
    #[default]
    Text,
    /// Binary, the lowest byte first.
    Little,
    /// Binary, the highest byte first.
    Big,
}

/// A file as it is to be written.
#[derive(Clone, Debug, Default, PartialEq, Eq)]
pub struct Written {
    /// Its bytes.
    pub bytes: Vec<u8>,
    /// What it cannot hold, each as a sentence.
    pub told: Vec<String>,
}

impl Format {
    /// All formats.
    pub const ALL: [Format; 5] = [Format::Obj, Format::Off, Format::Ply, Format::Stl, Format::Cell];

    /// The ending of the names of its files.
    pub const fn ending(self) -> &'static str {
        match self {
            Format::Obj => "obj",
            Format::Off => "off",
            Format::Ply => "ply",
            Format::Stl => "stl",
            Format::Cell => "cell",
        }
    }

    /// The format of a file, by the ending of its name.
    pub fn of_path(path: &Path) -> Option<Format> {
        let ending = path.extension()?.to_str()?;
        let mut all = Format::ALL.into_iter();
        all.find(|format| format.ending().eq_ignore_ascii_case(ending))
    }

    /// What the bytes of a file hold: at least one cell, or why they cannot be read.
    pub fn read(self, bytes: &[u8]) -> Result<Drawing, BadFile> {
        let drawing = match self {
            Format::Obj => obj::read(bytes),
            Format::Off => off::read(bytes),
            Format::Ply => ply::read(bytes),
            Format::Stl => stl::read(bytes),
            Format::Cell => cell::read(bytes),
        }?;
        if drawing.pieces.is_empty() {
            // What is not read may be why.
            let note = drawing.notes.first().map_or(String::new(), |note| format!("; {note}"));
            return Err(BadFile::whole(format!("the file holds no cell{note}")));
        }
        Ok(drawing)
    }

    /// The cells as a file of this format, or why it cannot hold them.
    pub fn write(self, pieces: &[Piece], encoding: Encoding) -> Result<Written, String> {
        if encoding != Encoding::Text && !matches!(self, Format::Ply | Format::Stl) {
            return Err(format!(".{} files have no other encoding than their own", self.ending()));
        }
        if self != Format::Cell {
            corners_hold(pieces)?;
        }
        match self {
            Format::Obj => obj::write(pieces),
            Format::Off => off::write(pieces),
            Format::Ply => ply::write(pieces, encoding),
            Format::Stl => stl::write(pieces, encoding),
            Format::Cell => cell::write(pieces),
        }
    }
}

/// Makes sure that every corner names a vertex: of what is read, only a .cell file may break that.
fn corners_hold(pieces: &[Piece]) -> Result<(), String> {
    for piece in pieces {
        let vertices = piece.cell.points.len();
        for (face, corners) in piece.cell.as_cell().faces().enumerate() {
            if let Some(corner) = corners.iter().find(|&&corner| corner as usize >= vertices) {
                let number = piece.faces[face].number;
                return Err(format!("face {number} names vertex {corner}, and its cell has {vertices}"));
            }
        }
    }
    Ok(())
}

/// The one cell of a format that holds no more.
fn only_piece(pieces: &[Piece], format: Format) -> Result<&Piece, String> {
    match pieces {
        [piece] => Ok(piece),
        _ => Err(format!("a .{} file holds one cell, and these are {}", format.ending(), pieces.len())),
    }
}

/// What is told where query points are not carried over.
fn queries_told(pieces: &[Piece]) -> Vec<String> {
    let queries: usize = pieces.iter().map(|piece| piece.queries.len()).sum();
    let told = format!("query points are not carried over: {queries}");
    if queries == 0 { Vec::new() } else { vec![told] }
}

/// What is told where the name of a cell is not carried over.
fn name_told(piece: &Piece) -> Option<String> {
    piece.name.as_ref().map(|name| format!("the name '{name}' is not carried over"))
}
