//! What a file holds, in the words that all formats share.

use std::collections::BTreeSet;
use std::fmt;

use wegrusamt::CellBuf;

use crate::formats::text;

/// What a file holds.
#[derive(Clone, Debug, Default, PartialEq)]
pub struct Drawing {
    /// The cells, in the order in which the file begins them.
    pub pieces: Vec<Piece>,
    /// What the file has besides and no cell holds, each by a word: `convert` tells of it.
    pub passed_over: BTreeSet<String>,
    /// What the file has that may matter and is not read, each as a sentence: every command tells
    /// of it.
    pub notes: Vec<String>,
    /// How the bytes of one corner are found from where they start.
    pub corner_width: CornerWidth,
}

/// A cell of a file, and where its parts stand there.
#[derive(Clone, Debug, Default, PartialEq)]
pub struct Piece {
    /// The name that the file gives it; none for a whole file.
    pub name: Option<String>,
    /// The cell as the library takes it.
    pub cell: CellBuf,
    /// Its query points, which only .cell files have.
    pub queries: Vec<[f64; 3]>,
    /// The number in the file of each vertex.
    pub vertex_numbers: Vec<u32>,
    /// The number and the line of each face.
    pub faces: Vec<FacePlace>,
    /// The byte of the file at which each corner starts.
    pub corner_starts: Vec<usize>,
}

/// Where a face stands in its file.
#[derive(Clone, Copy, Debug, PartialEq, Eq)]
pub struct FacePlace {
    /// The number of the face, as its format counts.
    pub number: u32,
    /// The line on which it starts, in a text file.
    pub line: Option<u32>,
    /// The byte at which its record starts.
    pub start: usize,
}

/// How the bytes of one corner are found from where they start.
#[derive(Clone, Copy, Debug, Default, PartialEq, Eq)]
pub enum CornerWidth {
    /// One word of text.
    #[default]
    Word,
    /// Three words of text, with what stands between them.
    ThreeWords,
    /// So many bytes.
    Bytes(usize),
}

/// Why a file cannot be read, and where.
#[derive(Clone, Debug, PartialEq, Eq)]
pub struct BadFile {
    /// Where in the file.
    pub at: At,
    /// What was found there.
    pub what: String,
}

/// A place in a file.
#[derive(Clone, Copy, Debug, PartialEq, Eq)]
pub enum At {
    /// A line of a text file, counted from 1.
    Line(usize),
    /// A byte of a binary file, counted from 0.
    Byte(usize),
    /// The file as a whole.
    Whole,
}

impl Drawing {
    /// Adds a word for what is passed over.
    pub fn pass_over(&mut self, what: &str) {
        if !self.passed_over.contains(what) {
            self.passed_over.insert(what.to_string());
        }
    }

    /// A name that stands on a line, as it is shown. Where that is not what the file has, it is noted.
    pub fn name(&mut self, bytes: &[u8], line: usize) -> String {
        let name = text::name(bytes);
        if name.as_bytes() != bytes {
            let why = "has bytes that are no text in UTF-8, or that steer a terminal";
            self.notes.push(format!("line {line}: the name '{name}' {why}"));
        }
        name
    }
}

impl Piece {
    /// Adds a corner to the face that is being read, and the byte at which it starts.
    pub fn push_corner(&mut self, corner: u32, start: usize) {
        self.cell.corners.push(corner);
        self.corner_starts.push(start);
    }

    /// Adds a face whose corners have been pushed one by one.
    pub fn end_face(&mut self, place: FacePlace) {
        self.cell.end_face();
        self.faces.push(place);
    }

    /// The places of a face's corners in the corner list.
    pub fn corners_of(&self, face: usize) -> std::ops::Range<usize> {
        let start = if face == 0 { 0 } else { self.cell.ends[face - 1] };
        start as usize..self.cell.ends[face] as usize
    }
}

impl BadFile {
    /// What is wrong on a line.
    pub fn line(line: usize, what: impl Into<String>) -> BadFile {
        BadFile { at: At::Line(line), what: what.into() }
    }

    /// What is wrong at a byte.
    pub fn byte(byte: usize, what: impl Into<String>) -> BadFile {
        BadFile { at: At::Byte(byte), what: what.into() }
    }

    /// What is wrong with the file as a whole.
    pub fn whole(what: impl Into<String>) -> BadFile {
        BadFile { at: At::Whole, what: what.into() }
    }
}

impl fmt::Display for BadFile {
    fn fmt(&self, f: &mut fmt::Formatter<'_>) -> fmt::Result {
        match self.at {
            At::Line(line) => write!(f, "line {line}: {}", self.what),
            At::Byte(byte) => write!(f, "byte {byte}: {}", self.what),
            At::Whole => f.write_str(&self.what),
        }
    }
}

impl std::error::Error for BadFile {}
