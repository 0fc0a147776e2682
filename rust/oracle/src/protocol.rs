//! One question a line, one answer a line.
//!
//! A question is the name of a function, then `plain`, `ruled` or `counted` if wanted (else
//! `plain`), then its arguments, all apart by spaces. An answer is the value; or `panic` when the
//! Rust panics; or `error` and the reason when the question cannot be read.

use std::str::SplitAsciiWhitespace;

use crate::{Cell, Shape};

/// Answers one line.
pub fn answer(line: &str) -> String {
    match crate::caught(|| dispatch(line)) {
        Some(Ok(value)) => value,
        Some(Err(reason)) => format!("error {reason}"),
        None => "panic".to_string(),
    }
}

fn dispatch(line: &str) -> Result<String, String> {
    let mut words = Words::new(line);
    let entry = words.next("the name of a function")?;
    match words.build() {
        Build::Plain => crate::plain::entries::answer(entry, words),
        Build::Ruled => crate::ruled::entries::answer(entry, words),
        Build::Counted => crate::counted::entries::answer(entry, words),
    }
}

enum Build {
    Plain,
    Ruled,
    Counted,
}

/// The words of a question that are not read yet.
pub(crate) struct Words<'a> {
    rest: SplitAsciiWhitespace<'a>,
}

impl<'a> Words<'a> {
    fn new(line: &'a str) -> Self {
        Words {
            rest: line.split_ascii_whitespace(),
        }
    }

    fn next(&mut self, wanted: &str) -> Result<&'a str, String> {
        self.rest
            .next()
            .ok_or_else(|| format!("the line ends where {wanted} should stand"))
    }

    /// Which build is asked. The word may be left out, so it is only taken when it is there.
    fn build(&mut self) -> Build {
        let mut after = self.rest.clone();
        let build = match after.next() {
            Some("plain") => Build::Plain,
            Some("ruled") => Build::Ruled,
            Some("counted") => Build::Counted,
            _ => return Build::Plain,
        };
        self.rest = after;
        build
    }

    pub(crate) fn read<T: Read>(&mut self) -> Result<T, String> {
        T::read(self)
    }

    /// Makes sure that the question holds no more words.
    pub(crate) fn end(&mut self) -> Result<(), String> {
        match self.rest.next() {
            None => Ok(()),
            Some(word) => Err(format!("`{word}` stands after the last argument")),
        }
    }
}

/// What can be read from the words of a question.
pub(crate) trait Read: Sized {
    fn read(words: &mut Words) -> Result<Self, String>;
}

impl Read for f64 {
    fn read(words: &mut Words) -> Result<Self, String> {
        let word = words.next("a number in 16 hex digits")?;
        let digits = word.len() == 16 && word.bytes().all(|b| b.is_ascii_hexdigit());
        u64::from_str_radix(word, 16)
            .ok()
            .filter(|_| digits)
            .map(f64::from_bits)
            .ok_or_else(|| format!("`{word}` is not a number in 16 hex digits"))
    }
}

fn whole<T: std::str::FromStr>(words: &mut Words) -> Result<T, String> {
    let word = words.next("a whole number")?;
    word.parse()
        .map_err(|_| format!("`{word}` is not a whole number in range"))
}

impl Read for usize {
    fn read(words: &mut Words) -> Result<Self, String> {
        whole(words)
    }
}

impl Read for u32 {
    fn read(words: &mut Words) -> Result<Self, String> {
        whole(words)
    }
}

impl Read for Shape {
    fn read(words: &mut Words) -> Result<Self, String> {
        match words.next("convex, concave or unknown")? {
            "convex" => Ok(Shape::Convex),
            "concave" => Ok(Shape::Concave),
            "unknown" => Ok(Shape::Unknown),
            word => Err(format!("`{word}` is not convex, concave or unknown")),
        }
    }
}

impl<T: Read + Copy + Default, const N: usize> Read for [T; N] {
    fn read(words: &mut Words) -> Result<Self, String> {
        let mut items = [T::default(); N];
        for item in &mut items {
            *item = T::read(words)?;
        }
        Ok(items)
    }
}

/// A list: its count, then its items.
impl<T: Read> Read for Vec<T> {
    fn read(words: &mut Words) -> Result<Self, String> {
        let count: usize = words.read()?;
        (0..count).map(|_| T::read(words)).collect()
    }
}

/// The lists of a cell: its points, its corners, its ends.
pub(crate) struct CellLists {
    points: Vec<[f64; 3]>,
    corners: Vec<u32>,
    ends: Vec<u32>,
}

impl CellLists {
    pub(crate) fn cell(&self) -> Cell<'_> {
        Cell {
            points: &self.points,
            corners: &self.corners,
            ends: &self.ends,
        }
    }
}

impl Read for CellLists {
    fn read(words: &mut Words) -> Result<Self, String> {
        Ok(CellLists {
            points: words.read()?,
            corners: words.read()?,
            ends: words.read()?,
        })
    }
}

/// What can be written as an answer.
pub(crate) trait Show {
    fn show(&self) -> String;
}

impl Show for f64 {
    fn show(&self) -> String {
        format!("{:016X}", self.to_bits())
    }
}

impl Show for bool {
    fn show(&self) -> String {
        self.to_string()
    }
}

impl Show for usize {
    fn show(&self) -> String {
        self.to_string()
    }
}

impl Show for u32 {
    fn show(&self) -> String {
        self.to_string()
    }
}

fn joined<T: Show>(items: &[T]) -> String {
    items.iter().map(T::show).collect::<Vec<_>>().join(" ")
}

impl<T: Show, const N: usize> Show for [T; N] {
    fn show(&self) -> String {
        joined(self)
    }
}

impl<T: Show> Show for Vec<T> {
    fn show(&self) -> String {
        match self.as_slice() {
            [] => "0".to_string(),
            items => format!("{} {}", items.len(), joined(items)),
        }
    }
}

impl<T: Show> Show for Option<T> {
    fn show(&self) -> String {
        match self {
            None => "none".to_string(),
            Some(value) => format!("some {}", value.show()),
        }
    }
}

impl<A: Show, B: Show> Show for (A, B) {
    fn show(&self) -> String {
        format!("{} {}", self.0.show(), self.1.show())
    }
}
