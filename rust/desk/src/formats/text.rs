//! Lines, words and numbers of text files.

use crate::model::{BadFile, FacePlace, Piece};

/// A line of a text file, without its end.
#[derive(Clone, Copy, Debug, PartialEq, Eq)]
pub struct Line<'a> {
    /// Its number, from 1.
    pub number: usize,
    /// The byte at which it starts.
    pub start: usize,
    /// Its bytes.
    pub bytes: &'a [u8],
}

/// A word: what stands between two stretches of white space.
#[derive(Clone, Copy, Debug, PartialEq, Eq)]
pub struct Word<'a> {
    /// The line on which it stands.
    pub line: usize,
    /// The byte of the file at which it starts.
    pub start: usize,
    /// Its bytes.
    pub bytes: &'a [u8],
}

/// What some editors put before a text in UTF-8. It says nothing.
const BYTE_ORDER_MARK: &[u8] = b"\xef\xbb\xbf";

/// The byte at which the text of a file starts.
pub fn text_start(bytes: &[u8]) -> usize {
    if bytes.starts_with(BYTE_ORDER_MARK) { BYTE_ORDER_MARK.len() } else { 0 }
}

/// The lines of a file. A line feed ends one, a carriage return, or both together.
pub fn lines(bytes: &[u8]) -> impl Iterator<Item = Line<'_>> {
    let mut start = text_start(bytes);
    (1..).map_while(move |number| {
        let next = next_line(bytes, start);
        let line = Line { number, start, bytes: bytes[start..next].trim_ascii_end() };
        let more = start < next;
        start = next;
        more.then_some(line)
    })
}

/// How many lines end in these bytes.
pub fn line_ends(bytes: &[u8]) -> usize {
    let returns = bytes.iter().enumerate().filter(|&(at, &byte)| byte == b'\r' && bytes.get(at + 1) != Some(&b'\n'));
    bytes.iter().filter(|&&byte| byte == b'\n').count() + returns.count()
}

/// The byte at which the line ends that goes on here, and the next one starts.
pub fn next_line(bytes: &[u8], start: usize) -> usize {
    let rest = &bytes[start..];
    match rest.iter().position(|byte| matches!(byte, b'\n' | b'\r')) {
        Some(at) if rest[at..].starts_with(b"\r\n") => start + at + 2,
        Some(at) => start + at + 1,
        None => bytes.len(),
    }
}

impl<'a> Line<'a> {
    /// The line up to a byte that begins a comment.
    pub fn before(self, comment: u8) -> Line<'a> {
        let end = self.bytes.iter().position(|&byte| byte == comment);
        Line { bytes: &self.bytes[..end.unwrap_or(self.bytes.len())], ..self }
    }

    /// The words of the line.
    pub fn words(self) -> impl Iterator<Item = Word<'a>> {
        let mut at = 0;
        std::iter::from_fn(move || {
            let rest = &self.bytes[at..];
            let skipped = rest.iter().position(|byte| !byte.is_ascii_whitespace())?;
            let rest = &rest[skipped..];
            let length = rest.iter().position(u8::is_ascii_whitespace).unwrap_or(rest.len());
            let start = self.start + at + skipped;
            at += skipped + length;
            Some(Word { line: self.number, start, bytes: &rest[..length] })
        })
    }
}

impl<'a> Word<'a> {
    /// The word as a message shows it: no longer than 40 characters, in quotation marks.
    pub fn shown(self) -> String {
        let text: String = String::from_utf8_lossy(self.bytes).chars().take(41).collect();
        let cut: String = text.chars().take(40).flat_map(char::escape_default).collect();
        if text.chars().count() > 40 { format!("'{cut}..'") } else { format!("'{cut}'") }
    }

    /// What is wrong with this word.
    pub fn bad(self, what: impl AsRef<str>) -> BadFile {
        BadFile::line(self.line, format!("{} {}", self.shown(), what.as_ref()))
    }

    /// The word as the nearest f64.
    pub fn number(self) -> Result<f64, BadFile> {
        let text = std::str::from_utf8(self.bytes).ok();
        text.and_then(|text| text.parse().ok()).ok_or_else(|| self.bad("is no number"))
    }

    /// The word as a whole number.
    pub fn whole(self) -> Result<i64, BadFile> {
        let text = std::str::from_utf8(self.bytes).ok();
        text.and_then(|text| text.parse().ok()).ok_or_else(|| self.bad("is no whole number"))
    }

    /// The word as a count: a whole number that is not below 0.
    pub fn count(self) -> Result<usize, BadFile> {
        usize::try_from(self.whole()?).map_err(|_| self.bad("is no count"))
    }
}

/// The next three words as a point.
pub fn point<'a>(line: Line<'a>, words: &mut impl Iterator<Item = Word<'a>>) -> Result<[f64; 3], BadFile> {
    let mut point = [0.0; 3];
    for coordinate in &mut point {
        let word = words.next();
        let word = word.ok_or_else(|| BadFile::line(line.number, "a point needs three numbers"))?;
        *coordinate = word.number()?;
    }
    Ok(point)
}

/// The most vertices, faces and corners of a file: 2^24. Two bytes of a text can stand for a face, and a face takes some
/// eighty bytes of memory, so that memory would go far beyond the file without it.
pub const MOST: usize = 1 << 24;

/// The most cells of a file: 2^20. A cell takes some hundreds of bytes of memory, whatever it holds.
pub const MOST_CELLS: usize = 1 << 20;

/// Makes sure that a file that has so many already may have one more.
pub fn within(count: usize, most: usize, what: &str, line: usize) -> Result<(), BadFile> {
    if count < most { Ok(()) } else { Err(BadFile::line(line, too_many(most, what))) }
}

/// What is told of a file that has more than it may.
pub fn too_many(most: usize, what: &str) -> String {
    format!("the file has more than {most} {what}")
}

/// Makes sure that the words behind what is read are numbers, as colours and weights are.
pub fn only_numbers<'a>(words: impl Iterator<Item = Word<'a>>) -> Result<(), BadFile> {
    words.map(Word::number).try_for_each(|number| number.map(|_| ()))
}

/// Adds a corner, by its word, to the face that is being read. The vertices of the file are counted
/// from 0, and there are so many.
pub fn push_corner(piece: &mut Piece, word: Word<'_>, vertices: usize) -> Result<(), BadFile> {
    let corner = vertex(word.whole()?, vertices).map_err(|what| word.bad(what))?;
    piece.push_corner(corner, word.start);
    Ok(())
}

/// The vertex of this number, of so many that are counted from 0; or what is wrong with it.
pub fn vertex(number: i64, vertices: usize) -> Result<u32, String> {
    let vertex = u32::try_from(number).ok().filter(|&vertex| (vertex as usize) < vertices);
    vertex.ok_or_else(|| format!("is no vertex: the file has {vertices}, from 0"))
}

/// Where a face stands that has so many before it.
pub fn face_place(before: usize, first: u32, line: Line<'_>) -> FacePlace {
    FacePlace { number: numbered(before, first), line: Some(numbered(line.number, 0)), start: line.start }
}

/// The number of the thing that has so many before it, where counting starts at `first`.
pub fn numbered(before: usize, first: u32) -> u32 {
    // A file that may be read has fewer than 2^32 bytes.
    u32::try_from(before).unwrap_or(u32::MAX).saturating_add(first)
}

/// A name of the file as it is shown. A character that would steer a terminal, and bytes that are no UTF-8, become
/// the mark for what cannot be shown.
pub fn name(bytes: &[u8]) -> String {
    String::from_utf8_lossy(bytes).replace(char::is_control, "\u{fffd}")
}

/// The shortest decimals that read back as the same f64.
pub fn decimals(number: f64) -> String {
    let text = format!("{number:?}");
    text.strip_suffix(".0").map(str::to_string).unwrap_or(text)
}

/// A point as three decimals.
pub fn point_text(point: [f64; 3]) -> String {
    point.map(decimals).join(" ")
}

/// A line for each vertex, and for each face its count and its corners: the items of OFF and of PLY.
pub fn items_text(piece: &Piece) -> String {
    let points = piece.cell.points.iter().map(|&point| point_text(point) + "\n");
    let faces = piece.cell.as_cell().faces().map(|face| {
        let corners: String = face.iter().map(|corner| format!(" {corner}")).collect();
        format!("{}{corners}\n", face.len())
    });
    points.chain(faces).collect()
}

/// Makes sure that decimals can say every coordinate: a NaN has bits that they do not.
pub fn no_nan(pieces: &[Piece]) -> Result<(), String> {
    for piece in pieces {
        let mut points = piece.cell.points.iter();
        if let Some(vertex) = points.position(|point| point.iter().any(|x| x.is_nan())) {
            let number = piece.vertex_numbers[vertex];
            return Err(format!(
                "vertex {number} has a coordinate that is no number, and decimals cannot keep its bits"
            ));
        }
    }
    Ok(())
}

#[cfg(test)]
mod tests {
    use super::*;
    use proptest::prelude::*;

    #[test]
    fn lines_know_their_numbers_and_places() {
        let found: Vec<_> = lines(b"ab \r\n\nc\rd\r\re").map(|l| (l.number, l.start, l.bytes)).collect();
        assert_eq!(found, [(1, 0, &b"ab"[..]), (2, 5, b""), (3, 6, b"c"), (4, 8, b"d"), (5, 10, b""), (6, 11, b"e")]);
    }

    #[test]
    fn a_byte_order_mark_is_passed_over() {
        let found: Vec<_> = lines(b"\xef\xbb\xbfv 1\nv").map(|l| (l.number, l.start, l.bytes)).collect();
        assert_eq!(found, [(1, 3, &b"v 1"[..]), (2, 7, b"v")]);
    }

    #[test]
    fn words_know_their_places() {
        let line = Line { number: 3, start: 10, bytes: b"  f 1\t22 # x" };
        let found: Vec<_> = line.before(b'#').words().map(|w| (w.start, w.bytes)).collect();
        assert_eq!(found, [(12, &b"f"[..]), (14, b"1"), (16, b"22")]);
    }

    #[test]
    fn a_file_may_have_so_many_and_no_more() {
        assert_eq!(within(6, 7, "faces", 3), Ok(()));
        assert_eq!(within(7, 7, "faces", 3).unwrap_err().to_string(), "line 3: the file has more than 7 faces");
    }

    #[test]
    fn a_long_word_is_shown_in_part() {
        let bytes = [b'x'; 50];
        let word = Word { line: 1, start: 0, bytes: &bytes };
        assert_eq!(word.shown(), format!("'{}..'", "x".repeat(40)));
    }

    #[test]
    fn a_name_steers_no_terminal() {
        assert_eq!(name("Süd\x1b[2J\t1".as_bytes()), "Süd\u{fffd}[2J\u{fffd}1");
        assert_eq!(name(b"a\xffb"), "a\u{fffd}b");
    }

    #[test]
    fn decimals_are_short() {
        let cases = [(1.0, "1"), (-0.0, "-0"), (0.1, "0.1"), (1e300, "1e300"), (f64::INFINITY, "inf")];
        for (number, text) in cases {
            assert_eq!(decimals(number), text);
        }
    }

    proptest! {
        #[test]
        fn decimals_read_back(bits: u64) {
            let number = f64::from_bits(bits);
            prop_assume!(!number.is_nan());
            prop_assert_eq!(decimals(number).parse::<f64>().unwrap().to_bits(), bits);
        }
    }
}
