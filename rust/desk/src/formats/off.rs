//! The Object File Format: counts, a line for each vertex, a line for each face.

use super::text::{self, Line, Word, lines};
use super::{Format, Written, name_told, only_piece, queries_told};
use crate::model::{BadFile, Drawing, Piece};

/// The words with which a file may begin.
const HEADS: [&[u8]; 4] = [b"OFF", b"COFF", b"NOFF", b"CNOFF"];

/// What an OFF file holds.
pub fn read(bytes: &[u8]) -> Result<Drawing, BadFile> {
    let mut drawing = Drawing::default();
    if bytes.contains(&b'#') {
        drawing.pass_over("comments");
    }
    let mut rest = Rest { lines: lines(bytes), last: 0 };
    let [vertices, faces] = counts(&mut rest)?;
    let mut piece = Piece::default();
    for vertex in 0..vertices {
        let line = rest.line(|| format!("the file ends after {vertex} of {vertices} vertices"))?;
        take_vertex(&mut drawing, &mut piece, line)?;
    }
    for face in 0..faces {
        let line = rest.line(|| format!("the file ends after {face} of {faces} faces"))?;
        take_face(&mut drawing, &mut piece, line)?;
    }
    if let Some(line) = rest.next() {
        return Err(BadFile::line(line.number, format!("something follows the last of {faces} faces")));
    }
    drawing.pieces.push(piece);
    Ok(drawing)
}

/// The lines that say something and are not yet read.
struct Rest<I> {
    lines: I,
    last: usize,
}

impl<'a, I: Iterator<Item = Line<'a>>> Rest<I> {
    fn next(&mut self) -> Option<Line<'a>> {
        loop {
            let line = self.lines.next()?.before(b'#');
            self.last = line.number;
            if !line.bytes.trim_ascii().is_empty() {
                return Some(line);
            }
        }
    }

    /// The next line, or what is wrong where there is none.
    fn line(&mut self, what: impl FnOnce() -> String) -> Result<Line<'a>, BadFile> {
        self.next().ok_or_else(|| BadFile::line(self.last.max(1), what()))
    }
}

/// The counts of vertices and faces. They stand behind the first word, or on the next line.
fn counts<'a>(rest: &mut Rest<impl Iterator<Item = Line<'a>>>) -> Result<[usize; 2], BadFile> {
    let line = rest.line(|| "the file has no word OFF".to_string())?;
    let mut words = line.words();
    let head = words.next().filter(|word| HEADS.contains(&word.bytes));
    if head.is_none() {
        return Err(BadFile::line(line.number, "an OFF file begins with the word OFF, COFF, NOFF or CNOFF"));
    }
    let words: Vec<Word<'_>> = match words.next() {
        // A fourth word is one too many, and no more are looked at.
        Some(first) => std::iter::once(first).chain(words).take(4).collect(),
        None => rest.line(|| "the file has no counts".to_string())?.words().take(4).collect(),
    };
    if words.first().is_some_and(|word| word.bytes.eq_ignore_ascii_case(b"BINARY")) {
        return Err(BadFile::line(line.number, "a binary OFF file is not read"));
    }
    match words[..] {
        [vertices, faces] | [vertices, faces, _] => Ok([vertices.count()?, faces.count()?]),
        _ => Err(BadFile::line(rest.last, "the counts of vertices, faces and sides are wanted here")),
    }
}

/// Adds a vertex: three numbers, and what may follow them.
fn take_vertex(drawing: &mut Drawing, piece: &mut Piece, line: Line<'_>) -> Result<(), BadFile> {
    let before = piece.cell.points.len();
    text::within(before, text::MOST, "vertices", line.number)?;
    let mut words = line.words().peekable();
    piece.cell.points.push(text::point(line, &mut words)?);
    piece.vertex_numbers.push(text::numbered(before, 0));
    if words.peek().is_some() {
        drawing.pass_over("colours or normals of vertices");
    }
    text::only_numbers(words)
}

/// Adds a face: the count of its corners, their vertices, and what may follow them.
fn take_face(drawing: &mut Drawing, piece: &mut Piece, line: Line<'_>) -> Result<(), BadFile> {
    let (before, vertices) = (piece.faces.len(), piece.cell.points.len());
    text::within(before, text::MOST, "faces", line.number)?;
    let mut words = line.words().peekable();
    let corners = words.next().map_or(Ok(0), Word::count)?;
    for corner in 0..corners {
        text::within(piece.cell.corners.len(), text::MOST, "corners", line.number)?;
        let word = words.next();
        let few = || BadFile::line(line.number, format!("a face of {corners} corners has {corner}"));
        text::push_corner(piece, word.ok_or_else(few)?, vertices)?;
    }
    piece.end_face(text::face_place(before, 0, line));
    if words.peek().is_some() {
        drawing.pass_over("colours of faces");
    }
    text::only_numbers(words)
}

/// The cell as an OFF file. The count of sides is 0, which readers do not look at.
pub fn write(pieces: &[Piece]) -> Result<Written, String> {
    let piece = only_piece(pieces, Format::Off)?;
    text::no_nan(pieces)?;
    let head = format!("OFF\n{} {} 0\n", piece.cell.points.len(), piece.cell.ends.len());
    let out = head + &text::items_text(piece);
    let told = queries_told(pieces).into_iter().chain(name_told(piece)).collect();
    Ok(Written { bytes: out.into_bytes(), told })
}

#[cfg(test)]
mod tests {
    use super::*;
    use crate::formats::testing::{cells, damaged, holds, same_cells};
    use crate::model::FacePlace;
    use proptest::prelude::*;

    fn refusal(text: &str) -> String {
        read(text.as_bytes()).unwrap_err().to_string()
    }

    #[test]
    fn a_small_file() {
        let text = "COFF # colours\n3 1 3\n\n0 0 0 255 0 0\n1 0 0\n0 1 -0\r\n3  2 1 0 0.5 0.5\n# end\n";
        let drawing = read(text.as_bytes()).unwrap();
        let piece = &drawing.pieces[0];
        assert_eq!(piece.cell.points[2].map(f64::to_bits), [0.0, 1.0, -0.0f64].map(f64::to_bits));
        assert_eq!((&piece.cell.corners[..], &piece.cell.ends[..]), (&[2, 1, 0][..], &[3][..]));
        assert_eq!(piece.faces, [FacePlace { number: 0, line: Some(7), start: text.find("3  2").unwrap() }]);
        assert_eq!(piece.corner_starts.iter().map(|&at| &text[at..at + 1]).collect::<String>(), "210");
        let passed: Vec<&str> = drawing.passed_over.iter().map(String::as_str).collect();
        assert_eq!(passed, ["colours of faces", "colours or normals of vertices", "comments"]);
    }

    #[test]
    fn counts_may_stand_behind_the_word() {
        let piece = &read(b"OFF 1 2 0\n1 2 3\n0\n1 0\n").unwrap().pieces[0];
        assert_eq!(piece.cell.points, [[1.0, 2.0, 3.0]]);
        assert_eq!((&piece.cell.corners[..], &piece.cell.ends[..]), (&[0][..], &[0, 1][..]));
    }

    #[test]
    fn lies_are_told_with_their_line() {
        assert_eq!(refusal(""), "line 1: the file has no word OFF");
        assert_eq!(refusal("8 6 12\n"), "line 1: an OFF file begins with the word OFF, COFF, NOFF or CNOFF");
        assert_eq!(refusal("OFF BINARY\n"), "line 1: a binary OFF file is not read");
        assert_eq!(refusal("OFF\n3\n"), "line 2: the counts of vertices, faces and sides are wanted here");
        assert_eq!(refusal("OFF\n-3 1 0\n"), "line 2: '-3' is no count");
        assert_eq!(refusal("OFF\n9000000000 1 0\n0 0 0\n"), "line 3: the file ends after 1 of 9000000000 vertices");
        assert_eq!(refusal("OFF\n1 1 0\n0 0 0\n"), "line 3: the file ends after 0 of 1 faces");
        assert_eq!(refusal("OFF\n1 1 0\n0 0 0\n3 0 0\n"), "line 4: a face of 3 corners has 2");
        assert_eq!(refusal("OFF\n1 1 0\n0 0 0\n1 1\n"), "line 4: '1' is no vertex: the file has 1, from 0");
        assert_eq!(refusal("OFF\n1 1 0\n0 0 0 rock\n1 0\n"), "line 3: 'rock' is no number");
        assert_eq!(refusal("OFF\n1 1 0\n0 0 0\n1 0\n1 0\n"), "line 5: something follows the last of 1 faces");
    }

    proptest! {
        #[test]
        fn what_is_written_reads_back(pieces in cells(1)) {
            let written = write(&pieces).unwrap();
            same_cells(&pieces, &read(&written.bytes).unwrap().pieces)?;
        }

        #[test]
        fn damage_is_no_panic(bytes in damaged(b"OFF\n3 2 0\n0 0 0\n1 0 0\n0 1 0\n3 0 1 2 255\n3 2 1 0\n")) {
            if let Ok(drawing) = read(&bytes) {
                holds(&drawing, &bytes)?;
            }
        }
    }
}
