//! Wavefront OBJ: objects or groups of faces over one list of vertices.

use std::collections::{BTreeSet, HashMap, HashSet};

use super::text::{self, Line, Word, lines};
use super::{Written, queries_told};
use crate::model::{BadFile, Drawing, FacePlace, Piece};

/// Keywords that say nothing about points and faces, but how they look.
const LOOKS: &str = "vn vt l p s usemtl mtllib mg bevel c_interp d_interp lod usemap maplib shadow_obj trace_obj";

/// The name of an object or group that is given none.
const NO_NAME: &[u8] = b"default";

/// The most numbers of a vertex: its place, a weight, and three of a colour.
const MOST_NUMBERS: usize = 7;

/// The most keywords that are told of.
const MOST_TOLD: usize = 10;

/// What an OBJ file holds.
pub fn read(bytes: &[u8]) -> Result<Drawing, BadFile> {
    let mut reader = Reader::default();
    let mut lines = lines(bytes);
    while let Some(line) = lines.next() {
        match line.words().next().map(|word| word.bytes) {
            Some(b"o") => reader.begin(Parts::Objects, line)?,
            Some(b"g") => reader.begin(Parts::Groups, line)?,
            _ => reader.take(line, &mut lines)?,
        }
    }
    reader.finish()
}

/// The two ways in which a file is divided into parts.
#[derive(Clone, Copy)]
enum Parts {
    Objects,
    Groups,
}

/// The names of the parts of one kind. A part has the place of its name, plus 1; 0 is what stands before the first.
#[derive(Default)]
struct Names {
    all: Vec<String>,
    places: HashMap<Vec<u8>, u32>,
}

/// What has been read so far. Which kind of parts are cells is known only at the end, so each vertex and each face
/// keeps the part of both kinds in which it stands.
#[derive(Default)]
struct Reader {
    drawing: Drawing,
    names: [Names; 2],
    current: [u32; 2],
    vertices: Vec<[f64; 3]>,
    vertex_parts: Vec<[u32; 2]>,
    corners: Vec<u32>,
    corner_starts: Vec<usize>,
    ends: Vec<usize>,
    face_places: Vec<FacePlace>,
    face_parts: Vec<[u32; 2]>,
    not_read: BTreeSet<Vec<u8>>,
}

impl Reader {
    /// Goes on with the part that the line names.
    fn begin(&mut self, kind: Parts, line: Line<'_>) -> Result<(), BadFile> {
        let name = line.bytes.trim_ascii_start()[1..].trim_ascii();
        let name = if name.is_empty() { NO_NAME } else { name };
        let Names { all, places } = &mut self.names[kind as usize];
        if let Some(&place) = places.get(name) {
            self.current[kind as usize] = place;
            return Ok(());
        }
        text::within(all.len(), text::MOST_CELLS, "objects or groups", line.number)?;
        all.push(self.drawing.name(name, line.number));
        let place = text::numbered(all.len(), 0);
        places.insert(name.to_vec(), place);
        self.current[kind as usize] = place;
        Ok(())
    }

    /// Takes a line, and those that continue it.
    fn take<'a>(&mut self, line: Line<'a>, rest: &mut impl Iterator<Item = Line<'a>>) -> Result<(), BadFile> {
        // Of what is not read only the keyword is looked at, so a long line of it takes no room.
        let keyword = line.words().next().map_or(&b""[..], |word| word.bytes);
        let unread = !matches!(keyword.strip_suffix(b"\\").unwrap_or(keyword), b"v" | b"f" | b"");
        let most = if unread { 1 } else { text::MOST + 2 };
        let mut words = Vec::new();
        let mut part = line;
        loop {
            let said = part.before(b'#');
            let commented = said.bytes.len() < part.bytes.len();
            if commented {
                self.drawing.pass_over("comments");
            }
            let goes_on = if commented { None } else { said.bytes.strip_suffix(b"\\") };
            let said = Line { bytes: goes_on.unwrap_or(said.bytes), ..said };
            words.extend(said.words().take(most.saturating_sub(words.len())));
            if goes_on.is_none() {
                break;
            }
            part = rest.next().ok_or_else(|| BadFile::line(part.number, "the file ends in a line that goes on"))?;
        }
        match words.split_first() {
            Some((keyword, words)) => self.take_words(line, *keyword, words),
            None => Ok(()),
        }
    }

    fn take_words(&mut self, line: Line<'_>, keyword: Word<'_>, words: &[Word<'_>]) -> Result<(), BadFile> {
        match keyword.bytes {
            b"v" => self.take_vertex(line, words)?,
            b"f" => self.take_face(line, words)?,
            other => match LOOKS.split(' ').find(|known| known.as_bytes() == other) {
                Some(known) => self.drawing.pass_over(known),
                None => self.tell_of(keyword),
            },
        }
        Ok(())
    }

    fn take_vertex(&mut self, line: Line<'_>, words: &[Word<'_>]) -> Result<(), BadFile> {
        text::within(self.vertices.len(), text::MOST, "vertices", line.number)?;
        self.vertices.push(text::point(line, &mut words.iter().copied())?);
        self.vertex_parts.push(self.current);
        if let Some(word) = words.get(MOST_NUMBERS) {
            return Err(word.bad(format!("is one too many: a vertex has at most {MOST_NUMBERS} numbers")));
        }
        if words.len() > 3 {
            text::only_numbers(words[3..].iter().copied())?;
            self.drawing.pass_over("weights or colours of vertices");
        }
        Ok(())
    }

    fn take_face(&mut self, line: Line<'_>, words: &[Word<'_>]) -> Result<(), BadFile> {
        text::within(self.ends.len(), text::MOST, "faces", line.number)?;
        // All but the last corner are those that it has already.
        text::within((self.corners.len() + words.len()).saturating_sub(1), text::MOST, "corners", line.number)?;
        for &word in words {
            self.corners.push(corner(word, self.vertices.len())?);
            self.corner_starts.push(word.start);
        }
        self.face_places.push(text::face_place(self.ends.len(), 1, line));
        self.face_parts.push(self.current);
        self.ends.push(self.corners.len());
        Ok(())
    }

    /// Notes a keyword that is not read, once; of many the first ten.
    fn tell_of(&mut self, keyword: Word<'_>) {
        let told = self.not_read.len();
        if told > MOST_TOLD || !self.not_read.insert(keyword.bytes.to_vec()) {
            return;
        }
        let what = if told < MOST_TOLD { keyword.shown() } else { "a further keyword".to_string() };
        self.drawing.notes.push(format!("line {}: {what} is not read", keyword.line));
    }

    /// Which kind of parts are the cells: objects where there are any, else groups.
    fn kind(&self) -> usize {
        usize::from(self.names[Parts::Objects as usize].all.is_empty())
    }

    fn finish(mut self) -> Result<Drawing, BadFile> {
        self.judge_corners()?;
        let kind = self.kind();
        if kind == Parts::Objects as usize && !self.names[Parts::Groups as usize].all.is_empty() {
            self.drawing.pass_over("groups");
        }
        let mut pieces = self.pieces_with_vertices(kind);
        let mut start = 0;
        for (face, &end) in self.ends.iter().enumerate() {
            let piece = &mut pieces[self.face_parts[face][kind] as usize];
            for place in start..end {
                // The vertices of a piece stand in the order of the file, and hold every corner.
                let number = self.corners[place] + 1;
                let corner = piece.vertex_numbers.partition_point(|&other| other < number);
                piece.push_corner(text::numbered(corner, 0), self.corner_starts[place]);
            }
            piece.end_face(self.face_places[face]);
            start = end;
        }
        pieces.retain(|piece| !piece.faces.is_empty() || !piece.cell.points.is_empty());
        self.drawing.pieces = pieces;
        Ok(self.drawing)
    }

    /// Makes sure that every corner names a vertex of the file: it may come after the face.
    fn judge_corners(&self) -> Result<(), BadFile> {
        let count = self.vertices.len();
        let Some(place) = self.corners.iter().position(|&corner| corner as usize >= count) else {
            return Ok(());
        };
        let face = self.ends.partition_point(|&end| end <= place);
        let line = self.face_places[face].line.unwrap_or_default();
        let number = u64::from(self.corners[place]) + 1;
        Err(BadFile::line(line as usize, format!("the face names vertex {number}, and the file has {count}")))
    }

    /// The pieces without their faces.
    fn pieces_with_vertices(&self, kind: usize) -> Vec<Piece> {
        let names = self.names[kind].all.iter().cloned().map(Some);
        let pieces = std::iter::once(None).chain(names).zip(self.vertex_numbers(kind));
        let filled = pieces.map(|(name, mut numbers)| {
            numbers.sort_unstable();
            numbers.dedup();
            let mut piece = Piece { name, vertex_numbers: numbers, ..Piece::default() };
            let points = piece.vertex_numbers.iter().map(|&number| self.vertices[number as usize - 1]);
            piece.cell.points = points.collect();
            piece
        });
        filled.collect()
    }

    /// The numbers of the vertices of each part: those that its faces name, once for each corner, and those that
    /// stand in it and that no face names.
    fn vertex_numbers(&self, kind: usize) -> Vec<Vec<u32>> {
        let mut numbers = vec![Vec::new(); self.names[kind].all.len() + 1];
        let mut named = vec![false; self.vertices.len()];
        let mut start = 0;
        for (parts, &end) in self.face_parts.iter().zip(&self.ends) {
            for &corner in &self.corners[start..end] {
                named[corner as usize] = true;
                numbers[parts[kind] as usize].push(corner + 1);
            }
            start = end;
        }
        for (vertex, parts) in self.vertex_parts.iter().enumerate() {
            if !named[vertex] {
                numbers[parts[kind] as usize].push(text::numbered(vertex, 1));
            }
        }
        numbers
    }
}

/// The vertex that a corner names, from 0: `v`, `v/vt`, `v//vn` or `v/vt/vn`, with numbers from 1, or
/// below 0 counted back from the last of so many vertices.
fn corner(word: Word<'_>, vertices: usize) -> Result<u32, BadFile> {
    let mut parts = word.bytes.split(|&byte| byte == b'/').map(|bytes| Word { bytes, ..word });
    let vertex = parts.next().unwrap_or(word);
    let number = vertex.whole().map_err(|_| word.bad("is no corner"))?;
    for part in parts.by_ref().take(2).filter(|part| !part.bytes.is_empty()) {
        part.whole().map_err(|_| word.bad("is no corner"))?;
    }
    if parts.next().is_some() {
        return Err(word.bad("is no corner"));
    }
    let from_0 = if number < 0 { number.checked_add_unsigned(vertices as u64) } else { number.checked_sub(1) };
    let from_0 = from_0.and_then(|place| u32::try_from(place).ok()).filter(|&place| place < u32::MAX);
    from_0.ok_or_else(|| word.bad(format!("is no vertex: {vertices} stand before this face")))
}

/// The cells as an OBJ file: an object each.
pub fn write(pieces: &[Piece]) -> Result<Written, String> {
    text::no_nan(pieces)?;
    if pieces.iter().any(|piece| piece.cell.points.is_empty() && piece.faces.is_empty()) {
        return Err("an OBJ file cannot hold a cell with neither a vertex nor a face".to_string());
    }
    let mut told = queries_told(pieces);
    let mut out = String::new();
    let mut before = 1;
    for (piece, name) in pieces.iter().zip(object_names(pieces, &mut told)) {
        out += &object_text(piece, name, before);
        before += piece.cell.points.len();
    }
    Ok(Written { bytes: out.into_bytes(), told })
}

/// An object. Its first vertex has this number in the file.
fn object_text(piece: &Piece, name: Option<String>, first: usize) -> String {
    let mut out = name.map_or(String::new(), |name| format!("o {name}\n"));
    for &point in &piece.cell.points {
        out += &format!("v {}\n", text::point_text(point));
    }
    for face in piece.cell.as_cell().faces() {
        let corners: String = face.iter().map(|&corner| format!(" {}", first + corner as usize)).collect();
        out += &format!("f{corners}\n");
    }
    out
}

/// A name for each object. Several objects need one each, and of their own: faces of two objects with one name would
/// be read back as one cell.
fn object_names(pieces: &[Piece], told: &mut Vec<String>) -> Vec<Option<String>> {
    if let [piece] = pieces {
        return vec![piece.name.clone()];
    }
    let mut used = HashSet::new();
    // How often each name was wished for, so that the search for a free one goes on where it ended.
    let mut wished: HashMap<String, usize> = HashMap::new();
    let named = pieces.iter().zip(1..).map(|(piece, place)| {
        let wish = piece.name.clone().unwrap_or_else(|| format!("cell {place}"));
        let count = wished.entry(wish.clone()).or_default();
        let name = loop {
            *count += 1;
            let name = if *count == 1 { wish.clone() } else { format!("{wish} ({count})") };
            if used.insert(name.clone()) {
                break name;
            }
        };
        if piece.name.as_ref() != Some(&name) {
            told.push(format!("cell {place} of the file is written as '{name}'"));
        }
        Some(name)
    });
    named.collect()
}

#[cfg(test)]
mod tests {
    use super::*;
    use crate::formats::testing::{Shape, cells, damaged, holds, same_cells};
    use proptest::prelude::*;

    fn shapes(text: &str) -> Vec<Shape> {
        read(text.as_bytes()).unwrap().pieces.iter().map(Shape::of).collect()
    }

    fn refusal(text: &str) -> String {
        read(text.as_bytes()).unwrap_err().to_string()
    }

    #[test]
    fn a_whole_file_is_a_cell() {
        let text = "# a face\nv 0 0 0\nv 1 0 0 1\r\nv 0 1.5 -2e-3\nf 1/1/1 2//7 3/4\n";
        let drawing = read(text.as_bytes()).unwrap();
        let piece = &drawing.pieces[0];
        assert_eq!(piece.name, None);
        assert_eq!(piece.cell.points, [[0.0, 0.0, 0.0], [1.0, 0.0, 0.0], [0.0, 1.5, -0.002]]);
        assert_eq!(piece.cell.corners, [0, 1, 2]);
        assert_eq!(piece.vertex_numbers, [1, 2, 3]);
        assert_eq!(piece.faces, [FacePlace { number: 1, line: Some(5), start: text.find("f 1/").unwrap() }]);
        let starts: Vec<&str> = piece.corner_starts.iter().map(|&at| &text[at..at + 2]).collect();
        assert_eq!(starts, ["1/", "2/", "3/"]);
        let passed: Vec<&str> = drawing.passed_over.iter().map(String::as_str).collect();
        assert_eq!(passed, ["comments", "weights or colours of vertices"]);
    }

    #[test]
    fn objects_are_cells_and_groups_their_parts() {
        let text = "v 0 0 0\nv 1 0 0\nv 0 1 0\nv 0 0 1\no a\ng wall\nf 1 2 3\no b\ng wall\nf 2 3 4\no a\nf 3 2 1\n";
        let [a, b] = &shapes(text)[..] else { panic!("two cells") };
        assert_eq!((a.name.as_deref(), &a.vertex_numbers[..]), (Some("a"), &[1, 2, 3][..]));
        assert_eq!(a.faces, [[0, 1, 2], [2, 1, 0]]);
        assert_eq!((b.name.as_deref(), &b.vertex_numbers[..]), (Some("b"), &[2, 3, 4][..]));
        assert_eq!(b.faces, [[0, 1, 2]]);
    }

    #[test]
    fn groups_are_cells_where_no_object_is() {
        let text = "v 0 0 0\nv 1 0 0\nv 0 1 0\nf 1 2 3\ng  left  side \nf 3 2 1\ng\nf 1 3 2\n";
        let found: Vec<_> = shapes(text).into_iter().map(|shape| shape.name).collect();
        assert_eq!(found, [None, Some("left  side".into()), Some("default".into())]);
    }

    #[test]
    fn a_vertex_that_no_face_names_belongs_where_it_stands() {
        let text = "o a\nv 0 0 0\nv 1 0 0\nv 0 1 0\nv 5 5 5\no b\nf 1 2 3\no c\nv 7 7 7\n";
        let found: Vec<_> = shapes(text).into_iter().map(|shape| shape.vertex_numbers).collect();
        assert_eq!(found, [vec![4], vec![1, 2, 3], vec![5]]);
    }

    #[test]
    fn numbers_below_0_count_back_and_lines_continue() {
        let text = "v 0 0 0\nv 1 0 0\nv 0 1 0\n# no \\\nf -3 \\\n -2 -1\nv 1 1 1\nf -1 1 2\n";
        assert_eq!(shapes(text)[0].faces, [[0, 1, 2], [3, 0, 1]]);
    }

    #[test]
    fn a_vertex_may_come_after_the_face() {
        assert_eq!(shapes("f 1 2 3\nv 0 0 0\nv 1 0 0\nv 0 1 0\n")[0].faces, [[0, 1, 2]]);
    }

    #[test]
    fn lies_are_told_with_their_line() {
        assert_eq!(refusal("v 0 0\n"), "line 1: a point needs three numbers");
        assert_eq!(refusal("\nv 0 x 0\n"), "line 2: 'x' is no number");
        assert_eq!(refusal("v 0 0 0\nf 1 0 1\n"), "line 2: '0' is no vertex: 1 stand before this face");
        assert_eq!(refusal("v 0 0 0\nf 1 -2\n"), "line 2: '-2' is no vertex: 1 stand before this face");
        assert_eq!(refusal("v 0 0 0\nf 1\nf 1 2\n"), "line 3: the face names vertex 2, and the file has 1");
        assert_eq!(refusal("f 1/2/3/4\n"), "line 1: '1/2/3/4' is no corner");
        assert_eq!(refusal("f 1/x\n"), "line 1: '1/x' is no corner");
        let far = "line 1: '99999999999999999999' is no corner";
        assert_eq!(refusal("f 99999999999999999999\n"), far);
        let high = "line 1: '4294967296' is no vertex: 0 stand before this face";
        assert_eq!(refusal("f 4294967296\n"), high);
    }

    #[test]
    fn a_vertex_has_no_more_than_numbers() {
        assert_eq!(shapes("v 0 0 0 1 0.5 0.5 0.5\n")[0].vertex_numbers, [1]);
        let eight = "line 1: '8' is one too many: a vertex has at most 7 numbers";
        assert_eq!(refusal("v 1 2 3 4 5 6 7 8\n"), eight);
        assert_eq!(refusal("v 0 0 0 rock\n"), "line 1: 'rock' is no number");
    }

    #[test]
    fn a_line_goes_on_only_before_another_and_not_in_a_comment() {
        let text = "v 0 0 0\nv 1 0 0\nv 0 1 0 \\# seam \\\nf 1 2 3\n";
        assert_eq!(refusal(text), "line 3: '\\\\' is no number");
        assert_eq!(shapes("v 0 0 0\nv 1 0 0\nv 0 1 0 # seam \\\nf 1 2 3\n")[0].faces, [[0, 1, 2]]);
        assert_eq!(refusal("v 0 0 0\nf 1 \\\n"), "line 2: the file ends in a line that goes on");
        assert_eq!(
            shapes("v\\\n0 0 \\\n0\nv 1 0 0\nv 0 1 0\nf\\\n1 2 3\n\\\nf 3 \\\n2 1\n")[0].faces,
            [[0, 1, 2], [2, 1, 0]]
        );
        let names: Vec<_> = shapes("v 0 0 0\ng wall \\\nf 1\n").into_iter().map(|shape| shape.name).collect();
        assert_eq!(names, [Some("wall \\".into())]);
    }

    #[test]
    fn a_name_that_cannot_be_shown_is_told() {
        let drawing = read(b"o S\xfcd\nv 0 0 0\no S\xf6d\nv 1 0 0\n").unwrap();
        let names: Vec<_> = drawing.pieces.iter().map(|piece| piece.name.as_deref()).collect();
        assert_eq!(names, [Some("S\u{fffd}d"); 2]);
        let told = "line 1: the name 'S\u{fffd}d' has bytes that are no text in UTF-8, or that steer a terminal";
        assert_eq!(drawing.notes[0], told);
        assert_eq!(drawing.notes.len(), 2);
    }

    #[test]
    fn many_keywords_are_told_of_in_part() {
        let text: String = (0..30).map(|k| format!("x{k} 1\n")).collect();
        let drawing = read(format!("{text}v 0 0 0\ncall other.obj\n").as_bytes()).unwrap();
        assert_eq!(drawing.notes.len(), 11);
        assert_eq!(drawing.notes[10], "line 11: a further keyword is not read");
    }

    #[test]
    fn a_keyword_that_is_not_read_is_told_once() {
        let drawing = read(b"curv 1 2\ncurv 3 4\nvn 0 0 1\nv 0 0 0\n").unwrap();
        assert_eq!(drawing.notes, ["line 1: 'curv' is not read"]);
    }

    #[test]
    fn objects_of_one_name_are_told_apart() {
        let piece = Piece { name: Some("a".into()), ..Piece::default() };
        let mut told = Vec::new();
        let names = object_names(&[piece.clone(), piece, Piece::default()], &mut told);
        assert_eq!(names, ["a", "a (2)", "cell 3"].map(|name| Some(name.to_string())));
        let second = "cell 2 of the file is written as 'a (2)'";
        assert_eq!(told, [second, "cell 3 of the file is written as 'cell 3'"]);
    }

    proptest! {
        #[test]
        fn what_is_written_reads_back(pieces in cells(3)) {
            let written = write(&pieces).unwrap();
            same_cells(&pieces, &read(&written.bytes).unwrap().pieces)?;
        }

        #[test]
        fn damage_is_no_panic(bytes in damaged(b"o a\nv 0 0 0\nv 1 0 0\nv 0 1 0\n#x\nf 1/1 2//2 \\\n -1\n")) {
            if let Ok(drawing) = read(&bytes) {
                holds(&drawing, &bytes)?;
            }
        }
    }
}
