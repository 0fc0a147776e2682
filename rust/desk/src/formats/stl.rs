//! Stereolithography: solids of triangular facets, as words of text or as records of bytes.

use std::collections::HashMap;
use std::fmt;
use std::ops::Range;

use super::text::{self, Line, Word};
use super::{Encoding, Written, name_told, queries_told};
use crate::model::{BadFile, CornerWidth, Drawing, FacePlace, Piece};

/// The bytes of a binary file before its count of facets.
const HEADER: usize = 80;

/// The bytes of a binary file before its first facet.
const BEFORE_FACETS: usize = 84;

/// The bytes of a facet: the normal, three points and two bytes of attributes.
const FACET: usize = 50;

/// The bytes of a point or a normal.
const POINT: usize = 12;

/// Where the attributes stand in a facet.
const ATTRIBUTES: usize = 48;

/// The word that ends a facet. A name with it would be taken for one.
const END_OF_FACET: &str = "endfacet";

/// The most numbers that a sentence lists.
const MOST_SHOWN: usize = 10;

/// What an STL file holds: a cell for each solid.
pub fn read(bytes: &[u8]) -> Result<Drawing, BadFile> {
    let facets = claimed_facets(bytes);
    if facets.is_some_and(|facets| bytes.len() as u64 == binary_length(facets)) {
        if 3 * ((bytes.len() - BEFORE_FACETS) / FACET) > text::MOST {
            return Err(BadFile::byte(HEADER, text::too_many(text::MOST, "corners")));
        }
        return Ok(read_binary(bytes));
    }
    read_text(bytes).map_err(|bad| match facets {
        Some(facets) if is_no_text(bytes) => bad_length(bytes, facets),
        _ => bad,
    })
}

/// The count of facets, where the file is long enough to be binary.
fn claimed_facets(bytes: &[u8]) -> Option<u32> {
    let count = bytes.get(HEADER..)?.first_chunk()?;
    Some(u32::from_le_bytes(*count))
}

fn binary_length(facets: u32) -> u64 {
    BEFORE_FACETS as u64 + FACET as u64 * u64::from(facets)
}

/// Whether the first bytes are plainly those of a binary file: 0, or a byte that UTF-8 does not have.
/// A count below 2^24 has a 0. A binary file's header, too, may begin with the word `solid`.
fn is_no_text(bytes: &[u8]) -> bool {
    let begins = bytes.trim_ascii_start().get(..5);
    let solid = begins.is_some_and(|word| word.eq_ignore_ascii_case(b"solid"));
    let from = if solid { HEADER } else { 0 };
    let mut looked_at = bytes[from..BEFORE_FACETS].iter();
    looked_at.any(|&byte| byte == 0 || byte >= 0xf8)
}

fn bad_length(bytes: &[u8], facets: u32) -> BadFile {
    let room = bytes.len() - BEFORE_FACETS;
    let over = match room % FACET {
        0 => String::new(),
        over => format!(" and {over} bytes over"),
    };
    let allowed = room / FACET;
    let what = format!("the file claims {facets} facets, and its length allows {allowed}{over}");
    BadFile::byte(HEADER, what)
}

/// A solid that is being read, and the vertex at each place.
#[derive(Default)]
struct Solid {
    piece: Piece,
    vertices: HashMap<[u64; 3], u32>,
}

impl Solid {
    /// Adds a corner, by its point and where it starts in the file. A point that equals one before
    /// it is the same vertex.
    fn push_corner(&mut self, point: [f64; 3], start: usize) {
        let before = self.piece.cell.points.len();
        let new = text::numbered(before, 0);
        let corner = match place(point) {
            Some(place) => *self.vertices.entry(place).or_insert(new),
            None => new,
        };
        if corner == new {
            self.piece.cell.points.push(point);
            self.piece.vertex_numbers.push(text::numbered(before, 1));
        }
        self.piece.push_corner(corner, start);
    }
}

/// A point as bits that are the same for equal points, which -0 and 0 are. A point with a NaN equals
/// none.
fn place(point: [f64; 3]) -> Option<[u64; 3]> {
    let equals_itself = !point.iter().any(|x| x.is_nan());
    equals_itself.then(|| point.map(|x| (x + 0.0).to_bits()))
}

fn read_binary(bytes: &[u8]) -> Drawing {
    let mut solid = Solid::default();
    let (head, facets) = bytes.split_at(BEFORE_FACETS);
    for (before, facet) in facets.chunks_exact(FACET).enumerate() {
        let start = BEFORE_FACETS + before * FACET;
        for at in [POINT, 2 * POINT, 3 * POINT] {
            solid.push_corner(point_of(&facet[at..]), start + at);
        }
        solid.piece.end_face(FacePlace { number: text::numbered(before, 1), line: None, start });
    }
    let mut attributes = facets.chunks_exact(FACET).map(|facet| &facet[ATTRIBUTES..]);
    let passed_over = [
        ("header", head[..HEADER].iter().any(|&byte| byte != 0)),
        ("normals", !facets.is_empty()),
        ("attributes", attributes.any(|bytes| bytes != [0, 0])),
    ];
    let passed_over = passed_over.into_iter().filter(|(_, is_there)| *is_there);
    Drawing {
        pieces: vec![solid.piece],
        passed_over: passed_over.map(|(what, _)| what.to_string()).collect(),
        corner_width: CornerWidth::Bytes(POINT),
        ..Drawing::default()
    }
}

/// The point at the front of these bytes.
fn point_of(bytes: &[u8]) -> [f64; 3] {
    std::array::from_fn(|axis| {
        let number = std::array::from_fn(|k| bytes[4 * axis + k]);
        f32::from_le_bytes(number).into()
    })
}

/// The words of a text that are not yet read.
struct Words<'a> {
    bytes: &'a [u8],
    at: usize,
    line: usize,
}

impl<'a> Words<'a> {
    fn new(bytes: &'a [u8], at: usize) -> Words<'a> {
        Words { bytes, at, line: 1 }
    }

    fn next(&mut self) -> Option<Word<'a>> {
        let rest = &self.bytes[self.at..];
        let blank = rest.iter().position(|byte| !byte.is_ascii_whitespace())?;
        self.line += text::line_ends(&rest[..blank]);
        let rest = &rest[blank..];
        let length = rest.iter().position(u8::is_ascii_whitespace);
        let word = Word { line: self.line, start: self.at + blank, bytes: &rest[..length.unwrap_or(rest.len())] };
        self.at = word.start + word.bytes.len();
        Some(word)
    }

    /// What follows on the line, without the white space around it.
    fn rest_of_line(&mut self) -> &'a [u8] {
        let rest = &self.bytes[self.at..];
        let length = rest.iter().position(|byte| matches!(byte, b'\n' | b'\r'));
        let rest = &rest[..length.unwrap_or(rest.len())];
        self.at += rest.len();
        rest.trim_ascii()
    }

    /// The next word, which must be there: what it should be is for a message.
    fn wanted(&mut self, should: impl fmt::Display) -> Result<Word<'a>, BadFile> {
        let word = self.next();
        word.ok_or_else(|| {
            let lines = text::lines(self.bytes).count();
            BadFile::line(lines, format!("the file ends where {should} should stand"))
        })
    }

    /// The next word, which must be this one.
    fn keyword(&mut self, keyword: &str) -> Result<(), BadFile> {
        let word = self.wanted(format_args!("'{keyword}'"))?;
        must_be(word, keyword)
    }

    /// The next three words as numbers, and the byte at which they start.
    fn point(&mut self) -> Result<([f64; 3], usize), BadFile> {
        let mut point = [0.0; 3];
        let first = self.wanted("a number")?;
        point[0] = first.number()?;
        for coordinate in &mut point[1..] {
            *coordinate = self.wanted("a number")?.number()?;
        }
        Ok((point, first.start))
    }
}

fn is(word: Word<'_>, keyword: &str) -> bool {
    word.bytes.eq_ignore_ascii_case(keyword.as_bytes())
}

fn must_be(word: Word<'_>, keyword: &str) -> Result<(), BadFile> {
    if is(word, keyword) {
        return Ok(());
    }
    Err(word.bad(format!("stands where '{keyword}' should")))
}

fn read_text(bytes: &[u8]) -> Result<Drawing, BadFile> {
    let mut drawing = Drawing { corner_width: CornerWidth::ThreeWords, ..Drawing::default() };
    let mut words = Words::new(bytes, text::text_start(bytes));
    let mut facets = 0;
    while let Some(word) = words.next() {
        must_be(word, "solid")?;
        text::within(drawing.pieces.len(), text::MOST_CELLS, "solids", word.line)?;
        let piece = read_solid(&mut drawing, &mut words, facets)?;
        facets += piece.faces.len();
        drawing.pieces.push(piece);
    }
    if drawing.pieces.len() > 1 {
        for (piece, place) in drawing.pieces.iter_mut().zip(1..) {
            piece.name.get_or_insert_with(|| format!("solid {place}"));
        }
    }
    if facets > 0 {
        drawing.passed_over.insert("normals".to_string());
    }
    Ok(drawing)
}

/// A solid behind its first word, in a file that has so many facets before it.
fn read_solid(drawing: &mut Drawing, words: &mut Words<'_>, before: usize) -> Result<Piece, BadFile> {
    let mut solid = Solid::default();
    let line = words.line;
    let name = words.rest_of_line();
    name_ends_with_its_line(name, line)?;
    if !name.is_empty() {
        solid.piece.name = Some(drawing.name(name, line));
    }
    loop {
        let word = words.wanted("'facet' or 'endsolid'")?;
        if is(word, "endsolid") {
            return name_ends_with_its_line(words.rest_of_line(), word.line).map(|()| solid.piece);
        }
        if !is(word, "facet") {
            return Err(word.bad("stands where 'facet' or 'endsolid' should"));
        }
        text::within(3 * (before + solid.piece.faces.len()), text::MOST, "corners", word.line)?;
        read_facet(words, &mut solid)?;
        solid.piece.end_face(FacePlace {
            number: text::numbered(before + solid.piece.faces.len(), 1),
            line: Some(text::numbered(word.line, 0)),
            start: word.start,
        });
    }
}

/// Makes sure that no facet stands behind a name on its line: it would be lost in the name.
fn name_ends_with_its_line(name: &[u8], line: usize) -> Result<(), BadFile> {
    let mut words = Line { number: line, start: 0, bytes: name }.words();
    if words.any(|word| is(word, END_OF_FACET)) {
        return Err(BadFile::line(line, "a facet stands on the line of a name"));
    }
    Ok(())
}

/// A facet behind its first word.
fn read_facet(words: &mut Words<'_>, solid: &mut Solid) -> Result<(), BadFile> {
    words.keyword("normal")?;
    // The normal is not kept: some programs write words there that are no numbers.
    for _ in 0..3 {
        words.wanted("a number")?;
    }
    words.keyword("outer")?;
    words.keyword("loop")?;
    for _ in 0..3 {
        words.keyword("vertex")?;
        let (point, start) = words.point()?;
        solid.push_corner(point, start);
    }
    words.keyword("endloop")?;
    words.keyword(END_OF_FACET)
}

/// The bytes of a facet's normal, in parts, and what stands there when its signs are changed. A 0
/// stays as it is.
pub fn turned_normal(bytes: &[u8], facet: &FacePlace) -> Vec<(Range<usize>, Vec<u8>)> {
    if facet.line.is_none() {
        let numbers = bytes[facet.start..facet.start + POINT].chunks_exact(4);
        let starts = (facet.start..).step_by(4);
        let parts = starts.zip(numbers.map(turned_bytes));
        return parts.map(|(start, turned)| (start..start + 4, turned)).collect();
    }
    let mut words = Words::new(bytes, facet.start);
    // The words `facet` and `normal` stand before the numbers.
    let words = std::iter::from_fn(move || words.next()).skip(2).take(3);
    words.map(|word| (word.start..word.start + word.bytes.len(), turned_word(word))).collect()
}

/// An f32 with its sign changed, which is the highest bit of its last byte.
fn turned_bytes(number: &[u8]) -> Vec<u8> {
    let mut turned: [u8; 4] = std::array::from_fn(|k| number[k]);
    if f32::from_le_bytes(turned) != 0.0 {
        turned[3] ^= 0x80;
    }
    turned.to_vec()
}

fn turned_word(word: Word<'_>) -> Vec<u8> {
    match word.bytes {
        same if word.number().is_ok_and(|x| x == 0.0) || word.number().is_err() => same.to_vec(),
        [b'-', rest @ ..] => rest.to_vec(),
        [b'+', rest @ ..] | rest => [b"-", rest].concat(),
    }
}

/// The cells as an STL file: several in text, one in bytes.
pub fn write(pieces: &[Piece], encoding: Encoding) -> Result<Written, String> {
    let mut told = queries_told(pieces);
    let bytes = match encoding {
        Encoding::Text => text_file(pieces, &mut told)?,
        Encoding::Little => binary_file(pieces, &mut told)?,
        Encoding::Big => {
            return Err("an STL file has the lowest byte first, or is text".to_string());
        }
    };
    Ok(Written { bytes, told })
}

fn text_file(pieces: &[Piece], told: &mut Vec<String>) -> Result<Vec<u8>, String> {
    text::no_nan(pieces)?;
    let mut out = String::new();
    for (piece, number) in pieces.iter().zip(1..) {
        // Face and vertex numbers may begin anew in each cell, so it is said which cell is meant.
        let label = match &piece.name {
            _ if pieces.len() == 1 => String::new(),
            Some(name) => format!("{name}: "),
            None => format!("cell {number}: "),
        };
        let labelled = |what: String| format!("{label}{what}");
        let facets = Facets::of(piece).map_err(labelled)?;
        out += &solid_text(piece, &facets.triangles).map_err(labelled)?;
        told.extend(facets.told.into_iter().map(labelled));
    }
    Ok(out.into_bytes())
}

/// A solid in words. The normals are 0, which leaves them to the reader to compute.
fn solid_text(piece: &Piece, triangles: &[[u32; 3]]) -> Result<String, String> {
    let name = piece.name.as_ref();
    let name = name.map_or(String::new(), |name| format!(" {name}"));
    if name.contains('\n') || name_ends_with_its_line(name.as_bytes(), 1).is_err() {
        return Err("the cell's name cannot be written in a text STL file".to_string());
    }
    let mut out = format!("solid{name}\n");
    for triangle in triangles {
        out += "  facet normal 0 0 0\n    outer loop\n";
        for &corner in triangle {
            let point = piece.cell.points[corner as usize];
            out += &format!("      vertex {}\n", text::point_text(point));
        }
        out += "    endloop\n  endfacet\n";
    }
    Ok(out + &format!("endsolid{name}\n"))
}

fn binary_file(pieces: &[Piece], told: &mut Vec<String>) -> Result<Vec<u8>, String> {
    let [piece] = pieces else {
        let cells = pieces.len();
        return Err(format!("a binary STL file holds one cell, and these are {cells}"));
    };
    let points = narrow_points(piece)?;
    let facets = Facets::of(piece)?;
    told.extend(facets.told);
    told.extend(name_told(piece));
    let count = u32::try_from(facets.triangles.len());
    let count = count.map_err(|_| "a binary STL file cannot count so many facets")?;
    let mut bytes = vec![0; HEADER];
    bytes.extend(count.to_le_bytes());
    for triangle in facets.triangles {
        bytes.extend(facet_bytes(triangle.map(|corner| points[corner as usize])));
    }
    Ok(bytes)
}

/// A facet in bytes. The normal is 0, which leaves it to the reader to compute.
fn facet_bytes(points: [[f32; 3]; 3]) -> Vec<u8> {
    let mut bytes = vec![0; POINT];
    bytes.extend(points.as_flattened().iter().flat_map(|x| x.to_le_bytes()));
    bytes.extend([0; FACET - ATTRIBUTES]);
    bytes
}

/// The points of a cell as f32, where each coordinate is one in every bit.
fn narrow_points(piece: &Piece) -> Result<Vec<[f32; 3]>, String> {
    let narrow = |(vertex, point): (usize, &[f64; 3])| {
        let same = |&x: &f64| !x.is_nan() && f64::from(x as f32).to_bits() == x.to_bits();
        match point.iter().find(|x| !same(x)) {
            None => Ok(point.map(|x| x as f32)),
            Some(&x) => {
                let number = piece.vertex_numbers[vertex];
                let x = text::decimals(x);
                Err(format!("vertex {number} has the coordinate {x}, which is no f32"))
            }
        }
    };
    piece.cell.points.iter().enumerate().map(narrow).collect()
}

/// The triangles of a cell's faces, and what is told of how it is written.
struct Facets {
    triangles: Vec<[u32; 3]>,
    told: Vec<String>,
}

impl Facets {
    fn of(piece: &Piece) -> Result<Facets, String> {
        let mut triangles = Vec::new();
        let (mut cut, mut parts) = (0, 0);
        for (face, corners) in piece.cell.as_cell().faces().enumerate() {
            if let &[a, b, c] = corners {
                triangles.push([a, b, c]);
                continue;
            }
            let of_face = cut_face(piece, face, corners.len())?;
            cut += 1;
            parts += of_face.len();
            triangles.extend(of_face);
        }
        let mut told = Vec::from_iter(cut_told(cut, parts));
        told.extend(vertices_told(piece));
        Ok(Facets { triangles, told })
    }
}

/// What is told where so many faces have been cut into so many triangles.
fn cut_told(faces: usize, triangles: usize) -> Option<String> {
    let (are, they) = match faces {
        0 => return None,
        1 => ("face that is no triangle is", "it is"),
        _ => ("faces that are no triangles are", "they are"),
    };
    let written = format!("{faces} {are} written as the {triangles} triangles");
    Some(format!("{written} into which {they} cut"))
}

/// The triangles into which the library cuts a face that is none.
fn cut_face(piece: &Piece, face: usize, corners: usize) -> Result<Vec<[u32; 3]>, String> {
    let number = piece.faces[face].number;
    if corners < 3 {
        return Err(format!("face {number} has fewer than the three corners of a facet"));
    }
    let cut = piece.cell.as_cell().triangles(face);
    let cut = cut.map_err(|refusal| format!("face {number} is not cut into triangles: {refusal}"))?;
    let (found, wanted) = (cut.triangles.len(), corners - 2);
    if found < wanted {
        return Err(format!("face {number} is cut short: {found} of {wanted} triangles"));
    }
    Ok(cut.triangles)
}

/// What is told of vertices that are not written, or not as vertices of their own.
fn vertices_told(piece: &Piece) -> Vec<String> {
    let vertices = 0..piece.cell.points.len();
    let mut is_named = vec![false; vertices.len()];
    for &corner in &piece.cell.corners {
        is_named[corner as usize] = true;
    }
    let (named, unnamed): (Vec<usize>, Vec<usize>) = vertices.partition(|&vertex| is_named[vertex]);
    let unnamed = unnamed.iter().map(|&vertex| piece.vertex_numbers[vertex].to_string());
    let told = [
        ("vertices that no face names are not held", unnamed.collect()),
        ("vertices at one place become one", doubled_vertices(piece, &named)),
    ];
    let told = told.into_iter().filter(|(_, which)| !which.is_empty());
    told.map(|(what, which)| format!("{what}: {}", first_of(&which))).collect()
}

/// Those of these vertices that stand where one before them stands, each with the first one there.
fn doubled_vertices(piece: &Piece, vertices: &[usize]) -> Vec<String> {
    let mut doubled = Vec::new();
    let mut firsts: HashMap<[u64; 3], u32> = HashMap::new();
    for &vertex in vertices {
        let number = piece.vertex_numbers[vertex];
        let Some(place) = place(piece.cell.points[vertex]) else {
            continue;
        };
        let first = *firsts.entry(place).or_insert(number);
        if first != number {
            doubled.push(format!("{first} and {number}"));
        }
    }
    doubled
}

/// The first of a list, and how many more there are.
fn first_of(list: &[String]) -> String {
    let shown = list.len().min(MOST_SHOWN);
    let more = match list.len() - shown {
        0 => String::new(),
        more => format!(" and {more} more"),
    };
    list[..shown].join(", ") + &more
}

#[cfg(test)]
mod tests {
    use super::*;
    use crate::formats::testing::{damaged, same_cells};
    use proptest::prelude::*;

    fn refusal(bytes: impl AsRef<[u8]>) -> String {
        read(bytes.as_ref()).unwrap_err().to_string()
    }

    fn passed_over(drawing: &Drawing) -> Vec<&str> {
        drawing.passed_over.iter().map(String::as_str).collect()
    }

    /// A facet in words: the coordinates of its three points.
    fn facet(points: &str) -> String {
        let words: Vec<&str> = points.split(' ').collect();
        let vertices = words.chunks(3).map(|point| format!("vertex {}\n", point.join(" ")));
        let vertices: String = vertices.collect();
        format!("facet normal 0 0 1\nouter loop\n{vertices}endloop\nendfacet\n")
    }

    /// A facet in bytes.
    fn record(points: [[f32; 3]; 3], attributes: u16) -> Vec<u8> {
        let numbers = [[0.0, 0.0, 1.0]].into_iter().chain(points).flatten();
        let bytes = numbers.flat_map(f32::to_le_bytes);
        bytes.chain(attributes.to_le_bytes()).collect()
    }

    fn binary(header: &[u8], count: u32, records: &[Vec<u8>]) -> Vec<u8> {
        let mut bytes = header.to_vec();
        bytes.resize(HEADER, 0);
        bytes.extend(count.to_le_bytes());
        bytes.extend(records.concat());
        bytes
    }

    const A: [f32; 3] = [0.0, 0.0, 0.0];
    const B: [f32; 3] = [1.0, 0.0, 0.0];
    const C: [f32; 3] = [0.0, 0.1, 0.0];
    const D: [f32; 3] = [0.0, 0.0, -2.5];

    #[test]
    fn a_text_file() {
        let text = "Solid  my  house \r\n\r\n  FACET Normal 0 0 1 outer\r\n LOOP\r\n\
            \tvertex 0 0 0 VERTEX 1 -2e3\r\n 0.1 vertex 0 1 inf endloop endFacet\r\n\
            facet normal nan 0 0 outer loop vertex 0 1 INF\r\nvertex 1 -2000.0 .1\r\n\
            vertex -7 0 0\r\nendloop\r\nendfacet EndSolid my  house";
        let drawing = read(text.as_bytes()).unwrap();
        let piece = &drawing.pieces[0];
        let points = [[0.0, 0.0, 0.0], [1.0, -2000.0, 0.1], [0.0, 1.0, f64::INFINITY], [-7.0, 0.0, 0.0]];
        assert_eq!(piece.name.as_deref(), Some("my  house"));
        assert_eq!(piece.cell.points, points);
        assert_eq!(piece.cell.corners, [0, 1, 2, 2, 1, 3]);
        assert_eq!(piece.cell.ends, [3, 6]);
        assert_eq!(piece.vertex_numbers, [1, 2, 3, 4]);
        let place = |number, line, start| FacePlace { number, line: Some(line), start: text.find(start).unwrap() };
        assert_eq!(piece.faces, [place(1, 3, "FACET"), place(2, 7, "facet n")]);
        let ends = [" VERTEX", " vertex", " endloop", "\r\nvertex", "\r\nvertex", "\r\nend"];
        let corners = piece.corner_starts.iter().zip(ends);
        let corners = corners.map(|(&at, end)| text[at..].split(end).next().unwrap());
        let corners: Vec<&str> = corners.collect();
        let expected = ["0 0 0", "1 -2e3\r\n 0.1", "0 1 inf", "0 1 INF", "1 -2000.0 .1", "-7 0 0"];
        assert_eq!(corners, expected);
        assert_eq!(drawing.corner_width, CornerWidth::ThreeWords);
        assert_eq!(passed_over(&drawing), ["normals"]);
    }

    #[test]
    fn each_solid_is_a_piece() {
        let (one, two) = (facet("0 0 0 1 0 0 0 1 0"), facet("5 5 5 0 0 0 1 0 0"));
        let text = format!("solid\n{one}{two}endsolid\nsolid b\nendsolid c\nsolid d\n{two}endsolid");
        let pieces = read(text.as_bytes()).unwrap().pieces;
        let names: Vec<_> = pieces.iter().map(|piece| piece.name.as_deref()).collect();
        assert_eq!(names, [Some("solid 1"), Some("b"), Some("d")]);
        let corners: Vec<_> = pieces.iter().map(|piece| &piece.cell.corners[..]).collect();
        assert_eq!(corners, [&[0, 1, 2, 3, 0, 1][..], &[], &[0, 1, 2]]);
        let numbers = pieces.iter().map(|piece| piece.faces.iter().map(|face| face.number));
        let numbers: Vec<Vec<u32>> = numbers.map(Iterator::collect).collect();
        assert_eq!(numbers, [vec![1, 2], vec![], vec![3]]);
        assert_eq!(pieces[2].vertex_numbers, [1, 2, 3]);
        assert_eq!(pieces[2].faces[0].line, Some(20));
    }

    #[test]
    fn a_solid_on_the_line_of_another_is_not_lost() {
        let one = facet("0 0 0 1 0 0 0 1 0").replace('\n', " ");
        let told = "line 2: a facet stands on the line of a name";
        assert_eq!(refusal(format!("solid a\n{one}endsolid a solid b {one}endsolid b\n")), told);
        assert_eq!(refusal(format!("\nsolid a {one}\n{one}endsolid a\n")), told);
    }

    #[test]
    fn a_normal_that_is_no_number_is_passed_over_and_kept() {
        let text = facet("0 0 0 1 0 0 0 1 0").replace("normal 0 0 1", "normal -nan(ind) 1.#QNAN -1");
        let text = format!("solid\n{text}endsolid");
        let face = read(text.as_bytes()).unwrap().pieces[0].faces[0];
        let turned: Vec<Vec<u8>> = turned_normal(text.as_bytes(), &face).into_iter().map(|(_, put)| put).collect();
        assert_eq!(turned, [&b"-nan(ind)"[..], b"1.#QNAN", b"1"]);
    }

    #[test]
    fn minus_zero_is_zero_and_a_nan_is_alone() {
        let (one, two) = (facet("-0 0 1 0 -0 1 nan 0 0"), facet("0 0 1 nan 0 0 0 0 nan"));
        let piece = &read(format!("solid\n{one}{two}endsolid").as_bytes()).unwrap().pieces[0];
        assert_eq!(piece.cell.corners, [0, 0, 1, 0, 2, 3]);
        assert_eq!(piece.cell.points[0].map(f64::to_bits), [-0.0, 0.0, 1.0].map(f64::to_bits));

        let nan = [f32::NAN, 0.0, 0.0];
        let records = [record([[-0.0; 3], A, nan], 0), record([A, nan, B], 0)];
        let piece = &read(&binary(b"", 2, &records)).unwrap().pieces[0];
        assert_eq!(piece.cell.corners, [0, 0, 1, 0, 2, 3]);
        assert_eq!(piece.cell.points[0].map(f64::to_bits), [(-0.0f64).to_bits(); 3]);
    }

    #[test]
    fn a_binary_file() {
        let bytes = binary(b"", 2, &[record([A, B, C], 0), record([C, B, D], 0)]);
        let drawing = read(&bytes).unwrap();
        let piece = &drawing.pieces[0];
        let points = [A, B, C, D].map(|point| point.map(f64::from));
        assert_eq!(piece.cell.points, points);
        assert_eq!(piece.cell.points[2][1], 0.10000000149011612);
        assert_eq!(piece.cell.corners, [0, 1, 2, 2, 1, 3]);
        assert_eq!(piece.cell.ends, [3, 6]);
        assert_eq!((&piece.name, &piece.vertex_numbers[..]), (&None, &[1, 2, 3, 4][..]));
        let place = |number, start| FacePlace { number, line: None, start };
        assert_eq!(piece.faces, [place(1, 84), place(2, 134)]);
        assert_eq!(piece.corner_starts, [96, 108, 120, 146, 158, 170]);
        assert_eq!(drawing.corner_width, CornerWidth::Bytes(12));
        assert_eq!(passed_over(&drawing), ["normals"]);
    }

    #[test]
    fn what_binary_files_have_besides() {
        // A header may begin with the word of a text: the length decides.
        let bytes = binary(b"solid x", 2, &[record([A, B, C], 0), record([C, B, D], 256)]);
        let drawing = read(&bytes).unwrap();
        assert_eq!(drawing.pieces[0].faces.len(), 2);
        assert_eq!(passed_over(&drawing), ["attributes", "header", "normals"]);
        let drawing = read(&binary(b"", 0, &[])).unwrap();
        assert_eq!(drawing.pieces, [Piece::default()]);
        assert_eq!(passed_over(&drawing), [""; 0]);
    }

    #[test]
    fn a_text_without_a_solid_has_no_piece() {
        assert_eq!(read(b"").unwrap().pieces, []);
        assert_eq!(read(b" \r\n\n").unwrap().pieces, []);
    }

    #[test]
    fn lies_of_a_text() {
        let start = "solid a\nfacet normal 0 0 1\nouter loop\n";
        let cases = [
            ("facet", "line 1: 'facet' stands where 'solid' should"),
            ("solid a", "line 1: the file ends where 'facet' or 'endsolid' should stand"),
            ("solid\nfacet\n\n", "line 3: the file ends where 'normal' should stand"),
            ("solid\nvertex", "line 2: 'vertex' stands where 'facet' or 'endsolid' should"),
            ("solid\nfacet norm", "line 2: 'norm' stands where 'normal' should"),
            ("solid\nfacet normal 0 0", "line 2: the file ends where a number should stand"),
            ("solid\rfacet norm", "line 2: 'norm' stands where 'normal' should"),
            ("solid\nendsolid\nsolids", "line 3: 'solids' stands where 'solid' should"),
        ];
        for (text, told) in cases {
            assert_eq!(refusal(text), told);
        }
        let cases = [
            ("vertex 0 0", "line 4: the file ends where a number should stand"),
            ("vertex 0 0 vertex", "line 4: 'vertex' is no number"),
            ("vertex 0 0 0\nendloop", "line 5: 'endloop' stands where 'vertex' should"),
            (
                "vertex 0 0 0\nvertex 1 0 0\nvertex 1 1 0\nvertex 0 1 0",
                "line 7: 'vertex' stands where 'endloop' should",
            ),
            (
                "vertex 0 0 0\nvertex 1 0 0\nvertex 1 1 0\nendloop\nfacet",
                "line 8: 'facet' stands where 'endfacet' should",
            ),
        ];
        for (rest, told) in cases {
            assert_eq!(refusal([start, rest].concat()), told);
        }
    }

    #[test]
    fn lies_of_a_binary_file() {
        let records = [record([A, B, C], 0), record([C, B, D], 0)];
        let told = |what: &str| format!("byte 80: the file claims {what}");
        for header in [&b"made by hand"[..], b"solid of bytes", b""] {
            let bytes = binary(header, 3, &records);
            assert_eq!(refusal(&bytes), told("3 facets, and its length allows 2"));
            let bytes = binary(header, 1, &records);
            assert_eq!(refusal(&bytes), told("1 facets, and its length allows 2"));
            let bytes = [binary(header, 2, &records), vec![0; 3]].concat();
            let over = told("2 facets, and its length allows 2 and 3 bytes over");
            assert_eq!(refusal(&bytes), over);
            let bytes = binary(header, u32::MAX, &records);
            let most = told("4294967295 facets, and its length allows 2");
            assert_eq!(refusal(&bytes), most);
        }
        // What is too short to be binary, or is text by its first bytes, is told as text.
        assert_eq!(refusal([0; 83]).split(':').next(), Some("line 1"));
        let text = "a".repeat(200);
        let shown = "a".repeat(40);
        assert_eq!(refusal(text), format!("line 1: '{shown}..' stands where 'solid' should"));
    }

    /// A piece with these points and faces; vertices are numbered from 10, faces from 20.
    fn piece(points: &[[f64; 3]], faces: &[&[u32]]) -> Piece {
        let mut piece = Piece::default();
        piece.cell.points = points.to_vec();
        piece.vertex_numbers = (10..).take(points.len()).collect();
        for (number, face) in (20..).zip(faces) {
            piece.cell.corners.extend(*face);
            piece.end_face(FacePlace { number, line: None, start: 0 });
        }
        piece
    }

    const SQUARE: [[f64; 3]; 4] = [[0.0, 0.0, 0.0], [1.0, 0.0, 0.0], [1.0, 1.0, 0.0], [0.0, 1.0, 0.0]];

    fn named(name: &str, piece: Piece) -> Piece {
        Piece { name: Some(name.to_string()), ..piece }
    }

    fn text_of(pieces: &[Piece]) -> (String, Vec<String>) {
        let Written { bytes, told } = write(pieces, Encoding::Text).unwrap();
        (String::from_utf8(bytes).unwrap(), told)
    }

    #[test]
    fn a_text_is_written() {
        let triangle = piece(&[[0.0, -0.0, 0.1], [1.0, 1e300, 2.5], [-3.0, 0.0, 1.0]], &[&[2, 0, 1]]);
        let (text, told) = text_of(&[named("a b", triangle), Piece::default()]);
        let expected = "solid a b\n  facet normal 0 0 0\n    outer loop\n      vertex -3 0 1\n      \
            vertex 0 -0 0.1\n      vertex 1 1e300 2.5\n    endloop\n  endfacet\nendsolid a b\n\
            solid\nendsolid\n";
        assert_eq!(text, expected);
        assert_eq!(told, [""; 0]);
    }

    #[test]
    fn bytes_are_written() {
        let points = [A, B, C, D].map(|point| point.map(f64::from));
        let solid = piece(&points, &[&[0, 1, 2], &[2, 1, 3]]);
        let written = write(&[named("roof", solid)], Encoding::Little).unwrap();
        let mut expected = binary(b"", 2, &[record([A, B, C], 0), record([C, B, D], 0)]);
        for facet in [84, 134] {
            expected[facet..facet + 12].fill(0);
        }
        assert_eq!(written.bytes, expected);
        assert_eq!(written.told, ["the name 'roof' is not carried over"]);
    }

    #[test]
    fn faces_are_cut_into_triangles() {
        let square = piece(&SQUARE, &[&[0, 1, 2, 3]]);
        let cut = square.cell.as_cell().triangles(0).unwrap().triangles;
        let (text, told) = text_of(&[square]);
        let read_back = &read(text.as_bytes()).unwrap().pieces[0];
        let facets = read_back.cell.as_cell();
        let corners = facets.faces().flatten().map(|&corner| facets.points[corner as usize]);
        let expected = cut.as_flattened().iter().map(|&corner| SQUARE[corner as usize]);
        assert_eq!(corners.collect::<Vec<_>>(), expected.collect::<Vec<_>>());
        assert_eq!(facets.ends, [3, 6]);
        let once = "1 face that is no triangle is written as the 2 triangles into which it is cut";
        assert_eq!(told, [once]);

        let both = piece(&SQUARE, &[&[0, 1, 2, 3], &[0, 1, 2], &[3, 2, 1, 0]]);
        let twice = "2 faces that are no triangles are written as the 4 triangles into which they are cut";
        let written = write(std::slice::from_ref(&both), Encoding::Little).unwrap();
        assert_eq!((written.bytes.len(), &written.told[..]), (84 + 5 * 50, &[twice.to_string()][..]));
        let (_, told) = text_of(&[named("roof", both.clone()), both]);
        assert_eq!(told, [format!("roof: {twice}"), format!("cell 2: {twice}")]);
    }

    /// A thin box far from the origin, of which the library cuts one face short.
    fn thin_and_far() -> Piece {
        let foot = [[0.0, 0.0], [0.05, 0.0], [0.05, 0.25], [0.0, 0.25]];
        let at = |z| foot.map(|[x, y]| [8588590.0 + x, 8529546.0 + y, 2969498.0 + z]);
        let sides: [&[u32]; 4] = [&[0, 1, 5, 4], &[2, 3, 7, 6], &[1, 2, 6, 5], &[3, 0, 4, 7]];
        let faces = [&[&[0, 3, 2, 1][..], &[4, 5, 6, 7]], &sides[..]].concat();
        piece(&[at(0.0), at(2.0)].concat(), &faces)
    }

    #[test]
    fn faces_that_cannot_be_cut() {
        let told = |piece: Piece| write(&[piece], Encoding::Text).unwrap_err();
        for corners in [&[][..], &[1], &[1, 2]] {
            let flat = piece(&SQUARE, &[&[0, 1, 2], corners]);
            assert_eq!(told(flat), "face 21 has fewer than the three corners of a facet");
        }
        assert_eq!(told(thin_and_far()), "face 20 is cut short: 0 of 2 triangles");
        let mut far = SQUARE;
        far[3][2] = f64::INFINITY;
        let refused = told(piece(&far, &[&[0, 1, 2, 3]]));
        let why = "refusal 2: a number is NaN, infinite or above 2^40 in magnitude";
        assert_eq!(refused, format!("face 20 is not cut into triangles: {why}"));
        let several = [piece(&SQUARE, &[]), piece(&SQUARE, &[&[0]])];
        let told = write(&several, Encoding::Text).unwrap_err();
        assert_eq!(told, "cell 2: face 20 has fewer than the three corners of a facet");
    }

    #[test]
    fn a_triangle_is_not_asked_of_the_library() {
        // It would be refused for its size, and a line has no triangle.
        let points: Vec<[f64; 3]> = (0..300u16).map(|x| [x.into(), 0.0, 0.0]).collect();
        let faces: Vec<[u32; 3]> = (0..100).map(|face| [3 * face + 2, 3 * face, 3 * face + 1]).collect();
        let faces: Vec<&[u32]> = faces.iter().map(|face| &face[..]).collect();
        let long = piece(&points, &faces);
        let bytes = write(&[long], Encoding::Little).unwrap().bytes;
        let read_back = &read(&bytes).unwrap().pieces[0].cell;
        assert_eq!(read_back.points[..3], [points[2], points[0], points[1]]);
        assert_eq!(read_back.points.len(), 300);
    }

    #[test]
    fn vertices_that_are_not_held() {
        let mut points = vec![[0.0; 3]; 14];
        points[1] = [1.0, 0.0, 0.0];
        points[2] = [0.0, 1.0, 0.0];
        points[3] = [-0.0, 1.0, 0.0];
        let (_, told) = text_of(&[piece(&points, &[&[0, 1, 2], &[3, 1, 0]])]);
        let expected = [
            "vertices that no face names are not held: 14, 15, 16, 17, 18, 19, 20, 21, 22, 23",
            "vertices at one place become one: 12 and 13",
        ];
        assert_eq!(told, expected);
        let (text, told) = text_of(&[piece(&points[..12], &[])]);
        assert_eq!(text, "solid\nendsolid\n");
        let all = "10, 11, 12, 13, 14, 15, 16, 17, 18, 19 and 2 more";
        assert_eq!(told, [format!("vertices that no face names are not held: {all}")]);
    }

    #[test]
    fn what_cannot_be_held() {
        let told = |pieces: &[Piece], encoding| write(pieces, encoding).unwrap_err();
        let mut square = piece(&SQUARE, &[&[0, 1, 2]]);
        let two = [square.clone(), square.clone()];
        let what = "an STL file has the lowest byte first, or is text";
        assert_eq!(told(&two, Encoding::Big), what);
        let what = "a binary STL file holds one cell, and these are 2";
        assert_eq!(told(&two, Encoding::Little), what);
        for (number, shown) in [(0.1, "0.1"), (f64::NAN, "NaN"), (1e300, "1e300"), (1e-60, "1e-60")] {
            square.cell.points[2][1] = number;
            let what = format!("vertex 12 has the coordinate {shown}, which is no f32");
            assert_eq!(told(std::slice::from_ref(&square), Encoding::Little), what);
        }
        square.cell.points[2][1] = f64::NAN;
        let what = told(&[square], Encoding::Text);
        assert!(what.starts_with("vertex 12 has a coordinate that is no number"), "{what}");
        for name in ["a\nb", "an EndFacet"] {
            let what = told(&[named(name, piece(&SQUARE, &[]))], Encoding::Text);
            assert_eq!(what, "the cell's name cannot be written in a text STL file");
        }
        let mut asked = piece(&SQUARE[..3], &[&[0, 1, 2]]);
        asked.queries = vec![[0.0; 3]];
        assert_eq!(text_of(&[asked]).1, ["query points are not carried over: 1"]);
    }

    /// The file with a facet's normal turned.
    fn with_turned_normal(bytes: &[u8]) -> Vec<u8> {
        let facet = read(bytes).unwrap().pieces[0].faces[0];
        let mut out = bytes.to_vec();
        for (range, turned) in turned_normal(bytes, &facet).into_iter().rev() {
            out.splice(range, turned);
        }
        out
    }

    #[test]
    fn a_normal_is_turned() {
        let rest = "outer loop vertex 0 0 0 vertex 1 0 0 vertex 0 1 0 endloop endfacet\nendsolid\n";
        let with = |normal: &str| format!("solid\nFacet normal\r\n {normal} {rest}");
        let cases = [("0 -0  0e5", "0 -0  0e5"), ("1\n-.5e1 +2", "-1\n.5e1 -2"), ("nan inf -3", "-nan -inf 3")];
        for (normal, turned) in cases {
            let found = with_turned_normal(with(normal).as_bytes());
            assert_eq!(String::from_utf8(found).unwrap(), with(turned));
        }
        let mut bytes = binary(b"", 1, &[record([A, B, C], 7)]);
        let normal = |numbers: [f32; 3]| numbers.map(f32::to_le_bytes);
        let least = f32::from_bits(128);
        bytes[84..96].copy_from_slice(normal([-0.0, least, -2.0]).as_flattened());
        let mut turned = bytes.clone();
        turned[84..96].copy_from_slice(normal([-0.0, -least, 2.0]).as_flattened());
        assert_eq!(with_turned_normal(&bytes), turned);
    }

    /// The piece that a file of these facets holds, with each point looked for among all before it.
    fn expected(facets: &[[[f64; 3]; 3]]) -> Piece {
        let mut points: Vec<[f64; 3]> = Vec::new();
        let mut corners = Vec::new();
        for point in facets.as_flattened() {
            let known = points.iter().position(|other| other == point);
            corners.push(known.unwrap_or(points.len()) as u32);
            if known.is_none() {
                points.push(*point);
            }
        }
        let faces: Vec<&[u32]> = corners.chunks(3).collect();
        piece(&points, &faces)
    }

    /// Up to eight facets of such coordinates, or of a few that come again and again.
    fn facets<S: Strategy<Value = f64>>(coordinate: fn() -> S) -> impl Strategy<Value = Vec<[[f64; 3]; 3]>> {
        let few = prop::sample::select(vec![0.0, -0.0, 1.0, -1.5]);
        let coordinate = prop_oneof![4 => few, 1 => coordinate()];
        let point = prop::array::uniform3(coordinate);
        prop::collection::vec(prop::array::uniform3(point), 0..8)
    }

    fn wide() -> impl Strategy<Value = f64> {
        any::<u64>().prop_map(f64::from_bits).prop_filter("no NaN", |x| !x.is_nan())
    }

    fn narrow() -> impl Strategy<Value = f64> {
        let number = any::<u32>().prop_map(|bits| f64::from(f32::from_bits(bits)));
        number.prop_filter("no NaN", |x| !x.is_nan())
    }

    /// What must hold of whatever is read.
    fn holds_together(drawing: &Drawing, bytes: &[u8]) -> Result<(), TestCaseError> {
        let faces: usize = drawing.pieces.iter().map(|piece| piece.faces.len()).sum();
        let numbers = drawing.pieces.iter().flat_map(|piece| &piece.faces).map(|face| face.number);
        prop_assert_eq!(numbers.collect::<Vec<_>>(), (1..=faces as u32).collect::<Vec<_>>());
        for piece in &drawing.pieces {
            let cell = piece.cell.as_cell();
            prop_assert!(cell.faces().all(|face| face.len() == 3));
            prop_assert_eq!(cell.corners.len(), 3 * piece.faces.len());
            prop_assert_eq!(&piece.vertex_numbers, &(1..=cell.points.len() as u32).collect::<Vec<_>>());
            prop_assert!(cell.corners.iter().all(|&corner| (corner as usize) < cell.points.len()));
            prop_assert_eq!(piece.corner_starts.len(), cell.corners.len());
            for (&start, &corner) in piece.corner_starts.iter().zip(cell.corners) {
                let point = match drawing.corner_width {
                    CornerWidth::Bytes(_) => point_of(&bytes[start..]),
                    _ => Words::new(bytes, start).point().unwrap().0,
                };
                let known = cell.points[corner as usize];
                prop_assert!(point == known || point.iter().any(|x| x.is_nan()));
            }
        }
        Ok(())
    }

    const TEXT: &[u8] = b"solid a\nfacet normal 0 0 1\nouter loop\nvertex 0 0 0\nvertex 1 0 0\n\
        vertex 0 1 0\nendloop\nendfacet\nfacet normal 0 0 -1\nouter loop\nvertex 0 1 0\n\
        vertex 1 0 0\nvertex 0 0 0\nendloop\nendfacet\nendsolid a\n";
    const BINARY: &[u8] = &{
        // One facet: its points are 0 but for the x of the second and the y of the third.
        let mut bytes = [0; BEFORE_FACETS + FACET];
        bytes[HEADER] = 1;
        bytes[BEFORE_FACETS + 2 * POINT + 3] = 63;
        bytes[BEFORE_FACETS + 3 * POINT + 7] = 63;
        bytes
    };

    #[test]
    fn the_files_to_damage_are_sound() {
        for (bytes, corners) in [(TEXT, &[0, 1, 2, 2, 1, 0][..]), (BINARY, &[0, 1, 2])] {
            assert_eq!(read(bytes).unwrap().pieces[0].cell.corners, corners);
        }
    }

    proptest! {
        #[test]
        fn a_written_text_reads_back(one in facets(wide), two in facets(wide)) {
            let pieces = [named("one", expected(&one)), named("two", expected(&two))];
            let written = write(&pieces, Encoding::Text).unwrap();
            let drawing = read(&written.bytes).unwrap();
            same_cells(&pieces, &drawing.pieces)?;
            holds_together(&drawing, &written.bytes)?;
            prop_assert_eq!(written.told, Vec::<String>::new());
        }

        #[test]
        fn written_bytes_read_back(facets in facets(narrow)) {
            let pieces = [expected(&facets)];
            let written = write(&pieces, Encoding::Little).unwrap();
            let drawing = read(&written.bytes).unwrap();
            same_cells(&pieces, &drawing.pieces)?;
            holds_together(&drawing, &written.bytes)?;
            prop_assert_eq!(written.told, Vec::<String>::new());
        }

        #[test]
        fn damage_is_no_panic(bytes in prop_oneof![damaged(TEXT), damaged(BINARY)]) {
            if let Ok(drawing) = read(&bytes) {
                holds_together(&drawing, &bytes)?;
            }
        }

        #[test]
        fn any_bytes_of_a_binary_file_are_read(
            mut bytes in prop::collection::vec(any::<u8>(), BEFORE_FACETS..400)
        ) {
            let facets = (bytes.len() - BEFORE_FACETS) / FACET;
            bytes.truncate(BEFORE_FACETS + facets * FACET);
            bytes[HEADER..BEFORE_FACETS].copy_from_slice(&(facets as u32).to_le_bytes());
            let drawing = read(&bytes).unwrap();
            prop_assert_eq!(drawing.pieces[0].faces.len(), facets);
            holds_together(&drawing, &bytes)?;
        }
    }
}
