//! The polygon file format: a header of lines, then the items of each element that it names, as
//! lines of text or as bytes.

use std::fmt;

use super::text::{self, Line, Word};
use super::{Encoding, Format, Written, name_told, only_piece, queries_told};
use crate::model::{At, BadFile, CornerWidth, Drawing, FacePlace, Piece};

/// The most corners that a count of one byte can say.
const MOST_IN_A_BYTE: usize = 255;

/// What a PLY file holds: one cell.
pub fn read(bytes: &[u8]) -> Result<Drawing, BadFile> {
    let header = Header::read(bytes)?;
    let piece = match header.encoding {
        None => return Err(header.bad("the header names no format")),
        Some(Encoding::Text) => items(&header, words(bytes, &header))?,
        Some(order) => items(&header, Numbers::new(bytes, &header, order))?,
    };
    let mut drawing = header.drawing();
    drawing.pieces.push(piece);
    Ok(drawing)
}

/// What the header says.
#[derive(Default)]
struct Header<'a> {
    encoding: Option<Encoding>,
    elements: Vec<Element<'a>>,
    has_comments: bool,
    /// How many lines it has.
    lines: usize,
    /// How many bytes it has: the items begin there.
    length: usize,
}

/// An element: its name, and how many items with which properties it has.
struct Element<'a> {
    name: Word<'a>,
    count: usize,
    properties: Vec<Property<'a>>,
}

/// A property that each item of an element has.
struct Property<'a> {
    name: Word<'a>,
    /// The type of its number, or of each number of its list.
    kind: Scalar,
    /// The type of the list's count, where it is a list.
    count: Option<Scalar>,
    role: Role,
}

/// What a property is to us.
#[derive(Clone, Copy, PartialEq, Eq)]
enum Role {
    /// A coordinate of a vertex, by its axis.
    Coordinate(usize),
    /// The corners of a face.
    Corners,
    /// Nothing: it is passed over.
    Passed,
}

/// A type of numbers.
#[derive(Clone, Copy)]
enum Scalar {
    I8,
    U8,
    I16,
    U16,
    I32,
    U32,
    F32,
    F64,
}

impl Scalar {
    fn of(word: Word<'_>) -> Result<Scalar, BadFile> {
        match word.bytes {
            b"char" | b"int8" => Ok(Scalar::I8),
            b"uchar" | b"uint8" => Ok(Scalar::U8),
            b"short" | b"int16" => Ok(Scalar::I16),
            b"ushort" | b"uint16" => Ok(Scalar::U16),
            b"int" | b"int32" => Ok(Scalar::I32),
            b"uint" | b"uint32" => Ok(Scalar::U32),
            b"float" | b"float32" => Ok(Scalar::F32),
            b"double" | b"float64" => Ok(Scalar::F64),
            _ => Err(word.bad("is no type of numbers")),
        }
    }

    /// The type of a list's count.
    fn of_count(word: Word<'_>) -> Result<Scalar, BadFile> {
        match Scalar::of(word)? {
            Scalar::F32 | Scalar::F64 => Err(word.bad("is no whole type, so it cannot count")),
            kind => Ok(kind),
        }
    }

    fn is_whole(self) -> bool {
        !matches!(self, Scalar::F32 | Scalar::F64)
    }

    /// How many bytes a number takes.
    fn size(self) -> usize {
        match self {
            Scalar::I8 | Scalar::U8 => 1,
            Scalar::I16 | Scalar::U16 => 2,
            Scalar::I32 | Scalar::U32 | Scalar::F32 => 4,
            Scalar::F64 => 8,
        }
    }

    /// The number at the front of these bytes, its lowest byte first. An f64 holds every number of
    /// every type.
    fn number(self, bytes: [u8; 8]) -> f64 {
        let [a, b, c, d, ..] = bytes;
        match self {
            Scalar::I8 => i8::from_le_bytes([a]).into(),
            Scalar::U8 => a.into(),
            Scalar::I16 => i16::from_le_bytes([a, b]).into(),
            Scalar::U16 => u16::from_le_bytes([a, b]).into(),
            Scalar::I32 => i32::from_le_bytes([a, b, c, d]).into(),
            Scalar::U32 => u32::from_le_bytes([a, b, c, d]).into(),
            Scalar::F32 => f32::from_le_bytes([a, b, c, d]).into(),
            Scalar::F64 => f64::from_le_bytes(bytes),
        }
    }
}

impl<'a> Header<'a> {
    fn read(bytes: &'a [u8]) -> Result<Header<'a>, BadFile> {
        let mut lines = text::lines(bytes);
        let mut header = Header { lines: 1, ..Header::default() };
        if lines.next().is_none_or(|line| line.bytes != b"ply") {
            return Err(header.bad("a PLY file begins with the line 'ply'"));
        }
        for line in lines {
            header.lines = line.number;
            if header.take(line)? {
                header.length = header_end(bytes, line.start);
                header.check()?;
                return Ok(header);
            }
        }
        Err(header.bad("the file ends before the line 'end_header'"))
    }

    /// What is wrong with the header as a whole, told with its last line.
    fn bad(&self, what: &str) -> BadFile {
        BadFile::line(self.lines, what)
    }

    /// Takes a line, and says whether it is the header's last.
    fn take(&mut self, line: Line<'a>) -> Result<bool, BadFile> {
        // No line has more than five words, so that a sixth is seen to be one too many.
        let words: Vec<Word<'a>> = line.words().take(6).collect();
        let Some((first, rest)) = words.split_first() else {
            return Ok(false);
        };
        match (first.bytes, rest) {
            (b"comment" | b"obj_info", _) => self.has_comments = true,
            (b"format", &[encoding, version]) => self.take_format(encoding, version)?,
            (b"element", &[name, count]) => self.take_element(name, count)?,
            (b"property", &[list, count, kind, name]) if list.bytes == b"list" => {
                self.take_property(name, kind, Some(count))?;
            }
            (b"property", &[kind, name]) => self.take_property(name, kind, None)?,
            (b"end_header", []) => return Ok(true),
            _ => {
                let bytes = line.bytes;
                return Err(Word { bytes, ..*first }.bad("is no line of a PLY header"));
            }
        }
        Ok(false)
    }

    fn take_format(&mut self, encoding: Word<'a>, version: Word<'a>) -> Result<(), BadFile> {
        let named = match encoding.bytes {
            b"ascii" => Encoding::Text,
            b"binary_little_endian" => Encoding::Little,
            b"binary_big_endian" => Encoding::Big,
            _ => return Err(encoding.bad("is no format of PLY")),
        };
        if version.bytes != b"1.0" {
            return Err(version.bad("is no version of PLY that is read: 1.0 is"));
        }
        if self.encoding.replace(named).is_some() {
            return Err(encoding.bad("is a second format"));
        }
        Ok(())
    }

    fn take_element(&mut self, name: Word<'a>, count: Word<'a>) -> Result<(), BadFile> {
        let ours = matches!(name.bytes, b"vertex" | b"face");
        if ours && self.named(name.bytes).is_some() {
            return Err(name.bad("is the name of an element before it"));
        }
        let items = count.count()?;
        if ours && items > text::MOST {
            return Err(count.bad(format!("is more than the {} that are read", text::MOST)));
        }
        self.elements.push(Element { name, count: items, properties: Vec::new() });
        Ok(())
    }

    fn take_property(&mut self, name: Word<'a>, kind: Word<'a>, count: Option<Word<'a>>) -> Result<(), BadFile> {
        let Some(element) = self.elements.last_mut() else {
            return Err(name.bad("is a property before the first element"));
        };
        let kind = Scalar::of(kind)?;
        let count = count.map(Scalar::of_count).transpose()?;
        let role = role(element.name, name, kind, count)?;
        if role != Role::Passed && element.has(role) {
            return Err(name.bad("says again what a property before it says"));
        }
        element.properties.push(Property { name, kind, count, role });
        Ok(())
    }

    /// Makes sure that all is there of which a cell is made.
    fn check(&self) -> Result<(), BadFile> {
        let Some(vertex) = self.named(b"vertex") else {
            return Err(self.bad("the header names no element 'vertex'"));
        };
        for (axis, name) in ["x", "y", "z"].into_iter().enumerate() {
            if !vertex.has(Role::Coordinate(axis)) {
                let what = format!("has no property '{name}'");
                return Err(vertex.name.bad(what));
            }
        }
        match self.named(b"face") {
            Some(face) if face.count > 0 && !face.has(Role::Corners) => {
                Err(face.name.bad("has no list 'vertex_indices'"))
            }
            _ => Ok(()),
        }
    }

    fn named(&self, name: &[u8]) -> Option<&Element<'a>> {
        let mut elements = self.elements.iter();
        elements.find(|element| element.name.bytes == name)
    }

    /// The drawing without its piece: what it passes over, and how wide a corner is.
    fn drawing(&self) -> Drawing {
        let mut drawing = Drawing { corner_width: self.corner_width(), ..Drawing::default() };
        if self.has_comments {
            drawing.passed_over.insert("comments".to_string());
        }
        for element in self.elements.iter().filter(|element| element.count > 0) {
            if matches!(element.name.bytes, b"vertex" | b"face") {
                drawing.passed_over.extend(element.properties_passed());
                continue;
            }
            let passed = format!("element {}", plain(element.name.bytes));
            drawing.passed_over.insert(passed);
            if element.may_hold_faces() {
                let note = format!("the element {} is not read", element.name.shown());
                drawing.notes.push(note);
            }
        }
        drawing
    }

    fn corner_width(&self) -> CornerWidth {
        let properties = self.named(b"face").map(|face| &face.properties[..]);
        let mut properties = properties.unwrap_or_default().iter();
        let corners = properties.find(|property| property.role == Role::Corners);
        match (self.encoding, corners) {
            (Some(Encoding::Little | Encoding::Big), Some(list)) => CornerWidth::Bytes(list.kind.size()),
            _ => CornerWidth::Word,
        }
    }
}

/// The byte at which the last line of the header ends. Where the header's lines end with a carriage return alone, a line
/// feed behind the last is the first byte of the items.
fn header_end(bytes: &[u8], start: usize) -> usize {
    let end = text::next_line(bytes, start);
    let first = text::next_line(bytes, 0);
    let returns = bytes[..first].ends_with(b"\r");
    if returns && bytes[..end].ends_with(b"\r\n") { end - 1 } else { end }
}

impl Element<'_> {
    fn has(&self, role: Role) -> bool {
        self.properties.iter().any(|property| property.role == role)
    }

    fn properties_passed(&self) -> impl Iterator<Item = String> {
        let passed = |property: &&Property<'_>| property.role == Role::Passed;
        let properties = self.properties.iter().filter(passed);
        properties.map(|property| format!("property {}", plain(property.name.bytes)))
    }

    /// Whether it has a list of whole numbers, as the strips of triangles have.
    fn may_hold_faces(&self) -> bool {
        let mut properties = self.properties.iter();
        properties.any(|property| property.count.is_some() && property.kind.is_whole())
    }
}

/// What a property is to us, by the names of its element and its own.
fn role(element: Word<'_>, name: Word<'_>, kind: Scalar, count: Option<Scalar>) -> Result<Role, BadFile> {
    match (element.bytes, name.bytes, count) {
        (b"vertex", b"x", None) => Ok(Role::Coordinate(0)),
        (b"vertex", b"y", None) => Ok(Role::Coordinate(1)),
        (b"vertex", b"z", None) => Ok(Role::Coordinate(2)),
        (b"vertex", b"x" | b"y" | b"z", Some(_)) => Err(name.bad("is a list, and a coordinate is one number")),
        (b"face", b"vertex_indices" | b"vertex_index", Some(_)) if kind.is_whole() => Ok(Role::Corners),
        (b"face", b"vertex_indices" | b"vertex_index", _) => Err(name.bad("is no list of whole numbers")),
        _ => Ok(Role::Passed),
    }
}

/// A name of the file without quotation marks, and no longer than a message shows it.
fn plain(bytes: &[u8]) -> String {
    let word = Word { line: 0, start: 0, bytes };
    let shown = word.shown();
    shown[1..shown.len() - 1].to_string()
}

/// An item of an element, to name it in a message.
#[derive(Clone, Copy, Default)]
struct Item<'a> {
    element: &'a [u8],
    number: usize,
    of: usize,
}

impl fmt::Display for Item<'_> {
    fn fmt(&self, f: &mut fmt::Formatter<'_>) -> fmt::Result {
        write!(f, "{} {} of {}, counted from 0", plain(self.element), self.number, self.of)
    }
}

/// A whole number of the file.
struct Whole {
    value: i64,
    /// The byte at which it starts.
    start: usize,
    /// Where a message says that it stands.
    at: At,
}

impl Whole {
    fn bad(&self, what: impl fmt::Display) -> BadFile {
        BadFile { at: self.at, what: format!("'{}' {what}", self.value) }
    }
}

/// Where the items' numbers come from.
trait Source<'a> {
    /// Goes to an item, and says where it stands.
    fn begin(&mut self, item: Item<'a>) -> Result<FacePlace, BadFile>;
    /// The item's next number.
    fn number(&mut self, kind: Scalar) -> Result<f64, BadFile>;
    /// The item's next number, which must be a whole one.
    fn whole(&mut self, kind: Scalar) -> Result<Whole, BadFile>;
    /// Passes over so many of the item's numbers.
    fn skip(&mut self, kind: Scalar, count: usize) -> Result<(), BadFile>;
    /// Makes sure that the item has no more numbers.
    fn end_item(&mut self) -> Result<(), BadFile>;
    /// Makes sure that nothing follows the last item.
    fn end(self) -> Result<(), BadFile>;
}

/// The cell of the items.
fn items<'a>(header: &Header<'a>, mut source: impl Source<'a>) -> Result<Piece, BadFile> {
    let mut reader = Reader { vertices: header.named(b"vertex").map_or(0, |vertex| vertex.count), ..Reader::default() };
    for element in &header.elements {
        // Items without properties take no room, so that a file may claim any number of them.
        if element.properties.is_empty() {
            continue;
        }
        for number in 0..element.count {
            let item = Item { element: element.name.bytes, number, of: element.count };
            let place = source.begin(item)?;
            reader.take(&element.properties, &mut source)?;
            source.end_item()?;
            reader.end_item(item.element, place);
        }
    }
    source.end()?;
    Ok(reader.piece)
}

/// The cell that is being read.
#[derive(Default)]
struct Reader {
    piece: Piece,
    /// The coordinates of the vertex that is being read.
    point: [f64; 3],
    /// How many vertices the header names.
    vertices: usize,
}

impl Reader {
    /// Takes the numbers of an item.
    fn take<'a>(&mut self, properties: &[Property<'a>], source: &mut impl Source<'a>) -> Result<(), BadFile> {
        for property in properties {
            let length = match property.count {
                Some(kind) => list_length(source.whole(kind)?)?,
                None => 1,
            };
            match property.role {
                Role::Coordinate(axis) => self.point[axis] = source.number(property.kind)?,
                Role::Corners => {
                    for _ in 0..length {
                        self.take_corner(source.whole(property.kind)?)?;
                    }
                }
                Role::Passed => source.skip(property.kind, length)?,
            }
        }
        Ok(())
    }

    fn take_corner(&mut self, number: Whole) -> Result<(), BadFile> {
        let corner = text::vertex(number.value, self.vertices).map_err(|what| number.bad(what))?;
        if self.piece.cell.corners.len() >= text::MOST {
            return Err(BadFile { at: number.at, what: text::too_many(text::MOST, "corners") });
        }
        self.piece.push_corner(corner, number.start);
        Ok(())
    }

    fn end_item(&mut self, element: &[u8], place: FacePlace) {
        match element {
            b"vertex" => {
                self.piece.vertex_numbers.push(place.number);
                self.piece.cell.points.push(self.point);
            }
            b"face" => self.piece.end_face(place),
            _ => {}
        }
    }
}

fn list_length(number: Whole) -> Result<usize, BadFile> {
    usize::try_from(number.value).map_err(|_| number.bad("is no count"))
}

/// Items in text, each on its own line.
struct Words<'a, L> {
    lines: L,
    /// What is left of the item's line.
    rest: Line<'a>,
    item: Item<'a>,
}

/// The items behind the header of a text.
fn words<'a>(bytes: &'a [u8], header: &Header<'_>) -> Words<'a, impl Iterator<Item = Line<'a>> + use<'a>> {
    let rest = Line { number: header.lines, start: header.length, bytes: &[] };
    Words { lines: text::lines(bytes).skip(header.lines), rest, item: Item::default() }
}

impl<'a, L: Iterator<Item = Line<'a>>> Words<'a, L> {
    /// Goes to the next line that is not blank, where there is one.
    fn next_line(&mut self) -> Option<Line<'a>> {
        loop {
            self.rest = self.lines.next()?;
            if !self.rest.bytes.is_empty() {
                return Some(self.rest);
            }
        }
    }

    /// The next word of the line.
    fn next_word(&mut self) -> Option<Word<'a>> {
        let word = self.rest.words().next()?;
        let end = word.start + word.bytes.len();
        self.rest.bytes = &self.rest.bytes[end - self.rest.start..];
        self.rest.start = end;
        Some(word)
    }

    /// The next word, which the item must have.
    fn word(&mut self) -> Result<Word<'a>, BadFile> {
        let word = self.next_word();
        word.ok_or_else(|| {
            let what = format!("the line ends in the middle of {}", self.item);
            BadFile::line(self.rest.number, what)
        })
    }
}

impl<'a, L: Iterator<Item = Line<'a>>> Source<'a> for Words<'a, L> {
    fn begin(&mut self, item: Item<'a>) -> Result<FacePlace, BadFile> {
        self.item = item;
        match self.next_line() {
            Some(line) => Ok(text::face_place(item.number, 0, line)),
            None => {
                let what = format!("the file ends before {item}");
                Err(BadFile::line(self.rest.number, what))
            }
        }
    }

    /// The nearest f64, whatever the type.
    fn number(&mut self, _: Scalar) -> Result<f64, BadFile> {
        self.word()?.number()
    }

    fn whole(&mut self, _: Scalar) -> Result<Whole, BadFile> {
        let word = self.word()?;
        Ok(Whole { value: word.whole()?, start: word.start, at: At::Line(word.line) })
    }

    fn skip(&mut self, _: Scalar, count: usize) -> Result<(), BadFile> {
        for _ in 0..count {
            self.word()?;
        }
        Ok(())
    }

    fn end_item(&mut self) -> Result<(), BadFile> {
        match self.next_word() {
            Some(word) => Err(word.bad(format!("follows the last number of {}", self.item))),
            None => Ok(()),
        }
    }

    fn end(mut self) -> Result<(), BadFile> {
        match self.next_line().and_then(|line| line.words().next()) {
            Some(word) => Err(word.bad("follows the last item")),
            None => Ok(()),
        }
    }
}

/// Items in bytes, one after another.
struct Numbers<'a> {
    bytes: &'a [u8],
    /// The byte at which the next number starts.
    at: usize,
    /// The byte at which the item starts.
    start: usize,
    order: Encoding,
    item: Item<'a>,
}

impl<'a> Numbers<'a> {
    /// The items behind the header.
    fn new(bytes: &'a [u8], header: &Header<'_>, order: Encoding) -> Numbers<'a> {
        Numbers { bytes, at: header.length, start: header.length, order, item: Item::default() }
    }

    /// Goes on over so many numbers, and answers their bytes.
    fn pass(&mut self, kind: Scalar, count: usize) -> Result<&'a [u8], BadFile> {
        let left = &self.bytes[self.at..];
        if count > left.len() / kind.size() {
            return Err(self.ended());
        }
        let length = count * kind.size();
        self.at += length;
        Ok(&left[..length])
    }

    fn ended(&self) -> BadFile {
        let end = self.bytes.len();
        let middle = if self.start < end { "in the middle of" } else { "before" };
        BadFile::byte(end, format!("the file ends {middle} {}", self.item))
    }
}

impl<'a> Source<'a> for Numbers<'a> {
    fn begin(&mut self, item: Item<'a>) -> Result<FacePlace, BadFile> {
        (self.item, self.start) = (item, self.at);
        Ok(FacePlace { number: text::numbered(item.number, 0), line: None, start: self.at })
    }

    fn number(&mut self, kind: Scalar) -> Result<f64, BadFile> {
        let found = self.pass(kind, 1)?;
        let mut bytes = [0; 8];
        bytes[..found.len()].copy_from_slice(found);
        if self.order == Encoding::Big {
            bytes[..found.len()].reverse();
        }
        Ok(kind.number(bytes))
    }

    fn whole(&mut self, kind: Scalar) -> Result<Whole, BadFile> {
        let start = self.at;
        // The header has made sure that the type is a whole one: it has at most 32 bits.
        let value = self.number(kind)? as i64;
        let at = At::Byte(start);
        Ok(Whole { value, start, at })
    }

    fn skip(&mut self, kind: Scalar, count: usize) -> Result<(), BadFile> {
        self.pass(kind, count).map(|_| ())
    }

    fn end_item(&mut self) -> Result<(), BadFile> {
        Ok(())
    }

    fn end(self) -> Result<(), BadFile> {
        match self.bytes.len() - self.at {
            0 => Ok(()),
            1 => Err(BadFile::byte(self.at, "1 byte follows the last item")),
            more => {
                let what = format!("{more} bytes follow the last item");
                Err(BadFile::byte(self.at, what))
            }
        }
    }
}

/// The cell as a PLY file.
pub fn write(pieces: &[Piece], encoding: Encoding) -> Result<Written, String> {
    let piece = only_piece(pieces, Format::Ply)?;
    let mut faces = piece.cell.as_cell().faces();
    let long = faces.any(|face| face.len() > MOST_IN_A_BYTE);
    let mut bytes = header_text(piece, encoding, long).into_bytes();
    if encoding == Encoding::Text {
        text::no_nan(pieces)?;
        bytes.extend(text::items_text(piece).bytes());
    } else {
        Binary { bytes: &mut bytes, order: encoding }.put_items(piece, long);
    }
    let told = queries_told(pieces).into_iter().chain(name_told(piece)).collect();
    Ok(Written { bytes, told })
}

/// The header; a long face needs a count of more than a byte.
fn header_text(piece: &Piece, encoding: Encoding, long: bool) -> String {
    let encoding = match encoding {
        Encoding::Text => "ascii",
        Encoding::Little => "binary_little_endian",
        Encoding::Big => "binary_big_endian",
    };
    let (vertices, faces) = (piece.cell.points.len(), piece.cell.ends.len());
    let count = if long { "uint" } else { "uchar" };
    format!(
        "ply\nformat {encoding} 1.0\n\
         element vertex {vertices}\nproperty double x\nproperty double y\nproperty double z\n\
         element face {faces}\nproperty list {count} int vertex_indices\nend_header\n"
    )
}

/// A file in bytes that is being written.
struct Binary<'a> {
    bytes: &'a mut Vec<u8>,
    order: Encoding,
}

impl Binary<'_> {
    fn put_items(&mut self, piece: &Piece, long: bool) {
        for number in piece.cell.points.iter().flatten() {
            self.put(number.to_le_bytes());
        }
        for face in piece.cell.as_cell().faces() {
            let [low, rest @ ..] = text::numbered(face.len(), 0).to_le_bytes();
            if long {
                let [b, c, d] = rest;
                self.put([low, b, c, d]);
            } else {
                self.put([low]);
            }
            face.iter().for_each(|corner| self.put(corner.to_le_bytes()));
        }
    }

    /// Puts a number, whose lowest byte is handed in first.
    fn put<const N: usize>(&mut self, mut number: [u8; N]) {
        if self.order == Encoding::Big {
            number.reverse();
        }
        self.bytes.extend(number);
    }
}

#[cfg(test)]
mod tests {
    use super::*;
    use crate::formats::testing::{cells, damaged, holds, same_cells};
    use proptest::prelude::*;

    /// A header up to its elements.
    fn head(encoding: &str) -> String {
        format!("ply\nformat {encoding} 1.0\n")
    }

    const XYZ: &str = "property float x\nproperty float y\nproperty float z\n";

    /// A text file of one vertex with these lines of its elements behind it, and then its items.
    fn one_vertex(elements: &str, items: &str) -> String {
        let head = head("ascii");
        format!("{head}element vertex 1\n{XYZ}{elements}end_header\n{items}")
    }

    /// A binary file of three vertices in bytes, 0 to 8, and of faces with these bytes.
    fn bytes_file(order: &str, faces: usize, list: &str, items: &[u8]) -> Vec<u8> {
        let head = head(&format!("binary_{order}_endian"));
        let xyz = XYZ.replace("float", "uchar");
        let face = format!("element face {faces}\nproperty list {list} vertex_index\n");
        let header = format!("{head}element vertex 3\n{xyz}{face}end_header\n");
        [header.as_bytes(), &[0, 1, 2, 3, 4, 5, 6, 7, 8], items].concat()
    }

    fn refusal(bytes: impl AsRef<[u8]>) -> String {
        read(bytes.as_ref()).unwrap_err().to_string()
    }

    fn bits(piece: &Piece) -> Vec<[u64; 3]> {
        let points = piece.cell.points.iter();
        points.map(|point| point.map(f64::to_bits)).collect()
    }

    fn passed_over(drawing: &Drawing) -> Vec<&str> {
        drawing.passed_over.iter().map(String::as_str).collect()
    }

    #[test]
    fn a_text_file() {
        let text = "ply\r\nformat ascii 1.0\r\ncomment by hand\r\nelement vertex 3\r\n\
            property float x\r\nproperty float y\r\nproperty uchar red\r\nproperty float z\r\n\
            element edge 1\r\nproperty int vertex1\r\nproperty int vertex2\r\n\
            element face 2\r\nproperty list uchar int vertex_indices\r\nproperty float area\r\n\
            end_header\r\n0.1 0 255 -0\r\n1 inf 255 2e3\r\n\r\n -1\t0.5 x 7 \r\n0 1\r\n\
            3 2 1 0 0.5\r\n  4  0 1 +2 1 7\r\n\r\n";
        let drawing = read(text.as_bytes()).unwrap();
        let piece = &drawing.pieces[0];
        let points = [[0.1, 0.0, -0.0], [1.0, f64::INFINITY, 2000.0], [-1.0, 0.5, 7.0]];
        assert_eq!(bits(piece), points.map(|point| point.map(f64::to_bits)));
        assert_eq!(piece.cell.corners, [2, 1, 0, 0, 1, 2, 1]);
        assert_eq!(piece.cell.ends, [3, 7]);
        assert_eq!((&piece.name, &piece.vertex_numbers[..]), (&None, &[0, 1, 2][..]));
        let [first, second] = ["3 2 1 0", "  4  0"].map(|face| text.find(face).unwrap());
        let place = |number, line, start| FacePlace { number, line: Some(line), start };
        assert_eq!(piece.faces, [place(0, 21, first), place(1, 22, second)]);
        let starts = piece.corner_starts.iter();
        let corners: String = starts.map(|&at| &text[at..at + 1]).collect();
        assert_eq!(corners, "21001+1");
        assert_eq!(drawing.corner_width, CornerWidth::Word);
        let passed = ["comments", "element edge", "property area", "property red"];
        assert_eq!(passed_over(&drawing), passed);
        assert_eq!(drawing.notes, [""; 0]);
    }

    #[test]
    fn a_little_endian_file() {
        let items = [3, 0, 0, 1, 0, 2, 0, 4, 2, 0, 2, 0, 1, 0, 0, 0];
        let bytes = bytes_file("little", 2, "uchar ushort", &items);
        let drawing = read(&bytes).unwrap();
        let piece = &drawing.pieces[0];
        let points = [[0.0, 1.0, 2.0], [3.0, 4.0, 5.0], [6.0, 7.0, 8.0]];
        assert_eq!(piece.cell.points, points);
        assert_eq!(piece.cell.corners, [0, 1, 2, 2, 2, 1, 0]);
        assert_eq!(piece.cell.ends, [3, 7]);
        let start = bytes.len() - items.len();
        let place = |number, start| FacePlace { number, line: None, start };
        assert_eq!(piece.faces, [place(0, start), place(1, start + 7)]);
        let starts = [1, 3, 5, 8, 10, 12, 14].map(|at| start + at);
        assert_eq!(piece.corner_starts, starts);
        assert_eq!(drawing.corner_width, CornerWidth::Bytes(2));
        assert_eq!(drawing.passed_over.len(), 0);
    }

    #[test]
    fn a_big_endian_file() {
        let items = [0, 3, 0, 0, 0, 2, 0, 0, 0, 1, 0, 0, 0, 0];
        let bytes = bytes_file("big", 1, "short int", &items);
        let drawing = read(&bytes).unwrap();
        let piece = &drawing.pieces[0];
        assert_eq!(piece.cell.corners, [2, 1, 0]);
        let start = bytes.len() - items.len();
        assert_eq!(piece.corner_starts, [2, 6, 10].map(|at| start + at));
        assert_eq!(drawing.corner_width, CornerWidth::Bytes(4));
    }

    #[test]
    fn every_type_of_numbers() {
        // -2 or 254 in each type, the lowest byte first.
        let types: [(&str, &[u8], f64); 8] = [
            ("char int8", &[0xfe], -2.0),
            ("uchar uint8", &[0xfe], 254.0),
            ("short int16", &[0xfe, 0xff], -2.0),
            ("ushort uint16", &[0xfe, 0xff], 65534.0),
            ("int int32", &[0xfe, 0xff, 0xff, 0xff], -2.0),
            ("uint uint32", &[0xfe, 0xff, 0xff, 0xff], 4294967294.0),
            ("float float32", &[0xcd, 0xcc, 0xcc, 0x3d], 0.10000000149011612),
            ("double float64", &[0x9a, 0x99, 0x99, 0x99, 0x99, 0x99, 0xb9, 0x3f], 0.1),
        ];
        for (names, little, number) in types {
            let big: Vec<u8> = little.iter().rev().copied().collect();
            for name in names.split(' ') {
                for (order, bytes) in [("little", little), ("big", &big)] {
                    let head = head(&format!("binary_{order}_endian"));
                    let xyz = XYZ.replace("float", name);
                    let header = format!("{head}element vertex 1\n{xyz}end_header\n");
                    let file = [header.as_bytes(), bytes, bytes, bytes].concat();
                    let drawing = read(&file).unwrap();
                    assert_eq!(drawing.pieces[0].cell.points, [[number; 3]], "{name} {order}");
                    assert_eq!(drawing.pieces[0].cell.ends, [0; 0]);
                }
            }
        }
    }

    #[test]
    fn nan_is_read() {
        let text = one_vertex("", "NaN nan -nan\n");
        let point = read(text.as_bytes()).unwrap().pieces[0].cell.points[0];
        assert!(point.iter().all(|x| x.is_nan()));
    }

    #[test]
    fn faces_may_stand_before_vertices() {
        let face = "element face 1\nproperty list char uint vertex_indices\n";
        let vertex = format!("element vertex 2\n{XYZ}");
        let file = |encoding| format!("{}{face}{vertex}end_header\n", head(encoding));
        let text = file("ascii") + "2 1 0\n1 2 3\n4 5 6\n";
        let little = file("binary_little_endian");
        let corners = [2, 1, 0, 0, 0, 0, 0, 0, 0];
        let points: Vec<u8> = (1..=6u8).flat_map(|x| f32::from(x).to_le_bytes()).collect();
        let little = [little.as_bytes(), &corners, &points].concat();
        for bytes in [text.as_bytes(), &little] {
            let piece = &read(bytes).unwrap().pieces[0];
            assert_eq!(piece.cell.points, [[1.0, 2.0, 3.0], [4.0, 5.0, 6.0]]);
            assert_eq!(piece.cell.corners, [1, 0]);
        }
        let lie = file("ascii") + "2 1 2\n1 2 3\n4 5 6\n";
        assert_eq!(refusal(lie), "line 10: '2' is no vertex: the file has 2, from 0");
    }

    #[test]
    fn a_file_without_faces() {
        for elements in ["", "element face 0\n", "element face 0\nproperty int flags\n"] {
            let text = one_vertex(elements, "1 2 3\n");
            let drawing = read(text.as_bytes()).unwrap();
            assert_eq!(drawing.pieces[0].cell.points, [[1.0, 2.0, 3.0]]);
            assert_eq!(drawing.pieces[0].cell.ends, [0; 0]);
            assert_eq!(drawing.passed_over.len(), 0);
        }
    }

    #[test]
    fn elements_that_are_passed_over() {
        let strips = "element tristrips 1\nproperty list int int vertex_indices\n";
        let weights = "element weight 1\nproperty list uchar float w\n";
        let none = "element nothing 9223372036854775807\nelement edge 0\nproperty int a\n";
        let elements = [strips, weights, none].concat();
        let text = one_vertex(&elements, "1 2 3\n4 0 0 0 -1\n2 0.5 x\n");
        let drawing = read(text.as_bytes()).unwrap();
        let passed = ["element nothing", "element tristrips", "element weight"];
        assert_eq!(passed_over(&drawing), passed);
        assert_eq!(drawing.notes, ["the element 'tristrips' is not read"]);

        let text = text.replace("ascii", "binary_big_endian");
        let text = text.replace("property float", "property char");
        let header = text.split_inclusive("end_header\n").next().unwrap();
        let strip = [0, 0, 0, 1, 9, 9, 9, 9];
        let bytes = [header.as_bytes(), &[1, 2, 3], &strip, &[2], &[7; 8]].concat();
        let drawing = read(&bytes).unwrap();
        assert_eq!(drawing.pieces[0].cell.points, [[1.0, 2.0, 3.0]]);
        assert_eq!(passed_over(&drawing), passed);
        assert_eq!(drawing.notes, ["the element 'tristrips' is not read"]);
    }

    #[test]
    fn lies_of_the_header() {
        let cases = [
            ("", "line 1: a PLY file begins with the line 'ply'"),
            ("PLY\n", "line 1: a PLY file begins with the line 'ply'"),
            ("ply\n", "line 1: the file ends before the line 'end_header'"),
            ("ply\nend_header\n", "line 2: the header names no element 'vertex'"),
            ("ply\nend_header 2\n", "line 2: 'end_header 2' is no line of a PLY header"),
            ("ply\nformat text 1.0\n", "line 2: 'text' is no format of PLY"),
            ("ply\nformat ascii 2\n", "line 2: '2' is no version of PLY that is read: 1.0 is"),
            ("ply\nformat ascii\n", "line 2: 'format ascii' is no line of a PLY header"),
            ("ply\nelement vertex -1\n", "line 2: '-1' is no count"),
            ("ply\nelement vertex 1.5\n", "line 2: '1.5' is no whole number"),
            ("ply\nproperty int x\n", "line 2: 'x' is a property before the first element"),
        ];
        for (text, told) in cases {
            assert_eq!(refusal(text), told);
        }
        let twice = head("ascii") + "format ascii 1.0\n";
        assert_eq!(refusal(twice), "line 3: 'ascii' is a second format");
        let none = one_vertex("", "1 2 3\n").replace("format ascii 1.0", "");
        assert_eq!(refusal(none), "line 7: the header names no format");
        let flat = one_vertex("", "1 2\n").replace("property float z\n", "");
        assert_eq!(refusal(flat), "line 3: 'vertex' has no property 'z'");
        let list = one_vertex("", "").replace("float y", "list uchar float y");
        let told = "line 5: 'y' is a list, and a coordinate is one number";
        assert_eq!(refusal(list), told);
    }

    #[test]
    fn lies_of_elements() {
        let cases = [
            ("property half a\n", "line 7: 'half' is no type of numbers"),
            ("property int x\n", "line 7: 'x' says again what a property before it says"),
            ("property list float int a\n", "line 7: 'float' is no whole type, so it cannot count"),
            ("element vertex 2\n", "line 7: 'vertex' is the name of an element before it"),
            ("element face 1\n", "line 7: 'face' has no list 'vertex_indices'"),
            (
                "element face 1\nproperty list uchar float vertex_index\n",
                "line 8: 'vertex_index' is no list of whole numbers",
            ),
            ("element face 1\nproperty int vertex_index\n", "line 8: 'vertex_index' is no list of whole numbers"),
            (
                "element face 1\nproperty list uchar int vertex_index\n\
                 property list int int vertex_indices\n",
                "line 9: 'vertex_indices' says again what a property before it says",
            ),
            ("element face 0\nelement face 0\n", "line 8: 'face' is the name of an element before it"),
        ];
        for (elements, told) in cases {
            assert_eq!(refusal(one_vertex(elements, "1 2 3\n")), told);
        }
    }

    #[test]
    fn lies_of_a_text() {
        let faces = "element face 2\nproperty list uchar int vertex_indices\n";
        let cases = [
            ("", "line 9: the file ends before vertex 0 of 1, counted from 0"),
            ("\n\n", "line 11: the file ends before vertex 0 of 1, counted from 0"),
            ("1 2\n", "line 10: the line ends in the middle of vertex 0 of 1, counted from 0"),
            ("1 2 abc\n", "line 10: 'abc' is no number"),
            ("1 2 3 4\n", "line 10: '4' follows the last number of vertex 0 of 1, counted from 0"),
            ("1 2 3\n1 0\n", "line 11: the file ends before face 1 of 2, counted from 0"),
            ("1 2 3\n1 0\n2 0\n", "line 12: the line ends in the middle of face 1 of 2, counted from 0"),
            ("1 2 3\n-1 0\n", "line 11: '-1' is no count"),
            ("1 2 3\n1.0 0\n", "line 11: '1.0' is no whole number"),
            ("1 2 3\n1 0.0\n", "line 11: '0.0' is no whole number"),
            ("1 2 3\n1 1\n", "line 11: '1' is no vertex: the file has 1, from 0"),
            ("1 2 3\n1 -1\n", "line 11: '-1' is no vertex: the file has 1, from 0"),
            ("1 2 3\n1 4294967296\n", "line 11: '4294967296' is no vertex: the file has 1, from 0"),
            ("1 2 3\n9000000000000000000 0\n", "line 11: the line ends in the middle of face 0 of 2, counted from 0"),
            ("1 2 3\n0\n0\n\n x\n", "line 14: 'x' follows the last item"),
        ];
        for (items, told) in cases {
            assert_eq!(refusal(one_vertex(faces, items)), told);
        }
    }

    #[test]
    fn lies_of_bytes() {
        let told = |list, items: &[u8]| {
            let bytes = bytes_file("little", 2, list, items);
            let from = bytes.len() - items.len();
            refusal(&bytes)
                .replace(&format!("byte {from}:"), "byte 0:")
                .replace(&format!("byte {}:", bytes.len()), "the end:")
        };
        let ends = "the end: the file ends";
        assert_eq!(told("char char", &[1, 0]), format!("{ends} before face 1 of 2, counted from 0"));
        let middle = format!("{ends} in the middle of face 1 of 2, counted from 0");
        assert_eq!(told("char char", &[1, 0, 3, 0, 0]), middle);
        assert_eq!(told("char int", &[0, 1, 2, 0, 0]), middle);
        let middle = format!("{ends} in the middle of face 0 of 2, counted from 0");
        assert_eq!(told("uint int", &[255, 255, 255, 255, 0, 0, 0, 0]), middle);
        assert_eq!(told("uint int", &[1, 0]), middle);
        assert_eq!(told("char char", &[255, 0]), "byte 0: '-1' is no count");
        let bytes = bytes_file("little", 1, "char char", &[1, 3]);
        let last = bytes.len() - 1;
        let what = "is no vertex: the file has 3, from 0";
        assert_eq!(refusal(&bytes), format!("byte {last}: '3' {what}"));
        let bytes = bytes_file("big", 1, "uchar uint", &[1, 255, 255, 255, 255]);
        let last = bytes.len() - 4;
        assert_eq!(refusal(&bytes), format!("byte {last}: '4294967295' {what}"));
        let bytes = bytes_file("big", 1, "char char", &[1, 2, 10]);
        let last = bytes.len() - 1;
        assert_eq!(refusal(&bytes), format!("byte {last}: 1 byte follows the last item"));
        let bytes = bytes_file("big", 0, "char char", &[1, 2, 10]);
        let last = bytes.len() - 3;
        assert_eq!(refusal(&bytes), format!("byte {last}: 3 bytes follow the last item"));
    }

    #[test]
    fn counts_that_no_file_holds() {
        let claimed = |count: &str| one_vertex("", "1 2 3\n").replace("vertex 1", &format!("vertex {count}"));
        let told = "line 8: the file ends before vertex 1 of 16777216, counted from 0";
        assert_eq!(refusal(claimed("16777216")), told);
        let told = "line 3: '9223372036854775807' is more than the 16777216 that are read";
        assert_eq!(refusal(claimed("9223372036854775807")), told);
        let lists = "property list uint double a\n";
        let header = one_vertex(lists, "").replace("ascii", "binary_little_endian");
        let bytes = [header.as_bytes(), &[0; 12], &[255; 4]].concat();
        let told = format!("byte {}: the file ends in the middle of vertex 0 of 1, counted from 0", bytes.len());
        assert_eq!(refusal(&bytes), told);
    }

    /// A triangle far from round numbers, and its other side.
    fn two_faces() -> Piece {
        let points = [[0.0, -0.0, 0.1], [1.0, 1e300, 2.5], [-3.0, 0.0, 1.0]];
        let mut piece = Piece { vertex_numbers: vec![0, 1, 2], ..Piece::default() };
        piece.cell.points = points.to_vec();
        for (number, face) in [(0, [0, 1, 2]), (1, [2, 1, 0])] {
            piece.cell.corners.extend(face);
            piece.end_face(FacePlace { number, line: None, start: 0 });
        }
        piece
    }

    fn header_of_two_faces(encoding: &str) -> String {
        format!(
            "ply\nformat {encoding} 1.0\nelement vertex 3\nproperty double x\nproperty double y\n\
             property double z\nelement face 2\nproperty list uchar int vertex_indices\nend_header\n"
        )
    }

    #[test]
    fn a_text_is_written() {
        let written = write(&[two_faces()], Encoding::Text).unwrap();
        let items = "0 -0 0.1\n1 1e300 2.5\n-3 0 1\n3 0 1 2\n3 2 1 0\n";
        let text = String::from_utf8(written.bytes).unwrap();
        assert_eq!(text, header_of_two_faces("ascii") + items);
        assert_eq!(written.told, [""; 0]);
    }

    #[test]
    fn bytes_are_written() {
        let piece = two_faces();
        let numbers = piece.cell.points.as_flattened();
        let little = numbers.iter().flat_map(|x| x.to_le_bytes());
        let faces = [3, 0, 0, 0, 0, 1, 0, 0, 0, 2, 0, 0, 0, 3, 2, 0, 0, 0, 1, 0, 0, 0, 0, 0, 0, 0];
        let header = header_of_two_faces("binary_little_endian").into_bytes();
        let expected: Vec<u8> = header.into_iter().chain(little).chain(faces).collect();
        let written = write(std::slice::from_ref(&piece), Encoding::Little).unwrap();
        assert_eq!(written.bytes, expected);

        let big = numbers.iter().flat_map(|x| x.to_be_bytes());
        let faces = [3, 0, 0, 0, 0, 0, 0, 0, 1, 0, 0, 0, 2, 3, 0, 0, 0, 2, 0, 0, 0, 1, 0, 0, 0, 0];
        let header = header_of_two_faces("binary_big_endian").into_bytes();
        let expected: Vec<u8> = header.into_iter().chain(big).chain(faces).collect();
        let written = write(std::slice::from_ref(&piece), Encoding::Big).unwrap();
        assert_eq!(written.bytes, expected);
    }

    #[test]
    fn a_long_face_has_a_long_count() {
        for (corners, count) in [(255, "uchar"), (256, "uint")] {
            let mut piece = two_faces();
            piece.cell.corners.extend((0..corners).map(|corner| corner % 3));
            piece.end_face(FacePlace { number: 2, line: None, start: 0 });
            for encoding in [Encoding::Text, Encoding::Little, Encoding::Big] {
                let bytes = write(std::slice::from_ref(&piece), encoding).unwrap().bytes;
                let list = format!("\nproperty list {count} int vertex_indices\n");
                assert!(String::from_utf8_lossy(&bytes).contains(&list), "{corners} {encoding:?}");
                assert_eq!(read(&bytes).unwrap().pieces[0].cell, piece.cell);
            }
        }
    }

    #[test]
    fn what_cannot_be_held() {
        let mut piece = two_faces();
        let two = [piece.clone(), piece.clone()];
        let told = write(&two, Encoding::Little).unwrap_err();
        assert_eq!(told, "a .ply file holds one cell, and these are 2");
        piece.name = Some("roof".to_string());
        piece.queries = vec![[0.0; 3]; 2];
        let written = write(std::slice::from_ref(&piece), Encoding::Text).unwrap();
        let told = ["query points are not carried over: 2", "the name 'roof' is not carried over"];
        assert_eq!(written.told, told);
        piece.cell.points[1][2] = f64::NAN;
        let told = write(&[piece], Encoding::Text).unwrap_err();
        assert!(told.starts_with("vertex 1 has a coordinate that is no number"), "{told}");
    }

    const TEXT: &[u8] = b"ply\nformat ascii 1.0\nelement vertex 3\nproperty float x\n\
        property float y\nproperty float z\nelement face 2\n\
        property list uchar int vertex_index\nend_header\n0 0 0\n1 0 0\n0 1 0\n3 0 1 2\n3 2 1 0\n";
    const LITTLE: &[u8] = b"ply\nformat binary_little_endian 1.0\nelement vertex 3\n\
        property char x\nproperty char y\nproperty short z\nelement face 2\n\
        property list uchar short vertex_index\nend_header\n\
        \x00\x00\x00\x00\x01\x00\x00\x00\x00\x01\x00\x00\
        \x03\x00\x00\x01\x00\x02\x00\x03\x02\x00\x01\x00\x00\x00";
    const BIG: &[u8] = b"ply\nformat binary_big_endian 1.0\nelement face 2\n\
        property list uchar short vertex_index\nelement vertex 3\n\
        property char x\nproperty char y\nproperty short z\nend_header\n\
        \x03\x00\x00\x00\x01\x00\x02\x03\x00\x02\x00\x01\x00\x00\
        \x00\x00\x00\x00\x01\x00\x00\x00\x00\x01\x00\x00";

    #[test]
    fn the_files_to_damage_are_sound() {
        for bytes in [TEXT, LITTLE, BIG] {
            let piece = &read(bytes).unwrap().pieces[0];
            assert_eq!(piece.cell.points, [[0.0, 0.0, 0.0], [1.0, 0.0, 0.0], [0.0, 1.0, 0.0]]);
            assert_eq!(piece.cell.corners, [0, 1, 2, 2, 1, 0]);
        }
    }

    fn any_encoding() -> impl Strategy<Value = Encoding> {
        prop_oneof![Just(Encoding::Text), Just(Encoding::Little), Just(Encoding::Big)]
    }

    proptest! {
        #[test]
        fn what_is_written_reads_back(pieces in cells(1), encoding in any_encoding()) {
            let written = write(&pieces, encoding).unwrap();
            let drawing = read(&written.bytes).unwrap();
            same_cells(&pieces, &drawing.pieces)?;
            holds(&drawing, &written.bytes)?;
        }

        #[test]
        fn bytes_keep_a_nan(mut pieces in cells(1), payload in 1..1u64 << 52, big: bool) {
            pieces[0].cell.points[0][1] = f64::from_bits(0x7ff << 52 | payload);
            let encoding = if big { Encoding::Big } else { Encoding::Little };
            let written = write(&pieces, encoding).unwrap();
            same_cells(&pieces, &read(&written.bytes).unwrap().pieces)?;
        }

        #[test]
        fn damage_is_no_panic(
            bytes in prop_oneof![damaged(TEXT), damaged(LITTLE), damaged(BIG)]
        ) {
            if let Ok(drawing) = read(&bytes) {
                holds(&drawing, &bytes)?;
            }
        }

        #[test]
        fn a_file_that_is_cut_off_is_not_read(kept in 0..BIG.len(), which in 0..3usize) {
            let bytes = [TEXT, LITTLE, BIG][which];
            // Only the end of the last line of a text may be missing.
            let kept = kept.min(bytes.len() - 2);
            prop_assert!(read(&bytes[..kept]).is_err());
        }
    }
}
