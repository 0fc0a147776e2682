//! Damaged files of every format: each is read, or refused with words; no panic, and memory that goes by the file.
//!
//! `DAMAGED` says how many of each format and encoding, 20,000 without it. tests/desk runs a million of each under a
//! limit of memory.

use std::env;
use std::fs;
use std::path::Path;

use desk::findings::examine;
use desk::formats::{Encoding, Format};
use desk::json;
use desk::model::{Drawing, Piece};
use desk::picture::svg;
use desk::turning::{turned_file, turning};
use desk::words::{Report, Wish};

/// One file in so many that can be read goes through everything else, too.
const THROUGH_ALL: u64 = 64;

/// Stretches that lie in one format or another.
const LIES: [&[u8]; 24] = [
    b"-1",
    b"0",
    b"1",
    b"4294967295",
    b"4294967296",
    b"9223372036854775807",
    b"-9223372036854775808",
    b"1e999",
    b"nan",
    b"-inf",
    b"\\\n",
    b"#",
    b"\n",
    b"\r\n",
    b" ",
    b"f",
    b"v 1 2 3\n",
    b"g a\n",
    b"solid x\n",
    b"endfacet",
    b"element face 4000000000\n",
    b"property list uchar int x\n",
    b"\xff\xff\xff\xff",
    b"\0\0\0\0",
];

/// Numbers that look random and are the same in every run (splitmix64).
struct Dice(u64);

impl Dice {
    fn roll(&mut self) -> u64 {
        self.0 = self.0.wrapping_add(0x9E37_79B9_7F4A_7C15);
        let z = (self.0 ^ (self.0 >> 30)).wrapping_mul(0xBF58_476D_1CE4_E5B9);
        let z = (z ^ (z >> 27)).wrapping_mul(0x94D0_49BB_1331_11EB);
        z ^ (z >> 31)
    }

    /// A number below the bound, and 0 where that is 0.
    fn below(&mut self, bound: usize) -> usize {
        if bound == 0 { 0 } else { (self.roll() % bound as u64) as usize }
    }
}

/// Changes the bytes in one of seven ways.
fn damage(bytes: &mut Vec<u8>, dice: &mut Dice) {
    let at = dice.below(bytes.len() + 1);
    let length = dice.below(9).min(bytes.len() - at);
    let byte = dice.roll() as u8;
    match dice.below(7) {
        0 => drop(bytes.splice(at..at + length.min(1), [byte])),
        1 => drop(bytes.splice(at..at + length, *b"")),
        2 => drop(bytes.splice(at..at + length, LIES[dice.below(LIES.len())].iter().copied())),
        3 => drop(bytes.splice(at..at, LIES[dice.below(LIES.len())].iter().copied())),
        4 => bytes.truncate(at),
        5 => {
            let from = dice.below(bytes.len() + 1);
            let copied = bytes[from..(from + dice.below(200)).min(bytes.len())].to_vec();
            drop(bytes.splice(at..at, copied));
        }
        _ => bytes.get_mut(at).into_iter().for_each(|byte| *byte ^= 1 << dice.below(8)),
    }
}

/// Has a drawing measured, told, drawn, turned and written in every way.
fn through_all(bytes: &[u8], format: Format, drawing: &Drawing) {
    let wish = Wish { bits: true, all: true };
    for piece in &drawing.pieces {
        let findings = examine(&piece.cell);
        let report = Report { file: "a", piece, findings: &findings };
        assert!(!json::line(&report, wish).is_empty());
        assert!(!report.faults(wish).iter().chain(&report.csv(wish)).any(|text| text.contains(char::is_control)));
        let drawn = svg(&[report]);
        // Words may speak of NaN; a place or a length may not be one.
        let mut tags = drawn.split('<').map(|part| part.split('>').next().unwrap_or_default());
        assert!(!tags.any(|tag| tag.contains("NaN") || tag.contains("inf")), "{drawn}");
    }
    let faces: Vec<_> = drawing.pieces.iter().map(|piece| turning(piece.cell.as_cell()).faces()).collect();
    let turned = format.read(&turned_file(bytes, format, drawing, &faces)).expect("a turned file reads back");
    for ((before, after), faces) in drawing.pieces.iter().zip(&turned.pieces).zip(&faces) {
        assert!(faces.is_empty() || after.cell.as_cell().closed() == Ok(true), "{before:?}");
    }
    for other in Format::ALL {
        for encoding in [Encoding::Text, Encoding::Little, Encoding::Big] {
            let _ = other.write(&drawing.pieces, encoding);
        }
    }
}

/// How many files could be read.
fn try_damaged(format: Format, seeds: &[Vec<u8>], count: u64) -> u64 {
    let mut dice = Dice(format as u64);
    let mut read = 0;
    for _ in 0..count {
        let mut bytes = seeds[dice.below(seeds.len())].clone();
        for _ in 0..=dice.below(4) {
            damage(&mut bytes, &mut dice);
        }
        if let Ok(drawing) = format.read(&bytes) {
            read += 1;
            if read % THROUGH_ALL == 0 {
                through_all(&bytes, format, &drawing);
            }
        }
    }
    read
}

/// Cells of the examples, as the format has them in this encoding.
fn seeds(format: Format, encoding: Encoding) -> Vec<Vec<u8>> {
    let examples = Path::new(env!("CARGO_MANIFEST_DIR")).join("../../examples");
    let mut seeds = Vec::new();
    for name in ["cube.cell", "cube-face-backward.cell", "torn-and-a-vertex.cell", "stope.obj", "two-blocks.obj"] {
        let path = examples.join(name);
        let bytes = fs::read(&path).expect("the examples are there");
        let from = Format::of_path(&path).expect("an example has an ending");
        let pieces = from.read(&bytes).expect("an example can be read").pieces;
        // All cells of the example, and the first alone: not every format holds several.
        let written = [&pieces[..], &pieces[..1]].map(|pieces: &[Piece]| format.write(pieces, encoding));
        seeds.extend(written.into_iter().flatten().map(|written| written.bytes));
        seeds.extend((from == format).then_some(bytes));
    }
    seeds
}

/// The most memory that this process had so far, in megabytes.
fn most_memory() -> u64 {
    let status = fs::read_to_string("/proc/self/status").unwrap_or_default();
    let most =
        status.lines().find_map(|line| line.strip_prefix("VmHWM:")?.split_whitespace().next()?.parse::<u64>().ok());
    most.map_or(0, |kilobytes| kilobytes / 1024)
}

fn damaged(format: Format, encoding: Encoding) {
    let count = env::var("DAMAGED").map_or(20_000, |count| count.parse().expect("DAMAGED is a count"));
    let seeds = seeds(format, encoding);
    let read = try_damaged(format, &seeds, count);
    let (ending, seeds, memory) = (format.ending(), seeds.len(), most_memory());
    println!(
        ".{ending} {encoding:?}: {count} damaged files of {seeds} seeds, {read} could be read; {memory} MB of memory at most"
    );
    // Where all or none can be read, it is the damage that is at fault.
    assert!(count < 1000 || (read > 0 && read < count), "{read} of {count} could be read");
}

#[test]
fn damaged_obj() {
    damaged(Format::Obj, Encoding::Text);
}

#[test]
fn damaged_off() {
    damaged(Format::Off, Encoding::Text);
}

#[test]
fn damaged_ply_text() {
    damaged(Format::Ply, Encoding::Text);
}

#[test]
fn damaged_ply_little() {
    damaged(Format::Ply, Encoding::Little);
}

#[test]
fn damaged_ply_big() {
    damaged(Format::Ply, Encoding::Big);
}

#[test]
fn damaged_stl_text() {
    damaged(Format::Stl, Encoding::Text);
}

#[test]
fn damaged_stl_binary() {
    damaged(Format::Stl, Encoding::Little);
}

#[test]
fn damaged_cell() {
    damaged(Format::Cell, Encoding::Text);
}
