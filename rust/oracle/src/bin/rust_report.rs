//! The cell report over the unmodified Rust, for comparing speed: the same records in, the same lines out.
//! It reads good streams only; a record of an unknown kind ends it with a clear line.

use std::collections::HashMap;
use std::io::{self, BufReader, BufWriter, Read, Write};

use oracle::{Cell, Shape, plain};

/// The lists of one cell, as the records give them.
#[derive(Default)]
struct Lists {
    points: Vec<[f64; 3]>,
    corners: Vec<u32>,
    ends: Vec<u32>,
    queries: Vec<[f64; 3]>,
}

impl Lists {
    fn clear(&mut self) {
        self.points.clear();
        self.corners.clear();
        self.ends.clear();
        self.queries.clear();
    }

    /// The faces, each as its own stretch of the corners.
    fn faces(&self) -> impl Iterator<Item = &[u32]> {
        let starts = std::iter::once(0).chain(self.ends.iter().copied());
        starts
            .zip(&self.ends)
            .map(|(start, &end)| &self.corners[start as usize..end as usize])
    }

    /// Whether sides run from i to j as often as from j to i.
    fn closed(&self) -> bool {
        let mut net = HashMap::new();
        for face in self.faces() {
            for (k, &a) in face.iter().enumerate() {
                let b = face[(k + 1) % face.len()];
                if a != b {
                    *net.entry((a.min(b), a.max(b))).or_insert(0i32) += if a < b { 1 } else { -1 };
                }
            }
        }
        net.values().all(|&n| n == 0)
    }

    /// The line of the cell with a number.
    fn line(&self, number: usize, out: &mut impl Write) -> io::Result<()> {
        let cell = Cell {
            points: &self.points,
            corners: &self.corners,
            ends: &self.ends,
        };
        let solid = plain::polyhedron(cell, Shape::Unknown);
        let (mut triangles, mut short) = (0, 0);
        for face in self.faces() {
            let numbers: Vec<usize> = face.iter().map(|&c| c as usize).collect();
            let gave = plain::ear_clip_triangles(&self.points, &numbers).len();
            triangles += gave;
            short += usize::from(face.len() >= 3 && gave + 2 < face.len());
        }
        let inside = self.queries.iter().filter(|p| solid.contains(p)).count();
        let closed = if self.closed() { "yes" } else { "no" };
        let (vertices, faces) = (self.points.len(), self.ends.len());
        let bits = solid.volume().to_bits();
        writeln!(
            out,
            "cell {number} v {vertices} f {faces} t {triangles} closed {closed} short {short} vol {bits:016X} in {inside}"
        )
    }
}

fn word(record: &[u8], at: usize) -> u64 {
    u64::from_le_bytes(record[at..at + 8].try_into().expect("eight bytes"))
}

fn point(record: &[u8]) -> [f64; 3] {
    [8, 16, 24].map(|at| f64::from_bits(word(record, at)))
}

fn main() -> io::Result<()> {
    let mut out = BufWriter::with_capacity(1 << 16, io::stdout().lock());
    let mut input = BufReader::with_capacity(1 << 16, io::stdin().lock());
    let mut lists = Lists::default();
    let mut number = 1;
    let mut record = [0u8; 32];
    while input.read_exact(&mut record).is_ok() {
        match record[0] {
            1 => lists.points.push(point(&record)),
            2 => lists.corners.push(word(&record, 8) as u32),
            3 => lists.ends.push(lists.corners.len() as u32),
            4 => {
                lists.line(number, &mut out)?;
                number += 1;
                lists.clear();
            }
            5 => lists.queries.push(point(&record)),
            kind => {
                eprintln!(
                    "rust_report: a record of kind {kind}; this program reads good streams only"
                );
                std::process::exit(2);
            }
        }
    }
    out.flush()
}
