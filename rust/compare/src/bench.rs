//! `compare bench [WORD]`: how long the port and the Rust take for every entry, at a small, a usual
//! and the largest size, and how that grows.
//!
//! The Rust's own forms of cells and planes are made once, outside the timed rounds; the port reads
//! and checks plain lists in every call. So for cells there is a second ratio, to the Rust that makes
//! its own form from the same lists in every call.
//!
//! An entry that the Rust does not have may be held to another entry of the port instead.

use std::hint::black_box;
use std::time::{Duration, Instant};

use crate::{Outcome, bench_cells, bench_clips, bench_leaves, bench_lists};

/// Rounds of each side, taken in turn so that both meet the same disturbances. They are short and
/// many: on a shared machine most of them then run undisturbed, and the median is one of those. An
/// odd number has one median.
const ROUNDS: usize = 201;

/// How long one round should last at least.
const ROUND: Duration = Duration::from_micros(250);

/// Tries of which the fastest says how often a call fits into a round.
const TRIES: usize = 5;

pub fn run(words: &[String]) -> Result<Outcome, String> {
    if let Some(word) = words.get(1) {
        return Err(format!("one word is taken, and `{word}` was given as well"));
    }
    let mut table = Table {
        word: words.first().cloned(),
        rows: Vec::new(),
    };
    table.print_head();
    bench_leaves::add_rows(&mut table);
    bench_lists::add_rows(&mut table);
    bench_cells::add_rows(&mut table);
    bench_clips::add_rows(&mut table);
    table.print_end();
    Ok(Outcome::Equal)
}

/// The rows so far: all of them, or those of entries that a word is part of.
pub struct Table {
    word: Option<String>,
    rows: Vec<Row>,
}

struct Row {
    entry: &'static str,
    size: Option<usize>,
    ours: f64,
    rust: f64,
    ratio: f64,
    /// Ours over the Rust that makes its own form of the cell in every call.
    from_lists: Option<f64>,
    /// The entry of the port that stands in the Rust's place.
    beside: Option<&'static str>,
}

impl Table {
    /// A row of an entry whose input has no size.
    pub fn add<A, B>(
        &mut self,
        entry: &'static str,
        mut ours: impl FnMut() -> A,
        mut rust: impl FnMut() -> B,
    ) {
        if self.takes(entry) {
            self.push(Row::timed(entry, None, &mut ours, &mut rust));
        }
    }

    /// A row of an entry for an input of a size: corners of a cell or of a face, points of a list.
    pub fn add_sized<A, B>(
        &mut self,
        entry: &'static str,
        size: usize,
        mut ours: impl FnMut() -> A,
        mut rust: impl FnMut() -> B,
    ) {
        if self.takes(entry) {
            self.push(Row::timed(entry, Some(size), &mut ours, &mut rust));
        }
    }

    /// The same for a cell; `from_lists` is the Rust that makes its own form of it first.
    pub fn add_cell<A, B, C>(
        &mut self,
        entry: &'static str,
        size: usize,
        mut ours: impl FnMut() -> A,
        mut rust: impl FnMut() -> B,
        mut from_lists: impl FnMut() -> C,
    ) {
        if self.takes(entry) {
            let mut row = Row::timed(entry, Some(size), &mut ours, &mut rust);
            row.from_lists = Some(medians(&mut ours, &mut from_lists)[2]);
            self.push(row);
        }
    }

    /// A row of an entry that the Rust does not have, held to another entry of the port.
    pub fn add_beside<A, B>(
        &mut self,
        entry: &'static str,
        size: usize,
        mut ours: impl FnMut() -> A,
        beside: &'static str,
        mut other: impl FnMut() -> B,
    ) {
        if self.takes(entry) {
            let mut row = Row::timed(entry, Some(size), &mut ours, &mut other);
            row.beside = Some(beside);
            self.push(row);
        }
    }

    fn takes(&self, entry: &str) -> bool {
        self.word.as_ref().is_none_or(|word| entry.contains(word))
    }

    fn push(&mut self, row: Row) {
        row.print(self.rows.last());
        self.rows.push(row);
    }

    fn print_head(&self) {
        println!(
            "ns per call, medians of {ROUNDS} rounds taken in turn; the size is in corners or points;"
        );
        println!(
            "from lists: ours over the Rust that makes its own form of the cell in every call;"
        );
        println!("growth: the power of the size by which the time grew since the row above;");
        println!("a / b: the Rust has no a, and in its columns stands our own b");
        println!(
            "{:34} {:>6} {:>12} {:>12} {:>10} {:>11} {:>8} {:>8}",
            "entry", "size", "ours", "Rust", "ours/Rust", "from lists", "growth", "Rust's"
        );
    }

    fn print_end(&self) {
        let (beside, to_the_rust): (Vec<&Row>, Vec<&Row>) =
            self.rows.iter().partition(|row| row.beside.is_some());
        let slower = to_the_rust.iter().filter(|row| row.ratio > 1.0).count();
        println!("{} rows, {slower} of them above 1.00", to_the_rust.len());
        if let Some(most) = beside.iter().map(|row| row.ratio).max_by(f64::total_cmp) {
            let count = beside.len();
            println!("{count} rows beside entries of our own, {most:.2} at most");
        }
    }
}

impl Row {
    fn timed<A, B>(
        entry: &'static str,
        size: Option<usize>,
        ours: &mut impl FnMut() -> A,
        rust: &mut impl FnMut() -> B,
    ) -> Row {
        let [ours, rust, ratio] = medians(ours, rust);
        Row {
            entry,
            size,
            ours,
            rust,
            ratio,
            from_lists: None,
            beside: None,
        }
    }

    fn print(&self, before: Option<&Row>) {
        let name = match self.beside {
            None => self.entry.to_string(),
            Some(other) => format!("{} / {other}", self.entry),
        };
        let size = self.size.map_or(String::new(), |size| size.to_string());
        let from_lists = self
            .from_lists
            .map_or(String::new(), |ratio| format!("{ratio:.2}"));
        let growth = before.and_then(|before| self.growth_since(before));
        let [growth, by_rust] = match growth {
            Some(powers) => powers.map(|power| format!("{power:.1}")),
            None => [const { String::new() }; 2],
        };
        println!(
            "{name:34} {size:>6} {:12.1} {:12.1} {:10.2} {from_lists:>11} {growth:>8} {by_rust:>8}",
            self.ours, self.rust, self.ratio
        );
    }

    /// The powers of the size by which both times grew since a row of the same entry.
    fn growth_since(&self, before: &Row) -> Option<[f64; 2]> {
        if (self.entry, self.beside) != (before.entry, before.beside) {
            return None;
        }
        let larger = self.size? as f64 / before.size? as f64;
        let power = |longer: f64| longer.ln() / larger.ln();
        Some([
            power(self.ours / before.ours),
            power(self.rust / before.rust),
        ])
    }
}

/// The medians of both sides, and the median of the ratios of neighbouring rounds, which moves less
/// than the ratio of the medians when the machine's speed does.
fn medians<A, B>(ours: &mut impl FnMut() -> A, rust: &mut impl FnMut() -> B) -> [f64; 3] {
    let ours_times = times_for(ours);
    let rust_times = times_for(rust);
    let mut ours_rounds = Vec::new();
    let mut rust_rounds = Vec::new();
    let mut ratios = Vec::new();
    for round in 0..ROUNDS {
        ours_rounds.push(nanoseconds(ours, ours_times));
        rust_rounds.push(nanoseconds(rust, rust_times));
        ratios.push(ours_rounds[round] / rust_rounds[round]);
    }
    [ours_rounds, rust_rounds, ratios].map(median)
}

/// How often a call must run to fill a round.
fn times_for<T>(call: &mut impl FnMut() -> T) -> u32 {
    let mut times = 1;
    while fastest(call, times) < ROUND {
        times *= 2;
    }
    times
}

fn fastest<T>(call: &mut impl FnMut() -> T, times: u32) -> Duration {
    let mut best = Duration::MAX;
    for _ in 0..TRIES {
        best = best.min(duration(call, times));
    }
    best
}

fn nanoseconds<T>(call: &mut impl FnMut() -> T, times: u32) -> f64 {
    duration(call, times).as_nanos() as f64 / f64::from(times)
}

fn duration<T>(call: &mut impl FnMut() -> T, times: u32) -> Duration {
    let start = Instant::now();
    for _ in 0..times {
        black_box(call());
    }
    start.elapsed()
}

fn median(mut values: Vec<f64>) -> f64 {
    values.sort_by(f64::total_cmp);
    values[values.len() / 2]
}
