//! Runs the port and the Rust on the same inputs.

mod all;
mod bench;
mod bench_cells;
mod bench_clips;
mod bench_leaves;
mod bench_lists;
mod beside;
mod calls;
mod cells;
mod check_cells;
mod check_cut;
mod clip;
mod clips;
mod compare_cells;
mod comparison;
mod cut;
mod cut_judge;
mod cut_lists;
mod faces;
mod floats;
mod hypots;
mod leaves;
mod limits;
mod lists;
mod local;
mod local_judge;
mod local_lists;
mod marked;
mod most_tests;
mod no_area;
mod no_area_cells;
mod ours;
mod outlines;
mod overlap;
mod pairs;
mod random;
mod refusals;
mod retold;
mod scale;
mod shapes;
mod short;
mod shrink;
mod tally;
mod turn_cells;
mod turn_faces;
mod turn_judge;
mod turn_shrink;
mod turn_surfaces;
mod turning;
mod vectors;
mod work;

use std::process::ExitCode;

use all::COMPARISONS;
use comparison::Comparison;

/// How a command ended: everything was equal, or something was not.
pub enum Outcome {
    Equal,
    Different,
}

impl Outcome {
    fn of(equal: bool) -> Outcome {
        match equal {
            true => Outcome::Equal,
            false => Outcome::Different,
        }
    }
}

/// A command takes the words after its name, and says why when it cannot run.
type Command = fn(&[String]) -> Result<Outcome, String>;

/// What there is beside the comparisons.
const COMMANDS: &[(&str, Command, &str)] = &[
    (
        "all",
        all::run,
        "[N] [SEED]      every comparison in turn, with N hundredths of its own count",
    ),
    (
        "check-cells",
        check_cells::run,
        "[N] [SEED]      the random cells and the damaged copies themselves",
    ),
    (
        "most-tests",
        most_tests::run,
        "[N] [SEED]      the faces whose cutting takes the most tests",
    ),
    (
        "bench",
        bench::run,
        "[WORD]          times of every entry, or of those that a word is part of",
    ),
];

fn main() -> ExitCode {
    let words: Vec<String> = std::env::args().skip(1).collect();
    match run(&words) {
        None => {
            print_usage();
            ExitCode::from(2)
        }
        Some(Ok(Outcome::Equal)) => ExitCode::SUCCESS,
        Some(Ok(Outcome::Different)) => ExitCode::FAILURE,
        Some(Err(reason)) => {
            eprintln!("compare: {reason}");
            ExitCode::from(2)
        }
    }
}

/// Runs what the first word names, if it names anything.
fn run(words: &[String]) -> Option<Result<Outcome, String>> {
    let (name, words) = words.split_first()?;
    if let Some(comparison) = COMPARISONS.iter().find(|known| known.name == name) {
        return Some(comparison.run(words));
    }
    let (_, run, _) = COMMANDS.iter().find(|(known, ..)| known == name)?;
    Some(run(words))
}

fn print_usage() {
    eprintln!("usage:");
    for (name, _, help) in COMMANDS {
        eprintln!("  compare {name:11} {help}");
    }
    for Comparison { name, what, .. } in &COMPARISONS {
        eprintln!("  compare {name:11} [N] [SEED]      {what}");
    }
}

/// The first two words of most commands: how many inputs, and the seed they are made from.
pub fn count_and_seed(words: &[String], otherwise: u64) -> Result<(u64, u64), String> {
    Ok((number_or(words, 0, otherwise)?, number_or(words, 1, 1)?))
}

/// The word at a place as a number, or the given number when the word is not there.
pub fn number_or(words: &[String], place: usize, otherwise: u64) -> Result<u64, String> {
    match words.get(place) {
        None => Ok(otherwise),
        Some(word) => word
            .parse()
            .map_err(|_| format!("`{word}` is not a whole number")),
    }
}
