//! A comparison: inputs one after another, up to the first on which the port and the Rust differ.

use std::time::Instant;

use crate::calls::{Calls, Fault};
use crate::random::Random;
use crate::shrink::{self, Input};
use crate::{Outcome, count_and_seed};

/// The port and the Rust differ on an input, which has been printed.
pub struct Different;

pub type Compared = Result<(), Different>;

pub struct Comparison {
    pub name: &'static str,
    pub what: &'static str,
    /// How many inputs are made when no number is given.
    pub count: u64,
    /// Compares so many inputs, made from a seed.
    pub compare: fn(&mut Calls, u64, u64) -> Compared,
}

impl Comparison {
    /// Runs with the words after its name.
    pub fn run(&self, words: &[String]) -> Result<Outcome, String> {
        let (count, seed) = count_and_seed(words, self.count)?;
        let calls = self.report(count, seed);
        Ok(Outcome::of(calls.first_fault().is_none()))
    }

    /// Compares and prints what came of it.
    pub fn report(&self, count: u64, seed: u64) -> Calls {
        println!("{} {count} {seed}: {}", self.name, self.what);
        let start = Instant::now();
        let mut calls = Calls::default();
        if let Err(Different) = (self.compare)(&mut calls, count, seed) {
            println!("{} ends here", self.name);
        }
        calls.print();
        println!("{:.1} seconds", start.elapsed().as_secs_f64());
        println!();
        calls
    }
}

/// Compares on one input. Where something differs, the smallest input found on which it still does is
/// printed.
pub fn ask<I: Input>(
    calls: &mut Calls,
    input: &I,
    random: &mut Random,
    mut compare: impl FnMut(&mut Calls, &I, &mut Random),
) -> Compared {
    let start = random.clone();
    compare(calls, input, random);
    let Some(Fault { entry, what }) = calls.first_fault() else {
        return Ok(());
    };
    println!("different: {entry} {what}");
    let (smallest, what) = smallest(input, entry, &start, compare);
    println!("the smallest input found on which it differs:");
    smallest.print();
    println!("// {entry} {what}");
    Err(Different)
}

/// The smallest input found on which an entry differs, and how. Each try draws the same random numbers,
/// so that lent lists are as long as before.
fn smallest<I: Input>(
    input: &I,
    entry: &str,
    start: &Random,
    mut compare: impl FnMut(&mut Calls, &I, &mut Random),
) -> (I, String) {
    let mut fault = |input: &I| {
        let mut calls = Calls::default();
        compare(&mut calls, input, &mut start.clone());
        calls.fault_of(entry).map(|fault| fault.what.clone())
    };
    let smallest = shrink::smallest(input.clone(), |smaller| fault(smaller).is_some());
    let what = fault(&smallest);
    let not_again = || "does not differ when it is asked again".to_string();
    (smallest, what.unwrap_or_else(not_again))
}

#[cfg(test)]
pub mod tests {
    use super::*;

    /// The smallest input on which a wrong stand-in for an entry differs, out of 1,000 random ones. One
    /// must be found.
    pub fn smallest_of<I: Input>(
        mut any: impl FnMut(&mut Random) -> I,
        mut compare: impl FnMut(&mut Calls, &I, &mut Random),
    ) -> I {
        let mut random = Random::new(7);
        for _ in 0..1000 {
            let input = any(&mut random);
            let start = random.clone();
            let mut calls = Calls::default();
            compare(&mut calls, &input, &mut random);
            if let Some(fault) = calls.first_fault() {
                return smallest(&input, fault.entry, &start, compare).0;
            }
        }
        panic!("no input is found on which the stand-in differs");
    }
}
