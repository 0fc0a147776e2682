//! Counts by kind, printed in a fixed order.

use std::collections::BTreeMap;
use std::fmt::Debug;

/// How often each kind came up. The title heads the printed list.
pub struct Tally {
    pub title: &'static str,
    counts: BTreeMap<String, usize>,
}

impl Tally {
    pub fn new(title: &'static str) -> Self {
        Tally {
            title,
            counts: BTreeMap::new(),
        }
    }

    pub fn add(&mut self, kind: impl Debug) {
        self.add_times(kind, 1);
    }

    pub fn add_times(&mut self, kind: impl Debug, times: usize) {
        *self.counts.entry(format!("{kind:?}")).or_default() += times;
    }

    pub fn print(&self) {
        let counts: Vec<String> = self
            .counts
            .iter()
            .map(|(kind, count)| format!("{kind} {count}"))
            .collect();
        println!("{}: {}", self.title, counts.join(", "));
    }
}
