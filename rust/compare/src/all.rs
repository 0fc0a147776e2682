//! `compare all`: every comparison in turn.

use crate::calls::Calls;
use crate::comparison::Comparison;
use crate::{
    Outcome, check_cut, clip, compare_cells, count_and_seed, cut, floats, leaves, local, no_area,
    overlap, shapes, short, turn_faces, turning,
};

pub const COMPARISONS: [Comparison; 13] = [
    Comparison {
        name: "floats",
        what: "the leaves on f64 against the machine, hypot against its rule, over N random patterns and others",
        count: 1_500_000,
        compare: floats::compare,
    },
    Comparison {
        name: "short",
        what: "every short input of every entry, N times with other lent lists",
        count: 1,
        compare: short::compare,
    },
    Comparison {
        name: "leaves",
        what: "the entries that take numbers only, N times",
        count: 1_000_000,
        compare: leaves::compare,
    },
    Comparison {
        name: "cut",
        what: "the cut of N random faces",
        count: 1_000_000,
        compare: cut::compare,
    },
    Comparison {
        name: "check_cut",
        what: "every short list of triangles and N random ones, against a second teller",
        count: 1_000_000,
        compare: check_cut::compare,
    },
    Comparison {
        name: "cells",
        what: "N random cells, and damaged copies of them",
        count: 200_000,
        compare: compare_cells::compare,
    },
    Comparison {
        name: "shapes",
        what: "N random tetrahedra, wedges and hexahedra",
        count: 1_000_000,
        compare: shapes::compare,
    },
    Comparison {
        name: "turning",
        what: "N random cells, and damaged copies: descriptions, convexity, outward faces, planes, faces of no area",
        count: 200_000,
        compare: turning::compare,
    },
    Comparison {
        name: "turn_faces",
        what: "N random cells with faces backward, and damaged copies, against a second teller",
        count: 100_000,
        compare: turn_faces::compare,
    },
    Comparison {
        name: "local",
        what: "N random lists of vertices to move to a local origin, against a second teller",
        count: 200_000,
        compare: local::compare,
    },
    Comparison {
        name: "clip",
        what: "N random faces by planes, and N outlines of the plane by each other",
        count: 500_000,
        compare: clip::compare,
    },
    Comparison {
        name: "overlap",
        what: "N random pairs of cells, and the unmodified Rust beside",
        count: 300_000,
        compare: overlap::compare,
    },
    Comparison {
        name: "no_area",
        what: "N random pairs of cells with faces of no area or hardly any: planes, flags, overlaps with counts",
        count: 300_000,
        compare: no_area::compare,
    },
];

/// Runs all comparisons, each with a share of its own count in hundredths, up to the first that finds
/// something different.
pub fn run(words: &[String]) -> Result<Outcome, String> {
    let (share, seed) = count_and_seed(words, 100)?;
    let mut all = Calls::default();
    for comparison in &COMPARISONS {
        let count = (comparison.count * share / 100).max(1);
        let calls = comparison.report(count, seed);
        if calls.first_fault().is_some() {
            return Ok(Outcome::Different);
        }
        all.add(calls);
    }
    println!("all {share} {seed}");
    all.print();
    Ok(Outcome::Equal)
}
