//! `compare check-cells`: checks the random cells and the damaged copies against what they were made for.
//!
//! Nothing of the port runs here. Later comparisons lean on these cells, so the cells themselves
//! are tested: a sound cell passes, a damaged one fails the check it was damaged for, the Rust
//! answers for every sound cell, and the solids are worth the name.

use crate::cells::{self, Cell, Kind, Made};
use crate::random::Random;
use crate::tally::Tally;
use crate::{Outcome, count_and_seed, refusals};

pub fn run(words: &[String]) -> Result<Outcome, String> {
    let (count, seed) = count_and_seed(words, 20_000)?;
    oracle::silence_panics();

    let mut random = Random::new(seed);
    let mut check = Check::new();
    for _ in 0..count {
        check.add(cells::any(&mut random), &mut random);
        check.add(cells::any_convex(&mut random), &mut random);
    }
    println!("checked {} cells, seed {seed}", 2 * count);
    check.print();
    Ok(Outcome::of(check.faults == 0))
}

struct Check {
    kinds: Tally,
    scales: Tally,
    damages: Tally,
    inside: Tally,
    overlaps: Tally,
    builds: Tally,
    faults: usize,
}

impl Check {
    fn new() -> Self {
        Check {
            kinds: Tally::new("kind"),
            scales: Tally::new("scale"),
            damages: Tally::new("damaged copies by refusal"),
            inside: Tally::new("query points inside"),
            overlaps: Tally::new("overlaps above 0"),
            builds: Tally::new("overlaps on which plain and ruled agree"),
            faults: 0,
        }
    }

    fn add(&mut self, made: Made, random: &mut Random) {
        self.kinds.add(made.kind);
        self.scales.add(made.scale);
        self.sound(&made);
        self.asked(&made.cell, random);
        self.damaged(&made.cell, random);
    }

    /// A cell fresh from the generator passes the checks, and only thin faces may be empty.
    fn sound(&mut self, made: &Made) {
        self.expect(
            refusals::of_cell(&made.cell, false).is_none(),
            "a sound cell is refused",
        );
        let empty_face = refusals::of_cell(&made.cell, true).is_some();
        let may_be_empty = matches!(made.kind, Kind::ThinFaces);
        self.expect(may_be_empty || !empty_face, "a face is empty");
        let answered = oracle::caught(|| oracle::plain::volume(made.cell.for_the_rust()));
        self.expect(answered.is_some(), "the Rust does not answer");
    }

    fn asked(&mut self, cell: &Cell, random: &mut Random) {
        let query = cells::any_query(cell, random);
        self.expect(
            !query.iter().any(|&x| refusals::is_bad_number(x)),
            "a query is refused",
        );
        self.inside
            .add(oracle::plain::contains(cell.for_the_rust(), query));

        let other = cells::partner(cell, random);
        self.expect(
            refusals::of_cell(&other, false).is_none(),
            "a partner is refused",
        );
        if refusals::of_cell(cell, true).is_none() {
            let (cell, other) = (cell.for_the_rust(), other.for_the_rust());
            let plain = oracle::plain::convex_intersection_volume(cell, other);
            let ruled = oracle::ruled::convex_intersection_volume(cell, other);
            self.overlaps.add(plain > 0.0);
            self.builds
                .add(plain == ruled || plain.is_nan() && ruled.is_nan());
        }
    }

    fn damaged(&mut self, cell: &Cell, random: &mut Random) {
        // A cell that is refused 5 already has faces that hide what a damage does.
        if refusals::of_cell(cell, true).is_some() {
            return;
        }
        let copies = cells::damaged(cell, random);
        for copy in copies
            .into_iter()
            .chain(cells::doubly_damaged(cell, random))
        {
            self.damages.add(copy.refusal);
            let refused = refusals::of_cell(&copy.cell, true);
            self.expect(refused == Some(copy.refusal), copy.what);
        }
    }

    fn expect(&mut self, holds: bool, fault: &str) {
        if !holds {
            self.faults += 1;
            if self.faults <= 10 {
                println!("fault: {fault}");
            }
        }
    }

    fn print(&self) {
        for tally in [
            &self.kinds,
            &self.scales,
            &self.damages,
            &self.inside,
            &self.overlaps,
            &self.builds,
        ] {
            tally.print();
        }
        println!("faults: {}", self.faults);
    }
}

#[cfg(test)]
pub mod tests {
    use super::*;

    /// A cell is convex and looks outward: its signed volume is positive, and turning its faces
    /// changes nothing.
    pub fn assert_convex(cell: &Cell) {
        let sound = cell.for_the_rust();
        assert!(oracle::plain::signed_volume6(sound) > 0.0, "{cell:?}");
        assert!(oracle::plain::compute_convexity(sound), "{cell:?}");
        assert_eq!(oracle::plain::into_ccw(sound), cell.corners, "{cell:?}");
    }

    #[test]
    fn convex_solids_look_outward() {
        let mut random = Random::new(3);
        for _ in 0..2000 {
            let made = cells::any_convex(&mut random);
            if matches!(made.scale, crate::scale::Scale::AsMade) {
                assert_convex(&made.cell);
            }
        }
    }
}
