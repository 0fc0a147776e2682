//! `compare overlap`: the volume that two cells share, and how many faces of each have no area, by the
//! port and by the Rust; and what the unmodified Rust says of the same pairs.

use crate::beside::Beside;
use crate::calls::{Calls, Given};
use crate::cells::{self, Cell};
use crate::comparison::{Compared, ask};
use crate::pairs::{self, Pair, Size};
use crate::random::Random;
use crate::retold::{self, Overlap};
use crate::work::{Choice, Entry, Expected, Work, beside_the_limit};
use crate::{ours, refusals};

pub const VOLUME: Entry = Entry {
    name: "convex_intersection_volume",
    dimension: 3,
    values: 1,
    counts: 2,
};

/// Asks about random pairs of cells, and about damaged copies of every fourth.
pub fn compare(calls: &mut Calls, count: u64, seed: u64) -> Compared {
    let random = &mut Random::new(seed);
    let mut unmodified = ["pairs not shrunk", "shrunk pairs"].map(Beside::new);
    for _ in 0..count {
        let Pair { kind, size, cells } = pairs::any(random);
        calls.count("kind", kind);
        calls.count("size", size);
        let beside = &mut unmodified[usize::from(matches!(size, Size::Shrunk))];
        let mut by_the_rust = |cells: &[Cell; 2]| beside.add(kind, cells);
        let choice = beside_the_limit;
        ask(calls, &cells, random, of_two(choice, &mut by_the_rust))?;
        if random.once_in(4) {
            let cells = damaged(cells, random);
            ask(calls, &cells, random, of_two(choice, &mut by_the_rust))?;
        }
    }
    println!("the unmodified Rust beside the rule for hypot, where no refusal is given:");
    unmodified.iter().for_each(Beside::print);
    Ok(())
}

/// How the overlap of two cells is compared, with lists as they are chosen.
pub fn of_two(
    choice: Choice,
    mut by_the_rust: impl FnMut(&[Cell; 2]) -> f64,
) -> impl FnMut(&mut Calls, &[Cell; 2], &mut Random) {
    move |calls, cells, random| {
        let expected = expected(cells, calls, &mut by_the_rust);
        VOLUME.ask_for_counts(
            calls,
            &expected,
            choice,
            random,
            |first, second, out, counts| {
                ours::convex_intersection_volume(&cells[0], &cells[1], first, second, out, counts)
            },
        );
    }
}

/// The overlap by the Rust with the rule of SCOPE 1 for hypot.
pub fn by_the_ruled(cells: &[Cell; 2]) -> f64 {
    let [first, second] = cells.each_ref().map(Cell::for_the_rust);
    oracle::ruled::convex_intersection_volume(first, second)
}

/// A pair of which one cell or both are damaged.
pub fn damaged(cells: [Cell; 2], random: &mut Random) -> [Cell; 2] {
    let [mut first, mut second] = cells;
    let which = random.below(3);
    if which != 0 {
        first = cells::any_damaged(&first, random);
    }
    if which != 1 {
        second = cells::any_damaged(&second, random);
    }
    [first, second]
}

/// What the pair must give, told again and held to the Rust, and counted.
pub fn expected(
    cells: &[Cell; 2],
    calls: &mut Calls,
    by_the_rust: &mut impl FnMut(&[Cell; 2]) -> f64,
) -> Expected<f64> {
    let [first, second] = cells;
    let refusal = refusals::of_cell(first, true).or_else(|| refusals::of_cell(second, true));
    if let Some(number) = refusal {
        return Err(number);
    }
    let told = retold::overlap(first, second);
    calls.count("overlaps", Found::of(&told));
    if !told.is_too_long() {
        let same = told.volume.same(by_the_rust(cells));
        calls.expect(same, VOLUME.name, "told again is not what the Rust says");
    }
    Ok(Work {
        most: told.most,
        values: vec![told.volume],
        counts: cells.each_ref().map(Cell::count_of_no_area).to_vec(),
        shown: Vec::new(),
        shown_in: 0,
    })
}

/// What an overlap came to, for the counts.
#[derive(Debug)]
enum Found {
    NoFaceClipped,
    Zero,
    AboveZero,
    NoNumber,
    NoRoomInAnyList,
}

impl Found {
    fn of(told: &Overlap) -> Found {
        if told.is_too_long() {
            Found::NoRoomInAnyList
        } else if told.most == 0 {
            Found::NoFaceClipped
        } else if told.volume == 0.0 {
            Found::Zero
        } else if told.volume.is_finite() {
            Found::AboveZero
        } else {
            Found::NoNumber
        }
    }
}

#[cfg(test)]
mod tests {
    use super::*;
    use crate::comparison::tests::smallest_of;

    fn any(random: &mut Random) -> [Cell; 2] {
        pairs::any(random).cells
    }

    /// An overlap that leaves a work list as it was when it finds nothing to clip.
    #[test]
    fn a_list_that_is_not_cleared_shrinks_to_cells_of_no_face() {
        let small = smallest_of(any, |calls, cells, random| {
            let expected = expected(cells, calls, &mut by_the_ruled);
            let choice = beside_the_limit;
            VOLUME.ask_for_counts(
                calls,
                &expected,
                choice,
                random,
                |first, second, out, counts| {
                    let before = first.to_vec();
                    let [one, two] = cells;
                    let answer =
                        ours::convex_intersection_volume(one, two, first, second, out, counts);
                    if answer == 0 && out[0] == 0.0 {
                        first.copy_from_slice(&before);
                    }
                    answer
                },
            );
        });
        for cell in small {
            assert_eq!(cell.coords, [0.0; 3]);
            assert!(cell.ends.is_empty());
        }
    }

    /// An overlap of the first cell with itself.
    #[test]
    fn a_wrong_volume_is_found_and_shrinks_to_few_corners() {
        let small = smallest_of(any, |calls, cells, random| {
            let expected = expected(cells, calls, &mut by_the_ruled);
            let choice = beside_the_limit;
            VOLUME.ask_for_counts(
                calls,
                &expected,
                choice,
                random,
                |first, second, out, counts| {
                    ours::convex_intersection_volume(
                        &cells[0], &cells[0], first, second, out, counts,
                    )
                },
            );
        });
        let corners = small.iter().map(|cell| cell.corners.len());
        assert!(corners.sum::<usize>() <= 24);
    }
}
