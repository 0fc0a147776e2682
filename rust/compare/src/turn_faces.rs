//! `compare turn_faces`: backward faces turned by the port and by the second teller (`turn_judge.rs`),
//! for the Rust has no such pass.

use std::fmt;

use crate::calls::{BEYOND, Calls, Lent, departure};
use crate::cells::{self, Cell};
use crate::comparison::{Compared, ask};
use crate::random::Random;
use crate::turn_judge::{Turned, turned};
use crate::turn_shrink::Drawn;
use crate::{ours, refusals, turn_cells};

/// How many places `out` has: too few, as many as it needs, and more.
const PLACES: [usize; 3] = [0, 1, 3];

/// Asks about random cells, and about all damaged copies of every fourth.
pub fn compare(calls: &mut Calls, count: u64, seed: u64) -> Compared {
    let random = &mut Random::new(seed);
    for _ in 0..count {
        let made = turn_cells::any(random);
        calls.count("faces backward", made.backward);
        ask_about(calls, made.kind, made.cell.clone(), random)?;
        if random.once_in(4) && refusals::of_cell(&made.cell, false).is_none() {
            for (what, copy) in turn_cells::mishaps(&made.cell, random) {
                ask_about(calls, what, copy, random)?;
            }
            let once = cells::damaged(&made.cell, random);
            let twice = cells::doubly_damaged(&made.cell, random);
            for copy in once.into_iter().chain(twice) {
                ask_about(calls, "damaged copies", copy.cell, random)?;
            }
        }
    }
    Ok(())
}

/// Asks about one cell and counts its answer under a title.
pub fn ask_about(
    calls: &mut Calls,
    title: &'static str,
    cell: Cell,
    random: &mut Random,
) -> Compared {
    ask(calls, &Drawn(cell), random, |calls, Drawn(cell), _| {
        compare_cell(calls, title, cell, ours::turn_faces);
    })
}

/// What the second teller answers, in steps of reversals, for the counts.
struct Answer(Result<usize, u8>);

impl Answer {
    fn of(judged: &Result<Turned, u8>) -> Answer {
        Answer(match judged {
            Ok(turned) => Ok(turned.reversals),
            Err(number) => Err(*number),
        })
    }
}

impl fmt::Debug for Answer {
    fn fmt(&self, f: &mut fmt::Formatter) -> fmt::Result {
        match self.0 {
            Ok(few @ 0..=2) => write!(f, "reversed {few}:"),
            Ok(3..=9) => write!(f, "reversed 3 to 9:"),
            Ok(_) => write!(f, "reversed more:"),
            Err(number) => write!(f, "refused {number}:"),
        }
    }
}

/// Asks with `out` of each length. Where the faces are turned, the cell must be closed, and a second
/// call must find nothing to do.
fn compare_cell(
    calls: &mut Calls,
    title: &'static str,
    cell: &Cell,
    turn: impl Fn(&[f64], &mut [u32], &[u32], &mut [usize]) -> u8,
) {
    let judged = turned(cell);
    calls.count(title, Answer::of(&judged));
    for places in PLACES {
        hold(calls, cell, places, &judged, &turn);
    }
    if judged.is_ok() {
        let mut again = cell.clone();
        turn(&cell.coords, &mut again.corners, &cell.ends, &mut [0]);
        let mut yes = [usize::MARK];
        let answer = ours::closed(&again, &mut yes);
        calls.held("closed", &[1], answer, 0, departure("out", &yes, &[1]));
        let nothing_to_do = Ok(Turned {
            corners: again.corners.clone(),
            reversals: 0,
        });
        hold(calls, &again, 1, &nothing_to_do, &turn);
    }
}

/// Holds one call to what is judged: its answer, and every number of the corner list and of `out`, some
/// beyond the lent ones included.
fn hold(
    calls: &mut Calls,
    cell: &Cell,
    places: usize,
    judged: &Result<Turned, u8>,
    turn: impl Fn(&[f64], &mut [u32], &[u32], &mut [usize]) -> u8,
) {
    let marks = [u32::MARK; BEYOND];
    let length = cell.corners.len();
    let mut corners = [&cell.corners[..], &marks].concat();
    let mut out = vec![usize::MARK; places + BEYOND];
    let answer = turn(
        &cell.coords,
        &mut corners[..length],
        &cell.ends,
        &mut out[..places],
    );

    let mut wanted = 0;
    let mut wanted_corners = [&cell.corners[..], &marks].concat();
    let mut wanted_out = vec![usize::MARK; places + BEYOND];
    match judged {
        Err(number) => wanted = *number,
        Ok(_) if places == 0 => wanted = 6,
        Ok(turned) => {
            wanted_corners[..length].copy_from_slice(&turned.corners);
            wanted_out[0] = turned.reversals;
        }
    }
    let departure = departure("corners", &corners, &wanted_corners)
        .or_else(|| departure("out", &out, &wanted_out));
    calls.held("turn_faces", &[length, places], answer, wanted, departure);
}

#[cfg(test)]
mod tests {
    use super::*;
    use crate::comparison::tests::smallest_of;

    /// Answers rightly and turns nothing.
    fn idle(coords: &[f64], corners: &mut [u32], ends: &[u32], out: &mut [usize]) -> u8 {
        let cell = Cell {
            coords: coords.to_vec(),
            corners: corners.to_vec(),
            ends: ends.to_vec(),
        };
        match turned(&cell) {
            Err(number) => number,
            Ok(_) if out.is_empty() => 6,
            Ok(turned) => {
                out[0] = turned.reversals;
                0
            }
        }
    }

    #[test]
    fn a_turning_that_turns_nothing_shrinks_to_a_pillow() {
        let any = |random: &mut Random| Drawn(turn_cells::any(random).cell);
        let Drawn(small) = smallest_of(any, |calls, Drawn(cell), _| {
            compare_cell(calls, "cells", cell, idle);
        });
        assert_eq!(
            (small.ends.as_slice(), small.coords.len()),
            (&[3, 6][..], 9)
        );
    }
}
