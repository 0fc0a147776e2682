//! `compare local`: vertices moved to a local origin by the port and by the second teller
//! (`local_judge.rs`), for the Rust has no such move.

use std::fmt;

use crate::calls::{BEYOND, Calls, Lent, departure};
use crate::comparison::{Compared, ask};
use crate::lists::Points;
use crate::local_judge::{Moved, moved};
use crate::random::Random;
use crate::refusals::is_bad_number;
use crate::{local_lists, ours};

/// How many places `out` has: too few, as many as it needs, and more.
const PLACES: [usize; 5] = [0, 1, 2, 3, 4];

/// Asks about random lists of vertices, and about all damaged copies of every fourth.
pub fn compare(calls: &mut Calls, count: u64, seed: u64) -> Compared {
    let random = &mut Random::new(seed);
    for _ in 0..count {
        let made = local_lists::any(random);
        if random.once_in(4) {
            for copy in local_lists::of_other_lengths(&made.coords) {
                ask_about(calls, "other lengths", copy, random)?;
            }
            for copy in local_lists::with_bad_numbers(&made.coords, random) {
                ask_about(calls, "numbers out of the domain", copy, random)?;
            }
        }
        ask_about(calls, made.kind, made.coords, random)?;
    }
    Ok(())
}

/// Asks about one list and counts its answer under a title.
pub fn ask_about(
    calls: &mut Calls,
    title: &'static str,
    coords: Vec<f64>,
    random: &mut Random,
) -> Compared {
    let points = Points::<3>(coords);
    ask(calls, &points, random, |calls, Points(coords), _| {
        calls.count(title, Answer(moved(coords)));
        compare_list(calls, coords, ours::to_local);
    })
}

/// What the second teller answers, for the counts.
struct Answer(Result<Moved, u8>);

impl fmt::Debug for Answer {
    fn fmt(&self, f: &mut fmt::Formatter) -> fmt::Result {
        match &self.0 {
            Err(number) => write!(f, "refused {number}:"),
            Ok(moved) if moved.vector == [0.0; 3] => write!(f, "moved by nothing:"),
            Ok(moved) if leaves_the_domain(moved) => write!(f, "moved beyond 2^40:"),
            Ok(_) => write!(f, "moved:"),
        }
    }
}

/// Whether a moved number is above 2^40 in magnitude.
fn leaves_the_domain(moved: &Moved) -> bool {
    moved.coords.iter().any(|&number| is_bad_number(number))
}

/// Asks with `out` of each length. Where the vertices are moved, a second call must find nothing to do,
/// or refuse what has left the domain.
pub fn compare_list(
    calls: &mut Calls,
    coords: &[f64],
    to_local: impl Fn(&mut [f64], &mut [f64]) -> u8,
) {
    let judged = moved(coords);
    for places in PLACES {
        hold(calls, coords, places, &judged, &to_local);
    }
    if let Ok(moved) = &judged {
        let mut again = coords.to_vec();
        to_local(&mut again, &mut [0.0; 3]);
        let nothing_to_do = match leaves_the_domain(moved) {
            true => Err(2),
            false => Ok(Moved {
                coords: again.clone(),
                vector: [0.0; 3],
            }),
        };
        hold(calls, &again, 3, &nothing_to_do, &to_local);
    }
}

/// Holds one call to what is judged: its answer, and every number of the vertices' list and of `out`,
/// some beyond the lent ones included.
fn hold(
    calls: &mut Calls,
    coords: &[f64],
    places: usize,
    judged: &Result<Moved, u8>,
    to_local: impl Fn(&mut [f64], &mut [f64]) -> u8,
) {
    let marks = [f64::MARK; BEYOND];
    let length = coords.len();
    let mut lent = [coords, &marks].concat();
    let mut out = vec![f64::MARK; places + BEYOND];
    let answer = to_local(&mut lent[..length], &mut out[..places]);

    let mut wanted = 0;
    let mut wanted_coords = [coords, &marks].concat();
    let mut wanted_out = vec![f64::MARK; places + BEYOND];
    match judged {
        Err(number) => wanted = *number,
        Ok(_) if places < 3 => wanted = 6,
        Ok(moved) => {
            wanted_coords[..length].copy_from_slice(&moved.coords);
            wanted_out[..3].copy_from_slice(&moved.vector);
        }
    }
    let departure =
        departure("points", &lent, &wanted_coords).or_else(|| departure("out", &out, &wanted_out));
    calls.held("to_local", &[length, places], answer, wanted, departure);
}

#[cfg(test)]
mod tests {
    use super::*;
    use crate::comparison::tests::smallest_of;

    /// The smallest list found on which a wrong stand-in differs.
    fn smallest(to_local: impl Fn(&mut [f64], &mut [f64]) -> u8) -> Vec<f64> {
        let any = |random: &mut Random| Points::<3>(local_lists::any(random).coords);
        let compare = |calls: &mut Calls, Points(coords): &Points<3>, _: &mut Random| {
            compare_list(calls, coords, &to_local);
        };
        smallest_of(any, compare).0
    }

    /// Answers rightly, and leaves a list that is right where nothing is refused.
    fn right(coords: &mut [f64], out: &mut [f64]) -> u8 {
        match moved(coords) {
            Err(number) => number,
            Ok(_) if out.len() < 3 => 6,
            Ok(moved) => {
                coords.copy_from_slice(&moved.coords);
                out[..3].copy_from_slice(&moved.vector);
                0
            }
        }
    }

    #[test]
    fn a_right_move_is_found_right() {
        let mut random = Random::new(2);
        let mut calls = Calls::default();
        for _ in 0..2000 {
            compare_list(&mut calls, &local_lists::any(&mut random).coords, right);
        }
        assert!(calls.first_fault().is_none());
    }

    /// Takes the vector off every number, rounded or not.
    fn less_the_first(coords: &mut [f64], out: &mut [f64]) {
        let origin = [coords[0], coords[1], coords[2]].map(|number| number.trunc() + 0.0);
        for (place, number) in coords.iter_mut().enumerate() {
            *number -= origin[place % 3];
        }
        out[..3].copy_from_slice(&origin);
    }

    #[test]
    fn a_move_that_rounds_shrinks_to_two_vertices() {
        let small = smallest(|coords, out| match right(coords, out) {
            15 if out.len() >= 3 => {
                less_the_first(coords, out);
                0
            }
            answer => answer,
        });
        assert_eq!(small.len(), 6);
        assert_eq!(small.iter().filter(|&&number| number != 0.0).count(), 2);
    }

    #[test]
    fn a_refused_list_that_is_moved_is_found() {
        let small = smallest(|coords, out| {
            let answer = right(coords, out);
            if answer == 15 {
                less_the_first(coords, &mut [0.0; 3]);
            }
            answer
        });
        assert_eq!(moved(&small), Err(15));
        assert_eq!(small.len(), 6);
    }

    #[test]
    fn a_list_that_is_moved_without_room_shrinks_to_one_vertex() {
        let small = smallest(|coords, out| match right(coords, out) {
            6 => {
                right(coords, &mut [0.0; 3]);
                6
            }
            answer => answer,
        });
        assert_eq!(small.len(), 3);
        assert_eq!(small.iter().filter(|&&number| number != 0.0).count(), 1);
    }

    #[test]
    fn a_vector_with_a_negative_zero_is_found() {
        let small = smallest(|coords, out| {
            let first = coords.first().copied();
            let answer = right(coords, out);
            if answer == 0 && out[0] == 0.0 && first.is_some_and(f64::is_sign_negative) {
                out[0] = -0.0;
            }
            answer
        });
        assert_eq!(small.len(), 3);
        assert!(small[0].is_sign_negative());
    }
}
