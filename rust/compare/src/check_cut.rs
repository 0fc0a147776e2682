//! `compare check_cut`: triangles checked against a face by the port and by the second teller
//! (`cut_judge.rs`), for the Rust has no such check; and our own cuts, which must be accepted.

use std::collections::BTreeMap;
use std::fmt;

use crate::bench_lists::in_space;
use crate::calls::{BEYOND, Calls, Lent, departure};
use crate::cells::{self, Cell};
use crate::comparison::{Compared, Different, ask};
use crate::cut::{COUNTS, Cut, FaceCut, by_place};
use crate::cut_judge::{FEWEST_CORNERS, Judge, MOST_CHECKED_CORNERS};
use crate::cut_lists::{self, Made, Sent};
use crate::limits::MOST_VERTICES;
use crate::random::Random;
use crate::{faces, ours};

/// How many places `out` has: too few, as many as it needs, and more.
const PLACES: [usize; 3] = [0, 1, TO_SPARE];
const TO_SPARE: usize = 3;

/// `check_cut`, or a stand-in for it.
type Check = fn(u32, &[u32], &mut [usize]) -> u8;

/// Asks about every short list, about so many random ones, and about our own cuts of random faces.
pub fn compare(calls: &mut Calls, count: u64, seed: u64) -> Compared {
    let (judge, random) = (&mut Judge::default(), &mut Random::new(seed));
    every_short_list(calls, judge, count, random)?;
    for _ in 0..count {
        let Made { kind, sent } = cut_lists::any(random);
        ask_about(calls, judge, &[kind, "random lists"], sent, random)?;
    }
    own_cuts(calls, judge, count, random)
}

/// What the second teller answers, for the counts.
struct Answer(Result<bool, u8>);

impl fmt::Debug for Answer {
    fn fmt(&self, f: &mut fmt::Formatter) -> fmt::Result {
        match self.0 {
            Ok(true) => write!(f, "yes"),
            Ok(false) => write!(f, "no"),
            Err(number) => write!(f, "refused {number}:"),
        }
    }
}

/// Asks about one list and counts its answer under each of some titles.
pub fn ask_about(
    calls: &mut Calls,
    judge: &mut Judge,
    titles: &[&'static str],
    sent: Sent,
    random: &mut Random,
) -> Compared {
    ask_of(calls, judge, titles, sent, random, ours::check_cut)
}

/// The same of any check.
fn ask_of(
    calls: &mut Calls,
    judge: &mut Judge,
    titles: &[&'static str],
    sent: Sent,
    random: &mut Random,
    check: Check,
) -> Compared {
    ask(calls, &sent, random, |calls, sent, _| {
        let judged = judge.is_cut(sent.corners, &sent.places);
        for title in titles {
            calls.count(title, Answer(judged));
        }
        compare_list(calls, sent, judged, check);
    })
}

/// Asks with `out` of each length.
fn compare_list(calls: &mut Calls, sent: &Sent, judged: Result<bool, u8>, check: Check) {
    for places in PLACES {
        let mut out = vec![usize::MARK; places + BEYOND];
        let answer = check(sent.corners, &sent.places, &mut out[..places]);
        let mut wanted = 0;
        let mut wanted_out = vec![usize::MARK; places + BEYOND];
        match judged {
            Err(number) => wanted = number,
            Ok(_) if places == 0 => wanted = 6,
            Ok(yes) => wanted_out[0] = usize::from(yes),
        }
        let departure = departure("out", &out, &wanted_out);
        calls.held("check_cut", &[places], answer, wanted, departure);
    }
}

// Every short list.

/// The title for the lists of which all are tried.
const EVERY: &str = "every short list";

/// Triangles of the longest list of which all are tried.
const LONGEST: usize = 4;

/// The sets of over 50,000,000 lists are tried only where so many random lists are asked for.
const FOR_LARGE_SETS: u64 = 100_000;

/// Every list of up to four triangles for a face of three corners, the place 3 being one that is
/// not there; for one of four and of five corners those of up to three triangles, with one place
/// beyond as well, and those of four triangles over the places that are there; and for one of six
/// corners those of four triangles, each from its lowest place on.
///
/// What is left out: four triangles with a place beyond for four and for five corners; for six
/// corners other numbers of triangles, and triangles from another place on; numbers not in threes,
/// and other lengths of `out` than `TO_SPARE`, which `short` and the random lists have.
fn every_short_list(
    calls: &mut Calls,
    judge: &mut Judge,
    count: u64,
    random: &mut Random,
) -> Compared {
    let mut every = |corners: u32, of: &[[u32; 3]], length: usize| {
        let lists = Lists::new(of, length);
        every_list(calls, judge, corners, lists, random, ours::check_cut)
    };
    for length in 0..=LONGEST {
        every(3, &all_triangles(4), length)?;
    }
    for corners in [4, 5] {
        for length in 0..LONGEST {
            every(corners, &all_triangles(corners + 1), length)?;
        }
    }
    every(4, &all_triangles(4), LONGEST)?;
    if count >= FOR_LARGE_SETS {
        every(5, &all_triangles(5), LONGEST)?;
        every(6, &from_the_lowest(6), LONGEST)?;
    }
    Ok(())
}

/// Every triangle of numbers up to, not at, another.
fn all_triangles(places: u32) -> Vec<[u32; 3]> {
    let numbers = 0..places.pow(3);
    let triangle = |number: u32| [number / places / places, number / places, number];
    numbers
        .map(|number| triangle(number).map(|n| n % places))
        .collect()
}

/// Those of which no number is below the first.
fn from_the_lowest(places: u32) -> Vec<[u32; 3]> {
    let mut triangles = all_triangles(places);
    triangles.retain(|&[a, b, c]| a <= b && a <= c);
    triangles
}

/// Asks about one list after another, up to the first on which something differs. No list costs an
/// allocation.
fn every_list(
    calls: &mut Calls,
    judge: &mut Judge,
    corners: u32,
    mut lists: Lists,
    random: &mut Random,
    check: Check,
) -> Compared {
    let mut answers: BTreeMap<_, usize> = BTreeMap::new();
    loop {
        let places = lists.now().as_flattened();
        let judged = judge.is_cut(corners, places);
        if !is_right(corners, places, judged, check) {
            let sent = Sent::new(corners, lists.now());
            return Err(told(calls, judge, sent, random, check));
        }
        *answers.entry(judged).or_default() += 1;
        if !lists.step() {
            break;
        }
    }
    for (judged, times) in answers {
        calls.count_times(EVERY, Answer(judged), times);
        calls.held_before("check_cut", judged.err().unwrap_or(0), times);
    }
    Ok(())
}

/// Tells of a list on which something differs, as `compare_list` finds it.
fn told(
    calls: &mut Calls,
    judge: &mut Judge,
    sent: Sent,
    random: &mut Random,
    check: Check,
) -> Different {
    if ask_of(calls, judge, &[EVERY], sent, random, check).is_ok() {
        let what = "differs, and not when it is asked again";
        calls.expect(false, "check_cut", what);
    }
    Different
}

/// Whether a check does with `out` of `TO_SPARE` places what `compare_list` wants of it.
fn is_right(corners: u32, places: &[u32], judged: Result<bool, u8>, check: Check) -> bool {
    let mut out = [usize::MARK; TO_SPARE + BEYOND];
    let answer = check(corners, places, &mut out[..TO_SPARE]);
    let (wanted, first) = match judged {
        Ok(yes) => (0, usize::from(yes)),
        Err(number) => (number, usize::MARK),
    };
    answer == wanted && out[0] == first && out[1..].iter().all(|&number| number == usize::MARK)
}

/// The lists of so many triangles out of a set, one after another.
struct Lists<'a> {
    of: &'a [[u32; 3]],
    length: usize,
    /// Which triangle of the set stands at each place of the list.
    numbers: [usize; LONGEST],
    list: [[u32; 3]; LONGEST],
}

impl<'a> Lists<'a> {
    fn new(of: &'a [[u32; 3]], length: usize) -> Lists<'a> {
        Lists {
            of,
            length,
            numbers: [0; LONGEST],
            list: [of[0]; LONGEST],
        }
    }

    fn now(&self) -> &[[u32; 3]] {
        &self.list[..self.length]
    }

    /// Goes on to the next list, if there is one.
    fn step(&mut self) -> bool {
        for place in 0..self.length {
            let next = self.numbers[place] + 1;
            let is_there = next < self.of.len();
            self.numbers[place] = if is_there { next } else { 0 };
            self.list[place] = self.of[self.numbers[place]];
            if is_there {
                return true;
            }
        }
        false
    }
}

// Our own cuts.

/// The title for lists that our own cut gives.
const OWN: &str = "our own cuts";

/// Cuts by place: of convex, concave and crossing outlines of each number of corners, and of random
/// faces and cells.
fn own_cuts(calls: &mut Calls, judge: &mut Judge, count: u64, random: &mut Random) -> Compared {
    for corners in 1..=MOST_CHECKED_CORNERS as usize {
        let convex = faces::convex(corners, random);
        let star = faces::star(corners, random);
        let any = faces::any_outline(corners, random);
        for outline in [
            faces::regular(corners),
            convex,
            star,
            faces::comb(corners),
            any,
        ] {
            let places: Vec<u32> = (0..outline.len() as u32).collect();
            let cell = Cell::of_one_face(in_space(&outline).as_flattened(), &places);
            ask_about_own_cut(calls, judge, &cell, random)?;
        }
    }
    for _ in 0..count / 10 {
        let cell = faces::any_with_a_vertex(random, MOST_VERTICES).cell;
        ask_about_own_cut(calls, judge, &cell, random)?;
    }
    for _ in 0..count / 100 {
        let cell = cells::any(random).cell;
        ask_about_own_cut(calls, judge, &cell, random)?;
    }
    Ok(())
}

/// Cuts every face of a sound cell.
fn ask_about_own_cut(
    calls: &mut Calls,
    judge: &mut Judge,
    cell: &Cell,
    random: &mut Random,
) -> Compared {
    ask(calls, cell, random, |calls, cell, _| {
        for face in 0..cell.ends.len() as u32 {
            own_cut(calls, judge, cell, face, ours::triangle_places);
        }
    })
}

/// Cuts a face by place, which must give the Rust's triangles with both counts and change nothing
/// else, and asks about them. The second teller and the port must both accept them where the face
/// has 3 to 256 corners and is fully cut, and both say no where the cut stops short.
fn own_cut(calls: &mut Calls, judge: &mut Judge, cell: &Cell, face: u32, cut: Cut) {
    // While an input is made smaller its cell may be refused, and has no face then.
    let Ok(expected) = by_place(cell, face) else {
        return;
    };
    let corners = cell.face(face).len() as u32;
    let room = corners.saturating_sub(2) as usize;
    let count = expected.triangles.len();
    let sent = Sent::new(corners, &expected.triangles);
    calls.lent_two(
        "triangle_places",
        [room, COUNTS],
        &Ok(FaceCut::written(expected)),
        &mut |out, count| cut(cell, face, out, count),
    );
    let judged = judge.is_cut(corners, &sent.places);
    calls.count(OWN, Answer(judged));
    if (FEWEST_CORNERS..=MOST_CHECKED_CORNERS).contains(&corners) {
        calls.expect(
            judged == Ok(count == room),
            "triangle_places",
            "must be a cut exactly where there are n - 2 triangles",
        );
    }
    compare_list(calls, &sent, judged, ours::check_cut);
}

#[cfg(test)]
mod tests {
    use super::*;
    use crate::comparison::tests::smallest_of;
    use crate::cut_judge::{has_three_different_places, refusal};
    use std::collections::BTreeSet;

    /// The smallest list found on which a wrong stand-in differs.
    fn smallest(check: Check) -> Sent {
        let any = |random: &mut Random| cut_lists::any(random).sent;
        smallest_of(any, |calls, sent: &Sent, _| {
            let judged = Judge::default().is_cut(sent.corners, &sent.places);
            compare_list(calls, sent, judged, check);
        })
    }

    /// Answers as the second teller does.
    fn right(corners: u32, places: &[u32], out: &mut [usize]) -> u8 {
        match (Judge::default().is_cut(corners, places), out) {
            (Err(number), _) => number,
            (Ok(_), []) => 6,
            (Ok(yes), [first, ..]) => {
                *first = usize::from(yes);
                0
            }
        }
    }

    #[test]
    fn a_right_check_is_found_right() {
        let random = &mut Random::new(2);
        let mut calls = Calls::default();
        for _ in 0..2000 {
            let sent = cut_lists::any(random).sent;
            let judged = Judge::default().is_cut(sent.corners, &sent.places);
            compare_list(&mut calls, &sent, judged, right);
        }
        assert!(calls.first_fault().is_none());
    }

    /// Answers yes wherever nothing is refused.
    fn accepts_everything(corners: u32, places: &[u32], out: &mut [usize]) -> u8 {
        let answer = right(corners, places, out);
        if answer == 0 {
            out[0] = 1;
        }
        answer
    }

    /// Writes behind its answer, where there is a place to spare.
    fn writes_behind(corners: u32, places: &[u32], out: &mut [usize]) -> u8 {
        let answer = right(corners, places, out);
        if answer == 0
            && let Some(next) = out.get_mut(1)
        {
            *next = 0;
        }
        answer
    }

    #[test]
    fn a_check_that_accepts_everything_shrinks_to_no_triangle() {
        assert_eq!(smallest(accepts_everything), Sent::new(3, &[]));
    }

    #[test]
    fn a_check_that_writes_behind_its_answer_is_found() {
        assert_eq!(smallest(writes_behind), Sent::new(3, &[]));
    }

    /// What is told of a check where every list of up to two triangles is tried on a face of four
    /// corners, with a place that is not there.
    fn told_of_every_list(check: Check) -> Option<String> {
        let mut calls = Calls::default();
        let (judge, random) = (&mut Judge::default(), &mut Random::new(1));
        let triangles = all_triangles(5);
        let compared = (0..=2).try_for_each(|length| {
            let lists = Lists::new(&triangles, length);
            every_list(&mut calls, judge, 4, lists, random, check)
        });
        let told = calls.first_fault().map(|fault| fault.what.clone());
        assert_eq!(compared.is_err(), told.is_some());
        told
    }

    #[test]
    fn every_list_tells_a_wrong_check() {
        assert_eq!(told_of_every_list(right), None);
        let told = |check, what: &str| told_of_every_list(check).is_some_and(|t| t.contains(what));
        assert!(told(accepts_everything, "out[0] is 1, should be 0"));
        assert!(told(writes_behind, "out[1] is 0, should be"));
        assert!(told(|_, _, _| 4, "answered 4, should answer 6"));
    }

    #[test]
    fn a_check_that_accepts_nothing_shrinks_to_one_triangle() {
        let small = smallest(|corners, places, out| {
            let answer = right(corners, places, out);
            if answer == 0 {
                out[0] = 0;
            }
            answer
        });
        assert_eq!((small.corners, small.places.len()), (3, 3));
    }

    /// The slip 'a face that runs backward taken for the same'.
    #[test]
    fn a_check_that_accepts_backward_cuts_shrinks_to_one_triangle() {
        let small = smallest(|corners, places, out| {
            let answer = right(corners, places, out);
            let backward: Vec<u32> = places.iter().rev().copied().collect();
            let is_cut = Judge::default().is_cut(corners, &backward) == Ok(true);
            if answer == 0 && is_cut {
                out[0] = 1;
            }
            answer
        });
        assert_eq!((small.corners, small.places.len()), (3, 3));
    }

    /// The slip 'triangles not counted'. What closes beside a cut takes three places of which no
    /// two are neighbours.
    #[test]
    fn a_check_that_does_not_count_shrinks_to_six_corners() {
        let small = smallest(|corners, places, out| {
            let answer = right(corners, places, out);
            let triangles = places.as_chunks::<3>().0;
            if answer == 0 && triangles.iter().all(has_three_different_places) {
                let yes = Judge::default().has_right_sides(corners, triangles);
                out[0] = usize::from(yes);
            }
            answer
        });
        assert_eq!((small.corners, small.places.len()), (6, 3 * (4 + 2)));
    }

    #[test]
    fn a_refusal_that_comes_too_early_is_found() {
        let small = smallest(|corners, places, out| match right(corners, places, out) {
            4 if out.is_empty() => 6,
            answer => answer,
        });
        assert_eq!(refusal(small.corners, &small.places), Some(4));
        assert_eq!((small.corners, small.places.len()), (3, 3));
    }

    #[test]
    fn a_refused_call_that_writes_is_found() {
        let small = smallest(|corners, places, out| {
            let answer = right(corners, places, out);
            if answer != 0 {
                out.fill(0);
            }
            answer
        });
        assert!(refusal(small.corners, &small.places).is_some());
    }

    #[test]
    fn every_list_comes_once() {
        let triangles = from_the_lowest(3);
        assert_eq!((all_triangles(3).len(), triangles.len()), (27, 9 + 4 + 1));
        for length in 0..=3 {
            let mut lists = Lists::new(&triangles, length);
            let mut met = BTreeSet::from([lists.now().to_vec()]);
            let mut count = 1;
            while lists.step() {
                met.insert(lists.now().to_vec());
                count += 1;
            }
            assert_eq!((count, met.len()), (14_usize.pow(length as u32), count));
        }
    }

    /// A cut can be listed in any order, and each triangle from any of its places on.
    #[test]
    fn the_lists_that_are_cuts_are_as_many_as_they_should_be() {
        let judge = &mut Judge::default();
        let mut cuts = |corners: u32, triangles: &[[u32; 3]]| {
            let mut lists = Lists::new(triangles, corners as usize - 2);
            let mut count = 0;
            loop {
                let judged = judge.is_cut(corners, lists.now().as_flattened());
                count += usize::from(judged == Ok(true));
                if !lists.step() {
                    return count;
                }
            }
        };
        assert_eq!(cuts(3, &all_triangles(4)), 3);
        assert_eq!(cuts(4, &all_triangles(5)), 2 * 2 * 9);
        assert_eq!(cuts(5, &all_triangles(5)), 5 * 6 * 27);
        assert_eq!(cuts(5, &from_the_lowest(5)), 5 * 6);
    }

    /// The smallest face found on which a wrong cut by place is told.
    fn smallest_own(cut: Cut) -> Cell {
        let any = |random: &mut Random| faces::any_with_a_vertex(random, 64).cell;
        smallest_of(any, |calls, cell: &Cell, _| {
            own_cut(calls, &mut Judge::default(), cell, 0, cut);
        })
    }

    /// The slip 'vertex numbers in the place of places'.
    #[test]
    fn a_cut_by_vertex_is_not_taken_for_one_by_place() {
        assert_eq!(smallest_own(ours::triangles).corners.len(), 3);
    }

    /// The check accepts a fan wherever ours is a full cut.
    #[test]
    fn a_fan_is_not_taken_for_our_own_cut() {
        let small = smallest_own(|cell, face, out, count| {
            let answer = ours::triangle_places(cell, face, out, count);
            let corners = cell.face(face).len() as u32;
            if answer == 0 && count[0] + 2 == corners as usize {
                out.copy_from_slice(&cut_lists::fan(corners));
            }
            answer
        });
        assert_eq!(small.corners.len(), 4);
    }

    #[test]
    fn a_cut_that_tells_no_test_shrinks_to_four_corners() {
        let small = smallest_own(|cell, face, out, count| {
            let answer = ours::triangle_places(cell, face, out, count);
            if answer == 0 {
                count[1] = 0;
            }
            answer
        });
        assert_eq!(small.corners.len(), 4);
    }

    #[test]
    fn a_cut_that_writes_behind_its_last_triangle_is_found() {
        let small = smallest_own(|cell, face, out, count| {
            let answer = ours::triangle_places(cell, face, out, count);
            if answer == 0
                && let Some(next) = out.get_mut(count[0])
            {
                *next = [0; 3];
            }
            answer
        });
        assert!(small.corners.len() > 3);
    }
}
