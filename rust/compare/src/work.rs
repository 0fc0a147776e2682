//! Calls with two work lists: how long the lists are made, and what must stand in them afterwards.

use crate::calls::{BEYOND, Calls, Lent, departure};
use crate::limits::LONGEST_WORK;
use crate::random::Random;
use crate::refusals;

/// How often each input is asked about, each time with other random lists.
const TIMES: usize = 3;

/// The longest of the work lists that are tried in every length.
const SHORT: usize = 12;

/// An entry that takes two work lists.
pub struct Entry {
    pub name: &'static str,
    /// Numbers of a point.
    pub dimension: usize,
    /// Values that it answers.
    pub values: usize,
    /// Counts that it answers beside them, in a list of their own.
    pub counts: usize,
}

/// What an entry must do when it is not refused 1 to 5.
pub struct Work<T> {
    /// The most points that a work list must hold; fewer are refusal 6.
    pub most: usize,
    pub values: Vec<T>,
    pub counts: Vec<usize>,
    /// The numbers of the outline that is shown, in the first list (0) or in the second (1).
    pub shown: Vec<f64>,
    pub shown_in: usize,
}

/// A refusal 1 to 5 that the inputs meet, or the work.
pub type Expected<T> = Result<Work<T>, u8>;

/// How long the lists are that a call is lent: the two work lists, the places for its values, and
/// those for its counts.
#[derive(Clone, Copy)]
pub struct Lengths {
    work: [usize; 2],
    places: usize,
    counts: usize,
}

/// A way to choose lists for an entry and an input that needs so many numbers in each work list.
pub type Choice = fn(&Entry, usize, &mut Random) -> Vec<Lengths>;

impl Entry {
    /// Asks an entry that answers no counts, with each of the chosen lists.
    pub fn ask<T: Lent>(
        &self,
        calls: &mut Calls,
        expected: &Expected<T>,
        choice: Choice,
        random: &mut Random,
        mut call: impl FnMut(&mut [f64], &mut [f64], &mut [T]) -> u8,
    ) {
        self.ask_for_counts(calls, expected, choice, random, |first, second, out, _| {
            call(first, second, out)
        });
    }

    /// The same for one that answers counts as well, in the last list.
    pub fn ask_for_counts<T: Lent>(
        &self,
        calls: &mut Calls,
        expected: &Expected<T>,
        choice: Choice,
        random: &mut Random,
        mut call: impl FnMut(&mut [f64], &mut [f64], &mut [T], &mut [usize]) -> u8,
    ) {
        let most = expected.as_ref().map_or(0, |work| work.most);
        for lengths in choice(self, most * self.dimension, &mut random.fork()) {
            self.ask_once(calls, expected, lengths, &mut call);
        }
    }

    fn ask_once<T: Lent>(
        &self,
        calls: &mut Calls,
        expected: &Expected<T>,
        lengths: Lengths,
        call: &mut impl FnMut(&mut [f64], &mut [f64], &mut [T], &mut [usize]) -> u8,
    ) {
        let Lengths {
            work,
            places,
            counts: for_counts,
        } = lengths;
        let [mut first, mut second] = work.map(|length| marked(length + BEYOND));
        let mut out = with_front(&[], places);
        let mut counts = with_front(&[], for_counts);
        let answer = call(
            &mut first[..work[0]],
            &mut second[..work[1]],
            &mut out[..places],
            &mut counts[..for_counts],
        );

        let end = self.end(expected, lengths);
        let departure = departure("out", &out, &with_front(end.values, places))
            .or_else(|| departure("counts", &counts, &with_front(end.counts, for_counts)))
            .or_else(|| departure("first", &first, &end.stands.list(0, work[0])))
            .or_else(|| departure("second", &second, &end.stands.list(1, work[1])));
        let lent = [work[0], work[1], places, for_counts];
        let lists = if self.counts == 0 { 3 } else { 4 };
        calls.held(self.name, &lent[..lists], answer, end.answer, departure);
    }

    /// How a call must end with lists of these lengths.
    fn end<'a, T>(&self, expected: &'a Expected<T>, lengths: Lengths) -> End<'a, T> {
        let refused = |answer, stands| End {
            answer,
            values: &[],
            counts: &[],
            stands,
        };
        let [first, second] = lengths.work;
        if let Some(number) = refusals::of_work(lengths.work) {
            return refused(number, Stands::AsBefore);
        }
        let room = first.min(second) / self.dimension;
        let too_few = lengths.places < self.values || lengths.counts < self.counts;
        match expected {
            Err(number) => refused(*number, Stands::AsBefore),
            Ok(work) if room < work.most || too_few => refused(6, Stands::Zeros),
            Ok(work) => End {
                answer: 0,
                values: &work.values,
                counts: &work.counts,
                stands: Stands::Shown(work.shown_in, &work.shown),
            },
        }
    }
}

/// How a call ends: its answer, what it writes, and what then stands in the work lists.
struct End<'a, T> {
    answer: u8,
    values: &'a [T],
    counts: &'a [usize],
    stands: Stands<'a>,
}

/// A list of so many places, and some beyond, with marks behind the values at its front.
fn with_front<T: Lent>(values: &[T], places: usize) -> Vec<T> {
    let mut list = vec![T::MARK; places + BEYOND];
    list[..values.len()].copy_from_slice(values);
    list
}

enum Stands<'a> {
    AsBefore,
    Zeros,
    /// These numbers at the front of one list, and +0 in all others.
    Shown(usize, &'a [f64]),
}

impl Stands<'_> {
    /// What stands in one of the lists, and after it.
    fn list(&self, which: usize, length: usize) -> Vec<f64> {
        let mut numbers = marked(length + BEYOND);
        if let Stands::AsBefore = self {
            return numbers;
        }
        numbers[..length].fill(0.0);
        if let Stands::Shown(list, outline) = self
            && *list == which
        {
            numbers[..outline.len()].copy_from_slice(outline);
        }
        numbers
    }
}

/// A list with something to see in every place, and things that a sum or a product with 0 keeps.
fn marked(length: usize) -> Vec<f64> {
    let mark = |place: usize| match place % 4 {
        1 => -0.0,
        3 => f64::NAN,
        _ => f64::MARK - place as f64,
    };
    (0..length).map(mark).collect()
}

/// Some random lists, most of them beside the limit of room, and now and then with too few places for
/// the values or for the counts.
pub fn beside_the_limit(entry: &Entry, needed: usize, random: &mut Random) -> Vec<Lengths> {
    let any = |_| Lengths {
        work: any_lengths(needed, random),
        places: any_places(entry.values, random),
        counts: any_places(entry.counts, random),
    };
    (0..TIMES).map(any).collect()
}

/// Mostly enough places for so many values; none where there is nothing to answer.
fn any_places(values: usize, random: &mut Random) -> usize {
    if values == 0 {
        return 0;
    }
    match random.below(16) {
        0 => random.below(values),
        _ => values + random.below(2),
    }
}

/// Work lists of all short lengths, and once with each number of places that is too few.
pub fn every_short(entry: &Entry, _needed: usize, _random: &mut Random) -> Vec<Lengths> {
    let lengths = 0..=SHORT;
    let pairs = lengths.flat_map(|one| (0..=SHORT).map(move |two| [one, two]));
    let with_places = |work, places, counts| Lengths {
        work,
        places,
        counts,
    };
    let Entry { values, counts, .. } = *entry;
    let enough = pairs.map(|work| with_places(work, values, counts));
    let too_few = (0..values).map(|places| with_places([SHORT; 2], places, counts));
    let too_few_counts = (0..counts).map(|places| with_places([SHORT; 2], values, places));
    enough.chain(too_few).chain(too_few_counts).collect()
}

/// Lengths of two work lists for a call that needs so many numbers in each.
fn any_lengths(needed: usize, random: &mut Random) -> [usize; 2] {
    let needed = needed.min(LONGEST_WORK);
    let ample = (needed + random.below(60)).min(LONGEST_WORK);
    let mut lengths = match random.below(4) {
        0 => [ample; 2],
        1 => [any_length(needed, random); 2],
        2 => [any_length(needed, random), ample],
        _ => [(); 2].map(|()| any_length(needed, random)),
    };
    if random.once_in(2) {
        lengths.reverse();
    }
    lengths
}

/// Mostly a length beside the limit of room.
fn any_length(needed: usize, random: &mut Random) -> usize {
    match random.below(32) {
        0 => LONGEST_WORK + random.between(1, 3),
        1 => LONGEST_WORK,
        2 => random.below(needed + 1),
        3 => random.between(needed, LONGEST_WORK),
        _ => (needed + random.below(9))
            .saturating_sub(4)
            .min(LONGEST_WORK),
    }
}

#[cfg(test)]
mod tests {
    use super::*;

    const ENTRY: Entry = Entry {
        name: "test",
        dimension: 3,
        values: 1,
        counts: 2,
    };

    /// What a call of the test must do: it shows one point in the second list, and needs room for two.
    fn expected() -> Expected<usize> {
        Ok(Work {
            most: 2,
            values: vec![7],
            counts: vec![8, 9],
            shown: vec![1.0, -0.0, f64::NAN],
            shown_in: 1,
        })
    }

    /// Such a call, as it should be.
    fn right(first: &mut [f64], second: &mut [f64], out: &mut [usize], counts: &mut [usize]) -> u8 {
        if first.len().max(second.len()) > LONGEST_WORK {
            return 1;
        }
        first.fill(0.0);
        second.fill(0.0);
        if first.len().min(second.len()) < 6 || out.is_empty() || counts.len() < 2 {
            return 6;
        }
        second[..3].copy_from_slice(&[1.0, -0.0, f64::NAN]);
        out[0] = 7;
        counts[..2].copy_from_slice(&[8, 9]);
        0
    }

    type Lists<'a> = (
        &'a mut [f64],
        &'a mut [f64],
        &'a mut [usize],
        &'a mut [usize],
    );

    fn is_found_right(call: impl Fn(Lists) -> u8) -> bool {
        let mut random = Random::new(1);
        let mut calls = Calls::default();
        for _ in 0..300 {
            ENTRY.ask_for_counts(
                &mut calls,
                &expected(),
                beside_the_limit,
                &mut random,
                |first, second, out, counts| call((first, second, out, counts)),
            );
        }
        calls.first_fault().is_none()
    }

    #[test]
    fn a_right_call_is_found_right() {
        assert!(is_found_right(|(first, second, out, counts)| {
            right(first, second, out, counts)
        }));
    }

    #[test]
    fn a_number_over_that_is_not_cleared_is_found() {
        assert!(!is_found_right(|(first, second, out, counts)| {
            let whole = first.len() - first.len() % 3;
            let kept = first[whole..].to_vec();
            let answer = right(first, second, out, counts);
            first[whole..].copy_from_slice(&kept);
            answer
        }));
    }

    #[test]
    fn a_list_cleared_by_refusal_1_is_found() {
        assert!(!is_found_right(|(first, second, out, counts)| {
            let answer = right(first, second, out, counts);
            if answer == 1 {
                first.fill(0.0);
            }
            answer
        }));
    }

    #[test]
    fn a_refusal_for_too_much_room_is_found() {
        assert!(!is_found_right(|(first, second, out, counts)| {
            match right(first, second, out, counts) {
                0 if first.len() < 7 => 6,
                answer => answer,
            }
        }));
    }

    #[test]
    fn a_wrong_count_is_found() {
        assert!(!is_found_right(|(first, second, out, counts)| {
            let answer = right(first, second, out, counts);
            if answer == 0 {
                counts[1] = 8;
            }
            answer
        }));
    }

    #[test]
    fn counts_that_are_written_on_a_refusal_are_found() {
        assert!(!is_found_right(|(first, second, out, counts)| {
            let answer = right(first, second, out, counts);
            if answer == 6 {
                counts.fill(0);
            }
            answer
        }));
    }

    #[test]
    fn counts_that_are_answered_without_room_are_found() {
        assert!(!is_found_right(|(first, second, out, counts)| {
            let mut ample = [0; 2];
            match counts.len() {
                1 => right(first, second, out, &mut ample),
                _ => right(first, second, out, counts),
            }
        }));
    }
}
