//! Calls of the port's entries: each is held to what is expected of it, and counted by its answer.

use std::collections::BTreeMap;
use std::fmt::Debug;

use crate::random::Random;
use crate::tally::Tally;

/// Places after the lent ones, which a call never sees.
pub const BEYOND: usize = 4;

/// What a call must answer: its values, or a refusal.
pub type Expected<T> = Result<Vec<T>, u8>;

/// The refusal where there is one, else the values.
pub fn unless_refused<T>(refusal: Option<u8>, values: impl FnOnce() -> T) -> Result<T, u8> {
    match refusal {
        Some(number) => Err(number),
        None => Ok(values()),
    }
}

/// What a call can give.
pub trait Given: Copy + Debug {
    /// Whether it is what it should be: bit for bit, NaN being NaN whatever its bits.
    fn same(self, other: Self) -> bool;
}

/// What can stand in a lent list.
pub trait Lent: Given {
    /// What stands there before a call.
    const MARK: Self;
}

impl Given for f64 {
    fn same(self, other: f64) -> bool {
        self.to_bits() == other.to_bits() || self.is_nan() && other.is_nan()
    }
}

macro_rules! given_as_equal {
    ($($kind:ty),*) => { $(
        impl Given for $kind {
            fn same(self, other: $kind) -> bool {
                self == other
            }
        }
    )* };
}

given_as_equal!(bool, u32, u64, usize, [u32; 3]);

impl Lent for f64 {
    const MARK: f64 = -12345.678;
}

impl Lent for u32 {
    const MARK: u32 = 0xDEAD_0000;
}

impl Lent for usize {
    const MARK: usize = 987_654_321;
}

impl Lent for [u32; 3] {
    const MARK: [u32; 3] = [0xDEAD_0001, 0xDEAD_0002, 0xDEAD_0003];
}

/// The same but for the sign of a zero, which the Rust leaves open where a least or a largest meets
/// two of them.
fn same_value(a: f64, b: f64) -> bool {
    a == b || a.is_nan() && b.is_nan()
}

/// Whether two lists are the same, place by place.
pub fn same_lists<T: Given>(a: &[T], b: &[T]) -> bool {
    a.len() == b.len() && a.iter().zip(b).all(|(&a, &b)| a.same(b))
}

/// Says at which place a list first departs from one that is as long.
pub fn departure<T: Given>(name: &str, found: &[T], wanted: &[T]) -> Option<String> {
    departure_from(name, found, |place| wanted[place], T::same)
}

fn departure_from<T: Given>(
    name: &str,
    found: &[T],
    wanted: impl Fn(usize) -> T,
    equal: fn(T, T) -> bool,
) -> Option<String> {
    let differs = |&place: &usize| !equal(found[place], wanted(place));
    let place = (0..found.len()).find(differs)?;
    let (found, wanted) = (found[place], wanted(place));
    Some(format!(
        "{name}[{place}] is {found:?}, should be {wanted:?}"
    ))
}

/// A call that departed from what is expected.
pub struct Fault {
    pub entry: &'static str,
    pub what: String,
}

/// Calls by entry, then by answer; inputs by kind; and the calls that departed.
#[derive(Default)]
pub struct Calls {
    answers: BTreeMap<&'static str, BTreeMap<u8, usize>>,
    kinds: Vec<Tally>,
    faults: Vec<Fault>,
}

impl Calls {
    /// Asks with places to spare, and now and then with too few, which is refusal 6 after all others.
    pub fn asked<T: Lent>(
        &mut self,
        entry: &'static str,
        room: usize,
        expected: Expected<T>,
        random: &mut Random,
        call: impl FnMut(&mut [T]) -> u8,
    ) {
        self.judged(T::same, entry, room, expected, random, call);
    }

    /// The same where zeros are compared by value.
    pub fn asked_for_bounds(
        &mut self,
        entry: &'static str,
        room: usize,
        expected: Expected<f64>,
        random: &mut Random,
        call: impl FnMut(&mut [f64]) -> u8,
    ) {
        self.judged(same_value, entry, room, expected, random, call);
    }

    fn judged<T: Lent>(
        &mut self,
        equal: fn(T, T) -> bool,
        entry: &'static str,
        room: usize,
        expected: Expected<T>,
        random: &mut Random,
        mut call: impl FnMut(&mut [T]) -> u8,
    ) {
        let mut random = random.fork();
        let places = room + random.below(3);
        self.lent(equal, entry, places, &expected, &mut call);
        if room > 0 && random.once_in(8) {
            let refused = Err(expected.err().unwrap_or(6));
            self.lent(equal, entry, random.below(room), &refused, &mut call);
        }
    }

    /// Lends so many places. The values must stand at their front, and nothing else may change.
    fn lent<T: Lent>(
        &mut self,
        equal: fn(T, T) -> bool,
        entry: &'static str,
        places: usize,
        expected: &Expected<T>,
        call: &mut impl FnMut(&mut [T]) -> u8,
    ) {
        let mut list = vec![T::MARK; places + BEYOND];
        let answer = call(&mut list[..places]);
        let (wanted, values) = match expected {
            Ok(values) => (0, values.as_slice()),
            Err(number) => (*number, &[][..]),
        };
        let wanted_at = |place: usize| values.get(place).copied().unwrap_or(T::MARK);
        let departure = departure_from("out", &list, wanted_at, equal);
        self.held(entry, &[places], answer, wanted, departure);
    }

    /// Asks an entry that writes two lists, each with places to spare, and now and then with too few
    /// in one of them.
    pub fn asked_for_two<A: Lent, B: Lent>(
        &mut self,
        entry: &'static str,
        rooms: [usize; 2],
        expected: Result<(Vec<A>, Vec<B>), u8>,
        random: &mut Random,
        mut call: impl FnMut(&mut [A], &mut [B]) -> u8,
    ) {
        let mut random = random.fork();
        let places = rooms.map(|room| room + random.below(3));
        self.lent_two(entry, places, &expected, &mut call);
        let short = random.below(2);
        if rooms[short] > 0 && random.once_in(4) {
            let mut places = rooms;
            places[short] = random.below(rooms[short]);
            let refused = Err(expected.err().unwrap_or(6));
            self.lent_two(entry, places, &refused, &mut call);
        }
    }

    /// Lends so many places of two lists. The values must stand at their fronts, and nothing else may
    /// change.
    pub fn lent_two<A: Lent, B: Lent>(
        &mut self,
        entry: &'static str,
        places: [usize; 2],
        expected: &Result<(Vec<A>, Vec<B>), u8>,
        call: &mut impl FnMut(&mut [A], &mut [B]) -> u8,
    ) {
        let mut first = vec![A::MARK; places[0] + BEYOND];
        let mut second = vec![B::MARK; places[1] + BEYOND];
        let answer = call(&mut first[..places[0]], &mut second[..places[1]]);
        let (wanted, (one, two)) = match expected {
            Ok((one, two)) => (0, (one.as_slice(), two.as_slice())),
            Err(number) => (*number, (&[][..], &[][..])),
        };
        let one = |place: usize| one.get(place).copied().unwrap_or(A::MARK);
        let two = |place: usize| two.get(place).copied().unwrap_or(B::MARK);
        let departure = departure_from("first", &first, one, A::same)
            .or_else(|| departure_from("second", &second, two, B::same));
        self.held(entry, &places, answer, wanted, departure);
    }

    /// Counts a call, which must have given the wanted answer and left its lists right. The places of
    /// its lent lists are told where it did not.
    pub fn held(
        &mut self,
        entry: &'static str,
        lent: &[usize],
        answer: u8,
        wanted: u8,
        departure: Option<String>,
    ) {
        *self.answers_of(entry).entry(answer).or_default() += 1;
        let what = if answer != wanted {
            format!("answered {answer}, should answer {wanted}")
        } else if let Some(what) = departure {
            format!("answered {answer}, and {what}")
        } else {
            return;
        };
        let what = format!("with lent lists of {lent:?} places {what}");
        self.faults.push(Fault { entry, what });
    }

    /// Counts calls with one answer that were found right before.
    pub fn held_before(&mut self, entry: &'static str, answer: u8, times: usize) {
        if times > 0 {
            *self.answers_of(entry).entry(answer).or_default() += times;
        }
    }

    /// Counts a call that gives a value and refuses nothing.
    pub fn gave<T: Given>(&mut self, entry: &'static str, found: T, wanted: T) {
        *self.answers_of(entry).entry(0).or_default() += 1;
        if !found.same(wanted) {
            let what = format!("gave {found:?}, should give {wanted:?}");
            self.faults.push(Fault { entry, what });
        }
    }

    fn answers_of(&mut self, entry: &'static str) -> &mut BTreeMap<u8, usize> {
        self.answers.entry(entry).or_default()
    }

    /// Notes a fault where something beside the calls does not hold.
    pub fn expect(&mut self, holds: bool, entry: &'static str, what: &str) {
        if !holds {
            let what = what.to_string();
            self.faults.push(Fault { entry, what });
        }
    }

    /// Counts an input under a title by its kind.
    pub fn count(&mut self, title: &'static str, kind: impl Debug) {
        self.count_times(title, kind, 1);
    }

    /// Counts so many inputs of one kind.
    pub fn count_times(&mut self, title: &'static str, kind: impl Debug, times: usize) {
        if times == 0 {
            return;
        }
        let place = self.kinds.iter().position(|tally| tally.title == title);
        let place = place.unwrap_or_else(|| {
            self.kinds.push(Tally::new(title));
            self.kinds.len() - 1
        });
        self.kinds[place].add_times(kind, times);
    }

    /// The first call that departed.
    pub fn first_fault(&self) -> Option<&Fault> {
        self.faults.first()
    }

    /// The first call of an entry that departed.
    pub fn fault_of(&self, entry: &str) -> Option<&Fault> {
        self.faults.iter().find(|fault| fault.entry == entry)
    }

    /// Adds the calls of another comparison.
    pub fn add(&mut self, other: Calls) {
        for (entry, answers) in other.answers {
            for (answer, count) in answers {
                *self.answers_of(entry).entry(answer).or_default() += count;
            }
        }
        self.faults.extend(other.faults);
    }

    pub fn print(&self) {
        self.kinds.iter().for_each(Tally::print);
        println!("calls by entry: answered, then refused by number");
        let mut all = 0;
        for (entry, answers) in &self.answers {
            let parts: Vec<String> = answers
                .iter()
                .map(|(number, count)| match number {
                    0 => format!("answered {count}"),
                    _ => format!("refused {number}: {count}"),
                })
                .collect();
            println!("  {entry:26} {}", parts.join(", "));
            all += answers.values().sum::<usize>();
        }
        println!("{all} calls, different: {}", self.faults.len());
    }
}

/// Prints a list so that it can be pasted into a test.
pub fn print_list<T: Debug>(name: &str, kind: &str, items: &[T]) {
    println!(
        "let {name}: [{kind}; {}] = {};",
        items.len(),
        pasteable(&items)
    );
}

/// A value as Rust reads it: NaN and the infinities by their names in the language.
pub fn pasteable(value: &impl Debug) -> String {
    let text = format!("{value:?}");
    text.replace("NaN", "f64::NAN")
        .replace("inf", "f64::INFINITY")
}

#[cfg(test)]
mod tests {
    use super::*;

    /// How many of 300 calls are found to depart, where each must write 7 in the first place.
    fn departed(call: impl Fn(&mut [usize]) -> u8) -> usize {
        let mut random = Random::new(1);
        let mut calls = Calls::default();
        for _ in 0..300 {
            calls.asked("test", 1, Ok(vec![7]), &mut random, &call);
        }
        calls.faults.len()
    }

    fn right(out: &mut [usize]) -> u8 {
        match out.first_mut() {
            None => 6,
            Some(first) => {
                *first = 7;
                0
            }
        }
    }

    #[test]
    fn a_right_call_is_found_right() {
        assert_eq!(departed(right), 0);
    }

    #[test]
    fn a_written_place_is_found() {
        let marks_the_next = |out: &mut [usize]| {
            let answer = right(out);
            if let Some(next) = out.get_mut(1) {
                *next = 0;
            }
            answer
        };
        assert!(departed(marks_the_next) > 50);
    }

    #[test]
    fn a_wrong_value_and_a_wrong_refusal_are_found() {
        let eight = |out: &mut [usize]| {
            out.fill(8);
            0
        };
        assert!(departed(eight) >= 300);
        assert!(departed(|_| 1) >= 300);
    }

    #[test]
    fn numbers_are_printed_as_rust_reads_them() {
        let numbers = [f64::NAN, f64::NEG_INFINITY, -0.0, 1e-310];
        assert_eq!(
            pasteable(&numbers),
            "[f64::NAN, -f64::INFINITY, -0.0, 1e-310]"
        );
    }
}
