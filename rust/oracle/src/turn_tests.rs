//! Counts the tests that the counted build makes as it cuts a face: of the turn at a corner times
//! the direction of the face, which must not be below 0 where the corner is taken.

use std::cell::Cell;

/// How many tests were made at a corner, by pass.
#[derive(Clone, Copy, Debug, PartialEq, Eq)]
pub struct Tests {
    /// Those of the first pass over a ring of more than three corners.
    pub in_first_pass: usize,
    /// Those of the second, which is made where the first takes no corner.
    pub in_second_pass: usize,
}

impl Tests {
    /// Those of both passes.
    pub fn all(self) -> usize {
        self.in_first_pass + self.in_second_pass
    }
}

thread_local! {
    static IN_FIRST_PASS: Cell<usize> = const { Cell::new(0) };
    static IN_SECOND_PASS: Cell<usize> = const { Cell::new(0) };
}

/// Counts a test of the first pass, and passes on what is tested.
pub(crate) fn in_first_pass(tested: f64) -> f64 {
    IN_FIRST_PASS.set(IN_FIRST_PASS.get() + 1);
    tested
}

/// Counts a test of the second pass, and passes on what is tested.
pub(crate) fn in_second_pass(tested: f64) -> f64 {
    IN_SECOND_PASS.set(IN_SECOND_PASS.get() + 1);
    tested
}

/// The answer to a question, and how many tests were made for it.
pub(crate) fn made_in<T>(question: impl FnOnce() -> T) -> (T, Tests) {
    IN_FIRST_PASS.set(0);
    IN_SECOND_PASS.set(0);
    let answer = question();
    let tests = Tests {
        in_first_pass: IN_FIRST_PASS.get(),
        in_second_pass: IN_SECOND_PASS.get(),
    };
    (answer, tests)
}
