//! The Rust of mefikit, compiled as it stands, to judge the port by.
//!
//! Three builds of the same code stand side by side with the same functions in them: [`plain`], the
//! Rust as it is; [`ruled`], in which the two calls of `hypot` follow the rule of SCOPE 1; and
//! [`counted`], in which the tests of turn × direction are counted as a face is cut. Each function
//! carries the name of the Rust function that it calls, save [`counted::ear_clip_tests`], which
//! tells the counts. A single face is a list of `usize`, which is what the Rust itself takes; a
//! whole cell is a [`Cell`].
//!
//! The Rust panics where the port refuses. [`protocol::answer`] catches that; a caller of the
//! functions themselves can use [`caught`].

// The builds share the files that open the way in; that is their purpose.
#![allow(clippy::duplicate_mod)]

#[cfg(all(debug_assertions, not(doc)))]
compile_error!("the oracle speaks for a release build: build it with debug assertions off");

mod cell;
mod mesh;
pub mod protocol;
mod ruled_hypot;
mod standins;
mod turn_tests;

pub use cell::{Cell, Shape};
pub use ruled_hypot::hypot;

/// The Rust as it is.
pub mod plain {
    include!(concat!(env!("OUT_DIR"), "/plain.rs"));
}

/// The Rust with its two calls of `hypot` replaced by the rule of SCOPE 1.
pub mod ruled {
    include!(concat!(env!("OUT_DIR"), "/ruled.rs"));
}

/// The Rust as it is, but that each test of turn × direction is counted as a face is cut.
pub mod counted {
    include!(concat!(env!("OUT_DIR"), "/counted.rs"));

    pub use crate::turn_tests::Tests;

    /// The triangles of one face, and how many tests were made to find them.
    pub fn ear_clip_tests(points: &[[f64; 3]], face: &[usize]) -> (Vec<[usize; 3]>, Tests) {
        crate::turn_tests::made_in(|| ear_clip_triangles(points, face))
    }
}

/// Runs `question` and gives its answer, or `None` where the Rust panics.
///
/// The panic's own message is still printed unless the program has set a hook; see
/// [`silence_panics`].
pub fn caught<T>(question: impl FnOnce() -> T) -> Option<T> {
    std::panic::catch_unwind(std::panic::AssertUnwindSafe(question)).ok()
}

/// Keeps panics from printing their message, for programs in which they are answers.
pub fn silence_panics() {
    std::panic::set_hook(Box::new(|_| {}));
}
