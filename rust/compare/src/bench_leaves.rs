//! Rows of `compare bench`: the leaves. Both sides are called: the Rust's leaf stands in a function of
//! its own that is not taken apart, since a user of the port pays for the call too.

use std::hint::black_box;

use oracle::plain as rust;

use crate::bench::Table;
use crate::ours;

/// A row of one leaf: its arguments, what the port is asked, and what the Rust is.
macro_rules! add_leaf {
    (
        $table:ident, $entry:ident($($argument:ident: $kind:ty = $value:expr),*),
        $ours:expr, $by_rust:expr => $answer:ty
    ) => {
        #[inline(never)]
        fn by_rust($($argument: $kind),*) -> $answer {
            $by_rust
        }
        $table.add(
            stringify!($entry),
            || {
                let ($($argument,)*) = black_box(($($value,)*));
                $ours
            },
            || {
                let ($($argument,)*) = black_box(($($value,)*));
                by_rust($($argument),*)
            },
        );
    };
}

/// One leaf in a scope of its own, since each brings a function with the same name.
macro_rules! add_leaves {
    ($table:ident; $($entry:ident($($arguments:tt)*), $ours:expr, $by_rust:expr => $answer:ty;)*) => { $(
        {
            add_leaf!($table, $entry($($arguments)*), $ours, $by_rust => $answer);
        }
    )* };
}

const A: [f64; 3] = [0.25, 0.5, 0.75];
const B: [f64; 3] = [1.25, -0.5, 0.125];
const C: [f64; 2] = [0.3, 0.9];
const D: [f64; 2] = [0.7, -0.4];
const PLANE: [f64; 4] = [0.0, 0.6, 0.8, 1.5];

pub fn add_rows(table: &mut Table) {
    add_floats(table);
    add_points(table);
    add_planes(table);
}

fn add_floats(table: &mut Table) {
    add_leaves! {
        table;
        magnitude(x: f64 = -0.3), ours::magnitude(x), x.abs() => f64;
        least(a: f64 = 0.3, b: f64 = 0.7), ours::least(a, b), a.min(b) => f64;
        largest(a: f64 = 0.3, b: f64 = 0.7), ours::largest(a, b), a.max(b) => f64;
        root(x: f64 = 0.3), ours::root(x), x.sqrt() => f64;
        hypot(x: f64 = 0.3, y: f64 = 0.7), ours::hypot(x, y), x.hypot(y) => f64;
        pattern(x: f64 = 0.3), ours::pattern(x), x.to_bits() => u64;
        of_pattern(b: u64 = 0x3FF0_0000_0000_0000), ours::of_pattern(b), f64::from_bits(b) => f64;
    }
}

fn add_points(table: &mut Table) {
    let mut out = [0.0; 3];
    add_leaves! {
        table;
        cross2(a: [f64; 2] = [A[0], A[1]], b: [f64; 2] = C, c: [f64; 2] = D),
            ours::cross2(a, b, c),
            rust::cross2(a, b, c) => f64;
        dominant_axis(n: [f64; 3] = B),
            ours::dominant_axis(n),
            rust::dominant_axis(n) => usize;
        project2(p: [f64; 3] = A, axis: usize = 1),
            ours::project2(p, axis, &mut out),
            rust::project2(p, axis) => [f64; 2];
        segment_intersection(
            a: [f64; 2] = [A[0], A[1]], b: [f64; 2] = C, p: [f64; 2] = D, q: [f64; 2] = [B[0], B[1]]
        ),
            ours::segment_intersection(a, b, p, q, &mut out),
            rust::segment_intersection(a, b, p, q) => [f64; 2];
        segment_plane_intersection(a: [f64; 3] = A, b: [f64; 3] = B, da: f64 = 0.25, db: f64 = -0.5),
            ours::segment_plane_intersection(a, b, da, db, &mut out),
            rust::segment_plane_intersection(a, b, da, db) => [f64; 3];
    }
}

fn add_planes(table: &mut Table) {
    add_leaves! {
        table;
        plane_same_side(a: [f64; 4] = PLANE, b: [f64; 4] = PLANE, t: f64 = 0.1),
            ours::plane_same_side(a, b, t),
            rust::plane_same_side(a, b, t) => bool;
        plane_coplanar_opposite(a: [f64; 4] = PLANE, b: [f64; 4] = PLANE, t: f64 = 0.1),
            ours::plane_coplanar_opposite(a, b, t),
            rust::plane_coplanar_opposite(a, b, t) => bool;
    }
}
