//! The port's functions, by the C names of its static library: `wegrusamt_` and the name here.
//!
//! A slice passes as a pointer and then a length in elements, a point or a plane as its numbers. Every
//! entry takes any input, so the functions below are safe: each pointer and length come from one slice
//! that outlives the call, and no two of them overlap where one is lent for writing.

use crate::cells::Cell;

/// Entries that answer a refusal's number, or 0. Each argument is named by what it is here.
macro_rules! entries {
    ($($name:ident($($arguments:tt)*);)*) => { $(
        entry! { $name u8 [] [] [] $($arguments)*, }
    )* };
}

/// Entries that answer a value and refuse nothing.
macro_rules! leaves {
    ($($name:ident($($arguments:tt)*) -> $answer:ident;)*) => { $(
        entry! { $name $answer [] [] [] $($arguments)*, }
    )* };
}

/// One entry. Each rule takes one argument off the list and adds what it is in Rust, what it is in
/// C, and what passes; the last rule writes the function.
macro_rules! entry {
    ($name:ident $answer:ident [$($rust:tt)*] [$($c:tt)*] [$($passed:tt)*] $cell:ident: Cell, $($rest:tt)*) => {
        entry! {
            $name $answer [$($rust)* $cell: &Cell,]
            [$($c)* _: *const f64, _: usize, _: *const u32, _: usize, _: *const u32, _: usize,]
            [$($passed)*
                $cell.coords.as_ptr(), $cell.coords.len(),
                $cell.corners.as_ptr(), $cell.corners.len(),
                $cell.ends.as_ptr(), $cell.ends.len(),
            ]
            $($rest)*
        }
    };
    ($name:ident $answer:ident [$($rust:tt)*] [$($c:tt)*] [$($passed:tt)*] $numbers:ident: Point2, $($rest:tt)*) => {
        entry! {
            $name $answer [$($rust)* $numbers: [f64; 2],]
            [$($c)* _: f64, _: f64,]
            [$($passed)* $numbers[0], $numbers[1],]
            $($rest)*
        }
    };
    ($name:ident $answer:ident [$($rust:tt)*] [$($c:tt)*] [$($passed:tt)*] $numbers:ident: Point, $($rest:tt)*) => {
        entry! {
            $name $answer [$($rust)* $numbers: [f64; 3],]
            [$($c)* _: f64, _: f64, _: f64,]
            [$($passed)* $numbers[0], $numbers[1], $numbers[2],]
            $($rest)*
        }
    };
    ($name:ident $answer:ident [$($rust:tt)*] [$($c:tt)*] [$($passed:tt)*] $numbers:ident: Plane, $($rest:tt)*) => {
        entry! {
            $name $answer [$($rust)* $numbers: [f64; 4],]
            [$($c)* _: f64, _: f64, _: f64, _: f64,]
            [$($passed)* $numbers[0], $numbers[1], $numbers[2], $numbers[3],]
            $($rest)*
        }
    };
    ($name:ident $answer:ident [$($rust:tt)*] [$($c:tt)*] [$($passed:tt)*] $list:ident: &[$kind:ty], $($rest:tt)*) => {
        entry! {
            $name $answer [$($rust)* $list: &[$kind],]
            [$($c)* _: *const $kind, _: usize,]
            [$($passed)* $list.as_ptr(), $list.len(),]
            $($rest)*
        }
    };
    ($name:ident $answer:ident [$($rust:tt)*] [$($c:tt)*] [$($passed:tt)*] $list:ident: &mut [$kind:ty], $($rest:tt)*) => {
        entry! {
            $name $answer [$($rust)* $list: &mut [$kind],]
            [$($c)* _: *mut $kind, _: usize,]
            [$($passed)* $list.as_mut_ptr(), $list.len(),]
            $($rest)*
        }
    };
    ($name:ident $answer:ident [$($rust:tt)*] [$($c:tt)*] [$($passed:tt)*] $number:ident: $kind:ident, $($rest:tt)*) => {
        entry! {
            $name $answer [$($rust)* $number: $kind,]
            [$($c)* _: $kind,]
            [$($passed)* $number,]
            $($rest)*
        }
    };
    ($name:ident $answer:ident [$($rust:tt)*] [$($c:tt)*] [$($passed:tt)*]) => {
        pub fn $name($($rust)*) -> $answer {
            unsafe extern "C" {
                #[link_name = concat!("wegrusamt_", stringify!($name))]
                fn entry($($c)*) -> $answer;
            }
            // SAFETY: see the head of this file.
            unsafe { entry($($passed)*) }
        }
    };
}

// Cells.
entries! {
    volume(cell: Cell, out: &mut [f64]);
    centroid(cell: Cell, out: &mut [f64]);
    geometric_centroid(cell: Cell, out: &mut [f64]);
    bounds(cell: Cell, out: &mut [f64]);
    scale(cell: Cell, out: &mut [f64]);
    closed(cell: Cell, out: &mut [usize]);
    contains(cell: Cell, query: Point, out: &mut [usize]);
    point_in_phed(coords: &[f64], list: &[u32], query: Point, out: &mut [usize]);
    triangles(cell: Cell, face: u32, out: &mut [[u32; 3]], count: &mut [usize]);
    triangle_places(cell: Cell, face: u32, out: &mut [[u32; 3]], count: &mut [usize]);
    check_cut(corners: u32, places: &[u32], out: &mut [usize]);
    survey(cell: Cell, queries: &[f64], counts: &mut [usize], volume: &mut [f64]);
    describe(cell: Cell, shape: u8, out: &mut [usize]);
    is_convex(cell: Cell, shape: u8, out: &mut [usize]);
    into_ccw(coords: &[f64], corners: &mut [u32], ends: &[u32]);
    turn_faces(coords: &[f64], corners: &mut [u32], ends: &[u32], out: &mut [usize]);
}

// Lists of points, in space and in the plane.
entries! {
    newell_normal(points: &[f64], out: &mut [f64]);
    vertex_centroid(points: &[f64], out: &mut [f64]);
    list_bounds(points: &[f64], out: &mut [f64]);
    to_local(points: &mut [f64], out: &mut [f64]);
    signed_area2(points: &[f64], out: &mut [f64]);
    vertex_centroid2(points: &[f64], out: &mut [f64]);
    bounds2(points: &[f64], out: &mut [f64]);
    into_ccw2(points: &mut [f64]);
}

// Fixed shapes.
entries! {
    tet_volume(points: &[f64], out: &mut [f64]);
    wedge_volume(points: &[f64], out: &mut [f64]);
    hex_volume(points: &[f64], out: &mut [f64]);
    tet_contains(points: &[f64], query: Point, out: &mut [usize]);
    wedge_contains(points: &[f64], query: Point, out: &mut [usize]);
    hex_contains(points: &[f64], query: Point, out: &mut [usize]);
}

// Planes, clipping and overlaps. Where two work lists pass, they come before what is answered.
entries! {
    plane_of_face(cell: Cell, face: u32, out: &mut [f64], area: &mut [usize]);
    no_area_faces(cell: Cell, out: &mut [usize]);
    clip_face(
        cell: Cell, face: u32, planes: &[f64], eps: f64,
        first: &mut [f64], second: &mut [f64], shown: &mut [usize]
    );
    clip_convex(
        subject: &[f64], clip: &[f64],
        first: &mut [f64], second: &mut [f64], shown: &mut [usize]
    );
    convex_intersection_area(
        subject: &[f64], clip: &[f64],
        first: &mut [f64], second: &mut [f64], out: &mut [f64]
    );
    convex_intersection_volume(
        cell: Cell, other: Cell,
        first: &mut [f64], second: &mut [f64], out: &mut [f64], no_area: &mut [usize]
    );
}

// Numbers only, any bits.
entries! {
    project2(point: Point, axis: usize, out: &mut [f64]);
    segment_intersection(a: Point2, b: Point2, p: Point2, q: Point2, out: &mut [f64]);
    segment_plane_intersection(a: Point, b: Point, da: f64, db: f64, out: &mut [f64]);
}
leaves! {
    cross2(a: Point2, b: Point2, c: Point2) -> f64;
    dominant_axis(normal: Point) -> usize;
    plane_same_side(a: Plane, b: Plane, tolerance: f64) -> u8;
    plane_coplanar_opposite(a: Plane, b: Plane, tolerance: f64) -> u8;
}

// The leaves on f64.
leaves! {
    magnitude(x: f64) -> f64;
    least(a: f64, b: f64) -> f64;
    largest(a: f64, b: f64) -> f64;
    root(x: f64) -> f64;
    hypot(x: f64, y: f64) -> f64;
    pattern(x: f64) -> u64;
    of_pattern(b: u64) -> f64;
}
