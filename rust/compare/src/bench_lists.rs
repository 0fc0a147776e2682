//! Rows of `compare bench`: lists of points, in space and in the plane.

use std::hint::black_box;

use oracle::plain as rust;

use crate::bench::Table;
use crate::limits::MOST_VERTICES;
use crate::refusals::is_bad_number;
use crate::{faces, ours};

/// Points of a list in space.
const SIZES: [usize; 3] = [4, 64, 256];

/// Points of a list in the plane.
const PLANE_SIZES: [usize; 3] = [4, 64, 512];

/// The rows of one entry, from a list of numbers to a list of numbers.
macro_rules! add_list {
    ($table:ident, $lists:ident, $entry:ident, $by_rust:ident) => {
        for points in &$lists {
            let numbers = points.as_flattened();
            let mut out = [0.0; 6];
            $table.add_sized(
                stringify!($entry),
                points.len(),
                || ours::$entry(black_box(numbers), &mut out),
                || rust::$by_rust(black_box(points)),
            );
        }
    };
}

pub fn add_rows(table: &mut Table) {
    let space = SIZES.map(|size| in_space(&faces::regular(size)));
    add_list!(table, space, newell_normal, newell_normal);
    add_list!(table, space, vertex_centroid, vertex_centroid3);
    add_list!(table, space, list_bounds, bounds_iter3);
    add_moving(table, &space);

    let plane = PLANE_SIZES.map(faces::regular);
    add_list!(table, plane, signed_area2, signed_area2);
    add_list!(table, plane, vertex_centroid2, vertex_centroid2);
    add_list!(table, plane, bounds2, bounds_iter2);
    add_turning(table, &plane);
}

/// The Rust has no such move: its column is a plain loop. The points are moved from far away, and on
/// both sides each call has a fresh copy of them, which is timed with it.
fn add_moving(table: &mut Table, lists: &[Vec<[f64; 3]>]) {
    for points in lists {
        let far: Vec<[f64; 3]> = points.iter().map(|point| point.map(|x| x + 4e6)).collect();
        let [mut ours_points, mut plain_points] = [(); 2].map(|()| far.clone());
        let mut out = [0.0; 3];
        let mut moved = || {
            ours_points.copy_from_slice(black_box(&far));
            ours::to_local(ours_points.as_flattened_mut(), &mut out)
        };
        let mut plainly = || {
            plain_points.copy_from_slice(black_box(&far));
            plainly_moved(&mut plain_points)
        };
        assert_eq!(moved(), 0, "the points can be moved");
        let origin = plainly();
        table.add_sized("to_local", points.len(), moved, plainly);
        let moved = (Some(out), ours_points);
        assert_eq!(moved, (origin, plain_points), "both move alike");
    }
}

/// The points moved to a local origin without proof, or none of them: the same checks, and for each
/// number whether the origin, added back to the difference, gives it again.
fn plainly_moved(points: &mut [[f64; 3]]) -> Option<[f64; 3]> {
    if points.len() > MOST_VERTICES || points.iter().flatten().any(|&x| is_bad_number(x)) {
        return None;
    }
    let origin = points.first()?.map(|x| x as i64 as f64);
    let axes = [0, 1, 2];
    let is_rounded = |p: &[f64; 3]| axes.iter().any(|&k| p[k] - origin[k] + origin[k] != p[k]);
    if points.iter().any(is_rounded) {
        return None;
    }
    for point in points {
        *point = axes.map(|k| point[k] - origin[k]);
    }
    Some(origin)
}

/// The outlines run counterclockwise as they are, so none is turned.
fn add_turning(table: &mut Table, lists: &[Vec<[f64; 2]>]) {
    for points in lists {
        let [mut ours_points, mut rust_points] = [(); 2].map(|()| points.clone());
        table.add_sized(
            "into_ccw2",
            points.len(),
            || ours::into_ccw2(black_box(ours_points.as_flattened_mut())),
            || rust::into_ccw2(black_box(&mut rust_points)),
        );
    }
}

/// An outline put into space.
pub fn in_space(outline: &[[f64; 2]]) -> Vec<[f64; 3]> {
    outline.iter().map(|&[x, y]| [x, y, 0.5]).collect()
}
