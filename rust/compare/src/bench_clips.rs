//! Rows of `compare bench`: clipping and the overlaps. Each work list has just the room that the call
//! needs.

use std::hint::black_box;

use oracle::Shape;
use oracle::plain as rust;

use crate::bench::Table;
use crate::bench_cells::all_cells;
use crate::bench_lists::in_space;
use crate::cells::{self, Cell};
use crate::random::Random;
use crate::{faces, ours, retold};

/// Points of both outlines of the plane.
const PLANE_SIZES: [usize; 3] = [4, 64, 512];

/// Corners of the face that is clipped by the planes of a cell.
const FACE_SIZES: [usize; 3] = [4, 16, 64];

/// The rows of one entry on two outlines of the plane; the last argument is the list that it answers in.
macro_rules! add_pairs {
    ($table:ident, $entry:ident, $out:expr) => {
        for size in PLANE_SIZES {
            let [subject, clip] = pair(size);
            let [mut first, mut second] = work_lists(2, retold::clip_convex(&subject, &clip).most);
            let mut out = $out;
            $table.add_sized(
                stringify!($entry),
                size,
                || {
                    let (subject, clip) = black_box((subject.as_flattened(), clip.as_flattened()));
                    ours::$entry(subject, clip, &mut first, &mut second, &mut out)
                },
                || {
                    let (subject, clip) = black_box((&subject, &clip));
                    rust::$entry(subject, clip)
                },
            );
        }
    };
}

pub fn add_rows(table: &mut Table) {
    for (cell, size) in all_cells().iter().zip(FACE_SIZES) {
        add_face(table, cell, size);
    }
    add_pairs!(table, clip_convex, [0; 2]);
    add_pairs!(table, convex_intersection_area, [0.0]);
    for cell in &all_cells() {
        add_overlap(table, "convex_intersection_volume", cell, &moved(cell));
    }
    // The plane of a face along an axis takes no root, and that of any other face takes one or two.
    let tilted = cells::rotated(cells::unit_cube(), &mut Random::new(1));
    let row = "convex_intersection_volume, tilted";
    add_overlap(table, row, &tilted, &moved(&tilted));
    // Where the boxes miss, the Rust is done, and the port counts the faces that have no area.
    for cell in &all_cells() {
        let apart = cell.clone().moved([9.0, 0.0, 0.0]);
        add_overlap(table, "convex_intersection_volume, miss", cell, &apart);
    }
}

/// A face in the middle of a cell, which is moved so that some of its planes cut something off.
fn add_face(table: &mut Table, cell: &Cell, size: usize) {
    let points = in_space(&faces::regular(size));
    let corners: Vec<u32> = (0..size as u32).collect();
    let face = Cell::of_one_face(points.as_flattened(), &corners);
    let planes = rust::planes(moved(cell).for_the_rust());
    let [mut first, mut second] = work_lists(3, retold::clip_face(&points, &planes, 0.0).most);
    let by_rust = rust::Planes::new(&planes);
    let mut shown = [0; 2];
    table.add_sized(
        "clip_face",
        size * planes.len(),
        || {
            let (face, planes) = black_box((&face, planes.as_flattened()));
            ours::clip_face(face, 0, planes, 0.0, &mut first, &mut second, &mut shown)
        },
        || black_box(&by_rust).clip_face(black_box(&points), 0.0),
    );
}

/// A cell and itself moved.
fn add_overlap(table: &mut Table, entry: &'static str, cell: &Cell, other: &Cell) {
    let [mut first, mut second] = work_lists(3, retold::overlap(cell, other).most);
    let own_forms =
        |cells: [&Cell; 2]| cells.map(|cell| rust::polyhedron(cell.for_the_rust(), Shape::Convex));
    let by_rust = own_forms([cell, other]);
    let (mut out, mut counts) = ([0.0], [0; 2]);
    table.add_cell(
        entry,
        cell.corners.len(),
        || {
            let (cell, other) = black_box((cell, other));
            let (first, second) = (&mut first, &mut second);
            ours::convex_intersection_volume(cell, other, first, second, &mut out, &mut counts)
        },
        || {
            let [cell, other] = black_box(&by_rust);
            cell.convex_intersection_volume(other)
        },
        || {
            let [cell, other] = own_forms(black_box([cell, other]));
            cell.convex_intersection_volume(&other)
        },
    );
}

/// By a part of its size.
fn moved(cell: &Cell) -> Cell {
    cell.clone().moved([0.3, 0.4, 0.2])
}

/// A regular outline, and the same moved to the side.
fn pair(size: usize) -> [Vec<[f64; 2]>; 2] {
    [0.0, 0.25].map(|way| {
        let points = faces::regular(size).into_iter();
        points.map(|[x, y]| [x + way, y]).collect()
    })
}

/// Two work lists with room for so many points.
fn work_lists(dimension: usize, points: usize) -> [Vec<f64>; 2] {
    [(); 2].map(|()| vec![0.0; dimension * points])
}
