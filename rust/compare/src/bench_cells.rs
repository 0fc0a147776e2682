//! Rows of `compare bench`: the entries on a cell, and the fixed shapes.

use std::hint::black_box;

use oracle::Shape;
use oracle::plain::{self as rust, Polyhedron};

use crate::bench::Table;
use crate::bench_lists::in_space;
use crate::cells::{self, Cell};
use crate::compare_cells::is_closed;
use crate::cut::COUNTS;
use crate::cut_judge::Judge;
use crate::limits::FACE_END;
use crate::most_tests::of_most_tests;
use crate::{cut_lists, faces, ours};

/// Corners of the faces that are cut.
const FACE_SIZES: [usize; 3] = [4, 64, 256];

/// A point inside all cells and shapes, whose ray meets no vertex.
const INSIDE: [f64; 3] = [0.25, 0.31, 0.37];

/// A cube, a cell of 60 faces, and one of as many faces as may be.
pub fn all_cells() -> [Cell; 3] {
    [
        cells::unit_cube(),
        cells::sphere(6, 10),
        cells::sphere(16, 16),
    ]
}

/// The rows of one entry, one a cell: what the port is asked, and what the Rust is.
fn add<A, B>(
    table: &mut Table,
    entry: &'static str,
    mut ours: impl FnMut(&Cell) -> A,
    rust: impl Fn(&Polyhedron) -> B,
) {
    for cell in &all_cells() {
        let by_rust = own_form(cell);
        table.add_cell(
            entry,
            cell.corners.len(),
            || ours(black_box(cell)),
            || rust(black_box(&by_rust)),
            || rust(&own_form(black_box(cell))),
        );
    }
}

/// A cell in the Rust's own form.
fn own_form(cell: &Cell) -> Polyhedron {
    rust::polyhedron(cell.for_the_rust(), Shape::Unknown)
}

pub fn add_rows(table: &mut Table) {
    let (mut out, mut counts) = ([0.0; 6], [0; 4]);
    add(
        table,
        "volume",
        |cell| ours::volume(cell, &mut out),
        Polyhedron::volume,
    );
    add(
        table,
        "centroid",
        |cell| ours::centroid(cell, &mut out),
        Polyhedron::centroid,
    );
    add(
        table,
        "geometric_centroid",
        |cell| ours::geometric_centroid(cell, &mut out),
        Polyhedron::geometric_centroid,
    );
    add(
        table,
        "bounds",
        |cell| ours::bounds(cell, &mut out),
        Polyhedron::bounds,
    );
    add(
        table,
        "scale",
        |cell| ours::scale(cell, &mut out),
        Polyhedron::scale,
    );
    add(
        table,
        "contains",
        |cell| ours::contains(cell, INSIDE, &mut counts),
        |cell| cell.contains(&INSIDE),
    );
    // The Rust has no test for closedness, so of a survey it does the volume and the containment.
    add(
        table,
        "survey",
        |cell| ours::survey(cell, &INSIDE, &mut counts, &mut out),
        |cell| (cell.volume(), cell.contains(&INSIDE)),
    );
    add(
        table,
        "is_convex",
        |cell| ours::is_convex(cell, 2, &mut counts),
        rust::convexity_of,
    );
    add_closed(table);
    add_described(table);
    add_list_of_faces(table);
    add_turning(table);
    add_backward(table);
    add_planes(table);
    add_no_area(table);
    add_cuts(table);
    add_checks(table);
    add_shapes(table);
}

/// The Rust has no such test: its column is the plain count in a table of sides.
fn add_closed(table: &mut Table) {
    let mut out = [0];
    for cell in &all_cells() {
        table.add_sized(
            "closed",
            cell.corners.len(),
            || ours::closed(black_box(cell), &mut out),
            || is_closed(black_box(cell)),
        );
    }
}

/// The Rust's column is the making of its own form of the cell, which carries the same.
fn add_described(table: &mut Table) {
    let mut out = [0; 4];
    for cell in &all_cells() {
        table.add_sized(
            "describe",
            cell.corners.len(),
            || ours::describe(black_box(cell), 2, &mut out),
            || own_form(black_box(cell)),
        );
    }
}

fn add_list_of_faces(table: &mut Table) {
    let mut out = [0];
    for cell in &all_cells() {
        let list = cell.faces().join(&FACE_END);
        let by_rust = rust::connectivity(&list);
        table.add_sized(
            "point_in_phed",
            cell.corners.len(),
            || ours::point_in_phed(black_box(&cell.coords), &list, INSIDE, &mut out),
            || rust::point_in_connected(INSIDE, black_box(cell.points()), &by_rust),
        );
    }
}

/// The faces look outward as they are, so none is turned.
fn add_turning(table: &mut Table) {
    for cell in &all_cells() {
        let mut corners = cell.corners.clone();
        let mut by_rust = own_form(cell);
        table.add_cell(
            "into_ccw",
            cell.corners.len(),
            || ours::into_ccw(black_box(&cell.coords), &mut corners, &cell.ends),
            || black_box(&mut by_rust).into_ccw(),
            || own_form(black_box(cell)).into_ccw(),
        );
    }
}

/// A cell of which three faces run backward, none of them the first.
fn with_backward_faces(cell: Cell) -> Cell {
    cell.with_faces(|faces| {
        let last = faces.len() - 1;
        for face in [1, last / 2 + 1, last] {
            faces[face].reverse();
        }
    })
}

/// The Rust has no such pass: beside it stands our `closed`. Of the same cell it says no, at the first
/// side that is run wrong; of the cell once turned it says yes, after all sides. On both sides each call
/// has a fresh copy of the corners, which is timed with it.
fn add_backward(table: &mut Table) {
    for (beside, is_turned) in [("closed (no)", false), ("closed (yes)", true)] {
        for forward in all_cells() {
            let backward = with_backward_faces(forward.clone());
            let asked = if is_turned { &forward } else { &backward };
            let (mut lent, mut read) = (backward.clone(), asked.clone());
            let (mut count, mut yes) = ([0], [0]);
            let mut turn = || {
                lent.corners.copy_from_slice(black_box(&backward.corners));
                ours::turn_faces(&lent.coords, &mut lent.corners, &lent.ends, &mut count)
            };
            assert_eq!(turn(), 0, "the cell can be closed");
            let closed = || {
                read.corners.copy_from_slice(black_box(&asked.corners));
                ours::closed(&read, &mut yes)
            };
            table.add_beside("turn_faces", forward.corners.len(), turn, beside, closed);
            assert_eq!((count, lent), ([3], forward), "three faces are turned");
        }
    }
}

/// The port checks the whole cell for the plane of one face; the Rust looks at the face alone.
fn add_planes(table: &mut Table) {
    let (mut out, mut area) = ([0.0; 4], [0]);
    for cell in &all_cells() {
        let face = cells::as_usize(&cell.faces()[0]);
        table.add_sized(
            "plane_of_face",
            cell.corners.len(),
            || ours::plane_of_face(black_box(cell), 0, &mut out, &mut area),
            || rust::plane_of_face(black_box(cell.points()), &face),
        );
    }
}

/// The Rust does not tell which faces have no area: its column is its own sums of every face, held to 0.
fn add_no_area(table: &mut Table) {
    for cell in &all_cells() {
        let faces: Vec<Vec<usize>> = cell
            .faces()
            .iter()
            .map(|face| cells::as_usize(face))
            .collect();
        let mut out = vec![0; faces.len()];
        let mut by_rust = out.clone();
        table.add_sized(
            "no_area_faces",
            cell.corners.len(),
            || ours::no_area_faces(black_box(cell), &mut out),
            || {
                for (face, flag) in faces.iter().zip(&mut by_rust) {
                    let (sums, _) = rust::face_plane(black_box(cell.points()), face);
                    *flag = usize::from(sums == [0.0; 3]);
                }
            },
        );
    }
}

/// The cut of a face with these corners, as the only one of a cell.
fn add_cut(table: &mut Table, row: &'static str, points: Vec<[f64; 3]>) {
    let size = points.len();
    let places: Vec<usize> = (0..size).collect();
    let corners: Vec<u32> = (0..size as u32).collect();
    let cell = Cell::of_one_face(points.as_flattened(), &corners);
    let mut out = vec![[0; 3]; size - 2];
    let mut count = [0; COUNTS];
    table.add_sized(
        row,
        size,
        || ours::triangles(black_box(&cell), 0, &mut out, &mut count),
        || rust::ear_clip_triangles(black_box(&points), &places),
    );
}

/// A face as the only one of a cell: a regular polygon, whose cut makes one test a ring, and a face
/// whose cut makes as many tests as there may be. The Rust does not cut by place, so beside that
/// stands our own cut by vertex.
fn add_cuts(table: &mut Table) {
    for size in FACE_SIZES {
        add_cut(table, "triangles", in_space(&faces::regular(size)));
    }
    for size in FACE_SIZES {
        add_cut(table, "triangles, most tests", of_most_tests(size));
    }
    for size in FACE_SIZES {
        let points = in_space(&faces::regular(size));
        let corners: Vec<u32> = (0..size as u32).collect();
        let cell = Cell::of_one_face(points.as_flattened(), &corners);
        let [mut by_place, mut by_vertex] = [(); 2].map(|()| vec![[0; 3]; size - 2]);
        let [mut count, mut other_count] = [[0; COUNTS]; 2];
        table.add_beside(
            "triangle_places",
            size,
            || ours::triangle_places(black_box(&cell), 0, &mut by_place, &mut count),
            "triangles",
            || ours::triangles(black_box(&cell), 0, &mut by_vertex, &mut other_count),
        );
        assert_eq!(
            (by_place, count),
            (by_vertex, other_count),
            "both cut alike"
        );
    }
}

/// The Rust has no such check: its column is the second teller's, a plain count in a table. The
/// cuts are a fan, where one place is in every triangle, and a strip, where each is in a few.
fn add_checks(table: &mut Table) {
    type Cut = fn(u32) -> Vec<[u32; 3]>;
    let cuts: [(&str, Cut); 2] = [
        ("check_cut (fan)", cut_lists::fan),
        ("check_cut (strip)", cut_lists::strip),
    ];
    for (entry, cut) in cuts {
        for size in FACE_SIZES {
            let corners = size as u32;
            let triangles = cut(corners);
            let places = triangles.as_flattened();
            let mut judge = Judge::default();
            let mut yes = [0];
            table.add_sized(
                entry,
                size,
                || ours::check_cut(corners, black_box(places), &mut yes),
                || judge.is_cut(corners, black_box(places)),
            );
            let answer = ours::check_cut(corners, places, &mut yes);
            assert_eq!((answer, yes), (0, [1]), "ours accepts the cut");
            assert_eq!(judge.is_cut(corners, places), Ok(true));
        }
    }
}

/// The volume and the containment of one fixed shape.
macro_rules! add_shape {
    ($table:ident, $points:expr, $volume:ident, $contains:ident) => {
        let points = &$points;
        let numbers = points.as_flattened();
        let (mut volume, mut yes) = ([0.0], [0]);
        $table.add(
            stringify!($volume),
            || ours::$volume(black_box(numbers), &mut volume),
            || rust::$volume(black_box(points)),
        );
        $table.add(
            stringify!($contains),
            || ours::$contains(black_box(numbers), INSIDE, &mut yes),
            || rust::$contains(INSIDE, black_box(points)),
        );
    };
}

fn add_shapes(table: &mut Table) {
    let base = [[0.0, 0.0, 0.0], [2.0, 0.0, 0.0], [0.0, 2.0, 0.0]];
    let top = base.map(|[x, y, z]| [x, y, z + 1.0]);
    let tip = [0.0, 0.0, 2.0];
    let cube = cells::unit_cube();
    let corners = cube.points().first_chunk().expect("eight corners");
    add_shape!(
        table,
        [base[0], base[1], base[2], tip],
        tet_volume,
        tet_contains
    );
    add_shape!(
        table,
        [base[0], base[1], base[2], top[0], top[1], top[2]],
        wedge_volume,
        wedge_contains
    );
    add_shape!(table, *corners, hex_volume, hex_contains);
}
