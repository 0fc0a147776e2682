//! `compare short`: every short input out of small sets, for every entry but those on f64 alone, by the
//! port and by the Rust.

use crate::calls::Calls;
use crate::cells::{Cell, unit_cube};
use crate::check_cut;
use crate::clip::{by_edges, by_planes};
use crate::clips::Case;
use crate::compare_cells::{Question, compare_question};
use crate::comparison::{Compared, ask};
use crate::cut::{compare_every_length, compare_face};
use crate::cut_judge::Judge;
use crate::cut_lists::Sent;
use crate::leaves::{LEAVES, SPECIAL};
use crate::limits::{FACE_END, LARGEST};
use crate::lists::{Points, compare_in_space, compare_in_the_plane};
use crate::local;
use crate::marked::{self, Marked};
use crate::outlines;
use crate::overlap::{by_the_ruled, of_two};
use crate::random::Random;
use crate::shapes::{FORMS, Solid, of_form};
use crate::turn_faces::ask_about;
use crate::turn_judge::holds_a_vertex_twice;
use crate::turning::{compare_cell, plane_in_every_length};
use crate::work::{beside_the_limit, every_short};

/// Numbers inside the domain, at its limit, and outside.
const NUMBERS: [f64; 7] = [
    0.0,
    1.0,
    -1.0,
    LARGEST,
    LARGEST.next_up(),
    f64::NAN,
    f64::INFINITY,
];

/// A tetrahedron with a corner at the origin.
const CORNER: [[f64; 3]; 4] = [
    [0.0, 0.0, 0.0],
    [1.0, 0.0, 0.0],
    [0.0, 1.0, 0.0],
    [0.0, 0.0, 1.0],
];

/// Its faces, seen from outside.
const TETRAHEDRON: [[u32; 3]; 4] = [[0, 1, 3], [1, 2, 3], [2, 0, 3], [0, 2, 1]];

/// Points inside the tetrahedron, outside and on a face of it.
const QUERIES: [[f64; 3]; 3] = [[0.125, 0.25, 0.25], [0.5, 0.5, 0.5], [0.0, 0.25, 0.5]];

/// All parts, so many times, each time with lent lists of other lengths.
pub fn compare(calls: &mut Calls, times: u64, seed: u64) -> Compared {
    let random = &mut Random::new(seed);
    let parts = [
        leaves,
        lists_of_points,
        lists_to_move,
        corners_and_ends,
        single_faces,
        faces_to_cut,
        lists_for_triangles,
        faces_of_a_tetrahedron,
        faces_to_turn,
        corners_to_turn,
        coordinates,
        queries,
        lists_with_marks,
        triangles_to_check,
        solids,
        faces_by_planes,
        planes_of_any_length,
        outlines_by_edges,
        pairs_of_cells,
        lists_for_planes,
    ];
    for _ in 0..times {
        for part in parts {
            part(calls, random)?;
        }
    }
    Ok(())
}

/// Every list of so many items out of a set.
fn lists_of<T: Copy>(length: usize, items: &[T]) -> impl Iterator<Item = Vec<T>> {
    let count = items.len().pow(length as u32);
    (0..count).map(move |number| {
        let place = |digit: usize| number / items.len().pow(digit as u32) % items.len();
        (0..length).map(|digit| items[place(digit)]).collect()
    })
}

/// Every list of up to so many items out of a set, the short ones first.
fn lists_up_to<T: Copy>(longest: usize, items: &[T]) -> impl Iterator<Item = Vec<T>> {
    (0..=longest).flat_map(move |length| lists_of(length, items))
}

/// Leaves that take few numbers are asked about more different ones.
fn leaves(calls: &mut Calls, random: &mut Random) -> Compared {
    for leaf in &LEAVES {
        let set = match leaf.takes {
            0..=3 => &SPECIAL[..],
            4..=6 => &SPECIAL[..7],
            7..=8 => &SPECIAL[..5],
            _ => &SPECIAL[..4],
        };
        for numbers in lists_of(leaf.takes, set) {
            leaf.ask(calls, &numbers, random)?;
        }
    }
    Ok(())
}

fn lists_of_points(calls: &mut Calls, random: &mut Random) -> Compared {
    for numbers in lists_up_to(7, &NUMBERS) {
        ask(calls, &Points(numbers.clone()), random, compare_in_space)?;
        ask(calls, &Points(numbers), random, compare_in_the_plane)?;
    }
    Ok(())
}

/// Numbers that can be moved to every origin, both zeros among them; one that can be moved to 1 and not
/// to -1; one that can be moved to 0 alone; and one that is refused before.
const TO_MOVE: [f64; 8] = [
    0.0,
    -0.0,
    1.5,
    -1.0,
    LARGEST,
    f64::EPSILON / 2.0,
    5e-324,
    f64::NAN,
];

/// Up to two vertices, whole or not.
fn lists_to_move(calls: &mut Calls, random: &mut Random) -> Compared {
    for numbers in lists_up_to(6, &TO_MOVE) {
        local::ask_about(calls, "vertices to move", numbers, random)?;
    }
    Ok(())
}

/// All entries that take a whole cell.
fn ask_cell(calls: &mut Calls, cell: Cell, queries: &[[f64; 3]], random: &mut Random) -> Compared {
    ask(calls, &cell, random, compare_cell)?;
    ask_about(calls, TO_TURN, cell.clone(), random)?;
    let queries = queries.to_vec();
    ask(calls, &Question { cell, queries }, random, compare_question)
}

/// Up to four corners and up to two ends, sound or not, over four vertices and over three.
fn corners_and_ends(calls: &mut Calls, random: &mut Random) -> Compared {
    for vertices in [4, 3] {
        let coords = CORNER[..vertices].as_flattened();
        for corners in lists_up_to(4, &[0, 1, 2, 3, 4]) {
            for ends in lists_up_to(2, &[0, 1, 2, 3, 4, 5]) {
                let cell = Cell {
                    coords: coords.to_vec(),
                    corners: corners.clone(),
                    ends,
                };
                ask_cell(calls, cell, &QUERIES[..1], random)?;
            }
        }
    }
    Ok(())
}

/// Faces of up to six corners over the corners of a square and its middle.
fn single_faces(calls: &mut Calls, random: &mut Random) -> Compared {
    let points = [&SQUARE[..], &[[1.0, 1.0, 0.0]]].concat();
    for corners in lists_up_to(6, &[0, 1, 2, 3, 4]) {
        let cell = Cell::of_one_face(points.as_flattened(), &corners);
        ask_cell(calls, cell, &[], random)?;
    }
    Ok(())
}

/// The seven corners of SCOPE 16, of which a ring of four is left.
const SEVEN: [[f64; 3]; 7] = [
    [0.0, 0.0, 0.0],
    [10.0, 0.0, 0.0],
    [0.0, 10.0, 0.0],
    [0.0, 0.0, 0.0],
    [0.0, -1.0, 0.0],
    [-1.0, -1.0, 0.0],
    [-1.0, 0.0, 0.0],
];

/// Seven corners that are cut in full, though their first ring has no ear.
const WITHOUT_EAR: [[f64; 3]; 7] = [
    [1.0, 1.0, 0.0],
    [3.0, 0.0, 0.0],
    [2.0, 1.0, 0.0],
    [0.0, 0.0, 0.0],
    [1.0, 3.0, 0.0],
    [3.0, 1.0, 0.0],
    [3.0, 3.0, 0.0],
];

/// Those corners in every order: some faces need a second pass over a ring, and some stop short.
fn faces_to_cut(calls: &mut Calls, random: &mut Random) -> Compared {
    let orders = lists_of(7, &[0, 1, 2, 3, 4, 5, 6]);
    for corners in orders.filter(|corners| !holds_a_vertex_twice(corners)) {
        for points in [SEVEN, WITHOUT_EAR] {
            let cell = Cell::of_one_face(points.as_flattened(), &corners);
            ask(calls, &cell, random, |calls, cell, random| {
                compare_face(calls, cell, 0, random);
            })?;
        }
    }
    Ok(())
}

/// Lists of every length for the triangles and the counts of a face, and of one that is not there:
/// faces of up to four corners, with a vertex that is not there as well, and the seven corners.
fn lists_for_triangles(calls: &mut Calls, random: &mut Random) -> Compared {
    let small = lists_up_to(4, &[0, 1, 2, 3, 4]);
    let small = small.map(|corners| Cell::of_one_face(CORNER.as_flattened(), &corners));
    let seven = Cell::of_one_face(SEVEN.as_flattened(), &[0, 1, 2, 3, 4, 5, 6]);
    for cell in small.chain([seven]) {
        ask(calls, &cell, random, |calls, cell, _| {
            for face in [0, 1, u32::MAX] {
                compare_every_length(calls, cell, face);
            }
        })?;
    }
    Ok(())
}

/// Up to five faces of a tetrahedron, each from either side.
fn faces_of_a_tetrahedron(calls: &mut Calls, random: &mut Random) -> Compared {
    let inward = TETRAHEDRON.map(|[a, b, c]| [c, b, a]);
    for faces in lists_up_to(5, &[TETRAHEDRON, inward].concat()) {
        let faces: Vec<Vec<u32>> = faces.iter().map(|face| face.to_vec()).collect();
        ask_cell(calls, Cell::new(&CORNER, &faces), &QUERIES, random)?;
    }
    Ok(())
}

/// The title for answers about backward faces.
const TO_TURN: &str = "backward faces";

/// Up to four faces over four vertices, no vertex twice in a face, each face from its lowest corner on;
/// up to three, each from any corner on; up to six that have four corners.
fn faces_to_turn(calls: &mut Calls, random: &mut Random) -> Compared {
    let any = lists_up_to(4, &[0, 1, 2, 3]).filter(|face| !holds_a_vertex_twice(face));
    let any: Vec<Vec<u32>> = any.collect();
    let any: Vec<&Vec<u32>> = any.iter().collect();
    let chosen = |chosen: fn(&[u32]) -> bool| -> Vec<&Vec<u32>> {
        let all = any.iter().copied();
        all.filter(|face| chosen(face)).collect()
    };
    let from_lowest = chosen(|face| face.iter().min() == face.first());
    let of_four = chosen(|face| face.len() == 4 && face[0] == 0);
    let cells = lists_up_to(4, &from_lowest)
        .chain(lists_up_to(3, &any))
        .chain(lists_up_to(6, &of_four));
    for faces in cells {
        let faces: Vec<Vec<u32>> = faces.into_iter().cloned().collect();
        ask_about(calls, TO_TURN, Cell::new(&CORNER, &faces), random)?;
    }
    Ok(())
}

/// Up to six corners over four vertices and up to seven over three, cut at any places into up to four
/// faces.
fn corners_to_turn(calls: &mut Calls, random: &mut Random) -> Compared {
    for (vertices, longest) in [(4, 6), (3, 7)] {
        let coords = CORNER[..vertices as usize].as_flattened();
        let numbers: Vec<u32> = (0..vertices).collect();
        for length in 0..=longest {
            let places: Vec<u32> = (0..=length).collect();
            let cuts = lists_up_to(3, &places).filter(|cuts| cuts.is_sorted());
            let ends: Vec<Vec<u32>> = cuts.map(|cuts| [&cuts[..], &[length]].concat()).collect();
            for corners in lists_of(length as usize, &numbers) {
                for ends in &ends {
                    let cell = Cell {
                        coords: coords.to_vec(),
                        corners: corners.clone(),
                        ends: ends.clone(),
                    };
                    ask_about(calls, TO_TURN, cell, random)?;
                }
            }
        }
    }
    Ok(())
}

/// Up to seven coordinates under one face, whose second corner names the second vertex. Seven are always
/// too many or too few, so a smaller set will do for them.
fn coordinates(calls: &mut Calls, random: &mut Random) -> Compared {
    let up_to_six = lists_up_to(6, &NUMBERS);
    for coords in up_to_six.chain(lists_of(7, &NUMBERS[..3])) {
        let cell = Cell::of_one_face(&coords, &[0, 1, 0]);
        ask_cell(calls, cell, &[], random)?;
    }
    Ok(())
}

/// Query points on a grid, and with numbers of every kind, about cells that are sound or refused.
fn queries(calls: &mut Calls, random: &mut Random) -> Compared {
    let grid = lists_of(3, &[-0.5, 0.0, 0.25, 0.5, 1.0]);
    for query in grid.chain(lists_of(3, &NUMBERS)) {
        let query = [query[0], query[1], query[2]];
        for cell in small_cells() {
            let queries = vec![query];
            ask(calls, &Question { cell, queries }, random, compare_question)?;
        }
    }
    Ok(())
}

fn lists_with_marks(calls: &mut Calls, random: &mut Random) -> Compared {
    for list in lists_up_to(6, &[0, 1, 2, 3, 4, FACE_END]) {
        let marked = Marked {
            coords: CORNER.as_flattened().to_vec(),
            list,
            queries: QUERIES.to_vec(),
        };
        ask(calls, &marked, random, marked::compare)?;
    }
    Ok(())
}

/// Up to seven places, in threes or not, there or not, for faces of few corners, of as many as may
/// be, and of numbers of corners that are refused.
fn triangles_to_check(calls: &mut Calls, random: &mut Random) -> Compared {
    let judge = &mut Judge::default();
    for places in lists_up_to(7, &[0, 1, 2, 3, u32::MAX]) {
        for corners in [0, 1, 2, 3, 4, 5, 256, 257, u32::MAX] {
            let places = places.clone();
            let sent = Sent { corners, places };
            check_cut::ask_about(calls, judge, &["triangles to check"], sent, random)?;
        }
    }
    Ok(())
}

/// The fixed shapes with each point as it should be or moved, and lists of every length about theirs.
fn solids(calls: &mut Calls, random: &mut Random) -> Compared {
    for form in &FORMS {
        let points = (form.solid)(&mut Random::new(1));
        let choices = match form.corners {
            4 => &MOVED[..],
            6 => &MOVED[..4],
            _ => &MOVED[..3],
        };
        let moved = lists_of(form.corners, choices).map(|chosen| {
            let pairs = points.iter().zip(chosen);
            let numbers = pairs.flat_map(|(&point, other)| other.unwrap_or(point));
            numbers.collect()
        });
        let of_any_length = (0..=25).map(|length| vec![0.5; length]);
        for numbers in moved.chain(of_any_length) {
            let queries = QUERIES.to_vec();
            ask(calls, &Solid { numbers, queries }, random, of_form(form))?;
        }
    }
    Ok(())
}

/// Where a point of a fixed shape is moved, if anywhere.
const MOVED: [Option<[f64; 3]>; 8] = [
    None,
    Some([1.0, 1.0, 1.0]),
    Some([0.0, 0.5, f64::NAN]),
    Some([f64::INFINITY; 3]),
    Some([0.0, 0.0, 0.0]),
    Some([-1.0, 0.5, 0.0]),
    Some([0.0, f64::NEG_INFINITY, -0.0]),
    Some([1e300, -1e300, 1e-320]),
];

/// Planes that leave a square from 0 to 2 whole, cut it, touch it or leave nothing, and odd ones.
const PLANES: [[f64; 4]; 9] = [
    [1.0, 0.0, 0.0, 1.0],
    [-1.0, -1.0, 0.0, -1.0],
    [0.0, 1.0, 0.0, 2.0],
    [0.0, -1.0, 0.0, -2.0],
    [1.0, 0.0, 0.0, -1.0],
    [0.0, 0.0, 1.0, 0.0],
    [f64::NAN, 0.0, 0.0, 1.0],
    [f64::INFINITY, f64::INFINITY, f64::INFINITY, 1.0],
    [0.0, 0.0, 0.0, -1.0],
];

const SQUARE: [[f64; 3]; 4] = [
    [0.0, 0.0, 0.0],
    [2.0, 0.0, 0.0],
    [2.0, 2.0, 0.0],
    [0.0, 2.0, 0.0],
];

fn clip_case(corners: &[u32], planes: &[[f64; 4]], eps: f64) -> Case {
    Case {
        cell: Cell::of_one_face(SQUARE.as_flattened(), corners),
        face: 0,
        planes: planes.as_flattened().to_vec(),
        eps,
    }
}

/// Faces of up to four corners of a square by up to two planes; those in order also with work lists of
/// every short length.
fn faces_by_planes(calls: &mut Calls, random: &mut Random) -> Compared {
    for planes in lists_up_to(2, &PLANES) {
        for eps in [0.0, 0.5, -0.5, f64::NAN] {
            for corners in lists_up_to(4, &[0, 1, 2, 3]) {
                let case = clip_case(&corners, &planes, eps);
                ask(calls, &case, random, by_planes(beside_the_limit))?;
            }
            for count in 0..=4 {
                let case = clip_case(&[0, 1, 2, 3][..count], &planes, eps);
                ask(calls, &case, random, by_planes(every_short))?;
            }
        }
    }
    Ok(())
}

/// Lists of planes that are in fours or not, for a face that is there or not.
fn planes_of_any_length(calls: &mut Calls, random: &mut Random) -> Compared {
    for length in 0..=12 {
        for face in [0, 1, u32::MAX] {
            for corners in [&[0, 1, 2][..], &[0, 1, 4]] {
                let mut case = clip_case(corners, &[], 0.0);
                case.planes = vec![0.5; length];
                case.face = face;
                ask(calls, &case, random, by_planes(every_short))?;
            }
        }
    }
    Ok(())
}

/// Outlines of up to four points by each other; those by a triangle and by a square also with work
/// lists of every short length; and up to three numbers of any kind.
fn outlines_by_edges(calls: &mut Calls, random: &mut Random) -> Compared {
    let points = [[0.0, 0.0], [2.0, 0.0], [1.0, 1.0], [0.0, 2.0]];
    let numbers = |outline: &[[f64; 2]]| outline.as_flattened().to_vec();
    for subject in lists_up_to(4, &points) {
        for clip in lists_up_to(4, &points) {
            let (subject, clip) = (numbers(&subject), numbers(&clip));
            let pair = outlines::Pair { subject, clip };
            ask(calls, &pair, random, by_edges(beside_the_limit))?;
        }
        for edges in 0..=4 {
            let (subject, clip) = (numbers(&subject), numbers(&points[..edges]));
            let pair = outlines::Pair { subject, clip };
            ask(calls, &pair, random, by_edges(every_short))?;
        }
    }
    for subject in lists_up_to(3, &NUMBERS) {
        for clip in lists_up_to(3, &NUMBERS) {
            let subject = subject.clone();
            let pair = outlines::Pair { subject, clip };
            ask(calls, &pair, random, by_edges(beside_the_limit))?;
        }
    }
    Ok(())
}

/// Cells of one face or two, solids that overlap, touch or miss, and one cell for each refusal.
fn small_cells() -> Vec<Cell> {
    let tetrahedron = Cell::new(&CORNER, &TETRAHEDRON.map(|face| face.to_vec()));
    let cube = unit_cube();
    let moved = [0.25, 0.5, 1.0, 2.0].map(|x| cube.clone().moved([x, 0.0, 0.0]));
    let turned = cube.clone().with_points(|[x, y, z]| [y, x, z]);
    let faces = [&[][..], &[0], &[0, 1], &[0, 1, 2], &[0, 2, 1, 3]];
    let of_one_face = faces.map(|face| Cell::of_one_face(CORNER.as_flattened(), face));
    let damage = |change: fn(&mut Cell)| {
        let mut copy = tetrahedron.clone();
        change(&mut copy);
        copy
    };
    let refused = [
        damage(|cell| cell.coords.truncate(11)),
        damage(|cell| cell.coords.clear()),
        damage(|cell| cell.coords[0] = f64::NAN),
        damage(|cell| cell.ends[3] = 11),
        damage(|cell| cell.ends[0] = 7),
        damage(|cell| cell.corners[0] = 4),
        damage(|cell| cell.ends.push(12)),
    ];
    let without_faces = Cell::new(&CORNER[..1], &[]);
    let solids = [tetrahedron, cube, turned, without_faces];
    [&solids[..], &moved, &of_one_face, &refused].concat()
}

/// Small cells with each other, also with work lists of every short length; then single faces of up to
/// three corners with each other.
fn pairs_of_cells(calls: &mut Calls, random: &mut Random) -> Compared {
    let beside = |calls: &mut Calls, cells: &[Cell; 2], random: &mut Random| {
        ask(calls, cells, random, of_two(beside_the_limit, by_the_ruled))
    };
    for cells in pairs_of(&small_cells()) {
        ask(calls, &cells, random, of_two(every_short, by_the_ruled))?;
        beside(calls, &cells, random)?;
    }
    let faces: Vec<Cell> = lists_up_to(3, &[0, 1, 2, 3])
        .map(|corners| Cell::of_one_face(CORNER.as_flattened(), &corners))
        .collect();
    for cells in pairs_of(&faces) {
        beside(calls, &cells, random)?;
    }
    Ok(())
}

/// Lists of every length for the plane of a face, and of one that is not there: faces of up to four
/// corners of a tetrahedron, with a vertex that is not there as well, and of a tetrahedron so small that
/// the inverse of a norm overflows.
fn lists_for_planes(calls: &mut Calls, random: &mut Random) -> Compared {
    let tiny = CORNER.map(|point| point.map(|value| value * 0.5_f64.powi(512)));
    for points in [CORNER, tiny] {
        for corners in lists_up_to(4, &[0, 1, 2, 3, 4]) {
            let cell = Cell::of_one_face(points.as_flattened(), &corners);
            ask(calls, &cell, random, |calls, cell, _| {
                for face in [0, 1, u32::MAX] {
                    plane_in_every_length(calls, cell, face);
                }
            })?;
        }
    }
    Ok(())
}

fn pairs_of(cells: &[Cell]) -> impl Iterator<Item = [Cell; 2]> {
    let with_each = |one: &Cell| {
        let one = one.clone();
        cells.iter().map(move |two| [one.clone(), two.clone()])
    };
    cells.iter().flat_map(with_each)
}

#[cfg(test)]
mod tests {
    use super::*;
    use crate::refusals;

    #[test]
    fn every_list_comes_once() {
        let lists: Vec<Vec<u32>> = lists_up_to(3, &[7, 8, 9]).collect();
        let different: std::collections::HashSet<&Vec<u32>> = lists.iter().collect();
        assert_eq!(
            (lists.len(), different.len()),
            (1 + 3 + 9 + 27, lists.len())
        );
        assert_eq!((&lists[0], &lists[1]), (&vec![], &vec![7]));
    }

    #[test]
    fn small_cells_meet_every_refusal() {
        let mut met = [false; 6];
        for cell in small_cells() {
            let refusal = refusals::of_cell(&cell, true);
            met[usize::from(refusal.unwrap_or(0))] = true;
        }
        assert_eq!(met, [true; 6]);
    }
}
