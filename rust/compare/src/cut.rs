//! `compare cut`: random faces, cut by the port and by the Rust, by vertex and by place, with the
//! tests of turn × direction that were made.

use oracle::counted::{Tests, ear_clip_tests};

use crate::calls::{Calls, unless_refused};
use crate::cells::{Cell, as_usize};
use crate::comparison::{Compared, ask};
use crate::faces;
use crate::limits::MOST_VERTICES;
use crate::random::Random;
use crate::{ours, refusals};

/// Cuts random faces, each as the only one of a cell.
pub fn compare(calls: &mut Calls, count: u64, seed: u64) -> Compared {
    let mut random = Random::new(seed);
    for _ in 0..count {
        let most_vertices = any_most_vertices(&mut random);
        let made = faces::any_with_a_vertex(&mut random, most_vertices);
        calls.count("outline", made.outline);
        calls.count("placement", made.placement);
        calls.count("scale", made.scale);
        calls.count("numbering", made.numbering);
        calls.count("corners", Size::of(&made.cell));
        ask(calls, &made.cell, &mut random, |calls, cell, random| {
            compare_face(calls, cell, 0, random);
        })?;
    }
    Ok(())
}

/// Mostly as many vertices as there may be; now and then so few that most corners share theirs.
fn any_most_vertices(random: &mut Random) -> usize {
    match random.below(8) {
        0 => random.between(1, 16),
        _ => MOST_VERTICES,
    }
}

/// How many corners a face has, in steps.
#[derive(Debug)]
enum Size {
    Under3,
    From3To16,
    From17To64,
    From65To256,
    From257To999,
    From1000,
}

impl Size {
    fn of(cell: &Cell) -> Size {
        match cell.corners.len() {
            0..=2 => Size::Under3,
            3..=16 => Size::From3To16,
            17..=64 => Size::From17To64,
            65..=256 => Size::From65To256,
            257..=999 => Size::From257To999,
            _ => Size::From1000,
        }
    }
}

/// How a cut ended, for the counts.
#[derive(Debug)]
enum Ended {
    Full,
    Short,
}

/// Which tests a cut made, for the counts.
#[derive(Debug)]
enum Tested {
    Nothing,
    InFirstPass,
    InBothPasses,
    AsOftenAsMayBe,
}

impl Tested {
    fn of(tests: Tests, corners: usize) -> Tested {
        match tests.all() {
            0 => Tested::Nothing,
            all if all == most_tests(corners) => Tested::AsOftenAsMayBe,
            _ if tests.in_second_pass > 0 => Tested::InBothPasses,
            _ => Tested::InFirstPass,
        }
    }
}

/// The most tests that request 10 allows for a face of so many corners.
pub fn most_tests(corners: usize) -> usize {
    match corners {
        0..3 => 0,
        n => n * n + n - 12,
    }
}

/// A face cut by the Rust: its triangles, and the tests that were made to find them.
#[derive(Debug)]
pub struct FaceCut {
    pub triangles: Vec<[u32; 3]>,
    pub tests: Tests,
}

/// Places that the list of counts needs.
pub const COUNTS: usize = 2;

impl FaceCut {
    /// What an entry must write: the triangles; and how many there are, with how many tests.
    pub fn written(self) -> (Vec<[u32; 3]>, Vec<usize>) {
        let counts = vec![self.triangles.len(), self.tests.all()];
        (self.triangles, counts)
    }
}

/// An entry that cuts a face of a cell, or a stand-in for one.
pub type Cut = fn(&Cell, u32, &mut [[u32; 3]], &mut [usize]) -> u8;

/// Asks for the triangles of a face and for the counts, by vertex and by place. The Rust's places,
/// looked up in the face, must give the Rust's vertices; then ours do too, since each is held to the
/// Rust's.
pub fn compare_face(calls: &mut Calls, cell: &Cell, face: u32, random: &mut Random) {
    let by_place = by_place(cell, face);
    let by_vertex = by_vertex(cell, face, &by_place);
    if let (Ok(vertices), Ok(places)) = (&by_vertex, &by_place) {
        compare_cuts_by_the_rust(calls, cell.face(face), vertices, places);
    }
    compare_cut(
        calls,
        "triangles",
        by_vertex,
        cell,
        face,
        random,
        ours::triangles,
    );
    compare_cut(
        calls,
        "triangle_places",
        by_place,
        cell,
        face,
        random,
        ours::triangle_places,
    );
}

/// Counts how the Rust cut a face, and looks at what must hold of that.
fn compare_cuts_by_the_rust(
    calls: &mut Calls,
    corners: &[u32],
    vertices: &FaceCut,
    places: &FaceCut,
) {
    let is_full = vertices.triangles.len() == corners.len().saturating_sub(2);
    calls.count("cuts", if is_full { Ended::Full } else { Ended::Short });
    calls.count("tests", Tested::of(places.tests, corners.len()));
    calls.expect(
        looked_up(corners, &places.triangles) == vertices.triangles,
        "triangle_places",
        "are not the triangles where they are looked up in the face",
    );
    calls.expect(
        places.tests.all() <= most_tests(corners.len()),
        "triangles",
        "take more tests than there may be",
    );
}

/// A face cut by place by the Rust in which tests are counted, or the refusal: the face whose
/// vertices are the points of the corners, in their order, and whose corners are 0, 1, 2 and so on.
pub fn by_place(cell: &Cell, face: u32) -> Result<FaceCut, u8> {
    unless_refused(refusals::of_face(cell, face), || {
        let outline = cell.outline(cell.face(face));
        let places: Vec<usize> = (0..outline.len()).collect();
        let (triangles, tests) = ear_clip_tests(&outline, &places);
        FaceCut {
            triangles: narrow(triangles),
            tests,
        }
    })
}

/// The same by vertex, by the Rust as it is. The points that it tests, and their order, are those of
/// the cut by place, so the tests are as many.
fn by_vertex(cell: &Cell, face: u32, by_place: &Result<FaceCut, u8>) -> Result<FaceCut, u8> {
    match by_place {
        Ok(cut) => Ok(FaceCut {
            triangles: triangles_by_the_rust(cell.points(), cell.face(face)),
            tests: cut.tests,
        }),
        Err(number) => Err(*number),
    }
}

/// The vertices at the places of triangles.
fn looked_up(corners: &[u32], places: &[[u32; 3]]) -> Vec<[u32; 3]> {
    let vertex = |place: u32| corners[place as usize];
    places.iter().map(|places| places.map(vertex)).collect()
}

/// Places that the list of triangles needs. A refused call needs none; it is lent some.
fn room_for_triangles(cell: &Cell, face: u32, expected: &Result<FaceCut, u8>) -> usize {
    match expected {
        Ok(_) => cell.face(face).len().saturating_sub(2),
        Err(_) => 3,
    }
}

/// Asks an entry that cuts a face for the triangles and for the counts.
fn compare_cut(
    calls: &mut Calls,
    entry: &'static str,
    expected: Result<FaceCut, u8>,
    cell: &Cell,
    face: u32,
    random: &mut Random,
    cut: Cut,
) {
    let rooms = [room_for_triangles(cell, face, &expected), COUNTS];
    let expected = expected.map(FaceCut::written);
    calls.asked_for_two(entry, rooms, expected, random, |out, count| {
        cut(cell, face, out, count)
    });
}

/// Asks both entries with lists of every length up to one place more than they need.
pub fn compare_every_length(calls: &mut Calls, cell: &Cell, face: u32) {
    let by_place = by_place(cell, face);
    let by_vertex = by_vertex(cell, face, &by_place);
    lend_every_length(calls, "triangles", by_vertex, cell, face, ours::triangles);
    lend_every_length(
        calls,
        "triangle_places",
        by_place,
        cell,
        face,
        ours::triangle_places,
    );
}

fn lend_every_length(
    calls: &mut Calls,
    entry: &'static str,
    expected: Result<FaceCut, u8>,
    cell: &Cell,
    face: u32,
    cut: Cut,
) {
    let room = room_for_triangles(cell, face, &expected);
    let refused = Err(expected.as_ref().err().copied().unwrap_or(6));
    let expected = expected.map(FaceCut::written);
    for places in 0..=room + 1 {
        for counts in 0..=COUNTS + 1 {
            let has_room = places >= room && counts >= COUNTS;
            let expected = if has_room { &expected } else { &refused };
            calls.lent_two(entry, [places, counts], expected, &mut |out, count| {
                cut(cell, face, out, count)
            });
        }
    }
}

pub fn triangles_by_the_rust(points: &[[f64; 3]], corners: &[u32]) -> Vec<[u32; 3]> {
    narrow(oracle::plain::ear_clip_triangles(
        points,
        &as_usize(corners),
    ))
}

fn narrow(triangles: Vec<[usize; 3]>) -> Vec<[u32; 3]> {
    let triangles = triangles.into_iter();
    triangles.map(|t| t.map(|corner| corner as u32)).collect()
}

#[cfg(test)]
mod tests {
    use super::*;
    use crate::comparison::tests::smallest_of;

    /// Wrong cuts by an entry: what it answered, and then a change of the lists where it cut the face.
    macro_rules! slips {
        ($($(#[$said:meta])* $name:ident of $entry:ident: $change:expr;)*) => {$(
            $(#[$said])*
            fn $name(cell: &Cell, face: u32, out: &mut [[u32; 3]], count: &mut [usize]) -> u8 {
                let answer = ours::$entry(cell, face, out, count);
                if answer == 0 {
                    let change: fn(&Cell, u32, &mut [[u32; 3]], &mut [usize]) = $change;
                    change(cell, face, out, count);
                }
                answer
            }
        )*};
    }

    slips! {
        /// The slip 'emitting a fan'.
        fan of triangles: |cell, face, out, count| {
            let corners = cell.face(face);
            for place in 2..corners.len() {
                out[place - 2] = [corners[0], corners[place - 1], corners[place]];
            }
            count[0] = corners.len().saturating_sub(2);
        };

        /// A cut that is right but leaves a mark after its last triangle.
        marks_the_next_place of triangles: |_, _, out, count| {
            if let Some(next) = out.get_mut(count[0]) {
                *next = [0; 3];
            }
        };

        /// The slip 'the second pass not counted'.
        counts_the_first_pass of triangles: |cell, face, _, count| {
            let cut = by_place(cell, face).expect("the face is cut");
            count[1] = cut.tests.in_first_pass;
        };

        /// The slip 'the corner that is taken is not counted', at each ring of more than three.
        counts_up_to_the_corner of triangles: |cell, face, _, count| {
            count[1] -= count[0] - rings_of_three(cell, face, count[0]);
        };

        /// The slip 'a test at the ring of three'.
        tests_the_last_ring of triangles: |cell, face, _, count| {
            count[1] += rings_of_three(cell, face, count[0]);
        };

        /// The same slip by place.
        tests_the_last_ring_by_place of triangle_places: |cell, face, _, count| {
            count[1] += rings_of_three(cell, face, count[0]);
        };

        /// The slip 'the tests before the triangles'.
        counts_the_other_way of triangles: |_, _, _, count| count.swap(0, 1);
    }

    /// How many of the triangles of a face are a ring of three: 1 where the face is fully cut.
    fn rings_of_three(cell: &Cell, face: u32, triangles: usize) -> usize {
        usize::from(triangles > 0 && triangles + 2 == cell.face(face).len())
    }

    /// The slip 'the tests behind their place', where there is a place to spare.
    fn counts_a_place_behind(
        cell: &Cell,
        face: u32,
        out: &mut [[u32; 3]],
        count: &mut [usize],
    ) -> u8 {
        let before = count.to_vec();
        let answer = ours::triangles(cell, face, out, count);
        if answer == 0 && count.len() > COUNTS {
            count[COUNTS] = count[1];
            count[1] = before[1];
        }
        answer
    }

    /// The slip 'a list of one place taken', as it was before tests were counted.
    fn takes_one_place(cell: &Cell, face: u32, out: &mut [[u32; 3]], count: &mut [usize]) -> u8 {
        let [only] = count else {
            return ours::triangles(cell, face, out, count);
        };
        let mut counts = [0; COUNTS];
        let answer = ours::triangles(cell, face, out, &mut counts);
        if answer == 0 {
            *only = counts[0];
        }
        answer
    }

    fn any(random: &mut Random) -> Cell {
        faces::any_with_a_vertex(random, 64).cell
    }

    /// The smallest face found on which a wrong cut by vertex is told.
    fn smallest(cut: Cut) -> Cell {
        smallest_of(any, |calls, cell, random| {
            let expected = by_vertex(cell, 0, &by_place(cell, 0));
            compare_cut(calls, "triangles", expected, cell, 0, random, cut);
        })
    }

    /// The smallest face found on which a wrong cut by place is told.
    fn smallest_by_place(cut: Cut) -> Cell {
        smallest_of(any, |calls, cell, random| {
            let expected = by_place(cell, 0);
            compare_cut(calls, "triangle_places", expected, cell, 0, random, cut);
        })
    }

    #[test]
    fn ours_cuts_the_square_as_the_rust_does() {
        let coords = [0.0, 0.0, 0.0, 1.0, 0.0, 0.0, 1.0, 1.0, 0.0, 0.0, 1.0, 0.0];
        let square = Cell::of_one_face(&coords, &[0, 3, 2, 1]);
        let by_the_rust = triangles_by_the_rust(square.points(), &square.corners);
        assert_eq!(by_the_rust, [[1, 0, 3], [3, 2, 1]]);
        let cut = by_place(&square, 0).map(FaceCut::written);
        assert_eq!(cut, Ok((vec![[3, 0, 1], [1, 2, 3]], vec![2, 1])));
        let mut calls = Calls::default();
        compare_face(&mut calls, &square, 0, &mut Random::new(1));
        compare_every_length(&mut calls, &square, 0);
        assert!(calls.first_fault().is_none());
    }

    #[test]
    fn a_fan_is_found_and_shrinks_to_four_corners() {
        assert_eq!(smallest(fan).corners.len(), 4);
    }

    #[test]
    fn a_written_place_is_found_and_shrinks_to_no_corner() {
        assert!(smallest(marks_the_next_place).corners.is_empty());
    }

    #[test]
    fn a_second_pass_that_is_not_counted_is_found_and_shrinks_to_few_corners() {
        let small = smallest(counts_the_first_pass);
        let tests = by_place(&small, 0).unwrap().tests;
        assert!(tests.in_second_pass > 0);
        assert!(small.corners.len() <= 8);
    }

    #[test]
    fn a_corner_that_is_taken_and_not_counted_is_found_and_shrinks_to_four_corners() {
        assert_eq!(smallest(counts_up_to_the_corner).corners.len(), 4);
    }

    #[test]
    fn a_test_at_the_ring_of_three_is_found_and_shrinks_to_it() {
        assert_eq!(smallest(tests_the_last_ring).corners.len(), 3);
        let by_place = smallest_by_place(tests_the_last_ring_by_place);
        assert_eq!(by_place.corners.len(), 3);
    }

    #[test]
    fn counts_in_each_others_place_are_found_and_shrink_to_three_corners() {
        assert_eq!(smallest(counts_the_other_way).corners.len(), 3);
    }

    #[test]
    fn tests_told_behind_their_place_are_found_and_shrink_to_no_corner() {
        assert!(smallest(counts_a_place_behind).corners.is_empty());
    }

    #[test]
    fn a_list_of_one_place_that_is_taken_is_found_and_shrinks_to_no_corner() {
        assert!(smallest(takes_one_place).corners.is_empty());
    }

    fn three_corners() -> Cell {
        Cell::of_one_face(&[0.0; 3], &[0; 3])
    }

    /// Whether something is told of a cut of a face of three corners, where every length is tried.
    fn is_told_of_three_corners(cut: Cut) -> bool {
        let cell = three_corners();
        let expected = by_vertex(&cell, 0, &by_place(&cell, 0));
        let mut calls = Calls::default();
        lend_every_length(&mut calls, "triangles", expected, &cell, 0, cut);
        calls.first_fault().is_some()
    }

    /// The same by place.
    fn is_told_of_three_places(cut: Cut) -> bool {
        let cell = three_corners();
        let expected = by_place(&cell, 0);
        let mut calls = Calls::default();
        lend_every_length(&mut calls, "triangle_places", expected, &cell, 0, cut);
        calls.first_fault().is_some()
    }

    #[test]
    fn every_length_tells_of_wrong_counts() {
        assert!(!is_told_of_three_corners(ours::triangles));
        assert!(is_told_of_three_corners(tests_the_last_ring));
        assert!(is_told_of_three_corners(counts_the_other_way));
        assert!(is_told_of_three_corners(counts_a_place_behind));
        assert!(is_told_of_three_corners(takes_one_place));
        assert!(!is_told_of_three_places(ours::triangle_places));
        assert!(is_told_of_three_places(tests_the_last_ring_by_place));
    }

    /// What is told of a cut of four corners into no triangle, with so many tests in the second pass
    /// behind the four of the first.
    fn told_of_tests(in_second_pass: usize) -> Option<String> {
        let tests = Tests {
            in_first_pass: 4,
            in_second_pass,
        };
        let triangles = Vec::new();
        let cut = FaceCut { triangles, tests };
        let mut calls = Calls::default();
        compare_cuts_by_the_rust(&mut calls, &[0, 1, 2, 3], &cut, &cut);
        calls.first_fault().map(|fault| fault.what.clone())
    }

    #[test]
    fn more_tests_than_there_may_be_are_told() {
        assert_eq!(told_of_tests(4), None);
        let told = told_of_tests(5);
        assert_eq!(told.as_deref(), Some("take more tests than there may be"));
    }

    /// The slip 'vertex numbers in the place of places'.
    #[test]
    fn vertices_taken_for_places_are_found_and_shrink_to_one_vertex() {
        let small = smallest_by_place(ours::triangles);
        assert_eq!((small.corners, small.coords.len()), (vec![0; 3], 3));
    }
}
