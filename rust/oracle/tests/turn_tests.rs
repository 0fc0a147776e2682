//! Request 10, of what the Rust cuts: how many times the test of turn × direction is made at a
//! corner. The counted build is held to the triangles of the unmodified Rust, and to a cutting that
//! is told again below, in loops of its own, in which no test is counted as it is made: how many a
//! pass makes is told by the place of the corner that it takes.

mod faces;

use faces::{Random, Triangle, as_floats, random_points, seven, started_at};
use oracle::counted::{Tests, ear_clip_tests};
use oracle::plain;

/// The most tests that a face of so many corners can take.
fn most_tests(corners: usize) -> usize {
    match corners {
        0..3 => 0,
        n => n * n + n - 12,
    }
}

// The cutting told again.

/// A corner of a ring: its vertex, and its point without the axis that is dropped.
type Corner = (usize, [f64; 2]);

/// All corners of a face of three or more.
fn whole_ring(points: &[[f64; 3]], face: &[usize]) -> Vec<Corner> {
    let outline: Vec<[f64; 3]> = face.iter().map(|&vertex| points[vertex]).collect();
    let axis = plain::dominant_axis(plain::newell_normal(&outline));
    let corner = |&vertex: &usize| (vertex, plain::project2(points[vertex], axis));
    face.iter().map(corner).collect()
}

/// The direction of a face: 1 where its doubled area is 0 or more, else -1.
fn direction(ring: &[Corner]) -> f64 {
    let mut area = 0.0;
    for place in 0..ring.len() {
        let [_, (_, a), (_, b)] = around(ring, place);
        area += a[0] * b[1] - a[1] * b[0];
    }
    if area >= 0.0 { 1.0 } else { -1.0 }
}

/// The corner at a place of a ring, between the one before it and the one after it.
fn around(ring: &[Corner], place: usize) -> [Corner; 3] {
    let corners = ring.len();
    [place + corners - 1, place, place + 1].map(|place| ring[place % corners])
}

/// Whether the corner at a place stands the test of turn × direction.
fn turns(ring: &[Corner], place: usize, direction: f64) -> bool {
    let [(_, a), (_, b), (_, c)] = around(ring, place);
    plain::cross2(a, b, c) * direction >= 0.0
}

/// Whether a corner of the ring lies strictly within the triangle at a place, and on none of its
/// three points.
fn is_blocked(ring: &[Corner], place: usize, direction: f64) -> bool {
    let [(_, a), (_, b), (_, c)] = around(ring, place);
    let mut others = ring.iter().filter(|(_, p)| ![a, b, c].contains(p));
    others.any(|&(_, p)| plain::point_in_triangle_strict(p, a, b, c, direction))
}

/// The tests of a pass over a ring: one for each corner up to and including the one that is taken,
/// and one for every corner where none is.
fn tests_of_pass(corners: usize, taken: Option<usize>) -> usize {
    taken.map_or(corners, |place| place + 1)
}

/// The triangles of a face, and the tests that are made to find them.
fn told_again(points: &[[f64; 3]], face: &[usize]) -> (Vec<Triangle>, Tests) {
    let mut triangles = Vec::new();
    let mut tests = Tests {
        in_first_pass: 0,
        in_second_pass: 0,
    };
    if face.len() < 3 {
        return (triangles, tests);
    }
    let mut ring = whole_ring(points, face);
    let direction = direction(&ring);
    while ring.len() > 3 {
        let corners = ring.len();
        let mut turning = (0..corners).filter(|&place| turns(&ring, place, direction));
        let ear = turning
            .clone()
            .find(|&place| !is_blocked(&ring, place, direction));
        tests.in_first_pass += tests_of_pass(corners, ear);
        let taken = ear.or_else(|| {
            let any = turning.next();
            tests.in_second_pass += tests_of_pass(corners, any);
            any
        });
        let Some(place) = taken else {
            return (triangles, tests);
        };
        triangles.push(around(&ring, place).map(|(vertex, _)| vertex));
        ring.remove(place);
    }
    triangles.push([ring[0].0, ring[1].0, ring[2].0]);
    (triangles, tests)
}

// What is counted.

/// The tests of a face, by the counted build. The cutting told again must count them too, and both
/// must give the triangles of the unmodified Rust.
fn tests_of(points: &[[f64; 3]], face: &[usize]) -> Tests {
    let triangles = plain::ear_clip_triangles(points, face);
    let (by_counted, tests) = ear_clip_tests(points, face);
    let (again, tests_again) = told_again(points, face);
    assert_eq!((&by_counted, &again), (&triangles, &triangles));
    assert_eq!(tests, tests_again);
    assert!(tests.all() <= most_tests(face.len()));
    tests
}

#[test]
fn the_seven_corners_take_twelve_tests() {
    let points = as_floats(&seven());
    let tests = tests_of(&points, &[0, 1, 2, 3, 4, 5, 6]);
    assert_eq!(tests.all(), 12);
    // The rings of seven, six and five give a corner at the first, the first and the second test;
    // the ring of four that is left is gone over twice.
    assert_eq!(tests.in_first_pass, 1 + 1 + 2 + 4);
    assert_eq!(tests.in_second_pass, 4);
}

#[test]
fn a_face_of_up_to_three_corners_takes_none() {
    let points = as_floats(&seven());
    for face in [&[][..], &[4], &[1, 0], &[0, 1, 2], &[2, 1, 0], &[3, 3, 3]] {
        assert_eq!(tests_of(&points, face).all(), 0);
    }
    assert_eq!([0, 1, 2, 3].map(most_tests), [0; 4]);
}

#[test]
fn a_square_takes_one() {
    let square = [
        [0.0, 0.0, 0.0],
        [1.0, 0.0, 0.0],
        [1.0, 1.0, 0.0],
        [0.0, 1.0, 0.0],
    ];
    for face in [[0, 3, 2, 1], [1, 2, 3, 0]] {
        assert_eq!(tests_of(&square, &face).all(), 1);
    }
}

/// A side of a thin box that is far from the origin gives no triangle: no corner stands the test in
/// either pass.
#[test]
fn a_face_can_take_as_many_as_there_may_be() {
    let foot = [[0.0, 0.0], [0.05, 0.0], [0.05, 0.25], [0.0, 0.25]];
    let points = foot.map(|[x, y]| [8588590.0 + x, 8529546.0 + y, 2969498.0]);
    let tests = tests_of(&points, &[0, 3, 2, 1]);
    assert_eq!((tests.in_first_pass, tests.in_second_pass), (4, 4));
    assert_eq!(tests.all(), most_tests(4));
}

/// How many faces there are of each kind.
#[derive(Debug, Default, PartialEq)]
struct Kinds {
    /// Every ring gives a corner in its first pass.
    in_one_pass: usize,
    /// A ring needs its second pass, and the face is cut in full.
    in_two_passes: usize,
    /// The cut stops short, after both passes over the last ring.
    short: usize,
}

/// Random faces of so many corners, each from every start.
fn add_faces(kinds: &mut Kinds, corners: u64, random: &mut Random) {
    let points = as_floats(&random_points(corners, random));
    let face: Vec<usize> = (0..points.len()).collect();
    for start in 0..face.len() {
        let face = started_at(start, &face);
        let tests = tests_of(&points, &face);
        let triangles = plain::ear_clip_triangles(&points, &face).len();
        if triangles + 2 < face.len() {
            assert!(tests.in_second_pass >= 4);
            kinds.short += 1;
        } else if tests.in_second_pass > 0 {
            kinds.in_two_passes += 1;
        } else {
            kinds.in_one_pass += 1;
        }
    }
}

#[test]
fn random_faces_take_what_is_counted_again() {
    let mut random = Random(10);
    let mut kinds = Kinds::default();
    for _ in 0..50_000 {
        let corners = 3 + random.below(10);
        add_faces(&mut kinds, corners, &mut random);
    }
    for _ in 0..200 {
        let corners = 13 + random.below(60);
        add_faces(&mut kinds, corners, &mut random);
    }
    // The counts follow from the seed, and are the same on every machine.
    let expected = Kinds {
        in_one_pass: 204_019,
        in_two_passes: 3_239,
        short: 176_269,
    };
    assert_eq!(kinds, expected);
}
