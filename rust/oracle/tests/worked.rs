//! The rows of SCOPE 16, 'Worked by hand', answered by the builds `plain` and `ruled` of the Rust.

use oracle::{Cell, plain, ruled};

const CUBE: [[f64; 3]; 8] = [
    [0.0, 0.0, 0.0],
    [1.0, 0.0, 0.0],
    [1.0, 1.0, 0.0],
    [0.0, 1.0, 0.0],
    [0.0, 0.0, 1.0],
    [1.0, 0.0, 1.0],
    [1.0, 1.0, 1.0],
    [0.0, 1.0, 1.0],
];

/// HEX8_FACES one after another.
const CUBE_CORNERS: [u32; 24] = [
    0, 3, 2, 1, 4, 5, 6, 7, 0, 1, 5, 4, 2, 3, 7, 6, 1, 2, 6, 5, 3, 0, 4, 7,
];

const CUBE_ENDS: [u32; 6] = [4, 8, 12, 16, 20, 24];

fn cube(points: &[[f64; 3]]) -> Cell<'_> {
    Cell {
        points,
        corners: &CUBE_CORNERS,
        ends: &CUBE_ENDS,
    }
}

fn moved(points: [[f64; 3]; 8], step: [f64; 3]) -> [[f64; 3]; 8] {
    points.map(|p| [p[0] + step[0], p[1] + step[1], p[2] + step[2]])
}

/// Asks the same of `plain` and `ruled`, which must agree, and gives the answer.
macro_rules! both {
    ($function:ident($($argument:expr),*)) => {{
        let answer = plain::$function($($argument),*);
        assert_eq!(answer, ruled::$function($($argument),*));
        answer
    }};
}

#[test]
fn a_face_of_the_cube_is_cut() {
    let triangles = both!(ear_clip_triangles(&CUBE, &[0, 3, 2, 1]));
    assert_eq!(triangles, [[1, 0, 3], [3, 2, 1]]);
}

#[test]
fn seven_corners_stop_at_a_ring_of_four() {
    let points = [
        [0.0, 0.0, 0.0],
        [10.0, 0.0, 0.0],
        [0.0, 10.0, 0.0],
        [0.0, 0.0, 0.0],
        [0.0, -1.0, 0.0],
        [-1.0, -1.0, 0.0],
        [-1.0, 0.0, 0.0],
    ];
    let triangles = both!(ear_clip_triangles(&points, &[0, 1, 2, 3, 4, 5, 6]));
    assert_eq!(triangles, [[6, 0, 1], [6, 1, 2], [2, 3, 4]]);
}

#[test]
fn two_corners_give_nothing_and_three_give_themselves() {
    assert!(both!(ear_clip_triangles(&CUBE, &[0, 1])).is_empty());
    assert_eq!(both!(ear_clip_triangles(&CUBE, &[0, 1, 2])), [[0, 1, 2]]);
}

#[test]
fn the_cube_contains_its_near_side_only() {
    assert!(both!(contains(cube(&CUBE), [0.0, 0.5, 0.5])));
    assert!(!both!(contains(cube(&CUBE), [1.0, 0.5, 0.5])));
    assert!(!both!(contains(cube(&CUBE), [0.5, 1.0, 0.5])));
}

#[test]
fn a_square_is_clipped() {
    let square = [
        [0.0, 0.0, 0.0],
        [2.0, 0.0, 0.0],
        [2.0, 2.0, 0.0],
        [0.0, 2.0, 0.0],
    ];
    let left = both!(clip_face_by_polyhedron(
        &square,
        &[[1.0, 0.0, 0.0, 1.0]],
        0.0
    ));
    let expected = vec![
        [0.0, 0.0, 0.0],
        [1.0, 0.0, 0.0],
        [1.0, 2.0, 0.0],
        [0.0, 2.0, 0.0],
    ];
    assert_eq!(left, Some(expected));
}

#[test]
fn a_crossing_may_lie_off_its_segment() {
    let (from, to) = ([0.75, 0.0, 0.0], [1.25, 4.0, 0.0]);
    let crossing = both!(segment_plane_intersection(from, to, 0.75, 1.25));
    assert_eq!(crossing, [0.0, -6.0, 0.0]);

    // The same crossing is taken when an outline with that side is cut with tolerance 1.
    let outline = [from, to, [0.0, 0.0, 8.0]];
    let cut = both!(clip_polygon_by_plane(&outline, [1.0, 0.0, 0.0, 0.0], 1.0));
    assert!(cut.contains(&crossing));
}

#[test]
fn squares_overlap() {
    let square = |low: f64| {
        [
            [low, low],
            [low + 2.0, low],
            [low + 2.0, low + 2.0],
            [low, low + 2.0],
        ]
    };
    let subject = square(0.0);
    assert_eq!(both!(convex_intersection_area(&subject, &square(1.0))), 1.0);
    assert_eq!(both!(convex_intersection_area(&subject, &[])), 4.0);
}

#[test]
fn cubes_that_share_a_face_do_not_overlap() {
    for axis in 0..3 {
        for step in [1.0, -1.0] {
            let mut way = [0.0; 3];
            way[axis] = step;
            let neighbour = moved(CUBE, way);
            let shared = both!(convex_intersection_volume(cube(&CUBE), cube(&neighbour)));
            assert_eq!(shared, 0.0);
        }
    }
}

#[test]
fn the_report_lines_of_the_cube_hold_its_volume() {
    let whole = both!(volume(cube(&CUBE)));
    assert_eq!(whole.to_bits(), 0x3FF0_0000_0000_0000);
    assert!(both!(contains(cube(&CUBE), [0.5, 0.5, 0.5])));

    let mut corners = CUBE_CORNERS;
    corners[..4].copy_from_slice(&[1, 2, 3, 0]);
    let backward = Cell {
        corners: &corners,
        ..cube(&CUBE)
    };
    assert_eq!(both!(volume(backward)).to_bits(), 0x3FE5_5555_5555_5555);
    assert!(both!(contains(backward, [0.5, 0.5, 0.5])));
}

/// The limits are the port's own: the Rust answers on both sides of them.
#[test]
fn the_rust_knows_no_limits() {
    for count in [256, 257] {
        let points = vec![[1.0, 2.0, 3.0]; count];
        let cell = Cell {
            points: &points,
            corners: &[],
            ends: &[],
        };
        assert_eq!(both!(centroid(cell)), [1.0, 2.0, 3.0]);
    }
    let limit = 2.0_f64.powi(40);
    for value in [limit, limit.next_up()] {
        let bounds = both!(bounds_iter3(&[[value, 0.0, 0.0]]));
        assert_eq!(bounds, [[value, 0.0, 0.0]; 2]);
    }
}

#[test]
fn the_least_number_has_its_root() {
    let root = 2.0_f64.powi(-537);
    assert_eq!(f64::from_bits(1).sqrt(), root);

    // Seen through the Rust: the area is half the root of the squared sums, here the least number.
    let points = [[0.0, 0.0, 0.0], [root, 0.0, 0.0], [0.0, 1.0, 0.0]];
    assert_eq!(both!(area_polygon3(&points)), root / 2.0);
}

/// A right angle at the origin with sides of these lengths, in the plane of the first two axes.
fn right_angle(x: f64, y: f64) -> [[f64; 3]; 3] {
    [[0.0; 3], [x, 0.0, 0.0], [0.0, y, 0.0]]
}

/// Squares of sums that underflow cost nothing: the plane is as it should be down to a length of
/// 2^-1023.
#[test]
fn small_lengths_are_kept() {
    for power in [-269, -300, -500, -511] {
        let tiny = 2.0_f64.powi(power);
        let points = right_angle(tiny, tiny / 2.0);
        let plane = both!(plane_of_face(&points, &[0, 1, 2]));
        assert_eq!(plane, [0.0, 0.0, 1.0, 0.0]);
    }
}

/// From a length of 2^-1024 down its inverse overflows.
#[test]
fn the_inverse_of_a_length_overflows() {
    for power in [-512, -537] {
        let tiny = 2.0_f64.powi(power);
        let points = right_angle(tiny, tiny);
        for plane_of_face in [plain::plane_of_face, ruled::plane_of_face] {
            let [x, y, z, offset] = plane_of_face(&points, &[0, 1, 2]);
            assert!(x.is_nan() && y.is_nan() && offset.is_nan());
            assert_eq!(z, f64::INFINITY);
        }
    }
}
