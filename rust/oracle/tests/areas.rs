//! SCOPE 17.8, 'the area is in the triangles', of what the Rust cuts: the rows of SCOPE 16.4, and
//! random faces. Coordinates are whole numbers below 2^31 in magnitude, so areas are exact in i128.

mod faces;

use faces::{Random, Triangle, Vector, as_floats, level, plus, random_points, seven, started_at};
use oracle::{plain, ruled};

/// The doubled area vector of a ring: the sum of a × b over its sides.
fn area(points: &[Vector], ring: &[usize]) -> Vector {
    let next = ring.iter().cycle().skip(1);
    ring.iter().zip(next).fold([0; 3], |sum, (&a, &b)| {
        let (a, b) = (points[a], points[b]);
        let cross = |i: usize, j: usize| a[i] * b[j] - a[j] * b[i];
        plus(sum, [cross(1, 2), cross(2, 0), cross(0, 1)])
    })
}

fn areas(points: &[Vector], triangles: &[Triangle]) -> Vector {
    let vectors = triangles.iter().map(|t| area(points, t));
    vectors.fold([0; 3], plus)
}

/// The ring that is left of a face of 3 or more different vertices. Every triangle, but for the
/// last of a full cut, has taken its middle corner off.
fn left(face: &[usize], triangles: &[Triangle]) -> Vec<usize> {
    if triangles.len() + 2 == face.len() {
        return Vec::new();
    }
    let taken = |v: &usize| triangles.iter().any(|t| t[1] == *v);
    face.iter().copied().filter(|v| !taken(v)).collect()
}

struct Row {
    points: Vec<Vector>,
    face: Vec<usize>,
    start: usize,
    triangles: Vec<Triangle>,
    ring: Vec<usize>,
    in_triangles: Vector,
    in_ring: Vector,
    in_face: Vector,
}

/// A row of a face that is cut in full.
fn full(points: &[Vector], face: &[usize], start: usize, cut: &[Triangle], all: Vector) -> Row {
    Row {
        points: points.to_vec(),
        face: face.to_vec(),
        start,
        triangles: cut.to_vec(),
        ring: Vec::new(),
        in_triangles: all,
        in_ring: [0; 3],
        in_face: all,
    }
}

fn along_z(z: i128) -> Vector {
    [0, 0, z]
}

#[rustfmt::skip]
fn rows() -> Vec<Row> {
    let square = level(&[[0, 0], [1, 0], [1, 1], [0, 1]]);
    let letter_l = level(&[[0, 0], [2, 0], [2, 1], [1, 1], [1, 2], [0, 2]]);
    let notched = level(&[[0, 0], [0, 1], [1, 2], [1, 1], [2, 1]]);
    let skew = [[0, 0, 0], [1, 0, 0], [1, 1, 1], [0, 1, 0]];
    let crossed = level(&[[0, 0], [1, 1], [1, 0], [0, 1]]);
    let spiked = level(&[[0, 0], [0, 2], [0, 1], [1, 0], [2, 0]]);
    let bottom = [0, 3, 2, 1];
    let backward = [1, 2, 3, 0];
    let (four, five, six) = ([0, 1, 2, 3], [0, 1, 2, 3, 4], [0, 1, 2, 3, 4, 5]);
    vec![
        full(&square, &bottom, 0, &[[1, 0, 3], [3, 2, 1]], along_z(-2)),
        full(&square, &bottom, 1, &[[0, 3, 2], [2, 1, 0]], along_z(-2)),
        full(&square, &bottom, 2, &[[3, 2, 1], [1, 0, 3]], along_z(-2)),
        full(&square, &bottom, 3, &[[2, 1, 0], [0, 3, 2]], along_z(-2)),
        full(&square, &backward, 0, &[[0, 1, 2], [2, 3, 0]], along_z(2)),
        Row {
            points: seven(),
            face: vec![0, 1, 2, 3, 4, 5, 6],
            start: 0,
            triangles: vec![[6, 0, 1], [6, 1, 2], [2, 3, 4]],
            ring: vec![2, 4, 5, 6],
            in_triangles: along_z(110),
            in_ring: along_z(-12),
            in_face: along_z(98),
        },
        full(&letter_l, &six, 0, &[[5, 0, 1], [5, 1, 2], [3, 4, 5], [2, 3, 5]], along_z(6)),
        full(&letter_l, &six, 1, &[[0, 1, 2], [0, 2, 3], [0, 3, 4], [4, 5, 0]], along_z(6)),
        full(&notched, &five, 0, &[[4, 0, 1], [4, 1, 2], [2, 3, 4]], along_z(-3)),
        full(&skew, &four, 0, &[[3, 0, 1], [1, 2, 3]], [-1, -1, 2]),
        full(&skew, &four, 1, &[[0, 1, 2], [2, 3, 0]], [-1, -1, 2]),
        full(&crossed, &four, 0, &[[3, 0, 1], [1, 2, 3]], along_z(0)),
        Row {
            points: spiked.clone(),
            face: five.to_vec(),
            start: 0,
            triangles: vec![[4, 0, 1]],
            ring: vec![1, 2, 3, 4],
            in_triangles: along_z(-4),
            in_ring: along_z(3),
            in_face: along_z(-1),
        },
        full(&spiked, &five, 1, &[[0, 1, 2], [0, 2, 3], [3, 4, 0]], along_z(-1)),
        full(&spiked, &five, 2, &[[3, 4, 0], [2, 3, 0], [2, 0, 1]], along_z(-1)),
        full(&spiked, &five, 3, &[[3, 4, 0], [2, 3, 0], [0, 1, 2]], along_z(-1)),
        full(&spiked, &five, 4, &[[3, 4, 0], [3, 0, 1], [1, 2, 3]], along_z(-1)),
    ]
}

#[test]
fn the_rows_are_what_the_rust_gives() {
    let rows = rows();
    assert_eq!(rows.len(), 17);
    for row in rows {
        let points = as_floats(&row.points);
        let face = started_at(row.start, &row.face);
        let triangles = plain::ear_clip_triangles(&points, &face);
        assert_eq!(triangles, ruled::ear_clip_triangles(&points, &face));
        let ring = left(&face, &triangles);
        assert_eq!(triangles, row.triangles);
        assert_eq!(ring, row.ring);
        assert_eq!(areas(&row.points, &triangles), row.in_triangles);
        assert_eq!(area(&row.points, &ring), row.in_ring);
        assert_eq!(area(&row.points, &face), row.in_face);
    }
}

/// docs/LIMITS.md says so of them.
#[test]
fn the_seven_corners_are_short_from_every_start() {
    let points = as_floats(&seven());
    for start in 0..7 {
        let face = started_at(start, &[0, 1, 2, 3, 4, 5, 6]);
        let triangles = plain::ear_clip_triangles(&points, &face);
        assert_eq!(left(&face, &triangles).len(), 4);
    }
}

#[test]
fn the_area_of_a_random_face_is_in_its_triangles() {
    let mut random = Random(14);
    let (mut in_full, mut short) = (0, 0);
    for _ in 0..200_000 {
        let corners = 3 + random.below(10);
        let points = random_points(corners, &mut random);
        let floats = as_floats(&points);
        let face: Vec<usize> = (0..points.len()).collect();
        let whole = area(&points, &face);
        for start in 0..face.len() {
            let started = started_at(start, &face);
            let triangles = plain::ear_clip_triangles(&floats, &started);
            let ring = left(&started, &triangles);
            let sum = areas(&points, &triangles);
            if ring.is_empty() {
                in_full += 1;
                assert_eq!(sum, whole);
            } else {
                short += 1;
                assert!(ring.len() >= 4);
                assert_eq!(triangles.len() + ring.len(), started.len());
                assert_eq!(plus(sum, area(&points, &ring)), whole);
            }
        }
    }
    // Both kinds are tried. The counts follow from the seed, and are the same on every machine.
    assert_eq!((in_full, short), (834_013, 667_449));
}
