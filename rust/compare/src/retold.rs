//! Clipping and overlaps told again in the plain way, with the Rust's own leaves.
//!
//! The Rust's answers say nothing of the room that a step takes, for it drops doubled points before
//! it answers. Here every step's points are counted first. The comparison holds each of these
//! answers to the Rust's, so this is never more than a second teller of the same tale.

use oracle::ruled as rust;

use crate::cells::Cell;
use crate::limits::LONGEST_WORK;

/// What clipping leaves of an outline.
pub struct Clipped<const D: usize> {
    /// The most points that stood in one work list.
    pub most: usize,
    /// How often the outline went from one list to the other.
    pub cuts: usize,
    /// How many doubled points were dropped on the way.
    pub dropped: usize,
    /// No points: nothing is left.
    pub left: Vec<[f64; D]>,
}

impl<const D: usize> Clipped<D> {
    fn new(outline: &[[f64; D]]) -> Self {
        Clipped {
            most: outline.len(),
            cuts: 0,
            dropped: 0,
            left: outline.to_vec(),
        }
    }

    /// A step leaves an outline, which had so many points before doubled ones were dropped.
    fn cut(&mut self, points: usize, left: Vec<[f64; D]>) {
        self.most = self.most.max(points);
        self.cuts += 1;
        self.dropped += points - left.len();
        self.left = left;
    }

    fn nothing(mut self) -> Self {
        self.left.clear();
        self
    }

    /// Whether no work list has the room. Then nothing more need be told, and the Rust, whose
    /// outlines may grow without end, need not be asked.
    pub fn is_too_long(&self) -> bool {
        self.most > LONGEST_WORK / D
    }
}

/// What the planes leave of a face, as `clip_face_by_polyhedron` has it.
pub fn clip_face(face: &[[f64; 3]], planes: &[[f64; 4]], eps: f64) -> Clipped<3> {
    let mut clipped = Clipped::new(face);
    for &plane in planes {
        let outline = &clipped.left;
        let distances = outline.iter().map(|&point| distance(plane, point));
        let outside = distances.clone().filter(|&distance| distance > eps).count();
        if outline.len() < 3 || outside == outline.len() || clipped.is_too_long() {
            return clipped.nothing();
        }
        if outside == 0 {
            continue;
        }
        let inside: Vec<bool> = distances.map(|distance| distance <= eps).collect();
        let left = rust::clip_polygon_by_plane(outline, plane, eps);
        clipped.cut(points_of_sides(&inside), left);
        if clipped.left.len() < 3 {
            return clipped.nothing();
        }
    }
    clipped
}

fn distance([a, b, c, offset]: [f64; 4], [x, y, z]: [f64; 3]) -> f64 {
    a * x + b * y + c * z - offset
}

/// What the edges of one outline leave of another, as `clip_convex` has it.
pub fn clip_convex(subject: &[[f64; 2]], clip: &[[f64; 2]]) -> Clipped<2> {
    let mut clipped = Clipped::new(subject);
    for (place, &from) in clip.iter().enumerate() {
        if clipped.left.len() < 3 || clipped.is_too_long() {
            return clipped.nothing();
        }
        let to = clip[(place + 1) % clip.len()];
        let left = left_of_edge(from, to, &clipped.left);
        clipped.cut(left.len(), left);
    }
    clipped
}

/// What lies on the left of an edge or on it. In the plane no doubled point is dropped.
fn left_of_edge(from: [f64; 2], to: [f64; 2], outline: &[[f64; 2]]) -> Vec<[f64; 2]> {
    let is_in = |point| rust::cross2(from, to, point) >= 0.0;
    let mut left = Vec::new();
    for (place, &p) in outline.iter().enumerate() {
        let q = outline[(place + 1) % outline.len()];
        if is_in(p) != is_in(q) {
            left.push(rust::segment_intersection(from, to, p, q));
        }
        if is_in(q) {
            left.push(q);
        }
    }
    left
}

/// How many points the sides of an outline leave: a crossing for each side that goes in or out, and
/// each point that is inside.
fn points_of_sides(inside: &[bool]) -> usize {
    let before = inside.iter().cycle().skip(inside.len() - 1);
    let crossings = inside.iter().zip(before).filter(|(a, b)| a != b).count();
    let kept = inside.iter().filter(|&&is_inside| is_inside).count();
    crossings + kept
}

/// The volume that two cells share, and the most points that stood in one work list.
pub struct Overlap {
    pub most: usize,
    pub volume: f64,
}

impl Overlap {
    /// Whether no work list has the room: see `Clipped`.
    pub fn is_too_long(&self) -> bool {
        self.most > LONGEST_WORK / 3
    }

    /// A face is clipped by planes, and what is left of it adds to the volume.
    fn add(&mut self, face: &[[f64; 3]], planes: &[[f64; 4]], eps: f64, reference: [f64; 3]) {
        if self.is_too_long() {
            return;
        }
        let clipped = clip_face(face, planes, eps);
        self.most = self.most.max(clipped.most);
        self.volume += rust::polygon_volume_contribution(&clipped.left, reference);
    }
}

/// As `convex_intersection_volume` has it, with the box test.
pub fn overlap(first: &Cell, second: &Cell) -> Overlap {
    let mut overlap = Overlap {
        most: 0,
        volume: 0.0,
    };
    if boxes_meet(first, second) {
        add_faces(&mut overlap, first, second);
    }
    overlap.volume = overlap.volume.abs();
    overlap
}

/// Whether the boxes of two cells have a point in common.
pub fn boxes_meet(first: &Cell, second: &Cell) -> bool {
    let ([low, high], [other_low, other_high]) = (first.bounds(), second.bounds());
    (0..3).all(|axis| high[axis] >= other_low[axis] && other_high[axis] >= low[axis])
}

/// Faces of the first cell, then of the second, each but for those that lie on the other cell.
fn add_faces(overlap: &mut Overlap, first: &Cell, second: &Cell) {
    let eps = 64.0 * f64::EPSILON * rust::scale(first.for_the_rust());
    let reference = rust::centroid(first.for_the_rust());
    let tolerance = 1e-4 * reach(first, second);
    let opposite = |a, b| rust::plane_coplanar_opposite(a, b, tolerance);
    let same_side = |a, b| rust::plane_same_side(a, b, tolerance);

    let planes = rust::planes(first.for_the_rust());
    let other_planes = rust::planes(second.for_the_rust());
    for (face, &plane) in first.faces().iter().zip(&planes) {
        if !other_planes.iter().any(|&other| opposite(plane, other)) {
            let mut cutting = other_planes.clone();
            cutting.retain(|&other| !same_side(plane, other));
            overlap.add(&first.outline(face), &cutting, eps, reference);
        }
    }
    for (face, &other) in second.faces().iter().zip(&other_planes) {
        let coplanar = |&plane: &[f64; 4]| opposite(plane, other) || same_side(plane, other);
        if !planes.iter().any(coplanar) {
            overlap.add(&second.outline(face), &planes, eps, reference);
        }
    }
}

/// How far a vertex of the two cells lies from the mean of all their vertices, at most.
pub fn reach(first: &Cell, second: &Cell) -> f64 {
    let points = [first.points(), second.points()].concat();
    let middle = rust::vertex_centroid3(&points);
    let far = |point: &[f64; 3]| {
        let [x, y, z] = [0, 1, 2].map(|axis| point[axis] - middle[axis]);
        (x * x + y * y + z * z).sqrt()
    };
    points.iter().map(far).fold(0.0, f64::max)
}

#[cfg(test)]
mod tests {
    use super::*;
    use crate::cells::unit_cube;

    const SQUARE: [[f64; 2]; 4] = [[0.0, 0.0], [2.0, 0.0], [2.0, 2.0], [0.0, 2.0]];

    fn in_space(outline: &[[f64; 2]]) -> Vec<[f64; 3]> {
        outline.iter().map(|&[x, y]| [x, y, 0.0]).collect()
    }

    #[test]
    fn half_of_a_square_is_left() {
        let clipped = clip_face(&in_space(&SQUARE), &[[1.0, 0.0, 0.0, 1.0]], 0.0);
        let half = [[0.0, 0.0], [1.0, 0.0], [1.0, 2.0], [0.0, 2.0]];
        assert_eq!(clipped.left, in_space(&half));
        assert_eq!((clipped.most, clipped.cuts), (4, 1));
    }

    /// The plane runs along one side: that side's ends come twice and are dropped, and nothing is
    /// left of an outline that took room for four points.
    #[test]
    fn doubled_points_take_room() {
        let triangle = in_space(&[[0.0, 0.0], [1.0, 0.0], [0.0, 1.0]]);
        let clipped = clip_face(&triangle, &[[1.0, 0.0, 0.0, 0.0]], 0.0);
        assert_eq!((clipped.most, clipped.dropped), (4, 2));
        assert!(clipped.left.is_empty());
    }

    #[test]
    fn a_plane_that_is_not_a_number_cuts_nothing() {
        let clipped = clip_face(&in_space(&SQUARE), &[[f64::NAN, 0.0, 0.0, -1.0]], 0.0);
        assert_eq!((clipped.left.len(), clipped.cuts), (4, 0));
    }

    #[test]
    fn squares_share_a_square() {
        let other = SQUARE.map(|[x, y]| [x + 1.0, y + 1.0]);
        let clipped = clip_convex(&SQUARE, &other);
        assert_eq!(rust::signed_area2(&clipped.left), 1.0);
        assert_eq!(clipped.cuts, 4);
    }

    #[test]
    fn two_points_are_left_by_no_edge_only() {
        assert_eq!(clip_convex(&SQUARE[..2], &[]).left, SQUARE[..2]);
        assert!(clip_convex(&SQUARE[..2], &SQUARE).left.is_empty());
    }

    #[test]
    fn cubes_overlap_by_what_they_share() {
        let cube = unit_cube();
        let [half, beside, far] = [0.5, 1.0, 2.0].map(|x| cube.clone().moved([x, 0.0, 0.0]));
        assert_eq!(overlap(&cube, &half).volume, 0.5);
        assert_eq!(overlap(&cube, &beside).volume, 0.0);
        assert_eq!(overlap(&cube, &far).most, 0);
    }
}
