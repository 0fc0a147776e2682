//! Cells, faces, planes and the fixed shapes, from `polyhedron.rs`.
//!
//! A plane is four numbers, the normal first and then the offset.

use super::{Convexity, IndirectIndexOwned, Plane};
use crate::{Cell, Shape};

pub use super::Polyhedron;

/// The corner that ends a face in the one list of [`point_in_phed`].
const FACE_END: u32 = u32::MAX;

// Cells.

/// The Rust's own form of a cell, for callers that ask it more than once.
pub fn polyhedron(cell: Cell, shape: Shape) -> Polyhedron {
    let convexity = match shape {
        Shape::Convex => Convexity::Convex,
        Shape::Concave => Convexity::Concave,
        Shape::Unknown => Convexity::Unknown,
    };
    let faces = IndirectIndexOwned {
        data: cell.corners.iter().map(|&corner| corner as usize).collect(),
        offsets: cell.ends.iter().map(|&end| end as usize).collect(),
    };
    Polyhedron::with_indirect_index(cell.points.iter().copied(), faces, convexity)
}

fn unknown(cell: Cell) -> Polyhedron {
    polyhedron(cell, Shape::Unknown)
}

pub fn volume(cell: Cell) -> f64 {
    unknown(cell).volume()
}

/// Six times the volume, with the sign that the faces' direction gives it.
pub fn signed_volume6(cell: Cell) -> f64 {
    unknown(cell).signed_volume6()
}

/// The mean of the vertices.
pub fn centroid(cell: Cell) -> [f64; 3] {
    unknown(cell).centroid()
}

pub fn geometric_centroid(cell: Cell) -> [f64; 3] {
    unknown(cell).geometric_centroid()
}

/// The least and the greatest of each coordinate.
pub fn bounds(cell: Cell) -> [[f64; 3]; 2] {
    unknown(cell).bounds()
}

/// The longest side of the bounds.
pub fn scale(cell: Cell) -> f64 {
    unknown(cell).scale()
}

pub fn contains(cell: Cell, point: [f64; 3]) -> bool {
    unknown(cell).contains(&point)
}

/// Whether the cell is convex, by what is known of its shape or else by the test.
pub fn is_convex(cell: Cell, shape: Shape) -> bool {
    polyhedron(cell, shape).is_convex()
}

/// The test of convexity itself.
pub fn compute_convexity(cell: Cell) -> bool {
    convexity_of(&unknown(cell))
}

/// The same for a cell in the Rust's own form, each time anew: `is_convex` keeps its answer.
pub fn convexity_of(cell: &Polyhedron) -> bool {
    cell.compute_convexity()
}

/// The corner list after every face is turned outward.
pub fn into_ccw(cell: Cell) -> Vec<u32> {
    let mut turned = unknown(cell);
    turned.into_ccw();
    turned
        .faces
        .data
        .iter()
        .map(|&corner| corner as u32)
        .collect()
}

/// The triangles of all faces, in face order.
pub fn face_triangles(cell: Cell) -> Vec<[usize; 3]> {
    unknown(cell).face_triangles()
}

/// The planes of all faces, in face order.
pub fn planes(cell: Cell) -> Vec<[f64; 4]> {
    unknown(cell).planes().into_iter().map(in_fours).collect()
}

/// The volume that two convex cells share, with the box test.
pub fn convex_intersection_volume(first: Cell, second: Cell) -> f64 {
    unknown(first).convex_intersection_volume(&unknown(second))
}

/// The same without the box test.
pub fn convex_intersection_volume_impl(first: Cell, second: Cell) -> f64 {
    unknown(first).convex_intersection_volume_impl(&unknown(second))
}

// Faces.

/// The triangles of one face.
pub fn ear_clip_triangles(points: &[[f64; 3]], face: &[usize]) -> Vec<[usize; 3]> {
    super::ear_clip_triangles(face, points)
}

/// Whether p lies strictly in the triangle a, b, c of the given direction (1 or -1).
pub fn point_in_triangle_strict(
    p: [f64; 2],
    a: [f64; 2],
    b: [f64; 2],
    c: [f64; 2],
    direction: f64,
) -> bool {
    super::point_in_triangle_strict(p, a, b, c, direction)
}

/// a · (b × c), rounded at each step.
pub fn triple_product(a: [f64; 3], b: [f64; 3], c: [f64; 3]) -> f64 {
    super::triple_product(a, b, c)
}

/// The Newell sums of a face and the offset that goes with them.
pub fn face_plane(points: &[[f64; 3]], face: &[usize]) -> ([f64; 3], f64) {
    super::face_plane(points, face)
}

/// Whether the ray from the point along +x crosses the face.
pub fn ray_crosses_face(point: [f64; 3], points: &[[f64; 3]], face: &[usize]) -> bool {
    super::ray_crosses_face(point[0], point[1], point[2], face, points)
}

/// Whether a cell given as one corner list, in which 4,294,967,295 ends a face, contains the point.
pub fn point_in_phed(point: [f64; 3], points: &[[f64; 3]], corners: &[u32]) -> bool {
    point_in_connected(point, points, &connectivity(corners))
}

/// Such a list in the Rust's own form, for callers that ask about it more than once.
pub fn connectivity(corners: &[u32]) -> Vec<usize> {
    let number = |&corner: &u32| match corner {
        FACE_END => usize::MAX,
        _ => corner as usize,
    };
    corners.iter().map(number).collect()
}

/// The same for a list in that form.
pub fn point_in_connected(point: [f64; 3], points: &[[f64; 3]], connectivity: &[usize]) -> bool {
    super::point_in_phed(&point, points, connectivity)
}

// Fixed shapes.

pub fn tet_volume(p: &[[f64; 3]; 4]) -> f64 {
    super::tet_volume(&p[0], &p[1], &p[2], &p[3])
}

pub fn wedge_volume(p: &[[f64; 3]; 6]) -> f64 {
    super::wedge_volume(p)
}

pub fn hex_volume(p: &[[f64; 3]; 8]) -> f64 {
    super::hex_volume(p)
}

pub fn tet_contains(point: [f64; 3], p: &[[f64; 3]; 4]) -> bool {
    super::tet_contains(&point, &p[0], &p[1], &p[2], &p[3])
}

pub fn wedge_contains(point: [f64; 3], p: &[[f64; 3]; 6]) -> bool {
    super::wedge_contains(&point, &p[0], &p[1], &p[2], &p[3], &p[4], &p[5])
}

pub fn hex_contains(point: [f64; 3], p: &[[f64; 3]; 8]) -> bool {
    super::hex_contains(&point, p)
}

// Planes and clipping.

fn in_fours(plane: Plane) -> [f64; 4] {
    let [x, y, z] = plane.n;
    [x, y, z, plane.d]
}

fn plane([x, y, z, d]: [f64; 4]) -> Plane {
    Plane { n: [x, y, z], d }
}

/// The plane of one face, its normal of length 1. Here `plain` and `ruled` differ.
pub fn plane_of_face(points: &[[f64; 3]], face: &[usize]) -> [f64; 4] {
    in_fours(super::plane_of_face(points, face))
}

pub fn plane_same_side(a: [f64; 4], b: [f64; 4], tolerance: f64) -> bool {
    super::plane_same_side(plane(a), plane(b), tolerance)
}

pub fn plane_coplanar_opposite(a: [f64; 4], b: [f64; 4], tolerance: f64) -> bool {
    super::plane_coplanar_opposite(plane(a), plane(b), tolerance)
}

/// Planes in the Rust's own form, for callers that clip by them more than once.
pub struct Planes(Vec<Plane>);

impl Planes {
    pub fn new(planes: &[[f64; 4]]) -> Self {
        Planes(planes.iter().copied().map(plane).collect())
    }

    /// What is left of an outline inside all the planes, or `None`.
    pub fn clip_face(&self, outline: &[[f64; 3]], eps: f64) -> Option<Vec<[f64; 3]>> {
        super::clip_face_by_polyhedron(outline, &self.0, eps)
    }
}

/// What is left of an outline inside all the planes, or `None`.
pub fn clip_face_by_polyhedron(
    outline: &[[f64; 3]],
    planes: &[[f64; 4]],
    eps: f64,
) -> Option<Vec<[f64; 3]>> {
    Planes::new(planes).clip_face(outline, eps)
}

/// What is left of an outline after one cut, without the test of the whole plane before it.
pub fn clip_polygon_by_plane(outline: &[[f64; 3]], by: [f64; 4], eps: f64) -> Vec<[f64; 3]> {
    super::clip_polygon_by_plane(outline, &plane(by), eps)
}

/// Where the line from a to b crosses a plane from which they lie da and db away.
pub fn segment_plane_intersection(a: [f64; 3], b: [f64; 3], da: f64, db: f64) -> [f64; 3] {
    super::segment_plane_intersection(a, b, da, db)
}

pub fn remove_consecutive_duplicates(outline: &mut Vec<[f64; 3]>) {
    super::remove_consecutive_duplicates(outline)
}

/// What an outline adds to the volume about the reference point.
pub fn polygon_volume_contribution(outline: &[[f64; 3]], reference: [f64; 3]) -> f64 {
    super::polygon_volume_contribution(outline, reference)
}
