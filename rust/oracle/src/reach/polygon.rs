//! The flat rules, from `polygon.rs`.

/// (b - a) × (c - a), rounded at each step.
pub fn cross2(a: [f64; 2], b: [f64; 2], c: [f64; 2]) -> f64 {
    super::cross2(a, b, c)
}

/// The area of an outline, positive when it runs counter-clockwise.
pub fn signed_area2(points: &[[f64; 2]]) -> f64 {
    super::signed_area2(points)
}

/// Reverses an outline that runs clockwise.
pub fn into_ccw2(points: &mut [[f64; 2]]) {
    super::into_ccw2(points)
}

/// The Newell sums of a face given by its points, as cutting and the ray test take them.
pub fn newell_normal(points: &[[f64; 3]]) -> [f64; 3] {
    super::newell_normal(points)
}

/// The Newell sums in the other form, as the area takes them.
pub fn newell_normal3(points: &[[f64; 3]]) -> [f64; 3] {
    super::newell_normal3(points)
}

/// The axis of the largest part: 0, 1 or 2.
pub fn dominant_axis(normal: [f64; 3]) -> usize {
    super::dominant_axis(normal)
}

/// The point with the given axis dropped.
pub fn project2(point: [f64; 3], axis: usize) -> [f64; 2] {
    super::project2(point, axis)
}

/// The mean of points in the plane.
pub fn vertex_centroid2(points: &[[f64; 2]]) -> [f64; 2] {
    super::vertex_centroid(points)
}

/// The mean of points in space.
pub fn vertex_centroid3(points: &[[f64; 3]]) -> [f64; 3] {
    super::vertex_centroid(points)
}

/// The least and the greatest of each coordinate, in the plane (`bounds_iter`).
pub fn bounds_iter2(points: &[[f64; 2]]) -> [[f64; 2]; 2] {
    super::bounds_iter(points.iter().copied())
}

/// The least and the greatest of each coordinate, in space (`bounds_iter`).
pub fn bounds_iter3(points: &[[f64; 3]]) -> [[f64; 3]; 2] {
    super::bounds_iter(points.iter().copied())
}

/// The area of a face given by its points.
pub fn area_polygon3(points: &[[f64; 3]]) -> f64 {
    super::area_polygon3(points)
}

/// Whether an outline with curved sides contains the point: vertices, then as many control points.
pub fn in_bezier_polygon(point: [f64; 2], outline: &[[f64; 2]]) -> bool {
    super::in_bezier_polygon(&point, outline)
}

/// `Polygon::<2>::is_convex` of an outline of unknown shape. Whole coordinates only.
pub fn polygon2_is_convex(points: &[[f64; 2]]) -> bool {
    super::Polygon::unknown(points.iter().copied()).is_convex()
}

/// `Polygon::<2>::contains` of an outline of unknown shape. Whole coordinates only.
pub fn polygon2_contains(points: &[[f64; 2]], point: [f64; 2]) -> bool {
    super::Polygon::unknown(points.iter().copied()).contains(&point)
}
