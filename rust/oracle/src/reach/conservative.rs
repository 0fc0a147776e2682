//! Planar clipping, from `conservative_p0.rs`.

/// What is left of `subject` (counter-clockwise) inside `clip` (counter-clockwise).
pub fn clip_convex(subject: &[[f64; 2]], clip: &[[f64; 2]]) -> Vec<[f64; 2]> {
    super::clip_convex(subject, clip)
}

/// Where the line through a and b meets the line through p and q; q when they are parallel.
pub fn segment_intersection(a: [f64; 2], b: [f64; 2], p: [f64; 2], q: [f64; 2]) -> [f64; 2] {
    super::segment_intersection(a, b, p, q)
}

/// The area that two convex outlines share.
pub fn convex_intersection_area(p: &[[f64; 2]], q: &[[f64; 2]]) -> f64 {
    super::convex_intersection_area(p, q)
}
