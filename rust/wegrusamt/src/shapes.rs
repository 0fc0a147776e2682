//! The tetrahedron, the wedge and the hexahedron, as arrays of their corners. They take any bits
//! and refuse nothing; the array's length stands for the one thing that the C names refuse.
//!
//! A wedge has its lower three corners and then the three above them, a hexahedron its lower four,
//! around the face, and then the four above them.

use crate::c;
use crate::refusal::answered;

/// The signed volume of a tetrahedron: positive where the last corner is on the side to which the
/// first three run counterclockwise.
///
/// ```
/// let corner = [[0.0, 0.0, 0.0], [1.0, 0.0, 0.0], [0.0, 1.0, 0.0], [0.0, 0.0, 1.0]];
/// assert_eq!(wegrusamt::shapes::tet_volume(&corner), 1.0 / 6.0);
/// ```
pub fn tet_volume(p: &[[f64; 3]; 4]) -> f64 {
    let mut out = [0.0];
    answered(c::tet_volume(p.as_flattened(), &mut out));
    out[0]
}

/// The signed volume of a wedge, as the sum of three tetrahedra.
pub fn wedge_volume(p: &[[f64; 3]; 6]) -> f64 {
    let mut out = [0.0];
    answered(c::wedge_volume(p.as_flattened(), &mut out));
    out[0]
}

/// The signed volume of a hexahedron, as the sum of six tetrahedra.
pub fn hex_volume(p: &[[f64; 3]; 8]) -> f64 {
    let mut out = [0.0];
    answered(c::hex_volume(p.as_flattened(), &mut out));
    out[0]
}

/// Whether the tetrahedron contains the point.
///
/// ```
/// let corner = [[0.0, 0.0, 0.0], [1.0, 0.0, 0.0], [0.0, 1.0, 0.0], [0.0, 0.0, 1.0]];
/// assert!(wegrusamt::shapes::tet_contains(&corner, [0.25, 0.25, 0.25]));
/// assert!(!wegrusamt::shapes::tet_contains(&corner, [0.5, 0.5, 0.5]));
/// ```
pub fn tet_contains(p: &[[f64; 3]; 4], [x, y, z]: [f64; 3]) -> bool {
    let mut out = [0];
    answered(c::tet_contains(p.as_flattened(), x, y, z, &mut out));
    out[0] != 0
}

/// Whether the wedge contains the point.
pub fn wedge_contains(p: &[[f64; 3]; 6], [x, y, z]: [f64; 3]) -> bool {
    let mut out = [0];
    answered(c::wedge_contains(p.as_flattened(), x, y, z, &mut out));
    out[0] != 0
}

/// Whether the hexahedron contains the point.
pub fn hex_contains(p: &[[f64; 3]; 8], [x, y, z]: [f64; 3]) -> bool {
    let mut out = [0];
    answered(c::hex_contains(p.as_flattened(), x, y, z, &mut out));
    out[0] != 0
}
