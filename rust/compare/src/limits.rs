//! The limits of SCOPE 3.

pub const MOST_VERTICES: usize = 256;
pub const MOST_FACES: usize = 256;
pub const MOST_CORNERS: usize = 2048;
pub const MOST_PLANES: usize = 256;

/// Query points of one survey.
pub const MOST_QUERIES: usize = 256;

/// Entries of the one list of `point_in_phed`, and the entry that ends a face in it.
pub const LONGEST_LIST: usize = 2304;
pub const FACE_END: u32 = u32::MAX;

/// Points of the plane in one list.
pub const MOST_POINTS: usize = 512;

/// Numbers in a work list.
pub const LONGEST_WORK: usize = 3072;

/// 2^40, the largest magnitude of a coordinate.
pub const LARGEST: f64 = 1_099_511_627_776.0;

/// Numbers that are refused as a coordinate or a query value.
pub const BAD_NUMBERS: [f64; 4] = [
    f64::NAN,
    f64::INFINITY,
    LARGEST.next_up(),
    -LARGEST.next_up(),
];

/// Brings a coordinate into the domain.
pub fn clamped(value: f64) -> f64 {
    value.clamp(-LARGEST, LARGEST)
}
