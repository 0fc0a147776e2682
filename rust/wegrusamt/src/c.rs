//! The C names of include/wegrusamt.h, and a safe function over slices for each. All unsafe code of
//! the crate is in this file.
//!
//! Why the calls are sound. An entry takes any numbers and any lengths, reads and writes only
//! inside the lists that it is lent, and keeps none of them: that is proved of it. What the header
//! asks besides, a slice gives by itself: a pointer that is aligned and never NULL, and a length in
//! elements. No list overlaps one that is written to, since that one is borrowed as `&mut`.

use crate::Plane;

/// Declares C names whose lists are read, whose numbers follow, and whose lists that are written
/// to come last: `c_name name(reads; numbers; writes);`.
macro_rules! entries {
    ($(
        $symbol:ident $name:ident(
            $($read:ident: $read_of:ty),*;
            $($number:ident: $number_of:ty),*;
            $($write:ident: $write_of:ty),*
        );
    )*) => { $(
        #[allow(clippy::too_many_arguments)]
        pub fn $name(
            $($read: &[$read_of],)*
            $($number: $number_of,)*
            $($write: &mut [$write_of],)*
        ) -> u8 {
            unsafe extern "C" {
                fn $symbol(
                    $($read: *const $read_of, _: usize,)*
                    $($number: $number_of,)*
                    $($write: *mut $write_of, _: usize,)*
                ) -> u8;
            }
            // SAFETY: see the head of this file.
            unsafe {
                $symbol(
                    $($read.as_ptr(), $read.len(),)*
                    $($number,)*
                    $($write.as_mut_ptr(), $write.len(),)*
                )
            }
        }
    )* };
}

entries! {
    wegrusamt_volume volume(coords: f64, corners: u32, ends: u32; ; out: f64);
    wegrusamt_centroid centroid(coords: f64, corners: u32, ends: u32; ; out: f64);
    wegrusamt_geometric_centroid geometric_centroid(
        coords: f64, corners: u32, ends: u32; ; out: f64
    );
    wegrusamt_bounds bounds(coords: f64, corners: u32, ends: u32; ; out: f64);
    wegrusamt_scale scale(coords: f64, corners: u32, ends: u32; ; out: f64);
    wegrusamt_closed closed(coords: f64, corners: u32, ends: u32; ; out: usize);
    wegrusamt_contains contains(
        coords: f64, corners: u32, ends: u32; x: f64, y: f64, z: f64; out: usize
    );
    wegrusamt_point_in_phed point_in_phed(
        coords: f64, corners: u32; x: f64, y: f64, z: f64; out: usize
    );
    wegrusamt_triangles triangles(
        coords: f64, corners: u32, ends: u32; face: u32; out: [u32; 3], count: usize
    );
    wegrusamt_triangle_places triangle_places(
        coords: f64, corners: u32, ends: u32; face: u32; out: [u32; 3], count: usize
    );
    wegrusamt_survey survey(
        coords: f64, corners: u32, ends: u32, queries: f64; ; counts: usize, volume: f64
    );
    wegrusamt_is_convex is_convex(coords: f64, corners: u32, ends: u32; shape: u8; out: usize);
    wegrusamt_describe describe(coords: f64, corners: u32, ends: u32; shape: u8; out: usize);
    wegrusamt_plane_of_face plane_of_face(
        coords: f64, corners: u32, ends: u32; face: u32; out: f64, area: usize
    );
    wegrusamt_no_area_faces no_area_faces(coords: f64, corners: u32, ends: u32; ; out: usize);
    wegrusamt_convex_intersection_volume convex_intersection_volume(
        coords: f64, corners: u32, ends: u32,
        other_coords: f64, other_corners: u32, other_ends: u32; ;
        first: f64, second: f64, out: f64, no_area: usize
    );

    wegrusamt_clip_convex clip_convex(
        subject: f64, clip: f64; ; first: f64, second: f64, shown: usize
    );
    wegrusamt_convex_intersection_area convex_intersection_area(
        subject: f64, clip: f64; ; first: f64, second: f64, out: f64
    );

    wegrusamt_newell_normal newell_normal(coords: f64; ; out: f64);
    wegrusamt_vertex_centroid vertex_centroid(coords: f64; ; out: f64);
    wegrusamt_list_bounds list_bounds(coords: f64; ; out: f64);
    wegrusamt_to_local to_local(; ; coords: f64, out: f64);
    wegrusamt_signed_area2 signed_area2(points: f64; ; out: f64);
    wegrusamt_vertex_centroid2 vertex_centroid2(points: f64; ; out: f64);
    wegrusamt_bounds2 bounds2(points: f64; ; out: f64);
    wegrusamt_into_ccw2 into_ccw2(; ; points: f64);

    wegrusamt_tet_volume tet_volume(p: f64; ; out: f64);
    wegrusamt_wedge_volume wedge_volume(p: f64; ; out: f64);
    wegrusamt_hex_volume hex_volume(p: f64; ; out: f64);
    wegrusamt_tet_contains tet_contains(p: f64; x: f64, y: f64, z: f64; out: usize);
    wegrusamt_wedge_contains wedge_contains(p: f64; x: f64, y: f64, z: f64; out: usize);
    wegrusamt_hex_contains hex_contains(p: f64; x: f64, y: f64, z: f64; out: usize);

    wegrusamt_project2 project2(; x: f64, y: f64, z: f64, axis: usize; out: f64);
    wegrusamt_segment_intersection segment_intersection(
        ;
        ax: f64, ay: f64, bx: f64, by: f64, px: f64, py: f64, qx: f64, qy: f64;
        out: f64
    );
    wegrusamt_segment_plane_intersection segment_plane_intersection(
        ;
        ax: f64, ay: f64, az: f64, bx: f64, by: f64, bz: f64, da: f64, db: f64;
        out: f64
    );
}

/// Turns the faces in `corners`, which stands between two lists that are read.
pub fn into_ccw(coords: &[f64], corners: &mut [u32], ends: &[u32]) -> u8 {
    unsafe extern "C" {
        fn wegrusamt_into_ccw(
            coords: *const f64,
            coords_len: usize,
            corners: *mut u32,
            corners_len: usize,
            ends: *const u32,
            ends_len: usize,
        ) -> u8;
    }
    // SAFETY: see the head of this file.
    unsafe {
        wegrusamt_into_ccw(
            coords.as_ptr(),
            coords.len(),
            corners.as_mut_ptr(),
            corners.len(),
            ends.as_ptr(),
            ends.len(),
        )
    }
}

/// Turns the backward faces in `corners`, and answers in `out` how many.
pub fn turn_faces(coords: &[f64], corners: &mut [u32], ends: &[u32], out: &mut [usize]) -> u8 {
    unsafe extern "C" {
        fn wegrusamt_turn_faces(
            coords: *const f64,
            coords_len: usize,
            corners: *mut u32,
            corners_len: usize,
            ends: *const u32,
            ends_len: usize,
            out: *mut usize,
            out_len: usize,
        ) -> u8;
    }
    // SAFETY: see the head of this file.
    unsafe {
        wegrusamt_turn_faces(
            coords.as_ptr(),
            coords.len(),
            corners.as_mut_ptr(),
            corners.len(),
            ends.as_ptr(),
            ends.len(),
            out.as_mut_ptr(),
            out.len(),
        )
    }
}

/// Checks triangles, whose places are passed after the number of corners.
pub fn check_cut(n: u32, places: &[u32], out: &mut [usize]) -> u8 {
    unsafe extern "C" {
        fn wegrusamt_check_cut(
            n: u32,
            places: *const u32,
            places_len: usize,
            out: *mut usize,
            out_len: usize,
        ) -> u8;
    }
    // SAFETY: see the head of this file.
    unsafe {
        wegrusamt_check_cut(
            n,
            places.as_ptr(),
            places.len(),
            out.as_mut_ptr(),
            out.len(),
        )
    }
}

// A list of planes passes as a list of numbers.
const _: () = assert!(size_of::<Plane>() == 4 * size_of::<f64>());

/// Clips a face; numbers stand on both sides of the planes.
#[allow(clippy::too_many_arguments)]
pub fn clip_face(
    coords: &[f64],
    corners: &[u32],
    ends: &[u32],
    face: u32,
    planes: &[Plane],
    eps: f64,
    first: &mut [f64],
    second: &mut [f64],
    shown: &mut [usize],
) -> u8 {
    unsafe extern "C" {
        fn wegrusamt_clip_face(
            coords: *const f64,
            coords_len: usize,
            corners: *const u32,
            corners_len: usize,
            ends: *const u32,
            ends_len: usize,
            face: u32,
            planes: *const f64,
            planes_len: usize,
            eps: f64,
            first: *mut f64,
            first_len: usize,
            second: *mut f64,
            second_len: usize,
            shown: *mut usize,
            shown_len: usize,
        ) -> u8;
    }
    // SAFETY: see the head of this file. A plane is four f64 in the order of its fields, with
    // nothing between them (repr(C)), and no slice is so long that four times its length overflows.
    unsafe {
        wegrusamt_clip_face(
            coords.as_ptr(),
            coords.len(),
            corners.as_ptr(),
            corners.len(),
            ends.as_ptr(),
            ends.len(),
            face,
            planes.as_ptr().cast(),
            4 * planes.len(),
            eps,
            first.as_mut_ptr(),
            first.len(),
            second.as_mut_ptr(),
            second.len(),
            shown.as_mut_ptr(),
            shown.len(),
        )
    }
}

/// Declares C names that take and answer plain numbers.
macro_rules! leaves {
    ($($symbol:ident $name:ident($($number:ident),*) -> $answer:ty;)*) => { $(
        #[allow(clippy::too_many_arguments)]
        pub fn $name($($number: f64),*) -> $answer {
            unsafe extern "C" {
                fn $symbol($($number: f64),*) -> $answer;
            }
            // SAFETY: no pointer passes.
            unsafe { $symbol($($number),*) }
        }
    )* };
}

leaves! {
    wegrusamt_magnitude magnitude(x) -> f64;
    wegrusamt_least least(a, b) -> f64;
    wegrusamt_largest largest(a, b) -> f64;
    wegrusamt_root root(x) -> f64;
    wegrusamt_hypot hypot(x, y) -> f64;
    wegrusamt_cross2 cross2(ax, ay, bx, by, cx, cy) -> f64;
    wegrusamt_dominant_axis dominant_axis(x, y, z) -> usize;
    wegrusamt_plane_same_side plane_same_side(ax, ay, az, ad, bx, by, bz, bd, tolerance) -> u8;
    wegrusamt_plane_coplanar_opposite plane_coplanar_opposite(
        ax, ay, az, ad, bx, by, bz, bd, tolerance
    ) -> u8;
}
