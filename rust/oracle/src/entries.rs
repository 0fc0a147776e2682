//! The functions that the line protocol offers. This file is compiled into the builds `plain` and
//! `ruled`.

use super::*;
use crate::Shape;
use crate::protocol::{CellLists, Show, Words};

type P2 = [f64; 2];
type P3 = [f64; 3];
type Plane4 = [f64; 4];
type Face = Vec<usize>;

/// Reads the arguments in order, makes sure that none is left over, and shows the answer.
macro_rules! ask {
    ($words:ident, $($argument:ident: $kind:ty),* => $answer:expr) => {{
        $(let $argument = $words.read::<$kind>()?;)*
        $words.end()?;
        Ok($answer.show())
    }};
}

/// The same for functions that change the list they are lent.
macro_rules! ask_changed {
    ($words:ident, $list:ident: $kind:ty => $call:expr) => {{
        let mut $list = $words.read::<$kind>()?;
        $words.end()?;
        $call;
        Ok($list.show())
    }};
}

pub(crate) fn answer(entry: &str, mut w: Words) -> Result<String, String> {
    match entry {
        // Flat rules.
        "cross2" => ask!(w, a: P2, b: P2, c: P2 => cross2(a, b, c)),
        "signed_area2" => ask!(w, points: Vec<P2> => signed_area2(&points)),
        "into_ccw2" => ask_changed!(w, points: Vec<P2> => into_ccw2(&mut points)),
        "newell_normal" => ask!(w, points: Vec<P3> => newell_normal(&points)),
        "newell_normal3" => ask!(w, points: Vec<P3> => newell_normal3(&points)),
        "dominant_axis" => ask!(w, normal: P3 => dominant_axis(normal)),
        "project2" => ask!(w, point: P3, axis: usize => project2(point, axis)),
        "vertex_centroid2" => ask!(w, points: Vec<P2> => vertex_centroid2(&points)),
        "vertex_centroid3" => ask!(w, points: Vec<P3> => vertex_centroid3(&points)),
        "bounds_iter2" => ask!(w, points: Vec<P2> => bounds_iter2(&points)),
        "bounds_iter3" => ask!(w, points: Vec<P3> => bounds_iter3(&points)),
        "area_polygon3" => ask!(w, points: Vec<P3> => area_polygon3(&points)),
        "in_bezier_polygon" => {
            ask!(w, point: P2, outline: Vec<P2> => in_bezier_polygon(point, &outline))
        }
        "polygon2_is_convex" => ask!(w, points: Vec<P2> => polygon2_is_convex(&points)),
        "polygon2_contains" => {
            ask!(w, points: Vec<P2>, point: P2 => polygon2_contains(&points, point))
        }
        "clip_convex" => {
            ask!(w, subject: Vec<P2>, clip: Vec<P2> => clip_convex(&subject, &clip))
        }
        "segment_intersection" => {
            ask!(w, a: P2, b: P2, p: P2, q: P2 => segment_intersection(a, b, p, q))
        }
        "convex_intersection_area" => {
            ask!(w, p: Vec<P2>, q: Vec<P2> => convex_intersection_area(&p, &q))
        }

        // Faces.
        "ear_clip_triangles" => {
            ask!(w, points: Vec<P3>, face: Face => ear_clip_triangles(&points, &face))
        }
        "point_in_triangle_strict" => {
            ask!(w, p: P2, a: P2, b: P2, c: P2, direction: f64
                => point_in_triangle_strict(p, a, b, c, direction))
        }
        "triple_product" => ask!(w, a: P3, b: P3, c: P3 => triple_product(a, b, c)),
        "face_plane" => ask!(w, points: Vec<P3>, face: Face => face_plane(&points, &face)),
        "ray_crosses_face" => {
            ask!(w, point: P3, points: Vec<P3>, face: Face
                => ray_crosses_face(point, &points, &face))
        }
        "point_in_phed" => {
            ask!(w, point: P3, points: Vec<P3>, corners: Vec<u32>
                => point_in_phed(point, &points, &corners))
        }

        // Fixed shapes.
        "tet_volume" => ask!(w, p: [P3; 4] => tet_volume(&p)),
        "wedge_volume" => ask!(w, p: [P3; 6] => wedge_volume(&p)),
        "hex_volume" => ask!(w, p: [P3; 8] => hex_volume(&p)),
        "tet_contains" => ask!(w, point: P3, p: [P3; 4] => tet_contains(point, &p)),
        "wedge_contains" => ask!(w, point: P3, p: [P3; 6] => wedge_contains(point, &p)),
        "hex_contains" => ask!(w, point: P3, p: [P3; 8] => hex_contains(point, &p)),

        // Planes and clipping.
        "plane_of_face" => ask!(w, points: Vec<P3>, face: Face => plane_of_face(&points, &face)),
        "plane_same_side" => {
            ask!(w, a: Plane4, b: Plane4, tolerance: f64 => plane_same_side(a, b, tolerance))
        }
        "plane_coplanar_opposite" => {
            ask!(w, a: Plane4, b: Plane4, tolerance: f64
                => plane_coplanar_opposite(a, b, tolerance))
        }
        "clip_face_by_polyhedron" => {
            ask!(w, outline: Vec<P3>, planes: Vec<Plane4>, eps: f64
                => clip_face_by_polyhedron(&outline, &planes, eps))
        }
        "clip_polygon_by_plane" => {
            ask!(w, outline: Vec<P3>, plane: Plane4, eps: f64
                => clip_polygon_by_plane(&outline, plane, eps))
        }
        "segment_plane_intersection" => {
            ask!(w, a: P3, b: P3, da: f64, db: f64 => segment_plane_intersection(a, b, da, db))
        }
        "remove_consecutive_duplicates" => {
            ask_changed!(w, outline: Vec<P3> => remove_consecutive_duplicates(&mut outline))
        }
        "polygon_volume_contribution" => {
            ask!(w, outline: Vec<P3>, reference: P3
                => polygon_volume_contribution(&outline, reference))
        }

        // Cells.
        "volume" => ask!(w, cell: CellLists => volume(cell.cell())),
        "signed_volume6" => ask!(w, cell: CellLists => signed_volume6(cell.cell())),
        "centroid" => ask!(w, cell: CellLists => centroid(cell.cell())),
        "geometric_centroid" => ask!(w, cell: CellLists => geometric_centroid(cell.cell())),
        "bounds" => ask!(w, cell: CellLists => bounds(cell.cell())),
        "scale" => ask!(w, cell: CellLists => scale(cell.cell())),
        "contains" => ask!(w, cell: CellLists, point: P3 => contains(cell.cell(), point)),
        "is_convex" => ask!(w, cell: CellLists, shape: Shape => is_convex(cell.cell(), shape)),
        "compute_convexity" => ask!(w, cell: CellLists => compute_convexity(cell.cell())),
        "into_ccw" => ask!(w, cell: CellLists => into_ccw(cell.cell())),
        "face_triangles" => ask!(w, cell: CellLists => face_triangles(cell.cell())),
        "planes" => ask!(w, cell: CellLists => planes(cell.cell())),
        "convex_intersection_volume" => {
            ask!(w, first: CellLists, second: CellLists
                => convex_intersection_volume(first.cell(), second.cell()))
        }
        "convex_intersection_volume_impl" => {
            ask!(w, first: CellLists, second: CellLists
                => convex_intersection_volume_impl(first.cell(), second.cell()))
        }
        _ => Err(format!("`{entry}` is no function of the oracle")),
    }
}
