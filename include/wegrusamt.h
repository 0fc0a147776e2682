/* Wegrusamt under C names: cells with flat faces, measured as docs/SCOPE.md says, every function proved.
 *
 * Link with the archive that `rust/archive` builds (target/staticlib/libabi.a); no other library is needed,
 * not even -lm. examples/volume.c is a program that does so.
 *
 * Lists. A list is a pointer and then its length in elements; an element is one number, save in the list that
 * triangles are written to, where it is three. The pointer is aligned for its elements and never NULL; where the
 * length is 0 it need not point to anything. A list that is written to (its pointer is not const) overlaps no
 * other list of the call; lists that are only read may overlap. Nothing is kept after a call, and there is no
 * state: threads may call at the same time with lists of their own.
 *
 * A cell is three lists: coords, three numbers a vertex; corners, vertex numbers from 0; ends, where each face
 * ends in corners (face k runs from the end before it, 0 for the first, up to its own).
 *
 * Answers. A function that returns uint8_t returns 0, or the number of a refusal by SCOPE 3 (save the two tests of
 * planes, which return yes or no):
 *   1 size    coordinates or query values not in threes (in pairs in the plane; planes in fours); 0 or over 256
 *             vertices, or points of a list of space; over 256 faces, 2,048 corners, 256 planes, 256 query points
 *             or 512 points of the plane; a work list over 3,072 numbers; a face to check of under 3 or over 256
 *             corners, places of triangles not in threes, or over 254 triangles
 *   2 number  a coordinate or query value is NaN, infinite or above 2^40 in magnitude
 *   3 ends    ends fall, or the last is not the corner count
 *   4 index   a corner not below the vertex count, a face number not below the face count, or a place of a face to
 *             check not below its corner count
 *   5 empty   any face of no corners (planes, faces of no area, outward turning and intersection only)
 *  11 sides   a side between two different vertices, taken without direction, does not occur exactly twice over
 *             all faces, or a face holds a vertex twice (turning of backward faces only)
 *  12 choice  no choice of faces to reverse closes the cell (turning of backward faces only)
 *  15 inexact a coordinate less the local origin is not a double (to_local only)
 *   6 room    a list that is written to is too short
 * The first that applies is returned: in this order, and for two cells 1 to 5 of the first, then of the second,
 * then 6. Work lists and query values are judged with the first cell's 1 and 2.
 *
 * On 0 each list for answers (out, count, counts, volume, shown, area, no_area) has its values at its front; what
 * stands behind them is as it was. A refused call leaves every list as it was, save the two work lists on a refusal
 * 6.
 *
 * Work lists (clipping and overlaps): `first` and `second` are lent to work in, and their numbers before the call
 * do not matter. A refusal 1 to 5 leaves both as they were. After any other call, refused by 6 or not, every
 * number in both is +0, save the outline that clipping shows at the front of one. Room is short when a face or
 * subject to be clipped, or an outline on the way, has more points than the shorter of the two holds; 3,072
 * numbers each is the most that may be lent.
 *
 * Stack. Nothing is allocated; a call works on the stack, at its largest inputs with at most 133,000 bytes in
 * turn_faces, 96,000 in triangle_places, 66,000 in volume, geometric_centroid and survey, 38,000 in triangles,
 * 26,000 in convex_intersection_volume, 12,000 in closed, 4,000 in check_cut, and 1,000 in every other. It is
 * measured (tests/stack), not proved.
 */
#ifndef WEGRUSAMT_H
#define WEGRUSAMT_H

#include <stddef.h>
#include <stdint.h>

#ifdef __cplusplus
extern "C" {
#endif

/* ---- a cell: refusals 1 to 4, and 6 ---- */

/* The volume: |v6| / 6, v6 being the sum of the triangles' triple products about the mean of the vertices.
 * out: 1 number. */
uint8_t wegrusamt_volume(const double *coords, size_t coords_len, const uint32_t *corners, size_t corners_len,
                         const uint32_t *ends, size_t ends_len, double *out, size_t out_len);

/* The mean of the vertices. out: x, y, z. */
uint8_t wegrusamt_centroid(const double *coords, size_t coords_len, const uint32_t *corners, size_t corners_len,
                           const uint32_t *ends, size_t ends_len, double *out, size_t out_len);

/* The centroid of the volume; the first vertex when |v6| < 1e-30. out: x, y, z. */
uint8_t wegrusamt_geometric_centroid(const double *coords, size_t coords_len, const uint32_t *corners,
                                     size_t corners_len, const uint32_t *ends, size_t ends_len, double *out,
                                     size_t out_len);

/* The box of all vertices. out: least x, y, z, largest x, y, z. */
uint8_t wegrusamt_bounds(const double *coords, size_t coords_len, const uint32_t *corners, size_t corners_len,
                         const uint32_t *ends, size_t ends_len, double *out, size_t out_len);

/* The longest side of that box. out: 1 number. */
uint8_t wegrusamt_scale(const double *coords, size_t coords_len, const uint32_t *corners, size_t corners_len,
                        const uint32_t *ends, size_t ends_len, double *out, size_t out_len);

/* Whether face sides i to j are as many as j to i, for all vertices i and j that differ. out: 1 or 0. */
uint8_t wegrusamt_closed(const double *coords, size_t coords_len, const uint32_t *corners, size_t corners_len,
                         const uint32_t *ends, size_t ends_len, size_t *out, size_t out_len);

/* Whether the ray from (x, y, z) along +x crosses an odd number of faces. out: 1 or 0. */
uint8_t wegrusamt_contains(const double *coords, size_t coords_len, const uint32_t *corners, size_t corners_len,
                           const uint32_t *ends, size_t ends_len, double x, double y, double z, size_t *out,
                           size_t out_len);

/* The same over one corner list, in which 4294967295 ends a face; faces under 3 corners are skipped. The list has
 * at most 2,304 entries, else 1. Refusals 1, 2, 4, 6. out: 1 or 0. */
uint8_t wegrusamt_point_in_phed(const double *coords, size_t coords_len, const uint32_t *corners,
                                size_t corners_len, double x, double y, double z, size_t *out, size_t out_len);

/* The triangles of one face. out: three vertex numbers a triangle; out_len counts triangles, and a face of n >= 3
 * corners needs n - 2 places, even where the cut stops short. count: 2 numbers, how many triangles there are and
 * how many tests the cut made. A test asks whether the turn at a corner of the ring that is left, times the
 * direction of the face, is at least 0; a ring of three is not tested. There are at most n * n + n - 12 tests for
 * n >= 3, and none below; after a test at most n points of the ring are held against the corner's triangle. */
uint8_t wegrusamt_triangles(const double *coords, size_t coords_len, const uint32_t *corners, size_t corners_len,
                            const uint32_t *ends, size_t ends_len, uint32_t face, uint32_t (*out)[3],
                            size_t out_len, size_t *count, size_t count_len);

/* The same triangles by place: each number in out is the corner's place in the face's own corner list, from 0 to
 * n - 1, and not its vertex number. Looked up in that list the places are the numbers of wegrusamt_triangles, in the
 * same order. Refusals and room are as there, and so is count: 2 numbers, the triangles and the tests. */
uint8_t wegrusamt_triangle_places(const double *coords, size_t coords_len, const uint32_t *corners,
                                  size_t corners_len, const uint32_t *ends, size_t ends_len, uint32_t face,
                                  uint32_t (*out)[3], size_t out_len, size_t *count, size_t count_len);

/* All that the cell report says of a cell. queries: three numbers a point, at most 256 points. counts: triangles,
 * closed (1 or 0), faces cut short, query points contained. volume: 1 number. */
uint8_t wegrusamt_survey(const double *coords, size_t coords_len, const uint32_t *corners, size_t corners_len,
                         const uint32_t *ends, size_t ends_len, const double *queries, size_t queries_len,
                         size_t *counts, size_t counts_len, double *volume, size_t volume_len);

/* Whether the cell is convex. shape: what is known of it, 0 convex, 1 concave, any other number unknown; what is
 * known is answered, and only the unknown is computed. out: 1 or 0. */
uint8_t wegrusamt_is_convex(const double *coords, size_t coords_len, const uint32_t *corners, size_t corners_len,
                            const uint32_t *ends, size_t ends_len, uint8_t shape, size_t *out, size_t out_len);

/* What the lists hold, where nothing is wrong with them. shape: as above. out: how many vertices, corners and
 * faces, and the shape as 0 convex, 1 concave, 2 unknown. */
uint8_t wegrusamt_describe(const double *coords, size_t coords_len, const uint32_t *corners, size_t corners_len,
                           const uint32_t *ends, size_t ends_len, uint8_t shape, size_t *out, size_t out_len);

/* ---- a cell: refusals 1 to 4, then 11, then 12, and 6 ---- */

/* Turns the backward faces: reverses faces in the corner list, each in its own stretch, so that the cell becomes
 * closed; a, b, c, d becomes d, c, b, a. Of each group of faces joined by sides the lowest-numbered keeps its
 * direction. A face of no corners is not refused. out: 1 number, how many faces were reversed. */
uint8_t wegrusamt_turn_faces(const double *coords, size_t coords_len, uint32_t *corners, size_t corners_len,
                             const uint32_t *ends, size_t ends_len, size_t *out, size_t out_len);

/* ---- a cell: refusals 1 to 5, and 6 ---- */

/* Turns every face outward: reverses, in the corner list, each face whose normal points to the mean of the
 * vertices. Nothing else is written, so 6 cannot be. */
uint8_t wegrusamt_into_ccw(const double *coords, size_t coords_len, uint32_t *corners, size_t corners_len,
                           const uint32_t *ends, size_t ends_len);

/* The plane of one face, or that the face has no area: that its three Newell sums, as they are computed, are all 0.
 * area: 1 number, 1 for a plane and 0 for no area. out: of a plane, the unit normal x, y, z, then the offset; inside
 * is normal . p <= offset. Of a face that has no area nothing is written to out, which may then be of any length. A
 * normal that only underflows in its length stays a plane: where the norm, wegrusamt_hypot(wegrusamt_hypot(x, y), z)
 * of the sums, is not 0 but at most 2^-1024, 1 / norm overflows, a part of the normal is NaN where its sum is 0 and
 * infinite elsewhere, and the offset is NaN or infinite. Every other plane is finite. */
uint8_t wegrusamt_plane_of_face(const double *coords, size_t coords_len, const uint32_t *corners,
                                size_t corners_len, const uint32_t *ends, size_t ends_len, uint32_t face,
                                double *out, size_t out_len, size_t *area, size_t area_len);

/* Which faces have no area, as above, so that a tracer is told where to look. out: a number for each face in order,
 * 1 where it has no area and 0 where it has a plane. */
uint8_t wegrusamt_no_area_faces(const double *coords, size_t coords_len, const uint32_t *corners,
                                size_t corners_len, const uint32_t *ends, size_t ends_len, size_t *out,
                                size_t out_len);

/* The volume that two cells share. That both are convex, with faces turned outward, is not checked. out: 1
 * number. no_area: 2 numbers, how many faces of the first cell and of the second have no area, counted over all
 * faces, even where the boxes of the cells miss each other. Refusals 1 to 5 of the first cell, 1 to 5 of the second,
 * then 6. */
uint8_t wegrusamt_convex_intersection_volume(const double *coords, size_t coords_len, const uint32_t *corners,
                                             size_t corners_len, const uint32_t *ends, size_t ends_len,
                                             const double *other_coords, size_t other_coords_len,
                                             const uint32_t *other_corners, size_t other_corners_len,
                                             const uint32_t *other_ends, size_t other_ends_len, double *first,
                                             size_t first_len, double *second, size_t second_len, double *out,
                                             size_t out_len, size_t *no_area, size_t no_area_len);

/* ---- triangles over the places of a face: refusals 1, 4, and 6 ---- */

/* Whether triangles are a cut of a face of n corners, 3 to 256. places: corner places of the face, 0 to n - 1,
 * three a triangle, in one list of numbers. Yes exactly when there are n - 2 triangles of three different places
 * each, each side of the face (from a place to the next, and from the last to the first) occurs in exactly one
 * triangle in its own direction and in none reversed, and every other side that occurs does so once each way.
 * Where the points lie is not asked. What wegrusamt_triangle_places gives for a fully cut face of 3 to 256 corners
 * is such a cut: its count[0] triangles are 3 * count[0] numbers here, from &out[0][0] on. out: 1 or 0. */
uint8_t wegrusamt_check_cut(uint32_t n, const uint32_t *places, size_t places_len, size_t *out, size_t out_len);

/* ---- clipping ---- */

/* One face clipped by planes: what is left of it within eps of their insides. planes: four numbers each, normal
 * first; they and eps are taken as they are, any bits. shown: 2 numbers, how many points are left (0: nothing),
 * and 0 or 1 for the work list, first or second, that shows them at its front. Refusals 1 to 4, 6. */
uint8_t wegrusamt_clip_face(const double *coords, size_t coords_len, const uint32_t *corners, size_t corners_len,
                            const uint32_t *ends, size_t ends_len, uint32_t face, const double *planes,
                            size_t planes_len, double eps, double *first, size_t first_len, double *second,
                            size_t second_len, size_t *shown, size_t shown_len);

/* A subject in the plane clipped by every edge of another outline, two numbers a point. That both are convex and
 * counterclockwise is not checked. shown: as above. Refusals 1 and 2 of the subject, then of the clip list, then
 * 6. */
uint8_t wegrusamt_clip_convex(const double *subject, size_t subject_len, const double *clip, size_t clip_len,
                              double *first, size_t first_len, double *second, size_t second_len, size_t *shown,
                              size_t shown_len);

/* The area of what is left of it. out: 1 number. Refusals as above. */
uint8_t wegrusamt_convex_intersection_area(const double *subject, size_t subject_len, const double *clip,
                                           size_t clip_len, double *first, size_t first_len, double *second,
                                           size_t second_len, double *out, size_t out_len);

/* ---- lists of points: refusals 1 and 2 (to_local: then 15), and 6 ---- */

/* Of space: the Newell sums, the mean, the box (least x, y, z, largest x, y, z). out: 3, 3 and 6 numbers. */
uint8_t wegrusamt_newell_normal(const double *coords, size_t coords_len, double *out, size_t out_len);
uint8_t wegrusamt_vertex_centroid(const double *coords, size_t coords_len, double *out, size_t out_len);
uint8_t wegrusamt_list_bounds(const double *coords, size_t coords_len, double *out, size_t out_len);

/* Moves the vertices of a cell to a local origin, in their own list: takes one vector of whole numbers off each, the
 * first vertex's coordinates brought to whole numbers towards zero. Every difference is exact, so a cell keeps its
 * exact volume over the same triangles (docs/LIMITS.md); where one would be rounded the call is refused by 15, after
 * 1 and 2, and the list is as it was. Of a list wider than 2^40 a moved number can be above 2^40 in magnitude, and
 * calls then refuse it by 2. out: the vector x, y, z. */
uint8_t wegrusamt_to_local(double *coords, size_t coords_len, double *out, size_t out_len);

/* Of the plane: the signed area, the mean, the box (least x, y, largest x, y). out: 1, 2 and 4 numbers. No points
 * have the area 0, a mean of NaN, and a box from +infinity to -infinity. */
uint8_t wegrusamt_signed_area2(const double *points, size_t points_len, double *out, size_t out_len);
uint8_t wegrusamt_vertex_centroid2(const double *points, size_t points_len, double *out, size_t out_len);
uint8_t wegrusamt_bounds2(const double *points, size_t points_len, double *out, size_t out_len);

/* Turns an outline of the plane counterclockwise: reverses it where its signed area is below 0. */
uint8_t wegrusamt_into_ccw2(double *points, size_t points_len);

/* ---- fixed shapes: any bits, and only a wrong length (1) or no room (6) is refused ---- */

/* Signed volumes of a tetrahedron, wedge or hexahedron. p: its 4, 6 or 8 corners, three numbers each (a wedge's
 * lower three, then those above them; a hexahedron's lower four around, then those above them). out: 1 number. */
uint8_t wegrusamt_tet_volume(const double *p, size_t p_len, double *out, size_t out_len);
uint8_t wegrusamt_wedge_volume(const double *p, size_t p_len, double *out, size_t out_len);
uint8_t wegrusamt_hex_volume(const double *p, size_t p_len, double *out, size_t out_len);

/* Whether the shape contains (x, y, z). out: 1 or 0. */
uint8_t wegrusamt_tet_contains(const double *p, size_t p_len, double x, double y, double z, size_t *out,
                               size_t out_len);
uint8_t wegrusamt_wedge_contains(const double *p, size_t p_len, double x, double y, double z, size_t *out,
                                 size_t out_len);
uint8_t wegrusamt_hex_contains(const double *p, size_t p_len, double x, double y, double z, size_t *out,
                               size_t out_len);

/* ---- leaves on points and planes: any bits; only no room (6) is refused ---- */

/* (b - a) x (c - a), each step rounded once. */
double wegrusamt_cross2(double ax, double ay, double bx, double by, double cx, double cy);

/* The axis along which a normal is longest, 0, 1 or 2, the earlier one on a tie. */
size_t wegrusamt_dominant_axis(double x, double y, double z);

/* The point without that axis; any number but 0 and 1 drops z. out: 2 numbers. */
uint8_t wegrusamt_project2(double x, double y, double z, size_t axis, double *out, size_t out_len);

/* Where the line from a to b meets that from p to q; q when the denominator is 0. out: x, y. */
uint8_t wegrusamt_segment_intersection(double ax, double ay, double bx, double by, double px, double py, double qx,
                                       double qy, double *out, size_t out_len);

/* Where the way from a to b crosses a plane from which they are da and db away; it need not lie between them.
 * out: x, y, z. */
uint8_t wegrusamt_segment_plane_intersection(double ax, double ay, double az, double bx, double by, double bz,
                                             double da, double db, double *out, size_t out_len);

/* Whether the planes a and b (a normal, then an offset) are the same with the inside on the same side, or on
 * opposite sides, up to the tolerance. They return 1 for yes and 0 for no, and no refusal. */
uint8_t wegrusamt_plane_same_side(double ax, double ay, double az, double ad, double bx, double by, double bz,
                                  double bd, double tolerance);
uint8_t wegrusamt_plane_coplanar_opposite(double ax, double ay, double az, double ad, double bx, double by,
                                          double bz, double bd, double tolerance);

/* ---- leaves on double: any bits, nothing refused ---- */

/* |x|; the lesser and the larger (the other one where one is NaN, the first on a tie); the correctly rounded
 * square root; hypot as IEEE 754 recommends it, the double nearest to the exact root of the exact sum of squares,
 * ties to even (of an infinity and anything, a NaN too, +infinity; of a NaN and anything else a NaN; of two zeros
 * +0); the bits of a double, and the double of bits. */
double wegrusamt_magnitude(double x);
double wegrusamt_least(double a, double b);
double wegrusamt_largest(double a, double b);
double wegrusamt_root(double x);
double wegrusamt_hypot(double x, double y);
uint64_t wegrusamt_pattern(double x);
double wegrusamt_of_pattern(uint64_t b);

#ifdef __cplusplus
}
#endif

#endif
