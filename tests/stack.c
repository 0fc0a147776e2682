/* How much stack each C name takes, at its largest inputs: it runs on a stack of its own that was painted before, and what
 * is no longer painted was used. Prints a line a call, and ends with 1 where a call takes more than include/wegrusamt.h says.
 * tests/stack builds and runs it. */
#include <stdio.h>
#include <stdlib.h>
#include <string.h>
#include <ucontext.h>
#include "wegrusamt.h"

enum { SIZE = 1 << 20, PAINT = 0xA5, RING = 16, VERTICES = RING * RING, MOST = 2048 };

static unsigned char *stack;
static ucontext_t back, there;
static double coords[3 * VERTICES], far_coords[3 * VERTICES], queries[768], first[3072], second[3072], planes[1024], plane[1024];
static double to_move[3 * VERTICES];
static uint32_t torus[4 * VERTICES], thin[4 * VERTICES], torus_ends[VERTICES], wide[MOST], wide_ends[VERTICES], one[MOST], one_end[1], marked[2304];
static uint32_t triangles[MOST][3], fan[3 * (VERTICES - 2)];
static double out[8];
static size_t counts[4], flags[VERTICES];
static uint8_t code;

/* a ring of rings, 256 vertices and 256 quadrangles, closed; the same with eight corners a face; the same with the first face in one
 * point; one face of all corners; and the cut of a face of 256 corners from its first corner to all others */
static void make_cells(void) {
    for (int i = 0; i < RING; i++)
        for (int j = 0; j < RING; j++) {
            int v = RING * i + j;
            coords[3 * v] = i + 0.25 * j;
            coords[3 * v + 1] = j * j - 0.5 * i;
            coords[3 * v + 2] = (i * 7 + j * 3) % 11;
            for (int k = 0; k < 3; k++) far_coords[3 * v + k] = coords[3 * v + k] + 1;
            int right = RING * ((i + 1) % RING) + j, up = RING * i + (j + 1) % RING, over = RING * ((i + 1) % RING) + (j + 1) % RING;
            uint32_t face[4] = {v, right, over, up};
            memcpy(torus + 4 * v, face, sizeof face);
            memcpy(thin + 4 * v, face, sizeof face);
            torus_ends[v] = 4 * (v + 1);
            for (int k = 0; k < 4; k++) wide[8 * v + k] = wide[8 * v + 7 - k] = face[k];
            wide_ends[v] = 8 * (v + 1);
        }
    for (int k = 0; k < 4; k++) thin[k] = 0;
    for (int k = 0; k < 3 * VERTICES; k++) to_move[k] = coords[k] + 4000000;
    for (int k = 0; k < MOST; k++) one[k] = k % VERTICES;
    one_end[0] = MOST;
    for (int k = 0; k < VERTICES - 2; k++) fan[3 * k + 1] = k + 1, fan[3 * k + 2] = k + 2;
    for (int k = 0; k < 2304; k++) marked[k] = k % 9 == 8 ? UINT32_MAX : (uint32_t)(k % VERTICES);
    for (int k = 0; k < 256; k++) planes[4 * k] = 1, planes[4 * k + 3] = 14 - k / 32.0;
    for (int k = 0; k < 512; k++) plane[2 * k] = k, plane[2 * k + 1] = k % 7;
    for (int k = 0; k < 768; k++) queries[k] = k % 5;
}

#define TORUS coords, 3 * VERTICES, torus, 4 * VERTICES, torus_ends, VERTICES
#define WIDE coords, 3 * VERTICES, wide, MOST, wide_ends, VERTICES
#define ONE coords, 3 * VERTICES, one, MOST, one_end, 1
static void nothing(void) { code = 0; }
static void volume(void) { code = wegrusamt_volume(ONE, out, 8); }
static void geometric_centroid(void) { code = wegrusamt_geometric_centroid(ONE, out, 8); }
static void cut(void) { code = wegrusamt_triangles(ONE, 0, triangles, MOST, counts, 4); }
static void cut_by_place(void) { code = wegrusamt_triangle_places(ONE, 0, triangles, MOST, counts, 4); }
static void check_cut(void) { code = wegrusamt_check_cut(VERTICES, fan, 3 * (VERTICES - 2), counts, 4); }
static void closed(void) { code = wegrusamt_closed(WIDE, counts, 4); }
static void contains(void) { code = wegrusamt_contains(WIDE, 1, 2, 3, counts, 4); }
static void in_phed(void) { code = wegrusamt_point_in_phed(coords, 3 * VERTICES, marked, 2304, 1, 2, 3, counts, 4); }
static void survey(void) { code = wegrusamt_survey(WIDE, queries, 768, counts, 4, out, 8); }
static void survey_of_one_face(void) { code = wegrusamt_survey(ONE, queries, 768, counts, 4, out, 8); }
static void is_convex(void) { code = wegrusamt_is_convex(WIDE, 2, counts, 4); }
static void into_ccw(void) { code = wegrusamt_into_ccw(WIDE); }
static void turn_faces(void) { code = wegrusamt_turn_faces(TORUS, counts, 4); }
static void plane_of_face(void) { code = wegrusamt_plane_of_face(ONE, 0, out, 8, counts, 4); }
static void no_area_faces(void) { code = wegrusamt_no_area_faces(WIDE, flags, VERTICES); }
static void no_area_of_one_face(void) { code = wegrusamt_no_area_faces(ONE, flags, VERTICES); }
static void clip_face(void) { code = wegrusamt_clip_face(TORUS, 17, planes, 1024, 0, first, 3072, second, 3072, counts, 4); }
static void clip_convex(void) { code = wegrusamt_clip_convex(plane, 1024, plane, 1024, first, 3072, second, 3072, counts, 4); }
static void centroid(void) { code = wegrusamt_centroid(WIDE, out, 8); }
static void bounds(void) { code = wegrusamt_bounds(WIDE, out, 8); }
static void scale(void) { code = wegrusamt_scale(WIDE, out, 8); }
static void describe(void) { code = wegrusamt_describe(WIDE, 2, counts, 4); }
static void area(void) { code = wegrusamt_convex_intersection_area(plane, 1024, plane, 1024, first, 3072, second, 3072, out, 8); }
static void newell_normal(void) { code = wegrusamt_newell_normal(coords, 768, out, 8); }
static void vertex_centroid(void) { code = wegrusamt_vertex_centroid(coords, 768, out, 8); }
static void list_bounds(void) { code = wegrusamt_list_bounds(coords, 768, out, 8); }
static void to_local(void) { code = wegrusamt_to_local(to_move, 3 * VERTICES, out, 8); }
static void signed_area2(void) { code = wegrusamt_signed_area2(plane, 1024, out, 8); }
static void vertex_centroid2(void) { code = wegrusamt_vertex_centroid2(plane, 1024, out, 8); }
static void bounds2(void) { code = wegrusamt_bounds2(plane, 1024, out, 8); }
static void into_ccw2(void) { code = wegrusamt_into_ccw2(plane, 1024); }
static void tet_volume(void) { code = wegrusamt_tet_volume(coords, 12, out, 8); }
static void wedge_volume(void) { code = wegrusamt_wedge_volume(coords, 18, out, 8); }
static void hex_volume(void) { code = wegrusamt_hex_volume(coords, 24, out, 8); }
static void tet_contains(void) { code = wegrusamt_tet_contains(coords, 12, 1, 2, 3, counts, 4); }
static void wedge_contains(void) { code = wegrusamt_wedge_contains(coords, 18, 1, 2, 3, counts, 4); }
static void hex_contains(void) { code = wegrusamt_hex_contains(coords, 24, 1, 2, 3, counts, 4); }
static void project2(void) { code = wegrusamt_project2(1, 2, 3, 1, out, 8); }
static void segment_intersection(void) { code = wegrusamt_segment_intersection(0, 0, 1, 1, 0, 1, 1, 0, out, 8); }
static void segment_plane(void) { code = wegrusamt_segment_plane_intersection(0, 0, 0, 1, 1, 1, -1, 1, out, 8); }
/* the leaves that return their answer: no code */
static void leaves(void) {
    out[0] = wegrusamt_cross2(0, 0, 1, 0, 0, 1) + (double)wegrusamt_dominant_axis(1, 2, 3) + wegrusamt_plane_same_side(1, 0, 0, 1, 1, 0, 0, 1, 0)
        + wegrusamt_plane_coplanar_opposite(1, 0, 0, 1, -1, 0, 0, -1, 0) + wegrusamt_magnitude(-2) + wegrusamt_least(1, 2)
        + wegrusamt_largest(1, 2) + wegrusamt_root(2) + wegrusamt_hypot(3, 4) + wegrusamt_of_pattern(wegrusamt_pattern(5));
    code = 0;
}
static void overlap(void) {
    code = wegrusamt_convex_intersection_volume(TORUS, far_coords, 3 * VERTICES, torus, 4 * VERTICES, torus_ends, VERTICES, first, 3072,
                                                second, 3072, out, 8, counts, 4);
}
/* a cell of which one face has no area: the sums of its faces are computed once more */
static void overlap_of_thin(void) {
    code = wegrusamt_convex_intersection_volume(coords, 3 * VERTICES, thin, 4 * VERTICES, torus_ends, VERTICES, far_coords, 3 * VERTICES,
                                                torus, 4 * VERTICES, torus_ends, VERTICES, first, 3072, second, 3072, out, 8, counts, 4);
}
/* boxes that miss: the faces are counted all the same */
static void overlap_of_none(void) {
    code = wegrusamt_convex_intersection_volume(TORUS, to_move, 3 * VERTICES, torus, 4 * VERTICES, torus_ends, VERTICES, first, 3072,
                                                second, 3072, out, 8, counts, 4);
}

/* bytes of the stack that a call has used */
static size_t used(void (*call)(void)) {
    memset(stack, PAINT, SIZE);
    getcontext(&there);
    there.uc_stack.ss_sp = stack;
    there.uc_stack.ss_size = SIZE;
    there.uc_link = &back;
    makecontext(&there, call, 0);
    swapcontext(&back, &there);
    size_t free = 0;
    while (free < SIZE && stack[free] == PAINT) free++;
    return SIZE - free;
}

int main(void) {
    /* the most bytes are those that the header names */
    static const struct { const char *name; void (*call)(void); size_t most; } calls[] = {
        {"volume", volume, 66000}, {"geometric_centroid", geometric_centroid, 66000}, {"survey", survey, 66000},
        {"survey, one face", survey_of_one_face, 66000}, {"triangles", cut, 38000},
        {"triangle_places", cut_by_place, 96000}, {"check_cut", check_cut, 4000}, {"closed", closed, 12000},
        {"turn_faces", turn_faces, 133000}, {"convex_intersection_volume", overlap, 26000},
        {"the same, a face of no area", overlap_of_thin, 26000}, {"the same, boxes that miss", overlap_of_none, 26000},
        {"contains", contains, 1000}, {"point_in_phed", in_phed, 1000}, {"is_convex", is_convex, 1000}, {"into_ccw", into_ccw, 1000},
        {"plane_of_face", plane_of_face, 1000}, {"no_area_faces", no_area_faces, 1000},
        {"no_area_faces, one face", no_area_of_one_face, 1000}, {"clip_face", clip_face, 1000}, {"clip_convex", clip_convex, 1000},
        {"convex_intersection_area", area, 1000}, {"centroid", centroid, 1000}, {"bounds", bounds, 1000}, {"scale", scale, 1000},
        {"describe", describe, 1000}, {"newell_normal", newell_normal, 1000}, {"vertex_centroid", vertex_centroid, 1000},
        {"list_bounds", list_bounds, 1000}, {"to_local", to_local, 1000}, {"signed_area2", signed_area2, 1000},
        {"vertex_centroid2", vertex_centroid2, 1000}, {"bounds2", bounds2, 1000}, {"into_ccw2", into_ccw2, 1000},
        {"tet_volume", tet_volume, 1000}, {"wedge_volume", wedge_volume, 1000}, {"hex_volume", hex_volume, 1000},
        {"tet_contains", tet_contains, 1000},
        {"wedge_contains", wedge_contains, 1000}, {"hex_contains", hex_contains, 1000}, {"project2", project2, 1000},
        {"segment_intersection", segment_intersection, 1000}, {"segment_plane_intersection", segment_plane, 1000}, {"leaves", leaves, 1000},
    };
    int over = 0;
    stack = malloc(SIZE);
    if (!stack) return 2;
    make_cells();
    size_t none = used(nothing);
    for (size_t k = 0; k < sizeof calls / sizeof *calls; k++) {
        size_t bytes = used(calls[k].call) - none;
        printf("%-26s %6zu bytes%s\n", calls[k].name, bytes, code ? " (refused)" : "");
        if (code) over = 1;
        if (bytes > calls[k].most) {
            printf("%s takes more than the %zu bytes that include/wegrusamt.h says\n", calls[k].name, calls[k].most);
            over = 1;
        }
    }
    puts(over ? "a call was refused, or takes more stack than the header says" : "no call takes more stack than the header says");
    return over;
}
