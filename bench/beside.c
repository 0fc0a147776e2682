/* Times two builds of the C names in one run; bench/beside makes the two shared objects and calls this.
 * Each side's time is the median of short rounds taken in turn, and the ratio the median of the ratios of neighbouring
 * rounds. Which side begins changes from one pair of rounds to the next. Before a row is timed both builds are asked once,
 * and a row of which any bit differs is not timed. A build from before wegrusamt_no_area_faces is called without the lists
 * for counts that two entries have since; where one build is such, what stands in those lists is not compared. */
#include <dlfcn.h>
#include <math.h>
#include <stdio.h>
#include <stdlib.h>
#include <string.h>
#include <time.h>

#include "wegrusamt.h"

#define LENGTH(list) (sizeof(list) / sizeof((list)[0]))
#define ROUNDS 401
#define MOST_VERTICES 256
#define MOST_CORNERS 2048
#define MOST_FACES 256
#define MOST_WORK 3072
#define NUMBERS 1023
#define FULL_CIRCLE 6.283185307179586

/* The three lists of a cell, as the entries take them. */
#define LISTS(cell) (cell).coords, (cell).coords_len, (cell).corners, (cell).corners_len, (cell).ends, (cell).ends_len

struct cell {
    double coords[3 * MOST_VERTICES];
    uint32_t corners[MOST_CORNERS], ends[MOST_FACES];
    size_t coords_len, corners_len, ends_len;
};

/* What the entries are asked about: a cell, another one with its planes, and numbers for the leaves. */
static struct cell one, other;
static double planes[4 * MOST_FACES], numbers[NUMBERS][2];

/* The lists that the entries write to. */
static struct answers {
    double out[NUMBERS], first[MOST_WORK], second[MOST_WORK];
    uint32_t triangles[MOST_CORNERS][3];
    size_t counts[2], no_area[MOST_FACES];
} answers;

/* The two entries as they were before they told of faces that have no area. */
typedef uint8_t former_plane_of_face(const double *, size_t, const uint32_t *, size_t, const uint32_t *, size_t, uint32_t,
                                     double *, size_t);
typedef uint8_t former_convex_intersection_volume(const double *, size_t, const uint32_t *, size_t, const uint32_t *, size_t,
                                                  const double *, size_t, const uint32_t *, size_t, const uint32_t *, size_t,
                                                  double *, size_t, double *, size_t, double *, size_t);

/* The entries of one build. Of a build from before wegrusamt_no_area_faces the former ones are set, else the present ones. */
struct build {
    __typeof__(&wegrusamt_triangles) triangles;
    __typeof__(&wegrusamt_volume) volume;
    __typeof__(&wegrusamt_root) root;
    __typeof__(&wegrusamt_hypot) hypot;
    __typeof__(&wegrusamt_plane_of_face) plane_of_face;
    __typeof__(&wegrusamt_clip_face) clip_face;
    __typeof__(&wegrusamt_convex_intersection_volume) convex_intersection_volume;
    __typeof__(&wegrusamt_no_area_faces) no_area_faces;
    former_plane_of_face *former_plane;
    former_convex_intersection_volume *former_overlap;
};

/* The old one and the new one. */
static struct build builds[2];

/* A row of the table: how its input is made, what is called on it, how often in a round, and how many times this calls the
 * entry. */
struct row {
    const char *name;
    void (*make)(int n);
    int n;
    uint8_t (*call)(const struct build *build);
    int calls, entries;
};

static void *found(void *library, const char *name)
{
    void *entry = dlsym(library, name);
    if (entry == NULL) {
        fprintf(stderr, "bench/beside: %s\n", dlerror());
        exit(2);
    }
    return entry;
}

static struct build loaded(const char *path)
{
    void *library = dlopen(path, RTLD_NOW | RTLD_LOCAL);
    if (library == NULL) {
        fprintf(stderr, "bench/beside: %s\n", dlerror());
        exit(2);
    }
    struct build build = {
        .triangles = found(library, "wegrusamt_triangles"),
        .volume = found(library, "wegrusamt_volume"),
        .root = found(library, "wegrusamt_root"),
        .hypot = found(library, "wegrusamt_hypot"),
        .clip_face = found(library, "wegrusamt_clip_face"),
        .no_area_faces = dlsym(library, "wegrusamt_no_area_faces"),
    };
    void *plane = found(library, "wegrusamt_plane_of_face"), *overlap = found(library, "wegrusamt_convex_intersection_volume");
    if (build.no_area_faces == NULL) {
        build.former_plane = plane;
        build.former_overlap = overlap;
    } else {
        build.plane_of_face = plane;
        build.convex_intersection_volume = overlap;
    }
    return build;
}

/* Whether only one of the two tells of faces that have no area. */
static int one_is_former(void)
{
    return (builds[0].no_area_faces == NULL) != (builds[1].no_area_faces == NULL);
}

static void check(uint8_t code, const char *name)
{
    if (code != 0) {
        fprintf(stderr, "bench/beside: %s: a call is refused by %d\n", name, code);
        exit(1);
    }
}

/* ---- the calls ---- */

static uint8_t cut(const struct build *build)
{
    return build->triangles(LISTS(one), 0, answers.triangles, LENGTH(answers.triangles), answers.counts,
                            LENGTH(answers.counts));
}

static uint8_t measure(const struct build *build)
{
    return build->volume(LISTS(one), answers.out, 1);
}

static uint8_t roots(const struct build *build)
{
    for (int k = 0; k < NUMBERS; k++) {
        answers.out[k] = build->root(numbers[k][0]);
    }
    return 0;
}

static uint8_t hypots(const struct build *build)
{
    for (int k = 0; k < NUMBERS; k++) {
        answers.out[k] = build->hypot(numbers[k][0], numbers[k][1]);
    }
    return 0;
}

static uint8_t plane(const struct build *build, const struct cell *cell, uint32_t face, double *out)
{
    if (build->former_plane != NULL) {
        return build->former_plane(LISTS(*cell), face, out, 4);
    }
    return build->plane_of_face(LISTS(*cell), face, out, 4, answers.no_area + face, 1);
}

/* The planes of all faces, since the normals of a box have their one part in different places. */
static uint8_t all_planes(const struct build *build)
{
    uint8_t code = 0;
    for (uint32_t face = 0; face < one.ends_len; face++) {
        code |= plane(build, &one, face, answers.out + 4 * face);
    }
    return code;
}

static uint8_t flags(const struct build *build)
{
    return build->no_area_faces(LISTS(one), answers.no_area, MOST_FACES);
}

/* Each plane adds a point at most. The work lists are no longer than this, since a call clears the whole of them. */
static size_t room(void)
{
    return 3 * (one.ends[0] + other.ends_len);
}

static uint8_t clip(const struct build *build)
{
    return build->clip_face(LISTS(one), 0, planes, 4 * other.ends_len, 0.0, answers.first, room(), answers.second, room(),
                            answers.counts, LENGTH(answers.counts));
}

static uint8_t overlap(const struct build *build)
{
    if (build->former_overlap != NULL) {
        return build->former_overlap(LISTS(one), LISTS(other), answers.first, room(), answers.second, room(), answers.out, 1);
    }
    return build->convex_intersection_volume(LISTS(one), LISTS(other), answers.first, room(), answers.second, room(),
                                             answers.out, 1, answers.no_area, 2);
}

/* ---- what they are asked about ---- */

/* The next of a fixed sequence of numbers of 53 bits. */
static uint64_t drawn(void)
{
    static uint64_t state = 1;
    state = state * 6364136223846793005u + 1442695040888963407u;
    return state >> 11;
}

/* One number of each two neighbouring exponents, from the subnormals up; which of the two is drawn, as all digits are. */
static void all_exponents(int n)
{
    for (int k = 0; k < n; k++) {
        uint64_t bits = (uint64_t)k << 53 | drawn();
        memcpy(&numbers[k][0], &bits, sizeof bits);
    }
}

/* Pairs of numbers between -10 and 10. */
static void usual_pairs(int n)
{
    for (int k = 0; k < n; k++) {
        numbers[k][0] = 20.0 * (double)drawn() / 0x1p53 - 10.0;
        numbers[k][1] = 20.0 * (double)drawn() / 0x1p53 - 10.0;
    }
}

static void pairs_with_0(int n)
{
    usual_pairs(n);
    for (int k = 0; k < n; k++) {
        numbers[k][1] = 0.0;
    }
}

/* The vertex k of a ring of n at a height. */
static void put_vertex(struct cell *cell, int vertex, int k, int n, double height)
{
    cell->coords[3 * vertex] = cos(FULL_CIRCLE * k / n);
    cell->coords[3 * vertex + 1] = sin(FULL_CIRCLE * k / n);
    cell->coords[3 * vertex + 2] = height;
}

static void put_corner(struct cell *cell, int vertex)
{
    cell->corners[cell->corners_len++] = (uint32_t)vertex;
}

static void end_face(struct cell *cell)
{
    cell->ends[cell->ends_len++] = (uint32_t)cell->corners_len;
}

/* A regular polygon, as the only face of a cell. */
static void put_polygon(struct cell *cell, int n)
{
    cell->coords_len = 3 * (size_t)n;
    cell->corners_len = cell->ends_len = 0;
    for (int k = 0; k < n; k++) {
        put_vertex(cell, k, k, n, 0.0);
        put_corner(cell, k);
    }
    end_face(cell);
}

/* A prism over a regular polygon. */
static void put_prism(struct cell *cell, int n)
{
    cell->coords_len = 6 * (size_t)n;
    cell->corners_len = cell->ends_len = 0;
    for (int k = 0; k < n; k++) {
        put_vertex(cell, k, k, n, 0.0);
        put_vertex(cell, n + k, k, n, 1.0);
        put_corner(cell, n - 1 - k);
    }
    end_face(cell);
    for (int k = 0; k < n; k++) {
        put_corner(cell, n + k);
    }
    end_face(cell);
    for (int k = 0; k < n; k++) {
        int next = (k + 1) % n;
        put_corner(cell, k);
        put_corner(cell, next);
        put_corner(cell, n + next);
        put_corner(cell, n + k);
        end_face(cell);
    }
}

/* A cube of side 1 about the origin: the faces of a prism of n = 4 sides, with vertices along the axes. */
static void put_box(struct cell *cell, int n)
{
    put_prism(cell, n);
    for (int vertex = 0; vertex < 2 * n; vertex++) {
        int k = vertex % n;
        cell->coords[3 * vertex] = k == 0 || k == 3 ? 0.5 : -0.5;
        cell->coords[3 * vertex + 1] = k < 2 ? 0.5 : -0.5;
        cell->coords[3 * vertex + 2] = vertex < n ? -0.5 : 0.5;
    }
}

/* Turns a cell by 0.3 about the third axis and then by a sixth of a circle about (1, 1, 1): every normal of a prism of 4
 * sides has three parts then. */
static void tilt(struct cell *cell)
{
    for (size_t k = 0; k < cell->coords_len; k += 3) {
        double *p = cell->coords + k, z = p[2];
        double x = cos(0.3) * p[0] - sin(0.3) * p[1], y = sin(0.3) * p[0] + cos(0.3) * p[1];
        p[0] = (2.0 * x - y + 2.0 * z) / 3.0;
        p[1] = (2.0 * x + 2.0 * y - z) / 3.0;
        p[2] = (2.0 * y + 2.0 * z - x) / 3.0;
    }
}

/* Moves a cell as the rows of bench/run do. */
static void move(struct cell *cell)
{
    const double way[3] = {0.3, 0.4, 0.2};
    for (size_t k = 0; k < cell->coords_len; k++) {
        cell->coords[k] += way[k % 3];
    }
}

/* The planes of the other cell, which both builds are lent as the old one computes them. */
static void take_planes(void)
{
    for (uint32_t face = 0; face < other.ends_len; face++) {
        check(plane(&builds[0], &other, face, planes + 4 * face), "plane_of_face");
    }
}

static void polygon(int n)
{
    put_polygon(&one, n);
}

static void prism(int n)
{
    put_prism(&one, n);
}

static void box(int n)
{
    put_box(&one, n);
}

static void tilted_prism(int n)
{
    put_prism(&one, n);
    tilt(&one);
}

/* A tilted square through the middle of a box, so that each of the six planes cuts something off. */
static void square_in_box(int n)
{
    put_polygon(&one, n);
    tilt(&one);
    put_box(&other, n);
    take_planes();
}

/* A tilted prism, and its lower outline moved into it and to the side, so that some of the planes cut something off. */
static void polygon_in_prism(int n)
{
    put_polygon(&one, n);
    tilt(&one);
    move(&one);
    put_prism(&other, n);
    tilt(&other);
    take_planes();
}

static void two_boxes(int n)
{
    put_box(&one, n);
    put_box(&other, n);
    move(&other);
}

static void two_tilted_prisms(int n)
{
    tilted_prism(n);
    put_prism(&other, n);
    tilt(&other);
    move(&other);
}

/* Puts the other cell far to the side of the one, so that their boxes miss. */
static void put_aside(void)
{
    for (size_t k = 0; k < other.coords_len; k += 3) {
        other.coords[k] += 9.0;
    }
}

static void boxes_apart(int n)
{
    two_boxes(n);
    put_aside();
}

static void tilted_prisms_apart(int n)
{
    two_tilted_prisms(n);
    put_aside();
}

/* ---- the table ---- */

static const struct row rows[] = {
    {"triangles", polygon, 4, cut, 2000, 1},
    {"triangles", polygon, 64, cut, 40, 1},
    {"triangles", polygon, 256, cut, 4, 1},
    {"volume", prism, 4, measure, 400, 1},
    {"volume", prism, 36, measure, 40, 1},
    {"volume", prism, 124, measure, 8, 1},
    {"root", all_exponents, NUMBERS, roots, 1, NUMBERS},
    {"hypot", usual_pairs, NUMBERS, hypots, 1, NUMBERS},
    {"hypot, a part 0", pairs_with_0, NUMBERS, hypots, 1, NUMBERS},
    {"plane_of_face, box", box, 4, all_planes, 400, 6},
    {"plane_of_face, tilted", tilted_prism, 4, all_planes, 400, 6},
    {"clip_face, box", square_in_box, 4, clip, 400, 1},
    {"clip_face, tilted", polygon_in_prism, 16, clip, 100, 1},
    {"convex_intersection_volume, boxes", two_boxes, 4, overlap, 60, 1},
    {"convex_intersection_volume, tilted", two_tilted_prisms, 16, overlap, 8, 1},
    {"convex_intersection_volume, miss", boxes_apart, 4, overlap, 400, 1},
    {"convex_intersection_volume, miss", tilted_prisms_apart, 16, overlap, 100, 1},
    {"convex_intersection_volume, miss", tilted_prisms_apart, 124, overlap, 20, 1},
    {"no_area_faces", box, 4, flags, 400, 1},
    {"no_area_faces", tilted_prism, 16, flags, 100, 1},
    {"no_area_faces", tilted_prism, 124, flags, 20, 1},
};

static double nanoseconds(void)
{
    struct timespec now;
    clock_gettime(CLOCK_MONOTONIC, &now);
    return 1e9 * (double)now.tv_sec + (double)now.tv_nsec;
}

/* How long the entry takes for one call, in a round. A call before it makes up for what the other build has driven from the
 * processor's memory; then the input is made again, so that the leaves have numbers of which no branch is learned. */
static double timed(const struct row *row, const struct build *build)
{
    check(row->call(build), row->name);
    row->make(row->n);
    double start = nanoseconds();
    for (int k = 0; k < row->calls; k++) {
        check(row->call(build), row->name);
    }
    return (nanoseconds() - start) / row->calls / row->entries;
}

static int ordered(const void *a, const void *b)
{
    double x = *(const double *)a, y = *(const double *)b;
    return (x > y) - (x < y);
}

static double median(double *values)
{
    qsort(values, ROUNDS, sizeof values[0], ordered);
    return values[ROUNDS / 2];
}

/* Whether both builds write the same bits, but for the list that a former build does not know. */
static int are_same(const struct row *row)
{
    static struct answers of_both[2];
    for (int side = 0; side < 2; side++) {
        memset(&answers, 0, sizeof answers);
        check(row->call(&builds[side]), row->name);
        if (one_is_former()) {
            memset(answers.no_area, 0, sizeof answers.no_area);
        }
        memcpy(&of_both[side], &answers, sizeof answers);
    }
    return memcmp(&of_both[0], &of_both[1], sizeof answers) == 0;
}

static size_t size_of(const struct row *row)
{
    return row->entries == NUMBERS ? NUMBERS : one.corners_len;
}

static void print_timed(const struct row *row)
{
    static double times[2][ROUNDS], ratios[ROUNDS];
    for (int round = 0; round < ROUNDS; round++) {
        for (int k = 0; k < 2; k++) {
            int side = (round + k) % 2;
            times[side][round] = timed(row, &builds[side]);
        }
        ratios[round] = times[1][round] / times[0][round];
    }
    printf("%-34s %6zu %12.1f %12.1f %8.3f\n", row->name, size_of(row), median(times[0]), median(times[1]), median(ratios));
}

/* Whether both builds have the entry of a row. */
static int is_in_both(const struct row *row)
{
    return row->call != flags || (builds[0].no_area_faces != NULL && builds[1].no_area_faces != NULL);
}

/* Holds the two builds to the same answers, and times them; 1 where the answers differ. */
static int compare(const struct row *row)
{
    row->make(row->n);
    if (!are_same(row)) {
        fprintf(stderr, "bench/beside: %s, size %zu: the answers of the two builds differ\n", row->name, size_of(row));
        return 1;
    }
    print_timed(row);
    return 0;
}

int main(int argc, char **argv)
{
    if (argc != 3 && argc != 4) {
        fprintf(stderr, "usage: beside OLD.so NEW.so [WORD]\n");
        return 2;
    }
    const char *word = argc == 4 ? argv[3] : "";
    int status = 0, taken = 0;
    builds[0] = loaded(argv[1]);
    builds[1] = loaded(argv[2]);
    if (builds[0].no_area_faces == NULL || builds[1].no_area_faces == NULL) {
        printf("an archive is from before wegrusamt_no_area_faces: there is no row of it, and counts are not compared\n");
    }
    printf("ns per call, medians of %d rounds taken in turn; the size is in corners of the cell, or in numbers\n", ROUNDS);
    printf("%-34s %6s %12s %12s %8s\n", "entry", "size", "old", "new", "new/old");
    for (const struct row *row = rows; row < rows + LENGTH(rows); row++) {
        if (strstr(row->name, word) != NULL && is_in_both(row)) {
            taken++;
            status |= compare(row);
        }
    }
    if (taken == 0) {
        fprintf(stderr, "bench/beside: no row of both archives has '%s' in its name\n", word);
        return 2;
    }
    return status;
}
