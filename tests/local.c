/* Moves cells by wegrusamt_to_local and surveys them before and after, for tests/local, which builds and runs it. Standard input has
 * cells: how many vertices, corners and faces (uint32_t), the coordinates (double), the corners and the ends (uint32_t). For each cell
 * standard output has a struct said, the coordinates as they were left, and the triangles (uint32_t) before and after. */
#include <stdio.h>
#include <stdlib.h>
#include <string.h>
#include "wegrusamt.h"

enum { VERTICES = 256, FACES = 256, CORNERS = 2048 };

/* What a survey answers of a cell: its code, and on 0 the triangles, whether it is closed, the faces cut short, and the volume. */
struct survey { uint32_t code, triangles, closed, cut_short; double volume; };

/* The two surveys, the code and the vector of the move, and how many faces are cut into other triangles afterwards. Where the code is 15
 * the axes were moved one by one, as far as they could be. */
struct said { struct survey before, after; uint32_t code, otherwise; double origin[3]; };

static double coords[3 * VERTICES], moved[3 * VERTICES];
static uint32_t corners[CORNERS], ends[FACES], cut[2][CORNERS][3];
static size_t counts[2][FACES];
static uint32_t vertices, corner_count, faces;

#define CELL(list) list, 3 * vertices, corners, corner_count, ends, faces

static struct survey surveyed(const double *list)
{
    struct survey s = {0};
    double none[1] = {0};
    size_t said[4] = {0};
    s.code = wegrusamt_survey(CELL(list), none, 0, said, 4, &s.volume, 1);
    s.triangles = said[0], s.closed = said[1], s.cut_short = said[2];
    return s;
}

/* The triangles of all faces, one face after the other, and how many there are. */
static size_t cut_faces(const double *list, uint32_t (*out)[3], size_t *count)
{
    size_t all = 0;
    for (uint32_t face = 0; face < faces; face++) {
        /* Two numbers: how many triangles the face gives, and how many tests were made. Only the first is used. */
        size_t said[2] = {0};
        wegrusamt_triangles(CELL(list), face, out + all, CORNERS - all, said, 2);
        count[face] = said[0];
        all += count[face];
    }
    return all;
}

static uint32_t cut_otherwise(void)
{
    uint32_t many = 0;
    size_t at[2] = {0};
    for (uint32_t face = 0; face < faces; face++) {
        many += counts[0][face] != counts[1][face]
            || memcmp(cut[0][at[0]], cut[1][at[1]], counts[0][face] * sizeof cut[0][0]) != 0;
        at[0] += counts[0][face], at[1] += counts[1][face];
    }
    return many;
}

/* Moves each axis alone, the others being 0 for the call; an axis that is refused stays as it was. */
static void move_axes(double *origin)
{
    static double alone[3 * VERTICES];
    for (uint32_t axis = 0; axis < 3; axis++) {
        double by[3];
        memset(alone, 0, sizeof alone);
        for (uint32_t v = 0; v < vertices; v++) alone[3 * v + axis] = moved[3 * v + axis];
        if (wegrusamt_to_local(alone, 3 * vertices, by, 3) == 0) {
            for (uint32_t v = 0; v < vertices; v++) moved[3 * v + axis] = alone[3 * v + axis];
            origin[axis] = by[axis];
        }
    }
}

static void take(void *list, size_t size, size_t many)
{
    if (fread(list, size, many, stdin) != many) {
        fprintf(stderr, "local: the input ends within a cell\n");
        exit(2);
    }
}

static void give(const void *list, size_t size, size_t many)
{
    if (fwrite(list, size, many, stdout) != many) {
        perror("local: writing");
        exit(2);
    }
}

int main(void)
{
    while (fread(&vertices, sizeof vertices, 1, stdin) == 1) {
        take(&corner_count, sizeof corner_count, 1);
        take(&faces, sizeof faces, 1);
        if (vertices > VERTICES || corner_count > CORNERS || faces > FACES) {
            fprintf(stderr, "local: a cell is over the limits\n");
            return 2;
        }
        take(coords, sizeof coords[0], 3 * vertices);
        take(corners, sizeof corners[0], corner_count);
        take(ends, sizeof ends[0], faces);
        memcpy(moved, coords, sizeof coords);
        struct said s = {.before = surveyed(coords)};
        s.code = wegrusamt_to_local(moved, 3 * vertices, s.origin, 3);
        if (s.code == 15) move_axes(s.origin);
        s.after = surveyed(moved);
        if (cut_faces(coords, cut[0], counts[0]) != s.before.triangles || cut_faces(moved, cut[1], counts[1]) != s.after.triangles) {
            fprintf(stderr, "local: triangles and survey disagree\n");
            return 2;
        }
        s.otherwise = cut_otherwise();
        give(&s, sizeof s, 1);
        give(moved, sizeof moved[0], 3 * vertices);
        give(cut[0], sizeof cut[0][0], s.before.triangles);
        give(cut[1], sizeof cut[1][0], s.after.triangles);
    }
    return 0;
}
