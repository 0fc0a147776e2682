/* Moves a thin box that stands far from the origin to a local origin, exactly, and shows what that mends. At the top
 * of the repository:
 *
 *     rust/archive
 *     gcc -Iinclude examples/local.c target/staticlib/libabi.a -o local
 *     ./local
 */
#include <stdio.h>

#include "wegrusamt.h"

#define LENGTH(list) (sizeof(list) / sizeof((list)[0]))

/* A box of 0.05 x 0.25 x 2, the first cell of examples/thin-and-far.cell, and behind its vertices a query point that is
 * to move with them. */
enum { BOX = 24 };
static double coords[] = {8588590.00, 8529546.00, 2969498, 8588590.05, 8529546.00, 2969498,
                          8588590.05, 8529546.25, 2969498, 8588590.00, 8529546.25, 2969498,
                          8588590.00, 8529546.00, 2969500, 8588590.05, 8529546.00, 2969500,
                          8588590.05, 8529546.25, 2969500, 8588590.00, 8529546.25, 2969500,
                          8588590.025, 8529546.125, 2969499};
static const uint32_t corners[] = {0, 3, 2, 1, 4, 5, 6, 7, 0, 1, 5, 4, 2, 3, 7, 6, 1, 2, 6, 5, 3, 0, 4, 7};
static const uint32_t ends[] = {4, 8, 12, 16, 20, 24};

/* Prints the triangles, the faces that are cut short and the volume; the answer is how many are short. */
static size_t tell(void)
{
    size_t counts[4] = {0};
    double volume = 0;
    uint8_t refusal = wegrusamt_survey(coords, BOX, corners, LENGTH(corners), ends, LENGTH(ends), coords + BOX,
                                       LENGTH(coords) - BOX, counts, LENGTH(counts), &volume, 1);
    if (refusal != 0) {
        printf("refused, %u\n", refusal);
        return 0;
    }
    printf("%zu triangles, %zu faces short, volume %.4g\n", counts[0], counts[2], volume);
    return counts[2];
}

int main(void)
{
    double by[3] = {0};

    printf("where it stands: ");
    size_t before = tell();

    uint8_t refusal = wegrusamt_to_local(coords, LENGTH(coords), by, LENGTH(by));
    if (refusal != 0) {
        fprintf(stderr, "the box is refused: %u\n", refusal);
        return 1;
    }
    printf("moved by %.0f %.0f %.0f: ", by[0], by[1], by[2]);
    size_t after = tell();

    /* 0.1 less 1 needs more bits than a double has: the call answers 15 and leaves both lists as they were. */
    double near[] = {1, 0, 0, 0.1, 0, 0};
    refusal = wegrusamt_to_local(near, LENGTH(near), by, LENGTH(by));
    printf("a list that cannot be moved exactly: refused, %u\n", refusal);
    return before == 1 && after == 0 && refusal == 15 ? 0 : 1;
}
