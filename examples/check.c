/* Cuts a face and tells how many tests that took; then checks our own triangles against the face, and the same with one
 * triangle turned round. At the top of the repository:
 *
 *     rust/archive
 *     gcc -Iinclude examples/check.c target/staticlib/libabi.a -o check
 *     ./check
 */
#include <stdio.h>

#include "wegrusamt.h"

#define LENGTH(list) (sizeof(list) / sizeof((list)[0]))

/* A face like the letter L, the only one of its cell. Its corners are not numbered in their order, so that the place of
 * a corner in the face is not its vertex number. */
enum { CORNERS = 6 };
static const double coords[] = {0, 0, 0, 0, 2, 0, 1, 2, 0, 1, 1, 0, 2, 1, 0, 2, 0, 0};
static const uint32_t corners[CORNERS] = {0, 5, 4, 3, 2, 1};
static const uint32_t ends[] = {CORNERS};

/* Tells whether so many triangles by place are a cut of the face: 1 for yes, 0 for no, 2 where that is refused. */
static size_t tell(uint32_t (*triangles)[3], size_t count)
{
    size_t yes = 2;
    /* The triangles, three places each, are one list of numbers here. */
    uint8_t refusal = wegrusamt_check_cut(CORNERS, &triangles[0][0], 3 * count, &yes, 1);
    if (refusal != 0) {
        printf("refused, %u\n", refusal);
    } else {
        printf("%s\n", yes ? "yes" : "no");
    }
    return yes;
}

int main(void)
{
    uint32_t triangles[CORNERS - 2][3];
    size_t counts[2] = {0, 0};

    uint8_t refusal = wegrusamt_triangle_places(coords, LENGTH(coords), corners, LENGTH(corners), ends, LENGTH(ends), 0,
                                                triangles, LENGTH(triangles), counts, LENGTH(counts));
    if (refusal != 0) {
        fprintf(stderr, "the face is refused: %u\n", refusal);
        return 1;
    }
    size_t count = counts[0], tests = counts[1];
    for (size_t k = 0; k < count; k++) {
        printf("places %u %u %u\n", triangles[k][0], triangles[k][1], triangles[k][2]);
    }
    printf("%zu triangles after %zu tests, of at most %d\n", count, tests, CORNERS * CORNERS + CORNERS - 12);
    printf("a cut of the face: ");
    size_t ours = tell(triangles, count);

    /* Turned round, a triangle runs its sides the wrong way. */
    uint32_t second = triangles[0][1];
    triangles[0][1] = triangles[0][2];
    triangles[0][2] = second;
    printf("with the first turned round, a cut of the face: ");
    size_t turned = tell(triangles, count);
    return ours == 1 && turned == 0 ? 0 : 1;
}
