/* Turns the backward face of a cube, and shows what happens to a cube with a face too few. At the top of the
 * repository:
 *
 *     rust/archive
 *     gcc -Iinclude examples/turn.c target/staticlib/libabi.a -o turn
 *     ./turn
 */
#include <stdio.h>

#include "wegrusamt.h"

#define LENGTH(list) (sizeof(list) / sizeof((list)[0]))

static const double coords[] = {0, 0, 0, 1, 0, 0, 1, 1, 0, 0, 1, 0, 0, 0, 1, 1, 0, 1, 1, 1, 1, 0, 1, 1};
static const uint32_t ends[] = {4, 8, 12, 16, 20, 24};

/* Whether the first so many faces are closed: "yes", "no", or "refused". */
static const char *closed(const uint32_t *corners, size_t faces)
{
    size_t yes = 0;
    if (wegrusamt_closed(coords, LENGTH(coords), corners, ends[faces - 1], ends, faces, &yes, 1) != 0) {
        return "refused";
    }
    return yes ? "yes" : "no";
}

int main(void)
{
    /* The third face was traced backward: it is 0, 1, 5, 4 in a closed cube. */
    uint32_t corners[] = {0, 3, 2, 1, 4, 5, 6, 7, 4, 5, 1, 0, 2, 3, 7, 6, 1, 2, 6, 5, 3, 0, 4, 7};
    size_t turned = 0;

    printf("closed as it was traced: %s\n", closed(corners, 6));
    uint8_t refusal = wegrusamt_turn_faces(coords, LENGTH(coords), corners, LENGTH(corners), ends, LENGTH(ends),
                                           &turned, 1);
    if (refusal != 0) {
        fprintf(stderr, "the cube is refused: %u\n", refusal);
        return 1;
    }
    printf("faces turned: %zu; closed: %s\n", turned, closed(corners, 6));
    printf("the third face: %u %u %u %u\n", corners[8], corners[9], corners[10], corners[11]);

    /* Without the last face some sides occur once: the call answers 11 and leaves both lists as they were. */
    refusal = wegrusamt_turn_faces(coords, LENGTH(coords), corners, ends[4], ends, 5, &turned, 1);
    printf("without its last face: refused, %u\n", refusal);
    return refusal == 11 ? 0 : 1;
}
