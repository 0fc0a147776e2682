/* Prints the volume of the unit cube, and shows what a refusal is. At the top of the repository:
 *
 *     rust/archive
 *     gcc -Iinclude examples/volume.c target/staticlib/libabi.a -o volume
 *     ./volume
 */
#include <stdio.h>

#include "wegrusamt.h"

#define LENGTH(list) (sizeof(list) / sizeof((list)[0]))

/* What a call answers: 0, or why it is refused. */
static const char *const WHY[] = {
    "not refused",
    "1 size: a list is empty, too long or not of whole points",
    "2 number: a coordinate is NaN, infinite or above 2^40 in magnitude",
    "3 ends: the face ends fall, or the last is not the corner count",
    "4 index: a corner or face number is out of range",
    "5 empty: a face has no corners",
    "6 room: a list that is written to is too short",
};

int main(void)
{
    /* Three numbers a vertex, four corners a face, and where each face ends in the corners. */
    const double coords[] = {0, 0, 0, 1, 0, 0, 1, 1, 0, 0, 1, 0, 0, 0, 1, 1, 0, 1, 1, 1, 1, 0, 1, 1};
    uint32_t corners[] = {0, 3, 2, 1, 4, 5, 6, 7, 0, 1, 5, 4, 2, 3, 7, 6, 1, 2, 6, 5, 3, 0, 4, 7};
    const uint32_t ends[] = {4, 8, 12, 16, 20, 24};
    double volume = 0;

    uint8_t refusal = wegrusamt_volume(coords, LENGTH(coords), corners, LENGTH(corners), ends, LENGTH(ends),
                                       &volume, 1);
    if (refusal != 0) {
        fprintf(stderr, "the cube is refused: %s\n", WHY[refusal]);
        return 1;
    }
    printf("the cube's volume: %g\n", volume);

    /* There is no vertex 8: the call answers 4 and leaves `volume` as it was. */
    corners[0] = 8;
    refusal = wegrusamt_volume(coords, LENGTH(coords), corners, LENGTH(corners), ends, LENGTH(ends), &volume, 1);
    printf("with a corner 8: refused, %s; the volume is left at %g\n", WHY[refusal], volume);
    return refusal == 4 ? 0 : 1;
}
