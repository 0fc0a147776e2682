/* Takes the hypot of many pairs by wegrusamt_hypot, for tests/hypot, which builds and runs it: two doubles of each pair on standard
 * input, its answer on standard output. */
#include <stdio.h>
#include "wegrusamt.h"

int main(void)
{
    double pair[2];
    size_t read;
    while ((read = fread(pair, 1, sizeof pair, stdin)) == sizeof pair) {
        double answer = wegrusamt_hypot(pair[0], pair[1]);
        if (fwrite(&answer, sizeof answer, 1, stdout) != 1) {
            perror("hypot: writing");
            return 2;
        }
    }
    if (ferror(stdin)) {
        perror("hypot: reading");
        return 2;
    }
    if (read != 0) {
        fprintf(stderr, "hypot: the input ends within a pair\n");
        return 2;
    }
    if (fflush(stdout) != 0) {
        perror("hypot: writing");
        return 2;
    }
    return 0;
}
