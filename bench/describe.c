/* Times describe of one field of the file on standard input: the median and the slowest of many calls, in microseconds. */
#include "skeptolyr.h"

#include <stdio.h>
#include <stdlib.h>
#include <time.h>

enum { CALLS = 1001 };

static double now(void)
{
    struct timespec t;
    clock_gettime(CLOCK_MONOTONIC, &t);
    return (double)t.tv_sec * 1e6 + (double)t.tv_nsec / 1e3;
}

static int by_size(const void *a, const void *b)
{
    double x = *(const double *)a, y = *(const double *)b;
    return (x > y) - (x < y);
}

int main(int argc, char **argv)
{
    size_t room = (size_t)1 << 28, length, k = argc > 1 ? strtoull(argv[1], NULL, 10) : 0;
    uint8_t *file = malloc(room);
    int64_t numbers[SKEPTOLYR_DESCRIPTION_LAMBERT];
    uint64_t answer = 0;
    static double took[CALLS];

    if (file == NULL || (length = fread(file, 1, room, stdin)) == 0) {
        fprintf(stderr, "describe: no file on standard input\n");
        return 2;
    }
    for (int i = 0; i < CALLS; i++) {
        double start = now();
        answer = skeptolyr_describe(file, length, k, numbers, SKEPTOLYR_DESCRIPTION_LAMBERT);
        took[i] = now() - start;
    }
    qsort(took, CALLS, sizeof *took, by_size);
    const char *how = skeptolyr_is_refusal(answer) ? "refused" : "answered";
    printf("describe field %zu of %zu octets: %s, median %.1f us, slowest of %d calls %.1f us\n", k, length, how, took[CALLS / 2], CALLS, took[CALLS - 1]);
    return skeptolyr_is_refusal(answer);
}
