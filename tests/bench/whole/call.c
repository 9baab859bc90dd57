/* `bench_call FILE` prints the time of one unhide_text on the file's text with one round: the median of many calls, in microseconds. */
#define _POSIX_C_SOURCE 200809L
#include "../../../include/unhide.h"

#include <stdio.h>
#include <stdlib.h>
#include <time.h>

enum { LENGTH = 65536, SAMPLES = 101 };

static uint8_t text[LENGTH], out[LENGTH];

static double now(void)
{
    struct timespec t;
    clock_gettime(CLOCK_PROCESS_CPUTIME_ID, &t);
    return (double)t.tv_sec * 1e6 + (double)t.tv_nsec / 1e3;
}

static int by_size(const void *a, const void *b)
{
    double x = *(const double *)a, y = *(const double *)b;
    return (x > y) - (x < y);
}

int main(int argc, char **argv)
{
    static double times[SAMPLES];
    FILE *file = argc == 2 ? fopen(argv[1], "rb") : NULL;
    if (file == NULL)
        return 2;
    size_t length = fread(text, 1, LENGTH, file);
    fclose(file);
    for (int i = 0; i < SAMPLES; i++) {
        double start = now();
        if (unhide_text(text, length, 1, out, LENGTH) < 0)
            return 1;
        times[i] = now() - start;
    }
    qsort(times, SAMPLES, sizeof times[0], by_size);
    printf("%.0f\n", times[SAMPLES / 2]);
    return 0;
}
