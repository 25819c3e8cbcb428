#define _POSIX_C_SOURCE 200809L
#include "timing.h"

#include <stdlib.h>
#include <time.h>

/* Of this program's own running, so that what else the machine does counts less. */
static double nanoseconds(void)
{
    struct timespec now;
    clock_gettime(CLOCK_PROCESS_CPUTIME_ID, &now);
    return 1e9 * (double)now.tv_sec + (double)now.tv_nsec;
}

static double time_of_each(work done, const void *about, unsigned times)
{
    const double start = nanoseconds();
    done(about, times);
    return (nanoseconds() - start) / times;
}

static unsigned times_for_a_round(work done, const void *about)
{
    const double once = time_of_each(done, about, 4);
    return once < ROUND_NANOSECONDS ? (unsigned)(ROUND_NANOSECONDS / once) : 1;
}

static int by_size(const void *a, const void *b)
{
    const double x = *(const double *)a, y = *(const double *)b;
    return (x > y) - (x < y);
}

static double median(double *values)
{
    qsort(values, ROUNDS, sizeof *values, by_size);
    return values[ROUNDS / 2];
}

/* The one that goes first changes from round to round. */
struct compared compare_times(work one, const void *about_one, work other, const void *about_other, void (*between)(const void *about_one))
{
    double ones[ROUNDS], others[ROUNDS], ratios[ROUNDS];
    const unsigned times = times_for_a_round(one, about_one), other_times = times_for_a_round(other, about_other);
    for (int round = 0; round < ROUNDS; round++) {
        if (round % 2 == 0)
            ones[round] = time_of_each(one, about_one, times);
        others[round] = time_of_each(other, about_other, other_times);
        if (round % 2 == 1)
            ones[round] = time_of_each(one, about_one, times);
        ratios[round] = ones[round] / others[round];
        between(about_one);
    }
    return (struct compared){median(ones), median(others), median(ratios)};
}
