/* Times that are compared with each other: two things take turns, so that both meet the same state of the machine. */
#ifndef TIMING_H
#define TIMING_H

enum { ROUNDS = 41, ROUND_NANOSECONDS = 4000000 };

/* Does the work so many times. */
typedef void (*work)(const void *about, unsigned times);

struct compared {
    double one, other; /* nanoseconds for each time, medians */
    double ratio;      /* of one to the other, the median of the rounds' ratios */
};

/* After each round `between` is called. */
struct compared compare_times(work one, const void *about_one, work other, const void *about_other, void (*between)(const void *about_one));

#endif
