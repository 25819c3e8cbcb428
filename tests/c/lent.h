/* Slices as the library is lent them. Each has memory of its own: on one side a page that nobody may touch, so that a read or a
 * write past that end stops the program; on the other side canaries, which must be as they were after the call. */
#ifndef LENT_H
#define LENT_H

#include <stdbool.h>
#include <stddef.h>
#include <stdint.h>

enum { MOST_SLICES = 15, MOST_BYTES = 320 * 1024 };

/* Which end of the slice lies at the page. */
enum side { PAGE_AFTER, PAGE_BEFORE };

struct lent {
    uint8_t *values;
    const uint8_t *as_lent; /* a copy of the values from before the call */
    uint8_t *canaries;
    size_t count, bytes;
};

void prepare_to_lend(void);

/* The slice of this place among a call's slices: `count` values of `width` bytes, `given` of them (bytes) from `values` and the rest
 * filled with the pattern. A slice of 0 values has a pointer too, which may not be followed. */
struct lent lend(size_t place, size_t width, size_t count, const uint8_t *values, size_t given, uint8_t pattern, enum side side);

bool canaries_live(const struct lent *lent);
bool is_as_lent(const struct lent *lent, size_t from);

#endif
