/* The operations that are measured, over either library. */
#ifndef OPERATIONS_H
#define OPERATIONS_H

#include <stdbool.h>
#include <stddef.h>
#include <stdint.h>

#include "bienguloc.h"

/* Both libraries have the prototypes of bienguloc.h. */
struct library {
    const char *name;
    uint32_t (*look)(const uint8_t *, size_t, uint32_t *, size_t);
    uint32_t (*read)(const uint8_t *, size_t, uint32_t *, size_t, uint32_t *, size_t, uint8_t *, size_t, uint32_t *, size_t, uint32_t *,
        size_t, int32_t *, size_t, uint32_t *, size_t);
    uint32_t (*write)(uint32_t, uint32_t, uint32_t, uint32_t, const uint32_t *, size_t, const uint8_t *, size_t, const uint32_t *, size_t,
        const uint32_t *, size_t, const int32_t *, size_t, const uint32_t *, size_t, uint8_t *, size_t);
    uint32_t (*first_pass)(uint32_t, uint32_t, uint32_t, const uint32_t *, size_t, const uint8_t *, size_t, const uint32_t *, size_t,
        int32_t *, size_t, int32_t *, size_t, int32_t *, size_t, uint32_t *, size_t, uint8_t *, size_t, int32_t *, size_t);
    uint32_t (*closing)(uint32_t, uint32_t, uint32_t, const uint32_t *, size_t, const uint8_t *, size_t, const uint32_t *, size_t,
        int32_t *, size_t);
    uint32_t (*check_closing)(uint32_t, uint32_t, uint32_t, const uint32_t *, size_t, const uint8_t *, size_t, const uint32_t *, size_t,
        const int32_t *, size_t);
    uint32_t (*second_pass)(uint32_t, uint32_t, uint32_t, const uint32_t *, size_t, const uint8_t *, size_t, const uint32_t *, size_t,
        const int32_t *, size_t, const uint32_t *, size_t, int64_t *, size_t, uint64_t *, size_t, int64_t *, size_t, int64_t *, size_t,
        int64_t *, size_t, uint64_t *, size_t, int32_t *, size_t, uint32_t *, size_t, uint8_t *, size_t, int32_t *, size_t);
    uint32_t (*report)(const uint8_t *, size_t, uint8_t *, size_t, uint64_t *, size_t);
};

extern const struct library ours, peer;

struct values {
    uint32_t head[BIENGULOC_READ_HEAD];
    uint32_t angles[BIENGULOC_MOST_ANGLES], fixed[BIENGULOC_MOST_FIXED], log_sines[BIENGULOC_MOST_ANGLES];
    int32_t differences[BIENGULOC_MOST_ANGLES];
    uint32_t log_sides[BIENGULOC_MOST_LOG_SIDES];
    uint8_t rounds[BIENGULOC_MOST_ANGLES];
};

/* A sheet, and what a look and the reader find on it; of a sheet for the first pass a rounding that closes, to be checked. */
struct task {
    uint8_t sheet[BIENGULOC_LONGEST_SHEET];
    size_t size;
    uint32_t head[BIENGULOC_LOOK_HEAD];
    struct values values;
    int32_t choice[BIENGULOC_MOST_ANGLES];
};

/* Everything that an operation stores. */
struct desk {
    uint32_t head[BIENGULOC_LOOK_HEAD];
    struct values values;
    uint8_t sheet[BIENGULOC_LONGEST_SHEET];
    int32_t misclosures[BIENGULOC_MOST_CONDITIONS], rests[BIENGULOC_MOST_CONDITIONS];
    int32_t numerators[BIENGULOC_MOST_ANGLES], rounded[BIENGULOC_MOST_ANGLES], choice[BIENGULOC_MOST_ANGLES];
    int64_t sine_misclosures[BIENGULOC_MOST_SINE_CONDITIONS], reduced[BIENGULOC_MOST_ANGLES], side_reduced[BIENGULOC_MOST_ANGLES];
    int64_t numerators_high[BIENGULOC_MOST_ANGLES];
    uint64_t divisor[2], numerators_low[BIENGULOC_MOST_ANGLES];
    uint32_t results[BIENGULOC_MOST_ANGLES];
    uint8_t result_rounds[BIENGULOC_MOST_ANGLES];
    uint8_t text[BIENGULOC_ROOM_FOR_TEXT];
    uint64_t written;
};

enum operation { LOOK, READ, WRITE, FIRST_PASS, SECOND_PASS, TWO_SINES, CLOSING, CHECK_CLOSING, REPORT, WHOLE_SHEET, OPERATIONS };

extern const char *const operation_names[OPERATIONS];

/* A pass takes the sheets of its kinds, the rounding that closes and its check those of the first, every other operation all. The second pass of the figures with one sine condition and of those
 * with two are measured by themselves. */
bool takes(enum operation operation, const struct task *task);

uint32_t operate(const struct library *library, enum operation operation, const struct task *task, struct desk *desk);

/* The sheets of a file that sheets.py wrote, looked at and read. */
struct task *read_tasks(const char *path, size_t *count);

#endif
