/* Calls of the library, each with its expected answer and results, as vectors.py writes them. */
#ifndef CALLS_H
#define CALLS_H

#include <stdbool.h>
#include <stdint.h>
#include <stdio.h>

#include "lent.h"

enum function { LOOK, READ, WRITE, FIRST_PASS, CLOSING, CHECK_CLOSING, SECOND_PASS, REPORT };
enum mode { SHEET, GIVEN, STORED, ROOM, TEXT };
enum { MOST_NUMBERS = 4, LONGEST_NAME = 160 };

struct slice {
    enum mode mode;
    size_t width, count;
    uint8_t *values; /* given or expected; none for ROOM */
};

struct call {
    enum function function;
    uint32_t numbers[MOST_NUMBERS];
    uint32_t answer;
    size_t slice_count;
    struct slice slices[MOST_SLICES];
    char name[LONGEST_NAME];
};

/* False at the end of the file. A file that is not as vectors.py writes it ends the program. */
bool next_call(FILE *file, struct call *call);
void forget(struct call *call);

const char *function_name(enum function function);

/* The library's answer, lent these slices. */
uint32_t answer_of(const struct call *call, const struct lent *lent);

#endif
