#include "calls.h"

#include <inttypes.h>
#include <stdlib.h>
#include <string.h>

#include "bienguloc.h"

static const char *const functions[] = {"look", "read", "write", "first", "closing", "check", "second", "report", NULL};
static const char *const modes[] = {"sheet", "in", "out", "room", "text", NULL};
static const char *const types[] = {"u8", "u32", "i32", "u64", "i64", NULL};
static const size_t widths[] = {1, 4, 4, 8, 8};

static void malformed(const char *what)
{
    fprintf(stderr, "the file of calls has no %s where one belongs\n", what);
    exit(2);
}

static size_t word(FILE *file, const char *const *words, const char *what)
{
    char found[16];
    if (fscanf(file, "%15s", found) == 1)
        for (size_t i = 0; words[i]; i++)
            if (strcmp(found, words[i]) == 0)
                return i;
    malformed(what);
    return 0;
}

/* One with a minus sign comes out as its two's complement. */
static uint64_t number(FILE *file)
{
    uint64_t found;
    if (fscanf(file, "%" SCNu64, &found) != 1)
        malformed("number");
    return found;
}

static void read_bytes(FILE *file, uint8_t *values, size_t count)
{
    for (size_t i = 0; i < count; i++) {
        unsigned byte;
        if (fscanf(file, "%2x", &byte) != 1)
            malformed("byte");
        values[i] = (uint8_t)byte;
    }
}

/* x86-64 keeps the low byte first, so a value of any width is the start of the wide one. */
static void read_numbers(FILE *file, const struct slice *slice)
{
    for (size_t i = 0; i < slice->count; i++) {
        const uint64_t value = number(file);
        memcpy(slice->values + i * slice->width, &value, slice->width);
    }
}

static struct slice read_slice(FILE *file)
{
    struct slice slice = {.mode = (enum mode)word(file, modes, "mode"), .width = widths[word(file, types, "type")]};
    slice.count = (size_t)number(file);
    if (slice.mode == ROOM)
        return slice;
    slice.values = malloc(slice.count * slice.width + 1);
    if (!slice.values)
        exit(2);
    if (slice.width == 1)
        read_bytes(file, slice.values, slice.count);
    else
        read_numbers(file, &slice);
    return slice;
}

bool next_call(FILE *file, struct call *call)
{
    int next = fgetc(file);
    while (next == '\n')
        next = fgetc(file);
    if (next == EOF)
        return false;
    ungetc(next, file);
    *call = (struct call){.function = (enum function)word(file, functions, "function")};
    const size_t count = (size_t)number(file);
    for (size_t i = 0; i < count && i < MOST_NUMBERS; i++)
        call->numbers[i] = (uint32_t)number(file);
    call->answer = (uint32_t)number(file);
    call->slice_count = (size_t)number(file);
    if (count > MOST_NUMBERS || call->slice_count > MOST_SLICES)
        malformed("count");
    if (!fgets(call->name, LONGEST_NAME, file))
        malformed("name");
    call->name[strcspn(call->name, "\n")] = '\0';
    for (size_t i = 0; i < call->slice_count; i++)
        call->slices[i] = read_slice(file);
    return true;
}

void forget(struct call *call)
{
    for (size_t i = 0; i < call->slice_count; i++)
        free(call->slices[i].values);
}

const char *function_name(enum function function)
{
    return functions[function];
}

#define SLICE(type, place) (type *)(void *)lent[place].values, lent[place].count

uint32_t answer_of(const struct call *call, const struct lent *lent)
{
    const uint32_t *n = call->numbers;
    switch (call->function) {
    case LOOK:
        return bienguloc_look(SLICE(const uint8_t, 0), SLICE(uint32_t, 1));
    case READ:
        return bienguloc_read(SLICE(const uint8_t, 0), SLICE(uint32_t, 1), SLICE(uint32_t, 2), SLICE(uint8_t, 3), SLICE(uint32_t, 4),
            SLICE(uint32_t, 5), SLICE(int32_t, 6), SLICE(uint32_t, 7));
    case WRITE:
        return bienguloc_write(n[0], n[1], n[2], n[3], SLICE(const uint32_t, 0), SLICE(const uint8_t, 1), SLICE(const uint32_t, 2),
            SLICE(const uint32_t, 3), SLICE(const int32_t, 4), SLICE(const uint32_t, 5), SLICE(uint8_t, 6));
    case FIRST_PASS:
        return bienguloc_first_pass(n[0], n[1], n[2], SLICE(const uint32_t, 0), SLICE(const uint8_t, 1), SLICE(const uint32_t, 2),
            SLICE(int32_t, 3), SLICE(int32_t, 4), SLICE(int32_t, 5), SLICE(uint32_t, 6), SLICE(uint8_t, 7), SLICE(int32_t, 8));
    case CLOSING:
        return bienguloc_closing(
            n[0], n[1], n[2], SLICE(const uint32_t, 0), SLICE(const uint8_t, 1), SLICE(const uint32_t, 2), SLICE(int32_t, 3));
    case CHECK_CLOSING:
        return bienguloc_check_closing(
            n[0], n[1], n[2], SLICE(const uint32_t, 0), SLICE(const uint8_t, 1), SLICE(const uint32_t, 2), SLICE(const int32_t, 3));
    case SECOND_PASS:
        return bienguloc_second_pass(n[0], n[1], n[2], SLICE(const uint32_t, 0), SLICE(const uint8_t, 1), SLICE(const uint32_t, 2),
            SLICE(const int32_t, 3), SLICE(const uint32_t, 4), SLICE(int64_t, 5), SLICE(uint64_t, 6), SLICE(int64_t, 7), SLICE(int64_t, 8),
            SLICE(int64_t, 9), SLICE(uint64_t, 10), SLICE(int32_t, 11), SLICE(uint32_t, 12), SLICE(uint8_t, 13), SLICE(int32_t, 14));
    case REPORT:
        return bienguloc_report(SLICE(const uint8_t, 0), SLICE(uint8_t, 1), SLICE(uint64_t, 2));
    }
    return UINT32_MAX;
}
