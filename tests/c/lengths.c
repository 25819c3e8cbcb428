#include "lengths.h"

#include <string.h>

#include "bienguloc.h"

enum { WRONG_LENGTH = BIENGULOC_WRONG_LENGTH * 256, ALL_ZERO = 0x00, ALL_ONES = 0xFF, MIXED = 0xA5 };

static char complaint[LONGEST_NAME];
static unsigned long made;

unsigned long calls_made(void)
{
    return made;
}

/* The counts that were lent, after what is wrong. */
static const char *with_counts(const struct call *call, const size_t *counts, int end)
{
    for (size_t i = 0; i < call->slice_count && end < LONGEST_NAME; i++)
        end += snprintf(complaint + end, (size_t)(LONGEST_NAME - end), "%s %zu", i ? "," : ", lent counts of", counts[i]);
    return complaint;
}

static const char *wrong_answer(const struct call *call, const size_t *counts, uint32_t found, uint32_t right)
{
    return with_counts(call, counts, snprintf(complaint, sizeof complaint, "answers %u and not %u", (unsigned)found, (unsigned)right));
}

static const char *wrong_slice(const struct call *call, const size_t *counts, const char *what, size_t place)
{
    return with_counts(call, counts, snprintf(complaint, sizeof complaint, "slice %zu %s", place + 1, what));
}

static bool is_stored(const struct slice *slice, bool stores)
{
    return stores && (slice->mode == STORED || slice->mode == TEXT);
}

/* A text's slice is left as it was past its lines; every other slice has just its values. */
static bool holds(const struct slice *slice, const struct lent *lent, bool stores)
{
    if (!is_stored(slice, stores))
        return is_as_lent(lent, 0);
    const size_t bytes = slice->count * slice->width;
    return bytes <= lent->bytes && memcmp(lent->values, slice->values, bytes) == 0 && is_as_lent(lent, bytes);
}

/* The call with these counts of values, which must give this answer, and store only if `stores`. */
static const char *called_with(const struct call *call, const size_t *counts, uint32_t answer, bool stores, uint8_t pattern, enum side side)
{
    struct lent lent[MOST_SLICES];
    for (size_t i = 0; i < call->slice_count; i++) {
        const struct slice *slice = &call->slices[i];
        const bool given = slice->mode == SHEET || slice->mode == GIVEN;
        lent[i] = lend(i, slice->width, counts[i], slice->values, given ? slice->count * slice->width : 0, pattern, side);
    }
    const uint32_t found = answer_of(call, lent);
    made++;
    if (found != answer)
        return wrong_answer(call, counts, found, answer);
    for (size_t i = 0; i < call->slice_count; i++) {
        if (!canaries_live(&lent[i]))
            return wrong_slice(call, counts, "has lost a canary", i);
        if (!holds(&call->slices[i], &lent[i], stores))
            return wrong_slice(call, counts, is_stored(&call->slices[i], stores) ? "has other values" : "is changed", i);
    }
    return NULL;
}

static void own_counts(const struct call *call, size_t *counts)
{
    for (size_t i = 0; i < call->slice_count; i++)
        counts[i] = call->slices[i].count;
}

const char *right_lengths(const struct call *call)
{
    static const struct {
        uint8_t pattern;
        enum side side;
    } tries[] = {{ALL_ZERO, PAGE_AFTER}, {ALL_ONES, PAGE_BEFORE}, {MIXED, PAGE_AFTER}};
    size_t counts[MOST_SLICES];
    own_counts(call, counts);
    for (size_t i = 0; i < sizeof tries / sizeof *tries; i++) {
        const char *wrong = called_with(call, counts, call->answer, call->answer == BIENGULOC_DONE, tries[i].pattern, tries[i].side);
        if (wrong)
            return wrong;
    }
    return NULL;
}

/* Document 01's orders: whether the call's own refusal is found before the lengths are looked at. */
static bool refused_before_lengths(const struct call *call)
{
    const bool sheet_given = call->function == LOOK || call->function == READ;
    const bool kind_given = sheet_given || call->function == WRITE;
    switch (BIENGULOC_NUMBER(call->answer)) {
    case BIENGULOC_NO_SUCH_FIGURE:
        return true;
    case BIENGULOC_NO_SUCH_KIND:
        return kind_given;
    case BIENGULOC_WRONG_SHEET_LENGTH:
        return sheet_given;
    default:
        return false;
    }
}

static const char *try_wrong(const struct call *call, const size_t *counts)
{
    const uint32_t answer = refused_before_lengths(call) ? call->answer : WRONG_LENGTH;
    const char *wrong = called_with(call, counts, answer, false, MIXED, PAGE_AFTER);
    return wrong ? wrong : called_with(call, counts, answer, false, ALL_ONES, PAGE_BEFORE);
}

/* A text that has room to spare is no wrong length. */
static const char *try_longer_text(const struct call *call, const size_t *counts)
{
    return called_with(call, counts, call->answer, true, MIXED, PAGE_AFTER);
}

/* One value too few, one too many, none; and one too few beside one too many, so that the sum is right. */
static const char *wrong_length_at(const struct call *call, size_t place)
{
    size_t counts[MOST_SLICES];
    own_counts(call, counts);
    const size_t right = counts[place];
    counts[place] = right + 1;
    const char *wrong = call->slices[place].mode == TEXT ? try_longer_text(call, counts) : try_wrong(call, counts);
    if (wrong || right == 0)
        return wrong;
    counts[place] = 0;
    wrong = try_wrong(call, counts);
    counts[place] = right - 1;
    if (!wrong)
        wrong = try_wrong(call, counts);
    if (wrong || place + 1 == call->slice_count)
        return wrong;
    counts[place + 1]++;
    return try_wrong(call, counts);
}

static const char *room_to_spare(const struct call *call, size_t place)
{
    size_t counts[MOST_SLICES];
    own_counts(call, counts);
    counts[place] = BIENGULOC_ROOM_FOR_TEXT;
    const char *wrong = try_longer_text(call, counts);
    counts[place] = 2 * BIENGULOC_ROOM_FOR_TEXT + 1;
    return wrong ? wrong : try_longer_text(call, counts);
}

const char *wrong_lengths(const struct call *call)
{
    for (size_t place = 0; place < call->slice_count; place++) {
        const char *wrong = NULL;
        if (call->slices[place].mode != SHEET)
            wrong = wrong_length_at(call, place);
        if (!wrong && call->slices[place].mode == TEXT)
            wrong = room_to_spare(call, place);
        if (wrong)
            return wrong;
    }
    return NULL;
}
