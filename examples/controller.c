/* Works one packed sheet, from a file or standard input, and prints the corrected angles in degrees, minutes and seconds, each with
 * its rounds:
 *
 *     controller [SHEET]
 *
 * or, of a sheet that is turned back, the refusal's number and place. It ends with status 0 when the sheet was worked, 1 when it
 * was refused, and 2 when it could not be read or the angles were not all written. */
#include <inttypes.h>
#include <stdio.h>

#include "bienguloc.h"

/* Everything that the library is lent, with room for the largest figure. */
struct desk {
    uint32_t head[BIENGULOC_LOOK_HEAD], read_head[BIENGULOC_READ_HEAD];
    uint32_t angles[BIENGULOC_MOST_ANGLES], fixed[BIENGULOC_MOST_FIXED], log_sines[BIENGULOC_MOST_ANGLES];
    uint8_t rounds[BIENGULOC_MOST_ANGLES];
    int32_t differences[BIENGULOC_MOST_ANGLES];
    uint32_t log_sides[BIENGULOC_MOST_LOG_SIDES];
    int32_t misclosures[BIENGULOC_MOST_CONDITIONS], rests[BIENGULOC_MOST_CONDITIONS];
    int32_t numerators[BIENGULOC_MOST_ANGLES], rounded[BIENGULOC_MOST_ANGLES];
    int64_t sine_misclosures[BIENGULOC_MOST_SINE_CONDITIONS];
    uint64_t divisor[2];
    int64_t reduced[BIENGULOC_MOST_ANGLES], side_reduced[BIENGULOC_MOST_ANGLES];
    int64_t numerators_high[BIENGULOC_MOST_ANGLES];
    uint64_t numerators_low[BIENGULOC_MOST_ANGLES];
    uint32_t results[BIENGULOC_MOST_ANGLES];
    uint8_t result_rounds[BIENGULOC_MOST_ANGLES];
};

/* The pass does not know the sheet's kind: a 0 on a sheet of kind 1 stands for another default than the pass's own. */
static uint32_t limit_of(const uint32_t *head)
{
    const uint32_t limit = head[BIENGULOC_READ_LIMIT_OR_TOLERANCE];
    return limit == 0 && head[BIENGULOC_HEAD_KIND] == 1 ? BIENGULOC_DEFAULT_LIMIT_OF_KIND_1 : limit;
}

static uint32_t first_pass(struct desk *d, size_t angles, size_t conditions)
{
    const uint32_t *h = d->read_head;
    return bienguloc_first_pass(h[BIENGULOC_HEAD_CODE], h[BIENGULOC_HEAD_N], limit_of(h),
        d->angles, angles, d->rounds, d->head[BIENGULOC_LOOK_ROUNDS], d->fixed, d->head[BIENGULOC_LOOK_FIXED],
        d->misclosures, conditions, d->numerators, angles, d->rounded, angles,
        d->results, angles, d->result_rounds, angles, d->rests, conditions);
}

/* A figure with log sides has a second sine condition, and so a second misclosure and reduced coefficients of its own. */
static uint32_t second_pass(struct desk *d, size_t angles, size_t conditions)
{
    const uint32_t *h = d->read_head;
    const size_t log_sides = d->head[BIENGULOC_LOOK_LOG_SIDES];
    return bienguloc_second_pass(h[BIENGULOC_HEAD_CODE], h[BIENGULOC_HEAD_N], h[BIENGULOC_READ_LIMIT_OR_TOLERANCE],
        d->angles, angles, d->rounds, d->head[BIENGULOC_LOOK_ROUNDS],
        d->log_sines, angles, d->differences, angles, d->log_sides, log_sides,
        d->sine_misclosures, log_sides ? 2 : 1, d->divisor, 2, d->reduced, angles, d->side_reduced, log_sides ? angles : 0,
        d->numerators_high, angles, d->numerators_low, angles, d->rounded, angles,
        d->results, angles, d->result_rounds, angles, d->rests, conditions);
}

/* A look gives the counts, the reader the values, the pass of the sheet's kind the results: the second where it has log-sines. */
static uint32_t work(const uint8_t *sheet, size_t size, struct desk *d)
{
    uint32_t answer = bienguloc_look(sheet, size, d->head, BIENGULOC_LOOK_HEAD);
    if (answer != BIENGULOC_DONE)
        return answer;
    const size_t angles = d->head[BIENGULOC_LOOK_ANGLES], sines = d->head[BIENGULOC_LOOK_LOG_SINES];
    answer = bienguloc_read(sheet, size, d->read_head, BIENGULOC_READ_HEAD,
        d->angles, angles, d->rounds, d->head[BIENGULOC_LOOK_ROUNDS], d->fixed, d->head[BIENGULOC_LOOK_FIXED],
        d->log_sines, sines, d->differences, sines, d->log_sides, d->head[BIENGULOC_LOOK_LOG_SIDES]);
    if (answer != BIENGULOC_DONE)
        return answer;
    const size_t conditions = d->head[BIENGULOC_LOOK_CONDITIONS];
    return sines ? second_pass(d, angles, conditions) : first_pass(d, angles, conditions);
}

static void print_angle(uint32_t number, uint32_t tenths, uint8_t rounds)
{
    printf("%2" PRIu32 "  %3" PRIu32 " %02" PRIu32 " %02" PRIu32 ".%" PRIu32 "  %3" PRIu8 "\n", number, tenths / 36000, tenths / 600 % 60,
        tenths / 10 % 60, tenths % 10, rounds);
}

static void print_answer(uint32_t answer, const struct desk *d)
{
    if (answer != BIENGULOC_DONE)
        printf("refused %" PRIu32 " %" PRIu32 "\n", BIENGULOC_NUMBER(answer), BIENGULOC_PLACE(answer));
    for (uint32_t i = 0; answer == BIENGULOC_DONE && i < d->head[BIENGULOC_LOOK_ANGLES]; i++)
        print_angle(i + 1, d->results[i], d->result_rounds[i]);
}

int main(int argc, char **argv)
{
    /* One byte more than the longest sheet, so that a sheet that is too long is seen. */
    uint8_t sheet[BIENGULOC_LONGEST_SHEET + 1];
    static struct desk desk;
    const char *name = argc > 1 ? argv[1] : "standard input";
    FILE *file = argc > 1 ? fopen(name, "rb") : stdin;
    const size_t size = file ? fread(sheet, 1, sizeof sheet, file) : 0;
    /* Bytes that an error cut off are no sheet. */
    if (!file || ferror(file)) {
        perror(name);
        return 2;
    }
    const uint32_t answer = work(sheet, size, &desk);
    print_answer(answer, &desk);
    /* What is printed waits in a buffer: only closing it tells whether all of it was taken. */
    const int is_lost = ferror(stdout);
    if (fclose(stdout) || is_lost) {
        perror("the angles were not all written");
        return 2;
    }
    return answer == BIENGULOC_DONE ? 0 : 1;
}
