/* Bienguloc: the adjustment of survey angles. The C side of the static library `controller`.
 *
 * A slice is a pointer and a count of values, one after the other in every list below. A slice has exactly the count that the
 * figure and the kind of sheet or pass give it: 0 where there are no such values. No pointer is null, not even one with a count
 * of 0. Every value that is lent has been written, those that a call stores too: fill an output first, with anything. What is
 * lent must not overlap. docs/EMBEDDING.md says the rest.
 *
 * Every function answers 0 when it is done, else the refusal: number * 256 + place. A refusal has changed nothing that was lent.
 *
 * Units: angles, limits and corrections in tenths of a second; log-sines plus 10, and log sides, in the seventh decimal; sine
 * differences for one second in hundredths of the sixth decimal; tolerances in seconds. Rounds are how often an angle was observed,
 * 1 to 255.
 */
#ifndef BIENGULOC_H
#define BIENGULOC_H

#include <stddef.h>
#include <stdint.h>

#ifdef __cplusplus
extern "C" {
#endif

/* No pointer among the parameters is null: a compiler that can tell says so of a call. */
#if defined(__GNUC__)
#define BIENGULOC_NOT_NULL __attribute__((nonnull))
#else
#define BIENGULOC_NOT_NULL
#endif

/* The two parts of an answer; both are 0 of an answer that says done. */
#define BIENGULOC_DONE 0u
#define BIENGULOC_NUMBER(answer) ((uint32_t)(answer) / 256u)
#define BIENGULOC_PLACE(answer) ((uint32_t)(answer) % 256u)

/* The numbers of document 01's table, and of document 02. */
#define BIENGULOC_NO_SUCH_FIGURE 1u
#define BIENGULOC_WRONG_LENGTH 2u
#define BIENGULOC_LIMIT_OR_TOLERANCE_OUT_OF_RANGE 3u
#define BIENGULOC_ANGLE_OUT_OF_RANGE 4u
#define BIENGULOC_FIXED_ANGLE_OUT_OF_RANGE 5u
#define BIENGULOC_MISCLOSURE_BEYOND_LIMIT 6u
#define BIENGULOC_RESULT_OUT_OF_RANGE 7u
#define BIENGULOC_SINE_ENTRY_OUT_OF_RANGE 8u
#define BIENGULOC_SINE_MISCLOSURE_BEYOND_TOLERANCE 9u
#define BIENGULOC_SUM_OF_SQUARES_IS_ZERO 10u /* S is 0, or the determinant of two sine conditions */
#define BIENGULOC_NO_SUCH_KIND 11u
#define BIENGULOC_WRONG_SHEET_LENGTH 12u
#define BIENGULOC_FILLING_BIT_SET 13u
#define BIENGULOC_FIXED_ANGLES_DO_NOT_SUM 14u /* to 6480000 where there are three, 12960000 where there are four */
#define BIENGULOC_CHOICE_DOES_NOT_CLOSE 15u   /* or is not the whole tenth just below or just above at some angle */
#define BIENGULOC_ROUNDS_OUT_OF_RANGE 16u     /* 0; on a sheet of kind 1, 2 or 3 every count but 1 */

/* What a limit L of 0 stands for: in a first pass that is called directly and in sheets of kinds 3 and 4; and in a sheet of kind 1,
 * whose caller hands the pass this limit where the sheet has 0. */
#define BIENGULOC_DEFAULT_LIMIT 90u
#define BIENGULOC_DEFAULT_LIMIT_OF_KIND_1 150u

/* Room that is enough for every figure and kind. */
#define BIENGULOC_MOST_ANGLES 24
#define BIENGULOC_MOST_FIXED 4
#define BIENGULOC_MOST_LOG_SIDES 2
#define BIENGULOC_MOST_CONDITIONS 9
#define BIENGULOC_MOST_SINE_CONDITIONS 2
#define BIENGULOC_LONGEST_SHEET 222
#define BIENGULOC_ROOM_FOR_TEXT 2048

/* The places of `head`, and how many values it has: the first three are the same for a look and for the reader. */
enum {
    BIENGULOC_HEAD_KIND = 0,
    BIENGULOC_HEAD_CODE = 1,
    BIENGULOC_HEAD_N = 2,

    BIENGULOC_LOOK_ANGLES = 3,
    BIENGULOC_LOOK_FIXED = 4,
    BIENGULOC_LOOK_LOG_SINES = 5,
    BIENGULOC_LOOK_CONDITIONS = 6,
    BIENGULOC_LOOK_LOG_SIDES = 7,
    BIENGULOC_LOOK_ROUNDS = 8,
    BIENGULOC_LOOK_HEAD = 9,

    BIENGULOC_READ_LIMIT_OR_TOLERANCE = 3,
    BIENGULOC_READ_HEAD = 4
};

/* What the head of a sheet says, and so how long the slices are that the reader and the pass are lent. Kinds 1, 3 and 4 are for the
 * first pass and have no log-sines, kinds 2 and 5 are for the second. There are as many differences as log-sines. Every angle has its
 * rounds, whether the sheet carries them, as kinds 4 and 5 do, or not. A figure whose sheets of the second pass have log sides has two
 * sine conditions, every other figure one. Only the first two bytes are judged: 12 if there are fewer, then 11, 1, 2. */
BIENGULOC_NOT_NULL uint32_t bienguloc_look(const uint8_t *sheet, size_t,
    uint32_t *head, size_t /* 9: kind, code, n, angles, fixed, log-sines, conditions, log sides, rounds */);

/* The values of a packed sheet. L or e is given as packed, so that 0 stays 0. A sheet of kind 1, 2 or 3 has one round of each angle.
 * In order: 12 if under two bytes, 11, 1, 12, 2, 13, 3, 4, 16, 5, 14, 8. */
BIENGULOC_NOT_NULL uint32_t bienguloc_read(const uint8_t *sheet, size_t, uint32_t *head, size_t /* 4: kind, code, n, L or e */,
    uint32_t *angles, size_t, uint8_t *rounds, size_t, uint32_t *fixed, size_t, uint32_t *log_sines, size_t, int32_t *differences, size_t,
    uint32_t *log_sides, size_t);

/* The packed sheet of these values, into a slice of exactly its size. Kinds 1, 2 and 3 have no place for other rounds than 1: 16 where
 * one is given. In order: 11, 1, 2, 3, 4, 16, 5, 14, 8. */
BIENGULOC_NOT_NULL uint32_t bienguloc_write(uint32_t kind, uint32_t code, uint32_t n, uint32_t limit_or_tolerance,
    const uint32_t *angles, size_t, const uint8_t *rounds, size_t, const uint32_t *fixed, size_t, const uint32_t *log_sines, size_t,
    const int32_t *differences, size_t, const uint32_t *log_sides, size_t, uint8_t *sheet, size_t);

/* The first corrections. By condition: misclosures and rests; by angle: the numerators of the exact corrections (over D), the
 * rounded corrections, the corrected angles, and their rounds, which are those that were given. A limit of 0 stands for
 * BIENGULOC_DEFAULT_LIMIT, whatever kind of sheet the values come from. In order: 1, 2, 3, 4, 16, 5, 14, 6, 7. */
BIENGULOC_NOT_NULL uint32_t bienguloc_first_pass(uint32_t code, uint32_t n, uint32_t limit,
    const uint32_t *angles, size_t, const uint8_t *rounds, size_t, const uint32_t *fixed, size_t,
    int32_t *misclosures, size_t, int32_t *numerators, size_t, int32_t *rounded, size_t,
    uint32_t *corrected, size_t, uint8_t *corrected_rounds, size_t, int32_t *rests, size_t);

/* A rounding that closes: of each angle the whole tenth just below or just above its exact first correction, so that every rest is 0;
 * a whole value stays. It refuses exactly where the first pass does, by the same number and place, 7 by ordinary rounding: so an angle
 * with its choice may lie a tenth outside its range. In order: 1, 2, 3, 4, 16, 5, 14, 6, 7. */
BIENGULOC_NOT_NULL uint32_t bienguloc_closing(uint32_t code, uint32_t n, uint32_t limit,
    const uint32_t *angles, size_t, const uint8_t *rounds, size_t, const uint32_t *fixed, size_t, int32_t *corrections, size_t);

/* Whether offered corrections are such a choice, ours or another: 0 if both rules hold, else 15. Nothing is stored.
 * In order: 1, 2, 3, 4, 16, 5, 14, 6, 7, 15. */
BIENGULOC_NOT_NULL uint32_t bienguloc_check_closing(uint32_t code, uint32_t n, uint32_t limit,
    const uint32_t *angles, size_t, const uint8_t *rounds, size_t, const uint32_t *fixed, size_t, const int32_t *offered, size_t);

/* The second corrections, of first-corrected angles. By sine condition, one or two: the misclosures W. The divisor, in two words,
 * is S, or the determinant of two sine conditions. By angle: the reduced coefficients A; of two sine conditions B too, else no
 * values; the numerators of the exact corrections, over the divisor, in two words; the rounded corrections, the adjusted angles, and
 * their rounds, which are those that were given. By condition: the rests. A number in two words is high * 2^64 + low. A tolerance of 0
 * stands for 10. In order: 1, 2, 3, 4, 16, 8, 10, 9, 7. A log side outside its range has a place after the angles'. */
BIENGULOC_NOT_NULL uint32_t bienguloc_second_pass(uint32_t code, uint32_t n, uint32_t tolerance,
    const uint32_t *angles, size_t, const uint8_t *rounds, size_t, const uint32_t *log_sines, size_t, const int32_t *differences, size_t,
    const uint32_t *log_sides, size_t, int64_t *sine_misclosures, size_t /* 1 or 2 */, uint64_t *divisor, size_t /* 2: high, low */,
    int64_t *reduced, size_t, int64_t *side_reduced, size_t, int64_t *numerators_high, size_t, uint64_t *numerators_low, size_t,
    int32_t *rounded, size_t, uint32_t *adjusted, size_t, uint8_t *adjusted_rounds, size_t, int32_t *rests, size_t);

/* The lines that the program prints for these bytes, whatever they are: a sheet that is turned back has the line `refused`, and
 * the answer is 0. Where the sheet has 0 as L or e, it is worked with the default of its kind. `text` may be longer than its lines,
 * and is left as it was past them; `written` gets their count of bytes. 2 if the lines do not fit `text` or `written` has not exactly
 * 1 value. No more than BIENGULOC_ROOM_FOR_TEXT bytes are written. */
BIENGULOC_NOT_NULL uint32_t bienguloc_report(const uint8_t *sheet, size_t, uint8_t *text, size_t, uint64_t *written, size_t /* 1 */);

#ifdef __cplusplus
}
#endif

#endif
