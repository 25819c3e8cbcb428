/* The operations of the library in plain C, from document 01, and from M-100 to M-106 of document 02: figures by table,
 * the central polygon by its formula, two sine conditions in the compiler's 128-bit numbers, sheets by four bytes at a time through a
 * 64-bit register, every loop over the figure's own count, results held back until every test has passed. */
#include "peer.h"

#include <stdbool.h>
#include <string.h>

enum {
    MOST_ANGLES = 24,
    MOST_CONDITIONS = 9,
    MOST_FIXED = 4,
    MOST_SIDES = 2,
    LONGEST_TEXT = 2048,
    HALF_CIRCLE = 6480000,
    MOST_LOG_SINE = 100000000,
    MOST_LOG_SIDE = 100000000,
    MOST_DIFFERENCE = 9999,
    MOST_LIMIT = 600,
    MOST_TOLERANCE = 50,
    MOST_ROUNDS = 255,
    DEFAULT_LIMIT = 90, /* of a pass that is called directly; a sheet has that of its kind */
    DEFAULT_TOLERANCE = 10,
    ANGLE_BITS = 23,
    ROUNDS_BITS = 8,
    LOG_SINE_BITS = 27,
    LOG_SIDE_BITS = 27,
    DIFFERENCE_BITS = 15
};

__extension__ typedef __int128 wide;
__extension__ typedef unsigned __int128 unsigned_wide;

enum refusal_number {
    NO_FIGURE = 1,
    WRONG_LENGTH,
    LIMIT_RANGE,
    ANGLE_RANGE,
    FIXED_RANGE,
    MISCLOSURE,
    RESULT_RANGE,
    SINE_RANGE,
    TOLERANCE,
    SUM_OF_SQUARES_IS_ZERO,
    NO_KIND,
    SHEET_LENGTH,
    FILLING,
    FIXED_SUM,
    CHOICE,
    ROUNDS_RANGE
};

enum pass { NO_PASS, FIRST, SECOND };

/* By the number of a kind: the pass that it is for, what 0 stands for where the sheet has L or e, and whether rounds follow each
 * observed angle. */
static const struct {
    enum pass pass;
    uint32_t stands_for;
    bool rounds;
} kinds[16] = {
    [1] = {FIRST, 150, false},
    [2] = {SECOND, DEFAULT_TOLERANCE, false},
    [3] = {FIRST, DEFAULT_LIMIT, false},
    [4] = {FIRST, DEFAULT_LIMIT, true},
    [5] = {SECOND, DEFAULT_TOLERANCE, true},
};

struct figure {
    uint32_t code, n;
    uint32_t angles, conditions, fixed;
    int32_t denominator;
    uint32_t sides; /* known log sides; where there are any, a second sine condition joins them */
};

/* A sheet's values, as the reader finds them. */
struct values {
    uint32_t kind, limit;
    const struct figure *figure;
    uint32_t angles[MOST_ANGLES], fixed[MOST_FIXED], log_sines[MOST_ANGLES];
    int32_t differences[MOST_ANGLES];
    uint32_t log_sides[MOST_SIDES];
    uint8_t rounds[MOST_ANGLES];
};

struct first_work {
    int32_t misclosures[MOST_CONDITIONS], numerators[MOST_ANGLES], rounded[MOST_ANGLES], rests[MOST_CONDITIONS];
    uint32_t corrected[MOST_ANGLES];
};

struct second_work {
    int64_t sine_misclosures[2], reduced[MOST_ANGLES], side_reduced[MOST_ANGLES], numerators_high[MOST_ANGLES];
    uint64_t divisor[2], numerators_low[MOST_ANGLES];
    int32_t rounded[MOST_ANGLES], rests[MOST_CONDITIONS];
    uint32_t adjusted[MOST_ANGLES];
};

static const struct figure quadrilateral = {1, 0, 8, 3, 0, 8, 0};
static const struct figure point_in_triangle = {2, 3, 9, 6, 3, 10, 0};
static const struct figure point_in_quadrilateral = {2, 4, 12, 8, 4, 24, 2};
static const struct figure polygons[] = {
    {3, 3, 9, 4, 0, 18, 0},
    {3, 4, 12, 5, 0, 24, 0},
    {3, 5, 15, 6, 0, 30, 0},
    {3, 6, 18, 7, 0, 36, 0},
    {3, 7, 21, 8, 0, 42, 0},
    {3, 8, 24, 9, 0, 48, 0},
};

/* Rows for angles 1 and 2, 3 and 4, 5 and 6, 7 and 8. */
static const int32_t quadrilateral_rows[4][3] = {{-3, 2, -1}, {-1, -2, 1}, {1, -2, -1}, {-1, 2, -3}};

/* Three triangles, three fixed angles. */
static const int32_t triangle_rows[9][6] = {
    {-6, -2, -2, 4, 4, 2},
    {-2, 0, 2, -5, 1, -1},
    {-2, 2, 0, 1, -5, -1},
    {-2, -6, -2, 2, 4, 4},
    {2, -2, 0, -1, -5, 1},
    {0, -2, 2, -1, 1, -5},
    {-2, -2, -6, 4, 2, 4},
    {0, 2, -2, 1, -1, -5},
    {2, 0, -2, -5, -1, 1},
};

/* Four triangles, four fixed angles. */
static const int32_t four_corner_rows[12][8] = {
    {-14, -4, -2, -4, 9, 9, 3, 3},
    {-5, -1, 1, 5, -12, 3, 0, -3},
    {-5, 5, 1, -1, 3, -12, -3, 0},
    {-4, -14, -4, -2, 3, 9, 9, 3},
    {5, -5, -1, 1, -3, -12, 3, 0},
    {-1, -5, 5, 1, 0, 3, -12, -3},
    {-2, -4, -14, -4, 3, 3, 9, 9},
    {1, 5, -5, -1, 0, -3, -12, 3},
    {1, -1, -5, 5, -3, 0, 3, -12},
    {-4, -2, -4, -14, 9, 3, 3, 9},
    {-1, 1, 5, -5, 3, 0, -3, -12},
    {5, 1, -1, -5, -12, -3, 0, 3},
};

static uint32_t refused(enum refusal_number number, uint32_t place)
{
    return 256u * (uint32_t)number + place;
}

static bool is_kind(uint32_t kind)
{
    return kind < sizeof kinds / sizeof *kinds && kinds[kind].pass != NO_PASS;
}

static bool is_first(uint32_t kind)
{
    return kinds[kind].pass == FIRST;
}

/* A kind without rounds has one of each angle. */
static uint8_t most_rounds(uint32_t kind)
{
    return kinds[kind].rounds ? MOST_ROUNDS : 1;
}

static const struct figure *figure_of(uint32_t code, uint32_t n)
{
    if (code == 1 && n == 0)
        return &quadrilateral;
    if (code == 2 && n == 3)
        return &point_in_triangle;
    if (code == 2 && n == 4)
        return &point_in_quadrilateral;
    if (code == 3 && n >= 3 && n <= 8)
        return &polygons[n - 3];
    return NULL;
}

/* The lowest place of a value outside low..high, or 0. */
static uint32_t lowest_outside(const uint32_t *values, uint32_t count, uint32_t low, uint32_t high)
{
    for (uint32_t i = 0; i < count; i++)
        if (values[i] < low || values[i] > high)
            return i + 1;
    return 0;
}

static uint32_t lowest_bad_rounds(const uint8_t *rounds, uint32_t count, uint8_t most)
{
    for (uint32_t i = 0; i < count; i++)
        if (rounds[i] < 1 || rounds[i] > most)
            return i + 1;
    return 0;
}

static uint32_t lowest_bad_sine(const uint32_t *log_sines, const int32_t *differences, uint32_t count)
{
    for (uint32_t i = 0; i < count; i++) {
        bool fits = log_sines[i] >= 1 && log_sines[i] <= MOST_LOG_SINE;
        if (!fits || differences[i] < -MOST_DIFFERENCE || differences[i] > MOST_DIFFERENCE)
            return i + 1;
    }
    return 0;
}

/* As the corners of a triangle or a quadrilateral do; each angle is known to lie in its range. */
static bool fixed_angles_sum(const uint32_t *fixed, uint32_t count)
{
    uint32_t sum = 0;
    for (uint32_t i = 0; i < count; i++)
        sum += fixed[i];
    return count == 0 || sum == (count - 2) * HALF_CIRCLE;
}

/* Numbers 3, 4, 16, 5, 14, 8, which reader, writer and passes share; a pass or kind without fixed angles, log-sines or log sides has
 * counts of 0. */
static uint32_t judge_given(uint32_t limit, uint32_t most_limit, const uint32_t *angles, const uint8_t *rounds, uint8_t most,
    uint32_t angle_count, const uint32_t *fixed, uint32_t fixed_count, const uint32_t *log_sines, const int32_t *differences,
    uint32_t sine_count, const uint32_t *log_sides, uint32_t side_count)
{
    if (limit > most_limit)
        return refused(LIMIT_RANGE, 0);
    uint32_t place = lowest_outside(angles, angle_count, 1, HALF_CIRCLE - 1);
    if (place)
        return refused(ANGLE_RANGE, place);
    place = lowest_bad_rounds(rounds, angle_count, most);
    if (place)
        return refused(ROUNDS_RANGE, place);
    place = lowest_outside(fixed, fixed_count, 1, HALF_CIRCLE - 1);
    if (place)
        return refused(FIXED_RANGE, place);
    if (!fixed_angles_sum(fixed, fixed_count))
        return refused(FIXED_SUM, 0);
    place = lowest_bad_sine(log_sines, differences, sine_count);
    if (place)
        return refused(SINE_RANGE, place);
    place = lowest_outside(log_sides, side_count, 1, MOST_LOG_SIDE);
    return place ? refused(SINE_RANGE, sine_count + place) : 0;
}

/* --- the passes --- */

static void quadrilateral_sums(const int32_t *v, int32_t *sums)
{
    for (int i = 0; i < 3; i++)
        sums[i] = v[2 * i] + v[2 * i + 1] + v[2 * i + 2] + v[2 * i + 3];
}

static void corner_sums(size_t n, const int32_t *v, int32_t *sums)
{
    sums[0] = v[3 * n - 1] + v[1];
    for (size_t j = 1; j < n; j++)
        sums[j] = v[3 * j - 1] + v[3 * j + 1];
}

/* The answer is the sum round the inner point. */
static int32_t triangle_sums(size_t n, const int32_t *v, int32_t *sums)
{
    int32_t horizon = 0;
    for (size_t i = 0; i < n; i++, v += 3) {
        sums[i] = v[0] + v[1] + v[2];
        horizon += v[0];
    }
    return horizon;
}

/* The sum of the values in each condition. */
static void condition_sums(const struct figure *f, const int32_t *v, int32_t *sums)
{
    if (f->code == 1) {
        quadrilateral_sums(v, sums);
        return;
    }
    const int32_t horizon = triangle_sums(f->n, v, sums);
    if (f->code == 2)
        corner_sums(f->n, v, sums + f->n);
    else
        sums[f->n] = horizon;
}

static void polygon_numerators(size_t n, const int32_t *w, int32_t *numerators)
{
    int32_t common = -3 * w[n]; /* T - 3h */
    for (size_t i = 0; i < n; i++)
        common += w[i];
    const int32_t of_its_own = -2 * (int32_t)n;
    for (size_t i = 0; i < n; i++, numerators += 3) {
        const int32_t own = of_its_own * w[i];
        numerators[0] = own + 2 * common;
        numerators[1] = numerators[2] = own - common;
    }
}

static void triangle_numerators(const int32_t *w, int32_t *numerators)
{
    for (int i = 0; i < 9; i++) {
        int32_t sum = 0;
        for (int j = 0; j < 6; j++)
            sum += triangle_rows[i][j] * w[j];
        numerators[i] = sum;
    }
}

static void four_corner_numerators(const int32_t *w, int32_t *numerators)
{
    for (int i = 0; i < 12; i++) {
        int32_t sum = 0;
        for (int j = 0; j < 8; j++)
            sum += four_corner_rows[i][j] * w[j];
        numerators[i] = sum;
    }
}

static void first_numerators(const struct figure *f, const int32_t *w, int32_t *numerators)
{
    if (f->code == 3) {
        polygon_numerators(f->n, w, numerators);
    } else if (f->code == 2) {
        (f->n == 3 ? triangle_numerators : four_corner_numerators)(w, numerators);
    } else {
        for (int i = 0; i < 4; i++) {
            const int32_t *row = quadrilateral_rows[i];
            numerators[2 * i] = numerators[2 * i + 1] = row[0] * w[0] + row[1] * w[1] + row[2] * w[2];
        }
    }
}

static void subtract_targets(const struct figure *f, const uint32_t *fixed, int32_t *sums)
{
    uint32_t triangles = f->code == 1 ? 3 : f->n;
    for (uint32_t i = 0; i < triangles; i++)
        sums[i] -= HALF_CIRCLE;
    for (uint32_t j = 0; j < f->fixed; j++)
        sums[triangles + j] -= (int32_t)fixed[j];
    if (f->code == 3)
        sums[f->n] -= 2 * HALF_CIRCLE;
}

/* Nearest whole number, halves to the even one. C's division cuts toward zero: away from it goes what is left past the half, and a half
   after an odd quotient. */
static int32_t rounded_tenths(int32_t numerator, int32_t denominator)
{
    const int32_t quotient = numerator / denominator, left = numerator % denominator, sign = numerator < 0 ? -1 : 1;
    return quotient + (2 * sign * left + (quotient & 1) > denominator ? sign : 0);
}

static int64_t rounded_long(int64_t numerator, int64_t denominator)
{
    const int64_t quotient = numerator / denominator, left = numerator % denominator, sign = numerator < 0 ? -1 : 1;
    return quotient + (2 * sign * left + (quotient & 1) > denominator ? sign : 0);
}

static wide rounded_wide(wide numerator, wide denominator)
{
    const wide quotient = numerator / denominator, left = numerator % denominator, sign = numerator < 0 ? -1 : 1;
    return quotient + (2 * sign * left + (quotient & 1) > denominator ? sign : 0);
}

static bool is_angle(int64_t tenths)
{
    return tenths >= 1 && tenths < HALF_CIRCLE;
}

/* Numbers 6 and 7, once every value is known to lie in its range. */
static uint32_t work_first(const struct figure *f, uint32_t limit, const uint32_t *angles, const uint32_t *fixed, struct first_work *out)
{
    const int32_t most = limit ? (int32_t)limit : DEFAULT_LIMIT, denominator = f->denominator;
    const uint32_t angle_count = f->angles, condition_count = f->conditions;
    condition_sums(f, (const int32_t *)angles, out->misclosures);
    subtract_targets(f, fixed, out->misclosures);
    for (uint32_t j = 0; j < condition_count; j++)
        if (out->misclosures[j] < -most || out->misclosures[j] > most)
            return refused(MISCLOSURE, j + 1);
    first_numerators(f, out->misclosures, out->numerators);
    for (uint32_t i = 0; i < angle_count; i++) {
        const int32_t rounded = rounded_tenths(out->numerators[i], denominator), corrected = (int32_t)angles[i] + rounded;
        if (!is_angle(corrected))
            return refused(RESULT_RANGE, i + 1);
        out->rounded[i] = rounded;
        out->corrected[i] = (uint32_t)corrected;
    }
    condition_sums(f, out->rounded, out->rests);
    for (uint32_t j = 0; j < condition_count; j++)
        out->rests[j] += out->misclosures[j];
    return 0;
}

static bool beyond_tolerance(int64_t sine_misclosure, uint32_t tolerance, int64_t difference_squares)
{
    const unsigned_wide magnitude = (unsigned_wide)(sine_misclosure < 0 ? -sine_misclosure : sine_misclosure);
    return 100 * magnitude * magnitude > (unsigned_wide)(tolerance * tolerance) * (unsigned_wide)difference_squares;
}

/* One angle with sign + and the next with sign -: their d, and what they add to W and to the sum of the squares of d. */
static void add_pair(const uint32_t *log_sines, const int32_t *differences, int32_t *d, int64_t *sine_misclosure, int64_t *squares)
{
    d[0] = differences[0];
    d[1] = -differences[1];
    *sine_misclosure += (int64_t)log_sines[0] - log_sines[1];
    *squares += d[0] * d[0] + d[1] * d[1];
}

/* W and d; the answer is the sum of the squares of d. */
static int64_t sign_sines(const struct figure *f, const uint32_t *log_sines, const int32_t *differences, int32_t *d,
    int64_t *sine_misclosure)
{
    int64_t misclosure = 0, squares = 0;
    if (f->code == 1) {
        for (uint32_t i = 0; i < f->angles; i += 2)
            add_pair(log_sines + i, differences + i, d + i, &misclosure, &squares);
    } else {
        for (uint32_t i = 0; i < f->angles; i += 3) {
            d[i] = 0;
            add_pair(log_sines + i + 1, differences + i + 1, d + i + 1, &misclosure, &squares);
        }
    }
    *sine_misclosure = misclosure;
    return squares;
}

/* The side condition: log side 1 + r of 1 - c of 1 - log side 4 - l of 4 + c of 4. Its W and d; the answer is the sum of the squares
 * of d. */
static int64_t sign_side(const uint32_t *log_sines, const int32_t *differences, const uint32_t *log_sides, int32_t *d,
    int64_t *sine_misclosure)
{
    memset(d, 0, 12 * sizeof *d);
    d[0] = -differences[0];
    d[2] = differences[2];
    d[9] = differences[9];
    d[10] = -differences[10];
    *sine_misclosure = (int64_t)log_sides[0] + log_sines[2] - log_sines[0] - log_sides[1] - log_sines[10] + log_sines[9];
    return (int64_t)(d[0] * d[0] + d[2] * d[2]) + (d[9] * d[9] + d[10] * d[10]);
}

/* A or B of these d; the answer is the sum of its squares. */
static int64_t reduce(const struct figure *f, const int32_t *d, int64_t *out)
{
    int32_t sums[MOST_CONDITIONS], taken[MOST_ANGLES];
    condition_sums(f, d, sums);
    first_numerators(f, sums, taken);
    const uint32_t angle_count = f->angles;
    const int32_t denominator = f->denominator;
    int64_t square_sum = 0;
    for (uint32_t i = 0; i < angle_count; i++) {
        const int64_t reduced = denominator * d[i] + taken[i];
        out[i] = reduced;
        square_sum += reduced * reduced;
    }
    return square_sum;
}

static int64_t product_sum(const int64_t *one, const int64_t *other, uint32_t count)
{
    int64_t sum = 0;
    for (uint32_t i = 0; i < count; i++)
        sum += one[i] * other[i];
    return sum;
}

/* Numbers 10, 9 and 7 of a figure with one sine condition, once every value is known to lie in its range. */
static uint32_t work_one_sine(const struct figure *f, uint32_t tolerance, const uint32_t *angles, const uint32_t *log_sines,
    const int32_t *differences, struct second_work *out)
{
    int32_t d[MOST_ANGLES];
    const int64_t squares = sign_sines(f, log_sines, differences, d, &out->sine_misclosures[0]);
    const int64_t square_sum = reduce(f, d, out->reduced), misclosure = out->sine_misclosures[0];
    if (square_sum == 0)
        return refused(SUM_OF_SQUARES_IS_ZERO, 0);
    if (beyond_tolerance(misclosure, tolerance, squares))
        return refused(TOLERANCE, 0);
    out->divisor[0] = 0;
    out->divisor[1] = (uint64_t)square_sum;
    const int64_t factor = -100 * (int64_t)f->denominator * misclosure;
    const uint32_t angle_count = f->angles;
    for (uint32_t i = 0; i < angle_count; i++) {
        const int64_t numerator = factor * out->reduced[i], rounded = rounded_long(numerator, square_sum);
        const int64_t adjusted = (int64_t)angles[i] + rounded;
        if (!is_angle(adjusted))
            return refused(RESULT_RANGE, i + 1);
        out->numerators_high[i] = numerator < 0 ? -1 : 0;
        out->numerators_low[i] = (uint64_t)numerator;
        out->rounded[i] = (int32_t)rounded;
        out->adjusted[i] = (uint32_t)adjusted;
    }
    return 0;
}

/* The corrections of two sine conditions, over their determinant; number 7. */
static uint32_t correct_two_sines(const struct figure *f, const uint32_t *angles, wide pole_factor, wide side_factor, wide determinant,
    struct second_work *out)
{
    const uint32_t angle_count = f->angles;
    for (uint32_t i = 0; i < angle_count; i++) {
        const wide numerator = out->reduced[i] * pole_factor + out->side_reduced[i] * side_factor;
        const int64_t rounded = (int64_t)rounded_wide(numerator, determinant);
        const int64_t adjusted = (int64_t)angles[i] + rounded;
        if (!is_angle(adjusted))
            return refused(RESULT_RANGE, i + 1);
        out->numerators_high[i] = (int64_t)(numerator >> 64);
        out->numerators_low[i] = (uint64_t)numerator;
        out->rounded[i] = (int32_t)rounded;
        out->adjusted[i] = (uint32_t)adjusted;
    }
    return 0;
}

/* The same of a figure with two: M-100. */
static uint32_t work_two_sines(const struct figure *f, uint32_t tolerance, const uint32_t *angles, const uint32_t *log_sines,
    const int32_t *differences, const uint32_t *log_sides, struct second_work *out)
{
    int32_t d[MOST_ANGLES], side_d[MOST_ANGLES];
    const int64_t squares = sign_sines(f, log_sines, differences, d, &out->sine_misclosures[0]);
    const int64_t side_squares = sign_side(log_sines, differences, log_sides, side_d, &out->sine_misclosures[1]);
    const int64_t aa = reduce(f, d, out->reduced), bb = reduce(f, side_d, out->side_reduced);
    const int64_t ab = product_sum(out->reduced, out->side_reduced, f->angles);
    const wide determinant = (wide)aa * bb - (wide)ab * ab;
    if (determinant == 0)
        return refused(SUM_OF_SQUARES_IS_ZERO, 0);
    const int64_t of_pole = out->sine_misclosures[0], of_side = out->sine_misclosures[1];
    if (beyond_tolerance(of_pole, tolerance, squares) || beyond_tolerance(of_side, tolerance, side_squares))
        return refused(TOLERANCE, 0);
    out->divisor[0] = (uint64_t)(determinant >> 64);
    out->divisor[1] = (uint64_t)determinant;
    const int64_t scale = -100 * (int64_t)f->denominator;
    const wide pole_factor = scale * ((wide)bb * of_pole - (wide)ab * of_side);
    const wide side_factor = scale * ((wide)aa * of_side - (wide)ab * of_pole);
    return correct_two_sines(f, angles, pole_factor, side_factor, determinant, out);
}

static uint32_t work_second(const struct figure *f, uint32_t tolerance, const uint32_t *angles, const uint32_t *log_sines,
    const int32_t *differences, const uint32_t *log_sides, struct second_work *out)
{
    const uint32_t most = tolerance ? tolerance : DEFAULT_TOLERANCE;
    const uint32_t answer = f->sides ? work_two_sines(f, most, angles, log_sines, differences, log_sides, out)
                                     : work_one_sine(f, most, angles, log_sines, differences, out);
    if (!answer)
        condition_sums(f, out->rounded, out->rests);
    return answer;
}

uint32_t peer_first_pass(uint32_t code, uint32_t n, uint32_t limit, const uint32_t *angles, size_t angle_count, const uint8_t *rounds,
    size_t round_count, const uint32_t *fixed, size_t fixed_count, int32_t *misclosures, size_t misclosure_count, int32_t *numerators,
    size_t numerator_count, int32_t *rounded, size_t rounded_count, uint32_t *corrected, size_t corrected_count,
    uint8_t *corrected_rounds, size_t corrected_round_count, int32_t *rests, size_t rest_count)
{
    const struct figure *f = figure_of(code, n);
    if (!f)
        return refused(NO_FIGURE, 0);
    const size_t a = f->angles, c = f->conditions;
    if (angle_count != a || round_count != a || fixed_count != f->fixed || misclosure_count != c || numerator_count != a
        || rounded_count != a || corrected_count != a || corrected_round_count != a || rest_count != c)
        return refused(WRONG_LENGTH, 0);
    struct first_work work;
    uint32_t answer = judge_given(limit, MOST_LIMIT, angles, rounds, MOST_ROUNDS, f->angles, fixed, f->fixed, NULL, NULL, 0, NULL, 0);
    if (!answer)
        answer = work_first(f, limit, angles, fixed, &work);
    if (answer)
        return answer;
    memcpy(misclosures, work.misclosures, c * sizeof *misclosures);
    memcpy(numerators, work.numerators, a * sizeof *numerators);
    memcpy(rounded, work.rounded, a * sizeof *rounded);
    memcpy(corrected, work.corrected, a * sizeof *corrected);
    memcpy(corrected_rounds, rounds, a);
    memcpy(rests, work.rests, c * sizeof *rests);
    return 0;
}

/* --- a rounding that closes --- */

/* What the first pass refuses, in its order, with the slice of the choice among the lengths; and its work. */
static uint32_t exact_first(const struct figure *f, uint32_t limit, const uint32_t *angles, size_t angle_count, const uint8_t *rounds,
    size_t round_count, const uint32_t *fixed, size_t fixed_count, size_t choice_count, struct first_work *work)
{
    if (!f)
        return refused(NO_FIGURE, 0);
    if (angle_count != f->angles || round_count != f->angles || fixed_count != f->fixed || choice_count != f->angles)
        return refused(WRONG_LENGTH, 0);
    const uint32_t answer
        = judge_given(limit, MOST_LIMIT, angles, rounds, MOST_ROUNDS, f->angles, fixed, f->fixed, NULL, NULL, 0, NULL, 0);
    return answer ? answer : work_first(f, limit, angles, fixed, work);
}

/* Downwards, also below zero. */
static int32_t floor_quotient(int32_t numerator, int32_t denominator)
{
    return numerator / denominator - (numerator % denominator < 0);
}

/* A direction as exact corrections are laid off, over the denominator, and in whole tenths downwards. */
struct direction {
    int32_t exact, tenths;
};

/* The direction after an angle; the angle's correction is the difference in whole tenths. */
static inline struct direction laid_off(struct direction from, int32_t numerator, int32_t denominator, int32_t *correction)
{
    const int32_t exact = from.exact + numerator, tenths = floor_quotient(exact, denominator);
    *correction = tenths - from.tenths;
    return (struct direction){exact, tenths};
}

/* The quadrilateral's angles one after another; in code 2 of each triangle the third, the first, the second; in code 3 the first ones
 * of the triangles one after another, and from each the second and the third. */
static void choose(const struct figure *f, const int32_t *numerators, int32_t *choice)
{
    const struct direction first = {0, 0};
    const int32_t denominator = f->denominator;
    struct direction at = first, inner = first;
    if (f->code == 1) {
        for (uint32_t i = 0; i < f->angles; i++)
            at = laid_off(at, numerators[i], denominator, &choice[i]);
        return;
    }
    for (uint32_t i = 0; i < f->angles; i += 3) {
        if (f->code == 2)
            inner = laid_off(first, numerators[i + 2], denominator, &choice[i + 2]);
        inner = laid_off(inner, numerators[i], denominator, &choice[i]);
        at = laid_off(inner, numerators[i + 1], denominator, &choice[i + 1]);
        if (f->code == 3)
            laid_off(at, numerators[i + 2], denominator, &choice[i + 2]);
    }
}

uint32_t peer_closing(uint32_t code, uint32_t n, uint32_t limit, const uint32_t *angles, size_t angle_count, const uint8_t *rounds,
    size_t round_count, const uint32_t *fixed, size_t fixed_count, int32_t *corrections, size_t correction_count)
{
    const struct figure *f = figure_of(code, n);
    struct first_work work;
    const uint32_t answer = exact_first(f, limit, angles, angle_count, rounds, round_count, fixed, fixed_count, correction_count, &work);
    if (!answer)
        choose(f, work.numerators, corrections);
    return answer;
}

/* Both rules; sums are taken only of corrections that the first one has found small. */
static bool keeps_both_rules(const struct figure *f, const struct first_work *work, const int32_t *offered)
{
    const int32_t denominator = f->denominator;
    for (uint32_t i = 0; i < f->angles; i++) {
        const int32_t below = floor_quotient(work->numerators[i], denominator), above = -floor_quotient(-work->numerators[i], denominator);
        if (offered[i] != below && offered[i] != above)
            return false;
    }
    int32_t sums[MOST_CONDITIONS];
    condition_sums(f, offered, sums);
    for (uint32_t j = 0; j < f->conditions; j++)
        if (work->misclosures[j] + sums[j] != 0)
            return false;
    return true;
}

uint32_t peer_check_closing(uint32_t code, uint32_t n, uint32_t limit, const uint32_t *angles, size_t angle_count, const uint8_t *rounds,
    size_t round_count, const uint32_t *fixed, size_t fixed_count, const int32_t *offered, size_t offered_count)
{
    const struct figure *f = figure_of(code, n);
    struct first_work work;
    const uint32_t answer = exact_first(f, limit, angles, angle_count, rounds, round_count, fixed, fixed_count, offered_count, &work);
    if (answer)
        return answer;
    return keeps_both_rules(f, &work, offered) ? 0 : refused(CHOICE, 0);
}

uint32_t peer_second_pass(uint32_t code, uint32_t n, uint32_t tolerance, const uint32_t *angles, size_t angle_count,
    const uint8_t *rounds, size_t round_count, const uint32_t *log_sines, size_t log_sine_count, const int32_t *differences,
    size_t difference_count, const uint32_t *log_sides, size_t log_side_count, int64_t *sine_misclosures, size_t sine_misclosure_count,
    uint64_t *divisor, size_t divisor_count, int64_t *reduced, size_t reduced_count, int64_t *side_reduced, size_t side_reduced_count,
    int64_t *numerators_high, size_t high_count, uint64_t *numerators_low, size_t low_count, int32_t *rounded, size_t rounded_count,
    uint32_t *adjusted, size_t adjusted_count, uint8_t *adjusted_rounds, size_t adjusted_round_count, int32_t *rests, size_t rest_count)
{
    const struct figure *f = figure_of(code, n);
    if (!f)
        return refused(NO_FIGURE, 0);
    const size_t a = f->angles, of_side = f->sides ? a : 0, sines = f->sides ? 2 : 1;
    if (angle_count != a || round_count != a || log_sine_count != a || difference_count != a || log_side_count != f->sides
        || sine_misclosure_count != sines || divisor_count != 2 || reduced_count != a || side_reduced_count != of_side || high_count != a
        || low_count != a || rounded_count != a || adjusted_count != a || adjusted_round_count != a || rest_count != f->conditions)
        return refused(WRONG_LENGTH, 0);
    struct second_work work;
    uint32_t answer = judge_given(tolerance, MOST_TOLERANCE, angles, rounds, MOST_ROUNDS, f->angles, NULL, 0, log_sines, differences,
        f->angles, log_sides, f->sides);
    if (!answer)
        answer = work_second(f, tolerance, angles, log_sines, differences, log_sides, &work);
    if (answer)
        return answer;
    memcpy(sine_misclosures, work.sine_misclosures, sines * sizeof *sine_misclosures);
    memcpy(divisor, work.divisor, sizeof work.divisor);
    memcpy(reduced, work.reduced, a * sizeof *reduced);
    memcpy(side_reduced, work.side_reduced, of_side * sizeof *side_reduced);
    memcpy(numerators_high, work.numerators_high, a * sizeof *numerators_high);
    memcpy(numerators_low, work.numerators_low, a * sizeof *numerators_low);
    memcpy(rounded, work.rounded, a * sizeof *rounded);
    memcpy(adjusted, work.adjusted, a * sizeof *adjusted);
    memcpy(adjusted_rounds, rounds, a);
    memcpy(rests, work.rests, f->conditions * sizeof *rests);
    return 0;
}

/* --- packed sheets --- */

/* The most significant byte first, as on a sheet; a compiler makes one load and one store of these. */
static inline uint32_t four_bytes(const uint8_t *at)
{
    return (uint32_t)at[0] << 24 | (uint32_t)at[1] << 16 | (uint32_t)at[2] << 8 | at[3];
}

static inline void store_four_bytes(uint8_t *at, uint32_t bytes)
{
    at[0] = (uint8_t)(bytes >> 24);
    at[1] = (uint8_t)(bytes >> 16);
    at[2] = (uint8_t)(bytes >> 8);
    at[3] = (uint8_t)bytes;
}

struct bits_in {
    const uint8_t *next, *end;
    uint64_t held;
    unsigned count;
};

/* No field is wider than 27 bits, so what is held stays under 26 + 32 bits. */
static inline uint32_t take(struct bits_in *in, unsigned width)
{
    if (in->count < width && in->end - in->next >= 4) {
        in->held = in->held << 32 | four_bytes(in->next);
        in->next += 4;
        in->count += 32;
    }
    while (in->count < width) {
        in->held = in->held << 8 | *in->next++;
        in->count += 8;
    }
    in->count -= width;
    return (uint32_t)(in->held >> in->count) & ((1u << width) - 1);
}

struct bits_out {
    uint8_t *next;
    uint64_t held;
    unsigned count;
};

static inline void put(struct bits_out *out, unsigned width, uint32_t value)
{
    out->held = out->held << width | value;
    out->count += width;
    if (out->count >= 32) {
        out->count -= 32;
        store_four_bytes(out->next, (uint32_t)(out->held >> out->count));
        out->next += 4;
    }
}

/* What put still holds, and the filling. */
static void put_last_bytes(struct bits_out *out)
{
    while (out->count >= 8) {
        out->count -= 8;
        *out->next++ = (uint8_t)(out->held >> out->count);
    }
    if (out->count)
        *out->next = (uint8_t)(out->held << (8 - out->count));
}

static size_t sheet_size(uint32_t kind, const struct figure *f)
{
    const size_t angle = kinds[kind].rounds ? ANGLE_BITS + ROUNDS_BITS : ANGLE_BITS, row = angle + LOG_SINE_BITS + DIFFERENCE_BITS;
    const size_t first = 22 + angle * f->angles + ANGLE_BITS * (size_t)f->fixed;
    const size_t second = 18 + LOG_SIDE_BITS * (size_t)f->sides + row * f->angles;
    return ((is_first(kind) ? first : second) + 7) / 8;
}

/* The kind and figure of a sheet, into v; 12 of one without a head, then 11 and 1. */
static uint32_t take_head(const uint8_t *sheet, size_t size, struct values *v)
{
    if (size < 2)
        return refused(SHEET_LENGTH, 0);
    v->kind = sheet[0] >> 4;
    if (!is_kind(v->kind))
        return refused(NO_KIND, 0);
    v->figure = figure_of(sheet[0] & 15, sheet[1] >> 4);
    return v->figure ? 0 : refused(NO_FIGURE, 0);
}

static void take_angle(struct bits_in *in, struct values *v, uint32_t i)
{
    v->angles[i] = take(in, ANGLE_BITS);
    v->rounds[i] = kinds[v->kind].rounds ? (uint8_t)take(in, ROUNDS_BITS) : 1;
}

/* Number 13 is tested before the values, so the filling is looked at once all fields are taken. */
static uint32_t take_values(const uint8_t *sheet, size_t size, struct values *v)
{
    const struct figure *f = v->figure;
    struct bits_in in = {sheet + 2, sheet + size, sheet[1] & 15, 4};
    v->limit = take(&in, is_first(v->kind) ? 10 : 6);
    if (is_first(v->kind)) {
        for (uint32_t i = 0; i < f->angles; i++)
            take_angle(&in, v, i);
        for (uint32_t i = 0; i < f->fixed; i++)
            v->fixed[i] = take(&in, ANGLE_BITS);
    } else {
        for (uint32_t i = 0; i < f->sides; i++)
            v->log_sides[i] = take(&in, LOG_SIDE_BITS);
        for (uint32_t i = 0; i < f->angles; i++) {
            take_angle(&in, v, i);
            v->log_sines[i] = take(&in, LOG_SINE_BITS);
            const int32_t raw = (int32_t)take(&in, DIFFERENCE_BITS);
            v->differences[i] = raw < 1 << 14 ? raw : raw - (1 << 15);
        }
    }
    return take(&in, in.count) ? refused(FILLING, 0) : 0;
}

static uint32_t judge_values(const struct values *v)
{
    const struct figure *f = v->figure;
    const uint8_t most = most_rounds(v->kind);
    if (is_first(v->kind))
        return judge_given(v->limit, MOST_LIMIT, v->angles, v->rounds, most, f->angles, v->fixed, f->fixed, NULL, NULL, 0, NULL, 0);
    return judge_given(v->limit, MOST_TOLERANCE, v->angles, v->rounds, most, f->angles, NULL, 0, v->log_sines, v->differences, f->angles,
        v->log_sides, f->sides);
}

uint32_t peer_look(const uint8_t *sheet, size_t size, uint32_t *head, size_t head_count)
{
    struct values v;
    const uint32_t answer = take_head(sheet, size, &v);
    if (answer)
        return answer;
    if (head_count != 9)
        return refused(WRONG_LENGTH, 0);
    const struct figure *f = v.figure;
    const bool first = is_first(v.kind);
    head[0] = v.kind;
    head[1] = f->code;
    head[2] = f->n;
    head[3] = f->angles;
    head[4] = first ? f->fixed : 0;
    head[5] = first ? 0 : f->angles;
    head[6] = f->conditions;
    head[7] = first ? 0 : f->sides;
    head[8] = f->angles;
    return 0;
}

uint32_t peer_read(const uint8_t *sheet, size_t size, uint32_t *head, size_t head_count, uint32_t *angles, size_t angle_count,
    uint8_t *rounds, size_t round_count, uint32_t *fixed, size_t fixed_count, uint32_t *log_sines, size_t log_sine_count,
    int32_t *differences, size_t difference_count, uint32_t *log_sides, size_t log_side_count)
{
    struct values v;
    uint32_t answer = take_head(sheet, size, &v);
    if (answer)
        return answer;
    const struct figure *f = v.figure;
    if (size != sheet_size(v.kind, f))
        return refused(SHEET_LENGTH, 0);
    const bool first = is_first(v.kind);
    const size_t fixed_here = first ? f->fixed : 0, sines_here = first ? 0 : f->angles, sides_here = first ? 0 : f->sides;
    if (head_count != 4 || angle_count != f->angles || round_count != f->angles || fixed_count != fixed_here
        || log_sine_count != sines_here || difference_count != sines_here || log_side_count != sides_here)
        return refused(WRONG_LENGTH, 0);
    answer = take_values(sheet, size, &v);
    if (!answer)
        answer = judge_values(&v);
    if (answer)
        return answer;
    head[0] = v.kind;
    head[1] = f->code;
    head[2] = f->n;
    head[3] = v.limit;
    memcpy(angles, v.angles, angle_count * sizeof *angles);
    memcpy(rounds, v.rounds, round_count);
    memcpy(fixed, v.fixed, fixed_count * sizeof *fixed);
    memcpy(log_sines, v.log_sines, log_sine_count * sizeof *log_sines);
    memcpy(differences, v.differences, difference_count * sizeof *differences);
    memcpy(log_sides, v.log_sides, log_side_count * sizeof *log_sides);
    return 0;
}

/* Without a kind's rounds there is nothing to put after the angle. */
static inline void put_angle(struct bits_out *out, bool with_rounds, uint32_t angle, uint8_t rounds)
{
    put(out, ANGLE_BITS, angle);
    if (with_rounds)
        put(out, ROUNDS_BITS, rounds);
}

static void put_first(struct bits_out *out, uint32_t limit, bool with_rounds, const uint32_t *angles, const uint8_t *rounds,
    size_t angle_count, const uint32_t *fixed, size_t fixed_count)
{
    put(out, 10, limit);
    for (size_t i = 0; i < angle_count; i++)
        put_angle(out, with_rounds, angles[i], rounds[i]);
    for (size_t i = 0; i < fixed_count; i++)
        put(out, ANGLE_BITS, fixed[i]);
}

static void put_second(struct bits_out *out, uint32_t tolerance, bool with_rounds, const uint32_t *angles, const uint8_t *rounds,
    const uint32_t *log_sines, const int32_t *differences, size_t angle_count, const uint32_t *log_sides, size_t log_side_count)
{
    put(out, 6, tolerance);
    for (size_t i = 0; i < log_side_count; i++)
        put(out, LOG_SIDE_BITS, log_sides[i]);
    for (size_t i = 0; i < angle_count; i++) {
        put_angle(out, with_rounds, angles[i], rounds[i]);
        put(out, LOG_SINE_BITS, log_sines[i]);
        put(out, DIFFERENCE_BITS, (uint32_t)differences[i] & 0x7fff);
    }
}

static uint32_t judge_written(uint32_t kind, const struct figure *f, uint32_t limit, const uint32_t *angles, size_t angle_count,
    const uint8_t *rounds, size_t round_count, const uint32_t *fixed, size_t fixed_count, const uint32_t *log_sines,
    size_t log_sine_count, const int32_t *differences, size_t difference_count, const uint32_t *log_sides, size_t log_side_count,
    size_t size)
{
    const bool first = is_first(kind);
    const uint32_t fixed_here = first ? f->fixed : 0, sines_here = first ? 0 : f->angles, sides_here = first ? 0 : f->sides;
    if (angle_count != f->angles || round_count != f->angles || fixed_count != fixed_here || log_sine_count != sines_here
        || difference_count != sines_here || log_side_count != sides_here || size != sheet_size(kind, f))
        return refused(WRONG_LENGTH, 0);
    return judge_given(limit, first ? MOST_LIMIT : MOST_TOLERANCE, angles, rounds, most_rounds(kind), f->angles, fixed, fixed_here,
        log_sines, differences, sines_here, log_sides, sides_here);
}

uint32_t peer_write(uint32_t kind, uint32_t code, uint32_t n, uint32_t limit_or_tolerance, const uint32_t *angles, size_t angle_count,
    const uint8_t *rounds, size_t round_count, const uint32_t *fixed, size_t fixed_count, const uint32_t *log_sines,
    size_t log_sine_count, const int32_t *differences, size_t difference_count, const uint32_t *log_sides, size_t log_side_count,
    uint8_t *sheet, size_t size)
{
    if (!is_kind(kind))
        return refused(NO_KIND, 0);
    const struct figure *f = figure_of(code, n);
    if (!f)
        return refused(NO_FIGURE, 0);
    const uint32_t answer = judge_written(kind, f, limit_or_tolerance, angles, angle_count, rounds, round_count, fixed, fixed_count,
        log_sines, log_sine_count, differences, difference_count, log_sides, log_side_count, size);
    if (answer)
        return answer;
    struct bits_out out = {sheet, 0, 0};
    put(&out, 12, kind << 8 | code << 4 | n);
    const bool with_rounds = kinds[kind].rounds;
    if (is_first(kind))
        put_first(&out, limit_or_tolerance, with_rounds, angles, rounds, angle_count, fixed, fixed_count);
    else
        put_second(&out, limit_or_tolerance, with_rounds, angles, rounds, log_sines, differences, angle_count, log_sides, log_side_count);
    put_last_bytes(&out);
    return 0;
}

/* --- the printed text --- */

static inline uint8_t *put_word(uint8_t *at, const char *word)
{
    const size_t length = strlen(word);
    memcpy(at, word, length);
    return at + length;
}

static uint8_t *put_number(uint8_t *at, int64_t number)
{
    uint8_t digits[20];
    size_t count = 0;
    uint64_t left = number < 0 ? 0 - (uint64_t)number : (uint64_t)number;
    do {
        digits[count++] = (uint8_t)('0' + left % 10);
        left /= 10;
    } while (left);
    if (number < 0)
        *at++ = '-';
    while (count)
        *at++ = digits[--count];
    return at;
}

static uint8_t *put_next(uint8_t *at, int64_t number)
{
    *at++ = ' ';
    return put_number(at, number);
}

enum { EIGHTEEN = 18 };

/* A number in two words after a space: what fits 64 bits as that, else in groups of eighteen digits. */
static uint8_t *put_next_wide(uint8_t *at, wide number)
{
    if (number >= INT64_MIN && number <= INT64_MAX)
        return put_next(at, (int64_t)number);
    const uint64_t group = 1000000000000000000u;
    const unsigned_wide size = number < 0 ? 0 - (unsigned_wide)number : (unsigned_wide)number;
    *at++ = ' ';
    if (number < 0)
        *at++ = '-';
    at = put_number(at, (int64_t)(size / group));
    uint64_t left = (uint64_t)(size % group);
    for (int i = EIGHTEEN - 1; i >= 0; i--, left /= 10)
        at[i] = (uint8_t)('0' + left % 10);
    return at + EIGHTEEN;
}

static wide from_words(int64_t high, uint64_t low)
{
    return (wide)high * ((wide)1 << 64) + low;
}

static uint8_t *put_figure(uint8_t *at, const struct figure *f)
{
    at = put_next(put_word(at, "figure"), f->code);
    return put_next(at, f->n);
}

static uint8_t *put_first_lines(uint8_t *at, const struct values *v, const struct first_work *work)
{
    const struct figure *f = v->figure;
    at = put_next(put_word(put_figure(at, f), " denominator"), f->denominator);
    *at++ = '\n';
    for (uint32_t i = 0; i < f->angles; i++) {
        at = put_next(put_number(at, i + 1), v->angles[i]);
        at = put_next(at, work->numerators[i]);
        at = put_next(put_next(at, work->rounded[i]), work->corrected[i]);
        at = put_next(at, v->rounds[i]);
        *at++ = '\n';
    }
    for (uint32_t j = 0; j < f->conditions; j++) {
        at = put_next(put_word(at, "condition"), j + 1);
        at = put_next(put_next(at, work->misclosures[j]), work->rests[j]);
        *at++ = '\n';
    }
    return at;
}

static uint8_t *put_second_lines(uint8_t *at, const struct values *v, const struct second_work *work)
{
    const struct figure *f = v->figure;
    at = put_next(put_word(put_figure(at, f), " W"), work->sine_misclosures[0]);
    if (f->sides)
        at = put_next(at, work->sine_misclosures[1]);
    at = put_next_wide(put_word(at, f->sides ? " determinant" : " S"), from_words((int64_t)work->divisor[0], work->divisor[1]));
    *at++ = '\n';
    for (uint32_t i = 0; i < f->angles; i++) {
        at = put_next(put_number(at, i + 1), v->angles[i]);
        at = put_next(at, work->reduced[i]);
        if (f->sides)
            at = put_next(at, work->side_reduced[i]);
        at = put_next_wide(at, from_words(work->numerators_high[i], work->numerators_low[i]));
        at = put_next(put_next(at, work->rounded[i]), work->adjusted[i]);
        at = put_next(at, v->rounds[i]);
        *at++ = '\n';
    }
    for (uint32_t j = 0; j < f->conditions; j++) {
        at = put_next(put_next(put_word(at, "condition"), j + 1), work->rests[j]);
        *at++ = '\n';
    }
    return at;
}

static uint32_t take_sheet(const uint8_t *sheet, size_t size, struct values *v)
{
    uint32_t answer = take_head(sheet, size, v);
    if (!answer && size != sheet_size(v->kind, v->figure))
        answer = refused(SHEET_LENGTH, 0);
    if (!answer)
        answer = take_values(sheet, size, v);
    return answer ? answer : judge_values(v);
}

static uint8_t *put_refusal(uint8_t *at, uint32_t answer)
{
    at = put_next(put_next(put_word(at, "refused"), answer / 256), answer % 256);
    *at++ = '\n';
    return at;
}

/* Where the lines end. */
static uint8_t *put_lines(uint8_t *at, const uint8_t *sheet, size_t size)
{
    struct values v;
    uint32_t answer = take_sheet(sheet, size, &v);
    if (answer)
        return put_refusal(at, answer);
    const uint32_t limit = v.limit ? v.limit : kinds[v.kind].stands_for;
    if (is_first(v.kind)) {
        struct first_work work;
        answer = work_first(v.figure, limit, v.angles, v.fixed, &work);
        return answer ? put_refusal(at, answer) : put_first_lines(at, &v, &work);
    }
    struct second_work work;
    answer = work_second(v.figure, limit, v.angles, v.log_sines, v.differences, v.log_sides, &work);
    return answer ? put_refusal(at, answer) : put_second_lines(at, &v, &work);
}

uint32_t peer_report(const uint8_t *sheet, size_t size, uint8_t *text, size_t room, uint64_t *written, size_t written_count)
{
    uint8_t lines[LONGEST_TEXT];
    const size_t length = (size_t)(put_lines(lines, sheet, size) - lines);
    if (length > room || written_count != 1)
        return refused(WRONG_LENGTH, 0);
    memcpy(text, lines, length);
    *written = length;
    return 0;
}
