#!/usr/bin/env python3
"""Sheets made for the comparison: good ones, near misses at every edge, flipped bits, every length, noise.

The same sheets come out every time. Run as a program it tells how many there are and which refusal numbers they reach.

Every number of document 01's table, 14 of M-101 and 16 of M-106 is reached but one. Number 2 is about a slice that a caller
lends: the program lends slices of exactly the sheet's counts, which it has from the sheet's own head, so no sheet can bring it
about. Nor can one bring about 15, which M-104 gives a choice of corrections that a caller offers.
The ones that need care:
- 1 comes after 11 and before 12, so it shows on sheets of any length from two bytes.
- 7 of the first pass needs an angle within a few tenths of an end of its range in a figure that still closes: needles.
- 10 needs every reduced coefficient to be 0: no differences at all, differences at inner angles only (their sine sign
  is 0), or signed differences that are a sum of conditions, which wants some of them negative. Of two sine conditions it is
  enough that one's reduced coefficients are a multiple of the other's.
- 9 comes after 10, so it needs a difference that counts.
- 12 of a sheet longer than the 223 bytes that the program holds looks like 12 of 223 bytes.
- 14 needs fixed angles within their range. Elsewhere they sum as they must, or 6 and 7 of code 2 would not be seen.
- 16 needs a kind that has rounds: their field holds 0 to 255, of which 0 alone is outside.
"""

import random
from fractions import Fraction
from itertools import combinations_with_replacement, islice, product
from math import isqrt

from closing import closing_angles, move_that_keeps_conditions, with_sum
from figures import FIGURES, HALF_CIRCLE, figure_of, first_numerators, fixed_sum, reduced_coefficients, second_corrections
from independent import divisor_of, rounded_quotient, second_pass, signed_values, work
from packed import (
    ANGLE_BITS,
    DIFFERENCE_BITS,
    KINDS,
    LARGEST_ANGLE,
    LARGEST_DIFFERENCE,
    LARGEST_LIMIT,
    LARGEST_LOG_SIDE,
    LARGEST_LOG_SINE,
    LARGEST_ROUNDS,
    LARGEST_TOLERANCE,
    LIMIT_BITS,
    LOG_SIDE_BITS,
    LOG_SINE_BITS,
    TOLERANCE_BITS,
    Refused,
    Sheet,
    is_first,
    packed_values,
    sheet_size,
    used_bits,
)

SEED = 1978
NUMBERS = range(1, 17)
UNREACHABLE = {2, 15}

FIRST_KINDS = [kind for kind in KINDS if is_first(kind)]
SECOND_KINDS = [kind for kind in KINDS if not is_first(kind)]
KINDS_WITH_ROUNDS = [kind for kind in KINDS if KINDS[kind].has_rounds]
FIRST_DEFAULTS = [KINDS[kind].default for kind in FIRST_KINDS]

SIGN_BIT = 1 << (DIFFERENCE_BITS - 1)
MOST_IN_LIMIT = (1 << LIMIT_BITS) - 1
MOST_IN_TOLERANCE = (1 << TOLERANCE_BITS) - 1
MOST_LENGTH = 234  # every length of a sheet up to this is tried: some bytes past the 223 that the program holds

OUTSIDE_ANGLES = (0, LARGEST_ANGLE + 1, (1 << ANGLE_BITS) - 1)
OUTSIDE_LOG_SINES = (0, LARGEST_LOG_SINE + 1, (1 << LOG_SINE_BITS) - 1)
OUTSIDE_LOG_SIDES = (0, LARGEST_LOG_SIDE + 1, (1 << LOG_SIDE_BITS) - 1)
OUTSIDE_DIFFERENCES = (-SIGN_BIT, -LARGEST_DIFFERENCE - 1, LARGEST_DIFFERENCE + 1, SIGN_BIT - 1)


def label(kind, figure):
    return f"kind {kind} code {figure.code} n {figure.n}"


def with_value(values, place, value):
    """The values with another one at a place, counted from 1."""
    return values[: place - 1] + (value,) + values[place:]


# --- sheets that are accepted -------------------------------------------------------------------------------------------


def some_limit(rng):
    return rng.choice((0, 1, 20, *FIRST_DEFAULTS, LARGEST_LIMIT, rng.randint(1, LARGEST_LIMIT)))


def some_rounds(kind, figure, rng):
    """Of each angle; one each where the sheet has no place for them."""
    if not KINDS[kind].has_rounds:
        return (1,) * figure.angle_count
    return tuple(rng.choice((1, 2, LARGEST_ROUNDS, rng.randint(1, LARGEST_ROUNDS))) for _ in range(figure.angle_count))


def misclosures_within(figure, limit, rng):
    return tuple(rng.randint(-limit, limit) for _ in figure.conditions)


def needle_choice(rng):
    """Mostly values at an end of what is possible."""

    def choose(low, high):
        if low > high:
            raise ValueError("nothing to choose from")
        near = min(high - low, rng.randint(0, 12))
        return rng.choice((low, low + near, high - near, high, rng.randint(low, high)))

    return choose


def first_sheet(figure, rng, limit=0, misclosures=None, needle=False, over=0, kind=1):
    """A sheet of the first pass that closes within its limit, unless given misclosures go beyond it, and whose fixed angles sum
    to so much over what they must."""
    choose = needle_choice(rng) if needle else rng.randint
    while True:
        wanted = misclosures or misclosures_within(figure, limit or KINDS[kind].default, rng)
        found = closing_angles(figure, wanted, choose, over)
        if found:
            return Sheet(kind, figure, limit, found[0], some_rounds(kind, figure, rng), fixed=found[1])


def largest_sine_misclosure(sine, tolerance, differences):
    """The largest W of this condition that number 9 lets pass."""
    squares = sum(d * d for d in signed_values(sine.signs, differences))
    return isqrt((tolerance or KINDS[2].default) ** 2 * squares // 100)


def misclosures_within_tolerance(figure, tolerance, differences, rng):
    bounds = [largest_sine_misclosure(sine, tolerance, differences) for sine in figure.sines]
    return tuple(rng.randint(-bound, bound) for bound in bounds)


def log_sines_with(figure, sine_misclosure, rng):
    """Log-sines whose signed sum is the pole's W: equal sets on both sides, and the rest on one angle."""
    ordinary = [rng.randint(10_000_000, 90_000_000) for _ in range(figure.pole_signs.count(+1))]
    sides = {+1: list(ordinary), -1: rng.sample(ordinary, len(ordinary))}
    sides[+1][0] += sine_misclosure
    return tuple(sides[sign].pop() if sign else rng.randint(1, LARGEST_LOG_SINE) for sign in figure.pole_signs)


def moved_to_side_condition(figure, sine_misclosure, log_sines, log_sides, rng):
    """The log-sines with another one at the two angles that only the side condition joins, so that its W is the one wanted, or
    None where they cannot have it."""
    side = figure.sines[1]
    only_here = {sign: place for place, sign in enumerate(side.signs, start=1) if sign and not figure.pole_signs[place - 1]}
    others = tuple(0 if place in only_here.values() else value for place, value in enumerate(log_sines, start=1))
    rest = sine_misclosure - sum(signed_values(side.signs, others)) - sum(signed_values(side.side_signs, log_sides))
    low, high = max(1, 1 - rest), min(LARGEST_LOG_SINE, LARGEST_LOG_SINE - rest)
    if low > high:
        return None
    taken = rng.randint(low, high)
    return with_value(with_value(log_sines, only_here[-1], taken), only_here[+1], taken + rest)


def entries_with(figure, sine_misclosures, rng, log_sides=None):
    """Log-sines and log sides of which each sine condition has the W wanted."""
    if not figure.side_count:
        return log_sines_with(figure, sine_misclosures[0], rng), ()
    while True:
        sides = log_sides or tuple(rng.randint(1, LARGEST_LOG_SIDE) for _ in range(figure.side_count))
        log_sines = log_sines_with(figure, sine_misclosures[0], rng)
        moved = moved_to_side_condition(figure, sine_misclosures[1], log_sines, sides, rng)
        if moved:
            return moved, sides


def some_differences(figure, rng, largest=None):
    largest = largest or rng.choice((3, 40, 700, LARGEST_DIFFERENCE))
    return tuple(rng.randint(-largest, largest) for _ in figure.pole_signs)


def second_sheet(figure, rng, tolerance=0, differences=None, sine_misclosures=None, log_sides=None, kind=2):
    """A sheet of the second pass within its tolerance, unless a given W goes beyond it."""
    differences = differences or some_differences(figure, rng)
    wanted = sine_misclosures or misclosures_within_tolerance(figure, tolerance, differences, rng)
    angles = tuple(rng.randint(36_000, LARGEST_ANGLE - 36_000) for _ in figure.pole_signs)
    log_sines, sides = entries_with(figure, wanted, rng, log_sides)
    rounds = some_rounds(kind, figure, rng)
    return Sheet(kind, figure, tolerance, angles, rounds, log_sines=log_sines, differences=differences, log_sides=sides)


def ordinary_sheet(kind, figure, rng):
    if is_first(kind):
        return first_sheet(figure, rng, kind=kind)
    return second_sheet(figure, rng, differences=some_differences(figure, rng, 700), kind=kind)


def each_kind_and_figure():
    return [(kind, figure) for kind in KINDS for figure in FIGURES]


def good_sheet(kind, figure, rng):
    if is_first(kind):
        return first_sheet(figure, rng, some_limit(rng), kind=kind)
    tolerance = rng.choice((0, 1, 10, LARGEST_TOLERANCE, rng.randint(1, LARGEST_TOLERANCE)))
    return second_sheet(figure, rng, tolerance, kind=kind)


def good_sheets(rng):
    for kind, figure in each_kind_and_figure():
        for _ in range(20):
            yield f"good {label(kind, figure)}", good_sheet(kind, figure, rng)


def needles(rng):
    """Figures with angles of a few tenths or nearly 180 degrees: number 7 and its edge on both sides."""
    for kind, figure in product(FIRST_KINDS, FIGURES):
        for _ in range(30):
            sheet = first_sheet(figure, rng, rng.choice((1, 8, 30, 0)), needle=True, kind=kind)
            yield f"needle {label(kind, figure)}", sheet


# --- edges of ranges ----------------------------------------------------------------------------------------------------


def limits(rng):
    for kind, figure in product(FIRST_KINDS, FIGURES):
        for limit in (0, 1, KINDS[kind].default, LARGEST_LIMIT - 1, LARGEST_LIMIT, LARGEST_LIMIT + 1, MOST_IN_LIMIT):
            sheet = first_sheet(figure, rng, min(limit, LARGEST_LIMIT), kind=kind)
            yield f"limit {limit} {label(kind, figure)}", sheet._replace(limit=limit)
    for kind, figure in product(SECOND_KINDS, FIGURES):
        largest = LARGEST_TOLERANCE
        for tolerance in (0, 1, KINDS[kind].default, largest - 1, largest, largest + 1, MOST_IN_TOLERANCE):
            sheet = second_sheet(figure, rng, min(tolerance, largest), kind=kind)
            yield f"tolerance {tolerance} {label(kind, figure)}", sheet._replace(limit=tolerance)


def misclosures_at_the_limit(rng):
    """Number 6: each condition at the limit and one beyond, the others within; every edge of a default, two of a given limit."""
    for kind, figure in product(FIRST_KINDS, FIGURES):
        for place in range(1, len(figure.conditions) + 1):
            for limit, count in ((0, 4), (some_limit(rng), 2)):
                at = limit or KINDS[kind].default
                for misclosure in rng.sample((-at - 1, -at, at, at + 1), count):
                    others = misclosures_within(figure, at, rng)
                    sheet = first_sheet(figure, rng, limit, with_value(others, place, misclosure), kind=kind)
                    yield f"misclosure {place} of {misclosure} {label(kind, figure)}", sheet


def several_misclosures_beyond(rng):
    """The lowest place is named, and before an angle that a needle would lose."""
    for figure in FIGURES:
        for turn in range(8):
            beyond = misclosures_within(figure, 40, rng)
            yield f"misclosures beyond {label(1, figure)}", first_sheet(figure, rng, 20, beyond, needle=turn % 2 == 0)


def outside_and_edge(outside, edges, place, count):
    """Every outside value and edge at the first and last place, one outside value at every other."""
    if place in (1, count):
        return outside + edges
    return (outside[place % len(outside)],)


def angles_at_the_edge(rng):
    """Number 4. An edge angle of the first pass opens its triangle, so 6 follows; of the second it is accepted or gives 7."""
    for kind, figure in each_kind_and_figure():
        for place in range(1, figure.angle_count + 1):
            for angle in outside_and_edge(OUTSIDE_ANGLES, (1, LARGEST_ANGLE), place, figure.angle_count):
                sheet = ordinary_sheet(kind, figure, rng)
                yield f"angle {place} of {angle} {label(kind, figure)}", sheet._replace(
                    angles=with_value(sheet.angles, place, angle)
                )


def rounds_at_the_edge(rng):
    """Number 16 at every place; one round and 255 are accepted."""
    for kind, figure in product(KINDS_WITH_ROUNDS, FIGURES):
        for place in range(1, figure.angle_count + 1):
            for rounds in outside_and_edge((0,), (1, LARGEST_ROUNDS), place, figure.angle_count):
                sheet = ordinary_sheet(kind, figure, rng)
                yield f"{rounds} rounds of angle {place} {label(kind, figure)}", sheet._replace(
                    rounds=with_value(sheet.rounds, place, rounds)
                )


def rounds_of_their_own(rng):
    """Each angle has its own count, and all have the same: none is lost, and none belongs to a neighbour."""
    for kind, figure in product(KINDS_WITH_ROUNDS, FIGURES):
        count = figure.angle_count
        for rounds in (range(1, count + 1), range(LARGEST_ROUNDS, LARGEST_ROUNDS - count, -1), (1,) * count, (LARGEST_ROUNDS,) * count):
            sheet = ordinary_sheet(kind, figure, rng)._replace(rounds=tuple(rounds))
            yield f"rounds {rounds[0]} to {rounds[-1]} {label(kind, figure)}", sheet


def rounds_of_0_among_others(rng):
    """The lowest of several places is named; after 4, and before whatever comes later in the order."""
    for kind, figure in product(KINDS_WITH_ROUNDS, FIGURES):
        count = figure.angle_count
        for places in ((1, count), (2, count), (count - 1, count), range(1, count + 1)):
            sheet = ordinary_sheet(kind, figure, rng)
            rounds = tuple(0 if place in places else own for place, own in enumerate(sheet.rounds, start=1))
            yield f"no rounds of {len(places)} angles {label(kind, figure)}", sheet._replace(rounds=rounds)
        for sheet in turned_back_later(kind, figure, rng):
            yield f"no rounds, and more {label(kind, figure)}", spoil_rounds(sheet, rng)
        for first, last in ((1, count), (count, 1), (count, count)):
            sheet = ordinary_sheet(kind, figure, rng)
            yield f"angle {first} of 0 and no rounds of {last} {label(kind, figure)}", sheet._replace(
                angles=with_value(sheet.angles, first, 0), rounds=with_value(sheet.rounds, last, 0)
            )


def turned_back_later(kind, figure, rng):
    """Sheets that give 6 or 14, or 10 or 9."""
    if not is_first(kind):
        yield second_sheet(figure, rng, differences=(0,) * figure.angle_count, sine_misclosures=(1,) * len(figure.sines), kind=kind)
        differences = some_differences(figure, rng, 700)
        beyond = tuple(1 + largest_sine_misclosure(sine, 0, differences) for sine in figure.sines)
        yield second_sheet(figure, rng, 0, differences, beyond, kind=kind)
        return
    yield first_sheet(figure, rng, misclosures=(KINDS[kind].default + 1,) * len(figure.conditions), kind=kind)
    if figure.fixed_count:
        yield first_sheet(figure, rng, over=1, kind=kind)


def figures_with_fixed_angles():
    return [figure for figure in FIGURES if figure.fixed_count]


def fixed_angles_at_the_edge(rng):
    """Number 5; an angle at the edge is within its range, so 14 follows."""
    for figure in figures_with_fixed_angles():
        for place in range(1, figure.fixed_count + 1):
            for angle in OUTSIDE_ANGLES + (1, LARGEST_ANGLE):
                sheet = first_sheet(figure, rng)
                yield f"fixed angle {place} of {angle} {label(1, figure)}", sheet._replace(
                    fixed=with_value(sheet.fixed, place, angle)
                )


def edge_fixed_angles_that_sum(rng):
    """Number 5 though the others make up the sum; an angle at the edge passes 5 and 14, and 6 follows."""
    for figure in figures_with_fixed_angles():
        for place in range(1, figure.fixed_count + 1):
            for angle in OUTSIDE_ANGLES + (1, LARGEST_ANGLE):
                if angle > fixed_sum(figure):
                    continue
                others = with_sum(fixed_sum(figure) - angle, [LARGEST_ANGLE] * (figure.fixed_count - 1), rng.randint, 0)
                fixed = (*others[: place - 1], angle, *others[place - 1 :])
                yield f"fixed angle {place} of {angle} in the right sum {label(1, figure)}", first_sheet(figure, rng)._replace(
                    fixed=fixed
                )


def fixed_angles_that_do_not_sum(rng):
    """Number 14 where all listed conditions close, and before 6 and 7."""
    for figure in figures_with_fixed_angles():
        closed = (0,) * len(figure.conditions)
        sum_of_the_other = HALF_CIRCLE if figure.n == 3 else -HALF_CIRCLE
        for over in (-600, -2, -1, 1, 2, 600, sum_of_the_other):
            name = f"fixed angles {over} over {label(1, figure)}"
            yield f"closed, {name}", first_sheet(figure, rng, misclosures=closed, over=over)
            yield name, first_sheet(figure, rng, over=over)
            yield f"needle, {name}", first_sheet(figure, rng, needle=True, over=over)
            beyond = with_value(closed, rng.randint(1, len(closed)), rng.choice((-1, 1)) * (KINDS[1].default + 1))
            yield f"misclosure beyond, {name}", first_sheet(figure, rng, misclosures=beyond, over=over)
        for fixed in ((1,) * figure.n, (LARGEST_ANGLE,) * figure.n):
            yield f"fixed angles {fixed} {label(1, figure)}", first_sheet(figure, rng)._replace(fixed=fixed)


def fixed_angles_moved(rng):
    """Number 14 by a tenth at every place of a sheet that closes; accepted again when the next one is moved against it."""
    for figure in figures_with_fixed_angles():
        for place in range(1, figure.fixed_count + 1):
            following = place % figure.fixed_count + 1
            for step in (-1, 1):
                sheet = first_sheet(figure, rng, misclosures=(0,) * len(figure.conditions))
                moved = with_value(sheet.fixed, place, sheet.fixed[place - 1] + step)
                back = with_value(moved, following, moved[following - 1] - step)
                yield f"fixed angle {place} moved by {step} {label(1, figure)}", sheet._replace(fixed=moved)
                yield f"fixed angles {place} and {following} moved by {step} {label(1, figure)}", sheet._replace(fixed=back)


def log_sines_at_the_edge(rng):
    """Number 8."""
    for figure in FIGURES:
        for place in range(1, figure.angle_count + 1):
            for log_sine in outside_and_edge(OUTSIDE_LOG_SINES, (1, LARGEST_LOG_SINE), place, figure.angle_count):
                sheet = second_sheet(figure, rng)
                yield f"log-sine {place} of {log_sine} {label(2, figure)}", sheet._replace(
                    log_sines=with_value(sheet.log_sines, place, log_sine)
                )


def differences_at_the_edge(rng):
    """Number 8."""
    inside = (-LARGEST_DIFFERENCE, LARGEST_DIFFERENCE, -1, 0, 1)
    for figure in FIGURES:
        for place in range(1, figure.angle_count + 1):
            for difference in outside_and_edge(OUTSIDE_DIFFERENCES, inside, place, figure.angle_count):
                sheet = second_sheet(figure, rng)
                yield f"difference {place} of {difference} {label(2, figure)}", sheet._replace(
                    differences=with_value(sheet.differences, place, difference)
                )


def log_sides_at_the_edge(rng):
    """Number 8, with the places after the angles', and before them where a log-sine is outside too; then both ends, accepted."""
    for figure in figures_with_sides():
        for place in range(1, figure.side_count + 1):
            for log_side in OUTSIDE_LOG_SIDES:
                sheet = second_sheet(figure, rng)
                spoilt = sheet._replace(log_sides=with_value(sheet.log_sides, place, log_side))
                yield f"log side {place} of {log_side} {label(2, figure)}", spoilt
                yield f"log side {place} of {log_side} and a log-sine {label(2, figure)}", spoil_log_sine(spoilt, rng)
        yield f"log sides of 0 {label(2, figure)}", sheet._replace(log_sides=(0,) * figure.side_count)
        ends = (1, 2, LARGEST_LOG_SIDE - 1, LARGEST_LOG_SIDE)
        for log_sides in product(ends, repeat=figure.side_count):
            yield f"log sides of {log_sides} {label(2, figure)}", second_sheet(figure, rng, log_sides=log_sides)


def figures_with_sides():
    return [figure for figure in FIGURES if figure.side_count]


# --- edges of what is computed ------------------------------------------------------------------------------------------


def with_first_result(sheet, place, misclosures, result):
    """The sheet with one angle moved so that its corrected angle is the one wanted, or None where it cannot be."""
    correction = rounded_quotient(first_numerators(sheet.figure, misclosures)[place - 1], sheet.figure.denominator)
    growth = result - correction - sheet.angles[place - 1]
    angles = list(sheet.angles)
    for angle, step in move_that_keeps_conditions(sheet.figure, place).items():
        angles[angle - 1] += step * growth
    in_range = all(1 <= angle <= LARGEST_ANGLE for angle in angles)
    return sheet._replace(angles=tuple(angles)) if in_range else None


def corrected_angles_at_the_low_edge(rng):
    """Number 7 of kind 1: a corrected angle of 0 and of 1 at every place that allows it."""
    for figure in FIGURES:
        for place in range(1, figure.angle_count + 1):
            for result in (0, 1):
                for _ in range(20):
                    misclosures = misclosures_within(figure, KINDS[1].default, rng)
                    sheet = first_sheet(figure, rng, 0, misclosures)
                    moved = with_first_result(sheet, place, misclosures, result)
                    if moved:
                        yield f"corrected angle {place} of {result} {label(1, figure)}", moved
                        break


def needles_near_180_degrees(figure, limit, result, rng):
    """Closing sheets without end in which an angle near 180 degrees has this corrected angle, with its place."""
    while True:
        misclosures = misclosures_within(figure, limit, rng)
        found = closing_angles(figure, misclosures, needle_choice(rng))
        largest = max(found[0]) if found else 0
        if largest > LARGEST_ANGLE - 100:
            place = found[0].index(largest) + 1
            once = (1,) * figure.angle_count
            moved = with_first_result(Sheet(1, figure, limit, found[0], once, fixed=found[1]), place, misclosures, result)
            if moved:
                yield place, moved


def corrected_angles_of_180_degrees(rng):
    """Number 7 of kind 1, at its high edge."""
    for figure in FIGURES:
        for place, sheet in islice(needles_near_180_degrees(figure, 30, LARGEST_ANGLE + 1, rng), 8):
            yield f"corrected angle {place} of {LARGEST_ANGLE + 1} {label(1, figure)}", sheet


def corrected_angles_just_below_180_degrees(rng):
    """Accepted, which takes small misclosures. No quadrilateral is: the triangle of such an angle holds three more."""
    for figure in FIGURES[1:]:
        tries = needles_near_180_degrees(figure, 2, LARGEST_ANGLE, rng)
        accepted = ((place, sheet) for place, sheet in tries if not refusal_number(work(packed_values(sheet))))
        for place, sheet in islice(accepted, 3):
            yield f"corrected angle {place} of {LARGEST_ANGLE} {label(1, figure)}", sheet


def worked_sheet(figure, rng):
    """A sheet of kind 2 that is accepted, and its rounded corrections."""
    while True:
        sheet = second_sheet(figure, rng, LARGEST_TOLERANCE, some_differences(figure, rng, 700))
        try:
            return sheet, second_pass(sheet).rounded
        except Refused:
            pass


def adjusted_angles_at_the_edge(rng):
    """Number 7 of kind 2, at every place: the given angle is free, so the correction is simply taken off."""
    for figure in FIGURES:
        for place in range(1, figure.angle_count + 1):
            for result in (0, 1, LARGEST_ANGLE, LARGEST_ANGLE + 1):
                angle = 0
                while not 1 <= angle <= LARGEST_ANGLE:
                    sheet, rounded = worked_sheet(figure, rng)
                    angle = result - rounded[place - 1]
                yield f"adjusted angle {place} of {result} {label(2, figure)}", sheet._replace(
                    angles=with_value(sheet.angles, place, angle)
                )


def sine_misclosures_at_the_tolerance(rng):
    """Number 9, for each sine condition: its W at the largest that passes and one beyond, the other's within. First with large
    differences at the angles that have no sign in it, which must not count; then with the largest reduced coefficients."""
    for figure in FIGURES:
        for number, sine in enumerate(figure.sines, start=1):
            others_large = tuple(rng.randint(-700, 700) if sign else LARGEST_DIFFERENCE for sign in sine.signs)
            tolerances = (0, 1, LARGEST_TOLERANCE, rng.randint(2, LARGEST_TOLERANCE - 1))
            cases = [(tolerance, others_large) for tolerance in tolerances]
            cases += [(LARGEST_TOLERANCE, (end,) * figure.angle_count) for end in (-LARGEST_DIFFERENCE, LARGEST_DIFFERENCE)]
            for tolerance, differences in cases:
                bound = largest_sine_misclosure(sine, tolerance, differences)
                for misclosure in (-bound - 1, -bound, bound, bound + 1):
                    within = misclosures_within_tolerance(figure, tolerance, differences, rng)
                    sheet = second_sheet(figure, rng, tolerance, differences, with_value(within, number, misclosure))
                    yield f"W {number} of {misclosure} {label(2, figure)}", sheet


def largest_at(figure, sine, angle):
    """Differences that make the reduced coefficient of this condition at this angle as large as it can be."""
    ones = [[int(i == j) for j in range(figure.angle_count)] for i in range(figure.angle_count)]
    shares = [reduced_coefficients(figure, signed_values(sine.signs, one))[angle - 1] for one in ones]
    return tuple(LARGEST_DIFFERENCE if share >= 0 else -LARGEST_DIFFERENCE for share in shares)


def both_sine_misclosures_at_the_tolerance(rng):
    """The largest reduced coefficients and numerators that two sine conditions have; one beyond for both, now and then."""
    for figure in figures_with_sides():
        ends = [(end,) * figure.angle_count for end in (-LARGEST_DIFFERENCE, LARGEST_DIFFERENCE)]
        for differences in ends + [largest_at(figure, sine, angle) for sine in figure.sines for angle in (1, 2)]:
            bounds = [largest_sine_misclosure(sine, LARGEST_TOLERANCE, differences) for sine in figure.sines]
            for more, turned in ((0, (-1, -1)), (0, (-1, 1)), (0, (1, -1)), (0, (1, 1)), (1, (-1, 1))):
                wanted = tuple(sign * (bound + more) for sign, bound in zip(turned, bounds))
                sheet = second_sheet(figure, rng, LARGEST_TOLERANCE, differences, wanted)
                yield f"W of {wanted} {label(2, figure)}", sheet


def spread(figure, sine_misclosure):
    """Log-sines as far apart as it takes for a very large W."""
    most = LARGEST_LOG_SINE - 1
    log_sines = []
    for sign in figure.pole_signs:
        share = min(most, sine_misclosure) if sign == +1 else 0
        sine_misclosure -= share
        log_sines.append(1 + share)
    return tuple(log_sines)


def very_large_sine_misclosures(rng):
    """100·W² passes 2⁶⁴ several times; at these W what is left of it after 64 bits is small."""
    for figure in FIGURES:
        count = figure.pole_signs.count(+1)
        wraps = [isqrt((turns << 62) // 100) for turns in range(1, 15)]
        wraps += [most + 1 for most in wraps] + [count * (LARGEST_LOG_SINE - 1)]
        for sine_misclosure in wraps:
            if sine_misclosure <= count * (LARGEST_LOG_SINE - 1):
                differences = (LARGEST_DIFFERENCE,) * figure.angle_count
                sheet = second_sheet(figure, rng, LARGEST_TOLERANCE, differences, (0,) * len(figure.sines))
                yield f"W of {sine_misclosure} {label(2, figure)}", sheet._replace(log_sines=spread(figure, sine_misclosure))


def very_large_side_misclosures(rng):
    """The side condition alone: the largest W that its log sides give, and that all of it gives; the pole's stays 0, since the two
    angles of a triangle that it joins have the same log-sine."""
    most = LARGEST_LOG_SIDE - 1
    for figure in figures_with_sides():
        side = figure.sines[1]
        for turn in (-1, 1):
            log_sides = tuple(1 + most * (turn * sign > 0) for sign in side.side_signs)
            apart = [1 + most * (turn * sign > 0) for sign in side.signs]
            for own in range(1, figure.angle_count, 3):
                apart[own] = apart[own + 1] = max(apart[own : own + 2])
            differences = (LARGEST_DIFFERENCE,) * figure.angle_count
            sheet = second_sheet(figure, rng, LARGEST_TOLERANCE, differences, (0, 0))._replace(log_sides=log_sides)
            for log_sines in ((50_000_000,) * figure.angle_count, tuple(apart)):
                yield f"log sides {log_sides} far apart {label(2, figure)}", sheet._replace(log_sines=log_sines)


def sum_of_conditions(figure, rng):
    """Signed differences of the pole that are a sum of conditions, as the sheet gives them, 0 where its sine sign is."""
    some = [rng.randint(-3000, 3000) for _ in range(4)]
    if figure.code == 1:
        by_pair = (some[0], some[0] + some[1], some[1] + some[2], some[2])
        along = [value for value in by_pair for _ in (1, 2)]
    elif figure.code == 2:
        n = figure.n
        along = [value for i in range(n) for value in (0, some[i], some[(i + 1) % n])]
    else:
        along = [value for _ in range(figure.n) for value in (0, some[0], some[0])]
    return tuple(sign * value for sign, value in zip(figure.pole_signs, along))


def no_sine_part(rng):
    """Number 10, whatever W is; the last differs from a sum of conditions by 1 and is accepted or gives 9."""
    for figure in FIGURES:
        inner_only = tuple(0 if sign else LARGEST_DIFFERENCE for sign in figure.pole_signs)
        along = sum_of_conditions(figure, rng)
        beside = with_value(along, 2, along[1] + 1)
        for differences in ((0,) * figure.angle_count, inner_only, along, beside):
            for sine_misclosure in (0, 1, 5_000):
                yield f"no sine part, W {sine_misclosure} {label(2, figure)}", second_sheet(
                    figure, rng, 0, differences, (sine_misclosure,) * len(figure.sines)
                )


def sorts_of_halves(exact):
    """Of the corrections that are a whole number and a half: on which side of zero they lie, and whether that number is odd."""
    return {(value > 0, int(value) % 2 == 1) for value in exact if value.denominator == 2}


EVERY_SORT = [*product((False, True), repeat=2)]


def halves_of_the_first_pass(rng):
    """First corrections of a whole number and a half, of every sort in every figure."""
    for figure in FIGURES:
        for sort in EVERY_SORT:
            exact = ()
            while sort not in sorts_of_halves(exact):
                misclosures = misclosures_within(figure, min(FIRST_DEFAULTS), rng)
                exact = [Fraction(numerator, figure.denominator) for numerator in first_numerators(figure, misclosures)]
            kind = rng.choice(FIRST_KINDS)
            yield f"halves, misclosures {misclosures} {label(kind, figure)}", first_sheet(figure, rng, 0, misclosures, kind=kind)


def halves(rng):
    """Second corrections of a whole number and a half. With m angles of each sign and all differences 100 the signed ones
    sum to 0 in every condition, so A is D times d, and the exact correction is W / 2m with the sign of d turned."""
    for figure in FIGURES:
        if figure.side_count:
            continue
        m = figure.pole_signs.count(+1)
        differences = tuple(100 if sign else 0 for sign in figure.pole_signs)
        for odd in (-5, -3, -1, 1, 3, 5):
            yield f"halves, W {odd * m} {label(2, figure)}", second_sheet(
                figure, rng, LARGEST_TOLERANCE, differences, (odd * m,)
            )


# --- two sine conditions ------------------------------------------------------------------------------------------------


def differences_at(figure, by_angle):
    return tuple(by_angle.get(angle, 0) for angle in range(1, figure.angle_count + 1))


def along_corners(values):
    """Differences by angle whose signed ones of the pole are the same for both angles at each corner."""
    turned = [-value for value in values[1:] + values[:1]]
    return {3 * i + 2 + part: pair[part] for i, pair in enumerate(zip(values, turned)) for part in (0, 1)}


def dependent_differences(rng):
    """Differences by angle, not all 0, of which the determinant is 0; with each an angle where one more ends that."""
    x, y, *others = (rng.randint(1_000, 3_000) for _ in range(6))
    yield "B is -A", {3: x, 11: y}, 1
    yield "B is 0", {1: x, 3: -x, 10: -x, 11: x, 2: others[0], 5: others[1], 6: others[2], 9: others[3]}, 10
    yield "A is 0", {**along_corners(others), 1: x, 10: y}, 6
    yield "A is three halves of B", {1: 2 * x, 10: 2 * y, 2: 3 * x, 12: 3 * y, 5: -3 * x, 9: -3 * y}, 12
    yield "A is B", {1: x, 10: y, 12: x + y, 5: -x, 9: -y}, 8


def dependent_sine_conditions(rng):
    """Number 10 with differences that are not 0, whatever both W are; with one more or less at an angle it is not given."""
    for figure in figures_with_sides():
        for name, by_angle, beside in dependent_differences(rng):
            differences = differences_at(figure, by_angle)
            for wanted in ((0, 0), (0, 1), (-700, 700)):
                yield f"{name}, W {wanted} {label(2, figure)}", second_sheet(figure, rng, 0, differences, wanted)
            for step in (-1, 1):
                moved = with_value(differences, beside, differences[beside - 1] + step)
                for wanted in ((0, 0), (0, 1)):
                    yield f"{name} but for {step}, W {wanted} {label(2, figure)}", second_sheet(figure, rng, 0, moved, wanted)


# Large differences with a very small determinant: 9999 · 9997 and 9998 · 9998 differ by 1.
NEARLY_DEPENDENT = {1: 9_999, 10: 9_998, 2: -9_998, 12: -9_997, 5: 9_998, 9: 9_997}


def exact_second_corrections(figure, differences, sine_misclosures):
    return second_corrections(figure, [signed_values(sine.signs, differences) for sine in figure.sines], sine_misclosures)


def in_32_bits(value):
    """What is left of a whole number in 32 bits, two's complement."""
    return (value + 2**31) % 2**32 - 2**31


def angle_for(correction, rng):
    """An angle that the correction leaves within its range, if there is one."""
    low, high = max(1, 1 - correction), min(LARGEST_ANGLE, LARGEST_ANGLE - correction)
    return rng.choice((low, high, rng.randint(low, high))) if low <= high else rng.randint(1, LARGEST_ANGLE)


def looks_small_in_32_bits(figure, differences):
    """Pairs of W of which the first correction passes 32 bits, and what is left of it there would be accepted."""
    by_pole, by_side = (exact_second_corrections(figure, differences, one)[0] for one in ((1, 0), (0, 1)))
    for wanted in product((1_000, 30_000), range(1, 20_000)):
        exact = wanted[0] * by_pole + wanted[1] * by_side
        if abs(exact) > 2**32 and abs(in_32_bits(round(exact))) < 3_000_000:
            yield wanted


def very_large_corrections(rng):
    """Number 7 of corrections that pass 32 bits, each beside an angle that what is left of it would leave within its range; and
    corrections of many degrees that are accepted."""
    for figure in figures_with_sides():
        differences = differences_at(figure, NEARLY_DEPENDENT)
        some = [(1, 0), (0, 1), (-1, -1), (1, -1), (2, 1), (1_000, 0), (0, -1_000), (70_000, 70_000), (70_000, -50_000)]
        for wanted in some + [*islice(looks_small_in_32_bits(figure, differences), 4)]:
            exact = exact_second_corrections(figure, differences, wanted)
            rounded = [rounded_quotient(correction.numerator, correction.denominator) for correction in exact]
            sheet = second_sheet(figure, rng, LARGEST_TOLERANCE, differences, wanted)
            angles = tuple(angle_for(in_32_bits(correction), rng) for correction in rounded)
            yield f"large corrections, W {wanted} {label(2, figure)}", sheet._replace(angles=angles)


def determinants_of_whole_words(rng):
    """The determinant is a multiple of 2⁶⁴ and not 0: it has nothing in its low word."""
    for figure in figures_with_sides():
        found = 0
        while found < 6:
            differences = tuple(rng.choice((-8192, 0, 8192)) for _ in figure.pole_signs)
            reduced = [reduced_coefficients(figure, signed_values(sine.signs, differences)) for sine in figure.sines]
            determinant = divisor_of(reduced)
            if determinant and determinant % 2**64 == 0:
                found += 1
                yield f"determinant {determinant >> 64} · 2⁶⁴ {label(2, figure)}", second_sheet(figure, rng, 0, differences)


def halves_of_two(rng):
    """Second corrections of a whole number and a half, under two sine conditions, each sort twice."""
    for figure, sort in product(figures_with_sides(), 2 * EVERY_SORT):
        exact = ()
        while sort not in sorts_of_halves(exact):
            differences = tuple(100 * rng.randint(-2, 2) for _ in figure.pole_signs)
            misclosures = tuple(rng.randint(-9, 9) for _ in figure.sines)
            exact = exact_second_corrections(figure, differences, misclosures) or ()
        yield f"halves, W {misclosures} {label(2, figure)}", second_sheet(figure, rng, LARGEST_TOLERANCE, differences, misclosures)


# --- bits, lengths, heads, noise ----------------------------------------------------------------------------------------


def flipped(sheet, bit):
    changed = bytearray(sheet)
    changed[bit // 8] ^= 0x80 >> bit % 8
    return bytes(changed)


def single_bits_flipped(rng):
    """Every bit of the shortest sheet; of the others the head, some values, and every filling bit."""
    for kind, figure in each_kind_and_figure():
        sheet = packed_values(ordinary_sheet(kind, figure, rng))
        used, total = used_bits(kind, figure), 8 * len(sheet)
        shortest = (kind, figure.code) == (1, 1)
        some = range(total) if shortest else sorted({*range(22), *rng.sample(range(22, used), 12), *range(used, total)})
        for bit in some:
            yield f"bit {bit} flipped {label(kind, figure)}", flipped(sheet, bit)


def filling_bits_set(rng):
    """Number 13, alone and before the number of another fault."""
    for kind, figure in each_kind_and_figure():
        filling = (1 << -used_bits(kind, figure) % 8) - 1
        sheet = ordinary_sheet(kind, figure, rng)
        for values in (sheet, *(spoil(sheet, rng) for spoil in spoilers(kind, figure))):
            plain = packed_values(values)
            yield f"filling bits set {label(kind, figure)}", plain[:-1] + bytes([plain[-1] | filling])


def every_length(rng):
    """From no byte on: a short sheet and the longest one, cut off or run on, and noise; then lengths past any buffer."""
    short = packed_values(ordinary_sheet(1, figure_of(1, 0), rng))
    longest = packed_values(ordinary_sheet(5, figure_of(3, 8), rng))
    for length in range(MOST_LENGTH + 1):
        yield f"short sheet of length {length}", short[:length].ljust(length, b"\0")
        yield f"longest sheet of length {length}", longest[:length].ljust(length, b"\0")
        yield f"noise of length {length}", rng.randbytes(length)
    for length in (255, 256, 257, 1_000, 4_096, 65_536, 65_537, 300_000):
        yield f"longest sheet of length {length}", longest.ljust(length, b"\0")
        yield f"noise of length {length}", rng.randbytes(length)


def one_byte_off(rng):
    for kind, figure in each_kind_and_figure():
        sheet = packed_values(ordinary_sheet(kind, figure, rng))
        yield f"one byte short {label(kind, figure)}", sheet[:-1]
        yield f"one byte long {label(kind, figure)}", sheet + b"\0"


def heads(rng):
    """Every kind, every code and n (of a code without figures some n), on sheets of two bytes and of the right or some other
    size."""
    for kind in range(16):
        body = packed_values(ordinary_sheet(rng.choice([*KINDS]), rng.choice(FIGURES), rng))
        yield f"kind {kind} alone", bytes([kind << 4])
        yield f"kind {kind} in two bytes", bytes([kind << 4 | 1, 0])
        yield f"kind {kind}", bytes([kind << 4 | body[0] & 15]) + body[1:]
    for kind in KINDS:
        for code in range(16):
            for n in range(16) if code < 5 else rng.sample(range(16), 4):
                figure = figure_of(code, n) or rng.choice(FIGURES)
                body = packed_values(ordinary_sheet(kind, figure, rng))
                yield f"kind {kind} code {code} n {n}", bytes([kind << 4 | code, n << 4 | body[1] & 15]) + body[2:]


def noise_under_a_good_head(rng):
    for kind, figure in each_kind_and_figure():
        size = sheet_size(kind, figure)
        head = packed_values(ordinary_sheet(kind, figure, rng))[:2]
        for body in (b"\0" * size, b"\xff" * size, *(rng.randbytes(size) for _ in range(4))):
            yield f"noise under {label(kind, figure)}", head + body[2:]


# --- two faults at once -------------------------------------------------------------------------------------------------


def spoil_limit(sheet, rng):
    if is_first(sheet.kind):
        return sheet._replace(limit=rng.randint(LARGEST_LIMIT + 1, MOST_IN_LIMIT))
    return sheet._replace(limit=rng.randint(LARGEST_TOLERANCE + 1, MOST_IN_TOLERANCE))


def spoiled(values, outside, rng):
    """One value outside its range, at any place."""
    return with_value(values, rng.randint(1, len(values)), rng.choice(outside))


def spoil_angle(sheet, rng):
    return sheet._replace(angles=spoiled(sheet.angles, OUTSIDE_ANGLES, rng))


def spoil_rounds(sheet, rng):
    return sheet._replace(rounds=spoiled(sheet.rounds, (0,), rng))


def spoil_fixed_sum(sheet, rng):
    """One fixed angle a tenth larger, for which `closing_angles` leaves room."""
    place = rng.randint(1, len(sheet.fixed))
    return sheet._replace(fixed=with_value(sheet.fixed, place, sheet.fixed[place - 1] + 1))


def spoil_fixed_angle(sheet, rng):
    return sheet._replace(fixed=spoiled(sheet.fixed, OUTSIDE_ANGLES, rng))


def spoil_log_sine(sheet, rng):
    return sheet._replace(log_sines=spoiled(sheet.log_sines, OUTSIDE_LOG_SINES, rng))


def spoil_difference(sheet, rng):
    return sheet._replace(differences=spoiled(sheet.differences, OUTSIDE_DIFFERENCES, rng))


def spoil_log_side(sheet, rng):
    return sheet._replace(log_sides=spoiled(sheet.log_sides, OUTSIDE_LOG_SIDES, rng))


def spoilers(kind, figure):
    values = (spoil_limit, spoil_angle, spoil_rounds) if KINDS[kind].has_rounds else (spoil_limit, spoil_angle)
    if not is_first(kind):
        entries = (*values, spoil_log_sine, spoil_difference)
        return (*entries, spoil_log_side) if figure.side_count else entries
    return (*values, spoil_fixed_sum, spoil_fixed_angle) if figure.fixed_count else values


def two_faults(rng):
    """Every two kinds of fault together: the first number in the reader's order is given, at its lowest place."""
    for kind, figure in each_kind_and_figure():
        for one, another in combinations_with_replacement(spoilers(kind, figure), 2):
            for _ in range(3):
                yield f"two faults {label(kind, figure)}", another(one(ordinary_sheet(kind, figure, rng), rng), rng)


GROUPS = (
    good_sheets,
    needles,
    limits,
    misclosures_at_the_limit,
    several_misclosures_beyond,
    angles_at_the_edge,
    rounds_at_the_edge,
    rounds_of_their_own,
    rounds_of_0_among_others,
    fixed_angles_at_the_edge,
    edge_fixed_angles_that_sum,
    fixed_angles_that_do_not_sum,
    fixed_angles_moved,
    log_sines_at_the_edge,
    differences_at_the_edge,
    log_sides_at_the_edge,
    corrected_angles_at_the_low_edge,
    corrected_angles_of_180_degrees,
    corrected_angles_just_below_180_degrees,
    adjusted_angles_at_the_edge,
    sine_misclosures_at_the_tolerance,
    both_sine_misclosures_at_the_tolerance,
    very_large_sine_misclosures,
    very_large_side_misclosures,
    no_sine_part,
    halves_of_the_first_pass,
    halves,
    dependent_sine_conditions,
    very_large_corrections,
    determinants_of_whole_words,
    halves_of_two,
    single_bits_flipped,
    filling_bits_set,
    every_length,
    one_byte_off,
    heads,
    noise_under_a_good_head,
    two_faults,
)


def made_sheets():
    """Name and bytes of every made sheet. Each group has its own seed, so that one can change without the others."""
    number = 0
    for group in GROUPS:
        rng = random.Random(f"{SEED} {group.__name__}")
        for name, sheet in group(rng):
            number += 1
            yield f"{number}: {name}", sheet if isinstance(sheet, bytes) else packed_values(sheet)


def refusal_number(text):
    """Of a printed answer, 0 if it is no refusal."""
    words = text.split()
    return int(words[1]) if words[0] == "refused" else 0


def reached(answers):
    """How many of the (name, text) answers give each refusal number, and the first name that does."""
    found = {}
    for name, text in answers:
        number = refusal_number(text)
        count, first = found.get(number, (0, name))
        found[number] = (count + 1, first)
    return found


def print_reached(found):
    for number in sorted(found):
        count, first = found[number]
        print(f"{count:6} {'refused ' + str(number) if number else 'accepted':11} first by {first}")
    missing = set(NUMBERS) - found.keys()
    print(f"       not reached: {sorted(missing)}; no sheet can reach: {sorted(UNREACHABLE)}")
    return missing == UNREACHABLE


def main():
    answers = [(name, work(sheet)) for name, sheet in made_sheets()]
    complete = print_reached(reached(answers))
    print(f"{len(answers)} sheets")
    return 0 if complete else 1


if __name__ == "__main__":
    raise SystemExit(main())
