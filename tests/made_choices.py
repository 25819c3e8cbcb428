"""Sheets of the first pass for M-104, and corrections offered for them: right ones, and wrong ones of every sort.

The same come out every time. Wanted are misclosures of which many exact corrections are whole or halves: corrections are
sums of correlates, so they are taken from correlates that are whole or halves.
"""

import random
from fractions import Fraction
from functools import lru_cache
from itertools import combinations, product
from math import ceil, floor

from closing import closing_angles, move_that_keeps_conditions
from closing_choice import choice, is_below_or_above
from figures import FIGURES, condition_rows, condition_sums, product_sum
from independent import rounded_quotient
from packed import LARGEST_ANGLE, LARGEST_LIMIT, Sheet

SEED = 1978
FAR = 10_000  # more than any first correction within the largest limit
LEAST, MOST = -(2**31), 2**31 - 1  # of what C can offer


def corrections_by(figure, correlates):
    return [product_sum(correlates, column) for column in zip(*condition_rows(figure))]


@lru_cache(maxsize=None)
def half_correlates(figure):
    """Correlates of 0 and a half whose corrections have whole sums in every condition."""
    tried = product((Fraction(0), Fraction(1, 2)), repeat=len(figure.conditions))
    return [halves for halves in tried if all(s.denominator == 1 for s in condition_sums(figure, corrections_by(figure, halves)))]


def misclosures_of_halves(figure, rng):
    """Misclosures whose exact corrections are whole numbers and halves."""
    correlates = [rng.randint(-20, 20) + half for half in rng.choice(half_correlates(figure))]
    return tuple(-int(total) for total in condition_sums(figure, corrections_by(figure, correlates)))


def misclosures_with_some_halves(figure, rng):
    """The same but for one condition, so that whole values and halves stand beside others."""
    misclosures = list(misclosures_of_halves(figure, rng))
    misclosures[rng.randrange(len(misclosures))] += rng.choice((-1, 1))
    return tuple(misclosures)


def any_misclosures(figure, rng):
    most = rng.choice((1, 3, 20, 90, LARGEST_LIMIT))
    return tuple(rng.randint(-most, most) for _ in figure.conditions)


SORTS = (misclosures_of_halves, misclosures_with_some_halves, any_misclosures)


def stout_sheet(figure, misclosures, rng):
    """A sheet of kind 3 with these misclosures, whose angles lie too far from the ends of their range for number 7."""
    while True:
        found = closing_angles(figure, misclosures, lambda low, high: rng.randint((3 * low + high) // 4, (low + 3 * high) // 4))
        if found and all(FAR <= angle <= LARGEST_ANGLE - FAR for angle in found[0]):
            return Sheet(3, figure, LARGEST_LIMIT, found[0], (1,) * figure.angle_count, fixed=found[1])


def choice_sheets(each):
    """So many sheets of every figure and sort of misclosures."""
    rng = random.Random(f"{SEED} choices")
    for figure, sort, _ in product(FIGURES, SORTS, range(each)):
        yield stout_sheet(figure, sort(figure, rng), rng)


# --- corrections offered ------------------------------------------------------------------------------------------------


def changed(corrections, changes):
    """The corrections with so much added at these angles, by their numbers."""
    return [value + changes.get(angle, 0) for angle, value in enumerate(corrections, start=1)]


def one_off(figure, ours):
    """At one angle."""
    for angle, step in product(range(1, figure.angle_count + 1), (-1, 1)):
        yield changed(ours, {angle: step})


def cancelled_in_a_condition(figure, exact, ours):
    """One more at one angle and one less at another, floor or ceiling still, so that a condition that has both keeps its rest
    of 0, and another, which has one of them, does not."""
    for condition in figure.conditions:
        for one, other in combinations(condition, 2):
            apart = any((one in others) != (other in others) for others in figure.conditions)
            for step in (-1, 1) if apart else ():
                offered = changed(ours, {one: step, other: -step})
                if all(is_below_or_above(exact[angle - 1], offered[angle - 1]) for angle in (one, other)):
                    yield offered


def kept_in_every_condition(figure, ours):
    """Moves that no condition shows: every rest stays 0."""
    for angle, step in product(range(1, figure.angle_count + 1), (-1, 1)):
        move = move_that_keeps_conditions(figure, angle)
        yield changed(ours, {moved: step * change for moved, change in move.items()})


def whole_value_moved(figure, exact, ours):
    """Of those moves the ones that break the first rule at whole values alone, all of them up or all of them down: a check that
    lets a whole value go that way sees nothing else."""
    for offered in kept_in_every_condition(figure, ours):
        strays = [(value, tenth) for value, tenth in zip(exact, offered) if not is_below_or_above(value, tenth)]
        if all(value.denominator == 1 for value, _ in strays) and len({tenth - value for value, tenth in strays}) == 1:
            yield offered


def of_another_angle(figure, ours):
    """Two angles have each other's."""
    for one, other in combinations(range(1, figure.angle_count + 1), 2):
        gap = ours[other - 1] - ours[one - 1]
        yield changed(ours, {one: gap, other: -gap})


def all_of_one_sort(exact):
    """Ordinary rounding, every tenth below, every tenth above, and none at all."""
    yield [rounded_quotient(value.numerator, value.denominator) for value in exact]
    yield [floor(value) for value in exact]
    yield [ceil(value) for value in exact]
    yield [0 for _ in exact]


def half_way_round(value):
    """2^31 away: two of them are as nothing to a sum that is kept in 32 bits."""
    return value + (MOST + 1 if value < 0 else LEAST)


def past_32_bits(figure, ours):
    """Ends of the range at one angle, and two angles of a condition of which a sum that wraps has the right value."""
    for end in (LEAST, MOST):
        yield [end, *ours[1:]]
        yield [*ours[:-1], end]
        yield [end] * len(ours)
    for one, other in [(condition[0], condition[1]) for condition in figure.conditions]:
        yield [half_way_round(value) if angle in (one, other) else value for angle, value in enumerate(ours, start=1)]


def offers(figure, exact):
    """Corrections to offer where these are the exact ones, by their sort."""
    ours = choice(figure, exact)
    return {
        "our choice": [ours],
        "one off": [*one_off(figure, ours)],
        "cancelled in a condition": [*cancelled_in_a_condition(figure, exact, ours)],
        "kept in every condition": [*kept_in_every_condition(figure, ours)],
        "a whole value moved": [*whole_value_moved(figure, exact, ours)],
        "of another angle": [*of_another_angle(figure, ours)],
        "all of one sort": [*all_of_one_sort(exact)],
        "past 32 bits": [*past_32_bits(figure, ours)],
    }
