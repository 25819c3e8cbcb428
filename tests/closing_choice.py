"""A rounding that closes, and the check of an offered one: document 02, M-104, in exact fractions.

An angle is the difference of two directions. The exact corrections of a figure are laid off one from another as its angles
are, and the directions are rounded downwards; the choice for an angle is the difference of its two directions.
"""

from fractions import Fraction
from functools import lru_cache
from math import ceil, floor

from figures import (
    angle_at_inner_point,
    angle_at_next_corner,
    angle_at_own_corner,
    condition_sums,
    least_squares_corrections,
)
from independent import first_pass
from packed import Refused

FIRST_DIRECTION = 0


@lru_cache(maxsize=None)
def starts_at(figure):
    """Of each angle, by its number, the angle at whose end it starts, or the first direction. The quadrilateral: one after
    another. Code 2: in each triangle r, then c, then l. Code 3: c after c round the inner point, and from each its l, then its
    r."""
    if figure.code == 1:
        return {angle: angle - 1 for angle in range(1, 9)}
    starts, inner_before = {}, FIRST_DIRECTION
    for i in range(1, figure.n + 1):
        c, l, r = angle_at_inner_point(i), angle_at_own_corner(i), angle_at_next_corner(i)
        if figure.code == 2:
            starts |= {r: FIRST_DIRECTION, c: r, l: c}
        else:
            starts |= {c: inner_before, l: c, r: l}
        inner_before = c
    return starts


def directions(figure, corrections):
    """Of each angle, in rising order, the directions in which it starts and ends."""
    starts = starts_at(figure)

    def end_of(angle):
        return Fraction(0) if angle == FIRST_DIRECTION else end_of(starts[angle]) + corrections[angle - 1]

    return [(end_of(starts[angle]), end_of(angle)) for angle in range(1, figure.angle_count + 1)]


def choice(figure, exact):
    """Of each angle the difference of its rounded directions, from the exact corrections."""
    return [floor(end) - floor(start) for start, end in directions(figure, exact)]


def is_below_or_above(exact, offered):
    """The first rule, of an angle: the whole tenth just below or just above the exact correction; a whole value stays."""
    return offered in (floor(exact), ceil(exact))


def keeps_first_rule(exact, offered):
    return all(map(is_below_or_above, exact, offered))


def keeps_second_rule(figure, misclosures, offered):
    """Every rest is 0."""
    return condition_sums(figure, offered) == [-misclosure for misclosure in misclosures]


def keeps_both_rules(figure, misclosures, exact, offered):
    return keeps_first_rule(exact, offered) and keeps_second_rule(figure, misclosures, offered)


def closing_corrections(sheet):
    """Our own choice, or the first pass's refusal: 7 by ordinary rounding."""
    return choice(sheet.figure, least_squares_corrections(sheet.figure, first_pass(sheet).misclosures))


def check_closing(sheet, offered):
    """The first pass's refusal, and then 15 of an offered choice that breaks a rule."""
    misclosures = first_pass(sheet).misclosures
    exact = least_squares_corrections(sheet.figure, misclosures)
    if not keeps_both_rules(sheet.figure, misclosures, exact, offered):
        raise Refused(15)
