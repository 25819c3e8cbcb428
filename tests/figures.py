"""The nine figures: document 01, "The eight figures", and document 02, M-100.

A figure is known here by its conditions alone: which angles each one joins. Corrections come from solving the normal
equations of those conditions in exact fractions (books 000 and 001: correlates). No coefficient row of the documents is
used, so that an agreement with the rows says something.
"""

from fractions import Fraction
from functools import lru_cache
from math import gcd, lcm
from typing import NamedTuple

HALF_CIRCLE = 6_480_000  # 180 degrees in tenths of a second
FULL_CIRCLE = 2 * HALF_CIRCLE


class SineCondition(NamedTuple):
    signs: tuple  # of the log-sines, one for each angle
    side_signs: tuple = ()  # of the log sides that it joins


class Figure(NamedTuple):
    code: int
    n: int
    denominator: int  # D
    sines: tuple  # its sine conditions: the pole, then for one figure the side condition
    conditions: tuple  # each the angle numbers, from 1, that it joins
    fixed_count: int

    @property
    def angle_count(self):
        return len(self.pole_signs)

    @property
    def pole_signs(self):
        return self.sines[0].signs

    @property
    def side_count(self):
        """How many log sides a sheet of kind 2 has."""
        return len(self.sines[-1].side_signs)


def quadrilateral():
    """Code 1: angles 1 to 4, 3 to 6 and 5 to 8."""
    return Figure(1, 0, 8, (SineCondition((+1, -1) * 4),), ((1, 2, 3, 4), (3, 4, 5, 6), (5, 6, 7, 8)), 0)


def angle_at_inner_point(i):
    return 3 * i - 2


def angle_at_own_corner(i):
    return 3 * i - 1


def angle_at_next_corner(i):
    return 3 * i


def triangles(n):
    return tuple((angle_at_inner_point(i), angle_at_own_corner(i), angle_at_next_corner(i)) for i in range(1, n + 1))


def corner(j, n):
    """The two angles at outer corner j: the last of triangle j-1 and the second of triangle j, indices cyclic."""
    before = n if j == 1 else j - 1
    return (angle_at_next_corner(before), angle_at_own_corner(j))


def pole(n):
    """Round the inner point: the angles at their own corners against those at the next ones."""
    return SineCondition((0, +1, -1) * n)


def side_condition(first, last):
    """The side from the inner point to corner 1, from the known side of the first triangle and from that of the last one: in
    each it stands opposite the angle at the other corner, and the known side opposite the angle at the inner point."""
    by_first = {angle_at_next_corner(first): +1, angle_at_inner_point(first): -1}
    by_last = {angle_at_own_corner(last): -1, angle_at_inner_point(last): +1}
    signs = {**by_first, **by_last}
    return SineCondition(tuple(signs.get(angle, 0) for angle in range(1, 3 * last + 1)), (+1, -1))


def corners(n):
    return tuple(corner(j, n) for j in range(1, n + 1))


def point_in_triangle():
    """Code 2, n = 3: three triangles, then three corners of which each has its fixed angle."""
    return Figure(2, 3, 10, (pole(3),), triangles(3) + corners(3), 3)


def point_in_quadrilateral():
    """Code 2, n = 4 (document 02, M-100): four triangles and four corners, and the sides of triangles 1 and 4 are known."""
    return Figure(2, 4, 24, (pole(4), side_condition(1, 4)), triangles(4) + corners(4), 4)


def central_polygon(n):
    """Code 3: n triangles, then the horizon round the inner point."""
    horizon = tuple(angle_at_inner_point(i) for i in range(1, n + 1))
    return Figure(3, n, 6 * n, (pole(n),), triangles(n) + (horizon,), 0)


FIGURES = (quadrilateral(), point_in_triangle(), point_in_quadrilateral()) + tuple(central_polygon(n) for n in range(3, 9))


def figure_of(code, n):
    """The figure that code and n name, or None."""
    for figure in FIGURES:
        if (figure.code, figure.n) == (code, n):
            return figure
    return None


def should_sum_to(figure, fixed_angles):
    """What the angles of each condition should sum to."""
    if figure.code == 1:
        return (HALF_CIRCLE,) * 3
    if figure.code == 2:
        return (HALF_CIRCLE,) * figure.n + tuple(fixed_angles)
    return (HALF_CIRCLE,) * figure.n + (FULL_CIRCLE,)


def fixed_sum(figure):
    """What the fixed angles of code 2 must sum to: document 02, M-101."""
    return {3: HALF_CIRCLE, 4: FULL_CIRCLE}[figure.n]


def condition_sums(figure, values):
    """The sum of the values in each condition."""
    return [sum(values[angle - 1] for angle in condition) for condition in figure.conditions]


def without(row, lead, column):
    """A multiple of the row, in whole numbers without a common factor, that has nothing left in the column of its lead."""
    left = [lead[column] * value - row[column] * other for value, other in zip(row, lead)]
    common = gcd(*left) or 1
    return [value // common for value in left]


def eliminated(matrix, right):
    """What stands on the right, as fractions, once a square matrix of whole numbers is turned into 1 on the diagonal and 0
    beside it, or None where it cannot be: its rows depend on each other."""
    size = len(matrix)
    rows = [[*row, *beside] for row, beside in zip(matrix, right)]
    for column in range(size):
        pivot = next((i for i in range(column, size) if rows[i][column] != 0), None)
        if pivot is None:
            return None
        rows[column], rows[pivot] = rows[pivot], rows[column]
        rows = [row if i == column or row[column] == 0 else without(row, rows[column], column) for i, row in enumerate(rows)]
    return [[Fraction(value, row[i]) for value in row[size:]] for i, row in enumerate(rows)]


@lru_cache(maxsize=None)
def inverse_normal_matrix(figure):
    """Of C times its transpose: entry (a, b) counts the angles that conditions a and b share."""
    shared = [[len(set(a) & set(b)) for b in figure.conditions] for a in figure.conditions]
    one_for_each = [[int(i == j) for j in range(len(shared))] for i in range(len(shared))]
    return eliminated(shared, one_for_each)


def least_squares_corrections(figure, misclosures):
    """The corrections, as fractions, that cancel the misclosures with the least sum of squares."""
    correlates = [-sum(q * w for q, w in zip(row, misclosures)) for row in inverse_normal_matrix(figure)]
    corrections = [Fraction(0)] * figure.angle_count
    for correlate, condition in zip(correlates, figure.conditions):
        for angle in condition:
            corrections[angle - 1] += correlate
    return corrections


def over_denominator(figure, values):
    """The numerators of the values over D. Document 01 promises that they are whole."""
    numerators = [figure.denominator * value for value in values]
    assert all(numerator.denominator == 1 for numerator in numerators), figure
    return [int(numerator) for numerator in numerators]


def first_numerators(figure, misclosures):
    """Document 01, "The two passes": the numerators of the first corrections."""
    return over_denominator(figure, least_squares_corrections(figure, misclosures))


def reduced_coefficients(figure, signed_differences):
    """Document 01, "The two passes": A, which is D times the part of d that changes no condition."""
    taken = least_squares_corrections(figure, condition_sums(figure, signed_differences))
    return over_denominator(figure, [d + v for d, v in zip(signed_differences, taken)])


def product_sum(one, another):
    """[ab] of the books: the sum of the products, angle by angle."""
    return sum(a * b for a, b in zip(one, another))


@lru_cache(maxsize=None)
def condition_rows(figure):
    """C: 1 where an angle is in a condition, 0 elsewhere."""
    return [[int(angle in condition) for angle in range(1, figure.angle_count + 1)] for condition in figure.conditions]


def corrections_of_all(figure, signed_differences, sums, sine_sums):
    """The corrections, as fractions of tenths, that have the least sum of squares of all that change each linear condition and
    each linearised sine condition by so much (whole numbers), by the normal equations of all conditions together. None where the
    conditions depend on each other."""
    rows = condition_rows(figure) + [list(differences) for differences in signed_differences]
    normal = [[product_sum(one, another) for another in rows] for one in rows]
    correlates = eliminated(normal, [[value] for value in (*sums, *sine_sums)])
    if correlates is None:
        return None
    common = lcm(*(k.denominator for (k,) in correlates))
    whole = [int(k * common) for (k,) in correlates]
    return [Fraction(product_sum(whole, column), common) for column in zip(*rows)]


def second_corrections(figure, signed_differences, sine_misclosures):
    """Of the second pass: no linear condition changes, and every linearised sine misclosure is cancelled, for each sine condition
    the sum of its d times the correction is -100 W."""
    unchanged = [0] * len(figure.conditions)
    return corrections_of_all(figure, signed_differences, unchanged, [-100 * misclosure for misclosure in sine_misclosures])
