"""The program's whole output for one sheet, computed from documents 01 and 02 by another route than the program's.

Run as a program it reads one sheet from standard input and writes the lines.
"""

import sys
from typing import NamedTuple

from figures import (
    condition_sums,
    first_numerators,
    product_sum,
    reduced_coefficients,
    second_corrections,
    should_sum_to,
)
from packed import FIRST, KINDS, LARGEST_ANGLE, SECOND, Refused, read_sheet, refuse_first

BYTES_HELD = 223  # M-106, where document 01 has 199: one more than the longest sheet, "so that a longer sheet is seen"
DEFAULTS = {FIRST: 90, SECOND: 10}  # what 0 stands for in a pass that is called directly: L by M-102, e by document 01


class FirstPass(NamedTuple):
    misclosures: list
    numerators: list
    rounded: list
    results: list
    rounds: list  # of each result: those of its angle, unchanged (M-106)
    rests: list


class SecondPass(NamedTuple):
    sine_misclosures: list  # W of each sine condition
    divisor: int  # S, or the determinant of two sine conditions
    reduced: list  # of each sine condition: A, then B
    numerators: list
    rounded: list
    results: list
    rounds: list  # of each result: those of its angle, unchanged (M-106)
    rests: list


def rounded_quotient(numerator, denominator):
    """The nearest whole number; of two that are equally near, the even one: M-105, where document 01 has the one away from zero."""
    below = numerator // denominator
    return min((below, below + 1), key=lambda whole: (abs(numerator - whole * denominator), whole % 2))


def corrected(angles, rounded):
    """Number 7 if a corrected or adjusted angle is outside its range."""
    results = [angle + correction for angle, correction in zip(angles, rounded)]
    refuse_first(7, [1 <= result <= LARGEST_ANGLE for result in results])
    return results


def first_pass(sheet):
    """Document 01, "The two passes": first pass, with numbers 6 and 7."""
    figure = sheet.figure
    limit = sheet.limit or DEFAULTS[FIRST]
    sums = condition_sums(figure, sheet.angles)
    misclosures = [found - right for found, right in zip(sums, should_sum_to(figure, sheet.fixed))]
    refuse_first(6, [abs(misclosure) <= limit for misclosure in misclosures])
    numerators = first_numerators(figure, misclosures)
    rounded = [rounded_quotient(numerator, figure.denominator) for numerator in numerators]
    results = corrected(sheet.angles, rounded)
    rests = [w + change for w, change in zip(misclosures, condition_sums(figure, rounded))]
    return FirstPass(misclosures, numerators, rounded, results, list(sheet.rounds), rests)


def check_tolerance(tolerance, sine_misclosure, signed_differences):
    """Number 9. Angles with sign 0 have d = 0 and so no part in the sum."""
    if 100 * sine_misclosure**2 > tolerance**2 * sum(d * d for d in signed_differences):
        raise Refused(9)


def signed_values(signs, values):
    return [sign * value for sign, value in zip(signs, values)]


def sine_misclosure(sine, sheet):
    """W: the signed sum of the log-sines and of the log sides that the condition joins."""
    return sum(signed_values(sine.signs, sheet.log_sines)) + sum(signed_values(sine.side_signs, sheet.log_sides))


def divisor_of(reduced):
    """S of document 01, the determinant of M-100."""
    if len(reduced) == 1:
        return product_sum(reduced[0], reduced[0])
    a, b = reduced
    return product_sum(a, a) * product_sum(b, b) - product_sum(a, b) ** 2


def printed_numerators(figure, reduced, sine_misclosures):
    """As document 01 and M-100 print them, over S and over the determinant."""
    scale = -100 * figure.denominator
    if len(reduced) == 1:
        return [scale * a * sine_misclosures[0] for a in reduced[0]]
    (a_row, b_row), (of_pole, of_side) = reduced, sine_misclosures
    aa, ab, bb = product_sum(a_row, a_row), product_sum(a_row, b_row), product_sum(b_row, b_row)
    by_pole, by_side = bb * of_pole - ab * of_side, aa * of_side - ab * of_pole
    return [scale * (a * by_pole + b * by_side) for a, b in zip(a_row, b_row)]


def exact_numerators(figure, signed, reduced, sine_misclosures):
    """The least-squares corrections under all conditions, over the divisor; None where it is 0. That they are the printed ones
    is seen of every sheet that is worked."""
    exact = second_corrections(figure, signed, sine_misclosures)
    divisor = divisor_of(reduced)
    assert (exact is None) == (divisor == 0), figure
    if exact is None:
        return None
    numerators = [correction * divisor for correction in exact]
    assert numerators == printed_numerators(figure, reduced, sine_misclosures), figure
    return [int(numerator) for numerator in numerators]


def second_pass(sheet):
    """Document 01, "The two passes", and document 02, M-100: second pass, with numbers 10, 9 (of each condition) and 7."""
    figure = sheet.figure
    signed = [signed_values(sine.signs, sheet.differences) for sine in figure.sines]
    sine_misclosures = [sine_misclosure(sine, sheet) for sine in figure.sines]
    reduced = [reduced_coefficients(figure, differences) for differences in signed]
    numerators = exact_numerators(figure, signed, reduced, sine_misclosures)
    if numerators is None:
        raise Refused(10)
    for misclosure, differences in zip(sine_misclosures, signed):
        check_tolerance(sheet.limit or DEFAULTS[SECOND], misclosure, differences)
    divisor = divisor_of(reduced)
    rounded = [rounded_quotient(numerator, divisor) for numerator in numerators]
    results = corrected(sheet.angles, rounded)
    rests = condition_sums(figure, rounded)
    return SecondPass(sine_misclosures, divisor, reduced, numerators, rounded, results, list(sheet.rounds), rests)


def numbered(*columns):
    return [(number, *row) for number, row in enumerate(zip(*columns), start=1)]


def first_lines(sheet, done):
    figure = sheet.figure
    yield "figure", figure.code, figure.n, "denominator", figure.denominator
    yield from numbered(sheet.angles, done.numerators, done.rounded, done.results, done.rounds)
    for row in numbered(done.misclosures, done.rests):
        yield "condition", *row


def second_lines(sheet, done):
    figure = sheet.figure
    divisor = "S" if len(figure.sines) == 1 else "determinant"
    yield "figure", figure.code, figure.n, "W", *done.sine_misclosures, divisor, done.divisor
    yield from numbered(sheet.angles, *done.reduced, done.numerators, done.rounded, done.results, done.rounds)
    for row in numbered(done.rests):
        yield "condition", *row


def text(lines):
    """One space between, one line feed at each end."""
    return "".join(" ".join(map(str, line)) + "\n" for line in lines)


PASSES = {FIRST: (first_pass, first_lines), SECOND: (second_pass, second_lines)}


def worked(sheet):
    """The pass that the sheet is for, handed the default of its kind where the sheet has 0 (M-102)."""
    one_pass, _ = PASSES[KINDS[sheet.kind].pass_number]
    return one_pass(sheet._replace(limit=sheet.limit or KINDS[sheet.kind].default))


def work(sheet_bytes):
    """What the program writes for these bytes on standard input."""
    try:
        sheet = read_sheet(sheet_bytes[:BYTES_HELD])
        _, lines = PASSES[KINDS[sheet.kind].pass_number]
        return text(lines(sheet, worked(sheet)))
    except Refused as refusal:
        return text([("refused", refusal.number, refusal.place)])


if __name__ == "__main__":
    sys.stdout.write(work(sys.stdin.buffer.read(BYTES_HELD)))
