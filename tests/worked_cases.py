#!/usr/bin/env python3
"""The independent computation held against document 01's worked cases, document 02's M-100 to M-107 and the published examples.

The program is not run here: this says that what it is compared with is right.
"""

import math
import random
import sys
import unittest
from fractions import Fraction
from pathlib import Path
from typing import NamedTuple

from closing import closing_angles
from closing_choice import (
    check_closing,
    choice,
    closing_corrections,
    directions,
    keeps_both_rules,
    keeps_first_rule,
    keeps_second_rule,
)
from figures import (
    FIGURES,
    Figure,
    condition_sums,
    corrections_of_all,
    figure_of,
    first_numerators,
    least_squares_corrections,
    product_sum,
    reduced_coefficients,
)
from independent import first_pass, rounded_quotient, second_pass, signed_values, work, worked
from made_choices import choice_sheets, offers
from made_sheets import EVERY_SORT, halves, halves_of_the_first_pass, halves_of_two, sorts_of_halves
from packed import KINDS, Bits, Refused, Sheet, is_first, packed_values, read_sheet, read_values, sheet_size, used_bits, write_sheet

ROOT = Path(__file__).resolve().parent.parent
SHEETS = ROOT / "sheets"
DOCS = ROOT / "docs"
sys.path.insert(0, str(SHEETS))

from values import BOOKS, DOCUMENT_TEXT, EACH_FIGURE, KIND_3, KIND_4, KIND_5, ROUNDS, Second  # noqa: E402

QUADRILATERAL = figure_of(1, 0)
POINT_IN_QUADRILATERAL = figure_of(2, 4)
FORTY_FIVE_DEGREES = 1_620_000
ONCE = (1,) * 8
LOG_SINE_OF_45 = 98_494_850
CASE_6_SIGNED = (300, -169, 143, -271, 203, -248, 219, -178)
CASE_6_REDUCED = [2049, -1703, 1483, -1829, 1977, -1631, 1415, -1761]


def sample(name):
    return (SHEETS / f"{name}.sheet").read_bytes()


def first_quadrilateral(first_angle, limit=0):
    """All angles 45 degrees but the first."""
    return Sheet(1, QUADRILATERAL, limit, (first_angle,) + (FORTY_FIVE_DEGREES,) * 7, ONCE)


def second_quadrilateral(sine_misclosure, differences):
    log_sines = (LOG_SINE_OF_45 + sine_misclosure,) + (LOG_SINE_OF_45,) * 7
    angles = (FORTY_FIVE_DEGREES,) * 8
    return Sheet(2, QUADRILATERAL, 10, angles, ONCE, log_sines=log_sines, differences=tuple(differences))


def rests_of(figure, misclosures, rounded):
    return [w + change for w, change in zip(misclosures, condition_sums(figure, rounded))]


class WorkedCases(unittest.TestCase):
    """Document 01, "Sheets worked through"."""

    def test_case_1(self):
        numerators = first_numerators(QUADRILATERAL, (38, -5, -45))
        rounded = [rounded_quotient(numerator, 8) for numerator in numerators]
        self.assertEqual(numerators, [-79, -79, -73, -73, 93, 93, 87, 87])
        self.assertEqual(rounded, [-10, -10, -9, -9, 12, 12, 11, 11])
        self.assertEqual(rests_of(QUADRILATERAL, (38, -5, -45), rounded), [0, 1, 1])

    def test_case_2(self):
        self.assertEqual(first_numerators(QUADRILATERAL, (0, 0, 0)), [0] * 8)

    def test_case_3(self):
        numerators = first_numerators(figure_of(2, 3), (10, 0, 0, 0, 0, 0))
        self.assertEqual(numerators, [-60, -20, -20, -20, 20, 0, -20, 0, 20])

    def test_case_4(self):
        numerators = first_numerators(figure_of(3, 3), (6, 0, 0, 0))
        self.assertEqual(numerators, [-24, -42, -42, 12, -6, -6, 12, -6, -6])

    def test_case_5(self):
        self.assertEqual(rounded_quotient(-12, 8), -2)
        self.assertEqual(rounded_quotient(4, 8), 0)  # document 01 has 1; M-105 has 0, also for -4/8
        self.assertEqual(rounded_quotient(-4, 8), 0)
        self.assertEqual(rounded_quotient(-42, 18), -2)

    def test_case_6(self):
        reduced = reduced_coefficients(QUADRILATERAL, CASE_6_SIGNED)
        self.assertEqual(reduced, CASE_6_REDUCED)
        self.assertEqual(sum(a * a for a in reduced), 24_315_176)

    def test_case_7(self):
        differences = [abs(d) for d in CASE_6_SIGNED]
        self.assertEqual(second_pass(second_quadrilateral(628, differences)).sine_misclosures, [628])
        self.assertEqual(work(packed_values(second_quadrilateral(629, differences))), "refused 9 0\n")

    def test_case_8(self):
        accepted = first_pass(first_quadrilateral(FORTY_FIVE_DEGREES - 150, limit=150))
        self.assertEqual(accepted.misclosures, [-150, 0, 0])
        beyond = packed_values(first_quadrilateral(FORTY_FIVE_DEGREES + 151, limit=150))
        self.assertEqual(work(beyond), "refused 6 1\n")
        self.assertEqual(work(packed_values(first_quadrilateral(FORTY_FIVE_DEGREES, limit=601))), "refused 3 0\n")

    def test_case_9(self):
        for sine_misclosure in (0, 100):
            sheet = packed_values(second_quadrilateral(sine_misclosure, (0,) * 8))
            self.assertEqual(work(sheet), "refused 10 0\n")

    def test_case_10(self):
        self.assertEqual(work(b""), "refused 12 0\n")
        twenty_seven_bytes = packed_values(first_quadrilateral(FORTY_FIVE_DEGREES)) + b"\0"
        self.assertEqual(len(twenty_seven_bytes), 27)
        self.assertEqual(work(twenty_seven_bytes), "refused 12 0\n")

    def test_printed_sheets(self):
        for name, text in DOCUMENT_TEXT.items():
            self.assertEqual(work(sample(name)), text)


class Sizes(unittest.TestCase):
    """Document 01, "Packed sheets"."""

    def test_sizes_that_document_01_gives(self):
        first = [sheet_size(1, figure) for figure in (QUADRILATERAL, figure_of(2, 3), figure_of(3, 8))]
        second = [sheet_size(2, figure) for figure in (QUADRILATERAL, figure_of(3, 8))]
        self.assertEqual(first, [26, 38, 72])
        self.assertEqual(second, [68, 198])

    def test_sizes_of_m_100(self):
        """22 bits and 16 angles; 18 bits, two log sides of 27 and twelve rows of 65."""
        self.assertEqual([sheet_size(kind, POINT_IN_QUADRILATERAL) for kind in (1, 2)], [49, 107])

    def test_nine_figures(self):
        self.assertEqual(len(FIGURES), 9)

    def test_sizes_of_m_106(self):
        """8 bits more for each angle than kinds 3 and 2 have: of 24 angles 24 bytes more."""
        for kind, without in ((4, 3), (5, 2)):
            for figure in FIGURES:
                self.assertEqual(used_bits(kind, figure) - used_bits(without, figure), 8 * figure.angle_count)
        self.assertEqual([sheet_size(kind, QUADRILATERAL) for kind in (4, 5)], [26 + 8, 68 + 8])
        self.assertEqual(max(sheet_size(kind, figure) for kind in KINDS for figure in FIGURES), 222)
        self.assertEqual([(k, f.code, f.n) for k in KINDS for f in FIGURES if sheet_size(k, f) == 222], [(5, 3, 8)])


def cyclic(entries):
    """Coefficients by triangle or corner, indices taken round; one that is named twice counts twice."""
    row = [0] * 4
    for index, coefficient in entries:
        row[(index - 1) % 4] += coefficient
    return row


class PointInQuadrilateral(unittest.TestCase):
    """Document 02, M-100."""

    def test_rows(self):
        """What M-100 prints is what the normal equations give."""
        rows = []
        for i in range(1, 5):
            c = [(i, -14), (i - 1, -4), (i + 1, -4), (i + 2, -2)], [(i, 9), (i + 1, 9), (i + 2, 3), (i + 3, 3)]
            l = [(i, -5), (i - 1, 5), (i + 1, -1), (i + 2, 1)], [(i, -12), (i + 1, 3), (i - 1, -3)]
            r = [(i, -5), (i + 1, 5), (i - 1, -1), (i + 2, 1)], [(i + 1, -12), (i, 3), (i + 2, -3)]
            rows += [cyclic(on_t) + cyclic(on_f) for on_t, on_f in (c, l, r)]
        ones = [[int(i == j) for j in range(8)] for i in range(8)]
        self.assertEqual([list(row) for row in zip(*(first_numerators(POINT_IN_QUADRILATERAL, one) for one in ones))], rows)

    def test_conditions_and_signs(self):
        figure = POINT_IN_QUADRILATERAL
        self.assertEqual((figure.angle_count, figure.fixed_count, figure.denominator, figure.side_count), (12, 4, 24, 2))
        self.assertEqual(figure.conditions[4:], ((12, 2), (3, 5), (6, 8), (9, 11)))
        self.assertEqual(figure.sines[0].signs, (0, 1, -1) * 4)
        self.assertEqual(figure.sines[1].signs, (-1, 0, 1, 0, 0, 0, 0, 0, 0, 1, -1, 0))
        self.assertEqual(figure.sines[1].side_signs, (1, -1))

    def test_printed_form(self):
        text = work(sample("point-in-quadrilateral-second")).splitlines()
        self.assertEqual(text[0], "figure 2 4 W -290 43 determinant 920843533810944")
        self.assertEqual(text[1], "1 3628111 -189 -650 -15867082251302400 -17 3628094 1")
        self.assertEqual([len(line.split()) for line in text], [8] + [8] * 12 + [3] * 8)

    def test_both_sine_misclosures_are_cancelled(self):
        for name in ("point-in-quadrilateral-second", "book-004-example-1-second"):
            sheet = read_sheet(sample(name))
            done = second_pass(sheet)
            self.assertEqual(condition_sums(sheet.figure, done.numerators), [0] * 8)
            for sine, misclosure in zip(sheet.figure.sines, done.sine_misclosures):
                signed = signed_values(sine.signs, sheet.differences)
                self.assertEqual(product_sum(signed, done.numerators), -100 * misclosure * done.divisor)

    def test_products_of_reduced_coefficients(self):
        """The sums of products that the determinant is made of: D times those with the unreduced d."""
        sheet = read_sheet(sample("book-004-example-1-second"))
        reduced = second_pass(sheet).reduced
        signed = [signed_values(sine.signs, sheet.differences) for sine in sheet.figure.sines]
        for d in range(2):
            for other in range(2):
                self.assertEqual(24 * product_sum(signed[d], reduced[other]), product_sum(reduced[d], reduced[other]))
            self.assertEqual(condition_sums(sheet.figure, reduced[d]), [0] * 8)

    def answer(self, **changes):
        sheet = read_sheet(sample("point-in-quadrilateral-second"))
        return work(packed_values(sheet._replace(**changes))).splitlines()[0]

    def test_places_of_log_sides(self):
        self.assertEqual(self.answer(log_sides=(0, 37_502_006)), "refused 8 13")
        self.assertEqual(self.answer(log_sides=(37_652_112, 100_000_001)), "refused 8 14")
        self.assertEqual(self.answer(log_sides=(100_000_001, 0)), "refused 8 13")
        self.assertEqual(self.answer(log_sides=(0, 0), log_sines=(1,) * 11 + (0,)), "refused 8 12")

    def test_each_condition_has_its_tolerance(self):
        """The pole's W is within 613 and the side condition's within 361, in either direction."""
        log_sines = read_sheet(sample("point-in-quadrilateral-second")).log_sines
        for moved, answer in ((-323, "figure"), (-324, "refused 9 0"), (903, "figure"), (904, "refused 9 0")):
            grown = log_sines[:1] + (log_sines[1] + moved,) + log_sines[2:]
            self.assertTrue(self.answer(log_sines=grown).startswith(answer), moved)
        for moved, answer in ((-404, "figure"), (-405, "refused 9 0"), (318, "figure"), (319, "refused 9 0")):
            self.assertTrue(self.answer(log_sides=(37_652_112 + moved, 37_502_006)).startswith(answer), moved)

    def test_determinant_of_0(self):
        """One condition's reduced coefficients are 0, or a multiple of the other's; before 9."""
        pole_only = (100, 200, -100, 300, 400, 500, 600, 700, 800, -100, 100, 900)
        side_against_pole = (0, 0, 300, 0, 0, 0, 0, 0, 0, 0, 500, 0)
        for differences in (pole_only, side_against_pole, (9_999, 0, 0) * 4, (0,) * 12):
            self.assertEqual(self.answer(differences=differences), "refused 10 0")
        self.assertNotEqual(self.answer(differences=(1,) + side_against_pole[1:]), "refused 10 0")

    def test_correction_past_32_bits(self):
        """9999 · 9997 and 9998 · 9998 differ by 1, so the determinant is small and a W of 1 moves angles by many degrees."""
        differences = (9_999, -9_998, 0, 0, 9_998, 0, 0, 0, 9_997, 9_998, 0, -9_997)
        alike = {"differences": differences, "angles": (3_000_000,) * 12, "log_sines": (50_000_000,) * 12}
        self.assertEqual(self.answer(**alike, log_sides=(1, 1)), "figure 2 4 W 0 0 determinant 48384")
        self.assertEqual(self.answer(**alike, log_sides=(2, 1)), "figure 2 4 W 0 1 determinant 48384")
        self.assertEqual(self.answer(**alike, log_sides=(5_000, 1)), "refused 7 1")


class Horizon(unittest.TestCase):
    """Document 02, M-101."""

    SUMS = {"point-in-triangle-first": 6_480_000, "point-in-quadrilateral-first": 12_960_000, "book-004-example-1-first": 12_960_000}

    def test_exact_corrections_close_the_horizon(self):
        for name, right in self.SUMS.items():
            sheet = read_sheet(sample(name))
            self.assertEqual(sum(sheet.fixed), right)
            rest = sheet.figure.denominator * (sum(sheet.angles[::3]) - 12_960_000) + sum(worked(sheet).numerators[::3])
            self.assertEqual(rest, 0, name)

    def test_numerators_round_the_inner_point(self):
        """With fixed angles that sum the horizon is over by the sum of t less the sum of f: over D they cancel just that."""
        for n in (3, 4):
            figure = figure_of(2, n)
            ones = [[int(i == j) for j in range(2 * n)] for i in range(2 * n)]
            round_inner_point = [sum(first_numerators(figure, one)[::3]) for one in ones]
            self.assertEqual(round_inner_point, [-figure.denominator] * n + [figure.denominator] * n)

    def test_closed_and_yet_the_circle_is_open(self):
        """What M-101 tells of, read without judging: every misclosure is 0, and the circle lacks what the fixed angles have over."""
        name = "refused-14-fixed-angles-a-tenth-over"
        bits = Bits(sample(name))
        bits.take(12)
        sheet = read_values(bits, 1, figure_of(2, 3))
        self.assertEqual(sum(sheet.fixed), 6_480_001)
        self.assertEqual(first_pass(sheet).misclosures, [0] * 6)
        self.assertEqual(sum(sheet.angles[::3]), 12_959_999)
        self.assertEqual(work(sample(name)), "refused 14 0\n")

    def answer(self, name, **changes):
        return work(packed_values(read_sheet(sample(name))._replace(**changes))).splitlines()[0]

    def test_a_tenth_at_every_place(self):
        for name in self.SUMS:
            fixed = read_sheet(sample(name)).fixed
            for place in range(len(fixed)):
                for step in (-1, 1):
                    moved = fixed[:place] + (fixed[place] + step,) + fixed[place + 1 :]
                    self.assertEqual(self.answer(name, fixed=moved), "refused 14 0")

    def test_place_in_the_order(self):
        """After 3, 4 and 5, whether or not the others make up the sum, and before 6."""
        name = "point-in-triangle-first"
        over, outside = (2_160_000, 2_160_000, 2_160_001), (1, 1, 0) * 3
        self.assertEqual(self.answer(name, fixed=(2_160_000,) * 3), "refused 6 4")
        self.assertEqual(self.answer(name, fixed=over), "refused 14 0")
        self.assertEqual(self.answer(name, fixed=(2_160_000, 4_320_001, 0)), "refused 5 3")
        self.assertEqual(self.answer(name, fixed=(2_160_000, 4_320_000, 0)), "refused 5 3")
        self.assertEqual(self.answer(name, fixed=over, angles=outside), "refused 4 3")
        self.assertEqual(self.answer(name, fixed=over, angles=outside, limit=601), "refused 3 0")


class DefaultLimit(unittest.TestCase):
    """Document 02, M-102: what L = 0 stands for."""

    def opened(self, kind, misclosure):
        """Sheets with L = 0 that close but for this misclosure: one for each condition of every figure, with its place."""
        for figure in FIGURES:
            for place in range(1, len(figure.conditions) + 1):
                misclosures = [misclosure if number == place else 0 for number in range(1, len(figure.conditions) + 1)]
                angles, fixed = closing_angles(figure, misclosures, lambda low, high: (low + high) // 2)
                yield place, Sheet(kind, figure, 0, angles, (1,) * len(angles), fixed=fixed)

    def test_default_of_each_kind(self):
        for kind, most in ((1, 150), (3, 90), (4, 90)):
            for side in (-1, 1):
                for place, sheet in self.opened(kind, side * most):
                    self.assertIn(f"condition {place} {side * most} ", work(packed_values(sheet)))
                for place, sheet in self.opened(kind, side * (most + 1)):
                    self.assertEqual(work(packed_values(sheet)), f"refused 6 {place}\n")

    def test_called_directly(self):
        for side in (-1, 1):
            for place, sheet in self.opened(1, side * 90):
                self.assertEqual(first_pass(sheet).misclosures[place - 1], side * 90)
            for place, sheet in self.opened(1, side * 91):
                with self.assertRaises(Refused) as caught:
                    first_pass(sheet)
                self.assertEqual((caught.exception.number, caught.exception.place), (6, place))
                self.assertEqual(first_pass(sheet._replace(limit=150)), worked(sheet))

    def test_given_limit(self):
        """In any kind a limit other than 0 is the limit."""
        for kind in (1, 3, 4):
            for limit in (89, 90, 91, 150, 151, 600):
                _, at = next(self.opened(kind, -limit))
                _, beyond = next(self.opened(kind, limit + 1))
                self.assertEqual(worked(at._replace(limit=limit)).misclosures, [-limit, 0, 0])
                self.assertEqual(work(packed_values(beyond._replace(limit=limit))), "refused 6 1\n")

    def test_fields_and_lines_of_kind_1(self):
        for name in KIND_3:
            first, third = sample(name.replace("-kind-3", "-first")), sample(name)
            self.assertEqual(third, bytes([first[0] + (2 << 4)]) + first[1:])
            self.assertEqual(work(third), work(first))

    def test_read_as_packed(self):
        for name in KIND_3:
            self.assertEqual((read_sheet(sample(name)).kind, read_sheet(sample(name)).limit), (3, 0))

    def test_book_four_counts_on_150(self):
        """Its misclosures of −108 and −146 pass with L = 0 on a sheet of kind 1, and not on one of kind 3."""
        first = read_sheet(sample("book-004-example-1-first"))
        self.assertEqual((first.kind, first.limit), (1, 0))
        self.assertTrue(work(packed_values(first)).startswith("figure 2 4 "))
        self.assertEqual(work(packed_values(first._replace(kind=3))), "refused 6 2\n")

    def test_kinds_that_are_none(self):
        body = sample("document-01-first")
        for kind in (0, *range(6, 16)):
            self.assertEqual(work(bytes([kind << 4 | body[0] & 15]) + body[1:]), "refused 11 0\n")


def answer_of(compute, *given):
    """Number and place, or 0 and 0."""
    try:
        compute(*given)
    except Refused as refusal:
        return refusal.number, refusal.place
    return 0, 0


class RoundingThatCloses(unittest.TestCase):
    """Document 02, M-104: our own choice."""

    def chosen(self, figure, *misclosures):
        return choice(figure, least_squares_corrections(figure, misclosures))

    def test_case_1_by_hand(self):
        """The directions in eighths are 0, -79, -158, -231, -304, -211, -118, -31, 56; downwards, in tenths, 0, -10, -20, -29,
        -38, -27, -15, -4, 7."""
        self.assertEqual(self.chosen(QUADRILATERAL, 38, -5, -45), [-10, -10, -9, -9, 11, 12, 11, 11])

    def test_book_000_example_2_by_hand(self):
        """Numerators 8, 8, -72, -72, -4, -4, 76, 76: directions 0, 8, 16, -56, -128, -132, -136, -60, 16 in eighths, two of them at
        a half."""
        self.assertEqual(self.chosen(QUADRILATERAL, 16, 19, -18), [1, 1, -9, -9, -1, 0, 9, 10])

    def test_printed_sheet_by_hand(self):
        """Numerators -12, -12, -4, -4, 4, 4, -4, -4: directions 0, -12, -24, -28, -32, -28, -24, -28, -32 in eighths, halves
        among them."""
        self.assertEqual(self.chosen(QUADRILATERAL, 4, 0, 0), [-2, -1, -1, 0, 0, 1, -1, 0])

    def test_whole_values_stay(self):
        """Cases 2 and 3."""
        self.assertEqual(self.chosen(QUADRILATERAL, 0, 0, 0), [0] * 8)
        self.assertEqual(self.chosen(figure_of(2, 3), 10, 0, 0, 0, 0, 0), [-6, -2, -2, -2, 2, 0, -2, 0, 2])

    def test_case_4_by_hand(self):
        """In eighteenths: the inner angles end at -24, -12 and 0; from there the second ones at -66, -18 and -6, the last ones
        at -108, -24 and -12."""
        self.assertEqual(self.chosen(figure_of(3, 3), 6, 0, 0, 0), [-2, -2, -2, 1, 0, -1, 1, -1, 0])

    def test_both_rules(self):
        """Of every figure 2100 sheets."""
        whole = halves = 0
        for sheet in choice_sheets(700):
            misclosures = first_pass(sheet).misclosures
            exact = least_squares_corrections(sheet.figure, misclosures)
            ours = closing_corrections(sheet)
            self.assertTrue(keeps_first_rule(exact, ours), sheet)
            self.assertTrue(keeps_second_rule(sheet.figure, misclosures, ours), sheet)
            whole += sum(value.denominator == 1 for value in exact)
            halves += sum(value.denominator == 2 for value in exact)
        self.assertGreater(whole, 50_000)
        self.assertGreater(halves, 30_000)

    def test_round_each_condition(self):
        """Why it closes: in each condition every angle ends where the next begins, and the last where the first does, up to
        whole tenths. Seen of a misclosure of 1 in each condition, and so of any."""
        for figure in FIGURES:
            for at in range(len(figure.conditions)):
                exact = least_squares_corrections(figure, [int(at == j) for j in range(len(figure.conditions))])
                laid = directions(figure, exact)
                for condition in figure.conditions:
                    for one, following in zip(condition, condition[1:] + condition[:1]):
                        self.assertEqual((laid[one - 1][1] - laid[following - 1][0]).denominator, 1)

    def test_the_horizon_closes_too(self):
        """Of code 2, where no condition lists it (M-101)."""
        for sheet in choice_sheets(20):
            if sheet.figure.code == 2:
                corrected = [angle + correction for angle, correction in zip(sheet.angles, closing_corrections(sheet))]
                self.assertEqual(sum(corrected[::3]), 12_960_000)

    def test_7_by_ordinary_rounding(self):
        """Angle 2 of 2 tenths, rounded by -2 and chosen as -1: 7, as of the first pass. Angle 1 of a tenth, rounded by 0 and chosen
        as -1: none, though the two together are 0."""
        out = Sheet(3, QUADRILATERAL, 0, (3_240_002, 2) + (FORTY_FIVE_DEGREES,) * 6, ONCE)
        self.assertEqual(answer_of(first_pass, out), (7, 2))
        self.assertEqual(answer_of(closing_corrections, out), (7, 2))
        self.assertEqual(answer_of(check_closing, out, [-2, -1, -1, 0, 0, 1, -1, 0]), (7, 2))
        kept = Sheet(3, QUADRILATERAL, 0, (1, 3_240_000) + (FORTY_FIVE_DEGREES,) * 6, ONCE)
        self.assertEqual(first_pass(kept).rounded, [0] * 8)
        self.assertEqual(closing_corrections(kept), [-1] + [0] * 7)
        self.assertEqual(answer_of(check_closing, kept, [-1] + [0] * 7), (0, 0))


class Offer(NamedTuple):
    """Corrections offered for a sheet of this figure, and what the rules ask of them."""

    figure: Figure
    misclosures: list
    exact: list
    corrections: list

    @property
    def keeps_first(self):
        return keeps_first_rule(self.exact, self.corrections)

    @property
    def keeps_second(self):
        return keeps_second_rule(self.figure, self.misclosures, self.corrections)

    @property
    def is_accepted(self):
        return keeps_both_rules(*self)


class OfferedChoices(unittest.TestCase):
    """Document 02, M-104: the check. Each sort of offer is made of every figure."""

    @classmethod
    def setUpClass(cls):
        cls.offers = {}
        for sheet in choice_sheets(8):
            misclosures = first_pass(sheet).misclosures
            exact = least_squares_corrections(sheet.figure, misclosures)
            for sort, made in offers(sheet.figure, exact).items():
                cls.offers.setdefault(sort, []).extend(Offer(sheet.figure, misclosures, exact, one) for one in made)

    def reached(self, found):
        self.assertEqual({offer.figure for offer in found}, set(FIGURES))

    def test_our_choice(self):
        self.assertTrue(all(offer.is_accepted for offer in self.offers["our choice"]))

    def test_first_rule_in_other_words(self):
        """Just below or just above, or the whole value itself: less than a tenth from the exact correction."""
        for made in self.offers.values():
            for offer in made:
                near = all(abs(tenth - exact) < 1 for tenth, exact in zip(offer.corrections, offer.exact))
                self.assertEqual(offer.keeps_first, near)

    def test_one_off(self):
        """At one angle: some of them floor or ceiling still."""
        made = self.offers["one off"]
        self.assertFalse(any(offer.is_accepted for offer in made))
        self.reached([offer for offer in made if offer.keeps_first])

    def test_cancelled_in_a_condition(self):
        """Two angles, floor or ceiling still, that cancel in a condition and break another."""
        made = self.offers["cancelled in a condition"]
        self.reached(made)
        self.assertTrue(all(offer.keeps_first and not offer.is_accepted for offer in made))

    def test_rests_of_0_are_not_enough(self):
        """Another choice than ours is accepted where floor and ceiling allow it; where they do not every rest is 0 as well."""
        made = self.offers["kept in every condition"]
        self.assertTrue(all(offer.keeps_second for offer in made))
        self.reached([offer for offer in made if offer.is_accepted])
        self.reached([offer for offer in made if not offer.is_accepted])

    def test_a_whole_value_stays(self):
        """Moved by a tenth it is refused, though every rest stays 0."""
        moved = [
            offer
            for offer in self.offers["kept in every condition"]
            if any(exact.denominator == 1 and exact != value for exact, value in zip(offer.exact, offer.corrections))
        ]
        self.reached(moved)
        self.assertFalse(any(offer.is_accepted for offer in moved))

    def test_of_another_angle(self):
        """Floor or ceiling of the wrong angle."""
        strays = [offer for offer in self.offers["of another angle"] if not offer.keeps_first]
        self.reached(strays)
        self.assertFalse(any(offer.is_accepted for offer in strays))

    def test_past_32_bits(self):
        self.assertFalse(any(offer.is_accepted for offer in self.offers["past 32 bits"]))

    def test_ordinary_rounding(self):
        """Accepted exactly where it closes."""
        closes = {figure: set() for figure in FIGURES}
        for sheet in choice_sheets(50):
            done = first_pass(sheet)
            closes[sheet.figure].add(not any(done.rests))
            self.assertEqual(answer_of(check_closing, sheet, done.rounded), (15, 0) if any(done.rests) else (0, 0))
        self.assertEqual(set(map(frozenset, closes.values())), {frozenset((False, True))})

    def by_eye(self, example):
        """The corrections that a book gives, and its sheet."""
        observed, corrected = (read_sheet(sample(f"{example}-{part}")) for part in ("first", "second"))
        return observed._replace(limit=150), [after - before for before, after in zip(observed.angles, corrected.angles)]

    def test_of_book_000(self):
        """It hands out the last tenths by eye, so that its corrected angles close."""
        for example in ("book-000-example-1", "book-000-example-2"):
            sheet, book = self.by_eye(example)
            self.assertEqual(answer_of(check_closing, sheet, book), (0, 0))
            self.assertEqual(answer_of(check_closing, sheet, first_pass(sheet).rounded), (15, 0))
            self.assertNotEqual(closing_corrections(sheet), book)

    def test_of_book_004(self):
        """It hands out a tenth so that the triangles close, and a corner stays open by it; ordinary rounding closes there."""
        sheet, book = self.by_eye("book-004-example-1")
        self.assertEqual(rests_of(sheet.figure, first_pass(sheet).misclosures, book), [0, 0, 0, 0, 0, -1, 0, 0])
        self.assertEqual(answer_of(check_closing, sheet, book), (15, 0))
        self.assertEqual(answer_of(check_closing, sheet, first_pass(sheet).rounded), (0, 0))

    def test_refused_as_the_first_pass(self):
        """Before 15, whatever is offered."""
        for place, beyond in DefaultLimit().opened(3, 91):
            self.assertEqual(answer_of(check_closing, beyond, [9] * beyond.figure.angle_count), (6, place))
            self.assertEqual(answer_of(closing_corrections, beyond), (6, place))


class BothPasses(unittest.TestCase):
    """Document 02, M-107, and the numbers of docs/TOGETHER.md."""

    EXAMPLE = "book-000-example-2"
    STEP = (1, -4, 3, 0, -2, -1, 1, 2)  # changes no condition and no sine sum of the example

    def setUp(self):
        self.figure, self.signed, self.first, self.second = self.exact(self.EXAMPLE)
        self.both = [one + two for one, two in zip(self.first, self.second)]

    def exact(self, name):
        """The figure, the signed differences of each sine condition, and the exact corrections of both passes."""
        first, second = (read_sheet(sample(f"{name}-{part}")) for part in ("first", "second"))
        one, two = worked(first), worked(second)
        signed = [signed_values(sine.signs, second.differences) for sine in second.figure.sines]
        over_d = [Fraction(numerator, first.figure.denominator) for numerator in one.numerators]
        return first.figure, signed, over_d, [Fraction(numerator, two.divisor) for numerator in two.numerators]

    def sums(self, corrections):
        return condition_sums(self.figure, corrections), product_sum(self.signed[0], corrections)

    def test_one_adjustment(self):
        """In every figure: the sum, in whole numbers over one denominator, is what the normal equations of all conditions at once give."""
        names = [name.removesuffix("-first") for name in EACH_FIGURE if name.endswith("-first")]
        for name in [*names, "book-000-example-1", self.EXAMPLE, "book-001-example-8-1", "book-004-example-1"]:
            figure, signed, first, second = self.exact(name)
            common = math.lcm(*(correction.denominator for correction in first + second))
            both = [int(common * (one + two)) for one, two in zip(first, second)]
            sine_sums = [product_sum(d, both) for d in signed]
            self.assertEqual(corrections_of_all(figure, signed, condition_sums(figure, both), sine_sums), both, name)

    def test_what_the_sum_changes(self):
        """It cancels the misclosures 16, 19, -18, and the sine sum changes by what the first did less 100 W."""
        self.assertEqual(self.sums(self.first), ([-16, -19, 18], Fraction(-825, 2)))
        self.assertEqual(self.sums(self.second), ([0, 0, 0], -12_600))
        self.assertEqual(self.sums(self.both), ([-16, -19, 18], Fraction(-825, 2) - 100 * 126))

    def test_sums_of_squares(self):
        ours = product_sum(self.both, self.both)
        self.assertEqual(product_sum(self.first, self.first), 345)
        self.assertEqual(product_sum(self.second, self.second), Fraction(7_056_000, 37_567))
        self.assertEqual(ours, 345 + Fraction(7_056_000, 37_567))

    def test_third_set_is_larger(self):
        third = [correction + step for correction, step in zip(self.both, self.STEP)]
        self.assertEqual(self.sums(third), self.sums(self.both))
        self.assertEqual(product_sum(third, third), product_sum(self.both, self.both) + 36)

    def test_without_the_sine_sum_it_is_false(self):
        """The first corrections cancel the misclosures with fewer squares; it is the sine sum that they leave."""
        self.assertEqual(self.sums(self.first)[0], self.sums(self.both)[0])
        self.assertNotEqual(self.sums(self.first)[1], self.sums(self.both)[1])
        self.assertLess(product_sum(self.first, self.first), product_sum(self.both, self.both))

    def test_page(self):
        """Its table has these numbers, to three decimals, and the sums."""
        third = [correction + step for correction, step in zip(self.both, self.STEP)]
        lines = (DOCS / "TOGETHER.md").read_text(encoding="utf-8").replace("−", "-").splitlines()
        table = [[cell.strip() for cell in line.split("|")[1:-1]] for line in lines if line.startswith("|")]
        columns = [[f"{value:.3f}" for value in map(float, column)] for column in (self.first, self.second, self.both, third)]
        squares = [f"{float(product_sum(column, column)):.3f}" for column in (self.first, self.second, self.both, third)]
        sines = [f"{float(product_sum(self.signed[0], column)):.1f}" for column in (self.first, self.second, self.both, third)]
        rows = [[str(i + 1), str(self.signed[0][i]), *(column[i] for column in columns)] for i in range(8)]
        self.assertEqual(table[2:10], rows)
        self.assertEqual([row[2:] for row in table[-2:]], [sines, squares])


class BookFour(unittest.TestCase):
    """Book 004, example 1, by the book's own numbers of its angles; sheets/README.md has the map and says where it rounds by hand."""

    NUMBERS = (1, 2, 3, 10, 11, 12, 7, 9, 8, 4, 5, 6)  # of the book, in the order of the sheet
    FIRST = (-34, 65, -79, -17, -8, 81, -8, 1, -34, 60, 14, 34)
    SECOND = (-16, 7, 9, 46, -39, -7, -47, 39, 8, 17, -9, -8)
    A = (0.45, 1.95, -2.40, -0.89, 2.84, -1.95, 0.23, -2.84, 2.61, 0.21, 2.40, -2.61)
    B = (-0.41, -0.43, 0.84, 1.09, -1.51, 0.42, -0.92, 1.51, -0.59, 0.25, -0.84, 0.59)

    def setUp(self):
        self.first = read_sheet(sample("book-004-example-1-first"))
        self.second = read_sheet(sample("book-004-example-1-second"))

    def here(self, printed):
        """The book's values in the order of the sheet."""
        return [printed[number - 1] for number in self.NUMBERS]

    def test_misclosures(self):
        done = worked(self.first)
        self.assertEqual(done.misclosures, [48, -108, 41, -56, -146, 64, 0, 7])

    def test_first_corrections(self):
        """The book cuts 1.4708 to 1.4 at its angle 11, and gives the tenth that triangle 4 lacks to its angle 10."""
        done = worked(self.first)
        book = self.here(self.FIRST)
        self.assertEqual([n for n, ours, printed in zip(self.NUMBERS, done.rounded, book) if ours != printed], [10, 11])
        self.assertTrue(all(abs(numerator - 24 * tenths) < 24 for numerator, tenths in zip(done.numerators, book)))
        corrected = [angle + tenths for angle, tenths in zip(self.first.angles, book)]
        self.assertEqual(list(self.second.angles), corrected)
        self.assertEqual(done.numerators[0], -14 * 48 - 4 * -56 - 2 * 41 - 4 * -108 + 9 * -146 + 3 * 7 + 3 * 0 + 9 * 64)

    def test_log_sides(self):
        """The known sides, as its triangles have them: 7699.20 m from a to d, 8962.17 m from a to b."""
        for log_side, metres in zip(self.second.log_sides, (7_699.20, 8_962.17)):
            self.assertLess(abs(log_side - 1e7 * math.log10(metres)), 5)

    def test_sine_misclosures_and_tolerance(self):
        self.assertEqual(second_pass(self.second).sine_misclosures, [252, -224])
        squares = [sum(d * d for d in signed_values(sine.signs, self.second.differences)) for sine in self.second.figure.sines]
        self.assertEqual(squares, [590_276, 246_426])

    def test_second_corrections(self):
        """From its own differences: W and B are the book's, A is not, and no correction is further off than 1.2 tenths."""
        done = second_pass(self.second)
        for numerator, tenths in zip(done.numerators, self.here(self.SECOND)):
            self.assertLess(abs(numerator / done.divisor - tenths), 1.2)
        for reduced, printed in zip(done.reduced[1], self.here(self.B)):
            self.assertLess(abs(reduced / 2400 - printed), 0.01)

    def test_second_corrections_with_the_slip(self):
        """The book's sum of the differences of its angles 2 and 6 is 2.560 and not 2.480. With it A and B are the book's, its sums
        of products follow from them, and its corrections are less than a tenth from the exact ones."""
        self.assertEqual(self.second.differences[1] + self.second.differences[11], 248)
        done = second_pass(self.second._replace(differences=self.second.differences[:11] + (10,)))
        a, b = self.here(self.A), self.here(self.B)
        for reduced, printed in zip(done.reduced[0] + done.reduced[1], a + b):
            self.assertLess(abs(reduced / 2400 - printed), 0.01)
        sums = [product_sum(a, a), product_sum(a, b), product_sum(b, b)]
        self.assertEqual([round(value, 3) for value in sums], [49.972, -18.66, 9.294])
        for numerator, tenths in zip(done.numerators, self.here(self.SECOND)):
            self.assertLess(abs(numerator / done.divisor - tenths), 1)
        self.assertEqual(condition_sums(self.second.figure, self.here(self.SECOND)), [0] * 8)


class Writer(unittest.TestCase):
    """The writer's refusals, and that a sheet read and written again has the same bits."""

    def test_round_trip(self):
        for name in {**EACH_FIGURE, **KIND_3, **KIND_4, **KIND_5}:
            self.assertEqual(write_sheet(read_sheet(sample(name))), sample(name))

    def refusal(self, **changes):
        with self.assertRaises(Refused) as caught:
            write_sheet(read_sheet(sample("point-in-triangle-first"))._replace(**changes))
        return caught.exception.number, caught.exception.place

    def test_refusals_in_order(self):
        bad = {"fixed": (1, 0, 0), "angles": (1, 1, 0) * 3, "limit": 601}
        self.assertEqual(self.refusal(fixed=(1, 1, 1)), (14, 0))
        self.assertEqual(self.refusal(fixed=bad["fixed"]), (5, 2))
        self.assertEqual(self.refusal(fixed=bad["fixed"], angles=bad["angles"]), (4, 3))
        self.assertEqual(self.refusal(**bad), (3, 0))
        self.assertEqual(self.refusal(**bad, log_sines=(1,)), (2, 0))
        self.assertEqual(self.refusal(**bad, log_sines=(1,), figure=None), (1, 0))
        self.assertEqual(self.refusal(**bad, log_sines=(1,), figure=None, kind=6), (11, 0))


class PublishedExamples(unittest.TestCase):
    def worked(self, name):
        return worked(read_sheet(sample(name)))

    def test_misclosures(self):
        self.assertEqual(self.worked("book-000-example-1-first").misclosures, [38, -5, -45])
        self.assertEqual(self.worked("book-000-example-2-first").misclosures, [16, 19, -18])
        self.assertEqual(self.worked("book-001-example-8-1-first").misclosures, [18, -29, -13])

    def test_sine_misclosures(self):
        self.assertEqual(self.worked("book-000-example-1-second").sine_misclosures, [-148])
        self.assertEqual(self.worked("book-000-example-2-second").sine_misclosures, [126])
        self.assertEqual(self.worked("book-001-example-8-1-second").sine_misclosures, [-70])

    def test_reduced_coefficients_of_example_1(self):
        """The book rounds an eighth of each difference to three places, so its A may be 0.01 away."""
        book = (2.56, -2.13, 1.86, -2.29, 2.47, -2.04, 1.77, -2.20)
        for reduced, printed in zip(self.worked("book-000-example-1-second").reduced[0], book):
            self.assertLessEqual(abs(reduced / 800 - printed), 0.01)

    def test_first_corrections_of_the_book(self):
        """Book 000 hands out a last tenth by eye so that its corrected angles close: one correction of example 1 (angle 6)
        and two of example 2 (angles 6 and 8) are one tenth from the rounded ones, and less than one tenth from the exact."""
        for example, by_eye in (("book-000-example-1", [6]), ("book-000-example-2", [6, 8])):
            observed, corrected = (read_sheet(sample(f"{example}-{part}")).angles for part in ("first", "second"))
            book = [after - before for before, after in zip(observed, corrected)]
            ours = self.worked(f"{example}-first")
            unlike = [i for i in range(1, 9) if ours.rounded[i - 1] != book[i - 1]]
            self.assertEqual(unlike, by_eye)
            self.assertTrue(all(abs(n - 8 * tenths) < 8 for n, tenths in zip(ours.numerators, book)))

    def test_second_corrections_of_example_2(self):
        """Angle 8: the exact correction is 6.503 tenths; the book gives 6, so that angles 5 to 8 keep their sum."""
        book = [-4, 1, -4, 7, -7, 4, -3, 6]
        ours = self.worked("book-000-example-2-second")
        self.assertEqual(ours.rounded[:7], book[:7])
        self.assertEqual(ours.rounded[7], 7)
        self.assertEqual(1000 * ours.numerators[7] // ours.divisor, 6503)
        self.assertEqual(condition_sums(QUADRILATERAL, book), [0, 0, 0])

    def test_example_8_1_carried_to_the_corrected_angles(self):
        """Log-sines of the first-corrected angles from the book's own differences for 1 second."""
        observed = read_sheet(sample("book-001-example-8-1-second"))
        carried = read_sheet(sample("book-001-example-8-1-carried"))
        first = self.worked("book-001-example-8-1-first")
        changes = [rounded_quotient(d * v, 100) for d, v in zip(observed.differences, first.rounded)]
        self.assertEqual(list(carried.angles), first.results)
        self.assertEqual(list(carried.log_sines), [log + change for log, change in zip(observed.log_sines, changes)])
        self.assertEqual(carried.differences, observed.differences)


class HalvesToEven(unittest.TestCase):
    """Document 02, M-105."""

    # what 1/2, 3/2, 5/2, 7/2 and 9/2 are rounded to
    EVEN = [0, 2, 2, 4, 4]

    def test_halves_of_both_signs(self):
        for half in (4, 5, 9, 12, 15, 18, 21, 24, 12_157_588):  # of each figure's D, and of case 6's S
            above = [rounded_quotient(odd * half, 2 * half) for odd in (1, 3, 5, 7, 9)]
            below = [rounded_quotient(-odd * half, 2 * half) for odd in (1, 3, 5, 7, 9)]
            self.assertEqual(above, self.EVEN)
            self.assertEqual(below, [-even for even in self.EVEN])

    def test_beside_a_half(self):
        """Of an even and of an odd denominator, the last quotient that lies nearer than a half and the first that lies further."""
        for numerator, denominator, nearest in ((3, 8, 0), (5, 8, 1), (11, 8, 1), (13, 8, 2), (4, 9, 0), (5, 9, 1), (13, 9, 1), (14, 9, 2)):
            self.assertEqual(rounded_quotient(numerator, denominator), nearest)
            self.assertEqual(rounded_quotient(-numerator, denominator), -nearest)

    def test_every_sort_in_both_passes(self):
        """Before and after zero, after an even and an odd number: the made sheets have all four in every figure and pass."""
        for groups in ((halves_of_the_first_pass,), (halves, halves_of_two)):
            found = {figure: set() for figure in FIGURES}
            for group in groups:
                for _, sheet in group(random.Random(group.__name__)):
                    done = worked(sheet)
                    divisor = sheet.figure.denominator if is_first(sheet.kind) else done.divisor
                    found[sheet.figure] |= sorts_of_halves([Fraction(numerator, divisor) for numerator in done.numerators])
                    self.check_rests(sheet.figure, done.rests)
            self.assertTrue(all(sorts == set(EVERY_SORT) for sorts in found.values()))

    def check_rests(self, figure, rests):
        """Half a tenth for each angle in the condition."""
        for angles, rest in zip(condition_sums(figure, [1] * figure.angle_count), rests):
            self.assertLessEqual(2 * abs(rest), angles)


class Rounds(unittest.TestCase):
    """Document 02, M-106."""

    def answer(self, name, **changes):
        return work(packed_values(read_sheet(sample(name))._replace(**changes))).splitlines()[0]

    def writing(self, name, **changes):
        """Number and place, or nothing where the sheet is written."""
        try:
            write_sheet(read_sheet(sample(name))._replace(**changes))
        except Refused as refusal:
            return refusal.number, refusal.place
        return None

    def older(self, name):
        """The same sheet without rounds."""
        return name.replace("-kind-4", "-kind-3").replace("-kind-5", "-second")

    def bits(self, sheet):
        return f"{int.from_bytes(sheet, 'big'):0{8 * len(sheet)}b}"

    def test_right_after_each_observed_angle(self):
        """From the words of M-106: the bits of the older kind, with 8 more after the first 23 of each angle's row."""
        for name in [*KIND_4, *KIND_5]:
            sheet, without = read_sheet(sample(name)), read_sheet(sample(self.older(name)))
            figure = sheet.figure
            bits = self.bits(sample(self.older(name)))[: used_bits(without.kind, figure)]
            start, row = (22, 23) if is_first(sheet.kind) else (18 + 27 * figure.side_count, 65)
            end = start + row * figure.angle_count
            rows = [bits[at : at + 23] + f"{rounds:08b}" + bits[at + 23 : at + row] for at, rounds in zip(range(start, end, row), ROUNDS)]
            right = "".join([f"{sheet.kind:04b}", bits[4:start], *rows, bits[end:]])
            self.assertEqual(self.bits(sample(name)), right + "0" * (-len(right) % 8), name)

    def test_printed_last_on_its_line(self):
        """The lines of the older kind, where every angle's line ends in 1, with the sheet's own rounds in the place of that."""
        for name in [*KIND_4, *KIND_5]:
            older = work(sample(self.older(name))).splitlines()
            lines = work(sample(name)).splitlines()
            for before, line in zip(older, lines):
                if before[0].isdigit():
                    number = int(before.split()[0])
                    self.assertTrue(before.endswith(" 1"))
                    before = f"{before[:-2]} {ROUNDS[number - 1]}"
                self.assertEqual(line, before)
            self.assertEqual(len(lines), len(older))

    def test_unchanged_through_both_passes(self):
        for name in KIND_4:
            if name != "document-01-kind-4":
                first, second = read_sheet(sample(name)), read_sheet(sample(name.replace("-kind-4", "-kind-5")))
                done = worked(first)
                self.assertEqual((done.results, done.rounds), (list(second.angles), list(second.rounds)))
                self.assertEqual(worked(second).rounds, list(ROUNDS[: first.figure.angle_count]))

    def test_older_kinds_read_as_one_round(self):
        for name in {**EACH_FIGURE, **KIND_3}:
            self.assertEqual(set(read_sheet(sample(name)).rounds), {1})

    def test_older_kinds_written_with_another_count(self):
        """At the lowest such angle."""
        for name in {**EACH_FIGURE, **KIND_3}:
            count = read_sheet(sample(name)).figure.angle_count
            for place in (1, count):
                for other in (0, 2, 255):
                    rounds = (1,) * (place - 1) + (other,) * (count - place + 1)
                    self.assertEqual(self.writing(name, rounds=rounds), (16, place))
            self.assertIsNone(self.writing(name, rounds=(1,) * count))

    def test_count_of_0(self):
        for name in [*KIND_4, *KIND_5]:
            count = read_sheet(sample(name)).figure.angle_count
            for place in range(1, count + 1):
                rounds = ROUNDS[: place - 1] + (0,) + ROUNDS[place:count]
                self.assertEqual(self.answer(name, rounds=rounds), f"refused 16 {place}")
                self.assertEqual(self.writing(name, rounds=rounds), (16, place))
            for most in (1, 255):
                self.assertTrue(self.answer(name, rounds=(most,) * count).startswith("figure"))
                self.assertIsNone(self.writing(name, rounds=(most,) * count))

    def test_place_in_the_order(self):
        """After 3 and 4, before 5, 14 and 8, in reader and writer; 6, 10 and 9 come later still."""
        none, outside = (0,) * 24, (1,) * 8 + (0,)
        first, second = "point-in-triangle-kind-4", "point-in-triangle-kind-5"
        fixed = {5: (0, 3_240_000, 3_240_000), 14: (2_160_000, 2_160_000, 2_160_001), 6: (2_160_000,) * 3}
        for number, values in fixed.items():
            self.assertTrue(self.answer(first, fixed=values).startswith(f"refused {number} "))
            self.assertEqual(self.answer(first, fixed=values, rounds=none[:9]), "refused 16 1")
        entries = {8: (0,) * 9, 10: (50_000_000,) * 9}
        for number, values in entries.items():
            changes = {"log_sines": values, "differences": (0,) * 9}
            self.assertTrue(self.answer(second, **changes).startswith(f"refused {number} "))
            self.assertEqual(self.answer(second, **changes, rounds=none[:9]), "refused 16 1")
        for name in (first, second):
            self.assertEqual(self.answer(name, rounds=none[:9], angles=outside), "refused 4 9")
            self.assertEqual(self.answer(name, rounds=none[:9], angles=outside, limit=63 if name == second else 601), "refused 3 0")
            self.assertEqual(self.writing(name, rounds=none[:9], angles=outside), (4, 9))
        self.assertEqual(self.writing(first, rounds=none[:9], fixed=fixed[5]), (16, 1))
        self.assertEqual(self.writing(first, rounds=none[:9], fixed=fixed[14]), (16, 1))
        self.assertEqual(self.writing(first, rounds=none[:8]), (2, 0))

    def test_longest_and_one_more(self):
        longest = sample("polygon-8-kind-5")
        self.assertEqual(len(longest), 222)
        self.assertTrue(work(longest).startswith("figure 3 8 "))
        for more in (1, 2, 1_000):
            self.assertEqual(work(longest + bytes(more)), "refused 12 0\n")


class ValuesAreReal(unittest.TestCase):
    """Log-sines and differences belong to their angles, so no digit of a sample sheet was misread."""

    OFF_IN_THE_BOOK = {("book-004-example-1-second", 97_817_342): 2.5}  # which its own sums hold

    def test_log_sines_and_differences(self):
        for name, values in {**BOOKS, **EACH_FIGURE}.items():
            if isinstance(values, Second):
                sheet = read_sheet(sample(name))
                for angle, log_sine, difference in zip(sheet.angles, sheet.log_sines, sheet.differences):
                    self.check(name, math.radians(angle / 36_000), log_sine, difference)

    def check(self, name, angle, log_sine, difference):
        one_second = math.radians(1 / 3600)
        log_sine_here = (math.log10(math.sin(angle)) + 10) * 1e7
        difference_here = math.log10(math.e) / math.tan(angle) * one_second * 1e8
        off = self.OFF_IN_THE_BOOK.get((name, log_sine), 1.1)
        self.assertLessEqual(abs(log_sine_here - log_sine), off, name)
        self.assertLessEqual(abs(difference_here - difference), 1.1, name)

    def test_second_sheets_start_from_corrected_angles(self):
        for name in EACH_FIGURE:
            if name.endswith("-first"):
                corrected = worked(read_sheet(sample(name))).results
                second = read_sheet(sample(name.replace("-first", "-second")))
                self.assertEqual(list(second.angles), corrected, name)


def main():
    """Every test counts by itself."""
    result = unittest.main(exit=False).result
    failed = len(result.failures) + len(result.errors)
    print(f"{result.testsRun - failed} passed, {failed} failed")
    return 0 if result.testsRun and not failed else 1


if __name__ == "__main__":
    sys.exit(main())
