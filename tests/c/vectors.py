#!/usr/bin/env python3
"""Calls of the library, each with what the independent computation of tests/ says it must answer and store.

    tests/c/vectors.py ALL SOME     writes them to the file ALL, and every fiftieth to the file SOME

A call is a line and a line for each slice, in the order of the header:

    FUNCTION  COUNT NUMBERS..  ANSWER  SLICES  NAME
    MODE TYPE COUNT VALUES..

Modes: `sheet` a sheet that is read; `in` values that are given; `out` values that must be stored; `room` a slice lent to a call that
is refused, so that nothing may be stored; `text` the lines of a report, whose slice may be longer. Bytes are in hexadecimal.
The same calls come out every time.
"""

import random
import sys
from pathlib import Path

ROOT = Path(__file__).resolve().parent.parent.parent
sys.path.insert(0, str(ROOT / "tests"))

from closing_choice import check_closing, closing_corrections  # noqa: E402
from figures import figure_of, least_squares_corrections  # noqa: E402
from independent import DEFAULTS, first_pass, second_pass, work  # noqa: E402
from made_choices import choice_sheets, offers  # noqa: E402
from made_sheets import (  # noqa: E402
    MOST_LENGTH,
    each_kind_and_figure,
    fixed_angles_moved,
    fixed_angles_that_do_not_sum,
    label,
    made_sheets,
    ordinary_sheet,
    with_value,
)
from packed import (  # noqa: E402
    KINDS,
    LARGEST_ROUNDS,
    Refused,
    check_values,
    counts,
    is_first,
    read_sheet,
    sheet_size,
    write_sheet,
)

SEED = 1978
EVERY = 50
OFFERS = 2  # of a sort, for a sheet

# Outside the range, and beside a value within it where bits are lost: 2^23 and 2^27 are past the fields, 2^31 and 2^32 - 1 at the ends.
ODD_ANGLES = (0, 6_480_000, 2**23 + 1_620_000, 2**31, 2**31 + 1_620_000, 2**32 - 1)
ODD_ROUNDS = (0, 2, 255)  # of the last two a pass and kinds 4 and 5 take both, and the older kinds neither
ODD_LOG_SINES = (0, 100_000_001, 2**27 + 50_000_000, 2**31 + 50_000_000, 2**32 - 1)
ODD_LOG_SIDES = (0, 100_000_001, 2**27 + 37_000_000, 2**31 + 37_000_000, 2**32 - 1)
ODD_DIFFERENCES = (-(2**31), -(2**15) + 100, -10_000, 10_000, 2**15 + 100, 2**31 - 1)
ODD_LIMITS = (601, 1_023, 1_024 + 150, 2**16 + 150, 2**31, 2**32 - 1)
ODD_TOLERANCES = (51, 63, 64 + 10, 256 + 10, 2**31, 2**32 - 1)
ODD_NAMES = ((0, 0), (1, 3), (2, 0), (2, 5), (3, 2), (3, 9), (4, 3), (257, 0), (1, 256), (3, 2**31 + 3), (3, 2**32 - 5), (2**32 - 1,) * 2)
ODD_KINDS = (0, 6, 17, 18, 256 + 1, 2**31 + 2, 2**32 - 1)

# The lists of values that the reader stores and the writer is given, in the order of the header.
VALUE_TYPES = {"angles": "u32", "rounds": "u8", "fixed": "u32", "log_sines": "u32", "differences": "i32", "log_sides": "u32"}


def answered(compute):
    """Answer and result of a computation: 0 and what it gives, or number * 256 + place and nothing."""
    try:
        return 0, compute()
    except Refused as refusal:
        return 256 * refusal.number + refusal.place, None


# --- the lines of a call ------------------------------------------------------------------------------------------------


def listed(mode, value_type, values):
    if value_type == "u8":
        return f"{mode} u8 {len(values)} {bytes(values).hex()}".rstrip()
    return " ".join(map(str, (mode, value_type, len(values), *values)))


def stored(value_type, count, values):
    """A slice that is written to, unless the call is refused."""
    return f"room {value_type} {count}" if values is None else listed("out", value_type, values)


def lines(function, numbers, answer, slices, name):
    return "\n".join([" ".join(map(str, (function, len(numbers), *numbers, answer, len(slices), name))), *slices])


# --- calls that take a sheet's bytes ------------------------------------------------------------------------------------


def named_head(sheet):
    """Kind and figure that the first two bytes name. Document 01: 12 if under two bytes, then 11, 1."""
    if len(sheet) < 2:
        raise Refused(12)
    if sheet[0] >> 4 not in KINDS:
        raise Refused(11)
    figure = figure_of(sheet[0] & 15, sheet[1] >> 4)
    if figure is None:
        raise Refused(1)
    return sheet[0] >> 4, figure


def look_call(name, sheet):
    answer, found = answered(lambda: named_head(sheet))
    head = None
    if found:
        kind, figure = found
        angles, rounds, fixed, log_sines, _, log_sides = counts(kind, figure)
        head = (kind, figure.code, figure.n, angles, fixed, log_sines, len(figure.conditions), log_sides, rounds)
    return lines("look", (), answer, [listed("sheet", "u8", sheet), stored("u32", 9, head)], name)


def read_call(name, sheet):
    _, found = answered(lambda: named_head(sheet))
    lent = counts(*found) if found else (8, 8, 0, 0, 0, 0)
    answer, values = answered(lambda: read_sheet(sheet))
    columns = (None,) * 7
    if values:
        columns = ((*own(values), values.limit), *value_lists(values))
    slices = [stored(*row) for row in zip(("u32", *VALUE_TYPES.values()), (4, *lent), columns)]
    return lines("read", (), answer, [listed("sheet", "u8", sheet), *slices], name)


def report_call(name, sheet):
    text = work(sheet).encode("ascii")
    slices = [listed("sheet", "u8", sheet), listed("text", "u8", text), listed("out", "u64", (len(text),))]
    return lines("report", (), 0, slices, name)


# --- calls that take values ---------------------------------------------------------------------------------------------


def value_lists(values):
    return [getattr(values, column) for column in VALUE_TYPES]


def given(values):
    """The lists of values, as the writer takes them."""
    return [listed("in", value_type, column) for value_type, column in zip(VALUE_TYPES.values(), value_lists(values))]


def own(values):
    return values.kind, values.figure.code, values.figure.n


def write_call(name, values, head=None):
    """Under its own kind, code and n, or under others that name nothing."""
    numbers = (*(head or own(values)), values.limit)
    named = values._replace(kind=numbers[0], figure=figure_of(*numbers[1:3]))
    answer, sheet = answered(lambda: write_sheet(named))
    size = sheet_size(values.kind, values.figure)
    return lines("write", numbers, answer, [*given(values), stored("u8", size, sheet)], name)


def passed(values, figure, one_pass):
    """A pass over values that may lie outside their ranges: 1, then 3, 4, 16, 5, 14, 8 as the writer has them, but with any rounds
    up to 255, then the pass's own."""
    if figure is None:
        raise Refused(1)
    check_values(values, LARGEST_ROUNDS)
    return one_pass(values)


def first_call(name, values, numbers):
    answer, done = answered(lambda: passed(values, figure_of(*numbers[:2]), first_pass))
    angles, conditions = values.figure.angle_count, len(values.figure.conditions)
    lent = (conditions, angles, angles, angles, angles, conditions)
    columns = zip(("i32", "i32", "i32", "u32", "u8", "i32"), lent, done or (None,) * len(lent))
    return lines("first", numbers, answer, [*given(values)[:3], *(stored(*row) for row in columns)], name)


def closing_call(name, values, numbers):
    answer, ours = answered(lambda: passed(values, figure_of(*numbers[:2]), closing_corrections))
    return lines("closing", numbers, answer, [*given(values)[:3], stored("i32", values.figure.angle_count, ours)], name)


def check_call(name, values, numbers, offered):
    answer, _ = answered(lambda: passed(values, figure_of(*numbers[:2]), lambda taken: check_closing(taken, offered)))
    return lines("check", numbers, answer, [*given(values)[:3], listed("in", "i32", offered)], name)


def first_calls(name, values, numbers):
    """The first pass, and with it the rounding that closes: our own, and of what is offered that and the ordinary one."""
    yield first_call(name, values, numbers)
    yield closing_call(name, values, numbers)
    _, done = answered(lambda: passed(values, values.figure, lambda taken: (closing_corrections(taken), first_pass(taken).rounded)))
    for offered in done or [[0] * values.figure.angle_count]:
        yield check_call(name, values, numbers, offered)


def words(value):
    """The high and the low word of a number, which is high * 2^64 + low."""
    return divmod(value, 2**64)


def second_results(done):
    """What the call stores, in the order of the header."""
    high, low = zip(*map(words, done.numerators))
    side_reduced = done.reduced[1] if len(done.reduced) == 2 else ()
    sums = done.sine_misclosures, words(done.divisor)
    return *sums, done.reduced[0], side_reduced, high, low, done.rounded, done.results, done.rounds, done.rests


def second_call(name, values, numbers):
    answer, done = answered(lambda: passed(values, figure_of(*numbers[:2]), second_pass))
    figure = values.figure
    angles, sines = figure.angle_count, len(figure.sines)
    lent = (sines, 2, angles, angles if sines == 2 else 0, angles, angles, angles, angles, angles, len(figure.conditions))
    types = ("i64", "u64", "i64", "i64", "i64", "u64", "i32", "u32", "u8", "i32")
    columns = zip(types, lent, second_results(done) if done else (None,) * len(lent))
    angles_in, rounds_in, _, *entries_in = given(values)
    return lines("second", numbers, answer, [angles_in, rounds_in, *entries_in, *(stored(*row) for row in columns)], name)


def as_handed(values):
    """A sheet's values as its caller hands them to the pass: where the sheet has 0 and the pass would take that for another default
    than the sheet's, the caller says the sheet's (M-102)."""
    kind = KINDS[values.kind]
    if values.limit == 0 and kind.default != DEFAULTS[kind.pass_number]:
        return values._replace(limit=kind.default)
    return values


def pass_calls(name, values, head=None):
    numbers = (*(head or own(values))[1:], values.limit)
    return first_calls(name, values, numbers) if is_first(values.kind) else [second_call(name, values, numbers)]


# --- which calls --------------------------------------------------------------------------------------------------------


def sample_sheets():
    for path in sorted((ROOT / "sheets").glob("*.sheet")):
        yield path.name, path.read_bytes()


def plain_sheets():
    """All zero and all ones, of every length; and under every good head, at its size."""
    for length in range(MOST_LENGTH + 1):
        yield f"{length} bytes of 0", bytes(length)
        yield f"{length} bytes of ones", b"\xff" * length
    for kind, figure in each_kind_and_figure():
        head = bytes([kind << 4 | figure.code, figure.n << 4])
        for filling in (b"\0", b"\xff"):
            yield f"{label(kind, figure)} of {filling.hex()}", head + filling * (sheet_size(kind, figure) - 2)


def spoilt_columns(values):
    """The values with one odd value at a place: every odd value at the first place, and one at each other."""
    columns = (
        ("angles", ODD_ANGLES),
        ("rounds", ODD_ROUNDS),
        ("fixed", ODD_ANGLES),
        ("log_sines", ODD_LOG_SINES),
        ("differences", ODD_DIFFERENCES),
        ("log_sides", ODD_LOG_SIDES),
    )
    for column, odd in columns:
        given_values = getattr(values, column)
        for place in range(1, len(given_values) + 1):
            for value in odd if place == 1 else odd[place % len(odd) :][:1]:
                yield f"{column} {place} of {value}", values._replace(**{column: with_value(given_values, place, value)})


def all_alike(values):
    """Every value 0, and every bit 1."""
    for name, unsigned, signed in (("all 0", 0, 0), ("all ones", 2**32 - 1, -1)):
        of_type = {"u32": unsigned, "i32": signed, "u8": unsigned % 2**8}
        filled = {column: (of_type[value_type],) * len(getattr(values, column)) for column, value_type in VALUE_TYPES.items()}
        yield name, values._replace(**filled)


def odd_values(rng):
    """Values that no packed sheet can hold beside those that one can, one odd value at a time and two."""
    for kind, figure in each_kind_and_figure():
        values = ordinary_sheet(kind, figure, rng)
        yield "as it should be", values
        for limit in ODD_LIMITS if is_first(kind) else ODD_TOLERANCES:
            yield f"limit or tolerance {limit}", values._replace(limit=limit)
        spoilt = [*spoilt_columns(values), *all_alike(values)]
        yield from spoilt
        for name, one in rng.sample(spoilt, 4):
            yield f"{name} and limit or tolerance 700", one._replace(limit=700)
            yield from ((f"{name} and {then}", both) for then, both in rng.sample([*spoilt_columns(one)], 4))


def fixed_sums(rng):
    """Fixed angles that do not sum, alone and beside an earlier fault: the reader turns back a sheet of them, so only here are
    writer and pass given such values."""
    for name, values in [*fixed_angles_that_do_not_sum(rng), *fixed_angles_moved(rng)]:
        yield name, values
        yield f"{name} and limit 700", values._replace(limit=700)
        yield from ((f"{name} and {then}", both) for then, both in rng.sample([*spoilt_columns(values)], 2))


def odd_names(rng):
    """Kinds that are none, and codes and n that name no figure, some of which do where bits are lost."""
    for kind, figure in each_kind_and_figure():
        values = ordinary_sheet(kind, figure, rng)
        for code, n in ODD_NAMES:
            name = f"code {code} n {n} with the values of {label(kind, figure)}"
            yield write_call(name, values, (kind, code, n))
            yield from pass_calls(name, values, (kind, code, n))
        for odd in ODD_KINDS:
            yield write_call(f"kind {odd} with the values of {label(kind, figure)}", values, (odd, figure.code, figure.n))
            yield write_call(f"kind {odd} and no figure", values, (odd, 9, 9))


def offered_choices(rng):
    """Of every sort of offer a few for each sheet."""
    for values in choice_sheets(8):
        numbers = (*own(values)[1:], values.limit)
        exact = least_squares_corrections(values.figure, first_pass(values).misclosures)
        for sort, made in offers(values.figure, exact).items():
            for offered in rng.sample(made, min(len(made), OFFERS)):
                yield check_call(f"{sort}, {label(values.kind, values.figure)}", values, numbers, offered)


def all_calls():
    for name, sheet in [*sample_sheets(), *made_sheets(), *plain_sheets()]:
        yield look_call(name, sheet)
        yield read_call(name, sheet)
        yield report_call(name, sheet)
        _, values = answered(lambda sheet=sheet: read_sheet(sheet))
        if values:
            yield write_call(name, values)
            yield from pass_calls(name, as_handed(values))
    rng = random.Random(f"{SEED} odd values")
    for name, values in [*odd_values(rng), *fixed_sums(rng)]:
        name = f"{name}, {label(values.kind, values.figure)}"
        yield write_call(name, values)
        yield from pass_calls(name, values)
    yield from odd_names(rng)
    yield from offered_choices(rng)


MUST_REACH = {
    "look": {0, 12, 11, 1},
    "read": {0, 12, 11, 1, 13, 3, 4, 16, 5, 14, 8},
    "write": {0, 11, 1, 3, 4, 16, 5, 14, 8},
    "first": {0, 1, 3, 4, 16, 5, 14, 6, 7},
    "closing": {0, 1, 3, 4, 16, 5, 14, 6, 7},
    "check": {0, 1, 3, 4, 16, 5, 14, 6, 7, 15},
    "second": {0, 1, 3, 4, 16, 8, 10, 9, 7},
    "report": {0},
}


def reached(calls):
    """Which numbers each function answers; 2 is the business of the C program, which lends wrong lengths."""
    numbers = {function: set() for function in MUST_REACH}
    for call in calls:
        first_line = call.split("\n", 1)[0].split()
        numbers[first_line[0]].add(int(first_line[2 + int(first_line[1])]) // 256)
    return numbers


def main():
    calls = [*all_calls()]
    if reached(calls) != MUST_REACH:
        sys.exit(f"the calls reach {reached(calls)}")
    for path, written in zip(sys.argv[1:], (calls, calls[::EVERY])):
        Path(path).write_text("\n".join(written) + "\n", encoding="utf-8")


if __name__ == "__main__":
    main()
