"""Packed sheets, read and written from document 01, "Packed sheets" and "Numbers given when a sheet is turned back", and from
document 02: the log sides of M-100, number 14 of M-101, kind 3 of M-102, and the rounds, kinds 4 and 5 and number 16 of M-106."""

from typing import NamedTuple

from figures import HALF_CIRCLE, Figure, figure_of, fixed_sum

KIND_BITS, CODE_BITS, N_BITS = 4, 4, 4
LIMIT_BITS, TOLERANCE_BITS = 10, 6
ANGLE_BITS, LOG_SINE_BITS, DIFFERENCE_BITS = 23, 27, 15
LOG_SIDE_BITS = 27
ROUNDS_BITS = 8

LARGEST_ANGLE = HALF_CIRCLE - 1
LARGEST_LOG_SINE = 100_000_000
LARGEST_LOG_SIDE = 100_000_000
LARGEST_DIFFERENCE = 9_999
LARGEST_LIMIT = 600
LARGEST_TOLERANCE = 50
LARGEST_ROUNDS = 255

FIRST, SECOND = 1, 2  # the passes


class Kind(NamedTuple):
    """A kind of sheet: document 01, "Packed sheets" and "Units and ranges"; document 02, M-102 and M-106."""

    pass_number: int
    default: int  # what 0 stands for where the sheet has L or e
    has_rounds: bool  # whether the rounds stand after each observed angle


KINDS = {
    1: Kind(FIRST, 150, False),
    2: Kind(SECOND, 10, False),
    3: Kind(FIRST, 90, False),
    4: Kind(FIRST, 90, True),
    5: Kind(SECOND, 10, True),
}


def is_first(kind):
    """Whether sheets of this kind are for the first pass."""
    return KINDS[kind].pass_number == FIRST


def most_rounds(kind):
    """How many rounds an angle of such a sheet may have: one where there is no place for them."""
    return LARGEST_ROUNDS if KINDS[kind].has_rounds else 1


class Refused(Exception):
    """Number and place of document 01's table, which document 02 carries on."""

    def __init__(self, number, place=0):
        super().__init__(number, place)
        self.number = number
        self.place = place


class Sheet(NamedTuple):
    kind: int
    figure: Figure
    limit: int  # L of the first pass, e of the second
    angles: tuple
    rounds: tuple  # of each angle
    fixed: tuple = ()
    log_sines: tuple = ()
    differences: tuple = ()
    log_sides: tuple = ()


def counts(kind, figure):
    """How many angles, rounds, fixed angles, log-sines, differences and log sides a sheet of this kind has: every angle has its
    rounds, whether or not they stand on the sheet."""
    angles = figure.angle_count
    if is_first(kind):
        return angles, angles, figure.fixed_count, 0, 0, 0
    return angles, angles, 0, angles, angles, figure.side_count


def used_bits(kind, figure):
    head = KIND_BITS + CODE_BITS + N_BITS
    angle = ANGLE_BITS + ROUNDS_BITS if KINDS[kind].has_rounds else ANGLE_BITS
    if is_first(kind):
        return head + LIMIT_BITS + angle * figure.angle_count + ANGLE_BITS * figure.fixed_count
    row = angle + LOG_SINE_BITS + DIFFERENCE_BITS
    return head + TOLERANCE_BITS + LOG_SIDE_BITS * figure.side_count + row * figure.angle_count


def sheet_size(kind, figure):
    """In bytes: zero bits fill the last one."""
    return (used_bits(kind, figure) + 7) // 8


class Bits:
    """The bits of a sheet, taken one by one, most significant first."""

    def __init__(self, sheet):
        self.number = int.from_bytes(sheet, "big")
        self.left = 8 * len(sheet)

    def take(self, width):
        value = 0
        for _ in range(width):
            self.left -= 1
            value = 2 * value + (self.number >> self.left & 1)
        return value

    def take_signed(self, width):
        """Two's complement."""
        value = self.take(width)
        return value - (1 << width) if value >= 1 << (width - 1) else value


def take_angle(bits, kind):
    """An observed angle and its rounds, one where the sheet has no place for them."""
    return bits.take(ANGLE_BITS), bits.take(ROUNDS_BITS) if KINDS[kind].has_rounds else 1


def read_values(bits, kind, figure):
    if is_first(kind):
        limit = bits.take(LIMIT_BITS)
        angles, rounds = zip(*(take_angle(bits, kind) for _ in range(figure.angle_count)))
        fixed = [bits.take(ANGLE_BITS) for _ in range(figure.fixed_count)]
        return Sheet(kind, figure, limit, angles, rounds, fixed=tuple(fixed))
    tolerance = bits.take(TOLERANCE_BITS)
    log_sides = tuple(bits.take(LOG_SIDE_BITS) for _ in range(figure.side_count))
    rows = [
        (*take_angle(bits, kind), bits.take(LOG_SINE_BITS), bits.take_signed(DIFFERENCE_BITS)) for _ in range(figure.angle_count)
    ]
    angles, rounds, log_sines, differences = zip(*rows)
    return Sheet(kind, figure, tolerance, angles, rounds, log_sines=log_sines, differences=differences, log_sides=log_sides)


def refuse_first(number, tests):
    """At the lowest place of which the test fails."""
    for place, passes in enumerate(tests, start=1):
        if not passes:
            raise Refused(number, place)


def check_values(sheet, largest_rounds):
    """Numbers 3, 4, 16, 5, 14, 8, in this order for the reader and the writer alike (document 01, "Units and ranges"; document 02,
    M-101 and M-106). The log sides have the places after the angles'."""
    largest_limit = LARGEST_LIMIT if is_first(sheet.kind) else LARGEST_TOLERANCE
    if not 0 <= sheet.limit <= largest_limit:
        raise Refused(3)
    refuse_first(4, [1 <= angle <= LARGEST_ANGLE for angle in sheet.angles])
    refuse_first(16, [1 <= rounds <= largest_rounds for rounds in sheet.rounds])
    refuse_first(5, [1 <= angle <= LARGEST_ANGLE for angle in sheet.fixed])
    if sheet.fixed and sum(sheet.fixed) != fixed_sum(sheet.figure):
        raise Refused(14)
    refuse_first(
        8,
        [
            1 <= log_sine <= LARGEST_LOG_SINE and -LARGEST_DIFFERENCE <= difference <= LARGEST_DIFFERENCE
            for log_sine, difference in zip(sheet.log_sines, sheet.differences)
        ]
        + [1 <= log_side <= LARGEST_LOG_SIDE for log_side in sheet.log_sides],
    )


def read_sheet(sheet):
    """The reader's order: 12 if under two bytes, then 11, 1, 12, 13, 3, 4, 16, 5, 14, 8.

    Number 2 is about slices that a caller lends for the values; here nothing is lent.
    """
    if len(sheet) < 2:
        raise Refused(12)
    bits = Bits(sheet)
    kind, code, n = bits.take(KIND_BITS), bits.take(CODE_BITS), bits.take(N_BITS)
    if kind not in KINDS:
        raise Refused(11)
    figure = figure_of(code, n)
    if figure is None:
        raise Refused(1)
    if len(sheet) != sheet_size(kind, figure):
        raise Refused(12)
    values = read_values(bits, kind, figure)
    if bits.take(bits.left) != 0:
        raise Refused(13)
    check_values(values, most_rounds(kind))
    return values


def packed(fields):
    """Fields (value, width) run on without gaps, most significant bit first; zero bits fill the last byte."""
    number = total = 0
    for value, width in fields:
        assert -(1 << (width - 1)) <= value < 1 << width, (value, width)
        number = (number << width) | (value & ((1 << width) - 1))
        total += width
    filling = -total % 8
    return (number << filling).to_bytes((total + filling) // 8, "big")


def angle_fields(kind, angle, rounds):
    fields = [(angle, ANGLE_BITS), (rounds, ROUNDS_BITS)]
    return fields if KINDS[kind].has_rounds else fields[:1]


def packed_values(sheet):
    """The bytes of any values that fit their fields, in range or not; rounds have none in an older kind."""
    fields = [(sheet.kind, KIND_BITS), (sheet.figure.code, CODE_BITS), (sheet.figure.n, N_BITS)]
    if is_first(sheet.kind):
        fields.append((sheet.limit, LIMIT_BITS))
        for angle, rounds in zip(sheet.angles, sheet.rounds):
            fields += angle_fields(sheet.kind, angle, rounds)
        fields += [(angle, ANGLE_BITS) for angle in sheet.fixed]
    else:
        fields.append((sheet.limit, TOLERANCE_BITS))
        fields += [(log_side, LOG_SIDE_BITS) for log_side in sheet.log_sides]
        for angle, rounds, log_sine, difference in zip(sheet.angles, sheet.rounds, sheet.log_sines, sheet.differences):
            fields += angle_fields(sheet.kind, angle, rounds)
            fields += [(log_sine, LOG_SINE_BITS), (difference, DIFFERENCE_BITS)]
    return packed(fields)


def write_sheet(sheet):
    """The writer's order: 11, 1, 2, 3, 4, 16, 5, 14, 8. An older kind has no place for other rounds than one."""
    if sheet.kind not in KINDS:
        raise Refused(11)
    if sheet.figure is None:
        raise Refused(1)
    lent = (sheet.angles, sheet.rounds, sheet.fixed, sheet.log_sines, sheet.differences, sheet.log_sides)
    if tuple(map(len, lent)) != counts(sheet.kind, sheet.figure):
        raise Refused(2)
    check_values(sheet, most_rounds(sheet.kind))
    return packed_values(sheet)
