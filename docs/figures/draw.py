#!/usr/bin/env python3
"""The drawings and the tables of docs/FIGURES.md.

Both come from the same source: the numbering and rules of document 01, "The eight figures", and of document 02, M-100, and
for the drawings the coordinates of the points. Before anything is written, every condition of every drawn figure is measured
on the drawing, every row is tested against the conditions, and the worked cases of document 01 and the example of book 004
are computed again.

    draw.py             writes the drawings, and the tables between the marks in FIGURES.md
    draw.py --tables    prints the tables
    draw.py --check     writes nothing; fails if a drawing or a table is not what the script would write
"""

import re
import sys
from dataclasses import dataclass
from math import atan2, degrees, dist, hypot, isclose, log, radians, sin
from pathlib import Path

FOLDER = Path(__file__).resolve().parent
PAGE = FOLDER.parent / "FIGURES.md"


def require(holds, what):
    if not holds:
        raise SystemExit(f"draw.py: {what}")


# The figures, as the documents number them.


@dataclass(frozen=True)
class Condition:
    misclosure: str
    angles: tuple
    target: str


@dataclass(frozen=True)
class Figure:
    code: int
    n: int
    name: str
    fixed_angles: int
    denominator: int
    conditions: tuple
    rows: tuple
    signs: tuple
    side_signs: tuple = ()  # of the angles in the side condition, for the figure that has one
    sides: tuple = ()  # the known sides that it joins, each with its sign

    @property
    def sine_conditions(self):
        return 2 if self.sides else 1


def around(index, count):
    """Cyclic index: after `count` comes 1."""
    return (index - 1) % count + 1


def triangle_angles(i):
    """The angles of triangle i in codes 2 and 3: c at the inner point, l at corner i, r at corner i+1."""
    return 3 * i - 2, 3 * i - 1, 3 * i


def triangle_conditions(n, letter):
    return tuple(Condition(f"{letter}({i})", triangle_angles(i), "180°") for i in range(1, n + 1))


def geodetic_quadrilateral():
    firsts = (1, 3, 5)
    pairs = ((-3, 2, -1), (-1, -2, 1), (1, -2, -1), (-1, 2, -3))
    return Figure(
        code=1,
        n=0,
        name="geodetic quadrilateral",
        fixed_angles=0,
        denominator=8,
        conditions=tuple(
            Condition(f"w({k})", tuple(range(first, first + 4)), "180°") for k, first in enumerate(firsts, 1)
        ),
        rows=tuple(row for row in pairs for _ in range(2)),
        signs=(1, -1) * 4,
    )


def point_in_triangle():
    return inner_point("point in a known triangle", 3, 10, known_triangle_rows)


def point_in_quadrilateral():
    """Document 02, M-100."""
    c1, _, r1 = triangle_angles(1)
    c4, l4, _ = triangle_angles(4)
    signs = {r1: 1, c1: -1, l4: -1, c4: 1}
    return inner_point(
        "point in a known quadrilateral",
        4,
        24,
        known_quadrilateral_rows,
        side_signs=tuple(signs.get(angle, 0) for angle in range(1, 13)),
        sides=((1, 1), (4, -1)),
    )


def inner_point(name, n, denominator, rows_of, **side_condition):
    corners = range(1, n + 1)
    return Figure(
        code=2,
        n=n,
        name=name,
        fixed_angles=n,
        denominator=denominator,
        conditions=triangle_conditions(n, "t") + tuple(corner_condition(j, n) for j in corners),
        rows=tuple(row for i in corners for row in rows_of(i)),
        signs=(0, 1, -1) * n,
        **side_condition,
    )


def corner_condition(j, n):
    last_before = triangle_angles(around(j - 1, n))[2]
    second = triangle_angles(j)[1]
    return Condition(f"f({j})", (last_before, second), f"fixed angle {j}")


def known_triangle_rows(i):
    before, after = around(i - 1, 3), around(i + 1, 3)
    c = inner_point_row(3, {i: -6, before: -2, after: -2}, {i: 4, after: 4, before: 2})
    l = inner_point_row(3, {i: -2, before: 2}, {i: -5, after: 1, before: -1})
    r = inner_point_row(3, {i: -2, after: 2}, {after: -5, i: 1, before: -1})
    return c, l, r


def known_quadrilateral_rows(i):
    before, after, across = around(i - 1, 4), around(i + 1, 4), around(i + 2, 4)
    c = inner_point_row(4, {i: -14, before: -4, after: -4, across: -2}, {i: 9, after: 9, before: 3, across: 3})
    l = inner_point_row(4, {i: -5, before: 5, after: -1, across: 1}, {i: -12, after: 3, before: -3})
    r = inner_point_row(4, {i: -5, after: 5, before: -1, across: 1}, {after: -12, i: 3, across: -3})
    return c, l, r


def inner_point_row(n, on_t, on_f):
    return tuple(on.get(j, 0) for on in (on_t, on_f) for j in range(1, n + 1))


def central_polygon(n):
    triangles = range(1, n + 1)
    horizon = Condition("h", tuple(triangle_angles(i)[0] for i in triangles), "360°")
    return Figure(
        code=3,
        n=n,
        name="central polygon",
        fixed_angles=0,
        denominator=6 * n,
        conditions=triangle_conditions(n, "w") + (horizon,),
        rows=tuple(row for i in triangles for row in polygon_rows(i, n)),
        signs=(0, 1, -1) * n,
    )


def polygon_rows(i, n):
    on_own = tuple(-2 * n if j == i else 0 for j in range(1, n + 1))
    c = tuple(own + 2 for own in on_own) + (-6,)
    outer = tuple(own - 1 for own in on_own) + (3,)
    return c, outer, outer


QUADRILATERAL = geodetic_quadrilateral()
KNOWN_TRIANGLE = point_in_triangle()
KNOWN_QUADRILATERAL = point_in_quadrilateral()
POLYGONS = {n: central_polygon(n) for n in range(3, 9)}
FIGURES = (QUADRILATERAL, KNOWN_TRIANGLE, KNOWN_QUADRILATERAL, *POLYGONS.values())


def check_rows(figure):
    """The corrections cancel the misclosures (C·R = −D·I) with the least squares (R·C is symmetric)."""
    name = f"code {figure.code}, n = {figure.n}"
    for k, condition in enumerate(figure.conditions):
        for m in range(len(figure.conditions)):
            joined = sum(figure.rows[angle - 1][m] for angle in condition.angles)
            require(joined == (-figure.denominator if k == m else 0), f"{name}: the rows do not cancel condition {k + 1}")
    angles = range(1, len(figure.rows) + 1)
    for a in angles:
        for b in angles:
            require(influence(figure, a, b) == influence(figure, b, a), f"{name}: rows {a} and {b} are not least squares")


def influence(figure, a, b):
    """What one tenth more in angle b adds to the numerator of angle a."""
    return sum(
        coefficient
        for coefficient, condition in zip(figure.rows[a - 1], figure.conditions)
        if b in condition.angles
    )


# The drawings: points in picture coordinates, x to the right and y downwards, corners clockwise.


@dataclass(frozen=True)
class Angle:
    at: tuple
    first: tuple
    second: tuple


@dataclass(frozen=True)
class Drawing:
    file: str
    title: str
    figure: Figure
    corners: tuple
    lines: tuple
    angles: tuple
    inner: tuple = None


def quadrilateral_drawing():
    corners = ((60, 90), (430, 50), (500, 380), (110, 330))
    return Drawing(
        file="quadrilateral.svg",
        title="Code 1: the geodetic quadrilateral, angles 1 to 8",
        figure=QUADRILATERAL,
        corners=corners,
        lines=tuple((a, b) for k, a in enumerate(corners) for b in corners[k + 1 :]),
        angles=tuple(angle for side in range(4) for angle in side_angles(corners, side)),
    )


def side_angles(corners, side):
    """The two angles on a side, each between the side and the diagonal from that end."""
    start, end, beyond, before = (corners[(side + step) % 4] for step in range(4))
    return Angle(start, end, beyond), Angle(end, start, before)


def triangle_drawing():
    corners = ((260, 50), (520, 430), (40, 400))
    return ring_drawing(
        "point-in-triangle.svg",
        "Code 2, n = 3: a point in a known triangle, angles 1 to 9",
        KNOWN_TRIANGLE,
        corners,
        (270, 285),
    )


def four_corners_drawing():
    corners = ((95, 95), (475, 60), (520, 410), (70, 440))
    return ring_drawing(
        "point-in-quadrilateral.svg",
        "Code 2, n = 4: a point in a known quadrilateral, angles 1 to 12",
        KNOWN_QUADRILATERAL,
        corners,
        (270, 240),
    )


def polygon_drawing():
    corners = ((270, 45), (515, 205), (440, 480), (140, 495), (45, 230))
    return ring_drawing(
        "central-polygon.svg",
        "Code 3: the central polygon with n = 5, angles 1 to 15",
        POLYGONS[5],
        corners,
        (275, 285),
    )


def ring_drawing(file, title, figure, corners, inner):
    around_it = sides(corners)
    spokes = tuple((inner, corner) for corner in corners)
    angles = tuple(angle for left, right in around_it for angle in ring_angles(inner, left, right))
    return Drawing(file, title, figure, corners, around_it + spokes, angles, inner)


def sides(corners):
    return tuple(zip(corners, corners[1:] + corners[:1]))


def ring_angles(inner, left, right):
    return Angle(inner, left, right), Angle(left, inner, right), Angle(right, inner, left)


DRAWINGS = (quadrilateral_drawing(), triangle_drawing(), four_corners_drawing(), polygon_drawing())


def turn(angle):
    """From the first ray to the second, in radians, positive clockwise on the picture."""
    (x, y), (fx, fy), (sx, sy) = angle.at, angle.first, angle.second
    ux, uy, vx, vy = fx - x, fy - y, sx - x, sy - y
    return atan2(ux * vy - uy * vx, ux * vx + uy * vy)


def size(angle):
    return degrees(abs(turn(angle)))


def check_drawing(drawing):
    figure, sizes = drawing.figure, tuple(map(size, drawing.angles))
    require(len(sizes) == len(figure.rows), f"{drawing.file}: the angles are not the figure's")
    require(twice_area(drawing.corners) > 0, f"{drawing.file}: the corners do not run clockwise")
    due = {"180°": 180, "360°": 360} | fixed_angles(drawing)
    for condition in figure.conditions:
        measured = sum(sizes[angle - 1] for angle in condition.angles)
        require(isclose(measured, due[condition.target]), f"{drawing.file}: {condition.misclosure} does not close")
    require(isclose(log_sine_sum(figure.signs, sizes), 0, abs_tol=1e-9), f"{drawing.file}: the sine condition does not close")
    known = sum(sign * log(dist(*sides(drawing.corners)[number - 1])) for number, sign in figure.sides)
    side = log_sine_sum(figure.side_signs, sizes) + known
    require(isclose(side, 0, abs_tol=1e-9), f"{drawing.file}: the side condition does not close")


def log_sine_sum(signs, sizes):
    return sum(sign * log(sin(radians(s))) for sign, s in zip(signs, sizes))


def twice_area(corners):
    """Positive where the corners run clockwise on the picture."""
    return sum(ax * by - ay * bx for (ax, ay), (bx, by) in sides(corners))


def fixed_angles(drawing):
    corners, count = drawing.corners, drawing.figure.fixed_angles
    return {
        f"fixed angle {j}": size(Angle(corners[j - 1], corners[j - 2], corners[j % count])) for j in range(1, count + 1)
    }


# Numbers on a drawing, and the room that each needs.


@dataclass(frozen=True)
class Mark:
    text: str
    place: tuple
    room: float
    style: str


ANGLE_ROOM = 13
ANGLE_DISTANCE = 40
CORNER_ROOM = 12
CORNER_DISTANCE = 20
TRIANGLE_ROOM = 14
SIDE_ROOM = 22
SIDE_DISTANCE = 24
MARGIN = 45  # to the right and below; to the left and above it is in the coordinates


def toward(start, end, length):
    share = length / dist(start, end)
    return start[0] + share * (end[0] - start[0]), start[1] + share * (end[1] - start[1])


def middle(points):
    return tuple(sum(values) / len(points) for values in zip(*points))


def label_distance(angle):
    """Far enough from the corner for the number to stand free between the rays."""
    return max(ANGLE_DISTANCE, ANGLE_ROOM / sin(abs(turn(angle)) / 2))


def angle_mark(number, angle):
    halfway = middle((toward(angle.at, angle.first, 1), toward(angle.at, angle.second, 1)))
    return Mark(str(number), toward(angle.at, halfway, label_distance(angle)), ANGLE_ROOM, "angle")


def corner_mark(number, corner, centre):
    return Mark(str(number), toward(corner, centre, -CORNER_DISTANCE), CORNER_ROOM, "corner")


def triangle_mark(number, angles):
    return Mark(str(number), middle(tuple(angle.at for angle in angles)), TRIANGLE_ROOM, "triangle")


def side_mark(number, side, centre):
    """Outside, at right angles to the side."""
    (ax, ay), (bx, by) = side
    half = middle(side)
    outward = half[0] + by - ay, half[1] + ax - bx
    if dist(outward, centre) < dist(half, centre):
        outward = half[0] - by + ay, half[1] - ax + bx
    return Mark(f"side {number}", toward(half, outward, SIDE_DISTANCE), SIDE_ROOM, "side")


def marks(drawing):
    centre = middle(drawing.corners)
    numbers = [angle_mark(k, angle) for k, angle in enumerate(drawing.angles, 1)]
    numbers += [corner_mark(k, corner, centre) for k, corner in enumerate(drawing.corners, 1)]
    if drawing.inner:
        for i in range(1, len(drawing.corners) + 1):
            numbers.append(triangle_mark(i, [drawing.angles[k - 1] for k in triangle_angles(i)]))
    numbers += [side_mark(number, sides(drawing.corners)[number - 1], centre) for number, _ in drawing.figure.sides]
    return numbers


def distance_to_line(point, line):
    (x, y), ((ax, ay), (bx, by)) = point, line
    dx, dy = bx - ax, by - ay
    along = ((x - ax) * dx + (y - ay) * dy) / (dx * dx + dy * dy)
    along = min(1, max(0, along))
    return hypot(x - ax - along * dx, y - ay - along * dy)


def check_legible(drawing):
    numbers = marks(drawing)
    for k, mark in enumerate(numbers):
        for line in drawing.lines:
            clear = distance_to_line(mark.place, line)
            fits = clear > mark.room or isclose(clear, mark.room)
            require(fits, f"{drawing.file}: the {mark.style} number {mark.text} stands on a line")
        for other in numbers[k + 1 :]:
            clear = dist(mark.place, other.place)
            require(clear > mark.room + other.room, f"{drawing.file}: {mark.text} and {other.text} stand on each other")


# The pictures.

STYLE = """\
  <style>
    line, path, polygon { fill: none; stroke: black; stroke-width: 1.5; }
    path { stroke-width: 1; }
    polygon { stroke-linejoin: round; }
    polygon.outer { stroke-width: 6; }
    polygon.between { stroke: white; stroke-width: 3; }
    text { font-family: Helvetica, Arial, "DejaVu Sans", sans-serif; text-anchor: middle; }
    text.angle { font-size: 15px; }
    text.corner { font-size: 20px; font-weight: bold; }
    text.triangle { font-size: 14px; }
    text.side { font-size: 14px; font-style: italic; }
    circle.triangle { fill: none; stroke: black; stroke-width: 1; }
  </style>"""


def coordinate(value):
    return f"{value:.1f}"


def point(place):
    return f"{coordinate(place[0])},{coordinate(place[1])}"


def line_svg(line):
    (ax, ay), (bx, by) = line
    return f'  <line x1="{coordinate(ax)}" y1="{coordinate(ay)}" x2="{coordinate(bx)}" y2="{coordinate(by)}"/>'


def arc_svg(angle):
    radius = label_distance(angle) - ANGLE_ROOM
    start, end = toward(angle.at, angle.first, radius), toward(angle.at, angle.second, radius)
    clockwise = int(turn(angle) > 0)
    return f'  <path d="M {point(start)} A {coordinate(radius)},{coordinate(radius)} 0 0 {clockwise} {point(end)}"/>'


def station_svg(place):
    return f'  <circle cx="{coordinate(place[0])}" cy="{coordinate(place[1])}" r="4"/>'


def mark_svg(mark):
    x, y = map(coordinate, mark.place)
    text = f'  <text class="{mark.style}" x="{x}" y="{y}" dy="0.36em">{mark.text}</text>'
    if mark.style == "triangle":
        return f'  <circle class="triangle" cx="{x}" cy="{y}" r="{mark.room - 2}"/>\n{text}'
    return text


def known_sides_svg(corners):
    """Known sides are drawn double, as the books do."""
    points = " ".join(map(point, corners))
    return [f'  <polygon class="{name}" points="{points}"/>' for name in ("outer", "between")]


def svg(drawing):
    width, height = (max(values) + MARGIN for values in zip(*drawing.corners))
    stations = drawing.corners + ((drawing.inner,) if drawing.inner else ())
    parts = [
        f'<svg xmlns="http://www.w3.org/2000/svg" width="{width}" height="{height}" viewBox="0 0 {width} {height}">',
        f"  <title>{drawing.title}</title>",
        STYLE,
        f'  <rect width="{width}" height="{height}" fill="white"/>',
        *map(line_svg, drawing.lines),
        *map(arc_svg, drawing.angles),
        *(known_sides_svg(drawing.corners) if drawing.figure.fixed_angles else ()),
        *map(station_svg, stations),
        *map(mark_svg, marks(drawing)),
        "</svg>",
    ]
    return "\n".join(parts) + "\n"


# The tables of FIGURES.md.


def signed(value):
    return "0" if value == 0 else f"{'+' if value > 0 else '−'}{abs(value)}"


def plain(value):
    return str(value) if value >= 0 else f"−{-value}"


def factor(value):
    return plain(value) if value >= 0 else f"({plain(value)})"


def total(values):
    """A sum as it is written by hand, zeros left out: −114 − 10 + 45."""
    first, *others = [value for value in values if value]
    return plain(first) + "".join(f" {'+' if value > 0 else '−'} {abs(value)}" for value in others)


def listed(values):
    return ", ".join(map(plain, values))


def markdown(head, lines):
    ruled = [head, ["---"] * len(head), *lines]
    return "\n".join("| " + " | ".join(map(str, line)) + " |" for line in ruled)


def counts(figure):
    return len(figure.rows), len(figure.conditions), figure.fixed_angles, figure.sine_conditions, figure.denominator


def figures_table():
    lines = [(figure.code, figure.n, figure.name, *counts(figure)) for figure in FIGURES]
    return markdown(("Code", "n", "Figure", "Angles", "Conditions", "Fixed angles", "Sine conditions", "D"), lines)


def polygon_counts_table():
    lines = [(n, len(figure.rows), len(figure.conditions), figure.denominator) for n, figure in POLYGONS.items()]
    return markdown(("n", "Angles", "Conditions", "D"), lines)


def conditions_table(figure):
    lines = [(k, listed(c.angles), c.target, c.misclosure) for k, c in enumerate(figure.conditions, 1)]
    return markdown(("Condition", "Angles", "Sum", "Misclosure"), lines)


def standing(drawing, number):
    """An angle and the point where the drawing has it."""
    at = drawing.angles[number - 1].at
    place = "the inner point" if at == drawing.inner else f"corner {drawing.corners.index(at) + 1}"
    return f"{number} at {place}"


def sides_table(drawing):
    lines = [
        (f"{k} to {around(k + 1, 4)}", standing(drawing, 2 * k - 1), standing(drawing, 2 * k)) for k in range(1, 5)
    ]
    return markdown(("Side from corner", "First angle", "Second angle"), lines)


def triangles_table(drawing):
    lines = [
        (i, *(standing(drawing, number) for number in triangle_angles(i))) for i in range(1, len(drawing.corners) + 1)
    ]
    return markdown(("Triangle", "c", "l", "r"), lines)


SIGN_NAMES = {"+": 1, "−": -1, "0": 0}


def numbers_with(signs, value):
    return listed(number for number, sign in enumerate(signs, 1) if sign == value)


def signs_table(figure):
    lines = [(name, numbers_with(figure.signs, value)) for name, value in SIGN_NAMES.items() if value in figure.signs]
    return markdown(("Sine sign", "Angles"), lines)


def two_signs_table(figure):
    """Of the pole and of the side condition; what is not named in the latter has sign 0."""
    lines = [
        (name, numbers_with(figure.signs, value), numbers_with(figure.side_signs, value), known_side(figure, value))
        for name, value in SIGN_NAMES.items()
    ]
    return markdown(("Sine sign", "Pole: angles", "Side condition: angles", "Side condition: log sides"), lines)


def known_side(figure, value):
    return ", ".join(f"side {number}" for number, sign in figure.sides if sign == value)


def misclosure_names(figure):
    return [condition.misclosure for condition in figure.conditions]


def quadrilateral_rows_table():
    rows = QUADRILATERAL.rows
    lines = [(f"{k}, {k + 1}", *map(signed, rows[k - 1])) for k in range(1, len(rows), 2)]
    return markdown(("Angles", *misclosure_names(QUADRILATERAL)), lines)


def ring_rows_table(figure, triangles):
    lines = [
        (angle, f"{kind} of {i}", *map(signed, figure.rows[angle - 1]))
        for i in triangles
        for angle, kind in zip(triangle_angles(i), "clr")
    ]
    return markdown(("Angle", "", *misclosure_names(figure)), lines)


# The worked cases of document 01, "Sheets worked through", and example 1 of book 004.


@dataclass(frozen=True)
class Worked:
    source: str
    figure: Figure
    misclosures: tuple
    published: dict


CASES = (
    Worked(
        "Document 01, case 1",
        QUADRILATERAL,
        (38, -5, -45),
        {
            "numerators": [-79, -79, -73, -73, 93, 93, 87, 87],
            "rounded": [-10, -10, -9, -9, 12, 12, 11, 11],
            "rests": [0, 1, 1],
        },
    ),
    Worked(
        "Document 01, case 3",
        KNOWN_TRIANGLE,
        (10, 0, 0, 0, 0, 0),
        {"numerators": [-60, -20, -20, -20, 20, 0, -20, 0, 20]},
    ),
    Worked(
        "Book 004, example 1",
        KNOWN_QUADRILATERAL,
        (48, -108, 41, -56, -146, 64, 0, 7),
        {"by hand": [-34, 65, -79, 60, 14, 34, -8, -34, 1, -17, -8, 81]},
    ),
    Worked(
        "Document 01, case 4",
        POLYGONS[3],
        (6, 0, 0, 0),
        {"numerators": [-24, -42, -42, 12, -6, -6, 12, -6, -6]},
    ),
)


def rounded(numerator, denominator):
    """Nearest tenth, halves to the even one: M-105."""
    tenths, left = divmod(numerator, denominator)
    return tenths + (2 * left > denominator or 2 * left == denominator and tenths % 2 == 1)


def computed(worked):
    figure = worked.figure
    numerators = [sum(c * m for c, m in zip(row, worked.misclosures)) for row in figure.rows]
    corrections = [rounded(numerator, figure.denominator) for numerator in numerators]
    rests = [
        misclosure + sum(corrections[angle - 1] for angle in condition.angles)
        for misclosure, condition in zip(worked.misclosures, figure.conditions)
    ]
    return {"numerators": numerators, "rounded": corrections, "rests": rests}


def check_worked(worked):
    found, denominator = computed(worked), worked.figure.denominator
    for name, values in worked.published.items():
        if name == "by hand":  # each less than a tenth from the exact one
            same = all(abs(n - denominator * tenths) < denominator for n, tenths in zip(found["numerators"], values))
        else:
            same = found[name] == values
        require(same, f"{worked.source}: the {name} are not those that are published")


def row_line(worked, angle):
    row = worked.figure.rows[angle - 1]
    taken = [(c, m) for c, m in zip(row, worked.misclosures) if c and m]
    terms = " + ".join(f"{factor(c)}·{factor(m)}" for c, m in taken)
    values = [c * m for c, m in taken]
    sums = f" = {total(values)}" if len(values) > 1 else ""
    return f"Angle {angle}: {terms}{sums} = {plain(sum(values))}."


def formula_lines(worked):
    """The first triangle of a polygon by the formulas of document 01, with n, w(1), T and h put in."""
    n, (*w, h) = worked.figure.n, worked.misclosures
    own, everyone = -2 * n * w[0], sum(w)
    c, outer = (own, 2 * everyone, -6 * h), (own, -everyone, 3 * h)
    require([sum(c), sum(outer)] == computed(worked)["numerators"][:2], "the formulas are not the rows")
    put_in = f"−2·{n}·{factor(w[0])}"
    return [
        f"T = {plain(everyone)}.",
        f"c of triangle 1, angle 1: {put_in} + 2·{factor(everyone)} − 6·{factor(h)} = {total(c)} = {plain(sum(c))}.",
        f"l and r of triangle 1, angles 2 and 3: {put_in} − {factor(everyone)} + 3·{factor(h)} = "
        f"{total(outer)} = {plain(sum(outer))}.",
    ]


def worked_text(worked, lines):
    found, figure = computed(worked), worked.figure
    first = found["numerators"][0]
    misclosures = ", ".join(f"{c.misclosure} = {plain(m)}" for c, m in zip(figure.conditions, worked.misclosures))
    table = markdown(
        ("Angle", *range(1, len(figure.rows) + 1)),
        [
            ("Numerator", *map(plain, found["numerators"])),
            ("Rounded", *map(plain, found["rounded"])),
        ],
    )
    of_first = [found["numerators"][angle - 1] for angle in figure.conditions[0].angles]
    return "\n\n".join(
        [
            f"{worked.source} (n = {figure.n}, D = {figure.denominator}): {misclosures}.",
            " ".join(lines),
            f"Exact correction of angle 1: {plain(first)}/{figure.denominator}, rounded {plain(found['rounded'][0])}.",
            table,
            f"Check of condition 1: {total(of_first)} = {plain(sum(of_first))} = "
            f"−{figure.denominator}·{factor(worked.misclosures[0])}. Rests after rounding: {listed(found['rests'])}.",
        ]
    )


# Its second pass: the differences of the same example, and the two W that its log-sines and log sides give.
DIFFERENCES = (-45, 246, 278, -69, 227, 381, 11, 139, 285, 109, 394, 2)
SINE_MISCLOSURES = (252, -224)


def reduced(figure, signs):
    """D·d plus each angle's row applied to each condition's sum of d."""
    d = [sign * difference for sign, difference in zip(signs, DIFFERENCES)]
    sums = [sum(d[angle - 1] for angle in condition.angles) for condition in figure.conditions]
    return [figure.denominator * own + product_sum(row, sums) for own, row in zip(d, figure.rows)]


def product_sum(one, other):
    return sum(a * b for a, b in zip(one, other))


def second_text(figure):
    """The second corrections of two sine conditions, as M-100 has them."""
    (wa, wb), a, b = SINE_MISCLOSURES, reduced(figure, figure.signs), reduced(figure, figure.side_signs)
    aa, ab, bb = product_sum(a, a), product_sum(a, b), product_sum(b, b)
    determinant, pole, side = aa * bb - ab * ab, bb * wa - ab * wb, aa * wb - ab * wa
    numerators = [-100 * figure.denominator * (x * pole + y * side) for x, y in zip(a, b)]
    corrections = [rounded(numerator, determinant) for numerator in numerators]
    table = markdown(
        ("Angle", *range(1, len(figure.rows) + 1)),
        [("A", *map(plain, a)), ("B", *map(plain, b)), ("Rounded", *map(plain, corrections))],
    )
    return "\n\n".join(
        [
            f"The same example, second pass: Wa = {plain(wa)}, Wb = {plain(wb)}.",
            f"[AA] = {plain(aa)}, [AB] = {plain(ab)}, [BB] = {plain(bb)}; determinant {plain(determinant)}.",
            table,
            f"Angle 1: [BB]·Wa − [AB]·Wb = {plain(pole)}, [AA]·Wb − [AB]·Wa = {plain(side)}; "
            f"−2400·({plain(a[0])}·{factor(pole)} + {factor(b[0])}·{factor(side)}) = {plain(numerators[0])}. "
            f"Over the determinant {numerators[0] / determinant:.3f}, rounded {plain(corrections[0])}.".replace("-", "−"),
            "Check: in every condition the A and the B add up to 0, and so do the numerators.",
        ]
    )


def tables():
    quadrilateral, triangle, four_corners, polygon = CASES
    quadrilateral_drawn, triangle_drawn, four_corners_drawn, polygon_drawn = DRAWINGS
    return {
        "figures": figures_table(),
        "code 1 angles": sides_table(quadrilateral_drawn),
        "code 1 conditions": conditions_table(QUADRILATERAL),
        "code 1 rows": quadrilateral_rows_table(),
        "code 1 signs": signs_table(QUADRILATERAL),
        "code 1 worked": worked_text(quadrilateral, [row_line(quadrilateral, 1)]),
        "code 2 n 3 angles": triangles_table(triangle_drawn),
        "code 2 n 3 conditions": conditions_table(KNOWN_TRIANGLE),
        "code 2 n 3 rows": ring_rows_table(KNOWN_TRIANGLE, (1, 2, 3)),
        "code 2 n 3 signs": signs_table(KNOWN_TRIANGLE),
        "code 2 n 3 worked": worked_text(triangle, [row_line(triangle, 1), row_line(triangle, 5)]),
        "code 2 n 4 angles": triangles_table(four_corners_drawn),
        "code 2 n 4 conditions": conditions_table(KNOWN_QUADRILATERAL),
        "code 2 n 4 rows": ring_rows_table(KNOWN_QUADRILATERAL, (1, 2, 3, 4)),
        "code 2 n 4 signs": two_signs_table(KNOWN_QUADRILATERAL),
        "code 2 n 4 worked": worked_text(four_corners, [row_line(four_corners, 1)]),
        "code 2 n 4 second": second_text(KNOWN_QUADRILATERAL),
        "code 3 counts": polygon_counts_table(),
        "code 3 angles": triangles_table(polygon_drawn),
        "code 3 conditions": conditions_table(POLYGONS[5]),
        "code 3 rows": ring_rows_table(POLYGONS[5], (1,)),
        "code 3 signs": signs_table(POLYGONS[5]),
        "code 3 worked": worked_text(polygon, formula_lines(polygon)),
    }


# Writing and checking.


def with_tables(page):
    """The page with the text between `<!-- table NAME -->` and `<!-- end -->` made anew."""
    made = tables()
    block = re.compile(r"(<!-- table ([^>]+) -->\n).*?(<!-- end -->)", re.DOTALL)
    named = [match[2] for match in block.finditer(page)]
    require(sorted(named) == sorted(made), f"{PAGE.name}: the tables marked there are not those made here")
    return block.sub(lambda match: f"{match[1]}\n{made[match[2]]}\n\n{match[3]}", page)


def wanted_files():
    wanted = {FOLDER / drawing.file: svg(drawing) for drawing in DRAWINGS}
    wanted[PAGE] = with_tables(PAGE.read_text(encoding="utf-8"))
    return wanted


def check_files(wanted):
    for path, text in wanted.items():
        held = path.read_text(encoding="utf-8") if path.exists() else None
        require(held == text, f"{path.name} is not what the script would write")


def write_files(wanted):
    for path, text in wanted.items():
        path.write_text(text, encoding="utf-8")


def check_all():
    for figure in FIGURES:
        check_rows(figure)
    for worked in CASES:
        check_worked(worked)
    for drawing in DRAWINGS:
        check_drawing(drawing)
        check_legible(drawing)


def main(arguments):
    check_all()
    if arguments == ["--tables"]:
        print("\n\n".join(f"{name}\n\n{text}" for name, text in tables().items()))
    elif arguments == ["--check"]:
        wanted = wanted_files()
        check_files(wanted)
        print(f"{len(wanted)} passed, 0 failed")
    else:
        require(not arguments, "give nothing, --tables or --check")
        write_files(wanted_files())


if __name__ == "__main__":
    main(sys.argv[1:])
