"""Angles that close a figure with given misclosures: what a field sheet of the first pass looks like.

`choose(low, high)` picks each value that is free, so that the same builder gives ordinary figures and needles.
"""

from figures import FULL_CIRCLE, HALF_CIRCLE, fixed_sum
from packed import LARGEST_ANGLE


def split(total, choose):
    """Two angles with this sum."""
    one = choose(max(1, total - LARGEST_ANGLE), min(LARGEST_ANGLE, total - 1))
    return one, total - one


def quadrilateral_angles(misclosures, choose):
    first, second, third = misclosures
    lowest = max(2, 2 + second - third)
    highest = HALF_CIRCLE + min(first, second) - 2
    middle = choose(lowest, highest)  # angles 3 and 4
    next_pair = HALF_CIRCLE + second - middle
    sums = (HALF_CIRCLE + first - middle, middle, next_pair, HALF_CIRCLE + third - next_pair)
    return [angle for pair_sum in sums for angle in split(pair_sum, choose)]


def with_sum(total, largest, choose, smallest=1):
    """Angles with this sum, each from the smallest to its own largest."""
    angles = []
    for i, own_largest in enumerate(largest):
        others = largest[i + 1 :]
        angle = choose(max(smallest, total - sum(others)), min(own_largest, total - smallest * len(others)))
        angles.append(angle)
        total -= angle
    return angles


def inner_point_angles(figure, misclosures, choose, over):
    """Code 2: the angles, and the fixed angles, which sum to so much over what they must."""
    n = figure.n
    room = 700  # so that every corner can be split and no inner angle is lost to a misclosure
    fixed = tuple(with_sum(fixed_sum(figure) + over, [HALF_CIRCLE - room] * n, choose, room))
    at_corners = [split(angle + f, choose) for angle, f in zip(fixed, misclosures[n:])]
    angles = []
    for i in range(n):
        own, following = at_corners[i][1], at_corners[(i + 1) % n][0]
        angles += [HALF_CIRCLE + misclosures[i] - own - following, own, following]
    return angles, fixed


def central_polygon_angles(misclosures, choose):
    *triangles, horizon = misclosures
    largest = [min(LARGEST_ANGLE, HALF_CIRCLE + w - 2) for w in triangles]
    angles = []
    for w, inner in zip(triangles, with_sum(FULL_CIRCLE + horizon, largest, choose)):
        angles += [inner, *split(HALF_CIRCLE + w - inner, choose)]
    return angles


def closing_angles(figure, misclosures, choose, over=0):
    """Angles and fixed angles with exactly these misclosures, or None where the figure cannot have them. The fixed angles sum to
    so much over what they must."""
    try:
        fixed = ()
        if figure.code == 1:
            angles = quadrilateral_angles(misclosures, choose)
        elif figure.code == 2:
            angles, fixed = inner_point_angles(figure, misclosures, choose, over)
        else:
            angles = central_polygon_angles(misclosures, choose)
    except ValueError:  # nothing to choose from
        return None
    in_range = all(1 <= angle <= LARGEST_ANGLE for angle in (*angles, *fixed))
    return (tuple(angles), fixed) if in_range else None


def pair_at(i, n):
    """Numbers of the angles at the inner point of triangles i and i+1 and at their own corners."""
    following = i % n + 1
    return 3 * i - 2, 3 * following - 2, 3 * i - 1, 3 * following - 1


def move_that_keeps_conditions(figure, angle):
    """How much each angle changes when this one grows by 1 and every condition keeps its sum."""
    if figure.code == 1:
        return {angle: 1, angle + 1 if angle % 2 else angle - 1: -1}
    triangle, part = (angle + 2) // 3, (angle + 2) % 3
    if figure.code == 3 and part == 0:
        inner, next_inner, own, next_own = pair_at(triangle, figure.n)
        return {inner: 1, next_inner: -1, own: -1, next_own: 1}
    if figure.code == 3:
        return {3 * triangle - 1: 1 if part == 1 else -1, 3 * triangle: -1 if part == 1 else 1}
    return corner_move(figure.n, angle, triangle, part)


def corner_move(n, angle, triangle, part):
    """Code 2: what the second angle of triangle j gains, the last of triangle j-1 loses, and the inner angles take up."""
    j = triangle if part < 2 else triangle % n + 1
    before = n if j == 1 else j - 1
    move = {3 * j - 1: 1, 3 * before: -1, 3 * j - 2: -1, 3 * before - 2: 1}
    return {number: step * move[angle] for number, step in move.items()}
