#!/usr/bin/env python3
"""Writes the sheets that the bench works, one to a line in hexadecimal: accepted ones of every figure and kind, the same every time."""

import random
import sys
from pathlib import Path

sys.path.insert(0, str(Path(__file__).resolve().parent.parent / "tests"))

from independent import work  # noqa: E402
from made_sheets import each_kind_and_figure, first_sheet, second_sheet, some_differences, some_limit  # noqa: E402
from packed import LARGEST_TOLERANCE, is_first, packed_values  # noqa: E402

SEED = 1978
OF_EACH = 16


def some_sheet(kind, figure, rng):
    if is_first(kind):
        return first_sheet(figure, rng, some_limit(rng), kind=kind)
    return second_sheet(figure, rng, rng.randint(0, LARGEST_TOLERANCE), some_differences(figure, rng, 700), kind=kind)


def accepted(kind, figure, rng):
    while True:
        sheet = packed_values(some_sheet(kind, figure, rng))
        if not work(sheet).startswith("refused"):
            return sheet


def main():
    rng = random.Random(f"{SEED} bench")
    for kind, figure in each_kind_and_figure():
        for _ in range(OF_EACH):
            print(accepted(kind, figure, rng).hex())


if __name__ == "__main__":
    main()
