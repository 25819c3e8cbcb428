#!/usr/bin/env python3
"""Makes the sample sheets and their expected outputs from values.py.

An expected output is document 01's own text where it prints one, with M-105's halves, and the independent computation's otherwise.
`sheets/make.py` writes the files; `sheets/make.py --check` only tells whether they are as it would write them.
"""

import sys
from pathlib import Path

HERE = Path(__file__).resolve().parent
sys.path.insert(0, str(HERE.parent / "tests"))

from figures import figure_of, quadrilateral  # noqa: E402
from independent import work  # noqa: E402
from packed import Sheet, packed_values  # noqa: E402
from values import BROKEN, BY_VALUES, DOCUMENT_TEXT, REFUSED, First  # noqa: E402


def cells(table):
    """The entries of a table in their order: they stand between commas or line ends."""
    return [cell.strip() for line in table.strip().splitlines() for cell in line.rstrip(",").split(",")]


def whole(decimal, places):
    """A decimal number with exactly so many places, in units of the last one."""
    before, after = decimal.split(".")
    assert len(after) == places, decimal
    return int(before + after)


def tenths(angle):
    """Degrees, minutes and seconds in tenths of a second."""
    degrees, minutes, seconds = angle.split()
    return (int(degrees) * 60 + int(minutes)) * 600 + whole(seconds, 1)


def figure_named(code, n):
    """Of a code and n that name no figure, a quadrilateral under that name."""
    return figure_of(code, n) or quadrilateral()._replace(code=code, n=n)


def rounds_of(values, angles):
    """One of each angle where the sheet has none."""
    return values.rounds[: len(angles)] or (1,) * len(angles)


def first_sheet(values):
    angles = tuple(map(tenths, cells(values.angles)))
    fixed = tuple(map(tenths, cells(values.fixed))) if values.fixed else ()
    return Sheet(values.kind, figure_named(values.code, values.n), values.limit, angles, rounds_of(values, angles), fixed=fixed)


def second_sheet(values):
    entries = cells(values.rows)
    angles = tuple(map(tenths, entries[0::3]))
    return Sheet(
        values.kind,
        figure_named(values.code, values.n),
        values.tolerance,
        angles,
        rounds_of(values, angles),
        log_sines=tuple(whole(log_sine, 7) for log_sine in entries[1::3]),
        differences=tuple(whole(difference, 2) for difference in entries[2::3]),
        log_sides=tuple(whole(side, 7) for side in cells(values.sides)) if values.sides else (),
    )


def bytes_of(values):
    return packed_values(first_sheet(values) if isinstance(values, First) else second_sheet(values))


def broken(sheet, how):
    if how == "kind 6":
        return bytes([6 << 4 | sheet[0] & 0x0F]) + sheet[1:]
    if how == "last bit 1":
        return sheet[:-1] + bytes([sheet[-1] | 1])
    return {"empty": b"", "one byte too long": sheet + b"\0", "one byte too short": sheet[:-1]}[how]


def all_sheets():
    """Name and bytes of every sample sheet."""
    sheets = {name: bytes_of(values) for name, values in BY_VALUES.items()}
    for name, (of, how, _) in BROKEN.items():
        sheets[name] = broken(sheets[of], how)
    return sheets


def stated_refusal(name):
    """Where values.py names the refusal, the text that says it."""
    if name in REFUSED:
        _, number, place = REFUSED[name]
        return f"refused {number} {place}\n"
    if name in BROKEN:
        return f"refused {BROKEN[name][2]} 0\n"
    return None


def expected_text(name, sheet):
    computed = work(sheet)
    stated = DOCUMENT_TEXT.get(name) or stated_refusal(name)
    assert stated is None or stated == computed, f"{name}: stated\n{stated}computed\n{computed}"
    assert stated is not None or not computed.startswith("refused"), f"{name}: {computed}"
    return stated or computed


def all_files():
    """Name and content of every file that this script makes."""
    files = {}
    for name, sheet in all_sheets().items():
        files[f"{name}.sheet"] = sheet
        files[f"{name}.expected"] = expected_text(name, sheet).encode("ascii")
    return files


def unlike(files):
    """The files in this folder that are missing, differ, or do not belong."""
    made = {path.name for path in HERE.iterdir() if path.suffix in (".sheet", ".expected")}
    wrong = made ^ files.keys()
    return sorted(wrong | {name for name in made & files.keys() if (HERE / name).read_bytes() != files[name]})


def unexplained(files):
    """The sheets that README.md does not name."""
    page = (HERE / "README.md").read_text(encoding="utf-8")
    return sorted(name for name in files if name.endswith(".sheet") and f"`{name[:-6]}`" not in page)


def main():
    files = all_files()
    if sys.argv[1:] != ["--check"]:
        for name, content in files.items():
            (HERE / name).write_bytes(content)
    wrong = unlike(files)
    complaints = wrong + [f"{name} (not in README.md)" for name in unexplained(files)]
    for complaint in complaints:
        print(complaint)
    print(f"{len(files.keys() - set(wrong))} passed, {len(complaints)} failed")
    return 1 if complaints else 0


if __name__ == "__main__":
    sys.exit(main())
