#!/usr/bin/env python3
"""The drawing of docs/ARCHITECTURE.md: the crates as floors of a house.

It is made from crates.txt alone: a line `NAME: DEP DEP ..` for each crate, under the name of its family in a comment line. A
crate stands on the floor above the highest crate that it names. Under its name the drawing has the crates that it rests on,
without those that these rest on themselves, and without the kit's.

    floors.py            writes the drawing
    floors.py --check    writes nothing; fails if the drawing is not what the script would write, or if README.md has other
                         families and crates than crates.txt, or has them in another order
"""

import re
import sys
from pathlib import Path

FOLDER = Path(__file__).resolve().parent
ROOT = FOLDER.parent.parent
LIST = ROOT / "crates.txt"
README = ROOT / "README.md"
DRAWING = FOLDER / "floors.svg"

HEADING = re.compile(r"#\s*(\w+)\s*(?::.*)?")
CRATE = re.compile(r"(\w+)(?: staticlib)?\s*:(.*)")
CELL = re.compile(r"\| (?:\*\*(\w+)\*\*|`(\w+)`) \|")

# One tint for each family, in the order of crates.txt.
TINTS = ("#e8e4dc", "#f6e3c5", "#d9e8d4", "#d3e3f1", "#eadcf0", "#f6d9d5")

EDGE = 12
NUMBER_WIDTH = 34
BOX_WIDTH = 236
BOX_GAP = 14
FLOOR_GAP = 16
NAME_LINE = 24  # from the top of a box to the foot of its name
TEXT_LINE = 17  # from one line of small text to the next
BOX_FOOT = 11
SMALL_LETTER = 6.6  # no letter of the small text is wider, on average
BIG_LETTER = 9.8

STYLE = """\
  <style>
    rect.box { stroke: black; stroke-width: 1; }
    line { stroke: #999999; stroke-width: 1; }
    text { font-family: Helvetica, Arial, "DejaVu Sans", sans-serif; }
    text.name { font-size: 16px; font-weight: bold; }
    text.family { font-size: 12px; font-style: italic; text-anchor: end; }
    text.on { font-size: 12px; }
    text.floor { font-size: 16px; fill: #666666; text-anchor: middle; }
  </style>"""


def require(holds, what):
    if not holds:
        raise SystemExit(f"floors.py: {what}")


# The crates, as crates.txt has them.


def listed(text):
    """Each family and each crate in their order: ("ground", None), ("whole", ["dep", ..])."""
    for line in text.splitlines():
        heading, crate = HEADING.fullmatch(line.strip()), CRATE.fullmatch(line.partition("#")[0].strip())
        if crate:
            yield crate[1], crate[2].split()
        elif heading:
            yield heading[1], None


def families_of(entries):
    """The family of each crate, in the order of crates.txt."""
    family, families = None, {}
    for name, named in entries:
        if named is None:
            family = name
        else:
            require(family, f"{LIST.name}: {name} stands under no family")
            families[name] = family
    return families


def below(crate, named):
    """Every crate under this one."""
    return set(named[crate]).union(*(below(other, named) for other in named[crate]))


def rests_on(crate, named):
    """The crates that it names, without those under another that it names."""
    implied = set().union(*(below(other, named) for other in named[crate]))
    return [other for other in named[crate] if other not in implied]


def floor_of(crate, named):
    return 1 + max((floor_of(other, named) for other in named[crate]), default=0)


def floors(named):
    """The crates of each floor, the lowest first, each in the order of crates.txt."""
    standing = {crate: floor_of(crate, named) for crate in named}
    return [[crate for crate in named if standing[crate] == k] for k in range(1, max(standing.values()) + 1)]


# The drawing.


def wrapped(names):
    """Names with commas between, in as many lines as a box needs."""
    lines = []
    for name in names:
        longer = f"{lines[-1]}, {name}" if lines else f"on {name}"
        if lines and len(longer) * SMALL_LETTER > BOX_WIDTH - 2 * EDGE:
            lines[-1] += ","
            lines.append(name)
        else:
            lines[-1:] = [longer]
    return lines


def box_svg(crate, family, tint, text, left, top, height):
    title_width = len(crate) * BIG_LETTER + len(family) * SMALL_LETTER
    require(title_width < BOX_WIDTH - 2 * EDGE, f"{crate}, {family}: the names have no room in a box")
    yield f'  <rect class="box" x="{left}" y="{top}" width="{BOX_WIDTH}" height="{height}" rx="4" fill="{tint}"/>'
    yield f'  <text class="name" x="{left + EDGE}" y="{top + NAME_LINE}">{crate}</text>'
    yield f'  <text class="family" x="{left + BOX_WIDTH - EDGE}" y="{top + NAME_LINE}">{family}</text>'
    for k, line in enumerate(text, 1):
        yield f'  <text class="on" x="{left + EDGE}" y="{top + NAME_LINE + k * TEXT_LINE}">{line}</text>'


def floor_svg(number, crates, families, tints, texts, top, height, width):
    yield f'  <text class="floor" x="{EDGE + NUMBER_WIDTH // 2}" y="{top + height // 2 + 6}">{number}</text>'
    for k, crate in enumerate(crates):
        left = EDGE + NUMBER_WIDTH + k * (BOX_WIDTH + BOX_GAP)
        yield from box_svg(crate, families[crate], tints[families[crate]], texts[crate], left, top, height)
    below_it = top + height + FLOOR_GAP // 2
    yield f'  <line x1="{EDGE}" y1="{below_it}" x2="{width - EDGE}" y2="{below_it}"/>'


def svg(families, named):
    order = list(dict.fromkeys(families.values()))
    require(len(order) <= len(TINTS), "more families than tints")
    tints = dict(zip(order, TINTS))
    texts = {crate: wrapped(rests_on(crate, named)) for crate in named}
    stories = floors(named)
    width = 2 * EDGE + NUMBER_WIDTH + max(map(len, stories)) * (BOX_WIDTH + BOX_GAP) - BOX_GAP
    parts, top = [], EDGE
    for number, crates in reversed(list(enumerate(stories, 1))):
        height = NAME_LINE + max(len(texts[crate]) for crate in crates) * TEXT_LINE + BOX_FOOT
        parts += floor_svg(number, crates, families, tints, texts, top, height, width)
        top += height + FLOOR_GAP
    return "\n".join(
        [
            f'<svg xmlns="http://www.w3.org/2000/svg" width="{width}" height="{top}" viewBox="0 0 {width} {top}">',
            "  <title>The crates of Bienguloc: floor, name, family, and what each rests on</title>",
            STYLE,
            f'  <rect width="{width}" height="{top}" fill="white"/>',
            *parts,
            "</svg>\n",
        ]
    )


def check_readme(entries):
    section = README.read_text(encoding="utf-8").partition("\n## The crates\n")[2].partition("\n## ")[0]
    told = [(family or crate, bool(family)) for family, crate in CELL.findall(section)]
    require(told == [(name, named is None) for name, named in entries], "README.md has not the families and crates of crates.txt in their order")


def main(arguments):
    entries = list(listed(LIST.read_text(encoding="utf-8")))
    families = families_of(entries)
    named = {name: [other for other in others if other in families] for name, others in entries if others is not None}
    wanted = svg(families, named)
    if arguments == ["--check"]:
        held = DRAWING.read_text(encoding="utf-8") if DRAWING.exists() else None
        require(held == wanted, f"{DRAWING.name} is not what the script would write")
        check_readme(entries)
        print("2 passed, 0 failed")
    else:
        require(not arguments, "give nothing or --check")
        DRAWING.write_text(wanted, encoding="utf-8")


if __name__ == "__main__":
    main(sys.argv[1:])
