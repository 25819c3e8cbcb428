#!/usr/bin/env python3
"""Runs examples/controller.c on every sample sheet and some made ones, and compares what it prints with the independent computation.

    tests/c/example.py COMMAND ..      the command reads one sheet from standard input, or from a file named after it
"""

import os
import subprocess
import sys
from itertools import islice
from pathlib import Path

ROOT = Path(__file__).resolve().parent.parent.parent
sys.path.insert(0, str(ROOT / "tests"))

from independent import worked  # noqa: E402
from made_sheets import made_sheets  # noqa: E402
from packed import Refused, read_sheet  # noqa: E402

EVERY = 29  # of the made sheets


def angle_line(number, tenths, rounds):
    """Number, degrees, minutes, seconds, rounds."""
    minutes, seconds = divmod(tenths, 600)
    return f"{number:2}  {minutes // 60:3} {minutes % 60:02} {seconds // 10:02}.{seconds % 10}  {rounds:3}\n"


def expected(sheet):
    try:
        done = worked(read_sheet(sheet))
    except Refused as refusal:
        return f"refused {refusal.number} {refusal.place}\n"
    return "".join(angle_line(number, *row) for number, row in enumerate(zip(done.results, done.rounds), start=1))


def printed(command, sheet=b""):
    """What is printed, if the status agrees with it."""
    done = subprocess.run(command, input=sheet, stdout=subprocess.PIPE, timeout=60, check=False)
    text = done.stdout.decode(errors="replace")
    return text if done.returncode == text.startswith("refused ") else f"status {done.returncode}\n{text}"


def lost(command):
    """Status and message where something cannot be read or written."""

    def told(words, **how):
        done = subprocess.run(words, stderr=subprocess.PIPE, timeout=60, check=False, **how)
        return f"{done.returncode} {done.stderr.decode().rpartition(': ')[2]}"

    sheet = ROOT / "sheets" / "document-01-first.sheet"
    with open("/dev/full", "wb") as full:
        yield "a full device", told([*command, str(sheet)], stdout=full), "2 No space left on device\n"
    yield "a closed output", told([*command, str(sheet)], preexec_fn=lambda: os.close(1)), "2 Bad file descriptor\n"
    yield "a closed input", told(command, stdout=subprocess.DEVNULL, preexec_fn=lambda: os.close(0)), "2 Bad file descriptor\n"
    yield "a folder", told([*command, str(ROOT)], stdout=subprocess.DEVNULL), "2 Is a directory\n"
    yield "a missing file", told([*command, "no such file"], stdout=subprocess.DEVNULL), "2 No such file or directory\n"


def checks(command):
    """Name, what is printed and what should be."""
    for path in sorted((ROOT / "sheets").glob("*.sheet")):
        yield path.name, printed([*command, str(path)]), expected(path.read_bytes())
    for name, sheet in islice(made_sheets(), 0, None, EVERY):
        yield name, printed(command, sheet), expected(sheet)
    yield from lost(command)


def main():
    passed = failed = 0
    for name, found, right in checks(sys.argv[1:]):
        passed += found == right
        failed += found != right
        if found != right:
            print(f"FAILED the example on {name}\nexpected\n{right}it printed\n{found}")
    print(f"{passed} passed, {failed} failed")
    return 0 if passed and not failed else 1


if __name__ == "__main__":
    sys.exit(main())
