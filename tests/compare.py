#!/usr/bin/env python3
"""Runs a program on every sample sheet and every made sheet and compares what it writes, byte for byte, with the
independent computation.

    tests/compare.py [COMMAND ...]

The command reads one sheet from standard input and writes the text; it is bin/adjust if none is given, which must end with
status 1 on a refused sheet, and is given the made sheets as files, many at a time. Another command may end with 0 on it.
"""

import subprocess
import sys
import tempfile
import time
from concurrent.futures import ThreadPoolExecutor
from pathlib import Path
from typing import NamedTuple

from independent import BYTES_HELD, work
from made_sheets import made_sheets, print_reached, reached
from packed import Refused, read_sheet, write_sheet

ROOT = Path(__file__).resolve().parent.parent
OWN = [str(ROOT / "bin" / "adjust")]
WORKERS = 2
PATIENCE = 60  # seconds for one sheet
PATIENCE_FOR_BUILDING = 900  # the first run may have to build the program
PIECE = 7  # bytes
BATCH = 250  # made sheets
SHOWN = 20  # failures told in full


class Check(NamedTuple):
    name: str
    sheet: bytes
    expected: str
    in_pieces: bool = False


def sample_checks():
    """Each sample sheet, at once and in pieces, against the text beside it."""
    for path in sorted((ROOT / "sheets").glob("*.sheet")):
        expected = path.with_suffix(".expected").read_text(encoding="ascii")
        yield Check(path.name, path.read_bytes(), expected)
        yield Check(f"{path.name} in pieces", path.read_bytes(), expected, in_pieces=True)


def made_checks():
    for name, sheet in made_sheets():
        yield Check(name, sheet, work(sheet))


def fed_in_pieces(command, sheet):
    """The sheet arrives through the pipe a few bytes at a time."""
    with subprocess.Popen(command, stdin=subprocess.PIPE, stdout=subprocess.PIPE, stderr=subprocess.PIPE) as program:
        try:
            for start in range(0, len(sheet), PIECE):
                program.stdin.write(sheet[start : start + PIECE])
                program.stdin.flush()
                time.sleep(0.001)
        except BrokenPipeError:
            pass
        try:
            written, _ = program.communicate(timeout=PATIENCE)
        except subprocess.TimeoutExpired:
            program.kill()
            raise
        return program.returncode, written


def fed_at_once(command, sheet, patience=PATIENCE):
    done = subprocess.run(command, input=sheet, stdout=subprocess.PIPE, stderr=subprocess.PIPE, timeout=patience)
    return done.returncode, done.stdout


def is_refused(check):
    return check.expected.startswith("refused ")


def right_statuses(command, check):
    if not is_refused(check):
        return [0]
    return [1] if command == OWN else [0, 1]


def complaint(command, check):
    """What is wrong, or None."""
    try:
        status, written = (fed_in_pieces if check.in_pieces else fed_at_once)(command, check.sheet)
    except subprocess.TimeoutExpired:
        return "does not end"
    if status not in right_statuses(command, check):
        return f"ends with status {status} and writes\n{written.decode(errors='replace')}"
    if written != check.expected.encode("ascii"):
        return f"writes\n{written.decode(errors='replace')}"
    return None


def complaints_of_files(checks):
    """What is wrong of each of several sheets that bin/adjust is given as files, or None. Where the texts are not all right, each is asked alone."""
    with tempfile.TemporaryDirectory() as folder:
        paths = [Path(folder) / str(number) for number in range(len(checks))]
        for path, check in zip(paths, checks):
            path.write_bytes(check.sheet)
        done = subprocess.run([*OWN, *paths], stdin=subprocess.DEVNULL, stdout=subprocess.PIPE, stderr=subprocess.PIPE, timeout=PATIENCE_FOR_BUILDING)
    expected = "".join(f"{path}:\n{check.expected}" for path, check in zip(paths, checks))
    if (done.returncode, done.stdout) == (int(any(map(is_refused, checks))), expected.encode("ascii")):
        return [None] * len(checks)
    alone = [complaint(OWN, check) for check in checks]
    return alone if any(alone) else ["is right alone, and not among other files", *alone[1:]]


def tell(check, wrong):
    print(f"FAILED {check.name}\nsheet {check.sheet[:BYTES_HELD].hex()}\nexpected\n{check.expected}the program {wrong}")


def independent_complaint(check):
    """The independent computation against itself: the text beside a sheet, and a sheet read and written again."""
    if work(check.sheet) != check.expected:
        return "is not asked: the independent computation gives\n" + work(check.sheet)
    try:
        if write_sheet(read_sheet(check.sheet)) != check.sheet:
            return "is not asked: read and written again the sheet is another"
    except Refused:
        pass
    return None


def complaints(command, checks):
    asked = [complaint(command, checks[0])] if len(checks) == 1 else complaints_of_files(checks)
    return [independent_complaint(check) or wrong for check, wrong in zip(checks, asked)]


def in_groups(command, samples, made):
    """What is asked in one go. A start of the command looks at every source, which takes longer than a sheet."""
    size = BATCH if command == OWN else 1
    return [[check] for check in samples] + [made[at : at + size] for at in range(0, len(made), size)]


def main():
    command = sys.argv[1:] or OWN
    started = time.monotonic()
    # Worked sheets before refused ones, so that a batch of them ends with one status.
    samples, made = list(sample_checks()), sorted(made_checks(), key=is_refused)
    checks = samples + made
    complete = print_reached(reached((check.name, check.expected) for check in checks))
    try:
        fed_at_once(command, b"", PATIENCE_FOR_BUILDING)
    except (OSError, subprocess.TimeoutExpired) as trouble:
        print(f"cannot run it: {trouble}")
        return 1
    with ThreadPoolExecutor(WORKERS) as pool:
        answers = [answer for found in pool.map(lambda group: complaints(command, group), in_groups(command, samples, made)) for answer in found]
    failures = [(check, wrong) for check, wrong in zip(checks, answers) if wrong]
    for check, wrong in failures[:SHOWN]:
        tell(check, wrong)
    print(f"{len(checks)} sheets in {time.monotonic() - started:.0f} seconds")
    print(f"{len(checks) - len(failures)} passed, {len(failures)} failed")
    return 0 if complete and not failures else 1


if __name__ == "__main__":
    sys.exit(main())
