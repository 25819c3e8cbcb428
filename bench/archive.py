#!/usr/bin/env python3
"""Tells what a static library takes: code and constants in bytes, the largest frame, and what it wants from outside.

    bench/archive.py ARCHIVE [PREFIX]      PREFIX stands before the names of the binary tools, as x86_64-linux-gnu-
"""

import re
import subprocess
import sys
from pathlib import Path

PARTS = (".text", ".rodata")  # what a controller must keep in its memory: machine code, and tables
SHOWN = 5
GOAL = 32 * 1024


def said(*command):
    return subprocess.run(command, stdout=subprocess.PIPE, check=True, text=True).stdout


def section_sizes(listing):
    """Bytes of each part over all members; a section's name may go on after the part's, as in .text.bienguloc_read."""
    sizes = dict.fromkeys(PARTS, 0)
    for name, size in re.findall(r"^(\.\S+)\s+(\d+)\s+\d+$", listing, re.MULTILINE):
        for part in PARTS:
            if name == part or name.startswith(part + "."):
                sizes[part] += int(size)
    return sizes


def frames(listing):
    """Of each function: what it takes off the stack pointer at once, and what it pushes."""
    found = {}
    function = ""
    for line in listing.splitlines():
        heading = re.match(r"[0-9a-f]+ <(.+)>:$", line)
        if heading:
            function = heading.group(1)
            found[function] = 0
        taken = re.search(r"\bsub\s+\$0x([0-9a-f]+),%rsp", line)
        if taken:
            found[function] += int(taken.group(1), 16)
        elif re.search(r"\bpush\s+%r", line):
            found[function] += 8
    return sorted(found.items(), key=lambda frame: -frame[1])


def wanted(listing):
    """Names that the archive uses and does not define."""
    used = set(re.findall(r"^\s+U (\S+)$", listing, re.MULTILINE))
    return sorted(used - set(re.findall(r"^[0-9a-f]+ [A-Za-z] (\S+)$", listing, re.MULTILINE)))


def main():
    archive, prefix = sys.argv[1], (sys.argv[2:] or [""])[0]
    sizes = section_sizes(said(f"{prefix}size", "-A", "-d", archive))
    total = sum(sizes.values())
    print("\nthe archive, in bytes")
    for part, size in sizes.items():
        print(f"{part:24} {size:10}")
    print(f"{'code and constants':24} {total:10}   goal {GOAL} {'met' if total <= GOAL else 'not met'}")
    print(f"{'the file itself':24} {Path(archive).stat().st_size:10}   with symbols and relocations, which a program does not keep")
    print(f"wanted from outside: {', '.join(wanted(said(f'{prefix}nm', archive))) or 'nothing'}")
    print("\nthe largest frames, in bytes")
    for function, size in frames(said(f"{prefix}objdump", "-d", archive))[:SHOWN]:
        print(f"{function:40} {size:6}")


if __name__ == "__main__":
    main()
