#!/usr/bin/env python3
"""Tries the wrong programs: each crates/NAME/must-fail/LABEL.edit is made in a copy of its crate, and the checker must refuse it for a fact.

    tests/must_fail.py [NAME..]     has `rt must-fail` try those of the crates named, or of all, once these are proved
    tests/must_fail.py --told LOG   judges what a run of `rt ci` told of those that it tried

`rt ci` also passes an edit that does not fit its file (BAD EDIT), and one that is refused only because a proof file names what the edit took
away. Neither shows anything of a contract: here both fail. The last line is 'N passed, M failed'.
"""

import re
import subprocess
import sys
from pathlib import Path

ROOT = Path(__file__).resolve().parent.parent
TOLD = re.compile(r"^(?:rt: )?(must-fail (\w+)/([\w.-]+): (.*))$", re.M)
REFUSED = "refused, as it must be"
# What the checker says where a proof cites something that is not there any more.
NAMES_ALONE = re.compile(r"only because a proof file names|which was (?:rejected|not admitted)|was not admitted|can be named|is not in scope|has no field")


def labels():
    """The wrong programs of each crate that has some, in the order of crates.txt."""
    lines = (line.partition("#")[0] for line in (ROOT / "crates.txt").read_text(encoding="utf-8").splitlines())
    names = [line.partition(":")[0].split()[0] for line in lines if line.strip()]
    found = {name: {path.name for path in (ROOT / "crates" / name / "must-fail").glob("*.edit")} for name in names}
    return {name: edits for name, edits in found.items() if edits}


def fault(said):
    """What is wrong with what is said of an edit, or None."""
    if not said.startswith(REFUSED):
        return said
    return "NOT REFUSED for a fact" if NAMES_ALONE.search(said) else None


def judged(text):
    """Crate and label of each edit that is told of, with its fault or None."""
    return {(crate, label): fault(said) for _, crate, label, said in TOLD.findall(text)}


def rt(*words, folder=ROOT):
    done = subprocess.run(["rt", *words], cwd=folder, stdout=subprocess.PIPE, stderr=subprocess.STDOUT, check=False)
    return done.returncode, done.stdout.decode(errors="replace")


def tried(name, edits):
    """Each edit of a crate with its fault or None; a crate that is not proved without one shows nothing."""
    status, said = rt("check", folder=ROOT / "crates" / name)
    if status:
        print(said)
        return {(name, label): "NOT TRIED: the crate is not proved without it" for label in edits}
    _, said = rt("must-fail", "--anew", name)
    print(said, end="", flush=True)
    found = judged(said)
    return {(name, label): found.get((name, label), "NOT TRIED") for label in edits}


def tell(faults):
    wrong = {edit: why for edit, why in faults.items() if why}
    for (crate, label), why in sorted(wrong.items()):
        print(f"FAILED must-fail {crate}/{label}: {why}")
    print(f"{len(faults) - len(wrong)} passed, {len(wrong)} failed")
    return 1 if wrong or not faults else 0


def main():
    words, known = sys.argv[1:], labels()
    if len(words) == 2 and words[0] == "--told":
        # What an earlier run has tried is not told again; that it was refused is in the count of `rt ci` itself.
        return tell(judged(Path(words[1]).read_text(encoding="utf-8", errors="replace")) or {("rt ci", "tried none anew"): None})
    if not known.keys() >= set(words):
        print(f"usage: tests/must_fail.py [NAME..], the names of crates that have wrong programs, or --told LOG: {' '.join(known)}", file=sys.stderr)
        return 2
    faults = {}
    for name in words or known:
        faults |= tried(name, known[name])
    return tell(faults)


if __name__ == "__main__":
    sys.exit(main())
