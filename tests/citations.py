#!/usr/bin/env python3
"""Looks up every name and every file that the pages cite.

    tests/citations.py

A citation is a text in back-quotes that is a path or a name; numbers, types, expressions, command lines and symbols are left
alone. A path must exist from the repository's root, from crates/, inside some crate or from the page's folder. A name must be
declared, not only used, in the definitions, proofs, code or header, or in a script of the page's folder, or be that of a crate,
a module, a wrong program or a sample sheet. Names right before a file of definitions, proofs or code, as in `name` (`file`) or
`name`, `file`, must be declared there. Each citation counts once for a page.
"""

import re
import sys
from collections import namedtuple
from functools import lru_cache
from pathlib import Path

ROOT = Path(__file__).resolve().parent.parent
PAGES = ("README.md", "CONTRIBUTING.md", "docs/*.md", "docs/landings/*.md", "sheets/README.md", "tests/README.md", "tests/c/README.md")
SOURCES = ("crates", "include", "examples")

ALLOWED = {  # names that nothing here declares
    "requires", "ensures",  # keywords of a contract
    "omega", "cond", "get_or", "eqb", "ltb", "leb", "not", "ℕ", "ℤ",  # the logic's library
    "abbrev", "unfoldable", "pub", "record",  # its keywords, which the key to the notation explains
    "read_exact", "read_to_end", "write_all", "Err",  # the kit's input and output
    "then", "else", "overflow", "cast", "bounds", "invariant-", "decreases-",  # parts of its names of goals and loops
    "rt", "PATH", "RATTLE_HOME",  # where the kit is
    "memcpy", "memmove", "memset",  # the C library
    "__udivti3",  # the compiler's own library
    "RT_JOBS",  # what the kit takes from the environment
}

SPAN = re.compile(r"`([^`\n]+)`")
FENCED = re.compile(r"^```.*?^```", re.M | re.S)
PATH = re.compile(r"[\w.*-]+/[\w./*-]*|[\w.*-]+\.(?:antt|rt|md|py|h|c|txt|edit|sheet)")
NOT_HERE = re.compile(r"target/|.*\b(?:NAME|LABEL)\b")  # what a build leaves; a path with a place for any name
NAME = re.compile(r"([^\W\d][\w·′-]*(?:::\w+)*)(?:\([^()]*\))?")  # perhaps called
TYPE = re.compile(r"[iu](?:8|16|32|64|128|size)|bool")
BETWEEN = re.compile(r"(?:[ ,(]|\n(?!\n)|\b(?:and|with|all|in)\b)*")  # from a name to the next one or to its file

ANTT = re.compile(r"^\s*(?:(?:abbrev|unfoldable|pub)\s+)*(?:(?:record|data)\s+(?!\{)|(?=\S+\s+:\s))([^\s(){}]+)")
RATTLE = re.compile(r"\b(?:fn|struct|enum|trait|const|type|mod)\s+(\w+)")
C = re.compile(r"^(?:#define\s+|[a-z][\w *]*?\b(?=\w+\())(\w+)", re.M)
PYTHON = re.compile(r"^(?:\s*(?:def|class)\s+|(?=\w+\s*=))(\w+)", re.M)
COMMENT = re.compile(r"//.*|/\*[\s\S]*?\*/")
VARIANTS = re.compile(r"\benum\s*\w*\s*\{\n(.*?)\n\s*\}", re.S)
TAKEN = re.compile(r"\b(?:fn|struct)\s+\w+\s*[({](.*?)[)}]", re.S)  # parameters, fields

Citation = namedtuple("Citation", "path name file")  # a path; or a name, with the file it is cited with or None


def antt_names(text):
    """Definitions, laws, records, their fields and constructors, but not what a definition keeps under its own `where`."""
    kept_past = len(text)
    for line in text.splitlines():
        indent = len(line) - len(line.lstrip())
        if not line.strip() or indent > kept_past:
            continue
        kept_past = indent if line.strip() == "where" else len(text)
        yield from ANTT.findall(line + " ")


def code_names(text, declaration):
    """What is declared by the words of the language; variants, parameters and fields."""
    text = COMMENT.sub("", text)
    yield from declaration.findall(text)
    for variants in VARIANTS.findall(text):
        yield from re.findall(r"^\s*(\w+)", variants, re.M)
    for taken in TAKEN.findall(text):
        yield from re.findall(r"(\w+)\s*:(?!:)", taken)


def entries(folder):
    """What stands in a folder, but for what the kit leaves in crates/NAME/out."""
    return (inner for inner in folder.iterdir() if inner.name != "out" or folder.parent != ROOT / "crates")


def files_in(folder):
    for inner in entries(folder):
        if inner.is_dir():
            yield from files_in(inner)
        else:
            yield inner


@lru_cache(None)
def declared_in(path):
    """The names that a file declares, or that the files of a folder do."""
    if path.is_dir():
        return frozenset().union(*(declared_in(inner) for inner in entries(path)))
    declarations = {".rt": RATTLE, ".h": C, ".c": C, ".py": PYTHON}
    if path.suffix in declarations:
        return frozenset(code_names(path.read_text(encoding="utf-8"), declarations[path.suffix]))
    return frozenset(antt_names(path.read_text(encoding="utf-8")) if path.suffix == ".antt" else ())


@lru_cache(None)
def declared_for(folder):
    """What the sources declare, the crates, and the files of crates and sheets: modules, labels, samples, stdin and stdout.
    Scripts count only for the pages in their own folder, since some of their names are also names of the code."""
    crates = (code.parent.name for code in ROOT.glob("crates/*/src"))
    files = (path.stem for base in ("crates", "sheets") for path in files_in(ROOT / base))
    scripts = frozenset() if folder == ROOT else declared_in(folder)
    return scripts.union(*(declared_in(ROOT / source) for source in SOURCES), crates, files)


def found_file(page, path):
    """The file or folder that a page means, from the root, from crates/ or from the page's folder; None if there is none."""
    return next((found for base in (ROOT, ROOT / "crates", page.parent) for found in base.glob(path)), None)


def path_in(text):
    """The path that a text is, or that a command line begins with."""
    first = text.partition(" ")[0]
    return first if PATH.fullmatch(first) and not NOT_HERE.match(first) else None


def name_in(text):
    """The name that a text is, without what a call hands over."""
    name = NAME.fullmatch(text)
    return name[1] if name and name[1] not in ALLOWED and not TYPE.fullmatch(text) else None


def citations(page):
    """What a page cites, each with the first line where it stands. Read backwards, since a file follows its names."""
    text = FENCED.sub(lambda block: "\n" * block[0].count("\n"), page.read_text(encoding="utf-8"))
    line_of, file, following = {}, None, len(text)
    for span in reversed(list(SPAN.finditer(text))):
        path, name = path_in(span[1]), name_in(span[1])
        if not BETWEEN.fullmatch(text[span.end() : following]):
            file = None
        if path:
            file = path if path.endswith((".antt", ".rt", "/")) else None
        if path or name:
            cited = Citation(path, None, None) if path else Citation(None, name, file)
            line_of[cited] = text.count("\n", 0, span.start()) + 1
        following = span.start()
    return line_of


def complaint(page, cited):
    """What is wrong, or None."""
    if cited.path:
        found = found_file(page, cited.path) or any(ROOT.glob(f"crates/*/{cited.path}"))
        return None if found else f"{cited.path}: no such file"
    parts = cited.name.split("::")
    if not declared_for(page.parent).issuperset(parts):
        return f"{cited.name} is declared nowhere"
    home = cited.file and found_file(page, cited.file)
    return f"{cited.name} is not declared in {cited.file}" if home and parts[-1] not in declared_in(home) else None


def main():
    passed = failed = 0
    for page in (page for pattern in PAGES for page in sorted(ROOT.glob(pattern))):
        for cited, line in sorted(citations(page).items(), key=lambda item: item[1]):
            wrong = complaint(page, cited)
            passed, failed = passed + (not wrong), failed + bool(wrong)
            if wrong:
                print(f"{page.relative_to(ROOT)}:{line}: {wrong}")
    print(f"{passed} passed, {failed} failed")
    return 0 if passed and not failed else 1


if __name__ == "__main__":
    sys.exit(main())
