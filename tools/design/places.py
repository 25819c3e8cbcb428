#!/usr/bin/env python3
"""places.py [-v] [ROOT]: the places in crates/*/src that the eight points of docs/DESIGN-PASS.md speak of, counted by their text.
-v names each. ROOT is the top of a checkout, here by default."""
import collections
import pathlib
import re
import sys

VERBOSE = '-v' in sys.argv
ROOT = pathlib.Path(next((a for a in sys.argv[1:] if a != '-v'), '.'))
FILES = sorted(ROOT.glob('crates/*/src/*.rt'))
NAME = r'[A-Za-z_]\w*'


def code_of(path):
    """The lines of a file without its comments."""
    return [re.sub(r'//.*', '', line) for line in path.read_text().split('\n')]


def functions(path):
    """Each function: name, line, parameters, clauses, body."""
    text = '\n'.join(code_of(path))
    for found in re.finditer(r'\bfn (%s)(?:<[^{(]*>)?\(' % NAME, text):
        depth, at = 1, found.end()
        while depth and at < len(text):
            depth += {'(': 1, ')': -1}.get(text[at], 0)
            at += 1
        parameters = text[found.end():at - 1]
        # a body is the first brace that begins a line; a clause's braces do not
        body = re.compile(r'^ *\{', re.M).search(text, at)
        if not body:
            continue
        end, depth = body.end(), 1
        while depth and end < len(text):
            depth += {'{': 1, '}': -1}.get(text[end], 0)
            end += 1
        yield (found.group(1), text[:found.start()].count('\n') + 1, parameters, text[at:body.start()], text[body.end():end - 1])


def place(path, line):
    return '%s:%d' % (path.relative_to(ROOT), line)


def of_pattern(pattern):
    return [place(p, i + 1) + ' ' + l.strip() for p in FILES for i, l in enumerate(code_of(p)) if re.search(pattern, l)]


def enums():
    """Enums of two cases, of which one holds what is wanted and the other nothing, or the reason why there is nothing."""
    out = []
    for path in FILES:
        text = '\n'.join(code_of(path))
        for found in re.finditer(r'\benum (%s) \{(.*?)^\}' % NAME, text, re.S | re.M):
            cases = re.findall(r'^    (%s)(\([^)]*\)| \{)?' % NAME, found.group(2), re.M)
            payloads = [c for c in cases if c[1]]
            if len(cases) == 2 and payloads and (len(payloads) == 1 or any('Refusal' in c[1] for c in cases)):
                out.append(place(path, text[:found.start()].count('\n') + 1) + ' ' + found.group(1))
    return out


def twins():
    """Functions of four or more lines whose bodies differ only in names, types and numbers."""
    groups = collections.defaultdict(list)
    for path in FILES:
        for name, line, parameters, _, body in functions(path):
            if len([l for l in body.split('\n') if l.strip()]) < 4:
                continue
            seen = {}
            shape = re.sub(r"[A-Za-z_]\w*|\d[\d_]*", lambda m: m.group(0) if m.group(0) in ('if', 'else', 'while', 'for', 'in', 'match', 'let', 'mut', 'return', 'as')
                           else seen.setdefault(m.group(0), 'x%d' % len(seen)), re.sub(r'\s+', ' ', body))
            groups[shape].append(place(path, line) + ' ' + name)
    return [' ~ '.join(g) for g in groups.values() if len(g) > 1]


def long_lists():
    return [place(p, line) + ' %s (%d)' % (name, len([x for x in re.split(r',(?![^<\[(]*[>\])])', parameters) if x.strip()]))
            for p in FILES for name, line, parameters, _, _ in functions(p)
            if len([x for x in re.split(r',(?![^<\[(]*[>\])])', parameters) if x.strip()]) >= 6]


def facts():
    """Premises that stand in three or more contracts, by their text without the names of the arguments' fields."""
    groups = collections.defaultdict(list)
    for path in FILES:
        for name, line, _, clauses, _ in functions(path):
            for premise in re.findall(r'requires(?: \w+)? \{([^}]*)\}', clauses):
                groups[re.sub(r'\s+', ' ', premise.strip())].append(place(path, line) + ' ' + name)
    return ['%s: %d contracts' % (k, len(v)) for k, v in groups.items() if len(v) >= 3]


def arms():
    """Matches of which two arms or more call the same function."""
    out = []
    for path in FILES:
        text = '\n'.join(code_of(path))
        for found in re.finditer(r'^( *)(?:let [^=]* = )?match [^{]*\{\n(.*?)^\1\}', text, re.S | re.M):
            calls = collections.Counter(re.findall(r'=> (?:return )?((?:\w+::)*\w+)\(', found.group(2)))
            if any(n > 2 and c not in ('Some', 'Ok', 'Err') for c, n in calls.items()):
                out.append(place(path, text[:found.start()].count('\n') + 1))
    return out


COUNTS = [
    ('1 own enums of the shape of Option or Result', enums),
    ('1 a failure handed on by hand', lambda: of_pattern(r'if let \w+::(Failed|Refused)\(')),
    ('1 a sign or a flag with a value beside it', lambda: of_pattern(r'^\s*(pub )?(negative|is_\w+|has_\w+): bool')),
    ('2 groups of functions alike but for names, types and numbers', twins),
    ('3 while loops', lambda: of_pattern(r'^\s*while ')),
    ('4 casts by as', lambda: of_pattern(r' as [iu](8|16|32|64|size|128)\b')),
    ('5 functions of six parameters or more', long_lists),
    ('5 premises in three contracts or more', facts),
    ('6 a buffer with a position beside it', lambda: [place(p, line) + ' ' + name for p in FILES for name, line, parameters, _, _ in functions(p) if re.search(r'buffer: &mut \[u8\],\s*at: usize', parameters)]),
    ('6 two slices for one list', lambda: [place(p, line) + ' ' + name for p in FILES for name, line, parameters, _, _ in functions(p) if re.search(r'high: &(mut )?\[', parameters)]),
    ('7 matches that call one function from three arms or more', arms),
    ('8 proofs that walk the code by hand', lambda: [str(p.relative_to(ROOT)) for p in sorted(ROOT.glob('crates/*/proofs/**/Proof.antt'))]),
]
for title, count in COUNTS:
    found = count()
    print('%s: %d' % (title, len(found)))
    if VERBOSE:
        for f in found:
            print('    ' + f)
