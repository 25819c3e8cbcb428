#!/usr/bin/env python3
"""changed.py OLD NEW: the public functions, definitions, constants and ghost items that differ between two checkouts, old and new side by side,
as the last part of docs/DESIGN-PASS.md has them. The kit's contracts.py reads both. A definition that differs only by the words of RENAMED is
told by its name alone."""
import importlib.util
import os
import pathlib
import re
import shutil
import sys

OLD, NEW = sys.argv[1:3]
KIT = pathlib.Path(os.environ.get('RATTLE_HOME') or pathlib.Path(shutil.which('rt')).resolve().parent.parent)
SPEC = importlib.util.spec_from_file_location('contracts', KIT / 'port' / 'contracts.py')
contracts = importlib.util.module_from_spec(SPEC)
SPEC.loader.exec_module(contracts)

# What a public function is called now, or what states its promise now, where its name is gone.
CALLED = {
    ('refusals', 'number_of'): 'number', ('refusals', 'place_of'): 'place',
    ('judging', 'lengths_verdict'): 'check_lengths', ('judging', 'limit_or_tolerance_verdict'): 'check_limit_or_tolerance',
    ('judging', 'angles_verdict'): 'check_angles', ('judging', 'fixed_verdict'): 'check_fixed', ('judging', 'misclosures_verdict'): 'check_misclosures',
    ('judging', 'results_verdict'): 'check_results', ('judging', 'sine_entries_verdict'): 'check_sine_entries',
    ('judging', 'squares_verdict'): 'check_squares', ('judging', 'fixed_sum_verdict'): 'check_fixed_sum', ('judging', 'rounds_verdict'): 'check_rounds',
    ('sheet_rules', 'values_verdict'): 'check_values', ('pass_rules', 'first_given_verdict'): 'check_first_given',
    ('pass_rules', 'second_given_verdict'): 'check_second_given', ('pass_steps', 'store_signed'): 'store',
}
RENAMED = [
    (r'\bVerdict\.Passed\b|\bPassed\b', 'Ok tt'), (r'\bVerdict\.Failed\b|\bFailed\b', 'Err'), (r'\b(Look|Reading|SecondAnswer)\.Refused\b', 'Err'),
    (r'\bRefused\b', 'Err'), (r'\bNowhere\b', 'None'), (r'\bAt\b', 'Some'), (r'\bAs\b', 'Some'), (r'\bIs\b', 'Some'), (r'\bNothing\b|\bNoKind\b|\bNoRoom\b', 'None'),
    (r'\bWritten\b', 'Some'), (r'\bLowest\b', 'Option ℕ'), (r'\bReported\b', 'Option ℕ'), (r'\bNamedKind\b', 'Option Kind'), (r'\bNamed\b', 'Option Figure'),
    (r'\bHead\b', 'headed'), (r'\bRead\b', 'read_as'), (r'\bDone\b', 'done_with'),
]


def plain(text):
    """The text without brackets and spaces, with today's words, so that only what else differs is seen."""
    for old, new in RENAMED:
        text = re.sub(old, new, text)
    return re.sub(r'[\s()]+', '', text)


def one(text):
    return ' '.join(text.split())


def told(function):
    """The signature of a function with its clauses, as one line."""
    clauses = ' '.join('%s %s{ %s }' % (kind, name + ' ' if name else '', one(text)) for kind, name, text in
                       [(c[0], c[1], c[2]) for c in function['requires'] + function['ensures']])
    return one(function['sign'] + ' ' + clauses)


def public(read):
    """The public functions by crate and name; a method and a function of one name stand beside one another."""
    found = {}
    for (crate, _, place, name), all_of in read.items():
        for function in all_of:
            if function['pub'] and not function['test']:
                found.setdefault((crate, name), []).append((place, function))
    return found


def side_by_side(name, old, new):
    print('- `%s`\n  - old: `%s`\n  - new: %s' % (name, old, '`%s`' % new if new else 'gone'))


_, old_functions, old_ghosts, old_definitions, _, _ = contracts.read(OLD)
_, new_functions, new_ghosts, new_definitions, _, _ = contracts.read(NEW)
before, now = public(old_functions), public(new_functions)
print('### Public functions\n')
ALIKE = 0
for (crate, name), all_of in sorted(before.items()):
    called = CALLED.get((crate, name), name)
    for place, function in all_of:
        others = now.get((crate, called), []) if called else []
        if any(told(f) == told(function) for _, f in others):
            ALIKE += 1
            continue
        side_by_side('%s %s%s' % (crate, place + '::' if place else '', name), told(function),
                     ' and '.join((called + ' ' if called != name else '') + told(f) for _, f in others))
print('\n%d others are as they were. New ones:\n' % ALIKE)
for (crate, name), all_of in sorted(now.items()):
    if (crate, name) not in before and (crate, name) not in [(c, n) for (c, _), n in CALLED.items()]:
        for place, function in all_of:
            print('- `%s %s%s`: `%s`' % (crate, place + '::' if place else '', name, told(function)))

print('\n### Definitions\n')
SAME = []
for key in sorted(old_definitions):
    was, is_now = ' '.join(map(one, old_definitions[key])), ' '.join(map(one, new_definitions.get(key, [])))
    if was == is_now:
        continue
    elsewhere = [k for k in new_definitions if k[1] == key[1] and ' '.join(map(one, new_definitions[k])) == was]
    if elsewhere:
        print('- `%s %s` stands in %s, the same' % (*key, elsewhere[0][0]))
    elif plain(was) == plain(is_now):
        SAME.append('`%s`' % key[1])
    else:
        side_by_side('%s %s' % key, was, is_now)
print('\nThe same but for the words of the types: ' + ', '.join(SAME) + '. New ones: '
      + ', '.join('`%s`' % k[1] for k in sorted(new_definitions) if k not in old_definitions) + '.')

print('\n### Constants and ghost items\n')
for key in sorted(old_ghosts):
    if sorted(old_ghosts[key]) != sorted(new_ghosts.get(key, [])):
        side_by_side(' '.join(key), ', '.join(old_ghosts[key]), ', '.join(new_ghosts.get(key, [])))
