#!/usr/bin/env python3
"""Lists the places in crates/*/src that may be written in an older form, point by point.

    tools/count_forms.py [FOLDER]

FOLDER has `crates`; without it, this repository is read. A place listed is one to look at: docs/DESIGN-PASS.md says of
each what became of it.
"""
import collections
import itertools
import pathlib
import re
import sys

ROOT = pathlib.Path(sys.argv[1] if len(sys.argv) > 1 else pathlib.Path(__file__).resolve().parent.parent)
SOURCES = {str(p.relative_to(ROOT / 'crates')): p.read_text() for p in sorted(ROOT.glob('crates/*/src/*.rt'))}
KEPT_WORDS = 'fn struct enum impl match if else return let mut while for in self Self Some None Ok Err true false'.split()


def lines_with(pattern):
    """Every line that has the pattern, with its place."""
    for name, text in SOURCES.items():
        for number, line in enumerate(text.splitlines(), 1):
            if re.search(pattern, line) and not line.lstrip().startswith('//'):
                yield f'{name}:{number}: {line.strip()}'


def items():
    """Every function, struct and enum of more than two lines, with its text."""
    for name, text in SOURCES.items():
        for found in re.finditer(r'^( *)(?:pub |pub\(crate\) )?(?:extern "C" )?(fn|struct|enum) (\w+)', text, re.M):
            end = re.search(rf'^{found[1]}\}}', text[found.start():], re.M)
            if end and text[found.start():found.start() + end.end()].count('\n') > 1:
                yield f'{name}: {found[3]}', text[found.start():found.start() + end.end()]


def shape(text):
    """An item without its contract, its names, its numbers and its texts."""
    text = re.sub(r'//.*|ghost use.*|^pub (\(crate\) )?', '', text)
    text = re.sub(r'(requires|ensures)\s+\w*\s*\{[^}]*\}', '', text)
    text = re.sub(r'"[^"]*"', 'T', text)
    return ' '.join(re.sub(r'\b\w+\b', lambda word: word[0] if word[0] in KEPT_WORDS else 'x', text).split())


def groups(pairs, least):
    """Keys that at least `least` values share."""
    found = collections.defaultdict(list)
    for key, value in pairs:
        found[key].append(value)
    for key, values in found.items():
        if len(values) >= least:
            yield f'{len(values)} times {key}: ' + ', '.join(values)


def constants():
    for name, text in SOURCES.items():
        for found in re.finditer(r'^(?:pub )?const \w+: \w+ = ([\d_]+);', text, re.M):
            yield f'the constant {found[1]}', name


def clauses():
    for name, text in SOURCES.items():
        for found in re.finditer(r'(?:requires|ensures) \w+ (\{[^}]*\})', text):
            yield f'{name.split("/")[0]} {found[1]}', found[0].split()[1]


def parameters():
    for name, text in SOURCES.items():
        for found in re.finditer(r'fn (\w+)[^(]*\(([^)]*)\)', text):
            names = sorted(part.strip().split(':')[0] for part in found[2].split(',') if ':' in part)
            for group in itertools.combinations(names, 2):
                yield f'{name.split("/")[0]} ({", ".join(group)})', found[1]


POINTS = {
    '1 enums': lines_with(r'^\s*(pub )?enum '),
    '1 results that are numbers or rows of numbers': lines_with(r'-> (u8|\[u(8|32); \d+\])|: \[u8; \d+\] ='),
    '1 a match on an Option or a Result': lines_with(r'^\s*(Some\(\w+\)|Ok\(\(\)\)) =>'),
    '2 items of one shape': groups(((shape(text), place) for place, text in items()), 2),
    '2 one number as a constant in several crates': groups(constants(), 2),
    '3 loops that count': lines_with(r'\b(while|loop)\b.*\{|\bfor \w+ in .*\.\.'),
    '4 equality, order, conversion, printing': lines_with(r'fn (number|words|fmt|at_most|equal|code|from|is_\w+)\b'),
    '4 taken apart by hand': lines_with(r'let \w+ \{|^\s*\w+: _,|\w+\[0\], \w+\[1\]'),
    '5 clauses that stand three times and more': groups(clauses(), 3),
    '5 what one clause says of another state': lines_with(r'(window_of|pair_of) \(F\.(Flash\.)?shows'),
    '5 parameters that travel together': groups(parameters(), 3),
    '6 a buffer with numbers beside it': lines_with(r'\w+: &(mut )?\[u8\],? *(at|start|pages)'),
    '7 dyn, boxes, function pointers': lines_with(r'\bdyn |Box<|: fn\('),
    '7 a match that chooses a call': lines_with(r'=> (self\.)?\w+(\.\w+)*\(.*under'),
}

for point, places in POINTS.items():
    places = list(places)
    print(f'{point}: {len(places)}')
    for place in places:
        print(f'    {place}')
