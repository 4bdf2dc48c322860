#!/usr/bin/env python3
"""Counts the places of docs/DESIGN-PASS.md, point by point, in crates/*/src and crates/*/proofs. With -l each place is listed."""
import collections
import glob
import re
import sys

LIST = '-l' in sys.argv[1:]
SOURCES = sorted(p for p in glob.glob('crates/*/src/*.rt') if not p.endswith('pascal/src/triangle.rt'))


def lines(pattern, paths=SOURCES):
    found = []
    for path in paths:
        for number, line in enumerate(open(path), 1):
            code = line.split('//')[0]
            if re.search(pattern, code):
                found.append(f'{path}:{number}: {line.strip()[:100]}')
    return found


def functions(path):
    """Every function: its name, its line, its clauses and its body, the body with names, numbers and strings taken out."""
    text = open(path).read()
    for m in re.finditer(r'^( *)(?:pub )?(?:extern "C" )?fn (\w+)', text, re.M):
        end = text.find('\n' + m[1] + '}', m.start())
        whole = text[m.start():end]
        head, _, body = whole.partition('\n' + m[1] + '{')
        shape = re.sub(r'b?"[^"]*"|\b\w+\b', 'x', re.sub(r'//.*', '', body))
        yield m[2], text.count('\n', 0, m.start()) + 1, head, re.sub(r'\s+', '', shape), body


def twins():
    """Functions of ten code words or more whose bodies have one shape: they differ in names, numbers and strings."""
    shapes = collections.defaultdict(list)
    for path in SOURCES:
        for name, line, head, shape, body in functions(path):
            if shape.count('x') >= 10:
                shapes[shape].append(f'{path}:{line}: {name}')
    return [' ~ '.join(places) for places in shapes.values() if len(places) > 1]


def facts():
    """Facts that three or more functions of a crate require."""
    found = collections.Counter()
    for path in SOURCES:
        crate = path.split('/')[1]
        for name, line, head, shape, body in functions(path):
            said = set()
            for clause in re.findall(r'requires[^{]*\{(.*)\}\s*$', head, re.M):
                for fact in clause.split(' × '):
                    fact = re.sub(r'\.(old|now|entry)\b', '', fact).strip(' ()')
                    said.add(fact)
            for fact in said:
                found[crate, fact] += 1
    return [f'{crate}: {n} functions: {fact}' for (crate, fact), n in sorted(found.items()) if n > 2]


def together():
    """Two or more parameters of the same names and types in three or more functions of a crate."""
    found = collections.Counter()
    for path in SOURCES:
        crate = path.split('/')[1]
        for name, line, head, shape, body in functions(path):
            m = re.search(r'\((.*?)\)\s*(?:->|$|\n)', head, re.S)
            parameters = [p.strip() for p in re.split(r',(?![^<\[]*[>\]])', m[1] if m else '') if ':' in p]
            found.update((crate, pair) for pair in zip(parameters, parameters[1:]))
    return [f'{crate}: {n} functions: {a}, {b}' for (crate, (a, b)), n in sorted(found.items()) if n > 2]


POINTS = [
    ('1 own enums', lambda: lines(r'^\s*(pub )?enum ')),
    ('1 refusals and codes as numbers', lambda: lines(r'\b(No|Refused|Wrong)\(|=> (20|21|100|101|q|0),?$|\b(q|code): u8')),
    ('1 kinds, editions, calls and letters as numbers', lambda: lines(r'match (f\.)?(kind|letter|code|call|row|edition)\b|\b(kind|edition|call|letter) [!=]= |\bedition: u64|\bkind: u64|\bletter: u8')),
    ('1 a place, or the length', lambda: lines(r'\bi == (object\.len\(\)|k) ')),
    ('2 functions of one shape', twins),
    ('3 loops that are no for', lambda: lines(r'^\s*(while|loop)\b')),
    ('4 copying, filling, comparing, swapping by hand', lambda: lines(r'fn (copy|copied|same|swap|turn_round|fill_up|fill_with|wide|low|with_digit|times)\b')),
    ('4 printing by hand', lambda: lines(r'\b(text|number|end_line)\(rt\b')),
    ('5 facts that three functions require', facts),
    ('5 parameters that travel together', together),
    ('6 a buffer with a length or a place beside it', lambda: lines(r'&mut \w+\[\.\.\w+\]|&\w+\[\.\.\w+\]|, at: usize|\bat: usize,|len: u64')),
    ('7 a direction, a way or a letter that says which step runs', lambda: lines(r'\b(up|on|more): bool|way: Way|call: u8|letter: u8')),
    ('8 whole proofs by hand', lambda: sorted(glob.glob('crates/*/proofs/**/Proof.antt', recursive=True))),
    ('8 answers `search rules` alone', lambda: lines(r'(=|λ c\.|λ c κs\.) (search rules|tt)\)?$', sorted(glob.glob('crates/*/proofs/**/*.antt', recursive=True)))),
]

for name, count in POINTS:
    places = count()
    print(f'{len(places):5}  {name}')
    if LIST:
        for place in places:
            print(f'         {place}')
