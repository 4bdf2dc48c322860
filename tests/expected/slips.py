#!/usr/bin/env python3
"""Writes what the program `test_slips` is to print: crates/test_slips/stdout, for the slips in crates/test_slips/data/ that
crates/test_slips/args names; and what `treelist` is to print for its crates/treelist/stdin: crates/treelist/stdout, the example that paper
01 prints in full. With Python's formatting.

    python3 tests/expected/slips.py

Where each part comes from:
- the fields, the second line, the lines printed and the refusals: "The slip" of paper 01;
- the fourth field of the first line, and the number of the first object: the request that printed numbers start at one, which `slip` quotes;
- the lines for data/NAME, slips with the fourth field 0: slips_from_0.txt, what test_slips printed for the same slips without it before there was a
  fourth field. It is used as it is, and what is made here for them must be the same;
- the lines for data/three/NAME (the slips as they were then), data/one/NAME (with the fourth field 1) and data/fourth/NAME (fourth fields of their
  own): made here.
That data/NAME and data/one/NAME are data/three/NAME with the field put in behind the first 12 bytes is checked."""
import os
import re
from itertools import zip_longest

from families import FITS, Filtered, Ranks, count, family, length, refusal
from texts import write

EARLIER = os.path.join(os.path.dirname(os.path.abspath(__file__)), "slips_from_0.txt")
FIELDS = {"": b"   0", "one": b"   1"}
LISTED = 1000
NUMBER = rb" *(0|[1-9][0-9]*)"


def numbers(line, many):
    """The numbers of a line of so many columns of 4, without its newline, or None."""
    columns = [line[4 * i : 4 * i + 4] for i in range(many)]
    if len(line) != 4 * many or not all(re.fullmatch(NUMBER, c) for c in columns):
        return None
    return [int(c) for c in columns]


def slip(data):
    """The family and the number of its first object; None for a slip that isn't well formed."""
    first, newline, rest = data.partition(b"\n")
    if not newline or len(first) not in (12, 16):
        return None
    # "a fourth field of 4 columns, 0 or 1, the number that the first object gets; a line of three fields means 1"
    start = {b"": 1, b"   0": 0, b"   1": 1}.get(first[12:])
    known = numbers(first[:12], 3)
    if start is None or known is None:
        return None
    kind, n, k = known
    counts = []
    if kind == 2 and n > 0:
        second, newline, rest = rest.partition(b"\n")
        counts = numbers(second, n) if newline else None
    return None if counts is None or rest else (family(kind, n, k, (min(c, 255) for c in counts)), start)


def text(data):
    f, start = slip(data) or (None, None)
    no = 9 if f is None else refusal("COUNT", f, ())
    if no not in (0, 5):
        return f"REFUSED{no:4}\n"
    listing = Filtered(f) if length(f) <= 8 and count(f) <= 100 else Ranks(f)
    shown = min(LISTED, count(f))
    lines = [f"{f.kind:4}{f.n:4}{f.k:4}{count(f) if count(f) < FITS else 'MANY':>20}"]
    lines += [f"{r + start:20}" + "".join(f"{b:4}" for b in listing.object(r)) for r in range(shown)]
    lines.append(f"{'MORE' if shown < count(f) else 'END':>20}")
    return "".join(line + "\n" for line in lines)


def digest(data):
    total = 0
    for b in data:
        total = (total * 257 + b + 1) % 1000003
    return total


def read(path):
    with open(path, "rb") as file:
        return file.read()


def slip_of(name):
    return read(f"crates/test_slips/data/{name}")


def printed(names):
    """The lines of test_slips for the slips of these names."""
    lines = []
    for name in names:
        made = text(slip_of(name))
        lines.append(f"{name}: bytes {len(made)}, digest {digest(made.encode())}")
        if len(made) < 600:
            lines += [f"{name}: {line}" for line in made.splitlines()]
    return lines


def check_field(name):
    """Stops where the slip isn't that of three fields with the field of its folder put in behind the first 12 bytes."""
    folder, base = os.path.split(name)
    if folder in FIELDS:
        three = slip_of(f"three/{base}")
        if slip_of(name) != three[:12] + FIELDS[folder] + three[12:]:
            raise SystemExit(f"slips.py: {name} isn't three/{base} with the field{FIELDS[folder].decode()} put in")


def main():
    names = open("crates/test_slips/args").read().split()
    for name in names:
        check_field(name)
    earlier = read(EARLIER).decode().splitlines()
    from_0 = [name for name in names if "/" not in name]
    for made, was in zip_longest(printed(from_0), earlier):
        if made != was:
            raise SystemExit(f"slips.py: made here: {made}\nslips_from_0.txt: {was}")
    write("crates/test_slips/stdout", earlier + printed(name for name in names if "/" in name))
    write("crates/treelist/stdout", text(read("crates/treelist/stdin")).splitlines())


main()
