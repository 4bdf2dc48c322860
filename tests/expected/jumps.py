#!/usr/bin/env python3
"""Writes the cases of the program `test_jumps`, crates/test_jumps/data/, its args, and what it is to print, crates/test_jumps/stdout. The head
of crates/test_jumps/src/main.rt has the form of a case. The library isn't run: a jump is written from "Jump by a signed distance" of paper 02,
on the listings of families.py, with Python's integers.

    python3 tests/expected/jumps.py"""
from functools import cache

from families import FITS, PLACES, Filtered, Ranks, count, family, full_name, length, name, refusal
from samples import (
    BELOW_FLOOR,
    DERANGEMENTS_MISSED,
    EDITIONS_MISSED,
    FLOORS_MISSED,
    LARGE_DERANGEMENTS,
    LARGE_EDITIONS,
    LARGE_FLOORS,
    NO_DERANGEMENTS,
    NO_PARTITIONS,
    SAMPLES,
    SMALL_DERANGEMENTS,
    SMALL_EDITIONS,
    SMALL_FAMILIES,
    SMALL_FLOORS,
    WRONG_EDITIONS,
    WRONG_FLOORS,
    missing,
    some_bytes,
)
from texts import words, write_program

SMALLEST, LARGEST = -(2**63), 2**63 - 1
# bytes and counts that the program has room for
MOST = 100


@cache
def listing(f):
    return Filtered(f) if length(f) <= 8 and count(f) <= 24 else Ranks(f)


def jump(f, x, d):
    """What stands in front of the bytes, nothing where an object is written, and the bytes after the jump."""
    no = refusal("RANK", f, x)
    if no:
        return f" refused {no}", x
    there = listing(f).rank(x) + d
    if 0 <= there <= listing(f).count() - 1:
        return "", listing(f).object(there)
    return " END", x


class Case:
    """Jumps from the bytes x, by each distance from `first` to `last`, or by the first alone."""

    def __init__(self, label, f, x, first, last=None):
        self.label, self.f, self.x, self.first, self.last = label, f, tuple(x), first, first if last is None else last
        assert SMALLEST <= self.first <= self.last <= LARGEST
        assert not set(label) & set(":;/") and len(self.x) <= MOST and len(f.counts) <= MOST

    def line(self):
        return f"{self.label}:{words(self.f.numbers())} / {self.first} {self.last} /{words(self.x)} /{words(self.f.counts)}"

    def printed(self):
        text = ""
        for d in range(self.first, self.last + 1):
            said, y = jump(self.f, self.x, d)
            text += f" {d}:{said}{words(y)}"
            if said == "" and d != SMALLEST:
                # "restores the bytes"
                assert jump(self.f, y, -d) == ("", self.x)
                text += f", back{words(self.x)}"
            text += ";"
        return f"{self.label}:{text}"


def from_rank(f, r, first, last=None):
    return Case(f"{name(f)} from {r}", f, listing(f).object(r), first, last)


def everywhere(fs):
    """From every object, to every object and beyond both ends."""
    for f in fs:
        many = listing(f).count()
        assert many == count(f) <= 24
        for r in range(many):
            yield from_rank(f, r, -many - 2, many + 2)


def small_families():
    yield from everywhere(SMALL_FAMILIES)


# one object each
ALONE = tuple(family(*f) for f in ((1, 5, 0), (1, 5, 5), (2, 0), (2, 1, 0, (3,)), (3, 0), (3, 1), (4, 0, 0), (5, 0, 0), (6, 0), (7, 0), (7, 2)))


def both_ends():
    """The ends of the signed numbers, and distances that are small again where bits are lost: from the first object, a middle one and the last."""
    for f in (*SAMPLES, *ALONE):
        many = listing(f).count()
        for r in sorted({0, many // 2, many - 1}):
            yield from_rank(f, r, SMALLEST, SMALLEST + 2)
            for power in (8, 16, 31, 32):
                yield from_rank(f, r, -(2**power) - 1, -(2**power) + 1)
            yield from_rank(f, r, -1, 1)
            for power in (8, 16, 31, 32):
                yield from_rank(f, r, 2**power - 1, 2**power + 1)
            yield from_rank(f, r, LARGEST - 2, LARGEST)


def in_no_order(seed):
    """Numbers of 63 bits by a sequence of remainders, so that they are the same wherever this is run."""
    while True:
        drawn = 0
        for _ in range(3):
            seed = (seed * 1103515245 + 12345) % 2**31
            drawn = drawn * 2**21 + seed // 2**10
        yield drawn


def far(f, drawn):
    """From the first object, one in the middle and the last: onto both ends and one beyond them. Between objects in no order, and anywhere."""
    last = count(f) - 1
    middle = 1234567890123456789 % (last + 1)
    wanted = [(0, -1, 1), (0, last), (0, last + 1), (0, LARGEST), (last, -1, 1), (last, -last), (last, -last - 1), (last, SMALLEST)]
    wanted += [(middle, -middle), (middle, -middle - 1), (middle, last - middle), (middle, last - middle + 1)]
    for sign in (1, -1):
        here, there = (next(drawn) * next(drawn) % (last + 1) for _ in range(2))
        wanted += [(here, there - here), (there, sign * next(drawn))]
    return [case for case in dict.fromkeys(wanted) if all(SMALLEST <= d <= LARGEST for d in case[1:])]


def half_way(f):
    """Where 2^63 objects or more stand on one side: the longest jumps, onto both ends and one beyond them."""
    last = count(f) - 1
    yield from ((r, d) for r in (2**63 - 1, 2**63) for d in (SMALLEST, -LARGEST))
    yield from ((r, LARGEST) for r in (last - LARGEST, last - LARGEST + 1))
    yield from ((0, LARGEST), (last, SMALLEST), (last, -LARGEST))


def far_and_half_way(fs, drawn):
    for f in fs:
        assert count(f) < FITS
        wanted = far(f, drawn) + (list(half_way(f)) if count(f) > 2**63 else [])
        for r, *distances in dict.fromkeys(wanted):
            yield from_rank(f, r, *distances)


def large_families():
    fs = [family(1, n, k) for n, k in ((67, 33), (80, 21), (80, 3), (80, 80))]
    fs += [family(2, len(counts), 0, counts) for counts in ((33, 34), (0, 6, 0, 7, 8), (78, 2))]
    fs += [family(3, 20)]
    fs += [family(4, n, k) for n, k in ((65, 2), (26, 9), (80, 79))]
    fs += [family(5, n, k) for n, k in ((80, 18), (80, 70), (80, 3))]
    fs += [family(6, 36)]
    yield from far_and_half_way(fs, in_no_order(2))
    # sums that are ranks again where they lose a bit
    f = family(4, 65, 2)
    last = count(f) - 1
    assert last == FITS - 2
    yield from_rank(f, 0, -3, 3)
    yield from_rank(f, last, -3, 3)
    yield from_rank(f, last, LARGEST)


def refused(label, q, f, x):
    """By no distance, one on and one back, and by both ends of the signed numbers."""
    assert refusal("RANK", f, tuple(x)) == q
    for distances in ((SMALLEST,), (-1, 1), (LARGEST,)):
        yield Case(f"question {q}, {label}", f, x, *distances)


def refusals():
    for q, f in missing():
        x = some_bytes(f)
        yield from refused(full_name(f), q, f, x)
        # 6, or 7, behind it
        yield from refused(f"{full_name(f)}, a byte more", q, f, x + (1,))
        if x:
            yield from refused(f"{full_name(f)}, no object", q, f, (0,) * len(x))
    for f in SAMPLES:
        x = listing(f).object(1)
        for y in (x[:-1], x + x[-1:], (), (0,) * (len(x) + 1), (1,) * (PLACES + 1)):
            yield from refused(f"{name(f)} on {len(y)} bytes", 6, f, y)
        for y in ((0,) * len(x), (x[0] + 2,) + x[1:], x[:-1] + (255,)):
            yield from refused(f"{name(f)}, no object", 7, f, y)
    # the empty object alone, and a byte
    for f in ALONE:
        if length(f) == 0:
            yield from refused(f"{name(f)} on 1 byte", 6, f, (0,))
    # objects of other counts
    f = family(2, 2, 0, (1, 2))
    yield from refused(name(f), 7, f, (1, 1, 2))
    yield from refused(name(f), 6, f, (1, 1, 2, 2))


def of_a_kind(small, large, seed, missed, no_objects, number=None, wrong=()):
    """What is asked of one kind: small families everywhere, large ones, families that miss a question, and bytes that are no object. Of a field of its
    own also values that the question of that number refuses, on every kind."""
    yield from everywhere(small)
    yield from far_and_half_way(large, in_no_order(seed))
    for f, x in wrong:
        yield from refused(name(f), number, f, x)
    for q, f in missed:
        yield from refused(full_name(f), q, f, some_bytes(f))
    for f, x in no_objects:
        yield from refused(f"{name(f)} at{words(x)}", 7, f, x)


def floors():
    return of_a_kind(SMALL_FLOORS, LARGE_FLOORS, 4, FLOORS_MISSED, BELOW_FLOOR, 10, WRONG_FLOORS)


def editions():
    # edition 1 of the others is like those of `large_families`
    large = [f for f in LARGE_EDITIONS if f.edition == 2 or (f.n, f.k) == (80, 75)]
    return of_a_kind(SMALL_EDITIONS, large, 5, EDITIONS_MISSED, NO_PARTITIONS, 11, WRONG_EDITIONS)


def derangements():
    # families of at most 24 objects go everywhere
    small = [f for f in SMALL_DERANGEMENTS if count(f) <= 24]
    return of_a_kind(small, [family(7, 5), *LARGE_DERANGEMENTS], 6, DERANGEMENTS_MISSED, NO_DERANGEMENTS)


def main():
    made = {
        "small_families": small_families,
        "both_ends": both_ends,
        "large_families": large_families,
        "refusals": refusals,
        "floors": floors,
        "editions": editions,
        "derangements": derangements,
    }
    write_program("test_jumps", made)


main()
