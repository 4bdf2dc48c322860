#!/usr/bin/env python3
"""Writes the cases of the program `test_walks`, crates/test_walks/data/, its args, and what it is to print, crates/test_walks/stdout. The head
of crates/test_walks/src/main.rt has the form of a case. The library isn't run: a walk is written from "A walk that knows its number" of paper
02, on the listings of families.py. What that paper leaves open is docs/DECISIONS.md's: the walk beside a refused start keeps no bytes and the
number 0, what stands behind the bytes kept stays, and a run goes as many steps as have room for their answers.

    python3 tests/expected/walks.py"""
from functools import cache

from families import BRANCHES, FITS, KINDS, PLACES, Filtered, Ranks, count, family, full_name, length, name, refusal
from samples import (
    BELOW_FLOOR,
    BEYOND_DERANGEMENTS,
    BEYOND_EDITIONS,
    DERANGEMENTS_MISSED,
    EDITIONS_MISSED,
    FLOORS_MISSED,
    LARGE_DERANGEMENTS,
    LARGE_EDITIONS,
    LARGE_FLOORS,
    LARGEST,
    NO_DERANGEMENTS,
    NO_PARTITIONS,
    SAMPLES,
    SMALL_DERANGEMENTS,
    SMALL_EDITIONS,
    SMALL_FLOORS,
    WRONG_EDITIONS,
    WRONG_FLOORS,
    some_bytes,
)
from texts import words, write_program

STEPPED, END = 21, 100
UNWRITTEN = 255
MOST = 100
ON, BACK = 1, 0


@cache
def listing(f):
    return Filtered(f) if length(f) <= 8 and count(f) <= 100 else Ranks(f)


def rank(f, x):
    """What RANK answers, as it is printed."""
    no = refusal("RANK", f, x)
    return f"refused {no}" if no else str(listing(f).rank(x))


class Walk:
    """A family, of which the lists beside it aren't kept, its bytes, which are the first `len` of an array with room for any object, and its rank."""

    def __init__(self, f, array, len, number):
        self.f, self.array, self.len, self.number = f._replace(counts=()), tuple(array), len, number

    def bytes(self):
        """The bytes kept, as far as the array goes."""
        return self.array[: self.len]

    def missed(self, f):
        """The first of the counter's questions 1 to 8 to which the answer is no, or 0: 7 and 8 are of the bytes and the number kept."""
        beyond = (0,) * min(1, max(0, self.len - PLACES))
        return refusal("RANK", f, self.bytes() + beyond) or (8 if self.number >= count(f) else 0)

    def step(self, way, counts):
        """One step, with these letter counts lent: the walk handed back, and the code of the answer."""
        f = self.f._replace(counts=counts)
        no = self.missed(f)
        if no:
            return self, no
        there = listing(f).rank(self.bytes()) + (1 if way == ON else -1)
        if not 0 <= there < count(f):
            return self, END
        if way == BACK and self.number == 0:
            return self, 8
        moved = listing(f).object(there) + self.array[self.len :]
        return Walk(f, moved, self.len, self.number + (1 if way == ON else -1)), STEPPED

    def digest(self):
        total = 0
        for v in (*self.f.numbers(), self.len, self.number, *self.array):
            total = (total * 257 + v + 1) % 1000003
        return total


def filled(x):
    """An array that begins with these bytes."""
    return tuple(x) + (0,) * (PLACES - len(x))


class Case:
    """`f`: the family, with the counts that the walk begins with. `made`: length and number of a walk that is made up, or nothing for one that
    starts at the bytes x. `legs`: the counts handed in, the steps, and the room for answers, as many as the steps where it isn't said."""

    def __init__(self, label, f, x, legs, made=()):
        self.label, self.f, self.x, self.made = label, f, tuple(x), made
        self.legs = [(counts, steps, room[0] if room else len(steps)) for counts, steps, *room in legs]
        assert self.legs[0][0] == f.counts and not set(label) & set(":;/")
        assert all(len(steps) <= MOST and room <= MOST for _, steps, room in self.legs) and len(x) <= (PLACES if made else MOST)

    def line(self):
        legs = ";".join(f"{words(counts)} / {room}{words(steps)}" for counts, steps, room in self.legs)
        return f"{self.label}:{words(self.f.numbers())} /{words(self.made)} /{words(self.x)};{legs}"

    def begun(self):
        """The walk, and what is printed of how it begins."""
        if self.made:
            return Walk(self.f, filled(self.x), *self.made), " made up"
        no = refusal("RANK", self.f, self.x)
        walk = Walk(self.f, filled(()), 0, 0) if no else Walk(self.f, filled(self.x), len(self.x), listing(self.f).rank(self.x))
        return walk, f" RANK {rank(self.f, self.x)}"

    def printed(self):
        walk, text = self.begun()
        for counts, steps, room in self.legs:
            # after no step, after one, ..
            walks, answers, said = [walk], [], ""
            for way in steps:
                walk, answer = walk.step(way, counts)
                walks.append(walk)
                answers.append(answer)
                said += f" {answer} {walk.number} {rank(self.f, walk.bytes())},"
            run = min(len(steps), room)
            written = answers[:run] + [UNWRITTEN] * (room - run)
            text += f";{said} digest {walk.digest()}, run{words(written)}, digest {walks[run].digest()}"
        kept = f", bytes{words(walk.bytes())}" if walk.len <= PLACES else ""
        return f"{self.label}:{text}; length {walk.len}, number {walk.number}{kept}"


def alike(f, *legs):
    """Legs that are all handed the counts that the walk begins with."""
    return [(f.counts, *(leg if isinstance(leg, tuple) else (leg,))) for leg in legs]


def in_no_order(many, seed):
    """Steps by a sequence of remainders, so that they are the same wherever this is run."""
    steps = []
    for _ in range(many):
        seed = (seed * 1103515245 + 12345) % 2**31
        steps.append(seed // 2**16 % 2)
    return steps


def everywhere(f):
    """From each object, or from three of many, to END and beyond; there and back, zigzag and in no order."""
    many, objects = count(f), listing(f)
    for r in range(many) if many <= 10 else (0, many // 2, many - 1):
        label, x = f"{name(f)} from {r}", objects.object(r)
        yield Case(f"{label}, on, then back", f, x, alike(f, [ON] * (many - r + 1), [BACK] * (many + 1)))
        yield Case(f"{label}, back", f, x, alike(f, [BACK] * (r + 2)))
    there, back = [ON] * (many - 1), [BACK] * (many - 1)
    first, middle, last = objects.object(0), objects.object(many // 2), objects.object(many - 1)
    if many > 1:
        yield Case(f"{name(f)}, there and back", f, first, alike(f, there, back))
        yield Case(f"{name(f)}, back and there", f, last, alike(f, back, there))
        yield Case(f"{name(f)}, zigzag on", f, first, alike(f, ([ON, ON, BACK] * 4, 5)))
        yield Case(f"{name(f)}, zigzag back", f, last, alike(f, ([BACK, BACK, ON] * 4, 0)))
        seed = 1 + f.n + f.k + 11 * f.kind
        yield Case(f"{name(f)}, in no order", f, middle, alike(f, (in_no_order(12, seed), 11), (in_no_order(12, seed + 1), 14)))


def small_families():
    fs = [family(1, n, k) for n, k in ((0, 0), (3, 0), (3, 3), (4, 2), (5, 3))]
    fs += [family(2, len(counts), 0, counts) for counts in ((), (0,), (0, 0), (3,), (2, 1), (1, 0, 2), (2, 2))]
    fs += [family(3, n) for n in (0, 1, 3, 4)]
    fs += [family(4, n, k) for n, k in ((0, 0), (3, 3), (4, 2))]
    fs += [family(5, n, k) for n, k in ((0, 0), (4, 1), (7, 3))]
    fs += [family(6, n) for n in (0, 1, 3, 4)]
    for f in fs:
        yield from everywhere(f)
    f = family(1, 4, 2)
    yield Case(f"{name(f)}, no steps", f, (2, 3), alike(f, [], ([], 3), [ON], []))


def marked(x):
    """An array that begins with these bytes, with others behind them that aren't 0."""
    return tuple(x) + tuple(1 + i % 9 for i in range(len(x), PLACES))


def wrong_numbers(f):
    """Numbers that aren't the rank: at the first object, at one in the middle and at the last."""
    many, size = count(f), length(f)
    for r in (0, many // 2, many - 1):
        x = marked(listing(f).object(r))
        for number in (0, many - 1):
            label = f"{name(f)}, number {number} at {r}"
            yield Case(f"{label}, on", f, x, alike(f, [ON, ON, BACK]), (size, number))
            yield Case(f"{label}, back", f, x, alike(f, [BACK, BACK, ON, BACK, BACK]), (size, number))
        for number in (many, LARGEST):
            yield Case(f"{name(f)}, number {number} at {r}", f, x, alike(f, [ON, BACK]), (size, number))


def numbers():
    for f in SAMPLES:
        yield from wrong_numbers(f)
    # in range and wrong by two: it stays wrong by two
    f = family(1, 5, 3)
    for number in (3, 7):
        legs = alike(f, [ON] * 3, [BACK] * 9, [ON] * 8)
        yield Case(f"{name(f)}, number {number} at 5", f, marked(listing(f).object(5)), legs, (3, number))
    # the empty object
    for f in (family(1, 3, 0), family(2, 0), family(2, 2, 0, (0, 0)), family(3, 0), family(4, 0, 0), family(5, 0, 0), family(6, 0), family(7, 0)):
        for number in (0, 1, LARGEST):
            yield Case(f"{name(f)}, number {number}", f, marked(()), alike(f, [ON, BACK]), (0, number))


def lengths():
    """Lengths that aren't the object's, which the array begins with: with its rank, and with a number that 8 would refuse."""
    for f in (*SAMPLES, family(1, 3, 0), family(2, 2, 0, (78, 2)), family(4, 80, 79)):
        r, right = count(f) // 2, length(f)
        x = marked(listing(f).object(r))
        for size in dict.fromkeys((0, max(right, 1) - 1, right, right + 1, 79, 80, 81, 200, 2**32 + right, LARGEST)):
            yield Case(f"{name(f)}, length {size}", f, x, alike(f, [ON, BACK]), (size, r))
        yield Case(f"{name(f)}, length {right + 1}, number {LARGEST}", f, x, alike(f, [ON, BACK]), (right + 1, LARGEST))


def no_objects():
    """Bytes that are no object, of the right length, with a number below the count and one that isn't."""
    for f in SAMPLES:
        x = listing(f).object(1)
        for y in ((0,) * len(x), (x[0] + 2,) + x[1:], x[:-1] + (255,)):
            assert refusal("RANK", f, y) == 7
            for number in (1, LARGEST):
                yield Case(f"{name(f)}, number {number} at{words(y)}", f, marked(y), alike(f, [ON, BACK]), (len(x), number))


def made_up():
    yield from numbers()
    yield from lengths()


# families that miss each question 1 to 5, with its number; some miss others behind it
MISSING = [
    (1, family(0, 4, 2)),
    (1, family(KINDS + 1, 4, 2)),
    (1, family(LARGEST, 4, 2)),
    # 1, and 2 and 3
    (1, family(KINDS + 1, PLACES + 1, 2, (1,))),
    (2, family(1, PLACES + 1, 2)),
    (2, family(1, 4, PLACES + 1)),
    (2, family(1, LARGEST, 0)),
    (2, family(3, 4, 1)),
    (2, family(6, BRANCHES + 1)),
    (2, family(7, 4, 2)),
    # 2, and 3; 2, and 3 and 4
    (2, family(7, PLACES + 1, 2, (1,))),
    (2, family(1, 2, PLACES + 1, (1, 1))),
    (3, family(2, 3, 0, (1, 1))),
    (3, family(2, 1, 0, (1, 1))),
    (3, family(2, 2, 0, (PLACES, 1))),
    (3, family(1, 4, 2, (0,))),
    # 3, and 4; 3, and 5
    (3, family(1, 2, 4, (0,))),
    (3, family(3, 21, 0, (1,))),
    (4, family(1, 2, 4)),
    (4, family(4, 3, 0)),
    (4, family(5, 3, 0)),
    (4, family(5, 3, 4)),
    (5, family(3, 21)),
    (5, family(1, PLACES, PLACES // 2)),
    (5, family(2, 2, 0, (40, 40))),
    (5, family(6, 37)),
]


def refusals():
    """Question 7 comes before 8; questions 1 to 5 come before 6, 7 and 8: with lengths and numbers of which some are missed too."""
    yield from no_objects()
    for q, f in MISSING:
        x = some_bytes(f)
        assert refusal("RANK", f, x) == q
        label = f"question {q}, {full_name(f)}"
        yield Case(f"{label}, at a start", f, x, alike(f, [ON, BACK]))
        for size, number in ((len(x), 0), (len(x) + 1, LARGEST), (PLACES + 1, 0), (LARGEST, LARGEST)):
            yield Case(f"{label}, length {size}, number {number}", f, x, alike(f, [ON, BACK]), (size, number))
    # 6 and 7 at a start, and from the walk beside it
    for f in SAMPLES:
        x = listing(f).object(0)
        for y in (x[:-1], x + x[-1:], (1,) * (PLACES + 1), (0,) * len(x)):
            what = words(y) if len(y) < 10 else f" {len(y)} bytes"
            yield Case(f"{name(f)}, at a start on{what}", f, y, alike(f, [ON, BACK]))
    # beside a refused start stands a walk that keeps no bytes: here that is an object
    f = family(1, 3, 0)
    yield Case(f"{name(f)}, at a start on a byte", f, (1,), alike(f, [ON, BACK]))
    f = family(1, 80, 80)
    yield Case(f"{name(f)}, at a start on 81 bytes", f, range(1, 82), alike(f, [ON, BACK]))


def lists_change():
    f = family(2, 2, 0, (2, 1))
    others = ((1, 2), (2, 0), (2, 1, 0), (2,), (), (3, 0), (0, 3), (0, 0), (1, 1), (2, 2), (80, 1), (255, 255), (0, 2, 1))
    for r in range(3):
        legs = [(f.counts, [])]
        for i, other in enumerate(others):
            legs += [(other, [ON, BACK], i % 4), (f.counts, [ON if i % 4 < 2 else BACK])]
        yield Case(f"{name(f)} from {r}, others between", f, listing(f).object(r), legs)
    # longer, there and back with others between
    for f, others in (
        (family(2, 3, 0, (1, 0, 2)), ((1, 2, 0), (2, 0, 1), (0, 1, 2), (1, 0, 1), (1, 2), (1, 0, 2, 0))),
        (family(2, 2, 0, (2, 2)), ((1, 3), (3, 1), (2, 1), (2, 2, 0))),
    ):
        many = count(f)
        legs = [leg for way in (ON, BACK) for i in range(many) for leg in ((f.counts, [way]), (others[i % len(others)], [1 - way, way]))]
        yield Case(f"{name(f)}, others behind each step", f, listing(f).object(0), legs)
    # the bytes of another list behind each other in the array: the length decides
    f = family(2, 2, 0, (2, 0))
    legs = [((2, 0), [ON, BACK]), ((2, 1), [ON, BACK]), ((1, 0), [ON, BACK]), ((2, 0), [ON])]
    yield Case(f"{name(f)}, 1 1 of 1 1 2", f, (1, 1, 2), legs, (2, 0))
    f = family(2, 2, 0, (2, 1))
    legs = [((2, 1), [ON, BACK]), ((2, 2), [ON, BACK]), ((2, 1), [ON])]
    yield Case(f"{name(f)}, 1 1 2 of 1 1 2 2", f, (1, 1, 2, 2), legs, (3, 0))
    # the number kept is below one count and not below the other, but the bytes are asked first
    f = family(2, 2, 0, (2, 2))
    legs = [((2, 2), [ON]), ((4, 0), [ON, BACK]), ((3, 1), [ON, BACK]), ((2, 2), [ON])]
    yield Case(f"{name(f)}, number 4", f, listing(f).object(4), legs, (4, 4))
    # kinds that have no counts
    for f in SAMPLES:
        if f.kind != 2:
            legs = [((), [ON]), ((0,), [ON, BACK]), ((), [ON]), ((1,) * length(f), [ON, BACK]), ((), [BACK])]
            yield Case(f"{name(f)}, counts handed in", f, listing(f).object(0), legs)
    # begun with a list that doesn't fit, then handed one that does
    f = family(2, 2, 0, (1, 2))
    yield Case(f"{name(f)}, begun at 1 1 2", f, (1, 1, 2), [((1, 2), [ON]), ((2, 1), [ON, BACK])])
    yield Case(f"{name(f)}, made up at 1 1 2", f, (1, 1, 2), [((1, 2), [ON]), ((2, 1), [ON, BACK]), ((1, 2), [BACK])], (3, 0))


def round_three(f):
    """Steps round the first object, one in the middle and the last."""
    many, objects = count(f), Ranks(f)
    on, back = [ON, ON, BACK, BACK, BACK, ON], [BACK, BACK, ON, ON, ON, BACK]
    middle = 1234567890123456789 % many
    yield Case(f"{name(f)} from the first", f, objects.object(0), alike(f, on))
    yield Case(f"{name(f)} from {middle}", f, objects.object(middle), alike(f, (back, 4)))
    yield Case(f"{name(f)} from the last", f, objects.object(many - 1), alike(f, [ON], (back, 7)))


def beyond(f):
    """Of a family with 2^64 objects or more."""
    yield Case(f"{name(f)} from the first", f, Ranks(f).object(0), alike(f, [ON, BACK]))
    yield Case(f"{name(f)}, number 1", f, Ranks(f).object(1), alike(f, [ON, BACK]), (length(f), 1))


def large_families():
    fs = [family(1, n, k) for n, k in ((67, 33), (80, 21), (80, 80), (68, 34), (80, 22))]
    fs += [family(2, len(counts), 0, counts) for counts in ((33, 34), (78, 2), (0, 80), (40, 40))]
    fs += [family(3, n) for n in (20, 21)]
    fs += [family(4, n, k) for n, k in ((65, 2), (26, 9), (80, 79), (80, 80), (66, 2))]
    fs += [family(5, n, k) for n, k in ((80, 18), (80, 70), (80, 80))]
    fs += [family(6, n) for n in (36, 37)]
    for f in fs:
        yield from round_three(f) if count(f) < FITS else beyond(f)
    f = family(4, 65, 2)
    many, objects = count(f), Ranks(f)
    assert many == LARGEST
    for number in (many - 2, many - 1, many):
        yield Case(f"{name(f)}, number {number} at 0", f, objects.object(0), alike(f, [ON, ON, ON], [BACK, ON]), (65, number))
        yield Case(f"{name(f)}, number {number} at {many - 2}", f, objects.object(many - 2), alike(f, [ON, ON, BACK]), (65, number))


def refused(q, f, x):
    """At a start, and made up there."""
    assert refusal("RANK", f, x) == q
    label = f"question {q}, {full_name(f)} at{words(x)}"
    yield Case(f"{label}, at a start", f, x, alike(f, [ON, BACK]))
    yield Case(f"{label}, made up", f, x, alike(f, [ON, BACK]), (len(x), 0))


def of_a_kind(small, made_up, large, missed, no_objects, number=None, wrong=()):
    """What is asked of one kind: small families everywhere, one with numbers that no start gives, large ones, families that miss a question, and bytes
    that are no object. Of a field of its own also values that the question of that number refuses, on every kind."""
    for f in small:
        yield from everywhere(f)
    yield from wrong_numbers(made_up)
    for f in large:
        yield from round_three(f) if count(f) < FITS else beyond(f)
    for f, x in wrong:
        yield from refused(number, f, x)
    for q, f in missed:
        yield from refused(q, f, some_bytes(f))
    for f, x in no_objects:
        yield from refused(7, f, x)


def floors():
    return of_a_kind(SMALL_FLOORS, family(5, 9, 3, floor=2), LARGE_FLOORS, FLOORS_MISSED, BELOW_FLOOR, 10, WRONG_FLOORS)


def editions():
    large = LARGE_EDITIONS + BEYOND_EDITIONS
    return of_a_kind(SMALL_EDITIONS, family(4, 5, 3, edition=2), large, EDITIONS_MISSED, NO_PARTITIONS, 11, WRONG_EDITIONS)


def derangements():
    yield from of_a_kind(SMALL_DERANGEMENTS, family(7, 5), LARGE_DERANGEMENTS + BEYOND_DERANGEMENTS, DERANGEMENTS_MISSED, NO_DERANGEMENTS)
    # far from both ends and back
    f = family(7, 20)
    on, back = [ON] * MOST, [BACK] * MOST
    yield Case(f"{name(f)}, far on and back", f, Ranks(f).object(0), alike(f, on, on, back, back, [BACK]))
    yield Case(f"{name(f)}, far back and on", f, Ranks(f).object(count(f) - 1), alike(f, back, back, on, on, [ON]))


def main():
    made = {
        "small_families": small_families,
        "made_up": made_up,
        "refusals": refusals,
        "lists_change": lists_change,
        "large_families": large_families,
        "floors": floors,
        "editions": editions,
        "derangements": derangements,
    }
    write_program("test_walks", made)


main()
