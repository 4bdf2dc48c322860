#!/usr/bin/env python3
"""Writes the cases of the program `test_calls`, crates/test_calls/data/, and what it is to print, crates/test_calls/stdout. The head of
crates/test_calls/src/main.rt has the form of a case and the letters. The library isn't run.

    python3 tests/expected/calls.py"""
from itertools import product

from families import BRANCHES, FLOORS, KINDS, PLACES, Filtered, Ranks, count, derangements, family, full_name, length, name, refusal, stirling
from samples import (
    BELOW_FLOOR,
    BEYOND_DERANGEMENTS,
    BEYOND_EDITIONS,
    DERANGEMENTS_MISSED,
    EDITIONS_MISSED,
    FLOORS_MISSED,
    LARGE_DERANGEMENTS,
    LARGE_EDITIONS,
    LARGE_FLOORS,
    LARGEST,
    NO_DERANGEMENTS,
    NO_PARTITIONS,
    OTHER_LENGTHS,
    WRONG_EDITIONS,
    WRONG_FLOORS,
    some_bytes,
)
from texts import words, write

CALLS = {"c": "COUNT", "r": "RANK", "f": "FIRST", "l": "LAST", "n": "NEXT", "p": "PREVIOUS", "u": "UNRANK"}
# how a walk begins and goes on, and how many objects it meets at most
WALKS = {
    "w": ("FIRST", "NEXT", None),
    "b": ("LAST", "PREVIOUS", None),
    "t": ("UNRANK", "UNRANK", None),
    ">": ("FIRST", "NEXT", 300),
    "<": ("LAST", "PREVIOUS", 300),
    "a": ("FIRST", "NEXT", None),
    "z": ("LAST", "PREVIOUS", None),
}
OBJECT = "written", "stepped"


def digest(objects):
    total = 0
    for x in objects:
        for b in (*x, 300):
            total = (total * 257 + b + 1) % 1000003
    return total


class Buffer:
    """The lent bytes, which the calls change as the marker says."""

    def __init__(self, f, listing, x):
        self.f, self.listing, self.x = f, listing, tuple(x)

    def call(self, call, rank=0):
        no = refusal(call, self.f, self.x, rank)
        if no:
            return f"refused {no}"
        if call == "COUNT":
            return str(self.listing.count())
        if call == "RANK":
            return str(self.listing.rank(self.x))
        last = self.listing.count() - 1
        if call in ("NEXT", "PREVIOUS"):
            at = self.listing.rank(self.x)
            if at == (last if call == "NEXT" else 0):
                return "END"
            self.x = self.listing.object(at + 1 if call == "NEXT" else at - 1)
            return "stepped"
        self.x = self.listing.object({"FIRST": 0, "LAST": last, "UNRANK": rank}[call])
        return "written"

    def walk(self, letter):
        """The answer, and the objects met."""
        start, step, limit = WALKS[letter]
        answer, met = self.call(start), []
        while answer in OBJECT and len(met) != limit:
            met.append(self.x)
            heard = self.call(step, len(met))
            answer = answer if limit else heard
        return answer, met


def printed(label, letters, rank, buffer):
    """The lines that a case prints."""
    for letter in letters:
        if letter in WALKS:
            title = f"{label}, {WALKS[letter][0]}, {WALKS[letter][1]} ..:"
            answer, met = buffer.walk(letter)
            if letter == "a":
                yield from (f"{title}{words(x)}, RANK {i}, UNRANK{words(x)}" for i, x in enumerate(met))
            elif letter == "z":
                yield from (f"{title}{words(x)}" for x in met)
            else:
                yield f"{title} {answer}, objects {len(met)}, digest {digest(met)}"
        else:
            call = CALLS[letter.lower()]
            title = f"{label}, {call} {rank}:" if call == "UNRANK" else f"{label}, {call}:"
            answer = buffer.call(call, rank)
            if letter.isupper():
                yield title + (words(buffer.x) if answer in OBJECT else f" {answer}")
            else:
                yield f"{title} {answer}" if letter in "cr" else f"{title} {answer}, digest {digest([buffer.x])}"


def case(label, letters, rank, f, x):
    """The line of a case; what is empty at its end is left out."""
    return f"{label}: {letters} {rank} /{words(f.numbers())} /{words(x)} /{words(f.counts)}".rstrip(" /")


def small_families():
    fs = []
    for n in range(7):
        fs += [family(kind, n, k) for k in range(7) for kind in (1, 4, 5)] + [family(3, n), family(6, n)]
    fs += [family(2, 3, 0, counts) for counts in product(range(4), range(4), range(3))]
    return [(name(f), "cwbt", 0, f, [0] * length(f), Filtered) for f in fs]


def refusals():
    up = lambda n: range(1, n + 1)
    cases = [
        (1, "", family(0, 4, 2), up(2), 0),
        (1, "", family(KINDS + 1, 4, 2), up(2), 0),
        (1, "", family(LARGEST, 4, 2), up(2), 0),
        (2, "", family(1, PLACES + 1, 2), up(2), 0),
        (2, "", family(1, 4, PLACES + 1), up(2), 0),
        (2, "", family(3, 4, 1), up(4), 0),
        (2, "", family(6, BRANCHES + 1), up(PLACES), 0),
        (2, "", family(7, 4, 2), up(2), 0),
        (3, " with n 3", family(2, 3, 0, (1, 1)), up(2), 0),
        (3, "", family(2, 2, 0, (PLACES, 1)), up(2), 0),
        (3, " with a count", family(1, 4, 2, (0,)), up(2), 0),
        (4, "", family(1, 2, 4), up(4), 0),
        (4, "", family(4, 3, 0), up(3), 0),
        (4, "", family(5, 3, 0), up(0), 0),
        (4, "", family(5, 3, 4), up(4), 0),
        (5, "", family(1, PLACES, PLACES // 2), up(PLACES // 2), 0),
        (5, "", family(3, 21), up(21), 0),
        (6, " on 3 bytes", family(1, 4, 2), up(3), 0),
        (7, "", family(6, 2), up(4), 0),
        (7, "", family(5, 7, 3), up(3), 0),
        (7, "", family(4, 4, 2), up(4), 0),
        (8, " with rank 6", family(1, 4, 2), up(2), 6),
        (8, f" with rank {LARGEST}", family(1, 4, 2), up(2), LARGEST),
        (8, " with its last rank", family(1, 4, 2), up(2), 5),
    ]
    return [(f"question {q}, {name(f)}{more}", "crnpulf", rank, f, list(x), Ranks) for q, more, f, x, rank in cases]


def large_families():
    fs = [family(1, n, k) for n, k in ((67, 33), (68, 34), (80, 21), (80, 40), (80, 80))]
    fs += [family(2, len(counts), 0, counts) for counts in ((33, 34), (40, 40), (0, 6, 0, 7, 8), (1,) * PLACES)]
    fs += [family(3, n) for n in (20, 21, 80)]
    fs += [family(4, n, k) for n, k in ((26, 9), (27, 8), (65, 2), (66, 2), (80, 40))]
    fs += [family(5, n, k) for n, k in ((80, 18), (80, 80))]
    fs += [family(6, n) for n in (36, 37, 40)]
    return [(name(f), "c><ur", 1234567890123456789, f, [0] * length(f), Ranks) for f in fs]


def listings():
    fs = [family(1, n, k) for n, k in ((0, 0), (3, 0), (4, 2), (5, 3), (5, 5))]
    fs += [family(2, len(counts), 0, counts) for counts in ((), (0,), (3,), (2, 1), (1, 0, 2), (1, 1, 1), (2, 2))]
    fs += [family(3, n) for n in (0, 1, 3, 4)]
    return [(name(f), "az", 0, f, [0] * length(f), Filtered) for f in fs]


def small_floors():
    """Walked both ways and through the ranks where there is an object."""
    fs = [family(5, n, k, floor=floor) for floor in range(2, 6) for n in range(10) for k in range(n + 2)]
    # at n and beyond it
    fs += [family(5, n, 1, floor=floor) for n in range(6, 10) for floor in (n, n + 1)]
    fs += [family(5, n, k, floor=FLOORS) for n in range(2) for k in range(2)]
    return [(name(f), "cwbt" if count(f) else "c", 0, f, [0] * length(f), Filtered) for f in fs]


def large_floors():
    """Steps from both ends; then the first object, one in the middle and the last, by their ranks, and steps round them."""
    for f in LARGE_FLOORS:
        yield name(f), "c><", 0, f, [0] * length(f), Ranks
        for r in sorted({0, count(f) // 2, count(f) - 1}):
            yield f"{name(f)} from {r}", "Urnpp", r, f, [0] * length(f), Ranks


def refused_floors():
    """COUNT and RANK of every family, and every call of some; all other calls of every family are test_replay's."""
    for f, x in WRONG_FLOORS:
        yield f"question 10, {name(f)}", "crnpulf" if f.kind == 5 or f.floor == 2 else "cr", 0, f, x, Ranks
    for q, f in FLOORS_MISSED:
        yield f"question {q}, {full_name(f)}", "crnpulf" if q == 4 else "cr", 0, f, some_bytes(f), Ranks
    for f, x in BELOW_FLOOR:
        yield f"question 7, {name(f)} at{words(x)}", "rnp", 0, f, x, Ranks


def small_editions():
    """Walked both ways and through the ranks where there is an object, in both editions; the smaller families of edition 2 listed, too."""
    for edition, n in product((1, 2), range(9)):
        for f in [family(4, n, k, edition=edition) for k in range(n + 2)]:
            listed = "az" if edition == 2 and n < 6 else ""
            yield name(f), "cwbt" + listed if count(f) else "c", 0, f, [0] * length(f), Filtered


def seams(f):
    """Ranks at which the key of the last model rises: the keys of the models in front all start over there."""
    alone, shared = stirling(f.n - 1, f.k - 1), stirling(f.n - 1, f.k)
    start = alone if f.edition == 1 else 0
    return [start + b * shared for b in (1, f.k - 1, f.k)] + [start]


def large_editions():
    """Steps from both ends; then steps round objects by their ranks: the first, some in the middle, those where the last key rises, and the last."""
    for f in LARGE_EDITIONS:
        last = count(f) - 1
        yield name(f), "c><", 0, f, [0] * length(f), Ranks
        for r in sorted({0, 1, *seams(f), last // 2, last // 3, last, last + 1}):
            # where r is no rank, UNRANK alone
            yield f"{name(f)} from {r}", "Urnppn" if r <= last else "u", r, f, [0] * length(f), Ranks
    yield from ((name(f), "c><", 0, f, [0] * length(f), Ranks) for f in BEYOND_EDITIONS)


def refused_editions():
    """As `refused_floors`."""
    for f, x in WRONG_EDITIONS:
        yield f"question 11, {name(f)}", "crnpulf" if f.kind == 4 or f.edition == 2 else "cr", 0, f, x, Ranks
    for q, f in EDITIONS_MISSED:
        yield f"question {q}, {full_name(f)}", "crnpulf" if q in (4, 5) else "cr", 0, f, some_bytes(f), Ranks
    for f, x in NO_PARTITIONS:
        yield f"question 7, {name(f)} at{words(x)}", "rnp", 0, f, x, Ranks


def small_derangements():
    """Walked both ways and through the ranks where there is an object; the smaller ones listed, too."""
    for f in [family(7, n) for n in range(8)]:
        listed = "az" if f.n < 6 else ""
        yield name(f), "cwbt" + listed if count(f) else "c", 0, f, [0] * length(f), Filtered


def turns(n):
    """Ranks at which f(n) rises, and where n goes into a cycle of two: the derangement that is left starts over there."""
    longer, two = derangements(n - 1), derangements(n - 2)
    return {longer, (n - 2) * longer, (n - 1) * longer, (n - 1) * longer + two, (n - 1) * longer + (n - 2) * two}


def large_derangements():
    """Steps from both ends; then steps round objects by their ranks: the first, those where f(n) rises, some between, and the last. Where ranks don't
    fit, steps alone, and far from both ends and back again."""
    for f in LARGE_DERANGEMENTS:
        last = count(f) - 1
        yield name(f), "c><", 0, f, [0] * length(f), Ranks
        for r in sorted({0, 1, *turns(f.n), last // 2, last // 3, last, last + 1}):
            yield f"{name(f)} from {r}", "Urnppn" if r <= last else "u", r, f, [0] * length(f), Ranks
    for f in BEYOND_DERANGEMENTS:
        yield name(f), "c><ru", 0, f, [0] * length(f), Ranks
    f = family(7, PLACES)
    # the 300 steps of the walk, 200 more, and all of them back
    yield f"{name(f)} on", ">" + "n" * 200 + "p" * 501, 0, f, [0] * length(f), Ranks
    yield f"{name(f)} back", "<" + "p" * 200 + "n" * 501, 0, f, [0] * length(f), Ranks


def refused_derangements():
    """As `refused_floors`; and lengths and ranks."""
    for q, f in DERANGEMENTS_MISSED:
        yield f"question {q}, {full_name(f)}", "crnpulf", 0, f, some_bytes(f), Ranks
    for f, x in OTHER_LENGTHS:
        yield f"question 6, {name(f)} on {len(x)} bytes", "crnpulf", 0, f, x, Ranks
    for f, x in NO_DERANGEMENTS:
        yield f"question 7, {name(f)} at{words(x)}", "rnp", 0, f, x, Ranks
    for f, r in ((family(7, 4), 8), (family(7, 4), 9), (family(7, 4), LARGEST), (family(7, 0), 1)):
        yield f"question 8, {name(f)} with rank {r}", "u", r, f, [0] * length(f), Ranks


# Typed from the sources, the answers too: source and number, letter, family, what is lent or the rank, the answer.
LISTED = [
    ("000 5.39", family(3, 4), "1234 1243 1324 1342 1423 1432 2134 2143"),
    ("000 5.40", family(1, 5, 2), "12 13 23 14 24 34 15 25 35 45 END"),
    ("004 3.1", family(1, 4, 4), "1234 END"),
    ("000 5.35", family(6, 3), "101010 101100 110010 110100 111000 END"),
    # an exercise without answers: here and below they are worked out in 004's order, by its recursion
    ("000 5.96", family(7, 4), "2341 3421 4312 3142 2413 4123 4321 3412 2143 END"),
]
WORKED = [
    ("000 5.20", "r", family(3, 6), "462153", "463"),
    ("000 5.20", "U", family(3, 6), 397, "425163"),
    ("000 5.39", "L", family(3, 4), None, "4321"),
    ("000 5.23", "U", family(1, 8, 4), 53, "3568"),
    ("000 5.25", "r", family(2, 3, 0, (2, 3, 2)), "1223132", "23"),
    ("000 5.25", "U", family(2, 3, 0, (2, 3, 2)), 91, "2211323"),
    ("000 5.38", "N", family(2, 4, 0, (1, 2, 3, 1)), "2431332", "2432133"),
    ("000 5.38", "N", family(2, 4, 0, (1, 2, 3, 1)), "2432133", "2432313"),
    ("000 5.28", "r", family(4, 8, 4), "12322413", "1108"),
    ("000 5.28", "U", family(4, 7, 3), 111, "1223231"),
    ("004 3.3", "F", family(4, 7, 3), None, "1111123"),
    ("004 3.3", "L", family(4, 7, 3), None, "1233333"),
    # 001 prints the object (3, 0, 2, 0, 0) of order (5, 3), which "is the partition (124)(3)(5) in familiar form", and no number. By its sum (5)
    # the rank is 3 * 6 + 0 + 2 * 1 + 0 + 0; its NEXT makes (3, 1, 0, 0, 0) of it, which is (13)(24)(5); and the first object has "a codeword which
    # is just a string of 0's", which is (145)(2)(3).
    ("001 4 (2)", "r", family(4, 5, 3, edition=2), "11213", "20"),
    ("001 4 (2)", "U", family(4, 5, 3, edition=2), 20, "11213"),
    ("001 4 (2)", "N", family(4, 5, 3, edition=2), "11213", "12123"),
    ("001 4 (2)", "F", family(4, 5, 3, edition=2), None, "12311"),
    ("000 5.34", "r", family(6, 5), "1101100010", "24"),
    ("000 5.36", "U", family(6, 7), 211, "11011000111000"),
    ("000 5.41", "N", family(6, 3), "101100", "110010"),
    ("000 5.41", "F", family(6, 4), None, "10101010"),
    ("000 5.41", "L", family(6, 4), None, "11110000"),
    # f(7) = 4 and f(4) = 7: behind 6 * 265 + 3 * 44 others; left are 3 4 2 5 1, 3 4 2 1 and 3 1 2, the first two with c = 1, the last behind 1 other
    ("000 5.96", "r", family(7, 7), "3527614", "1723"),
    # 6 * 265 + 4 * 44 + 10: 7 and 5 exchanged, beside 3 4 5 1 2, of rank 10 = 1 * 9 + 1: 5 put before 2 in 3 4 2 1, of rank 1
    ("000 5.96", "U", family(7, 7), 1776, "3461725"),
    # "FIRST(D(2)) is the 2-cycle (1, 2)", "for all n >= 2, FIRST(D(n)) is the n-cycle (1, 2, 3, .., n)"
    ("004 3.4", "F", family(7, 2), None, "21"),
    ("004 3.4", "F", family(7, 9), None, "234567891"),
]


def published():
    """The lines of the cases, and of what they print."""
    examples = []
    for source, f, listed in LISTED:
        first, *rest = listed.split()
        examples.append((source, "F", f, None, first))
        examples += [(source, "N", f, x, y) for x, y in zip([first, *rest], rest)]
    cases, lines = [], []
    for source, letter, f, given, answer in examples + WORKED:
        rank = given if letter == "U" else 0
        x = [int(b) for b in given] if letter in "rN" else [0] * length(f)
        label = f"{source}, {name(f)}" + (f" at{words(x)}" if letter in "rN" else "")
        cases.append(case(label, letter, rank, f, x))
        said = answer if letter == "r" or answer == "END" else " ".join(answer)
        lines.append(f"{label}, {CALLS[letter.lower()]}" + (f" {rank}" if letter == "U" else "") + f": {said}")
    return cases, lines


def check_ranks():
    """In both editions, set partitions by rank are those that are sorted; and so are derangements."""
    for edition, n, k in product((1, 2), range(8), range(1, 9)):
        f = family(4, n, k, edition=edition)
        assert [Ranks(f).object(r) for r in range(count(f))] == Filtered(f).objects
    for f in [family(7, n) for n in range(8)]:
        assert [Ranks(f).object(r) for r in range(count(f))] == Filtered(f).objects


def main():
    check_ranks()
    made = {"small_families": small_families(), "refusals": refusals(), "large_families": large_families(), "listings": listings()}
    made["floors"] = [*small_floors(), *large_floors(), *refused_floors()]
    made["editions"] = [*small_editions(), *large_editions(), *refused_editions()]
    made["derangements"] = [*small_derangements(), *large_derangements(), *refused_derangements()]
    expected = []
    for file in open("crates/test_calls/args").read().split():
        if file == "published":
            cases, lines = published()
        else:
            cases = [case(*c[:5]) for c in made[file]]
            lines = [line for label, letters, rank, f, x, way in made[file] for line in printed(label, letters, rank, Buffer(f, way(f), x))]
        write(f"crates/test_calls/data/{file}", cases)
        expected += lines
    write("crates/test_calls/stdout", expected)


main()
