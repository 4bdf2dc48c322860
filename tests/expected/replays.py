#!/usr/bin/env python3
"""Writes the cases of the program `test_replay`, crates/test_replay/data/, and what it is to print, crates/test_replay/stdout. The head of
crates/test_replay/src/main.rt has the form of a case. The library isn't run: answers and bytes are those of a marker, written from "The
marker" of paper 01, on the listings of families.py. That a list that doesn't fit its buffers changes nothing is docs/DECISIONS.md's.

    python3 tests/expected/replays.py"""
from families import BRANCHES, KINDS, PLACES, Filtered, Ranks, family, full_name, is_object, length, name, not_allowed, refusal
from samples import (
    BELOW_FLOOR,
    BEYOND_DERANGEMENTS,
    BEYOND_EDITIONS,
    DERANGEMENTS_MISSED,
    EDITIONS_MISSED,
    FLOORS_MISSED,
    LARGE_DERANGEMENTS,
    LARGE_EDITIONS,
    LARGE_FLOORS,
    LARGEST,
    NO_DERANGEMENTS,
    NO_PARTITIONS,
    OTHER_LENGTHS,
    SAMPLES,
    SMALL_DERANGEMENTS,
    SMALL_EDITIONS,
    SMALL_FLOORS,
    WRONG_EDITIONS,
    WRONG_FLOORS,
    some_bytes,
)
from texts import words, write_program

CODES = {"FIRST": 1, "LAST": 2, "NEXT": 3, "PREVIOUS": 4, "UNRANK": 5}
CALLS = {code: call for call, code in CODES.items()}
WRITTEN, STEPPED, END = 20, 21, 100
UNWRITTEN = 255


class Marker:
    """A place on the listing, or None for nowhere. It is fed the family, the bytes before the first call and the calls, no answer."""

    def __init__(self, f, way, before):
        self.f, self.before = f, tuple(before)
        # what the table doesn't allow has an empty listing
        self.listing = None if not_allowed(f) else way(f)
        self.place = self.listing.rank(self.before) if self.listing and is_object(f, self.before) else None

    def call(self, call, rank):
        """Moves it, and gives the code of the answer."""
        no = refusal(call, self.f, self.before, rank, self.place is not None)
        if no:
            return no
        last = self.listing.count() - 1
        if call in ("NEXT", "PREVIOUS"):
            there = self.place + (1 if call == "NEXT" else -1)
            if not 0 <= there <= last:
                return END
            self.place = there
            return STEPPED
        self.place = {"FIRST": 0, "LAST": last, "UNRANK": rank}[call]
        return WRITTEN

    def bytes(self):
        return self.before if self.place is None else self.listing.object(self.place)


class Case:
    def __init__(self, label, codes, ranks, f, x, answers, trail, way=Filtered):
        self.label, self.codes, self.ranks, self.f, self.x, self.answers, self.trail, self.way = label, codes, ranks, f, x, answers, trail, way

    def line(self):
        sections = self.codes, self.ranks, self.f.numbers(), self.x, self.f.counts, (self.answers, self.trail)
        return f"{self.label}:" + " /".join(map(words, sections))

    def printed(self):
        many = len(self.codes)
        if not set(self.codes) <= set(CALLS) or (len(self.ranks), self.answers, self.trail) != (many, many, many * len(self.x)):
            return self.left("misfit", [UNWRITTEN] * self.answers, [UNWRITTEN] * self.trail, self.x)
        marker, answers, trail = Marker(self.f, self.way, self.x), [], []
        for code, rank in zip(self.codes, self.ranks):
            answers.append(marker.call(CALLS[code], rank))
            trail += marker.bytes()
        return self.left("ran", answers, trail, marker.bytes())

    def left(self, how, answers, trail, x):
        return f"{self.label}: {how}, answers{words(answers)}, trail{words(trail)}, object{words(x)}"


def fitting(label, calls, f, x, way=Filtered):
    """A case whose buffers fit. `calls`: names, and a number for UNRANK with that rank."""
    codes = [CODES["UNRANK" if isinstance(c, int) else c] for c in calls]
    ranks = [c if isinstance(c, int) else 0 for c in calls]
    return Case(label, codes, ranks, f, list(x), len(codes), len(codes) * len(x), way)


def in_no_order(many, count, seed):
    """Calls by a sequence of remainders, so that they are the same wherever this is run; one rank in six is too large."""
    calls = []
    for _ in range(many):
        seed = (seed * 1103515245 + 12345) % 2**31
        call = ["FIRST", "LAST", "NEXT", "PREVIOUS", "NEXT", "PREVIOUS", "UNRANK"][seed // 2**16 % 7]
        calls.append(seed // 2**20 % (count + count // 5 + 1) if call == "UNRANK" else call)
    return calls


def everywhere(f):
    """To END and beyond, there and back, through the ranks, from no object, and in no order."""
    listing = Filtered(f)
    count, none = listing.count(), [9] * length(f)
    first, last = listing.object(0), listing.object(count - 1)
    on, back = ["NEXT"] * (count - 1), ["PREVIOUS"] * (count - 1)
    lists = [
        ("no calls", [], last),
        ("on to END and beyond", ["FIRST", *on, "NEXT", "NEXT", "PREVIOUS"], none),
        ("back to END and beyond", ["LAST", *back, "PREVIOUS", "PREVIOUS", "NEXT"], none),
        ("there and back", on + back, first),
        ("back and there", back + on, last),
        ("one beyond and back", [*on, "NEXT", *back, "PREVIOUS"], first),
        ("through the ranks", [*range(count), count, LARGEST, "NEXT", 0, "PREVIOUS", "NEXT"], none),
        ("from no object", ["NEXT", count, "PREVIOUS", "FIRST", "NEXT", "PREVIOUS", "PREVIOUS"], none),
        ("in no order", in_no_order(40, count, 1 + f.kind + f.n + f.k), none),
        ("in no order, from an object", in_no_order(40, count, 100 + f.kind + f.n + f.k), last),
    ]
    yield from (fitting(f"{name(f)}, {what}", calls, f, x) for what, calls, x in lists)


def small_families():
    fs = [family(1, n, k) for n, k in ((0, 0), (3, 0), (3, 3), (4, 2), (5, 3))]
    fs += [family(2, len(counts), 0, counts) for counts in ((), (0,), (3,), (2, 1), (1, 0, 2), (2, 2))]
    fs += [family(3, n) for n in (0, 1, 3, 4)]
    fs += [family(4, n, k) for n, k in ((0, 0), (3, 3), (4, 2))]
    fs += [family(5, n, k) for n, k in ((0, 0), (4, 1), (7, 3))]
    fs += [family(6, n) for n in (0, 1, 3)]
    for f in fs:
        yield from everywhere(f)


# with ranks on both sides of a count of 6
EVERY_CALL = ["FIRST", "NEXT", 0, "LAST", 5, "PREVIOUS", 6, "NEXT", LARGEST, "NEXT"]
# none of which moves from bytes that are no object
STAYS = ["NEXT", LARGEST, "PREVIOUS", "NEXT"]


def refusals():
    up = lambda n: range(1, n + 1)
    cases = [
        (1, "", family(0, 4, 2), up(2)),
        (1, "", family(KINDS + 1, 4, 2), up(2)),
        (1, "", family(LARGEST, 4, 2), up(2)),
        (2, "", family(1, PLACES + 1, 2), up(2)),
        (2, "", family(1, 4, PLACES + 1), up(2)),
        (2, "", family(3, 4, 1), up(4)),
        (2, "", family(6, BRANCHES + 1), up(PLACES)),
        (2, "", family(7, 4, 2), up(2)),
        (3, " with n 3", family(2, 3, 0, (1, 1)), up(2)),
        (3, "", family(2, 2, 0, (PLACES, 1)), up(2)),
        (3, " with a count", family(1, 4, 2, (0,)), up(2)),
        (4, "", family(1, 2, 4), up(4)),
        (4, "", family(4, 3, 0), up(3)),
        (4, "", family(5, 3, 0), up(0)),
        (4, "", family(5, 3, 4), up(4)),
        (5, "", family(3, 21), up(21)),
        (6, " on 3 bytes", family(1, 4, 2), up(3)),
        (6, " on no byte", family(1, 4, 2), up(0)),
        (8, "", family(1, 4, 2), up(2)),
    ]
    for q, more, f, x in cases:
        yield fitting(f"question {q}, {name(f)}{more}", EVERY_CALL, f, x, Ranks)
    for f in SAMPLES:
        yield fitting(f"question 7, {name(f)}, nothing written", STAYS, f, [0] * length(f))
        yield fitting(f"question 7, {name(f)}, then 1 written", [*STAYS, 1, *STAYS], f, [0] * length(f))


def large_families():
    fs = [family(1, 67, 33), family(1, 68, 34), family(2, 2, 0, (40, 40)), family(2, 5, 0, (0, 6, 0, 7, 8)), family(3, 20), family(3, 80)]
    fs += [family(4, 26, 9), family(4, 80, 40), family(5, 80, 18), family(6, 36), family(6, 40)]
    calls = ["NEXT", "FIRST", "NEXT", "NEXT", 123456789012, "NEXT", "PREVIOUS", "PREVIOUS", "LAST", "NEXT", "PREVIOUS", LARGEST, "PREVIOUS"]
    return [fitting(name(f), calls, f, [0] * length(f), Ranks) for f in fs]


def misfits():
    f, x, empty = family(1, 4, 2), [1, 3], family(1, 3, 0)
    cases = [
        ("all fit", [1, 3, 5], [0, 0, 5], f, x, 3, 6),
        ("code 0", [1, 0, 3], [0, 0, 0], f, x, 3, 6),
        ("code 0 at the end", [1, 3, 0], [0, 0, 0], f, x, 3, 6),
        ("code 6", [6, 3, 3], [0, 0, 0], f, x, 3, 6),
        ("code 6 at the end", [1, 3, 6], [0, 0, 0], f, x, 3, 6),
        ("code 255", [1, 255, 3], [0, 0, 0], f, x, 3, 6),
        ("a rank too few", [1, 3, 5], [0, 0], f, x, 3, 6),
        ("a rank too many", [1, 3, 5], [0, 0, 5, 0], f, x, 3, 6),
        ("no ranks", [1, 3, 3], [], f, x, 3, 6),
        ("an answer too few", [1, 3, 5], [0, 0, 5], f, x, 2, 6),
        ("an answer too many", [1, 3, 5], [0, 0, 5], f, x, 4, 6),
        ("no answers", [1, 3, 5], [0, 0, 5], f, x, 0, 6),
        ("a byte of the trail too few", [1, 3, 5], [0, 0, 5], f, x, 3, 5),
        ("a byte of the trail too many", [1, 3, 5], [0, 0, 5], f, x, 3, 7),
        ("an object of the trail too few", [1, 3, 5], [0, 0, 5], f, x, 3, 4),
        ("an object of the trail too many", [1, 3, 5], [0, 0, 5], f, x, 3, 8),
        ("no trail", [1, 3, 5], [0, 0, 5], f, x, 3, 0),
        ("no calls, all fit", [], [], f, x, 0, 0),
        ("no calls, a rank", [], [0], f, x, 0, 0),
        ("no calls, an answer", [], [], f, x, 1, 0),
        ("no calls, a trail", [], [], f, x, 0, 2),
        ("no bytes, all fit", [1, 3, 4], [0, 0, 0], empty, [], 3, 0),
        ("no bytes, a trail", [1, 3, 4], [0, 0, 0], empty, [], 3, 1),
        ("no bytes, a trail as long as the calls", [1, 3, 4], [0, 0, 0], empty, [], 3, 3),
        ("no kind, all fit", [1, 3, 4], [0, 0, 0], family(KINDS + 1, 4, 2), x, 3, 6),
        ("no kind, code 6", [1, 3, 6], [0, 0, 0], family(KINDS + 1, 4, 2), x, 3, 6),
        ("k beside kind 7, all fit", [1, 3, 4], [0, 0, 0], family(7, 4, 2), x, 3, 6),
        ("k beside kind 7, code 6", [1, 3, 6], [0, 0, 0], family(7, 4, 2), x, 3, 6),
    ]
    return [Case(*c) for c in cases]


def of_a_kind(small, large, missed, no_objects, number=None, wrong=()):
    """What is asked of one kind: small families everywhere, large ones, families that miss a question, and bytes that are no object. Of a field of its
    own also values that the question of that number refuses, on every kind."""
    for f in small:
        yield from everywhere(f)
    for f in large:
        middle = Ranks(f).count() // 2
        calls = ["FIRST", "PREVIOUS", "NEXT", middle, "NEXT", "PREVIOUS", "PREVIOUS", "LAST", "NEXT", "PREVIOUS", LARGEST]
        yield fitting(name(f), calls, f, [0] * length(f), Ranks)
    for f, x in wrong:
        yield fitting(f"question {number}, {name(f)}", EVERY_CALL, f, x, Ranks)
    for q, f in missed:
        yield fitting(f"question {q}, {full_name(f)}", ["FIRST", "NEXT", 0, "LAST", "PREVIOUS"], f, some_bytes(f), Ranks)
    for f, x in no_objects:
        yield fitting(f"question 7, {name(f)} at{words(x)}", [*STAYS, 0, *STAYS], f, x)


def floors():
    return of_a_kind(SMALL_FLOORS, LARGE_FLOORS, FLOORS_MISSED, BELOW_FLOOR, 10, WRONG_FLOORS)


def editions():
    return of_a_kind(SMALL_EDITIONS, LARGE_EDITIONS + BEYOND_EDITIONS, EDITIONS_MISSED, NO_PARTITIONS, 11, WRONG_EDITIONS)


def derangements():
    yield from of_a_kind(SMALL_DERANGEMENTS, LARGE_DERANGEMENTS + BEYOND_DERANGEMENTS, DERANGEMENTS_MISSED, NO_DERANGEMENTS)
    for f, x in OTHER_LENGTHS:
        yield fitting(f"question 6, {name(f)} on {len(x)} bytes", EVERY_CALL, f, x)


def main():
    made = {
        "small_families": small_families,
        "refusals": refusals,
        "large_families": large_families,
        "misfits": misfits,
        "floors": floors,
        "editions": editions,
        "derangements": derangements,
    }
    write_program("test_replay", made)


main()
