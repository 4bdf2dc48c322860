#!/usr/bin/env python3
"""Writes the cases of the program `test_checks`, crates/test_checks/data/, its args, and what it is to print, crates/test_checks/stdout. The head
of crates/test_checks/src/main.rt has the form of a case. The library isn't run: a check is written from "Checking a supplier's list" of paper 02,
on the listings of families.py. Of several wrong places, of which any will do, the smallest is expected, which the program's inner loop promises.

    python3 tests/expected/checks.py"""
from functools import cache
from itertools import combinations, product, zip_longest

from families import FITS, Filtered, Ranks, count, family, full_name, length, name, not_allowed
from samples import (
    BEYOND_DERANGEMENTS,
    BEYOND_EDITIONS,
    DERANGEMENTS_MISSED,
    EDITIONS_MISSED,
    FLOORS_MISSED,
    LARGE_DERANGEMENTS,
    LARGE_FLOORS,
    LARGEST,
    SAMPLES,
    SMALL_DERANGEMENTS,
    SMALL_EDITIONS,
    SMALL_FAMILIES,
    SMALL_FLOORS,
    WRONG_EDITIONS,
    WRONG_FLOORS,
    missing,
    some_bytes,
)
from texts import words, write_program

# bytes of a list, and bytes changed in it, that the program has room for
MOST, MOST_CHANGED = 65536, 4096
# up to so many entries and objects a list is compared with the whole listing, too
FEW = 4000


@cache
def listing(f):
    few_strings = f.kind == 6 or length(f) <= 8 and f.n <= 12
    return Filtered(f) if few_strings and count(f) <= 301 else Ranks(f)


@cache
def at_rank(f, r):
    return listing(f).object(r)


def first(f, many):
    return [at_rank(f, r) for r in range(many)]


def whole(f):
    return first(f, count(f))


def joined(entries):
    return tuple(b for x in entries for b in x)


def is_wrong(f, entries, data, place):
    """ "the entry isn't the object of that rank, is missing, or lies beyond the last object" """
    size, many = length(f), count(f)
    if place < min(entries, many):
        return data[place * size : (place + 1) * size] != at_rank(f, place)
    return place < max(entries, many)


def check(f, entries, data):
    no = not_allowed(f) or (4 if count(f) == 0 else 12 if len(data) != entries * length(f) else 0)
    if no:
        return f" refused {no}"
    for place in range(max(entries, count(f))):
        if is_wrong(f, entries, data, place):
            return f" wrong {place}"
    return " accepted"


def compared(f, entries, data):
    """The same of a list that no question refuses, against the whole listing: "it accepts exactly the full listing"."""
    size = length(f)
    own = [data[i * size : (i + 1) * size] for i in range(entries)]
    if own == whole(f):
        return " accepted"
    return f" wrong {next(i for i, (x, y) in enumerate(zip_longest(own, whole(f))) if x != y)}"


def spliced(x, data):
    """How the program makes the list from x: so many bytes of it, the bytes between, and x again from a place on."""
    most = min(len(x), len(data))
    head = next((i for i in range(most) if x[i] != data[i]), most)
    tail = next((i for i in range(most - head) if x[-1 - i] != data[-1 - i]), most - head)
    return head, len(x) - tail, *data[head : len(data) - tail]


class Case:
    """Lists of a family, each a number of entries and their bytes; the line has x, and of each list in what it differs from x."""

    def __init__(self, label, f, x, lists):
        self.label, self.f, self.x, self.lists = label, f, tuple(x), [(entries, tuple(data)) for entries, data in lists]
        assert not set(label) & set(":;/") and all(0 <= entries <= LARGEST and len(data) <= MOST for entries, data in self.lists)

    def line(self):
        lists = [(entries, *spliced(self.x, data)) for entries, data in self.lists]
        assert all(len(made) <= 3 + MOST_CHANGED for made in lists)
        return f"{self.label}:" + " /".join(map(words, (self.f.numbers(), self.f.counts, self.x, *lists)))

    def printed(self):
        said = []
        for entries, data in self.lists:
            said.append(check(self.f, entries, data))
            if "refused" not in said[-1] and max(entries, count(self.f)) <= FEW:
                assert said[-1] == compared(self.f, entries, data)
        return f"{self.label}:" + "".join(answer + ";" for answer in said)


def of_entries(label, f, lists):
    """Lists of whole entries, or of strings as long as those, of a small family."""
    return Case(f"{name(f)}, {label}", f, joined(whole(f)), [(len(entries), joined(entries)) for entries in lists])


def values(b, letters):
    """What a byte b is changed to: one more, 0, the largest, and the next letter of the listing."""
    above = [a for a in letters if a > b]
    return sorted({(b + 1) % 256, 0, 255, above[0] if above else letters[0]} - {b})


def changed(entries, places):
    """Each of these bytes changed."""
    data = joined(entries)
    letters = sorted(set(data))
    for i in places:
        yield from ((len(entries), data[:i] + (v,) + data[i + 1 :]) for v in values(data[i], letters))


def exchanged(entries, pairs):
    for i, j in pairs:
        own = list(entries)
        own[i], own[j] = own[j], own[i]
        yield own


def some_pairs(many):
    """All pairs of places; of more than 12, neighbours, and the ends and the middle."""
    some = {0, many // 2, many - 1}
    return [(i, j) for i, j in combinations(range(many), 2) if many <= 12 or j == i + 1 or {i, j} <= some]


def stranger(f):
    """An object of another family: the last subset of as many sites, with one more than all numbers of this one."""
    most = max(f.n, length(f)) + 1
    return tuple(range(most - length(f) + 1, most + 1))


def cut_and_longer(f):
    own = whole(f)
    yield own
    yield from (own[:m] for m in range(len(own)))
    yield from (own + [x] for x in (own[-1], own[0], stranger(f), (0,) * length(f)))
    yield own + own
    yield own[::-1]


def without(own):
    return [own[:i] + own[i + 1 :] for i in range(len(own))]


def doubled(own):
    """Each entry twice, and each in the place of the next, so that all others stand where they should."""
    return [own[: i + 1] + own[i:] for i in range(len(own))] + [own[: i + 1] + own[i : i + 1] + own[i + 2 :] for i in range(len(own) - 1)]


# at most 44 objects, which aren't the empty string
SMALL = [f for f in (*SMALL_FAMILIES, *SMALL_FLOORS, *SMALL_EDITIONS, *SMALL_DERANGEMENTS) if length(f)]


def changed_bytes():
    for f in SMALL:
        own = whole(f)
        yield Case(f"{name(f)}, a byte changed", f, joined(own), changed(own, range(len(own) * length(f))))


def changed_entries():
    for f in SMALL:
        own = whole(f)
        yield of_entries("whole, cut off and longer", f, cut_and_longer(f))
        yield of_entries("an entry dropped", f, without(own))
        yield of_entries("an entry doubled", f, doubled(own))


def exchanged_entries():
    for f in SMALL:
        own = whole(f)
        if len(own) > 1:
            yield of_entries("two entries exchanged", f, exchanged(own, some_pairs(len(own))))


# a family each whose only object is the empty string
EMPTY = (
    *(family(1, n, 0) for n in (0, 1, 5, 80)),
    *(family(2, len(counts), 0, counts) for counts in ((), (0,), (0,) * 80)),
    *(family(kind, 0) for kind in (3, 6, 7)),
    *(family(4, 0, 0, edition=edition) for edition in (1, 2)),
    *(family(5, 0, 0, floor=floor) for floor in (1, 2, 80)),
)


def empty_objects():
    for f in EMPTY:
        assert length(f) == 0 and count(f) == 1
        yield Case(f"{name(f)}, no bytes", f, (), [(entries, ()) for entries in (0, 1, 2, 3, 2**32, 2**32 + 1, 2**63, LARGEST)])
        yield Case(f"{name(f)}, some bytes", f, (0,), [(entries, data) for data in ((0,), (1,), (0, 0)) for entries in (0, 1, 2, 2**32, LARGEST)])


def wrapped(size, bits, many):
    """Numbers of entries whose bytes are so many only where all but the lowest bits are lost."""
    totals = (many + turns * 2**bits for turns in range(1, size))
    return [total // size for total in totals if total % size == 0]


def byte_lengths():
    for f in (*SAMPLES, family(3, 1), family(5, 4, 1), family(6, 4), family(1, 80, 64), family(3, 80), family(6, 40), family(4, 80, 40)):
        size = length(f)
        many = min(count(f), max(3, 112 // size))
        own = first(f, many)
        data = joined(own)
        near = [(many, data[:-1]), (many, data + (1,)), (many, data[:-size]), (many, data + own[-1])]
        near += [(many + 1, data), (many - 1, data), (0, data), (many, ()), (1, ()), (0, (1,)), (LARGEST, data), (LARGEST, ())]
        near += [(many * size, data), (size, data), (len(data) // size + 2**32, data)]
        # one byte is one entry, where that is as long as one
        near = [(entries, own) for entries, own in near if len(own) != entries * size]
        yield Case(f"{name(f)}, not so many bytes", f, data, near)
        lost = [
            (entries, data[:some])
            for bits in (64, 32)
            for some in sorted({0, 1, 2, 3, size - 1, size, len(data) - 1, len(data)})
            for entries in wrapped(size, bits, some)[:4]
        ]
        if lost:
            yield Case(f"{name(f)}, as many bytes if bits are lost", f, data, lost)


def damaged(f, own):
    """The entries as they are, fewer and more; the first, a middle and the last changed, dropped, doubled, and exchanged with the next."""
    size, many = length(f), len(own)
    entries = sorted({0, many // 2, many - 1})
    places = sorted({i * size + j for i in entries for j in (0, size // 2, size - 1)})
    lists = [own, [], own[:1], own[:-1], own + own[:1]]
    for i in entries:
        lists += [own[:i] + own[i + 1 :], own[: i + 1] + own[i:], own[:i] + [stranger(f)] + own[i + 1 :]]
    lists += exchanged(own, [(i, i + 1) for i in sorted({0, many // 2, many - 2}) if 0 <= i < many - 1])
    label = "whole" if many == count(f) else f"the first {many}"
    return Case(f"{name(f)}, {label}", f, joined(own), [*((len(x), joined(x)) for x in lists), *changed(own, places)])


def large_families():
    """Listings of long objects, and of many, whole."""
    fs = [family(1, n, k) for n, k in ((80, 1), (80, 80), (20, 19), (9, 4))]
    fs += [family(2, len(counts), 0, counts) for counts in ((80,), (0, 0, 80), (29, 1), (2, 2, 1, 1))]
    fs += [family(3, 5), family(4, 80, 1), family(4, 80, 80), family(4, 80, 80, edition=2), family(4, 7, 3), family(4, 7, 3, edition=2)]
    fs += [family(5, n, k) for n, k in ((80, 1), (80, 80), (80, 72), (80, 2), (25, 5))]
    fs += [f for f in LARGE_FLOORS if count(f) <= 2] + [family(5, 40, 5, floor=4), family(6, 6)]
    return [damaged(f, whole(f)) for f in fs]


def below_64_bits():
    """The first objects of many."""
    fs = [family(1, 67, 33), family(3, 20), family(4, 65, 2), family(5, 80, 18), family(6, 36)]
    assert all(FEW < count(f) < FITS for f in fs)
    return [damaged(f, first(f, 20)) for f in fs]


def beyond_64_bits():
    """The first of 2^64 objects or more: a list can only be too short."""
    fs = [family(1, 68, 34), family(2, 2, 0, (40, 40)), family(2, 16, 0, (5,) * 16), family(3, 21), family(3, 80)]
    fs += [family(4, 66, 2), family(4, 80, 40), family(6, 37), family(6, 40)]
    yield damaged(family(1, 80, 40), first(family(1, 80, 40), 60))
    yield from (damaged(f, first(f, 20)) for f in fs)


def each_other(f, g):
    """The listing of g, where f is asked for."""
    return of_entries(f"the listing of {full_name(g)}", f, [whole(g)])


def other_orders():
    """The right objects in an order that another program may have; and listings of families that differ in little."""
    fs = [family(1, 4, 2), family(1, 5, 3), family(1, 6, 3), family(2, 2, 0, (2, 2)), family(3, 4), family(4, 4, 2), family(4, 5, 2)]
    fs += [family(4, 4, 2, edition=2), family(5, 7, 3), family(5, 12, 4), family(6, 3), family(6, 4), family(7, 4), family(7, 5)]
    for f in fs:
        own = whole(f)
        by_the_last = lambda x: x[::-1]
        orders = [sorted(own), sorted(own, reverse=True), sorted(own, key=by_the_last), sorted(own, key=by_the_last, reverse=True)]
        yield of_entries("by dictionary, from the first and from the last byte, up and down", f, orders)
    dictionary = [(1, 2), (1, 3), (1, 4), (2, 3), (2, 4), (3, 4)]
    assert check(family(1, 4, 2), 6, joined(dictionary)) == " wrong 2"
    # permutations are anagrams of letters that stand once
    for f, g in (
        *((family(3, n), family(2, n, 0, (1,) * n)) for n in (1, 2, 3, 4)),
        (family(5, 9, 3), family(5, 9, 3, floor=2)),
        (family(1, 4, 2), family(1, 5, 2)),
        (family(2, 2, 0, (2, 1)), family(2, 2, 0, (1, 2))),
        (family(2, 3, 0, (1, 0, 2)), family(2, 2, 0, (1, 2))),
        (family(2, 3, 0, (1, 2, 0)), family(2, 2, 0, (1, 2))),
        (family(3, 4), family(7, 4)),
        (family(4, 4, 2), family(4, 4, 3)),
    ):
        yield from (each_other(f, g), each_other(g, f))


def editions():
    for n, k in ((4, 2), (5, 2), (5, 4), (3, 3), (4, 1)):
        one, two = family(4, n, k), family(4, n, k, edition=2)
        yield from (each_other(f, g) for f, g in product((one, two), repeat=2))
    yield from (damaged(f, first(f, 20)) for f in BEYOND_EDITIONS)


def derangements():
    yield from (damaged(f, first(f, 20)) for f in (*LARGE_DERANGEMENTS, *BEYOND_DERANGEMENTS))


def refused(label, f, x):
    """One entry x, a byte more, a byte less; no entry, no entry of a byte, and more than there are: behind other questions 12 is missed, too."""
    x = tuple(x)
    lists = [(1, x), (1, x + (1,)), (1, x[:-1]), (0, ()), (0, (1,)), (LARGEST, ()), (2, x)]
    return Case(f"{label}, {full_name(f)}", f, x, lists)


def refusals():
    for q, f in (*missing(), *FLOORS_MISSED, *EDITIONS_MISSED, *DERANGEMENTS_MISSED):
        yield refused("question 5 isn't put" if q == 5 else f"question {q}", f, some_bytes(f))
    for number, wrong in ((10, WRONG_FLOORS), (11, WRONG_EDITIONS)):
        yield from (refused(f"question {number}", f, x) for f, x in wrong)


def main():
    made = {
        "changed_bytes": changed_bytes,
        "changed_entries": changed_entries,
        "exchanged_entries": exchanged_entries,
        "empty_objects": empty_objects,
        "byte_lengths": byte_lengths,
        "large_families": large_families,
        "below_64_bits": below_64_bits,
        "beyond_64_bits": beyond_64_bits,
        "other_orders": other_orders,
        "editions": editions,
        "derangements": derangements,
        "refusals": refusals,
    }
    write_program("test_checks", made)


main()
