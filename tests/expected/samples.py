"""Families that several of the scripts beside try."""
from families import BRANCHES, EDITIONS, FITS, FLOORS, KINDS, PLACES, Ranks, family, length, refusal

LARGEST = FITS - 1
# one of each kind
SAMPLES = family(1, 4, 2), family(2, 2, 0, (2, 1)), family(3, 3), family(4, 4, 2), family(5, 7, 3), family(6, 3), family(7, 4)

# kinds 1 to 6, of at most 24 objects
SMALL_FAMILIES = (
    *(family(1, n, k) for n, k in ((0, 0), (5, 0), (1, 1), (5, 5), (3, 1), (4, 2), (7, 6), (5, 3), (6, 3))),
    *(family(2, len(counts), 0, counts) for counts in ((), (0,), (0, 0), (3,), (2, 1), (1, 0, 2), (2, 2), (1, 2, 1), (3, 3))),
    *(family(3, n) for n in range(5)),
    *(family(4, n, k) for n, k in ((0, 0), (1, 1), (4, 1), (3, 3), (3, 2), (4, 2), (5, 4), (5, 2))),
    *(family(5, n, k) for n, k in ((0, 0), (4, 1), (4, 4), (5, 2), (7, 3), (10, 3), (12, 4))),
    *(family(6, n) for n in range(5)),
)

# kind 5 with a floor: the empty split, which has no part below any floor; one object; several
SMALL_FLOORS = tuple(family(5, n, k, floor=floor) for n, k, floor in ((0, 0, FLOORS), (7, 2, 3), (11, 3, 2)))
LARGE_FLOORS = tuple(family(5, n, k, floor=floor) for n, k, floor in ((80, 1, FLOORS), (80, 2, 40), (80, 20, 2), (80, 20, 3), (80, 10, 2)))
# what is a split of old, and below the floor
BELOW_FLOOR = (family(5, 7, 2, floor=3), (5, 2)), (family(5, 9, 3, floor=2), (7, 1, 1)), (family(5, 9, 3, floor=2), (4, 4, 1))

# floors that question 10 refuses, at an object of the family of old: nothing else is missed
WRONG_FLOORS = [
    (f._replace(floor=floor), Ranks(f).object(1))
    for f in SAMPLES
    for floor in ((0, FLOORS + 1, LARGEST) if f.kind == 5 else (0, 2, FLOORS, LARGEST))
]
# families with a floor that miss other questions, or several: with the number of the first
FLOORS_MISSED = (
    # a number that is no kind, whatever the floor
    (1, family(0, 4, 2, floor=0)),
    (1, family(KINDS + 1, 7, 3, floor=2)),
    # 2, and 10
    (2, family(7, 7, 3, floor=2)),
    (2, family(5, PLACES + 1, 3, floor=0)),
    (2, family(5, 7, PLACES + 1, floor=FLOORS + 1)),
    (2, family(3, 4, 1, floor=2)),
    # 2 alone, and nothing overflows
    (2, family(5, LARGEST, LARGEST, floor=2)),
    (2, family(5, LARGEST, LARGEST, floor=LARGEST)),
    # 10, and 3; 10, and 4; 10, and 5
    (10, family(2, 3, 0, (1, 1), floor=2)),
    (10, family(5, 7, 3, (1,), floor=0)),
    (10, family(5, 3, 4, floor=FLOORS + 1)),
    (10, family(5, 0, 1, floor=0)),
    (10, family(5, PLACES, PLACES, floor=LARGEST)),
    (10, family(3, 21, floor=2)),
    (10, family(7, 4, 0, (1,), floor=2)),
    (10, family(7, 1, floor=2)),
    (10, family(7, 21, floor=2)),
    # 3 alone; 3, and 4
    (3, family(5, 9, 3, (0,), floor=2)),
    (3, family(5, 9, 5, (0,), floor=2)),
    # k parts of the floor are more than n; no parts
    (4, family(5, 9, 5, floor=2)),
    (4, family(5, 80, 2, floor=41)),
    (4, family(5, PLACES, PLACES, floor=FLOORS)),
    (4, family(5, 9, 0, floor=2)),
)

# kind 4 in edition 2: the empty string; one object; several
SMALL_EDITIONS = tuple(family(4, n, k, edition=2) for n, k in ((0, 0), (3, 3), (4, 2), (5, 2), (5, 4)))
# in both editions, with up to 2^64 - 1 objects and with up to 80 places; and in edition 2 with 2^64 objects or more
LARGE_EDITIONS = tuple(family(4, n, k, edition=edition) for n, k in ((80, 75), (65, 2), (26, 9), (42, 3), (49, 41), (80, 80)) for edition in (1, 2))
BEYOND_EDITIONS = tuple(family(4, n, k, edition=2) for n, k in ((31, 20), (66, 2), (80, 40)))
# what is no set partition in any edition: block 2 begun before 1, a block too few, one too many, one left out
NO_PARTITIONS = [(family(4, 4, 2, edition=2), x) for x in ((2, 1, 1, 2), (1, 1, 1, 1), (1, 2, 3, 1), (1, 1, 3, 1), (0, 1, 1, 0))]

# editions that question 11 refuses, at an object of the family of edition 1: nothing else is missed. The last are 1 and 2 where bits are lost.
WRONG_EDITIONS = [
    (f._replace(edition=edition), Ranks(f).object(1))
    for f in SAMPLES
    for edition in ((0, EDITIONS + 1, LARGEST, 2**8 + 1, 2**32 + 2) if f.kind == 4 else (0, 2, LARGEST, 2**8 + 1))
]
# families with an edition that miss other questions, or several: with the number of the first
EDITIONS_MISSED = (
    # a number that is no kind, whatever the edition
    (1, family(0, 4, 2, edition=0)),
    (1, family(KINDS + 1, 4, 2, edition=2)),
    # 2, and 11; 2 alone
    (2, family(7, 4, 2, edition=2)),
    (2, family(4, PLACES + 1, 2, edition=0)),
    (2, family(4, 4, PLACES + 1, edition=EDITIONS + 1)),
    (2, family(6, 3, 1, edition=2)),
    (2, family(4, LARGEST, LARGEST, edition=2)),
    # 10, and 11; 10 alone; 10, and 11 and 3
    (10, family(4, 4, 2, floor=2, edition=EDITIONS + 1)),
    (10, family(4, 4, 2, floor=0, edition=0)),
    (10, family(5, 7, 3, floor=FLOORS + 1, edition=2)),
    (10, family(1, 4, 2, floor=2, edition=2)),
    (10, family(4, 4, 2, floor=2, edition=2)),
    (10, family(4, 4, 2, (1,), floor=2, edition=EDITIONS + 1)),
    # 11 alone, behind a floor that passes
    (11, family(5, 9, 3, floor=2, edition=2)),
    # 11, and 3; 11, and 4; 11, and 5
    (11, family(2, 3, 0, (1, 1), edition=2)),
    (11, family(4, 4, 2, (1,), edition=EDITIONS + 1)),
    (11, family(4, 3, 4, edition=0)),
    (11, family(4, 3, 0, edition=EDITIONS + 1)),
    (11, family(5, 3, 4, edition=2)),
    (11, family(4, 66, 2, edition=0)),
    (11, family(3, 21, edition=2)),
    (11, family(7, 4, 0, (1,), edition=2)),
    (11, family(7, 1, edition=2)),
    (11, family(7, 21, edition=2)),
    # 3 alone; 3, and 4
    (3, family(4, 4, 2, (0,), edition=2)),
    (3, family(4, 3, 4, (0,), edition=2)),
    # more blocks than models; no blocks
    (4, family(4, 3, 4, edition=2)),
    (4, family(4, PLACES - 1, PLACES, edition=2)),
    (4, family(4, 3, 0, edition=2)),
    (5, family(4, 66, 2, edition=2)),
    (5, family(4, 31, 20, edition=2)),
)


# kind 7: the empty string; one object; several. With ranks, and without.
SMALL_DERANGEMENTS = tuple(family(7, n) for n in (0, 2, 3, 4, 5))
LARGE_DERANGEMENTS = family(7, 8), family(7, 20)
BEYOND_DERANGEMENTS = family(7, 21), family(7, PLACES)
# what is no derangement: the first, an inner, the last model in its place, all of them; a model twice, one that isn't there, 0
KEPT_PLACES = (1, 3, 4, 2), (4, 2, 1, 3), (2, 3, 1, 4), (1, 2, 3, 4)
NO_PERMUTATIONS = (2, 1, 2, 3), (2, 1, 4, 5), (2, 1, 4, 0)
NO_DERANGEMENTS = [(family(7, 4), x) for x in KEPT_PLACES + NO_PERMUTATIONS]
# derangements of other lengths
OTHER_LENGTHS = (family(7, 4), ()), (family(7, 4), (2, 3, 1)), (family(7, 4), (2, 3, 4, 5, 1)), (family(7, 0), (2, 1))

# families of kind 7 that miss a question, or several: with the number of the first
DERANGEMENTS_MISSED = (
    (2, family(7, 4, 1)),
    (2, family(7, 0, 1)),
    (2, family(7, PLACES + 1)),
    (2, family(7, LARGEST)),
    # 2, and 3; 2, and 4
    (2, family(7, 4, 4, (1, 1, 1, 1))),
    (2, family(7, 1, 1)),
    # 3 alone, with counts that kind 2 could have; 3, and 4; 3, and 5
    (3, family(7, 4, 0, (1, 1, 1, 1))),
    (3, family(7, 4, 0, (0,))),
    (3, family(7, 1, 0, (1,))),
    (3, family(7, 21, 0, (0,))),
    # one model, which keeps its place
    (4, family(7, 1)),
    (5, family(7, 21)),
)


def missing():
    """Families that miss each question 1 to 5, with its number; some miss others behind it."""
    yield from ((1, family(kind, 4, 2)) for kind in (0, KINDS + 1, LARGEST))
    yield 1, family(KINDS + 1, PLACES + 1, 2, (1,))
    yield from ((2, family(1, n, k)) for n, k in ((PLACES + 1, 2), (4, PLACES + 1), (LARGEST, 0)))
    yield from ((2, f) for f in (family(3, 4, 1), family(6, BRANCHES + 1), family(7, 4, 2)))
    # 2, and 3; 2, and 3 and 4
    yield from ((2, f) for f in (family(7, PLACES + 1, 2, (1,)), family(1, 2, PLACES + 1, (1, 1))))
    yield from ((3, family(2, n, 0, counts)) for n, counts in ((3, (1, 1)), (1, (1, 1)), (2, (PLACES, 1))))
    yield 3, family(1, 4, 2, (0,))
    # 3, and 4; 3, and 5
    yield from ((3, f) for f in (family(1, 2, 4, (0,)), family(3, 21, 0, (1,))))
    yield from ((4, f) for f in (family(1, 2, 4), family(4, 3, 0), family(5, 3, 0), family(5, 3, 4)))
    yield from ((5, family(1, n, k)) for n, k in ((PLACES, PLACES // 2), (68, 34)))
    yield from ((5, f) for f in (family(2, 2, 0, (40, 40)), family(3, 21), family(4, 66, 2), family(6, 37)))


def some_bytes(f):
    """An object where there is one, else 1, 2, .. as many as the table says."""
    if refusal("FIRST", f, ()) in (0, 6):
        return Ranks(f).object(0)
    return tuple(range(1, 1 + (min(length(f), PLACES) if 1 <= f.kind <= KINDS else f.k)))
