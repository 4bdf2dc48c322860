#!/usr/bin/env python3
"""Writes what the program `test_counts` is to print: crates/test_counts/stdout, from the questions in crates/test_counts/stdin.

    python3 tests/expected/counts.py"""
from math import comb, factorial

import families
from families import BRANCHES, FITS, FLOORS, PLACES
from texts import words, write


COUNTS = {
    "binomial": comb,
    "stirling": families.stirling,
    "partitions": families.partitions,
    "factorial": factorial,
    "catalan": families.catalan,
    "derangement": families.derangements,
    "multinomial": lambda *counts: families.multinomial(counts),
}
# how many of a line's numbers each takes; a multinomial takes all
TAKES = {"binomial": 2, "stirling": 2, "partitions": 3, "factorial": 1, "catalan": 1, "derangement": 1}


def outside(what, numbers):
    if what == "multinomial":
        return sum(numbers) > PLACES
    if what == "partitions":
        return max(numbers[:2]) > PLACES or not 1 <= numbers[2] <= FLOORS
    # "n branches, 0 to 40"
    return max(numbers) > (BRANCHES if what == "catalan" else PLACES)


def answer(what, *numbers):
    numbers = numbers[: TAKES.get(what)]
    if outside(what, numbers):
        return "outside"
    v = COUNTS[what](*numbers)
    return str(v) if v < FITS else "too large"


def all_partitions(n):
    """Partitions of 0, 1, .. n into any number of parts, by Euler's pentagonal recurrence."""
    p = [1]
    while len(p) <= n:
        terms = ((j * (3 * j - 1) // 2, 1 if j % 2 else -1) for j in range(-len(p), len(p) + 1) if j)
        p.append(sum(sign * p[-size] for size, sign in terms if size <= len(p)))
    return p


def check_sums():
    """Summed over k, partitions with floor 1 are all of n, p(n), and those with floor 2 the ones without a part 1, p(n) - p(n - 1) (OEIS A002865).
    Here p is worked out by the recurrence, and not by the counts that are checked."""
    p = all_partitions(PLACES)
    for n in range(PLACES + 1):
        for floor, total in ((1, p[n]), (2, p[n] - (p[n - 1] if n else 0))):
            assert sum(families.partitions(n, k, floor) for k in range(n + 1)) == total


def main():
    check_sums()
    lines = []
    for line in open("crates/test_counts/stdin"):
        label, numbers = line.rstrip("\n").split(":")
        lines.append(f"{label}: {answer(label.split()[0], *map(int, numbers.split()))}")
    for n in range(PLACES + 2):
        for k in range(n + 2):
            # the floor in the label only where it isn't 1
            for what, *floor in (("binomial",), ("stirling",), ("partitions",), ("partitions", 2)):
                lines.append(f"{what}{words((n, k, *floor))}: {answer(what, n, k, *(floor or [1]))}")
        lines += [f"{what} {n}: {answer(what, n)}" for what in ("factorial", "catalan", "derangement")]
    write("crates/test_counts/stdout", lines)


main()
