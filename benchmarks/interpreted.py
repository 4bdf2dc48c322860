"""Times SymPy's nearest functions; prints lines as measure.c does. SymPy has none for Dyck words and derangements but their counts,
nor ranks of anagrams."""
import random
import time

try:
    import sympy
    from sympy import binomial, catalan, factorial, subfactorial
    from sympy.combinatorics import IntegerPartition, Partition, Permutation, Subset
    from sympy.functions.combinatorial.numbers import nT, stirling
except ImportError:
    raise SystemExit(0)


def each(f, arguments):
    """Nanoseconds a call, the best of three rounds over fresh arguments."""
    best = None
    for _ in range(3):
        made = [arguments() for _ in range(30)]
        start = time.perf_counter_ns()
        for a in made:
            f(*a)
        took = (time.perf_counter_ns() - start) / len(made)
        best = took if best is None else min(best, took)
    return best


def say(family, call, f, arguments):
    print(f"{family}|random|{call}|sympy {sympy.__version__}|{each(f, arguments):.2f}")


def subset(n, k):
    return Subset(sorted(random.sample(range(1, n + 1), k)), list(range(1, n + 1)))


def permutation(n):
    p = list(range(n))
    random.shuffle(p)
    return Permutation(p)


def blocks(n, k):
    x = list(range(k)) + [random.randrange(k) for _ in range(n - k)]
    random.shuffle(x)
    return Partition(*[[i for i in range(n) if x[i] == b] for b in range(k)])


def parts(n, k):
    x = [1] * k
    for _ in range(n - k):
        x[random.randrange(k)] += 1
    return IntegerPartition(n, sorted(x, reverse=True))


random.seed(1)
for n, k in ((8, 4), (40, 20), (67, 33)):
    family = f"1 subsets ({n}, {k})"
    say(family, "COUNT", binomial, lambda: (n, k))
    say(family, "NEXT", Subset.next_lexicographic, lambda: (subset(n, k),))
    say(family, "PREVIOUS", Subset.prev_lexicographic, lambda: (subset(n, k),))
    if n < 40:  # its rank lists the subsets one after the other
        say(family, "RANK", lambda s: s.rank_lexicographic, lambda: (subset(n, k),))
for n in (8, 14, 20):
    family = f"3 permutations {n}"
    say(family, "COUNT", factorial, lambda: (n,))
    say(family, "NEXT", Permutation.next_lex, lambda: (permutation(n),))
    say(family, "RANK", Permutation.rank, lambda: (permutation(n),))
    say(family, "UNRANK", Permutation.unrank_lex, lambda: (n, random.randrange(int(factorial(n)))))
for n, k in ((8, 3), (16, 5), (26, 9)):
    family = f"4 set partitions ({n}, {k})"
    say(family, "COUNT", stirling, lambda: (n, k))
    say(family, "NEXT", lambda p: p + 1, lambda: (blocks(n, k),))
    say(family, "PREVIOUS", lambda p: p - 1, lambda: (blocks(n, k),))
    say(family, "RANK", lambda p: p.rank, lambda: (blocks(n, k),))
for n, k in ((12, 4), (40, 10), (80, 18)):
    family = f"5 integer partitions ({n}, {k})"
    say(family, "COUNT", nT, lambda: (n, k))
    say(family, "NEXT", IntegerPartition.next_lex, lambda: (parts(n, k),))
    say(family, "PREVIOUS", IntegerPartition.prev_lex, lambda: (parts(n, k),))
for n in (5, 18, 36):
    say(f"6 Dyck words {n}", "COUNT", catalan, lambda: (n,))
for n in (8, 14, 20):
    say(f"7 derangements {n}", "COUNT", subfactorial, lambda: (n,))
