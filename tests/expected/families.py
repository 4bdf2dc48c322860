"""The six families of paper 01, and of paper 02 the floor, the editions and kind 7, written from their words and not from the library: the table's
bounds and tests, "Which of two objects comes first" as comparisons, and the questions in their order. Two listings: `Filtered`, all strings
that pass the table's test, sorted by the comparison, for small families; and `Ranks`, objects by rank, counted place by place as 000 and 004
do, for large ones, where the order rests on the same recursion as the library's listings."""
from functools import cache, cmp_to_key
from itertools import combinations, combinations_with_replacement, permutations, product
from math import comb, factorial
from typing import NamedTuple

PLACES, BRANCHES, FLOORS, EDITIONS, KINDS = 80, 40, 80, 2, 7
FITS = 2**64
NAMES = {1: "subsets", 2: "anagrams", 3: "permutations", 4: "set partitions", 5: "integer partitions", 6: "Dyck words", 7: "derangements"}


class Family(NamedTuple):
    """A family with everything lent beside it."""

    kind: int
    n: int
    k: int
    counts: tuple
    floor: int = 1
    edition: int = 1

    def numbers(self):
        """The numbers passed by value, in their order."""
        return self.kind, self.n, self.k, self.floor, self.edition


def family(kind, n, k=0, counts=(), **more):
    return Family(kind, n, k, tuple(counts), **more)


def name(f):
    """How a label calls the family: with its floor and its edition only where they aren't 1."""
    if f.kind == 2:
        called = f"{NAMES[2]} of {' '.join(map(str, f.counts)) or 'no letters'}"
    else:
        called = f"{NAMES.get(f.kind, f'kind {f.kind}')} {f.n}" + (f" {f.k}" if f.kind not in (3, 6, 7) or f.k else "")
    called += f" with floor {f.floor}" if f.floor != 1 else ""
    return called + (f" in edition {f.edition}" if f.edition != 1 else "")


def full_name(f):
    """The same with what it leaves out: counts beside a kind that has none, n beside counts."""
    lent = f" with n {f.n}" if f.kind == 2 else f" with the counts {' '.join(map(str, f.counts))}" if f.counts else ""
    return name(f) + lent


def length(f):
    return {1: f.k, 2: sum(f.counts), 3: f.n, 4: f.n, 5: f.k, 6: 2 * f.n, 7: f.n}[f.kind]


def is_object(f, x):
    """The column "object" of the table, and of kind 5 "every part .. is at least that floor"."""
    kind, n, k = f.kind, f.n, f.k
    if len(x) != length(f):
        return False
    if kind == 1:
        return all(1 <= b <= n for b in x) and all(a < b for a, b in zip(x, x[1:]))
    if kind == 2:
        return all(1 <= b <= n for b in x) and all(x.count(i + 1) == c for i, c in enumerate(f.counts))
    if kind == 3:
        return sorted(x) == list(range(1, n + 1))
    if kind == 4:
        smallest = [x.index(b) if b in x else None for b in range(1, k + 1)]
        return set(x) == set(range(1, k + 1)) and smallest == sorted(smallest)
    if kind == 5:
        return all(b >= f.floor for b in x) and all(a >= b for a, b in zip(x, x[1:])) and sum(x) == n
    if kind == 7:
        # "a permutation with f(i) never i"
        return sorted(x) == list(range(1, n + 1)) and all(b != i for i, b in enumerate(x, 1))
    return set(x) <= {0, 1} and x.count(1) == x.count(0) and all(x[:i].count(0) <= x[:i].count(1) for i in range(len(x)))


def keys(x):
    """Kind 4: 0 for the smallest model of its block, else its block number."""
    return [0 if b not in x[:i] else b for i, b in enumerate(x)]


def split(x):
    """Kind 6: the inside and the rest of a plan that isn't empty."""
    depth = 0
    for i, b in enumerate(x):
        depth += 1 if b else -1
        if depth == 0:
            return x[1:i], x[i + 1 :]


def plan_order(x, y):
    if not x or not y:
        return len(x) - len(y)
    (a, p), (b, q) = split(x), split(y)
    return len(a) - len(b) or plan_order(a, b) or plan_order(p, q)


@cache
def cuts(x):
    """Kind 7: "let c be f(n)". Whether f(c) is n, and c; then the same of the derangement of n - 1 "left when n is cut out of its cycle", or of n - 2
    "left when c and n are removed and labels above c move down by one"; and so on. Of two objects the one whose cuts are smaller comes first."""
    f, found = dict(enumerate(x, 1)), []
    while f:
        n, c = len(f), f[len(f)]
        found.append((f[c] == n, c))
        if f[c] == n:
            f = {i - (i > c): b - (b > c) for i, b in f.items() if i not in (c, n)}
        else:
            f = {i: c if b == n else b for i, b in f.items() if i != n}
    return found


def compare(f, x, y):
    """Below 0 where x comes first; both are objects of the family."""
    if f.kind == 6:
        return plan_order(x, y)
    if f.kind == 7:
        return (cuts(x) > cuts(y)) - (cuts(x) < cuts(y))
    if f.kind == 4:
        x, y = keys(x), keys(y)
    places = [i for i in range(len(x)) if x[i] != y[i]]
    if not places:
        return 0
    i = places[0] if f.kind in (2, 3) else places[-1]
    if f.kind == 4 and f.edition == 2 and 0 in (x[i], y[i]):
        # "the key of a model that is smallest in its block counts as higher than every block number"
        return 1 if x[i] == 0 else -1
    return x[i] - y[i]


@cache
def stirling(n, k):
    """By the alternating sum, not by the recursion."""
    return sum((-1) ** (k - j) * comb(k, j) * j**n for j in range(k + 1)) // factorial(k)


@cache
def ways(floor):
    """The partitions into parts from the floor up, by the number of parts and the sum: one part size after the other, one part more at a time."""
    found = [[0] * (PLACES + 1) for _ in range(PLACES + 1)]
    found[0][0] = 1
    for size in range(floor, PLACES + 1):
        for parts in range(1, PLACES // floor + 1):
            for n in range(size, PLACES + 1):
                found[parts][n] += found[parts - 1][n - size]
    return found


def partitions(n, k, floor):
    """Partitions of n into k parts of at least the floor."""
    return ways(floor)[k][n]


def catalan(n):
    return comb(2 * n, n) // (n + 1)


@cache
def derangements(n):
    """By inclusion and exclusion, i places kept and the others in any order; not by the recursion."""
    return sum((-1) ** i * comb(n, i) * factorial(n - i) for i in range(n + 1))


def multinomial(counts):
    m = factorial(sum(counts))
    for c in counts:
        m //= factorial(c)
    return m


def count(f):
    return {
        1: lambda: comb(f.n, f.k),
        2: lambda: multinomial(f.counts),
        3: lambda: factorial(f.n),
        4: lambda: stirling(f.n, f.k),
        5: lambda: partitions(f.n, f.k, f.floor),
        6: lambda: catalan(f.n),
        7: lambda: derangements(f.n),
    }[f.kind]()


def divisions(models):
    """All ways to divide models into blocks, by the block of the smallest of them; so the blocks stand in the order of their smallest models."""
    if not models:
        yield ()
        return
    smallest, *others = models
    for size in range(len(models)):
        for joined in combinations(others, size):
            rest = [m for m in others if m not in joined]
            yield from (({smallest, *joined}, *blocks) for blocks in divisions(rest))


def strings(f):
    """All that can pass the table's test. Of kinds 4, 5 and 7, where they would be too many: those of all divisions into blocks, whatever k; the weakly
    descending ones; the permutations."""
    if f.kind == 4:
        models = range(f.n)
        return (tuple(next(b for b, block in enumerate(blocks, 1) if m in block) for m in models) for blocks in divisions(models))
    if f.kind == 5:
        return combinations_with_replacement(range(f.n, -1, -1), length(f))
    if f.kind == 7:
        return permutations(range(1, f.n + 1))
    return product(range({6: 1}.get(f.kind, f.n) + 1), repeat=length(f))


class Filtered:
    """The listing by trying all strings: for small families."""

    def __init__(self, f):
        found = [x for x in strings(f) if is_object(f, x)]
        assert len(found) == count(f)
        self.objects = sorted(found, key=cmp_to_key(lambda x, y: compare(f, x, y)))

    def count(self):
        return len(self.objects)

    def object(self, r):
        return self.objects[r]

    def rank(self, x):
        return self.objects.index(x)


class Ranks:
    """The listing by ranks, each object counted place by place: for large families."""

    def __init__(self, f):
        self.f, self.known = f, {}

    def count(self):
        return count(self.f)

    def object(self, r):
        f = self.f
        assert 0 <= r < self.count()
        x = {
            1: lambda: subset(f.n, f.k, r),
            2: lambda: word(f.counts, r),
            3: lambda: word((1,) * f.n, r),
            4: lambda: set_partition(f.n, f.k, f.edition, r),
            5: lambda: integer_partition(f.n, f.k, f.floor, r),
            6: lambda: plan(f.n, r),
            7: lambda: derangement(f.n, r),
        }[f.kind]()
        self.known = {x: r}
        return x

    def rank(self, x):
        """The place of x: that of the object written last, or by halving, with the comparison."""
        if x in self.known:
            return self.known[x]
        low, high = 0, self.count()
        while high - low > 1:
            mid = (low + high) // 2
            low, high = (low, mid) if compare(self.f, x, self.object(mid)) < 0 else (mid, high)
        return low


def subset(n, k, r):
    """The largest site decides first: C(m - 1, k) subsets have all their sites below m."""
    x = ()
    while k:
        m = k
        while comb(m, k) <= r:
            m += 1
        r, x, k = r - comb(m - 1, k), (m,) + x, k - 1
    return x


def word(counts, r):
    """Of all words with these counts, the share c / left begins with a letter of count c."""
    counts, x, left, words = list(counts), (), sum(counts), multinomial(counts)
    while left:
        i = 0
        while r >= words * counts[i] // left:
            r -= words * counts[i] // left
            i += 1
        words, left, x = words * counts[i] // left, left - 1, x + (i + 1,)
        counts[i] -= 1
    return x


def set_partition(n, k, edition, r):
    """Model n decides first: with key 0 it is alone in block k, and the others have a block less; else its key is one of k blocks, which they fill
    without it. The keys are gone through in the edition's order."""
    x = ()
    while n:
        for key in range(k + 1) if edition == 1 else (*range(1, k + 1), 0):
            others = stirling(n - 1, k if key else k - 1)
            if r < others:
                break
            r -= others
        x, n, k = (key or k,) + x, n - 1, k if key else k - 1
    return x


def integer_partition(n, k, floor, r):
    """The last part decides first, and is the floor of those before it."""
    x = ()
    while k:
        while r >= partitions(n - floor, k - 1, floor):
            r -= partitions(n - floor, k - 1, floor)
            floor += 1
        x, n, k = (floor,) + x, n - floor, k - 1
    return x


def plan(n, r):
    if n == 0:
        return ()
    inside = 0
    while r >= catalan(inside) * catalan(n - 1 - inside):
        r -= catalan(inside) * catalan(n - 1 - inside)
        inside += 1
    a, b = divmod(r, catalan(n - 1 - inside))
    return (1,) + plan(inside, a) + (0,) + plan(n - 1 - inside, b)


def derangement(n, r):
    """f(n), which is c, decides first: for each c the derangements of n - 1, with n put before c in its cycle; then for each c those of n - 2, with
    labels from c on moved up by one, and n and c exchanged."""
    if n == 0:
        return ()
    longer = (n - 1) * derangements(n - 1)
    if r < longer:
        before, r = divmod(r, derangements(n - 1))
        x, c = list(derangement(n - 1, r)), before + 1
        x[x.index(c)] = n
    else:
        before, r = divmod(r - longer, derangements(n - 2))
        x, c = list(derangement(n - 2, r)), before + 1
        x = [b + (b >= c) for b in x]
        x.insert(c - 1, n)
    return (*x, c)


def within(f):
    return 0 <= f.n <= (BRANCHES if f.kind == 6 else PLACES) and (f.k == 0 if f.kind in (2, 3, 6, 7) else 0 <= f.k <= PLACES)


def not_allowed(f):
    """Of the questions that are put to every call, the number of the first to which the answer is no, or 0."""
    if not 1 <= f.kind <= KINDS:
        return 1
    if not within(f):
        return 2
    if not (1 <= f.floor <= FLOORS if f.kind == 5 else f.floor == 1):
        return 10
    if not (1 <= f.edition <= EDITIONS if f.kind == 4 else f.edition == 1):
        return 11
    if (len(f.counts) != f.n or sum(f.counts) > PLACES) if f.kind == 2 else f.counts:
        return 3
    return 0


def refusal(call, f, x, rank=0, holds=None):
    """The number of the first question to which the answer is no, or 0. `x`: the lent bytes; `holds`: the answer to 7, where x doesn't tell it."""
    no = not_allowed(f)
    if no:
        return no
    if call != "COUNT" and count(f) == 0:
        return 4
    if call in ("COUNT", "RANK", "UNRANK") and count(f) >= FITS:
        return 5
    if call != "COUNT" and len(x) != length(f):
        return 6
    if call in ("RANK", "NEXT", "PREVIOUS") and not (is_object(f, x) if holds is None else holds):
        return 7
    if call == "UNRANK" and rank >= count(f):
        return 8
    return 0
