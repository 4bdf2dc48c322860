"""Joins the times and the instruction counts to the tables of docs/BENCHMARKS.md."""
import datetime
import glob
import re
import subprocess
import sys

POOL = 256
out = sys.argv[1]
times, counts = {}, {}
for name in ("times", "interpreted", "systems"):
    for line in open(f"{out}/{name}"):
        family, pool, call, who, ns = line.rstrip("\n").split("|")
        # each is measured at several places: the best counts
        times[family, pool, call, who] = min(float(ns), times.get((family, pool, call, who), float("inf")))
for path in glob.glob(f"{out}/callgrind.*"):
    text = open(path).read()
    label = re.search(r"^desc: Trigger: Client Request: (.*)$", text, re.M)
    total = re.search(r"^(?:summary|totals): (\d+)", text, re.M)
    if label and total:
        family, pool, call, who = label[1].split("|")
        # of a list each entry is one, of the pool each object
        counts[family, pool, call, who] = int(total[1]) / (times[family, pool, "ENTRIES", "library"] if call == "CHECK" else POOL)

interpreted = next((w for (_, _, _, w) in times if w.startswith("sympy")), None)
families = list(dict.fromkeys((f, p) for (f, p, _, w) in times if w == "library"))
calls = ("COUNT", "NEXT", "PREVIOUS", "RANK", "UNRANK")
walks = ("WALK NEXT", "WALK PREVIOUS")
ends = {"first": ", the first 256", "last": ", the last 256"}
earlier = any(w == "before" for (_, _, _, w) in times)


def ratio(a, b):
    return "" if a is None or b is None else f"{a / b:.2f}"


def ns(v):
    return "" if v is None else f"{v:,.0f}" if v >= 100 else f"{v:.1f}"


def say(*lines):
    for line in lines:
        print(line)


def shell(command):
    return subprocess.run(command, shell=True, capture_output=True, text=True).stdout.strip()


def comparison():
    before = " before, ns | before's instructions |" if earlier else ""
    say(f"| family | call | library, ns | plain C, ns | library / plain | instructions | plain's | ratio |{before} C++ | GSL | PARI, GAP | SymPy | SymPy / library |")
    say("|---|---|---:|---:|---:|---:|---:|---:|" + ("---:|---:|" if earlier else "") + "---:|---:|---:|---:|---:|")
    for family, pool in families:
        if pool != "random":
            continue
        for call in calls:
            at = (family, pool, call)
            lib, plain = times.get((*at, "library")), times.get((*at, "plain"))
            if lib is None:
                continue
            a, b = counts.get((*at, "library")), counts.get((*at, "plain"))
            before = f" {ns(times.get((*at, 'before')))} | {ns(counts.get((*at, 'before')))} |" if earlier else ""
            system = next((f"{w} {ns(times[(*at, w)])}" for w in ("PARI", "GAP") if (*at, w) in times), "")
            cpp, gsl, slow = times.get((*at, "c++")), times.get((*at, "gsl")), times.get((*at, interpreted))
            say(f"| {family} | {call} | {ns(lib)} | {ns(plain)} | {ratio(lib, plain)} | {ns(a)} | {ns(b)} | {ratio(a, b)} |{before} {ns(cpp)} | {ns(gsl)} | {system} | {ns(slow)} | {'' if slow is None else f'{slow / lib:,.0f}'} |")


def growth():
    shown = (*calls[1:], *walks, "JUMP")
    say(f"| family, the object that costs most | {' | '.join(shown)} |", "|---" + "|---:" * len(shown) + "|")
    for family, pool in families:
        if pool != "random":
            say(f"| {family}{ends.get(pool, '')} | " + " | ".join(ns(counts.get((family, pool, c, "library"))) for c in shown) + " |")


def walk_rows():
    """Of each step of a walk: the family, the step, its time and NEXT's or PREVIOUS's and RANK's, its instructions and theirs."""
    for family, pool in families:
        for step in walks:
            at = (family, pool, step)
            if (*at, "library") in times and pool == "random":
                yield family, step, times[(*at, "library")], times[(*at, "fresh")], counts[(*at, "library")], counts[(*at, "fresh")]


def walk_table():
    say("| family | step | walk, ns | step and RANK, ns | times faster | walk's instructions | step's and RANK's | times fewer |",
        "|---|---|---:|---:|---:|---:|---:|---:|")
    for family, step, walk, fresh, a, b in walk_rows():
        say(f"| {family} | {step} | {ns(walk)} | {ns(fresh)} | {ratio(fresh, walk)} | {ns(a)} | {ns(b)} | {ratio(b, a)} |")


def walk_targets(family, least):
    """The least ratios by time and by instructions, of that family and of all; what lies below the target."""
    rows = [(fresh / walk, b / a, f"{step} of {f}", least if f == family else 1) for f, step, walk, fresh, a, b in walk_rows()]
    there = [r for r in rows if r[3] == least]
    by_time, by_count = min(rows), min(rows, key=lambda r: r[1])
    say(f"- A walk's step at least {least} times faster than NEXT or PREVIOUS and RANK on {family[2:]}: least {min(there)[0]:.2f} by time, "
        f"{min(r[1] for r in there):.2f} by instructions; on no kind slower: least {by_time[0]:.2f} by time ({by_time[2]}), "
        f"{by_count[1]:.2f} by instructions ({by_count[2]}).")
    say(*[f"  - missed: {r[2]} ({r[0]:.2f} by time, {r[1]:.2f} by instructions)" for r in rows if r[0] < r[3]])


def jump_rows():
    """Of each family: its name, a jump's time and that of COUNT, RANK and UNRANK, its instructions and theirs."""
    for family, pool in families:
        at = (family, pool, "JUMP")
        if (*at, "library") in times and pool == "random":
            yield family, times[(*at, "library")], times[(*at, "fresh")], counts[(*at, "library")], counts[(*at, "fresh")]


def jump_table():
    say("| family | jump, ns | COUNT, RANK and UNRANK, ns | ratio | jump's instructions | theirs | ratio | RANK's and UNRANK's alone | ratio |",
        "|---|---:|---:|---:|---:|---:|---:|---:|---:|")
    for family, jump, fresh, a, b in jump_rows():
        two = sum(counts[(family, "random", c, "library")] for c in ("RANK", "UNRANK"))
        say(f"| {family} | {ns(jump)} | {ns(fresh)} | {ratio(jump, fresh)} | {ns(a)} | {ns(b)} | {ratio(a, b)} | {ns(two)} | {ratio(a, two)} |")


def jump_targets(limit):
    rows = [(jump / fresh, a / b, family) for family, jump, fresh, a, b in jump_rows()]
    by_time, by_count = max(rows), max(rows, key=lambda r: r[1])
    say(f"- A jump at most {limit} times COUNT, RANK and UNRANK together: largest {by_time[0]:.2f} by time ({by_time[2]}), "
        f"{by_count[1]:.2f} by instructions ({by_count[2]}).")
    say(*[f"  - missed: {r[2]} ({r[0]:.2f} by time, {r[1]:.2f} by instructions)" for r in rows if max(r[:2]) > limit])


def check_rows():
    """Of each family: its name, the entries of the list, a check's time and that of NEXT from object to object, its instructions and theirs."""
    for family, pool in families:
        at = (family, pool, "CHECK")
        if (*at, "library") in times:
            yield family, times[(family, pool, "ENTRIES", "library")], times[(*at, "library")], times[(*at, "fresh")], counts[(*at, "library")], counts[(*at, "fresh")]


def check_table():
    say("| family | entries | check, ns an entry | NEXT, ns | ratio | check's instructions | NEXT's | ratio |", "|---|---:|---:|---:|---:|---:|---:|---:|")
    for family, entries, check, fresh, a, b in check_rows():
        say(f"| {family} | {entries:,.0f} | {ns(check)} | {ns(fresh)} | {ratio(check, fresh)} | {ns(a)} | {ns(b)} | {ratio(a, b)} |")


def check_targets(limit):
    rows = [(check / fresh, a / b, family) for family, _, check, fresh, a, b in check_rows()]
    by_time, by_count = max(rows), max(rows, key=lambda r: r[1])
    say(f"- The check of a listing at most {limit} times NEXT through as many objects: largest {by_time[0]:.2f} by time ({by_time[2]}), "
        f"{by_count[1]:.2f} by instructions ({by_count[2]}).")
    say(*[f"  - missed: {r[2]} ({r[0]:.2f} by time, {r[1]:.2f} by instructions)" for r in rows if max(r[:2]) > limit])


def subset_ranks(limit):
    rows = [(counts[(f, p, "RANK", "library")] / counts[(f, p, "RANK", "plain")], times[(f, p, "RANK", "library")] / times[(f, p, "RANK", "plain")], f, p) for f, p in families if p == "random" and f[0] == "1" and (f, p, "RANK", "library") in times]
    now = [f"{f[2:]} {times[(f, p, 'RANK', 'library')] / times[(f, p, 'RANK', 'before')]:.2f}" for _, _, f, p in rows if earlier]
    say(f"- RANK of subsets at most {limit} times plain C by instructions: largest {max(rows)[0]:.2f} ({max(rows)[2]}); by time {min(r[1] for r in rows):.2f} to {max(r[1] for r in rows):.2f}"
        + (f"; against before, by time: {', '.join(now)}." if now else "."))
    say(*[f"  - missed: {r[2]} ({r[0]:.3f})" for r in rows if r[0] > limit])


def floor_targets(limit):
    """Of each call on families with a floor, the largest ratio by instructions; what lies above the limit."""
    rows = [(counts[(f, p, c, "library")] / counts[(f, p, c, "plain")], c, f) for f, p in families for c in calls[1:] if ", floor " in f]
    largest = ", ".join(f"{c} {max(r for r, call, _ in rows if call == c):.2f}" for c in calls[1:])
    say(f"- Integer partitions with a floor at most {limit} times plain C by instructions: largest {largest}.")
    say(*[f"  - missed: {c} of {f} ({r:.2f})" for r, c, f in rows if r > limit])


def edition_targets(limit, limit_now):
    """Of each call on set partitions, edition 2's cost over edition 1's on the same objects, and edition 1's over before's; what lies above the limits."""
    two = ", edition 2"
    pairs = [((f, p, c, "library"), (f.removesuffix(two), p, c, "library"), limit) for f, p in families for c in calls[1:] if f.endswith(two)]
    said = [("Edition 2 of set partitions", "edition 1", pairs)]
    if earlier:
        said.append(("Edition 1 of set partitions", "before", [(a, (*a[:3], "before"), limit_now) for _, a, _ in pairs]))
    for what, other, pairs in said:
        rows = [(counts[a] / counts[b], times[a] / times[b], f"{a[2]} of {a[0]}", most) for a, b, most in pairs if a in times and b in times]
        largest = [(c, max(r for r in rows if r[2].startswith(c)), max(r[1] for r in rows if r[2].startswith(c))) for c in calls[1:]]
        say(f"- {what} at most {rows[0][3]} times {other}: largest by instructions and by time " + ", ".join(f"{c} {r[0]:.2f} and {t:.2f}" for c, r, t in largest) + ".")
        say(*[f"  - missed: {r[2]} ({r[0]:.2f} by instructions, {r[1]:.2f} by time)" for r in rows if max(r[:2]) > r[3]])


def derangement_targets(family, limit, limit_costly):
    """The largest instruction counts of a step, on random objects and on those that cost most; what lies above the limits."""
    rows = [(counts[(f, p, c, "library")], f"{c}{ends.get(p, '')}", p) for f, p in families for c in ("NEXT", "PREVIOUS") if f == family]
    any_object, costly = max(r for r in rows if r[2] == "random"), max(r for r in rows if r[2] != "random")
    say(f"- NEXT and PREVIOUS of {family[2:]} below {limit:,} instructions: largest {ns(any_object[0])} ({any_object[1]}); below {limit_costly:,} on the objects "
        f"that cost most: largest {ns(costly[0])} ({costly[1]}).")
    say(*[f"  - missed: {what} ({ns(a)})" for a, what, p in rows if a >= (limit if p == "random" else limit_costly)])


def derangement_ranks(limit):
    """Of RANK and UNRANK, the largest ratios to plain C by instructions and by time; what lies above the limit."""
    rows = [(c, f, *(v[(f, p, c, "library")] / v[(f, p, c, "plain")] for v in (counts, times))) for f, p in families for c in ("RANK", "UNRANK") if f[0] == "7" and p == "random" and (f, p, c, "library") in times]
    largest = [f"{call} {max(a for c, _, a, _ in rows if c == call):.2f} and {max(t for c, _, _, t in rows if c == call):.2f}" for call in ("RANK", "UNRANK")]
    say(f"- RANK and UNRANK of derangements at most {limit} times plain C: largest by instructions and by time {', '.join(largest)}.")
    say(*[f"  - missed: {c} of {f} ({a:.2f} by instructions, {t:.2f} by time)" for c, f, a, t in rows if max(a, t) > limit])


def worst(group, limit):
    """The largest ratio of a group of calls, by time and by instructions, and what lies above the limit."""
    rows = []
    for family, pool in families:
        for call in group:
            at = (family, pool, call)
            if (*at, "library") in times and pool == "random":
                rows.append((times[(*at, "library")] / times[(*at, "plain")], counts[(*at, "library")] / counts[(*at, "plain")], f"{call} of {family}"))
    by_time, by_count = max(rows), max(rows, key=lambda r: r[1])
    missed = [f"{r[2]} ({r[0]:.2f} by time, {r[1]:.2f} by instructions)" for r in rows if r[0] > limit]
    return f"largest {by_time[0]:.2f} by time ({by_time[2]}), {by_count[1]:.2f} by instructions ({by_count[2]})", missed


def targets():
    steps, missed_steps = worst(("NEXT", "PREVIOUS"), 2)
    ranks, missed_ranks = worst(("RANK", "UNRANK"), 3)
    close = [(counts[(f, p, c, "library")] / counts[(f, p, c, "plain")], f"{c} of {f}") for f, p in families for c in ("RANK", "UNRANK") if p == "random" and f[0] in "145" and (f, p, c, "library") in counts]
    say(f"- NEXT and PREVIOUS at most 2 times plain C: {steps}.")
    say(*[f"  - missed: {m}" for m in missed_steps])
    say(f"- RANK and UNRANK at most 3 times plain C: {ranks}.")
    say(*[f"  - missed: {m}" for m in missed_ranks])
    say(f"- RANK and UNRANK of subsets, set partitions and integer partitions at most 2 times plain C by instructions: largest {max(close)[0]:.2f} ({max(close)[1]}).")
    say(*[f"  - missed: {what} ({r:.2f})" for r, what in close if r > 2])
    tables = {f: times[(f, p, "COUNT", "library")] for f, p in families if f[0] == "1" and (f, p, "COUNT", "library") in times}
    say(f"- COUNT of subsets below 1 microsecond at every row: largest {ns(max(tables.values()))} ns ({max(tables, key=tables.get)}).")
    for who, call in (("PARI", "UNRANK"), ("GAP", "COUNT")):
        beside = [f"{f[2:]}: {ns(times[(f, p, call, 'library')])} against {ns(times[(f, p, call, who)])} ns" for f, p in families if (f, p, call, who) in times]
        if beside:
            say(f"- {call} faster than {who}'s: {'; '.join(beside)}.")
    if earlier:
        slower = [f"{c} of {f} ({times[(f, p, c, 'library')] / times[(f, p, c, 'before')]:.2f})" for f, p in families for c in ("RANK", "UNRANK") if p == "random" and (f, p, c, "before") in times and times[(f, p, c, "library")] > 1.05 * times[(f, p, c, "before")]]
        dearer = max((counts[(f, p, c, "library")] / counts[(f, p, c, "before")], f"{c} of {f}") for f, p in families for c in ("RANK", "UNRANK") if p == "random" and (f, p, c, "before") in counts)
        say(f"- RANK and UNRANK not slower than before (5 percent are noise): by instructions at most {dearer[0]:.2f} times ({dearer[1]}); by time {'all' if not slower else 'missed: ' + '; '.join(slower)}.")
    slow = [(times[(f, p, c, interpreted)] / times[(f, p, c, "library")], f"{c} of {f}") for f, p in families for c in ("RANK", "UNRANK") if (f, p, c, interpreted) in times]
    if slow:
        say(f"- RANK and UNRANK at least 100 times faster than interpreted: least {min(slow)[0]:,.0f} ({min(slow)[1]}).")
        say(*[f"  - missed: {what} ({times_faster:,.0f})" for times_faster, what in slow if times_faster < 100])
    walk_targets("6 Dyck words 36", 2.2)
    jump_targets(1.3)
    check_targets(1.5)
    subset_ranks(1.7)
    floor_targets(2)
    edition_targets(1.2, 1.1)
    derangement_targets("7 derangements 80", 30000, 45000)
    derangement_ranks(3)


say("# Benchmarks", "", f"Written by `benchmarks/run` on {datetime.date.today()}: {shell('lscpu | sed -n s/^Model.name:[[:space:]]*//p')}, {shell('gcc --version | head -1')}, -O2.", "")
say("Method. `benchmarks/measure.c` calls the library (`tools/archive`) and `benchmarks/plain.c`, a plain implementation in C that puts the",
    "same questions and reads tables built beforehand, on the same 256 random objects and ranks of each family, in one run; the two must agree on",
    "every call first. A time is the best of nine rounds of some 4 ms each in turn, at each of four places of the library in a line of 64 bytes (elsewhere in",
    "it the same code takes up to a quarter more), in nanoseconds a call, with the copy of the object that a step is made on.",
    "Instructions are callgrind's for one pass over the 256, divided by 256. C++ is `next_permutation` or `prev_permutation`, which asks nothing;",
    "GSL's steps follow its validity check and go by dictionary; SymPy's are its nearest functions (all partitions rather than those with k parts;",
    "its subsets' rank, which lists, only for the small family). PARI's are numtoperm and permtonum, GAP's is Binomial.",
    *(["Before is an earlier build of the library, linked beside today's at the same places, and measured in turn with it."] if earlier else []), "")
say("## Targets", "")
targets()
say("", "Why, by the profile:", "",
    "- RANK and UNRANK of subsets are loops: RANK takes 7 instructions a place and a coefficient, UNRANK goes down number by number. Where a recursion is left,",
    "  as in RANK of set partitions, an array is lent whole, and the compiler makes a loop of the calls.",
    "- The plain tables are built beforehand and have every number ready. Here a coefficient is two products and a shift out of three lists of numbers, 15",
    "  instructions; UNRANK of subsets asks for one at each number that it passes. Above 26 models Stirling numbers are worked out once a call, a band of up to",
    "  525, and UNRANK works out the count besides, for question 8. A partition number is cut out of three that share 64 bits; an odd column takes two.",
    "- A Dyck word is read by two functions that call each other, as paper 01 asks, where the plain test is a loop.",
    "- A derangement is taken apart and put together a number at a time. One is searched for, at three instructions a byte: next to the first object, where it",
    "  stands last each time, a step looks at all of them twice, and so grows by the square. Cycles of two move labels and places many bytes at a time. RANK",
    "  takes a copy apart, in an array for the longest object; plain C copies as many bytes as there are.",
    "- Ranks of permutations and anagrams take a division or two for each place; SymPy's ranks of permutations are its fastest.",
    "- COUNT of subsets reads the constant table that paper 01 asks for, from memory; an entry of rows 68 to 80 takes up to 91 additions.",
    "- A walk's step is NEXT or PREVIOUS and some 200 instructions for the questions and the count. The count of anagrams, a product, takes up to 730; that of",
    "  set partitions above 26 models, a row of Stirling numbers, up to 2,350, so that these gain least among the large families.",
    "- A jump is RANK, a sum and UNRANK, which puts its questions over again, and no COUNT. So it gains most where COUNT is dear: subsets, and set",
    "  partitions above 26 models.",
    "- With walks in the library NEXT, PREVIOUS and the comparison of a rank with the count have two callers each, with jumps RANK and UNRANK too, and the",
    "  compiler makes functions of them that it put into their only caller before. For walks NEXT and PREVIOUS take up to 29 instructions more, RANK and",
    "  UNRANK up to 19; for jumps RANK takes up to 40 more and UNRANK up to 24, that of integer partitions up to 191: at most 4 percent.",
    "- Question 10 and the floor take 11 to 15 instructions of a step, 12 to 24 of a RANK and 19 to 31 of a walk's step, the most of integer partitions, which read",
    "  the floor. The questions that are put to every call go by few comparisons, so that the compiler takes them into each call: where it didn't, a step of subsets",
    "  (8, 4) took 46 instructions more than before instead of 12.",
    "- Question 11 and the edition take 4 or 5 instructions of a COUNT, 5 to 9 of a step of the other kinds and 9 to 14 of a RANK. UNRANK of set partitions takes up",
    "  to 72 more, since it tests the edition at each model. A step of theirs has two searches and two writers to choose from, and is as long as before: each is",
    "  shorter, with a branch where a model opens a block and none where its key moves.")
say("", "## Growth", "", "Instructions of the library for a call on one object, at doubled lengths; of derangements also on the first and the last 256, at each end.", "")
growth()
say("", "## Walks", "",
    "A walk's step, with the object's own number, beside NEXT or PREVIOUS followed by RANK, on the same 256 objects of each family whose count is below 2^64;",
    "the two must agree on code, bytes and number first.", "")
walk_table()
say("", "## Jumps", "",
    "A jump from each of the 256 objects to one of random rank, beside COUNT, RANK and UNRANK of that rank, for each family whose count is below 2^64;",
    "the two, and plain C's RANK and UNRANK, must agree on code and bytes first. Of ranks that are 2^63 or more apart, half the distance is jumped.", "")
jump_table()
say("", "## Checks", "",
    "The check of a list, for each entry, beside FIRST and NEXT from object to object, as many steps as there are entries, the last of which looks behind them.",
    "A listing of up to 100,000 objects is checked whole, and must be accepted first; of a larger one the list has the first 10,000 objects, and must be wrong at",
    "the entry that is missing behind them. The lists are made by plain C's NEXT.", "")
check_table()
say("", "## All calls", "")
comparison()
