#!/usr/bin/env python3
"""Writes what `binomials` knows of the factorials 0! to 80!, and the last column of each row of binomial coefficients that fits 64 bits:
src/factorials.rt. The crate's proofs test the numbers against the addition rule; nothing rests on this script.

    python3 tools/factorials.py [DIR] && rt fmt

DIR is the folder of crates (default: crates). LAST is `places` of `basics`."""
import sys
from math import comb, factorial

LAST = 80
WORD = 2**64
crate = (sys.argv[1] if len(sys.argv) > 1 else "crates") + "/binomials"

odds, inverses, twos = [], [], []
for n in range(LAST + 1):
    f = factorial(n)
    t = (f & -f).bit_length() - 1
    odds.append((f >> t) % WORD)
    inverses.append(pow(f >> t, -1, WORD))
    twos.append(t)

FULL = next(n for n in range(LAST + 1) if comb(n, n // 2) >= WORD)  # the first row that does not fit whole
columns = [max(k for k in range(n // 2 + 1) if comb(n, k) < WORD) for n in range(FULL, LAST + 1)]


def table(name, title, numbers):
    return f"// {title}\nstatic {name}: [u64; {len(numbers)}] = [{', '.join(map(str, numbers))}];\n\n"


with open(f"{crate}/src/factorials.rt", "w", encoding="utf-8") as f:
    f.write(f"""// The factorials of 0 to {LAST} by their odd parts and their factors 2, and the last columns that fit; written by tools/factorials.py. A static lies in
// memory that is only read, where a const would be written out on the stack at each use.
// Three lists and no list of structs: with that a coefficient took 16 instructions for 15, and this file was twice as long.
ghost use Rattle.std.specs.Prelude.{{◌≡◌, ◌-◌, ◌≤◌, slice_index}};
ghost use Rattle.basics.specs.Limits.{{places}};

// The first row that doesn't fit whole.
pub const FIRST_SHORT_ROW: u64 = {FULL};

""" + table("ODDS", "n! without its factors 2, modulo 2^64.", odds)
    + table("INVERSES", "The inverses of these modulo 2^64.", inverses)
    + table("TWOS", "How often 2 divides n!.", twos)
    + table("LAST_COLUMNS", "From that row on: the last column of the left half whose coefficient is below 2^64.", columns)
    + """// Of a factorial: its odd part modulo 2^64, the inverse of that modulo 2^64, and how often 2 divides it.
#[derive(Clone, Copy)]
pub struct Parts {
    pub odd: u64,
    pub inverse: u64,
    pub twos: u64,
}

pub fn parts_of(n: u64) -> Parts
    requires { n ≤ places }
    ensures odd { result.odd ≡ slice_index ODDS n }
    ensures inverse { result.inverse ≡ slice_index INVERSES n }
    ensures twos { result.twos ≡ slice_index TWOS n }
{
    let at = n as usize;
    Parts {
        odd: ODDS[at],
        inverse: INVERSES[at],
        twos: TWOS[at],
    }
}

// The last column of a row that doesn't fit whole whose coefficient is below 2^64.
pub fn last_column(n: u64) -> u64
    requires { (FIRST_SHORT_ROW ≤ n) × (n ≤ places) }
    ensures { result ≡ slice_index LAST_COLUMNS (n - FIRST_SHORT_ROW) }
{
    LAST_COLUMNS[(n - FIRST_SHORT_ROW) as usize]
}
""")
