#!/usr/bin/env python3
"""Writes the literals of the crate partition_numbers. The numbers are worked out here, and the proofs compare them with the rule; nothing rests on
this script.

    python3 tools/partitions.py [DIR] && rt fmt

DIR is the folder of crates (default: crates)."""
import sys

from literals import write_table

ROWS, BITS, WORDS = 81, 21, 256

partitions = [[int(n == 0)] + [0] * ROWS for n in range(ROWS + 1)]
for n in range(1, ROWS + 1):
    for k in range(1, n + 1):
        partitions[n][k] = partitions[n - 1][k - 1] + partitions[n - k][k]

columns = [partitions[e + j][j] for j in range(4, ROWS // 2 + 1, 2) for e in range(j - 1, ROWS - j + 1)]
words = [sum(v << (BITS * i) for i, v in enumerate(columns[a::WORDS])) for a in range(WORDS)]
title = """The even columns of the counts of partitions, column after column; the numbers at i, 256 + i and 512 + i in one word, of 21 bits each."""
write_table(sys.argv[1] if len(sys.argv) > 1 else "crates", "partition_numbers", "tools/partitions.py", "words", "WORDS", title, words)
