#!/usr/bin/env python3
"""Writes the literals of the crate stirling_rows. The numbers are worked out here, and the proofs compare them with the rule; nothing rests on this
script.

    python3 tools/stirlings.py [DIR] && rt fmt

DIR is the folder of crates (default: crates)."""
import sys

from literals import write_table

ROWS = 26

stirlings = [[1] + [0] * ROWS]
for n in range(ROWS):
    row = stirlings[n]
    stirlings.append([0] + [row[k] + (k + 1) * row[k + 1] for k in range(ROWS)])

numbers = [stirlings[n][k] for n in range(3, ROWS + 1) for k in range(2, n)]
title = f"""The rows 3 to {ROWS} of the Stirling numbers of the second kind, row after row, each without its ends: from two blocks on, and not as many blocks as
// models."""
write_table(sys.argv[1] if len(sys.argv) > 1 else "crates", "stirling_rows", "tools/stirlings.py", "literals", "NUMBERS", title, numbers)
