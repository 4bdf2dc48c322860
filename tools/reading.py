#!/usr/bin/env python3
"""Counts the lines of the files that the tables of docs/READING.md name and writes the counts into them; says which have changed.

    python3 tools/reading.py

A row's first cell names a file below crates/ or at the top, its second cell is the number of its lines. The row `all` of a table has their sum."""
import os
import re

PAGE = "docs/READING.md"


def lines(name):
    path = name if os.path.exists(name) else os.path.join("crates", name)
    return sum(1 for _ in open(path))


def main():
    out, total = [], 0
    for line in open(PAGE):
        if line.startswith("| file |"):
            total = 0
        row = re.match(r"\| (?:`([^`]+)`|(all)) \| *(\d*) *\|(.*)$", line.rstrip("\n"))
        if row:
            count = total if row.group(2) else lines(row.group(1))
            total = 0 if row.group(2) else total + count
            if str(count) != row.group(3):
                print(f"{row.group(1) or 'all'}: {row.group(3) or '-'} -> {count}")
            name = "all" if row.group(2) else f"`{row.group(1)}`"
            line = f"| {name} | {count} |{row.group(4)}\n"
        out.append(line)
    open(PAGE, "w").write("".join(out))


main()
