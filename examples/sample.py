#!/usr/bin/env python3
"""Prints what `timeline sample N START` is to print, worked out anew from the rule of its rows in docs/SCRIPTS.md:
sample.py N START [OPTIONS..]"""
import sys

BLOCK = 10000            # so many rows a block has, all but the last
lines, number = int(sys.argv[1]), int(sys.argv[2]) % 2**31      # options after them change nothing


def runs(values):
    """The runs of points 0, 1, .. in which the value stays the same, as lines."""
    out, begun = [], 0
    for at in range(1, len(values) + 1):
        if at == len(values) or values[at] != values[begun]:
            out.append(f"{begun},{at},{values[begun]}")
            begun = at
    return out


rows = {}                # the value and the group of each id
least, greatest = ["", ""], ["", ""]      # at versions 0 and 1 there are no rows
print("sample @1 ok")
for first in range(0, lines, BLOCK):
    for row in range(first, min(first + BLOCK, lines)):
        number = (1103515245 * number + 12345) % 2**31
        value = number // 65536
        rows[5000 * (row // BLOCK) + row % BLOCK] = (value, value % 8)
    least.append(str(min(value for value, _ in rows.values())))
    greatest.append(str(max(value for value, _ in rows.values())))
    print(f"sample @{len(least) - 1} ok")
last = len(least) - 1
sums = {}
for value, group in rows.values():
    sums[group] = sums.get(group, 0) + value
for answer in (runs(least), runs(greatest), [f"{group},{last},{last + 1},{sums[group]}" for group in sorted(sums)]):
    print(f"sample @{last} rows {len(answer)}", *answer, sep="\n")
