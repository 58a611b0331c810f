#!/usr/bin/env python3
"""Writes input of one kind to standard output, so many megabytes of it: what costs a reader most.

Usage: worst_input.py KIND MEGABYTES, or worst_input.py without words for the kinds.
"""

import sys


def counts(atoms, bonds):
    return f"{atoms:3}{bonds:3}  0  0  0  0  0  0  0  0999 V2000\n"


def atom(symbol="C"):
    return f"    0.0000    0.0000    0.0000 {symbol:<3} 0  0\n"


def bonds(pairs, kind=1):
    return "".join(f"{first:3}{second:3}{kind:3}  0\n" for first, second in pairs)


def record(atoms, pairs, lines=""):
    return "\n\n\n" + counts(atoms, len(pairs)) + atom() * atoms + bonds(pairs) + lines + "M  END\n$$$$\n"


def grid(wide, high):
    right = [(y * wide + x, y * wide + x + 1) for y in range(high) for x in range(1, wide)]
    down = [(y * wide + x, y * wide + x + wide) for y in range(high - 1) for x in range(1, wide + 1)]
    return right + down


KINDS = {
    "blank lines": "\n",
    "ends of records": "$$$$\n",
    "records without atoms": "\n\n\n\nM  END\n$$$$\n",
    "records of one atom": record(1, []),
    "a chain of 999 atoms": record(999, [(place, place + 1) for place in range(1, 999)]),
    "a ring of 999 atoms": record(999, [(place, place % 999 + 1) for place in range(1, 1000)]),
    "a star of 999 atoms": record(999, [(1, place) for place in range(2, 1000)]),
    "a grid of 500 atoms": record(500, grid(25, 20)),
    "999 atoms without a bond": record(999, []),
    "lists of charges": record(8, [], "M  CHG  8   1   1   2   1   3   1   4   1   5   1   6   1   7   1   8   1\n" * 1000),
    "lines that are passed over": record(1, [], "A    1\n$$$\n" * 1000),
    "lines of 4096 bytes": "\n" + "x" * 4096 + "\n\n" + counts(1, 0) + atom() + "M  END\n$$$$\n",
    "data lines of 100,000 bytes": record(1, [])[:-5] + "> <X>\n" + "x" * 100000 + "\n$$$$\n",
    "zero bytes": "\0",
    "comments": "# a comment\n",
    "groups without a job": "settle\n",
}


def main():
    if len(sys.argv) != 3:
        print("\n".join(KINDS))
        return
    piece = KINDS[sys.argv[1]].encode()
    left = int(sys.argv[2]) * 1000000
    block = piece * max(1, 1000000 // len(piece))
    while left > 0:
        sys.stdout.buffer.write(block)
        left -= len(block)


main()
