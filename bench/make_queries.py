#!/usr/bin/env python3
"""Writes queries for the made records to a folder: make_queries.py FOLDER.

ring.mol is the ring that each made record has. chalcogens.mol, chain.mol and branched.mol are found in few of them or in none.
"""
import sys

RING = [(1, 2, 1), (2, 3, 2), (3, 4, 1), (4, 5, 2), (5, 6, 1), (6, 1, 2)]


def chain(count, first=1):
    return [(i, i + 1, 1) for i in range(first, first + count - 1)]


QUERIES = {
    "ring": (["C"] * 6, RING),
    "chalcogens": (["F", "S", "S", "N", "S"], chain(5)),
    "chain": (["C"] * 6 + ["N"] * 3, chain(9)),
    "branched": (["C"] * 6 + ["N", "O", "S", "F", "N"], RING + chain(5, 6) + [(9, 11, 1)]),
}

for name, (atoms, bonds) in QUERIES.items():
    lines = [name, "", "", f"{len(atoms):3}{len(bonds):3}  0  0  0  0  0  0  0  0999 V2000"]
    lines += [f"    0.0000    0.0000    0.0000 {atom:3} 0  0" for atom in atoms]
    lines += [f"{first:3}{second:3}{kind:3}  0" for first, second, kind in bonds]
    with open(f"{sys.argv[1]}/{name}.mol", "w", encoding="ascii") as out:
        out.write("\n".join(lines + ["M  END"]) + "\n")
