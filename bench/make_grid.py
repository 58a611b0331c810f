#!/usr/bin/env python3
"""Writes a hard case for a search to a folder: make_grid.py FOLDER.

grid.sdf is one record of 200 carbons in a grid of 10 by 20, bonded to their neighbours. chain.mol asks for 12 carbons in a
chain, which is found at once; missing.mol for 11 carbons and a nitrogen, which is not there, so that every way of laying the
carbons has to be looked at.
"""
import sys

WIDTH, HEIGHT = 10, 20


def molfile(name, atoms, bonds):
    lines = [name, "", "", f"{len(atoms):3}{len(bonds):3}  0  0  0  0  0  0  0  0999 V2000"]
    lines += [f"    0.0000    0.0000    0.0000 {atom:3} 0  0" for atom in atoms]
    lines += [f"{first:3}{second:3}  1  0" for first, second in bonds]
    return "\n".join(lines + ["M  END"]) + "\n"


def grid():
    bonds = []
    for place in range(1, WIDTH * HEIGHT + 1):
        if place % WIDTH != 0:
            bonds.append((place, place + 1))
        if place + WIDTH <= WIDTH * HEIGHT:
            bonds.append((place, place + WIDTH))
    return molfile("grid", ["C"] * (WIDTH * HEIGHT), bonds)


def chain(name, atoms):
    return molfile(name, atoms, [(i, i + 1) for i in range(1, len(atoms))])


def write(path, text):
    with open(path, "w", encoding="ascii") as out:
        out.write(text)


folder = sys.argv[1]
write(f"{folder}/grid.sdf", grid() + "$$$$\n")
write(f"{folder}/chain.mol", chain("chain", ["C"] * 12))
write(f"{folder}/missing.mol", chain("missing", ["C"] * 11 + ["N"]))
