#!/usr/bin/env python3
"""Draws the SDfiles and query molfiles of examples/, so that each can be drawn again with a change.

A drawing is a list of atoms, each a step from an earlier one, and the bonds that close rings.
Usage: tools/draw_examples.py [FOLDER], examples/ where no folder is given.
"""

import math
import os
import sys


class Drawing:
    """Atoms with plane coordinates, bonds, and charges, places counted from 1."""

    def __init__(self, name, note=""):
        self.name, self.note = name, note
        self.atoms, self.bonds, self.charges = [], [], []

    def start(self, symbol):
        """The first atom, or the first of another part."""
        return self.put(symbol, 4.0 if self.atoms else 0.0, 0.0)

    def put(self, symbol, x, y):
        self.atoms.append((symbol, x, y))
        return len(self.atoms)

    def step(self, origin, symbol, angle, kind=1):
        """An atom one bond away from another, in a direction in degrees."""
        _, x, y = self.atoms[origin - 1]
        turn = math.radians(angle)
        place = self.put(symbol, x + math.cos(turn), y + math.sin(turn))
        self.bond(origin, place, kind)
        return place

    def bond(self, first, second, kind=1):
        self.bonds.append((first, second, kind))

    def ring(self, symbols, kinds):
        """A hexagon, clockwise from its upper left corner. Bond i joins corners i and i + 1."""
        places = [self.start(symbols[0])]
        for symbol, kind, angle in zip(symbols[1:], kinds, (30, -30, -90, -150, 150)):
            places.append(self.step(places[-1], symbol, angle, kind))
        self.bond(places[-1], places[0], kinds[5])
        return places

    def lines(self):
        yield self.name
        yield "  htss, drawn by script"
        yield ""
        yield f"{len(self.atoms):3}{len(self.bonds):3}  0  0  0  0  0  0  0  0999 V2000"
        for symbol, x, y in self.atoms:
            yield f"{x:10.4f}{y:10.4f}{0:10.4f} {symbol:<3} 0  0  0  0  0  0  0  0  0  0  0  0"
        for first, second, kind in self.bonds:
            yield f"{first:3}{second:3}{kind:3}  0"
        if self.charges:
            yield f"M  CHG{len(self.charges):3}" + "".join(f"{place:4}{charge:4}" for place, charge in self.charges)
        yield "M  END"

    def record(self):
        yield from self.lines()
        if self.note:
            yield from ("> <NOTE>", self.note, "")
        yield "$$$$"


OUT = {1: 150, 2: 90, 3: 30, 4: -30, 5: -90, 6: -150}
DRAWN, OTHER = (2, 1, 2, 1, 2, 1), (1, 2, 1, 2, 1, 2)


def carboxyl(it, origin, angle):
    """C(=O)O on an atom. Returns the places of the two oxygens."""
    carbon = it.step(origin, "C", angle)
    return it.step(carbon, "O", angle + 60, 2), it.step(carbon, "O", angle - 60)


def aspirin():
    it = Drawing("aspirin", "an acid, and an ester too")
    it.ring("CCCCCC", DRAWN)
    carboxyl(it, 3, OUT[3])
    oxygen = it.step(4, "O", OUT[4])
    carbon = it.step(oxygen, "C", -90)
    it.step(carbon, "O", -150, 2)
    it.step(carbon, "C", -30)
    return it


def diclofenac():
    it = Drawing("diclofenac", "its chlorines are spelled CL, which is refused")
    it.ring("CCCCCC", DRAWN)
    carbon = it.step(2, "C", OUT[2])
    carboxyl(it, carbon, 30)
    nitrogen = it.step(3, "N", OUT[3])
    places = [it.step(nitrogen, "C", -30)]
    for angle, kind in ((30, 2), (-30, 1), (-90, 2), (-150, 1), (150, 2)):
        places.append(it.step(places[-1], "C", angle, kind))
    it.bond(places[5], places[0])
    it.step(places[1], "CL", 90)
    it.step(places[5], "CL", -150)
    return it


def ibuprofen():
    it = Drawing("ibuprofen")
    it.ring("CCCCCC", DRAWN)
    carbon = it.step(1, "C", OUT[1])
    carbon = it.step(carbon, "C", -150)
    it.step(carbon, "C", 150)
    it.step(carbon, "C", -90)
    carbon = it.step(4, "C", OUT[4])
    it.step(carbon, "C", -90)
    carboxyl(it, carbon, 30)
    return it


def benzocaine():
    it = Drawing("benzocaine", "an ester, and no acid")
    it.ring("CCCCCC", DRAWN)
    it.step(1, "N", OUT[1])
    _, oxygen = carboxyl(it, 4, OUT[4])
    carbon = it.step(oxygen, "C", -30)
    it.step(carbon, "C", -90)
    return it


def paracetamol():
    it = Drawing("paracetamol")
    it.ring("CCCCCC", DRAWN)
    it.step(1, "O", OUT[1])
    nitrogen = it.step(4, "N", OUT[4])
    carbon = it.step(nitrogen, "C", 30)
    it.step(carbon, "O", 90, 2)
    it.step(carbon, "C", -30)
    return it


def lidocaine():
    it = Drawing("lidocaine")
    it.ring("CCCCCC", DRAWN)
    it.step(2, "C", OUT[2])
    it.step(4, "C", OUT[4])
    nitrogen = it.step(3, "N", OUT[3])
    carbon = it.step(nitrogen, "C", -30)
    it.step(carbon, "O", -90, 2)
    carbon = it.step(carbon, "C", 30)
    nitrogen = it.step(carbon, "N", -30)
    for angle in (30, -90):
        carbon = it.step(nitrogen, "C", angle)
        it.step(carbon, "C", -30)
    return it


def caffeine():
    it = Drawing("caffeine")
    it.ring("NCCCNC", (1, 1, 2, 1, 1, 1))
    it.step(1, "C", OUT[1])
    it.step(2, "O", OUT[2], 2)
    it.step(5, "C", OUT[5])
    it.step(6, "O", OUT[6], 2)
    seven = it.step(3, "N", 18)
    eight = it.step(seven, "C", -54)
    nine = it.step(eight, "N", -126, 2)
    it.bond(nine, 4)
    it.step(seven, "C", 72)
    return it


def benzoic_acid():
    it = Drawing("benzoic acid", "its acid hydrogen is drawn")
    it.ring("CCCCCC", DRAWN)
    _, oxygen = carboxyl(it, 3, OUT[3])
    it.step(oxygen, "H", 30)
    return it


def sodium_acetate():
    it = Drawing("sodium acetate", "a salt of two parts, with charges")
    carbon = it.start("C")
    _, oxygen = carboxyl(it, carbon, 30)
    sodium = it.start("Na")
    it.charges = [(oxygen, -1), (sodium, 1)]
    return it


def methyl_acetate():
    it = Drawing("methyl acetate")
    _, oxygen = carboxyl(it, it.start("C"), 30)
    it.step(oxygen, "C", 30)
    return it


def dimethylformamide():
    it = Drawing("dimethylformamide")
    carbon = it.start("C")
    it.step(carbon, "O", 150, 2)
    nitrogen = it.step(carbon, "N", 30)
    it.step(nitrogen, "C", 90)
    it.step(nitrogen, "C", -30)
    return it


def ethanol():
    it = Drawing("ethanol")
    carbon = it.step(it.start("C"), "C", 30)
    it.step(carbon, "O", -30)
    return it


def xylene(name, kinds, note=""):
    it = Drawing(name, note)
    it.ring("CCCCCC", kinds)
    it.step(3, "C", OUT[3])
    it.step(4, "C", OUT[4])
    return it


def toluene():
    it = Drawing("toluene", "drawn with aromatic bonds, type 4")
    it.ring("CCCCCC", (4,) * 6)
    it.step(3, "C", OUT[3])
    return it


def quinoline():
    it = Drawing("quinoline", "drawn with two double bonds in the ring of carbons")
    it.ring("CCCCCC", (2, 1, 1, 1, 2, 1))
    four = it.step(3, "C", 30, 2)
    three = it.step(four, "C", -30)
    two = it.step(three, "C", -90, 2)
    one = it.step(two, "N", -150)
    it.bond(one, 4, 2)
    return it


def six_ring(name, kinds):
    it = Drawing(name)
    it.ring("CCCCCC", kinds)
    return it


def acid_query(name, has_hydrogen=False):
    it = Drawing(name)
    carbon = it.start("C")
    it.step(carbon, "O", 60, 2)
    oxygen = it.step(carbon, "O", -60)
    if has_hydrogen:
        it.step(oxygen, "H", 0)
    return it


def amide_query():
    it = Drawing("amide")
    carbon = it.start("C")
    it.step(carbon, "O", 60, 2)
    it.step(carbon, "N", -60)
    return it


SDFILES = {
    "drugs.sdf": [aspirin(), diclofenac(), ibuprofen(), benzocaine(), paracetamol(), lidocaine(), caffeine(), benzoic_acid()],
    "solvents.sdf": [
        sodium_acetate(),
        methyl_acetate(),
        dimethylformamide(),
        ethanol(),
        xylene("o-xylene", DRAWN, "drawn with a double bond between the carbons that bear the methyl groups"),
        xylene("o-xylene, drawn the other way", OTHER, "drawn with a single bond there"),
        toluene(),
        six_ring("cyclohexane", (1,) * 6),
        quinoline(),
    ],
}
QUERIES = {
    "carboxylic-acid.mol": acid_query("carboxylic acid"),
    "carboxylic-acid-h.mol": acid_query("carboxylic acid with its hydrogen", has_hydrogen=True),
    "amide.mol": amide_query(),
    "benzene.mol": six_ring("benzene", DRAWN),
    "benzene-type5.mol": six_ring("ring of type 5 bonds", (5,) * 6),
    "benzene-type8.mol": six_ring("ring of type 8 bonds", (8,) * 6),
    "o-xylene.mol": xylene("o-xylene", DRAWN),
    "o-xylene-type5.mol": xylene("o-xylene with a ring of type 5 bonds", (5,) * 6),
}


def main(folder):
    os.makedirs(folder, exist_ok=True)
    texts = {name: [line for it in drawings for line in it.record()] for name, drawings in SDFILES.items()}
    texts |= {name: list(it.lines()) for name, it in QUERIES.items()}
    for name, lines in texts.items():
        with open(os.path.join(folder, name), "w", encoding="ascii", newline="\n") as out:
            out.write("".join(f"{line}\n" for line in lines))


if __name__ == "__main__":
    main(sys.argv[1] if len(sys.argv) > 1 else os.path.join(os.path.dirname(__file__), "..", "examples"))
