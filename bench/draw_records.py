#!/usr/bin/env python3
"""Draws an SDfile and a query from a seed: small molecules, some with rings, and of some records bytes that are changed, left out or put in.

Usage: draw_records.py SEED FOLDER writes drawn.sdf, sound.sdf (the same records before the changes) and query.mol.
       draw_records.py --pieces SEED FILE writes the file to standard output in pieces of random sizes.
"""

import os
import random
import sys

ELEMENTS = ["C", "C", "C", "N", "O", "S", "Cl", "H", "D"]
SYMBOLS = ["C", "C", "N", "O", "*", "A", "Q"]


def molfile(draw, name, most, symbols, kinds, topologies):
    atoms = draw.randint(1, most)
    pairs = [(draw.randint(1, place), place + 1) for place in range(1, atoms)]
    if atoms > 3 and (1, atoms) not in pairs and draw.random() < 0.6:
        pairs.append((1, atoms))
    lines = [name, "", "", f"{atoms:3}{len(pairs):3}  0  0  0  0  0  0  0  0999 V2000"]
    for _ in range(atoms):
        charge = draw.choice([0] * 12 + [3, 5])
        lines.append(f"    0.0000    0.0000    0.0000 {draw.choice(symbols):<3} 0{charge:3}")
    for first, second in pairs:
        lines.append(f"{first:3}{second:3}{draw.randint(1, kinds):3}  0  0{draw.randrange(topologies):3}")
    if draw.random() < 0.1:
        lines.append(f"M  CHG  1{draw.randint(1, atoms):4}{draw.randint(-2, 2):4}")
    return lines + ["M  END"]


def hurt(draw, text):
    """The text with one to three changes."""
    for _ in range(draw.randint(1, 3)):
        at = draw.randrange(len(text))
        kind = draw.randrange(4)
        if kind == 0:
            text = text[:at] + bytes([draw.choice(b" 0123456789CNO*$M\r\n\tx\xff")]) + text[at + 1:]
        elif kind == 1:
            text = text[:at] + text[at + draw.randint(1, 40):]
        elif kind == 2:
            text = text[:at] + draw.choice([b"\n", b"$$$$\n", b"M  END\n", b"  9", b"\r", b"A    1\n"]) + text[at:]
        else:
            text = text[:at] + text[at:at + draw.randint(1, 60)] + text[at:]
        if not text:
            return b"\n"
    return text


def main():
    if sys.argv[1] == "--pieces":
        draw = random.Random(int(sys.argv[2]))
        with open(sys.argv[3], "rb") as file:
            data = file.read()
        at = 0
        while at < len(data):
            size = draw.choice([1, 2, 3, 5, 17, 97, 4096, 65536, 100000])
            os.write(1, data[at:at + size])
            at += size
        return
    draw = random.Random(int(sys.argv[1]))
    folder = sys.argv[2]
    sound = []
    for number in range(draw.randint(0, 60)):
        sound.append(("\n".join(molfile(draw, f"r{number}", 9, ELEMENTS, 4, 1)) + "\n$$$$\n").encode())
    drawn = [hurt(draw, text) if draw.random() < 0.3 else text for text in sound]
    with open(os.path.join(folder, "sound.sdf"), "wb") as file:
        file.write(b"".join(sound))
    with open(os.path.join(folder, "drawn.sdf"), "wb") as file:
        file.write(b"".join(drawn))
    with open(os.path.join(folder, "query.mol"), "w", encoding="ascii") as file:
        file.write("\n".join(molfile(draw, "q", 4, SYMBOLS, 8, 3)) + "\n")


main()
