"""Draws the crates, docs/crates.svg. Fails if the arrows do not come to what crates.txt says that each crate uses of the others.

usage: python3 -B docs/crates.py >docs/crates.svg

An arrow is a use; arrows that follow from others are left out, but for linkage's to firmware, whose functions it calls."""
import sys
from pathlib import Path

LIST = Path(__file__).resolve().parent.parent / "crates.txt"
CODE, THEORY, TIE, PROGRAM = "#4a7fb5", "#f4b674", "#f08a24", "#a9c4e0"
WIDE, HIGH, PICTURE = 150, 46, (985, 704)

# Name: middle, top, colour, what it holds.
CRATES = {
    "linkage": (120, 70, TIE, "calls what C calls alone"),
    "history": (120, 160, THEORY, "histories, theorems"),
    "crash": (120, 340, THEORY, "what a cut leaves"),
    "firmware_c": (340, 160, CODE, "the C library"),
    "firmware": (340, 250, CODE, "its functions"),
    "inspect": (330, 340, CODE, "tally, alike"),
    "store": (540, 340, CODE, "record, the calls"),
    "script": (530, 250, CODE, "lines and answers"),
    "journal": (430, 430, CODE, "write-ahead log"),
    "card": (430, 520, CODE, "settled and waiting"),
    "refusals": (210, 430, CODE, "causes, their numbers"),
    "cells": (430, 610, CODE, "bytes and numbers"),
    "fnv": (660, 610, CODE, "checksum"),
    "trapcard": (530, 70, PROGRAM, "script program"),
    "powercut": (705, 70, PROGRAM, "map of power cuts"),
    "vectors": (880, 70, PROGRAM, "checksum&#8217;s vectors"),
}
# The lower ends of its arrows, and how far from the middles each leaves and arrives.
ARROWS = {
    "linkage": [("history", 0, 0), ("firmware", 50, -50)],
    "history": [("crash", 0, 0), ("firmware", 40, -62), ("script", 70, -60)],
    "crash": [("journal", 40, -60)],
    "firmware_c": [("firmware", 0, 0)],
    "firmware": [("inspect", -10, 0), ("store", 40, -50)],
    "script": [("store", 0, -10)],
    "inspect": [("journal", 20, -20), ("refusals", -50, 20)],
    "store": [("journal", -20, 30), ("refusals", -60, 70)],
    "journal": [("card", 0, 0), ("fnv", 60, -20)],
    "card": [("cells", 0, 0)],
    "trapcard": [("script", 0, 0)],
    "powercut": [("store", 0, 65)],
    "vectors": [("fnv", 0, 30)],
}


def below(name):
    """All that a crate uses, by the arrows."""
    found = set()
    for lower, _, _ in ARROWS.get(name, []):
        found |= {lower} | below(lower)
    return found


def check():
    for line in LIST.read_text().splitlines():
        if line and not line.startswith("#"):
            head, _, used = line.partition(":")
            name = head.split()[0]
            if name not in CRATES or below(name) != set(used.split()) & set(CRATES):
                sys.exit(f"{LIST.name}: {line}: the picture has {sorted(below(name))}")


def text(x, y, words, size=12, fill="#222", anchor="middle", weight="normal"):
    return f'<text x="{x}" y="{y}" font-size="{size}" fill="{fill}" text-anchor="{anchor}" font-weight="{weight}">{words}</text>'


def arrow(upper, lower, leaves, arrives):
    (x, y, _, _), (u, v, _, _) = CRATES[upper], CRATES[lower]
    return f'<path d="M{x + leaves} {y + HIGH}L{u + arrives} {v - 2}"/>'


def box(name):
    x, y, colour, holds = CRATES[name]
    ink = "#fff" if colour == CODE else "#222"
    return [f'<rect x="{x - WIDE // 2}" y="{y}" width="{WIDE}" height="{HIGH}" rx="6" fill="{colour}"/>',
            text(x, y + 20, name, 14, ink, weight="bold"), text(x, y + 37, holds, 11, ink)]


def key(x, colour, words):
    return [f'<rect x="{x}" y="680" width="14" height="12" rx="2" fill="{colour}"/>', text(x + 20, 690, words, 11, "#777", "start")]


def main():
    check()
    wide, high = PICTURE
    out = [f'<svg xmlns="http://www.w3.org/2000/svg" viewBox="0 0 {wide} {high}" width="{wide}" height="{high}" font-family="Helvetica, Arial, sans-serif">',
           "<title>The crates, lowest at the bottom, and what each one uses</title>",
           '<defs><marker id="tip" viewBox="0 0 8 8" refX="7" refY="4" markerWidth="8" markerHeight="8" orient="auto"><path d="M0 0L8 4L0 8z" fill="#555"/></marker></defs>',
           f'<rect width="{wide}" height="{high}" fill="#fff"/>',
           text(30, 34, "The crates: each uses only the promises of those below it", 16, anchor="start", weight="bold"),
           '<g fill="none" stroke="#555" stroke-width="1.5" marker-end="url(#tip)">']
    out += [arrow(upper, *a) for upper in ARROWS for a in ARROWS[upper]]
    out += ['<path d="M340 116V158" stroke-dasharray="5 4"/>', "</g>",
            '<rect x="265" y="70" width="150" height="46" rx="6" fill="#fff" stroke="#777" stroke-dasharray="5 4"/>',
            text(340, 90, "the trap&#8217;s C", 14, weight="bold"), text(340, 107, "include/trapcard.h", 11)]
    for name in CRATES:
        out += box(name)
    out += key(45, CODE, "proved code") + key(165, THEORY, "theory, no code") + key(300, TIE, "ties the code to the theorems") + key(505, PROGRAM, "program")
    print("\n".join(out + ["</svg>"]))


main()
