#!/usr/bin/env python3
"""Draws the crates of crates.txt as a picture: a box for each, and a line to each crate that it stands on directly.

    python3 tools/crate_picture.py [CRATES] > docs/pictures/crates.svg

A crate stands right below the lowest one that uses it. Left out are lines that others imply, by way of a crate between, and
the kit's crates; tests and benchmarks are listed at the side. It needs Python's standard library alone.
"""
import pathlib
import re
import sys
import textwrap
from xml.sax.saxutils import escape

BOX, TALL, GAP, ROW, BEND, MARGIN, ROUNDS = 218, 80, 24, 124, 14, 20, 40
BESIDE = re.compile(r"_tests$|^bench_")


def read(text):
    """What each crate is for, and the crates below it, lowest first."""
    purposes, below, said = {}, {}, []
    for line in text.splitlines():
        if line.startswith("#"):
            said.append(line.strip("# "))
        elif ":" in line:
            name, deps = line.split(":")
            name = name.split()[0]
            purposes[name], below[name], said = said[-1] if said else "", deps.split(), []
    return purposes, {name: [it for it in deps if it in below] for name, deps in below.items()}


def reaches(below, start, goal):
    return start == goal or any(reaches(below, it, goal) for it in below[start])


def direct(below):
    """The lines that no way by another crate stands for."""
    return {name: [it for it in deps if not any(other != it and reaches(below, other, it) for other in deps)]
            for name, deps in below.items()}


def layers_of(below):
    """Each crate's layer, counted from the bottom: right below the lowest crate that uses it."""
    layer = {}
    for name, deps in below.items():
        layer[name] = 1 + max((layer[it] for it in deps), default=-1)
    for name in reversed(below):
        users = [layer[it] for it, deps in below.items() if name in deps]
        layer[name] = min(users) - 1 if users else layer[name]
    return layer


def with_bends(lines, layer):
    """The same lines in steps of one layer: where one passes a layer, it has a bend there of its own."""
    steps, place = [], dict(layer)
    for upper, lowers in lines.items():
        for lower in lowers:
            last = lower
            for between in range(layer[lower] + 1, layer[upper]):
                bend = (lower, upper, between)
                steps.append((last, bend))
                place[bend], last = between, bend
            steps.append((last, upper))
    return steps, place


def wide(node):
    return BOX if isinstance(node, str) else BEND


def arranged(steps, place):
    """The middle of each node: near those that it is joined to, and clear of its neighbours."""
    rows = [[it for it in place if place[it] == at] for at in range(max(place.values()) + 1)]
    at = {it: number * (BOX + GAP) - len(row) * (BOX + GAP) / 2 for row in rows for number, it in enumerate(row)}
    joined = {it: [b if a == it else a for a, b in steps if it in (a, b)] for it in place}
    for turn in range(ROUNDS):
        for row in rows if turn % 2 else rows[::-1]:
            wish = {it: sum(at[other] for other in joined[it]) / len(joined[it]) if joined[it] else at[it] for it in row}
            row.sort(key=lambda it: wish[it])
            at[row[0]] = wish[row[0]]
            for before, it in zip(row, row[1:]):
                at[it] = max(wish[it], at[before] + (wide(before) + wide(it)) / 2 + GAP)
            shift = sum(at[it] - wish[it] for it in row) / len(row)
            at.update({it: at[it] - shift for it in row})
    left = min(at[it] - wide(it) / 2 for it in at)
    return {it: middle - left + MARGIN for it, middle in at.items()}


def text(x, y, words, size=11, more=""):
    return f'<text x="{x:.0f}" y="{y:.0f}" font-size="{size}" fill="#222"{more}>{escape(words)}</text>'


def drawn(purposes, below):
    main = {name: [it for it in deps if not BESIDE.search(it)] for name, deps in below.items() if not BESIDE.search(name)}
    steps, place = with_bends(direct(main), layers_of(main))
    at, top = arranged(steps, place), max(place.values())
    high = {it: MARGIN + (top - place[it]) * ROW for it in place}
    out, side = [], max(at.values()) + BOX / 2 + 2 * GAP
    for lower, upper in steps:
        x, to, begin, end = at[lower], at[upper], high[lower], high[upper] + TALL
        half, through = (begin + end) / 2, "" if upper in main else f"V{high[upper]}"
        out.append(f'<path d="M{x:.0f} {begin}C{x:.0f} {half:.0f} {to:.0f} {half:.0f} {to:.0f} {end}{through}" '
                   'fill="none" stroke="#7d8fa3" stroke-width="1.4"/>')
    for name in main:
        x, y = at[name] - BOX / 2, high[name]
        out.append(f'<rect x="{x:.0f}" y="{y:.0f}" width="{BOX}" height="{TALL}" rx="6" fill="#eef3f9" stroke="#4a6b91"/>')
        out.append(text(x + 8, y + 17, name, 13, ' font-weight="bold"'))
        lines = textwrap.wrap(purposes[name], 35, max_lines=4, placeholder=" ..")
        out += [text(x + 8, y + 32 + 13 * number, line) for number, line in enumerate(lines)]
    beside = ["Tests and benchmarks:", *(name for name in below if BESIDE.search(name))]
    out += [text(side, MARGIN + 17 + 19 * number, line, 13) for number, line in enumerate(beside)]
    width, height = round(side) + 170, 2 * MARGIN + top * ROW + TALL
    head = f'<svg xmlns="http://www.w3.org/2000/svg" width="{width}" height="{height}" font-family="sans-serif">'
    return "\n".join([head, '<rect width="100%" height="100%" fill="#fff"/>', *out, "</svg>\n"])


if __name__ == "__main__":
    here = pathlib.Path(__file__).resolve().parent.parent / "crates.txt"
    sys.stdout.write(drawn(*read(pathlib.Path(*sys.argv[1:2] or [here]).read_text(encoding="ascii"))))
