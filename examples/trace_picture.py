#!/usr/bin/env python3
"""Draws what a trace script does as a picture: a row for each holder, and below them the fields of the word.

    python3 examples/trace_picture.py SCRIPT ANSWERS > PICTURE.svg

SCRIPT is a script for `pollrelay trace`, ANSWERS what that printed. Each line of the script is a column; what a holder has
from there on is a bar. It needs Python's standard library alone, and ends with status 1 where the two files don't fit.
"""
import re
import sys
from collections import namedtuple
from xml.sax.saxutils import escape

Step = namedtuple("Step", "holder count operation answer word signals destroyer")

# The word's fields: the first bit, how many bits, and what a row is called.
FIELDS = [
    ("closed", 0, 1),
    ("draining", 63, 1),
    ("read lock", 1, 1),
    ("write lock", 2, 1),
    ("references", 3, 24),
    ("wait to read", 27, 18),
    ("wait to write", 45, 18),
]

COLUMN, ROW, LEFT, TOP = 96, 30, 150, 74

# What a holder has, with the colour of its bar.
COLOURS = {
    "a reference": "#9aa7b5",
    "reads": "#3b7dd8",
    "writes": "#c2572c",
    "waits to read": "#bcd4f5",
    "waits to write": "#f2cdbb",
    "owes a signal": "#e0b32e",
    "closes": "#7a4fb0",
    "drains": "#4a9a86",
    "destroys": "#8e1f3d",
}

REFUSALS = {"misuse", "closed", "draining", "toomany", "full", "notyet"}


class Unfit(Exception):
    """The script and the answers aren't of one run."""


def number_in(word, first, bits):
    return word >> first & (1 << bits) - 1


def parsed(script, answers):
    """The steps of a run, by its lines and its answers; a line that is bad ends it."""
    lines, said = script.splitlines(), answers.splitlines()
    steps = []
    for line, answer in zip(lines, said):
        if answer.startswith("bad line "):
            break
        asked = re.fullmatch(r"([0-9]+)(?:\+([0-9]+))? ([a-z]+)", line)
        told = re.fullmatch(r"([a-z]+) ([0-9a-f]{16}) ([0-9]+) ([0-9]+) ([0-9]+|-)", answer)
        if not asked or not told:
            raise Unfit(f"no step: {line!r}, {answer!r}")
        signals = (int(told[3]), int(told[4]))
        steps.append(Step(int(asked[1]), int(asked[2] or 1), asked[3], told[1], int(told[2], 16), signals, told[5]))
    if len(steps) < len(said) - 1 or len(lines) < len(said):
        raise Unfit("there are more answers than lines")
    return steps


def waiting(word):
    return number_in(word, 27, 18) + number_in(word, 45, 18)


def owes_after(step, owed, before):
    """How many signals the holder owes after a step, where it owed so many."""
    if step.answer in ("closing", "drained"):
        return waiting(before)
    if step.answer == "signalled":
        return owed - 1
    return 1 if step.answer == "owes" else owed


def has_after(step, had, owed):
    """What the holder has after a step, where it had `had`, and now owes so many signals."""
    direction = "read" if step.operation[0] == "r" else "write"
    if step.answer in REFUSALS:
        return had
    if step.answer == "held":
        return "a reference" if step.operation == "incref" else f"{direction}s"
    if step.answer == "signalled":
        return had if owed or had == "closes" else None
    return {
        "queued": f"waits to {direction}",
        "owes": "owes a signal",
        "closing": "closes",
        "drained": "drains" if owed else None,
        "last": "destroys",
    }.get(step.answer)


def histories(steps):
    """For each row of holders what it has after each column, None where nothing. The rows are in the order of their names."""
    names = sorted({(it.holder, it.count) for it in steps})
    has, owed, before = dict.fromkeys(names), dict.fromkeys(names, 0), 0
    columns = []
    for step in steps:
        who = (step.holder, step.count)
        owed[who] = owes_after(step, owed[who], before)
        has[who] = has_after(step, has[who], owed[who])
        before = step.word
        columns.append(dict(has))
    return names, columns


def text(x, y, said, size=12, anchor="middle", fill="#222", weight="normal"):
    style = f'font-size="{size}" text-anchor="{anchor}" fill="{fill}" font-weight="{weight}"'
    return f'<text x="{x}" y="{y}" {style}>{escape(said)}</text>'


def bars(name, row, columns):
    """The bars of one holder: one for each stretch of columns in which it has the same."""
    drawn, begin = [], 0
    has = [it[name] for it in columns]
    for at in range(1, len(has) + 1):
        if at < len(has) and has[at] == has[begin]:
            continue
        if has[begin]:
            x, y = LEFT + begin * COLUMN + COLUMN // 2, TOP + row * ROW + 4
            wide = (at - begin) * COLUMN - (4 if at < len(has) else COLUMN // 2)
            dark = has[begin] in ("reads", "writes", "closes", "drains", "destroys")
            drawn.append(f'<rect x="{x}" y="{y}" width="{wide}" height="{ROW - 8}" rx="4" fill="{COLOURS[has[begin]]}"/>')
            drawn.append(text(x + 6, y + 15, has[begin], 11, "start", "#fff" if dark else "#222"))
        begin = at
    return drawn


def heads(steps):
    """Above each column what was asked, and what it was answered."""
    drawn = []
    for at, step in enumerate(steps):
        x = LEFT + at * COLUMN + COLUMN // 2
        refused = step.answer in REFUSALS
        drawn.append(text(x, 26, f"{name_of((step.holder, step.count))} {step.operation}", 12, weight="bold"))
        drawn.append(text(x, 44, step.answer, 12, fill="#b3261e" if refused else "#3a6b35"))
        drawn.append(f'<line x1="{x}" y1="52" x2="{x}" y2="{TOP - 6}" stroke="#bbb"/>')
    return drawn


def name_of(who):
    holder, count = who
    return str(holder) if count == 1 else f"{holder} to {holder + count - 1}"


def fields(steps, first_row):
    """The fields of the word after each step, and the signals that lie ready; a field that changed is in bold."""
    rows = [(label, [number_in(it.word, bit, bits) for it in steps]) for label, bit, bits in FIELDS]
    rows += [("signals to readers", [it.signals[0] for it in steps]), ("signals to writers", [it.signals[1] for it in steps])]
    rows.append(("destroyed by", [it.destroyer for it in steps]))
    drawn = []
    for row, (label, values) in enumerate(rows):
        y = TOP + first_row * ROW + 34 + row * 20
        drawn.append(text(LEFT - 12, y, label, 12, "end", "#555"))
        for at, value in enumerate(values):
            changed = value != (values[at - 1] if at else 0) and value != "-"
            x = LEFT + at * COLUMN + COLUMN // 2
            drawn.append(text(x, y, str(value), 12, fill="#111" if changed else "#999", weight="bold" if changed else "normal"))
    return drawn, len(rows)


def picture(steps):
    """The picture of a run, as a text of SVG."""
    names, columns = histories(steps)
    drawn = heads(steps)
    for row, name in enumerate(names):
        y = TOP + row * ROW
        drawn.append(text(LEFT - 12, y + 20, f"holder {name_of(name)}", 12, "end"))
        drawn.append(f'<line x1="{LEFT}" y1="{y + ROW}" x2="{LEFT + len(steps) * COLUMN}" y2="{y + ROW}" stroke="#e4e4e4"/>')
        drawn += bars(name, row, columns)
    below, rows = fields(steps, len(names))
    wide, high = LEFT + len(steps) * COLUMN + 20, TOP + len(names) * ROW + 44 + rows * 20
    head = f'<svg xmlns="http://www.w3.org/2000/svg" width="{wide}" height="{high}" viewBox="0 0 {wide} {high}" font-family="sans-serif">'
    return "\n".join([head, f'<rect width="{wide}" height="{high}" fill="#fff"/>', *drawn, *below, "</svg>", ""])


def main():
    if len(sys.argv) != 3:
        sys.exit(__doc__)
    with open(sys.argv[1], encoding="ascii") as script, open(sys.argv[2], encoding="ascii") as answers:
        try:
            sys.stdout.write(picture(parsed(script.read(), answers.read())))
        except Unfit as why:
            sys.exit(f"trace_picture: {why}")


if __name__ == "__main__":
    main()
