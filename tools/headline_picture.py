#!/usr/bin/env python3
"""Draws each line of crates/lockword/specs/Headline.antt as a picture of three threads, from left to right in time.

    python3 tools/headline_picture.py > docs/pictures/headline.svg

A box is an operation with its answer; a grey one is refused, and stands in no list. Below each picture stands what the line
says at each step. It needs Python's standard library alone.
"""
from xml.sax.saxutils import escape

LEFT, BOX, GAP, LANE, HEAD, FOOT = 200, 118, 14, 26, 30, 52
COLOURS = {"held": "#bcd4f5", "given": "#dfe6ee", "end": "#e7c3cd", "flag": "#d8c8ea", "refused": "#e3e3e3"}

# The lines; who does what in each column, with its colour; and what the line says there, for each column.
STRIPS = [
    ("deeds, own, unrefused", [("A", "Lock: Held", "held"), ("B", "Close: Closing", "flag"), ("C", "Incref: closed", "refused"),
                               ("A", "Unlock: Kept", "given")],
     "in the list", ["A Lock", "B Close", "nothing", "A Unlock"]),
    ("bits, closed, draining", [("A", "Drain: Drained", "flag"), ("B", "Close: Closing", "flag"), ("C", "Close: closed", "refused")],
     "n / 2^63, n % 2", ["1, 0", "1, 1", "1, 1"]),
    ("destroyed, one_destroy", [("B", "Close: Closing", "flag"), ("B", "Decref: Last", "end"), ("B", "Destroy: Done", "end"),
                                ("A", "Close: closed", "refused")],
     "the mark", ["0", "0", "1", "1"]),
    ("read_lock, write_lock, references", [("A", "Lock Read: Held", "held"), ("B", "Lock Write: Held", "held"),
                                           ("C", "Incref: Held", "held")],
     "bit 1, bit 2, references", ["1, 0, 1", "1, 1, 2", "1, 1, 3"]),
    ("in_use", [("A", "Incref: Held", "held"), ("B", "Close: Closing", "flag"), ("A", "Decref: Kept", "given")],
     "given = left + taken back", ["1=1+0", "2=2+0", "2=1+1"]),
    ("readers, writers", [("A", "Lock Read: Held", "held"), ("B", "Lock Read: Queued", "flag"), ("A", "Unlock: Owes", "given"),
                          ("A", "Signal", "given"), ("B", "Wake: Woken", "given")],
     "counted + owed + ready = queued", ["0+0+0=0", "1+0+0=1", "0+1+0=1", "0+0+1=1", "0+0+0=0"]),
    ("one_lock, one_place", [("A", "Lock Read: Held", "held"), ("B", "Lock Read: Queued", "flag"), ("A", "Unlock: Owes", "given"),
                             ("C", "Lock Read: Held", "held")],
     "the read half is", ["with A", "with A", "in its slot", "with C"]),
    ("one_last, duties, last", [("A", "Lock Read: Held", "held"), ("B", "Close: Closing", "flag"), ("B", "Decref: Kept", "given"),
                               ("A", "Unlock: Last", "end")],
     "closed, references left", ["no, 1", "yes, 2", "yes, 1", "yes, 0"]),
    ("destroy", [("A", "Incref: Held", "held"), ("B", "Close: Closing", "flag"), ("A", "Decref: Kept", "given"),
                 ("B", "Decref: Last", "end"), ("B", "Destroy: Done", "end")],
     "who may destroy", ["nobody", "nobody", "nobody", "B", "nobody"]),
]


def text(x, y, said, anchor="start", size=12, weight="normal"):
    return f'<text x="{x}" y="{y}" font-size="{size}" text-anchor="{anchor}" font-weight="{weight}" fill="#222">{escape(said)}</text>'


def strip(top, name, steps, what, says):
    yield text(10, top + 16, name, weight="bold")
    for lane, who in enumerate("ABC"):
        y = top + HEAD + lane * LANE
        yield text(LEFT - 20, y + 15, who)
        yield f'<line x1="{LEFT}" y1="{y + 11}" x2="{LEFT + 5 * (BOX + GAP)}" y2="{y + 11}" stroke="#ccc"/>'
    for column, ((who, did, colour), said) in enumerate(zip(steps, says)):
        x, y = LEFT + column * (BOX + GAP), top + HEAD + "ABC".index(who) * LANE
        yield f'<rect x="{x}" y="{y}" width="{BOX}" height="22" rx="3" fill="{COLOURS[colour]}" stroke="#888"/>'
        yield text(x + BOX // 2, y + 15, did, "middle", 11)
        yield text(x + BOX // 2, top + HEAD + 3 * LANE + 14, said, "middle", 11)
    yield text(10, top + HEAD + 3 * LANE + 14, what, size=11)


def picture():
    tall = HEAD + 3 * LANE + FOOT
    size = f'width="{LEFT + 5 * (BOX + GAP) + 10}" height="{len(STRIPS) * tall}"'
    yield f'<svg xmlns="http://www.w3.org/2000/svg" {size} font-family="sans-serif">'
    yield '<rect width="100%" height="100%" fill="white"/>'
    for number, (name, steps, what, says) in enumerate(STRIPS):
        yield from strip(number * tall + 8, name, steps, what, says)
    yield "</svg>"


if __name__ == "__main__":
    print("\n".join(picture()))
