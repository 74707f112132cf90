#!/usr/bin/env python3
"""Lists the wrong bodies that the gate has refused: crate, the function that is refused, and the body's name, which says what it
does, with its first comment, a line that begins with `#`, where it has one.

    python3 tools/wrong_bodies_list.py [CRATE..]

Those of `must-fail/` are refused in a check of the whole crate, which names no function.
"""
import pathlib
import re
import sys

ROOT = pathlib.Path(__file__).resolve().parent.parent


def row(path):
    text = path.read_text(encoding="utf-8")
    refused, comment = re.search(r"^refused: \w+::(.*)", text, re.M), re.search(r"^# *(.*)", text, re.M)
    return path.parts[-3], refused[1] if refused else "(must-fail)", f"{path.stem}: {comment[1]}" if comment else path.stem


def main(names):
    found = sorted(ROOT.glob("crates/*/wrong-bodies/*.edit")) + sorted(ROOT.glob("crates/*/must-fail/*.edit"))
    rows = sorted(row(it) for it in found if it.parts[-3] in (names or [it.parts[-3]]))
    for crate, function, said in rows:
        print(f"{crate:16} {function:45} {said}")
    print(f"{len(rows)} wrong bodies in {len({it[0] for it in rows})} crates")
    return 0 if rows else 1


if __name__ == "__main__":
    sys.exit(main(sys.argv[1:]))
