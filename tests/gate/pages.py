#!/usr/bin/env python3
"""Compares what pages say with what the code has: options, admin commands, replies, faults, statuses, figures, words of the log,
limits, names, files, examples of code, lines of shell, samples, and the lines of the lock word's headline.

    python3 tests/gate/pages.py [SUBJECT]..     all of it, or these subjects, which are modules of tests/lib/pages
    python3 tests/gate/pages.py --reached       for each function that README.md and docs/guarantees.md name: which program calls it

Facts are read from the sources as they are. Prints a line for each place that differs, with its page, and `N passed, M failed`.
"""
import importlib
import sys

sys.path.insert(1, f"{sys.path[0]}/..")
from lib.pages import claims
from lib.pages.tree import Told, Tree

SUBJECTS = (
    "options", "admin", "replies", "faults", "trace", "metrics", "log_words", "limits", "version", "kit", "man", "shell_lines", "samples",
    "quotes", "claims", "names", "links", "figures", "listed", "plants", "stale", "packaged", "net_page", "voice", "headline",
    "tables",
)


def told_of(tree, subjects):
    """What is told of a tree by these subjects, and how much holds."""
    told = Told()
    for it in subjects:
        importlib.import_module(f"lib.pages.{it}").check(tree, told)
    return told


def main():
    named = sys.argv[1:]
    if named == ["--reached"]:
        print("\n".join(claims.reached(Tree())))
        return 0
    unknown = [it for it in named if it not in SUBJECTS]
    if unknown:
        sys.exit(f"{unknown[0]} is none of {', '.join(SUBJECTS)}\n{__doc__}")
    told = told_of(Tree(), named or SUBJECTS)
    for line in [*told.notes, *told.lines]:
        print(line)
    print(f"{told.passed} passed, {len(told.lines)} failed")
    return 1 if told.lines or not told.passed else 0


if __name__ == "__main__":
    sys.exit(main())
