#!/usr/bin/env python3
"""Compares the clauses of all functions with those of another revision: what went, what is new, what is the same.

    python3 tools/clauses.py REVISION [CRATE..]

It reads them as `tests/gate/clauses.py` does, which compares with a list of digests at each run of the gate; here both texts are
shown, of ghost members and definitions too. It ends with 1 where a promise went or a `requires` came to a function that was
there, which needs a reason.
"""
import os
import sys
from collections import defaultdict

sys.path.insert(0, os.path.join(os.path.dirname(os.path.dirname(os.path.realpath(__file__))), "tests"))
sys.dont_write_bytecode = True
from lib import clause_texts


def texts_by_key(revision, crates):
    found = defaultdict(list)
    for it in clause_texts.promises_of(clause_texts.texts_of(revision)):
        if it.key.what != "-" and it.key.crate in (crates or [it.key.crate]):
            found[it.key].append(it.text)
    return found


def main(words):
    if not words:
        sys.exit(__doc__)
    revision, crates = words[0], words[1:]
    before, now = texts_by_key(revision, crates), texts_by_key(None, crates)
    went, new = [it for it in before if it not in now], [it for it in now if it not in before]
    both = [it for it in now if it in before]
    changed = [it for it in both if before[it] != now[it]]
    for title, keys, texts in (("gone", went, before), ("new", new, now)):
        for key in keys:
            print(title, *key, *texts[key], sep="  ")
    for key in changed:
        print("changed", *key, sep="  ")
        print("    before:", *before[key], sep="\n        ")
        print("    now:   ", *now[key], sep="\n        ")
    print(f"{len(both) - len(changed)} the same, {len(changed)} changed, {len(new)} new, {len(went)} gone")
    functions = {it[:2] for it in before}
    asked = [it for it in new if it.what.startswith("requires:") and it[:2] in functions]
    return 1 if asked or any(it.what.startswith("ensures:") for it in went) else 0


if __name__ == "__main__":
    sys.exit(main(sys.argv[1:]))
