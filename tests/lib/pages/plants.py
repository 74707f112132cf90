"""The table of plants in docs/testing.md: each plant, with the check that sees it. Each applies to the sources as they stand."""

import re

from lib.edits import apply
from lib.planted import plants

PAGE = "docs/testing.md"
HEAD = "| Plant | Script and stage, or crate and test | Check or row that fails |\n|---|---|---|\n"
TABLE = re.compile(rf"^{re.escape(HEAD)}(?:\|.*\n)*", re.M)


def table():
    rows = (f"| {it.name.replace('_', ' ')} | {it.script} {it.stage} | {it.check} |\n" for it in plants())
    return HEAD + "".join(rows)


def with_table(text):
    """The page with the table as it has to be."""
    return TABLE.sub(lambda _: table(), text)


def check(tree, told):
    text = tree.text(PAGE)
    found = TABLE.search(text)
    if told.reads(found, PAGE, __file__):
        told.holds(found[0] == table(), PAGE, "its plants aren't those of `tests/plants`: `python3 tests/gate/plants.py --write`")
    for it in plants():
        _, why = apply(it.edit, tree.text)
        told.holds(not why, f"tests/plants/{it.name}.edit", why)
