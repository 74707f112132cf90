"""An example of code in a page is a quotation: each of its lines stands in the sources of a crate, in a file that the gate builds."""

import re

from lib.pages.markdown import fences, indented
from lib.pages.tree import FOLLOWED

CODE = re.compile(r"^(?:let |fn |pub |use |impl|match |for .* \{$|\})|;$")


def lines_of(tree):
    """Each line of the crates' code, and each without the brace at its end, since a head has its contract ahead of that."""
    return {line.strip() for path in tree.paths(r"crates/\w+/src/.*\.rt") for line in tree.text(path).splitlines()}


def examples(text):
    """The lines of code of a page: those of blocks in Rust, and those that are set off and look so."""
    for line, kind, block in fences(text):
        if kind in ("rust", "rattle"):
            yield from ((line + at, it.strip()) for at, it in enumerate(block.splitlines()) if it.strip())
    yield from ((line, it.strip()) for line, it in indented(text) if CODE.search(it.strip()) and "`" not in it)


def missing(text, lines):
    """The lines of examples that aren't among these of sources, each with its number, and how many are quoted."""
    found = list(examples(text))
    return [(at, it) for at, it in found if not {it, it.removesuffix(" {")} & lines], len(found)


def check(tree, told):
    lines = lines_of(tree)
    for page in set(tree.pages()) - set(FOLLOWED):
        lacking, seen = missing(tree.text(page), lines)
        told.passed += seen - len(lacking)
        for line, said in lacking:
            told.holds(False, page, f"no crate has the line `{said}`", line)
