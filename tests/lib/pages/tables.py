"""Each row of a table has as many cells as its head. A crate's README names in the table of its modules each file of `src/`, in those of
its calls and types words of its own code, and in that of its tests files that are there."""

import os
import re

from lib.pages.markdown import SPAN
from lib.pages.names import words

DASHES = re.compile(r"^\|[-|: ]+\|$")
WORD = re.compile(r"[A-Za-z_]\w*")
# How heads of tables are called whose first cells name modules, tests, or what the crate has for its callers.
MODULES, TESTS = {"Module"}, re.compile(r"(?:File|Files|Folder) of `src/tests`$")
ITEMS = {"Item", "Call", "Type", "Value"}


def cells(line):
    """The cells of a row; a line between code's letters, or behind a backslash, parts none."""
    bare = SPAN.sub(lambda it: it[0].replace("|", "\0"), line.strip()).replace("\\|", "\0")
    return [it.strip().replace("\0", "|") for it in bare.strip("|").split("|")] if bare.endswith("|") else []


def tables(text):
    """Each table with its line: the cells of its head, and of each row with the row's line."""
    rows, in_block = [], False
    for at, line in enumerate([*text.splitlines(), ""], 1):
        in_block ^= line.startswith("```")
        if line.startswith("|") and not in_block:
            rows += [] if DASHES.match(line) else [(at, cells(line))]
        elif rows:
            yield rows[0][1], rows[1:]
            rows = []


def of_crate(tree, page, told):
    """What the tables of a crate's README name in their first cells."""
    folder = os.path.dirname(page)
    files = tree.paths(rf"{folder}/src/.*\.rt")
    stems = {os.path.basename(it)[:-3] for it in files} | {it for path in files for it in path.split("/")[3:-1]}
    own = set().union(*(words(tree.text(it), False) for it in (*files, *tree.paths(rf"{folder}/specs/.*\.antt"))))
    for head, rows in tables(tree.text(page)):
        first = [(at, span) for at, row in rows for part in row[0].split(";") for span in SPAN.findall(part.split(":")[0])]
        said = {word: at for at, span in first for word in WORD.findall(os.path.basename(span))}
        if head[0] in MODULES:
            wanted = {os.path.basename(it)[:-3] for it in files} - {"lib"}
            differs = sorted(set(said) ^ wanted)
            told.holds(not differs, page, f"the table of its modules lacks or has too much: {differs}")
        elif TESTS.match(head[0]):
            for word, at in said.items():
                told.holds(word in stems, page, f"there is no file `{word}` of its tests", at)
        elif head[0] in ITEMS:
            for word in WORD.findall(" ".join(span for _, row in rows for span in SPAN.findall(row[0]))):
                told.holds(word in own or word in stems, page, f"`{word}` is no word of this crate")


def check(tree, told):
    for page in tree.pages():
        for head, rows in tables(tree.text(page)):
            for at, row in rows:
                told.holds(len(row) == len(head), page, f"a row of {len(row)} cells below a head of {len(head)}", at)
    for page in tree.paths(r"crates/\w+/README\.md"):
        of_crate(tree, page, told)
