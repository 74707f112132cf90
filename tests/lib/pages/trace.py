"""The operations of a trace script and their answers, as `lockword_script` reads and prints them: the format has each, and no other."""

import re

from lib.pages.markdown import rows, section, spans
from lib.pages.rust import functions, texts

SCRIPT = "crates/lockword_script/src/script.rt"
PRINTED = "crates/lockword_script/src/printed_line.rt"
FORMAT = "docs/trace-script.md"


def operations(tree):
    return set(re.findall(r'b"(\w+)" => Some\(Op::', tree.text(SCRIPT)))


def answers(tree):
    return set(texts(functions(tree.text(PRINTED))["name_of"]))


def check(tree, told):
    known, said = operations(tree), answers(tree)
    told.reads(len(known) > 10 and len(said) > 10, SCRIPT, __file__)
    text = section(tree.text(FORMAT), "Operations")
    named = {it for _, it in spans(text)}
    for it in sorted(known | said):
        told.holds(it in named, FORMAT, f"says nothing of `{it}`, which the code has")
    for line, cells in rows(text):
        for _, it in spans(cells[0]):
            told.holds(it in known | said, FORMAT, f"`{it}` is no operation and no answer of the code", line)
