"""How the log says that a connection ended, as `relay_log` writes it: the guide has each word, and no other."""

import re

from lib.pages.markdown import paragraphs, rows, section, spans
from lib.pages.rust import constants, functions, texts, without_comments
from lib.pages.tree import GUIDE

WORDS = "crates/relay_log/src/words.rt"
ENDED = "crates/relay_log/src/ended.rt"
LINE = "crates/relay_log/src/line.rt"
STAMP = re.compile(r"^\d{4}-\d\d-\d\dT\S+Z ")


def hows(tree):
    """How a connection ended: those words, and those that a reason follows, which end in a space."""
    body = functions(tree.text(ENDED))["write"]
    return re.findall(r'Ended::\w+(?:\(\w+\))? => [^\n]*?\bb"([^"]+)"', body)


def reasons(tree):
    """The words of reasons and causes, which may follow."""
    causes = re.search(r"const CAUSE_WORDS: [^=]*= \[(.*?)\];", tree.text(ENDED), re.S)
    return [*re.findall(r'\bReason::\w+ => b"([^"]+)"', tree.text(ENDED)), *texts(causes[1] if causes else "")]


def fields(tree):
    """How many words a line has, the last of which may be several."""
    body = re.search(r"pub struct LogLine.*?\n\}", without_comments(tree.text(LINE)), re.S)
    return len(re.findall(r"^    pub \w+:", body[0], re.M)) if body else 0


def check(tree, told):
    ways, why = hows(tree), reasons(tree)
    told.reads(len(ways) > 6 and len(why) > 3 and fields(tree) > 8, ENDED, __file__)
    text = section(tree.text(GUIDE), "Log")
    said = {it for _, it in spans(text)}
    for it in (*ways, *why):
        told.holds(any(is_said(it, span) for span in said), GUIDE, f"says nothing of a log's word `{it}`, which the code has")
    told.holds(re.search(rf"\b{constants(tree.text(WORDS))['LOST'].strip()} N\b", text), GUIDE, "says nothing of lines that were lost")
    in_table(told, text, [*ways, *why])
    table = next((it for _, it in paragraphs(text) if it.startswith("| Field")), "")
    named = [name for _, cells in list(rows(table))[1:] for name in cells[0].split(", ")]
    told.holds(len(named) == fields(tree), GUIDE, f"a line of the log has {fields(tree)} fields, and here are {named}")
    for page in tree.pages():
        samples(told, page, tree.text(page), fields(tree), ways)


def is_said(word, span):
    """Whether a word in code's letters is that of the log, with what may follow it."""
    return re.fullmatch(re.escape(word) + (r"[A-Z]+|" + re.escape(word) + r"[a-z-]+" if word.endswith(" ") else ""), span)


def in_table(told, text, known):
    """The table of how it ended has no word that the code hasn't."""
    cells = [(line, it[0]) for line, it in rows(text)]
    first = next((at for at, (_, it) in enumerate(cells) if it == "How"), len(cells))
    for line, cell in cells[first + 1 :]:
        for _, it in spans(cell):
            told.holds(any(is_said(word, it) for word in known), GUIDE, f"a log has no word `{it}`", line)


def samples(told, page, text, count, ways):
    """A line of a log has as many words as the code writes, and ends as the code has it."""
    for line, said in enumerate(text.splitlines(), 1):
        said = said.strip(" `")
        if STAMP.match(said):
            words = said.split(" ", count - 1)
            ended = any(words[-1] == it or it.endswith(" ") and words[-1].startswith(it) for it in ways)
            told.holds(len(words) == count and ended, page, f"no line of a log: {said}", line)
