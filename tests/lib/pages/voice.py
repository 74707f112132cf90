"""Turns of phrase that strangers stumbled over, each with the plain one: no page has them again. A page of docs/ says first for whom it is,
and what words mean that are ours alone."""

import functools
import re

from lib.pages.markdown import SPAN, paragraphs

# The list of all pages.
INDEX = "docs/README.md"
ROWS = (
    (r"[Ww]hoever", "name the thread, the client or the operator"),
    (r"(?:^|[.;:|] )[Ww]ho (?:doesn't|destroyed|waited|waits|reads|removes|takes)\b", "say what kind of thing it is"),
    (r"\brows? of (?:faults|accepts|them|interruptions)\b", "a series"),
    (r"\bgot nowhere\b", "made no progress"),
    (r"\bfor good\b", "permanently"),
    (r"\bas ever\b", "as before"),
    (r"\btakes nobody more\b(?! for)", "takes no more clients"),
    (r"\bis dear\b", "is expensive"),
    (r"\bno proof knows\b", "proofs know nothing of"),
    (r"\b(?:is|are|was|were) made so\b", "say how"),
    (r"\band (?:its|their) like\b", "name them"),
    (r"\bhasn't(?=[.,;|]| *$)|\bwhich \w+ hasn't\b", "say what it lacks, or doesn't have"),
    (r"\bundestroyed\b", "without destroying them"),
    (r"\b(?:has|takes) the place of the\b", "evicts"),
    (r"\b(?:refuses|accepts) nobody\b", "say which client, or that no client is refused"),
    (r"\b(?:is|are) told (?:at once|as (?:want|a want))\b", "is reported, or fails as"),
    (r"\bat will\b", "with any answer"),
    (r"\boutside the gate\b", "which isn't in the gate"),
    (r"\brule admits\b", "some reachable state, or what the rule allows"),
)
# Words of our own: how a page uses each, and how it says there what that is.
TERMS = {
    "half": (r"(?<![-\w`])hal(?:f|ves)\b(?!-| an| a | the | of (?:its|their))", r"half\*|halves\*|\bhalf is\b|reading (?:and|or) (?:the |its |a )?writing (?:half|side)|reading half|reads? and what writes"),
    "seat": (r"(?<![\w`])seats?\b", r"seat\*|\b[Ss]eat is\b|`Seat`|\bseats? \("),
    "stake": (r"(?<![\w`])stakes?\b", r"stake\*|\bstake is\b|`Stake`"),
}
# The list of such words, and a page for maintainers.
WITHOUT_TERMS = {"docs/glossary.md", "docs/DECISIONS.md"}


@functools.cache
def turns_in(text):
    """The turns of phrase of a text, each with the plain one and its line."""
    lines = enumerate(text.splitlines(), 1)
    return [(it[0].strip(), plain, line) for line, said in lines for words, plain in ROWS for it in re.finditer(words, said)]


def check(tree, told):
    for page in tree.pages():
        told.passed += 1
        for said, plain, line in turns_in(tree.text(page)):
            told.holds(False, page, f"“{said}”: {plain}", line)
    for page in set(tree.paths(r"docs/[\w-]+\.md")) - {INDEX}:
        first = next((it for _, it in paragraphs(tree.text(page)) if not it.startswith("#")), "")
        told.holds(first.startswith("For "), page, "doesn't say in its first line for whom it is")
    for page in set(tree.paths(r"README\.md|docs/[\w-]+\.md|crates/\w+/README\.md")) - WITHOUT_TERMS:
        for word, (use, meaning) in TERMS.items():
            text = tree.text(page)
            is_used = re.search(use, SPAN.sub("", text))
            told.holds(not is_used or re.search(meaning, text), page, f"uses the word “{word}”, and doesn't say what it is")
