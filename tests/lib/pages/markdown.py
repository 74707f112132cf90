"""Reads pages: their words in code's letters, lines of shell, tables, sections. A man page is read as such a page too."""

import functools
import re

SPAN = re.compile(r"(?<!`)`([^`\n]+)`(?!`)")
FENCE = re.compile(r"^```(\w*)\n(.*?)^```$", re.M | re.S)
SHELL = {"sh", "console", "bash"}


@functools.cache
def spans(text):
    """Each word in code's letters with its line; what stands in a block is none."""
    outside = FENCE.sub(lambda it: "\n" * it[0].count("\n"), text)
    return [(outside.count("\n", 0, it.start()) + 1, it[1]) for it in SPAN.finditer(outside)]


@functools.cache
def fences(text):
    """Each block with its kind and the line on which its text begins."""
    return [(text.count("\n", 0, it.start(2)) + 1, it[1], it[2]) for it in FENCE.finditer(text)]


def indented(text):
    """Each line that is set off by four spaces, with its number, without them; what stands in a block is none."""
    outside = FENCE.sub(lambda it: "\n" * it[0].count("\n"), text).splitlines()
    for at, line in enumerate(outside, 1):
        if line.startswith("    ") and not line.startswith("     "):
            yield at, line[4:]


def set_off(text):
    """Each block that is set off, by four spaces or by a fence, with the line on which its text begins; without the four spaces."""
    yield from ((line, block) for line, _, block in fences(text))
    outside = FENCE.sub(lambda it: "\n" * it[0].count("\n"), text)
    for it in re.finditer(r"^    .*\n(?:(?:[ \t]*\n)*    .*\n)*", outside, re.M):
        yield outside.count("\n", 0, it.start()) + 1, re.sub(r"^    ", "", it[0], flags=re.M)


def paragraphs(text):
    """Each stretch of lines without an empty one, with the line where it begins."""
    at = 1
    for piece in re.split(r"(\n\s*\n)", text):
        if piece.strip():
            yield at, piece
        at += piece.count("\n")


def section(text, *names):
    """What stands below the first heading of one of these names, up to the next of its depth."""
    for name in names:
        found = re.search(rf"^(#+) {re.escape(name)}$\n(.*?)(?=^#{{1,2}} |\Z)", text, re.M | re.S | re.I)
        if found:
            return found[2]
    return ""


def rows(text):
    """The cells of each row of each table, with its line."""
    for at, line in enumerate(text.splitlines(), 1):
        if line.startswith("|") and not set(line) <= set("|- :"):
            yield at, [it.strip() for it in re.split(r"(?<= )\|(?= )", f" {line.strip().strip('|')} ")]


def bare(text):
    return text.replace("`", "").replace("*", "")
