"""Files, folders and sections that pages name or link to are there, and the index of docs/ has each page."""

import functools
import os
import re

from lib.pages.kit import is_page_of_kit
from lib.pages.markdown import FENCE, SPAN, rows, spans
from lib.pages.tree import ON_KIT

LINK = re.compile(r"\]\(([^)\s#]+)(?:#[\w-]*)?\)")
# A link to a heading, of another page or of its own.
ANCHOR = re.compile(r"\]\(([^)\s#:]*)#([\w-]+)\)")
# What a page names as a file: a path of these letters with a folder ahead or an ending that files here have.
PATH = re.compile(r"(?:\.\./|[\w.-]+/)+[\w.*-]*|[\w-]+\.(?:md|py|sh|rt|antt|pml|svg|cfg|service|rules|session|edit|txt)")
# A file of code, with its folder or alone.
SOURCE = re.compile(r"(?:[\w.-]+/)*[\w-]+\.(?:rt|antt)")
ROOTS = {"tests", "docs", "crates", "examples", "bench", "models", "tools", "packaging", "man", ".ci"}
FILE = re.compile(r"^`[\w./-]+`:$", re.M)
# Words in capitals stand for any name.
ANY = re.compile(r"(?<![\w.-])[A-Z][A-Z_]*(?=[/_.]|$)")
# What isn't there before something was built or made, and what stands elsewhere.
MADE = re.compile(r"(?:^|/)out(?:/|$)|^crates/NAME|bench/target|/run/|^etc/|^usr/|^lib/systemd")
CHANGES = "CHANGELOG.md"
# A page with sections of it: in brackets, in quotation marks, or behind a comma.
SECTIONS = re.compile(r"`([\w./-]+\.md)`(?: \(([A-Z][^)`]*)\)|, [“\"]([^”\"]+)[”\"]|, ([A-Z][\w ]*(?:, [A-Z][\w ]*)*)(?=[).]))")
HEADING = re.compile(r"^#+ (.*)$", re.M)
# Packages of Go.
OF_GO = {"internal/poll", "net/http", "net/netip"}


@functools.cache
def is_matched(pattern, files):
    """Whether a path with `*` in it names a file or a folder."""
    whole = re.compile(re.escape(pattern).replace(r"\*", r"[\w.-]*"))
    return any(whole.fullmatch(it) for it in tails(files))


@functools.cache
def tails(files):
    """What names a file or a folder: some names of its path that follow one another, the last also without its ending."""
    found = set()
    for file in files:
        parts = file.split("/")
        for names in (parts, [*parts[:-1], parts[-1].split(".")[0]]):
            found.update("/".join(names[low:high]) for low in range(len(names)) for high in range(low + 1, len(names) + 1))
    return found


class Names:
    """What names a file or a folder of a tree."""

    def __init__(self, tree):
        self.tree, self.files = tree, tuple(tree.files)
        self.tails = tails(self.files)

    def is_there(self, path):
        path = re.sub(r"^(?:\.\.?/)+", "", path.rstrip("/."))
        pattern = ANY.sub("*", path)
        if "*" in pattern:
            return is_matched(pattern, self.files)
        return path in self.tails or self.tree.has(path)


def is_path(span, page, crates):
    """Whether a word in code's letters names a file of this repository, also one that begins with the name of a crate."""
    first = span.split("/")[0]
    is_own = first in ROOTS or first in crates or first == ".." or "/" not in span or page.startswith("crates/")
    return bool(PATH.fullmatch(span)) and is_own and span not in OF_GO and not MADE.search(span)


@functools.cache
def named_files(text):
    """The paths that a page names, alone or in a line of shell in code's letters, each with its line; but for a file that the page
    itself gives, below a line with its path alone."""
    return [(line, word.strip("'\",:")) for line, span in spans(FILE.sub("", text)) for word in span.split(" ")]


def anchors(text):
    """What a link calls each heading of a page."""
    return {re.sub(r"[^\w -]", "", it.lower()).replace(" ", "-") for it in HEADING.findall(FENCE.sub("", text))}


def in_folders(text):
    """In each cell of a table the names of files behind the path of one, with the folder of that path and their line."""
    for line, cells in rows(text):
        for cell in cells:
            folder = None
            for span in SPAN.findall(cell):
                if SOURCE.fullmatch(span):
                    folder = span.rpartition("/")[0] or folder
                    if folder:
                        yield line, folder, span.rpartition("/")[2]


def named_sections(text):
    """The sections that a page names, each with its line and the page where it has to be."""
    for it in SECTIONS.finditer(text):
        for name in [it[3]] if it[3] else re.split(r", | and ", it[2] or it[4]):
            yield text.count("\n", 0, it.start()) + 1, it[1], name


def has_section(tree, page, path, name):
    """Whether a heading of the page, which is named from another or from the top, begins so."""
    paths = os.path.normpath(os.path.join(os.path.dirname(page), path)), path, f"docs/{path}"
    text = next((tree.text(it) for it in paths if tree.has(it)), "")
    return any(it.replace("`", "").lower().startswith(name.lower()) for it in HEADING.findall(text))


def check(tree, told):
    names, crates = Names(tree), {it.split("/")[1] for it in tree.paths(r"crates/\w+/README\.md")}
    for page in tree.pages():
        text = tree.text(page)
        for line, folder, name in in_folders(text):
            told.holds(names.is_there(f"{folder}/{name}"), page, f"names `{name}` behind a file of {folder}, which has none", line)
        for line, path in named_files(text):
            if page == ON_KIT and is_page_of_kit(path):
                told.passed += 1
            elif is_path(path, page, crates) and page != CHANGES:
                told.holds(names.is_there(path), page, f"names `{path}`, which isn't there", line)
        for it in LINK.finditer(FENCE.sub(lambda block: "\n" * block[0].count("\n"), text)):
            if "://" not in it[1]:
                path = os.path.normpath(os.path.join(os.path.dirname(page), it[1]))
                told.holds(tree.has(path), page, f"links to {it[1]}, which isn't there", text.count("\n", 0, it.start()) + 1)
        for it in ANCHOR.finditer(text):
            path = os.path.normpath(os.path.join(os.path.dirname(page), it[1])) if it[1] else page
            is_there = tree.has(path) and it[2] in anchors(tree.text(path))
            line = text.count("\n", 0, it.start()) + 1
            told.holds(is_there, page, f"links to #{it[2]} of {path}, which has no such heading", line)
        for line, path, name in named_sections(text):
            told.holds(has_section(tree, page, path, name), page, f"names {name} of {path}, which has no such section", line)
    index = tree.text("docs/README.md")
    for page in tree.paths(r"docs/[\w-]+\.md"):
        name = os.path.basename(page)
        told.holds(name in index or name == "README.md", "docs/README.md", f"doesn't list {name}")
