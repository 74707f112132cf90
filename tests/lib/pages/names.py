"""Each name of a function, a type, a clause, a definition or a test that a page has in code's letters is one of the sources'."""

import functools
import re

from lib.pages.kit import is_page_of_kit
from lib.pages.markdown import spans
from lib.pages.rust import without_comments
from lib.pages.tree import FOLLOWED, ON_KIT

SOURCES = r"(?:crates|tests|tools|bench|models|examples|packaging|\.ci)/.*\.(?:rt|antt|edit|py|sh|pml|inc|rs|c|toml|go|cfg|service)|crates\.txt|\.ci/run"
WORD = re.compile(r"[A-Za-z_]\w*")
# What in code's letters is taken for names: words with an underscore or a capital within, also with `::` between, a dot or a call.
NAME = re.compile(r"(?:[A-Za-z_]\w*(?:<[\w', ]*>)?(?:::|\.))*[A-Za-z_]\w*(?:<[\w', ]*>)?(?:\(\w*\))?!?")
TELLING = re.compile(r"_|[a-z][A-Z]|::|^[A-Z][a-z]+[a-z0-9]*$")
# What stands elsewhere: files of Go's own libraries, words of nginx, and settings of Linux.
ELSEWHERE = {"fd_unix", "netpoll_epoll", "least_conn", "tcp_keepalive_probes", "ip_local_port_range"}
# Beginnings and ends of names, and what stands for any crate.
PATTERNS = {"try_", "_io", "NAME_tests"}
# The rows of this have names that aren't there.
PLANTED = {"tests/gate/pages_test.py"}
# A page of what was, and one that gives its reader code to write.
LEFT_OUT = {"CHANGELOG.md", *FOLLOWED}



@functools.cache
def words(text, is_code):
    return frozenset(WORD.findall(without_comments(text) if is_code else text))


def known_words(tree):
    """The words of all sources, without remarks in those in Rattle, and the names of files and of the tests' parts."""
    found = set()
    for path in set(tree.paths(SOURCES)) - PLANTED:
        found |= words(tree.text(path), path.endswith(".rt"))
    for path in (*tree.files, tree.text("tests/README.md")):
        found.update(WORD.findall(path))
    return found | ELSEWHERE | PATTERNS


def check(tree, told):
    known = known_words(tree)
    for page in set(tree.pages()) - LEFT_OUT:
        for line, span in spans(tree.text(page)):
            if page == ON_KIT and is_page_of_kit(span):
                told.passed += 1
            elif NAME.fullmatch(span) and TELLING.search(span):
                for word in WORD.findall(re.sub(r"<.*?>|\(\w*\)", "", span)):
                    told.holds(word in known, page, f"nothing is called `{word}`" + (f", of `{span}`" if word != span else ""), line)
