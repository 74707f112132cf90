"""The texts of the repository by their paths from the top, and what is told of them.

A tree may have texts of its own in place of some files, so that a test can plant one.
"""

import os
import re

from lib.places import ROOT

# What is built, and what others made.
LEFT_OUT = {".git", "out", "target", "__pycache__", "corpus", "vendor"}
# The operator's guide, the man page that is made of it, and what the program says of itself.
GUIDE, MAN = "docs/operations.md", "man/pollrelay.1"
UNIT = "examples/systemd/pollrelay.service"
# Pages whose commands `own_program`, `quickstart` and `net_guide` give as their reader does.
FOLLOWED = ("docs/your-own-program.md", "docs/quickstart.md", "docs/net-guide.md")
HELP = "crates/relay_command/src/usage.rt"
# A page that names pages of the kit beside the repository's own.
ON_KIT = "docs/rattle-for-rust.md"
# The page that says what is trusted: the one room of the kit.
TRUSTED = "docs/guarantees.md"


def files_below(root):
    found = []
    for folder, folders, names in os.walk(root):
        folders[:] = sorted(set(folders) - LEFT_OUT)
        found += [os.path.relpath(os.path.join(folder, it), root) for it in names]
    return sorted(found)


class Tree:
    def __init__(self, root=ROOT):
        self.root, self.files, self.own, self.read, self.found = root, files_below(root), {}, {}, {}

    def having(self, path, text):
        """This tree with a text in place of that at the path."""
        other = Tree.__new__(Tree)
        other.root, other.own, other.read = self.root, {**self.own, path: text}, self.read
        is_new = path not in self.files
        other.files, other.found = (sorted([*self.files, path]), {}) if is_new else (self.files, self.found)
        return other

    def text(self, path):
        """The text at a path, or none where there is no file."""
        if path in self.own:
            return self.own[path]
        if path not in self.read:
            whole = os.path.join(self.root, path)
            self.read[path] = ""
            if os.path.isfile(whole):
                with open(whole, encoding="utf-8", errors="replace") as file:
                    self.read[path] = file.read()
        return self.read[path]

    def has(self, path):
        """Whether there is a file or a folder."""
        return path in self.own or os.path.exists(os.path.join(self.root, path))

    def paths(self, pattern):
        """The files whose whole path the regular expression is."""
        if pattern not in self.found:
            whole = re.compile(pattern)
            self.found[pattern] = [it for it in self.files if whole.fullmatch(it)]
        return self.found[pattern]

    def pages(self):
        """All pages of prose, without that of the tests' table and the lists that scripts print."""
        return self.paths(r"[A-Z]+\.md|docs/[\w-]+\.md|(?:examples|bench|models|tests)(?:/\w+)?/README\.md|crates/\w+/README\.md")

    def samples(self):
        """What is given to operators to begin with."""
        return self.paths(r"examples/.*\.(?:sh|py|rules|session|txt|cfg|service|yml|yaml|json)|packaging/.*(?<!\.md)")


class Told:
    """How much was looked at and holds, a line for what doesn't, and notes on the machine, which fail nothing."""

    def __init__(self):
        self.passed, self.lines, self.notes = 0, [], []

    def note(self, said):
        self.notes.append(said)

    def holds(self, is_so, page, said, line=None):
        if is_so:
            self.passed += 1
        else:
            place = f"{page}:{line}" if line else page
            self.lines.append(f"{place}: {said}")
        return is_so

    def reads(self, is_so, path, reader):
        """Whether a fact was found where it is looked for: else its reader, a file of this folder, has to go with the code."""
        return self.holds(is_so, path, f"what tests/lib/pages/{os.path.basename(reader)} reads here isn't there any more")

    def has_all(self, tree, page, wanted, what):
        """Whether the page has each of these words, but for its layout."""
        text = re.sub(r"\s+", " ", tree.text(page))
        for it in wanted:
            self.holds(it in text, page, f"says nothing of {what} `{it.strip()}`, which the code has")
