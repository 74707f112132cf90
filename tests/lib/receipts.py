"""Receipts of wrong bodies: each says that a body was tried over exactly this text, with this logic, and was refused.

`tests/gate/wrong_bodies.receipts` has a line `CRATE/NAME DIGEST` for each. The digest is of all that decides the verdict: the
edit; the sources, specs and proofs of its crate and of every crate below, with their lines of crates.txt; the logic
that `rt version` names; and the scripts that judge. Where any byte of these differs, it isn't the receipt of what
stands here, and the body is tried. Kits of one logic share receipts: a goal that is false is open in each of them, and
the sample is tried by whichever is here.
"""

import hashlib
import os
import re
import subprocess

from lib import checker
from lib.places import ROOT

NAME = "tests/gate/wrong_bodies.receipts"
JUDGES = ("gate/wrong_bodies.py", "lib/edits.py", "lib/checker.py", "lib/receipts.py")

# Of the bodies that have a receipt, one in so many is tried all the same.
SAMPLED = 8


def digest(*parts):
    """A digest of texts or bytes that also tells where one ends and the next begins."""
    found = hashlib.sha256()
    for part in parts:
        part = part.encode() if isinstance(part, str) else part
        found.update(b"%d\n" % len(part) + part)
    return found.hexdigest()[:40]


def bytes_of(path):
    with open(path, "rb") as file:
        return file.read()


def judges():
    """The kit's logic and the scripts that judge, as they decide every verdict."""
    said = checker.run([checker.RT, "version"], ROOT)
    logic = re.search(r" logic (\w+)$", said.text.strip())
    if said.status or not logic:
        raise SystemExit(f"rt version names no logic: {said.text}")
    here = os.path.dirname(os.path.dirname(os.path.realpath(__file__)))
    return digest(logic[1], *(bytes_of(f"{here}/{it}") for it in JUDGES))


def line_of(crate):
    """What crates.txt says of the crate: the libraries that it may use, and more."""
    lines = bytes_of(f"{ROOT}/crates.txt").decode(errors="replace")
    return "".join(re.findall(rf"^\s*{crate.name}\b[^:\n]*:.*", lines, re.M))


class Standing:
    """The digests of what stands in the tree."""

    def __init__(self, judged_by):
        self.judged_by, self.known = judged_by, {}

    def of_crate(self, crate):
        """Of a crate's text and line, and of those of every crate below it."""
        if crate.name not in self.known:
            parts = [crate.name, line_of(crate)]
            for path in checker.rtlib.files_of(crate.folder):
                parts += [os.path.relpath(path, crate.folder), bytes_of(path)]
            parts += [self.of_crate(it) for it in crate.below()]
            self.known[crate.name] = digest(*parts)
        return self.known[crate.name]

    def of_body(self, crate, name):
        edit = bytes_of(f"{crate.folder}/wrong-bodies/{name}.edit")
        return digest(self.judged_by, self.of_crate(crate), name, edit)


def read():
    """The digest of each body that has a receipt. A line of another form is none."""
    try:
        text = bytes_of(f"{ROOT}/{NAME}").decode(errors="replace")
    except FileNotFoundError:
        return {}
    return dict(re.findall(r"^(\w+/\S+) ([0-9a-f]{40})$", text, re.M))


def write(receipts):
    with open(f"{ROOT}/{NAME}", "w", encoding="utf-8") as file:
        file.writelines(f"{body} {receipts[body]}\n" for body in sorted(receipts))


def seed(crates, standing):
    """What chooses the sample: the commit, or where there is none the text of all crates."""
    words = ["git", "-C", ROOT, "rev-parse", "--verify", "HEAD"]
    if os.path.lexists(f"{ROOT}/.git"):
        said = subprocess.run(words, capture_output=True, text=True, check=False)
        if said.returncode == 0:
            return said.stdout.strip()
    return digest(*(standing.of_crate(it) for it in crates))


def sample(batches, chosen_by):
    """One body in eight of those in `batches`, which hold what one check can try: few whole checks, not many small ones.

    The seed puts the batches in order, and the bodies of the last one that is needed."""
    left = -(-sum(map(len, batches)) // SAMPLED)
    in_order = lambda it: digest(chosen_by, it.crate, it.name)
    found = []
    for batch in sorted(batches, key=lambda it: in_order(it[0])):
        found += sorted(batch, key=in_order)[:left]
        left -= min(left, len(batch))
    return found
