"""What the pages and samples of the Debian package name is in the package too; what is in the repository alone they name by its path
from the top, without `../`."""

import os
import re

from lib.pages.markdown import spans

DEB = "packaging/deb.sh"
OUTWARD = re.compile(r"(?:\.\./)+[\w./-]+|[\w-]+\.md")


def pages(tree):
    """The pages of docs/ that the package has."""
    said = re.search(r"^for page in (.*); do put 644 docs/", tree.text(DEB), re.M)
    return [f"docs/{it}.md" for it in said[1].split()] if said else []


def others(tree):
    """The files and folders that it has beside them."""
    put = re.findall(r"^put(?:_zipped| \d+) (\S+) ", tree.text(DEB), re.M)
    listed = re.findall(r"git ls-files (.*?)\)", tree.text(DEB))
    return [it.strip('"') for it in (*put, *" ".join(listed).split())]


def check(tree, told):
    own, beside = pages(tree), others(tree)
    told.reads(own and beside, DEB, __file__)
    for page in own:
        told.holds(tree.has(page), DEB, f"packs {page}, which isn't there")
        for line, span in spans(tree.text(page)):
            if OUTWARD.fullmatch(span):
                path = os.path.normpath(os.path.join(os.path.dirname(page), span))
                is_there = path in own or any(path == have or path.startswith(f"{have}/") for have in beside)
                told.holds(is_there, page, f"names {span}, which the package hasn't", line)
