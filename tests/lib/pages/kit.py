"""The logic that the proofs were made with, and the kits of it that were tried, stand in one page; all others ask for the same. The
kit that is here may be another, or there may be none: that is told, and fails nothing, since the gate proves everything by the kit that
it finds, and a reader without one can check the pages all the same. What is trusted of the kit are the crates that crates.txt takes from it."""

import functools
import os
import re
import subprocess

from lib.pages.tree import TRUSTED

KIT, LOGIC = re.compile(r"\brattle-kit-\w+"), re.compile(r"\blogic ([0-9a-f]{16})\b")


def said_by_kit(word):
    """What the command of the kit prints; nothing where there is no kit."""
    try:
        ran = subprocess.run(["rt", word], capture_output=True, text=True, check=False)
        return (ran.stdout or ran.stderr).strip()
    except FileNotFoundError:
        return ""


@functools.cache
def pages_of_kit():
    """The names of the kit's own pages: the first, which `rt doc` names, and those in its folder beside that."""
    first = said_by_kit("doc")
    if not first:
        return set()
    folder = f"{os.path.dirname(first)}/rattle"
    found = {os.path.basename(first)}
    for at, _, names in os.walk(folder):
        found |= {os.path.relpath(f"{at}/{it}", folder) for it in names if it.endswith(".md")}
    return found


def is_page_of_kit(name):
    """Whether the kit has such a page; without a kit, whether it is named as one."""
    known = pages_of_kit()
    return name in known if known else name.endswith(".md")


def version_here():
    return said_by_kit("version")


def taken(tree):
    """The crates of the kit that crates of this repository stand on."""
    lines = re.findall(r"^(\w+)[^:\n#]*:(.*)$", tree.text("crates.txt"), re.M)
    return {it for _, below in lines for it in below.split()} - {name for name, _ in lines}


def trusted(tree):
    """The crates that the page names among what is trusted."""
    said = re.search(r"statements of its crates (.*?);", tree.text(TRUSTED))
    return set(re.findall(r"`(\w+)`", said[1])) if said else set()


def check(tree, told):
    tried, logics = set(KIT.findall(tree.text(TRUSTED))), set(LOGIC.findall(tree.text(TRUSTED)))
    if not told.reads(tried and len(logics) == 1, TRUSTED, __file__):
        return
    asked = logics.pop()
    for page in tree.pages():
        for it in KIT.findall(tree.text(page)):
            told.holds(it in tried, page, f"names {it}, and the kits that were tried are {', '.join(sorted(tried))}")
        for it in LOGIC.findall(tree.text(page)):
            told.holds(it == asked, page, f"asks for logic {it}, and {TRUSTED} for {asked}")
    told.holds(taken(tree) == trusted(tree), TRUSTED, f"what is trusted lacks or has too much: {sorted(taken(tree) ^ trusted(tree))}")
    here = version_here()
    if not tried & set(KIT.findall(here)) or asked not in LOGIC.findall(here):
        told.note(f"`rt version` says {here!r} here: tried were {', '.join(sorted(tried))}, of logic {asked}")
