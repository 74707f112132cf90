"""Edits of `crates/NAME/wrong-bodies/`: what they say, what they change, and which can be tried in one check."""

import os
import re
from collections import namedtuple

Edit = namedtuple("Edit", "crate name refused pairs")


def read_edit(crate_name, path):
    """Reads an edit: its pairs of a file's path, the text that stands there once, and the text that takes its place."""
    refused, pairs, file, old = "", [], "", None
    with open(path, encoding="utf-8") as text:
        for line in text.read().split("\n"):
            key, _, said = line.partition(":")
            if key == "new" and old is not None:
                pairs.append((file, old, said.removeprefix(" ")))
                old = None
            elif key == "file":
                file = said.strip()
            elif key == "refused":
                refused = said.strip()
            elif key == "old":
                old = said.removeprefix(" ")
    return Edit(crate_name, os.path.basename(path).removesuffix(".edit"), refused, tuple(pairs))


def edits_of(crate):
    folder = f"{crate.folder}/wrong-bodies"
    return [read_edit(crate.name, f"{folder}/{it}") for it in sorted(os.listdir(folder))]


def apply(edit, read):
    """The texts with the edit, by path, where `read` gives a file's text; or a reason why it doesn't apply."""
    texts = {}
    if not edit.pairs or not edit.refused:
        return None, "it has no pair of `old:` and `new:`, or no line `refused:`"
    for path, old, new in edit.pairs:
        try:
            text = texts[path] if path in texts else read(path)
        except OSError:
            return None, f"there is no file {path}"
        if text.count(old) != 1:
            return None, f"an `old:` text stands in {path} {text.count(old)} times, and not once"
        texts[path] = text.replace(old, new)
    return texts, None


def body_around(text, at):
    """The function whose body has the place `at`, as its line and name, by the layout that `rt fmt` gives; or None."""
    lines = text[:at].split("\n")
    for number in range(len(lines) - 1, -1, -1):
        head = re.match(r"( *)(?:pub(?:\([^)]*\))? )?(?:const |unsafe )*fn (\w+)", lines[number])
        if head:
            indent, name = head.groups()
            first, *others = lines[number:-1] or [""]
            begins = first.endswith("{") or any(it.endswith("{") and it.startswith((f"{indent}{{", f"{indent})")) for it in others)
            return (number, name) if begins and f"{indent}}}" not in others else None
    return None


def place_of(text, old, new):
    """A place in what an edit changes. A line that is only added to is changed behind its end, as where a body begins."""
    end = text.index(old) + len(old)
    return end + 1 if new.startswith(old) and text[end : end + 1] == "\n" else end - 1


def bodies(edit, read):
    """The functions whose bodies the edit changes, each as its file, line and name; or None where it changes anything else."""
    found = set()
    for path, old, new in edit.pairs:
        text = read(path)
        body = body_around(text, place_of(text, old, new)) if path.startswith("src/") else None
        if body is None:
            return None
        found.add((path, *body))
    return found


def applied_together(edits, read):
    """The texts with all of these edits, by path, or None where one keeps another from applying."""
    texts = {}
    for edit in edits:
        more, why = apply(edit, lambda path: texts[path] if path in texts else read(path))
        if why:
            return None
        texts.update(more)
    return texts


def packed(edits, read):
    """Batches of edits: in a batch no two change one function or are refused at one, and what is no body stands alone."""
    batches = []
    for edit in edits:
        takes = bodies(edit, read)
        takes = takes and takes | {edit.refused}
        for taken, batch in batches:
            if takes and taken and not takes & taken and applied_together([*batch, edit], read):
                taken.update(takes)
                batch.append(edit)
                break
        else:
            batches.append((takes, [edit]))
    return [batch for _, batch in batches]
