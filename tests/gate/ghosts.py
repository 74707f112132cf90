"""Compares at which types the ghost members of traits say something with `tests/gate/ghosts.list`.

    python3 tests/gate/ghosts.py            compares, and writes nothing
    python3 tests/gate/ghosts.py --list     prints the lines that the code gives, without reasons

A clause that cites a ghost member of a trait says only what the type at which the program uses it tells. So the list has a line for
each impl of each trait that has such members, in each crate, tests included:

    CRATE TRAIT.MEMBER CRATE::TYPE told
    CRATE TRAIT.MEMBER CRATE::TYPE empty REASON
    CRATE TRAIT.MEMBER nowhere REASON

A member is empty at a type where the type leaves it out and its default says nothing, or where what it is given says nothing: it
is `Unit {0}`, `⊤` or `None` for each argument, or `⊥`, from which nothing follows. It is told nowhere where it is empty at each type.
What differs from the code fails, as does an empty member without a reason. The last line is `N passed, M failed`.
"""

import pathlib
import re
import sys
from collections import defaultdict

sys.path.insert(1, f"{sys.path[0]}/..")
from lib.clause_texts import balanced
from lib.places import ROOT

LIST = "tests/gate/ghosts.list"

TRAIT = re.compile(r"^(?:pub(?:\([^)]*\))? )?trait (\w+)[^{;]*\{", re.M)
IMPL = re.compile(r"^impl\b([^{;]*?)\bfor\b([^{;]*)\{", re.M)
MEMBER = re.compile(r"^ {4}ghost (\w+): \{", re.M)
GIVEN = re.compile(r"^ {4}ghost (\w+) = \{", re.M)
LINE = re.compile(r"(\S+ \S+ (?:nowhere|\S+ (?:told|empty)))(?: (.*))?")
# What says nothing, or only what nothing follows from.
SAYS_NOTHING = re.compile(r"(?:λ [^.]*\. ?)?(?:Unit \{0\}|⊤|⊥|None)")


def says_nothing(value):
    return bool(SAYS_NOTHING.fullmatch(" ".join(value.split())))


def name_of(words):
    """The first name of a type or a trait, without parameters, where clauses and paths."""
    found = re.match(r"&?\s*(?:'\w+ )?(?:mut )?(?:\w+::)*(\w+)", words.strip())
    return found[1] if found else words.strip()


def without_parameters(head):
    """What stands behind the parameters of an impl."""
    depth = 0
    for at, it in enumerate(head):
        depth += (it == "<") - (it == ">" and head[at - 1] != "-")
        if depth == 0:
            return head[at + 1 :] if at else head
    return head


def sources():
    """Each source with its crate, without its comments, so that no example in one counts."""
    for path in sorted(pathlib.Path(ROOT).glob("crates/*/src/**/*.rt")):
        yield path.relative_to(ROOT).parts[1], re.sub(r"^\s*//.*$", "", path.read_text(encoding="utf-8"), flags=re.M)


def traits_of(codes):
    """The ghost members of each trait, by its name: its crate, and what each member is where a type leaves it out."""
    found = {}
    for crate, code in codes:
        for trait in TRAIT.finditer(code):
            body, _ = balanced(code, trait.end() - 1)
            members = {}
            for it in MEMBER.finditer(body):
                _, end = balanced(body, it.end() - 1)
                members[it[1]] = balanced(body, end + 3)[0] if body[end:].startswith(" = {") else None
            if members:
                found[trait[1]] = (crate, members)
    return found


def told_by(codes, traits):
    """Each impl of such a trait: the key of each member, the type, and whether it is told there."""
    for crate, code in codes:
        for impl in IMPL.finditer(code):
            trait = name_of(without_parameters(impl[1].lstrip()))
            if trait not in traits:
                continue
            body, _ = balanced(code, impl.end() - 1)
            given = {it[1]: balanced(body, it.end() - 1)[0] for it in GIVEN.finditer(body)}
            home, members = traits[trait]
            for member, default in members.items():
                value = given.get(member, default)
                yield f"{home} {trait}.{member}", f"{crate}::{name_of(impl[2])}", value is not None and not says_nothing(value)


def lines_of(codes):
    """The lines that the code gives."""
    codes = list(codes)
    traits = traits_of(codes)
    types = defaultdict(set)
    for key, where, told in told_by(codes, traits):
        types[key].add((where, told))
    lines = []
    for trait, (home, members) in sorted(traits.items()):
        for key in (f"{home} {trait}.{it}" for it in members):
            lines += [f"{key} {where} {'told' if told else 'empty'}" for where, told in sorted(types[key])]
            if not any(told for _, told in types[key]):
                lines.append(f"{key} nowhere")
    return lines


def compared(given, listed):
    """What differs, and how many lines are as listed. Behind an empty member, and one that is told nowhere, stands a reason."""
    reasons = {}
    for line in listed:
        found = LINE.fullmatch(line)
        reasons[found[1] if found else line] = found[2] if found else None
    said = [f"isn't listed: {it}" for it in given if it not in reasons]
    said += [f"has no reason: {it}" for it in given if it in reasons and not it.endswith(" told") and not reasons[it]]
    said += [f"isn't so: {it}" for it in reasons if it not in given]
    return said, len([it for it in given if it in reasons])


def main():
    if sys.argv[1:] == ["--list"]:
        print("\n".join(lines_of(sources())))
        return 0
    if sys.argv[1:]:
        sys.exit(__doc__)
    with open(f"{ROOT}/{LIST}", encoding="utf-8") as file:
        listed = [it for it in file.read().splitlines() if it and not it.startswith("#")]
    said, passed = compared(lines_of(sources()), listed)
    for it in said:
        print(it)
    print(f"{passed} passed, {len(said)} failed")
    return 1 if said or not passed else 0


if __name__ == "__main__":
    sys.exit(main())
