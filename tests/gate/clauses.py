"""Compares what the crates promise with `tests/gate/clauses.list`, so that no clause is lost or weakened unseen.

    python3 tests/gate/clauses.py            compares, and writes nothing
    python3 tests/gate/clauses.py --add      adds to the list what is new
    python3 tests/gate/clauses.py --write    makes the list anew, before a change is begun, and empties `tests/gate/clauses.changes`

The list has a line for each clause, ghost member and definition: `CRATE FUNCTION KIND:NAME DIGEST`. What is new and isn't listed
fails, since nobody would see it go. What is gone, or has another text, fails, as do a `requires` that came to a function which was
there, and a second definition of a name, since a text that cites it may then mean another. Those pass where
`tests/gate/clauses.changes` has a line that names it with its reason:

    CRATE FUNCTION KIND:NAME gone|changed|new REASON
    CRATE * * moved:CRATE[,CRATE..] REASON

`*` in place of KIND:NAME stands for all of a function, type or definition of which nothing is left, and `* *` for all of a crate
of which nothing is left. What moved stands in the other crate as it stood in the first, under the same name and with the same
digest, or it is gone. A line that names nothing which changed fails too. The last line is `N passed, M failed`.
"""

import argparse
import os
import re
import sys
from collections import Counter, defaultdict

sys.path.insert(1, f"{sys.path[0]}/..")
from lib import clause_texts
from lib.clause_texts import DEFINITION, Key

LIST, CHANGES = "tests/gate/clauses.list", "tests/gate/clauses.changes"
HEAD = """# What became of promises since tests/gate/clauses.list was made (tests/gate/clauses.py): a line each,
# CRATE FUNCTION KIND:NAME gone|changed|new REASON or CRATE * * moved:CRATE[,CRATE..] REASON
"""
WORDS = ("gone", "changed", "new")
MOVED = "moved:"


def read(name):
    path = f"{clause_texts.ROOT}/{name}"
    if not os.path.exists(path):
        return []
    with open(path, encoding="utf-8") as file:
        return [it for it in file.read().splitlines() if it and not it.startswith("#")]


def write(name, text):
    with open(f"{clause_texts.ROOT}/{name}", "w", encoding="utf-8") as file:
        file.write(text)


def by_key(pairs):
    """The digests of each key; a key may stand more than once, as the methods of two traits on one type."""
    found = defaultdict(Counter)
    for key, digest in pairs:
        found[key][digest] += 1
    return found


def listed():
    lines = [it.split(" ") for it in read(LIST)]
    return by_key((Key(*it[:3]), it[3]) for it in lines)


def standing(promises, ambiguous):
    return by_key((it.key, clause_texts.digest_of(it, ambiguous)) for it in promises)


def differences(before, now):
    """What became of each key that isn't as it was, where it matters."""
    functions = {it[:2] for it in before if it.what.startswith(("requires:", "ensures:", "-"))}
    names = {it.where for it in before if it.what == DEFINITION}
    found = {}
    for key in before.keys() | now.keys():
        missing, more = (a.get(key, Counter()) - b.get(key, Counter()) for a, b in ((before, now), (now, before)))
        asked = key.what.startswith("requires:") and key[:2] in functions
        if missing and key.what != "-":
            found[key] = "changed" if more else "gone"
        elif more and (asked or key.what == DEFINITION and key.where in names):
            found[key] = "new"
    return found


def said_of(lines):
    """What the lines of changes name, and what is wrong with those that can't be read."""
    said, wrong = {}, []
    for line in lines:
        parts = line.split(None, 4)
        if len(parts) < 4 or not (parts[3] in WORDS or parts[1:3] == ["*", "*"] and parts[3].startswith(MOVED)):
            wrong.append(f"{CHANGES}: not `CRATE FUNCTION KIND:NAME gone|changed|new REASON` nor `CRATE * * moved:CRATE REASON`: {line}")
        elif len(parts) < 5:
            wrong.append(f"{CHANGES}: no reason is given: {line}")
        else:
            said[Key(*parts[:3])] = parts[3]
    return said, wrong


def as_it_was(promise, moves, often):
    """The digests that a promise would have where it was, if the crates that its names come from moved too."""
    for crate, to in moves:
        path = re.compile(rf"^Rattle\.(?:{'|'.join(to)})\.")
        imports = {name: path.sub(f"Rattle.{crate}.", at) for name, at in promise.imports.items()}
        yield clause_texts.digest_of(promise._replace(imports=imports), often)


def with_moves(before, said, promises, often):
    """What was listed, with all that only moved under the crate where it stands now, and the lines that say of such."""
    moves = {line: word.removeprefix(MOVED).split(",") for line, word in said.items() if word.startswith(MOVED)}
    stands, now, used = defaultdict(list), standing(promises, often), set()
    for it in promises:
        stands[it.key] += [{*as_it_was(it, [(line.crate, to) for line, to in moves.items()], often)}]
    owners = {it[:2] for it in stands}
    for line, crates in moves.items():
        for key in [it for it in before if it.crate == line.crate and it not in stands]:
            there = next((it for it in (key._replace(crate=to) for to in crates) if it[:2] in owners), None)
            if there and key.what == "-":
                before[there] = before.pop(key)
            elif there and all(sum(one in it for it in stands[there]) >= times for one, times in before[key].items()):
                used.add(line)
                del before[key]
                before[there] = now[there]
    return before, used


def judged(found, said, now):
    """The differences that no line names, and the lines that name none."""
    left, used = [], set()
    stands = {it[:end] for it in now for end in (1, 2)}
    for key, word in sorted(found.items()):
        wider = [Key(*key[:end], *"**"[end - 1 :]) for end in (2, 1) if key[:end] not in stands]
        named = next((it for it in [key, *wider] if said.get(it) == word), None)
        if named:
            used.add(named)
        else:
            left.append((key, word))
    return left, [it for it in said if it not in used]


TOLD = {
    "gone": "is gone",
    "changed": "has another text",
    "new": "came to what was there: a `requires` asks more of callers, a second definition of a name may be meant for the first",
}


def listed_often(before, more=()):
    """The names that have several definitions in the list, with these keys added to it."""
    return clause_texts.defined_often([*(key for key, digests in before.items() for _ in range(sum(digests.values()))), *more])


def compare(promises):
    """Prints what isn't as it was and that no line of changes names, and says how many passed and failed."""
    before = listed()
    often = listed_often(before)
    now = standing(promises, often)
    said, wrong = said_of(read(CHANGES))
    before, moved = with_moves(before, said, promises, often)
    found = differences(before, now)
    left, idle = judged(found, {it: word for it, word in said.items() if it not in moved}, now)
    for key, word in left:
        print(f"{' '.join(key)} {TOLD[word]}\n    if that is meant, add to {CHANGES}: {' '.join(key)} {word} REASON")
    wrong += [f"{CHANGES}: nothing became of this so: {' '.join(it)} {said[it]}" for it in idle]
    if left:
        print(f"    both texts of each: python3 tools/clauses.py $(git log -1 --format=%h {LIST})")
    print(*wrong, sep="\n", end="\n" if wrong else "")
    came = sum(it.what != "-" for it in now.keys() - before.keys() - found.keys())
    if came:
        print(f"{came} new in no line of {LIST}, so that nobody would see them go: python3 tests/gate/clauses.py --add")
    print(f"{len(said) - len(idle)} changes with a reason")
    failed = len(left) + len(wrong) + (came > 0) + (not before)
    print(f"{len(before) - sum(word != 'new' for _, word in left)} passed, {failed} failed")
    return 1 if failed else 0


def lines_of(promises, often):
    return [" ".join([*it.key, clause_texts.digest_of(it, often)]) for it in promises]


def write_list(lines):
    write(LIST, "\n".join(sorted(lines)) + "\n")
    print(f"{len(lines)} lines in {LIST}")
    return 0


def added(promises):
    """The lines of the list, and those of what is new and asks for no reason. A second definition of a name asks for one, and so
    doesn't count where digests say from where a name is."""
    before = listed()
    often = listed_often(before)
    before, _ = with_moves(before, said_of(read(CHANGES))[0], promises, often)
    known = before.keys() | differences(before, standing(promises, often)).keys()
    came = [it for it in promises if it.key not in known]
    return read(LIST) + lines_of(came, listed_often(listed(), [it.key for it in came]))


def main(words):
    given = argparse.ArgumentParser(description="Compares what the crates promise with the list.")
    given.add_argument("--add", action="store_true", help="add to the list what is new")
    given.add_argument("--write", action="store_true", help="make the list anew, and empty the changes")
    given = given.parse_args(words)
    promises = clause_texts.promises_of(clause_texts.texts_of())
    if given.add:
        return write_list(added(promises))
    if given.write:
        write(CHANGES, HEAD)
        return write_list(lines_of(promises, clause_texts.defined_often([it.key for it in promises])))
    return compare(promises)


if __name__ == "__main__":
    sys.exit(main(sys.argv[1:]))
