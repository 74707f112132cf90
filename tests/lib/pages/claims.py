"""Checks that each call, clause, fact and file that README.md and docs/guarantees.md name is there, and each step of a
model, with its functions, that models/README.md names.

A row of a table that promises something names, in its second cell, functions, followed by the clauses that each of them
has, as `Timers::arm`, `arm_both` `armed`, `unchanged`; items are parted by semicolons, and what definitions a clause
cites stands in brackets. The crates are those of the heading above, or of the paths. After a function each plain word is a
clause that this function has, or another function; a definition isn't taken for one.

What is promised is said of what runs: each function that a row names is one that a program's `main` comes to by calls, or
one of a module `laws`; any other is named in the row as one of its `library calls: ..`. A row without a function says in its
last cell that it is tested. Calls are found by name, so that a name which two functions share counts for both, but for the
functions of `NAMESAKES`. One that stands there with its type is a library call by both names, as `Lines::read`.
"""

import functools
import os
import re

from lib.clause_texts import HEAD, owner_of

HEADS = ("Function and clause", "Contract that carries it", "Clause")
PAGES = ("README.md", "docs/guarantees.md")
PROGRAMS = ("pollrelay", "echo_server", "page_server", "loop_echo_server", "line_server")
# What crates of the kit call: a service's `call`, by `http_server`.
BY_KIT = {"call"}
# What no program calls, though each calls something of the same name: the symbols of the programs that `tools/unproved.py` builds
# have no such function.
NAMESAKES = {
    ("lockword_core", "run"), ("deadline_core", "is_under_way"), ("deadline_core", "stored"), ("fd_descriptor", "read"),
    ("fd_descriptor", "write"), ("readiness", "hold"), ("readiness", "hold_listener"), ("handle_io", "read"), ("handle_io", "write"),
    ("net", "local_addr"), ("net", "wake"), ("net", "closer"), ("net", "find"), ("net", "find_in"), ("net", "line"),
    ("net", "socket_closer"), ("net", "step"), ("net", "peer_addr"), ("net", "Lines::read"), ("conntable", "ids"), ("relay_log", "label"),
    ("config_values", "text"), ("proxy_header", "decode"),
}
LIBRARY = re.compile(r"library calls?: ((?:`[\w:]+`(?:, | and )?)+)")
WORD = re.compile(r"[A-Za-z_]\w*")
ITEM = re.compile(r"^\s*(?:pub(?:\([a-z]+\))? )?(?:struct|enum|trait|const|type|mod) (\w+)", re.M)
# (a definition; an indented line without one of these words is a field of a record)
FACT = re.compile(r"^(?: *(?:pub )?(?:abbrev|data|record) (?:pub )?|pub |)([A-Za-z_]\w*)\b[^\n]*?:", re.M)


class Crate:
    """The functions of a crate, each with the names of its clauses, and its other names: by its sources, each with whether it is of laws,
    and its definitions."""

    def __init__(self, name, sources, specs):
        self.name, self.functions, self.names, self.laws, self.calls = name, {}, set(), set(), {}
        for text, are_laws in sources:
            self.read_source(text, are_laws)
        for text in specs:
            self.names |= set(FACT.findall(text))

    def read_source(self, text, are_laws=False):
        self.names |= set(ITEM.findall(text))
        code = re.sub(r"//.*", "", text)
        heads = list(HEAD.finditer(code))
        for head, end in zip(heads, [*(it.start() for it in heads[1:]), len(code)]):
            # (behind a brace at the line's begin comes what isn't the function's)
            said = code[code.find("\n", head.end()) : end].split("\n}\n")[0]
            name, owner = head[2], owner_of(code, head.start())
            clauses = set(re.findall(r"\b(?:ensures|requires)\*? (\w+) \{", said))
            # (a clause calls nothing)
            self.calls.setdefault(name, set()).update(WORD.findall(re.sub(r"\b(?:ensures|requires)\b.*", "", said)))
            self.laws |= {name} if are_laws else set()
            for key in {name, f"{owner}::{name}" if owner else name}:
                self.functions.setdefault(key, []).append(clauses)

    def has(self, name):
        return name in self.functions or name in self.names


def rows_of(text):
    """The cells of each row of a table of promises, with its line and the crates of the heading above it."""
    named, inside = [], False
    for number, line in enumerate(text.splitlines(), 1):
        if line.startswith("#"):
            named, inside = re.findall(r"`(\w+)`", line), False
        elif not line.startswith("|"):
            inside = False
        else:
            cells = [it.strip() for it in line.strip().strip("|").split(" | ")]
            if any(it in HEADS for it in cells):
                inside = True
            elif inside and not set(line) <= set("|- "):
                yield number, named, cells


def rows_outside(text):
    """The lines of rows that belong to no table: an empty line cuts a table off, and what comes behind it is shown as text."""
    lines = ["", *text.splitlines(), ""]
    firsts = (it for it in range(1, len(lines) - 1) if lines[it].startswith("|") and not lines[it - 1].startswith("|"))
    return [it for it in firsts if not re.match(r"\|[-|: ]+\|$", lines[it + 1])]


def below(tree, name):
    """A crate with all crates below it, by crates.txt."""
    lines = dict(re.findall(r"^(\w+)[^:\n#]*:(.*)$", tree.text("crates.txt"), re.M))
    ahead, found = [name], set()
    while ahead:
        found.add(ahead[-1])
        ahead += set(lines.get(ahead.pop(), "").split()) - found
    return found


def called_by(tree, crates, program):
    """All functions, each with its crate, that the `main` of a program comes to."""
    known, own = {}, [crates[it] for it in below(tree, program) if it in crates]
    for crate in own:
        for name, body in crate.calls.items():
            known.setdefault(name, set()).update(body)
    ahead, found = [known.get("main", set()) | BY_KIT], set()
    while ahead:
        fresh = {it for it in ahead.pop() if it in known} - found
        found |= fresh
        ahead += [known[it] for it in fresh]
    return {(crate.name, name) for crate in own for name in crate.calls if name in found} - NAMESAKES


def name_in(crate, token):
    """The name by which calls of a function are found: with its type, where another of the crate has the same and is called."""
    owned = "::".join(token.split("::")[-2:])
    return owned if (crate, owned) in NAMESAKES else token.split("::")[-1]


class Row:
    """One cell's claims: functions, then the clauses of those functions."""

    def __init__(self, tree, crates, named):
        self.tree, self.all, self.crates = tree, crates, [crates[it] for it in named if it in crates] or list(crates.values())
        self.missing, self.seen, self.functions, self.holders = [], 0, set(), []

    def read(self, cell):
        for item in re.split(r";", cell):
            in_brackets = " ".join(re.findall(r"\(([^)]*)\)", item))
            tokens = re.findall(r"`([^`]+)`", re.sub(r"\([^)]*\)", "", item))
            facts = re.findall(r"`([^`]+)`", in_brackets)
            self.seen += len(tokens) + len(facts)
            self.crates = [self.all[it] for it in tokens if it in self.all] or self.crates
            self.missing += [it for it in facts if self.bodies(it) is None]
            self.read_item([it for it in tokens if it not in self.all])
        return self

    def read_item(self, tokens):
        group, after_clause = [], False
        for token in tokens:
            found = self.bodies(token)
            if "laws" in token.split("::"):
                self.functions |= {(it.name, "laws") for it in self.crates}
            # (what begins an item is a function, where one of the crates has that name)
            if self.is_clause(token, group) and (group or not found):
                after_clause = True
                continue
            # (after a function a plain word is a clause or another function)
            if found is None or not found and group and re.fullmatch(r"[a-z_0-9]+", token):
                self.missing.append(token)
            elif found:
                self.functions |= {(it.name, name_in(it.name, token)) for it in self.holders}
                group = found if after_clause else group + found
                after_clause = False

    def is_clause(self, token, group):
        if group:
            return all(any(token in it for it in same) for same in group)
        return any(token in it for crate in self.crates for same in crate.functions.values() for it in same)

    def bodies(self, token):
        """The bodies of that name; none for a name that is no function; None where nothing has the name."""
        if "/" in token or token.endswith((".antt", ".sh")):
            return [] if self.tree.has(token) or self.tree.paths(rf"crates/\w+/{re.escape(token)}") else None
        parts = token.split("::")
        if parts[0] in self.all:
            self.crates, parts = [self.all[parts[0]]], parts[1:]
        name = "::".join(it for it in parts if it not in ("laws",)) or "laws"
        # (a method may be of a lower crate's type)
        holders = [it for it in self.crates if it.has(name)] or [it for it in self.all.values() if "::" in name and it.has(name)]
        self.holders = [it for it in holders if name in it.functions]
        if not holders:
            # (a fact may be a lower crate's)
            return [] if any(name in it.names for it in self.all.values()) else None
        return [same for it in holders for same in [it.functions.get(name)] if same]


def library_calls(row_text):
    """The functions that a row says to be called by no program."""
    return {it for said in LIBRARY.findall(" ".join(row_text)) for it in re.findall(r"`([\w:]+)`", said)}


def uncalled(functions, called):
    """The names of those functions of which no crate's was called."""
    return {name for _, name in functions} - {name for of, name in functions if (of, name) in called}


def laws_of(crates):
    return {(it.name, name) for it in crates.values() for name in (*it.laws, "laws")}


def promises(text, tree, crates):
    """The missing names, each with its line, how many names were looked up, and what rows say of that no program runs, or say
    wrongly that none runs it."""
    missing, seen, unused = [], 0, []
    useful = laws_of(crates).union(*(called_by(tree, crates, it) for it in PROGRAMS))
    for number, named, row_text in rows_of(text):
        row = Row(tree, crates, named).read(row_text[1])
        seen += row.seen
        missing += [(number, it) for it in row.missing]
        is_tested = row_text[-1].startswith("tested") and row.seen
        unused += [(number, it) for it in sorted(uncalled(row.functions, useful) ^ library_calls(row_text))]
        if not row.functions and not is_tested:
            unused.append((number, "any function"))
    return missing, seen, unused


def reached(tree):
    """A line for each function that the pages name, with the first of the programs that comes to it."""
    crates = crates_of(tree)
    kinds = {"a law": laws_of(crates), **{it: called_by(tree, crates, it) for it in PROGRAMS}}
    for page in PAGES:
        for number, named, row_text in rows_of(tree.text(page)):
            functions = Row(tree, crates, named).read(row_text[1]).functions
            for it in sorted({name for _, name in functions}):
                by = (kind for kind, called in kinds.items() if it not in uncalled(functions, called))
                yield f"{page}:{number}: `{it}`: {next(by, 'no program')}"


def steps_of(tree):
    """The steps and threads that models define."""
    return set(re.findall(r"^(?:inline|proctype) (\w+)", "\n".join(tree.text(it) for it in tree.paths(r"models/.*")), re.M))


def models(text, steps, source):
    """The names of a table of steps, functions and their file that aren't there, each with its line, and how many are."""
    missing, seen = [], 0
    for number, line in enumerate(text.splitlines(), 1):
        row = re.match(r"\| ([^|]+) \| ([^|]+) \| `(crates/[^`]+\.rt)` \|$", line)
        if not row:
            continue
        named, functions = ([it for it in re.findall(r"`(\w+)`", cell)] for cell in row.groups()[:2])
        code = set(re.findall(r"\bfn (\w+)", source(row[3])))
        missing += [(number, it) for it in named if it not in steps]
        missing += [(number, f"{row[3]} {it}") for it in functions if it not in code]
        seen += len(named) + len(functions)
    return missing, seen


def tell(told, page, missing, seen):
    told.passed += seen - len(missing)
    for number, token in missing:
        told.holds(False, page, f"nothing is called `{token}`, or no function before it has that clause", number)
    told.holds(seen, page, "names nothing in its tables")


def quoted_promises(tree, told):
    """What a page says that README.md promises, README.md does say."""
    readme = " ".join(tree.text("README.md").split()).casefold()
    for page in tree.pages():
        for it in re.finditer(r"`(?:\.\./)?README\.md` says: ([^.]+)\.", tree.text(page)):
            said = " ".join(it[1].split()).casefold()
            told.holds(said in readme, page, f"README.md doesn't say: {it[1]}", tree.text(page).count("\n", 0, it.start()) + 1)


# (a crate of the same texts is read once)
read_crate = functools.cache(Crate)


def crate_of(tree, name):
    sources = []
    for path in tree.paths(rf"crates/{name}/src/.*\.rt"):
        stem = os.path.basename(path)[:-3]
        if "tests" not in path.split("/")[3:-1] and stem != "tests":
            sources.append((tree.text(path), stem == "laws"))
    return read_crate(name, tuple(sources), tuple(tree.text(it) for it in tree.paths(rf"crates/{name}/specs/.*\.antt")))


def crates_of(tree):
    return {it: crate_of(tree, it) for it in sorted({path.split("/")[1] for path in tree.paths(r"crates/\w+/src/.*\.rt")})}


def check(tree, told):
    crates = crates_of(tree)
    for page in PAGES:
        missing, seen, unused = promises(tree.text(page), tree, crates)
        tell(told, page, missing, seen)
        for number, it in unused:
            told.holds(False, page, f"whether a program calls `{it}` isn't as the row says: see `library calls:`", number)
        for number in rows_outside(tree.text(page)):
            told.holds(False, page, "a row stands in no table", number)
    quoted_promises(tree, told)
    page = "models/README.md"
    tell(told, page, *models(tree.text(page), steps_of(tree), tree.text))
