"""The commands and options of the program, as `relay_command` gives them to clap: what the guide and `help` say."""

import re
from collections import namedtuple

from lib.pages.markdown import section
from lib.pages.rust import functions
from lib.pages.tree import GUIDE, HELP

GRAMMAR = "crates/relay_command/src/grammar.rt"
CRATES = "docs/crates.md"
PROGRAM = "pollrelay"
# A command: each option with whether it has to be there and whether it has a value, and how few and how many words follow.
Command = namedtuple("Command", "options least most")
Option = namedtuple("Option", "is_needed has_value")
# Options of many programs that this one refuses, as its guide says.
REFUSED = {"help", "version"}


def makers(bodies):
    """The functions that make one argument: of an option or of a word."""
    return {name: body for name, body in bodies.items() if "Arg::new" in body}


def options_in(body, bodies):
    """The options and words of a function that makes a command, and of those that it calls."""
    options, words, made = {}, [], makers(bodies)
    for name, given, rest in re.findall(r'\b(\w+)\(alloc(?:, "([\w-]+)")?([^()]*)\)', body):
        if name in made and given:
            if ".long(" in made[name]:
                options[given] = Option(".required(true)" in made[name], "SetTrue" not in made[name])
            else:
                words.append("true" in rest)
        elif name in bodies and name not in made and not given and f"fn {name}" not in body[:40]:
            more = options_in(bodies[name], bodies)
            options, words = {**options, **more[0]}, words + more[1]
    return options, words


def commands(tree):
    """Each command of the program by its name."""
    bodies, found = functions(tree.text(GRAMMAR)), {}
    for body in bodies.values():
        inner = re.findall(r'Command::new\(alloc, "(\w+)"\)', body)
        if ".subcommand(" in body:
            found.update({it: Command({}, 0, 0) for it in inner if it != PROGRAM and it not in found})
        elif inner:
            options, words = options_in(last(body, bodies), bodies)
            found[inner[0]] = Command(options, sum(words), len(words))
    return found


def last(body, bodies):
    """The function in which a command gets its last options: it may be begun in one and get further ones in others."""
    name = re.search(r"fn (\w+)", body)[1]
    following = next((it for it in bodies.values() if re.search(rf"\b{name}\(alloc\)\?\s*\.arg", it)), None)
    return last(following, bodies) if following else body


def synopsis(text, command):
    """What a synopsis says of the command, up to the next one."""
    pieces = re.split(rf"`?\b{PROGRAM}\b`?", text)
    return next((it for it in pieces if it.replace("`", "").split()[:1] == [command]), "")


def check(tree, told):
    found = commands(tree)
    row = re.search(rf"^\| `{PROGRAM}` \|.*$", tree.text(CRATES), re.M)
    named = set(re.findall(r"`(\w+)`", row[0])) - {PROGRAM} if row else set()
    told.holds(named == set(found), CRATES, f"the program's row lacks or has too much: {sorted(named ^ set(found))}")
    known = {it for command in found.values() for it in command.options}
    told.reads(known and "serve" in found, GRAMMAR, __file__)
    told.holds(not known & REFUSED, GUIDE, f"says that an option is refused which the code has: {sorted(known & REFUSED)}")
    for page in (GUIDE, HELP):
        text = tree.text(page)
        for name in found:
            told.holds(re.search(rf"\b{name}\b", text), page, f"says nothing of the command `{name}`, which the code has")
        told.has_all(tree, page, [f"--{it}" for it in sorted(known)], "the option")
        for line, given in given_options(text):
            told.holds(given in known | REFUSED, page, f"has an option `--{given}`, which the code has not", line)
        in_synopsis(told, page, text, found)


def given_options(text):
    """The options that a page gives this program, with their lines: not those of another program's line."""
    for at, line in enumerate(text.splitlines(), 1):
        for piece in re.findall(r"`([^`]+)`", line) or [line]:
            first = piece.strip().split(" ")[0]
            if first.startswith("--") or first in (PROGRAM, "serve", "check", "ctl"):
                yield from ((at, it) for it in re.findall(r"(?<![\w-])--([a-z][\w-]*)", piece))


def in_synopsis(told, page, text, found):
    """The synopsis shows each option of a command, and no other's."""
    shown = section(text, "Synopsis")
    for name, command in found.items():
        if shown and command.options:
            given = set(re.findall(r"--([a-z][\w-]*)", synopsis(shown, name)))
            told.holds(given == set(command.options), page, f"its synopsis of `{name}` lacks or has too much: {sorted(given ^ set(command.options))}")
