"""The lines of shell in pages, samples and heads of scripts: what each calls is there and takes the words that it is given. A line
that this script can't try itself is tried by the part of the tests that the tables below name, or says there why none can."""

import functools
import json
import re
import shlex
from collections import namedtuple

from lib.pages import options, tools
from lib.pages.admin import counts, orders
from lib.pages.markdown import FENCE, SHELL, fences, indented, set_off, spans
from lib.pages.tree import FOLLOWED

# The page, the line in it, the simple command's words, and whether it stands in running text, where it may be a name alone.
Line = namedtuple("Line", "page line words is_name")
PROMPT = re.compile(r"^\$ ")
JOINED = re.compile(r"\d?>&\d")
REMARK = re.compile(r"\s{2,}\S.*$|\s+# .*$")
# Remarks of samples and heads of scripts that give a command, and what a unit and a container's recipe start.
GIVEN = re.compile(r"^# *(?:Check this file|Serve it|Try it|Look at it|Check it): (.*)$|^# {4,5}(\S.*)$")
UNIT = re.compile(r"^Exec\w+=[-+!]?(.*)$")
RECIPE = re.compile(r"^(?:ENTRYPOINT|.*CMD) (\[.*\])$")
HEAD = re.compile(r'(?:#!.*\n)?"""(.*?)"""', re.S)
SAMPLES = (
    r"(?:examples|packaging|tools|tests/(?:gate|system|packaging|fuzz))/.*\.(?:sh|py|rules|session|txt|cfg|service|sample|yml|yaml)"
    r"|packaging/(?:pollrelay-run|container/Dockerfile)"
)
# What starts the program with a relay's words and some of its own.
WRAPPER, WRAPPED = "pollrelay-run", "packaging/pollrelay-run"
# A line that is printed, and one of code that begins as a command does.
SAID = r"^pollrelay ended with|^rt ?[:,.]"
CALLS = re.compile(rf"\b(?:{'|'.join((options.PROGRAM, *tools.CALLED, *tools.OTHERS))})\b")
ENDS = {"&&", "||", ";", "|", "&", ";;"}
# A command that begins a paragraph.
BARE = re.compile(rf"(?:{options.PROGRAM} (?:serve|ctl|check|trace)|python3|sh|systemctl|docker|curl) \S")
# A block that starts a relay, and asks it in a later line: that comes before the relay listens.
TOO_SOON = re.compile(rf"^(?:{options.PROGRAM} serve .*&|systemctl enable --now .*|docker run -d .*)\n(?:.*\n)*?.*({options.PROGRAM} ctl .*)", re.M)
# What stands for a word of the reader's own.
PLACE = re.compile(r"[A-Z][A-Z_]*(?:\.\.)?|\d+|never|[<$/{].*|.*/.*")


@functools.cache
def simple_commands(text):
    """The words of each simple command of a line."""
    lexer = shlex.shlex(JOINED.sub("", REMARK.sub("", PROMPT.sub("", text))), posix=True, punctuation_chars="();<>|&")
    lexer.commenters = ""
    # (an address is one word)
    lexer.wordchars += ":"
    try:
        words = list(lexer)
    except ValueError:
        words = text.split()
    found = [[]]
    for word in words:
        if word.startswith("(") or word.startswith(")"):
            break
        if word in ENDS:
            found.append([])
        else:
            found[-1].append(word)
    return [it for it in found if it]


@functools.cache
def texts_of_page(text):
    """Each line of a page that may be one of shell, and whether it stands in running text."""
    found = []
    for line, kind, block in fences(text):
        if kind in SHELL:
            found += [(line + at, it, False) for at, it in enumerate(re.sub(r"\\\n *", " ", block).splitlines())]
    found += [(line, it, False) for line, it in indented(text)]
    return found + [(line, it, True) for line, it in spans(text)]


@functools.cache
def texts_of_sample(text):
    """The same of a sample or of a script's head, which have no running text."""
    head = HEAD.match(text)
    found = [(line, it, False) for line, it in indented(head[1] if head else "")]
    for line, said in enumerate(text.splitlines(), 1):
        given = UNIT.match(said) or GIVEN.match(said)
        if given:
            found.append((line, re.sub(r",? (?:with|\(as) .*$", "", next(it for it in given.groups() if it)), False))
        elif RECIPE.match(said):
            found.append((line, " ".join(json.loads(RECIPE.match(said)[1])), False))
    return found


def texts(tree):
    """Each line that may be one of shell, with its page and whether it stands in running text."""
    for page in tree.pages():
        yield from ((page, *it) for it in texts_of_page(tree.text(page)))
    for page in tree.paths(SAMPLES):
        yield from ((page, *it) for it in texts_of_sample(tree.text(page)))


def lines(tree):
    """Each simple command of a line of shell; a synopsis is none, nor what a program says of itself."""
    for page, line, said, is_name in texts(tree):
        if CALLS.search(said) and "[" not in said and "help | version" not in said and not re.search(SAID, said):
            # (what a shell is given by `-c` is a line too)
            inner = re.search(r"\bsh -c '([^']*)'", said)
            for words in simple_commands(inner[1] if inner else said):
                # (a container's engine is given a line too)
                words = words[words.index(options.PROGRAM) :] if words[:2] == ["docker", "exec"] else words
                first = words[0].rsplit("/", 1)[-1]
                # (in running text another program's name is but a name)
                if first in (*tools.CALLED, options.PROGRAM, WRAPPER) or first in tools.OTHERS and not is_name and len(words) > 1:
                    yield Line(page, line, [first, *words[1:]], is_name)


def check(tree, told):
    """Each line, but for programs of the system in the page that is followed anyway."""
    found = options.commands(tree)
    known = counts(tree)
    scripts, count, wrapped = tools.Scripts(tree), 0, with_wrapper(tree, found)
    for it in lines(tree):
        count, said = count + 1, None
        if it.words[0] == options.PROGRAM:
            said = wrong(tree, it, found, known)
        elif it.words[0] == WRAPPER:
            said = wrong(tree, it._replace(words=[WRAPPER, "serve", *it.words[1:]]), wrapped, known)
        elif it.page not in FOLLOWED or it.words[0] not in tools.OTHERS:
            said = scripts.wrong(it.words, it.page)
        told.holds(not said, it.page, f"`{' '.join(it.words)}`: {said}", it.line)
    told.reads(count > 50, "README.md", __file__)
    scripts.check_tables(told)
    for page in tree.pages():
        told.passed += 1
        for line, said in enumerate(FENCE.sub(lambda it: "\n" * it[0].count("\n"), tree.text(page)).splitlines(), 1):
            if BARE.match(said):
                told.holds(False, page, f"`{said}` is a command, and isn't set off", line)
        for line, block in set_off(tree.text(page)):
            for it in TOO_SOON.finditer(block):
                told.holds(False, page, f"`{it[1]}` asks a relay that was just started, which may not listen yet", line)


def with_wrapper(tree, found):
    """The commands with the options of what starts the program."""
    own = {it: options.Option(False, True) for it in re.findall(r"^ +--(\w+)\)", tree.text(WRAPPED), re.M)}
    return {**found, "serve": found["serve"]._replace(options={**own, **found["serve"].options})}


def wrong(tree, line, found, known):
    """What is wrong with a line of the program's, or nothing."""
    words, files = redirected(line.words[1:])
    lacking = [it for it in files if it.startswith("examples/") and not tree.has(it)]
    if lacking or not words:
        return f"there is no {lacking[0]}" if lacking else None
    name, *rest = words
    if name not in found:
        return None if line.is_name and PLACE.fullmatch(name) else f"there is no command `{name}`"
    command, given, operands = found[name], {}, []
    if line.is_name and not rest:
        return None
    while rest:
        word = rest.pop(0)
        option, has_value, value = word[2:].partition("=")
        if not word.startswith("--"):
            operands.append(word)
        elif option not in command.options:
            return f"`{name}` has no option `--{option}`"
        elif command.options[option].has_value:
            given[option] = value if has_value else rest.pop(0) if rest else ""
    # (in running text a line may leave out what isn't spoken of)
    return wrong_values(tree, command, given, line.is_name) or wrong_operands(tree, command, operands, known)


def redirected(words):
    """The words without those of a redirection, and the files that these read."""
    kept, files = [], []
    while words:
        word, *words = words
        if re.fullmatch(r"[<>]+|>&", word):
            files, words = [*files, *words[:1] * (word == "<")], words[1:]
        elif not re.fullmatch(r"\d?[<>].*", word):
            kept.append(word)
    return kept, files


def wrong_values(tree, command, given, is_part):
    """What is wrong with the options of a line, or nothing."""
    for name, option in command.options.items():
        if option.is_needed and name not in given and not is_part:
            return f"lacks `--{name}`"
    files = {"rules", "config"} & set(command.options)
    if len(files) == 2 and not is_part and not files & set(given):
        return "lacks `--rules` or `--config`"
    # A rules file can't say where admin sessions are served.
    if "rules" in given and "admin" in command.options and "admin" not in given and not is_part:
        return "lacks `--admin`"
    path = given.get("rules", "")
    return f"there is no {path}" if path.startswith("examples/") and not tree.has(path) else None


def may_follow(tree, word, place, text):
    """Whether this text may stand at this place, from 0 on, behind the word of an admin command."""
    # (behind `target` stand the name of a rule, an address, and a word)
    target = [r"[a-z][a-z0-9-]*", r"(?:tcp|unix):\S+", "|".join(orders(tree))]
    return bool(PLACE.fullmatch(text)) or word == "target" and bool(re.fullmatch(target[place], text))


def wrong_operands(tree, command, operands, known):
    """What is wrong with the words behind the options, or nothing."""
    if operands and command.most == 0:
        return f"`{operands[0]}` is too much"
    if not command.most or operands and re.fullmatch(r"[A-Z]+(?:\.\.)?", operands[0]):
        return None
    # (with no word the line stands for any of them)
    word, *rest = operands or [""]
    if word and (word not in known or len(rest) not in known[word] or not all(may_follow(tree, word, place, it) for place, it in enumerate(rest))):
        return f"`{' '.join(operands)}` is no admin command"
    return None
