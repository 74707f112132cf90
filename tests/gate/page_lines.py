#!/usr/bin/env python3
"""Gives the built program each of its lines that pages, samples and heads of scripts have, and shows that it takes them.

    python3 tests/gate/page_lines.py

A line of `ctl` goes to a relay with two rules and a connection, one of `serve` starts a relay on rules of this script's own and is
stopped, and the others are given as they stand; paths and what stands for the reader's own words are put in. A line ends with
status 0, or with 1 where what it asks for is refused, and never as a bad command line. What a page shows below a line behind `$`,
and of the first connection, has to come. The rules files and configurations that pages show are good ones, with as many rules as
they have.
"""
import os
import re
import subprocess
import sys
import tempfile

sys.path.insert(1, f"{sys.path[0]}/..")
from lib.checks import Checks
from lib.pages import options, shell_lines
from lib.pages.markdown import indented, set_off
from lib.pages.tree import Tree
from lib.places import PROGRAM, ROOT
from lib.relay import Relay
from lib.sockets import connect, free_port, listener
from lib.waiting import wait_until

# Longer than a line takes, also on a machine that is full of other work.
SECONDS = 120
FIRST = "examples/first_connection.sh"
TRIES = 3
PORT = re.compile(r":\d{4,5}\b")
# What stands for the reader's own words: the ids are those of a relay with two listeners and a connection.
PLACES = {"ID": "3", "T": "4", "MS": "60000", "NAME": "web", "LOOPS": "2", "CONNECTIONS": "9", "LOG": "-"}
# A rule of a rules file, and the head of one of a configuration; a rule whose words stand for the reader's own is none.
RULE, TABLE = re.compile(r"relay [a-z].*"), "[[rule]]"


def run(words, stdin=None):
    ran = subprocess.run(
        [PROGRAM, *words], cwd=ROOT, stdin=stdin or subprocess.DEVNULL, capture_output=True, text=True, timeout=SECONDS, check=False
    )
    return ran.returncode, ran.stdout, ran.stderr


def filled(words):
    """The words with something in place of those that stand for any, but for paths."""
    return [PLACES.get(it, it) for it in words]


def with_paths(words, rules, admin, config=""):
    """The words with these paths of a rules file, an admin socket and a configuration."""
    if not words:
        return []
    text = "\0".join(words)
    text = re.sub(r"--rules[=\0](?!examples/)[^\0]*", f"--rules\0{rules}", text)
    text = re.sub(r"--config[=\0](?!examples/)[^\0]*", f"--config\0{config}", text)
    return re.sub(r"--admin[=\0][^\0]*", f"--admin\0{admin}", text).split("\0")


def is_taken(checks, line, ran):
    status, _, said = ran
    checks.holds(f"{line.page}:{line.line}: {' '.join(line.words)}", status in (0, 1), f"status {status}, {said.strip()}")


def asks(checks, line, words):
    """A line of `ctl`, to a relay of its own."""
    accepts, target = listener()
    port = free_port()
    rules = f"relay web tcp:127.0.0.1:{port} {target} never\nrelay other tcp:127.0.0.1:{free_port()} {target} 9000\n"
    with accepts, Relay(rules) as relay, connect(f"tcp:127.0.0.1:{port}"):
        wait_until(lambda: len(relay.ids()) == 4, SECONDS)
        if words[3:] and re.fullmatch(r"[A-Z]+(?:\.\.)?", words[3]):
            words = [*words[:3], "list"]
        is_taken(checks, line, run(with_paths(words if words[3:] else [*words, "list"], "", relay.admin)))


def serves(checks, line, words):
    """A line of `serve`: the options behind its file and its admin socket, which are this script's own."""
    given = with_paths(shell_lines.redirected(words)[0], "", "")
    for option in ("--rules", "--config", "--admin"):
        while option in given:
            del given[given.index(option) : given.index(option) + 2]
    own = {"--metrics": f"tcp:127.0.0.1:{free_port()}", "--log": "-"}
    given = [own.get(option, it) for option, it in zip(given, given[1:])]
    with Relay(f"relay web tcp:127.0.0.1:{free_port()} tcp:127.0.0.1:9 never\n", options=given) as relay:
        is_taken(checks, line, (relay.stop()[0], "", ""))


def others(checks, line, words, folder):
    words, files = shell_lines.redirected(words)
    with open(f"{folder}/rules", "w", encoding="ascii") as file:
        file.write("relay web unix:/a unix:/b never\n")
    with open(f"{folder}/config", "w", encoding="ascii") as file:
        file.write('[[rule]]\nname = "web"\nlisten = ["unix:/a"]\ntarget = [{ at = "unix:/b" }]\n')
    with open(f"{ROOT}/{files[0]}" if files else os.devnull, "rb") as stdin:
        is_taken(checks, line, run(with_paths(words, f"{folder}/rules", "", f"{folder}/config"), stdin))


def shown(checks, tree, folder):
    """What pages show below a line behind `$`."""
    os.symlink(PROGRAM, f"{folder}/{options.PROGRAM}")
    env = {**os.environ, "PATH": f"{folder}:{os.environ['PATH']}"}
    for page in tree.pages():
        found = dict(indented(tree.text(page)))
        for at, line in found.items():
            if line.startswith("$ ") and options.PROGRAM in line:
                ran = subprocess.run(["sh", "-c", line[2:]], cwd=ROOT, env=env, capture_output=True, text=True, timeout=SECONDS, check=False)
                wanted, below = [], at + 1
                while below in found and not found[below].startswith("$ "):
                    wanted, below = [*wanted, found[below]], below + 1
                checks.expect(f"{page}:{at}: {line}", wanted, ran.stdout.splitlines())


def rules_in(block):
    """What a block says as a rules file or as a configuration, with the option that reads it and how many rules it has; or nothing."""
    lines = block.splitlines()
    if TABLE in lines:
        return "--config", block, lines.count(TABLE)
    rules = [it for it in lines if RULE.fullmatch(it)]
    is_file = rules and all(it in rules or not it or it.startswith(("#", "relay ")) for it in lines)
    return ("--rules", "\n".join(rules), len(rules)) if is_file else None


def rules_shown(checks, tree, folder):
    """The rules files and configurations that pages show."""
    seen = set()
    for page in tree.pages():
        for line, block in set_off(tree.text(page)):
            said = rules_in(block)
            if said:
                seen.add(said[0])
                with open(f"{folder}/shown", "w", encoding="utf-8") as file:
                    file.write(said[1])
                checks.expect(f"{page}:{line}: a file of {said[2]} rules", (0, f"rules {said[2]}\n", ""), run(["check", said[0], f"{folder}/shown"]))
    checks.expect("pages show files of both forms", {"--rules", "--config"}, seen)


def first_connections(checks, tree):
    """What pages show of the first connection is what the script prints, but for the ports."""
    for page in ("README.md", "examples/README.md"):
        said = [PORT.sub(":PORT", it) for _, it in indented(tree.text(page))]
        # The loop counts bytes a moment after the client has them. Where it loses its processor in between, the totals lack them.
        for _ in range(TRIES):
            printed = first_prints()
            begin = said.index(printed[0]) if printed and printed[0] in said else 0
            found = said[begin : begin + len(printed)]
            if printed == found:
                break
        checks.expect(f"{page}: what {FIRST} prints", printed, found)


def first_prints():
    """The lines that the script of the first connection prints, but for the ports."""
    env = {**os.environ, "POLLRELAY": PROGRAM}
    ran = subprocess.run(["sh", FIRST], cwd=ROOT, env=env, capture_output=True, text=True, timeout=SECONDS, check=False)
    return [PORT.sub(":PORT", it) for it in ran.stdout.splitlines()]


def main():
    checks, tree, seen = Checks(), Tree(), set()
    with tempfile.TemporaryDirectory(prefix="page-lines-") as folder:
        for line in shell_lines.lines(tree):
            words = filled(line.words[1:])
            is_alone = line.is_name and (not words or words[0] not in ("help", "version") and len(words) == 1)
            if line.words[0] == options.PROGRAM and not is_alone and tuple(words) not in seen:
                seen.add(tuple(words))
                if words[:1] == ["ctl"]:
                    asks(checks, line, words)
                elif words[:1] == ["serve"]:
                    serves(checks, line, words)
                else:
                    others(checks, line, words, folder)
        shown(checks, tree, folder)
        rules_shown(checks, tree, folder)
    first_connections(checks, tree)
    return checks.end()


if __name__ == "__main__":
    sys.exit(main())
