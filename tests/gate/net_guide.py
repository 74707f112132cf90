#!/usr/bin/env python3
"""Follows docs/net-guide.md in an empty folder: writes each step of its server, builds it with nothing proved, and plays its session.

    python3 tests/gate/net_guide.py

Steps 3, 4 and 6 have to be the programs of `crates/echo_server`, `crates/loop_echo_server` and `crates/line_server`, but for their names
in the head; they and steps 1 and 2 are built as one program (`lib/example_programs.py`), over the crates of this repository: those that
the reader's `rt` finds below his own have to be the same, use the same and have the same texts. What step 5 quotes has to stand in the
crate that it copies, which isn't proved here.
"""
import os
import re
import shlex
import shutil
import subprocess
import sys
import tempfile

sys.path.insert(1, f"{sys.path[0]}/..")
from lib.checks import Checks
from lib.example_programs import STEPS, program
from lib.follower import Follower
from lib.joined import texts_below
from lib.places import ROOT
from lib.sockets import connect, free_port, is_served
from lib.talk import has_ended, heard, hears, says
from lib.waiting import comes

RT = os.path.realpath(shutil.which("rt") or sys.exit("rt isn't on the path"))
sys.path.insert(0, os.path.dirname(RT))
sys.dont_write_bytecode = True
import rtlib  # the kit's own module, beside rt: it knows what a crate is built over

PAGE = f"{ROOT}/docs/net-guide.md"
START = re.compile(r"^rt try -- (.*)$", re.M)
PROVES = re.compile(r"^rt check\b", re.M)
# Which step is which crate's program, and what the guide calls it. (Step 5 starts none.)
STARTED = (1, 2, 3, 4, 6)
EXAMPLES = {3: ("echo_server", "echo"), 4: ("loop_echo_server", "echo"), 6: ("line_server", "lines")}
SAYS = re.compile(r"(?P<who>[A-Z]\w+) (?P<does>connects to|sends|gets|leaves)(?: (?P<what>.*))?|the server (?P<ends>ends)")
# The page's ports, in place of which free ones are taken.
PORT = re.compile(r"\b70\d\d\b")
QUIET_SECONDS = 0.3


def text_of(path):
    with open(path, encoding="utf-8") as file:
        return file.read()


def libraries(top, name):
    """What rt builds a crate of, with those below it: what each uses, of the kit too, and its texts."""
    crate = next(it for it in rtlib.crates_below(os.path.realpath(top)) if it.name == name)
    return {
        it.name: ({*it.of_kit, *(below.name for below in it.deps)}, texts_below(f"{it.folder}/src")) for it in [*crate.below(), crate]
    }


class Ready:
    """A program of the examples, with these words."""

    def __init__(self, name, words, made):
        self.made = made
        with open(f"{made}/said", "wb") as said:
            self.process = subprocess.Popen([program(name), *words], stdin=subprocess.DEVNULL, stdout=said, stderr=said)

    def comes_to(self, is_so):
        return comes(is_so)

    def text(self):
        return text_of(f"{self.made}/said")

    def has_ended_well(self):
        return comes(lambda: self.process.poll() is not None) and self.process.returncode == 0

    def end(self):
        self.process.kill()
        self.process.wait()


class Guide(Follower):
    """A reader of the guide, with the server of the step that he is at, and its clients by their names."""

    def __init__(self, checks, folder):
        super().__init__(checks, folder, {"HOBRINTZA": ROOT}, PROVES)
        self.starts = iter(STARTED)
        self.step, self.server, self.clients, self.ports = 0, None, {}, {}

    def give(self, line, text):
        start = START.fullmatch(text.strip())
        if not start:
            super().give(line, text)
            return
        self.end()
        self.step = next(self.starts, self.step)
        self.ports = {it: str(free_port()) for it in PORT.findall(start[1])}
        self.start(shlex.split(PORT.sub(lambda it: self.ports[it[0]], start[1])))

    def start(self, words):
        made = tempfile.mkdtemp(dir=self.top)
        self.server = Ready(self.name_of_program(), words, made)
        is_there = self.server.comes_to(lambda: is_served(self.address(words[0])))
        self.checks.holds(f"step {self.step}: it serves", is_there, self.server.text()[-2_000:])

    def name_of_program(self):
        """By what name the step's program stands: where it is an example, its text has to be that of the example's crate."""
        if self.step not in EXAMPLES:
            wanted, found = libraries(ROOT, "net"), libraries(f"{self.at}/../..", os.path.basename(self.at))
            del found[os.path.basename(self.at)]
            told = [it for it in {*wanted, *found} if wanted.get(it) != found.get(it)]
            self.checks.expect(f"step {self.step}: crates below it that aren't those of this repository", [], told)
            return STEPS[self.step - 1]
        crate, name = EXAMPLES[self.step]
        wanted = text_of(f"{ROOT}/crates/{crate}/src/main.rt").replace(f"`{crate} ", f"`{name} ")
        is_it = text_of(f"{self.at}/src/main.rt") == wanted
        self.checks.holds(f"step {self.step}: it is the program of crates/{crate}", is_it, f"docs/net-guide.md has another text than crates/{crate}/src/main.rt")
        return crate

    def look_for(self, line, text):
        if self.server:
            for at, said in enumerate(text.splitlines(), line):
                self.checks.holds(f"line {at}: {said}", self.plays(said), "it doesn't")

    def plays(self, said):
        """Whether what a line of a session says comes about."""
        it = SAYS.fullmatch(said)
        if not it:
            return False
        if it["ends"]:
            return self.server.has_ended_well()
        return self.client(it["who"], it["does"], it["what"])

    @staticmethod
    def address(port):
        return f"tcp:127.0.0.1:{port}"

    def client(self, name, does, what):
        port = self.ports[what] if does == "connects to" else next(iter(self.ports.values()))
        if name not in self.clients:
            self.clients[name] = connect(self.address(port))
        sock = self.clients[name]
        if does == "connects to":
            return True
        if does == "sends":
            return says(sock, f"{what}\n".encode())
        if does == "leaves":
            return self.clients.pop(name).close() is None
        if what == "nothing yet":
            last, quiet = sock.gettimeout(), heard(sock, QUIET_SECONDS)
            sock.settimeout(last)
            return quiet is None
        return has_ended(sock) if what == "the end" else hears(sock, f"{what}\n".encode())

    def end(self):
        """Ends the server, and its clients."""
        for sock in self.clients.values():
            sock.close()
        if self.server:
            self.server.end()
        self.server, self.clients = None, {}


def main():
    checks = Checks()
    with tempfile.TemporaryDirectory(prefix="net-guide-", ignore_cleanup_errors=True) as folder:
        guide = Guide(checks, folder)
        try:
            guide.follow(text_of(PAGE))
        except OSError as fault:
            checks.holds(f"step {guide.step}", False, f"cut short by {fault!r}")
        finally:
            guide.end()
    checks.expect("its last step", STARTED[-1], guide.step)
    return checks.end()


if __name__ == "__main__":
    sys.exit(main())
