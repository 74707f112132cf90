#!/usr/bin/env python3
"""packaging/pollrelay-run under dash and bash: what it tells its relay at each signal, and which status it ends with.

    python3 tests/packaging/wrapper_test.py [--all]           --all names the checks that passed, too

The relay is a stand-in of a few lines, which writes down the commands that it is sent. So nothing is built. As the first process
of a pid namespace the wrapper is tried where `unshare` may make one.
"""
import os
import shutil
import signal
import subprocess
import sys
import tempfile
from collections import namedtuple

sys.path.insert(1, f"{sys.path[0]}/..")
from lib.checks import Checks
from lib.places import ROOT
from lib.signals import hear_all
from lib.stages import FAULTS, options
from lib.waiting import wait_until

WRAPPER = f"{ROOT}/packaging/pollrelay-run"
SHELLS = ("dash", "bash")
# The wait of the house for what comes about at once.
SECONDS = 10

# It serves until a command of its own choice, and answers once the file `open` is there.
STAND_IN = """#!/bin/sh
cd "$(dirname "$0")" || exit 9
case $1 in
    serve)
        sed -n 's/^SigIgn:[[:space:]]*//p' /proc/$$/status >ignored
        [ "$opens" = late ] || : >open
        (sleep 0.1 &)
        [ "${LISTEN_PID-}" != $$ ] || LISTEN_PID=own
        echo "${LISTEN_PID-none} ${LISTEN_FDS-none}" >sockets
        echo "$*" >served.new && mv served.new served
        until [ "$ends_by" = itself ] || grep -q "^$ends_by" said; do sleep 0.02; done
        exit "$status" ;;
    ctl)
        [ -e open ] || { : >tried; exit 3; }
        shift 3
        echo "$*" >>said
        [ "$refuses" != "$1" ] || { echo "error 400 bad command"; exit 1; }
        echo ok ;;
esac
"""

# Names of signals, and beside them: `opens`, by which the relay answers from now on, and `heard`, by which the wrapper has told
# the relay as many commands as there were signals, and `tried`, by which it has tried to. A `group` ahead sends a signal to every
# process of the group. `early` names the signals that the wrapper sends itself once the relay has begun, and before it notes its number,
# and `behind` one that it sends itself as its first wait has ended: bash ends the next wait for it too.
Row = namedtuple("Row", "name steps said status options given", defaults=((), {}))
ROWS = (
    Row("TERM lets connections end", "TERM", ["finish 30000"], 0),
    Row("INT does so too", "INT", ["finish 30000"], 0),
    Row("QUIT does so too", "QUIT", ["finish 30000"], 0),
    Row("HUP has the rules read", "HUP heard TERM", ["reload", "finish 30000"], 0),
    Row("HUP twice", "HUP heard HUP heard TERM", ["reload", "reload", "finish 30000"], 0),
    Row("a PIPE is nothing", "PIPE TERM", ["finish 30000"], 0),
    Row("a time of one's own", "TERM", ["finish 250"], 0, ("--finish", "250")),
    Row("a time in one word", "TERM", ["finish 0"], 0, ("--finish=0",)),
    Row("the longest time", "TERM", ["finish 86400000"], 0, ("--finish=86400000",)),
    Row("a second TERM stops", "TERM heard TERM", ["finish 30000", "stop"], 0, (), {"ends_by": "stop"}),
    Row("INT after TERM stops", "TERM heard INT", ["finish 30000", "stop"], 0, (), {"ends_by": "stop"}),
    Row("a relay that refuses to finish is stopped", "TERM", ["finish 30000", "stop"], 0, (), {"ends_by": "stop", "refuses": "finish"}),
    Row("a refused reload is told, and no more", "HUP heard TERM", ["reload", "finish 30000"], 0, (), {"refuses": "reload"}),
    Row("a relay that doesn't answer yet is told later", "TERM opens", ["finish 30000"], 0, (), {"opens": "late"}),
    Row("a reload waits for it as well", "HUP opens heard TERM", ["reload", "finish 30000"], 0, (), {"opens": "late"}),
    Row("a relay that is never reached is killed", "TERM tried TERM", [], 137, (), {"opens": "late"}),
    Row("TERM to the whole group ends no relay", "groupTERM", ["finish 30000"], 0),
    Row("HUP to the whole group ends no relay", "groupHUP heard groupTERM", ["reload", "finish 30000"], 0),
    Row("INT to the whole group, twice", "groupINT heard groupINT", ["finish 30000", "stop"], 0, (), {"ends_by": "stop"}),
    Row("status 1", "TERM", ["finish 30000"], 1, (), {"status": "1"}),
    Row("status 2", "TERM", ["finish 30000"], 2, (), {"status": "2"}),
    Row("status 3", "TERM", ["finish 30000"], 3, (), {"status": "3"}),
    Row("a relay that ends by itself", "", [], 3, (), {"status": "3", "ends_by": "itself"}),
    Row("a TERM before the relay's number is known", "", ["finish 30000"], 0, (), {"early": "TERM"}),
    Row("two of them", "", ["stop"], 0, (), {"early": "TERM TERM", "ends_by": "stop"}),
    Row("a HUP before it is known", "heard TERM", ["reload", "finish 30000"], 0, (), {"early": "HUP"}),
    Row("a TERM behind a wait that a HUP ended", "HUP heard", ["reload", "finish 30000"], 0, (), {"behind": "TERM"}),
)
# Times that `finish` wouldn't take, and none.
NO_TIMES = ("", "x", "-1", "1 2", "030", "86400001", "999999999", "18446744073709551616")
IGNORED = (signal.SIGHUP, signal.SIGINT, signal.SIGQUIT, signal.SIGPIPE, signal.SIGTERM)

hear_all()


class Wrapped:
    """The wrapper over the stand-in, in a folder and a process group of its own."""

    def __init__(self, shell, row, before=()):
        self.folder = tempfile.mkdtemp(prefix="wrapped-")
        self.program = f"{self.folder}/stand_in"
        with open(self.program, "w", encoding="ascii") as file:
            file.write(STAND_IN)
        os.chmod(self.program, 0o755)
        open(f"{self.folder}/said", "w", encoding="ascii").close()
        self.errors = open(f"{self.folder}/errors", "wb")
        given = {"status": "0", "ends_by": "finish", "refuses": "", "opens": "at once", "early": "", "behind": "", **row.given}
        self.early, self.behind = given["early"].split(), given["behind"]
        self.words = ["--rules", "the rules", "--admin", f"{self.folder}/admin"]
        self.process = subprocess.Popen(
            [*before, shell, self.wrapper(), *row.options, *self.words], env={**os.environ, "POLLRELAY": self.program, **given},
            stdin=subprocess.DEVNULL, stderr=self.errors, start_new_session=True,
        )

    def wrapper(self):
        """The wrapper's path, or that of a copy that sends itself signals."""
        if not self.early and not self.behind:
            return WRAPPER
        with open(WRAPPER, encoding="ascii") as file:
            text = file.read().replace("\nrelay=$!\n", "\n" + "".join(f"kill -{name} $$\n" for name in self.early) + "relay=$!\n")
        if self.behind:
            text = text.replace("\n    code=$?\n", f"\n    code=$? once=${{once-$(kill -{self.behind} $$)}}\n")
        with open(f"{self.folder}/wrapper", "w", encoding="ascii") as file:
            file.write(text)
        return file.name

    def text(self, name):
        try:
            with open(f"{self.folder}/{name}", encoding="ascii") as file:
                return file.read()
        except FileNotFoundError:
            return ""

    def said(self):
        return self.text("said").splitlines()

    def pid(self):
        """The wrapper's own process, also behind `unshare`."""
        below = children(self.process.pid)
        return below[0] if "unshare" in self.process.args[0] and below else self.process.pid

    def take(self, steps):
        sent = len(self.early)
        for step in steps.split():
            if step == "opens":
                open(f"{self.folder}/open", "w", encoding="ascii").close()
            elif step == "heard":
                wait_until(lambda count=sent: len(self.said()) >= count, SECONDS)
            elif step == "tried":
                wait_until(lambda: os.path.exists(f"{self.folder}/tried"), SECONDS)
            else:
                number = getattr(signal, f"SIG{step.removeprefix('group')}")
                (os.killpg if step.startswith("group") else os.kill)(self.pid(), number)
                sent += 1
                # (one that comes while its like is pending is lost)
                wait_until(lambda bit=1 << number - 1: not pending(self.pid()) & bit, SECONDS)

    def end(self):
        """Its status, once it ended."""
        try:
            return self.process.wait(3 * SECONDS)
        except subprocess.TimeoutExpired:
            return None

    def close(self):
        if self.process.poll() is None:
            os.killpg(self.process.pid, signal.SIGKILL)
            self.process.wait()
        self.errors.close()
        shutil.rmtree(self.folder, ignore_errors=True)

    def __enter__(self):
        return self

    def __exit__(self, *_):
        self.close()


def children(pid):
    try:
        with open(f"/proc/{pid}/task/{pid}/children", encoding="ascii") as file:
            return [int(word) for word in file.read().split()]
    except OSError:
        return []


def status_line(pid, name):
    """What the system says of a process under a name, or nothing where that has gone."""
    try:
        with open(f"/proc/{pid}/status", encoding="ascii", errors="replace") as file:
            return next((line.split(":")[1].strip() for line in file if line.startswith(f"{name}:")), "")
    except OSError:
        return ""


def pending(pid):
    return int(status_line(pid, "ShdPnd") or "0", 16)


def zombies(pid):
    return [it for it in children(pid) if status_line(it, "State").startswith("Z")]


def play(checks, shell, row):
    name = f"{shell}: {row.name}"
    with Wrapped(shell, row) as wrapped:
        checks.holds(f"{name}: it serves", wait_until(lambda: wrapped.text("served"), SECONDS), wrapped.text("served"))
        wrapped.take(row.steps)
        checks.expect(f"{name}: status", row.status, wrapped.end())
        checks.expect(f"{name}: what the relay is told", row.said, wrapped.said())
        checks.expect(f"{name}: its words", f"serve {' '.join(wrapped.words)}\n", wrapped.text("served"))
        ignored = int(wrapped.text("ignored") or "0", 16)
        checks.expect(f"{name}: ignored signals", [], [it.name for it in IGNORED if not ignored & 1 << it - 1])
        refused = "refuses" in row.given
        checks.expect(f"{name}: a refusal is told", refused, "error 400 bad command" in wrapped.text("errors"))


def bad_times(checks, shell):
    for text in NO_TIMES:
        for words in (("--finish", text), (f"--finish={text}",)):
            ran = subprocess.run([shell, WRAPPER, *words, "--admin", "/none"], env={**os.environ, "POLLRELAY": "true"}, capture_output=True)
            checks.expect(f"{shell}: {words} is no time", (2, b"", b"bad command line\n"), (ran.returncode, ran.stdout, ran.stderr))
    ran = subprocess.run([shell, WRAPPER, "--admin", "/none", "--finish"], env={**os.environ, "POLLRELAY": "true"}, capture_output=True)
    checks.expect(f"{shell}: --finish without a time", (2, b"bad command line\n"), (ran.returncode, ran.stderr))


def sockets(checks, shell):
    """Sockets that are for the wrapper are for its relay, and no others."""
    own = ("sh", "-c", 'LISTEN_PID=$$ LISTEN_FDS=2; export LISTEN_PID LISTEN_FDS; exec "$@"', "sh")
    for before, given in (((), "none none"), (own, "own 2"), (("env", "LISTEN_PID=1", "LISTEN_FDS=2"), "1 2")):
        with Wrapped(shell, Row("", "", [], 0), before) as wrapped:
            wait_until(lambda it=wrapped: it.text("served"), SECONDS)
            checks.expect(f"{shell}: sockets", f"{given}\n", wrapped.text("sockets"))
            wrapped.take("TERM")
            checks.expect(f"{shell}: its status, with sockets {given}", 0, wrapped.end())


def other_ends(checks, shell):
    """A relay that somebody kills, and a program that isn't there."""
    with Wrapped(shell, Row("", "", [], 0)) as wrapped:
        wait_until(lambda: wrapped.text("served"), SECONDS)
        os.kill(children(wrapped.process.pid)[0], signal.SIGKILL)
        checks.expect(f"{shell}: a relay that was killed", 128 + signal.SIGKILL, wrapped.end())
    ran = subprocess.run([shell, WRAPPER, "--admin", "/none"], env={**os.environ, "POLLRELAY": "/none"}, capture_output=True)
    checks.expect(f"{shell}: no program", 127, ran.returncode)


def first_process(checks, shell, before):
    """As process 1 it hears signals, and waits for who has lost its parent."""
    for row in (it for it in ROWS if it.name in ("TERM lets connections end", "a second TERM stops", "status 3")):
        name = f"{shell} as process 1: {row.name}"
        with Wrapped(shell, row, before) as wrapped:
            checks.holds(f"{name}: it serves", wait_until(lambda: wrapped.text("served"), SECONDS), wrapped.text("served"))
            checks.expect(f"{name}: its number", "1", status_line(wrapped.pid(), "NSpid").split()[-1])
            # The stand-in has left a child behind, which ends after a tenth of a second.
            alone = wait_until(lambda: len(children(wrapped.pid())) == 1, SECONDS)
            checks.holds(f"{name}: nobody is left unwaited for", alone and not zombies(wrapped.pid()), zombies(wrapped.pid()))
            wrapped.take(row.steps)
            checks.expect(f"{name}: status", row.status, wrapped.end())
            checks.expect(f"{name}: what the relay is told", row.said, wrapped.said())


def namespace():
    """The words that make a pid namespace, as root or as a user who may; nothing where neither may."""
    for words in (["unshare", "-pf", "--mount-proc"], ["unshare", "-rpf", "--mount-proc"]):
        if shutil.which("unshare") and subprocess.run([*words, "true"], stderr=subprocess.DEVNULL).returncode == 0:
            return words
    return []


def main():
    checks, before = Checks(options(__doc__, all=False).all), namespace()
    if not before:
        print("no pid namespace may be made here: process 1 isn't tried")
    for shell in SHELLS:
        if not shutil.which(shell):
            checks.holds(shell, False, "isn't installed")
            continue
        try:
            for row in ROWS:
                play(checks, shell, row)
            bad_times(checks, shell)
            sockets(checks, shell)
            other_ends(checks, shell)
            if before:
                first_process(checks, shell, before)
        except FAULTS as fault:
            checks.holds(shell, False, f"cut short by {fault!r}")
    return checks.end()


if __name__ == "__main__":
    sys.exit(main())
