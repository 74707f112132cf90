#!/usr/bin/env python3
"""Refuses each request for memory of the built program in turn.

    python3 tests/system/refused_memory.py [--most N] [script | commands | single | watched | named | handed | drought | mappings]..

script    the Nth allocation of a run of `pollrelay trace` is refused, for N from 1 until a run meets no refusal: it ends with status 3 and
          a fault of memory, or with all it has to print, and what it printed is a front of that.
commands  the same of `help`, `version`, and `check` and `ctl` with rules of their own: it prints all and ends with status 0, or nothing and
          ends with status 3 and the fault.
single    the Nth allocation is refused, for N from 1 until a run meets no refusal. Before `listening 2` the relay ends with status 3 and
          one line; later one connection is dropped, or one session or its reply, and all others go on. After `stop` the totals are
          exactly the bytes that arrived, and no thread, descriptor or Unix path is left.
watched   the same of a relay with a log and metrics, whose sessions show a connection and reload the rules too, and of which a
          scraper asks. The log's lines are whole, and with those that it says were lost they are at least the connections that stood.
named     the same of a relay by a configuration one of whose targets names its host: whatever is refused, its addresses come to be the targets,
          at the start and once there is one more, and what is told of its look-ups is so.
handed    the same of a relay that is started with a listener, takes a path that a killed one left, and is told to finish.
drought   every allocation is refused while connections stand: the bytes of one without an idle time go on, and the relay stops with totals that
          fit. Where memory comes back, new connections are served.
mappings  the Nth mmap, mprotect, brk or clone3 of each thread is refused by strace, also those of threads' stacks and of the C library's own.
          A brk that is refused answers the break as it was, as the system's own does: of an error number the C library knows nothing.
N is --most at most (1,000). It needs a C compiler, and strace for `mappings`: apt-get install gcc strace.
"""
import collections
import os
import random
import shutil
import signal
import subprocess
import sys
import time
from functools import partial

sys.path.insert(1, f"{sys.path[0]}/..")
from lib.admin_replies import is_reply
from lib.c_code import library
from lib.checks import Checks
from lib.clients import WAIT_SECONDS, Desk, Misses, Targets, exchange
from lib.faulted_life import Handed, Named, Run, kind_of, rest_of, said_of, single_run, summary, tell
from lib.log_text import read_log
from lib.metrics import scrape
from lib.places import LIB, PROGRAM
from lib.relay import Relay, allow_descriptors
from lib.sockets import free_port
from lib.stages import options, run_stages

# It has each kind of answer.
SCRIPT = b"1 rlock\n2 rlock\n3 close\n3 rsignal\n2 rwake\n3 decref\n1 runlock\n1 destroy\n"


def refusing(folder):
    """The environment of a program whose allocation with the number REFUSE is refused."""
    return {"LD_PRELOAD": library(f"{LIB}/refuse_nth.c", f"{folder}/refuse_nth.so"), "REFUSE": "0"}


def ended(words, env, sent=b""):
    ran = subprocess.run([PROGRAM, *words], input=sent, env={**os.environ, **env}, capture_output=True, timeout=WAIT_SECONDS, check=False)
    return ran.returncode, ran.stdout, *said_of(ran.stderr.decode())


def script(checks, folder, most):
    env = refusing(folder)
    whole, number = ended(["trace"], env, SCRIPT), 0
    checks.expect("script: a run in which nothing is refused", (0, "", False), (whole[0], *whole[2:]))
    for number in range(1, most + 1):
        status, printed, said, was_refused = ended(["trace"], {**env, "REFUSE": str(number)}, SCRIPT)
        if not was_refused:
            break
        # A growth that was refused may be made smaller; then the whole text is owed.
        is_told = status == 3 and said in ("trace fault: memory\n", "relay fault: memory\n") and whole[1].startswith(printed)
        is_right = is_told or (status, printed, said) == (0, whole[1], "")
        checks.holds(f"script: allocation {number}", is_right, f"{status}, {printed}, {said!r}")
    checks.holds("script: refusals end", 1 < number < most, f"after {number}")


def commands(checks, folder, most):
    env, targets = refusing(folder), Targets(folder)
    with Relay(targets.rules(free_port())) as relay:
        at = ["--admin", relay.admin]
        for words in (["help"], ["version"], ["check", "--rules", f"{relay.folder}/rules"], ["ctl", *at, "list"], ["ctl", *at, "show"]):
            command(checks, words, env, most)
        checks.expect("commands: the relay's end", (0, (0, 0)), relay.stop()[:2])
    targets.close()


def command(checks, words, env, most):
    """Each allocation of such a command refused in turn. Its fault is told where others are, and by `check` on its output."""
    name, faults = " ".join(it for it in words if it.isalpha()), ((b"", "relay fault: memory\n"), (b"relay fault: memory\n", ""))
    whole = ended(words, env)
    checks.expect(f"{name}: a run in which nothing is refused", (0, "", False), (whole[0], *whole[2:]))
    for number in range(1, most + 1):
        status, printed, said, was_refused = ended(words, {**env, "REFUSE": str(number)})
        if not was_refused:
            print(f"commands: {name}: {number - 1} runs", flush=True)
            return
        is_whole = is_reply("show", printed.decode().splitlines() or [""], (1, 2)) if words[-1] == "show" else printed == whole[1]
        is_right = (status, said, is_whole) == (0, "", True) or status == 3 and (printed, said) in faults
        checks.holds(f"{name}: allocation {number}", is_right, f"{status}, {printed}, {said!r}")
    checks.holds(f"{name}: refusals end", False, f"not after {most}")


class Watched(Run):
    """A relay with a log and metrics, whose sessions show and reload too, and of which a scraper asks."""

    def __init__(self, *words):
        super().__init__(*words)
        self.metrics, self.log, self.stood = free_port(), f"{self.targets.folder}/log", 0

    def options(self):
        open(self.log, "wb").close()
        return "--log", self.log, "--metrics", f"tcp:127.0.0.1:{self.metrics}"

    def open(self, kind, address):
        taken = super().open(kind, address)
        self.stood += taken is not None
        return taken

    def look(self, desk):
        super().look(desk)
        for line, front in (("show 1", "show 1 rule "), ("show", "show 1 rule "), ("reload", "rules 2")):
            reply = desk.ask(line)
            if not reply.startswith(front):
                self.wrong.append(f"{line!r} was answered {reply!r}")
        self.scrape()

    def scrape(self):
        """One answer with the figures, where one before it may have been dropped or refused."""
        for _ in range(self.tries):
            try:
                status, text = scrape(f"tcp:127.0.0.1:{self.metrics}", timeout=WAIT_SECONDS)
            except OSError as fault:
                self.misses.add(f"a scrape ended: {fault!r}")
                continue
            if status == 200 and "\npollrelay_bytes_total{" in text:
                return
            self.misses.add(f"a scrape was answered {status}")
        self.wrong.append("no figures are given any more")

    def stop(self, desk, may_lose_lines=0):
        super().stop(desk, may_lose_lines)
        with open(self.log, encoding="utf-8") as file:
            text = file.read()
        lines, lost, broken = read_log(text)
        rest = text.rpartition("\n")[2]
        if full := [line for line in lines if line["how"] in ("full", "rule full")]:
            self.wrong.append(f"the log says that as many stand as may, where few do: {full}")
        if broken or rest or len(lines) + lost < self.stood:
            self.wrong.append(f"the log has {len(lines)} lines, lost {lost}, of {self.stood} connections; not whole: {broken} {rest!r}")


def each_refused(checks, folder, most, name, kind):
    """Each allocation of such a run refused in turn."""
    env, kinds, targets = refusing(folder), collections.Counter(), Targets(folder)
    rest = rest_of(targets, env, kind)
    for number in range(1, most + 1):
        came, was_refused, wrong = single_run(targets, {**env, "REFUSE": str(number)}, rest, number, kind=kind)
        if not was_refused:
            tell(checks, f"{name}: a run that meets no refusal", came, wrong)
            break
        kinds[kind_of(came)] += 1
        tell(checks, f"{name}: allocation {number}", came, wrong)
    else:
        checks.holds(f"{name}: refusals end", False, f"not after {most}")
    checks.holds(f"{name}: allocations were refused", sum(kinds.values()) > 20, f"{sum(kinds.values())}")
    summary(name, kinds)
    targets.close()


def drought_run(targets, env, comes_back, seed):
    run = Run(targets, random.Random(seed))
    with run.start(env) as relay:
        run.open_each()
        if run.misses.names:
            run.wrong.append(f"before the drought: {run.misses.names}")
        desk = Desk(relay, Misses())
        desk.ask("list")
        relay.process.send_signal(signal.SIGUSR1)
        time.sleep(0.05)
        expect_drought(run, desk)
        if comes_back:
            relay.process.send_signal(signal.SIGUSR2)
            time.sleep(0.05)
            old, run.standing = run.standing, []
            run.open_each()
            run.standing += old
        run.stop(desk)
        for it in run.standing:
            it.close()
        if not said_of(relay.errors())[1]:
            run.wrong.append("nothing was refused")
    return run.wrong + run.misses.wrong


def expect_drought(run, desk):
    """Nobody new is taken and no list is given, and bytes go on."""
    for kind, address in run.addresses():
        if (taken := run.open(kind, address)) is not None:
            run.wrong.append(f"a {kind} connection is taken without memory")
            taken.close()
    if desk.ask("list") != "":
        run.wrong.append("a list is given without memory")
    # A rule with an idle time sets a deadline at each read, and that takes memory.
    never, with_idle_time = run.standing
    exchange([with_idle_time], run.rng, 20_000, run.ledger, run.misses)
    run.misses.names = []
    exchange([never], run.rng, 200_000, run.ledger, run.misses)
    if run.misses.names:
        run.wrong.append(f"without memory {run.misses.names}")


def drought(checks, folder, most):
    env, targets = refusing(folder), Targets(folder)
    for turn in range(10):
        targets.drain()
        wrong = drought_run(targets, env, turn % 2 == 1, turn)
        tell(checks, f"drought {turn}", "", wrong)
    targets.close()


def injecting(call, refusal, at, log):
    """The words of a tracer that refuses such a call of each thread, the one with this number. Addresses are the same in each run."""
    trace = f"inject={call}:{refusal}:when={at}"
    return ["setarch", "-R", "strace", "-f", "-qq", "-o", log, "-e", f"trace={call}", "-e", "signal=none", "-e", trace]


def breaks_of(targets, folder):
    """What each brk of a run in which none is refused answered, in their order."""
    log = f"{folder}/breaks"
    tracer = ["setarch", "-R", "strace", "-f", "-qq", "-o", log, "-e", "trace=brk", "-e", "signal=none"]
    single_run(targets, {"LC_ALL": "C"}, None, 0, tracer)
    with open(log, encoding="utf-8", errors="replace") as file:
        return [int(line.rpartition("= ")[2], 16) for line in file if " brk(" in line]


def loader_calls(folder, call):
    """How many of these calls come before the program's own first one: those of the loader."""
    log = f"{folder}/loader"
    words = ["strace", "-qq", "-o", log, "-e", f"trace={call},openat", PROGRAM, "check", "--rules", f"{folder}/no rules"]
    subprocess.run(words, stdout=subprocess.DEVNULL, stderr=subprocess.DEVNULL, check=False)
    with open(log, encoding="utf-8", errors="replace") as file:
        lines = file.read().split("no rules")[0].splitlines()
    return sum(line.startswith(f"{call}(") for line in lines)


def mappings(checks, folder, most):
    if shutil.which("strace") is None:
        checks.holds("mappings: strace is there", False, "apt-get install strace")
        return
    targets, kinds = Targets(folder), collections.Counter()
    log = f"{folder}/injected"
    breaks = breaks_of(targets, folder)
    for call, error in (("mmap", "ENOMEM"), ("mprotect", "ENOMEM"), ("brk", "the break"), ("clone3", "EAGAIN"), ("clone3", "ENOMEM")):
        first = loader_calls(folder, call) + 1
        for number in range(first, first + most):
            if call == "brk" and number > len(breaks):
                break
            refusal = f"retval={breaks[number - 2]}" if call == "brk" else f"error={error}"
            env = {"LC_ALL": "C"}
            came, _, wrong = single_run(targets, env, None, number, injecting(call, refusal, number, log))
            with open(log, encoding="utf-8", errors="replace") as file:
                was_refused = "(INJECTED)" in file.read()
            if not was_refused:
                break
            kinds[kind_of(came)] += 1
            tell(checks, f"mappings: {call} {number} refused by {error}", came, wrong)
    checks.holds("mappings: calls were refused", sum(kinds.values()) > 5, f"{sum(kinds.values())}")
    summary("mappings", kinds)
    targets.close()


STAGES = {
    "script": script, "commands": commands, "single": partial(each_refused, name="single", kind=Run),
    "watched": partial(each_refused, name="watched", kind=Watched), "named": partial(each_refused, name="named", kind=Named),
    "handed": partial(each_refused, name="handed", kind=Handed),
    "drought": drought, "mappings": mappings,
}


def main():
    given = options(__doc__, STAGES, most=1_000)
    allow_descriptors()
    checks = Checks()
    run_stages(checks, {name: partial(it, most=given.most) for name, it in STAGES.items()}, given.stages)
    return checks.end()


if __name__ == "__main__":
    sys.exit(main())
