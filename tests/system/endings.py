#!/usr/bin/env python3
"""The end of a relay, also where something breaks: it comes at once, and leaves no thread, no file and no path.

    python3 tests/system/endings.py [STAGE]..

start    a relay whose first line can't be written ends all its threads at once.
pollers  a relay of which a poller fails ends, whichever thread has that.
whole    nothing is left of a relay with connections, a log and metrics.
"""
import contextlib
import ctypes
import os
import signal
import subprocess
import sys
import time

sys.path.insert(1, f"{sys.path[0]}/..")
from lib.c_code import library
from lib.metrics import scrape
from lib.places import LIB, PROGRAM
from lib.stages import run_script
from lib.tried import WAIT_SECONDS, Tried
from lib.waiting import comes

# So many relays break, one after the other, and the longest that all of them may take: a wait that nobody ends takes almost a second of
# each. Its threads are the main one, two loops, the log's and that of the metrics.
RELAYS, LONGEST, THREADS = 20, 10, 5
# Whose poller fails, by its place among all pollers in the order of their making.
POLLERS = (("the main thread's", 0), ("the first loop's", 1), ("the second loop's", 2))
DEVICE = "relay fault: device\n"
RULES = "relay a {0} {target} never\nrelay b unix:{folder}/in.sock {target} never\n"


class Left:
    """What a process has as it begins and as it ends, which a library writes."""

    def __init__(self, folder):
        self.path = f"{folder}/left"
        self.env = {"LD_PRELOAD": library(f"{LIB}/left_at_exit.c", f"{folder}/left_at_exit.so"), "LEFT": self.path}

    def look(self, checks, name):
        """Sees that the last process had one thread at its end, and the files that it began with."""
        with open(self.path, encoding="utf-8") as file:
            lines = [line.split() for line in file]
        os.remove(self.path)
        checks.expect(f"{name}: lines of a beginning and an end", 2, len(lines))
        began, ended = lines[0], lines[-1]
        checks.expect(f"{name}: threads at its end", "1", ended[0])
        checks.expect(f"{name}: files at its end", began[1:], ended[1:])


def filled_pipe():
    """A pipe that takes nothing more, until its reader goes: its ends."""
    reads, writes = os.pipe()
    os.set_blocking(writes, False)
    with contextlib.suppress(BlockingIOError):
        while True:
            os.write(writes, bytes(4096))
    os.set_blocking(writes, True)
    return reads, writes


def breaks(checks, words, env):
    """The seconds from the moment at which a relay can't write its first line, with all its threads begun, to its end."""
    reads, writes = filled_pipe()
    with subprocess.Popen(words, stdin=subprocess.DEVNULL, stdout=writes, stderr=subprocess.PIPE, env={**os.environ, **env}) as process:
        os.close(writes)
        task = f"/proc/{process.pid}/task"
        checks.holds("start: all threads begin", comes(lambda: len(os.listdir(task)) == THREADS), f"{len(os.listdir(task))} of them")
        began = time.monotonic()
        os.close(reads)
        try:
            errors = process.communicate(timeout=WAIT_SECONDS)[1]
        finally:
            process.kill()
    took = time.monotonic() - began
    checks.expect("start: its status and fault", (3, DEVICE), (process.returncode, errors.decode()))
    return took


def start(checks, folder):
    own, left = f"{folder}/own", Left(folder)
    os.mkdir(own)
    with open(f"{folder}/rules", "w", encoding="ascii") as file:
        file.write(f"relay a unix:{own}/in.sock tcp:127.0.0.1:9 never\n")
    words = [PROGRAM, "serve", "--rules", f"{folder}/rules", "--admin", f"{own}/admin.sock", "--loops", "2"]
    words += ["--log", f"{folder}/log", "--metrics", f"unix:{own}/metrics.sock"]
    took = []
    for _ in range(RELAYS):
        took.append(breaks(checks, words, left.env))
        left.look(checks, "start")
        checks.expect("start: paths that are left", [], os.listdir(own))
    checks.holds("start: no thread waits for its end", sum(took) < LONGEST, f"{RELAYS} relays took {sum(took):.1f} s")


def pollers_of(pid):
    """The numbers of a process's pollers."""
    folder, found = f"/proc/{pid}/fd", []
    for number in sorted(map(int, os.listdir(folder))):
        with contextlib.suppress(OSError):
            if "eventpoll" in os.readlink(f"{folder}/{number}"):
                found.append(number)
    return found


def has_closed(pid, number):
    """Whether a process closes this descriptor of its own, as the library has it do that was loaded into it."""
    told = ctypes.CDLL(None, use_errno=True).sigqueue(pid, signal.SIGUSR1, ctypes.c_void_p(number))
    return told == 0 and comes(lambda: not os.path.lexists(f"/proc/{pid}/fd/{number}"))


def pollers(checks, folder):
    env = {"LD_PRELOAD": library(f"{LIB}/close_at_signal.c", f"{folder}/close_at_signal.so")}
    for name, place in POLLERS:
        with Tried(checks, f"pollers: {name}", env=env) as it:
            ends, process = it.talking(), it.relay.process
            it.holds("it is closed", has_closed(process.pid, pollers_of(process.pid)[place]), "it isn't")
            it.holds("the relay ends", has_ended := it.relay.ends_within(WAIT_SECONDS), "it goes on")
            if not has_ended:
                continue
            it.expect("its status, lines and fault", (3, b"", DEVICE), (process.poll(), process.stdout.read(), it.relay.errors()))
            it.expect("its paths", [], it.relay.sockets())
            it.are_over(ends.client, ends.peer)


def whole(checks, folder):
    left, metrics = Left(folder), f"{folder}/metrics.sock"
    with Tried(checks, "whole", rules=RULES, options=("--log", f"{folder}/log", "--metrics", f"unix:{metrics}"), env=left.env) as it:
        it.holds("one passes bytes", it.ends().pass_both(), "it doesn't")
        it.holds("metrics are given", "\npollrelay_loops 2\n" in scrape(f"unix:{metrics}")[1], "they aren't")
        it.stop("listening 2\nup 5 down 2\n")
        left.look(checks, "whole")
        it.expect("paths that are left", (False, []), (os.path.lexists(metrics), it.relay.sockets()))


STAGES = {it.__name__: it for it in (start, pollers, whole)}


if __name__ == "__main__":
    sys.exit(run_script(__doc__, STAGES))
