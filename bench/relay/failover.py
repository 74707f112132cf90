#!/usr/bin/env python3
"""What clients notice of a target that fails: pollrelay beside HAProxy, each with three targets that take turns and are checked.

    python3 bench/relay/failover.py [--seconds 60] [--rate 500] [--only KIND,..] [--patience 20] [--small]

500 requests begin each second, whatever became of those before; a request connects, has a byte sent there and back, and ends. A sixth of
the time after the first one the second target fails:

killed      its process is killed: its connections are reset, and from then on nobody listens
frozen      its process is stopped: the system still takes connections for it, until the queue of its listener is full
refusing    nobody listens there, from the start on
black-hole  it takes nobody more, and its queue is full: a connect is neither made nor refused; its connections go on
back        it is killed, and stands again 20 seconds later

Both check each target every 2 seconds, take it out after 3 failures and in again after 2 that pass, and give a connect 5 seconds; HAProxy
has `option redispatch` and `retries 3`. Printed are the requests; how many failed, how, and how many of them began before the target failed,
which may have been at it; how many took longer than 0.1 and than 1 second after their moment, and the longest; how long after its failure
the relay, or HAProxy, says that the target is down, from when on nobody is given to it; and how long after its return it says that it is up.
A request that isn't answered in 20 seconds has failed.

It ends with 1 where of some kind the relay failed more requests than HAProxy that began after the failure; of those that a queue takes
for a stopped process the two may differ by some. With --small a run takes 2 seconds, which shows that it runs. Measure the proved program on a
quiet machine: one with run-time checks falls behind 500 requests a second beside other work, and takes --rate 100. It installs Debian's gcc
and haproxy where they are missing.
"""
import argparse
import collections
import contextlib
import os
import resource
import signal
import subprocess
import sys
import tempfile
import threading
import time

HERE = os.path.dirname(os.path.abspath(__file__))
sys.path.insert(0, f"{HERE}/../../tests")
from lib.admin_replies import TARGET
from lib.packages import install
from lib.places import PROGRAM
from lib.relay import Relay, Session
from lib.sockets import connect, free_port, is_served
from lib.waiting import wait_until

KINDS = ("killed", "frozen", "refusing", "black-hole", "back")
# The queue of a target's listener, as many programs have it.
BACKLOG = 128
# What may stand at once: all that begin at a third of the rate until the patience of each is over, and more.
CONNECTIONS, DESCRIPTORS = 8_000, 32_768
BACK_SECONDS = 20
# How often the state of the target is asked for.
LOOK_SECONDS = 0.02
# The places in the queue of a stopped target that checks, or clients which were not served yet, had in one run and not in the other.
QUEUED = 5
SMALL_SECONDS, SMALL_PATIENCE = 2, 8

POLLRELAY = """admin = "{{folder}}/admin.sock"
connections = {connections}
connect_timeout = "5s"

[[rule]]
name = "web"
listen = ["tcp:127.0.0.1:{port}"]
target = [{targets}]
balance = "round-robin"
health = {{ every = "2s", timeout = "1s", fall = 3, rise = 2 }}
"""

HAPROXY = """global
  nbthread {processors}
  maxconn {connections}
  stats socket {folder}/admin.sock
defaults
  mode tcp
  balance roundrobin
  option redispatch
  retries 3
  timeout connect 5s
  timeout client 1h
  timeout server 1h
listen web
  bind 127.0.0.1:{port}
  default-server check inter 2s fall 3 rise 2
{targets}
"""


class Target:
    """A target at a port of its own, as a process."""

    def __init__(self, program):
        self.words, self.port, self.process = [program, "target"], free_port(), None

    def start(self):
        self.process = subprocess.Popen([*self.words, str(self.port), str(BACKLOG)], stdout=subprocess.PIPE, text=True)
        self.says("ready")

    def says(self, word):
        said = self.process.stdout.readline()
        if said != f"{word}\n":
            raise RuntimeError(f"a target said {said!r} in place of {word}")

    def fill(self):
        self.process.send_signal(signal.SIGUSR2)
        self.says("full")

    def freeze(self):
        self.process.send_signal(signal.SIGSTOP)

    def kill(self):
        """Ends it, also one that is stopped."""
        if self.process:
            self.process.kill()
            self.process.wait()
            self.process.stdout.close()
            self.process = None


class Pollrelay:
    """The relay by a configuration with these targets."""

    name = "pollrelay"

    def __init__(self, ports, _):
        self.port, self.at = free_port(), f"tcp:127.0.0.1:{ports[1]}"
        targets = ", ".join(f'{{ at = "tcp:127.0.0.1:{it}" }}' for it in ports)
        text = POLLRELAY.format(port=self.port, targets=targets, connections=CONNECTIONS)
        self.relay = Relay(text, form="config", program=PROGRAM, descriptors=DESCRIPTORS)
        self.session = Session(self.relay.admin)

    def is_up(self):
        """What it says of the second target."""
        found = filter(None, map(TARGET.fullmatch, self.session.ask("targets").splitlines()))
        return next(it["state"] for it in found if it["at"] == self.at) == "up"

    def stop(self):
        self.session.__exit__()
        status, _, _ = self.relay.stop()
        self.relay.close()
        if status != 0:
            raise RuntimeError(f"pollrelay ended with {status}")

    def kill(self):
        self.relay.close()


class Haproxy:
    """HAProxy by a file that says the same."""

    name = "haproxy"

    def __init__(self, ports, folder):
        self.port, self.admin = free_port(), f"{folder}/admin.sock"
        targets = "\n".join(f"  server t{at} 127.0.0.1:{it}" for at, it in enumerate(ports, 1))
        processors = len(os.sched_getaffinity(0))
        with open(f"{folder}/haproxy.cfg", "w", encoding="ascii") as file:
            file.write(HAPROXY.format(port=self.port, targets=targets, connections=CONNECTIONS, folder=folder, processors=processors))
        quiet = {"stdin": subprocess.DEVNULL, "stdout": subprocess.DEVNULL, "stderr": subprocess.DEVNULL}
        self.process = subprocess.Popen(["haproxy", "-q", "-db", "-f", f"{folder}/haproxy.cfg"], **quiet)
        if not wait_until(lambda: is_served(f"tcp:127.0.0.1:{self.port}"), 10):
            self.kill()
            raise RuntimeError("HAProxy doesn't accept connections")

    def is_up(self):
        with connect(f"unix:{self.admin}") as sock:
            sock.sendall(b"show stat\n")
            head, *rows = sock.makefile("r", encoding="ascii").read().removeprefix("# ").splitlines()
        told = [dict(zip(head.split(","), it.split(","))) for it in rows]
        return next(it["status"] for it in told if it.get("svname") == "t2").startswith("UP")

    def stop(self):
        self.kill()

    def kill(self):
        self.process.kill()
        self.process.wait()


class Watched(threading.Thread):
    """Asks again and again whether the target is up, and keeps the moment of each change."""

    def __init__(self, side):
        super().__init__(daemon=True)
        self.side, self.over = side, threading.Event()
        self.changes = [(time.monotonic(), side.is_up())]

    def run(self):
        while not self.over.wait(LOOK_SECONDS):
            is_up = self.side.is_up()
            if is_up != self.changes[-1][1]:
                self.changes.append((time.monotonic(), is_up))

    def end(self):
        self.over.set()
        self.join()

    def seconds_until(self, is_up, moment):
        """How long after a moment it came to say so; none if it didn't."""
        if moment is None:
            return None
        if next((told for when, told in reversed(self.changes) if when <= moment), not is_up) == is_up:
            return 0.0
        return next((when - moment for when, told in self.changes if when > moment and told == is_up), None)


Outcome = collections.namedtuple("Outcome", "requests failed before words late later longest out back")


def run(program, side_of, kind, given, folder):
    """One run: the requests through one of the two, while a target fails so."""
    targets = [Target(program) for _ in range(3)]
    ill, side, load = targets[1], None, None
    try:
        for it in targets:
            if it is not ill or kind != "refusing":
                it.start()
        side = side_of([it.port for it in targets], folder)
        watched = Watched(side)
        watched.start()
        words = [program, "load", side.port, given.rate, given.seconds, given.patience]
        load = subprocess.Popen(list(map(str, words)), stdout=subprocess.PIPE, text=True)
        failed_at, back_at = fails(ill, kind, given.seconds)
        said, _ = load.communicate(timeout=given.seconds + given.patience + 60)
        watched.end()
        side.stop()
        side = None
        rows = [line.split() for line in said.splitlines()]
        if load.returncode or len(rows) != int(given.rate * given.seconds):
            raise RuntimeError(f"the load ended with {load.returncode} after {len(rows)} requests")
        return outcome(rows, failed_at, watched.seconds_until(False, failed_at), watched.seconds_until(True, back_at))
    finally:
        if load and load.poll() is None:
            load.kill()
            load.wait()
        if side:
            side.kill()
        for it in targets:
            it.kill()


def fails(ill, kind, seconds):
    """Has a target fail at its moment, and stand again. Gives both moments."""
    if kind == "refusing":
        return time.monotonic(), None
    time.sleep(seconds / 6)
    moment = time.monotonic()
    {"killed": ill.kill, "frozen": ill.freeze, "black-hole": ill.fill, "back": ill.kill}[kind]()
    if kind != "back":
        return moment, None
    time.sleep(min(BACK_SECONDS, seconds / 3))
    ill.start()
    return moment, time.monotonic()


def outcome(rows, failed_at, out, back):
    late = [int(it[1]) / 1e6 for it in rows if it[2] == "ok"]
    failed = [it for it in rows if it[2] != "ok"]
    before = sum(int(it[0]) / 1e6 < failed_at for it in failed)
    words = collections.Counter(it[2] for it in failed)
    return Outcome(
        len(rows), len(failed), before, words, sum(it > 0.1 for it in late), sum(it > 1 for it in late), max(late, default=0.0), out, back
    )


def shown(seconds):
    return "-" if seconds is None else f"{seconds:.2f} s"


def line(kind, name, it):
    how = [f"{count} {word}" for word, count in sorted(it.words.items())] + [f"{it.before} begun before"] * (it.before > 0)
    told = f" ({', '.join(how)})" if how else ""
    return (
        f"{kind:10} {name:9}  {it.requests} requests, {it.failed} failed{told}, {it.late} later than 0.1 s, "
        f"{it.later} than 1 s, longest {it.longest:.3f} s; out after {shown(it.out)}, in after {shown(it.back)}"
    )


def compared(program, kind, given):
    """Both, in turn. Whether the relay failed no more than HAProxy."""
    failed = {}
    for side in (Pollrelay, Haproxy):
        with tempfile.TemporaryDirectory(prefix="failover-") as folder:
            found = run(program, side, kind, given, folder)
        failed[side.name] = found.failed - found.before
        print(line(kind, side.name, found), flush=True)
    return failed["pollrelay"] <= failed["haproxy"] + (QUEUED if kind == "frozen" else 0)


def main():
    words = argparse.ArgumentParser(description=__doc__, formatter_class=argparse.RawDescriptionHelpFormatter)
    words.add_argument("--seconds", type=float, default=60)
    words.add_argument("--rate", type=float, default=500, help="requests a second")
    words.add_argument("--only", default=",".join(KINDS), help="these kinds alone")
    words.add_argument("--patience", type=float, default=20, help="the seconds after which a request has failed")
    words.add_argument("--small", action="store_true", help="only shows that it runs")
    given = words.parse_args()
    kinds = given.only.split(",")
    if unknown := set(kinds) - set(KINDS):
        words.error(f"no kind {' '.join(sorted(unknown))}")
    if given.small:
        given.seconds, given.patience = SMALL_SECONDS, SMALL_PATIENCE
    install("cc:gcc libc6-dev", "haproxy:haproxy")
    if not os.path.exists(PROGRAM):
        sys.exit(f"not there: {PROGRAM}")
    hard = resource.getrlimit(resource.RLIMIT_NOFILE)[1]
    with contextlib.suppress(ValueError, OSError):
        resource.setrlimit(resource.RLIMIT_NOFILE, (hard, hard))
    with tempfile.TemporaryDirectory(prefix="failover-") as folder:
        program = f"{folder}/failover"
        subprocess.run(["cc", "-O2", "-Wall", "-Wextra", "-o", program, f"{HERE}/failover.c"], check=True)
        worse = [kind for kind in kinds if not compared(program, kind, given)]
    print(f"the relay failed more requests than HAProxy: {', '.join(worse) or 'of no kind'}")
    return 1 if worse else 0


if __name__ == "__main__":
    sys.exit(main())
