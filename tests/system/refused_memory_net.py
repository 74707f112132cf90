#!/usr/bin/env python3
"""Refuses each request for memory of a program on `net` in turn: of the built echo server that is its own client.

    python3 tests/system/refused_memory_net.py

The Nth allocation is refused, for N from 1 until a run meets no refusal. Each run ends by itself, with status 0 and what its
client saw, which is less than all where its connection was refused memory, or with status 1 and a line that says so. The
program is the one that ECHO_SERVER names, or else crates/echo_server/out/echo_server. It needs a C compiler. The gate doesn't
run this.
"""
import collections
import os
import subprocess
import sys
import tempfile

sys.path.insert(1, f"{sys.path[0]}/..")
from lib.c_code import library
from lib.checks import Checks
from lib.faulted_life import said_of
from lib.places import LIB, ROOT

PROGRAM = os.path.abspath(os.environ.get("ECHO_SERVER", f"{ROOT}/crates/echo_server/out/echo_server"))
SEEN = ("no connection", "no answer", "hello came back, and the idle connection was closed")
MOST = 10_000


def run(made, number):
    """The status of a run, what it printed, and what it said on standard error, with the mark of a refusal."""
    environment = {**os.environ, "LD_PRELOAD": made, "REFUSE": str(number)}
    done = subprocess.run([PROGRAM], env=environment, capture_output=True, text=True, timeout=60, check=False)
    return done.returncode, done.stdout.strip(), done.stderr


def main():
    checks, counts = Checks(), collections.Counter()
    with tempfile.TemporaryDirectory() as folder:
        made = library(f"{LIB}/refuse_nth.c", f"{folder}/refuse_nth.so")
        for number in range(1, MOST):
            status, printed, errors = run(made, number)
            said, was_refused = said_of(errors)
            if not was_refused:
                break
            fine = (status == 0 and printed in SEEN) or (status == 1 and said.strip() != "")
            checks.holds("it ends by itself, and tells", fine, f"allocation {number}: {status} {printed!r} {said!r}")
            counts[printed or said.strip()] += 1
        checks.holds("with no refusal hello comes back", (status, printed) == (0, SEEN[-1]), f"{status} {printed!r}")
    for what, count in counts.most_common():
        print(f"{count} times: {what}")
    return checks.end()


if __name__ == "__main__":
    sys.exit(main())
