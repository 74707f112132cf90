#!/usr/bin/env python3
"""Closes of one connection that race with each other, with a list of what stands, and with the end of the relay.

    python3 tests/system/close_races.py [--runs N] [STAGE]..

last    a relay that finishes answers the close of its last connection, and then ends.
same    of two closes of one id at once one is done, and the other is told that nothing stands there only once nothing does.
sides   the same of two closes of both ids of one connection.
Each is tried N times (20).
"""
import sys
from functools import partial

sys.path.insert(1, f"{sys.path[0]}/..")
from lib.checks import Checks
from lib.relay import Session, allow_descriptors
from lib.stages import options, run_stages
from lib.tried import Tried

UNKNOWN = "error 404 no such connection"


def last(checks, _, runs):
    others = []
    for turn in range(runs):
        with Tried(checks, f"last close {turn}") as it:
            it.talking()
            it.answers("finish 86400000\n", "ok\n")
            if (said := it.answer("close 2\n")) != "ok\n":
                others.append((turn, said))
            it.end("listening 1\nup 1 down 1\n")
    tell(checks, "last close: it is answered with ok", runs, others)


def tell(checks, name, runs, others):
    checks.holds(name, not others, f"not in {len(others)} of {runs} runs, first {others[:1]}")


def two_closes(it, sessions, ids):
    """What two sessions are answered that close these ids at once, and what stands right after each answer."""
    for session, at in zip(sessions, ids):
        session.sock.sendall(f"close {at}\nlist\n".encode())
    answers = [(session.line("close"), session.line("list")) for session in sessions]
    return sorted(said for said, _ in answers), [stands for _, stands in answers]


def at_once(checks, name, runs, second):
    """Closes both the client's id and the one that stands so far behind it, again and again."""
    wanted, others = ([UNKNOWN, "ok"], ["ids 1", "ids 1"]), []
    with Tried(checks, name, loops=1) as it, Session(it.relay.admin) as one, Session(it.relay.admin) as other:
        for turn in range(runs):
            ends, at = it.talking(), 2 + 2 * turn
            if (came := two_closes(it, (one, other), (at, at + second))) != wanted:
                others.append((turn, came))
            it.are_over(ends.client, ends.peer)
            ends.close()
        it.stop()
    tell(checks, f"{name}: one is answered with ok, and one with 404 once it has gone", runs, others)


def same(checks, _, runs):
    at_once(checks, "closes of one id", runs, 0)


def sides(checks, _, runs):
    at_once(checks, "closes of both ids", runs, 1)


STAGES = {it.__name__: it for it in (last, same, sides)}


def main():
    given, checks = options(__doc__, STAGES, runs=20), Checks()
    allow_descriptors()
    run_stages(checks, {name: partial(it, runs=given.runs) for name, it in STAGES.items()}, given.stages)
    return checks.end()


if __name__ == "__main__":
    sys.exit(main())
