#!/usr/bin/env python3
"""Closes by admin sessions, where loops are slow or about to sleep: each is done once it is answered, and closes nothing else.

    python3 tests/system/closing.py [STAGE]..

done    an answered close is done, also where the main thread is faster than the loop, or has other sessions to serve.
early   a close that comes while its connection is set up leaves nothing of it.
others  a close ends no other connection that a session does something to at the same time.
woken   a close reaches a loop that is about to sleep.
"""
import contextlib
import os
import random
import socket
import sys
import threading
import time

sys.path.insert(1, f"{sys.path[0]}/..")
from lib.c_code import library
from lib.places import LIB
from lib.relay import Session
from lib.sockets import connect, read_to_end
from lib.stages import run_script
from lib.talk import hears, says
from lib.tried import WAIT_SECONDS, Tried
from lib.waiting import unhindered

# Closes in a row, beside nothing and beside a session that has lines of its own answered all the time.
CLOSES, BUSY_LINES = 30, 500
# Each look at the clock takes so many milliseconds, so that closes come between two steps of a set-up: so many closes of each of so many
# connections, of which the first come too soon.
LOOK_MS, TRIES, SET_UPS = 2, 200, 5
# Rounds of a close beside commands on so many other connections.
BESIDE, OTHERS = 6, 4
# Closes that come while the loop is about to sleep: so many at most, or as many as come in so many seconds. A loop that isn't told wakes a
# second later; the longest that a close may take, and on a machine that is full of other work some rounds have a longer one, though what
# a thread waits for a processor isn't counted.
WOKEN, AT_ONCE, SECONDS, LONGEST, ROUNDS = 3_000, 50, 30, 0.7, 3


class Busy(threading.Thread):
    """A session that asks for the totals all the time, so that the main thread never waits."""

    def __init__(self, admin):
        super().__init__(daemon=True)
        self.admin, self.is_over = admin, threading.Event()

    def run(self):
        while not self.is_over.is_set():
            with connect(self.admin, WAIT_SECONDS) as session:
                session.sendall(b"totals\n" * BUSY_LINES + b"quit\n")
                read_to_end(session)

    def __enter__(self):
        self.start()
        return self

    def __exit__(self, *_):
        self.is_over.set()
        self.join()


def closes(it, first, while_closing=contextlib.nullcontext):
    """The answers to so many closes, each with what the list says right after it."""
    for client in range(first, first + 2 * CLOSES, 2):
        ends = it.talking()
        with while_closing():
            said = it.answer(f"close {client}\nlist\n")
        yield said
        ends.close()


def done(checks, _):
    with Tried(checks, "done", loops=1) as it:
        it.relay.have_loops_go_last()
        it.expect("a close is done once it is answered", {"ok\nids 1\n"}, set(closes(it, 2, it.relay.giving_way)))
        with Busy(it.admin):
            it.expect("so it is beside a busy session", {"ok\nids 1\n"}, set(closes(it, 2 + 2 * CLOSES)))
        it.stop()


def close_early(it, id):
    """Closes the target's side of a connection again and again while its client comes, and sees that all of it goes."""
    line = f"close {id}\n"
    with connect(it.admin, WAIT_SECONDS) as session:
        session.sendall(line.encode() * TRIES)
        session.shutdown(socket.SHUT_WR)
        client = it.client()
        said = read_to_end(session)
    if b"ok\n" not in said:
        it.comes_to(line, "ok\n")
    it.are_over(client, what="its client sees the end")
    it.answers("list\n", "ids 1\n", "no id is left of it")


def early(checks, folder):
    env = {"LD_PRELOAD": library(f"{LIB}/fast_clock.c", f"{folder}/fast_clock.so"), "LOOK_MS": str(LOOK_MS)}
    with Tried(checks, "early", 60_000, loops=1, env=env) as it:
        for at in range(SET_UPS):
            close_early(it, 3 + 2 * at)
            if checks.failed:
                break
        it.stop("listening 1\nup 0 down 0\n")


def others(checks, _):
    with Tried(checks, "others", loops=1) as it:
        it.relay.have_loops_go_last()
        stay = [it.talking() for _ in range(OTHERS)]
        lines = "".join(f"deadline {id} never\n" for id in range(2, 2 + 2 * OTHERS))
        for turn in range(BESIDE):
            ends, id = it.talking(), 2 + 2 * (OTHERS + turn)
            with connect(it.admin, WAIT_SECONDS) as one, connect(it.admin, WAIT_SECONDS) as other:
                said = [(one, f"close {id}\n"), (other, lines)]
                it.holds("both sessions begin", all(says(sock, b"list\n") and hears(sock, b"ids 1 2") for sock in (one, other)), "they don't")
                with it.relay.stopped():
                    for sock, line in said[:: 1 if turn % 2 else -1]:
                        sock.sendall(line.encode())
                it.are_over(ends.client, ends.peer)
        it.expect("each that isn't closed goes on", [True] * OTHERS, [one.pass_both() for one in stay])
        it.stop()


def close_turning(it, session, stays, client):
    """How long a close takes that comes while the loop turns for a byte or for other commands, beside waits for a processor."""
    before, pids = random.randrange(4), (os.getpid(), it.relay.process.pid)
    began = unhindered(*pids)
    stays.client.sendall(b"x")
    session.sock.sendall(b"deadline 2 never\n" * before + f"close {client}\n".encode())
    said = [session.line("close") for _ in range(before + 1)]
    if said != ["ok"] * (before + 1):
        it.expect("a close is answered", ["ok"] * (before + 1), said)
    return unhindered(*pids) - began


def longest_close(it, session, stays, first):
    """How long the longest of many closes takes, from this id on, up to the first that takes too long; and the next id."""
    end = time.monotonic() + SECONDS
    for client in range(first, first + 2 * WOKEN, 2 * AT_ONCE):
        ends = [it.talking() for _ in range(AT_ONCE)]
        took = max(close_turning(it, session, stays, client + 2 * at) for at in range(AT_ONCE))
        for one in ends:
            one.close()
        if took >= LONGEST or time.monotonic() > end:
            break
    return took, client + 2 * AT_ONCE


def woken(checks, _):
    with Tried(checks, "woken", loops=1) as it, Session(it.relay.admin) as session:
        stays, took, next = it.talking(), [], 4
        while len(took) < ROUNDS and (not took or took[-1] >= LONGEST):
            longest, next = longest_close(it, session, stays, next)
            took.append(longest)
        it.holds("no close waits for a loop that sleeps", took[-1] < LONGEST, f"one of each {WOKEN} took {took} s")
        it.stop()


STAGES = {it.__name__: it for it in (done, early, others, woken)}


if __name__ == "__main__":
    sys.exit(run_script(__doc__, STAGES))
