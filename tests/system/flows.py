#!/usr/bin/env python3
"""Bytes through a relay: both ways, over TCP and Unix sockets, beside stalls and bulk, of many clients at once.

    python3 tests/system/flows.py [STAGE]..

echoes      what is sent comes back and is counted, also by way of a Unix socket; the relay's paths go with it.
half_ends   a way goes on after the end of the other.
bulk        others have their turns beside a bulk stream.
at_once     clients that came at once, while nobody was accepted, are all served.
most_pairs  the next after the most pairs is dropped, until one ends: of all, of the default's 512, of a rule.
late_reads  what both ends send and read late comes whole.
stalls      a write that stalls ends its pair after the idle time, or at a session's deadline.
parts       pieces of which a write takes all but the last byte come whole.
"""
import os
import socket
import sys
import threading
import time

sys.path.insert(1, f"{sys.path[0]}/..")
from lib.c_code import library
from lib.echoes import target
from lib.places import LIB
from lib.sockets import connect, read_to_end
from lib.stages import options, run_script
from lib.talk import hears, passes
from lib.tried import Tried
from lib.waiting import comes

# Connections that take turns beside a bulk stream, and their turns.
OTHERS, TURNS_OF_EACH = 15, 10
# Clients that come at once.
AT_ONCE = 100
# What the target says to each connection, so that a client hears whether it has a pair.
GREETING = b"h"
# The most pairs: what they are of, how many, and the options.
MOST = (
    ("3 of all", 3, ("--connections", "3")),
    ("512 by default", 512, ()),
    ("3 of a rule", 3, ("--connections-per-rule", "3")),
)
# More pieces than the sockets of a pair hold of what nobody reads.
PIECES, PIECE = 1_000, bytes([7]) * 16_000
BULK = bytes([7]) * 65_536
# Pieces that a copy keeps in room of its own, and one that it doesn't.
SMALL = [bytes(at % 251 for at in range(size)) for size in (2, 3, 255, 256, 257)]
# Longer than it takes until nothing more is taken, the idle time of a rule, and the most bytes that a peer says who reads nothing.
UNTIL_IT_STALLS, IDLE, MOST_SAID = 0.3, 0.2, 250


def echo_of_hello(address):
    """What comes back of a hello until the end."""
    with connect(address) as sock:
        sock.sendall(b"hello")
        sock.shutdown(socket.SHUT_WR)
        return read_to_end(sock)


def echoes(checks, _):
    _, to = target()
    with Tried(checks, "echo", rules=f"relay a {{0}} {to} never\n") as it:
        it.expect("hello", b"hello", echo_of_hello(it.listens[0]))
        it.stop("listening 1\nup 5 down 5\n")
        it.expect("the admin socket's path", False, os.path.lexists(it.relay.admin))
    rules = f"relay in {{0}} unix:{{folder}}/middle never\nrelay out unix:{{folder}}/middle {to} 60000\n"
    with Tried(checks, "echo by a path", rules=rules) as it:
        middle = f"{it.relay.folder}/middle"
        it.expect("the rule's path before", True, os.path.lexists(middle))
        it.expect("hello", b"hello", echo_of_hello(it.listens[0]))
        it.stop("listening 2\nup 10 down 10\n")
        it.expect("the rule's path", False, os.path.lexists(middle))


def half_ends(checks, _):
    with Tried(checks, "half ends", loops=1) as it:
        first = it.talking()
        it.holds("the client's end is passed on", first.half_end(), "it isn't")
        it.goes("bytes go down", first.peer, first.client, b"hello")
        it.goes("and again", first.peer, first.client, b"again")
        other = it.talking()
        other.peer.shutdown(socket.SHUT_WR)
        it.are_over(other.client, what="the target's end is passed on")
        it.goes("bytes go up", other.client, other.peer, b"hello")
        it.comes_to("list\n", "ids 1 2 3 4 5\n")
        first.peer.close()
        it.are_over(first.client, what="the first client's end")
        other.client.close()
        it.are_over(other.peer, what="the other target's end")
        it.comes_to("list\n", "ids 1\n")
        it.stop("listening 1\nup 7 down 12\n")


class Sender(threading.Thread):
    """Sends pieces until the connection is gone, or so many and its end."""

    def __init__(self, sock, piece, times=None):
        super().__init__(daemon=True)
        self.sock, self.piece, self.times = sock, piece, times
        self.is_done = False
        sock.settimeout(None)
        self.start()

    def run(self):
        sent = 0
        try:
            while self.times is None or sent < self.times:
                self.sock.sendall(self.piece)
                sent += 1
            self.sock.shutdown(socket.SHUT_WR)
            self.is_done = True
        except OSError:
            self.is_done = self.times is None

    def has_ended(self):
        self.join(60)
        return self.is_done


class Taker(threading.Thread):
    """Takes all bytes until the connection is gone, and counts them."""

    def __init__(self, sock):
        super().__init__(daemon=True)
        self.sock, self.count = sock, 0
        sock.settimeout(None)
        self.start()

    def run(self):
        try:
            while part := self.sock.recv(65_536):
                self.count += len(part)
        except OSError:
            pass

    def all(self):
        """How many they were, or None where no end comes."""
        self.join(60)
        return None if self.is_alive() else self.count


def bulk(checks, _):
    with Tried(checks, "bulk", loops=1) as it:
        ends = it.talking()
        sending, taking = Sender(ends.client, BULK), Taker(ends.peer)
        others = [it.talking() for _ in range(OTHERS)]
        for turn in range(TURNS_OF_EACH):
            late = [at for at, one in enumerate(others) if not passes(one.client, one.peer, b"x")]
            it.expect("each other has its turn", (turn, []), (turn, late))
        it.stop()
        it.holds("the bulk stream ends", sending.has_ended(), "it goes on")
        it.holds("the bulk stream has turns", (taking.all() or 0) > 0, "no byte came")


def at_once(checks, _):
    with Tried(checks, "at once", loops=3) as it:
        for said in (b"a", b""):
            # Nobody is accepted, so that all wait in the system's queue.
            it.answers("deadline 1 0\n", "ok\n")
            for _ in range(AT_ONCE):
                it.client().sendall(said)
            it.answers("deadline 1 never\n", "ok\n")
            came = sum(hears(it.peer(), said) for _ in range(AT_ONCE))
            it.expect(f"clients that are served and said {said!r}", AT_ONCE, came)
        it.stop(f"listening 1\nup {AT_ONCE} down 0\n")


def greet_all(it, count, greeted):
    """Greets one connection more than the most that stand at once, and holds them all."""
    while len(greeted) <= count:
        sock = it.peer()
        sock.sendall(GREETING)
        greeted.append(sock)


def most_pairs(checks, _):
    for name, count, options_of in MOST:
        with Tried(checks, f"most pairs, {name}", options=options_of) as it:
            greeted = []
            greeter = threading.Thread(target=greet_all, args=(it, count, greeted), daemon=True)
            greeter.start()
            served = sum(hears(it.client(), GREETING) for _ in range(count))
            it.expect("clients that are served", count, served)
            it.holds("one more is dropped", not hears(it.client(), GREETING), "it is served")
            it.answers("close 2\n", "ok\n")
            it.holds("one is served once a pair has ended", comes(lambda: hears(it.client(), GREETING)), "nobody is")
            greeter.join(60)
            it.expect("connections at the target", count + 1, len(greeted))
            it.stop(f"listening 1\nup 0 down {count + 1}\n")


def late_reads(checks, _):
    with Tried(checks, "late reads", loops=1) as it:
        ends = it.talking()
        senders = [Sender(sock, PIECE, PIECES) for sock in (ends.client.dup(), ends.peer.dup())]
        time.sleep(UNTIL_IT_STALLS)
        takers = [Taker(sock) for sock in (ends.client, ends.peer)]
        size = PIECES * len(PIECE)
        it.expect("bytes down and up", [size, size], [taker.all() for taker in takers])
        it.expect("both sent all", [True, True], [sender.has_ended() for sender in senders])
        it.stop("listening 1\nup 16000001 down 16000001\n")


def says_on(peer):
    """Says a byte each 20 ms until the connection is gone, and gives how many."""
    for said in range(MOST_SAID):
        try:
            peer.sendall(b"x")
        except OSError:
            return said
        time.sleep(0.02)
    return MOST_SAID


def stalls(checks, _):
    with Tried(checks, "stall beside an idle time", 200, loops=1) as it:
        began = time.monotonic()
        ends = it.talking()
        sending = Sender(ends.client, BULK)
        # The peer reads nothing and speaks all the time, so that only the write to it can be late.
        said = says_on(ends.peer)
        took = time.monotonic() - began
        it.holds("it doesn't end at once", said > 5 or took >= IDLE, f"after {said} bytes and {took:.3f} s of {IDLE} s")
        it.holds("it ends", said < MOST_SAID, "the pair goes on")
        it.holds("the write ends", sending.has_ended(), "it goes on")
        it.comes_to("list\n", "ids 1\n")
        it.stop()
    with Tried(checks, "stall beside a deadline", loops=1) as it:
        ends = it.talking()
        # Nothing is read from the target any more, so that only the write to it can be late.
        ends.peer.shutdown(socket.SHUT_WR)
        it.are_over(ends.client, what="the way down")
        sending = Sender(ends.client, BULK)
        time.sleep(UNTIL_IT_STALLS)
        it.answers("deadline 3 30\n", "ok\n")
        it.holds("the write ends", sending.has_ended(), "it goes on")
        it.comes_to("list\n", "ids 1\n")
        it.stop()


def parts(checks, folder):
    """Small pieces, of which each write takes all but the last byte; that is taken later."""
    shim = library(f"{LIB}/fail_nth.c", f"{folder}/fail_nth.so")
    env = {"LD_PRELOAD": shim, "FAIL_CALL": "send", "FAIL_WITH": "-2", "FAIL_TIMES": "1000000"}
    with Tried(checks, "parts", loops=1, env=env) as it:
        ends, sent = it.ends(), sum(map(len, SMALL))
        # (the first that doesn't come is enough, since who waits for it waits long)
        lost = next((len(it) for it in SMALL if not (passes(ends.client, ends.peer, it) and passes(ends.peer, ends.client, it))), None)
        it.expect("each byte comes, or of which piece one doesn't", None, lost)
        it.expect("writes were cut", "[failed]\n", it.relay.errors())
        it.answer("stop\n")
        it.end(f"listening 1\nup {sent} down {sent}\n")


STAGES = {it.__name__: it for it in (echoes, half_ends, bulk, at_once, most_pairs, late_reads, stalls, parts)}


if __name__ == "__main__":
    sys.exit(run_script(__doc__, STAGES))
