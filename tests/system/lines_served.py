#!/usr/bin/env python3
"""The example `line_server`: what its clients hear, line by line, however they end, and at a shutdown while they are busy.

    python3 tests/system/lines_served.py [--proved] [STAGE]..

commands  each command, many of them at once, and a line that comes byte by byte.
ends      the ends of a session: by QUIT, by a line that is too long, by a half-close, by its idle time.
clients   a hundred at once, of which the server keeps nothing.
shutdown  SHUTDOWN while fifty clients are busy: each hears whole answers and then the end, and none is reset.
newcomers SHUTDOWN while clients wait in the queue of the listener, each with a line: each is answered, and none is reset.

The program is built with nothing proved; with --proved it is the one that a proof of its crate has left in out/.
"""
import signal
import socket
import sys
import threading
import time

sys.path.insert(1, f"{sys.path[0]}/..")
from lib.example_server import LONG_MS, SHORT_MS, Server, bad_words, path_of
from lib.sockets import read_to_end
from lib.stages import options, run_script
from lib.talk import has_ended, hears, says
from lib.waiting import comes

ROWS = (
    (b"GET key", b"NONE"), (b"SET key a value", b"OK"), (b"GET key", b"VALUE a value"), (b"COUNT", b"COUNT 1"), (b"SET key b", b"OK"),
    (b"SET empty ", b"OK"), (b"GET empty", b"VALUE "), (b"COUNT", b"COUNT 2"), (b"DEL key", b"OK"), (b"DEL key", b"NONE"), (b"GET key", b"NONE"),
    (b"SET key", b"ERROR"), (b"GET a b", b"ERROR"), (b"DEL a b", b"ERROR"), (b"get empty", b"ERROR"), (b"COUNT ", b"ERROR"), (b"", b"ERROR"),
    (b"GET \xff", b"ERROR"), (b"SET \xc3\xa9 \xc3\xa0", b"OK"), (b"GET \xc3\xa9", b"VALUE \xc3\xa0"), (b"GET empty\r", b"NONE"), (b"QUIT now", b"ERROR"),
)
PIPELINED, CLIENTS, FEW, BUSY, LINE_BYTES = 2_000, 100, 32, 50, 1_024
# How many servers are ended while clients wait in their queue.
SHUTDOWNS = 4


def answered(sock, said, wanted):
    return says(sock, said + b"\n") and hears(sock, wanted + b"\n")


def each_command(checks, server):
    sock = server.client()
    for said, wanted in ROWS:
        checks.holds(f"lines: {said}", answered(sock, said, wanted), f"not {wanted}")
    many = b"".join(b"SET k%d %d\nGET k%d\n" % (it, it, it) for it in range(PIPELINED))
    heard = says(sock, many) and hears(sock, b"".join(b"OK\nVALUE %d\n" % it for it in range(PIPELINED)))
    checks.holds("lines: many at once are answered in their order", heard, "they aren't")
    parts = [says(sock, bytes([it])) for it in b"GET k7\n"]
    checks.holds("lines: a line byte by byte", all(parts) and hears(sock, b"VALUE 7\n"), "no answer")


def each_end(checks, server):
    """How a session ends: each client hears all its answers, and then the end."""
    rows = (
        ("QUIT", b"COUNT\nQUIT\nCOUNT\n" + b"x" * 100_000, b"COUNT 0\nBYE\n"),
        ("a line too long", b"COUNT\n" + b"x" * (LINE_BYTES + 1), b"COUNT 0\nTOO LONG\n"),
        ("a line much too long", b"x" * 100_000, b"TOO LONG\n"),
        ("the longest line", b"x" * LINE_BYTES + b"\nQUIT\n", b"ERROR\nBYE\n"),
    )
    for name, said, wanted in rows:
        sock = server.client()
        heard = says(sock, said) and read_to_end(sock)
        checks.expect(f"lines: {name}", wanted, heard)
    sock = server.client()
    checks.holds("lines: who leaves hears the end", says(sock, b"QUIT\n") and hears(sock, b"BYE\n") and has_ended(sock), "it doesn't")
    taken = [says(sock, b"more") and not time.sleep(0.001) for _ in range(FEW)]
    checks.expect("lines: and is heard to its own end", [True] * FEW, taken)
    for name, said, wanted in (("a half-close", b"COUNT\nGET x\n", b"COUNT 0\nNONE\n"), ("a line without its end", b"COUNT\nQUIT", b"COUNT 0\n")):
        sock = server.client()
        says(sock, said)
        sock.shutdown(socket.SHUT_WR)
        checks.expect(f"lines: {name}", wanted, read_to_end(sock))


class Busy(threading.Thread):
    """A client that says a line, or some at once, whenever the last was answered, until something else comes, which it keeps."""

    def __init__(self, sock, place):
        super().__init__()
        self.sock, self.place, self.rounds, self.end = sock, place, 0, None

    def run(self):
        at_once = 1 + self.place % 3
        wanted = b"OK\n" * at_once
        while self.end is None:
            try:
                self.sock.sendall(b"SET k%d %d\n" % (self.place, self.rounds) * at_once)
                came = b""
                while len(came) < len(wanted) and (part := self.sock.recv(len(wanted) - len(came))):
                    came += part
            except OSError as fault:
                self.end = repr(fault)
            else:
                if came == wanted:
                    self.rounds += 1
                else:
                    self.end = came


def server_with(idle_ms):
    return Server(path_of("line_server", GIVEN.proved), idle_ms, end=False)


def shutdown(checks, _):
    with server_with(LONG_MS) as server:
        busy = [Busy(sock, place) for place, sock in enumerate(server.some(BUSY))]
        for it in busy:
            it.start()
        checks.holds("lines, shutdown: all are busy", comes(lambda: all(it.rounds > 20 for it in busy)), "one isn't")
        last = server.client()
        checks.expect("lines, shutdown: who asks has his answer", b"BYE\n", says(last, b"SHUTDOWN\n") and read_to_end(last))
        for it in busy:
            it.join()
        cut = [it.end for it in busy if it.end not in (b"", b"OK\n", b"OK\nOK\n")]
        checks.expect("lines, shutdown: none of them is reset", [], cut)
        for it in server.clients:
            it.close()
        checks.expect("lines, shutdown: its status", 0, server.status())
        checks.holds("lines, shutdown: nobody is let in any more", server.is_closed(), "somebody is")


def newcomers(checks, _):
    """While the server is stopped one client asks for the end, and others connect, each with a line: all wait in the queue."""
    for _ in range(SHUTDOWNS):
        with server_with(LONG_MS) as server:
            last = server.client()
            checks.holds("lines, newcomers: who asks is served before", answered(last, b"COUNT", b"COUNT 0"), "it isn't")
            server.process.send_signal(signal.SIGSTOP)
            said = [says(it, b"COUNT\n") for it in server.some(FEW)] + [says(last, b"SHUTDOWN\n")]
            server.process.send_signal(signal.SIGCONT)
            checks.expect("lines, newcomers: all was taken", [True] * (FEW + 1), said)
            ends = [read_to_end(it) for it in server.clients]
            checks.expect("lines, newcomers: each is answered, and hears the end", [b"BYE\n"] + [b"COUNT 0\n"] * FEW, ends)
            for it in server.clients:
                it.close()
            checks.expect("lines, newcomers: its status", 0, server.status())


def served(server):
    """A new client that is answered, or None."""
    sock = server.client()
    return sock if answered(sock, b"COUNT", b"COUNT 0") else None


def commands(checks, _):
    bad_words(checks, "lines", path_of("line_server", GIVEN.proved))
    with server_with(LONG_MS) as server:
        each_command(checks, server)


def ends(checks, _):
    with server_with(LONG_MS) as server:
        each_end(checks, server)
    with server_with(SHORT_MS) as server:
        # (where this process isn't run for the idle time, a client is ended before it asks: another comes in its place)
        socks = [comes(lambda: served(server)) for _ in range(FEW)]
        checks.expect("lines, idle: each is served", 0, socks.count(None))
        checks.expect("lines, idle: and ended", [True] * FEW, [it is not None and has_ended(it) for it in socks])


def clients(checks, _):
    with server_with(LONG_MS) as server:
        checks.holds("lines: the first is served", answered(server.client(), b"COUNT", b"COUNT 0"), "it isn't")
        files = len(server.files())
        socks = server.some(CLIENTS)
        said = [says(it, b"SET mine%d %d\nGET mine%d\n" % (place, place, place)) for place, it in enumerate(socks)]
        heard = [hears(it, b"OK\nVALUE %d\n" % place) for place, it in enumerate(socks)]
        checks.expect("lines: a hundred at once", [True] * (2 * CLIENTS), said + heard)
        for it in socks:
            it.close()
        checks.holds("lines: no file is left", comes(lambda: len(server.files()) <= files), f"{files} before, now {server.files()}")


STAGES = {it.__name__: it for it in (commands, ends, clients, shutdown, newcomers)}


if __name__ == "__main__":
    GIVEN = options(__doc__, STAGES, proved=False)
    sys.exit(run_script(__doc__, STAGES, GIVEN))
