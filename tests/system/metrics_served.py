#!/usr/bin/env python3
"""The pages of a relay's metrics as clients get them, and what a client of them can't do: harm others, stay for longer than its time,
or keep others out.

    python3 tests/system/metrics_served.py [STAGE]..

pages        a request is answered by its path and its method, also of a relay that doesn't listen.
refused      what is no request is refused.
connections  a connection gives page after page; a request may come byte by byte.
harmless     whatever bytes come, the next client is answered.
limits       a client that says nothing, never ends its request or asks on and on is cut off.
places       clients beyond the most have the places of the first, whether those speak or not.
ends         a stop closes all clients, and the port is free again.
"""
import errno
import os
import random
import signal
import subprocess
import sys
import time

sys.path.insert(1, f"{sys.path[0]}/..")
from lib.c_code import library
from lib.checks import Checks
from lib.places import LIB, PROGRAM
from lib.relay import Relay
from lib.sockets import connect, is_served, listener, read_to_end, some_address
from lib.stages import options, run_stages
from lib.talk import has_ended, hears, says
from lib.waiting import comes

WAIT_SECONDS = 20
# The most clients at once, and how many come beyond them; how long one has.
MOST, MORE, LIMIT_SECONDS = 64, 22, 5
SILENT, ONE_BY_ONE, SEEDS, FEW = 3 * MOST, 40, 32, 5

FIGURES = "content-type: text/plain; version=0.0.4; charset=utf-8"
PLAIN, READERS, EMPTY = "content-type: text/plain; charset=utf-8", "allow: GET, HEAD", "content-length: 0"
OK, REFUSED, GONE, BAD, DEAF = "200 OK", "405 Method Not Allowed", "404 Not Found", "400 Bad Request", "503 Service Unavailable"
# In place of a body: all figures.
PAGE = None
# A request, and the status, a field and the body of its answer.
PAGES = (
    ("GET /metrics", OK, FIGURES, PAGE),
    ("GET /metrics?name=up", OK, FIGURES, PAGE),
    ("HEAD /metrics", OK, FIGURES, ""),
    ("GET /healthz", OK, PLAIN, "ok\n"),
    ("GET /healthz?verbose=1", OK, PLAIN, "ok\n"),
    ("GET http://relay.example/healthz", OK, PLAIN, "ok\n"),
    ("HEAD /healthz", OK, "content-length: 3", ""),
    ("POST /metrics", REFUSED, READERS, ""),
    ("PUT /healthz", REFUSED, READERS, ""),
    ("DELETE /metrics", REFUSED, READERS, ""),
    ("OPTIONS /healthz", REFUSED, READERS, ""),
    ("get /metrics", REFUSED, READERS, ""),
    ("GET /", GONE, EMPTY, ""),
    ("POST /", GONE, EMPTY, ""),
    ("GET /metrics/", GONE, EMPTY, ""),
    ("GET /Metrics", GONE, EMPTY, ""),
    ("GET /healthz/metrics", GONE, EMPTY, ""),
    ("GET /metric", GONE, EMPTY, ""),
)
# The same of a relay one of whose rules takes no clients.
PAGES_DEAF = (
    ("GET /healthz", DEAF, PLAIN, "not listening\n"),
    ("HEAD /healthz", DEAF, PLAIN, ""),
    ("POST /healthz", REFUSED, READERS, ""),
)
NO_REQUESTS = (
    ("a line without a colon", "GET /metrics HTTP/1.1\r\nno colon\r\n\r\n", BAD),
    ("a line without a version", "GET /metrics\r\n\r\n", BAD),
    ("controls", "\r\x01\x02\x03\r\n\r\n", BAD),
    ("a bad host", "GET /metrics HTTP/1.1\r\nHost: a/b\r\n\r\n", BAD),
    ("a path at which nothing is", "GET / HTTP/1.1\r\nHost: x\r\nConnection: close\r\n\r\n", GONE),
)
FIGURES_ONCE = b"GET /metrics HTTP/1.1\r\nHost: x\r\nConnection: close\r\n\r\n"
HEALTH = b"GET /healthz HTTP/1.1\r\nHost: x\r\n\r\n"
WELL = f"HTTP/1.1 {OK}\r\n{PLAIN}\r\ncontent-length: 3\r\n\r\nok\n".encode()


class Metered(Relay):
    """A relay with metrics at an address, by one rule."""

    def __init__(self, env=None):
        self.metrics, self.clients = some_address(), []
        super().__init__(f"relay a {some_address()} {some_address()} never\n", options=("--metrics", self.metrics), env=env)

    def client(self):
        self.clients.append(connect(self.metrics, WAIT_SECONDS))
        return self.clients[-1]

    def some(self, count):
        return [self.client() for _ in range(count)]

    def answer(self, sent):
        """Head, in lines, and body of the answer to a client that sends this and then no more."""
        sock = self.client()
        sock.sendall(sent)
        sock.shutdown(1)
        head, _, body = read_to_end(sock).decode().partition("\r\n\r\n")
        return head.split("\r\n"), body

    def serves(self):
        """Whether a new client is told that all is well."""
        lines, body = self.answer(HEALTH)
        return lines[0] == f"HTTP/1.1 {OK}" and body == "ok\n"

    def close(self):
        super().close()
        for it in self.clients:
            it.close()


def is_well(sock):
    """Whether it is said on this connection that all is well. The connection stays."""
    return says(sock, HEALTH) and hears(sock, WELL)


def is_page(lines, body):
    """Whether a body is all figures, as long as the head says."""
    return body.startswith("# HELP pollrelay_") and "\npollrelay_loops " in body and f"content-length: {len(body)}" in lines


def answered(checks, relay, rows, name):
    for request, status, field, body in rows:
        lines, got = relay.answer(f"{request} HTTP/1.1\r\nHost: x\r\n\r\n".encode())
        checks.expect(f"{name}: {request}: status", f"HTTP/1.1 {status}", lines[0])
        checks.holds(f"{name}: {request}: {field}", field in lines[1:], lines)
        checks.holds(f"{name}: {request}: body", is_page(lines, got) if body is PAGE else got == body, got)


def pages(checks, _):
    with Metered() as relay:
        answered(checks, relay, PAGES, "pages")
        checks.expect("pages: a listener is closed", "ok", relay.ask("close 1"))
        answered(checks, relay, PAGES_DEAF, "pages, not listening")


def refused(checks, _):
    with Metered() as relay:
        for name, request, status in NO_REQUESTS:
            lines, body = relay.answer(request.encode())
            checks.expect(f"refused: {name}", (f"HTTP/1.1 {status}", True, ""), (lines[0], EMPTY in lines, body))


def connections(checks, _):
    with Metered() as relay:
        sock = relay.client()
        checks.expect("connections: health twice", [True] * 2, [is_well(sock) for _ in range(2)])
        sock.sendall(FIGURES_ONCE)
        head, _, body = read_to_end(sock).decode().partition("\r\n\r\n")
        checks.holds("connections: and the figures, and the end", is_page(head.split("\r\n"), body), head)
        slow = relay.client()
        for byte in b"HEAD /nowhere HTTP/1.1\r\nHost: x\r\n\r\n":
            slow.sendall(bytes([byte]))
            time.sleep(0.001)
        checks.holds("connections: byte by byte", hears(slow, f"HTTP/1.1 {GONE}\r\n".encode()), "no answer")
        for number in range(1, ONE_BY_ONE + 1):
            relay.ask("totals")
            _, body = relay.answer(FIGURES_ONCE)
            checks.holds(f"connections: client {number} has figures of its own", f"\npollrelay_admin_sessions_total {number}\n" in body, body)


def comes_to_its_end(relay, data):
    """Whether a client that sends this and then no more comes to its end, if by a reset."""
    try:
        relay.answer(data)
    except (ConnectionError, UnicodeDecodeError):
        return True
    except OSError as fault:
        return fault.errno == errno.ENOTCONN
    return True


def broken(rng):
    """A request of which one of the first fifty bytes is another."""
    request = bytearray(FIGURES_ONCE)
    request[rng.randrange(50)] = rng.randrange(256)
    return bytes(request)


def harmless(checks, _):
    rng = random.Random(1)
    with Metered() as relay:
        for what, make in (("nonsense", lambda: rng.randbytes(300)), ("a broken request", lambda: broken(rng))):
            for number in range(SEEDS):
                data = make()
                checks.holds(f"harmless: {what} {number} ends", comes_to_its_end(relay, data), data)
                checks.holds(f"harmless: the next after {what} {number}", relay.serves(), data)


def limits(checks, _):
    """All three wait at the same time."""
    with Metered() as relay:
        began = time.monotonic()
        silent, endless, asker = relay.some(3)
        says(endless, b"GET /metrics HTTP/1.1\r\nHost: x\r\nLong: ")
        ended = {}
        while len(ended) < 3 and time.monotonic() - began < WAIT_SECONDS:
            time.sleep(0.02)
            now = time.monotonic() - began
            for name, goes_on in (("an endless request", says(endless, b"a")), ("a client that asks on", is_well(asker))):
                if not goes_on:
                    ended.setdefault(name, now)
            silent.settimeout(0.001)
            if has_ended(silent):
                ended.setdefault("a client that says nothing", now)
        for name in ("a client that says nothing", "an endless request", "a client that asks on"):
            seconds = ended.get(name, 0)
            checks.holds(f"limits: {name} is cut off", LIMIT_SECONDS - 1 < seconds < WAIT_SECONDS, f"after {seconds:.1f} s")
        checks.holds("limits: the next is answered", comes(relay.serves), "it isn't")


def places(checks, folder):
    # (their time is never over by a clock that stands, however long it takes to ask all of them)
    standing = {"LD_PRELOAD": library(f"{LIB}/fast_clock.c", f"{folder}/clock.so"), "FAST": "0"}
    with Metered(standing) as relay:
        os.kill(relay.process.pid, signal.SIGSTOP)
        at_once = relay.some(MOST + MORE)
        os.kill(relay.process.pid, signal.SIGCONT)
        checks.expect("places: of those that came at once the first go", [True] * MORE, [has_ended(it) for it in at_once[:MORE]])
        checks.expect("places: the last stand", [True] * MOST, [is_well(it) for it in at_once[MORE:]])
    with Metered(standing) as relay:
        there = relay.some(MOST)
        checks.expect("places: as many as may stand", [True] * MOST, [is_well(it) for it in there])
        checks.holds("places: one more is answered", is_well(relay.client()), "it isn't")
        checks.holds("places: it has the place of the first", has_ended(there[0]), "the first stays")
        checks.expect("places: and of no other", [True] * (MOST - 1), [is_well(it) for it in there[1:]])
    with Metered(standing) as relay:
        relay.some(SILENT)
        checks.expect("places: those that say nothing keep nobody out", [True] * 30, [relay.serves() for _ in range(30)])


def ends(checks, folder):
    with Metered() as relay:
        clients = relay.some(FEW)
        checks.expect("ends: all but the first speak", [True] * (FEW - 1), [is_well(it) for it in clients[1:]])
        checks.expect("ends: its status", 0, relay.stop()[0])
        checks.expect("ends: all clients have ended", [True] * FEW, [has_ended(it) for it in clients])
        checks.holds("ends: nobody listens", not is_served(relay.metrics), "somebody does")
        options_again = ("--metrics", relay.metrics)
    with Relay(f"relay a {some_address()} {some_address()} never\n", options=options_again) as again:
        checks.expect("ends: the port is free", 0, again.stop()[0])
    sock, taken = listener()
    with open(f"{folder}/rules", "w", encoding="ascii"):
        pass
    words = [PROGRAM, "serve", "--rules", f"{folder}/rules", "--admin", f"{folder}/admin.sock", "--metrics", taken]
    done = subprocess.run(words, capture_output=True, timeout=WAIT_SECONDS, check=False)
    checks.expect("ends: a port that is taken", (3, b"", b"cannot listen metrics\n"), (done.returncode, done.stdout, done.stderr))
    checks.expect("ends: who was refused leaves nothing", ["rules"], os.listdir(folder))
    sock.close()


STAGES = {it.__name__: it for it in (pages, refused, connections, harmless, limits, places, ends)}


def main():
    given, checks = options(__doc__, STAGES), Checks()
    run_stages(checks, STAGES, given.stages)
    return checks.end()


if __name__ == "__main__":
    sys.exit(main())
