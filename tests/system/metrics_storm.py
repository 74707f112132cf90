#!/usr/bin/env python3
"""Asks a built relay for its metrics ten thousand times while bytes flow, beside clients that are slow, silent or talk nonsense.

    python3 tests/system/metrics_storm.py [--scrapes 10000] [--small]

Counters may only rise, and at the end they are what the log and the totals say. A client that sends a byte a second, or nothing,
holds nobody up and is ended by its time limit; fuzzed requests are refused or dropped, and no relayed connection is touched.
`promtool check metrics`, where it is installed, passes the text.
"""
import errno
import random
import re
import shutil
import socket
import subprocess
import sys
import threading
import time

sys.path.insert(1, f"{sys.path[0]}/..")
from lib.checks import Checks
from lib.echoes import comes_back, ended, flowing, target
from lib.metrics import scrape
from lib.relay import Relay, allow_descriptors
from lib.sockets import connect, free_port, read_to_end
from lib.stages import options
from lib.waiting import wait_until

SAMPLE = re.compile(r"^([a-z_]+(?:\{[^}]*\})?) ([0-9.]+)$")


def figures(text):
    return {found[1]: float(found[2]) for line in text.splitlines() if (found := SAMPLE.match(line))}


def nonsense(metrics, rng):
    """A request that is none, of random bytes or a broken one; whatever is answered, the connection ends."""
    kind = rng.randrange(4)
    if kind == 0:
        data = rng.randbytes(rng.randrange(1, 400))
    elif kind == 1:
        data = b"GET /metrics HTTP/9.9\r\n\r\n"
    elif kind == 2:
        data = b"GET /" + b"a" * rng.randrange(9_000, 70_000) + b" HTTP/1.1\r\n\r\n"
    else:
        good = bytearray(b"GET /metrics HTTP/1.1\r\nHost: x\r\nConnection: close\r\n\r\n")
        for _ in range(rng.randrange(1, 6)):
            good[rng.randrange(len(good))] = rng.randrange(256)
        data = bytes(good)
    try:
        with connect(metrics, 15) as sock:
            sock.sendall(data)
            sock.shutdown(socket.SHUT_WR)
            read_to_end(sock)
    except OSError as error:
        # It was refused before it was heard out. A wait that lasts too long is a fault of the server.
        if error.errno not in (errno.ENOTCONN, errno.ECONNRESET, errno.EPIPE):
            raise


class Slow(threading.Thread):
    """A client that sends a byte a second, or nothing, and notes how long it was let."""

    def __init__(self, metrics, talks):
        super().__init__(daemon=True)
        self.metrics, self.talks, self.seconds = metrics, talks, None

    def run(self):
        began = time.monotonic()
        try:
            with connect(self.metrics, 40) as sock:
                if self.talks:
                    for byte in b"GET /metrics HTTP/1.1\r\n" * 3:
                        sock.sendall(bytes([byte]))
                        time.sleep(1)
                else:
                    sock.recv(1)
        except OSError:
            pass
        self.seconds = time.monotonic() - began


def expect_no_fall(checks, before, now):
    fell = [name for name, count in before.items() if "_total" in name and now.get(name, 0) < count]
    checks.expect("metrics: no counter falls", [], fell[:3])


def storm(checks, metrics, scrapes, rng):
    before, slowest = figures(scrape(metrics)[1]), 0.0
    for number in range(scrapes):
        began = time.monotonic()
        status, text = scrape(metrics)
        slowest = max(slowest, time.monotonic() - began)
        checks.expect("metrics: status", 200, status)
        if number % 50 == 0:
            now = figures(text)
            expect_no_fall(checks, before, now)
            before = now
            nonsense(metrics, rng)
    return slowest


def at_the_end(checks, relay, text):
    """What the last figures have to be, once each of the 36 connections of one rule and the 20 of the other has ended."""
    last, (up, down) = figures(text), relay.totals()
    checks.expect("metrics: the totals", (up, down), tuple(last[f'pollrelay_bytes_total{{way="{way}"}}'] for way in ("up", "down")))
    checks.expect("metrics: the rules' bytes add up to the totals", up, sum(
        count for name, count in last.items() if name.startswith("pollrelay_rule_bytes_total") and 'way="up"' in name))
    accepted = last['pollrelay_rule_accepted_total{rule="kept"}']
    ends = sum(count for name, count in last.items() if name.startswith('pollrelay_rule_ends_total{rule="kept"'))
    checks.expect("metrics: each connection has ended once", (36, 36), (accepted, ends))
    refused = last['pollrelay_rule_refused_total{rule="gone",cause="no_target"}']
    checks.expect("metrics: refused for want of a target", 20, refused)
    checks.expect("metrics: none stands", 0, last['pollrelay_rule_connections{rule="kept"}'])
    if shutil.which("promtool"):
        said = subprocess.run(["promtool", "check", "metrics"], input=text, capture_output=True, text=True, check=False)
        checks.expect("metrics: promtool", (0, ""), (said.returncode, said.stdout + said.stderr))


def beside_slow_clients(checks, relay, metrics, scrapes, rng):
    """The storm, with clients that send nothing or a byte a second; all of these are ended, and nothing of them is left."""
    slow = [Slow(metrics, it % 2 == 0) for it in range(5)]
    for it in slow:
        it.start()
    descriptors = relay.descriptors()
    slowest = storm(checks, metrics, scrapes, rng)
    for it in slow:
        it.join(60)
    in_time = all(it.seconds is not None and it.seconds < 30 for it in slow)
    checks.holds("metrics: slow clients are ended in time", in_time, [it.seconds for it in slow])
    return slowest, descriptors


def main():
    chosen = options(__doc__, scrapes=10_000, small=False, seed=None)
    scrapes = 300 if chosen.small else chosen.scrapes
    allow_descriptors()
    checks, rng, until, echo = Checks(), random.Random(chosen.seed), threading.Event(), target()
    kept, gone, metrics = (f"tcp:127.0.0.1:{free_port()}" for _ in range(3))
    rules = f"relay kept {kept} {echo[1]} never\nrelay gone {gone} unix:{{folder}}/nobody 1000\n"
    with Relay(rules, options=["--metrics", metrics, "--connections", "64"]) as relay:
        flows = flowing(kept, 16, until)
        checks.expect("metrics: healthz", (200, "ok\n"), scrape(metrics, "/healthz"))
        checks.expect("metrics: another path", 404, scrape(metrics, "/x")[0])
        slowest, descriptors = beside_slow_clients(checks, relay, metrics, scrapes, rng)
        for _ in range(20):
            comes_back(kept)
            connect(gone).close()
        checks.expect("metrics: bytes of relayed connections", [], ended(flows, until))
        wait_until(lambda: len(relay.ids()) == 2, 10)
        checks.holds("metrics: descriptors", wait_until(lambda: relay.descriptors() < descriptors, 15), relay.descriptors())
        at_the_end(checks, relay, scrape(metrics)[1])
        print(f"{scrapes} scrapes beside {sum(it.blocks for it in flows)} blocks; the slowest took {slowest:.3f} s")
        status, _, seconds = relay.stop()
        checks.expect("metrics: status", 0, status)
        checks.holds("metrics: the end", seconds < 3, f"took {seconds:.1f} s")
    return checks.end()


if __name__ == "__main__":
    sys.exit(main())
