#!/usr/bin/env python3
"""Two relays behind HAProxy, by the sample examples/balancer/two_relays.cfg, are restarted in turn while clients send requests, 50,000 at least.

A request is a line that has to come back as it was sent, over a connection of its own or one that is kept for a few. Each
restart takes the relay out of the balancer, waits until that has no connection to it, says `finish 30000`, waits until the relay
has ended, and starts it anew. No request may fail, and the relays' totals have to add up to the bytes of all requests: the
balancer's checks reach no target.

    python3 tests/system/rolling_restart.py [--requests 50000]

It installs Debian's haproxy where it is missing, and takes about a minute.
"""
import multiprocessing
import subprocess
import sys
import tempfile
import time

sys.path.insert(1, f"{sys.path[0]}/..")
from lib.checks import Checks
from lib.echoes import target
from lib.packages import install
from lib.places import ROOT
from lib.relay import Relay, totals_of
from lib.sockets import connect, free_port
from lib.stages import options
from lib.waiting import wait_until

CLIENTS = 4
KEPT_FOR = 10
SETTLE_SECONDS = 20
# Each relay is restarted twice at least, on a machine of any speed.
LEAST_RESTARTS = 4
# The names of the relays by their ports in the sample.
SERVERS = {"8001": "one", "8002": "two"}


def requests_over(port, lines):
    """Sends these lines over one connection, each once the one before is back, and gives how many were answered well."""
    done = 0
    try:
        with connect(f"tcp:127.0.0.1:{port}") as sock:
            answers = sock.makefile("rb")
            for line in lines:
                sock.sendall(line)
                if answers.readline() != line:
                    break
                done += 1
    except OSError:
        pass
    return done


def client(port, number, count, begin, over, answered):
    """Sends so many requests, and more until the restarts are over: in turn one over a connection of its own, and ten over one that is kept."""
    begin.wait()
    sent = done = size = turn = 0
    while sent < count or not over.is_set():
        lines = [b"client %d line %d\n" % (number, sent + it) for it in range(KEPT_FOR if turn % 2 else 1)]
        done += requests_over(port, lines)
        sent, size, turn = sent + len(lines), size + sum(map(len, lines)), turn + 1
    answered.put((done, sent, size))


class Balancer:
    """HAProxy by the sample, with addresses and an admin socket of this run's own."""

    def __init__(self, folder, port, relays, checked):
        self.admin = f"{folder}/balancer.sock"
        with open(f"{ROOT}/examples/balancer/two_relays.cfg", encoding="ascii") as sample:
            text = sample.read().replace("/run/haproxy/admin.sock", self.admin).replace("127.0.0.1:8000", f"127.0.0.1:{port}")
        for name, relay in zip(("8001", "8002"), relays):
            text = text.replace(f"server {SERVERS[name]} 127.0.0.1:{name}", f"server {SERVERS[name]} 127.0.0.1:{relay}")
        for name, relay in zip(("8011", "8012"), checked):
            text = text.replace(f"check port {name}", f"check port {relay}")
        with open(f"{folder}/haproxy.cfg", "w", encoding="ascii") as file:
            file.write(text)
        self.process = subprocess.Popen(["haproxy", "-db", "-f", f"{folder}/haproxy.cfg"], stderr=subprocess.DEVNULL)

    def ask(self, line):
        with connect(f"unix:{self.admin}") as sock:
            sock.sendall(f"{line}\n".encode())
            return sock.makefile("r").read()

    def server(self, name):
        """What the balancer says of a relay, by the names of its columns; nothing where it can't be asked yet."""
        try:
            head, *rows = self.ask("show stat").removeprefix("# ").splitlines()
        except OSError:
            return {}
        told = (dict(zip(head.split(","), it.split(","))) for it in rows)
        return next((it for it in told if (it.get("pxname"), it.get("svname")) == ("relays", name)), {})

    def is_up(self, name):
        return self.server(name).get("status") == "UP"

    # A relay that is taken out is given no connection more, so that none stays so.
    def has_left(self, name):
        return self.server(name).get("scur") == "0"

    def close(self):
        self.process.terminate()
        self.process.wait()


class Restarts:
    """The two relays, each by its rules and the port of its metrics, and what their lives so far have counted."""

    def __init__(self, checks, balancer, rules):
        self.checks, self.balancer, self.rules = checks, balancer, rules
        self.relays = {name: self.started(name) for name in rules}
        self.up = self.down = self.made = 0

    def started(self, name):
        rules, port = self.rules[name]
        return Relay(rules, options=("--metrics", f"tcp:127.0.0.1:{port}"))

    def finish(self, relay):
        self.checks.expect("finish is carried out", "ok", relay.ask("finish 30000"))
        last, _ = relay.process.communicate(timeout=SETTLE_SECONDS)
        self.checks.expect("a relay that finishes ends with status 0", 0, relay.process.returncode)
        up, down = totals_of(last.decode())
        self.up, self.down = self.up + up, self.down + down
        relay.close()

    def restart(self, name):
        relay = self.relays[name]
        self.balancer.ask(f"set server relays/{name} state drain")
        left = wait_until(lambda: self.balancer.has_left(name), SETTLE_SECONDS)
        self.checks.holds("the balancer leaves a relay that it takes out", left, self.balancer.server(name))
        self.finish(relay)
        self.relays[name] = self.started(name)
        self.balancer.ask(f"set server relays/{name} state ready")
        self.checks.holds("a new relay is up", wait_until(lambda: self.balancer.is_up(name), SETTLE_SECONDS), name)
        self.made += 1

    def end(self):
        for relay in self.relays.values():
            self.finish(relay)


def under_load(checks, restarts, port, requests):
    """Restarts each relay twice, and in turn until the clients are done, and gives how many requests there were, and their bytes."""
    answered, begin, over = multiprocessing.Queue(), multiprocessing.Event(), multiprocessing.Event()
    shares = [requests // CLIENTS + (it < requests % CLIENTS) for it in range(CLIENTS)]
    clients = [multiprocessing.Process(target=client, args=(port, it, share, begin, over, answered)) for it, share in enumerate(shares)]
    for it in clients:
        it.start()
    # (before, a client would inherit what the target has accepted of another, and hold it open)
    begin.set()
    while restarts.made < LEAST_RESTARTS or any(it.is_alive() for it in clients):
        restarts.restart(("one", "two")[restarts.made % 2])
        if restarts.made == LEAST_RESTARTS:
            over.set()
    done, sent, size = (sum(column) for column in zip(*(answered.get() for _ in clients)))
    for it in clients:
        it.join()
    checks.expect("all requests were answered with what was sent", sent, done)
    checks.holds("there were as many as were asked for", sent >= requests, sent)
    return sent, size


def main():
    checks, given = Checks(), options(__doc__, requests=50_000)
    install("haproxy:haproxy")
    ports, (_, to) = [free_port() for _ in range(5)], target()
    served, checked = ports[1:3], ports[3:]
    rules = {name: (f"relay web tcp:127.0.0.1:{port} {to} never\n", its)
             for name, port, its in zip(SERVERS.values(), served, checked)}
    with tempfile.TemporaryDirectory(prefix="balancer-") as folder:
        balancer = Balancer(folder, ports[0], served, checked)
        try:
            restarts = Restarts(checks, balancer, rules)
            checks.holds("both relays are up", wait_until(lambda: balancer.is_up("one") and balancer.is_up("two"), SETTLE_SECONDS), "no")
            began = time.monotonic()
            sent, size = under_load(checks, restarts, ports[0], given.requests)
            restarts.end()
            checks.expect("the totals are the bytes of all requests", (size, size), (restarts.up, restarts.down))
            print(f"{sent} requests and {restarts.made} restarts in {time.monotonic() - began:.1f} s")
        finally:
            balancer.close()
    return checks.end()


if __name__ == "__main__":
    sys.exit(main())
