#!/usr/bin/env python3
"""The health of targets, by a configuration: which are down, when they are up again, who is told, and what checks cost.

    python3 tests/system/health_checks.py [STAGE]..

refuses  a target that refuses its checks is down after `fall` of them, and no client tries it; it is up after `rise` that pass.
unix     so is one at a path at which nobody listens.
frozen   a target that is stopped, so that its queue fills, is down, each check once its `timeout` is over; it is up once it goes on.
clients  connects of clients alone bring a target down, at once, late or refused; one that passes ends their run, and brings none up.
nobody   where all are down a client is closed at once, by a word of its own in the log and the metrics; where some were tried, by theirs.
backups  a backup has the clients while all others are down, and hands back.
alone    a rule of one target has its health too; one of weight 0 is checked, and gets nobody.
reloads  a reload keeps the state of a target that stays, also by new limits, and forgets it where checks go; it begins and ends checks.
refused  a reload that is refused changes no check.
counts   checks stand in no count, no listing and no total, and say nothing to a target.
ends     a stop doesn't wait for a check, and a relay that finishes checks no more.
shortage a relay without a descriptor left takes no target for down.
rest     64 targets that are checked take hardly any time of a processor.
"""
import contextlib
import os
import resource
import selectors
import signal
import socket
import subprocess
import sys
import threading
import time

sys.path.insert(1, f"{sys.path[0]}/..")
from lib.black_hole import BlackHole
from lib.log_text import read_log
from lib.metrics import scrape
from lib.relay import Relay
from lib.sockets import free_port, listener, some_address
from lib.stages import run_script
from lib.waiting import comes, processor_seconds, unhindered

SOON = 10
# Checks that come so often that a test needn't wait, and such that come once.
OFTEN, ONCE = 'every = "20ms"', 'every = "1h"'
REST_SECONDS = 5
# Of one processor: the unproved program has checks in place of proofs.
MOST_AT_REST = 0.05


class Target:
    """A target at a port of its own, which listens or doesn't. It says its name, sends back what comes, and counts who said something and
    who didn't."""

    def __init__(self, name, listens=True, path=None):
        self.name, self.path, self.probes, self.clients, self.sock = name, path, 0, 0, None
        self.port = None if path else free_port()
        self.address = f"unix:{path}" if path else f"tcp:127.0.0.1:{self.port}"
        if listens:
            self.open()

    def open(self):
        if self.path:
            self.sock = socket.socket(socket.AF_UNIX)
            self.sock.bind(self.path)
        else:
            self.sock = socket.socket()
            self.sock.setsockopt(socket.SOL_SOCKET, socket.SO_REUSEADDR, 1)
            self.sock.bind(("127.0.0.1", self.port))
        self.sock.listen(64)
        threading.Thread(target=self.serve, args=(self.sock,), daemon=True).start()

    def close(self):
        if self.sock:
            self.sock.shutdown(socket.SHUT_RDWR)
            self.sock.close()
            self.sock = None

    def serve(self, sock):
        with contextlib.suppress(OSError):
            while True:
                threading.Thread(target=self.echo, args=(sock.accept()[0],), daemon=True).start()

    def echo(self, conn):
        said = b""
        with conn, contextlib.suppress(OSError):
            conn.sendall(self.name.encode())
            while data := conn.recv(65_536):
                said += data
                conn.sendall(data)
        if said:
            self.clients += 1
        else:
            self.probes += 1


def health(*keys):
    return f"health = {{ {', '.join(keys)} }}\n"


def table(target):
    """A target as a configuration has it: by itself, its address, or one of these with more keys."""
    target, more = target if isinstance(target, tuple) else (target, "")
    return f'{{ at = "{getattr(target, "address", target)}"{more} }}'


def rule(name, port, targets, checks, balance="round-robin"):
    return (
        f'[[rule]]\nname = "{name}"\nlisten = ["tcp:127.0.0.1:{port}"]\nbalance = "{balance}"\n{checks}'
        f"target = [{', '.join(map(table, targets))}]\n"
    )


class Checked:
    """A relay of one rule with these targets, which are checked so."""

    def __init__(self, targets, checks, balance="round-robin", connect_timeout="5s", **more):
        self.port, self.metrics = free_port(), some_address()
        self.head = (
            f'admin = "{{folder}}/admin.sock"\nlog = "{{folder}}/log"\nmetrics = "{self.metrics}"\nloops = 2\n'
            f'connect_timeout = "{connect_timeout}"\n'
        )
        self.relay = Relay(self.text(targets, checks, balance), form="config", **more)

    def text(self, targets, checks, balance="round-robin"):
        return self.head + rule("web", self.port, targets, checks, balance)

    def reload(self, targets, checks, balance="round-robin"):
        self.relay.write(self.text(targets, checks, balance))
        return self.relay.ask("reload")

    def moment(self):
        """By a clock that stands while the relay or this script waits for a processor."""
        return unhindered(self.relay.process.pid, os.getpid())

    def client(self):
        sock = socket.create_connection(("127.0.0.1", self.port), SOON)
        sock.settimeout(SOON)
        return sock

    def got(self):
        """The target that a client got, by its name; `end` where it was closed. It says a byte, and goes."""
        with self.client() as client:
            try:
                name = client.recv(1).decode()
                if name:
                    client.sendall(b"x")
                    client.recv(1)
                return name or "end"
            except TimeoutError:
                return "late"
            except OSError:
                return "end"

    def names(self, count):
        return "".join(self.got() for _ in range(count))

    def lines(self):
        """The lines of its log; what is none of them is one whose end is the text."""
        with open(f"{self.relay.folder}/log", encoding="ascii") as file:
            lines, lost, others = read_log(file.read())
        return lines + [{"how": f"lost {lost}"}] * (lost > 0) + [{"how": it} for it in others]

    def changes(self, target=None):
        """How targets, or this one, have changed, in the order of the log."""
        said = [it for it in self.lines() if it["how"] in ("target down", "target up")]
        return [it["how"][7:] for it in said if target is None or it["target"] == getattr(target, "address", target)]

    def ends(self, count):
        """The target and the end of each client in its log, once there are so many."""
        def told():
            return [(it.get("target"), it["how"]) for it in self.lines() if it["how"] not in ("target down", "target up")]

        comes(lambda: len(told()) >= count)
        return told()

    def comes_to(self, target, *changes):
        """Whether the log comes to have these changes of a target, and no other."""
        comes(lambda: len(self.changes(target)) >= len(changes))
        return self.changes(target) == list(changes)

    def figure(self, start):
        """The figure of a metric that begins so."""
        _, text = scrape(self.metrics)
        return next((line.rpartition(" ")[2] for line in text.splitlines() if line.startswith(start)), None)

    def is_up(self, target):
        """What the metrics say of a target; none where they have no figure of it."""
        return self.figure(f'pollrelay_target_up{{rule="web",target="{target.address}"}}')

    def __enter__(self):
        return self

    def __exit__(self, *_):
        self.relay.close()


def refuses(checks, folder):
    down, up = Target("A", listens=False), Target("B")
    with Checked((down, up), health(OFTEN, "fall = 3", "rise = 4"), "first") as it:
        checks.holds("refuses: it is down", it.comes_to(down, "down"), it.lines())
        line = next(line for line in it.lines() if line["how"] == "target down")
        told = {"rule": "web", "client_id": "-", "target_id": "-", "client": f"tcp:127.0.0.1:{it.port}", "target": down.address, "up": "0"}
        checks.expect("refuses: what is told", told, {key: line[key] for key in told})
        began = time.monotonic()
        down.open()
        checks.holds("refuses: it is up", it.comes_to(down, "down", "up"), it.changes())
        checks.holds("refuses: after as many as pass", down.probes >= 4 or comes(lambda: down.probes >= 4), down.probes)
        checks.holds("refuses: not before", time.monotonic() - began > 0.04, "at once")
        checks.expect("refuses: clients come back to it", "AAAA", it.names(4))
        checks.expect("refuses: the metrics of one that is up", "1", it.is_up(down))
        down.close()
        checks.holds("refuses: it is down again", it.comes_to(down, "down", "up", "down"), it.changes())
        checks.expect("refuses: the metrics", ["0", "1"], [it.is_up(down), it.is_up(up)])
        checks.expect("refuses: it is told once", ["down", "up", "down"], it.changes())
        checks.expect("refuses: the other never changed", [], it.changes(up))
    # Behind its first check it listens, and isn't checked any more: who tries it would have it.
    down, up = Target("A", listens=False), Target("B")
    with Checked((down, up), health(ONCE, "fall = 1"), "first") as it:
        checks.holds("refuses: by its first check", it.comes_to(down, "down"), it.lines())
        down.open()
        checks.expect("refuses: no client tries it", "B" * 20, it.names(20))
        checks.expect("refuses: nobody came to it", (0, 0), (down.clients, down.probes))
    down.close()
    # By two failures of three it isn't.
    down = Target("A", listens=False)
    with Checked((down, up), health('every = "400ms"', "fall = 3"), "first") as it:
        time.sleep(0.6)
        down.open()
        time.sleep(0.6)
        checks.expect("refuses: two of three", [], it.changes())
    down.close()


def unix(checks, folder):
    target, up = Target("A", listens=False, path=f"{folder}/a"), Target("B")
    with Checked((target, up), health(OFTEN, "fall = 2", "rise = 2"), "first") as it:
        checks.holds("unix: it is down", it.comes_to(target, "down"), it.lines())
        target.open()
        checks.holds("unix: it is up", it.comes_to(target, "down", "up"), it.lines())
        checks.expect("unix: clients come to it", "AA", it.names(2))
    target.close()


FROZEN = """
import socket, sys
sock = socket.socket()
sock.bind(("127.0.0.1", 0))
sock.listen(0)
print(sock.getsockname()[1], flush=True)
while True:
    conn = sock.accept()[0]
    try:
        conn.sendall(b"A")
        conn.recv(1)
    except OSError:
        pass
    conn.close()
"""


def frozen(checks, folder):
    process = subprocess.Popen([sys.executable, "-c", FROZEN], stdout=subprocess.PIPE)
    try:
        address, up = f"tcp:127.0.0.1:{int(process.stdout.readline())}", Target("B")
        with Checked((address, up), health(OFTEN, 'timeout = "100ms"', "fall = 2", "rise = 2"), "first") as it:
            checks.expect("frozen: before", "A", it.got())
            process.send_signal(signal.SIGSTOP)
            checks.holds("frozen: it is down", it.comes_to(address, "down"), it.lines())
            began = it.moment()
            checks.expect("frozen: clients go elsewhere", "B" * 4, it.names(4))
            checks.holds("frozen: at once, beside waits for a processor", it.moment() - began < 2, it.moment() - began)
            process.send_signal(signal.SIGCONT)
            checks.holds("frozen: it is up", it.comes_to(address, "down", "up"), it.lines())
            checks.holds("frozen: clients come back", comes(lambda: it.got() == "A"), "no client")
    finally:
        process.kill()
        process.wait()
        process.stdout.close()
    with BlackHole() as hole, Checked((hole, up), health(OFTEN, 'timeout = "1h"', "fall = 1"), "first", "2s") as it:
        time.sleep(0.3)
        checks.expect("frozen: not before its timeout", [], it.changes())


def clients(checks, folder):
    target, up = Target("A"), Target("B")
    with Checked((target, up), health(ONCE, "fall = 3", "rise = 2"), "first") as it:
        checks.expect("clients: before", "AA", it.names(2))
        target.close()
        checks.expect("clients: two fail", "BB", it.names(2))
        target.open()
        checks.expect("clients: one passes", "A", it.got())
        target.close()
        checks.expect("clients: two more fail", "BB", it.names(2))
        checks.expect("clients: it is up still", [], it.changes())
        checks.expect("clients: one more", "B", it.got())
        checks.holds("clients: it is down", it.comes_to(target, "down"), it.lines())
        target.open()
        was = target.clients, target.probes
        checks.expect("clients: nobody tries it", "B" * 20, it.names(20))
        checks.expect("clients: so nobody comes to it", was, (target.clients, target.probes))
        checks.expect("clients: and none brings it up", ["down"], it.changes())
    target.close()
    # At once, as at a path where nobody listens, and late. (Its first check is late only in an hour.)
    with Checked((f"unix:{folder}/none", up), health(ONCE, "fall = 3"), "first") as it:
        it.names(3)
        checks.holds("clients: at once", it.comes_to(f"unix:{folder}/none", "down"), it.lines())
    with BlackHole() as hole, Checked((hole, up), health(ONCE, 'timeout = "1h"', "fall = 2"), "first", "600ms") as it:
        checks.expect("clients: late ones go on", "BB", it.names(2))
        checks.holds("clients: late", it.comes_to(hole.address, "down"), it.lines())
        began = it.moment()
        checks.expect("clients: those behind them", "BBB", it.names(3))
        checks.holds("clients: don't wait, beside waits for a processor", it.moment() - began < 0.3 * 3, it.moment() - began)
    # The last target is late when the time of all is over.
    with BlackHole() as hole, Checked((hole,), health(ONCE, 'timeout = "1h"', "fall = 1"), "first", "300ms") as it:
        checks.expect("clients: the last", "end", it.got())
        checks.holds("clients: the last is down", it.comes_to(hole.address, "down"), it.lines())


def nobody(checks, folder):
    targets = [some_address() for _ in range(3)]
    with Checked(targets, health(ONCE, "fall = 1")) as it:
        for target in targets:
            checks.holds("nobody: all are down", it.comes_to(target, "down"), it.lines())
        checks.expect("nobody: a client is closed", ["end"] * 5, [it.got() for _ in range(5)])
        checks.expect("nobody: the log", [(targets[0], "no target down")] * 5, it.ends(5))
        checks.expect("nobody: the metric", "5", it.figure('pollrelay_rule_no_target_total{rule="web",cause="down"}'))
        checks.expect("nobody: it is refused", "5", it.figure('pollrelay_rule_refused_total{rule="web",cause="no_target"}'))
        checks.expect("nobody: nothing is left", 1, len(it.relay.ids()))
    # Of two that refuse one isn't down yet: it is tried, and tells why.
    with Checked(targets[:2], health(ONCE, "fall = 2"), "first") as it:
        checks.expect("nobody: both are tried", "end", it.got())
        checks.expect("nobody: by the last", [(targets[1], "no target refused")], it.ends(1))


def backups(checks, folder):
    first, second, backup = Target("A"), Target("B"), Target("C")
    with Checked((first, second, (backup, ", backup = true")), health(OFTEN, "fall = 2", "rise = 2")) as it:
        checks.expect("backups: before", {"A", "B"}, set(it.names(8)))
        first.close()
        checks.holds("backups: one is down", it.comes_to(first, "down"), it.lines())
        checks.expect("backups: the other has all", "B" * 8, it.names(8))
        second.close()
        checks.holds("backups: both are down", it.comes_to(second, "down"), it.lines())
        checks.expect("backups: it takes over", "C" * 8, it.names(8))
        first.open()
        checks.holds("backups: one is up", it.comes_to(first, "down", "up"), it.lines())
        checks.expect("backups: it hands back", "A" * 8, it.names(8))
    for it in (first, second, backup):
        it.close()


def alone(checks, folder):
    target = Target("A")
    with Checked((target,), health(OFTEN, "fall = 2", "rise = 2")) as it:
        checks.expect("alone: while it is up", "AA", it.names(2))
        target.close()
        checks.holds("alone: it is down", it.comes_to(target, "down"), it.lines())
        checks.expect("alone: nobody is served", "end", it.got())
        target.open()
        checks.holds("alone: it is up", it.comes_to(target, "down", "up"), it.lines())
        checks.expect("alone: clients are served again", "AA", it.names(2))
    idle = Target("B")
    with Checked((target, (idle, ", weight = 0")), health(OFTEN, "fall = 2", "rise = 2")) as it:
        checks.holds("alone: of weight 0 it is checked", comes(lambda: idle.probes >= 3), idle.probes)
        checks.expect("alone: and gets nobody", "A" * 6, it.names(6))
        idle.close()
        checks.holds("alone: it is told as another", it.comes_to(idle, "down"), it.lines())
    target.close()


def reloads(checks, folder):
    target, second, third = Target("A", listens=False), Target("B"), Target("C")
    once = health(ONCE, "fall = 1", "rise = 2")
    with Checked((target, second), once, "first") as it:
        checks.holds("reloads: it is down", it.comes_to(target, "down"), it.lines())
        target.open()
        checks.holds("reloads: the other is checked once", comes(lambda: second.probes == 1), second.probes)
        checks.expect("reloads: a new list", "rules 1", it.reload((third, target, second), once, "first"))
        checks.expect("reloads: it has the clients", "CC", it.names(2))
        checks.expect("reloads: the new one is checked", True, comes(lambda: third.probes == 1))
        checks.expect("reloads: those that stay aren't checked anew", (0, 1), (target.probes, second.probes))
        it.reload((target, second), once, "first")
        checks.expect("reloads: it is down still", "BBB", it.names(3))
        checks.expect("reloads: with other limits", "rules 1", it.reload((target, second), health(ONCE, "fall = 4", "rise = 2"), "first"))
        checks.holds("reloads: it is checked once more", comes(lambda: target.probes == 1), target.probes)
        checks.expect("reloads: which doesn't bring it up", "BBB", it.names(3))
        it.reload((target, second), health(OFTEN, "fall = 4", "rise = 2"), "first")
        checks.holds("reloads: more of them do", it.comes_to(target, "down", "up"), it.lines())
        checks.expect("reloads: and clients come", "AA", it.names(2))
        target.close()
        checks.holds("reloads: down by four", it.comes_to(target, "down", "up", "down"), it.lines())
        checks.expect("reloads: without checks", "rules 1", it.reload((target, second), "", "first"))
        # (before the reload two more checks could find it up)
        target.open()
        checks.expect("reloads: all are up", "AA", it.names(2))
        # (one that was made before the reload may be counted late)
        probes = target.probes
        time.sleep(0.3)
        checks.holds("reloads: no check is made", target.probes <= probes + 1, target.probes - probes)
        target.close()
        checks.expect("reloads: a target that refuses is tried each time", "BBB", it.names(3))
        checks.expect("reloads: nothing is told", ["down", "up", "down"], it.changes(target))
        checks.expect("reloads: nor have the metrics a figure", None, it.is_up(target))
        it.reload((second,), once)
        it.reload((target, second), once, "first")
        checks.holds("reloads: checks are back", it.comes_to(target, "down", "up", "down", "down"), it.lines())
        it.reload((second,), once)
        target.open()
        it.reload((target, second), once, "first")
        checks.expect("reloads: one that was gone is up", "AA", it.names(2))
    target.close()


def refused(checks, folder):
    target, up = Target("A", listens=False), Target("B")
    often = health(OFTEN, "fall = 2", "rise = 2")
    with Checked((target, up), often, "first") as it:
        checks.holds("refused: it is down", it.comes_to(target, "down"), it.lines())
        for faulty in ("health = { every = 2 }\n", often + 'resolve = "5"\n'):
            reply = it.reload((target, up), faulty, "first")
            checks.holds("refused: the reload", reply.startswith('bad config: rule "web": '), reply)
        taken, address = listener()
        it.relay.write(it.text((up,), "", "first") + rule("other", address.rpartition(":")[2], (up,), ""))
        checks.expect("refused: a listener that is taken", "cannot listen other", it.relay.ask("reload"))
        taken.close()
        checks.expect("refused: it is down still", "BB", it.names(2))
        target.open()
        checks.holds("refused: it is checked still", it.comes_to(target, "down", "up"), it.lines())
    target.close()


def counts(checks, folder):
    targets = [Target("A"), Target("B")]
    with Checked(targets, health('every = "5ms"')) as it:
        checks.holds("counts: checks are made", comes(lambda: all(target.probes > 20 for target in targets)), [it.probes for it in targets])
        checks.expect("counts: no id", 1, len(it.relay.ids()))
        checks.expect("counts: nothing is shown beside the listener", 1, it.relay.ask("show").count("\nshow ") + it.relay.ask("show").startswith("show "))
        checks.expect("counts: no byte", "totals up 0 down 0", it.relay.ask("totals"))
        for name in ("connections{", "accepted_total{", "bytes_total{", "ends_total{", "refused_total{", "no_target_total{"):
            checks.expect(f"counts: {name}", "0", it.figure(f"pollrelay_rule_{name}"))
        checks.expect("counts: no line", [], it.lines())
        checks.expect("counts: the end", 0, it.relay.stop()[0])
        checks.expect("counts: no client", [0, 0], [target.clients for target in targets])
    for target in targets:
        target.close()


def ends(checks, folder):
    with BlackHole() as hole, Checked((hole,), health(ONCE, 'timeout = "1h"')) as it:
        comes(lambda: it.relay.ask("list"))
        began = time.monotonic()
        checks.expect("ends: a stop", 0, it.relay.stop()[0])
        checks.holds("ends: it doesn't wait for a check", time.monotonic() - began < SOON, time.monotonic() - began)
    target = Target("A")
    with Checked((target,), health('every = "10ms"')) as it:
        checks.holds("ends: it is checked", comes(lambda: target.probes > 3), target.probes)
        client = it.client()
        checks.expect("ends: a client", b"A", client.recv(1))
        checks.expect("ends: a finish", "ok", it.relay.ask("finish 60000"))
        probes = target.probes
        time.sleep(0.3)
        checks.holds("ends: it is checked no more", target.probes <= probes + 1, target.probes - probes)
        client.sendall(b"x")
        checks.expect("ends: the client goes on", b"x", client.recv(1))
        client.close()
        checks.holds("ends: it ends", it.relay.ends_within(SOON), "it stands")
    target.close()


def settled(target):
    """How many checks a target has taken, once those that were made before this moment have come to it, late as it may be."""
    for _ in range(50):
        known = target.probes
        time.sleep(0.2)
        if target.probes == known:
            break
    return known


def shortage(checks, folder):
    target = Target("A")
    with Checked((target,), health(OFTEN, "fall = 1", "rise = 1")) as it:
        checks.holds("shortage: it is checked", comes(lambda: target.probes > 3), target.probes)
        pid = it.relay.process.pid
        most = resource.prlimit(pid, resource.RLIMIT_NOFILE)
        resource.prlimit(pid, resource.RLIMIT_NOFILE, (1, most[1]))
        probes = settled(target)
        time.sleep(0.5)
        checks.holds("shortage: no check can be made", target.probes <= probes + 1, target.probes - probes)
        resource.prlimit(pid, resource.RLIMIT_NOFILE, most)
        checks.holds("shortage: checks go on", comes(lambda: target.probes > probes + 3), target.probes - probes)
        checks.expect("shortage: it never was down", [], it.changes())
        checks.expect("shortage: clients are served", "A", it.got())
    target.close()


class Crowd:
    """Many listeners, and one thread that takes who connects and closes it."""

    def __init__(self, count):
        self.taken, self.selector = 0, selectors.DefaultSelector()
        self.socks, self.addresses = zip(*(listener() for _ in range(count)))
        for sock in self.socks:
            self.selector.register(sock, selectors.EVENT_READ)
        threading.Thread(target=self.serve, daemon=True).start()

    def serve(self):
        with contextlib.suppress(OSError, ValueError, RuntimeError):
            while True:
                for key, _ in self.selector.select():
                    key.fileobj.accept()[0].close()
                    self.taken += 1


def rest(checks, folder):
    crowd = Crowd(64)
    with Checked(crowd.addresses, health('every = "2s"')) as it:
        checks.holds("rest: all are checked", comes(lambda: crowd.taken >= 64), crowd.taken)
        pid = it.relay.process.pid
        before, taken = processor_seconds(pid), crowd.taken
        time.sleep(REST_SECONDS)
        used = processor_seconds(pid) - before
        print(f"rest: {used / REST_SECONDS:.2%} of a processor, {crowd.taken - taken} checks", flush=True)
        checks.holds("rest: checks are made", crowd.taken - taken >= 64, crowd.taken - taken)
        checks.holds("rest: time of a processor", used / REST_SECONDS < MOST_AT_REST, f"{used:.2f} s in {REST_SECONDS} s")
        checks.expect("rest: all are up", [], it.changes())


STAGES = {
    it.__name__: it for it in (
        refuses, unix, frozen, clients, nobody, backups, alone, reloads, refused, counts, ends, shortage, rest,
    )
}


if __name__ == "__main__":
    sys.exit(run_script(__doc__, STAGES))
