#!/usr/bin/env python3
"""What a relay loses as it is started, told by signals, short of descriptors or beside a dead target, and whether it comes back.

    python3 tests/system/life_cycle.py [--seconds 60] [--all] [STAGE]..      --all names the checks that passed, too

    reloads            HUPs to pollrelay-run under 200 requests a second: none fails
    ends               TERM under the same: connections end by themselves, nobody else is let in, totals are exact
    second_end         a second TERM stops at once
    early_end          TERM before the relay listens
    dead_rule          a rule whose target is a black hole has 20 clients a second; the rule beside it serves 45 clients of 45
    killed             the paths that a killed relay left are no hindrance to the next
    activation         restarts of a relay whose sockets are held for it, under 400 requests a second: none is refused
    unused             a relay says which sockets it was started with that it doesn't use, and serves by the others
    faults             accepting faults while there is no descriptor, and goes on once there are
    many_faults        so it does after more than 1,024 faults in a row
    busy_sessions      `ctl stop` is answered behind 300 silent sessions and 100 that don't read
    trickled_metrics   /healthz is answered behind 60 clients that send a byte now and then

`dead_rule` is tried with HAProxy too, where that is installed. Takes gcc.
"""
import contextlib
import os
import resource
import signal
import socket
import subprocess
import sys
import threading
import time

sys.path.insert(1, f"{sys.path[0]}/..")
from lib.activation import started_with
from lib.c_code import library
from lib.checks import Checks
from lib.echoes import BLOCK, comes_back, ended, flowing, target
from lib.metrics import scrape
from lib.places import LIB, PROGRAM, ROOT
from lib.relay import Relay, Session, allow_descriptors, totals_of
from lib.requests import ANSWERED, REFUSED, RESET, Requests, counts
from lib.signals import hear_all
from lib.sockets import BlackHole, connect, is_served, some_address
from lib.stages import options, run_stages
from lib.talk import heard, seconds_until_end
from lib.waiting import unhindered, wait_until

WRAPPER = f"{ROOT}/packaging/pollrelay-run"
RATE = 200
FLOWS = 8
SETTLE_SECONDS = 10
# Who waits for a session that is silent waits for its minute, in seconds. A machine that is full of other work takes some seconds too.
HALF_A_MINUTE = 30
RULE = "relay {} {} {} never\n"
# Fewer than are served at once: one more than those evicts whoever came first.
TRICKLING = 60
# As long as a second is on a clock that is 200 times as fast.
WAKE_SECONDS = 0.005
GIVEN = options(
    __doc__, ("reloads", "ends", "second_end", "early_end", "dead_rule", "killed", "activation", "unused", "faults",
              "many_faults", "busy_sessions", "trickled_metrics"), seconds=60, all=False,
)

hear_all()


def wrapped(rules, *words):
    """A relay that pollrelay-run has started."""
    return Relay(rules, wrapper=(WRAPPER, *words))


def status_and_totals(relay):
    """How a relay ended that was told to, and what it printed last."""
    last, _ = relay.process.communicate(timeout=60)
    return relay.process.returncode, totals_of(last.decode())


def reloads(checks, _):
    """HUPs under load: each has the rules read, and no request fails."""
    (_, to), address, other = target(), some_address(), some_address()
    rules = RULE.format("one", address, to)
    with wrapped(rules) as relay:
        load, told, end = Requests(address, RATE), 0, time.monotonic() + GIVEN.seconds
        while time.monotonic() < end:
            told += 1
            with open(f"{relay.folder}/new", "w", encoding="ascii") as file:
                file.write(rules + RULE.format("two", other, to) * (told % 2))
            os.replace(f"{relay.folder}/new", f"{relay.folder}/rules")
            relay.process.send_signal(signal.SIGHUP)
            taken = wait_until(lambda: is_served(other) == bool(told % 2), SETTLE_SECONDS)
            checks.holds("reloads: the rules are taken", taken, f"not at HUP {told}")
            time.sleep(0.1)
        outcomes = counts(load.end())
        print(f"reloads: {told} HUPs, {outcomes}")
        checks.expect("reloads: all requests are answered", [ANSWERED], list(outcomes))
        relay.process.send_signal(signal.SIGTERM)
        checks.expect("reloads: status and totals", (0, (load.bytes, load.bytes)), status_and_totals(relay))


def ends(checks, _):
    """TERM under load: who was let in is served to his own end, nobody is let in afterwards, and the totals are exact."""
    (_, to), address = target(), some_address()
    with wrapped(RULE.format("one", address, to)) as relay:
        until = threading.Event()
        flows, load = flowing(address, FLOWS, until), Requests(address, RATE)
        time.sleep(GIVEN.seconds)
        relay.process.send_signal(signal.SIGTERM)
        checks.holds("ends: nobody more is let in", wait_until(lambda: not is_served(address), SETTLE_SECONDS), "it listens")
        closed, before = time.monotonic(), [it.blocks for it in flows]
        passed = wait_until(lambda: all(it.blocks > old + 10 for it, old in zip(flows, before)), SETTLE_SECONDS)
        checks.holds("ends: connections go on", passed, "a connection stands still")
        outcomes = load.end()
        print(f"ends: {counts(outcomes)}")
        checks.expect("ends: connections are whole", [], ended(flows, until))
        early = [what for at, what in outcomes if at < closed - 1]
        checks.expect("ends: all requests before are answered", [ANSWERED], sorted(set(early)))
        others = [what for _, what in outcomes if what not in (ANSWERED, REFUSED)]
        # (whoever the system has let into the queue at the very moment at which it is closed is reset)
        checks.holds("ends: no other is cut", others in ([], [RESET]), others)
        sum_of_all = load.bytes + BLOCK * sum(it.blocks for it in flows)
        checks.expect("ends: status and totals", (0, (sum_of_all, sum_of_all)), status_and_totals(relay))
        checks.expect("ends: no path is left", [], relay.sockets())


def second_end(checks, _):
    """A connection that stays keeps the relay after a TERM, and not after the second, nor longer than its time."""
    (_, to), address = target(), some_address()
    for name, words, again in (("a second TERM", (), True), ("its time", ("--finish", "500"), False)):
        with wrapped(RULE.format("one", address, to), *words) as relay, connect(address) as sock:
            sock.sendall(b"hello")
            checks.expect(f"second_end, {name}: it passes", b"hello", sock.recv(5))
            began = time.monotonic()
            relay.process.send_signal(signal.SIGTERM)
            wait_until(lambda at=address: not is_served(at), SETTLE_SECONDS)
            if again:
                time.sleep(0.5)
                checks.expect(f"second_end, {name}: it stays", None, relay.process.poll())
                relay.process.send_signal(signal.SIGTERM)
            checks.expect(f"second_end, {name}: status and totals", (0, (5, 5)), status_and_totals(relay))
            took = time.monotonic() - began
            checks.holds(f"second_end, {name}: in time", 0.4 < took < SETTLE_SECONDS, f"{took:.2f} s")


def early_end(checks, folder):
    """TERM to a wrapper whose relay may not listen yet."""
    for pause in (0, 0.003, 0.01, 0.03, 0.1):
        words = [WRAPPER, "--rules", f"{folder}/rules", "--admin", f"{folder}/admin"]
        with open(f"{folder}/rules", "w", encoding="ascii") as file:
            file.write(RULE.format("one", some_address(), some_address()))
        process = subprocess.Popen(words, env={**os.environ, "POLLRELAY": PROGRAM}, stdout=subprocess.PIPE, stderr=subprocess.DEVNULL)
        # (before its first line has set the traps, a TERM ends the shell itself, and no relay was started)
        wait_until(lambda pid=process.pid: has_trap(pid, signal.SIGTERM), SETTLE_SECONDS)
        time.sleep(pause)
        process.send_signal(signal.SIGTERM)
        said, _ = process.communicate(timeout=60)
        checks.expect(f"early_end after {pause} s: status", 0, process.returncode)
        checks.expect(f"early_end after {pause} s: its lines", b"listening 1\nup 0 down 0\n", said)


def has_trap(pid, number):
    with open(f"/proc/{pid}/status", encoding="ascii", errors="replace") as file:
        caught = next(line for line in file if line.startswith("SigCgt:"))
    return int(caught.split()[1], 16) & 1 << number - 1


class DeadClients(threading.Thread):
    """Clients of a rule whose target is dead, 20 a second. It counts those that were still kept after `most` seconds."""

    def __init__(self, address, most):
        super().__init__(daemon=True)
        self.address, self.most, self.until = address, most, threading.Event()
        self.made = self.kept = 0

    def run(self):
        waiting = []
        while not self.until.wait(0.05):
            try:
                waiting.append((time.monotonic(), connect(self.address, 5)))
                self.made += 1
            except OSError:
                pass
            while waiting and time.monotonic() - waiting[0][0] > self.most:
                _, sock = waiting.pop(0)
                self.kept += seconds_until_end(sock, 0.001) is None
                sock.close()
        for _, sock in waiting:
            sock.close()


def served_beside(healthy, dead, most):
    """How many of the clients of a healthy rule are served in time, one each two seconds, beside those of a dead one."""
    clients = DeadClients(dead, most)
    clients.start()
    tries = max(GIVEN.seconds * 3 // 4, 5)
    served = 0
    for _ in range(tries):
        began = time.monotonic()
        served += comes_back(healthy)
        time.sleep(max(0, began + 2 - time.monotonic()))
    clients.until.set()
    clients.join(30)
    return served, tries, clients


def dead_rule(checks, folder):
    """A dead target harms its own rule alone: its connections are given up after five seconds."""
    (_, to), hole = target(), BlackHole()
    dead, healthy = some_address(), some_address()
    with Relay(RULE.format("dead", dead, hole.address) + RULE.format("healthy", healthy, to)) as relay:
        served, tries, clients = served_beside(healthy, dead, 7)
        print(f"dead_rule: {served} of {tries} beside {clients.made} clients of a dead target")
        checks.expect("dead_rule: the healthy rule's clients are served", tries, served)
        checks.expect("dead_rule: no client of the dead one is kept", 0, clients.kept)
        checks.expect("dead_rule: status", 0, relay.stop()[0])
    balanced = beside_haproxy(folder, dead, healthy, hole.address, to)
    if balanced:
        with_it, tries, _ = balanced
        print(f"dead_rule, HAProxy: {with_it} of {tries}")
    hole.close()


def beside_haproxy(folder, dead, healthy, hole, to):
    """The same with HAProxy in place of the relay, where it is installed."""
    os.environ["PATH"] += ":/usr/sbin"
    text = "global\n    maxconn 512\ndefaults\n    mode tcp\n    timeout connect 5s\n    timeout client 1h\n    timeout server 1h\n    retries 0\n"
    for name, at, behind in (("dead", dead, hole), ("healthy", healthy, to)):
        text += f"listen {name}\n    bind {at.removeprefix('tcp:')}\n    server one {behind.removeprefix('tcp:')}\n"
    with open(f"{folder}/haproxy.cfg", "w", encoding="ascii") as file:
        file.write(text)
    try:
        process = subprocess.Popen(["haproxy", "-db", "-f", f"{folder}/haproxy.cfg"], stderr=subprocess.DEVNULL)
    except FileNotFoundError:
        return None
    try:
        wait_until(lambda: is_served(healthy), SETTLE_SECONDS)
        return served_beside(healthy, dead, 7)
    finally:
        process.kill()
        process.wait()


def killed(checks, _):
    """A relay that was killed has left its paths, and with --replace-stale the next one takes them."""
    (_, to) = target()
    with Relay(RULE.format("one", "unix:{folder}/one.sock", to)) as relay:
        relay.process.kill()
        relay.process.wait()
        checks.expect("killed: what it left", ["admin.sock", "one.sock"], relay.sockets())
        words = [WRAPPER, "--replace-stale", "--rules", f"{relay.folder}/rules", "--admin", relay.admin]
        process = subprocess.Popen(words, env={**os.environ, "POLLRELAY": PROGRAM}, stdout=subprocess.PIPE, stderr=subprocess.DEVNULL)
        checks.expect("killed: the next one", b"listening 1\n", process.stdout.readline())
        checks.holds("killed: it serves", comes_back(f"unix:{relay.folder}/one.sock"), "nothing came back")
        process.send_signal(signal.SIGTERM)
        last, _ = process.communicate(timeout=60)
        checks.expect("killed: its end", (0, b"up 5 down 5\n", []), (process.returncode, last, relay.sockets()))


class Activated:
    """A relay by these rules in a folder, started by pollrelay-run with these sockets; what it prints and says."""

    def __init__(self, folder, rules, sockets):
        with open(f"{folder}/rules", "w", encoding="ascii") as file:
            file.write(rules)
        before, given = started_with(sockets)
        words = [*before, WRAPPER, "--rules", f"{folder}/rules", "--admin", f"{folder}/admin.sock"]
        self.errors = open(f"{folder}/errors", "w+", encoding="ascii")
        self.process = subprocess.Popen(
            words, env={**os.environ, "POLLRELAY": PROGRAM}, stdout=subprocess.PIPE, stderr=self.errors, **given,
        )
        self.said = self.process.stdout.readline()

    def end(self):
        """Its status and totals after a TERM, and what it said to standard error."""
        self.process.send_signal(signal.SIGTERM)
        told = status_and_totals(self)
        self.errors.seek(0)
        with self.errors:
            return told, self.errors.read()


def held_at(*paths):
    """Listening sockets at a port and at these paths, with the addresses of the rules."""
    held = [socket.create_server(("127.0.0.1", 0), backlog=1000)]
    for path in paths:
        held.append(socket.socket(socket.AF_UNIX))
        held[-1].bind(path)
        held[-1].listen(1000)
    return held, [f"tcp:127.0.0.1:{held[0].getsockname()[1]}", *(f"unix:{it}" for it in paths)]


def activation(checks, folder):
    """Restarts under load of a relay whose sockets are held for it: nobody is refused or cut, and the paths stay."""
    (_, to) = target()
    held, (port, path, _) = held_at(f"{folder}/one.sock", f"{folder}/admin.sock")
    rules = RULE.format("one", port, to) + RULE.format("two", path, to)
    loads = [Requests(it, RATE) for it in (port, path)]
    up, restarts, end = 0, 0, time.monotonic() + GIVEN.seconds
    while restarts < 3 or time.monotonic() < end:
        relay = Activated(folder, rules, held)
        checks.expect("activation: it listens", b"listening 2\n", relay.said)
        time.sleep(1)
        (status, totals), errors = relay.end()
        restarts += 1
        up += totals[0]
        checks.expect("activation: status and errors", (0, "ok\n"), (status, errors))
    last = Activated(folder, rules, held)
    outcomes = [counts(it.end()) for it in loads]
    print(f"activation: {restarts} restarts, {outcomes}")
    checks.expect("activation: all requests are answered", [[ANSWERED]] * 2, [list(it) for it in outcomes])
    (status, totals), _ = last.end()
    checks.expect("activation: totals", (0, sum(it.bytes for it in loads)), (status, up + totals[0]))
    left = sorted(it for it in os.listdir(folder) if it.endswith(".sock"))
    checks.expect("activation: the paths stay", ["admin.sock", "one.sock"], left)
    for it in held:
        it.close()


def unused(checks, folder):
    """Sockets that no rule has, and what is no listener, are told and hinder nobody."""
    (_, to) = target()
    held, (port, _, path) = held_at(f"{folder}/admin.sock", f"{folder}/other.sock")
    others = [socket.socket(socket.AF_INET, socket.SOCK_DGRAM), socket.socket(socket.AF_INET6), socket.socket(socket.AF_UNIX)]
    others[0].bind(("127.0.0.1", 0))
    with open("/dev/null", "rb") as file:
        relay = Activated(folder, RULE.format("one", port, to), [others[0], held[0], file, *others[1:], *held[1:]])
    checks.expect("unused: it listens", b"listening 1\n", relay.said)
    checks.holds("unused: the rule serves", comes_back(port), "nothing came back")
    told, errors = relay.end()
    checks.expect("unused: status and totals", (0, (5, 5)), told)
    lines = [f"{it}: {why}" for it, why in ((3, "no listener"), (5, "no listener"), (6, "no address of a rule"), (7, "no address of a rule"))]
    wanted = "".join(f"unused socket {it}\n" for it in (*lines, path)) + "ok\n"
    checks.expect("unused: what it says", wanted, errors)
    for it in held + others:
        it.close()


def without_descriptors(checks, name, folder, fast, wakes):
    """A client waits while the relay has no descriptor, and is served within two seconds of there being some.

    Its clock is fast, but its poller waits as long as ever: so it is woken by lines of a session, each of which makes a try due."""
    shim = library(f"{LIB}/fast_clock.c", f"{folder}/fast_clock.so")
    (_, to), address = target(), some_address()
    with Relay(RULE.format("one", address, to), env={"LD_PRELOAD": shim, "FAST": str(fast)}) as relay:
        checks.holds(f"{name}: it serves", comes_back(address), "nothing came back")
        waiting = while_short(relay, address, wakes)
        pids = relay.process.pid, os.getpid()
        began = unhindered(*pids)
        checks.expect(f"{name}: who has waited is served", b"hello", heard(waiting, SETTLE_SECONDS))
        took = unhindered(*pids) - began
        checks.holds(f"{name}: within 2 s, beside waits for a processor", took < 2, f"{took:.2f} s")
        waiting.close()
        checks.holds(f"{name}: others too", comes_back(address), "nothing came back")
        checks.expect(f"{name}: status and totals", (0, (15, 15)), relay.stop()[:2])


def while_short(relay, address, wakes):
    """Takes all descriptors from a relay while it is woken so many times, and gives a client that came meanwhile."""
    with Session(relay.admin) as session:
        # (so that the session has been let in)
        session.ask("totals")
        before = resource.prlimit(relay.process.pid, resource.RLIMIT_NOFILE)
        resource.prlimit(relay.process.pid, resource.RLIMIT_NOFILE, (3, before[1]))
        waiting = connect(address)
        waiting.sendall(b"hello")
        for _ in range(wakes):
            session.ask("totals")
            time.sleep(WAKE_SECONDS)
        resource.prlimit(relay.process.pid, resource.RLIMIT_NOFILE, before)
    return waiting


def faults(checks, folder):
    without_descriptors(checks, "faults", folder, 1, 200)


def many_faults(checks, folder):
    without_descriptors(checks, "many_faults", folder, 200, 2_000)


def busy_sessions(checks, _):
    """Sessions that are silent or read nothing keep none waiting."""
    with Relay("") as relay:
        held = [connect(f"unix:{relay.admin}") for _ in range(400)]
        for sock in held[300:]:
            sock.setblocking(False)
            try:
                sock.sendall(b"list\n" * 100_000)
            except OSError:
                pass
        began = time.monotonic()
        ran = subprocess.run([PROGRAM, "ctl", "--admin", relay.admin, "stop"], capture_output=True, timeout=60)
        took = time.monotonic() - began
        checks.expect("busy_sessions: stop", (0, b"ok\n"), (ran.returncode, ran.stdout))
        checks.holds("busy_sessions: it waits for none", took < HALF_A_MINUTE, f"{took:.2f} s")
        for sock in held:
            sock.close()


def trickle(address, held, until):
    """Sends a byte by each socket now and then, and puts a new one in the place of one that was ended."""
    while not until.wait(0.2):
        for at, sock in enumerate(held):
            try:
                sock.send(b"G")
            except OSError:
                sock.close()
                with contextlib.suppress(OSError):
                    held[at] = connect(address)


def trickled_metrics(checks, _):
    """Clients of the metrics that send a byte now and then keep none waiting: so many are there all the time, so that who waits for them waits on."""
    address, until, answered = some_address(), threading.Event(), 0
    with Relay("", options=("--metrics", address)):
        held = [connect(address) for _ in range(TRICKLING)]
        trickling = threading.Thread(target=trickle, args=(address, held, until), daemon=True)
        trickling.start()
        for _ in range(10):
            with contextlib.suppress(OSError, ValueError):
                answered += scrape(address, "/healthz", HALF_A_MINUTE) == (200, "ok\n")
        checks.expect("trickled_metrics: /healthz is answered", 10, answered)
        until.set()
        trickling.join()
        for sock in held:
            sock.close()


STAGES = {it.__name__: it for it in (
    reloads, ends, second_end, early_end, dead_rule, killed, activation, unused, faults, many_faults, busy_sessions, trickled_metrics,
)}


def main():
    checks = Checks(GIVEN.all)
    allow_descriptors()
    run_stages(checks, STAGES, GIVEN.stages)
    return checks.end()


if __name__ == "__main__":
    sys.exit(main())
