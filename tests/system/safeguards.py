#!/usr/bin/env python3
"""What keeps one target, one rule or a path that was left from harming the rest of a relay.

    python3 tests/system/safeguards.py [STAGE]..

dead_target      a target that never answers is given up in time, and its clients take no place for longer; a pair that stands stays.
causes           the log and the metrics tell why a target wasn't reached.
per_rule         a rule has as many connections as it may, whatever other rules have.
stale_paths      a socket at which nobody answers gives way, where it is asked for; nothing else does.
accept_faults    a rule whose accepts failed 1,025 times in a row serves again, and is told to be ill until then.
refused_by_poller  a client whose sockets the poller doesn't take is told as that, and not as one too many.
few_descriptors  too few descriptors are said at the start.
"""
import contextlib
import errno
import os
import resource
import socket
import subprocess
import sys
import time

sys.path.insert(1, f"{sys.path[0]}/..")
from lib.black_hole import BlackHole
from lib.c_code import library
from lib.checks import Checks
from lib.log_text import read_log
from lib.metrics import scrape, scrape_again
from lib.places import LIB
from lib.relay import Relay, Session, StartFault
from lib.served import Served
from lib.sockets import connect, free_port, listener
from lib.stages import options, run_stages
from lib.talk import both_ways, seconds_until_end
from lib.waiting import wait_until

TIMEOUT_MS = 400
# A pause of a rule is a second at most, and a row of faults many; on a machine that is full of other work a second is some.
SOON = 10
# More calls than a relay makes until a client is served.
MOST_CALLS = 40


def hows(path, count):
    """The rule and the end of each line of a log, once it has so many."""
    def read():
        with open(path, encoding="ascii") as file:
            return read_log(file.read())

    wait_until(lambda: len(read()[0]) >= count, 10)
    lines, lost, others = read()
    return sorted((it["rule"], it["how"]) for it in lines) + ([("lost or strange", (lost, others))] if lost or others else [])


def figure(address, name, ask=scrape):
    """A figure of the relay's metrics."""
    found = [it for it in ask(address)[1].splitlines() if it.startswith(f"{name} ")]
    return int(found[0].rsplit(" ", 1)[1]) if found else None


def tells(checks, address, name, want, ask=scrape):
    wait_until(lambda: figure(address, name, ask) == want, 10)
    checks.expect(name, want, figure(address, name, ask))


def given_up_in_time(checks, who, address):
    """A client of a target that never answers sees the end, and not before its target's time is over."""
    # (the target's time may begin before the client's connect returns)
    began, least = time.monotonic(), TIMEOUT_MS / 1000
    is_over = seconds_until_end(connect(address), SOON) is not None
    took = time.monotonic() - began
    checks.holds(f"dead: {who} sees the end, not before its time", is_over and least - 0.005 <= took, f"after {took} s")


def dead_target(checks, folder):
    """20 clients a second of a dead target leave a healthy rule alone, also where there are few places."""
    accepts, target = listener()
    dead_port, port, metrics = free_port(), free_port(), f"tcp:127.0.0.1:{free_port()}"
    dead, log = f"tcp:127.0.0.1:{dead_port}", f"{folder}/dead.log"
    words = ("--connect-timeout", str(TIMEOUT_MS), "--connections", "16", "--log", log, "--metrics", metrics)
    with accepts, BlackHole() as hole, Relay(
        f"relay dead {dead} {hole.address} never\nrelay ok tcp:127.0.0.1:{port} {target} never\n", options=words
    ) as relay:
        stands = connect(f"tcp:127.0.0.1:{port}")
        stands_target, _ = accepts.accept()
        given_up_in_time(checks, "its client", dead)
        clients, served = [], 0
        for turn in range(60):
            clients.append(connect(dead))
            time.sleep(0.05)
            if turn % 6 == 0:
                client = connect(f"tcp:127.0.0.1:{port}")
                taken, _ = accepts.accept()
                served += both_ways(client, taken)
                client.close(), taken.close()
        checks.expect("dead: the healthy rule served", 10, served)
        checks.holds("dead: a pair that stands stays", both_ways(stands, stands_target), "no byte came back")
        for client in clients:
            checks.holds("dead: each client sees the end", seconds_until_end(client, 10) is not None, "not in 10 s")
        # (by now a time that ran from the relay's start is over)
        given_up_in_time(checks, "one that comes later", dead)
        tells(checks, metrics, 'pollrelay_rule_no_target_total{rule="dead",cause="timeout"}', 62)
        tells(checks, metrics, 'pollrelay_rule_no_target_total{rule="ok",cause="timeout"}', 0)
        tells(checks, metrics, 'pollrelay_rule_connections{rule="dead"}', 0)
        ends = [how for rule, how in hows(log, 72) if rule == "dead"]
        checks.expect("dead: its lines", ["no target timeout"] * 62, ends)
        checks.expect("dead: status", 0, relay.stop()[0])


def causes(checks, folder):
    """Each cause has its word and its count."""
    nobody, full, gone = f"{folder}/nobody", f"{folder}/full", f"{folder}/gone"
    with socket.socket(socket.AF_UNIX) as sock:
        sock.bind(nobody)
    queue = socket.socket(socket.AF_UNIX)
    queue.bind(full)
    queue.listen(0)
    waiting = connect(f"unix:{full}")
    metrics, log = f"tcp:127.0.0.1:{free_port()}", f"{folder}/causes.log"
    with queue, waiting, BlackHole() as hole:
        targets = {"port": f"tcp:127.0.0.1:{free_port()}", "nobody": f"unix:{nobody}", "gone": f"unix:{gone}", "full": f"unix:{full}", "idle": hole.address}
        ports = {name: free_port() for name in targets}
        rules = [f"relay {name} tcp:127.0.0.1:{ports[name]} {target} {300 if name == 'idle' else 'never'}\n" for name, target in targets.items()]
        with Relay("".join(rules), options=("--log", log, "--metrics", metrics, "--loops", "1")) as relay:
            for name in targets:
                checks.holds(f"causes: {name} ends", seconds_until_end(connect(f"tcp:127.0.0.1:{ports[name]}"), 10) is not None, "it stays")
            want = [("full", "no target unreachable"), ("gone", "no target unreachable"), ("idle", "no target timeout"),
                    ("nobody", "no target refused"), ("port", "no target refused")]
            checks.expect("causes: lines", want, hows(log, len(want)))
            tells(checks, metrics, 'pollrelay_rule_no_target_total{rule="port",cause="refused"}', 1)
            tells(checks, metrics, 'pollrelay_rule_no_target_total{rule="gone",cause="unreachable"}', 1)
            # The next descriptor is the client's, and none is left for the target. (asked before, since an answer takes one too)
            checks.expect("causes: no want of descriptors", 0, figure(metrics, 'pollrelay_rule_no_target_total{rule="gone",cause="descriptors"}'))
            wait_until(lambda: not descriptors_of_clients(relay), 10)
            before = resource.prlimit(relay.process.pid, resource.RLIMIT_NOFILE)
            resource.prlimit(relay.process.pid, resource.RLIMIT_NOFILE, (highest(relay) + 2, before[1]))
            seconds_until_end(connect(f"tcp:127.0.0.1:{ports['port']}"), 10)
            resource.prlimit(relay.process.pid, resource.RLIMIT_NOFILE, before)
            tells(checks, metrics, 'pollrelay_rule_no_target_total{rule="port",cause="descriptors"}', 1)
            # The accept after it fails too, and begins a row of faults, unless the loop has closed the client before.
            told, row = ("port", "no target descriptors"), ("port", "accept other")
            wait_until(lambda: told in hows(log, 1), 10)
            lines = [it for it in hows(log, 1) if it not in want]
            checks.holds("causes: lines of descriptors", lines in ([told], [row, told]), lines)


def numbers(relay):
    return sorted(int(it) for it in os.listdir(f"/proc/{relay.process.pid}/fd"))


def highest(relay):
    """The highest number below which no descriptor is free."""
    held = numbers(relay)
    return next((at for at in range(len(held)) if held[at] != at), len(held)) - 1


def descriptors_of_clients(relay):
    """Whether a descriptor is above a gap: a client of the metrics is being served."""
    return highest(relay) + 1 < len(numbers(relay))


def per_rule(checks, folder):
    """A rule with a limit of its own takes no more, while another has its own; a place that is free again is taken again."""
    log, metrics = f"{folder}/rule.log", f"tcp:127.0.0.1:{free_port()}"
    with Served("never", "never", options=("--connections-per-rule", "3", "--connections", "5", "--log", log, "--metrics", metrics)) as served:
        held = [served.open(0) for _ in range(3)]
        checks.holds("rule: so many", all(both_ways(*it) for it in held), "no byte came back")
        checks.holds("rule: one more is dropped", seconds_until_end(connect(served.listens[0]), 5) is not None, "it stays open")
        others = [served.open(1) for _ in range(2)]
        checks.holds("rule: another rule's", all(both_ways(*it) for it in others), "no byte came back")
        checks.holds("rule: the whole relay is full", seconds_until_end(connect(served.listens[1]), 5) is not None, "it stays open")
        for sock in held.pop():
            sock.close()
        tells(checks, metrics, 'pollrelay_rule_connections{rule="r0"}', 2)
        time.sleep(0.1)
        held.append(served.open(0))
        checks.holds("rule: room again", both_ways(*held[-1]), "no byte came back")
        tells(checks, metrics, 'pollrelay_rule_refused_total{rule="r0",cause="rule_full"}', 1)
        tells(checks, metrics, 'pollrelay_rule_refused_total{rule="r1",cause="full"}', 1)
        tells(checks, metrics, 'pollrelay_rule_refused_total{rule="r1",cause="rule_full"}', 0)
        checks.expect("rule: lines", [("r0", "eof"), ("r0", "rule full"), ("r1", "full")], hows(log, 3))
        for sock in [sock for pair in held + others for sock in pair]:
            sock.close()


def starts(rules, *words):
    """Whether a relay starts by these rules; else what it said."""
    try:
        with Relay(rules, env={}, options=words) as relay:
            relay.stop()
        return True
    except StartFault as fault:
        return fault.errors


def stale_paths(checks, folder):
    """A socket that nobody listens at is bound anew; a file, a link, a folder and a socket that answers are left as they are."""
    stale, live, file, link = (f"{folder}/{it}" for it in ("stale", "live", "file", "link"))
    accepts, _ = listener(live)
    with open(file, "w", encoding="ascii") as out:
        out.write("kept")
    os.symlink(file, link)
    rule = "relay one unix:{} unix:/x never\n"
    with accepts:
        for path in (live, file, link, folder):
            checks.expect(f"stale: {path} stays", "cannot listen one\n", starts(rule.format(path), "--replace-stale"))
            checks.expect(f"stale: what was at {path}", True, os.path.lexists(path))
    for place in ("rule", "metrics"):
        with socket.socket(socket.AF_UNIX) as sock:
            sock.bind(stale)
        text, words = (rule.format(stale), ()) if place == "rule" else ("", ("--metrics", f"unix:{stale}"))
        checks.expect(f"stale: without the option, {place}", False, starts(text, *words) is True)
        checks.expect(f"stale: what was there, {place}", True, os.path.exists(stale))
        checks.expect(f"stale: with it, {place}", True, starts(text, "--replace-stale", *words))
        checks.expect(f"stale: what is left, {place}", False, os.path.lexists(stale))
    with Relay("", env={}, options=("--replace-stale",)) as relay:
        relay.process.kill()
        relay.process.wait()
        checks.expect("stale: a killed relay's socket", ["admin.sock"], relay.sockets())
        checks.expect("stale: its path serves again", True, restarts(relay))
    with open(file, encoding="ascii") as left:
        checks.expect("stale: the file's text", "kept", left.read())


def restarts(relay):
    """Whether the same command starts where a killed relay left its admin socket."""
    words = relay.process.args
    with subprocess.Popen(words, stdin=subprocess.DEVNULL, stdout=subprocess.PIPE) as again:
        said = again.stdout.readline()
        relay.ask("stop")
        again.communicate(timeout=20)
    return said.startswith(b"listening ") and again.returncode == 0


def reloaded(relay, times=200):
    """Has the relay turn so many times. By its own clock a session that waits for a processor is soon silent for too long, and ends: then
    the next one goes on."""
    while times:
        with Session(relay.admin) as session, contextlib.suppress(OSError, EOFError):
            while times:
                if session.ask("reload") != "rules 1":
                    return False
                times -= 1
    return True


def accept_faults(checks, folder):
    """A rule whose accepts failed so often in a row goes on once they may pass, and until then all is told to be ill."""
    shim = library(f"{LIB}/fast_clock.c", f"{folder}/fast_clock.so")
    log, metrics = f"{folder}/faults.log", f"tcp:127.0.0.1:{free_port()}"
    with Served("never", options=("--log", log, "--metrics", metrics), env={"LD_PRELOAD": shim, "FAST": "200"}) as served:
        relay, rows = served.relay, 'pollrelay_rule_accept_faults_total{rule="r0"}'
        checks.expect("faults: well before", (200, "ok\n"), scrape_again(metrics, "/healthz"))
        tells(checks, metrics, 'pollrelay_rule_listening{rule="r0"}', 1, scrape_again)
        checks.expect("faults: a deadline of the listener", "ok", relay.ask("deadline 1 0"))
        tells(checks, metrics, 'pollrelay_rule_listening{rule="r0"}', 0, scrape_again)
        checks.expect("faults: ill meanwhile", (503, "not listening\n"), scrape_again(metrics, "/healthz"))
        # 1,025 faults take 17 minutes of the relay's clock, and then a second row begins. Each reload ends a wait of the system,
        # which takes as long as ever.
        has_two = wait_until(lambda: reloaded(relay) and (figure(metrics, rows, scrape_again) or 0) >= 2, 60)
        checks.holds("faults: a second row", has_two, figure(metrics, rows, scrape_again))
        checks.expect("faults: lifted", "ok", relay.ask("deadline 1 never"))
        began = time.monotonic()
        checks.holds("faults: the rule serves", both_ways(*served.open()), "no byte came back")
        checks.holds("faults: after one pause", time.monotonic() - began < SOON, f"{time.monotonic() - began:.1f} s")
        tells(checks, metrics, 'pollrelay_rule_listening{rule="r0"}', 1, scrape_again)
        checks.expect("faults: well again", (200, "ok\n"), scrape_again(metrics, "/healthz"))
        rest = figure(metrics, rows, scrape_again)
        lines = [how for _, how in hows(log, rest) if how.startswith("accept ")]
        checks.expect("faults: a line for each row", ["accept other"] * rest, lines)
        checks.expect("faults: a close", "ok", relay.ask("close 1"))
        checks.expect("faults: a closed rule is ill", (503, "not listening\n"), scrape_again(metrics, "/healthz"))
        checks.expect("faults: a reload", "rules 1", relay.ask("reload"))
        checks.expect("faults: well after it", (200, "ok\n"), scrape_again(metrics, "/healthz"))


REFUSED = 'pollrelay_rule_refused_total{{rule="r0",cause="{}"}}'


def refused_by_poller(checks, folder):
    """Each registration of a socket fails in turn: those of a client and of its target refuse the client."""
    shim, said = library(f"{LIB}/fail_nth.c", f"{folder}/fail_nth.so"), []
    for at in range(1, MOST_CALLS):
        log, metrics = f"{folder}/poller-{at}.log", f"tcp:127.0.0.1:{free_port()}"
        env = {"LD_PRELOAD": shim, "FAIL_CALL": "epoll_ctl", "FAIL_AT": str(at), "FAIL_WITH": str(errno.ENOSPC)}
        try:
            served = Served("never", options=("--loops", "1", "--log", log, "--metrics", metrics), env=env)
        except StartFault:
            continue
        with served:
            if not both_ways(*served.open()):
                said += hows(log, 1)
                tells(checks, metrics, REFUSED.format("descriptors"), 1)
                tells(checks, metrics, REFUSED.format("full"), 0)
            elif said:
                break
    checks.expect("poller: lines", [("r0", "descriptors")] * 2, said)


def few_descriptors(checks, _):
    """A relay that may have too few descriptors says so with both numbers, and starts; one that has enough says nothing."""
    options = ("--connections", "100", "--loops", "2")
    for allowed, want in ((200, "few descriptors: 200, and 444 may be needed\n"), (444, "")):
        with Relay("", descriptors=allowed, env={}, options=options) as relay:
            checks.expect(f"few: of {allowed}", want, relay.errors())
            checks.expect(f"few: status, {allowed}", 0, relay.stop()[0])


STAGES = {it.__name__: it for it in (dead_target, causes, per_rule, stale_paths, accept_faults, refused_by_poller, few_descriptors)}


def main():
    given, checks = options(__doc__, STAGES), Checks()
    run_stages(checks, STAGES, given.stages)
    return checks.end()


if __name__ == "__main__":
    sys.exit(main())
