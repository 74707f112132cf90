#!/usr/bin/env python3
"""Steers the targets of a running relay by many admin sessions at once, while clients connect and exchange bytes all the time.

    python3 tests/system/targets_storm.py [--many] [--seed N]

A rule has four targets, which are checked. Three of them are set `up`, `auto`, `drain` and `down` again and again; the fourth is never
drained nor down. Reloads change the order, the weights and the `balance` of the targets meanwhile, and end what was set; some are refused.
No client may lose a byte or its connection, each reply has to be a right one, and what `targets` tells has to fit what was set and what was
told before. At the end each target has as many connects as clients came to it, no failure and no connection, a target that is out gets
nobody, and the totals are what clients sent and got.

It takes some seconds; with --many some minutes.
"""
import collections
import multiprocessing
import os
import random
import sys
import threading
import time

sys.path.insert(1, f"{sys.path[0]}/..")
from lib.admin_replies import NO_COMMAND, NO_RULE, NO_TARGET, TARGET, is_reply
from lib.checks import Checks
from lib.echoes import echo
from lib.relay import Relay, Session, allow_descriptors
from lib.sockets import connect, free_port, listener, read_to_end
from lib.stages import options
from lib.waiting import comes

# Commands that are answered, and the seconds after which no more are given: in the short form and with --many.
SHORT, MANY = (6_000, 4), (400_000, 300)
TARGETS, STEERERS, SESSIONS, CLIENTS = 4, 2, 6, 3
# How many lines a session sends before it reads their replies.
LINES = 20
MOST_BYTES = 20_000
# Clients of each kind of target once no session speaks any more.
ALONE = 40
# (a machine that is full of other work brings no target down by these checks)
HEALTH = 'health = { every = "100ms", timeout = "1m", fall = 100, rise = 1 }\n'
BALANCES = ("round-robin", "least-connections", "first", "source")
STATES = {"auto": "up", "up": "up", "drain": "drained", "down": "down"}
COUNTS = ("connections", "connects", "failures", "passed", "failed")

Plan = collections.namedtuple("Plan", "admin file head addresses")


def text_of(plan, rng, is_bad=False):
    """A configuration with all targets, in some order. The first address, which is never out, is no backup and has a weight."""
    kept, *others = plan.addresses
    tables = [f'{{ at = "{kept}", weight = {rng.randint(1, 3)} }}']
    tables += [f'{{ at = "{it}", weight = {rng.randint(0, 3)}, backup = {rng.choice(("true", "false"))} }}' for it in others]
    rng.shuffle(tables)
    balance = "any" if is_bad else rng.choice(BALANCES)
    return f'{plan.head}balance = "{balance}"\n{HEALTH}target = [{", ".join(tables)}]\n'


def write(plan, text):
    """Has the file say this from one moment on, so that no reload reads a part of it."""
    fresh = f"{plan.file}.{os.getpid()}"
    with open(fresh, "w", encoding="ascii") as file:
        file.write(text)
    os.rename(fresh, plan.file)


def command(plan, rng):
    """A line, and the reply that it has to have where there is one alone."""
    kept, *others = plan.addresses
    which, some = rng.random(), rng.choice(others)
    if which < 0.70:
        return f"target web {some} {rng.choice(list(STATES))}", "ok"
    if which < 0.76:
        return f"target web {rng.choice((kept, rng.randint(1, TARGETS)))} {rng.choice(('up', 'auto'))}", "ok"
    if which < 0.86:
        return "targets", None
    if which < 0.90:
        return "reload", None
    return rng.choice([
        (f"target nobody {some} down", NO_RULE), ("target web tcp:127.0.0.1:1 down", NO_TARGET), (f"target web {TARGETS + 1} drain", NO_TARGET),
        (f"target web {some} sideways", NO_COMMAND), (f"target web {some}", NO_COMMAND), ("list", None), ("totals", None), ("show 1", None),
    ])


def rows_of(lines):
    """What lines of `targets` tell, with counts as numbers; none where one is no such line."""
    found = [TARGET.fullmatch(it) for it in lines]
    return [{**it.groupdict(), **{key: int(it[key]) for key in COUNTS}} for it in found] if all(found) else []


class Steerer(Session):
    """A session that steers targets. It knows what it was told of the one that is never out."""

    def __init__(self, plan, rng, faults):
        super().__init__(plan.admin)
        self.plan, self.rng, self.faults, self.connects = plan, rng, faults, 0

    def go(self):
        """Sends some lines and reads their replies. Gives how many there were."""
        asked = [command(self.plan, self.rng) for _ in range(LINES)]
        if any(line == "reload" for line, _ in asked):
            write(self.plan, text_of(self.plan, self.rng, self.rng.random() < 0.1))
        self.sock.sendall("".join(f"{line}\n" for line, _ in asked).encode())
        for line, wanted in asked:
            reply = self.reply(line)
            if not self.is_right(line, wanted, reply):
                self.faults.append(f"{line!r} was answered {reply!r}")
        return len(asked)

    def is_right(self, line, wanted, reply):
        if wanted:
            return reply == [wanted]
        if line == "reload":
            return reply == ["rules 1"] or reply[0].startswith('bad config: rule "web": balance: "any" is none of ')
        return self.are_targets(reply) if line == "targets" else is_reply(line, reply, (1,))

    def are_targets(self, reply):
        """Whether these are targets, each in the state that was set, with counts that may be. They are told by their numbers, one after the
        other: after a reload meanwhile, which gives them other numbers, one may be missing, and one be there twice."""
        rows = rows_of(reply[:-1])
        if reply[-1] != "end" or [it["number"] for it in rows] != [str(it) for it in range(1, TARGETS + 1)]:
            return False
        return all(it["at"] in self.plan.addresses and self.is_target(it) for it in rows)

    def is_target(self, row):
        if row["at"] == self.plan.addresses[0]:
            before, self.connects = self.connects, row["connects"]
            if row["set"] not in ("auto", "up") or before > row["connects"]:
                return False
        is_well = (row["state"], row["rule"], row["checks"], row["failures"], row["failed"]) == (STATES[row["set"]], "web", "on", 0, 0)
        return is_well and row["connections"] <= row["connects"] + CLIENTS


def steer(plan, seed, count, until, results):
    """What a process of sessions does: so many commands, or as many as it comes to. Sessions end and begin meanwhile."""
    rng, faults, given, sessions = random.Random(seed), [], 0, []
    try:
        while given < count and time.monotonic() < until and not faults:
            sessions += [Steerer(plan, rng, faults) for _ in range(SESSIONS - len(sessions))]
            given += sum(it.go() for it in sessions)
            if rng.random() < 0.2:
                over = sessions.pop(rng.randrange(SESSIONS))
                over.ask("quit")
                over.__exit__()
    except (OSError, EOFError, ValueError) as fault:
        faults.append(f"the admin socket failed: {fault!r}")
    results.put((given, faults[:3]))


def exchanges(sock, rng, times):
    """Sends blocks and has each of them back. Gives their bytes."""
    done = 0
    for _ in range(times):
        block = rng.randbytes(rng.choice((1, 100, rng.randint(1, MOST_BYTES))))
        sock.sendall(block)
        came = b""
        while len(came) < len(block):
            part = sock.recv(len(block) - len(came))
            if not part:
                raise EOFError(f"ended after {len(came)} of {len(block)} bytes")
            came += part
        if came != block:
            raise ValueError(f"{len(block)} bytes came back changed")
        done += len(block)
    return done


def request(address, rng):
    """A connection with some exchanges, mostly one. At the end some say nothing and go, and some wait for the end."""
    with connect(address) as sock:
        done = exchanges(sock, rng, rng.choice((1, 1, 1, 1, 3, 10, 40)))
        if rng.random() < 0.5:
            sock.shutdown(1)
            if rest := read_to_end(sock):
                raise ValueError(f"{len(rest)} bytes more came back")
    return done


def clients(address, seed, over, results):
    """What a process of clients does, one after the other: it counts them and their bytes."""
    rng, made, done, faults = random.Random(seed), 0, 0, []
    while not over.is_set() and len(faults) < 3:
        try:
            made += 1
            done += request(address, rng)
        except (OSError, EOFError, ValueError) as fault:
            faults.append(f"client {made}: {fault!r}")
    results.put((made, done, faults))


def all_at_once(plan, address, commands, seconds, seed, start):
    """Sessions and clients, each in a process of its own, until all sessions have ended. Gives what sessions and what clients have put."""
    fork = multiprocessing.get_context("fork")
    over, steered, served = fork.Event(), fork.Queue(), fork.Queue()
    until = time.monotonic() + seconds
    sessions = [fork.Process(target=steer, args=(plan, f"{seed} s{it}", commands // STEERERS, until, steered)) for it in range(STEERERS)]
    others = [fork.Process(target=clients, args=(address, f"{seed} c{it}", over, served)) for it in range(CLIENTS)]
    for it in [*others, *sessions]:
        it.start()
    # (threads of this process would be none in its children)
    start()
    given = [steered.get(timeout=seconds + 300) for _ in sessions]
    over.set()
    made = [served.get(timeout=300) for _ in others]
    for it in [*others, *sessions]:
        it.join()
    return given, made


def rows(relay):
    """What is told of each target, by its address."""
    return {it["at"]: it for it in rows_of(relay.ask("targets").split("\n")[:-1])}


def expect_counts(checks, plan, relay, made):
    """Each client has been at one target, and is there no more."""
    is_still = comes(lambda: all(it["connections"] == 0 for it in rows(relay).values()))
    told = rows(relay)
    checks.holds("storm: no connection is left at a target", is_still, told)
    checks.expect("storm: all targets are told", sorted(plan.addresses), sorted(told))
    checks.expect("storm: connects", made, sum(it["connects"] for it in told.values()))
    checks.expect("storm: failures of clients and of checks", [0] * TARGETS, [it["failures"] + it["failed"] for it in told.values()])
    checks.expect("storm: connections that are listed", [1], relay.ids())


def expect_out(checks, plan, relay, address, rng, word):
    """Clients while all but the first target are out: they come to that one alone. Gives their bytes."""
    checks.expect(f"{word}: it is set", ["ok"] * (TARGETS - 1), [relay.ask(f"target web {it} {word}") for it in plan.addresses[1:]])
    before = {at: it["connects"] for at, it in rows(relay).items()}
    done, faults = 0, []
    for _ in range(ALONE):
        try:
            done += request(address, rng)
        except (OSError, EOFError, ValueError) as fault:
            faults.append(repr(fault))
    after = {at: it["connects"] - before[at] for at, it in rows(relay).items()}
    checks.expect(f"{word}: clients", [], faults)
    checks.expect(f"{word}: clients at each target", {at: ALONE if at == plan.addresses[0] else 0 for at in plan.addresses}, after)
    checks.expect(f"{word}: what is told", {STATES[word]}, {it["state"] for at, it in rows(relay).items() if at != plan.addresses[0]})
    return done


def run(checks, commands, seconds, seed):
    rng, socks = random.Random(seed), [listener() for _ in range(TARGETS)]
    for sock, _ in socks:
        sock.settimeout(None)
    address = f"tcp:127.0.0.1:{free_port()}"
    head = f'admin = "{{folder}}/admin.sock"\nloops = 4\n[[rule]]\nname = "web"\nlisten = ["{address}"]\n'
    plan = Plan("", "", head, [at for _, at in socks])
    with Relay(text_of(plan, rng), form="config") as relay:
        plan = Plan(relay.admin, f"{relay.folder}/config", head.replace("{folder}", relay.folder), plan.addresses)
        targets = [threading.Thread(target=echo, args=(sock,), daemon=True) for sock, _ in socks]
        given, made = all_at_once(plan, address, commands, seconds, seed, lambda: [it.start() for it in targets])
        answered, connected, done = sum(it[0] for it in given), sum(it[0] for it in made), sum(it[1] for it in made)
        print(f"{answered} commands beside {connected} clients with {done} bytes each way", flush=True)
        checks.holds("storm: commands", answered >= min(commands, 500), f"{answered} of {commands}")
        checks.holds("storm: clients", connected >= 50, connected)
        checks.expect("storm: replies", [], [fault for it in given for fault in it[1]][:3])
        checks.expect("storm: clients that lost something", [], [fault for it in made for fault in it[2]][:3])
        write(plan, text_of(plan, rng))
        checks.expect("storm: a last reload", "rules 1", relay.ask("reload"))
        expect_counts(checks, plan, relay, connected)
        done += sum(expect_out(checks, plan, relay, address, rng, word) for word in ("drain", "down"))
        status, totals, _ = relay.stop()
        checks.expect("storm: status and totals", (0, (done, done)), (status, totals))


def main():
    given = options(__doc__, many=False, seed=None)
    allow_descriptors()
    checks = Checks()
    run(checks, *(MANY if given.many else SHORT), given.seed)
    return checks.end()


if __name__ == "__main__":
    sys.exit(main())
