#!/usr/bin/env python3
"""A rule of several targets, by a configuration: which one a client gets, which is tried next, and what is told of it.

    python3 tests/system/several_targets.py [STAGE]..

refused     a target that refuses, at once or later, is followed by the next; a client ends where all do, and by the last one's cause.
late        so is one that isn't connected in its part of the time; until then the client isn't read, and what it said comes whole.
nobody      all targets together have the time to connect, however many there are.
backups     a backup gets clients only where no other target is left.
turns       each target has its weight's share of the clients, and one of weight 0 none.
least       a client goes to the target with the fewest connections for its weight.
source      clients of one address go to one target.
first       clients go to the first target, and to the next where it refuses.
unweighted  a rule whose targets all have weight 0 is served, and its clients end.
told        `show` and the log name the target that was taken.
reloads     a reload changes the list; connections go on, and are counted on where their target stays; a refused one changes nothing.
"""
import socket
import sys
import time

sys.path.insert(1, f"{sys.path[0]}/..")
from lib.black_hole import BlackHole
from lib.counting_target import CountingTarget
from lib.log_text import logged
from lib.relay import Relay
from lib.sockets import free_port, some_address, tcp_rows, unread_bytes
from lib.stages import run_script
from lib.waiting import wait_until

SOON = 10
BYTES = 30_000


A, B, C = (CountingTarget(name) for name in "ABC")


def table(target):
    """A target as a configuration has it: by itself, its address, or one of these with more keys."""
    target, more = target if isinstance(target, tuple) else (target, "")
    at = getattr(target, "address", target)
    return f'{{ at = "{at}"{more} }}'


def config(port, targets, balance="round-robin", connect_timeout="5s"):
    """A configuration of one rule with these targets."""
    return (
        f'admin = "{{folder}}/admin.sock"\nlog = "{{folder}}/log"\nloops = 2\nconnect_timeout = "{connect_timeout}"\n'
        f'[[rule]]\nname = "web"\nlisten = ["tcp:127.0.0.1:{port}"]\nbalance = "{balance}"\n'
        f"target = [{', '.join(map(table, targets))}]\n"
    )


class Several:
    """A relay whose rule has these targets."""

    def __init__(self, targets, *more):
        self.port = free_port()
        self.relay = Relay(config(self.port, targets, *more), form="config")

    def write(self, targets, *more):
        self.relay.write(config(self.port, targets, *more))

    def connect(self, own="127.0.0.1", says=b""):
        """A client, from this address of its own, that has said this."""
        client = socket.create_connection(("127.0.0.1", self.port), SOON, source_address=(own, 0))
        client.sendall(says)
        return client

    def got(self, own="127.0.0.1"):
        """A client, and the target that it got."""
        client = self.connect(own)
        return client, name_to(client)

    def names(self, count, own="127.0.0.1"):
        """The targets of so many clients, one after another, none of which stays."""
        names = ""
        for _ in range(count):
            client, name = self.got(own)
            client.close()
            names += name
        return names

    def standing(self):
        """How many connections stand, by their ids: each has two."""
        return (len(self.relay.ids()) - 1) // 2

    def comes_to(self, count):
        return wait_until(lambda: self.standing() == count, SOON)

    def lines(self, count):
        """Of each line of the log, once there are so many, the target and the end."""
        return [(it.get("target"), it["how"]) for it in logged(f"{self.relay.folder}/log", count)]

    def __enter__(self):
        return self

    def __exit__(self, *_):
        self.relay.close()


def name_to(client):
    """The target that a client got, by its name; `end` where it got none, and `late` where it got nothing."""
    client.settimeout(SOON)
    try:
        return client.recv(1).decode() or "end"
    except TimeoutError:
        return "late"
    except OSError:
        return "end"


def echoed(client, data):
    """What comes back of these bytes."""
    came = b""
    try:
        client.sendall(data)
        while len(came) < len(data) and (part := client.recv(65_536)):
            came += part
    except OSError:
        pass
    return came


def dead():
    """An address at which nobody listens."""
    return some_address()


def refused(checks, folder):
    none = f"unix:{folder}/none"
    rows = (
        ("refuses", (dead(), B)), ("refuses at once", (none, B)), ("both ways of refusing", (dead(), none, B)),
        ("many refuse", (*(dead() for _ in range(8)), B, *(dead() for _ in range(8)))),
    )
    for name, targets in rows:
        with Several(targets) as it:
            clients = [it.connect(says=b"hello") for _ in range(10)]
            checks.expect(f"{name}: the next one", "B" * 10, "".join(map(name_to, clients)))
            checks.expect(f"{name}: what was said before", [5] * 10, [received(client, 5) for client in clients])
            checks.expect(f"{name}: it goes on", [b"on"] * 10, [echoed(client, b"on") for client in clients])
            for client in clients:
                client.close()
            checks.expect(f"{name}: the log", [(B.address, "eof")] * 10, it.lines(10))
    last = dead()
    for name, targets, end in (
        ("all refuse", (none, dead(), last), "no target refused"), ("all refuse at once", (none, none + "2"), "no target unreachable"),
    ):
        with Several(targets, "first") as it:
            checks.expect(f"{name}: the client", "end", it.got()[1])
            checks.expect(f"{name}: the log", [(targets[-1], end)], it.lines(1))


def late(checks, folder):
    # (no outgoing connection of anybody has such a port)
    fresh = CountingTarget("F", port=free_port())
    with BlackHole() as hole, Several((hole, fresh), "first", "2s") as it:
        client, began, counts = unread_client(it, fresh)
        checks.expect("late: unread until then", {BYTES}, set(counts))
        checks.expect("late: the next one", "F", name_to(client))
        checks.holds("late: after its part of the time", time.monotonic() - began > 0.9, "before")
        checks.expect("late: all bytes", BYTES, received(client, BYTES))
        client.close()
        checks.expect("late: the log", (fresh.address, "eof"), it.lines(fresh.taken)[-1])
    with BlackHole() as hole, Several((hole, dead(), B), "first", "2s") as it:
        checks.expect("late, then refused: the next one", "B", it.got()[1])
    with BlackHole() as hole, Several((hole, dead()), "first", "1s") as it:
        checks.expect("late, then refused: all", "end", it.got()[1])


def unread_client(it, target):
    """A client that has said its bytes, when it came, and how many waited to be read from when they had come until its target was dialled.

    On a busy machine that may be over before the first look: then another one comes.
    """
    for _ in range(5):
        began = time.monotonic()
        client = it.connect(says=bytes(BYTES))
        counts = unread_until_dialled(it.port, client, target)
        if BYTES in counts:
            return client, began, counts[counts.index(BYTES) :]
        name_to(client)
        client.close()
        it.comes_to(0)
    return client, began, counts


def unread_until_dialled(port, client, target):
    """How many bytes of the client wait to be read, time after time, until a connection to the target is begun."""
    own, counts, end = client.getsockname()[1], [], time.monotonic() + SOON
    dialled = int(target.address.rpartition(":")[2])
    while time.monotonic() < end:
        count = unread_bytes(port, own)
        # (what is counted after that says nothing)
        if any(peer == dialled for _, peer, _ in tcp_rows()):
            break
        counts.append(count)
    return counts


def received(client, count):
    """How many bytes come, of so many."""
    came = 0
    try:
        while came < count and (part := client.recv(65_536)):
            came += len(part)
    except OSError:
        pass
    return came


def nobody(checks, folder):
    holes = [BlackHole() for _ in range(8)]
    with Several(holes, "first", "2s") as it:
        began = time.monotonic()
        # With the whole time for each it would take 16 s.
        checks.expect("nobody: the client ends", "end", it.got()[1])
        checks.holds("nobody: after the whole time", time.monotonic() - began > 1.9, "before")
        # On a busy machine the time may be over before the last was tried: then another client has to come to it.
        lines = it.lines(1)
        while lines[-1][0] != holes[-1].address and len(lines) < 5:
            it.got()
            lines = it.lines(len(lines) + 1)
        checks.expect("nobody: each is told as late", {"no target timeout"}, {how for _, how in lines})
        checks.expect("nobody: the last is tried too", holes[-1].address, lines[-1][0])
    for hole in holes:
        hole.__exit__()


def backups(checks, folder):
    backup = ", backup = true"
    with Several((dead(), (B, backup), A)) as it:
        checks.expect("backups: while another is left", "A" * 12, it.names(12))
    with Several((dead(), (B, backup), dead())) as it:
        checks.expect("backups: where none is", "B" * 6, it.names(6))
    with Several(((A, backup), (B, backup))) as it:
        checks.expect("backups: where all are", "AAABBB", "".join(sorted(it.names(6))))
    with Several(((dead(), backup), (A, ", weight = 0"), (C, backup))) as it:
        checks.expect("backups: a weight of 0 is none", "C" * 6, it.names(6))


def turns(checks, folder):
    with Several((A, (B, ", weight = 3"), (C, ", weight = 0"))) as it:
        names = it.names(24)
        checks.expect("turns: by weight", "A" * 6 + "B" * 18, "".join(sorted(names)))
        checks.holds("turns: each in its turn", all("".join(sorted(names[at : at + 4])) == "ABBB" for at in range(20)), names)
    with Several((A, B, C)) as it:
        names = it.names(9)
        checks.expect("turns: one after another", names[:3] * 3, names)
        checks.expect("turns: all of them", "ABC", "".join(sorted(names[:3])))
    with Several((A, dead(), C)) as it:
        checks.expect("turns: one that refuses gets nobody", {"A", "C"}, set(it.names(12)))


def least(checks, folder):
    with Several((A, B, C), "least-connections") as it:
        clients = [it.got() for _ in range(9)]
        checks.expect("least: alike", "AAABBBCCC", "".join(sorted(name for _, name in clients)))
        leave(clients, "B")
        checks.holds("least: three have gone", it.comes_to(6), it.standing())
        clients += [it.got() for _ in range(3)]
        checks.expect("least: to the one that has none", "BBB", "".join(name for _, name in clients[9:]))
        close_all(clients)
    with Several((A, (B, ", weight = 3")), "least-connections") as it:
        clients = [it.got() for _ in range(8)]
        checks.expect("least: by weight", "AABBBBBB", "".join(sorted(name for _, name in clients)))
        close_all(clients)
    with Several((dead(), B, C), "least-connections") as it:
        clients = [it.got() for _ in range(8)]
        checks.expect("least: where the least refuses", "BBBBCCCC", "".join(sorted(name for _, name in clients)))
        close_all(clients)


def leave(clients, target):
    """Closes those of the clients that have this target."""
    for client, name in clients:
        if name == target:
            client.close()


def close_all(clients):
    for client, _ in clients:
        client.close()


def source(checks, folder):
    with Several((A, B, C), "source") as it:
        names = {own: it.names(4, own) for own in (f"127.0.0.{last}" for last in range(2, 34))}
        for own, name in names.items():
            checks.expect(f"source: {own}", name[0] * 4, name)
        checks.expect("source: all have clients", {"A", "B", "C"}, {name[0] for name in names.values()})
    with Several((dead(), B), "source") as it:
        checks.expect("source: where it refuses", {"B"}, {it.names(1, f"127.0.0.{last}") for last in range(2, 18)})


def first(checks, folder):
    with Several((A, B), "first") as it:
        checks.expect("first: while it is there", "A" * 8, it.names(8))
    with Several((dead(), (A, ", weight = 0"), B, C), "first") as it:
        checks.expect("first: the next one", "B" * 8, it.names(8))


def unweighted(checks, folder):
    with Several(((A, ", weight = 0"), (B, ", weight = 0"))) as it:
        checks.expect("unweighted: it listens", "listening 1\n", it.relay.said)
        checks.expect("unweighted: the clients end", ["end"] * 3, [it.got()[1] for _ in range(3)])
        checks.expect("unweighted: the log", [(A.address, "no target unreachable")] * 3, it.lines(3))
        checks.expect("unweighted: nothing is left", 0, it.standing())


def told(checks, folder):
    with Several((dead(), B, dead()), "first") as it:
        client, name = it.got()
        checks.expect("told: the target", "B", name)
        ids = it.relay.ids()
        checks.expect("told: its ids", 3, len(ids))
        for at, side in ((-2, "client"), (-1, "target")):
            peer = B.address if side == "target" else f"tcp:127.0.0.1:{client.getsockname()[1]}"
            shown = it.relay.ask(f"show {ids[at]}")
            checks.holds(f"told: {side}", f" side {side} peer {peer} " in shown, shown)
        checks.holds("told: all of it", f" side target peer {B.address} " in it.relay.ask("show"), it.relay.ask("show"))
        client.close()
        checks.expect("told: the log", [(B.address, "eof")], it.lines(1))
        checks.expect("told: the end", 0, it.relay.stop()[0])


def reloads(checks, folder):
    with Several((A, B)) as it:
        stays = [it.got() for _ in range(4)]
        checks.expect("reloads: before", "AABB", "".join(sorted(name for _, name in stays)))
        for targets, wanted in (((B, C), "BC"), ((C,), "C"), ((A, (B, ", weight = 0"), C), "AC"), (((A, ", weight = 5"),), "A"), ((B, A), "AB")):
            it.write(targets)
            checks.expect(f"reloads: to {wanted}", "rules 1", it.relay.ask("reload"))
            checks.expect(f"reloads: clients of {wanted}", set(wanted), set(it.names(12)))
            checks.expect(f"reloads: connections through {wanted}", [b"on"] * 4, [echoed(client, b"on") for client, _ in stays])
        for text in ((C, (dead(), ", zone = 1")), (C, "tcp:[::ffff:10.0.0.1]:80"), (C, "tcp:app..internal:80")):
            it.write(text)
            reply = it.relay.ask("reload")
            checks.holds("reloads: a refused one", reply.startswith('bad config: rule "web": target 2: '), reply)
            checks.expect("reloads: nothing changes", {"A", "B"}, set(it.names(12)))
        close_all(stays)
    counted_on(checks)


def counted_on(checks):
    """Connections count at their target while it stays, whatever list it is in."""
    with Several((A, B), "least-connections") as it:
        clients = [it.got() for _ in range(4)]
        it.write((C, B, A), "least-connections")
        checks.expect("counted on: the reload", "rules 1", it.relay.ask("reload"))
        clients += [it.got() for _ in range(2)]
        checks.expect("counted on: to the new one", "CC", "".join(name for _, name in clients[4:]))
        leave(clients, "A")
        checks.holds("counted on: two have gone", it.comes_to(4), it.standing())
        clients += [it.got() for _ in range(2)]
        checks.expect("counted on: to the one that they had", "AA", "".join(name for _, name in clients[6:]))
        close_all(clients)
        checks.holds("counted on: all have gone", it.comes_to(0), it.standing())
        clients = [it.got() for _ in range(6)]
        checks.expect("counted on: alike", "AABBCC", "".join(sorted(name for _, name in clients)))
        close_all(clients)


STAGES = {it.__name__: it for it in (refused, late, nobody, backups, turns, least, source, first, unweighted, told, reloads)}


if __name__ == "__main__":
    sys.exit(run_script(__doc__, STAGES))
