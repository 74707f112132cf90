"""Connections of each kind through a running relay: whole, stalled, refused, cut. A lane is a rule with its target, and sends one
connection after the other; many lanes run at once, each in a process of its own.
"""
import multiprocessing
import random
import socket
import time

from lib.ends import End, pump, stream
from lib.sockets import connect, free_port, listener

SECONDS = 30
STALL_MS = 300
MEGABYTE = 1 << 20


class Lane:
    """A rule, with the listening socket of its target: one connection after the other goes through it."""

    def __init__(self, folder, number, kind, listen, target, idle):
        self.kind, self.idle, self.name = kind, idle, f"{kind}-{number}"
        self.listen = f"unix:{folder}/{self.name}.in" if listen == "unix" else f"tcp:127.0.0.1:{free_port()}"
        if kind == "refused":
            self.target = f"unix:{folder}/nobody" if target == "unix" else f"tcp:127.0.0.1:{free_port()}"
        else:
            self.accepts, self.target = listener(f"{folder}/{self.name}.out" if target == "unix" else None)
        if kind == "full":
            self.accepts.setsockopt(socket.SOL_SOCKET, socket.SO_RCVBUF, 65_536)
        self.rule = f"relay {self.name} {self.listen} {self.target} {idle}\n"

    def open(self):
        client = connect(self.listen)
        target, _ = self.accepts.accept()
        return client, target


class Outcome:
    """What a lane's connections sent and received, and what was wrong with them."""

    def __init__(self):
        self.up = self.down = self.sent_up = self.sent_down = 0
        self.faults = []

    def add(self, client, target, faults):
        self.up += target.received
        self.down += client.received
        self.sent_up += client.sent
        self.sent_down += target.sent
        self.faults += faults + target.faults(client) + client.faults(target)
        client.sock.close()
        target.sock.close()


def some_size(rng):
    most = rng.choice((0, 100, 65_536, 4 * MEGABYTE, 4 * MEGABYTE))
    return rng.randint(0, most)


def ends_of(lane, rng, up, down):
    client, target = lane.open()
    up, down = stream(rng, up), stream(rng, down)
    return End(client, up, down, rng), End(target, down, up, rng)


def exchange(lane, rng, outcome):
    """Both send all; either half-closes first, or both as they come."""
    client, target = ends_of(lane, rng, some_size(rng), some_size(rng))
    waiting = rng.choice((client, target, None))
    if waiting:
        waiting.waits = True
    is_done = pump((client, target), lambda: client.is_done() and target.is_done(), SECONDS)
    is_whole = client.has_all() and target.has_all() and not (client.was_cut or target.was_cut)
    said = f"up {target.received} of {len(client.sends)}, down {client.received} of {len(target.sends)}"
    outcome.add(client, target, [] if is_done and is_whole else [f"an exchange isn't whole: {said}"])


def stall(lane, rng, outcome):
    """Both send all and hold open. The relay ends the connection at the idle time, and not before.

    It goes quiet after the last send, and before all was seen here, which on a busy machine is a while later."""
    opened = time.monotonic()
    client, target = ends_of(lane, rng, rng.choice((0, rng.randint(1, 9_999))), rng.choice((0, rng.randint(1, 9_999))))
    client.holds_open = target.holds_open = True
    pump((client, target), lambda: client.has_all() and target.has_all(), SECONDS)
    seen = time.monotonic()
    is_whole = client.has_all() and target.has_all()
    is_over = pump((client, target), lambda: client.is_over and target.is_over, 5)
    ended = time.monotonic()
    faults = []
    if not is_whole and 1000 * (ended - opened) < STALL_MS - 100:
        faults.append("bytes before a stall are lost")
    elif not is_whole:
        # Where this process or the relay isn't run for so long, the idle time is over before all was sent, or read.
        faults.append(f"a stall of {STALL_MS} ms ended a connection that wasn't through")
    most, least = 1000 * (ended - max(opened, client.sent_at, target.sent_at)), 1000 * (ended - seen)
    if not is_over or most < STALL_MS - 100 or least > STALL_MS + 1_000:
        faults.append(f"a stall of {STALL_MS} ms was ended after {least:.0f} to {most:.0f} ms")
    outcome.add(client, target, faults)


def refused(lane, rng, outcome):
    """Nobody is at the target: the client sees an end, and nothing counts."""
    client = End(connect(lane.listen), stream(rng, rng.choice((0, 1, 9_999))), b"", rng)
    is_over = pump((client,), lambda: client.is_done(), SECONDS)
    client.sent = 0
    nobody = End(socket.socket(), b"", b"", rng)
    outcome.add(client, nobody, [] if is_over else ["a refused target left its client waiting"])


def cut(lane, rng, outcome):
    """An exchange that one end resets, or stops to read, or that goes through if the admin session lets it."""
    client, target = ends_of(lane, rng, some_size(rng), some_size(rng))
    one, other = rng.sample((client, target), 2)
    if rng.random() < 0.7:
        one.resets_at = rng.randint(0, len(one.sends))
    is_done = pump((client, target), lambda: one.is_done() and other.is_done(), SECONDS)
    outcome.add(client, target, [] if is_done else ["a connection that was cut didn't end"])


def stop_reading(lane, rng, outcome):
    """The target reads nothing until the idle time is over; then what it finds is a front of what was sent."""
    client, target = ends_of(lane, rng, rng.randint(8, 16) * MEGABYTE, 0)
    target.reads, target.holds_open, client.reads = False, True, True
    began = time.monotonic()
    faults = [] if pump((client, target), lambda: client.is_over, SECONDS) else ["a full connection didn't end"]
    if time.monotonic() - began < STALL_MS / 1000 - 0.1:
        faults.append("a full connection was ended before its idle time")
    target.reads = True
    pump((client, target), lambda: target.is_over, SECONDS)
    outcome.add(client, target, faults)


WORK = {"whole": exchange, "stall": stall, "refused": refused, "rough": cut, "full": stop_reading}


def work(lane, count, seed):
    rng, outcome = random.Random(seed), Outcome()
    for _ in range(count):
        WORK[lane.kind](lane, rng, outcome)
    return outcome


LANES = []


def work_at(at, count, seed):
    return work(LANES[at], count, seed)


def run_lanes(kinds, count, seed):
    """Shares connections out over the lanes of some kinds, each in a process of its own, and gives the outcomes."""
    chosen = [at for at, lane in enumerate(LANES) if lane.kind in kinds]
    counts = [count // len(chosen) + (place < count % len(chosen)) for place in range(len(chosen))]
    with multiprocessing.get_context("fork").Pool(len(chosen)) as pool:
        begun = [pool.apply_async(work_at, (at, each, f"{seed} {at}")) for at, each in zip(chosen, counts)]
        return [it.get(600) for it in begun]


def make_lanes(folder, plan):
    """One lane for each kind, idle time and pair of address families."""
    LANES.clear()
    pairs = [(a, b) for a in ("tcp", "unix") for b in ("tcp", "unix")]
    for kind, idle, copies in plan:
        for listen, target in pairs * copies:
            LANES.append(Lane(folder, len(LANES), kind, listen, target, idle))
    return "".join(lane.rule for lane in LANES)
