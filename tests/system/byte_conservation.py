#!/usr/bin/env python3
"""Starts the built relay and counts bytes at both ends of its connections.

    python3 tests/system/byte_conservation.py [--small] [--all] [--seed N] [whole | rough | drained | many]..

whole   700 connections of 0 to 4 MB both ways at once, half-closed first from either side; targets that refuse, peers
        that stall past the idle time, admin closes and deadlines on quiet connections. The totals are exact.
rough   300 connections, some of which are reset, stalled with full buffers, closed, drained or given a deadline in mid-stream.
        What arrives is a front of what was sent, and the totals lie between what was received and what was sent.
drained 200 connections, one after the other, one side of which is drained in mid-stream, or before its last words. What
        arrives is a front of what was sent, last words arrive whole, and the totals are exactly what arrived.
many    20,000 short connections beside 500 idle ones: no growth of memory, threads or descriptors.

With --small all is a tenth or less; --all names the checks that passed, too.
"""
import random
import socket
import sys
import time
from functools import partial

sys.path.insert(1, f"{sys.path[0]}/..")
from lib.checks import Checks
from lib.ends import pump
from lib.lane_runs import admin_ends, expect_end, expect_nothing_left, is_quiet, told, warm_up
from lib.lanes import LANES, MEGABYTE, SECONDS, STALL_MS, Outcome, ends_of, make_lanes, run_lanes, some_size
from lib.meddler import MEDDLED, Meddler
from lib.relay import Relay, allow_descriptors
from lib.stages import options, run_stages
from lib.waiting import wait_until

# What memory may grow by between the first thousand short connections and the last.
GROWTH_KIB = 256
# How long a worker may take from a write to its next read.
BEGUN_SECONDS = 0.1
# What a worker reads at once until a read has filled its first buffer, so that nothing of as many bytes or fewer is left for a
# second read.
ONE_READ = 1_024


def whole(checks, folder, size, seed):
    rules = make_lanes(folder, [("whole", "never", 2), ("whole", 60_000, 2), ("stall", STALL_MS, 1), ("refused", "never", 1)])
    with Relay(rules) as relay:
        before = warm_up(relay)
        meddler = Meddler(relay, random.Random(seed), ["deadline {id} never", "deadline {id} 86400000"], len(LANES))
        meddler.start()
        outcomes = run_lanes(["whole"], size * 7 // 10, seed)
        meddler.end(checks, "whole")
        outcomes += run_lanes(["stall", "refused"], size // 10, seed)
        outcomes.append(admin_ends(relay, random.Random(seed), size // 20, len(LANES)))
        sums = told(checks, "whole", outcomes)
        expect_nothing_left(checks, "whole", relay, before)
        checks.expect("whole: totals before the end", tuple(sums[:2]), relay.totals())
        checks.expect("whole: totals after stop", tuple(sums[:2]), expect_end(checks, "whole", relay))


def rough(checks, folder, size, seed):
    rules = make_lanes(folder, [("rough", "never", 2), ("rough", 60_000, 2), ("full", STALL_MS, 1)])
    with Relay(rules) as relay:
        before = warm_up(relay)
        commands = ["close {id}", "drain {id}", "deadline {id} 20", "deadline {id} never"]
        meddler = Meddler(relay, random.Random(seed), commands, len(LANES))
        meddler.start()
        outcomes = run_lanes(["rough"], size * 3 // 10, seed)
        meddler.end(checks, "rough")
        outcomes += run_lanes(["full"], size // 25, seed)
        expect_nothing_left(checks, "rough", relay, before)
        open_ends = open_at_stop(seed, size // 25)
        totals = expect_end(checks, "rough", relay)
        outcomes.append(after_stop(open_ends))
        up, down, sent_up, sent_down = told(checks, "rough", outcomes)
        checks.holds("rough: total up", up <= totals[0] <= sent_up, f"received {up}, total {totals[0]}, sent {sent_up}")
        checks.holds("rough: total down", down <= totals[1] <= sent_down, f"received {down}, total {totals[1]}, sent {sent_down}")


def one_way(lane, rng, size):
    """A connection of which one side sends so many bytes and the other none: the sender, the receiver, and the ends in order."""
    is_up = rng.random() < 0.5
    ends = ends_of(lane, rng, size if is_up else 0, 0 if is_up else size)
    sender, receiver = ends if is_up else ends[::-1]
    receiver.holds_open = True
    return sender, receiver, ends


def drain_in_mid_stream(relay, lane, rng):
    """A side is drained while bytes go one way. Whatever the relay wrote arrives, since nobody sends against it."""
    sender, receiver, (client, target) = one_way(lane, rng, some_size(rng))
    wait_until(lambda: len(relay.ids()) == len(LANES) + 2, 5)
    ids, faults, enough = relay.ids()[-2:], [], rng.randint(0, len(sender.sends))
    pump((client, target), lambda: receiver.received >= enough or receiver.is_over, SECONDS)
    id = rng.choice(ids)
    reply = relay.ask(f"drain {id}")
    if reply not in MEDDLED:
        faults.append(f"drain was answered {reply!r}")
    if not pump((client, target), lambda: receiver.is_over and sender.is_shut, SECONDS):
        faults.append("a drained connection whose sender sends doesn't end")
    return ids, (client, target), faults


def last_words(relay, lane, rng):
    """A side is drained that is silent for now: what it then says in one piece arrives whole, and then the end."""
    sender, receiver, (client, target) = one_way(lane, rng, rng.randint(100, ONE_READ))
    sender.chunk, sender.holds_open, faults = ONE_READ, True, []
    words, sender.sends = sender.sends, sender.sends[:1]
    pump((client, target), lambda: receiver.received == 1, SECONDS)
    # The next read begins: only what was begun before a drain goes on.
    pump((client, target), lambda: False, BEGUN_SECONDS)
    ids = relay.ids()[-2:]
    if relay.ask(f"drain {ids[0] if sender is client else ids[1]}") != "ok":
        faults.append("a drain isn't ok")
    if pump((client, target), lambda: receiver.is_over, 0.05):
        faults.append("a drained connection ends in silence")
    sender.sends = words
    if not pump((client, target), lambda: receiver.is_over, SECONDS):
        faults.append("no end follows the last words")
    if receiver.received != len(sender.sends):
        faults.append(f"{receiver.received} of {len(sender.sends)} bytes of the last words arrived")
    return ids, (client, target), faults


def drained(checks, folder, size, seed):
    rules = make_lanes(folder, [("drained", "never", 1), ("drained", 60_000, 1)])
    rng, outcome = random.Random(seed), Outcome()
    with Relay(rules) as relay:
        before = warm_up(relay)
        for turn in range(size // 5):
            drain = last_words if turn % 2 else drain_in_mid_stream
            ids, ends, faults = drain(relay, LANES[turn // 2 % len(LANES)], rng)
            outcome.add(*ends, faults)
            if not wait_until(lambda: not set(ids) & set(relay.ids()), 5):
                outcome.faults.append("the ids of a drained connection stay")
            if relay.totals() != (outcome.up, outcome.down):
                outcome.faults.append(f"totals {relay.totals()}, and {(outcome.up, outcome.down)} arrived")
            if outcome.faults:
                break
        sums = told(checks, "drained", [outcome])
        expect_nothing_left(checks, "drained", relay, before)
        checks.expect("drained: totals after stop", tuple(sums[:2]), expect_end(checks, "drained", relay))


def open_at_stop(seed, count):
    """Connections in mid-stream, whose targets read nothing yet."""
    rng, lanes = random.Random(seed), [it for it in LANES if it.kind == "rough"]
    ends = []
    for at in range(count):
        client, target = ends_of(lanes[at % len(lanes)], rng, 16 * MEGABYTE, 0)
        target.reads, client.holds_open, target.holds_open = False, True, True
        pump((client, target), lambda: False, 0.02)
        ends.append((client, target))
    return ends


def after_stop(ends):
    outcome = Outcome()
    for client, target in ends:
        target.reads = True
        is_over = pump((client, target), lambda: client.is_over and target.is_over, SECONDS)
        outcome.add(client, target, [] if is_over else ["a connection outlived the relay"])
    return outcome


def short(lane):
    """One connection that sends five bytes and gets them back."""
    client, target = lane.open()
    with client, target:
        client.sendall(b"hello")
        target.sendall(target.recv(5, socket.MSG_WAITALL))
        return client.recv(5, socket.MSG_WAITALL) == b"hello"


def resources(relay, idle):
    """Threads, descriptors and memory, once the short connections are gone."""
    wait_until(lambda: len(relay.ids()) == len(LANES) + 2 * idle, 5)
    time.sleep(0.5)
    return relay.threads(), relay.descriptors(), relay.resident_kib()


def many(checks, folder, size, seed):
    shorts, window, idle = size * 20, size, size // 2
    rules = make_lanes(folder, [("short", "never", 1)])
    with Relay(rules) as relay:
        empty = warm_up(relay)
        held = [LANES[at % len(LANES)].open() for at in range(idle)]
        done = sum(short(LANES[0]) for _ in range(window))
        first = resources(relay, idle)
        done += sum(short(LANES[at % 2]) for at in range(shorts - 2 * window))
        done += sum(short(LANES[0]) for _ in range(window))
        last = resources(relay, idle)
        checks.expect("many: short connections that were answered", shorts, done)
        checks.holds("many: threads", last[0] <= first[0], f"{first[0]} after the first {window}, {last[0]} at the end")
        checks.holds("many: descriptors", last[1] <= first[1], f"{first[1]} after the first {window}, {last[1]} at the end")
        checks.holds("many: memory", last[2] <= first[2] + GROWTH_KIB, f"{first[2]} KiB, then {last[2]} KiB")
        print(f"many: threads, descriptors and KiB {first} after the first {window}, {last} after {shorts}", flush=True)
        for sock in [sock for pair in held for sock in pair]:
            sock.close()
        is_quiet(relay)
        wait_until(lambda: relay.descriptors() <= empty[1], 5)
        checks.holds("many: descriptors in the end", relay.descriptors() <= empty[1], f"{relay.descriptors()}, at first {empty[1]}")
        checks.expect("many: totals", (5 * shorts, 5 * shorts), expect_end(checks, "many", relay))


STAGES = {"whole": whole, "rough": rough, "drained": drained, "many": many}


def main():
    given = options(__doc__, STAGES, small=False, all=False, seed=None)
    allow_descriptors()
    checks, how = Checks(given.all), {"size": 100 if given.small else 1_000, "seed": given.seed}
    run_stages(checks, {name: partial(it, **how) for name, it in STAGES.items()}, given.stages)
    return checks.end()


if __name__ == "__main__":
    sys.exit(main())
