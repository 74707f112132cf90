#!/usr/bin/env python3
"""Keeps two built relays under mixed load for an hour, and watches that nothing grows and every byte counts once.

    python3 tests/system/soak.py [--minutes 60] [--seed N] [--pause SECONDS]

exact   connections of 0 to 4 MB both ways, half-closed first from either side, stalls past the idle time, targets that refuse,
        admin closes and deadlines on quiet connections, and four connections that live from the first minute to the last.
        Nobody resets, so after each round the totals are exactly what arrived.
rough   the same with resets, full buffers, admin closes, drains and deadlines in mid-stream. What arrives is a front of what was sent,
        and the totals lie between what arrived and what was sent.

Threads, descriptors and memory are taken after each round, when its connections are gone: none is higher in the last tenth
of the rounds than in the first, memory by more than GROWTH_KIB.
"""
import multiprocessing
import queue
import random
import sys
import tempfile
import time

sys.path.insert(1, f"{sys.path[0]}/..")
from lib.checks import Checks
from lib.lane_runs import admin_ends, expect_end, expect_nothing_left, is_quiet, told, warm_up
from lib.lanes import LANES, STALL_MS, make_lanes, run_lanes
from lib.meddler import Meddler
from lib.relay import Relay, allow_descriptors
from lib.stages import FAULTS, options
from lib.talk import both_ways
from lib.waiting import wait_until

GROWTH_KIB = 256
LONG_LIVED = 4
# What a loaded machine makes late or seem early, and the share of connections that may be so.
TIMED = ("a stall of", "an admin close or deadline didn't end", "a full connection was ended before")
LATE_SHARE = 0.02
# A tenth of the rounds has to be enough of them for a highest value.
FEWEST_ROUNDS = 30


class Load:
    """What one relay is put under: the kinds of its lanes, and what its admin session asks while bytes flow."""

    def __init__(self, plan, flowing, waiting, commands):
        self.plan, self.flowing, self.waiting, self.commands = plan, flowing, waiting, commands


EXACT = Load(
    [("whole", "never", 1), ("whole", 60_000, 1), ("stall", STALL_MS, 1), ("refused", "never", 1)],
    ["whole"], ["stall", "refused"], ["deadline {id} never", "deadline {id} 86400000"],
)
ROUGH = Load(
    [("rough", "never", 1), ("rough", 60_000, 1), ("full", STALL_MS, 1)],
    ["rough"], ["full"], ["close {id}", "drain {id}", "deadline {id} 20", "deadline {id} never"],
)


class Soak:
    """One relay under one load."""

    def __init__(self, name, load, relay, checks, rng):
        self.name, self.load, self.relay, self.checks, self.rng = name, load, relay, checks, rng
        self.held = []
        self.sums = [0, 0, 0, 0]
        self.connections = self.asked = 0
        self.late = []
        self.samples = []

    def is_exact(self):
        return self.load is EXACT

    def standing(self):
        """How many ids there are between two rounds."""
        return len(LANES) + 2 * len(self.held)

    def hold(self):
        """Connections that live as long as the load does."""
        if self.is_exact():
            lanes = [lane for lane in LANES if lane.kind == "whole" and lane.idle == "never"]
            self.held = [lanes[at % len(lanes)].open() for at in range(LONG_LIVED)]

    def add(self, outcomes, connections):
        self.connections += connections
        for it in outcomes:
            self.late += [fault for fault in it.faults if fault.startswith(TIMED)]
            it.faults = [fault for fault in it.faults if not fault.startswith(TIMED)]
        for at, count in enumerate(told(self.checks, self.name, outcomes)):
            self.sums[at] += count

    def run_kinds(self, kinds):
        lanes = sum(lane.kind in kinds for lane in LANES)
        self.add(run_lanes(kinds, 2 * lanes, self.rng.random()), 2 * lanes)

    def round(self):
        meddler = Meddler(self.relay, self.rng, self.load.commands, len(LANES))
        meddler.start()
        self.run_kinds(self.load.flowing)
        # A deadline of the session's would keep a stalled connection from its idle time.
        meddler.commands = []
        self.run_kinds(self.load.waiting)
        meddler.end(self.checks, self.name)
        self.asked += meddler.asked
        if self.is_exact():
            self.add([admin_ends(self.relay, self.rng, 2, self.standing())], 2)
            alive = [both_ways(*ends) for ends in self.held]
            self.checks.expect(f"{self.name}: long-lived connections", [True] * len(alive), alive)
            self.sums = [count + len(alive) for count in self.sums]
        self.look()

    def look(self):
        """Resources and totals, once the round's connections are gone."""
        gone = wait_until(lambda: len(self.relay.ids()) == self.standing(), 5)
        self.checks.holds(f"{self.name}: connections of a round are gone", gone, f"ids {self.relay.ids()}")
        at_rest = 2 * len(self.held)
        if self.samples:
            at_rest = self.samples[-1][0]
            wait_until(lambda: self.relay.threads() <= at_rest and self.relay.descriptors() <= self.samples[-1][1], 5)
        else:
            time.sleep(1)
        self.samples.append((self.relay.threads(), self.relay.descriptors(), self.relay.resident_kib()))
        if self.is_exact():
            # What a client has may be credited a moment later.
            wait_until(lambda: self.relay.totals() == tuple(self.sums[:2]), 5)
        self.expect_totals(self.relay.totals())

    def expect_totals(self, totals):
        up, down, sent_up, sent_down = self.sums
        if self.is_exact():
            self.checks.expect(f"{self.name}: totals", (up, down), totals)
        else:
            fits = up <= totals[0] <= sent_up and down <= totals[1] <= sent_down
            self.checks.holds(f"{self.name}: totals", fits, f"{totals}, arrived and sent {self.sums}")

    def expect_flat(self):
        tenth = max(1, len(self.samples) // 10)
        tops = [[max(sample[at] for sample in part) for at in range(3)] for part in (self.samples[:tenth], self.samples[-tenth:])]
        for at, (what, more) in enumerate([("threads", 0), ("descriptors", 0), ("memory", GROWTH_KIB)]):
            first, last = tops[0][at], tops[1][at]
            self.checks.holds(f"{self.name}: {what} stay flat", last <= first + more, f"{first} in the first tenth, {last} in the last")
        most = 1 + LATE_SHARE * self.connections
        self.checks.holds(f"{self.name}: ends in time", len(self.late) <= most, f"{len(self.late)} weren't, first {self.late[:1]}")
        print(
            f"{self.name}: {self.connections} connections in {len(self.samples)} rounds, {self.asked} looks of the admin session, {len(self.late)} ends out of time, "
            f"totals {self.sums[:2]}; threads, descriptors and KiB at most {tops[0]} in the first tenth, {tops[1]} in the last",
            flush=True,
        )


def soak(name, load, minutes, pause, seed, checks):
    with tempfile.TemporaryDirectory(prefix="soak-") as folder:
        rules = make_lanes(folder, load.plan)
        with Relay(rules) as relay:
            before = warm_up(relay)
            run = Soak(name, load, relay, checks, random.Random(f"{seed} {name}"))
            run.hold()
            end = time.monotonic() + 60 * minutes
            while time.monotonic() < end:
                run.round()
                time.sleep(pause)
            for sock in [sock for ends in run.held for sock in ends]:
                sock.close()
            checks.holds(f"{name}: rounds", len(run.samples) >= min(FEWEST_ROUNDS, 2 * minutes), f"{len(run.samples)}")
            run.expect_flat()
            checks.holds(f"{name}: quiet at the end", is_quiet(relay), f"ids {relay.ids()}")
            expect_nothing_left(checks, name, relay, before)
            run.expect_totals(expect_end(checks, name, relay))


def soak_into(results, *words):
    """Runs in a process of its own, since each relay has lanes of its own."""
    checks = Checks()
    try:
        soak(*words, checks)
    except (*FAULTS, multiprocessing.TimeoutError) as fault:
        checks.holds(words[0], False, f"cut short by {fault!r}")
    results.put((words[0], len(checks.passed), checks.failed))


def gather(checks, results, running, seconds):
    """Takes over what each load has checked. A process ends once its result is taken."""
    end = time.monotonic() + seconds
    for _ in running:
        try:
            name, passed, failed = results.get(timeout=max(1, end - time.monotonic()))
            checks.passed += [name] * passed
            checks.failed += failed
        except queue.Empty:
            checks.holds("soak: a load tells its checks", False, f"nothing in {seconds} s")
    for process in running:
        process.join(60)
        if process.exitcode != 0:
            checks.holds("soak: a load ends by itself", False, f"exit code {process.exitcode}")
            process.kill()


def main():
    chosen = options(__doc__, minutes=60.0, pause=0.5, seed=None)
    allow_descriptors()
    checks, results, fork = Checks(), multiprocessing.Queue(), multiprocessing.get_context("fork")
    how = chosen.minutes, chosen.pause, chosen.seed
    running = [
        fork.Process(target=soak_into, args=(results, name, load, *how))
        for name, load in [("exact", EXACT), ("rough", ROUGH)]
    ]
    for process in running:
        process.start()
    gather(checks, results, running, 60 * chosen.minutes + 900)
    return checks.end()


if __name__ == "__main__":
    sys.exit(main())
