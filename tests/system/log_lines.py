#!/usr/bin/env python3
"""Starts the built relay with a log, and compares what it says with what went through.

    python3 tests/system/log_lines.py [--small] [--seed N] [file | full | pipe]..

file    100,000 short connections with the log in a file: a line for each, whose bytes add up to the totals and are those that
        the connections carried, with ids that are all different and moments that lie within the run.
full    the log on /dev/full: as many connections as without one, no slower, and `stop` ends within 3 s.
pipe    the log on a pipe that nobody reads: the same. Where it is read before `stop`, its lines and the sum of all `lost N` are
        as many as the connections.

Slower is a median above 1.25 times that of a relay without a log, over rounds of both in turn; a pair of rounds is made once
more where it is. With --small it is 2,000 connections.
"""
import datetime
import fcntl
import os
import random
import statistics
import sys
import threading
import time
from concurrent.futures import ThreadPoolExecutor
from functools import partial

sys.path.insert(1, f"{sys.path[0]}/..")
from lib.checks import Checks
from lib.log_text import read_log
from lib.relay import Relay, allow_descriptors
from lib.sockets import connect, free_port, listener, read_to_end
from lib.stages import options, run_stages

# How many connections are under way at once.
LANES = 16
ROUNDS, RATIO = 7, 1.25
STOP_SECONDS = 3


class Target:
    """Takes connections, reads the size that each asks for, and answers with as many bytes."""

    def __init__(self):
        self.sock, self.address = listener()
        self.sock.settimeout(None)
        for _ in range(LANES):
            threading.Thread(target=self.serve, daemon=True).start()

    def serve(self):
        while True:
            try:
                sock, _ = self.sock.accept()
            except OSError:
                return
            with sock:
                asked = read_to_end(sock)
                sock.sendall(b"y" * int(asked[:8] or b"0"))

    def close(self):
        self.sock.close()


def exchange(address, up, down):
    """Sends so many bytes, of which the first eight say how many are to come back, and gives what came."""
    with connect(address) as sock:
        sock.sendall(f"{down:08}".encode() + b"x" * (up - 8))
        sock.shutdown(1)
        return len(read_to_end(sock))


def make_connections(address, count, seed):
    """So many connections in LANES lanes: the pairs of bytes that they carried, and the faults."""
    def lane(at):
        rng, carried, faults = random.Random(f"{seed} {at}"), [], []
        for _ in range(count // LANES + (at < count % LANES)):
            up, down = rng.randint(8, 400), rng.randint(0, 400)
            try:
                got = exchange(address, up, down)
            except OSError as fault:
                faults.append(repr(fault))
                continue
            if got != down:
                faults.append(f"{got} bytes in place of {down}")
            carried.append((up, down))
        return carried, faults

    with ThreadPoolExecutor(LANES) as pool:
        lanes = list(pool.map(lane, range(LANES)))
    return [pair for carried, _ in lanes for pair in carried], [fault for _, faults in lanes for fault in faults]


class Served:
    """A relay of one rule before a target of its own, with a log or without one."""

    def __init__(self, target, log):
        self.address = f"tcp:127.0.0.1:{free_port()}"
        options = ("--log", log) if log else ()
        self.relay = Relay(f"relay web {self.address} {target.address} never\n", options=options)

    def run(self, checks, name, count, seed):
        """Makes connections, and gives their seconds and what they carried."""
        began = time.monotonic()
        carried, faults = make_connections(self.address, count, seed)
        seconds = time.monotonic() - began
        checks.holds(f"{name}: connections", not faults, f"{len(faults)} faults, first {faults[:1]}")
        return seconds, carried

    def stop(self, checks, name):
        status, totals, seconds = self.relay.stop()
        checks.expect(f"{name}: status", 0, status)
        checks.holds(f"{name}: stopped within {STOP_SECONDS} s", seconds <= STOP_SECONDS, f"{seconds:.2f} s")
        return totals

    def __enter__(self):
        return self

    def __exit__(self, *_):
        self.relay.close()


def moment_of(text):
    return datetime.datetime.strptime(text, "%Y-%m-%dT%H:%M:%S.%fZ").replace(tzinfo=datetime.timezone.utc).timestamp()


def whole_lines(checks, name, text):
    """The lines of a log, each of which has to be one, and the sum of its `lost N`."""
    lines, lost, others = read_log(text)
    checks.holds(f"{name}: each line is one", not others, f"{len(others)} others, first {others[:1]}")
    return lines, lost


def expect_order(checks, name, lines, began, ended):
    """Lines come as connections end: none is more than a second before an earlier one, and all lie within the run."""
    moments = [moment_of(line["moment"]) for line in lines]
    back = sum(1 for one, next_one in zip(moments, moments[1:]) if next_one < one - 1)
    checks.expect(f"{name}: lines far out of order", 0, back)
    checks.holds(f"{name}: moments within the run", all(began - 1 <= it <= ended + 1 for it in moments), "one lies outside")
    # (a client's id is followed by its target's, and connections that began long after others end after them)
    ids = [int(line["client_id"]) for line in lines if line["client_id"] != "-"]
    highest, stragglers = 0, 0
    for id in ids:
        stragglers += id + 2 * 100 * LANES < highest
        highest = max(highest, id)
    checks.holds(f"{name}: ids as connections began", stragglers <= len(ids) // 100, f"{stragglers} of {len(ids)} long after theirs")


def log_in_a_file(target, checks, folder, count, seed):
    path = f"{folder}/log"
    began = time.time()
    with Served(target, path) as served:
        _, carried = served.run(checks, "file", count, seed)
        totals = served.stop(checks, "file")
    ended = time.time()
    with open(path, encoding="utf-8") as file:
        text = file.read()
    checks.holds("file: the last line is whole", text.endswith("\n"), repr(text[-80:]))
    lines, lost = whole_lines(checks, "file", text)
    checks.expect("file: lines and lost ones", len(carried), len(lines) + lost)
    checks.expect("file: none is lost", 0, lost)
    said = [(int(line["up"]), int(line["down"])) for line in lines]
    checks.expect("file: the bytes of each connection", sorted(carried), sorted(said))
    checks.expect("file: the bytes are the totals", totals, (sum(up for up, _ in said), sum(down for _, down in said)))
    ids = [int(line[which]) for line in lines for which in ("client_id", "target_id") if line[which] != "-"]
    checks.expect("file: ids that come twice", 0, len(ids) - len(set(ids)))
    checks.holds("file: a target's id is above its client's", all(a < b for a, b in zip(ids[::2], ids[1::2])), "one isn't")
    checks.expect("file: rules, targets and ends", {("web", target.address, "eof")}, {(it["rule"], it["target"], it["how"]) for it in lines})
    expect_order(checks, "file", lines, began, ended)


def in_turn(checks, name, logged, plain, count, seed):
    """Rounds of both relays in turn: how much longer the one with a log takes, by their medians."""
    times = ([], [])
    for round_at in range(ROUNDS):
        order = [(logged, times[0]), (plain, times[1])]
        for served, seconds in order if round_at % 2 else order[::-1]:
            seconds.append(served.run(checks, name, count, f"{seed} {round_at}")[0])
    ratio = statistics.median(times[0]) / statistics.median(times[1])
    print(f"{name}: {count} connections a round, medians {statistics.median(times[0]):.3f} s with the log and "
          f"{statistics.median(times[1]):.3f} s without, ratio {ratio:.3f}", flush=True)
    return ratio


def no_slower(checks, name, logged, target, count, seed):
    with Served(target, None) as plain:
        ratio = in_turn(checks, name, logged, plain, count, seed)
        if ratio > RATIO:
            ratio = in_turn(checks, name, logged, plain, count, f"{seed} again")
        checks.holds(f"{name}: no slower", ratio <= RATIO, f"{ratio:.3f} times as long, twice")
        plain.stop(checks, f"{name}, without a log")


def log_on_full(target, checks, folder, count, seed):
    with Served(target, "/dev/full") as served:
        no_slower(checks, "full", served, target, max(count // (2 * ROUNDS), LANES), seed)
        served.stop(checks, "full")


class UnreadPipe:
    """A FIFO with a reader that reads nothing before it is told to."""

    def __init__(self, path):
        self.path = path
        os.mkfifo(path)
        self.reader = os.open(path, os.O_RDONLY | os.O_NONBLOCK)
        os.set_blocking(self.reader, True)
        fcntl.fcntl(self.reader, fcntl.F_SETPIPE_SZ, 4_096)

    def read(self):
        """All that comes through the pipe until its writer has ended."""
        parts = []
        while part := os.read(self.reader, 65_536):
            parts.append(part)
        os.close(self.reader)
        return b"".join(parts).decode()


def log_in_a_pipe(target, checks, folder, count, seed):
    pipe = UnreadPipe(f"{folder}/pipe")
    with Served(target, pipe.path) as served:
        no_slower(checks, "pipe", served, target, max(count // (2 * ROUNDS), LANES), seed)
        served.stop(checks, "pipe")
    text = pipe.read()
    # The process's end cuts the last write off where it stood.
    lines, lost = whole_lines(checks, "pipe", text[:text.rfind("\n") + 1])
    checks.holds("pipe: some lines", len(lines) > 0, "none")
    ended = 2 * ROUNDS * max(count // (2 * ROUNDS), LANES)
    checks.holds("pipe: no more than ended", len(lines) + lost <= ended, f"{len(lines)} and {lost} lost of {ended}")
    read_before_the_end(checks, target, UnreadPipe(f"{folder}/read-later"), max(count // 5, 2_000), seed)


def read_before_the_end(checks, target, pipe, count, seed):
    with Served(target, pipe.path) as served, ThreadPoolExecutor(1) as pool:
        _, carried = served.run(checks, "pipe, read later", count, seed)
        reading = pool.submit(pipe.read)
        served.stop(checks, "pipe, read later")
        text = reading.result()
    checks.holds("pipe, read later: the last line is whole", text.endswith("\n"), repr(text[-80:]))
    lines, lost = whole_lines(checks, "pipe, read later", text)
    checks.expect("pipe, read later: lines and lost ones", len(carried), len(lines) + lost)
    checks.holds("pipe, read later: some are lost", lost > 0, "none")


STAGES = {"file": log_in_a_file, "full": log_on_full, "pipe": log_in_a_pipe}


def main():
    given = options(__doc__, STAGES, small=False, seed=1)
    allow_descriptors()
    checks, target = Checks(), Target()
    how = {"count": 2_000 if given.small else 100_000, "seed": given.seed}
    run_stages(checks, {name: partial(it, target, **how) for name, it in STAGES.items()}, given.stages)
    target.close()
    return checks.end()


if __name__ == "__main__":
    sys.exit(main())
