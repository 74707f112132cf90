#!/usr/bin/env python3
"""Where the slow turns of a relay wait: for a processor, which others have, or in the relay itself.

    python3 bench/relay/tail.py [--rounds 5] [--seconds 1] [--connections 64] [--only NAME,..]

Each relay in turn passes 1-byte turns. Printed are the rate, p50 and p99 of a turn, and what the system counted for all of
its threads: the processor time of a turn, how long they were ready and waited for a processor, and how often they were put
on one, each for a turn; and how long they waited each time. Medians over the rounds.
"""
import argparse
import os
import statistics
import sys
import tempfile

from load import build_load
from peers import PEERS, build_go_relay, install_missing, text_of, versions
from rows import life


def scheduled(started):
    """Nanoseconds on a processor, nanoseconds ready and waiting for one, and how often it came on one: of all threads."""
    sums = [0, 0, 0]
    for pid in started.pids():
        for task in os.listdir(f"/proc/{pid}/task"):
            counts = map(int, text_of(f"/proc/{pid}/task/{task}/schedstat").split())
            sums = [had + count for had, count in zip(sums, counts)]
    return sums


def measure(name, folder, connections, seconds):
    with life(name, folder) as (started, load):
        load.ask(f"turns {started.port} {connections} 0.2")
        before = scheduled(started)
        took, turns, half, most, _ = load.ask(f"turns {started.port} {connections} {seconds}")
        ran, waited, times = (after - it for after, it in zip(scheduled(started), before))
    return {
        "turns, 1/s": turns / took,
        "p50, us": half / 1e3,
        "p99, us": most / 1e3,
        "processor a turn, us": ran / turns / 1e3,
        "waited for a processor a turn, us": waited / turns / 1e3,
        "put on a processor a turn": times / turns,
        "waited each time, us": waited / max(1, times) / 1e3,
    }


def main():
    words = argparse.ArgumentParser(description=__doc__, formatter_class=argparse.RawDescriptionHelpFormatter)
    words.add_argument("--rounds", type=int, default=5)
    words.add_argument("--seconds", type=float, default=1)
    words.add_argument("--connections", type=int, default=64)
    # (socat has a process for each connection, whose counts end with it)
    words.add_argument("--only", default=",".join(["pollrelay", *(it for it in PEERS if it != "socat")]))
    chosen = words.parse_args()
    names = chosen.only.split(",")
    install_missing()
    print("\n".join(versions()), flush=True)
    found = {name: [] for name in names}
    with tempfile.TemporaryDirectory(prefix="tail-") as folder:
        build_load(folder)
        build_go_relay(folder)
        for turn in range(chosen.rounds):
            first = turn % len(names)
            for name in names[first:] + names[:first]:
                found[name].append(measure(name, folder, chosen.connections, chosen.seconds))
    print(f"{'':36}" + "".join(f"{os.path.basename(name):>12}" for name in names))
    for row in found[names[0]][0]:
        print(f"{row:36}" + "".join(f"{statistics.median(it[row] for it in found[name]):12.2f}" for name in names))
    return 0


if __name__ == "__main__":
    sys.exit(main())
