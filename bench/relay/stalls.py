#!/usr/bin/env python3
"""Looks for a turn through pollrelay that stalls, while every processor is busy with something else: a wake-up that is lost or
late now and then shows here, and not in a median.

    python3 bench/relay/stalls.py [--times 50] [--longest 1.0] [--relay haproxy]

Fifty times 0.3 s of 1-byte turns over 1, 16 and 64 connections, beside two busy processes for each processor. Prints the
longest turn of each, and ends with 1 where one took more than a second.
"""
import argparse
import os
import subprocess
import sys
import tempfile

from load import Load, build_load
from peers import Started, build_go_relay, install_missing

SECONDS = 0.3


def main():
    words = argparse.ArgumentParser(description=__doc__, formatter_class=argparse.RawDescriptionHelpFormatter)
    words.add_argument("--times", type=int, default=50)
    words.add_argument("--relay", default="pollrelay", help="or a peer of run.py, to compare")
    words.add_argument("--longest", type=float, default=1.0)
    chosen = words.parse_args()
    install_missing()
    too_long = 0
    with tempfile.TemporaryDirectory(prefix="stalls-") as folder:
        build_load(folder)
        build_go_relay(folder)
        load = Load(folder)
        started = Started(chosen.relay, folder, load.target)
        busy = [subprocess.Popen(["sh", "-c", "while :; do :; done"]) for _ in range(2 * len(os.sched_getaffinity(0)))]
        try:
            for connections in (1, 16, 64):
                turns = [load.ask(f"turns {started.port} {connections} {SECONDS}") for _ in range(chosen.times)]
                longest = [it[4] / 1e9 for it in turns]
                too_long += sum(it > chosen.longest for it in longest)
                print(f"{connections} connections: {sum(it[1] for it in turns):.0f} turns, longest {max(longest):.3f} s", flush=True)
        finally:
            for process in busy:
                process.kill()
                process.wait()
            started.stop()
            load.stop()
    print(f"{too_long} of {3 * chosen.times} rounds had a turn of more than {chosen.longest} s")
    return 1 if too_long else 0


if __name__ == "__main__":
    sys.exit(main())
