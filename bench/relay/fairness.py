#!/usr/bin/env python3
"""What one bulk stream leaves to others of its loop: turns over 63 connections alone, and beside it, in turn.

    python3 bench/relay/fairness.py [--rounds 7] [--seconds 2] [--loops 1]

Prints the rates of both, round by round, and the ratio of their medians; it ends with 1 where that is below a half.
"""
import argparse
import statistics
import sys
import tempfile
import threading

from load import Load, build_load
from peers import install_missing
from lib.relay import Relay  # (peers has put tests/ on the path)
from lib.sockets import free_port

TURNS = 63


def turns(load, port, seconds):
    took, count, *_ = load.ask(f"turns {port} {TURNS} {seconds}")
    return count / took


def beside_bulk(bulk, bulk_port, load, port, seconds):
    """Turns while the stream runs, which begins before them and ends after them; and the stream's rate in MB/s."""
    told = []
    stream = threading.Thread(target=lambda: told.append(bulk.ask(f"bulk {bulk_port} 1 {seconds + 0.5}")))
    stream.start()
    rate = turns(load, port, seconds)
    stream.join()
    took, count = told[0]
    return rate, count / took / 1e6


def main():
    words = argparse.ArgumentParser(description=__doc__, formatter_class=argparse.RawDescriptionHelpFormatter)
    words.add_argument("--rounds", type=int, default=7)
    words.add_argument("--seconds", type=float, default=2)
    words.add_argument("--loops", type=int, default=1)
    chosen = words.parse_args()
    install_missing()
    alone, beside = [], []
    with tempfile.TemporaryDirectory(prefix="fairness-") as folder:
        build_load(folder)
        bulk, load = Load(folder), Load(folder)
        ports = free_port(), free_port()
        rules = "".join(
            f"relay {name} tcp:127.0.0.1:{port} tcp:127.0.0.1:{it.target} never\n"
            for name, port, it in (("bulk", ports[0], bulk), ("turns", ports[1], load))
        )
        with Relay(rules, options=("--loops", str(chosen.loops))) as relay:
            for number in range(chosen.rounds):
                alone.append(turns(load, ports[1], chosen.seconds))
                rate, stream = beside_bulk(bulk, ports[0], load, ports[1], chosen.seconds)
                beside.append(rate)
                print(f"round {number + 1}: {alone[-1]:.0f} turns/s alone, {rate:.0f} beside a stream of {stream:.0f} MB/s", flush=True)
            relay.stop()
        load.stop()
        bulk.stop()
    ratio = statistics.median(beside) / statistics.median(alone)
    print(f"{ratio:.2f} of the rate is left")
    return 0 if ratio >= 0.5 else 1


if __name__ == "__main__":
    sys.exit(main())
