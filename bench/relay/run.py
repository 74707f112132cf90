#!/usr/bin/env python3
"""Measures pollrelay beside the relays that operators use today, in turn, on the loopback.

    python3 bench/relay/run.py [--rounds 5] [--seconds 2] [--only NAME,..] [--idle-times never,60] [--page FILE] [--plot FILE] [--small]

Each relay is measured twice: without an idle time, and with one of a minute. A round starts each relay once for each, with the
first one changing from round to round, runs all rows through it, and stops it. One load generator (load.c) is both the clients
and the target and compares the counts of both ends. POLLRELAY names another program than crates/pollrelay/out/pollrelay, and a
NAME with a slash is another build of it, to compare. What is missing of gcc, haproxy, nginx-light with libnginx-mod-stream,
socat and golang-go is installed.
"""
import argparse
import sys
import tempfile
import time

import plot
from load import build_load
from peers import NEVER_IDLE, OTHERS, PEERS, build_go_relay, install_missing, versions, written
from rows import measure
from tables import is_rate, medians_of, page_table, table, values_by_row


def idle_time(word):
    """An idle time as an option has it: seconds, or never."""
    return None if word == "never" else int(word)


def arguments():
    words = argparse.ArgumentParser(description=__doc__, formatter_class=argparse.RawDescriptionHelpFormatter)
    words.add_argument("--rounds", type=int, default=5)
    words.add_argument("--seconds", type=float, default=2)
    words.add_argument("--idle-seconds", type=float, default=5)
    words.add_argument("--idle", type=int, default=500, help="how many connections stand idle in the idle row")
    words.add_argument("--idle-times", default="never,60", help="the idle times of the relays, in seconds")
    words.add_argument("--only", default=",".join(["pollrelay", *PEERS, *OTHERS]))
    words.add_argument("--page", metavar="FILE", help="also writes the medians as tables of a page")
    words.add_argument("--plot", metavar="FILE", help="also draws the rows of the first idle time as an SVG in FILE")
    words.add_argument("--small", action="store_true", help="one round of 0.2 s a row: whether it runs")
    chosen = words.parse_args()
    if chosen.small:
        chosen.rounds, chosen.seconds, chosen.idle_seconds, chosen.idle = 1, 0.2, 0.5, 50
    chosen.idle_times = chosen.idle_times.split(",")
    return chosen


def said_of(word):
    return "without an idle time" if word == "never" else f"with an idle time of {word} s"


def measure_all(chosen, names, folder):
    """For each idle time what each relay came to, life by life; and the rows that failed."""
    has_form = lambda name, word: word == "never" or name not in NEVER_IDLE
    results = {word: {name: [] for name in names if has_form(name, word)} for word in chosen.idle_times}
    wrong = []
    for turn in range(chosen.rounds):
        first = turn % len(names)
        for name in names[first:] + names[:first]:
            for word in (it for it in chosen.idle_times if has_form(name, it)):
                print(f"round {turn + 1}: {name} {said_of(word)}", file=sys.stderr, flush=True)
                figures, faults = measure(name, folder, chosen, idle_time(word))
                results[word][name].append(figures)
                for fault in faults:
                    wrong.append(f"round {turn + 1} {said_of(word)}: {fault}")
                    print(f"FAILED {wrong[-1]}", file=sys.stderr, flush=True)
    return results, wrong


def page_of(results, head):
    tables = (f"\n{said_of(word).capitalize()}:\n\n{page_table(found)}" for word, found in results.items())
    return "\n".join([*head, *tables])


def main():
    chosen = arguments()
    names = chosen.only.split(",")
    install_missing()
    head = [time.strftime("%d %B %Y, %H:%M"), *versions()]
    print("\n".join(head), flush=True)
    with tempfile.TemporaryDirectory(prefix="bench-") as folder:
        build_load(folder)
        build_go_relay(folder)
        results, wrong = measure_all(chosen, names, folder)
    print(f"\n{chosen.rounds} rounds of {chosen.seconds} s a row, interleaved: median, least to greatest, ratio to the best of {', '.join(PEERS)}")
    for word, found in results.items():
        print(f"\n== {said_of(word)}")
        table(found)
    if chosen.page:
        written(chosen.page, page_of(results, head))
    if chosen.plot:
        drawn = {row: medians_of(values) for row, values in values_by_row(results[chosen.idle_times[0]]).items() if not row.startswith("longest")}
        written(chosen.plot, plot.picture(drawn, PEERS, is_rate))
    print(f"\n{len(wrong)} rows failed", *wrong, sep="\n")
    return 1 if wrong else 0


if __name__ == "__main__":
    sys.exit(main())
