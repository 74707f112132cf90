#!/usr/bin/env python3
"""What a new connection takes of the system: how often a relay makes each of its calls for one, and how often it changes threads.

    python3 bench/relay/calls.py [--seconds 2] [--rounds 3] [--at-once 8] [--only NAME,..]

Each relay in turn serves clients that connect, have one byte there and back, and close. The system counts the calls of all its
threads (`perf stat`, by the tracepoints of calls, so it wants root and Debian's linux-perf), and how often one of them gave its processor up.
Printed is the median of the rounds for a connection, of what comes to a hundredth at least. A count costs each call something, so
rates are those of `run.py`, not of this.
"""
import argparse
import os
import re
import signal
import statistics
import subprocess
import sys
import tempfile
import time

from load import build_load
from peers import PEERS, build_go_relay, install, install_missing, versions
from rows import life

TRACING = "/sys/kernel/tracing"
CALLS = (
    "accept4 bind clock_gettime close connect epoll_ctl epoll_pwait epoll_wait fcntl futex getpeername getsockname getsockopt ioctl"
    " nanosleep read recvfrom sched_yield sendto setsockopt shutdown socket splice write writev"
).split()
SWITCHES = "context-switches"
LEAST = 0.01


def counted_events():
    """What is counted: the calls of which this system has a tracepoint, and switches."""
    if not os.path.isdir(f"{TRACING}/events"):
        subprocess.run(["mount", "-t", "tracefs", "none", TRACING], check=True)
    there = (it for it in CALLS if os.path.isdir(f"{TRACING}/events/syscalls/sys_enter_{it}"))
    return [*(f"syscalls:sys_enter_{it}" for it in there), SWITCHES]


def counts_in(text):
    """What `perf stat -x ,` has counted, by names."""
    rows = (line.split(",") for line in text.splitlines() if re.match(r"\d", line))
    return {row[2].removeprefix("syscalls:sys_enter_").split(":")[0]: int(row[0]) for row in rows}


def measure(name, folder, chosen, events):
    with life(name, folder) as (started, load):
        load.ask(f"connects {started.port} {chosen.at_once} 0.3")
        words = ["perf", "stat", "-x", ",", "-e", ",".join(events), "-p", ",".join(map(str, started.pids()))]
        counter = subprocess.Popen(words, stderr=subprocess.PIPE, text=True)
        time.sleep(0.5)  # it has to have found the threads
        _, connections = load.ask(f"connects {started.port} {chosen.at_once} {chosen.seconds}")
        time.sleep(0.2)  # what ended a moment ago is waited for
        counter.send_signal(signal.SIGINT)
        counts = counts_in(counter.communicate(timeout=10)[1])
    return {event: count / connections for event, count in counts.items()}


def main():
    words = argparse.ArgumentParser(description=__doc__, formatter_class=argparse.RawDescriptionHelpFormatter)
    words.add_argument("--seconds", type=float, default=2)
    words.add_argument("--rounds", type=int, default=3)
    words.add_argument("--at-once", type=int, default=8)
    # (socat has a process for each connection, which nobody could count from its start)
    words.add_argument("--only", default=",".join(["pollrelay", *(it for it in PEERS if it != "socat")]))
    chosen = words.parse_args()
    names = chosen.only.split(",")
    install_missing()
    install("perf:linux-perf")
    events = counted_events()
    print("\n".join(versions()), flush=True)
    found = {name: [] for name in names}
    with tempfile.TemporaryDirectory(prefix="calls-") as folder:
        build_load(folder)
        if any(name.startswith("go-") for name in names):
            build_go_relay(folder)
        for _ in range(chosen.rounds):
            for name in names:
                found[name].append(measure(name, folder, chosen, events))
    medians = {name: {it: statistics.median(turn[it] for turn in turns) for it in turns[0]} for name, turns in found.items()}
    calls = sorted({it for by_name in medians.values() for it, count in by_name.items() if count >= LEAST and it != SWITCHES})
    print("| For a connection |" + "".join(f" {name} |" for name in names))
    for it in [*calls, SWITCHES]:
        print(f"| {it} |" + "".join(f" {medians[name].get(it, 0):.2f} |" for name in names))
    print("| calls in all |" + "".join(f" {sum(medians[name].get(it, 0) for it in calls):.1f} |" for name in names))


if __name__ == "__main__":
    sys.exit(main())
