#!/usr/bin/env python3
"""The processor time of calls that wait over a socket, by two builds of `echo_server` in turn.

    python3 bench/echo_turns.py PROGRAM EARLIER [--rounds N] [--turns N] [--bytes N] [--clock]

PROGRAM and EARLIER are two builds of `crates/echo_server`, or any programs that echo at the port of their first word. In each
run one client sends 8 bytes over loopback, or as many as `--bytes` says, and has them back, so many times: a read that waits
and is woken by the poller's thread, a write, and a deadline that is set anew. The server's processor time counts, of both
kinds, since other work on the machine falls less upon that than upon the clock; with `--clock` the clock counts.
Prints the medians, and the median of the rounds' ratios with the quarters beside it, the least and the greatest.
"""
import argparse
import os
import socket
import statistics
import subprocess
import sys
import time


def free_port():
    with socket.create_server(("127.0.0.1", 0)) as taken:
        return taken.getsockname()[1]


def connected(port):
    for _ in range(10_000):
        try:
            return socket.create_connection(("127.0.0.1", port))
        except ConnectionRefusedError:
            time.sleep(0.001)
    sys.exit("the server doesn't listen")


def nanoseconds(program, turns, size, by_clock):
    """The server's processor time a turn, or that of the clock."""
    port = free_port()
    process = subprocess.Popen([program, str(port), "60000", f"127.0.0.1:{free_port()}"])
    with connected(port) as client:
        client.setsockopt(socket.IPPROTO_TCP, socket.TCP_NODELAY, 1)
        start = time.monotonic_ns()
        for number in range(turns):
            said = number.to_bytes(size, "little")
            client.sendall(said)
            assert client.recv(size, socket.MSG_WAITALL) == said, number
        passed = time.monotonic_ns() - start
    process.terminate()
    _, status, used = os.wait4(process.pid, 0)
    process.returncode = os.waitstatus_to_exitcode(status)
    return (passed if by_clock else 1e9 * (used.ru_utime + used.ru_stime)) / turns


def main():
    words = argparse.ArgumentParser(description=__doc__, formatter_class=argparse.RawDescriptionHelpFormatter)
    words.add_argument("program")
    words.add_argument("earlier")
    words.add_argument("--rounds", type=int, default=21)
    words.add_argument("--turns", type=int, default=20_000)
    words.add_argument("--bytes", type=int, default=8)
    words.add_argument("--clock", action="store_true")
    words = words.parse_args()
    programs, took = (words.program, words.earlier), []
    for number in range(words.rounds):
        order = programs if number % 2 else programs[::-1]
        times = {it: nanoseconds(it, words.turns, words.bytes, words.clock) for it in order}
        took.append([times[it] for it in programs])
    ratios = [now / earlier for now, earlier in took]
    now, earlier = (statistics.median(it) for it in zip(*took))
    low, median, high = statistics.quantiles(ratios, n=4)
    print(f"{now:.0f} ns a turn, earlier {earlier:.0f} ns, ratio {median:.3f} ({low:.3f} to {high:.3f}, "
          f"least {min(ratios):.3f}, greatest {max(ratios):.3f}), {words.rounds} rounds of {words.turns} turns")


if __name__ == "__main__":
    main()
