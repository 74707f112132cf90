#!/usr/bin/env python3
"""What a relay takes of the things that it is started with, as systemd starts a service with sockets (`sd_listen_fds`).

    python3 tests/system/given_sockets.py [STAGE]..

variables   what LISTEN_PID and LISTEN_FDS have to say, so that sockets are handed over.
kinds       listeners at an address that a rule may have are told from all else.
"""
import socket
import sys

sys.path.insert(1, f"{sys.path[0]}/..")
from lib.checks import Checks
from lib.relay import Relay
from lib.sockets import some_address
from lib.stages import options, run_stages

# The most sockets that are handed over.
MOST = 128
# A name, what is said of the process and of the count, how many sockets there are, and how many are handed over.
VARIABLES = (
    ("one", "{own}", "1", 1, 1),
    ("the most", "{own}", str(MOST), MOST, MOST),
    ("more than the most", "{own}", str(MOST + 1), MOST + 1, 0),
    ("none", "{own}", "0", 1, 0),
    ("for another process", "{other}", "1", 1, 0),
    ("not set", "", "", 1, 0),
    ("no count", "{own}", "", 1, 0),
    ("no process", "", "1", 1, 0),
    ("a zero ahead of the count", "{own}", "01", 1, 0),
    ("a zero ahead of the process", "0{own}", "1", 1, 0),
    ("a sign", "{own}", "-1", 1, 0),
    ("a plus", "+{own}", "1", 1, 0),
    ("a space", "{own}", "1 ", 1, 0),
    ("a word", "{own}", "one", 1, 0),
    ("a number that wraps", "{wrapped}", "1", 1, 0),
)
LISTENER, ADDRESS = "no listener", "no address of a rule"


def told_by(sockets, handed):
    """What a relay says to standard error of sockets that none of its rules has, from its start to its end."""
    with Relay(f"relay a {some_address()} {some_address()} never\n", env={}, sockets=sockets, handed=handed) as relay:
        status, totals, _ = relay.stop()
        return status, totals, relay.errors()


def variables(checks, _):
    held = [socket.create_server(("127.0.0.1", 0)) for _ in range(MOST + 1)]
    lines = [f"unused socket tcp:127.0.0.1:{it.getsockname()[1]}\n" for it in held]
    for name, process, count, there, taken in VARIABLES:
        told = told_by(held[:there], {"process": process, "count": count})
        checks.expect(f"variables: {name}", (0, (0, 0), "".join(lines[:taken])), told)
    for it in held:
        it.close()


def at_path(folder, length):
    """A listener at a path of so many bytes."""
    sock = socket.socket(socket.AF_UNIX)
    sock.bind(f"{folder}/{'x' * (length - len(folder) - 1)}")
    sock.listen()
    return sock


def kinds(checks, folder):
    listener = socket.create_server(("127.0.0.1", 0))
    datagrams = socket.socket(socket.AF_INET, socket.SOCK_DGRAM)
    datagrams.bind(("127.0.0.1", 0))
    connection = socket.create_connection(listener.getsockname())
    fit, long = at_path(folder, 100), at_path(folder, 101)
    with open("/proc/self/stat", "rb") as file:
        rows = (
            ("a file", file, LISTENER),
            ("datagrams", datagrams, LISTENER),
            ("a connection", connection, LISTENER),
            ("no port", socket.socket(), ADDRESS),
            ("IPv6", socket.socket(socket.AF_INET6), ADDRESS),
            ("no name", socket.socket(socket.AF_UNIX), ADDRESS),
            ("a path of 101 bytes", long, ADDRESS),
            ("a listener of TCP", listener, None),
            ("a listener at a path", fit, None),
        )
        # One number more than there are things: nothing is open there.
        status, totals, said = told_by([it for _, it, _ in rows], {"count": str(len(rows) + 1)})
    checks.expect("kinds: status and totals", (0, (0, 0)), (status, totals))
    lines = said.splitlines()
    unfit = [(name, number, why) for number, (name, _, why) in enumerate(rows, 3) if why]
    for name, number, why in [*unfit, ("a number that isn't open", 3 + len(rows), LISTENER)]:
        checks.holds(f"kinds: {name}", f"unused socket {number}: {why}" in lines, said)
    wanted = [f"unused socket tcp:127.0.0.1:{listener.getsockname()[1]}", f"unused socket unix:{fit.getsockname()}"]
    checks.expect("kinds: listeners are told by their addresses, in order", wanted, lines[len(unfit) + 1 :])
    checks.expect("kinds: each is told once", len(rows) + 1, len(lines))
    for _, it, _ in rows:
        it.close()


STAGES = {it.__name__: it for it in (variables, kinds)}


def main():
    given = options(__doc__, STAGES)
    checks = Checks()
    run_stages(checks, STAGES, given.stages)
    return checks.end()


if __name__ == "__main__":
    sys.exit(main())
