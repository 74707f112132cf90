#!/usr/bin/env python3
"""How much memory idle connections take of a relay: its resident memory with so many of them, each of which has passed a byte each way.

    python3 bench/relay/memory.py [COUNT]..      0, 500, 2000 and 8000 where none is named; POLLRELAY names the program

Clients and targets are this process's, so it takes two descriptors for each connection, and the relay two.
"""
import os
import sys

sys.path.insert(1, f"{sys.path[0]}/../../tests")
from lib.relay import Relay, allow_descriptors
from lib.sockets import connect, free_port, listener

COUNTS = (0, 500, 2_000, 8_000)
# Connections that wait at once for the target's accept.
AT_ONCE = 100


def opened(address, accepts, count):
    """So many connections, each with both its ends, over which a byte went both ways."""
    clients = [connect(address) for _ in range(count)]
    targets = [accepts.accept()[0] for _ in range(count)]
    for senders, receivers in ((clients, targets), (targets, clients)):
        for it in senders:
            it.sendall(b"x")
        for it in receivers:
            if it.recv(1) != b"x":
                raise RuntimeError("a byte was lost")
    return clients + targets


def resident_kib(pid):
    """The resident memory of a process, as run.py has it: a page that others have too counts by its part."""
    with open(f"/proc/{pid}/smaps_rollup", encoding="ascii") as file:
        return next(int(line.split()[1]) for line in file if line.startswith("Pss:"))


def main():
    counts = sorted(int(it) for it in sys.argv[1:]) or COUNTS
    allow_descriptors(2 * counts[-1] + 1_000)
    accepts, target = listener()
    accepts.listen(AT_ONCE)
    web = f"tcp:127.0.0.1:{free_port()}"
    print(f"Linux {os.uname().release}, load {os.getloadavg()[0]:.1f}", flush=True)
    options = ("--connections", str(max(1, counts[-1])))
    with accepts, Relay(f"relay web {web} {target} never\n", descriptors=2 * counts[-1] + 1_000, options=options) as relay:
        kept = []
        for count in counts:
            while len(kept) < 2 * count:
                kept += opened(web, accepts, min(AT_ONCE, count - len(kept) // 2))
            print(f"{count:6} connections {resident_kib(relay.process.pid):8} KiB", flush=True)
    return 0


if __name__ == "__main__":
    sys.exit(main())
