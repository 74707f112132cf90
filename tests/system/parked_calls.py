"""Reads that wait take no processor time: clients that send nothing stay connected for a second to the built echo server.

    python3 tests/system/parked_calls.py        the program is the one that ECHO_SERVER names, or else crates/echo_server/out/echo_server
"""
import os
import subprocess
import sys
import time

sys.path.insert(1, f"{sys.path[0]}/..")
from lib.checks import Checks
from lib.places import ROOT
from lib.sockets import connect, free_port, is_served
from lib.stages import options
from lib.waiting import processor_seconds, wait_until

PROGRAM = os.path.abspath(os.environ.get("ECHO_SERVER", f"{ROOT}/crates/echo_server/out/echo_server"))
CLIENTS = 20
# Longer than the script runs, so that no connection ends.
IDLE_MS = 60_000
# The server's poller turns once a second. A read that doesn't park takes a whole processor.
MOST_SECONDS = 0.1


def echoed(client):
    client.sendall(b"hello")
    return client.recv(5) == b"hello"


def main():
    options(__doc__)
    checks, port = Checks(), free_port()
    address = f"tcp:127.0.0.1:{port}"
    with subprocess.Popen([PROGRAM, str(port), str(IDLE_MS), f"127.0.0.1:{free_port()}"]) as server:
        try:
            checks.holds("it listens", wait_until(lambda: is_served(address), 10), "no connection")
            clients = [connect(address) for _ in range(CLIENTS)]
            for at, client in enumerate(clients):
                checks.holds("it gives back what it is sent", echoed(client), f"client {at}")
            time.sleep(0.1)
            before = processor_seconds(server.pid)
            time.sleep(1)
            taken = processor_seconds(server.pid) - before
            checks.holds("who waits takes no processor time", taken <= MOST_SECONDS, f"{taken:.2f} s in a second")
            print(f"{CLIENTS} reads that waited a second took {taken:.2f} s of processor time")
            for client in clients:
                client.close()
        finally:
            server.kill()
    return checks.end()


if __name__ == "__main__":
    sys.exit(main())
