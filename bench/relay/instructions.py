#!/usr/bin/env python3
"""Counts the instructions that pollrelay's loop takes for a turn: one byte to the target, and one back.

    python3 bench/relay/instructions.py [--pairs 1,64,1960] [--idle-times never,60] [--turns 2000] [PROGRAM..]

The relay has one loop, and runs under valgrind's callgrind, which counts what the processor would execute. A count doesn't move
with the load of the machine, so two programs compare by a few hundred turns. Counted are the turns alone, once every pair has
made one; those of all threads, of which the loop's alone has anything to do. A PROGRAM is a proved build of the relay, and is
crates/pollrelay/out/pollrelay where none is named. (one with run-time checks starts itself anew, out of valgrind's sight) What
is missing of valgrind is installed. It ends with 1 where a byte came back wrong.
"""
import argparse
import os
import re
import socket
import subprocess
import sys
import tempfile

sys.path.insert(0, f"{os.path.dirname(os.path.abspath(__file__))}/../../tests")
from lib.packages import install  # noqa: E402
from lib.places import PROGRAM  # noqa: E402
from lib.relay import Relay  # noqa: E402
from lib.sockets import connect, free_port  # noqa: E402

# A step under callgrind takes some fifty times as long as by itself.
SECONDS = 60


def joined(port, target):
    """Both ends of a connection through the relay."""
    client = connect(f"tcp:127.0.0.1:{port}")
    server, _ = target.accept()
    for end in (client, server):
        end.settimeout(SECONDS)
        end.setsockopt(socket.IPPROTO_TCP, socket.TCP_NODELAY, 1)
    return client, server


def turn(client, server):
    """A byte each way; whether both came."""
    client.sendall(b"a")
    came = server.recv(2)
    server.sendall(b"b")
    return came == b"a" and client.recv(2) == b"b"


def control(word, pid):
    """Has callgrind set its counts to 0 (`zero`), or write them (`dump`)."""
    subprocess.run(["vgdb", f"--pid={pid}", word], stdout=subprocess.DEVNULL, stderr=subprocess.DEVNULL, check=True)


def counted(file):
    """The instructions that a file of callgrind's adds up to."""
    with open(file, encoding="utf-8", errors="replace") as text:
        return int(re.search(r"^(?:summary|totals): (\d+)", text.read(), re.M)[1])


def instructions_a_turn(program, idle, pairs, turns):
    with tempfile.TemporaryDirectory(prefix="counts-") as folder, socket.create_server(("127.0.0.1", 0), backlog=4096) as target:
        port = free_port()
        rules = f"relay bench tcp:127.0.0.1:{port} tcp:127.0.0.1:{target.getsockname()[1]} {idle}\n"
        before = ["valgrind", "--tool=callgrind", f"--callgrind-out-file={folder}/counts"]
        options = ["--loops", "1", "--connections", str(max(512, pairs))]
        with Relay(rules, program=program, before=before, options=options, env={}) as relay:
            ends = [joined(port, target) for _ in range(pairs)]
            is_right = all([turn(*it) for it in ends])
            control("zero", relay.process.pid)
            is_right = all([turn(*ends[it % pairs]) for it in range(turns)]) and is_right
            control("dump", relay.process.pid)
            relay.stop()
        # (the first file has what was counted until the dump, a later one the relay's end)
        return counted(f"{folder}/counts.1") / turns if is_right else None


def main():
    words = argparse.ArgumentParser(description=__doc__, formatter_class=argparse.RawDescriptionHelpFormatter)
    words.add_argument("programs", nargs="*", default=[PROGRAM], metavar="PROGRAM")
    words.add_argument("--pairs", default="1,64,1960")
    words.add_argument("--idle-times", default="never,60", help="in seconds, or never")
    words.add_argument("--turns", type=int, default=2000)
    chosen = words.parse_args()
    install("valgrind:valgrind")
    wrong = 0
    for program in chosen.programs:
        for word in chosen.idle_times.split(","):
            idle = word if word == "never" else 1000 * int(word)
            for pairs in map(int, chosen.pairs.split(",")):
                count = instructions_a_turn(program, idle, pairs, chosen.turns)
                wrong += count is None
                said = "a byte came back wrong" if count is None else f"{count:,.0f} instructions a turn"
                print(f"{program}, idle time {word}, {pairs} pairs: {said}", flush=True)
    return 1 if wrong else 0


if __name__ == "__main__":
    sys.exit(main())
