#!/usr/bin/env python3
"""Writes a relay's totals and its number of connections for the text-file collector of Prometheus' node exporter. It asks the
admin socket for `totals` and `show`, in a session of its own, and ends.

    python3 examples/prometheus/pollrelay_textfile.py --admin /run/pollrelay/admin.sock \\
        --output /var/lib/prometheus/node-exporter/pollrelay.prom

Run it every 15 seconds or so, as by a timer, as a user that may use the admin socket. Where the relay doesn't answer within
5 seconds, pollrelay_up is 0 and the other values are left out. pollrelay_bytes_total is the same figure as in `--metrics`, which
needs no such script; pollrelay_up and pollrelay_connections are this script's own.
"""
import argparse
import os
import socket

SECONDS = 5


def ask(path):
    """The words of the reply to `totals`, and those of each line of the reply to `show`."""
    with socket.socket(socket.AF_UNIX) as sock:
        sock.settimeout(SECONDS)
        sock.connect(path)
        with sock.makefile("rw", encoding="ascii") as lines:

            def reply(command):
                lines.write(f"{command}\n")
                lines.flush()
                return lines.readline().split()

            totals, shown = reply("totals"), [reply("show")]
            while shown[-1][:1] == ["show"]:
                shown.append(lines.readline().split())
    if shown.pop() != ["end"]:
        raise ValueError("a listing without its end")
    return totals, shown


def metrics(path):
    try:
        totals, shown = ask(path)
        up, down = int(totals[2]), int(totals[4])
    except (OSError, ValueError, IndexError):
        return [("pollrelay_up", "gauge", "Whether the relay answered.", [("", 0)])]
    # A connection has two sides, its client's and its target's.
    connections = sum(words[4:6] == ["side", "client"] for words in shown)
    return [
        ("pollrelay_up", "gauge", "Whether the relay answered.", [("", 1)]),
        (
            "pollrelay_bytes_total",
            "counter",
            "Bytes written to targets (up) and to clients (down).",
            [('{way="up"}', up), ('{way="down"}', down)],
        ),
        ("pollrelay_connections", "gauge", "Clients that are connected to their targets.", [("", connections)]),
    ]


def text_of(found):
    lines = []
    for name, kind, help_text, values in found:
        lines += [f"# HELP {name} {help_text}", f"# TYPE {name} {kind}"]
        lines += [f"{name}{labels} {value}" for labels, value in values]
    return "\n".join(lines) + "\n"


def main():
    words = argparse.ArgumentParser(description=__doc__, formatter_class=argparse.RawDescriptionHelpFormatter)
    for word, meaning in (("--admin", "path of the admin socket"), ("--output", "file to write")):
        words.add_argument(word, required=True, help=meaning)
    given = words.parse_args()
    text = text_of(metrics(given.admin))
    # The collector never sees a part of the file.
    unfinished = f"{given.output}.{os.getpid()}"
    with open(unfinished, "w", encoding="ascii") as file:
        file.write(text)
    os.rename(unfinished, given.output)


if __name__ == "__main__":
    main()
