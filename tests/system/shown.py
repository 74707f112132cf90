#!/usr/bin/env python3
"""What a session is shown of listeners and connections and since when, and what the log tells of an end.

    python3 tests/system/shown.py [STAGE]..

peers   each id is shown with its rule, side, peer and bytes, also those of one way alone.
paths   a client of a Unix socket is shown with its own path, where it has one of at most 100 bytes.
times   each id is shown since when it stands and is quiet.
lines   a line of the log has all that is known of its connection.
"""
import re
import socket
import sys
import time

sys.path.insert(1, f"{sys.path[0]}/..")
from lib.log_text import logged
from lib.stages import options, run_script
from lib.tried import Tried
from lib.waiting import comes

# How long nothing happens before each thing that does.
SILENCE = 0.3
# Moments that the script doesn't see, each of which lies between two of its marks.
START, ACCEPT, LAST_BYTE, RELOAD = (0, 1), (2, 3), (4, 5), (6, 7)
# What is shown under an id: since when it stands, and since when it is quiet.
TIMES = (
    ("the listener, which accepted last", 1, START, ACCEPT),
    ("the client", 2, ACCEPT, LAST_BYTE),
    ("the target", 3, ACCEPT, LAST_BYTE),
    ("a listener of a reload, which accepted nobody", 4, RELOAD, RELOAD),
)


def comes_to_show(it, id, front):
    """Sees that an id is shown so up to its times, sooner or later."""
    last = []

    def is_so():
        last[:] = [it.answer(f"show {id}\n")]
        return last[0].startswith(front)

    it.holds(f"show {id}", comes(is_so), f"{last} doesn't begin with {front!r}")


def peers(checks, _):
    with Tried(checks, "peers") as it:
        ends = it.ends()
        it.holds("bytes pass", ends.pass_both(), "they don't")
        client = f"tcp:127.0.0.1:{ends.client.getsockname()[1]}"
        for id, side, peer in ((1, "listener", it.listens[0]), (2, "client", client), (3, "target", it.target)):
            comes_to_show(it, id, f"show {id} rule a side {side} peer {peer} up 5 down 2 age ")
        it.answers("show 4\n", "error 404 no such connection\n")
        it.goes("more bytes go up", ends.client, ends.peer, b"more")
        it.holds("bytes of one way alone are shown", comes(lambda: " up 9 down 2 " in it.answer("show 2\n")), it.answer("show 2\n"))
        it.stop("listening 1\nup 9 down 2\n")


def paths(checks, _):
    with Tried(checks, "paths", rules="relay a unix:{folder}/a {target} never\n") as it:
        folder = it.relay.folder
        for id, length in ((2, 0), (4, 100), (6, 101)):
            own = f"{folder}/{'x' * (length - len(folder) - 1)}" if length else ""
            with socket.socket(socket.AF_UNIX) as client:
                if own:
                    client.bind(own)
                client.connect(f"{folder}/a")
                it.peer()
                comes_to_show(it, id, f"show {id} rule a side client peer unix:{own if length == 100 else ''} up 0 down 0 age ")


class Marks:
    """Moments of the script."""

    def __init__(self):
        self.at = [time.monotonic()]

    def now(self):
        self.at.append(time.monotonic())

    def after_a_silence(self):
        time.sleep(SILENCE)
        self.now()

    def bounds(self, moment, asked, told):
        """The least and the most whole milliseconds from such a moment to one between these two."""
        begun, done = (self.at[it] for it in moment)
        return int((asked - done) * 1000) - 1, int((told - begun) * 1000) + 1


def pass_until_shown(it, ends, words, marks):
    """Passes bytes until these are shown of the client: only then its last byte is noted."""
    it.holds("bytes pass", ends.pass_both(), "they don't")
    it.holds(f"shown {words}", comes(lambda: words in it.answer("show 2\n")), it.answer("show 2\n"))
    marks.now()


def time_shown(it, marks, row):
    name, id, age, quiet = row
    asked = time.monotonic()
    shown = it.answer(f"show {id}\n")
    told = time.monotonic()
    for word, moment in (("age", age), ("quiet", quiet)):
        found = re.search(rf" {word} (\d+)\b", shown)
        least, most = marks.bounds(moment, asked, told)
        it.holds(f"{word} of {name}", found is not None and least <= int(found[1]) <= most, f"not {least} to {most}: {shown}")


def times(checks, _):
    marks = Marks()
    with Tried(checks, "times", loops=1) as it:
        it.answers("list\n", "ids 1\n")
        marks.now()
        marks.after_a_silence()
        ends = it.ends()
        pass_until_shown(it, ends, " up 5 down 2 ", marks)
        marks.after_a_silence()
        pass_until_shown(it, ends, " up 10 down 4 ", marks)
        it.now_rules("relay a {0} {target} never\nrelay b {1} {target} never\n")
        marks.after_a_silence()
        it.answers("reload\n", "rules 2\n")
        marks.now()
        marks.after_a_silence()
        for row in TIMES:
            time_shown(it, marks, row)
        it.stop("listening 1\nup 10 down 4\n")


def line_of(rule, ids, client, target, carried, how):
    """A line of the log but for its moment and its milliseconds."""
    names = ("rule", "client_id", "target_id", "client", "target", "up", "down", "how")
    return dict(zip(names, (rule, *ids, f"tcp:127.0.0.1:{client.getsockname()[1]}", target, *carried, how)))


def lines(checks, folder):
    """One loop, so that the lines of the log come as the connections end."""
    log, rules = f"{folder}/log", "relay a {0} {target} never\nrelay b {1} unix:{folder}/gone never\n"
    with Tried(checks, "lines", rules=rules, loops=1, options=("--log", log)) as it:
        first = it.ends()
        it.holds("one passes bytes", first.pass_both(), "it doesn't")
        wanted = [line_of("a", "34", first.client, it.target, "52", "eof")]
        it.holds("and finishes", first.finish(), "it doesn't")
        it.comes_to("list\n", "ids 1 2\n")
        second = it.ends()
        it.holds("another passes twice as much", second.pass_both() and second.pass_both(), "it doesn't")
        wanted.append(line_of("a", "56", second.client, it.target, ("10", "4"), "closed"))
        it.answers("close 5\n", "ok\n")
        it.are_over(second.client, second.peer)
        third = it.client(1)
        wanted.append(line_of("b", "--", third, f"unix:{it.relay.folder}/gone", "00", "no target unreachable"))
        it.are_over(third, what="the third isn't served")
        # The sums of the bytes that the lines tell.
        it.stop("listening 2\nup 15 down 6\n")
        found = logged(log, len(wanted))
        it.expect("its lines", wanted, [{name: line.get(name) for name in wanted[0]} for line in found])


STAGES = {it.__name__: it for it in (peers, paths, times, lines)}


if __name__ == "__main__":
    sys.exit(run_script(__doc__, STAGES))
