#!/usr/bin/env python3
"""Admin sessions side by side: what one does delays no other, and there are only so many.

    python3 tests/system/sessions.py [STAGE]..

delays    a session that is silent, reads nothing or waits delays no other.
most      one session more has the place of the one that was silent for longest, and of no other.
stopped   a stop is answered behind more sessions that say nothing than may be.
counted   each session that gave way to another is counted.
"""
import sys

sys.path.insert(1, f"{sys.path[0]}/..")
from lib.metrics import scrape
from lib.sockets import connect, some_address
from lib.stages import options, run_script
from lib.talk import has_ended, hears, says
from lib.tried import WAIT_SECONDS, Tried

# The most sessions at once, and so many that say nothing as are more than may be.
MOST, SILENT = 32, 300
# So many beyond the most, each of which takes the place of another.
MORE = 3
# So many replies are more than a socket holds.
UNREAD = 20_000
# What a session says that delays nobody, and how often.
ROWS = (
    ("it says nothing", b"", 0),
    ("its line has no end", b"lis", 1),
    ("it reads no reply", b"show 1\n", UNREAD),
    ("it reads no listing", b"show\n", UNREAD),
    ("it waits for its reply to a reload", b"reload\n", 1),
)


def session_with(it, line, times):
    """A session that has said this so often, as far as its socket took it."""
    sock = connect(it.admin)
    sock.setblocking(False)
    try:
        for _ in range(times):
            sock.sendall(line)
    except OSError:
        pass
    return sock


def delays(checks, _):
    with Tried(checks, "delays", loops=1) as it:
        others = []
        for name, line, times in ROWS:
            others.append(session_with(it, line, times))
            it.answers("list\n", "ids 1\n", f"beside one of which {name}")
        it.stop("listening 1\nup 0 down 0\n")
        for sock in others:
            sock.close()


def told_totals(session):
    """Whether a session is told the totals of a relay that nobody used."""
    return says(session, b"totals\n") and hears(session, b"totals up 0 down 0\n")


def most(checks, _):
    with Tried(checks, "most", loops=1) as it:
        every = [connect(it.admin, WAIT_SECONDS) for _ in range(MOST)]
        # The place of each is taken once it is answered.
        it.expect("so many are answered", [True] * MOST, [told_totals(one) for one in every])
        it.answers("list\n", "ids 1\n", "one more")
        it.holds("the first has gone", has_ended(every[0]), "it goes on")
        it.expect("each other goes on", [True] * (MOST - 1), [told_totals(one) for one in every[1:]])
        for sock in every:
            sock.close()
        it.comes_to("stop\n", "ok\n")
        it.end("listening 1\nup 0 down 0\n")


def stopped(checks, _):
    with Tried(checks, "stopped", loops=1) as it:
        every = [connect(it.admin) for _ in range(SILENT)]
        it.answers("stop\n", "ok\n")
        for sock in every:
            sock.close()
        it.end("listening 1\nup 0 down 0\n")


def counted(checks, _):
    metrics = some_address()
    with Tried(checks, "counted", loops=1, options=("--metrics", metrics)) as it:
        every = [connect(it.admin, WAIT_SECONDS) for _ in range(MOST + MORE)]
        it.expect("those that gave way", [True] * MORE, [has_ended(one) for one in every[:MORE]])
        it.expect("the others are answered", [True] * MOST, [told_totals(one) for one in every[MORE:]])
        lines = scrape(metrics)[1].splitlines()
        for name, count in (("sessions", MOST + MORE), ("dropped_sessions", MORE)):
            it.holds(f"{name}, {count}", f"pollrelay_admin_{name}_total {count}" in lines, lines)
        for sock in every:
            sock.close()
        it.comes_to("stop\n", "ok\n")
        it.end("listening 1\nup 0 down 0\n")


STAGES = {it.__name__: it for it in (delays, most, stopped, counted)}


if __name__ == "__main__":
    sys.exit(run_script(__doc__, STAGES))
