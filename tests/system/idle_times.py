"""What an idle time and a session's deadline do to a connection: none ends before its moment, and each ends by what comes first.

    python3 tests/system/idle_times.py [STAGE]..

idle        an idle time ends a connection of which one way is silent, also beside traffic, and one whose writes stall.
asked       a session's deadline ends a connection earlier, later or never, as it was said last, until the next read or write.
without     the same where the rule has no idle time: then a deadline stands beside traffic, until it is lifted.
"""
import sys
import time

sys.path.insert(1, f"{sys.path[0]}/..")
from lib.checks import Checks
from lib.relay import Session
from lib.served import Served
from lib.stages import options, run_stages
from lib.talk import both_ways, passes, seconds_until_end
from lib.waiting import wait_until

IDLE_MS = 300
# A machine that is full of other work may be late; none is early.
LATE = 10
# A clock may be read a little before the call that sets a moment.
EARLY = 0.005
# How often a connection is opened anew whose idle time was over before all was said.
TRIES = 20


class Opened:
    """A connection of a rule, with the ids of its sides, over which a byte has passed each way, and that has these deadlines then."""

    def __init__(self, served, session, deadlines):
        before = session.ids()
        self.ask, self.ends, opened = session.ask, served.open(), time.monotonic()
        self.ids = session.new_ids(before)
        # (a way's idle time begins anew as the relay reads, which may be long before the byte is seen here)
        self.began = time.monotonic()
        self.is_ready = len(self.ids) == 2 and both_ways(*self.ends) and all(self.deadline(*it) == "ok" for it in deadlines)
        self.took = time.monotonic() - opened

    def deadline(self, side, when):
        return self.ask(f"deadline {self.ids[side]} {when}")

    def passes_up(self):
        return passes(*self.ends, b"x")

    def ended(self, most=LATE):
        """The seconds since it was opened, or None where it stands so long."""
        if seconds_until_end(self.ends[0], most) is None:
            return None
        return time.monotonic() - self.began

    def close(self):
        for sock in self.ends:
            sock.close()


def opened(served, session, *deadlines, within=IDLE_MS / 1000):
    """A connection that had its deadlines within its idle time, for which a busy machine may need some tries."""
    for _ in range(TRIES):
        it = Opened(served, session, deadlines)
        if it.took < within and not it.is_ready:
            raise RuntimeError("no byte came back, or a deadline was refused")
        if it.took < within:
            return it
        it.close()
    raise RuntimeError("this process was too slow each time")


def ends(checks, name, least, took):
    """It has ended, and not before so many seconds."""
    checks.holds(name, took is not None and took >= least - EARLY, f"after {took} s, not from {least} s on")


def idle(checks, _folder):
    with Served(IDLE_MS) as served, Session(served.relay.admin) as session:
        it = opened(served, session)
        ends(checks, "idle: both ways", 0.3, it.ended())
        it.close()
        it = opened(served, session)
        while time.monotonic() - it.began < LATE and it.passes_up():
            time.sleep(0.005)
        ends(checks, "idle: one way, beside traffic of the other", 0.3, time.monotonic() - it.began)
        it.close()
        it = opened(served, session)
        it.ends[0].settimeout(LATE)
        try:
            while time.monotonic() - it.began < LATE:
                it.ends[0].send(bytes(65_536))
        except OSError:
            pass
        checks.holds("idle: writes that stall", wait_until(lambda: not set(it.ids) & set(session.ids()), LATE), "it stands")
        it.close()


# What is asked of the sides of a connection (0 is the client's), and from when on it ends.
ASKED = [
    ("100 ms before the idle time", [(0, 100)], 0.1),
    ("never of one side: the other's idle time ends it", [(0, "never")], 0.3),
    ("later of both sides", [(0, 700), (1, 700)], 0.7),
    ("earlier after later", [(0, 5_000), (0, 100)], 0.1),
    ("later after earlier: the other's idle time ends it", [(0, 100), (0, 5_000)], 0.3),
    ("at once", [(1, 0)], 0),
]


def asked(checks, _folder):
    with Served(IDLE_MS) as served, Session(served.relay.admin) as session:
        for name, deadlines, least in ASKED:
            it = opened(served, session, *deadlines)
            ends(checks, f"asked: {name}", least, it.ended())
            it.close()
        it = opened(served, session, (0, "never"), (1, "never"))
        checks.expect("asked: never of both sides", None, it.ended(1))
        passed = time.monotonic()
        checks.holds("asked: a byte passes then", it.passes_up(), "it doesn't come")
        checks.holds("asked: and the idle time counts again", it.ended() is not None and time.monotonic() - passed >= 0.3 - EARLY, "it came early, or not")
        it.close()


def without(checks, _folder):
    with Served("never") as served, Session(served.relay.admin) as session:
        it = opened(served, session, (0, 200), within=LATE)
        while time.monotonic() - it.began < LATE and both_ways(*it.ends):
            time.sleep(0.005)
        ends(checks, "without: a deadline beside traffic", 0.2, time.monotonic() - it.began)
        it.close()
        it = opened(served, session, (0, 1_000), (0, "never"), within=1)
        checks.expect("without: a deadline that is lifted", None, it.ended(1.5))
        checks.holds("without: it goes on", both_ways(*it.ends), "no byte came back")
        checks.expect("without: drained", "ok", session.ask(f"drain {it.ids[0]}"))
        checks.expect("without: no deadline of a side that is drained", "error 409 draining", session.ask(f"deadline {it.ids[0]} 50"))
        it.close()


STAGES = {it.__name__: it for it in (idle, asked, without)}


def main():
    given, checks = options(__doc__, STAGES), Checks()
    run_stages(checks, STAGES, given.stages)
    return checks.end()


if __name__ == "__main__":
    sys.exit(main())
