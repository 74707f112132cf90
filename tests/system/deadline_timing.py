"""How late deadlines end reads that wait: 50 tries of 100 ms on the built relay, each set by the admin thread while the poller sleeps.

    python3 tests/system/deadline_timing.py             asks that none is more than 50 ms late; run it on a quiet machine
    python3 tests/system/deadline_timing.py --median    asks that of the median alone, which a busy machine bears too
"""
import statistics
import sys
import time

sys.path.insert(1, f"{sys.path[0]}/..")
from lib.checks import Checks
from lib.relay import Session
from lib.served import Served
from lib.stages import options

TRIES = 50
DEADLINE_MS = 100
MOST_LATE_MS = 50
# Long enough for both reads to be parked and the poller to be asleep.
PAUSE_SECONDS = 0.02


def lateness_ms(served, session):
    """How many milliseconds after its moment a deadline ends a new connection; less than 0 is before it."""
    before = session.ids()
    client, target = served.open()
    with client, target:
        conn = session.new_ids(before)[0]
        time.sleep(PAUSE_SECONDS)
        began = time.monotonic()
        reply = session.ask(f"deadline {conn} {DEADLINE_MS}")
        if reply != "ok":
            raise RuntimeError(f"a deadline was answered {reply!r}")
        client.recv(1)
        return (time.monotonic() - began) * 1000 - DEADLINE_MS


def main():
    checks, given = Checks(), options(__doc__, median=False)
    with Served("never") as served, Session(served.relay.admin) as session:
        late = [lateness_ms(served, session) for _ in range(TRIES)]
    bound = float("inf") if given.median else MOST_LATE_MS
    for at, each in enumerate(late):
        checks.holds("a deadline ends its read in time", 0 <= each <= bound, f"try {at}: {each:.1f} ms after its moment")
    median = statistics.median(late)
    checks.holds("the median is in time", median <= MOST_LATE_MS, f"{median:.1f} ms after its moment")
    print(f"latest: {max(late):.1f} ms after its moment")
    return checks.end()


if __name__ == "__main__":
    sys.exit(main())
