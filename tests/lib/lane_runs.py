"""What has to hold once a relay has served its lanes: the bytes, closes by an admin session, and that nothing is left."""
import os
import time

from lib.ends import pump
from lib.lanes import LANES, SECONDS, Outcome, ends_of, some_size
from lib.waiting import wait_until

STOP_SECONDS = 10


def told(checks, name, outcomes):
    """Takes the outcomes of a run into the checks, and gives their sums."""
    faults = [fault for it in outcomes for fault in it.faults]
    checks.holds(f"{name}: bytes", not faults, f"{len(faults)} times, first {faults[:1]}")
    return [sum(getattr(it, field) for it in outcomes) for field in ("up", "down", "sent_up", "sent_down")]


def is_quiet(relay):
    return wait_until(lambda: relay.ids() == list(range(1, len(LANES) + 1)), 5)


def warm_up(relay):
    """As many connections at once as there are lanes, so that what is kept for reuse is there before it is counted."""
    ends = [lane.open() for lane in LANES if lane.kind != "refused"]
    for sock in [sock for pair in ends for sock in pair]:
        sock.close()
    is_quiet(relay)
    time.sleep(0.2)
    return relay.threads(), relay.descriptors()


def expect_nothing_left(checks, name, relay, before):
    checks.holds(f"{name}: every connection left the table", is_quiet(relay), f"ids {relay.ids()}")
    wait_until(lambda: relay.threads() <= before[0] and relay.descriptors() <= before[1], 5)
    checks.holds(f"{name}: threads", relay.threads() <= before[0], f"{relay.threads()}, at first {before[0]}")
    checks.holds(f"{name}: descriptors", relay.descriptors() <= before[1], f"{relay.descriptors()}, at first {before[1]}")


def expect_end(checks, name, relay):
    """Stops the relay and gives its last totals."""
    status, totals, seconds = relay.stop()
    checks.expect(f"{name}: status", 0, status)
    # (a stop that waited for connections would wait for longer, however busy the machine is)
    checks.holds(f"{name}: stopped within {STOP_SECONDS} s", seconds <= STOP_SECONDS, f"{seconds:.2f} s")
    bound = [lane.listen for lane in LANES if lane.listen.startswith("unix:")]
    left = [it for it in [relay.admin, *(path[5:] for path in bound)] if os.path.lexists(it)]
    checks.expect(f"{name}: Unix paths that are left", [], left)
    return totals


def admin_ends(relay, rng, times, standing):
    """Connections that the admin session ends once all their bytes arrived, beside so many ids that stand. Gives what arrived."""
    # With an idle time the next read could set a deadline of its own after the admin session's.
    outcome, lanes = Outcome(), [lane for lane in LANES if lane.kind == "whole" and lane.idle == "never"]
    for turn in range(times):
        client, target = ends_of(rng.choice(lanes), rng, some_size(rng), some_size(rng))
        client.holds_open = target.holds_open = True
        faults = []
        if not pump((client, target), lambda: client.has_all() and target.has_all(), SECONDS):
            faults.append("an exchange isn't whole before its close")
        wait_until(lambda: len(relay.ids()) == standing + 2, 5)
        ids = relay.ids()[-2:]
        id = rng.choice(ids)
        relay.ask(f"close {id}" if turn % 2 else f"deadline {id} {rng.choice((0, 1, 100))}")
        if not pump((client, target), lambda: client.is_over and target.is_over, 1):
            faults.append("an admin close or deadline didn't end both sides within a second")
        if not wait_until(lambda: not set(ids) & set(relay.ids()), 0.5):
            faults.append("a side's id stays after the connection's end")
        if relay.ask(f"close {id}") != "error 404 no such connection":
            faults.append("a closed id can be closed again")
        outcome.add(client, target, faults)
        if faults:
            break
    return outcome
