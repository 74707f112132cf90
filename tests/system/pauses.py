#!/usr/bin/env python3
"""Moments that a relay keeps by itself: pauses after failed accepts, the silence of sessions, and targets that don't answer.

    python3 tests/system/pauses.py [STAGE]..

rule     a rule whose accepts fail sleeps between them, and goes on by itself after a pause.
admin    so does the admin socket, and connections go on meanwhile.
silence  a session that gets nowhere for a minute is ended, and one that gets on isn't.
targets  each target that doesn't answer is given up at its moment.
"""
import contextlib
import resource
import select
import sys
import time

sys.path.insert(1, f"{sys.path[0]}/..")
from lib.c_code import library
from lib.places import LIB
from lib.relay import Relay
from lib.sockets import BlackHole, connect, some_address
from lib.stages import options, run_script
from lib.talk import has_ended, hears, says, seconds_until_end
from lib.tried import WAIT_SECONDS, Tried
from lib.waiting import comes, unhindered

# Longer than the first pauses of accepts that fail, and so long is looked at what they take of a processor then.
UNTIL_IT_PAUSES, LOOKED = 0.1, 0.7
# With this limit a process may open no descriptor more.
NO_MORE = 3
# Each of these clients comes when the rule's pause before is over, and has it fail and pause for twice as long, so that the last pause is no short one.
FAILS_AFTER = (0.02, 0.03, 0.05, 0.1, 0.2, 0.4)
# The relay's clock goes so many times as fast, so that its minute is a second and a half.
FAST, MINUTE = 40, 60 / 40
# How often a session says something in its minute, and how many minutes it does; where this process was too slow for that it is tried anew.
SAYS_A_MINUTE, MINUTES, ROUNDS = 15, 1.6, 4
# How a session is silent: what it says before, and how often. So many replies are more than its socket holds.
SILENCES = (
    ("says nothing", b"", 0),
    ("doesn't end its line", b"list", 1),
    ("takes no reply", b"totals\n", 20_000),
)
# How long a target may take, how much later the second client comes, and the longest from the first that is given up to the second: a loop
# that has no alarm looks after a second. On a machine that is full of other work some rounds take longer.
TIMEOUT_MS, LATER, LONGEST = 300, 0.15, 0.6


def sleeps(it):
    """Sees that a relay whose accepts fail takes an eighth of a processor at most, where it doesn't wait for one."""
    pid = it.relay.process.pid
    time.sleep(UNTIL_IT_PAUSES)
    before, began = sum(it.relay.nanoseconds()), unhindered(pid)
    time.sleep(LOOKED)
    took, passed = (sum(it.relay.nanoseconds()) - before) / 1e9, unhindered(pid) - began
    it.holds("it sleeps between accepts that fail", took * 8 < passed, f"{took:.3f} s of a processor in {passed:.1f} s")


def rule(checks, _):
    with Tried(checks, "rule", loops=1) as it, connect(it.admin, WAIT_SECONDS) as session:
        it.holds("its listener's deadline has come", says(session, b"deadline 1 0\n") and hears(session, b"ok\n"), "it hasn't")
        sleeps(it)
        client = it.client()
        for seconds in FAILS_AFTER:
            time.sleep(seconds)
            it.client()
        with it.relay.stopped():
            it.client()
            session.sendall(b"deadline 1 never\n")
        it.holds("the deadline is lifted", hears(session, b"ok\n"), "it isn't")
        came, _, _ = select.select([it.accepts], [], [], WAIT_SECONDS)
        it.holds("it goes on by itself after a pause", came, "it doesn't")
        if came:
            it.goes("its client is served", client, it.peer(), b"hello")
        it.stop()


@contextlib.contextmanager
def opening_nothing(pid):
    """While a process may open no descriptor."""
    before = resource.prlimit(pid, resource.RLIMIT_NOFILE)
    resource.prlimit(pid, resource.RLIMIT_NOFILE, (NO_MORE, before[1]))
    try:
        yield
    finally:
        resource.prlimit(pid, resource.RLIMIT_NOFILE, before)


def admin(checks, _):
    with Tried(checks, "admin", loops=1) as it:
        ends = it.talking()
        with opening_nothing(it.relay.process.pid):
            session = connect(it.admin, WAIT_SECONDS)
            sleeps(it)
            it.holds("connections go on", ends.pass_both(), "no bytes pass")
        with session:
            it.holds("it goes on by itself after a pause", says(session, b"list\n") and hears(session, b"ids 1 2 3\n"), "it doesn't")
        it.stop("listening 1\nup 6 down 3\n")


def gets_on(session):
    """Whether a session that says something again and again is answered, and whether it was never silent for half of its minute."""
    began = last = time.monotonic()
    longest = 0
    while last - began < MINUTES * MINUTE:
        if not (says(session, b"list\n") and hears(session, b"ids\n")):
            return False, longest < MINUTE / 2
        time.sleep(MINUTE / SAYS_A_MINUTE)
        now = time.monotonic()
        longest, last = max(longest, now - last), now
    return True, longest < MINUTE / 2


def silent(relay, said, times):
    """A session that says this so often, as far as its socket takes it, and reads nothing."""
    sock = connect(f"unix:{relay.admin}", WAIT_SECONDS)
    sock.setblocking(False)
    with contextlib.suppress(BlockingIOError):
        for _ in range(times):
            sock.sendall(said)
    return sock


def was_ended(sock):
    """Whether the other side has gone, by what the system tells: a reply that is read would have the session get on."""
    poll = select.poll()
    poll.register(sock, 0)
    return bool(poll.poll(0))


def silence(checks, folder):
    shim = library(f"{LIB}/fast_clock.c", f"{folder}/fast_clock.so")
    for _ in range(ROUNDS):
        with Relay("", env={"LD_PRELOAD": shim, "FAST": str(FAST)}) as relay:
            has_said, goes_on = (connect(f"unix:{relay.admin}", WAIT_SECONDS) for _ in range(2))
            others = [(how, silent(relay, said, times)) for how, said, times in SILENCES]
            time.sleep(MINUTE / 4)
            checks.holds("silence: one says something", says(has_said, b"list\n") and hears(has_said, b"ids\n"), "it isn't answered")
            stays, was_in_time = gets_on(goes_on)
            if was_in_time:
                checks.holds("silence: a session that gets on stays", stays, "it is ended")
                for how, sock in others:
                    checks.holds(f"silence: a session that {how} ends", comes(lambda sock=sock: was_ended(sock)), "it stays")
                    checks.expect(f"silence: a session behind one that {how}", "ids", relay.ask("list"))
                checks.holds("silence: a session that has said something ends", has_ended(has_said), "it stays")
                return
    checks.holds("silence", False, "this process was too slow each time")


def between_ends(checks):
    """The seconds from the end of one client whose target doesn't answer to that of another, which came later."""
    hole, listens = BlackHole(), some_address()
    rules, words = f"relay dead {listens} {hole.address} never\n", ("--loops", "1", "--connect-timeout", str(TIMEOUT_MS))
    with Relay(rules, options=words) as relay:
        first = connect(listens)
        time.sleep(LATER)
        second = connect(listens)
        ended = [seconds_until_end(it, WAIT_SECONDS) for it in (first, second)]
        checks.holds("targets: both clients see the end", None not in ended, ended)
        relay.stop()
    hole.close()
    return ended[1] if ended[1] is not None else WAIT_SECONDS


def targets(checks, _):
    found = []
    while len(found) < ROUNDS and (not found or found[-1] >= LONGEST):
        found.append(between_ends(checks))
    checks.holds("targets: each is given up at its moment", found[-1] < LONGEST, f"{found} s from one to the other")


STAGES = {it.__name__: it for it in (rule, admin, silence, targets)}


if __name__ == "__main__":
    sys.exit(run_script(__doc__, STAGES))
