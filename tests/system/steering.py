#!/usr/bin/env python3
"""What admin sessions do to connections and listeners, and when a relay ends them by itself.

    python3 tests/system/steering.py [STAGE]..

close          a close of one side ends the pair, once.
deadline       a deadline keeps a listener from accepting until it is lifted, and ends a pair.
silence        a way on which nothing comes ends its pair, each pair after the idle time of its own rule.
drain          a drained side says its last; a drained listener takes one client more, or nobody.
pause          a listener whose accept failed goes on by itself.
sleep          closes and deadlines reach a loop that sleeps.
stalled_close  a close of a connection that stalls is done when it is answered.
stop           a stop ends pairs that stand, and 64 loops that sleep.
finish         a relay that finishes ends with its last connection, at its moment, or by a stop.
finish_rules   a relay that finishes listens for none of its rules, and leaves none of their paths.
finish_last    it ends with the last of two connections, as soon as that has ended or its moment has come.
finish_queue   who waits in a rule's queue when it is told to finish is served.
"""
import os
import sys
import time

sys.path.insert(1, f"{sys.path[0]}/..")
from lib.sockets import connect, is_served
from lib.stages import run_script
from lib.talk import hears
from lib.tried import WAIT_SECONDS, Tried, is_refused
from lib.waiting import TURNS, Asleep, comes

NOBODY = "relay a {0} {3} never\n"
UNKNOWN = "error 404 no such connection\n"
# Longer than a loop takes to its next wait.
UNTIL_IT_WAITS = 0.2
# Faults of an accept, each with a pause that a session looks into.
PAUSES = 30
# Commands that reach a loop that sleeps, longer than it takes to its next sleep, and the longest that all of them may take: a loop
# that isn't woken wakes by itself after a second. On a machine that is full of other work some rounds take longer.
COMMANDS, UNTIL_IT_SLEEPS, LONGEST, ROUNDS = 8, 0.05, 3, 4
# A relay whose loops are all told of a stop sleeps for less than this before it ends: one that isn't told wakes by itself after a second.
LONGEST_ASLEEP = 0.2
# More pieces of 4 KiB than the sockets of a connection hold.
PIECES = 20_000
# How a relay with a connection finishes: the lines, the answer, and whether its connection ends by itself.
FINISHES = (
    ("its last connection ends", "finish 86400000\nlist\nreload\n", "ok\nids 2 3\nerror 409 closed\n", True),
    ("its moment comes", "finish 200\nlist\n", "ok\nids 2 3\n", False),
    ("a second finish is sooner", "finish 86400000\nlist\nfinish 200\n", "ok\nids 2 3\nok\n", False),
    ("a stop comes", "finish 86400000\nlist\nstop\n", "ok\nids 2 3\nok\n", False),
)


def close(checks, _):
    """A close of one side ends the pair, once."""
    with Tried(checks, "close") as it:
        ends = it.ends()
        it.goes("bytes go up", ends.client, ends.peer, b"hello")
        it.comes_to("list\ntotals\n", "ids 1 2 3\ntotals up 5 down 0\n")
        it.answers("close 3\nclose 3\n", f"ok\n{UNKNOWN}")
        it.are_over(ends.client, ends.peer)
        it.comes_to("list\n", "ids 1\n")
        it.stop("listening 1\nup 5 down 0\n")


def deadline(checks, _):
    """A client waits while the listener's deadline has come, and is served once it is lifted; a deadline ends its pair."""
    with Tried(checks, "deadline") as it:
        it.answers("deadline 1 30\n", "ok\n")
        # By then the listener's deadline has come.
        time.sleep(1)
        client = it.client()
        # A thousand faults that follow each other within a millisecond would be over by now.
        time.sleep(1.2)
        it.answers("list\ndeadline 1 never\n", "ids 1\nok\n")
        peer = it.peer()
        it.goes("the client is served", client, peer, b"hello")
        it.answers("deadline 2 30\n", "ok\n")
        it.are_over(client, peer)
        it.stop("listening 1\nup 5 down 0\n")


def silence(checks, folder):
    """The client speaks all the time and the target never: its silence ends the pair."""
    with Tried(checks, "silence", 100) as it:
        began, client, turns = time.monotonic(), it.client(), 0
        it.peer()
        try:
            while turns < TURNS:
                client.sendall(b"x")
                turns += 1
                time.sleep(0.001)
        except OSError:
            pass
        took = time.monotonic() - began
        it.holds("it doesn't end at once", turns > 20 or took >= 0.1, f"after {turns} bytes and {took:.3f} s of 0.1 s")
        it.holds("it ends", turns < TURNS, "the pair goes on")
        it.comes_to("list\n", "ids 1\n")
        it.stop()
    each_idle_time(checks)


def each_idle_time(checks):
    with Tried(checks, "two idle times", rules="relay s {0} {target} 150\nrelay l {1} {target} 60000\n", loops=1) as it:
        stays, ends = it.talking(1), it.talking(0)
        it.are_over(ends.client, what="the short idle time ends its pair")
        it.comes_to("list\n", "ids 1 2 3 4\n")
        it.goes("the long idle time doesn't", stays.client, stays.peer, b"hello")
        it.stop("listening 2\nup 7 down 2\n")


def waiting_pair(it):
    """A pair through which a byte went each way, and both of whose reads wait for more."""
    ends = it.talking()
    time.sleep(UNTIL_IT_WAITS)
    return ends


def drains(it, at, ids):
    """Drains an id, and sees that it is drained, and that these stand as they did."""
    refused = "error 409 draining\n"
    it.answers(f"drain {at}\ndrain {at}\ndeadline {at} 50\nlist\n", f"ok\n{refused}{refused}{ids}")


def drained_side(checks):
    with Tried(checks, "drained side") as it:
        ends = waiting_pair(it)
        drains(it, 3, "ids 1 2 3\n")
        it.goes("what it says last", ends.peer, ends.client, b"hello")
        it.are_over(ends.client, ends.peer)
        it.comes_to("drain 3\nlist\n", f"{UNKNOWN}ids 1\n")
        ends = waiting_pair(it)
        drains(it, 4, "ids 1 4 5\n")
        # What the other side says is read, and then refused.
        ends.peer.sendall(b"hello")
        it.are_over(ends.client, ends.peer, what="each side ends once the other speaks")
        it.stop("listening 1\nup 2 down 7\n")


def drain(checks, _):
    drained_side(checks)
    with Tried(checks, "drained listener") as it:
        first = waiting_pair(it)
        drains(it, 1, "ids 1 2 3\n")
        waiting_pair(it)
        it.comes_to("list\n", "ids 2 3 4 5\n")
        it.holds("nobody listens", is_refused(it.listens[0]), "it listens")
        it.goes("a connection that stood before", first.client, first.peer, b"hello")
        it.stop("listening 1\nup 7 down 2\n")
    with Tried(checks, "drained listener whose deadline passed", rules=NOBODY) as it:
        it.answers("deadline 1 0\ndrain 1\n", "ok\nok\n")
        it.comes_to("list\n", "ids\n")
        it.holds("nobody listens", is_refused(it.listens[0]), "it listens")
        it.stop("listening 1\nup 0 down 0\n")


def pause(checks, _):
    with Tried(checks, "pause", loops=1) as it:
        for _ in range(PAUSES):
            # The first has an accept fail, and the second comes within the pause.
            it.answers("deadline 1 0\n", "ok\n")
            it.answers("deadline 1 never\n", "ok\n")
            it.ends().close()
        it.stop("listening 1\nup 0 down 0\n")


def seconds_of(it, command):
    """How long it takes from such a command on a pair whose loop sleeps to the pair's ends."""
    ends = it.talking()
    time.sleep(UNTIL_IT_SLEEPS)
    began = time.monotonic()
    it.answers(command, "ok\n")
    it.are_over(ends.client, ends.peer, what=f"{command.strip()} ends both sides")
    return time.monotonic() - began


def sleep(checks, _):
    with Tried(checks, "sleep", loops=1) as it:
        rounds, done = [], 0
        while len(rounds) < ROUNDS and (not rounds or rounds[-1] >= LONGEST):
            took = 0
            for turn in range(COMMANDS):
                client = 2 + 2 * done
                took += seconds_of(it, f"deadline {client} 0\n" if turn % 2 else f"close {client}\n")
                done += 1
            rounds.append(took)
        it.holds("the loop is woken", rounds[-1] < LONGEST, f"{COMMANDS} commands took {rounds} s")
        it.comes_to("list\n", "ids 1\n")
        it.stop(f"listening 1\nup {done} down {done}\n")


def stalled_close(checks, _):
    with Tried(checks, "stalled close", loops=1) as it:
        ends = it.ends()
        # The target accepts before both sides have their ids.
        it.comes_to("list\n", "ids 1 2 3\n")
        ends.client.setblocking(False)
        try:
            for _ in range(PIECES):
                ends.client.sendall(bytes(4_096))
            it.holds("it stalls", False, "all pieces were taken")
        except BlockingIOError:
            it.holds("it stalls", True, "")
        it.answers("close 2\nlist\n", "ok\nids 1\n")
        it.stop()


def stop(checks, _):
    with Tried(checks, "stop", 60_000) as it:
        first, second, peer = it.client(), it.client(), it.peer()
        first.sendall(b"hello")
        second.sendall(b"hello")
        it.holds("bytes go up", hears(peer, b"hello"), "not these")
        it.comes_to("list\ntotals\n", "ids 1 2 3 4 5\ntotals up 10 down 0\n")
        it.stop("listening 1\nup 10 down 0\n")
        it.are_over(first, second, peer)
    with Tried(checks, "stop of 64 loops", rules=NOBODY, loops=64) as it:
        it.answers("list\n", "ids 1\n")
        time.sleep(UNTIL_IT_SLEEPS)
        asleep = Asleep(it.relay.process.pid)
        asleep.start()
        it.stop("listening 1\nup 0 down 0\n")
        asleep.join()
        it.holds("each is told", asleep.seconds < LONGEST_ASLEEP, f"the relay slept for {asleep.seconds} s")


def finish(checks, _):
    """It takes nobody more, and ends with its last connection, at its moment, or by a stop; without a connection at once."""
    for name, lines, answer, has_end in FINISHES:
        with Tried(checks, f"finish, {name}") as it:
            ends = it.ends()
            it.holds("bytes go both ways", ends.pass_both(), "they don't")
            it.answers(lines, answer)
            it.holds("nobody is let in", not is_served(it.listens[0]), "a client is")
            if has_end:
                it.holds("bytes go both ways meanwhile", ends.pass_both(), "they don't")
                it.holds("its connection ends", ends.finish(), "it doesn't")
            it.end("listening 1\nup 10 down 4\n" if has_end else "listening 1\nup 5 down 2\n")
            if not has_end:
                it.are_over(ends.client, ends.peer)
    with Tried(checks, "finish without a connection", rules="relay a unix:{folder}/finishes {target} never\n", loops=1) as it:
        path, silent = f"{it.relay.folder}/finishes", connect(it.admin)
        it.expect("its path before", True, os.path.exists(path))
        it.answers("finish 86400000\n", "ok\n")
        it.end("listening 1\nup 0 down 0\n")
        it.expect("its path afterwards", False, os.path.exists(path))
        silent.close()


# Rules of which one that finishes listens for none any more: two at ports, and two at paths.
FOUR = "".join(f"relay {name} {at} {{target}} never\n" for name, at in zip("abcd", ("{0}", "{1}", "unix:{folder}/third", "unix:{folder}/fourth")))
# The longest from a last end, or from the moment of a finish, to the end of the relay: where nobody wakes the main thread's loop, it looks a
# second after its last turn. On a machine that is full of other work some rounds take longer.
LONGEST_END, LAST_ROUNDS = 0.6, 5
# More clients than a relay accepts in the two turns that it takes until it knows that it finishes, and in one beyond them.
QUEUED = 320


def finish_rules(checks, _):
    with Tried(checks, "finish of four rules", rules=FOUR) as it:
        ends = it.talking(1)
        it.answers("finish 86400000\n", "ok\n")
        for at in (0, 1):
            it.holds(f"nobody listens for rule {at + 1}", is_refused(it.listens[at]), "somebody does")
        it.expect("its paths", [], [name for name in ("third", "fourth") if os.path.lexists(f"{it.relay.folder}/{name}")])
        it.holds("its connection ends", ends.finish(), "it doesn't")
        it.end()


def answered(it, lines):
    """What a session answers, or nothing where the relay has ended."""
    try:
        return it.answer(lines)
    except OSError:
        return ""


def ends_soon(it, began):
    """Whether the relay ends so soon after a moment that its main loop was woken."""
    return it.relay.ends_within(WAIT_SECONDS) and time.monotonic() - began < LONGEST_END


def last_end(checks):
    """Of two connections, each of a loop of its own, the first ends, and then the second; and whether the relay ended soon after that."""
    with Tried(checks, "finish with two connections") as it:
        first, second = it.talking(), it.talking()
        it.answers("finish 86400000\n", "ok\n")
        it.holds("the first ends", first.finish(), "it doesn't")
        comes(lambda: answered(it, "list\n") in ("ids 4 5\n", ""))
        it.holds("the second goes on", second.pass_both(), "it doesn't")
        time.sleep(UNTIL_IT_SLEEPS)
        began = time.monotonic()
        it.holds("the second ends", second.finish(), "it doesn't")
        return ends_soon(it, began)


def moment(checks):
    """Whether a relay ended soon after its moment had come.

    The moment comes long after the last turn that the session causes, late as that may be: a turn would do for a wake-up."""
    with Tried(checks, "finish at a moment", loops=1) as it:
        it.talking()
        it.answers("finish 300\n", "ok\n")
        return ends_soon(it, time.monotonic())


def finish_last(checks, _):
    for name, is_soon in (("finish: the last end wakes it", last_end), ("finish: its moment wakes it", moment)):
        is_woken = any(is_soon(checks) for _ in range(LAST_ROUNDS))
        checks.holds(name, is_woken, f"of {LAST_ROUNDS} none ended within {LONGEST_END} s")


def finish_queue(checks, _):
    with Tried(checks, "finish before a queue") as it, connect(it.admin) as session:
        with it.relay.stopped():
            queued = [it.client() for _ in range(QUEUED)]
            session.sendall(b"finish 86400000\n")
        it.holds("it is told to finish", hears(session, b"ok\n"), "it isn't")
        stand = comes(lambda: len(it.relay.ids()) == 2 * len(queued), 2_000)
        it.holds("each client is served", stand, f"{len(it.relay.ids()) // 2} of {len(queued)} are")
        it.answers("stop\n", "ok\n")
        it.end()


STAGES = {it.__name__: it for it in (
    close, deadline, silence, drain, pause, sleep, stalled_close, stop, finish, finish_rules, finish_last, finish_queue,
)}


if __name__ == "__main__":
    sys.exit(run_script(__doc__, STAGES))
