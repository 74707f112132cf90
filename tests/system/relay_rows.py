#!/usr/bin/env python3
"""Single rows of the running relay: ids, closes, drains, deadlines, idle times, listeners, limits.

    python3 tests/system/relay_rows.py [--all] [ROW]..        --all names the checks that passed, too
"""
import os
import random
import resource
import signal
import socket
import sys
import time

sys.path.insert(1, f"{sys.path[0]}/..")
from lib.checks import Checks
from lib.relay import Session, allow_descriptors
from lib.served import WAIT_SECONDS, Served, opens, so_many_pairs
from lib.sockets import connect, is_served
from lib.stages import options, run_stages
from lib.talk import both_ways, heard, seconds_until_end
from lib.waiting import wait_until

# How much later than its moment a deadline may end a connection.
LATE_SECONDS = 0.15
DEFAULT_PAIRS = 512
# As many descriptors as a row asks for, and what a process has beside its pairs'.
MOST_DESCRIPTORS, OTHER_DESCRIPTORS = 20_000, 300


def hello(checks, _):
    """A client half-closes, and has its bytes and the end back."""
    with Served("never") as served:
        client, target = served.open()
        client.sendall(b"hello")
        client.shutdown(socket.SHUT_WR)
        arrived = target.recv(5, socket.MSG_WAITALL)
        checks.expect("hello: the end at the target", b"", target.recv(1))
        target.sendall(arrived)
        target.close()
        checks.expect("hello: what comes back", b"hello", client.recv(6, socket.MSG_WAITALL))
        status, totals, _ = served.relay.stop()
        checks.expect("hello: status and totals", (0, (5, 5)), (status, totals))


def while_frozen(relay, act):
    """Does something of which the relay hears all at once, as it goes on."""
    relay.process.send_signal(signal.SIGSTOP)
    os.waitpid(relay.process.pid, os.WUNTRACED)
    try:
        act()
    finally:
        relay.process.send_signal(signal.SIGCONT)


def next_of(sock, count):
    """The next bytes that arrive, so many or as many as come before the end, and what kept the others."""
    arrived = b""
    try:
        while len(arrived) < count and (data := sock.recv(count - len(arrived))):
            arrived += data
    except OSError as fault:
        return arrived, repr(fault)
    return arrived


def read_stops(checks, _):
    """A read that comes short has not always read all: what follows a stop goes through, though the poller tells of it once."""
    with Served("never", "never") as served, open("/dev/null") as file:
        (client, target), (other_client, other_target) = served.open(0), served.open(1)
        both_ways(client, target), both_ways(other_client, other_target)
        while_frozen(served.relay, lambda: [client.send(b"ab"), client.send(b"!", socket.MSG_OOB), client.send(b"cd")])
        checks.expect("read stops: bytes behind urgent data", b"abcd", next_of(target, 4))
        pieces = [(b"e", []), (b"f", [file.fileno()]), (b"g", []), (b"h", [file.fileno()]), (b"i", [])]
        while_frozen(served.relay, lambda: [socket.send_fds(other_target, [it], fds) for it, fds in pieces])
        checks.expect("read stops: bytes behind those with a descriptor", b"efghi", next_of(other_client, 5))
        client, target = served.open(0)
        both_ways(client, target)
        while_frozen(served.relay, lambda: [client.send(b"end"), client.shutdown(socket.SHUT_WR)])
        checks.expect("read stops: the bytes ahead of an end", b"end", next_of(target, 3))
        checks.expect("read stops: the end behind them", b"", next_of(target, 1))
        while_frozen(served.relay, lambda: [target.send(b"last"), target.close()])
        checks.expect("read stops: the last bytes of the target", b"last", next_of(client, 4))
        checks.expect("read stops: its end", b"", next_of(client, 1))


def ids(checks, _):
    """Listeners first, then the client's side and the target's; ids never come again."""
    with Served("never", "never") as served:
        relay = served.relay
        checks.expect("list: listeners", "ids 1 2", relay.ask("list"))
        first = served.open(0)
        both_ways(*first)
        checks.expect("list: a connection", "ids 1 2 3 4", relay.ask("list"))
        second = served.open(1)
        both_ways(*second)
        checks.expect("close: the client's side", "ok", relay.ask("close 3"))
        checks.holds("close: the target sees the end", seconds_until_end(first[1], 1) is not None, "not in 1 s")
        checks.holds("close: both ids go", wait_until(lambda: relay.ids() == [1, 2, 5, 6], 0.5), relay.ask("list"))
        checks.expect("close: again", "error 404 no such connection", relay.ask("close 3"))
        checks.expect("deadline: of an id that went", "error 404 no such connection", relay.ask("deadline 4 never"))
        checks.expect("close: the target's side", "ok", relay.ask("close 6"))
        checks.holds("close: the client sees the end", seconds_until_end(second[0], 1) is not None, "not in 1 s")
        try:
            third = served.open(0)
            checks.holds("list: after a close the next connection", both_ways(*third), "no byte came back")
        except OSError as fault:
            checks.holds("list: after a close the next connection", False, repr(fault))
        checks.expect("list: ids don't come again", "ids 1 2 7 8", relay.ask("list"))


def many_ids(checks, _):
    """Of 300 connections, one after the other, each takes two ids, and the next one takes the two after them."""
    with Served("never") as served:
        gone = 0
        for _ in range(300):
            pair = served.open()
            both_ways(*pair)
            for sock in pair:
                sock.close()
            if not wait_until(lambda: served.relay.ids() == [1], WAIT_SECONDS):
                break
            gone += 1
        checks.expect("list: connections that went", 300, gone)
        last = served.open()
        both_ways(*last)
        checks.expect("list: after 300 connections", "ids 1 602 603", served.relay.ask("list"))
        for sock in last:
            sock.close()


def deadlines(checks, _):
    """A deadline ends the connection not before its moment, and soon after it, at either side's id."""
    late = []
    with Served("never") as served:
        for turn, milliseconds in enumerate([0, 1, 60, 130, 250, 400] * 3):
            client, target = served.open()
            both_ways(client, target)
            # At any phase of a poll that lasts up to a second.
            time.sleep(random.random() * 0.3)
            id = served.relay.ids()[1 + turn % 2]
            asked = time.monotonic()
            served.relay.ask(f"deadline {id} {milliseconds}")
            answered = time.monotonic()
            if seconds_until_end(client, 3) is None:
                late.append("never")
                continue
            ended = time.monotonic()
            checks.holds("deadline: not early", ended - asked >= milliseconds / 1000, f"{ended - asked:.3f} s for {milliseconds} ms")
            if ended - answered > milliseconds / 1000 + LATE_SECONDS:
                late.append(f"{ended - answered:.3f} s for {milliseconds} ms")
            target.close()
    checks.holds("deadline: within 150 ms, but for one on a loaded machine", len(late) <= 1, f"late {late}")


def lifted(checks, _):
    """`never` takes a deadline away, and a read or write of a rule with an idle time sets its own."""
    with Served("never", 1_000) as served:
        client, target = served.open(0)
        both_ways(client, target)
        served.relay.ask("deadline 3 300")
        checks.expect("deadline: never", "ok", served.relay.ask("deadline 3 never"))
        time.sleep(0.6)
        checks.holds("deadline: lifted", both_ways(client, target), "the connection ended")
        found = None
        for _ in range(10):
            found = lifted_idle(served, 1, 1.0) if found is None else found
        lived, least, most = found or (False, 0, None)
        checks.holds("idle: lifted by the admin session", lived, f"the connection ended: {found}; None is a machine too slow to tell")
        is_so = most is not None and least >= 1.0 and most <= 2.5
        checks.holds("idle: set again by the next read", is_so, f"after {most} s or more, and {least} s or less, for 1 s")


def lifted_idle(served, at, idle_seconds):
    """Whether a connection outlives the idle time that the admin session lifts; and how long after the next byte it ends, from
    that byte's arrival and from its send. None where the machine was too slow to lift the idle time before it had passed."""
    client, target = served.open(at)
    began = time.monotonic()
    both_ways(client, target)
    # The next read of each way begins, and sets the idle time again, a moment after its byte.
    time.sleep(0.2)
    for id in served.relay.ids()[-2:]:
        served.relay.ask(f"deadline {id} never")
    if time.monotonic() - began > 0.9 * idle_seconds:
        return None
    time.sleep(1.5 * idle_seconds)
    sent = time.monotonic()
    lived = both_ways(client, target)
    took = seconds_until_end(client, 5)
    return lived, time.monotonic() - sent, took


def goes_on(served, at, idle_seconds):
    """Whether turns that follow each other sooner than the idle time keep a connection that is older; None where the machine
    was too slow for such turns."""
    client, target = served.open(at)
    began = last = time.monotonic()
    while last - began < 1.3 * idle_seconds:
        time.sleep(0.2)
        before, last = last, time.monotonic()
        if not both_ways(client, target):
            return False if time.monotonic() - before < idle_seconds else None
    return True


def idle(checks, _):
    """A silent connection ends at its idle time, and so does one whose traffic goes one way only."""
    with Served(400, 1_500) as served:
        for first in (False, True):
            client, target = served.open()
            if first:
                both_ways(client, target)
            took = seconds_until_end(client, 3)
            name = "idle: silent after its first byte" if first else "idle: silent from its start"
            checks.holds(name, took is not None and 0.3 <= took <= 0.9, f"{took} s for 0.4 s")
        # Nothing ever comes back: what goes up must not move the deadline of the way down.
        client, target = served.open()
        began = time.monotonic()
        took = None
        while took is None and time.monotonic() - began < 3:
            try:
                client.sendall(b"one way")
                time.sleep(0.02)
                took = time.monotonic() - began if target.recv(100) == b"" else None
            except OSError:
                took = time.monotonic() - began
        checks.holds("idle: the silent way of one-way traffic", took is not None and 0.3 <= took <= 0.9, f"{took} s for 0.4 s")
        answer = None
        for _ in range(10):
            answer = goes_on(served, 1, 1.5) if answer is None else answer
        checks.holds("idle: two-way traffic goes on", answer is True, f"the connection ended: {answer}; None is a machine too slow to tell")


def listeners(checks, _):
    """A deadline on a listener's id keeps it from accepting until it is lifted; a close ends it alone."""
    with Served("never", "never") as served:
        relay = served.relay
        checks.expect("listener: a deadline", "ok", relay.ask("deadline 1 0"))
        time.sleep(0.1)
        client = connect(served.listens[0])
        client.sendall(b"x")
        # Longer than 1,024 faults take where an accept thread waits 1 ms after each.
        served.accepts[0].settimeout(3)
        try:
            served.accepts[0].accept()
            checks.holds("listener: with a deadline", False, "it accepted")
        except TimeoutError:
            checks.holds("listener: with a deadline", True, "")
        checks.holds("listener: another rule goes on", opens(served, 1), "no byte came back")
        relay.ask("deadline 1 never")
        try:
            with served.accepts[0].accept()[0] as target:
                target.settimeout(3)
                target.sendall(target.recv(1))
        except OSError:
            pass
        checks.expect("listener: serves again once its deadline is lifted", b"x", heard(client, 3))
        client.close()
        checks.holds("listener: its connections go", wait_until(lambda: relay.ids() == [1, 2], 1), relay.ask("list"))
        checks.expect("listener: close", "ok", relay.ask("close 1"))
        checks.holds("listener: out of the list", 1 not in relay.ids(), relay.ask("list"))
        checks.holds("listener: refuses", wait_until(lambda: not is_served(served.listens[0]), 1.5), "it still accepts")
        checks.holds("listener: the other one still accepts", opens(served, 1), "no byte came back")


DRAINING = "error 409 draining"


def open_and_wait(served, at=0):
    """A connection through which a byte has gone each way, and both of whose reads wait for more."""
    pair = served.open(at)
    both_ways(*pair)
    time.sleep(0.2)
    return pair


def is_drained(checks, relay, name, id):
    """Drains an id that nobody drained before, and sees what is refused from then on."""
    checks.expect(f"{name}: drain", "ok", relay.ask(f"drain {id}"))
    checks.expect(f"{name}: drain again", DRAINING, relay.ask(f"drain {id}"))
    checks.expect(f"{name}: a deadline afterwards", DRAINING, relay.ask(f"deadline {id} 50"))
    checks.expect(f"{name}: a deadline that is lifted afterwards", DRAINING, relay.ask(f"deadline {id} never"))


def last_words(speaker, hearer):
    """What a side hears of the last that the other says, up to the end that follows; None where no end follows."""
    hearer.settimeout(WAIT_SECONDS)
    try:
        speaker.sendall(b"last words")
        heard = b""
        while data := hearer.recv(100):
            heard += data
        return heard
    except TimeoutError:
        return None
    except OSError:
        return heard


def has_gone(relay, ids):
    return wait_until(lambda: not set(ids) & set(relay.ids()), WAIT_SECONDS)


def drains(checks, _):
    """A drained side still gives what it says next, and takes nothing more; the pair then ends. Silent, it stays."""
    with Served("never") as served:
        relay = served.relay
        checks.expect("drain: an id that is none", "error 404 no such connection", relay.ask("drain 9"))
        client, target = open_and_wait(served)
        is_drained(checks, relay, "drain of the target", 3)
        checks.expect("drain: the other side has its deadlines", "ok", relay.ask("deadline 2 86400000"))
        time.sleep(0.5)
        checks.expect("drain: a silent connection stays", "ids 1 2 3", relay.ask("list"))
        checks.expect("drain: what the drained target says last", b"last words", last_words(target, client))
        checks.holds("drain: the target sees the end", seconds_until_end(target, WAIT_SECONDS) is not None, "no end")
        checks.holds("drain: both ids go", has_gone(relay, [2, 3]), relay.ask("list"))
        checks.expect("drain: an id that went", "error 404 no such connection", relay.ask("drain 3"))
        client, target = open_and_wait(served)
        is_drained(checks, relay, "drain of the client", 4)
        checks.expect("drain: what the drained client says last", b"last words", last_words(client, target))
        client, target = open_and_wait(served)
        is_drained(checks, relay, "drain of the client", 6)
        checks.expect("drain: what is said to a drained client", b"", last_words(target, client))
        checks.holds("drain: the ids of all go", has_gone(relay, [4, 5, 6, 7]), relay.ask("list"))
        # Three bytes that came and went, and what was said last by the drained target and by the drained client.
        status, totals, _ = relay.stop()
        checks.expect("drain: status and totals", (0, (13, 13)), (status, totals))


def drained_in_time(checks, _):
    """A deadline that was set before a drain, an idle time and a close end a drained connection that is silent."""
    with Served("never", 400) as served:
        relay = served.relay
        client, target = open_and_wait(served, 0)
        asked = time.monotonic()
        checks.expect("drain: a deadline before it", "ok", relay.ask("deadline 3 300"))
        checks.expect("drain: after a deadline", "ok", relay.ask("drain 3"))
        ended = seconds_until_end(client, 3)
        checks.holds("drain: the deadline ends it", ended is not None and time.monotonic() - asked >= 0.3, f"{ended} s for 0.3 s")
        client, target = open_and_wait(served, 1)
        began = time.monotonic()
        checks.expect("drain: with an idle time", "ok", relay.ask("drain 5"))
        ended = seconds_until_end(client, 3)
        took = time.monotonic() - began
        checks.holds("drain: the idle time ends it", ended is not None and took <= 0.9, f"{took} s, where 0.4 s had begun before")
        client, target = open_and_wait(served, 0)
        checks.expect("drain: before a close", "ok", relay.ask("drain 7"))
        checks.expect("drain: a close works", "ok", relay.ask("close 7"))
        checks.holds("drain: the close ends it", seconds_until_end(client, 3) is not None, "no end")
        client, target = open_and_wait(served, 0)
        relay.ask("drain 9")
        relay.ask("drain 1")
        status, _, seconds = relay.stop()
        checks.expect("drain: stop with drained ids", 0, status)
        checks.holds("drain: stopped within 2 s", seconds <= 2, f"{seconds:.2f} s")


def drained_listeners(checks, _):
    """A drained listener takes at most the client for which it waited, and is closed; after a deadline it takes none."""
    with Served("never", "never", "never") as served:
        relay = served.relay
        before = open_and_wait(served)
        is_drained(checks, relay, "drain of a listener", 1)
        time.sleep(0.2)
        checks.expect("drain: a listener that waits stays", "ids 1 2 3 4 5", relay.ask("list"))
        checks.holds("drain: the listener takes who it waited for", opens(served, 0), "no byte came back")
        checks.holds("drain: the listener goes", has_gone(relay, [1]), relay.ask("list"))
        checks.holds("drain: the listener refuses", wait_until(lambda: not is_served(served.listens[0]), 1.5), "it still accepts")
        checks.holds("drain: the listener's connection stays", both_ways(*before), "no byte came back")
        relay.ask("deadline 2 0")
        checks.expect("drain: of a listener whose deadline passed", "ok", relay.ask("drain 2"))
        checks.holds("drain: the listener goes at once", has_gone(relay, [2]), relay.ask("list"))
        checks.holds("drain: the listener takes nobody", wait_until(lambda: not is_served(served.listens[1]), 1.5), "it still accepts")
        checks.holds("drain: another listener goes on", opens(served, 2), "no byte came back")


def pairs(checks, _):
    """512 pairs stand at once; the next client is dropped, and served once a pair is gone."""
    so_many_pairs(checks, "pairs", DEFAULT_PAIRS)


def most_pairs(checks, _):
    """As many pairs stand as 20,000 descriptors let, or those that this machine allows."""
    allow_descriptors(MOST_DESCRIPTORS)
    count = (resource.getrlimit(resource.RLIMIT_NOFILE)[0] - OTHER_DESCRIPTORS) // 2
    so_many_pairs(checks, f"{count} pairs", count, f"--connections={count}", descriptors=MOST_DESCRIPTORS)
    allow_descriptors()


def end_targets(accepts):
    """Ends the connections that wait for the target to accept them."""
    accepts.settimeout(0.3)
    try:
        while True:
            accepts.accept()[0].close()
    except TimeoutError:
        accepts.settimeout(WAIT_SECONDS)


def descriptors(checks, _):
    """Where descriptors ran out, the listener serves again once some are free."""
    # A connection takes two: with one of these limits the last is left for an accept, with the other none is.
    for limit in (99, 100):
        with Served("never", descriptors=limit) as served:
            clients = [connect(served.listens[0]) for _ in range(100)]
            # Longer than 1,024 faults take where an accept thread waits 1 ms after each.
            time.sleep(3)
            for client in clients:
                client.close()
            # What went through before comes to the target first.
            answer = wait_until(lambda: end_targets(served.accepts[0]) or opens(served, 0), 8)
            checks.holds("descriptors: served again", answer, f"no byte came back, at a limit of {limit}")
            status, _, _ = served.relay.stop()
            checks.expect("descriptors: status", 0, status)


def asked(session, line):
    """The reply to a line, or None where the session has ended."""
    try:
        return session.ask(line)
    except (OSError, EOFError):
        return None


def sessions(checks, _):
    """Admin sessions stand side by side: an idle one keeps nobody waiting, and stays."""
    with Served("never") as served:
        with Session(served.relay.admin) as first:
            first.ask("list")
            second = connect(f"unix:{served.relay.admin}")
            second.sendall(b"list\n")
            checks.expect("sessions: the next one is served", b"ids 1\n", heard(second, 3))
            checks.expect("sessions: the idle one stays", "ids 1", asked(first, "list"))
        second.close()


ROWS = {it.__name__: it for it in (
    hello, read_stops, ids, many_ids, deadlines, lifted, idle, listeners, drains, drained_in_time, drained_listeners, descriptors,
    sessions, pairs, most_pairs,
)}


def main():
    given = options(__doc__, ROWS, all=False)
    allow_descriptors()
    checks = Checks(given.all)
    run_stages(checks, ROWS, given.stages)
    return checks.end()


if __name__ == "__main__":
    sys.exit(main())
