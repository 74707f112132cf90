#!/usr/bin/env python3
"""Reloads by an admin session: what is served afterwards, what becomes of what stood before, and what a refused one leaves.

    python3 tests/system/reloading.py [STAGE]..

rules    a rule that has gone leaves its connection and a new one serves; one with another target keeps its listener.
refused  a reload of bad rules, of a port that is taken or of no file changes nothing.
paths    a path that has gone is removed, and a new one serves.
renewed  a reload renews an idle time, and a listener that a session has closed.
account  what a rule has of its limit and its counts outlives its listener, and its place in the file.
poller   a reload whose listener the poller refuses says so and changes nothing.
prompt   reloads that follow each other are answered at once.
whole    a reload that is refused leaves the target of a rule that stays, and isn't counted.
closed   a listener at a path that a session has closed is back after a reload.
"""
import errno
import os
import select
import sys
import time

sys.path.insert(1, f"{sys.path[0]}/..")
from lib.c_code import library
from lib.metrics import scrape
from lib.places import LIB
from lib.relay import StartFault
from lib.sockets import connect, listener, some_address
from lib.stages import options, run_script
from lib.talk import has_ended
from lib.tried import WAIT_SECONDS, Ends, Tried, is_refused
from lib.waiting import comes

ONE = "relay a {0} {target} {idle}\n"
AT_PATH = "relay a unix:{folder}/%s {target} never\n"
# Reloads, and the longest that all may take: a turn of a loop that nobody wakes lasts a second. On a machine that is full of other work
# some rounds take longer.
RELOADS, LONGEST, ROUNDS = 30, 10, 3


def rules(checks, _):
    with Tried(checks, "gone rule") as it:
        old = it.ends()
        it.holds("before", old.pass_both(), "no bytes pass")
        it.now_rules("relay b {1} {target} never\n")
        it.answers("reload\nlist\n", "rules 1\nids 2 3 4\n")
        it.holds("its listener", is_refused(it.listens[0]), "it listens")
        new = it.ends(1)
        it.holds("the new rule serves", new.pass_both(), "no bytes pass")
        it.holds("a connection that stood before", old.pass_both(), "no bytes pass")
        it.comes_to("list\ntotals\n", "ids 2 3 4 5 6\ntotals up 15 down 6\n")
        it.stop("listening 1\nup 15 down 6\n")
    another_target(checks)


def another_target(checks):
    accepts, second = listener()
    with accepts, Tried(checks, "another target") as it:
        old = it.ends()
        it.holds("before", old.pass_both(), "no bytes pass")
        it.now_rules(f"relay a {{0}} {second} never\n")
        it.answers("reload\nlist\n", "rules 1\nids 1 2 3\n")
        client, (peer, _) = it.client(), accepts.accept()
        peer.settimeout(WAIT_SECONDS)
        it.holds("the new target is reached", Ends(client, peer).pass_both(), "no bytes pass")
        it.holds("a connection that stood before", old.pass_both(), "no bytes pass")
        it.comes_to("list\ntotals\n", "ids 1 2 3 4 5\ntotals up 15 down 6\n")
        it.stop("listening 1\nup 15 down 6\n")
        peer.close()


def is_served(it):
    it.holds("the rule still serves", it.ends().pass_both(), "no bytes pass")


def refused(checks, _):
    """Of two rules the second is bad, or listens where somebody does; nobody listens for the first."""
    with Tried(checks, "refused") as it:
        it.answers("list\n", "ids 1\n", "list before")
        for second, answer in (("nowhere", "bad rules: line 2\nids 1\n"), ("{target} unix:/x never", "cannot listen b\nids 1\n")):
            it.now_rules("relay c {1} unix:/x never\nrelay b " + second + "\n")
            it.answers("reload\nlist\n", answer)
            it.holds("nobody listens for the first rule", is_refused(it.listens[1]), "somebody does")
        is_served(it)
        it.stop("listening 1\nup 5 down 2\n")
    with Tried(checks, "no rules file") as it:
        it.answers("list\n", "ids 1\n")
        os.remove(f"{it.relay.folder}/rules")
        it.answers("reload\nlist\n", "cannot read rules\nids 1\n")
        is_served(it)
        it.now_rules(ONE)
        it.answers("reload\n", "rules 1\n")
        it.stop("listening 1\nup 5 down 2\n")


def byte_at(it, path):
    """Sees that a byte of a client at this path comes to the target."""
    with connect(f"unix:{path}") as client:
        it.goes(f"a byte at {os.path.basename(path)}", client, it.peer(), b"x")


def paths(checks, _):
    with Tried(checks, "path", rules=AT_PATH % "old") as it:
        old, new = f"{it.relay.folder}/old", f"{it.relay.folder}/new"
        it.answers("list\n", "ids 1\n")
        byte_at(it, old)
        it.now_rules(AT_PATH % "new")
        it.answers("reload\n", "rules 1\n")
        it.expect("the path that has gone", False, os.path.lexists(old))
        byte_at(it, new)
        it.stop("listening 1\nup 2 down 0\n")
        it.expect("the path of the relay's end", False, os.path.lexists(new))


def renewed(checks, _):
    with Tried(checks, "renewed", rules=ONE, loops=1) as it:
        old = it.ends()
        it.now_rules(ONE, 50)
        it.answers("reload\n", "rules 1\n")
        new = it.ends()
        it.are_over(new.client, new.peer, what="a connection with the new idle time ends")
        it.holds("one with the old idle time stays", old.pass_both(), "no bytes pass")
        it.now_rules(ONE)
        it.answers("close 1\n", "ok\n")
        it.holds("nobody listens after a close", is_refused(it.listens[0]), "it listens")
        it.answers("reload\n", "rules 1\n", "reload after a close")
        it.comes_to("list\n", "ids 2 3 6\n")
        it.holds("the listener is back", it.ends().pass_both(), "no bytes pass")
        it.stop("listening 1\nup 10 down 4\n")


# More calls than a relay makes until it has reloaded.
MOST_CALLS = 40
LIMIT = 2
FIGURES = (
    'pollrelay_rule_connections{{rule="a"}} {}', 'pollrelay_rule_accepted_total{{rule="a"}} {}',
    'pollrelay_rule_refused_total{{rule="a",cause="rule_full"}} {}', 'pollrelay_rule_bytes_total{{rule="a",way="up"}} {}',
)


def account(checks, _):
    metrics = some_address()
    with Tried(checks, "account", rules=ONE, options=("--connections-per-rule", str(LIMIT), "--metrics", metrics)) as it:
        stand = [it.talking() for _ in range(LIMIT)]
        is_full(it, metrics, "before", 3, 1)
        it.answers("close 1\nreload\n", "ok\nrules 1\n")
        is_full(it, metrics, "after a close of its listener", 4, 2)
        it.now_rules("relay b {1} {target} never\n")
        it.answers("reload\n", "rules 1\n")
        it.now_rules(ONE)
        it.answers("reload\n", "rules 1\n")
        is_full(it, metrics, "after it had gone from the file", 5, 3)
        it.holds("one ends", stand.pop().finish(), "it doesn't")
        tells(it, metrics, FIGURES[0].format(LIMIT - 1))
        it.holds("another has its place", it.talking().pass_both(), "no bytes pass")
        tells(it, metrics, FIGURES[1].format(6))
        it.holds("one that stood before", stand[0].pass_both(), "no bytes pass")
        it.stop()


def tells(it, metrics, line):
    found = []
    it.holds(f"{line} is told", comes(lambda: found.clear() or found.append(scrape(metrics)[1]) or f"\n{line}\n" in found[0], 200), found)


def is_full(it, metrics, when, accepted, dropped):
    """Sees that a rule takes no client more, and what it has counted."""
    it.holds(f"{when}: one more is dropped", has_ended(it.client()), "it stays")
    for line, count in zip(FIGURES, (LIMIT, accepted, dropped, LIMIT)):
        tells(it, metrics, line.format(count))


def poller(checks, folder):
    shim, said = library(f"{LIB}/fail_nth.c", f"{folder}/fail_nth.so"), []
    for at in range(1, MOST_CALLS):
        env = {"LD_PRELOAD": shim, "FAIL_CALL": "epoll_ctl", "FAIL_AT": str(at), "FAIL_WITH": str(errno.ENOSPC)}
        try:
            it = Tried(checks, "poller", rules=ONE, loops=1, env=env)
        except StartFault:
            continue
        with it:
            it.now_rules(ONE + "relay b {1} {target} never\n")
            said.append(reloaded(it))
            if said[-1] != "" and it.relay.errors().endswith("[failed]\n"):
                it.expect("its reply", "error 503 device\n", said[-1])
                it.holds("nobody listens for the new rule", is_refused(it.listens[1]), "somebody does")
                it.answers("list\nreload\n", "ids 1\nrules 2\n")
                it.holds("both serve", it.talking(0).pass_both() and it.talking(1).pass_both(), "no bytes pass")
                it.stop()
                break
    checks.holds("poller: it refuses a session, and then the reload", said[-2:] == ["", "error 503 device\n"], said)


def reloaded(it):
    """The reply to a reload; none where the session is dropped."""
    try:
        return it.answer("reload\n")
    except OSError:
        return ""


def prompt(checks, _):
    with Tried(checks, "prompt", loops=1) as it:
        rounds = []
        while len(rounds) < ROUNDS and (not rounds or rounds[-1] >= LONGEST):
            began = time.monotonic()
            for _ in range(RELOADS):
                it.answers("reload\n", "rules 1\n")
            rounds.append(time.monotonic() - began)
        it.holds("none waits for a turn", rounds[-1] < LONGEST, f"{RELOADS} reloads took {rounds} s")
        it.stop("listening 1\nup 0 down 0\n")


def who_is_reached(it, *accepts):
    """The place of the first of these at which a new client comes out, if one does."""
    it.client()
    came, _, _ = select.select(accepts, [], [], WAIT_SECONDS)
    return [accepts.index(sock) for sock in came]


def whole(checks, _):
    metrics, (accepts, second) = some_address(), listener()
    with accepts, Tried(checks, "whole", options=("--metrics", metrics)) as it:
        it.now_rules(f"relay a {{0}} {second} never\nrelay b {{target}} unix:/x never\n")
        it.answers("reload\n", "cannot listen b\n")
        it.expect("the target of the rule that stays", [0], who_is_reached(it, it.accepts, accepts))
        it.holds("it isn't counted", "pollrelay_reloads_total 0" in scrape(metrics)[1].splitlines(), "it is")
        it.now_rules(f"relay a {{0}} {second} never\n")
        it.answers("reload\n", "rules 1\n")
        it.holds("one that isn't refused is", "pollrelay_reloads_total 1" in scrape(metrics)[1].splitlines(), "it isn't")
        it.stop()


def closed(checks, _):
    with Tried(checks, "closed", rules=AT_PATH % "path") as it:
        path = f"{it.relay.folder}/path"
        it.answers("close 1\nlist\n", "ok\nids\n")
        it.answers("reload\nlist\n", "rules 1\nids 2\n")
        if os.path.exists(path):
            byte_at(it, path)
        it.stop("listening 1\nup 1 down 0\n")


STAGES = {it.__name__: it for it in (rules, refused, paths, renewed, account, poller, prompt, whole, closed)}


if __name__ == "__main__":
    sys.exit(run_script(__doc__, STAGES))
