#!/usr/bin/env python3
"""How many connections a rule has at once, by `connections` of its own in a configuration.

    python3 tests/system/rule_limits.py [STAGE]..

own      a rule has as many as it says, and a rule that says none as many as `connections_per_rule`, or as all.
told     the log and the metrics tell of one client more as of one beyond the general limit of rules.
general  the most connections of all rules hold too: a limit of a rule that is larger lets nobody in beyond them.
words    an option for all rules leaves a rule's own limit.
reloads  a reload raises, lowers, takes away and brings a limit, for new clients alone; a refused one changes nothing.
outlived connections that stand count, though their listener was closed and came back.
"""
import sys

sys.path.insert(1, f"{sys.path[0]}/..")
from lib.configured_relay import relay, reload
from lib.counting_target import CountingTarget
from lib.log_text import logged
from lib.metrics import scrape
from lib.sockets import connect, some_address
from lib.stages import run_script
from lib.waiting import comes

SOON = 10
TARGET = CountingTarget("T")


def rule(listen, own=None, name="web"):
    limit = "" if own is None else f"connections = {own}\n"
    return f'[[rule]]\nname = "{name}"\nlisten = ["{listen}"]\ntarget = [{{ at = "{TARGET.address}" }}]\n{limit}'


def served(address):
    """A client of this address, if it is served."""
    client = connect(address, SOON)
    try:
        if client.recv(1) == b"T":
            return client
    except OSError:
        pass
    client.close()
    return None


def served_of(address, count):
    """Of so many clients, one after the other, those that are served."""
    return [client for client in (served(address) for _ in range(count)) if client]


def close(clients):
    for client in clients:
        client.close()


def stands(it, count):
    """Whether so many connections stand before long."""
    return comes(lambda: it.has_standing(count))


def own(checks, _):
    few, many = some_address(), some_address()
    with relay(rule(few, 2, "few"), rule(many, name="many"), more="connections_per_rule = 4\n") as it:
        clients = served_of(few, 2)
        checks.expect("own: as many as it says", 2, len(clients))
        checks.expect("own: one client more than the limit", None, served(few))
        others = served_of(many, 6)
        checks.expect("own: a rule that says none has as many as each", 4, len(others))
        checks.holds("own: those that stand go on", all(has_echo(it) for it in clients + others), "one doesn't")
        clients.pop().close()
        checks.holds("own: the end of one", stands(it, 5), it.ask("show"))
        again = served_of(few, 1)
        checks.expect("own: makes room for one", 1, len(again))
        close(clients + others + again)
    with relay(rule(few, 3, "few"), rule(many, name="many"), more="connections_per_rule = 1\n") as it:
        clients, others = served_of(few, 4), served_of(many, 2)
        checks.expect("own: more than each has", (3, 1), (len(clients), len(others)))
        close(clients + others)
    with relay(rule(few, 1, "few"), rule(many, name="many")) as it:
        clients, others = served_of(few, 2), served_of(many, 6)
        checks.expect("own: without a limit of each", (1, 6), (len(clients), len(others)))
        close(clients + others)


def has_echo(client):
    client.sendall(b"x")
    return client.recv(1) == b"x"


def told(checks, _):
    address, figures = some_address(), some_address()
    with relay(rule(address, 1), more=f'metrics = "{figures}"\n') as it:
        client = served(address)
        checks.expect("told: one more", None, served(address))
        lines = [(line["rule"], line["client_id"], line["target"], line["how"]) for line in logged(f"{it.folder}/log", 1)]
        checks.expect("told: the log", [("web", "-", TARGET.address, "rule full")], lines)
        text = scrape(figures)[1]
        for name, value in (("rule_full", 1), ("full", 0)):
            row = f'pollrelay_rule_refused_total{{rule="web",cause="{name}"}} {value}'
            checks.holds(f"told: the metrics, {name}", row in text, text)
        client.close()


def general(checks, _):
    address, other = some_address(), some_address()
    with relay(rule(address, 100), rule(other, 100, "other"), more="connections = 3\n") as it:
        clients = served_of(address, 2) + served_of(other, 3)
        checks.expect("general: as many as of all", 3, len(clients))
        checks.expect("general: the log", ["full", "full"], [line["how"] for line in logged(f"{it.folder}/log", 2)])
        close(clients)


def words(checks, _):
    address, other = some_address(), some_address()
    with relay(rule(address, 2), rule(other, name="other"), options=("--connections-per-rule", "1")):
        clients, others = served_of(address, 3), served_of(other, 2)
        checks.expect("words: a limit of its own, and that of the option", (2, 1), (len(clients), len(others)))
        close(clients + others)


def reloads(checks, _):
    address = some_address()
    more = "connections_per_rule = 5\n"
    with relay(rule(address, 1), more=more) as it:
        clients = served_of(address, 2)
        checks.expect("before: one", 1, len(clients))
        checks.expect("raised: the reply", "rules 1", reload(it, rule(address, 3), more=more))
        clients += served_of(address, 3)
        checks.expect("raised: the client behind those that stand", 3, len(clients))
        checks.expect("lowered: the reply", "rules 1", reload(it, rule(address, 2), more=more))
        checks.expect("lowered: nobody is let in", None, served(address))
        checks.holds("lowered: nobody is cut off", all(has_echo(client) for client in clients), "one doesn't answer")
        clients.pop().close()
        checks.holds("lowered: two are left", stands(it, 2), it.ask("show"))
        checks.expect("lowered: as many as it says", None, served(address))
        checks.expect("taken away: the reply", "rules 1", reload(it, rule(address), more=more))
        clients += served_of(address, 5)
        checks.expect("taken away: as many as each has", 5, len(clients))
        refused(checks, it, address, more)
        close(clients)


def refused(checks, it, address, more):
    replies = (reload(it, rule(address, 50_001), more=more), reload(it, rule(address, 9), rule(TARGET.address, name="taken"), more=more))
    wants = ('bad config: rule "web": connections: 50001 is not from 1 to 50000', "cannot listen taken")
    checks.expect("refused: the replies", wants, replies)
    checks.expect("refused: the limit stays", None, served(address))


def outlived(checks, _):
    address = some_address()
    with relay(rule(address, 2)) as it:
        clients = served_of(address, 3)
        checks.expect("outlived: before", 2, len(clients))
        checks.expect("outlived: a close of its listener", "ok", it.ask("close 1"))
        checks.expect("outlived: the reload", "rules 1", reload(it, rule(address, 2)))
        checks.expect("outlived: those that stand count", None, served(address))
        checks.holds("outlived: they go on", all(has_echo(client) for client in clients), "one doesn't answer")
        close(clients)


if __name__ == "__main__":
    sys.exit(run_script(__doc__, {"own": own, "told": told, "general": general, "words": words, "reloads": reloads, "outlived": outlived}))
