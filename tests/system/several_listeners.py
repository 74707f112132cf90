#!/usr/bin/env python3
"""Rules that listen at several addresses, by a configuration: one rule with one limit and one account, and a listener at each address.

    python3 tests/system/several_listeners.py [STAGE]..

served    clients of each address are served, of TCP and of a path; each listener has an id, and `show` tells its address.
families  a rule listens at an address of IPv4 and at one of IPv6 with the same port.
account   the limit of a rule and its counts are of all its listeners together.
closed    a close or a drain of one listener leaves the others; the rule is told not to listen until a reload brings it back.
reloads   a reload adds an address and takes one away; the listeners of the others stay, and so do connections.
moved     an address that goes over to another rule keeps its listener, which serves by the other rule from then on.
first     a rule is found by its first address: a further one that comes first begins its counts anew.
refused   a reload of which one address is taken changes nothing, and leaves no path.
start     a start of which the last address is taken names the rule, and leaves no path.
paths     the path of each address is removed with it: by a reload, by a finish, and by a stop.
finish    a finish lets the clients that wait at each address in.
given     each address takes the socket that the relay was started with there, whose path stays, and binds where none was given.
many      a rule with 16 addresses, and 64 rules with two each, whose descriptors the start counts.
"""
import json
import os
import socket
import sys

sys.path.insert(1, f"{sys.path[0]}/..")
from lib.configured_relay import relay, reload
from lib.counting_target import CountingTarget
from lib.log_text import logged
from lib.metrics import scrape
from lib.relay import StartFault
from lib.sockets import connect, free_port, has_ipv6, listener, some_address
from lib.stages import run_script
from lib.tried import is_refused
from lib.waiting import comes

SOON = 10
A, B = CountingTarget("A"), CountingTarget("B")
PATH = "unix:{folder}/"


def rule(*listens, target=A, name="web", more=""):
    return f'[[rule]]\nname = "{name}"\nlisten = {json.dumps(listens)}\ntarget = [{{ at = "{target.address}" }}]\n{more}'


def placed(it, address):
    """An address with the folder of a relay in it."""
    return address.replace("{folder}", it.folder)


def got(it, address):
    """A client of this address and the name of the target that it has; "" where it is closed, and "refused" where nobody listens."""
    try:
        client = connect(placed(it, address), SOON)
    except (ConnectionRefusedError, FileNotFoundError):
        return None, "refused"
    try:
        return client, client.recv(1).decode()
    except OSError:
        return client, ""


def names(it, *addresses):
    """The name of the target for a client of each address, which is gone then."""
    found = []
    for address in addresses:
        client, name = got(it, address)
        found.append(name)
        if client:
            client.close()
    return found


def listeners(it):
    """The address of each listener, by its id."""
    rows = (line.split() for line in it.ask("show").splitlines() if " side listener " in line)
    return {int(row[1]): row[row.index("peer") + 1] for row in rows}


def echoes(client):
    client.sendall(b"x")
    return client.recv(1) == b"x"


def figure(address, start):
    return next((line.split()[-1] for line in scrape(address)[1].splitlines() if line.startswith(start)), None)


def served(checks, _):
    one, two, path = some_address(), some_address(), PATH + "web"
    with relay(rule(one, two, path)) as it:
        checks.expect("served: it listens", "listening 1\n", it.said)
        checks.expect("served: the ids", [1, 2, 3], it.ids())
        checks.expect("served: where each listens", {1: one, 2: two, 3: placed(it, path)}, listeners(it))
        checks.expect("served: by each", ["A", "A", "A"], names(it, one, two, path))
        client, _ = got(it, two)
        checks.holds("served: bytes go through", echoes(client), "they don't")
        rows = [it.ask(f"show {number}").split() for number in (1, 2, 3)]
        checks.expect("served: each tells the bytes of the rule", {("web", "listener")}, {(row[3], row[5]) for row in rows})
        client.close()
        lines = [(line["rule"], line["how"]) for line in logged(f"{it.folder}/log", 4)]
        checks.expect("served: the log", [("web", "eof")] * 4, lines)


def families(checks, _):
    if not has_ipv6():
        print("families: this machine has no ::1, so it isn't tried")
        return
    port = free_port()
    four, six = f"tcp:0.0.0.0:{port}", f"tcp:[::]:{port}"
    for order in ((four, six), (six, four)):
        with relay(rule(*order)) as it:
            checks.expect(f"families: {order[0]} first", ["A", "A"], names(it, f"tcp:127.0.0.1:{port}", f"tcp:[::1]:{port}"))


def account(checks, _):
    one, two, figures = some_address(), some_address(), some_address()
    with relay(rule(one, two, more="connections = 2\n"), more=f'metrics = "{figures}"\n') as it:
        clients = [got(it, address)[0] for address in (one, two)]
        checks.expect("account: one more at either", ["", ""], names(it, one, two))
        for name, value in (
            ('accepted_total{rule="web"}', "4"), ('connections{rule="web"}', "2"), ('refused_total{rule="web",cause="rule_full"}', "2"),
            ('listening{rule="web"}', "1"),
        ):
            checks.expect(f"account: {name}", value, figure(figures, f"pollrelay_rule_{name}"))
        clients.pop().close()
        checks.holds("account: the end of one makes room at the other", comes(lambda: names(it, one) == ["A"]), "it isn't served")
        clients.pop().close()


def closed(checks, _):
    one, two, figures = some_address(), some_address(), some_address()
    text = rule(one, two)
    more = f'metrics = "{figures}"\n'
    with relay(text, more=more) as it:
        client, _ = got(it, one)
        checks.expect("closed: the reply", "ok", it.ask("close 1"))
        checks.expect("closed: the other serves", ["refused", "A"], names(it, one, two))
        checks.expect("closed: its ids", {2: two}, listeners(it))
        checks.expect("closed: a rule of which one listens not", ("0", 503), (figure(figures, LISTENS), scrape(figures, "/healthz")[0]))
        checks.holds("closed: a connection of it goes on", echoes(client), "it doesn't")
        checks.expect("closed: the reload", "rules 1", reload(it, text, more=more))
        checks.expect("closed: both serve", ["A", "A"], names(it, one, two))
        checks.expect("closed: it listens again", ("1", 200), (figure(figures, LISTENS), scrape(figures, "/healthz")[0]))
        checks.expect("drained: the reply", "ok", it.ask("drain 2"))
        checks.holds("drained: it takes one client more at most", comes(lambda: names(it, two) == ["refused"]), listeners(it))
        checks.expect("drained: the other serves", ["A"], names(it, one))
        client.close()


LISTENS = 'pollrelay_rule_listening{rule="web"}'


def reloads(checks, _):
    one, two, three, path, figures = *(some_address() for _ in range(3)), PATH + "web", some_address()
    more = f'metrics = "{figures}"\n'
    with relay(rule(one, two), more=more) as it:
        clients = [got(it, address)[0] for address in (one, two)]
        checks.expect("reloads: one comes", "rules 1", reload(it, rule(one, two, three, path), more=more))
        places = list(listeners(it).values())
        checks.expect("reloads: the listeners", [one, two, three, placed(it, path)], places)
        checks.expect("reloads: all serve", ["A"] * 4, names(it, one, two, three, path))
        checks.expect("reloads: two go", "rules 1", reload(it, rule(one, three), more=more))
        checks.expect("reloads: what stays", ["A", "refused", "A", "refused"], names(it, one, two, three, path))
        checks.expect("reloads: the id of one that stays", one, listeners(it).get(1))
        checks.holds("reloads: connections go on", all(map(echoes, clients)), "one doesn't")
        checks.expect("reloads: the path has gone", ["admin.sock"], it.sockets())
        checks.expect("reloads: the counts went on", "8", figure(figures, 'pollrelay_rule_accepted_total{rule="web"}'))
        checks.expect("reloads: it listens", "1", figure(figures, LISTENS))
        checks.expect("reloads: one alone", "rules 1", reload(it, rule(one, target=B), more=more))
        checks.expect("reloads: its new target", ["B", "refused"], names(it, one, three))
        checks.expect("reloads: it listens still", "1", figure(figures, LISTENS))
        for client in clients:
            client.close()


def moved(checks, _):
    """The second address of a rule becomes one of another rule, which is full there as everywhere."""
    one, two, other, figures = *(some_address() for _ in range(3)), some_address()
    more = f'metrics = "{figures}"\n'
    full = "connections = 1\n"
    with relay(rule(one, two, more=full), rule(other, name="other", target=B), more=more) as it:
        client, _ = got(it, two)
        checks.expect("moved: the rule is full", [""], names(it, one))
        ids = {address: number for number, address in listeners(it).items()}
        new = (rule(one, more=full), rule(other, two, name="other", target=B))
        checks.expect("moved: the reply", "rules 2", reload(it, *new, more=more))
        checks.expect("moved: its listener stays", two, listeners(it).get(ids[two]))
        checks.expect("moved: it serves by the other rule", ["B"], names(it, two))
        checks.expect("moved: the first has its connection still", [""], names(it, one))
        row = it.ask(f"show {ids[two]}").split()
        checks.expect("moved: show", "other", row[3])
        for name in ("web", "other"):
            checks.expect(f"moved: {name} listens", "1", figure(figures, f'pollrelay_rule_listening{{rule="{name}"}}'))
        checks.expect("moved: what the other has accepted", "1", figure(figures, 'pollrelay_rule_accepted_total{rule="other"}'))
        checks.expect("moved: a close", "ok", it.ask(f"close {ids[two]}"))
        told = [figure(figures, f'pollrelay_rule_listening{{rule="{name}"}}') for name in ("web", "other")]
        checks.expect("moved: of the other a listener is closed", ["1", "0"], told)
        client.close()


def first(checks, _):
    one, two, figures = some_address(), some_address(), some_address()
    more, full = f'metrics = "{figures}"\n', "connections = 1\n"
    accepted = 'pollrelay_rule_accepted_total{rule="web"}'
    with relay(rule(one, two, more=full), more=more) as it:
        client, _ = got(it, one)
        checks.expect("first: full", [""], names(it, two))
        checks.expect("first: the reply", "rules 1", reload(it, rule(two, one, more=full), more=more))
        checks.expect("first: counts begin anew", "0", figure(figures, accepted))
        checks.expect("first: its listeners stay", {1: one, 2: two}, listeners(it))
        checks.expect("first: it listens", "1", figure(figures, LISTENS))
        checks.expect("first: either serves", ["A"], names(it, one))
        checks.holds("first: the connection goes on", echoes(client), "it doesn't")
        checks.expect("first: back again", "rules 1", reload(it, rule(one, two, more=full), more=more))
        checks.expect("first: its connection counts again", [""], names(it, two))
        client.close()


def refused(checks, _):
    one, new, path = some_address(), some_address(), PATH + "new"
    held, taken = listener()
    with held, relay(rule(one)) as it:
        reply = reload(it, rule(one, new, path, taken, target=B))
        checks.expect("refused: the reply", "cannot listen web", reply)
        checks.expect("refused: the rule is as before", ["A", "refused", "refused"], names(it, one, new, path))
        checks.expect("refused: no path is left", ["admin.sock"], it.sockets())
        checks.expect("refused: the listeners", {1: one}, listeners(it))


def start(checks, _):
    held, taken = listener()
    with held:
        try:
            with relay(rule(some_address(), PATH + "new", taken)):
                told = None
        except StartFault as fault:
            told = (fault.status, fault.left)
        checks.expect("start: status, and paths that are left", (3, []), told)


def paths(checks, _):
    places = [PATH + name for name in ("one", "two", "three")]
    with relay(rule(*places)) as it:
        checks.expect("paths: all are there", ["admin.sock", "one", "three", "two"], it.sockets())
        checks.expect("paths: the reload", "rules 1", reload(it, rule(places[0], places[2])))
        checks.expect("paths: one has gone", ["admin.sock", "one", "three"], it.sockets())
        checks.expect("paths: a close leaves a path", "ok", it.ask("close 1"))
        checks.expect("paths: the next reload", "rules 1", reload(it, rule(places[2])))
        checks.expect("paths: the path of a closed one has gone", ["admin.sock", "three"], it.sockets())
        it.stop()
        checks.expect("paths: none is left", [], it.sockets())
    with relay(rule(*places)) as it:
        client, _ = got(it, places[1])
        checks.expect("paths: finish", "ok", it.ask("finish 20000"))
        checks.holds("paths: none of the rule is left", comes(lambda: it.sockets() == ["admin.sock"]), it.sockets())
        client.close()
        checks.holds("paths: it ends", it.ends_within(SOON), "it goes on")


def finish(checks, _):
    places = [some_address() for _ in range(3)]
    with relay(rule(*places)) as it:
        clients = [connect(address, SOON) for address in places for _ in range(5)]
        checks.expect("finish: the reply", "ok", it.ask("finish 20000"))
        checks.holds("finish: nobody listens", all(map(is_refused, places)), "somebody does")
        heard = [client.recv(1) for client in clients]
        checks.expect("finish: who waited was let in", [b"A"] * 15, heard)
        for client in clients:
            client.close()
        checks.holds("finish: it ends", it.ends_within(SOON), "it goes on")


def given(checks, folder):
    tcp, unix = socket.create_server(("127.0.0.1", 0)), socket.socket(socket.AF_UNIX)
    path = f"{folder}/given"
    unix.bind(path)
    unix.listen()
    address, bound = f"tcp:127.0.0.1:{tcp.getsockname()[1]}", some_address()
    with tcp, unix, relay(rule(bound, f"unix:{path}", address), env={}, sockets=(tcp, unix)) as it:
        checks.expect("given: by each", ["A", "A", "A"], names(it, bound, f"unix:{path}", address))
        checks.expect("given: all are used", "", it.errors())
        checks.expect("given: two go", "rules 1", reload(it, rule(bound)))
        checks.holds("given: the path of one that was given stays", os.path.exists(path), os.listdir(folder))
        checks.expect("given: the other serves", ["A"], names(it, bound))


def many(checks, _):
    places = [some_address() for _ in range(16)]
    with relay(rule(*places)) as it:
        checks.expect("many: 16 of one rule", ["A"] * 16, names(it, *places))
        it.stop()
    pairs = [(some_address(), some_address()) for _ in range(64)]
    # (two loops take four descriptors, and 64 rules with one address 128)
    few = "few descriptors: 1000, and 1396 may be needed\n"
    with relay(*(rule(*pair, name=f"r{number}") for number, pair in enumerate(pairs)), env={}, descriptors=1000) as it:
        checks.holds("many: too few descriptors", comes(lambda: it.errors() == few), it.errors())
        checks.expect("many: 64 rules with two each", "listening 64\n", it.said)
        checks.expect("many: their ids", list(range(1, 129)), it.ids())
        checks.expect("many: all serve", ["A"] * 128, names(it, *(address for pair in pairs for address in pair)))


if __name__ == "__main__":
    sys.exit(run_script(__doc__, {
        "served": served, "families": families, "account": account, "closed": closed, "reloads": reloads, "moved": moved, "first": first,
        "refused": refused, "start": start, "paths": paths, "finish": finish, "given": given, "many": many,
    }))
