#!/usr/bin/env python3
"""Targets whose hosts a configuration names: which addresses they have, when these change, and what stays.

    python3 tests/system/names.py [STAGE]..

several  each address of a name is a target: in `targets`, in turns, in the log and in the metrics.
weighed  the addresses have the weight of the written target, and are backups as it is.
changes  a name that is looked up again brings new addresses; one that goes gets nobody new, and its connections go on.
fails    a name that can't be looked up any more keeps its addresses; standard error says so once, and once that it is back.
unknown  a name that is unknown at the start has a place and gets nobody; it is served once it is known.
never    by `resolve = "never"` a name that was found isn't looked up again; one that wasn't is tried again after five seconds.
reloads  a reload looks names up at once, keeps what is known and counted of a host that stays, and takes another host.
steered  what an operator has set of an address stays while others come and go; a reload ends it.
balance  `first`, `source` and `least-connections` go by the addresses in their places, also behind a change.
shared   one host in two rules, and twice in a rule by different ports.
beside   addresses in digits beside a name keep their places, and one that the name has too is one target.
health   each address of a name is checked for itself, also one that comes, and one that stays keeps its health.
unfound  a name that was never found isn't checked: nobody comes to its port on the relay's own machine.
finishes a relay that finishes checks no more, also once a look-up has found another address.
mapped   an IPv4-mapped address of a host is the IPv4 address in it.
many     of a host 32 addresses are taken, and of a rule 64 targets.
refused  a name stands nowhere else, and in no rules file; a reload that is refused changes nothing.
hangs    while the resolver doesn't answer the relay serves, is steered, reloads and stops.
dns      names come from a name server: of both families, so many that they come over TCP, late, and not at all.
turns    names whose look-ups take longer than until they are due again keep no other from its turn.

Each relay has a /etc of its own, so the script wants root and `unshare`; it asks no network but one of its own. Without ::1 it says that
it tries none of IPv6.
"""
import contextlib
import os
import socket
import subprocess
import sys
import time

sys.path.insert(1, f"{sys.path[0]}/..")
from lib.admin_replies import TARGET
from lib.counting_target import CountingTarget
from lib.log_text import logged
from lib.metrics import scrape
from lib.name_server import TARGET_PORT
from lib.own_etc import OwnEtc
from lib.places import PROGRAM
from lib.relay import Relay
from lib.sockets import connect, free_port, free_port_at, has_ipv6, some_address
from lib.stages import run_script
from lib.waiting import comes

SOON = 10
HOST = "app.internal"
# A name is looked up each second, which is as often as it goes; by a reload alone; and only until it was found.
OFTEN, SELDOM, NEVER = ('resolve = "500ms"\n', 'resolve = "24h"\n', 'resolve = "never"\n')
A, B, C, D, IPV6 = "127.0.0.1", "127.0.0.2", "127.0.0.3", "127.0.0.4", "::1"
LETTERS = {A: "A", B: "B", C: "C", D: "D", IPV6: "V"}
FAILED, FOUND = "can't be looked up; its last addresses stay", "is looked up again"
BYTES = 10_000


class Many:
    """Targets at these addresses and one port, each of which says its letter."""

    def __init__(self, *hosts):
        self.port = free_port_at(*hosts)
        self.named = f"tcp:{HOST}:{self.port}"
        self.all = {host: CountingTarget(LETTERS[host], host, port=self.port) for host in hosts}

    def taken(self, host):
        return self.all[host].taken

    def at(self, *hosts):
        return [f"tcp:{f'[{host}]' if ':' in host else host}:{self.port}" for host in hosts]


def target(at, more=""):
    return f'[[rule.target]]\nat = "{at}"\n{more}'


def rule(name, port, keys, *targets):
    return f'[[rule]]\nname = "{name}"\nlisten = ["tcp:127.0.0.1:{port}"]\n{keys}{"".join(targets)}'


class Named:
    """A relay with a rule of these targets, and with further rules, that looks these hosts up.

    `up` and `down` are the bytes that its clients sent and got."""

    def __init__(self, hosts, keys, *targets, more=""):
        self.port, self.metrics, self.up, self.down = free_port(), some_address(), 0, 0
        self.etc = OwnEtc()
        self.know(hosts)
        self.relay = Relay(self.text(keys, *targets, more=more), form="config", before=self.etc.words, env={})

    def know(self, hosts):
        """From now on these are the hosts, or the one host has these addresses."""
        self.etc.know(hosts if isinstance(hosts, dict) else {HOST: hosts})

    def text(self, keys, *targets, more=""):
        head = f'admin = "{{folder}}/admin.sock"\nlog = "{{folder}}/log"\nmetrics = "{self.metrics}"\nloops = 2\nconnect_timeout = "5s"\n'
        return head + rule("web", self.port, keys, *targets) + more

    def reload(self, keys, *targets, more=""):
        self.relay.write(self.text(keys, *targets, more=more))
        return self.relay.ask("reload")

    def lines(self, rule="web"):
        """What `targets` says of each target of a rule."""
        *lines, _ = self.relay.ask("targets").split("\n")
        return [it for it in (TARGET.fullmatch(line).groupdict() for line in lines) if it["rule"] == rule]

    def at(self, rule="web"):
        return [line["at"] for line in self.lines(rule)]

    def comes_to(self, wanted, rule="web"):
        """Whether the targets of a rule come to be these, in this order."""
        return comes(lambda: self.at(rule) == wanted, 2_000, 0.005)

    def told(self, at, *keys):
        line = next((it for it in self.lines() if it["at"] == at), {})
        return [line.get(key) for key in keys]

    def comes_to_say(self, at, **told):
        """Whether the line of a target comes to say this."""
        return comes(lambda: self.told(at, *told) == list(told.values()), 2_000, 0.005)

    def set(self, at, word):
        return self.relay.ask(f"target web {at} {word}")

    def figure(self, family, at):
        _, text = scrape(self.metrics)
        start = f'pollrelay_target_{family}{{rule="web",target="{at}"}} '
        return next((line.removeprefix(start) for line in text.splitlines() if line.startswith(start)), None)

    def got(self, own=A, port=None):
        """A client from this address of its own, and the target that it got, by its letter; `end` where it was closed."""
        client = socket.create_connection((A, port or self.port), SOON, source_address=(own, 0))
        client.settimeout(SOON)
        try:
            name = client.recv(1).decode()
        except ConnectionError:
            name = ""
        self.down += len(name)
        return client, name or "end"

    def names(self, count, own=A, port=None):
        """The targets of so many clients, one after another, none of which stays."""
        names = []
        for _ in range(count):
            client, name = self.got(own, port)
            client.close()
            names.append(name)
        return "".join(names)

    def goes_on(self, client):
        """Whether all bytes of a client come back to it."""
        sent, came = os.urandom(BYTES), b""
        with contextlib.suppress(OSError):
            client.sendall(sent)
            self.up += len(sent)
            while len(came) < len(sent) and (part := client.recv(65_536)):
                came += part
        self.down += len(came)
        return came == sent

    def ends(self, count):
        """The target and the end of each client in its log, once there are so many."""
        return [(it.get("target"), it["how"]) for it in logged(f"{self.relay.folder}/log", count)]

    def says(self, *words):
        """Whether standard error comes to say this of the name, line by line, and nothing else."""
        wanted = "".join(f"names: {HOST} {it}\n" for it in words)
        return comes(lambda: self.relay.errors() == wanted, 2_000, 0.005)

    def end(self, checks, stage):
        """A stop, and whether the totals are the bytes of its clients."""
        checks.expect(f"{stage}: the end", (0, (self.up, self.down)), self.relay.stop()[:2])

    def __enter__(self):
        return self

    def __exit__(self, *_):
        self.relay.close()
        self.etc.close()


def ipv6_hosts():
    """The address of the loopback of IPv6, where there is one."""
    if not has_ipv6():
        print("NOT TRIED: this machine has no ::1, so that no address of IPv6 is tried", flush=True)
        return ()
    return (IPV6,)


def rests(target):
    """Whether nobody comes to a target for ten times as long as its next check takes."""
    taken = target.taken
    time.sleep(0.2)
    return target.taken == taken


def close_all(clients):
    for client in clients:
        client.close()


def several(checks, folder):
    hosts = (A, B, *ipv6_hosts())
    many, count = Many(*hosts), len(hosts)
    with Named(hosts, OFTEN, target(many.named)) as it:
        checks.expect("several: it listens", "listening 1\n", it.relay.said)
        checks.holds("several: each address is a target", comes(lambda: sorted(it.at()) == sorted(many.at(*hosts))), it.at())
        checks.expect("several: by their numbers", [str(at + 1) for at in range(count)], [line["number"] for line in it.lines()])
        names = it.names(4 * count)
        checks.expect("several: one after another", names[:count] * 4, names)
        checks.expect("several: all of them", sorted(LETTERS[host] for host in hosts), sorted(names[:count]))
        checks.expect("several: the log", sorted(many.at(*hosts) * 4), sorted(at for at, _ in it.ends(4 * count)))
        checks.expect("several: each is counted", ["4"] * count, [it.figure("connects_total", at) for at in many.at(*hosts)])
        clients = [it.got()[0] for _ in hosts]
        checks.expect("several: bytes go through", [True] * count, [it.goes_on(client) for client in clients])
        close_all(clients)
        checks.expect("several: nothing is said", "", it.relay.errors())
        it.end(checks, "several")


def weighed(checks, folder):
    many, (backup, last, none) = Many(A, B, C), (free_port() for _ in range(3))
    digits, (dead,) = many.at(C)[0], [some_address()]
    more = (
        rule("backup", backup, "", target(digits), target(many.named, "backup = true\n"))
        + rule("last", last, 'balance = "first"\n', target(dead), target(many.named, "backup = true\n"))
        + rule("none", none, "", target(many.named, "weight = 0\n"), target(digits))
    )
    with Named((A, B), "", target(digits), target(many.named, "weight = 3\n"), more=more) as it:
        for name, wanted in (("web", (C, A, B)), ("backup", (C, A, B)), ("none", (A, B, C))):
            checks.holds(f"weighed: {name}", it.comes_to(many.at(*wanted), name), it.at(name))
        checks.holds("weighed: last", it.comes_to([dead, *many.at(A, B)], "last"), it.at("last"))
        checks.expect("weighed: each address has the weight", "A" * 6 + "B" * 6 + "C" * 2, "".join(sorted(it.names(14))))
        checks.expect("weighed: none while another is there", "C" * 4, it.names(4, port=backup))
        checks.expect("weighed: where none is", "A" * 4, it.names(4, port=last))
        checks.expect("weighed: without a weight", "C" * 4, it.names(4, port=none))
        it.end(checks, "weighed")


def changes(checks, folder):
    many = Many(A, B, C, D)
    with Named((A, B), OFTEN, target(many.named)) as it:
        checks.holds("changes: before", it.comes_to(many.at(A, B)), it.at())
        stays = dict(reversed(it.got()) for _ in range(2))
        checks.expect("changes: one stands at each", ["A", "B"], sorted(stays))
        it.know((B, C))
        # (a scrape has the main thread do nothing, a session or a client would)
        (new,) = many.at(C)
        is_there = comes(lambda: it.figure("connects_total", new) == "0", 2_000, 0.005)
        checks.holds("changes: in force by itself", is_there, it.figure("connects_total", new))
        checks.holds("changes: one comes and one goes", it.comes_to(many.at(B, C)), it.at())
        taken = many.taken(A)
        checks.expect("changes: clients of both", "BBBBCCCC", "".join(sorted(it.names(8))))
        checks.expect("changes: nobody comes to what is gone", taken, many.taken(A))
        checks.expect("changes: what stands goes on", [True] * 2, [it.goes_on(stays[name]) for name in "AB"])
        checks.expect("changes: and is counted where it stays", ["1", "5"], it.told(*many.at(B), "connections", "connects"))
        it.know((A, D, C))
        checks.holds("changes: new ones are behind what stays, and one is back", it.comes_to(many.at(C, A, D)), it.at())
        checks.expect("changes: clients of these", "AACCDD", "".join(sorted(it.names(6))))
        checks.expect("changes: what stands goes on still", [True] * 2, [it.goes_on(stays[name]) for name in "AB"])
        close_all(stays.values())
        checks.expect("changes: nothing is said", "", it.relay.errors())
        it.end(checks, "changes")


def fails(checks, folder):
    many = Many(A, B)
    with Named((A, B), OFTEN, target(many.named)) as it:
        checks.holds("fails: before", it.comes_to(many.at(A, B)), it.at())
        it.know(())
        checks.holds("fails: it is told", it.says(FAILED), it.relay.errors())
        checks.expect("fails: its addresses stay", many.at(A, B), it.at())
        checks.expect("fails: clients come", "AABB", "".join(sorted(it.names(4))))
        it.know((A, B))
        checks.holds("fails: it is back", it.says(FAILED, FOUND), it.relay.errors())
        it.know(())
        checks.holds("fails: and fails again", it.says(FAILED, FOUND, FAILED), it.relay.errors())
        it.end(checks, "fails")


def unknown(checks, folder):
    many, port = Many(A, B), free_port()
    nowhere = f"tcp:0.0.0.0:{many.port}"
    more = rule("two", port, OFTEN, target(many.named), target(*many.at(B)))
    with Named((), OFTEN, target(many.named), more=more) as it:
        checks.expect("unknown: it listens", "listening 2\n", it.relay.said)
        checks.holds("unknown: it is told once", it.says(FAILED), it.relay.errors())
        checks.expect("unknown: its place", ([nowhere], [nowhere, *many.at(B)]), (it.at(), it.at("two")))
        checks.expect("unknown: nobody is served", "endend", it.names(2))
        checks.expect("unknown: the log", [(nowhere, "no target unreachable")] * 2, it.ends(2))
        checks.expect("unknown: beside a target in digits", "BBBB", it.names(4, port=port))
        checks.expect("unknown: nobody came to its port", 0, many.taken(A))
        checks.expect("unknown: the metrics", ("0", (503, "no target up\n")), (it.figure("connects_total", nowhere), scrape(it.metrics, "/healthz")))
        it.know((A,))
        checks.holds("unknown: it is known", it.comes_to(many.at(A)), it.at())
        checks.holds("unknown: it is told once too", it.says(FAILED, FOUND), it.relay.errors())
        checks.expect("unknown: clients come", ("AA", (200, "ok\n")), (it.names(2), scrape(it.metrics, "/healthz")))
        checks.holds("unknown: in both rules", it.comes_to(many.at(A, B), "two"), it.at("two"))
        checks.expect("unknown: and there", "AABB", "".join(sorted(it.names(4, port=port))))
        it.end(checks, "unknown")


def never(checks, folder):
    many, (port, gone) = Many(A, B), (free_port() for _ in range(2))
    more = (
        rule("two", port, NEVER, target(f"tcp:two.internal:{many.port}"))
        + rule("gone", gone, OFTEN, target(f"tcp:gone.internal:{many.port}"))
    )
    with Named({HOST: (A,), "gone.internal": (A,)}, NEVER, target(many.named), more=more) as it:
        for name in ("web", "gone"):
            checks.holds(f"never: {name} is known", it.comes_to(many.at(A), name), it.at(name))
        checks.holds("never: another isn't", comes(lambda: it.relay.errors() == f"names: two.internal {FAILED}\n"), it.relay.errors())
        it.know({HOST: (B,), "two.internal": (B,)})
        checks.holds("never: it is found", it.comes_to(many.at(B), "two"), it.at("two"))
        checks.expect("never: the known one stays", many.at(A), it.at())
        checks.expect("never: clients of both", ("AA", "BB"), (it.names(2), it.names(2, port=port)))
        # (the third was looked up each second meanwhile)
        told = [f"names: two.internal {FAILED}", f"names: gone.internal {FAILED}", f"names: two.internal {FOUND}"]
        checks.holds("never: each turn is told once", comes(lambda: it.relay.errors().splitlines() == told), it.relay.errors())
        checks.expect("never: by a reload", "rules 3", it.reload(NEVER, target(many.named), more=more))
        checks.holds("never: it is looked up", it.comes_to(many.at(B)), it.at())
        it.end(checks, "never")


def reloads(checks, folder):
    many = Many(A, B, C)
    app, other = target(many.named), target(f"tcp:other.internal:{many.port}")
    with Named((A, B), SELDOM, app) as it:
        checks.holds("reloads: before", it.comes_to(many.at(A, B)), it.at())
        stays, names = it.got()[0], it.names(3)
        counts = [it.told(at, "connects") for at in many.at(A, B)]
        checks.expect("reloads: clients", (3, [["2"], ["2"]]), (len(names), counts))
        it.know((C, B, A))
        checks.expect("reloads: the same text", "rules 1", it.reload(SELDOM, app))
        checks.holds("reloads: it is looked up at once", it.comes_to(many.at(A, B, C)), it.at())
        checks.expect("reloads: counts stay", counts, [it.told(at, "connects") for at in many.at(A, B)])
        checks.expect("reloads: what is new has none", ["0"], it.told(*many.at(C), "connects"))
        it.know(())
        checks.expect("reloads: while it is unknown", "rules 1", it.reload(SELDOM, app))
        checks.expect("reloads: its addresses stay", many.at(A, B, C), it.at())
        checks.holds("reloads: it is told", it.says(FAILED), it.relay.errors())
        checks.expect("reloads: they stay behind that", (many.at(A, B, C), counts), (it.at(), [it.told(at, "connects") for at in many.at(A, B)]))
        checks.expect("reloads: clients come", "ABC", "".join(sorted(it.names(3))))
        it.know({HOST: (A, B), "other.internal": (C,)})
        checks.expect("reloads: another host", "rules 1", it.reload(SELDOM, other))
        checks.holds("reloads: it has its own", it.comes_to(many.at(C)), it.at())
        checks.expect("reloads: clients of it", "CCC", it.names(3))
        checks.expect("reloads: both", "rules 1", it.reload(SELDOM, other, app))
        checks.holds("reloads: each has its own", it.comes_to(many.at(C, A, B)), it.at())
        checks.expect("reloads: digits", ("rules 1", many.at(B)), (it.reload(SELDOM, target(*many.at(B))), it.at()))
        checks.expect("reloads: clients of these", "BB", it.names(2))
        checks.expect("reloads: and back", "rules 1", it.reload(SELDOM, app))
        checks.holds("reloads: what was known is looked up anew", it.comes_to(many.at(A, B)), it.at())
        checks.holds("reloads: what stands went on", it.goes_on(stays), "no bytes")
        stays.close()
        checks.holds("reloads: nothing else is said", it.says(FAILED), it.relay.errors())
        it.end(checks, "reloads")


def steered(checks, folder):
    many = Many(A, B, C)
    (a,), (b,), (c,) = (many.at(host) for host in (A, B, C))
    with Named((A, B), OFTEN, target(many.named)) as it:
        checks.holds("steered: before", it.comes_to([a, b]), it.at())
        checks.expect("steered: it is drained", ("ok", "BB"), (it.set(a, "drain"), it.names(2)))
        since = int(it.told(a, "since")[0])
        it.know((A, B, C))
        checks.holds("steered: another comes", it.comes_to([a, b, c]), it.at())
        checks.expect("steered: it is drained still", ["drained", "drain"], it.told(a, "state", "set"))
        checks.holds("steered: since then", int(it.told(a, "since")[0]) >= since, (since, it.told(a, "since")))
        checks.expect("steered: nobody comes to it", "BBCC", "".join(sorted(it.names(4))))
        checks.expect("steered: by its number", ("ok", "BB"), (it.relay.ask("target web 3 down"), it.names(2)))
        it.know((A, C))
        checks.holds("steered: another goes", it.comes_to([a, c]), it.at())
        checks.expect("steered: all are set", ([["drain"], ["down"]], "end"), ([it.told(at, "set") for at in (a, c)], it.names(1)))
        # (another loop's line of a connection that ended before may come later)
        checks.expect("steered: the end of its client", 1, it.ends(9).count((a, "no target down")))
        it.know((A, B))
        checks.holds("steered: it is back", it.comes_to([a, b]), it.at())
        checks.expect("steered: as one that is new", (["up", "auto"], "BB"), (it.told(b, "state", "set"), it.names(2)))
        checks.expect("steered: a reload", "rules 1", it.reload(OFTEN, target(many.named)))
        checks.expect("steered: it ends what was set", (["up", "auto"], "AABB"), (it.told(a, "state", "set"), "".join(sorted(it.names(4)))))
        it.end(checks, "steered")


def balance(checks, folder):
    many, (first, least) = Many(A, B, C), (free_port() for _ in range(2))
    more = (
        rule("first", first, OFTEN + 'balance = "first"\n', target(f"tcp:first.internal:{many.port}"))
        + rule("least", least, OFTEN + 'balance = "least-connections"\n', target(f"tcp:least.internal:{many.port}"))
    )
    hosts = {HOST: (A, B, C), "first.internal": (B,), "least.internal": (A, B)}
    with Named(hosts, OFTEN + 'balance = "source"\n', target(many.named), more=more) as it:
        for name, wanted in (("web", (A, B, C)), ("first", (B,)), ("least", (A, B))):
            checks.holds(f"balance: {name} before", it.comes_to(many.at(*wanted), name), it.at(name))
        owns = [f"127.0.0.{last}" for last in range(2, 26)]
        sources = {own: it.names(2, own) for own in owns}
        checks.expect("balance: each source has one target", {2}, {name.count(name[0]) for name in sources.values()})
        checks.expect("balance: all have sources", {"A", "B", "C"}, {name[0] for name in sources.values()})
        checks.expect("balance: the first", "BB", it.names(2, port=first))
        clients = [it.got(port=least) for _ in range(4)]
        checks.expect("balance: those with the least", "AABB", "".join(sorted(name for _, name in clients)))
        it.know({HOST: (C, B, A), "first.internal": (A, B), "least.internal": (C, B, A)})
        checks.holds("balance: first", it.comes_to(many.at(B, A), "first"), it.at("first"))
        checks.holds("balance: least", it.comes_to(many.at(A, B, C), "least"), it.at("least"))
        checks.expect("balance: the first is so still", "BB", it.names(2, port=first))
        clients += [it.got(port=least) for _ in range(2)]
        checks.expect("balance: what stands counts", "CC", "".join(name for _, name in clients[4:]))
        checks.expect("balance: each source has its target still", sources, {own: it.names(2, own) for own in owns})
        close_all(client for client, _ in clients)
        it.end(checks, "balance")


def shared(checks, folder):
    one, two, port = Many(A, B), Many(A, B), free_port()
    more = rule("two", port, SELDOM, target(two.named), target(one.named, "backup = true\n"))
    with Named((A,), OFTEN, target(one.named), more=more) as it:
        checks.holds("shared: one rule", it.comes_to(one.at(A)), it.at())
        checks.holds("shared: the other, by two ports", it.comes_to(two.at(A) + one.at(A), "two"), it.at("two"))
        it.know((A, B))
        checks.holds("shared: one rule follows", it.comes_to(one.at(A, B)), it.at())
        checks.holds("shared: so does the other", it.comes_to(two.at(A, B) + one.at(A, B), "two"), it.at("two"))
        checks.expect("shared: clients of one", ("AABB", 0), ("".join(sorted(it.names(4))), two.taken(A) + two.taken(B)))
        checks.expect("shared: clients of the other", ("AABB", 4), ("".join(sorted(it.names(4, port=port))), two.taken(A) + two.taken(B)))
        it.know(())
        checks.holds("shared: it is told once", it.says(FAILED), it.relay.errors())
        it.end(checks, "shared")


def beside(checks, folder):
    many = Many(A, B, C, D)
    with Named((A, B), OFTEN, target(*many.at(C)), target(many.named), target(*many.at(D))) as it:
        checks.holds("beside: in their places", it.comes_to(many.at(C, A, B, D)), it.at())
        checks.expect("beside: all have clients", "ABCD", "".join(sorted(it.names(4))))
        it.know((B,))
        checks.holds("beside: one goes", it.comes_to(many.at(C, B, D)), it.at())
        checks.expect("beside: counts stay", [["1"]] * 3, [it.told(at, "connects") for at in many.at(C, B, D)])
        it.know((A, B, C))
        checks.holds("beside: one more that is there already", it.comes_to(many.at(C, B, A, D)), it.at())
        checks.expect("beside: it has the turns of both", "ABCCD" * 2, "".join("".join(sorted(it.names(5))) for _ in range(2)))
        checks.expect("beside: and is one target", ("ok", "AABBDD"), (it.set(*many.at(C), "drain"), "".join(sorted(it.names(6)))))
        it.end(checks, "beside")


def health(checks, folder):
    many, keys = Many(A, C), OFTEN + 'balance = "first"\nhealth = { every = "20ms", fall = 2, rise = 2 }\n'
    (a,), (b,), (c,) = (many.at(host) for host in (A, B, C))
    with Named((B, A), keys, target(many.named)) as it:
        checks.holds("health: both are there", comes(lambda: sorted(it.at()) == [a, b]), it.at())
        checks.holds("health: one is down", it.comes_to_say(b, state="down", checks="on"), it.lines())
        checks.expect("health: the other has the clients", "AAA", it.names(3))
        failed = int(it.told(b, "failed")[0])
        it.know((A, B, C))
        checks.holds("health: one more", comes(lambda: sorted(it.at()) == [a, b, c]), it.at())
        checks.expect("health: it is down still", ["down"], it.told(b, "state"))
        checks.holds("health: its counts go on", int(it.told(b, "failed")[0]) >= failed, (failed, it.told(b, "failed")))
        checks.holds("health: the new one is checked", comes(lambda: int(it.told(c, "passed")[0]) > 2), it.told(c, "passed"))
        late = CountingTarget("B", B, port=many.port)
        checks.holds("health: it is up", it.comes_to_say(b, state="up"), it.lines())
        checks.expect("health: the log", [(b, "target down"), (b, "target up")], [(at, how) for at, how in it.ends(5) if how.startswith("target ")])
        it.know((B,))
        checks.holds("health: it is the only one", it.comes_to([b]), it.at())
        checks.expect("health: clients come", "BB", it.names(2))
        checks.holds("health: what is gone isn't checked any more", comes(lambda: rests(many.all[A]), 50), many.taken(A))
        late.sock.close()
        # (its checks are bytes of nobody)
        it.end(checks, "health")


CHECKED = OFTEN + 'health = { every = "20ms", fall = 2, rise = 2 }\n'


def unfound(checks, folder):
    many = Many(A)
    with Named((), CHECKED, target(many.named)) as it:
        checks.holds("unfound: it is told", it.says(FAILED), it.relay.errors())
        time.sleep(0.3)
        checks.expect("unfound: nobody comes to its port", 0, many.taken(A))
        checks.expect("unfound: nor is a check counted", ["0", "0"], it.told(f"tcp:0.0.0.0:{many.port}", "passed", "failed"))
        it.know((A,))
        checks.holds("unfound: it is checked once it is known", comes(lambda: many.taken(A) > 2), many.taken(A))
        it.end(checks, "unfound")


def finishes(checks, folder):
    many = Many(A, B)
    with Named((A,), CHECKED, target(many.named)) as it:
        checks.holds("finishes: before", comes(lambda: many.taken(A) > 2), many.taken(A))
        client, _ = it.got()
        checks.expect("finishes: it does", "ok", it.relay.ask("finish 60000"))
        checks.holds("finishes: it checks no more", comes(lambda: rests(many.all[A]), 50), many.taken(A))
        it.know((A, B))
        checks.holds("finishes: another address", it.comes_to(many.at(A, B)), it.at())
        checks.holds("finishes: it checks no more still", comes(lambda: rests(many.all[A]), 50), many.taken(A))
        checks.expect("finishes: nor the new one", 0, many.taken(B))
        client.close()
        checks.holds("finishes: it ends", it.relay.ends_within(SOON), "it stands")


def mapped(checks, folder):
    many = Many(A, B)
    with Named((f"::ffff:{A}", A, f"::ffff:{B}"), OFTEN, target(many.named)) as it:
        checks.holds("mapped: they are IPv4", comes(lambda: sorted(it.at()) == many.at(A, B), 2_000, 0.005), it.at())
        checks.expect("mapped: each once", "AABB", "".join(sorted(it.names(4))))
        it.end(checks, "mapped")


def many(checks, folder):
    hosts = {f"{name}.internal": [f"127.0.{net}.{last}" for last in range(1, 41)] for net, name in enumerate(("app", "two", "three"), 1)}
    port = free_port()
    ports = dict(zip(hosts, (free_port() for _ in hosts)))
    targets = [target(f"tcp:{host}:{ports[host]}") for host in hosts]
    with Named(hosts, "", *targets, target("tcp:127.0.0.1:1"), more=rule("two", port, "", targets[1])) as it:
        checks.holds("many: 64 targets", comes(lambda: len(it.at()) == 64), len(it.at()))
        checks.holds("many: 32 of a host", comes(lambda: len(it.at("two")) == 32), len(it.at("two")))
        found = [[at.removeprefix("tcp:").rpartition(":")[0] for at in it.at() if at.endswith(f":{ports[host]}")] for host in hosts]
        checks.expect("many: of the first hosts", [32, 32, 0], [len(set(ips)) for ips in found])
        checks.expect("many: their addresses", [set(), set()], [set(ips) - set(hosts[host]) for ips, host in zip(found[:2], hosts)])
        checks.expect("many: nothing else", {f":{ports[host]}" for host in list(hosts)[:2]}, {at[at.rindex(":"):] for at in it.at()})
        it.end(checks, "many")


def refused(checks, folder):
    one, path = Many(A), f"{folder}/text"
    plain = rule("web", free_port(), "", target(*one.at(A)))
    for name, text in (
        ("listen", plain.replace("tcp:127.0.0.1:", f"tcp:{HOST}:", 1)),
        ("source", plain.replace("[[rule.target]]", f'source = "{HOST}"\n[[rule.target]]')),
        ("metrics", f'metrics = "tcp:{HOST}:9464"\n{plain}'), ("rules", f"relay web unix:/a {one.named} never\n"),
    ):
        form = "rules" if name == "rules" else "config"
        with open(path, "w", encoding="ascii") as file:
            file.write(text)
        ran = subprocess.run([PROGRAM, "check", f"--{form}", path], capture_output=True, text=True, timeout=SOON, check=False)
        checks.holds(f"refused: {name}", ran.returncode == 1 and ran.stdout.startswith(f"bad {form}: "), ran)
    options = ("--loops", "2", "--metrics", some_address(), "--log", f"{folder}/log")
    with Named((A,), SELDOM, target(one.named)) as it, Relay("", options=options) as plain:
        checks.holds("refused: before", it.comes_to(one.at(A)), it.at())
        it.know(())
        reply = it.reload(SELDOM, target(one.named), target("tcp:app..internal:80"))
        checks.holds("refused: a reload", reply.startswith('bad config: rule "web": target 2: at: '), reply)
        time.sleep(0.2)
        checks.expect("refused: nothing is looked up", "", it.relay.errors())
        checks.expect("refused: nothing changes", (one.at(A), "AA"), (it.at(), it.names(2)))
        checks.expect("refused: by a rules file there is a thread less", it.relay.threads() - 1, plain.threads())
        it.end(checks, "refused")


def hangs(checks, folder):
    etc, path, goal = OwnEtc(has_server=True), f"{folder}/in.sock", CountingTarget("U", path=f"{folder}/out.sock")
    etc.serve({HOST: {"after": None}})
    text = (
        'admin = "{folder}/admin.sock"\nlog = "{folder}/log"\nloops = 2\n'
        f'[[rule]]\nname = "unix"\nlisten = ["unix:{path}"]\n{target(goal.address)}' + rule("web", 8_000, "", target(f"tcp:{HOST}:9001"))
    )
    with contextlib.closing(etc), Relay(text, form="config", before=etc.words, env={}) as relay:
        checks.expect("hangs: it listens", "listening 2\n", relay.said)
        client = connect(f"unix:{path}")
        checks.expect("hangs: it serves", (b"U", None, b"hello"), (client.recv(1), client.sendall(b"hello"), client.recv(5)))
        began = time.monotonic()
        checks.holds("hangs: targets are told", " at tcp:0.0.0.0:9001 state up " in relay.ask("targets"), relay.ask("targets"))
        relay.write(text.replace("9001", "9002"))
        checks.expect("hangs: a reload", "rules 2", relay.ask("reload"))
        checks.holds("hangs: it is in force", " at tcp:0.0.0.0:9002 " in relay.ask("targets"), relay.ask("targets"))
        checks.expect("hangs: nothing is told", "", relay.errors())
        checks.holds("hangs: nothing waits for it", time.monotonic() - began < SOON, time.monotonic() - began)
        status, totals, seconds = relay.stop()
        checks.expect("hangs: the end", (0, (5, 6)), (status, totals))
        checks.holds("hangs: a stop doesn't wait for it", seconds < 2, f"{seconds:.2f} s")
        checks.expect("hangs: no path is left", [], relay.sockets())
        client.close()


def name_at(path):
    """The target that a client of this path gets, by its letter, after some bytes that came back."""
    with connect(f"unix:{path}") as client:
        name = client.recv(1).decode()
        client.sendall(b"hello")
        return name if client.recv(5) == b"hello" else "no bytes"


def dns(checks, folder):
    etc, path = OwnEtc(has_server=True), f"{folder}/in.sock"
    text = (
        'admin = "{folder}/admin.sock"\nloops = 2\n'
        f'[[rule]]\nname = "web"\nlisten = ["unix:{path}"]\n{OFTEN}{target(f"tcp:{HOST}:{TARGET_PORT}")}'
    )
    six, many = ipv6_hosts(), [f"127.0.1.{last}" for last in range(1, 61)]
    both, letters = {"a": [A, B], "aaaa": six}, "ABV"[: 2 + len(six)]
    etc.serve({HOST: both})
    with contextlib.closing(etc), Relay(text, form="config", before=etc.words, env={}) as relay:

        def come(count):
            return comes(lambda: relay.ask("targets").count("\n") == count, 2_000, 0.005)

        checks.holds("dns: both families", come(len(letters)), relay.ask("targets"))
        checks.expect("dns: clients", letters, "".join(sorted(name_at(path) for _ in letters)))
        etc.serve({HOST: {"a": many + [C]}})
        checks.holds("dns: over TCP", come(32), relay.ask("targets"))
        etc.serve({HOST: {"a": [C]}})
        checks.holds("dns: one alone", come(1), relay.ask("targets"))
        etc.serve({HOST: {"rcode": 2}})
        told = f"names: {HOST} {FAILED}\n"
        checks.holds("dns: a server that fails", comes(lambda: relay.errors() == told), relay.errors())
        checks.expect("dns: the last address stays", "CC", name_at(path) + name_at(path))
        etc.serve({HOST: {**both, "after": 2}})
        checks.holds("dns: a late answer", come(len(letters)), relay.ask("targets"))
        checks.expect("dns: clients of it", letters, "".join(sorted(name_at(path) for _ in letters)))
        told += f"names: {HOST} {FOUND}\n"
        checks.expect("dns: it is told", told, relay.errors())
        etc.serve({HOST: {"after": None}})
        time.sleep(1.5)
        checks.expect("dns: while none comes", letters, "".join(sorted(name_at(path) for _ in letters)))
        status, totals, seconds = relay.stop()
        clients = 3 * len(letters) + 2
        checks.expect("dns: the end", (0, (5 * clients, 6 * clients)), (status, totals))
        checks.holds("dns: at once", seconds < 2, f"{seconds:.2f} s")


def turns(checks, folder):
    etc, slow = OwnEtc(has_server=True), {"a": [A], "after": 1}
    etc.serve({"one.internal": slow, "two.internal": slow, "three.internal": {"a": [B]}})
    names = ("one", "two", "three")
    rules = (
        f'[[rule]]\nname = "{it}"\nlisten = ["unix:{folder}/{it}.sock"]\n{OFTEN}{target(f"tcp:{it}.internal:{TARGET_PORT}")}' for it in names
    )
    text = f'admin = "{{folder}}/admin.sock"\nloops = 2\n{"".join(rules)}'
    with contextlib.closing(etc), Relay(text, form="config", before=etc.words, env={}) as relay:
        found = comes(lambda: " at tcp:0.0.0.0:" not in relay.ask("targets"), 2_000, 0.005)
        checks.holds("turns: each name is found", found, relay.ask("targets"))
        checks.expect("turns: the end", 0, relay.stop()[0])


STAGES = {
    it.__name__: it for it in (
        several, weighed, changes, fails, unknown, never, reloads, steered, balance, shared, beside, health, unfound, finishes, mapped, many, refused, hangs,
        dns, turns,
    )
}


if __name__ == "__main__":
    sys.exit(run_script(__doc__, STAGES))
