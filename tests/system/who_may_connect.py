#!/usr/bin/env python3
"""Lists of who may connect to a rule, by a configuration: who is served, what becomes of the others, and what is told of them.

    python3 tests/system/who_may_connect.py [STAGE]..

lists    a client is served exactly if no network of `deny` has its address, and one of `allow` has it, or there is no `allow`.
many     lists of 256 networks, of which the last one decides.
chance   the same of lists and addresses by chance, beside Python's own arithmetic of networks.
closed   a client that isn't let in is closed at once: no target is dialled for it, and nothing that it said is read.
told     the log and the metrics tell of it by a word of its own, also where its rule is full.
unix     clients of a Unix socket are let in, whatever the lists say.
rules    each rule has lists of its own.
reloads  a reload changes the lists for new clients, and cuts nobody; a refused one changes nothing.
"""
import contextlib
import ipaddress
import json
import random
import socket
import sys
import time

sys.path.insert(1, f"{sys.path[0]}/..")
from lib.counting_target import CountingTarget
from lib.log_text import logged
from lib.metrics import scrape
from lib.relay import Relay
from lib.sockets import free_port, some_address
from lib.stages import run_script
from lib.talk import has_ended
from lib.waiting import wait_until

SOON = 10
# So many lists by chance, and so many clients of each.
LISTS, CLIENTS = 30, 8
MOST = 256


TARGET = CountingTarget()


def said(key, networks):
    """The line of a list in a configuration; none where it isn't said."""
    return "" if networks is None else f"{key} = {json.dumps(networks)}\n"


def rule(name, listen, allow=None, deny=None):
    lists = said("allow", allow) + said("deny", deny)
    return f'[[rule]]\nname = "{name}"\nlisten = ["{listen}"]\ntarget = [{{ at = "{TARGET.address}" }}]\n{lists}'


def config(*rules, more=""):
    return f'admin = "{{folder}}/admin.sock"\nlog = "{{folder}}/log"\nloops = 2\n{more}{"".join(rules)}'


class Listed:
    """A relay of one rule with these lists, and more keys of the whole."""

    def __init__(self, allow=None, deny=None, more=""):
        self.port, self.more = free_port(), more
        self.relay = Relay(self.text(allow, deny), form="config")

    def text(self, allow, deny):
        return config(rule("web", f"tcp:127.0.0.1:{self.port}", allow, deny), more=self.more)

    def reload(self, allow=None, deny=None):
        self.relay.write(self.text(allow, deny))
        return self.relay.ask("reload")

    def client(self, own):
        return client(self.port, own)

    def serves(self, own):
        return serves(self.port, own)

    def hows(self, count):
        """Of each line of the log, once there are so many, the client's address without its port, and the end."""
        return [(it.get("client", "").rpartition(":")[0], it["how"]) for it in self.lines(count)]

    def lines(self, count):
        return logged(f"{self.relay.folder}/log", count)

    def __enter__(self):
        return self

    def __exit__(self, *_):
        self.relay.close()


def client(port, own):
    """A client from this address of its own."""
    sock = socket.create_connection(("127.0.0.1", port), SOON, source_address=(own, 0))
    sock.settimeout(SOON)
    return sock


def serves(port, own):
    """Whether a client from this address is served: what it says comes back, or else it is ended."""
    with client(port, own) as sock:
        try:
            sock.sendall(b"x")
            return sock.recv(1) == b"x"
        except TimeoutError:
            return None
        except OSError:
            return False


# Lists, and of clients those that are served and those that aren't.
ROWS = (
    ((None, None), ("127.0.0.1", "127.255.255.254"), ()),
    ((["127.0.0.2"], None), ("127.0.0.2",), ("127.0.0.1", "127.0.0.3", "127.0.1.2")),
    ((["127.0.0.2/32"], None), ("127.0.0.2",), ("127.0.0.1", "127.0.0.3")),
    ((["127.0.0.16/28"], None), ("127.0.0.16", "127.0.0.31"), ("127.0.0.15", "127.0.0.32")),
    # (the bits of the address behind those of the network aren't looked at)
    ((["127.0.0.21/28"], None), ("127.0.0.16", "127.0.0.31"), ("127.0.0.15", "127.0.0.32")),
    ((["127.0.0.1", "127.0.0.3"], None), ("127.0.0.1", "127.0.0.3"), ("127.0.0.2",)),
    ((None, ["127.0.0.2"]), ("127.0.0.1", "127.0.0.3"), ("127.0.0.2",)),
    ((None, ["127.0.0.2", "127.0.1.0/24"]), ("127.0.0.1", "127.0.2.0"), ("127.0.0.2", "127.0.1.0", "127.0.1.255")),
    # What is denied is, however exactly it is allowed, and in whatever order.
    ((["127.0.0.0/8"], ["127.0.0.64/26"]), ("127.0.0.63", "127.0.0.128"), ("127.0.0.64", "127.0.0.127")),
    ((["127.0.0.2"], ["127.0.0.0/8"]), (), ("127.0.0.1", "127.0.0.2")),
    ((["127.0.0.2"], ["127.0.0.2"]), (), ("127.0.0.1", "127.0.0.2")),
    ((["0.0.0.0/0"], None), ("127.0.0.1", "127.9.9.9"), ()),
    ((None, ["0.0.0.0/0"]), (), ("127.0.0.1", "127.9.9.9")),
    ((["0.0.0.0/1"], ["128.0.0.0/1"]), ("127.0.0.1",), ()),
    ((["128.0.0.0/1"], None), (), ("127.0.0.1",)),
    # Networks of the other family have no client of an IPv4 address.
    ((["::/0"], None), (), ("127.0.0.1",)),
    ((None, ["::/0"]), ("127.0.0.1",), ()),
    ((["2001:db8::/32", "127.0.0.4"], ["2001:db8::/32"]), ("127.0.0.4",), ("127.0.0.1",)),
)


def lists(checks, _):
    with Listed() as made:
        for (allow, deny), let_in, kept_out in ROWS:
            checks.expect(f"allow {allow}, deny {deny}: the reload", "rules 1", made.reload(allow, deny))
            for own in (*let_in, *kept_out):
                checks.expect(f"allow {allow}, deny {deny}: {own}", own in let_in, made.serves(own))


def many(checks, _):
    """The first 255 have nobody who comes."""
    others = [f"10.{number}.0.0/16" for number in range(MOST - 1)]
    with Listed(others + ["127.0.0.2"]) as made:
        checks.expect("the last that is allowed", (True, False), (made.serves("127.0.0.2"), made.serves("127.0.0.3")))
        made.reload(None, others + ["127.0.0.2"])
        checks.expect("the last that is denied", (False, True), (made.serves("127.0.0.2"), made.serves("127.0.0.3")))
        told = made.reload(others + ["127.0.0.2", "127.0.0.3"])
        checks.expect("one more", 'bad config: rule "web": allow: more than 256', told)


def some_address_of(chance):
    return f"127.{chance.choice((0, 0, 7))}.{chance.choice((0, 1, 255))}.{chance.randrange(1, 255)}"


def some_networks(chance):
    """Networks near those addresses; or none is said."""
    count = chance.choice((None, 1, 2, 5))
    return None if count is None else [f"{some_address_of(chance)}/{chance.choice((8, 15, 16, 20, 23, 24, 25, 26, 28, 30, 31, 32))}" for _ in range(count)]


def has(networks, own):
    return any(ipaddress.ip_address(own) in ipaddress.ip_network(it, strict=False) for it in networks or ())


def by_chance(checks, _):
    chance = random.Random(5)
    with Listed() as made:
        for number in range(LISTS):
            allow, deny = some_networks(chance), some_networks(chance)
            checks.expect(f"lists {number}: the reload", "rules 1", made.reload(allow, deny))
            for own in [some_address_of(chance) for _ in range(CLIENTS)]:
                wanted = not has(deny, own) and (allow is None or has(allow, own))
                checks.expect(f"lists {number}: allow {allow}, deny {deny}: {own}", wanted, made.serves(own))


def closed(checks, _):
    with Listed(deny=["127.0.0.2"]) as made:
        checks.expect("the other client", True, made.serves("127.0.0.1"))
        wait_until(lambda: TARGET.taken > 0, SOON)
        taken = TARGET.taken
        for says in (b"", b"x", b"x" * 100_000):
            with made.client("127.0.0.2") as sock:
                began = time.monotonic()
                with contextlib.suppress(OSError):
                    sock.sendall(says)
                checks.holds(f"it is ended, having said {len(says)} bytes", has_ended(sock), "it isn't")
                checks.holds("at once", time.monotonic() - began < SOON, f"{time.monotonic() - began} s")
        checks.holds("who stands", wait_until(lambda: made.relay.ids() == [1], SOON), made.relay.ids())
        checks.expect("what passed", (1, 1), made.relay.totals())
        checks.expect("who came to the target", taken, TARGET.taken)


def count_of(figures, name):
    return next((int(line.split()[-1]) for line in scrape(figures)[1].splitlines() if line.startswith(name)), None)


def told(checks, _):
    figures = some_address()
    with Listed(["127.0.0.1"], None, f'metrics = "{figures}"\nconnections_per_rule = 1\n') as made:
        refused = 'pollrelay_rule_refused_total{{rule="web",cause="{}"}}'.format
        checks.expect("the figure before", 0, count_of(figures, refused("denied")))
        for own in ("127.0.0.2", "127.0.0.3"):
            checks.expect(f"{own}", False, made.serves(own))
        with made.client("127.0.0.1") as first:
            first.sendall(b"x")
            checks.expect("it is served", b"x", first.recv(1))
            # (its rule is full now: who isn't let in is told as that, and not as one more than may)
            checks.expect("denied of a full rule", False, made.serves("127.0.0.4"))
            checks.expect("one more", False, made.serves("127.0.0.1"))
            refusals = [("tcp:127.0.0.2", "denied"), ("tcp:127.0.0.3", "denied"), ("tcp:127.0.0.4", "denied"), ("tcp:127.0.0.1", "rule full")]
            # (another thread tells of the end of the first: it ends once these lines are there)
            checks.expect("the log of the refusals", refusals, made.hows(4))
        checks.expect("the log", [*refusals, ("tcp:127.0.0.1", "eof")], made.hows(5))
        line = made.lines(5)[0]
        checks.expect("its line", ("web", "-", "-", TARGET.address, "0", "0"), tuple(line[it] for it in ("rule", "client_id", "target_id", "target", "up", "down")))
        counts = {cause: count_of(figures, refused(cause)) for cause in ("denied", "full", "rule_full", "no_target")}
        checks.expect("the figures", {"denied": 3, "full": 0, "rule_full": 1, "no_target": 0}, counts)
        checks.expect("who was accepted", 5, count_of(figures, 'pollrelay_rule_accepted_total{rule="web"}'))


def unix(checks, _):
    for name, lists_of in (("deny", (None, ["0.0.0.0/0", "::/0"])), ("allow", (["10.0.0.1"], None)), ("both", (["10.0.0.1"], ["0.0.0.0/0"]))):
        with Relay(config(rule("web", "unix:{folder}/web.sock", *lists_of)), form="config") as relay:
            for own in (None, f"{relay.folder}/own.sock"):
                with socket.socket(socket.AF_UNIX) as sock:
                    sock.settimeout(SOON)
                    if own:
                        sock.bind(own)
                    sock.connect(f"{relay.folder}/web.sock")
                    sock.sendall(b"x")
                    checks.expect(f"{name}: at {own or 'no path'}", b"x", sock.recv(1))


def rules(checks, _):
    first, second, third = free_port(), free_port(), free_port()
    text = config(
        rule("one", f"tcp:127.0.0.1:{first}", ["127.0.0.1"]), rule("two", f"tcp:127.0.0.1:{second}", ["127.0.0.2"]), rule("all", f"tcp:127.0.0.1:{third}"),
    )
    with Relay(text, form="config") as relay:
        got = {own: tuple(serves(port, own) for port in (first, second, third)) for own in ("127.0.0.1", "127.0.0.2", "127.0.0.3")}
        checks.expect("who is served", {"127.0.0.1": (True, False, True), "127.0.0.2": (False, True, True), "127.0.0.3": (False, False, True)}, got)
        # The rules stand the other way round, and one says the opposite.
        relay.write(config(rule("two", f"tcp:127.0.0.1:{second}", ["127.0.0.2"]), rule("one", f"tcp:127.0.0.1:{first}", None, ["127.0.0.1"])))
        checks.expect("a reload", "rules 2", relay.ask("reload"))
        got = {own: tuple(serves(port, own) for port in (first, second)) for own in ("127.0.0.1", "127.0.0.2", "127.0.0.3")}
        checks.expect("who is served then", {"127.0.0.1": (False, False), "127.0.0.2": (True, True), "127.0.0.3": (True, False)}, got)


def reloads(checks, _):
    with Listed() as made, made.client("127.0.0.2") as stays:
        stays.sendall(b"x")
        checks.expect("without lists", b"x", stays.recv(1))
        checks.expect("a reload", "rules 1", made.reload(["127.0.0.1"]))
        checks.expect("a new client", False, made.serves("127.0.0.2"))
        checks.expect("another", True, made.serves("127.0.0.1"))
        for lists_of, why in (
            ((["127.0.0.0/33"],), 'allow 1: "127.0.0.0/33" is no network (as 10.0.0.0/8, 2001:db8::/32, 10.0.0.1)'),
            ((None, ["127.0.0.1", "host"]), 'deny 2: "host" is no network (as 10.0.0.0/8, 2001:db8::/32, 10.0.0.1)'),
        ):
            checks.expect("a refused reload", f'bad config: rule "web": {why}', made.reload(*lists_of))
            checks.expect("the lists stay", (True, False), (made.serves("127.0.0.1"), made.serves("127.0.0.2")))
        stays.sendall(b"y")
        checks.expect("who stood goes on", b"y", stays.recv(1))
        checks.expect("lists that go", "rules 1", made.reload())
        checks.expect("each client", (True, True), (made.serves("127.0.0.1"), made.serves("127.0.0.2")))
        checks.expect("many reloads", {"rules 1"}, {made.reload(["127.0.0.1"], ["127.0.0.2"]) for _ in range(50)})
        checks.expect("the last lists", (True, False), (made.serves("127.0.0.1"), made.serves("127.0.0.3")))
        checks.expect("its end", 0, made.relay.stop()[0])


STAGES = {
    "lists": lists, "many": many, "chance": by_chance, "closed": closed, "told": told, "unix": unix, "rules": rules, "reloads": reloads,
}

if __name__ == "__main__":
    sys.exit(run_script(__doc__, STAGES))
