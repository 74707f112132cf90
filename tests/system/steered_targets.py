#!/usr/bin/env python3
"""What an operator sees of targets, and sets of them: the admin commands `targets` and `target`.

    python3 tests/system/steered_targets.py [STAGE]..

shown    `targets` has a line for each target of each rule, with all that is counted of it, and says for how long it has its state.
drained  a target that is drained gets nobody new, what stands at it goes on, and it is back by another command.
down     so it is with one that is set down, which no check brings up.
up       one that is set up gets clients though its checks fail; `auto` hands it back to them.
backups  a backup has the clients once the others are drained.
alone    the only target of a rule is drained too, also by a rules file; its clients end by a word of their own.
refused  a rule, a target and a word that aren't there each have a reply of their own, and change nothing.
named    a target has a number too, by which one is set whose address doesn't fit in a line; one address is one target.
reloads  a reload ends what was set, and no count; one that is refused ends nothing.
earlier  a client that was accepted before a reload goes by what is set after it.
since    a target has its state since it came to it: not since a word that changed nothing, nor since a state of before.
figures  the metrics have the figures of each target; `/healthz` is ill while of a rule none is up, by checks or by what is set.
pieces   thousands of targets are listed while other sessions go on, and a reload meanwhile shows none twice.
ctl      `ctl` takes the four words of the command, and has its statuses.
"""
import contextlib
import socket
import subprocess
import sys
import threading
import time

sys.path.insert(1, f"{sys.path[0]}/..")
from lib.admin_replies import NO_COMMAND, NO_RULE, NO_TARGET, TARGET
from lib.counting_target import CountingTarget
from lib.log_text import logged
from lib.metrics import scrape
from lib.places import PROGRAM
from lib.relay import Relay, Session
from lib.sockets import free_port, some_address
from lib.stages import run_script
from lib.waiting import comes

SOON = 10
OFTEN, ONCE = 'health = { every = "20ms", fall = 2, rise = 2 }\n', 'health = { every = "1h", fall = 1 }\n'
NUMBERS = ("since", "connections", "connects", "failures", "passed", "failed")
# So many rules of so many targets are listed; each takes some lines of a file.
MANY_RULES, MANY_TARGETS = 60, 40
FAMILIES = ("connections", "connects_total", "connect_failures_total")

A, B, C = (CountingTarget(name) for name in "ABC")


def table(target):
    """A target as a configuration has it: by itself, its address, or one of these with more keys."""
    target, more = target if isinstance(target, tuple) else (target, "")
    return f'{{ at = "{getattr(target, "address", target)}"{more} }}'


def rule(name, port, targets, keys=""):
    return (
        f'[[rule]]\nname = "{name}"\nlisten = ["tcp:127.0.0.1:{port}"]\nbalance = "first"\n{keys}'
        f"target = [{', '.join(map(table, targets))}]\n"
    )


def parsed(reply):
    """The lines of a reply to `targets` by their parts, with numbers as such; what is no such line is a text."""
    *lines, last = reply.split("\n")
    found = [TARGET.fullmatch(line) for line in lines]
    rows = [it and {**it.groupdict(), **{key: int(it[key]) for key in NUMBERS}} for it in found]
    return [it or line for it, line in zip(rows, lines)] + [last] * (last != "end")


class Steered:
    """A relay with a rule of these targets, and further rules, by a configuration; or by a rules file with the first target alone."""

    def __init__(self, targets, keys="", more="", form="config", metrics=None):
        self.port, self.more, self.form = free_port(), more, form
        self.metrics = f'metrics = "{metrics}"\n' if metrics else ""
        self.relay = Relay(self.text(targets, keys), form=form)

    def text(self, targets, keys=""):
        if self.form == "rules":
            return f"relay web tcp:127.0.0.1:{self.port} {targets[0].address} never\n"
        head = 'admin = "{folder}/admin.sock"\nlog = "{folder}/log"\nloops = 2\nconnect_timeout = "5s"\n'
        return head + self.metrics + rule("web", self.port, targets, keys) + self.more

    def reload(self, targets, keys=""):
        self.relay.write(self.text(targets, keys))
        return self.relay.ask("reload")

    def set(self, target, word, rule="web"):
        return self.relay.ask(f"target {rule} {getattr(target, 'address', target)} {word}")

    def lines(self, rule="web"):
        return [it for it in parsed(self.relay.ask("targets")) if isinstance(it, str) or it["rule"] == rule]

    def line(self, target):
        at = getattr(target, "address", target)
        return next((it for it in self.lines() if it["at"] == at), {})

    def told(self, target, *keys):
        line = self.line(target)
        return [line.get(key) for key in keys]

    def comes_to(self, target, **told):
        """Whether the line of a target comes to say this."""
        return comes(lambda: self.told(target, *told) == list(told.values()))

    def client(self):
        sock = socket.create_connection(("127.0.0.1", self.port), SOON)
        sock.settimeout(SOON)
        return sock

    def got(self):
        """A client, and the target that it got, by its name; `end` where it was closed."""
        client = self.client()
        with contextlib.suppress(ConnectionError):
            return client, client.recv(1).decode() or "end"
        return client, "end"

    def names(self, count):
        """The targets of so many clients, none of which stays."""
        names = []
        for _ in range(count):
            client, name = self.got()
            client.close()
            names.append(name)
        return "".join(names)

    def __enter__(self):
        return self

    def __exit__(self, *_):
        self.relay.close()


def goes_on(client):
    """Whether bytes come back to this client."""
    client.sendall(b"still here")
    return client.recv(64) == b"still here"


def shown(checks, folder):
    dead, port = some_address(), free_port()
    with Steered((dead, A, (B, ", backup = true")), more=rule("two", port, (C,), OFTEN)) as it:
        checks.expect("shown: three of one rule, one of the other", ["web"] * 3 + ["two"], [line["rule"] for line in parsed(it.relay.ask("targets"))])
        checks.expect("shown: in their order", [dead, A.address, B.address], [line["at"] for line in it.lines()])
        checks.expect("shown: by their numbers", ["1", "2", "3"], [line["number"] for line in it.lines()])
        fresh = {"state": "up", "set": "auto", "connections": 0, "connects": 0, "failures": 0, "checks": "off", "passed": 0, "failed": 0, "last": "none"}
        for target in (dead, A, B):
            checks.expect(f"shown: nothing of {target} yet", list(fresh.values()), it.told(target, *fresh))
        client, name = it.got()
        checks.expect("shown: a client", "A", name)
        checks.expect("shown: one that refuses", [0, 0, 1, "refused"], it.told(dead, "connections", "connects", "failures", "last"))
        checks.holds("shown: one that stands", it.comes_to(A, connections=1, connects=1, failures=0, last="none"), it.line(A))
        client.close()
        checks.holds("shown: and has gone", it.comes_to(A, connections=0, connects=1), it.line(A))
        checks.holds("shown: one that is checked", comes(lambda: it.lines("two")[0]["passed"] > 1), it.lines("two"))
        told = it.lines("two")[0]
        checks.expect("shown: by checks alone", ["on", 0, 0, "none", "up"], [told[key] for key in ("checks", "connects", "failed", "last", "state")])
        before = it.line(A)["since"]
        time.sleep(0.05)
        checks.holds("shown: for how long it is so", before + 50 <= it.line(A)["since"], (before, it.line(A)))
        it.set(A, "drain")
        checks.holds("shown: since it was set", it.line(A)["since"] < before + 50, (before, it.line(A)))
        with Session(it.relay.admin) as session:
            checks.expect("shown: twice in a session", [4, 4], [session.ask("targets").count("\n") for _ in range(2)])
            checks.expect("shown: and others behind it", "totals up 0 down 1", session.ask("totals"))


def drained(checks, folder):
    with Steered((A, B)) as it:
        stays, name = it.got()
        checks.expect("drained: the first", "A", name)
        checks.expect("drained: it is set", "ok", it.set(A, "drain"))
        checks.expect("drained: what is told", ["drained", "drain", 1], it.told(A, "state", "set", "connections"))
        checks.expect("drained: nobody new", "BBBB", it.names(4))
        checks.holds("drained: what stands goes on", goes_on(stays), "no bytes")
        stays.close()
        checks.holds("drained: until it ends", it.comes_to(A, connections=0), it.line(A))
        it.set(B, "drain")
        checks.expect("drained: all are", "end", it.names(1))
        # (a connection that ended before may have its line later: another loop tells it)
        ends = [line["how"] for line in logged(f"{it.relay.folder}/log", 6)]
        checks.expect("drained: the log's word", 1, ends.count("no target down"))
        checks.expect("drained: it is taken back", "ok", it.set(A, "auto"))
        checks.expect("drained: clients come again", ("AA", ["up", "auto"]), (it.names(2), it.told(A, "state", "set")))
        checks.expect("drained: the other is still", ["drained"], it.told(B, "state"))


def down(checks, folder):
    with Steered((A, B), OFTEN) as it:
        stays, _ = it.got()
        checks.expect("down: it is set", "ok", it.set(A, "down"))
        checks.expect("down: what is told", ["down", "down"], it.told(A, "state", "set"))
        passed = it.line(A)["passed"]
        checks.holds("down: its checks pass", comes(lambda: it.line(A)["passed"] > passed + 4), it.line(A))
        checks.expect("down: and don't bring it up", ("BBB", ["down"]), (it.names(3), it.told(A, "state")))
        checks.holds("down: what stands goes on", goes_on(stays), "no bytes")
        stays.close()
        checks.expect("down: another word ends it", ("ok", "AAA"), (it.set(A, "up"), it.names(3)))


def up(checks, folder):
    path = f"{folder}/late"
    with Steered((f"unix:{path}", B), ONCE) as it:
        late = f"unix:{path}"
        checks.holds("up: it fails its check", it.comes_to(late, state="down", failed=1, last="unreachable"), it.line(late))
        CountingTarget("L", path=path)
        checks.expect("up: no check comes", "BB", it.names(2))
        checks.expect("up: it is set", "ok", it.set(late, "up"))
        checks.expect("up: clients come", ("LL", ["up", "up"]), (it.names(2), it.told(late, "state", "set")))
        checks.expect("up: its checks decide again", ("ok", "BB", ["down", "auto"]), (it.set(late, "auto"), it.names(2), it.told(late, "state", "set")))


def backups(checks, folder):
    with Steered((A, (B, ", backup = true"), (C, ", weight = 0"))) as it:
        checks.expect("backups: none while another is there", "AA", it.names(2))
        it.set(A, "drain")
        checks.expect("backups: it takes over", "BB", it.names(2))
        it.set(A, "up")
        checks.expect("backups: it hands back", "AA", it.names(2))
        checks.expect("backups: one without a weight stays without clients", ("ok", "AA"), (it.set(C, "up"), it.names(2)))


def alone(checks, folder):
    for form in ("rules", "config"):
        with Steered((A,), form=form) as it:
            stays, name = it.got()
            checks.expect(f"alone, {form}: its client", "A", name)
            checks.holds(f"alone, {form}: its line", it.comes_to(A, number="1", connections=1, connects=1, checks="off"), it.lines())
            checks.expect(f"alone, {form}: it is drained", ("ok", "end"), (it.set(A, "drain"), it.names(1)))
            checks.holds(f"alone, {form}: what stands goes on", goes_on(stays), "no bytes")
            stays.close()
            checks.expect(f"alone, {form}: down, and up", ("ok", "end", "ok", "A"), (it.set(A, "down"), it.names(1), it.set(A, "up"), it.names(1)))


def refused(checks, folder):
    with Steered((A, B)) as it:
        rows = [
            ("target none tcp:127.0.0.1:1 down", NO_RULE),
            ("target web2 1 down", NO_RULE),
            ("target web tcp:127.0.0.1:1 down", NO_TARGET),
            (f"target web {A.address.upper()} down", NO_TARGET),
            ("target web 0 down", NO_TARGET),
            ("target web 3 down", NO_TARGET),
            ("target web 01 down", NO_TARGET),
            ("target web 1 sideways", NO_COMMAND),
            ("target web 1 DOWN", NO_COMMAND),
            ("target web 1", NO_COMMAND),
            ("target web", NO_COMMAND),
            ("target", NO_COMMAND),
            ("target web 1 down ", NO_COMMAND),
            ("target web  down", NO_COMMAND),
            ("target WEB 1 down", NO_COMMAND),
            (f"target {'w' * 17} 1 down", NO_COMMAND),
            ("targets web", NO_COMMAND),
        ]
        for line, reply in rows:
            checks.expect(f"refused: {line!r}", reply, it.relay.ask(line))
        checks.expect("refused: nothing has changed", (["auto"] * 2, "AA"), ([line["set"] for line in it.lines()], it.names(2)))
        checks.expect("refused: too long a line", NO_COMMAND, it.relay.ask(f"target web unix:/{'x' * 50} down"))


def named(checks, folder):
    path = f"{folder}/{'t' * (90 - len(folder))}"
    far = CountingTarget("F", path=path)
    with Steered((far, A, (A, ", weight = 2"), B)) as it:
        checks.expect("named: one address is one target", ["1", "2", "4"], [line["number"] for line in it.lines()])
        checks.expect("named: by its number", ("ok", ["drained"], "A"), (it.set("1", "drain"), it.told(far, "state"), it.names(1)))
        checks.expect("named: both at an address", ("ok", "BB"), (it.set("3", "drain"), it.names(2)))
        checks.expect("named: by the address too", ("ok", "AA"), (it.set(A, "auto"), it.names(2)))


def reloads(checks, folder):
    with Steered((A, B)) as it:
        stays, _ = it.got()
        checks.holds("reloads: it stands", it.comes_to(A, connections=1, connects=1), it.line(A))
        it.set(A, "drain")
        checks.holds("reloads: a refused one", it.reload((A, "tcp:nowhere")).startswith("bad config: "), "it was taken")
        checks.expect("reloads: ends nothing", (["drained", "drain"], "BB"), (it.told(A, "state", "set"), it.names(2)))
        checks.expect("reloads: another", "rules 1", it.reload((A, B, C)))
        checks.expect("reloads: ends what was set", (["up", "auto", 1, 1], "A"), (it.told(A, "state", "set", "connections", "connects"), it.names(1)))
        checks.holds("reloads: since then", it.line(A)["since"] < it.line(B)["since"], it.lines())
        checks.holds("reloads: a new one is younger", it.line(C)["since"] <= it.line(A)["since"] + 1, it.lines())
        checks.holds("reloads: what stood goes on", goes_on(stays), "no bytes")
        stays.close()
        checks.expect("reloads: an account that goes", "rules 1", it.reload((B,)))
        checks.expect("reloads: takes its targets along", [B.address], [line["at"] for line in it.lines()])
        checks.expect("reloads: and has none of that name", NO_TARGET, it.set(A, "drain"))


def earlier(checks, folder):
    metrics, senders = some_address(), 'proxy_protocol = { from_client = ["127.0.0.1/32"] }\n'
    with Steered((A, B), senders, metrics=metrics) as it, it.client() as client:
        accepted = 'pollrelay_rule_accepted_total{rule="web"} 1'
        checks.holds("earlier: it is accepted", comes(lambda: accepted in scrape(metrics)[1].splitlines()), "it isn't")
        checks.expect("earlier: a reload", "rules 1", it.reload((A, B, C), senders))
        checks.expect("earlier: a drain", "ok", it.set(A, "drain"))
        client.sendall(b"PROXY UNKNOWN\r\n")
        checks.expect("earlier: another takes it", b"B", client.recv(1))


def since(checks, folder):
    with Steered((some_address(), A), OFTEN) as it:
        dead = it.lines()[0]["at"]
        checks.holds("since: one is down", it.comes_to(dead, state="down"), it.lines())
        time.sleep(0.2)
        checks.expect("since: words that change nothing", ["ok"] * 2, [it.set(dead, "down"), it.set(A, "up")])
        checks.holds("since: nothing has changed", min(line["since"] for line in it.lines()) >= 200, it.lines())
        checks.expect("since: one that does", "ok", it.set(A, "drain"))
        checks.holds("since: it is so since then", it.line(A)["since"] < it.line(dead)["since"], it.lines())
        checks.expect("since: no checks any more", "rules 1", it.reload((dead, A)))
        checks.expect("since: both are up", ["up"] * 2, [line["state"] for line in it.lines()])
        time.sleep(0.2)
        checks.expect("since: a reload that changes nothing", "rules 1", it.reload((dead, A)))
        checks.holds("since: they are so since the one before", all(200 <= line["since"] < 60_000 for line in it.lines()), it.lines())
        older = it.line(dead)["since"] > it.line(A)["since"] + 100
        checks.holds("since: not since the one went down", not older, it.lines())


def figures(checks, folder):
    metrics, dead = some_address(), some_address()
    with Steered((dead, A), more=rule("two", free_port(), (C,), OFTEN), metrics=metrics) as it:
        def figure(family, at, name="web"):
            start = f'pollrelay_target_{family}{{rule="{name}",target="{at}"}} '
            return [line.removeprefix(start) for line in scrape(metrics)[1].splitlines() if line.startswith(start)]

        def healthy():
            return scrape(metrics, "/healthz")

        client, _ = it.got()
        checks.holds("figures: it stands", it.comes_to(A, connections=1, connects=1), it.line(A))
        checks.expect("figures: of one that refuses", [["0"], ["0"], ["1"]], [figure(it, dead) for it in FAMILIES])
        checks.expect("figures: of one that is taken", [["1"], ["1"], ["0"]], [figure(it, A.address) for it in FAMILIES])
        checks.expect("figures: of one that isn't tried", [["0"], ["0"], ["0"]], [figure(it, C.address, "two") for it in FAMILIES])
        checks.expect("figures: up is a checked one alone", ([], ["1"]), (figure("up", A.address), figure("up", C.address, "two")))
        client.close()
        checks.expect("figures: well", (200, "ok\n"), healthy())
        it.set(dead, "down")
        checks.expect("figures: well while one is up", (200, "ok\n"), healthy())
        it.set(A, "drain")
        checks.expect("figures: ill once none is", (503, "no target up\n"), healthy())
        it.set(A, "auto")
        it.set(C, "down", "two")
        checks.expect("figures: ill by one that is set down", ((503, "no target up\n"), ["0"]), (healthy(), figure("up", C.address, "two")))
        checks.expect("figures: a reload ends it", ("rules 2", (200, "ok\n")), (it.reload((dead, A)), healthy()))
    with Steered((A, (B, ", weight = 0")), metrics=metrics) as it:
        it.set(A, "drain")
        checks.expect("figures: one without a weight is no help", (503, "no target up\n"), scrape(metrics, "/healthz"))
    with Steered((dead,), ONCE, metrics=metrics) as it:
        checks.holds("figures: ill by its checks", comes(lambda: scrape(metrics, "/healthz") == (503, "no target up\n")), "well")


def pieces(checks, folder):
    targets = [f"tcp:127.0.0.1:{port}" for port in range(10_000, 10_000 + MANY_TARGETS)]
    ports = {f"r{n}": free_port() for n in range(MANY_RULES)}
    more = "".join(rule(name, port, targets) for name, port in ports.items())
    with Steered((A, B), more=more) as it:
        lines = parsed(it.relay.ask("targets"))
        checks.expect("pieces: all of them", 2 + MANY_RULES * MANY_TARGETS, len([line for line in lines if isinstance(line, dict)]))
        with socket.socket(socket.AF_UNIX) as slow:
            slow.connect(it.relay.admin)
            slow.sendall(b"targets\n")
            checks.expect("pieces: others go on", "ok", it.set(B, "drain"))
            # Its numbers are those of the listing that is under way.
            it.relay.ask("targets")
            # The file has the rules in another order from now on, without the last of them.
            kept = list(reversed(list(ports.items())))[1:]
            it.more = "".join(rule(name, port, targets) for name, port in kept)
            checks.expect("pieces: a reload meanwhile", f"rules {MANY_RULES}", it.reload((A, B)))
            text = slow.makefile("r", encoding="ascii")
            told = []
            for line in text:
                if line == "end\n":
                    break
                told.append(line.rstrip("\n"))
        pairs = [(row["rule"], row["at"]) for row in map(TARGET.fullmatch, told) if row]
        checks.expect("pieces: each is a line", len(told), len(pairs))
        checks.expect("pieces: none twice", len(pairs), len(set(pairs)))
        stays = {(name, at) for name, _ in kept for at in targets}
        checks.expect("pieces: all that stay", set(), stays - set(pairs))


def ctl(checks, folder):
    with Steered((A, B)) as it:
        def asked(*words):
            done = subprocess.run([PROGRAM, "ctl", "--admin", it.relay.admin, *words], capture_output=True, text=True, timeout=60)
            return done.returncode, done.stdout

        checks.expect("ctl: it is set", (0, "ok\n"), asked("target", "web", A.address, "drain"))
        status, text = asked("targets")
        checks.expect("ctl: the lines", (0, ["drained", "up"]), (status, [line["state"] for line in parsed(text.rstrip("\n"))]))
        checks.expect("ctl: no such rule", (1, f"{NO_RULE}\n"), asked("target", "none", A.address, "drain"))
        checks.expect("ctl: no such target", (1, f"{NO_TARGET}\n"), asked("target", "web", "3", "drain"))
        checks.expect("ctl: no such word", (2, ""), asked("target", "web", A.address, "off"))
        checks.expect("ctl: a word too many", (2, ""), asked("target", "web", A.address, "drain", "now"))
        checks.expect("ctl: as one word", (0, "ok\n"), asked(f"target web {A.address} auto"))
        storm(checks, it)


def storm(checks, it):
    """Many commands beside clients: none of these is lost."""
    ends, over = [], threading.Event()

    def clients():
        while not over.is_set():
            client, name = it.got()
            ends.append(name if name == "end" or goes_on(client) else "lost")
            client.close()

    threads = [threading.Thread(target=clients) for _ in range(4)]
    for thread in threads:
        thread.start()
    with Session(it.relay.admin) as session:
        replies = {session.ask(f"target web {A.address} {word}") for _ in range(200) for word in ("drain", "down", "up", "auto")}
        replies |= {session.ask("reload") for _ in range(20)}
    over.set()
    for thread in threads:
        thread.join()
    checks.expect("storm: each is done", {"ok", "rules 1"}, replies)
    checks.expect("storm: no client is lost", set(), set(ends) - {"A", "B", True} - set("AB"))
    checks.holds("storm: clients came", len(ends) > 10, len(ends))
    checks.holds("storm: none stands", it.comes_to(A, connections=0) and it.comes_to(B, connections=0), it.lines())


STAGES = {it.__name__: it for it in (shown, drained, down, up, backups, alone, refused, named, reloads, earlier, since, figures, pieces, ctl)}


if __name__ == "__main__":
    sys.exit(run_script(__doc__, STAGES))
