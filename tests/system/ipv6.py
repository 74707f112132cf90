#!/usr/bin/env python3
"""Rules at IPv6 addresses, by a configuration: who is served, and how addresses are told.

    python3 tests/system/ipv6.py [STAGE]..

loopback   a rule at ::1 with a target at ::1; `list`, `show`, the log and the metrics, also at ::1, tell each address as a configuration has it.
any        `[::]` takes clients of IPv6 alone, and stands beside `0.0.0.0` at one port, whichever is opened first.
texts      an address is told in one spelling, however it is written; what is one address twice, IPv4-mapped or a name is refused.
lists      `allow` and `deny` by networks of IPv6, and of both families.
source     clients of one address go to the target that its number gives.
inherited  a listener of both families, which the relay is started with: an IPv4 client is told, let in and balanced as IPv4.
reloads    a reload adds and takes away rules of IPv6; connections go on.
health     a target of IPv6 is down, and up again, by its checks.
option     `--metrics` takes an IPv6 address too.
refused    where nobody listens, the next target of the other family is tried; a port that is taken is told as one of IPv4.
faults     each call fails once by which a listener of IPv6 is made: the start ends with the rule's fault; a reload is refused, keeps no
           descriptor and changes nothing.
"""
import contextlib
import errno
import json
import socket
import subprocess
import sys

sys.path.insert(1, f"{sys.path[0]}/..")
from lib.c_code import library
from lib.counting_target import CountingTarget
from lib.faulted_life import said_of
from lib.log_text import logged
from lib.metrics import scrape
from lib.places import LIB, PROGRAM
from lib.relay import Relay, StartFault
from lib.sockets import connect, dual_stack, free_port, has_ipv6, listener, tcp_address
from lib.stages import run_script
from lib.waiting import comes, wait_until

SOON = 10
ONE, ANY, FOUR = "tcp:[::1]:{}".format, "tcp:[::]:{}".format, "tcp:127.0.0.1:{}".format
ALL_FOUR = "tcp:0.0.0.0:{}".format


def targets(host="::1"):
    return [CountingTarget(name, host) for name in "ABC"]


def rule(listen, *at, name="web", more=""):
    tables = ", ".join(f'{{ at = "{getattr(it, "address", it)}" }}' for it in at)
    return f'[[rule]]\nname = "{name}"\nlisten = ["{listen}"]\n{more}target = [{tables}]\n'


def lists(allow=None, deny=None):
    return "".join(f"{key} = {json.dumps(nets)}\n" for key, nets in (("allow", allow), ("deny", deny)) if nets is not None)


def config(*rules, more=""):
    return f'admin = "{{folder}}/admin.sock"\nlog = "{{folder}}/log"\nloops = 2\n{more}{"".join(rules)}'


def relay(*rules, more="", **given):
    return contextlib.closing(Relay(config(*rules, more=more), form="config", **given))


def reload(it, *rules):
    it.write(config(*rules))
    return it.ask("reload")


def got(address, says=b"x"):
    """A client of this address, and the name of the target that it got; `end` where it got none."""
    client = connect(address, SOON)
    try:
        name = client.recv(1).decode()
        client.sendall(says)
        return client, name if name and received(client, len(says)) == says else "end"
    except OSError:
        return client, "end"


def received(client, count):
    came = b""
    while len(came) < count and (part := client.recv(count - len(came))):
        came += part
    return came


def name_at(address):
    """The name of the target that a client of this address got, and which is gone then."""
    try:
        client, name = got(address)
    except ConnectionRefusedError:
        return "refused"
    client.close()
    return name


def own(client):
    return tcp_address(client.getsockname())


def ends(it, count):
    """Of each line of the log, once there are so many, client, target and end."""
    return [(line.get("client"), line.get("target"), line["how"]) for line in logged(f"{it.folder}/log", count)]


def logs(checks, what, it, line):
    """The log comes to tell this; lines of connections that ended before may come later, from other loops."""
    checks.holds(what, comes(lambda: line in ends(it, 0)), ends(it, 0))


def figure(address, start):
    return next((line.split()[-1] for line in scrape(address)[1].splitlines() if line.startswith(start)), None)


def loopback(checks, _):
    a, port, figures = CountingTarget("A", "::1"), free_port(), ONE(free_port())
    with relay(rule(ONE(port), a), more=f'metrics = "{figures}"\n') as it:
        checks.expect("loopback: it listens", "listening 1\n", it.said)
        client, name = got(ONE(port), bytes(100_000))
        checks.expect("loopback: the target, and all bytes", "A", name)
        checks.expect("loopback: the ids", 3, len(it.ids()))
        shown = it.ask("show").splitlines()
        for side, peer in (("listener", ONE(port)), ("client", own(client)), ("target", a.address)):
            checks.holds(f"loopback: show tells the {side}", any(f" side {side} peer {peer} up " in line for line in shown), shown)
        status, text = scrape(figures)
        checks.expect("loopback: metrics at ::1", 200, status)
        checks.holds("loopback: they have the rule", 'pollrelay_rule_accepted_total{rule="web"} 1' in text, text)
        client.close()
        checks.expect("loopback: the log", [(own_of(shown), a.address, "eof")], ends(it, 1))
        status, totals, _ = it.stop()
        checks.expect("loopback: status and totals", (0, (100_000, 100_001)), (status, totals))


def own_of(shown):
    """The address of the client that `show` told."""
    return next(line.split(" peer ")[1].split()[0] for line in shown if " side client " in line)


def any_address(checks, _):
    six, four = CountingTarget("6", "::1"), CountingTarget("4")
    port = free_port()
    with relay(rule(ANY(port), six)) as it:
        checks.expect("any: [::] alone", ("6", "refused"), (name_at(ONE(port)), name_at(FOUR(port))))
        checks.holds("any: where it listens", f" peer {ANY(port)} " in it.ask("show 1"), it.ask("show 1"))
    for order in (("six", "four"), ("four", "six")):
        port = free_port()
        rules = {"six": rule(ANY(port), six, name="six"), "four": rule(ALL_FOUR(port), four, name="four")}
        with relay(*(rules[name] for name in order)) as it:
            checks.expect(f"any: both, {order[0]} first", ("6", "4"), (name_at(ONE(port)), name_at(FOUR(port))))
            rows = sorted(it.ask(f"show {number}").split(" peer ")[1].split()[0] for number in (1, 2))
            checks.expect(f"any: where both listen, {order[0]} first", sorted((ANY(port), ALL_FOUR(port))), rows)


def checked(folder, text):
    with open(f"{folder}/config", "w", encoding="ascii") as file:
        file.write(text)
    ran = subprocess.run([PROGRAM, "check", "--config", f"{folder}/config"], capture_output=True, timeout=SOON, check=False)
    return ran.returncode, ran.stdout.decode()


def texts(checks, folder):
    port, a = free_port(), CountingTarget("A", "::1")
    with relay(rule(f"tcp:[0:0:0:0:0:0:0:1]:{port}", a.address.replace("::1", "0::0001"))) as it:
        checks.expect("texts: it is served", "A", name_at(ONE(port)))
        checks.holds("texts: the listener", f" peer {ONE(port)} " in it.ask("show 1"), it.ask("show 1"))
        checks.expect("texts: the target in the log", a.address, ends(it, 1)[0][1])
    twice = rule("tcp:[::1]:80", "unix:/b", name="one") + rule("tcp:[0::1]:80", "unix:/b", name="two")
    checks.expect("texts: one address twice", 1, checked(folder, twice)[0])
    scopes = rule("tcp:[fe80::1%2]:80", "unix:/b", name="one") + rule("tcp:[fe80::1%3]:80", "unix:/b", name="two")
    checks.expect("texts: two scopes", (0, "rules 2\n"), checked(folder, scopes))
    for text, place in (
        (rule("tcp:[::ffff:127.0.0.1]:80", "unix:/b"), 'rule "web": listen 1: "tcp:[::ffff:127.0.0.1]:80" is no address'),
        (rule("tcp:[fe80::1%lo]:80", "unix:/b"), 'rule "web": listen 1: "tcp:[fe80::1%lo]:80" is no address'),
        (rule("tcp:localhost:80", "tcp:[::1]:80"), 'rule "web": listen 1: "tcp:localhost:80" is no address to listen at'),
    ):
        status, said = checked(folder, text)
        checks.holds(f"texts: {place}", status == 1 and said.startswith(f"bad config: {place}"), said)


# Lists, and whether the clients at ::1 and at 127.0.0.1 are let in.
LISTS = (
    ((None, None), (True, True)), ((["::1"], None), (True, False)), ((["::1/128"], None), (True, False)),
    ((["::/127"], None), (True, False)), ((["::2"], None), (False, False)), ((["::/0"], None), (True, False)),
    ((["8000::/1"], None), (False, False)), ((None, ["::1"]), (False, True)), ((None, ["::/0"]), (False, True)),
    ((None, ["::2/127"]), (True, True)), ((["::/0"], ["::1"]), (False, False)), ((["0.0.0.0/0"], None), (False, True)),
    ((None, ["0.0.0.0/0"]), (True, False)), ((["::1", "127.0.0.1"], None), (True, True)), ((["::1"], ["127.0.0.0/8"]), (True, False)),
    ((None, ["2001:db8::/32"]), (True, True)),
)


def who_may(checks, _):
    a, port = CountingTarget("A", "::1"), free_port()

    def rules(allow=None, deny=None):
        more = lists(allow, deny)
        return rule(ANY(port), a, name="six", more=more), rule(ALL_FOUR(port), a, name="four", more=more)

    with relay(*rules()) as it:
        for both, wanted in LISTS:
            checks.expect(f"lists: {both}: the reload", "rules 2", reload(it, *rules(*both)))
            served = tuple(name_at(address(port)) == "A" for address in (ONE, FOUR))
            checks.expect(f"lists: allow {both[0]}, deny {both[1]}", wanted, served)
        reload(it, *rules(deny=["::1"]))
        client, name = got(ONE(port))
        checks.expect("lists: the one that is denied", "end", name)
        logs(checks, "lists: the log tells it", it, (own(client), a.address, "denied"))
        client.close()


def number_of(octets):
    """FNV-1a of 64 bits, by its public definition."""
    number = 14_695_981_039_346_656_037
    for octet in octets:
        number = (number ^ octet) * 1_099_511_628_211 % 2**64
    return number


def by_source(host):
    """The name of the target that a client from this host gets of three."""
    family = socket.AF_INET6 if ":" in host else socket.AF_INET
    return "ABC"[number_of(socket.inet_pton(family, host)) % 3]


def source(checks, _):
    port, balance = free_port(), 'balance = "source"\n'
    with relay(rule(ANY(port), *targets(), more=balance)) as it:
        checks.expect("source: ::1", by_source("::1") * 6, "".join(name_at(ONE(port)) for _ in range(6)))
        checks.expect("source: the end", 0, it.stop()[0])


def inherited(checks, _):
    sock, port = dual_stack()
    three, balance = targets(), 'balance = "source"\n'
    with relay(rule(ANY(port), *three, more=balance), sockets=[sock], env={}) as it:
        checks.expect("inherited: it is taken", ("listening 1\n", ""), (it.said, it.errors()))
        for host, address in (("::1", ONE(port)), ("127.0.0.1", FOUR(port))):
            client, name = got(address)
            checks.expect(f"inherited: the target of {host}", by_source(host), name)
            shown = it.ask("show")
            checks.holds(f"inherited: show tells {host}", f" side client peer {own(client)} up " in shown, shown)
            told = own(client)
            client.close()
            at = three["ABC".index(name)].address
            logs(checks, f"inherited: the log tells {host}", it, (told, at, "eof"))
        for both, wanted in (((["127.0.0.0/8"], None), (False, True)), ((None, ["127.0.0.1"]), (True, False)), ((["::/0"], None), (True, False))):
            checks.expect(f"inherited: {both}: the reload", "rules 1", reload(it, rule(ANY(port), *three, more=balance + lists(*both))))
            checks.expect(f"inherited: {both}", wanted, tuple(name_at(address(port)) != "end" for address in (ONE, FOUR)))
        checks.expect("inherited: the end", 0, it.stop()[0])
    with contextlib.closing(sock), relay(rule(ONE(free_port()), three[0]), sockets=[sock], env={}) as it:
        checks.expect("inherited: one of no rule is told", f"unused socket {ANY(port)}\n", it.errors())


def option(checks, _):
    figures, port = ONE(free_port()), free_port()
    with contextlib.closing(Relay(f"relay web {FOUR(port)} unix:/b never\n", options=("--metrics", figures))) as it:
        checks.expect("option: metrics at ::1", 200, scrape(figures)[0])
        checks.expect("option: a rules file has none", "bad rules: line 1", reload_rules(it, f"relay web {ONE(port)} unix:/b never\n"))


def reload_rules(it, text):
    it.write(text)
    return it.ask("reload")


def reloads(checks, _):
    a, b, first, second = CountingTarget("A", "::1"), CountingTarget("B"), free_port(), free_port()
    one, more = rule(FOUR(first), b, name="one"), rule(ONE(second), a, name="two")
    with relay(one) as it:
        checks.expect("reloads: before", ("B", "refused"), (name_at(FOUR(first)), name_at(ONE(second))))
        checks.expect("reloads: one more", "rules 2", reload(it, one, more))
        stays, name = got(ONE(second))
        checks.expect("reloads: then", ("B", "A"), (name_at(FOUR(first)), name))
        # (the same address in another spelling: its listener stays)
        again = more.replace("[::1]", "[0::1]").replace('"two"', '"six"')
        checks.expect("reloads: another spelling", "rules 2", reload(it, one, again))
        checks.expect("reloads: it is served", "A", name_at(ONE(second)))
        checks.expect("reloads: it goes", "rules 1", reload(it, one))
        checks.expect("reloads: nobody listens", "refused", name_at(ONE(second)))
        stays.sendall(b"on")
        checks.expect("reloads: who stood goes on", b"on", received(stays, 2))
        stays.close()


def health(checks, _):
    port, at = free_port(), free_port()
    checked_so = 'health = { every = "50ms", timeout = "1s", fall = 2, rise = 2 }\n'
    fallback = CountingTarget("B")
    figures = ONE(free_port())
    with relay(rule(ONE(port), ONE(at), fallback, more='balance = "first"\n' + checked_so), more=f'metrics = "{figures}"\n') as it:
        hows = lambda: [how for _, target, how in ends(it, 0) if target == ONE(at)]
        checks.holds("health: it is down", wait_until(lambda: "target down" in hows(), SOON), hows())
        start = f'pollrelay_target_up{{rule="web",target="{ONE(at)}"}}'
        checks.expect("health: the figure", "0", figure(figures, start))
        checks.expect("health: the next one", "B", name_at(ONE(port)))
        sock = socket.create_server(("::1", at), family=socket.AF_INET6)
        checks.holds("health: it is up", wait_until(lambda: "target up" in hows(), SOON), hows())
        checks.expect("health: the figure then", "1", figure(figures, start))
        sock.close()


def refused(checks, _):
    port, a, b = free_port(), CountingTarget("A", "::1"), CountingTarget("B")
    dead = ONE(free_port())
    with relay(rule(ONE(port), dead, b, more='balance = "first"\n')):
        checks.expect("refused: the next is of IPv4", "B", name_at(ONE(port)))
    with relay(rule(FOUR(port), dead, a, more='balance = "first"\n')):
        checks.expect("refused: the next is of IPv6", "A", name_at(FOUR(port)))
    with relay(rule(ONE(port), dead)) as it:
        client, name = got(ONE(port))
        checks.expect("refused: all", "end", name)
        checks.expect("refused: the log", [(own(client), dead, "no target refused")], ends(it, 1))
        client.close()
    sock, address = listener(host="::1")
    six = refusal(rule(address, a))
    sock.close()
    sock, address = listener()
    checks.expect("refused: a port that is taken", refusal(rule(address, a)), six)
    sock.close()


def refusal(of_rule):
    """How a relay of this rule ends that doesn't start, and what it says."""
    try:
        relay(of_rule, env={}).__enter__()
    except StartFault as fault:
        return fault.status, fault.errors
    return None


# The calls by which a listener is made, each with an error of its manual. A start makes the rule's listener, then the admin socket's:
# which of them can't be made where the first such call fails, and where the second does. A listener of IPv6 has two options set; the
# library has no `listen` of a Unix socket fail.
CALLS = {
    "socket": ("EAFNOSUPPORT", ["six", "admin"]), "setsockopt": ("ENOBUFS", ["six", "six"]),
    "bind": ("EADDRNOTAVAIL", ["six", "admin"]), "listen": ("EADDRINUSE", ["six"]),
}
MOST_CALLS = 20


def faults(checks, folder):
    lib = library(f"{LIB}/fail_nth.c", f"{folder}/fail_nth.so")
    for call, (error, told) in CALLS.items():
        env = {"LD_PRELOAD": lib, "FAIL_CALL": call, "FAIL_WITH": str(getattr(errno, error))}
        envs = [{**env, "FAIL_AT": str(at)} for at in range(1, MOST_CALLS)]
        checks.expect(f"faults: {call}: starts", [(3, f"cannot listen {name}\n", []) for name in told], list(failed_starts(envs)))
        checks.expect(f"faults: {call}: reloads", told.count("six"), failed_reloads(checks, call, envs))


def failed_starts(envs):
    """How each start ends of a relay of which such a call fails, what it says and which paths it leaves, until none fails."""
    a = CountingTarget("A", "::1")
    for env in envs:
        try:
            with relay(rule(ONE(free_port()), a, name="six"), env=env):
                return
        except StartFault as fault:
            yield fault.status, said_of(fault.errors)[0], fault.left


def failed_reloads(checks, call, envs):
    """Of reloads that add a rule of IPv6 to one of IPv4, how many there are that such a call has refused, until none fails."""
    a, b, count = CountingTarget("A", "::1"), CountingTarget("B"), 0
    for env in envs:
        first, second = FOUR(free_port()), ONE(free_port())
        one, more = rule(first, b, name="four"), rule(second, a, name="six")
        with contextlib.suppress(StartFault), relay(one, env=env) as it:
            rest, reply = it.descriptors(), reload(it, one, more)
            if not said_of(it.errors())[1]:
                return count
            count += 1
            checks.expect(f"faults: {call}: a reload", "cannot listen six", reply)
            checks.holds(f"faults: {call}: its descriptors", wait_until(lambda: it.descriptors() == rest, SOON), f"{it.descriptors()}, not {rest}")
            checks.expect(f"faults: {call}: who is served", ("ids 1", "B", "refused"), (it.ask("list"), name_at(first), name_at(second)))
            checks.expect(f"faults: {call}: the next reload", ("rules 2", "A"), (reload(it, one, more), name_at(second)))
    return None


STAGES = {
    "loopback": loopback, "any": any_address, "texts": texts, "lists": who_may, "source": source, "inherited": inherited, "option": option,
    "reloads": reloads, "health": health, "refused": refused, "faults": faults,
}

if __name__ == "__main__":
    if not has_ipv6():
        print("NOT TRIED: this machine has no ::1, so that nothing of IPv6 is tried", flush=True)
        print("0 passed, 0 failed")
        sys.exit(0)
    sys.exit(run_script(__doc__, STAGES))
