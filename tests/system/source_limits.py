#!/usr/bin/env python3
"""How many clients of one source a rule lets in, by `connections_per_source` and `accepts_per_source` of a configuration.

    python3 tests/system/source_limits.py [--clients N] [--first N] [STAGE]..

standing of one source no more stand at once than may, of all addresses of a rule together; each end makes room for one.
rate     of one source no more are let in in a second than may, whether they stay or not; a second later as many again. A minute is longer.
both     both limits hold, and a client that the first refuses is none of the second's.
told     the metrics count each refused client by its cause, and the log has one line a second of them; other limits are told first.
unix     clients of a Unix socket have no source, and are all let in.
rules    each rule has limits and counts of its own.
ipv6     clients of ::1 are of one source. Without ::1 it says that it tries none of IPv6.
mapped   a client of IPv4 at a dual-stack socket is of the same source as at one of IPv4.
header   a client that says by a header who it is counts for the address of the header: /64 of IPv6, mapped IPv4, and the own one without addresses.
waiting  a client whose header is awaited has no seat yet: it keeps none of its proxy's out.
reloads  a reload keeps the counts, and a changed limit holds for clients that come; one that is refused changes nothing.
begun    a rule that gets its first limit by a reload counts from then on.
outlived connections count on, whose listener was closed or whose rule has gone and come back.
ends     each way to end frees a place: of the client, of the target, by idle time, by `close`, by a target that isn't there.
flood    10,000 addresses leave the memory as it is, that of a program without run-time checks, and a source that stood before keeps its limit.
full     where 16 other sources of its group stand, a client is let in and isn't counted.
crowd    clients of many addresses that come and go on many threads leave every count at 0.
memory   each request for memory refused in turn costs a client, or the start, or the reload, and no count.

`--clients` is how many addresses `flood` has, and `--first` the first request that `memory` refuses.
"""
import contextlib
import itertools
import random
import socket
import sys
import threading
import time

sys.path.insert(1, f"{sys.path[0]}/..")
from lib.c_code import library
from lib.configured_relay import config, relay, reload
from lib.counting_target import CountingTarget
from lib.log_text import logged
from lib.metrics import scrape
from lib.places import LIB
from lib.relay import StartFault
from lib.sockets import connect, dual_stack, free_port, has_ipv6, some_address
from lib.stages import options, run_script
from lib.waiting import comes

SOON = 20
FLOOD, BATCH = 10_000, 100
THREADS, TURNS = 8, 60
MOST_REQUESTS = 2_000
# The groups of places of a table: how a source's is found, and how many places it has.
SPREAD, GROUP = 11_400_714_819_323_198_485, 16
TARGET = CountingTarget("T")


def limits(standing=None, rate=None):
    said = "" if standing is None else f"connections_per_source = {standing}\n"
    return said + ("" if rate is None else f'accepts_per_source = "{rate}"\n')


def rule(listen, keys="", name="web", target=None):
    listens = ", ".join(f'"{it}"' for it in ([listen] if isinstance(listen, str) else listen))
    return f'[[rule]]\nname = "{name}"\nlisten = [{listens}]\ntarget = [{{ at = "{target or TARGET.address}" }}]\n{keys}'


def opened(address, own=None, says=b""):
    """A client of this address, from an address of its own, that has said this."""
    if own is None or address.startswith("unix:"):
        client = connect(address, SOON)
    else:
        host, _, port = address.removeprefix("tcp:").rpartition(":")
        client = socket.create_connection((host.strip("[]"), int(port)), SOON, source_address=(own, 0))
    if says:
        client.sendall(says)
    return client


def served(address, own=None, says=b""):
    """Such a client, if it is served: a target says its name to it."""
    client = None
    with contextlib.suppress(OSError):
        client = opened(address, own, says)
        if client.recv(1) == b"T":
            return client
    if client:
        client.close()
    return None


def served_of(address, count, own=None, says=b""):
    """Of so many clients, one after the other, those that are served."""
    return [client for client in (served(address, own, says) for _ in range(count)) if client]


def close(clients):
    for client in clients:
        client.close()


def has_echo(client):
    client.sendall(b"x")
    return client.recv(1) == b"x"


def stands(it, count):
    """Whether so many connections stand before long."""
    return comes(lambda: it.has_standing(count))


def hows(it, count):
    return [line["how"] for line in logged(f"{it.folder}/log", count)]


def figure(metrics, name):
    return next((int(line.split()[-1]) for line in scrape(metrics)[1].splitlines() if line.startswith(f"pollrelay_rule_{name} ")), None)


def refused(metrics, cause):
    return figure(metrics, f'refused_total{{rule="web",cause="{cause}"}}')


def refusals(metrics, **wanted):
    """How many clients were refused by each of these causes, once they are so many: a client may hear of its end before it is counted."""
    comes(lambda: all(refused(metrics, cause) == count for cause, count in wanted.items()))
    return {cause: refused(metrics, cause) for cause in wanted}


def standing(checks, _):
    first, second = some_address(), some_address()
    with relay(rule([first, second], limits(2))) as it:
        clients = served_of(first, 3)
        checks.expect("standing: as many as may", 2, len(clients))
        checks.expect("standing: at another address of the rule", None, served(second))
        others = served_of(first, 2, "127.0.0.2") + served_of(second, 2, "127.0.0.2")
        checks.expect("standing: of another source", 2, len(others))
        checks.holds("standing: those that stand go on", all(has_echo(it) for it in clients + others), "one doesn't")
        clients.pop().close()
        checks.holds("standing: the end of one", stands(it, 3), it.ask("show"))
        again = served_of(second, 2)
        checks.expect("standing: makes room for one", 1, len(again))
        checks.expect("standing: and for none of another source", None, served(first, "127.0.0.2"))
        close(clients + others + again)
        checks.holds("standing: all ends", stands(it, 0), it.ask("show"))
        for turn in range(10):
            clients = served_of(first, 3)
            checks.expect(f"standing: turn {turn}", 2, len(clients))
            close(clients)
            stands(it, 0)


def next_second():
    """Awaits a moment at which a second of the rate that began is over, however late the machine is."""
    time.sleep(1.05)


def rate(checks, _):
    address, slow = some_address(), some_address()
    with relay(rule(address, limits(rate="5/s")), rule(slow, limits(rate="2/m"), "slow")):
        for turn in range(3):
            began = time.monotonic()
            clients = served_of(address, 8)
            # (on a machine so busy that they take a second, some are of the next one)
            most = 5 if time.monotonic() - began < 1 else 8
            checks.holds(f"rate: second {turn}", 5 <= len(clients) <= most, f"{len(clients)} were let in")
            close(clients)
            next_second()
        checks.expect("rate: those that stay count no more than others", 5, len(served_and_closed(address, 5)))
        others = served_of(address, 5, "127.0.0.2")
        checks.expect("rate: another source", 5, len(others))
        close(others)
        clients = served_of(slow, 3)
        next_second()
        clients += served_of(slow, 1)
        checks.expect("rate: two a minute", 2, len(clients))
        close(clients)


def served_and_closed(address, count):
    """So many clients, each of which ends before the next one comes, and of them those that are served."""
    done = []
    for _ in range(count):
        if client := served(address):
            client.close()
            done.append(client)
    return done


def both(checks, _):
    address, metrics = some_address(), some_address()
    with relay(rule(address, limits(1, "3/h")), more=f'metrics = "{metrics}"\n') as it:
        first = served(address)
        checks.expect("both: one stands", [None] * 5, [served(address) for _ in range(5)])
        first.close()
        checks.holds("both: its end", stands(it, 0), it.ask("show"))
        for turn in range(2):
            client = served(address)
            checks.holds(f"both: client {turn} of those that are left", client is not None, "it isn't served")
            close([client] if client else [])
            stands(it, 0)
        checks.expect("both: beyond the rate", None, served(address))
        causes = {"source_full": 5, "source_rate": 1}
        checks.expect("both: the causes", causes, refusals(metrics, **causes))


def told(checks, _):
    address, metrics = some_address(), some_address()
    with relay(rule(address, limits(1) + 'deny = ["127.0.0.3"]\nconnections = 2\n'), more=f'metrics = "{metrics}"\n') as it:
        first = served(address)
        began = time.monotonic()
        checks.expect("told: fifty more", [], served_of(address, 50))
        seconds = time.monotonic() - began
        causes = {"source_full": 50, "source_rate": 0, "rule_full": 0, "full": 0, "denied": 0}
        checks.expect("told: the metrics count each", causes, refusals(metrics, **causes))
        checks.expect("told: all were accepted", 51, figure(metrics, 'accepted_total{rule="web"}'))
        lines = logged(f"{it.folder}/log", 1)
        checks.holds("told: a line a second", 1 <= len(lines) <= 1 + seconds, f"{len(lines)} lines in {seconds:.1f} s")
        fields = tuple(lines[0][key] for key in ("rule", "client_id", "target_id", "target", "up", "down", "how"))
        checks.expect("told: its line", ("web", "-", "-", TARGET.address, "0", "0", "source full"), fields)
        checks.expect("told: its client", "tcp:127.0.0.1", lines[0]["client"].rpartition(":")[0])
        next_second()
        before = len(logged(f"{it.folder}/log", 1))
        checks.expect("told: a second later", None, served(address))
        checks.expect("told: a line more", before + 1, len(logged(f"{it.folder}/log", before + 1)))
        second = served(address, "127.0.0.2")
        checks.expect("told: denied", None, served(address, "127.0.0.3"))
        checks.expect("told: of a full rule", None, served(address))
        checks.expect("told: both are told as that", ["denied", "rule full"], hows(it, before + 3)[-2:])
        close([first, second])


def unix(checks, _):
    with relay(rule("unix:{folder}/web.sock", limits(1, "1/h"))) as it:
        clients = served_of(f"unix:{it.folder}/web.sock", 5)
        checks.expect("unix: all", 5, len(clients))
        close(clients)


def rules(checks, _):
    one, two, free = some_address(), some_address(), some_address()
    with relay(rule(one, limits(1), "one"), rule(two, limits(3), "two"), rule(free, name="free")):
        clients = [served_of(address, 5) for address in (one, two, free)]
        checks.expect("rules: each", [1, 3, 5], [len(it) for it in clients])
        close(itertools.chain(*clients))


def ipv6(checks, _):
    if not has_ipv6():
        print("ipv6: there is no ::1 here, so none of it is tried")
        return
    four, six = some_address(), f"tcp:[::1]:{free_port()}"
    with relay(rule([four, six], limits(2))):
        clients = served_of(six, 4)
        checks.expect("ipv6: as many as may", 2, len(clients))
        others = served_of(four, 4)
        checks.expect("ipv6: of 127.0.0.1 too", 2, len(others))
        close(clients + others)


def mapped(checks, _):
    if not has_ipv6():
        print("mapped: there is no ::1 here, so none of it is tried")
        return
    sock, port = dual_stack()
    four = some_address()
    with sock, relay(rule([f"tcp:[::]:{port}", four], limits(2)), sockets=[sock]):
        both_ways = served_of(f"tcp:127.0.0.1:{port}", 1) + served_of(four, 2)
        checks.expect("mapped: one source by two ways", 2, len(both_ways))
        checks.expect("mapped: also there", None, served(f"tcp:127.0.0.1:{port}"))
        six = served_of(f"tcp:[::1]:{port}", 3)
        checks.expect("mapped: of IPv6 another", 2, len(six))
        close(both_ways + six)


def header_of(source):
    word = "TCP6" if ":" in source else "TCP4"
    return f"PROXY {word} {source} {'2001:db8::1' if ':' in source else '192.0.2.1'} 4000 443\r\n".encode()


PROXIED = 'proxy_protocol = { from_client = ["127.0.0.1"] }\n'


def header(checks, _):
    address, metrics = some_address(), some_address()
    with relay(rule(address, PROXIED + limits(2)), more=f'metrics = "{metrics}"\n') as it:
        rows = (
            ("IPv4", ("203.0.113.7",), 2), ("another", ("203.0.113.8",), 2), ("a network of IPv6", ("2001:db8::1", "2001:db8::ffff:1", "2001:db8::2"), 2),
            ("the next network", ("2001:db8:0:1::1",), 2), ("an IPv4-mapped address of the first", ("::ffff:203.0.113.7",), 0),
        )
        clients = []
        for name, sources, want in rows:
            made = [client for client in (served(address, says=header_of(sources[n % len(sources)])) for n in range(4)) if client]
            checks.expect(f"header: {name}", want, len(made))
            clients += made
        own = served_of(address, 4, says=b"PROXY UNKNOWN\r\n")
        checks.expect("header: without addresses it is the proxy's own", 2, len(own))
        plain = served_of(address, 4, "127.0.0.2")
        checks.expect("header: one that isn't listed", 2, len(plain))
        causes = {"source_full": 2 + 2 + 2 + 2 + 4 + 2 + 2, "source_rate": 0}
        checks.expect("header: the count", causes, refusals(metrics, **causes))
        line = logged(f"{it.folder}/log", 1)[0]
        checks.expect("header: the log names the header's client", ("tcp:203.0.113.7:4000", "source full"), (line["client"], line["how"]))
        clients.pop(0).close()
        checks.holds("header: the end of one", stands(it, len(clients) + 4), it.ask("show"))
        again = served_of(address, 2, says=header_of("203.0.113.7"))
        checks.expect("header: makes room for one", 1, len(again))
        close([*clients, *own, *plain, *again])
    with relay(rule(address, PROXIED + limits(rate="2/h"))):
        clients = served_of(address, 4, says=header_of("203.0.113.7")) + served_of(address, 4, says=header_of("203.0.113.8"))
        checks.expect("header: a rate", 4, len(clients))
        close(clients)


def waiting(checks, _):
    address = some_address()
    with relay(rule(address, PROXIED + limits(1))) as it:
        silent = [opened(address) for _ in range(3)]
        first = served(address, says=header_of("203.0.113.7"))
        checks.holds("waiting: those whose header is awaited keep nobody out", first is not None, "it isn't served")
        silent[0].sendall(header_of("203.0.113.7"))
        checks.expect("waiting: one says who it is, of whom one stands", b"", end_of(silent[0]))
        silent[1].sendall(header_of("203.0.113.8"))
        checks.expect("waiting: another says so", b"T", silent[1].recv(1))
        silent[2].close()
        close([first, *silent[:2]])
        checks.holds("waiting: all ends", stands(it, 0), it.ask("show"))
        again = served_of(address, 2, says=header_of("203.0.113.7"))
        checks.expect("waiting: and frees its place", 1, len(again))
        close(again)


def end_of(client):
    """What comes before the end; a reset is an end."""
    try:
        return client.recv(10)
    except ConnectionError:
        return b""


def reloads(checks, _):
    address = some_address()
    with relay(rule(address, limits(2))) as it:
        clients = served_of(address, 3)
        checks.expect("reloads: before", 2, len(clients))
        checks.expect("reloads: the same", "rules 1", reload(it, rule(address, limits(2))))
        checks.expect("reloads: those that stand count on", None, served(address))
        checks.expect("reloads: raised", "rules 1", reload(it, rule(address, limits(3))))
        clients += served_of(address, 3)
        checks.expect("reloads: one more", 3, len(clients))
        checks.expect("reloads: lowered", "rules 1", reload(it, rule(address, limits(1))))
        checks.expect("reloads: nobody", None, served(address))
        checks.holds("reloads: nobody is cut off", all(has_echo(client) for client in clients), "one doesn't answer")
        close(clients[:2])
        checks.holds("reloads: one is left", stands(it, 1), it.ask("show"))
        checks.expect("reloads: that is as many as may", None, served(address))
        checks.expect("reloads: taken away", "rules 1", reload(it, rule(address)))
        more = served_of(address, 4)
        checks.expect("reloads: all", 4, len(more))
        checks.expect("reloads: brought back", "rules 1", reload(it, rule(address, limits(5))))
        checks.expect("reloads: those of between count too", None, served(address))
        replies = (
            reload(it, rule(address, limits(50_001))), reload(it, rule(address, limits(rate="1/d"))),
            reload(it, rule(address, limits(9)), rule(TARGET.address, name="taken")),
        )
        wants = (
            'bad config: rule "web": connections_per_source: 50001 is not from 1 to 50000',
            'bad config: rule "web": accepts_per_source: "1/d" is no rate (as 100/s, 30/m, 5/h; at most 1000000)', "cannot listen taken",
        )
        checks.expect("reloads: refused", wants, replies)
        checks.expect("reloads: the limit stays", None, served(address))
        close(clients[2:] + more)
    with relay(rule(address, limits(rate="2/h"))) as it:
        close(served_of(address, 2))
        checks.expect("reloads: a rate, the same", "rules 1", reload(it, rule(address, limits(rate="2/h"))))
        checks.expect("reloads: its count goes on", None, served(address))
        checks.expect("reloads: a rate, raised", "rules 1", reload(it, rule(address, limits(rate="3/h"))))
        clients = served_of(address, 2)
        checks.expect("reloads: one more of the hour", 1, len(clients))
        close(clients)


def begun(checks, _):
    address = some_address()
    with relay(rule(address)) as it:
        before = served_of(address, 3)
        checks.expect("begun: the first limit", "rules 1", reload(it, rule(address, limits(1))))
        clients = served_of(address, 2)
        checks.expect("begun: who stood isn't counted", (3, 1), (len(before), len(clients)))
        close(before)
        checks.holds("begun: their ends", stands(it, 1), it.ask("show"))
        checks.expect("begun: free no place", None, served(address))
        close(clients)


def outlived(checks, _):
    address, other = some_address(), some_address()
    with relay(rule(address, limits(2)), rule(other, name="other")) as it:
        clients = served_of(address, 3)
        checks.expect("outlived: before", 2, len(clients))
        checks.expect("outlived: a close of its listener", "ok", it.ask("close 1"))
        checks.expect("outlived: the reload", "rules 2", reload(it, rule(address, limits(2)), rule(other, name="other")))
        checks.expect("outlived: those that stand count", None, served(address))
        checks.expect("outlived: the rule goes", "rules 1", reload(it, rule(other, name="other")))
        checks.expect("outlived: and comes back", "rules 2", reload(it, rule(other, name="other"), rule(address, limits(2))))
        checks.expect("outlived: they count still", None, served(address))
        close(clients)
        checks.holds("outlived: they end", stands(it, 0), it.ask("show"))
        again = served_of(address, 3)
        checks.expect("outlived: and free their places", 2, len(again))
        close(again)


def ends(checks, _):
    address, idle, dead = some_address(), some_address(), some_address()
    nowhere = rule(dead, limits(1), "dead", some_address())
    with relay(rule(address, limits(1)), rule(idle, limits(1) + 'idle = "300ms"\n', "idle"), nowhere) as it:
        for name, where, end in (("a reset", address, reset), ("an end", address, socket.socket.close), ("idle time", idle, end_of)):
            client = served(where)
            checks.holds(f"ends: before {name}", client is not None, "it isn't served")
            if client:
                end(client)
                client.close()
            checks.holds(f"ends: {name}", stands(it, 0), it.ask("show"))
        client = served(address)
        ids = [line.split()[1] for line in it.ask("show").splitlines() if " side client " in line]
        checks.expect("ends: a close", ["ok"], [it.ask(f"close {id}") for id in ids])
        checks.holds("ends: it has gone", stands(it, 0), it.ask("show"))
        again = served_of(address, 2)
        checks.expect("ends: there is room for one", 1, len(again))
        close([client, *again])

        def unreached():
            end_of(opened(dead))
            return sum(line["how"] == "no target refused" for line in logged(f"{it.folder}/log", 0))

        checks.holds("ends: a target that isn't there", comes(lambda: unreached() >= 10, 1_000), hows(it, 0))


def reset(client):
    client.setsockopt(socket.SOL_SOCKET, socket.SO_LINGER, b"\1\0\0\0\0\0\0\0")
    client.close()


def loopback(number):
    """An address of 127.0.0.0/8, by its number."""
    return f"127.{number >> 16 & 255}.{number >> 8 & 255}.{number & 255}"


def flood(checks, folder):
    address, target, count = some_address(), CountingTarget("T", path=f"{folder}/target"), GIVEN.clients
    with relay(rule(address, limits(2, "100/h"), target=target.address)) as it:
        first = served_of(address, 2)
        # (what the first clients of all take is taken by then)
        flooded(it, address, 0x010000, 5 * BATCH)
        before = it.resident_kib()
        checks.expect("flood: who is served", count, flooded(it, address, 0x200000, count))
        grown = it.resident_kib() - before
        checks.holds("flood: memory", grown < 512, f"{grown} KiB more")
        checks.expect("flood: the first source has its limit", None, served(address))
        close(first)
        checks.holds("flood: all ends", stands(it, 0), it.ask("show"))


def flooded(it, address, first, count):
    """How many are served of so many clients of addresses from this one on, some at once; all of them end, and two connections stay."""
    done = 0
    for number in range(first, first + count, BATCH):
        clients = [opened(address, loopback(number + more)) for more in range(min(BATCH, first + count - number))]
        done += sum(end_of(client) == b"T" for client in clients)
        close(clients)
        comes(lambda: len(it.ids()) == 5)
    return done


def group_of(own):
    return int.from_bytes(socket.inet_aton(own), "big") * SPREAD % 2**64 >> 54


def of_one_group(count):
    """So many addresses of 127.0.0.0/8 whose sources stand in one group of places."""
    group = group_of("127.0.0.2")
    return list(itertools.islice((own for own in map(loopback, itertools.count(2)) if group_of(own) == group), count))


def full(checks, _):
    address = some_address()
    with relay(rule(address, limits(1))) as it:
        *taken, last = of_one_group(GROUP + 1)
        clients = [served(address, own) for own in taken]
        checks.expect("full: each of them", GROUP, sum(client is not None for client in clients))
        checks.expect("full: each stands", [None] * GROUP, [served(address, own) for own in taken])
        more = served_of(address, 3, last)
        checks.expect("full: one for whom there is no place is let in", 3, len(more))
        clients.pop().close()
        checks.holds("full: one of them ends", stands(it, GROUP + 2), it.ask("show"))
        counted = served_of(address, 3, last)
        checks.expect("full: and leaves its place", 1, len(counted))
        close(clients + more + counted)


def crowd(checks, _):
    address, metrics = some_address(), some_address()
    owns = [loopback(0x300000 + number) for number in range(20)]
    with relay(rule(address, limits(3)), more=f'metrics = "{metrics}"\n') as it:
        def come_and_go(seed):
            chance, held = random.Random(seed), []
            for _ in range(TURNS):
                if held and chance.random() < 0.5:
                    held.pop(chance.randrange(len(held))).close()
                elif client := served(address, chance.choice(owns)):
                    held.append(client)
            close(held)

        threads = [threading.Thread(target=come_and_go, args=(seed,)) for seed in range(THREADS)]
        for thread in threads:
            thread.start()
        for thread in threads:
            thread.join()
        checks.holds("crowd: all ends", stands(it, 0), it.ask("show"))
        clients = [client for own in owns for client in served_of(address, 4, own)]
        checks.expect("crowd: each source has as many as may", 3 * len(owns), len(clients))
        close(clients)


def memory(checks, folder):
    refuses = library(f"{LIB}/refuse_nth.c", f"{folder}/refuse_nth.so")
    first, second = some_address(), some_address()
    tried = number = 0
    for number in range(GIVEN.first, MOST_REQUESTS):
        try:
            with relay(rule(first, limits(1, "1000/s")), env={"LD_PRELOAD": refuses, "REFUSE": str(number)}) as it:
                was_refused = one_refused(checks, it, first, second, number)
        except StartFault as fault:
            checks.holds(f"memory: start {number}", fault.status == 3 and not fault.left, f"{fault.status}, {fault.errors!r}, {fault.left}")
            continue
        tried += 1
        if not was_refused:
            break
    checks.holds("memory: refusals end, behind a start", 1 < tried <= number < MOST_REQUESTS - 1, f"{tried} of {number}")


def asked(it, line):
    """A reply; none of a session for which there was no memory."""
    try:
        return it.ask(line)
    except (OSError, EOFError):
        return ""


def one_refused(checks, it, first, second, number):
    """One source has no more than may, and its place again once that has ended, whatever was refused; whether anything was."""
    clients = served_of(first, 3)
    checks.holds(f"memory: request {number}: of one source", len(clients) <= 1, f"{len(clients)}")
    it.write(config(rule(first, limits(1)), rule(second, limits(1), "second")))
    replies = [asked(it, "reload") for _ in range(3)]
    checks.holds(f"memory: request {number}: the reload", "rules 2" in replies and set(replies) <= {"rules 2", "", "error 507 out of memory"}, f"{replies}")
    checks.holds(f"memory: request {number}: who stands counts on", not clients or served(first) is None, "another is served")
    others = served_of(second, 3)
    checks.holds(f"memory: request {number}: of the new rule", len(others) <= 1, f"{len(others)}")
    close(clients + others)
    for address in (first, second):
        checks.holds(f"memory: request {number}: a place again", comes(lambda: is_served_once(address), 2_000), address)
    it.process.kill()
    it.process.wait()
    return "[refused]" in it.errors()


def is_served_once(address):
    client = served(address)
    if client:
        client.close()
    return client is not None


STAGES = {
    "standing": standing, "rate": rate, "both": both, "told": told, "unix": unix, "rules": rules, "ipv6": ipv6, "mapped": mapped, "header": header,
    "waiting": waiting, "reloads": reloads, "begun": begun, "outlived": outlived, "ends": ends, "flood": flood, "full": full, "crowd": crowd, "memory": memory,
}

if __name__ == "__main__":
    GIVEN = options(__doc__, STAGES, clients=FLOOD, first=1)
    sys.exit(run_script(__doc__, STAGES, GIVEN))
