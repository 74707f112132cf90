#!/usr/bin/env python3
"""Clients that say by a header of the PROXY protocol who they are, to a rule with `proxy_protocol = { from_client = [..] }`.

    python3 tests/system/proxy_in.py [STAGE]..

told     the address of the header is the client's in `show`, in the log and in the header that goes out, of each version and family; what follows
         the header comes to the target whole, and the header is in no total.
pieces   a header in pieces of one byte, with payload in its last segment, and a client that says nothing behind it.
own      LOCAL, UNKNOWN and names of Unix sockets leave the connection's own address.
bad      a header that is none ends the connection at once, by a word and a count of its own, and nothing comes to a target.
none     silence, a part of a header, an early end and a reset end it: silence five seconds from the accept, the others at once.
resets   a reset behind a whole header, and more, leaves nothing.
others   a client that isn't listed, and one of a Unix socket, is served as it is: nothing is looked for in its bytes.
lists    `allow` and `deny` go by the socket's own address: what a header says changes nothing of that.
balance  `balance = "source"` goes by the address of the header.
chain    two relays: one writes the header that the other reads.
limits   a client that is awaited counts: it keeps others out at the limit, a finish waits for it, and a stop ends it.
reloads  a reload changes who is awaited from then on; a client that is awaited goes on by what its rule said.
crowd    two hundred clients at once, in pieces, each with its own address and its own bytes.
calls    calls of the system that are interrupted, find nothing or move a part cost nothing; one that fails costs the connection.
starved  where no more memory is mapped, each client that is awaited is served or told the end, and the next ones are served.
memory   each request for memory refused in turn costs the connection, or nothing.
ipv6     a listed client of IPv6, and one that names an IPv4-mapped address. Without ::1 it says that it tries none of IPv6.
"""
import contextlib
import errno
import resource
import select
import socket
import struct
import sys
import time

sys.path.insert(1, f"{sys.path[0]}/..")
from lib.c_code import library
from lib.log_text import logged
from lib.metrics import scrape
from lib.places import LIB
from lib.relay import Relay, StartFault
from lib.sockets import dual_stack, free_port, has_ipv6, listener, some_address
from lib.stages import run_script
from lib.waiting import comes, processor_seconds, threads_of

SOON = 20
# The time that a client has for its header, in seconds.
HEADER = 5
MOST_REQUESTS = 2_000
CLIENTS = 200
RST = struct.pack("ii", 1, 0)
SIGNATURE = b"\r\n\r\n\0\r\nQUIT\n"
SOURCE, DESTINATION = ("203.0.113.7", 56_324), ("192.0.2.1", 443)
SOURCE6, DESTINATION6 = ("2001:db8::7", 56_324), ("2001:db8::1", 443)
SENDER = "127.0.0.1/32"


def v1(source=SOURCE, destination=DESTINATION):
    word = "TCP6" if ":" in source[0] else "TCP4"
    return f"PROXY {word} {source[0]} {destination[0]} {source[1]} {destination[1]}\r\n".encode()


def block(command, family, content=b""):
    """A header of version 2."""
    return SIGNATURE + bytes((command, family)) + struct.pack(">H", len(content)) + content


def v2(source=SOURCE, destination=DESTINATION, more=b""):
    kind, family = (socket.AF_INET6, 0x21) if ":" in source[0] else (socket.AF_INET, 0x11)
    ends = b"".join(socket.inet_pton(kind, host) for host in (source[0], destination[0]))
    return block(0x21, family, ends + struct.pack(">HH", source[1], destination[1]) + more)


def name_of(address):
    host, port = address
    return f"tcp:[{host}]:{port}" if ":" in host else f"tcp:{host}:{port}"


# Headers that say who the client is, and whom they name. (0x04 is a field that nobody has to know)
TELLING = {
    "v1": (v1(), SOURCE, DESTINATION), "v2": (v2(), SOURCE, DESTINATION), "v2 with fields": (v2(more=b"\x04\x00\x03abc"), SOURCE, DESTINATION),
    "v1, IPv6": (v1(SOURCE6, DESTINATION6), SOURCE6, DESTINATION6), "v2, IPv6": (v2(SOURCE6, DESTINATION6), SOURCE6, DESTINATION6),
    "v2 of 536 bytes": (v2(more=bytes(508)), SOURCE, DESTINATION),
}
# Headers that leave the connection's own address.
LOCAL = {
    "UNKNOWN": b"PROXY UNKNOWN\r\n", "UNKNOWN and more": b"PROXY UNKNOWN ffff::1 ffff::2 1 2\r\n", "LOCAL": block(0x20, 0), "LOCAL with a block": block(0x20, 0x11, bytes(12)),
    "unspecified": block(0x21, 0), "datagrams": block(0x21, 0x12, bytes(12)), "Unix names": block(0x21, 0x31, bytes(216)),
}
BAD = {
    "no header": b"GET / HTTP/1.1\r\n", "another word": b"PROXY\r\n", "a family of its own": b"PROXY TCP5 1.2.3.4 5.6.7.8 1 2\r\n",
    "a port too high": b"PROXY TCP4 1.2.3.4 5.6.7.8 1 65536\r\n", "an address short": b"PROXY TCP4 1.2.3 5.6.7.8 1 2\r\n",
    "two spaces": b"PROXY TCP4  1.2.3.4 5.6.7.8 1 2\r\n", "no end in 107 bytes": b"PROXY UNKNOWN " + b"x" * 93, "version 1 of 2": block(0x11, 0x11, bytes(12)),
    "a command": block(0x22, 0x11, bytes(12)), "a family": block(0x21, 0x41, bytes(12)), "a block too short": block(0x21, 0x11, bytes(11)),
    "a block too long": SIGNATURE + b"\x21\x11" + struct.pack(">H", 521), "a wrong byte of the signature": SIGNATURE[:11] + b"\x0b\x21\x11\0\x0c" + bytes(12),
}


class Awaited:
    """A relay of one rule whose clients from 127.0.0.1 begin with a header, before a target of this process."""

    def __init__(self, folder, sends=None, senders=(SENDER,), more="", listen=None, targets=1, host="127.0.0.1", keys="", **given):
        self.given = {"sends": sends, "senders": senders, "more": more, "keys": keys}
        self.socks = [listener() for _ in range(targets)]
        for sock, _ in self.socks:
            sock.settimeout(SOON)
        self.host, self.metrics = host, some_address()
        self.listen = listen or (f"tcp:{host}:{free_port()}" if ":" not in host else f"tcp:[{host}]:{free_port()}")
        self.relay = Relay(self.text(), form="config", options=("--metrics", self.metrics), **given)

    def text(self, **changed):
        it = {**self.given, **changed}
        keys = [f"from_client = {list(it['senders'])}".replace("'", '"')] if it["senders"] else []
        keys += [f'to_target = "{it["sends"]}"'] if it["sends"] else []
        proxy = f"proxy_protocol = {{ {', '.join(keys)} }}\n" if keys else ""
        ats = ", ".join(f'{{ at = "{at}" }}' for _, at in self.socks)
        return (
            f'admin = "{{folder}}/admin.sock"\nlog = "{{folder}}/log"\nloops = 2\n{it["keys"]}'
            f'[[rule]]\nname = "web"\nlisten = ["{self.listen}"]\n{proxy}{it["more"]}target = [{ats}]\n'
        )

    def reload(self, **changed):
        self.relay.write(self.text(**changed))
        return self.relay.ask("reload")

    def client(self, own=None):
        if self.listen.startswith("unix:"):
            sock = socket.socket(socket.AF_UNIX)
            sock.settimeout(SOON)
            sock.connect(self.listen.removeprefix("unix:"))
            return sock
        return socket.create_connection((self.host, int(self.listen.rpartition(":")[2])), SOON, source_address=(own or self.host, 0))

    def peer(self, at=0):
        sock = self.socks[at][0].accept()[0]
        sock.settimeout(SOON)
        return sock

    def nobody_comes(self, at=0):
        return not select.select([self.socks[at][0]], [], [], 0.05)[0]

    def lines(self, count):
        return [(it.get("client"), it.get("client_id"), it.get("up"), it.get("down"), it["how"]) for it in logged(f"{self.relay.folder}/log", count)]

    def refused(self, cause):
        """How many were refused for this cause."""
        line = next(it for it in scrape(self.metrics)[1].splitlines() if it.startswith(f'pollrelay_rule_refused_total{{rule="web",cause="{cause}"}}'))
        return int(line.rpartition(" ")[2])

    def shown(self, side):
        """Who `show` says is at this side of the connections that stand."""
        words = [line.split() for line in self.relay.ask("show").splitlines()]
        return [it[it.index(side) + 2] for it in words if side in it]

    def __enter__(self):
        return self

    def __exit__(self, *_):
        self.relay.close()
        for sock, _ in self.socks:
            sock.close()


def taken(sock, count):
    """So many bytes, or what came until the end."""
    came = b""
    with contextlib.suppress(OSError):
        while len(came) < count and (part := sock.recv(count - len(came))):
            came += part
    return came


def rest_of(sock):
    came = b""
    with contextlib.suppress(OSError):
        while part := sock.recv(65_536):
            came += part
    return came


def own_name(client):
    return name_of(client.getsockname()[:2])


def served(checks, name, it, client, header, source, wanted=b""):
    """A client that begins so is served as the one with this name; `wanted` is what its target gets first."""
    client.sendall(header + b"hello")
    peer = it.peer()
    checks.expect(f"{name}: the target", wanted + b"hello", taken(peer, len(wanted) + 5))
    checks.expect(f"{name}: show", [source], it.shown("client"))
    peer.sendall(b"answer")
    checks.expect(f"{name}: the answer", b"answer", taken(client, 6))
    client.sendall(b"more")
    client.shutdown(socket.SHUT_WR)
    checks.expect(f"{name}: what follows", b"more", rest_of(peer))
    peer.close()
    checks.expect(f"{name}: nothing else comes to the client", b"", rest_of(client))
    client.close()
    line = (source, "9", "6", "eof")
    comes(lambda: any((one[0], *one[2:]) == line for one in it.lines(0)))
    checks.holds(f"{name}: the log", line in [(one[0], *one[2:]) for one in it.lines(1)], it.lines(1))


def told(checks, folder):
    for name, (header, source, destination) in TELLING.items():
        for sends, written in ((None, lambda *_: b""), ("v1", v1), ("v2", v2)):
            with Awaited(folder, sends) as it:
                said = f"told: {name}, {sends} out"
                served(checks, said, it, it.client(), header, name_of(source), written(source, destination))
                checks.expect(f"{said}: totals", (9, 6), it.relay.totals())
                checks.expect(f"{said}: printed last", (0, (9, 6)), it.relay.stop()[:2])


def pieces(checks, folder):
    for name in ("v1", "v2", "v2 with fields", "v2, IPv6"):
        header, source, _ = TELLING[name]
        with Awaited(folder, "v2") as it:
            client = it.client()
            client.setsockopt(socket.IPPROTO_TCP, socket.TCP_NODELAY, 1)
            for at in range(len(header) - 1):
                client.sendall(header[at : at + 1])
                time.sleep(0.002)
            checks.holds(f"pieces: {name}: nobody is dialled before it is whole", it.nobody_comes(), "a target was")
            checks.expect(f"pieces: {name}: and nobody is listed", "ids 1", it.relay.ask("list"))
            client.sendall(header[-1:] + b"hello")
            wanted = v2(source, TELLING[name][2])
            peer = it.peer()
            checks.expect(f"pieces: {name}: the target", wanted + b"hello", taken(peer, len(wanted) + 5))
            checks.expect(f"pieces: {name}: show", [name_of(source)], it.shown("client"))
            body = bytes(range(256)) * 4_000
            client.sendall(body)
            client.shutdown(socket.SHUT_WR)
            checks.holds(f"pieces: {name}: a megabyte behind it", rest_of(peer) == body, "other bytes")
        # All that is there behind the header when its last byte comes, and a client that says no more.
        with Awaited(folder) as it:
            client = it.client()
            client.sendall(header[:7])
            time.sleep(0.05)
            client.sendall(header[7:] + bytes(30_000))
            checks.expect(f"pieces: {name}: in two", bytes(30_000), taken(it.peer(), 30_000))
            quiet = it.client()
            quiet.sendall(header)
            peer = it.peer()
            peer.sendall(b"220 hello")
            checks.expect(f"pieces: {name}: the target speaks first", b"220 hello", taken(quiet, 9))
            ended = it.client()
            ended.sendall(header)
            ended.shutdown(socket.SHUT_WR)
            peer = it.peer()
            checks.expect(f"pieces: {name}: a half-close behind it", b"", rest_of(peer))
            peer.sendall(b"bye")
            peer.close()
            checks.expect(f"pieces: {name}: and its answer", b"bye", rest_of(ended))


def own(checks, folder):
    for name, header in LOCAL.items():
        with Awaited(folder, "v1") as it:
            client = it.client()
            wanted = v1(client.getsockname(), client.getpeername())
            served(checks, f"own: {name}", it, client, header, own_name(client), wanted)


def is_ended(client):
    """Whether the end, or a reset, comes to a client, and nothing before."""
    try:
        return client.recv(1) == b""
    except ConnectionError:
        return True


def bad_before_its_accept(checks, folder):
    """Bytes that wait before their client is accepted are judged by the loop's first look at them."""
    with Awaited(folder) as it:
        with it.relay.stopped():
            client = it.client()
            client.sendall(BAD["no header"])
        checks.holds("bad: at the first look: it ends", is_ended(client), "it doesn't")
        checks.expect("bad: at the first look: the log", [(own_name(client), "-", "0", "0", "bad header")], it.lines(1))
        checks.expect("bad: at the first look: counted", (1, 0), (it.refused("bad_header"), it.refused("no_header")))


def bad(checks, folder):
    for name, bytes_ in BAD.items():
        with Awaited(folder) as it:
            client = it.client()
            began = time.monotonic()
            client.sendall(bytes_)
            checks.holds(f"bad: {name}: it ends", is_ended(client), "it doesn't")
            checks.holds(f"bad: {name}: at once", time.monotonic() - began < HEADER - 1, time.monotonic() - began)
            checks.holds(f"bad: {name}: no target hears", it.nobody_comes(), "one does")
            checks.expect(f"bad: {name}: the log", [(own_name(client), "-", "0", "0", "bad header")], it.lines(1))
            checks.expect(f"bad: {name}: counted", (1, 0), (it.refused("bad_header"), it.refused("no_header")))
            served(checks, f"bad: {name}: the next one", it, it.client(), v2(), name_of(SOURCE))
    bad_before_its_accept(checks, folder)


def none(checks, folder):
    with Awaited(folder) as it:
        rest, pid = it.relay.descriptors(), it.relay.process.pid
        began, parts = time.monotonic(), (b"", b"P", b"PROXY TCP4 1.2.3.4 ", SIGNATURE, v2()[:-1])
        silent = [it.client() for _ in parts]
        for client, part in zip(silent, parts):
            client.sendall(part)
        stood, spent = comes(lambda: it.relay.descriptors() == rest + len(parts)), processor_seconds(pid)
        checks.holds("none: silence: all stand meanwhile", stood and it.nobody_comes() and not select.select(silent, [], [], 1)[0], "one has ended")
        # (their bytes stay where they are, so a loop that is told of them again and again would turn all the time)
        checks.holds("none: silence: the relay sleeps meanwhile", processor_seconds(pid) - spent < 0.2, processor_seconds(pid) - spent)
        for client, part in zip(silent, parts):
            checks.holds(f"none: silence behind {part!r}: it ends", is_ended(client), "it doesn't")
            passed = time.monotonic() - began
            checks.holds(f"none: silence behind {part!r}: at its moment", HEADER - 0.5 <= passed < HEADER + 10, passed)
        wanted = sorted((own_name(client), "-", "0", "0", "no header") for client in silent)
        checks.expect("none: silence: the log", wanted, sorted(it.lines(len(parts))))
        checks.expect("none: silence: counted", (0, len(parts)), (it.refused("bad_header"), it.refused("no_header")))
        checks.holds("none: silence: their descriptors are closed", comes(lambda: it.relay.descriptors() <= rest), f"{it.relay.descriptors()}, at first {rest}")
        checks.expect("none: silence: totals", (0, 0), it.relay.totals())
    for part in parts:
        with Awaited(folder) as it:
            client, began = it.client(), time.monotonic()
            client.sendall(part)
            client.shutdown(socket.SHUT_WR)
            checks.holds(f"none: an end behind {part!r}", is_ended(client), "it stands")
            checks.holds(f"none: an end behind {part!r}: at once", time.monotonic() - began < HEADER - 1, time.monotonic() - began)
            client = it.client()
            client.sendall(part)
            time.sleep(0.05)
            client.setsockopt(socket.SOL_SOCKET, socket.SO_LINGER, RST)
            client.close()
            checks.holds(f"none: a reset behind {part!r}", comes(lambda: it.refused("no_header") == 2), it.refused("no_header"))
            checks.expect(f"none: {part!r}: the log", ["no header"] * 2, [one[-1] for one in it.lines(2)])
            checks.holds(f"none: {part!r}: no target hears", it.nobody_comes(), "one does")


def resets(checks, folder):
    """A client that resets behind its whole header and more may have been served until then, or not."""
    with Awaited(folder) as it:
        rest = it.relay.descriptors()
        for at in range(CLIENTS // 4):
            client = it.client()
            client.sendall(v2()[: 28 if at % 2 else 20])
            client.setsockopt(socket.SOL_SOCKET, socket.SO_LINGER, RST)
            if at % 3:
                time.sleep(0.002)
            with contextlib.suppress(OSError):
                client.sendall(v2()[28 if at % 2 else 20 :] + b"hello")
            client.close()
        checks.holds("resets: nothing is left of them", comes(lambda: it.relay.descriptors() <= rest), f"{it.relay.descriptors()}, at first {rest}")
        how = [one[-1] for one in it.lines(CLIENTS // 4)]
        checks.expect("resets: a line each", CLIENTS // 4, len(how))
        checks.holds(f"resets: {sorted(set(how))}", set(how) <= {"no header", "read reset", "write reset", "write broken-pipe", "eof"}, how)
        while not it.nobody_comes():
            it.peer().close()
        served(checks, "resets: the next one", it, it.client(), v2(), name_of(SOURCE))


def others(checks, folder):
    with Awaited(folder, senders=("127.0.0.9/32",)) as it:
        client = it.client()
        client.sendall(v1() + b"hello")
        with it.peer() as peer:
            checks.expect("others: one that isn't listed", v1() + b"hello", taken(peer, len(v1()) + 5))
            checks.expect("others: its address", [own_name(client)], it.shown("client"))
        client.close()
        with it.client() as quiet, it.peer() as peer:
            peer.sendall(b"220")
            checks.expect("others: a silent one", b"220", taken(quiet, 3))
        checks.holds("others: both have gone", comes(lambda: it.relay.ask("list") == "ids 1"), it.relay.ask("list"))
        served(checks, "others: beside one that is listed", it, it.client("127.0.0.9"), v2(), name_of(SOURCE))
    with Awaited(folder, senders=("0.0.0.0/0", "::/0"), listen=f"unix:{folder}/sock") as it:
        client = it.client()
        client.sendall(v2() + b"hello")
        checks.expect("others: one of a Unix socket", v2() + b"hello", taken(it.peer(), len(v2()) + 5))


def lists(checks, folder):
    with Awaited(folder, more='allow = ["127.0.0.1/32"]\ndeny = ["203.0.113.0/24", "127.0.0.3/32"]\n', senders=("127.0.0.0/8",)) as it:
        served(checks, "lists: a listed sender", it, it.client(), v2(), name_of(SOURCE))
        for host in ("127.0.0.2", "127.0.0.3"):
            client = it.client(host)
            with contextlib.suppress(OSError):
                client.sendall(v2(("127.0.0.1", 5)) + b"hello")
            checks.holds(f"lists: {host} isn't let in, whatever it says", is_ended(client), "it is")
        checks.holds("lists: no target hears", it.nobody_comes(), "one does")
        checks.expect("lists: counted", (2, 0, 0), tuple(it.refused(one) for one in ("denied", "no_header", "bad_header")))


def balance(checks, folder):
    with Awaited(folder, more='balance = "source"\n', targets=3) as it:
        found = {}
        for last in range(30):
            for port in (1, 2):
                client = it.client()
                client.sendall(v2((f"198.51.100.{last}", port)) + b"x")
                ready = select.select([sock for sock, _ in it.socks], [], [], SOON)[0]
                at = next((at for at, (sock, _) in enumerate(it.socks) if sock in ready), None)
                with it.peer(at) as peer:
                    taken(peer, 1)
                found.setdefault(last, set()).add(at)
                client.close()
        checks.holds("balance: the same source has the same target", all(len(one) == 1 for one in found.values()), found)
        checks.expect("balance: each target has some", {0, 1, 2}, set().union(*found.values()))


def chain(checks, folder):
    for sends in ("v1", "v2"):
        with Awaited(folder, "v2") as last, Relay(
            f'admin = "{{folder}}/admin.sock"\n[[rule]]\nname = "front"\nlisten = ["tcp:127.0.0.1:{(port := free_port())}"]\n'
            f'proxy_protocol = {{ to_target = "{sends}" }}\ntarget = [{{ at = "{last.listen}" }}]\n', form="config",
        ) as front:
            client = socket.create_connection(("127.0.0.1", port), SOON, source_address=("127.0.0.77", 0))
            client.sendall(b"hello")
            peer, wanted = last.peer(), v2(client.getsockname(), client.getpeername())
            checks.expect(f"chain: {sends}: the last target", wanted + b"hello", taken(peer, len(wanted) + 5))
            checks.expect(f"chain: {sends}: show of the last relay", [own_name(client)], last.shown("client"))
            body = bytes(range(256)) * 4_000
            client.sendall(body)
            client.shutdown(socket.SHUT_WR)
            checks.holds(f"chain: {sends}: a megabyte", rest_of(peer) == body, "other bytes")
            peer.sendall(b"bye")
            peer.close()
            checks.expect(f"chain: {sends}: the answer", b"bye", rest_of(client))
            whole = (5 + len(body), 3)
            checks.holds(f"chain: {sends}: totals", comes(lambda: front.totals() == last.relay.totals() == whole), (front.totals(), last.relay.totals()))


def limits(checks, folder):
    with Awaited(folder, more="connections = 1\n") as it:
        first, second = it.client(), it.client()
        checks.holds("limits: one that is awaited counts", is_ended(second), "the second is served")
        checks.expect("limits: the log", [(own_name(second), "-", "0", "0", "rule full")], it.lines(1))
        served(checks, "limits: the first", it, first, v2(), name_of(SOURCE))
        comes(lambda: it.relay.ask("list") == "ids 1")
        served(checks, "limits: the next", it, it.client(), v2(), name_of(SOURCE))
    with Awaited(folder) as it:
        client, began = it.client(), time.monotonic()
        time.sleep(0.2)
        checks.expect("limits: a finish", "ok", it.relay.ask("finish 30000"))
        client.sendall(v2() + b"hello")
        peer = it.peer()
        checks.expect("limits: waits for one that is awaited", b"hello", taken(peer, 5))
        client.close()
        peer.close()
        checks.holds("limits: and ends then", it.relay.ends_within(SOON), "it stands")
    with Awaited(folder) as it:
        client = it.client()
        time.sleep(0.2)
        checks.expect("limits: a finish of one that says nothing", "ok", it.relay.ask("finish 30000"))
        checks.holds("limits: ends with its time", it.relay.ends_within(HEADER + 10) and is_ended(client), "it stands")
    with Awaited(folder) as it:
        client = it.client()
        time.sleep(0.2)
        status, last, seconds = it.relay.stop()
        checks.expect("limits: a stop", (0, (0, 0)), (status, last))
        checks.holds("limits: a stop ends it at once", is_ended(client) and seconds < HEADER - 1, seconds)
        checks.expect("limits: its line", [(own_name(client), "-", "0", "0", "no header")], it.lines(1))
    del began


def reloads(checks, folder):
    with Awaited(folder, senders=()) as it:
        client = it.client()
        client.sendall(b"hello")
        checks.expect("reloads: before", b"hello", taken(it.peer(), 5))
        checks.expect("reloads: it comes", "rules 1", it.reload(senders=(SENDER,)))
        awaited = it.client()
        awaited.sendall(v2()[:5])
        time.sleep(0.1)
        checks.expect("reloads: it goes", "rules 1", it.reload(senders=()))
        plain = it.client()
        plain.sendall(v2())
        peer = it.peer()
        checks.expect("reloads: later ones are served as they are", v2(), taken(peer, len(v2())))
        awaited.sendall(v2()[5:] + b"more")
        checks.expect("reloads: one that is awaited goes on", b"more", taken(it.peer(), 4))
        checks.holds("reloads: as the one that it named", name_of(SOURCE) in it.shown("client"), it.shown("client"))
        checks.expect("reloads: those that stand", [], [one[-1] for one in it.lines(0)])
    with Awaited(folder) as it:
        awaited, silent = it.client(), it.client()
        awaited.sendall(v2()[:5])
        time.sleep(0.1)
        it.relay.write(it.text().replace(it.listen, f"tcp:127.0.0.1:{free_port()}").replace('"web"', '"other"'))
        checks.expect("reloads: their rule goes", "rules 1", it.relay.ask("reload"))
        awaited.sendall(v2()[5:] + b"more")
        checks.expect("reloads: one whose rule is gone goes on", b"more", taken(it.peer(), 4))
        checks.holds("reloads: one that says nothing ends", is_ended(silent), "it stands")
        checks.expect("reloads: by its word", ["no header"], [one[-1] for one in it.lines(1)])


def crowd(checks, folder):
    # (one target whose queue has room for all)
    with Awaited(folder, keys="connections = 1000\n") as it:
        it.socks[0][0].listen(CLIENTS)
        clients = [it.client() for _ in range(CLIENTS)]
        ask = {number: v2((f"198.51.100.{number % 250}", 1_000 + number)) + f"{number:06}".encode() for number in range(CLIENTS)}
        for cut in (1, 3, 11, 20, 27, 30, None):
            for number, client in enumerate(clients):
                begun = {1: 0, 3: 1, 11: 3, 20: 11, 27: 20, 30: 27, None: 30}[cut]
                client.sendall(ask[number][begun:cut])
        peers = [it.peer() for _ in range(CLIENTS)]
        checks.expect("crowd: each has its own bytes", sorted(f"{n:06}".encode() for n in range(CLIENTS)), sorted(taken(peer, 6) for peer in peers))
        wanted = sorted(f"tcp:198.51.100.{n % 250}:{1_000 + n}" for n in range(CLIENTS))
        checks.expect("crowd: and its own address", wanted, sorted(it.shown("client")))
        for client in clients:
            client.close()
        for peer in peers:
            peer.close()
        checks.holds("crowd: all end", comes(lambda: it.relay.ask("list") == "ids 1"), it.relay.ask("list"))
        checks.expect("crowd: totals", (6 * CLIENTS, 0), it.relay.totals())


def calls(checks, folder):
    lib = library(f"{LIB}/fail_nth.c", f"{folder}/fail_nth.so")
    rows = (
        *((f"the {at}th is interrupted", {"at": at, "times": 3, "with": errno.EINTR}) for at in (1, 2, 3, 4)),
        *((f"the {at}th finds nothing", {"at": at, "times": 2, "with": errno.EAGAIN}) for at in (1, 2, 3)),
        *((f"the {at}th has one byte", {"at": at, "with": 0}) for at in (1, 2, 3, 4)), ("one byte, seven times", {"at": 2, "times": 7, "with": 0}),
        ("the header is read byte by byte", {"at": 4, "times": 20, "with": 0}),
    )
    # (looked at as it comes, at its bytes, and once its header is whole; then the header is read)
    for name, fail in rows:
        env = {"LD_PRELOAD": lib, "FAIL_CALL": "recv", **{f"FAIL_{key.upper()}": str(value) for key, value in fail.items()}}
        with Awaited(folder, "v2", env=env) as it:
            client = it.client()
            time.sleep(0.05)
            client.sendall(v1() + b"hello")
            wanted = v2() + b"hello"
            checks.expect(f"calls: {name}", wanted, taken(it.peer(), len(wanted)))
            checks.holds(f"calls: {name}: it came to that", "[failed]" in it.relay.errors(), "no call failed")
            client.close()
    for at in (1, 2, 3, 4):
        env = {"LD_PRELOAD": lib, "FAIL_CALL": "recv", "FAIL_AT": str(at), "FAIL_WITH": str(errno.ENOBUFS)}
        with Awaited(folder, env=env) as it:
            client = it.client()
            time.sleep(0.05)
            with contextlib.suppress(OSError):
                client.sendall(v2() + b"hello")
                client.shutdown(socket.SHUT_WR)
            it.socks[0][0].settimeout(1)
            got = b""
            with contextlib.suppress(TimeoutError), it.peer() as peer:
                got = rest_of(peer)
            checks.holds(f"calls: the {at}th fails: {got!r}", got in (b"", b"hello"), got)
            checks.expect(f"calls: the {at}th fails: the client", b"", rest_of(client))
            checks.expect(f"calls: the {at}th fails: one line", 1, len(it.lines(1)))
            served(checks, f"calls: the {at}th fails: the next one", it, it.client(), v2(), name_of(SOURCE))
    # The poller takes the client's socket, once it is awaited, then no more; or the one of its connection.
    env = {"LD_PRELOAD": lib, "FAIL_CALL": "epoll_ctl", "FAIL_WITH": str(errno.ENOSPC)}
    refused = 0
    for at in range(1, 24):
        with contextlib.suppress(StartFault), Awaited(folder, env={**env, "FAIL_AT": str(at)}) as it:
            client = it.client()
            time.sleep(0.05)
            with contextlib.suppress(OSError):
                client.sendall(v2() + b"hello")
                client.shutdown(socket.SHUT_WR)
            it.socks[0][0].settimeout(1)
            got = b""
            with contextlib.suppress(TimeoutError), it.peer() as peer:
                got = rest_of(peer)
            checks.holds(f"calls: the poller's {at}th: {got!r}", got in (b"", b"hello"), got)
            checks.expect(f"calls: the poller's {at}th: the client", b"", rest_of(client))
            how = [one[-1] for one in it.lines(1)]
            checks.holds(f"calls: the poller's {at}th: {how}", how in (["eof"], ["descriptors"]), how)
            refused += how == ["descriptors"]
    checks.holds("calls: the poller refuses each of a client's sockets", refused >= 3, refused)


def one_refused(checks, folder, env, number):
    """Whether a request for memory was refused of a relay with one client, which is served, or sees the end while nothing comes to the target."""
    with Awaited(folder, "v2", env=env) as it:
        client = it.client()
        time.sleep(0.02)
        # (a relay that was refused memory may have closed it by now)
        with contextlib.suppress(OSError):
            client.sendall(v1()[:9])
            time.sleep(0.02)
            client.sendall(v1()[9:] + b"hello")
            client.shutdown(socket.SHUT_WR)
        it.socks[0][0].settimeout(1)
        got = b""
        with contextlib.suppress(TimeoutError), it.peer() as peer:
            got = rest_of(peer)
        checks.holds(f"memory: the {number}th request", got in (b"", v2() + b"hello"), got)
        checks.expect(f"memory: the {number}th request: the client", b"", rest_of(client))
        return "[refused]" in it.relay.errors()


def memory(checks, folder):
    env = {"LD_PRELOAD": library(f"{LIB}/refuse_nth.c", f"{folder}/refuse_nth.so")}
    tried = 0
    for number in range(1, MOST_REQUESTS):
        try:
            was_refused = one_refused(checks, folder, {**env, "REFUSE": str(number)}, number)
        except StartFault:
            continue
        tried += 1
        if not was_refused:
            break
    checks.holds("memory: refusals end, behind a start", 1 < tried < number < MOST_REQUESTS - 1, f"{tried} of {number}")


def mapped(pid):
    """The bytes that a process has mapped."""
    with open(f"/proc/{pid}/statm", encoding="ascii") as file:
        return int(file.read().split()[0]) * resource.getpagesize()


def has_begun(peer):
    """Whether the first byte behind the header is there."""
    try:
        return peer.recv(1, socket.MSG_PEEK | socket.MSG_DONTWAIT) == b"x"
    except OSError:
        return False


def starved(checks, folder):
    """How many are refused is up to the allocator that the program stands on."""
    with Awaited(folder, keys="connections = 1000\n") as it:
        it.socks[0][0].listen(CLIENTS)
        pid, none = it.relay.process.pid, resource.RLIM_INFINITY
        served(checks, "starved: before", it, it.client(), v2(), name_of(SOURCE))
        # (a thread that hasn't run yet maps more at its first step, which a build with checks doesn't outlive)
        checks.holds("starved: all threads have begun", comes(lambda: all(state == "S" for _, state, _ in threads_of(pid))), threads_of(pid))
        resource.prlimit(pid, resource.RLIMIT_AS, (mapped(pid), none))
        clients = [it.client() for _ in range(CLIENTS)]
        for client in clients:
            with contextlib.suppress(OSError):
                client.sendall(v2()[:9])
        for client in clients:
            with contextlib.suppress(OSError):
                client.sendall(v2()[9:] + b"x")
        peers, listening = [], it.socks[0][0]
        listening.setblocking(False)
        ended = lambda: sum(is_ended(client) for client in select.select(clients, [], [], 0)[0])
        begun = lambda: sum(map(has_begun, peers))

        # (who isn't accepted by then would stand for good, since nobody ends it: a busy machine takes its time)
        def all_are_told():
            with contextlib.suppress(BlockingIOError):
                while True:
                    peers.append(listening.accept()[0])
            return ended() + begun() == CLIENTS

        checks.holds("starved: each is served or told the end", comes(all_are_told), f"{begun()} and {ended()}")
        resource.prlimit(pid, resource.RLIMIT_AS, (none, none))
        for sock in (*clients, *peers):
            sock.close()
        checks.holds("starved: nothing is left of them", comes(lambda: it.relay.ask("list") == "ids 1"), it.relay.ask("list"))
        it.socks[0][0].settimeout(SOON)
        served(checks, "starved: the next one", it, it.client(), v2(), name_of(SOURCE))
        how = {one[-1] for one in it.lines(CLIENTS + 2)}
        checks.holds(f"starved: {sorted(how)}", how <= {"eof", "read reset", "write reset", "write broken-pipe", "no memory", "no target descriptors"}, how)


def ipv6(checks, folder):
    if not has_ipv6():
        print("NOT TRIED: this machine has no ::1, so that no client of IPv6 is tried", flush=True)
        return
    for name, (header, source, destination) in TELLING.items():
        with Awaited(folder, "v2", senders=("::1",), host="::1") as it:
            served(checks, f"ipv6: {name}", it, it.client(), header, name_of(source), v2(source, destination))
    mapped = v2(("::ffff:203.0.113.7", 5), ("::ffff:192.0.2.1", 6))
    with Awaited(folder, "v2", senders=("::1",), host="::1") as it:
        wanted = v2(("203.0.113.7", 5), ("192.0.2.1", 6))
        served(checks, "ipv6: a mapped address is the one in it", it, it.client(), mapped, "tcp:203.0.113.7:5", wanted)
    # By a socket of both families the list has the IPv4 address of a client of IPv4.
    sock, port = dual_stack()
    with contextlib.closing(sock), Awaited(folder, listen=f"tcp:[::]:{port}", sockets=[sock], env={}) as it:
        served(checks, "ipv6: one of IPv4 by a socket of both families", it, it.client(), v2(), name_of(SOURCE))


STAGES = {
    "told": told, "pieces": pieces, "own": own, "bad": bad, "none": none, "resets": resets, "others": others, "lists": lists, "balance": balance, "chain": chain,
    "limits": limits, "reloads": reloads, "crowd": crowd, "calls": calls, "starved": starved, "memory": memory, "ipv6": ipv6,
}


if __name__ == "__main__":
    sys.exit(run_script(__doc__, STAGES))
