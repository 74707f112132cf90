#!/usr/bin/env python3
"""The header of the PROXY protocol that a rule with `proxy_protocol = { to_target = .. }` has its targets sent, byte for byte.

    python3 tests/system/proxy_out.py [STAGE]..

headers  of each version, for each kind of client and of target: the header comes once, first, and to the target alone.
ends     where a listener is at all addresses, the header has the one to which the client connected.
silent   it comes for a client that says nothing, that half-closes, and for a target that speaks first.
totals   it is in no total: not in `show`, the log, the metrics, nor in what is printed last.
next     a target that is tried next has a header of its own, and the client is unread until then.
parts    a write that takes a part of it, or nothing for now, goes on later: nothing is lost, doubled or mixed up.
slow     a target that takes nothing of what follows has it whole once it reads.
broken   a target that resets before it is written ends the connection by the log's word for that, and nothing counts.
memory   it goes out where memory is refused; each request for memory refused in turn costs the connection, and no part of a header.
reloads  a reload gives it to later connections, in another version too, and takes it away; connections that stand stay as they are.
checks   so do the targets of checks: a header in which the relay speaks for itself. Without the key they are told nothing.
ipv6     a client's header is one of its own family, whichever its target has; by a listener of both, one of IPv4 has one of IPv4.
"""
import contextlib
import errno
import select
import signal
import socket
import struct
import sys

sys.path.insert(1, f"{sys.path[0]}/..")
from lib.black_hole import BlackHole
from lib.c_code import library
from lib.log_text import logged
from lib.metrics import scrape
from lib.places import LIB
from lib.relay import Relay, StartFault
from lib.sockets import dual_stack, free_port, has_ipv6, listener, some_address, tcp_address, unread_bytes
from lib.stages import run_script
from lib.waiting import comes, wait_until

SOON = 20
BYTES = 100_000
# More than a relay with a client makes.
MOST_REQUESTS = 2_000
SIGNATURE = b"\r\n\r\n\0\r\nQUIT\n"
UNKNOWN = b"PROXY UNKNOWN\r\n"
# Version 2, LOCAL, unspecified, no address.
LOCAL = SIGNATURE + b"\x20\x00\x00\x00"
# By the public text: what a header says, and how many bytes it has.
FAMILIES = {b"\x21\x11": "tcp4", b"\x21\x21": "tcp6", b"\x20\x00": "local"}
# Of each family the word of version 1, and what stands behind the signature of version 2.
WRITTEN = {socket.AF_INET: ("TCP4", b"\x21\x11\x00\x0c"), socket.AF_INET6: ("TCP6", b"\x21\x21\x00\x24")}
# The hosts at which a rule listens, and from which its clients come in turn; a target is at the first.
HOSTS = {"tcp": ("127.0.0.1", "127.0.0.77"), "tcp6": ("::1",)}
RST = struct.pack("ii", 1, 0)


def decoded(data):
    """What a header at the front of these bytes says, both addresses among it, and the bytes behind it; None where there is none."""
    if data.startswith(SIGNATURE) and len(data) >= 16:
        family, size = FAMILIES.get(data[12:14]), struct.unpack(">H", data[14:16])[0]
        block, rest = data[16 : 16 + size], data[16 + size :]
        for name, kind, octets in (("tcp4", socket.AF_INET, 4), ("tcp6", socket.AF_INET6, 16)):
            if family == name and size == 2 * octets + 4:
                source, destination = (socket.inet_ntop(kind, block[at : at + octets]) for at in (0, octets))
                ports = struct.unpack(">HH", block[2 * octets :])
                return ("v2", (source, ports[0]), (destination, ports[1])), rest
        return (("v2", "local"), rest) if family == "local" and size == 0 else None
    line, end, rest = data.partition(b"\r\n")
    words = line.decode("latin-1").split(" ")
    if end and words[0] == "PROXY" and words[1] in ("TCP4", "TCP6") and len(words) == 6:
        return ("v1", (words[2], int(words[4])), (words[3], int(words[5]))), rest
    return (("v1", "local"), rest) if line + end == UNKNOWN else None


def config(listen, targets, header, more="", head="connect_timeout = \"5s\"\n"):
    """A configuration of one rule, whose targets have this header."""
    sends = f'proxy_protocol = {{ to_target = "{header}" }}\n' if header else ""
    ats = ", ".join(f'{{ at = "{it}" }}' for it in targets)
    return (
        f'admin = "{{folder}}/admin.sock"\nlog = "{{folder}}/log"\nloops = 2\n{head}'
        f'[[rule]]\nname = "web"\nlisten = ["{listen}"]\nbalance = "first"\n{sends}{more}target = [{ats}]\n'
    )


class Sent:
    """A relay of one rule, and its target: a listener of this process, of TCP or at a path."""

    def __init__(self, folder, header="v2", client="tcp", target="tcp", targets=None, listen=None, **given):
        of_relay = {key: given.pop(key) for key in ("env", "sockets") if key in given}
        self.folder, self.more, self.metrics = folder, given, some_address()
        self.sock, self.address = listener(host=HOSTS[target][0]) if target in HOSTS else listener(f"{folder}/t{free_port()}")
        self.sock.settimeout(SOON)
        self.port, self.host = free_port(), HOSTS.get(client, (None,))[0]
        own = tcp_address((self.host, self.port)) if self.host else f"unix:{folder}/c{self.port}"
        self.listen, self.targets = listen or own, targets or (self.address,)
        self.relay = Relay(self.text(header), form="config", options=("--metrics", self.metrics), **of_relay)

    def text(self, header):
        return config(self.listen, self.targets, header, **self.more)

    def reload(self, header):
        self.relay.write(self.text(header))
        return self.relay.ask("reload")

    def client(self, path=None, own=None):
        if self.listen.startswith("unix:"):
            sock = socket.socket(socket.AF_UNIX)
            if path:
                sock.bind(path)
            sock.settimeout(SOON)
            sock.connect(self.listen.removeprefix("unix:"))
            return sock
        return client_from(own or self.host, self.host, self.port)

    def peer(self):
        """The target's end of the next connection."""
        sock = self.sock.accept()[0]
        sock.settimeout(SOON)
        return sock

    def pair(self, *more):
        client = self.client(*more)
        return client, self.peer()

    def lines(self, count):
        return [(it["up"], it["down"], it["how"]) for it in logged(f"{self.relay.folder}/log", count)]

    def wanted(self, header, client):
        """The bytes of the header of such a client, by the public text."""
        if client.family == socket.AF_UNIX:
            return UNKNOWN if header == "v1" else LOCAL
        (source, one), (destination, other) = both_ends(client)
        word, kind = WRITTEN[client.family]
        if header == "v1":
            return f"PROXY {word} {source} {destination} {one} {other}\r\n".encode()
        ends = b"".join(socket.inet_pton(client.family, host) for host in (source, destination))
        return SIGNATURE + kind + ends + struct.pack(">HH", one, other)

    def __enter__(self):
        return self

    def __exit__(self, *_):
        self.relay.close()
        self.sock.close()


def client_from(own, host, port):
    """A client from this host, of TCP."""
    return socket.create_connection((host, port), SOON, source_address=(own, 0))


def both_ends(client):
    """Where a client of TCP is, and where it connected to, each a host and a port."""
    return client.getsockname()[:2], client.getpeername()[:2]


def taken(sock, count):
    """So many bytes, or what came until the end."""
    came = b""
    with contextlib.suppress(OSError):
        while len(came) < count and (part := sock.recv(count - len(came))):
            came += part
    return came


def rest_of(sock):
    """What comes until the end, however that is."""
    came = b""
    with contextlib.suppress(OSError):
        while part := sock.recv(65_536):
            came += part
    return came


def is_silent(sock):
    return not select.select([sock], [], [], 0.05)[0]


def of_kind(checks, folder, stage, header, kind, target):
    """What clients of a kind have their target told, by a header of this version."""
    name = f"{stage}: {header}, {kind} client, {target} target"
    with Sent(folder, header, kind.replace("named", "unix"), target) as it:
        for at, own in enumerate(HOSTS.get(kind, (None, None))):
            client, peer = it.pair(f"{folder}/{it.port}-{at}" if kind == "named" else None, own)
            wanted = it.wanted(header, client)
            client.sendall(b"hello")
            got = taken(peer, len(wanted) + 5)
            checks.expect(name, wanted + b"hello", got)
            said = (header, *both_ends(client)) if kind in HOSTS else (header, "local")
            checks.expect(f"{name}, decoded", (said, b"hello"), decoded(got))
            peer.sendall(b"answer")
            checks.expect(f"{name}: the answer", b"answer", taken(client, 6))
            client.sendall(b"more")
            client.shutdown(socket.SHUT_WR)
            checks.expect(f"{name}: what follows", b"more", rest_of(peer))
            peer.close()
            checks.expect(f"{name}: nothing else comes to the client", b"", rest_of(client))
            client.close()


def headers(checks, folder):
    kinds = [(header, client, target) for header in ("v1", "v2") for client in ("tcp", "unix", "named") for target in ("tcp", "unix")]
    for header, kind, target in kinds:
        of_kind(checks, folder, "headers", header, kind, target)
    with Sent(folder, None) as it:
        client, peer = it.pair()
        client.sendall(b"hello")
        client.shutdown(socket.SHUT_WR)
        checks.expect("headers: none without the key", b"hello", rest_of(peer))


def ends(checks, folder):
    for header in ("v1", "v2"):
        with Sent(folder, header) as it:
            it.listen = f"tcp:0.0.0.0:{free_port()}"
            checks.expect(f"ends: {header}: the reload", "rules 1", it.reload(header))
            port = int(it.listen.rpartition(":")[2])
            for own, near in (("127.0.0.5", "127.0.0.9"), ("127.1.2.3", "127.3.2.1")):
                client = client_from(own, near, port)
                wanted = it.wanted(header, client)
                checks.expect(f"ends: {header}: {near}", wanted, taken(it.peer(), len(wanted)))
                checks.expect(f"ends: {header}: {near} is decoded", ((header, client.getsockname(), (near, port)), b""), decoded(wanted))
                client.close()


def silent(checks, folder):
    for header in ("v1", "v2"):
        with Sent(folder, header) as it:
            client, peer = it.pair()
            wanted = it.wanted(header, client)
            checks.expect(f"silent: {header}", wanted, taken(peer, len(wanted)))
            checks.holds(f"silent: {header}: nothing else", is_silent(peer) and is_silent(client), "something came")
            peer.sendall(b"220 hello")
            checks.expect(f"silent: {header}: the target speaks first", b"220 hello", taken(client, 9))
            client.sendall(b"EHLO")
            checks.expect(f"silent: {header}: then the client", b"EHLO", taken(peer, 4))
            client.close()
            checks.expect(f"silent: {header}: the end", b"", rest_of(peer))
            peer.close()
            checks.expect(f"silent: {header}: its line", [("4", "9", "eof")], it.lines(1))
            client = it.client()
            client.shutdown(socket.SHUT_WR)
            peer, wanted = it.peer(), it.wanted(header, client)
            checks.expect(f"silent: {header}: a half-close", wanted, rest_of(peer))
            peer.sendall(b"bye")
            peer.close()
            checks.expect(f"silent: {header}: and its answer", b"bye", rest_of(client))
            checks.expect(f"silent: {header}: the log", [("4", "9", "eof"), ("0", "3", "eof")], it.lines(2))


def figures(it):
    """Each figure of bytes in the metrics."""
    return [line.rpartition(" ")[2] for line in scrape(it.metrics)[1].splitlines() if "bytes_total{" in line]


def totals(checks, folder):
    for header in ("v1", "v2"):
        with Sent(folder, header) as it:
            client, peer = it.pair()
            wanted = it.wanted(header, client)
            checks.expect(f"totals: {header}: it came", wanted, taken(peer, len(wanted)))
            checks.holds(f"totals: {header}: show", comes(lambda: " up 0 down 0 " in it.relay.ask("show 2")), it.relay.ask("show 2"))
            checks.expect(f"totals: {header}: totals", (0, 0), it.relay.totals())
            client.sendall(b"hello")
            checks.expect(f"totals: {header}: what was said", b"hello", taken(peer, 5))
            peer.sendall(b"hi")
            checks.expect(f"totals: {header}: what was answered", b"hi", taken(client, 2))
            for at in (2, 3):
                checks.holds(f"totals: {header}: show {at}", comes(lambda: " up 5 down 2 " in it.relay.ask(f"show {at}")), it.relay.ask(f"show {at}"))
            checks.expect(f"totals: {header}: totals", (5, 2), it.relay.totals())
            checks.expect(f"totals: {header}: metrics", {"5", "2"}, set(figures(it)))
            client.close()
            peer.close()
            checks.expect(f"totals: {header}: the log", [("5", "2", "eof")], it.lines(1))
            checks.expect(f"totals: {header}: printed last", (0, (5, 2)), it.relay.stop()[:2])


def next_target(checks, folder):
    for header in ("v1", "v2"):
        refused, none = some_address(), f"unix:{folder}/none"
        with Sent(folder, header) as it:
            it.targets = (refused, none, refused, it.address)
            it.reload(header)
            client = it.client()
            client.sendall(b"hello")
            peer, wanted = it.peer(), it.wanted(header, client)
            checks.expect(f"next: {header}: behind three that refuse", wanted + b"hello", taken(peer, len(wanted) + 5))
            checks.holds(f"next: {header}: once", is_silent(peer), "something more came")
            client.close()
            peer.close()
            checks.expect(f"next: {header}: the log", [("5", "0", "eof")], it.lines(1))
        with BlackHole() as hole, Sent(folder, header, head='connect_timeout = "2s"\n') as it:
            it.targets = (hole.address, it.address)
            it.reload(header)
            client = it.client()
            client.sendall(bytes(BYTES))
            count = lambda: unread_bytes(it.port, client.getsockname()[1])
            checks.holds(f"next: {header}: unread until then", wait_until(lambda: count() == BYTES, SOON), count())
            peer, wanted = it.peer(), it.wanted(header, client)
            checks.expect(f"next: {header}: behind one that is late", wanted + bytes(BYTES), taken(peer, len(wanted) + BYTES))
            client.close()


def under(lib, **fail):
    """The environment of a relay of whose writes to sockets some fail."""
    return {"LD_PRELOAD": lib, "FAIL_CALL": "send", **{f"FAIL_{key.upper()}": str(value) for key, value in fail.items()}}


def parts(checks, folder):
    lib = library(f"{LIB}/fail_nth.c", f"{folder}/fail_nth.so")
    rows = (
        ("one byte is taken", {"at": 1, "with": 0}), ("one byte, and again", {"at": 1, "times": 5, "with": 0}),
        ("each time one byte", {"at": 1, "times": 60, "with": 0}), ("all but the last", {"at": 1, "times": 1_000, "with": -2}),
        ("nothing for now", {"at": 1, "with": errno.EAGAIN}), ("nothing, five times", {"at": 1, "times": 5, "with": errno.EAGAIN}),
        ("interrupted", {"at": 1, "times": 3, "with": errno.EINTR}),
    )
    for header in ("v1", "v2"):
        for name, fail in rows:
            with Sent(folder, header, env=under(lib, **fail)) as it:
                client = it.client()
                client.sendall(b"hello")
                peer, wanted = it.peer(), it.wanted(header, client)
                checks.expect(f"parts: {header}: {name}", wanted + b"hello", taken(peer, len(wanted) + 5))
                client.sendall(bytes(BYTES))
                checks.expect(f"parts: {header}: {name}: what follows", bytes(BYTES), taken(peer, BYTES))
                client.close()
                peer.close()
                checks.expect(f"parts: {header}: {name}: the log", [(str(BYTES + 5), "0", "eof")], it.lines(1))
                checks.expect(f"parts: {header}: {name}: totals", (BYTES + 5, 0), it.relay.totals())


def slow(checks, folder):
    for header in ("v1", "v2"):
        for target in ("tcp", "unix"):
            with Sent(folder, header, target=target) as it:
                it.sock.setsockopt(socket.SOL_SOCKET, socket.SO_RCVBUF, 1)
                client = it.client()
                client.setblocking(False)
                sent, peer, wanted = 0, it.peer(), it.wanted(header, client)
                # (until nothing more is taken on the way)
                while select.select([], [client], [], 0.5)[1]:
                    sent += client.send(bytes(65_536))
                client.setblocking(True)
                client.shutdown(socket.SHUT_WR)
                checks.expect(f"slow: {header}, {target}: the header", wanted, taken(peer, len(wanted)))
                # (by small pieces the rest would take long)
                peer.setsockopt(socket.SOL_SOCKET, socket.SO_RCVBUF, 1 << 20)
                checks.expect(f"slow: {header}, {target}: all else", bytes(sent), rest_of(peer))
                peer.close()
                checks.expect(f"slow: {header}, {target}: the log", [(str(sent), "0", "eof")], it.lines(1))


def broken(checks, folder):
    lib = library(f"{LIB}/fail_nth.c", f"{folder}/fail_nth.so")
    rows = ((errno.ECONNRESET, "write reset"), (errno.EPIPE, "write broken-pipe"), (errno.ENOBUFS, "write other"))
    for header in ("v1", "v2"):
        for error, how in rows:
            with Sent(folder, header, env=under(lib, at=1, **{"with": error})) as it:
                client = it.client()
                client.sendall(b"hello")
                checks.expect(f"broken: {header}: {how}: the target", b"", rest_of(it.peer()))
                checks.expect(f"broken: {header}: {how}: the client", b"", rest_of(client))
                checks.expect(f"broken: {header}: {how}: the log", [("0", "0", how)], it.lines(1))
                checks.expect(f"broken: {header}: {how}: totals", (0, 0), it.relay.totals())
                client, peer = it.pair()
                wanted = it.wanted(header, client)
                checks.expect(f"broken: {header}: {how}: the next one", wanted, taken(peer, len(wanted)))
        # A part is written, and then it breaks: a part of a header counts as little as a whole one.
        with Sent(folder, header, env=under(lib, at=1, times=1_000, **{"with": -2})) as it:
            client, peer = it.pair()
            peer.setsockopt(socket.SOL_SOCKET, socket.SO_LINGER, RST)
            peer.close()
            checks.expect(f"broken: {header}: by the target: the client", b"", rest_of(client))
            up, down, how = it.lines(1)[0]
            checks.expect(f"broken: {header}: by the target: nothing counts", ("0", "0"), (up, down))
            checks.holds(f"broken: {header}: by the target: {how}", how in ("eof", "read reset", "write reset", "write broken-pipe"), how)


def memory(checks, folder):
    env = {"LD_PRELOAD": library(f"{LIB}/refuse_nth.c", f"{folder}/refuse_nth.so")}
    for header in ("v1", "v2"):
        with BlackHole() as hole, Sent(folder, header, env=env, targets=(hole.address,), head='connect_timeout = "1h"\n') as it:
            client = it.client()
            client.sendall(b"hello")
            checks.holds(f"memory: {header}: it is dialled", comes(lambda: it.relay.ask("list") == "ids 1 2 3"), it.relay.ask("list"))
            it.relay.process.send_signal(signal.SIGUSR1)
            wanted = it.wanted(header, client) + b"hello"
            checks.expect(f"memory: {header}: where all is refused", wanted, taken(dialled_by(hole), len(wanted)))
            it.relay.process.send_signal(signal.SIGUSR2)
            client.close()
    served = 0
    for number in range(1, MOST_REQUESTS):
        try:
            was_refused = one_refused(checks, folder, {**env, "REFUSE": str(number)}, number)
        except StartFault:
            continue
        served += 1
        if not was_refused:
            break
    checks.holds("memory: refusals end, behind a start", 1 < served < number < MOST_REQUESTS - 1, f"{served} of {number}")


def dialled_by(hole):
    """The relay's connection at a target whose queue was full until now."""
    hole.sock.settimeout(SOON)
    own = [it.getsockname()[1] for it in hole.waiting]
    while True:
        sock, where = hole.sock.accept()
        if where[1] not in own:
            sock.settimeout(SOON)
            return sock
        sock.close()


def one_refused(checks, folder, env, number):
    """Whether a request for memory was refused of a relay with one client, which is served with a whole header, or sees the end while nothing
    comes to the target."""
    with Sent(folder, "v2", env=env) as it:
        client = it.client()
        wanted = it.wanted("v2", client) + b"hello"
        # (a relay that was refused memory may have closed it by now)
        with contextlib.suppress(OSError):
            client.sendall(b"hello")
            client.shutdown(socket.SHUT_WR)
        it.sock.settimeout(1)
        got = b""
        with contextlib.suppress(TimeoutError), it.peer() as peer:
            got = rest_of(peer)
        checks.holds(f"memory: the {number}th request", got in (b"", wanted), got)
        checks.expect(f"memory: the {number}th request: the client", b"", rest_of(client))
        return "[refused]" in it.relay.errors()


def reloads(checks, folder):
    with Sent(folder, None) as it:
        stands = []
        for header in (None, "v2", "v1", None, "v2"):
            checks.expect(f"reloads: to {header}", "rules 1", it.reload(header))
            client, peer = it.pair()
            client.sendall(b"first")
            wanted = (it.wanted(header, client) if header else b"") + b"first"
            checks.expect(f"reloads: {header}: a later one", wanted, taken(peer, len(wanted)))
            stands.append((header, client, peer))
            for began, client, peer in stands:
                client.sendall(b"more")
                checks.expect(f"reloads: {header}: one of {began} goes on", b"more", taken(peer, 4))
                checks.holds(f"reloads: {header}: one of {began}: nothing else", is_silent(peer) and is_silent(client), "something came")
        it.relay.write(it.text("v3"))
        refused = 'bad config: rule "web": proxy_protocol: to_target: "v3" is none of "v1", "v2"'
        checks.expect("reloads: a refused one", refused, it.relay.ask("reload"))
        client, peer = it.pair()
        wanted = it.wanted("v2", client)
        checks.expect("reloads: nothing changes", wanted, taken(peer, len(wanted)))
    # A connection whose target isn't there yet goes on by what its rule said when it was accepted.
    with BlackHole() as hole, Sent(folder, "v2", targets=(hole.address,), head='connect_timeout = "1h"\n') as it:
        client = it.client()
        checks.holds("reloads: it is dialled", comes(lambda: it.relay.ask("list") == "ids 1 2 3"), it.relay.ask("list"))
        checks.expect("reloads: meanwhile", "rules 1", it.reload("v1"))
        wanted = it.wanted("v2", client)
        checks.expect("reloads: by what was said then", wanted, taken(dialled_by(hole), len(wanted)))


def checks_told(checks, folder):
    often = 'health = { every = "20ms" }\n'
    for target in ("tcp", "unix"):
        with Sent(folder, None, target=target, more=often) as it:
            for header, wanted in ((None, b""), ("v1", UNKNOWN), ("v2", LOCAL), (None, b"")):
                name = f"checks: {header}, {target}"
                checks.expect(f"{name}: the reload", "rules 1", it.reload(header))
                # (those that are in the queue by now were before it)
                came = comes(lambda: checked(it) == wanted, turns=100)
                checks.holds(f"{name}: it comes to that", came, checked(it))
                checks.expect(f"{name}: each time", {wanted}, {checked(it) for _ in range(5)})
            checks.expect(f"checks: {target}: no total", (0, 0), it.relay.totals())
            checks.expect(f"checks: {target}: no id", "ids 1", it.relay.ask("list"))
            checks.holds(f"checks: {target}: it is up", scrape(it.metrics)[1].count("pollrelay_target_up") > 0, "no figure")
            checks.expect(f"checks: {target}: no line", [], logged_now(it))
    # Beside checks a client has its own.
    with Sent(folder, "v2", more=often) as it:
        client = it.client()
        client.sendall(b"hello")
        wanted, found = it.wanted("v2", client) + b"hello", b""
        while found in (b"", LOCAL):
            with it.peer() as peer:
                peer.settimeout(1)
                found = taken(peer, len(wanted))
        checks.expect("checks: a client beside them", wanted, found)


def checked(it):
    """All that the next connection says, which ends by itself."""
    with it.peer() as peer:
        return rest_of(peer)


def logged_now(it):
    with open(f"{it.relay.folder}/log", encoding="ascii") as file:
        return file.read().splitlines()


def ipv6(checks, folder):
    if not has_ipv6():
        print("NOT TRIED: this machine has no ::1, so that no header of IPv6 is tried", flush=True)
        return
    for header in ("v1", "v2"):
        for kind, target in (("tcp6", "tcp6"), ("tcp6", "tcp"), ("tcp6", "unix"), ("tcp", "tcp6")):
            of_kind(checks, folder, "ipv6", header, kind, target)
        with Sent(folder, header, "tcp6", listen=f"tcp:[::]:{free_port()}") as it:
            told_at(checks, f"ipv6: {header}: at all addresses", it, header, "::1")
        sock, port = dual_stack()
        with contextlib.closing(sock), Sent(folder, header, listen=f"tcp:[::]:{port}", sockets=[sock], env={}) as it:
            for host in ("127.0.0.1", "::1", "127.0.0.1"):
                told_at(checks, f"ipv6: {header}: by a socket of both families, {host}", it, header, host)
        of_check = LOCAL if header == "v2" else UNKNOWN
        with Sent(folder, header, target="tcp6", more='health = { every = "20ms" }\n') as it:
            checks.expect(f"ipv6: {header}: a check", {of_check}, {checked(it) for _ in range(3)})


def told_at(checks, name, it, header, host):
    """What a target is told of a client from this host, to which it connects."""
    client = client_from(host, host, int(it.listen.rpartition(":")[2]))
    client.sendall(b"hello")
    wanted = it.wanted(header, client) + b"hello"
    with client, it.peer() as peer:
        got = taken(peer, len(wanted))
        checks.expect(name, wanted, got)
        checks.expect(f"{name}, decoded", ((header, *both_ends(client)), b"hello"), decoded(got))


STAGES = {
    "headers": headers, "ends": ends, "silent": silent, "totals": totals, "next": next_target, "parts": parts, "slow": slow, "broken": broken,
    "memory": memory, "reloads": reloads, "checks": checks_told, "ipv6": ipv6,
}


if __name__ == "__main__":
    sys.exit(run_script(__doc__, STAGES))
