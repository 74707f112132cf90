#!/usr/bin/env python3
"""Options of sockets that a rule says by a configuration, as the system has them of the relay's own sockets.

    python3 tests/system/socket_options.py [STAGE]..

plain      without a word of it no connection is kept alive or given up early, and the queue of a listener is as long as the system lets it.
options    `keepalive` and `user_timeout` are those of both sides of a connection, of IPv4 and IPv6, and of that rule's alone.
unix       over Unix sockets they are asked for nothing, and bytes go through.
reloads    a reload changes them for connections that come; those that stand keep theirs.
backlog    so many clients wait for an accept, over TCP and at a path, also at a socket that the relay was started with.
source     a target sees the client's connection and a check come from the rule's source, and so does the next target that is tried.
families   a source is passed over for targets of the other family, and for Unix sockets.
foreign    a source that isn't this machine's fails each connect, and brings no target down.
"""
import contextlib
import json
import os
import socket
import sys

sys.path.insert(1, f"{sys.path[0]}/..")
from lib.configured_relay import relay, reload
from lib.counting_target import CountingTarget
from lib.held_sockets import held_sockets, queue_of
from lib.log_text import logged
from lib.metrics import scrape
from lib.sockets import connect, has_ipv6, listener, some_address, tcp_address
from lib.stages import run_script
from lib.waiting import comes

SOON = 10
TCP = socket.IPPROTO_TCP
USER_TIMEOUT = 18
A = CountingTarget("A")
PATH = "unix:{folder}/web"


def rule(listen, *targets, name="web", more=""):
    tables = ", ".join(f'{{ at = "{getattr(it, "address", it)}" }}' for it in targets or (A,))
    return f'[[rule]]\nname = "{name}"\nlisten = {json.dumps([listen])}\ntarget = [{tables}]\n{more}'


def got(it, address):
    """A client of this address, once its target has said its name."""
    client = connect(address.replace("{folder}", it.folder), SOON)
    client.recv(1)
    return client


def told(sock):
    """What the system keeps of a connection: whether it is kept alive, after how many seconds and how often, and when it is given up."""
    alive = sock.getsockopt(socket.SOL_SOCKET, socket.SO_KEEPALIVE)
    numbers = (socket.TCP_KEEPIDLE, socket.TCP_KEEPINTVL) if alive else ()
    return (alive, *(sock.getsockopt(TCP, name) for name in numbers), sock.getsockopt(TCP, USER_TIMEOUT))


def sides(it, client, target):
    """What is kept of the relay's two sockets of a connection: that to its client, and that to its target."""
    found = {}
    with held_sockets(it.process.pid) as held:
        for sock in held:
            with contextlib.suppress(OSError):
                peer = sock.getpeername()
                if sock.family != socket.AF_UNIX and peer[:2] == client.getsockname()[:2]:
                    found["client"] = told(sock)
                elif sock.family != socket.AF_UNIX and tcp_address(peer) == target.address:
                    found["target"] = told(sock)
    return found


PLAIN = {"client": (0, 0), "target": (0, 0)}


def both(*values):
    return {"client": values, "target": values}


def plain(checks, _):
    address = some_address()
    with relay(rule(address)) as it, got(it, address) as client:
        checks.expect("plain: a connection", PLAIN, sides(it, client, A))
        with open("/proc/sys/net/core/somaxconn", encoding="ascii") as file:
            checks.expect("plain: the queue", {address: int(file.read())}, queues(it))


def queues(it):
    """How many clients may wait at each listener over TCP."""
    with held_sockets(it.process.pid) as held:
        listeners = [it for it in held if it.family != socket.AF_UNIX and it.getsockopt(socket.SOL_SOCKET, socket.SO_ACCEPTCONN)]
        return {tcp_address(it.getsockname()): queue_of(it) for it in listeners}


def options(checks, _):
    six = CountingTarget("A", "::1") if has_ipv6() else None
    # A target each: the relay's socket to that of the client before may still stand.
    (one, a), (two, b), (third, c) = ((some_address(), CountingTarget("A")) for _ in range(3))
    text = rule(one, a, more='keepalive = "30s"\nuser_timeout = "1500ms"\n')
    others = [rule(two, b, name="two", more='keepalive = "2m"\n'), rule(third, c, name="third", more='user_timeout = "1m"\n')]
    with relay(text, *others) as it:
        for address, target, want in ((one, a, (1, 30, 30, 1500)), (two, b, (1, 120, 120, 0)), (third, c, (0, 60_000))):
            with got(it, address) as client:
                checks.expect(f"options: {want}", both(*want), sides(it, client, target))
    if six:
        address = some_address().replace("127.0.0.1", "[::1]")
        with relay(rule(address, six, more='keepalive = "7s"\n')) as it, got(it, address) as client:
            checks.expect("options: IPv6", both(1, 7, 7, 0), sides(it, client, six))


def at_path(checks, folder):
    held, target = listener(f"{folder}/target")
    with held, relay(rule(PATH, target, more='keepalive = "30s"\nuser_timeout = "1s"\nsource = "127.0.0.5"\n')) as it:
        client = connect(PATH.replace("{folder}", it.folder), SOON)
        with client, held.accept()[0] as peer:
            client.sendall(b"up")
            peer.sendall(b"down")
            checks.expect("unix: both ways", (b"up", b"down"), (peer.recv(2), client.recv(4)))


def reloads(checks, _):
    address = some_address()
    with relay(rule(address)) as it, got(it, address) as before:
        checks.expect("reloads: the reply", "rules 1", reload(it, rule(address, more='keepalive = "5s"\n')))
        with got(it, address) as client:
            checks.expect("reloads: one that comes", (1, 5, 5, 0), sides(it, client, A)["client"])
        checks.expect("reloads: one that stands", (0, 0), sides(it, before, A)["client"])


def waiting(address, most):
    """How many clients, of so many at most, are taken into the queue of a listener at a path that nobody accepts from."""
    clients = [socket.socket(socket.AF_UNIX) for _ in range(most)]
    for client in clients:
        client.setblocking(False)
    taken = sum(client.connect_ex(address) == 0 for client in clients)
    for client in clients:
        client.close()
    return taken


def backlog(checks, folder):
    one, two = some_address(), some_address()
    with relay(rule(one, more="backlog = 7\n"), rule(two, name="two", more="backlog = 100\n"), rule(PATH, name="path", more="backlog = 3\n")) as it:
        checks.expect("backlog: over TCP", {one: 7, two: 100}, queues(it))
        checks.expect("backlog: clients are served", b"x", echo(it, one))
        it.ask("deadline 3 0")
        # The system lets one more wait at a path than is asked for.
        checks.expect("backlog: at a path", 4, waiting(f"{it.folder}/web", 10))
        new = some_address()
        checks.expect("backlog: a reload", "rules 2", reload(it, rule(one, more="backlog = 9\n"), rule(new, name="new", more="backlog = 11\n")))
        checks.expect("backlog: a listener that stays, and one that comes", {one: 7, new: 11}, queues(it))
    held = socket.create_server(("127.0.0.1", 0), backlog=50)
    address = tcp_address(held.getsockname())
    with held, relay(rule(address, more="backlog = 5\n"), env={}, sockets=(held,)) as it:
        checks.expect("backlog: a socket that was given", {address: 5}, queues(it))


def echo(it, address):
    with got(it, address) as client:
        client.sendall(b"x")
        return client.recv(1)


class Seen:
    """A target that keeps from where each came who connected to it."""

    def __init__(self, host="127.0.0.1"):
        self.sock, self.address = listener(host=host)

    def next(self):
        conn, peer = self.sock.accept()
        return conn, peer[0]


def source(checks, _):
    address, target = some_address(), Seen()
    dead = some_address()
    with target.sock, relay(rule(address, dead, target, more='source = "127.0.0.5"\nbalance = "first"\n')) as it:
        client = connect(address, SOON)
        conn, peer = target.next()
        checks.expect("source: the next target that is tried", "127.0.0.5", peer)
        with client, conn:
            conn.sendall(b"x")
            checks.expect("source: bytes go through", b"x", client.recv(1))
        checks.expect("source: a reload", "rules 1", reload(it, rule(address, target, more='source = "127.0.0.6"\n')))
        with connect(address, SOON), target.next()[0] as conn:
            checks.expect("source: a client that comes then", "127.0.0.6", conn.getpeername()[0])
    text = rule(address, target := Seen(), more='source = "127.0.0.7"\nhealth = { every = "100ms" }\n')
    with target.sock, relay(text):
        conn, peer = target.next()
        checks.expect("source: a check", "127.0.0.7", peer)
        conn.close()


def families(checks, folder):
    address, target = some_address(), Seen()
    with target.sock, relay(rule(address, target, more='source = "::1"\n')), connect(address, SOON):
        conn, peer = target.next()
        checks.expect("families: IPv6 for a target of IPv4", "127.0.0.1", peer)
        conn.close()
    if has_ipv6():
        six = Seen("::1")
        for own in ("::1", "127.0.0.5"):
            with relay(rule(address, six, more=f'source = "{own}"\n')), connect(address, SOON):
                conn, peer = six.next()
                checks.expect(f"families: {own} for a target of IPv6", "::1", peer)
                conn.close()
        six.sock.close()


def foreign(checks, _):
    address, figures = some_address(), some_address()
    more = 'source = "192.0.2.1"\nhealth = { every = "20ms", fall = 1 }\n'
    with relay(rule(address, more=more), more=f'metrics = "{figures}"\n') as it:
        for _ in range(3):
            with connect(address, SOON) as client:
                with contextlib.suppress(ConnectionResetError):
                    checks.expect("foreign: a client is closed", b"", client.recv(1))
        lines = {line["how"] for line in logged(f"{it.folder}/log", 3)}
        checks.expect("foreign: the log", {"no target unreachable"}, lines)
        up = [line for line in scrape(figures)[1].splitlines() if line.startswith("pollrelay_target_up{")]
        checks.expect("foreign: the target is up", [f'pollrelay_target_up{{rule="web",target="{A.address}"}} 1'], up)
        checks.expect("foreign: a reload mends it", "rules 1", reload(it, rule(address), more=f'metrics = "{figures}"\n'))
        checks.holds("foreign: a client is served", comes(lambda: echo(it, address) == b"x"), "it isn't")
        checks.holds("foreign: descriptors go back", comes(lambda: descriptors(it) < 40), descriptors(it))


def descriptors(it):
    return len(os.listdir(f"/proc/{it.process.pid}/fd"))


if __name__ == "__main__":
    sys.exit(run_script(__doc__, {
        "plain": plain, "options": options, "unix": at_path, "reloads": reloads, "backlog": backlog, "source": source, "families": families,
        "foreign": foreign,
    }))
