"""Sockets on the loopback and at Unix paths, by addresses as a rule spells them."""
import contextlib
import os
import random
import socket

REPLY_SECONDS = 60

# Ports below the range from which the system takes those of outgoing connections, so that none of these takes ours. A process takes them
# by blocks. Of each it holds the first port, over UDP, for as long as it lives, so that no two scripts have one port, of whichever checkout.
BLOCK = 50
_blocks = random.sample(range(10_000, 32_000, BLOCK), 440)
_held, _ports = [], []
# A forked process takes blocks of its own.
os.register_at_fork(after_in_child=_ports.clear)


def take_block():
    """Takes a block of ports of which no other process has any."""
    while True:
        first = _blocks.pop()
        hold = socket.socket(socket.AF_INET, socket.SOCK_DGRAM)
        try:
            hold.bind(("127.0.0.1", first))
        except OSError:
            hold.close()
            continue
        _held.append(hold)
        _ports.extend(range(first, first + BLOCK))
        return


def free_port():
    """A port of the loopback that nobody has, for a program that cannot take a listening socket."""
    while True:
        if not _ports:
            take_block()
        port = _ports.pop()
        with socket.socket() as probe:
            try:
                probe.bind(("127.0.0.1", port))
                return port
            except OSError:
                continue


def free_port_at(*hosts):
    """A port that nobody has at any of these addresses of the loopback."""
    while True:
        port = free_port()
        with contextlib.suppress(OSError), contextlib.ExitStack() as stack:
            for host in hosts:
                stack.enter_context(socket.socket(family_of(host))).bind((host, port))
            return port


def some_address():
    """A TCP address that nobody has."""
    return f"tcp:127.0.0.1:{free_port()}"


def has_ipv6():
    """Whether this machine has ::1."""
    with contextlib.suppress(OSError), socket.socket(socket.AF_INET6) as probe:
        probe.bind(("::1", 0))
        return True
    return False


def dual_stack():
    """A listener of both families, as systemd has one of `ListenStream=80`, and its port."""
    sock = socket.socket(socket.AF_INET6)
    sock.setsockopt(socket.IPPROTO_IPV6, socket.IPV6_V6ONLY, 0)
    sock.bind(("::", 0))
    sock.listen(64)
    return sock, sock.getsockname()[1]


def family_of(host):
    """The family of an address without its port; one of IPv6 has colons."""
    return socket.AF_INET6 if ":" in host else socket.AF_INET


def tcp_address(where):
    """The address of a socket of TCP, as the system told it, in the words of a rule."""
    host, port = where[:2]
    return f"tcp:[{host}]:{port}" if ":" in host else f"tcp:{host}:{port}"


def connect(address, timeout=REPLY_SECONDS):
    """A connection to an address."""
    if address.startswith("unix:"):
        sock = socket.socket(socket.AF_UNIX)
        where = address[len("unix:"):]
    else:
        host, _, port = address[len("tcp:"):].rpartition(":")
        sock = socket.socket(family_of(host))
        where = (host.strip("[]"), int(port))
    sock.settimeout(timeout)
    sock.connect(where)
    if sock.family != socket.AF_UNIX:
        sock.setsockopt(socket.IPPROTO_TCP, socket.TCP_NODELAY, 1)
    return sock


def is_served(address):
    """Whether a connection to an address is taken."""
    try:
        connect(address).close()
        return True
    except (ConnectionError, FileNotFoundError):
        return False


def listener(path=None, host="127.0.0.1", port=0):
    """A listening socket with its address: TCP at this host, and at this port or a free one, or a Unix socket at a path."""
    if path:
        sock = socket.socket(socket.AF_UNIX)
        sock.bind(path)
        address = f"unix:{path}"
    else:
        sock = socket.socket(family_of(host))
        sock.bind((host, port))
        address = tcp_address(sock.getsockname())
    sock.listen(1024)
    sock.settimeout(REPLY_SECONDS)
    return sock, address


class BlackHole:
    """A TCP address at which a connect is neither made nor refused: its queue is full, and nobody takes from it."""

    def __init__(self):
        self.sock = socket.create_server(("127.0.0.1", 0), backlog=0)
        where = self.sock.getsockname()
        self.address = f"tcp:127.0.0.1:{where[1]}"
        self.fill = [socket.socket() for _ in range(4)]
        for it in self.fill:
            it.setblocking(False)
            it.connect_ex(where)

    def close(self):
        for it in (self.sock, *self.fill):
            it.close()


def read_to_end(sock):
    """All that comes until the end."""
    parts = []
    while part := sock.recv(65_536):
        parts.append(part)
    return b"".join(parts)


# How /proc/net/tcp has a connection that is over on both sides, and whose ports are kept for a while.
TIME_WAIT = "06"


def tcp_rows():
    """The port of each TCP socket that somebody has, that of its peer, and how many bytes wait there to be read."""
    with open("/proc/net/tcp", encoding="ascii") as table:
        for line in table.read().splitlines()[1:]:
            _, own, other, state, queues = line.split()[:5]
            if state != TIME_WAIT:
                yield int(own.split(":")[1], 16), int(other.split(":")[1], 16), int(queues.split(":")[1], 16)


def unread_bytes(port, peer):
    """How many bytes the system has for the socket at this port with that peer."""
    return next((unread for own, other, unread in tcp_rows() if (own, other) == (port, peer)), None)
