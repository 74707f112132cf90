"""Clients and targets of a relay whose system fails it: connections, exchanges and admin sessions, and what became of each."""
import select
import time

from lib.ends import End, pump, stream
from lib.relay import Session
from lib.sockets import connect, listener

WAIT_SECONDS = 20
TAG_BYTES = 8


class Misses:
    """What didn't go through in one run: for each failed call it may be one connection, reply or session."""

    def __init__(self):
        self.names, self.wrong = [], []

    def add(self, name):
        self.names.append(name)


class Targets:
    """A TCP and a Unix listening socket, from which the run itself takes the connections that the relay makes."""

    def __init__(self, folder):
        self.folder = folder
        tcp, self.tcp_address = listener()
        unix, self.unix_address = listener(f"{folder}/target")
        self.accepts = {"tcp": tcp, "unix": unix}
        for sock in self.accepts.values():
            sock.setblocking(False)

    def rules(self, port):
        return (
            f"relay tcp tcp:127.0.0.1:{port} {self.tcp_address} never\n"
            f"relay unix unix:{{folder}}/in.sock {self.unix_address} 60000\n"
        )

    def drain(self):
        for sock in self.accepts.values():
            try:
                while True:
                    sock.accept()[0].close()
            except OSError:
                pass

    def close(self):
        for sock in self.accepts.values():
            sock.close()


class Connection:
    """A client and the target's end of its connection, by the tag that the client sent first."""

    def __init__(self, client, target):
        self.client, self.target = client, target
        self.ends = None

    def exchange_ends(self, rng, size):
        up, down = stream(rng, size), stream(rng, size)
        self.ends = End(self.client, up, down, rng), End(self.target, down, up, rng)
        return self.ends

    def close(self):
        self.client.close()
        self.target.close()


class Ledger:
    """The bytes that arrived for sure and those that may have been counted, up and down."""

    def __init__(self):
        self.least, self.most = [0, 0], [0, 0]

    def add(self, way, least, most=None):
        self.least[way] += least
        self.most[way] += least if most is None else most

    def holds(self, totals):
        return totals is not None and all(low <= it <= high for low, it, high in zip(self.least, totals, self.most))

    def is_exact(self):
        return self.least == self.most

    def __str__(self):
        return f"{self.least}" if self.is_exact() else f"{self.least} to {self.most}"


def receive_until(sock, size, seconds):
    """So many bytes, or fewer where the other side ends, resets or is late; and whether it was late."""
    data, end = b"", time.monotonic() + seconds
    while len(data) < size:
        sock.settimeout(max(0.001, end - time.monotonic()))
        try:
            more = sock.recv(size - len(data))
        except TimeoutError:
            return data, True
        except OSError:
            return data, False
        if not more:
            return data, False
        data += more
    return data, False


def target_of(accepts, client, tag):
    """The target's end that has the client's tag, or what else became of it: `ended` or `late`."""
    end = time.monotonic() + WAIT_SECONDS
    while time.monotonic() < end:
        readable, _, _ = select.select([accepts, client], [], [], 0.5)
        if accepts in readable:
            try:
                target, _ = accepts.accept()
            except OSError:
                continue
            got, _ = receive_until(target, TAG_BYTES, 2)
            if got == tag:
                return target, ""
            target.close()  # of a client that was dropped before
        elif client in readable:
            return None, "ended"
    return None, "late"


def open_connection(address, accepts, tag, ledger, misses, name):
    """A connection through the relay, over which a tag went to the target and back, or None."""
    try:
        client = connect(address, WAIT_SECONDS)
    except OSError as fault:
        misses.add(f"{name} wasn't taken: {fault!r}")
        return None
    send(client, tag)
    target, otherwise = target_of(accepts, client, tag)
    if target is not None:
        ledger.add(0, TAG_BYTES)
        send(target, tag)
        return answered(Connection(client, target), tag, ledger, misses, name)
    client.close()
    misses.add(f"{name} {otherwise}")
    if otherwise == "late":
        misses.wrong.append(f"{name} hangs before its target")
    # The tag may have been written to a target that was given up before it was read.
    ledger.add(0, 0, TAG_BYTES)
    return None


def send(sock, tag):
    try:
        sock.sendall(tag)
    except OSError:
        pass  # it was cut


def answered(connection, tag, ledger, misses, name):
    """The connection, once its client has the tag back; or None, where it was cut before."""
    back, late = receive_until(connection.client, TAG_BYTES, WAIT_SECONDS)
    ledger.add(1, len(back), TAG_BYTES)
    if back == tag:
        return connection
    misses.add(f"{name} was cut")
    if late or not tag.startswith(back):
        misses.wrong.append(f"{name}: {back!r} came back of {tag!r}" + (", and no end" if late else ""))
    connection.close()
    return None


def exchange(connections, rng, size, ledger, misses):
    """Bytes both ways over all of them at once; one side sends once it has seen the other's end. What arrives is a front of what was sent."""
    pairs = [it.exchange_ends(rng, size) for it in connections]
    for at, pair in enumerate(pairs):
        pair[at % 2].waits = True
    ends = [end for pair in pairs for end in pair]
    is_done = pump(ends, lambda: all(end.is_done() for end in ends), WAIT_SECONDS)
    if not is_done:
        misses.wrong.append(f"an exchange hangs: received {[end.received for end in ends]}, ended {[end.is_over for end in ends]}")
    for client, target in pairs:
        whole = client.has_all() and target.has_all() and not (client.was_cut or target.was_cut)
        if not whole:
            misses.add("an exchange was cut")
        misses.wrong += client.faults(target) + target.faults(client)
        ledger.add(0, target.received, target.received if target.has_all() else client.sent)
        ledger.add(1, client.received, client.received if client.has_all() else target.sent)


class Desk:
    """Admin sessions, opened anew where one was dropped. A line that ends the relay or closes an id isn't said twice."""

    def __init__(self, relay, misses, tries=3):
        self.relay, self.misses, self.tries, self.session = relay, misses, tries, None

    def ask(self, line):
        for _ in range(self.tries):
            try:
                if self.session is None:
                    self.session = Session(self.relay.admin)
                    self.session.sock.settimeout(WAIT_SECONDS)
                reply = self.session.ask(line)
            except (OSError, EOFError) as fault:
                self.misses.add(f"the session of {line!r} ended: {fault!r}")
                if isinstance(fault, TimeoutError):
                    self.misses.wrong.append(f"no reply to {line!r}")
                self.drop()
                if self.relay.process.poll() is not None:
                    return ""
                continue
            if reply.endswith("error 507 out of memory"):
                self.misses.add(f"{line!r} was answered {reply[-23:]}")
                continue
            return reply
        return ""

    def drop(self):
        if self.session is not None:
            self.session.__exit__()
        self.session = None
