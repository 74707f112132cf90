"""A relay with a target of this process, by names that begin alike: what passes through it, what its sessions answer, and its end."""
import socket

from lib.relay import Relay
from lib.sockets import connect, is_served, listener, read_to_end, some_address
from lib.talk import has_ended, passes
from lib.waiting import comes

# The longest that a session has no answer, and a connection no byte: less than the minute after which a silent session is ended.
WAIT_SECONDS = 20


def is_refused(address):
    """Whether it comes to that nobody listens at an address."""
    return comes(lambda: not is_served(address))


class Ends:
    """A client of a relay, and the target's end of its connection."""

    def __init__(self, client, peer):
        self.client, self.peer = client, peer

    def pass_both(self):
        """Whether 5 bytes go up and 2 come down."""
        return passes(self.client, self.peer, b"hello") and passes(self.peer, self.client, b"hi")

    def half_end(self):
        """Whether the client's end reaches the target."""
        self.client.shutdown(socket.SHUT_WR)
        return has_ended(self.peer)

    def finish(self):
        """Whether the end of each side reaches the other."""
        if not self.half_end():
            return False
        self.peer.shutdown(socket.SHUT_WR)
        return has_ended(self.client)

    def have_ended(self):
        return has_ended(self.client) and has_ended(self.peer)

    def close(self):
        self.client.close()
        self.peer.close()


class Tried:
    """A relay of so many loops, by one rule `a` with an idle time; or by rules in which {target} is the target's address, {0} to {3} are
    addresses that nobody has, and {folder} is the relay's own folder."""

    def __init__(self, checks, name, idle="never", rules="relay a {0} {target} {idle}\n", loops=2, options=(), env=None):
        self.checks, self.name, self.opened = checks, name, []
        self.accepts, self.target = listener()
        self.accepts.settimeout(WAIT_SECONDS)
        self.listens = [some_address() for _ in range(4)]
        text = self.rules_text(rules, idle)
        self.relay = Relay(text, options=("--loops", str(loops), *options), env=env)
        self.admin = f"unix:{self.relay.admin}"

    def rules_text(self, rules, idle="never"):
        return rules.format(*self.listens, target=self.target, idle=idle, folder="{folder}")

    def now_rules(self, rules, idle="never"):
        """Has the rules file say this."""
        with open(f"{self.relay.folder}/rules", "w", encoding="ascii") as file:
            file.write(self.rules_text(rules, idle).replace("{folder}", self.relay.folder))

    def holds(self, what, is_so, otherwise="it isn't so"):
        self.checks.holds(f"{self.name}: {what}", is_so, otherwise)

    def expect(self, what, wanted, got):
        self.checks.expect(f"{self.name}: {what}", wanted, got)

    def client(self, at=0):
        self.opened.append(connect(self.listens[at], WAIT_SECONDS))
        return self.opened[-1]

    def peer(self):
        """The next connection that comes to the target."""
        sock, _ = self.accepts.accept()
        sock.settimeout(WAIT_SECONDS)
        self.opened.append(sock)
        return sock

    def ends(self, at=0):
        return Ends(self.client(at), self.peer())

    def talking(self, at=0):
        """A connection through which a byte went each way."""
        ends = self.ends(at)
        if not (passes(ends.client, ends.peer, b"a") and passes(ends.peer, ends.client, b"b")):
            raise RuntimeError("no byte passes through a connection that is new")
        return ends

    def answer(self, lines):
        """All that a session answers to these lines and their end."""
        with connect(self.admin, WAIT_SECONDS) as sock:
            sock.sendall(lines.encode())
            sock.shutdown(socket.SHUT_WR)
            return read_to_end(sock).decode()

    def answers(self, lines, wanted, what=None):
        self.expect(what or spoken(lines), wanted, self.answer(lines))

    def comes_to(self, lines, wanted):
        """Sees that a session is answered this sooner or later."""
        last = []

        def is_so():
            last[:] = [self.answer(lines)]
            return last == [wanted]

        self.holds(f"{spoken(lines)} comes to {spoken(wanted)}", comes(is_so), f"still {last}")

    def goes(self, what, speaker, hearer, data):
        self.holds(what, passes(speaker, hearer, data), f"{data!r} doesn't come")

    def are_over(self, *socks, what="each side ends"):
        self.expect(what, [True] * len(socks), [has_ended(it) for it in socks])

    def end(self, text=None):
        """Sees that it ends by itself, without a fault and with these lines; or whatever lines it wrote."""
        last, _ = self.relay.process.communicate(timeout=60)
        said = self.relay.said + last.decode()
        self.expect("its status and lines", (0, said if text is None else text), (self.relay.process.returncode, said))

    def stop(self, text=None):
        self.answers("stop\n", "ok\n")
        self.end(text)

    def __enter__(self):
        return self

    def __exit__(self, *_):
        self.relay.close()
        for sock in (self.accepts, *self.opened):
            sock.close()


def spoken(lines):
    """Lines in the name of a check."""
    return ", ".join(lines.split("\n")[:-1])
