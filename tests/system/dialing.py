"""A connection whose target isn't connected yet: its client isn't read, and all that is asked of it is answered.

    python3 tests/system/dialing.py [STAGE]..

unread      the client's bytes stay where they are, ids are listed, and a side is drained, timed and closed.
heard       what the client said before the target was there comes to it whole, also where the client has half-closed.
gone        a client that resets ends its connection at once.
"""
import contextlib
import socket
import struct
import sys
import time

sys.path.insert(1, f"{sys.path[0]}/..")
from lib.black_hole import BlackHole
from lib.checks import Checks
from lib.log_text import read_log
from lib.relay import Relay, Session
from lib.sockets import connect, free_port, read_to_end, unread_bytes
from lib.stages import options, run_stages
from lib.talk import seconds_until_end
from lib.waiting import wait_until

SOON = 10
BYTES = 30_000


class Dialing:
    """A relay with one rule, whose target never answers, and its log."""

    def __init__(self, folder):
        self.hole, self.log, self.port = BlackHole(), f"{folder}/log", free_port()
        rule = f"relay d tcp:127.0.0.1:{self.port} {self.hole.address} never\n"
        self.relay = Relay(rule, options=("--log", self.log, "--loops", "1", "--connect-timeout", "60000"))
        self.session = Session(self.relay.admin)

    def open(self):
        """A client, with the ids of its sides."""
        before = self.session.ids()
        client = connect(f"tcp:127.0.0.1:{self.port}")
        return client, *self.session.new_ids(before)

    def ask(self, line):
        return self.session.ask(line)

    def hows(self, count):
        """How the connections ended, once so many have."""
        def read():
            with open(self.log, encoding="ascii") as file:
                return [it["how"] for it in read_log(file.read())[0]]

        wait_until(lambda: len(read()) >= count, SOON)
        return read()

    def __enter__(self):
        return self

    def __exit__(self, *_):
        self.session.__exit__(*_)
        self.relay.close()
        self.hole.__exit__()


def unread(checks, folder):
    with Dialing(folder) as it:
        client, near, far = it.open()
        client.sendall(bytes(BYTES))
        count = lambda: unread_bytes(it.port, client.getsockname()[1])
        wait_until(lambda: count() == BYTES, SOON)
        # (a relay that reads them too early has done so by then)
        time.sleep(0.2)
        checks.expect("unread: nothing is read", BYTES, count())
        shown = it.ask(f"show {far}")
        checks.holds("unread: shown", shown.startswith(f"show {far} rule d side target peer {it.hole.address} up 0 down 0 "), shown)
        checks.expect("unread: drained", "ok", it.ask(f"drain {near}"))
        checks.expect("unread: drained before", "error 409 draining", it.ask(f"drain {near}"))
        checks.expect("unread: no deadline then", "error 409 draining", it.ask(f"deadline {near} 10"))
        checks.expect("unread: a deadline of the target", "ok", it.ask(f"deadline {far} 100"))
        checks.holds("unread: it ends it", seconds_until_end(client, SOON) is not None, "it stands")
        checks.expect("unread: told so", ["no target timeout"], it.hows(1))
        client, near, _ = it.open()
        checks.expect("unread: closed", "ok", it.ask(f"close {near}"))
        checks.expect("unread: no id is left of it", "ids 1", it.ask("list"))
        checks.holds("unread: it sees the end", seconds_until_end(client, SOON) is not None, "it stands")
        checks.expect("unread: told as closed", ["no target timeout", "closed"], it.hows(2))
        client.close()


def heard(checks, folder):
    with Dialing(folder) as it:
        client, _, _ = it.open()
        client.sendall(b"hello")
        client.shutdown(socket.SHUT_WR)
        it.hole.sock.settimeout(SOON)
        text, others = b"", [sock.getsockname()[1] for sock in it.hole.waiting]
        with contextlib.suppress(TimeoutError):
            while not text:
                taken, where = it.hole.sock.accept()
                if where[1] not in others:
                    text = read_to_end(taken)
                    taken.sendall(b"bye")
                taken.close()
        checks.expect("heard: whole", b"hello", text)
        checks.expect("heard: and answered", b"bye", read_to_end(client))
        checks.expect("heard: told as ended", ["eof"], it.hows(1))
        client.close()


def gone(checks, folder):
    with Dialing(folder) as it:
        client, _, _ = it.open()
        client.sendall(b"hello")
        client.setsockopt(socket.SOL_SOCKET, socket.SO_LINGER, struct.pack("ii", 1, 0))
        began = time.monotonic()
        client.close()
        checks.expect("gone: told so", ["read reset"], it.hows(1))
        checks.holds("gone: before the target's time", time.monotonic() - began < 30, "it was late")
        checks.expect("gone: no id is left of it", "ids 1", it.ask("list"))


STAGES = {it.__name__: it for it in (unread, heard, gone)}


def main():
    given, checks = options(__doc__, STAGES), Checks()
    run_stages(checks, STAGES, given.stages)
    return checks.end()


if __name__ == "__main__":
    sys.exit(main())
