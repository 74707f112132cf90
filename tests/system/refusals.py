#!/usr/bin/env python3
"""Connections whose set-up the system refuses: each is told, nothing is left of it, and the next client is served.

    python3 tests/system/refusals.py [STAGE]..

poller   the poller takes no more descriptors, of the client or of the target.
memory   no more memory is mapped: each client is served, or told the end.
"""
import errno
import resource
import socket
import sys

sys.path.insert(1, f"{sys.path[0]}/..")
from lib.c_code import library
from lib.log_text import logged
from lib.places import LIB
from lib.relay import StartFault
from lib.stages import options, run_script
from lib.talk import says
from lib.tried import Tried
from lib.waiting import comes

# More than the calls of a poller until a relay has started.
MOST_CALLS = 20
# More clients than are served by what a relay has mapped for one.
CLIENTS = 200


def refused_at(checks, folder, at, env):
    """Has the call of a poller with this number fail. Gives whether a relay starts then."""
    log = f"{folder}/log-{at}"
    try:
        tried = Tried(checks, "poller", loops=1, env={**env, "FAIL_AT": str(at)}, options=("--log", log))
    except StartFault:
        return False
    with tried as it:
        it.are_over(it.client(), what="its client sees the end")
        it.comes_to("list\n", "ids 1\n")
        found = [(line.get("rule"), line.get("client_id"), line.get("up")) for line in logged(log, 1)]
        it.expect("its line", [("a", "-", "0")], found)
        # (the target of the refused one was connected)
        it.peer()
        client = it.client()
        it.goes("the next client is served", client, it.peer(), b"hello")
        it.stop("listening 1\nup 5 down 0\n")
    return True


def poller(checks, folder):
    env = {"LD_PRELOAD": library(f"{LIB}/fail_nth.c", f"{folder}/fail_nth.so"), "FAIL_CALL": "epoll_ctl", "FAIL_WITH": str(errno.ENOSPC)}
    first = next((at for at in range(1, MOST_CALLS) if refused_at(checks, folder, at, env)), None)
    checks.holds("poller: it starts", first is not None, f"not with {MOST_CALLS} calls")
    if first is not None:
        checks.holds("poller: the next call is the target's", refused_at(checks, folder, first + 1, env), "the relay doesn't start")


def peeked(sock):
    """The next byte at a socket that doesn't block, or none where it has ended; or None where nothing has come yet."""
    try:
        return sock.recv(1, socket.MSG_PEEK)
    except BlockingIOError:
        return None
    except OSError:
        return b""


def mapped(pid):
    """The bytes that a process has mapped."""
    with open(f"/proc/{pid}/statm", encoding="ascii") as file:
        return int(file.read().split()[0]) * resource.getpagesize()


def may_map(pid, bytes):
    resource.prlimit(pid, resource.RLIMIT_AS, (bytes, resource.RLIM_INFINITY))


class Crowd:
    """Clients that say a byte each, and the target's ends of those that are served."""

    def __init__(self, it):
        self.accepts, self.clients, self.peers = it.accepts, [it.client() for _ in range(CLIENTS)], []
        for sock in (self.accepts, *self.clients):
            sock.setblocking(False)
            if sock is not self.accepts:
                says(sock, b"x")

    def refused(self):
        """How many have been told the end."""
        return sum(peeked(it) == b"" for it in self.clients)

    def served(self):
        """Of how many the byte has come to the target."""
        try:
            while True:
                self.peers.append(self.accepts.accept()[0])
                self.peers[-1].setblocking(False)
        except BlockingIOError:
            return sum(peeked(it) == b"x" for it in self.peers)


def memory(checks, _):
    """How many are refused is up to the allocator that the program stands on. The idle time has a set-up ask for alarms too."""
    with Tried(checks, "memory", 86_400_000, loops=1) as it:
        it.holds("one stands", it.ends().pass_both(), "no bytes pass")
        may_map(it.relay.process.pid, mapped(it.relay.process.pid))
        crowd = Crowd(it)
        is_so = comes(lambda: crowd.refused() + crowd.served() == CLIENTS)
        it.holds("each is served or told the end", is_so, f"{crowd.served()} and {crowd.refused()} of {CLIENTS}")
        may_map(it.relay.process.pid, resource.RLIM_INFINITY)
        served = crowd.served()
        standing = 3 + 2 * served
        it.holds("nothing is left of the others", comes(lambda: len(it.relay.ids()) == standing), f"{len(it.relay.ids())} ids, not {standing}")
        it.stop(f"listening 1\nup {5 + served} down 2\n")
        for sock in crowd.peers:
            sock.close()


STAGES = {it.__name__: it for it in (poller, memory)}


if __name__ == "__main__":
    sys.exit(run_script(__doc__, STAGES))
