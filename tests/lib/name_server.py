"""A name server in a network of its own, with targets there, for a program that is started in it.

    unshare -n python3 tests/lib/name_server.py FILE WORDS..

It has the loopback of the network up, answers questions of DNS at port 53 there as FILE says at that moment, has a target at port 9000
of each address of TARGETS, which says its letter and sends back what comes, and goes on as WORDS. The server ends with that program.

FILE is JSON: the name of a host has what is known of it. `a` and `aaaa` are its addresses; `rcode` is the number of a fault in their
place; the answer comes `after` so many seconds, and never where that is null. An answer that is too long for UDP is given over TCP.
"""
import contextlib
import ctypes
import fcntl
import json
import os
import signal
import socket
import socketserver
import struct
import sys
import threading
import time

sys.path.insert(1, f"{sys.path[0]}/..")
from lib.counting_target import CountingTarget
from lib.sockets import has_ipv6

TARGETS, TARGET_PORT = {"127.0.0.1": "A", "127.0.0.2": "B", "127.0.0.3": "C", "::1": "V"}, 9_000
LOOPBACK, PORT, MOST_BY_UDP = "127.0.0.1", 53, 512
IFF_UP, SIOCSIFFLAGS, PR_SET_PDEATHSIG = 1, 0x8914, 1
A, AAAA, IN = 1, 28, 1
UNKNOWN, IS_ANSWER, IS_CUT = 3, 0x8180, 0x0200


def answer(question, path):
    """The answer to a question, or nothing where none is to come."""
    labels, at = [], 12
    while length := question[at]:
        labels.append(question[at + 1 : at + 1 + length].decode())
        at += 1 + length
    kind = struct.unpack_from("!H", question, at + 1)[0]
    with open(path, encoding="ascii") as file:
        known = json.load(file).get(".".join(labels), {"rcode": UNKNOWN})
    if (wait := known.get("after", 0)) is None:
        return b""
    time.sleep(wait)
    family = socket.AF_INET if kind == A else socket.AF_INET6
    found = known.get({A: "a", AAAA: "aaaa"}.get(kind), ())
    rows = [socket.inet_pton(family, it) for it in found]
    head = question[:2] + struct.pack("!HHHHH", IS_ANSWER | known.get("rcode", 0), 1, len(rows), 0, 0) + question[12 : at + 5]
    # (each row has the name of the question)
    return head + b"".join(struct.pack("!HHHIH", 0xC00C, kind, IN, 0, len(row)) + row for row in rows)


class ByUdp(socketserver.BaseRequestHandler):
    def handle(self):
        question, sock = self.request
        said = answer(question, self.server.path)
        if len(said) > MOST_BY_UDP:
            flags, *_ = struct.unpack_from("!H", said, 2)
            said = said[:2] + struct.pack("!HHHHH", flags | IS_CUT, 1, 0, 0, 0) + question[12:]
        if said:
            sock.sendto(said, self.client_address)


class ByTcp(socketserver.StreamRequestHandler):
    def handle(self):
        with contextlib.suppress(OSError, struct.error):
            while True:
                (length,) = struct.unpack("!H", self.rfile.read(2))
                said = answer(self.rfile.read(length), self.server.path)
                self.wfile.write(struct.pack("!H", len(said)) + said)


def serve(path):
    """Answers until the process ends that has started this one."""
    ctypes.CDLL(None).prctl(PR_SET_PDEATHSIG, signal.SIGKILL)
    targets = [CountingTarget(name, host, port=TARGET_PORT) for host, name in TARGETS.items() if host != "::1" or has_ipv6()]
    for kind, handler in ((socketserver.ThreadingUDPServer, ByUdp), (socketserver.ThreadingTCPServer, ByTcp)):
        server = kind((LOOPBACK, PORT), handler)
        server.path, server.daemon_threads = path, True
        threading.Thread(target=server.serve_forever, daemon=True).start()
    return targets


def main():
    path, *words = sys.argv[1:]
    with socket.socket(socket.AF_INET, socket.SOCK_DGRAM) as sock:
        fcntl.ioctl(sock, SIOCSIFFLAGS, struct.pack("16sh14x", b"lo", IFF_UP))
    ready, told = os.pipe()
    if os.fork() == 0:
        os.close(ready)
        targets = serve(path)
        os.write(told, b"x")
        os.close(told)
        while targets:
            signal.pause()
    os.close(told)
    if os.read(ready, 1) != b"x":
        sys.exit("the name server didn't start")
    os.close(ready)
    os.execvp(words[0], words)


if __name__ == "__main__":
    main()
