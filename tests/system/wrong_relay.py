#!/usr/bin/env python3
"""A relay in Python that is right, or wrong in the one way that RELAY_FAULT names: it shows that the checks of
byte_conservation.py and relay_rows.py fail where they should. Nobody should use it for anything else.

    RELAY_FAULT=drops_a_byte POLLRELAY=tests/system/wrong_relay.py python3 tests/system/byte_conservation.py --small
"""
import contextlib
import io
import os
import select
import socket
import sys
import threading
import time

FAULT = os.environ.get("RELAY_FAULT", "")
NEVER = float("inf")
BUFFER = 16_384
MOST_PAIRS = 512
leaked = []
bells = threading.Lock()


class Ended(Exception):
    """A read or a write that was refused: closed, or past its deadline."""


class Side:
    """One socket of a pair or of a rule, with its id, deadlines and a bell for each direction."""

    def __init__(self, sock, idle=NEVER):
        self.sock, self.idle, self.closed, self.other = sock, idle, False, None
        self.by_admin = self.drained = False
        self.deadline = {"read": NEVER, "write": NEVER}
        self.bell = {way: io.FileIO(os.eventfd(0), "r+") for way in self.deadline}
        sock.setblocking(False)

    def ring(self):
        with bells:
            for bell in self.bell.values():
                os.eventfd_write(bell.fileno(), 1)

    def give_back(self):
        """Closes the socket and the bells, which nobody rings from then on."""
        self.sock.close()
        with bells:
            for bell in self.bell.values():
                bell.close()
            self.bell = {}

    def set_deadline(self, moment):
        self.by_admin = True
        self.deadline = {"read": moment, "write": moment}
        self.ring()

    def begin(self, way):
        other = "write" if way == "read" else "read"
        if FAULT == "idle_on_the_wrong_direction":
            way = other
        if self.idle == NEVER or FAULT == "idle_is_never_set":
            return
        if FAULT == "idle_counts_from_the_start" and self.deadline[way] != NEVER:
            return
        if FAULT == "admin_deadline_stays" and self.by_admin:
            return
        self.deadline[way] = time.monotonic() + self.idle
        if FAULT == "idle_of_either_way":
            for side in (self, self.other):
                side.deadline = {"read": self.deadline[way], "write": self.deadline[way]}
                side.ring()

    def refuse(self, way):
        if self.closed or self.moment(way) <= time.monotonic():
            raise Ended

    def enter(self):
        """Nothing begins on a drained socket; what was begun goes on."""
        if self.drained and FAULT != "drain_is_forgotten":
            raise Ended

    def drain(self):
        """Whether nobody drained it before."""
        was, self.drained = self.drained, True
        if FAULT == "drain_ends_what_was_begun":
            self.deadline = {"read": 0, "write": 0}
            self.ring()
        return not was or FAULT == "drains_twice"

    def moment(self, way):
        """When this way's deadline fires."""
        if FAULT == "listener_ignores_deadlines" and self.other is None:
            return NEVER
        return self.deadline[way] + {"deadlines_fire_late": 0.4, "deadlines_fire_early": -0.05}.get(FAULT, 0)

    def wait(self, way, event):
        """Waits for readiness, a deadline, or the bell."""
        left = self.moment(way) - time.monotonic()
        poll = select.poll()
        poll.register(self.sock, event)
        poll.register(self.bell[way], select.POLLIN)
        ready = poll.poll(None if left == NEVER else max(0, left * 1000) + 1)
        bell = self.bell[way].fileno()
        if any(number == bell for number, _ in ready):
            os.eventfd_read(bell)
        self.refuse(way)

    def call(self, way, event, once):
        self.begin(way)
        self.refuse(way)
        while True:
            try:
                return once()
            except BlockingIOError:
                self.wait(way, event)

    def read(self):
        self.enter()
        return self.call("read", select.POLLIN, lambda: self.sock.recv(BUFFER))

    def write(self, data):
        """Writes all, telling each count as it comes."""
        self.enter()
        while data:
            count = self.call("write", select.POLLOUT, lambda: self.sock.send(data))
            yield count
            data = data[count:]


class Relay:
    def __init__(self, rules, admin):
        self.lock = threading.Lock()
        self.sides, self.next_id, self.pairs = {}, 1, 0
        self.total = {"up": 0, "down": 0}
        self.missed = {"up": 0, "down": 0}
        self.stopped = False
        self.idle_session = None
        self.closes = self.drains = 0
        self.paths = []
        for name, listen, target, idle in rules:
            side = Side(self.bound(name, listen), NEVER)
            self.insert(side)
            self.start(self.accept, side, target, idle)
        self.desk = self.bound("admin", f"unix:{admin}")
        print(f"listening {len(rules)}", flush=True)

    def bound(self, name, address):
        kind, _, rest = address.partition(":")
        sock = socket.socket(socket.AF_UNIX if kind == "unix" else socket.AF_INET)
        try:
            if kind == "tcp":
                sock.setsockopt(socket.SOL_SOCKET, socket.SO_REUSEADDR, 1)
            sock.bind(rest if kind == "unix" else endpoint(rest))
        except OSError:
            sys.exit(f"cannot listen {name}")
        if kind == "unix":
            self.paths.append(rest)
        sock.listen(1024)
        return sock

    def start(self, work, *words):
        threading.Thread(target=work, args=words, daemon=True).start()

    def insert(self, side):
        with self.lock:
            if FAULT == "uses_ids_again":
                self.next_id = min(set(range(1, len(self.sides) + 2)) - set(self.sides))
            side.id, self.next_id = self.next_id, self.next_id + (2 if FAULT == "skips_ids" else 1)
            self.sides[side.id] = side

    def accept(self, listening, target, idle):
        while not listening.closed or FAULT == "closed_listener_accepts":
            if listening.drained and FAULT != "drained_listener_accepts":
                if FAULT == "drained_listener_ends_its_connections":
                    for side in [it for it in self.sides.values() if it.other is not None]:
                        self.close_side(side.id)
                if FAULT != "drained_listener_stays_open":
                    self.close_side(listening.id)
                return
            try:
                client, _ = listening.call("read", select.POLLIN, listening.sock.accept)
            except Ended:
                if FAULT == "listener_dies_at_a_deadline":
                    return
                time.sleep(0.02)
                continue
            except OSError:
                if FAULT == "dies_without_descriptors":
                    return
                time.sleep(0.1)
                continue
            while FAULT == "one_listener_stops_all" and self.is_one_stopped():
                time.sleep(0.05)
            if (FAULT == "dies_after_a_close" and self.closes) or (FAULT == "dies_after_a_drain" and self.drains):
                client.close()
                continue
            most = MOST_PAIRS + (40 if FAULT == "takes_too_many_pairs" else 0)
            if self.pairs >= most:
                client.close()
            else:
                try:
                    self.set_up(client, target, idle)
                except OSError:
                    client.close()  # no descriptor is left
                    if FAULT == "dies_without_descriptors":
                        return

    def is_one_stopped(self):
        return any(side.other is None and side.deadline["read"] != NEVER for side in list(self.sides.values()))

    def set_up(self, client, target, idle):
        kind, _, rest = target.partition(":")
        server = socket.socket(socket.AF_UNIX if kind == "unix" else socket.AF_INET)
        try:
            server.connect(rest if kind == "unix" else endpoint(rest))
            refused = False
        except OSError:
            refused = True
        for sock in (client, server):
            if sock.family == socket.AF_INET:
                sock.setsockopt(socket.IPPROTO_TCP, socket.TCP_NODELAY, 1)
        client, server = Side(client, idle), Side(server, idle)
        client.other, server.other = server, client
        client.left = server.left = [2]
        with self.lock:
            self.pairs += 1
        self.insert(client)
        self.insert(server)
        if refused:
            if FAULT == "credits_what_it_read":
                try:
                    self.total["up"] += len(client.read())
                except (Ended, OSError):
                    pass
            self.close_pair(client)
            self.end_worker(client)
            self.end_worker(client)
            return
        self.start(self.copy, client, server, "up")
        self.start(self.copy, server, client, "down")

    def copy(self, source, sink, way):
        own = 0
        try:
            while data := source.read():
                if FAULT == "drain_drops_the_last_read" and source.drained:
                    raise Ended
                if FAULT == "drain_drops_bytes_it_counts" and sink.drained:
                    with self.lock:
                        self.total[way] += len(data)
                while left_behind(source.sock, data) and not self.stopped:
                    time.sleep(0.05)
                while FAULT == "stalls_when_full" and self.pairs >= MOST_PAIRS and not self.stopped:
                    time.sleep(0.05)
                for count in sink.write(spoiled(data)):
                    own += count
                    with self.lock:
                        self.total[way] += 2 * count if FAULT == "counts_down_twice" and way == "down" else count
                    if FAULT == "misses_a_credit" and own > 100_000:
                        self.total[way] -= 1
                        own = 0
            if FAULT == "adds_a_byte_at_the_end":
                sink.sock.send(b"!")
            sink.enter()
            if FAULT != "keeps_the_other_half_open":
                sink.sock.shutdown(socket.SHUT_WR)
            if FAULT == "closes_at_the_first_end":
                self.close_pair(source)
        except (Ended, OSError):
            if FAULT == "misses_a_worker_that_failed":
                self.missed[way] += own
            self.close_pair(source)
        self.end_worker(source)

    def end_worker(self, side):
        """The last worker of a pair closes it and gives its descriptors back."""
        with self.lock:
            side.left[0] -= 1
            last = side.left[0] == 0
        if FAULT == "leaves_memory":
            leaked.append(bytearray(20_480))
        if FAULT == "leaves_a_thread" and last:
            self.start(time.sleep, 1000)
        if last:
            self.close_pair(side)
            for it in (side, side.other):
                if FAULT == "leaves_a_descriptor" and it.id % 20 == 0:
                    leaked.append(it)
                else:
                    it.give_back()
            with self.lock:
                self.pairs -= FAULT != "counts_pairs_up_alone"

    def remove(self, id):
        with self.lock:
            if FAULT == "keeps_ids" and (id == 1 or id % 5 == 0):
                return self.sides.get(id)
            return self.sides.pop(id, None)

    def close_side(self, id):
        side = self.remove(id)
        if side is None:
            return False
        if FAULT == "close_only_forgets":
            return True
        side.closed = FAULT != "closed_listener_accepts" or side.other is not None
        if FAULT == "closed_listener_accepts" and side.other is None:
            return True
        try:
            side.sock.shutdown(socket.SHUT_RDWR)
        except OSError:
            pass
        side.ring()
        if side.other is None:
            side.sock.close()
        return True

    def close_pair(self, side):
        if FAULT == "keeps_the_other_side" and side.idle == NEVER:
            self.close_side(side.id)
            threading.Timer(2, self.close_side, (side.other.id,)).start()
            return
        for it in (side, side.other):
            self.close_side(it.id)

    def admin(self):
        while not self.stopped:
            if not select.select([self.desk], [], [], 0.05)[0]:
                continue
            sock, _ = self.desk.accept()
            if FAULT == "ends_idle_sessions":
                self.end_idle_session(sock)
            if FAULT == "one_session_at_a_time":
                self.session(sock)
            else:
                self.start(self.session, sock)

    def end_idle_session(self, sock):
        if self.idle_session:
            with contextlib.suppress(OSError):
                self.idle_session.shutdown(socket.SHUT_RDWR)
        self.idle_session = sock

    def session(self, sock):
        with sock, sock.makefile("rw", newline="\n") as lines:
            try:
                for line in lines:
                    reply, is_end = self.reply(line.rstrip("\n").split(" "))
                    lines.write(self.replied(reply, is_end) + "\n")
                    lines.flush()
                    if is_end:
                        break
            except OSError:
                pass

    def replied(self, reply, is_end):
        if FAULT == "replies_otherwise" and not is_end:
            return {"ok": "OK", "error 404 no such connection": "error 404"}.get(reply, reply)
        return reply

    def reply(self, words):
        if words == ["list"]:
            order = sorted(self.sides, reverse=FAULT == "lists_backwards")
            if FAULT == "lists_a_thousand":
                order = order[:1000]
            return " ".join(["ids", *map(str, order)]), False
        if words == ["totals"]:
            return f"totals {self.said()}", False
        if words[0] == "close":
            self.closes += 1
            if FAULT == "closes_all_listeners" and words[1] == "1":
                self.close_side(2)
            found = self.close_side(int(words[1]))
            return ("ok" if found else "error 404 no such connection"), False
        if words[0] == "drain":
            with self.lock:
                side = self.sides.get(int(words[1]))
            if side is None:
                return "error 404 no such connection", False
            self.drains += 1
            if FAULT == "drains_both_sides" and side.other is not None:
                side.other.drain()
            return ("ok" if side.drain() else "error 409 draining"), False
        if words[0] == "deadline":
            return self.deadline(int(words[1]), words[2]), False
        self.stopped = words == ["stop"]
        return "ok", True

    def deadline(self, id, after):
        with self.lock:
            side = self.sides.get(id)
        if side is None:
            return "error 404 no such connection"
        if side.drained and FAULT != "drained_takes_deadlines":
            return "error 409 draining"
        if after == "never" and FAULT == "never_lifts_nothing":
            return "ok"
        side.set_deadline(NEVER if after == "never" else time.monotonic() + int(after) / 1000)
        return "ok"

    def said(self):
        return f"up {self.total['up']} down {self.total['down']}"

    def end(self):
        for id in list(self.sides):
            self.close_side(id)
        time.sleep(12 if FAULT == "stops_late" else 0.3)
        if FAULT != "leaves_its_paths":
            for path in self.paths:
                os.remove(path)
        for way, bytes_missed in self.missed.items():
            self.total[way] -= bytes_missed
        if FAULT == "prints_other_totals":
            self.total["up"] += 1
        print(self.said(), flush=True)
        os._exit(1 if FAULT == "ends_with_1" else 0)


def endpoint(text):
    host, port = text.split(":")
    return host, int(port)


def left_behind(sock, data):
    """Whether a wrong relay leaves what is there already, behind a read that came short."""
    if len(data) == BUFFER or FAULT not in ("leaves_bytes_behind_a_stop", "leaves_the_end_behind_bytes"):
        return False
    try:
        return (sock.recv(1, socket.MSG_PEEK) == b"") == (FAULT == "leaves_the_end_behind_bytes")
    except OSError:
        return False


def spoiled(data):
    """The bytes of one read, or what a wrong relay makes of them now and then."""
    now_and_then = len(data) == BUFFER
    if FAULT == "drops_a_byte" and now_and_then:
        return data[:-1]
    if FAULT == "turns_bytes_round" and now_and_then:
        return data[8192:] + data[:8192]
    if FAULT == "repeats_a_front" and now_and_then:
        return data + data[:10]
    if FAULT == "spoils_short_messages" and data == b"hello":
        return b"jello"
    if FAULT == "sends_other_bytes" and now_and_then:
        return bytes(len(data))
    return data


def rules_of(path):
    with open(path, encoding="ascii") as file:
        lines = [line.split() for line in file if line.startswith("relay ")]
    return [(name, listen, target, NEVER if idle == "never" else int(idle) / 1000)
            for _, name, listen, target, idle in lines]


def main():
    _, _, _, rules, _, admin = sys.argv
    relay = Relay(rules_of(rules), admin)
    relay.admin()
    relay.end()


main()
