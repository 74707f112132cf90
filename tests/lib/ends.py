"""Both ends of a relayed connection in one thread: what each sends, what it should receive, and what it saw."""
import random
import select
import socket
import struct
import time

# Every stream is a part of this block, so a byte that is lost, repeated, turned round or of another connection is seen.
BLOCK = memoryview(random.Random(20).randbytes(24 << 20))
READ_AT_MOST = 1 << 18
CHUNKS = (1_000, 16_383, 16_384, 16_385, 65_536, 1 << 20)


def stream(rng, size):
    start = rng.randrange(len(BLOCK) - size)
    return BLOCK[start : start + size]


class End:
    """One end. It shuts its sending side once it sent all, unless it holds open."""

    def __init__(self, sock, sends, expects, rng):
        sock.setblocking(False)
        self.sock, self.sends, self.expects = sock, sends, expects
        self.chunk = rng.choice(CHUNKS)
        self.sent = self.received = 0
        self.sent_at = 0.0  # before the last send
        self.first_wrong = None
        self.waits = False  # for the other's end, before it sends
        self.holds_open = False
        self.reads = True
        self.resets_at = None  # after so many sent bytes
        self.is_shut = False
        self.is_over = False  # it saw the other's end
        self.was_cut = False  # by a reset, or by an end of the descriptor

    def mask(self):
        wanted = select.POLLIN if self.reads and not self.is_over else 0
        if not self.is_shut and not self.waits and self.sent < len(self.sends):
            wanted |= select.POLLOUT
        return wanted

    def step(self, event):
        if event & select.POLLOUT:
            self.send()
        if self.reads and not self.is_over and event & ~select.POLLOUT:
            self.receive()

    def send(self):
        self.sent_at = time.monotonic()
        try:
            self.sent += self.sock.send(self.sends[self.sent : self.sent + self.chunk])
        except BlockingIOError:
            pass
        except OSError:
            self.is_shut = self.was_cut = True

    def receive(self):
        try:
            data = self.sock.recv(READ_AT_MOST)
        except BlockingIOError:
            return
        except OSError:
            self.is_over = self.was_cut = self.is_shut = True
            return
        if data:
            wanted = self.expects[self.received : self.received + len(data)]
            if self.first_wrong is None and data != wanted:
                self.first_wrong = self.received
            self.received += len(data)
        else:
            self.is_over, self.waits = True, False

    def finish_sending(self):
        """Shuts the sending side, or resets, where it is time to."""
        if self.resets_at is not None and self.sent >= self.resets_at:
            self.reset()
        elif not (self.is_shut or self.waits or self.holds_open) and self.sent == len(self.sends):
            self.is_shut = True
            try:
                self.sock.shutdown(socket.SHUT_WR)
            except OSError:
                self.was_cut = True

    def reset(self):
        self.sock.setsockopt(socket.SOL_SOCKET, socket.SO_LINGER, struct.pack("ii", 1, 0))
        self.sock.close()
        self.is_shut = self.is_over = self.was_cut = True
        self.resets_at = None

    def is_done(self):
        return self.is_over and self.is_shut

    def has_all(self):
        return self.received == len(self.expects) and self.sent == len(self.sends)

    def faults(self, other):
        """What is wrong with the bytes, whatever cut the connection."""
        if self.first_wrong is not None:
            return [f"a wrong byte after {self.first_wrong} right ones"]
        return [f"{self.received} bytes of {other.sent} sent"] if self.received > other.sent else []


def pump(ends, is_done, seconds):
    """Sends and receives on both ends until all is done, and says whether it was before the time was over."""
    last = time.monotonic() + seconds
    while True:
        for end in ends:
            end.finish_sending()
        if is_done():
            return True
        poll, by_number = select.poll(), {}
        for end in ends:
            if end.sock.fileno() >= 0 and (mask := end.mask()):
                poll.register(end.sock, mask)
                by_number[end.sock.fileno()] = end
        left = last - time.monotonic()
        if left <= 0:
            return False
        for number, event in poll.poll(min(left, 0.05) * 1000):
            by_number[number].step(event)
