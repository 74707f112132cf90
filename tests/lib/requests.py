"""Requests at a rate, each over a connection of its own: what became of each, and when."""
import threading
import time

from lib.sockets import connect, read_to_end

WORKERS = 16
ANSWERED, REFUSED, RESET = "answered", "refused", "reset unheard"


def request(address, line):
    """Sends a line and its end, and says what came back: the line and an end, a refusal, or something else."""
    data = b""
    try:
        with connect(address, 20) as sock:
            sock.sendall(line)
            sock.shutdown(1)
            data = read_to_end(sock)
    except ConnectionRefusedError:
        return REFUSED
    except ConnectionResetError:
        # As the system does to those whose listener is closed while they wait in its queue.
        return RESET if not data else f"reset after {len(data)} bytes"
    except OSError as fault:
        return repr(fault)
    return ANSWERED if data == line else f"{len(data)} of {len(line)} bytes came back"


class Requests:
    """So many requests a second to an address that echoes, by threads that share the rate, until they are told to end."""

    def __init__(self, address, rate):
        self.address, self.ended = address, threading.Event()
        self.lock, self.outcomes, self.bytes = threading.Lock(), [], 0
        pause = WORKERS / rate
        self.workers = [threading.Thread(target=self.work, args=(at, pause), daemon=True) for at in range(WORKERS)]
        for it in self.workers:
            it.start()

    def work(self, at, pause):
        due, count = time.monotonic() + at * pause / WORKERS, 0
        while not self.ended.wait(max(0, due - time.monotonic())):
            line = b"worker %d request %d\n" % (at, count)
            what = request(self.address, line)
            with self.lock:
                self.outcomes.append((time.monotonic(), what))
                self.bytes += len(line) if what == ANSWERED else 0
            # (one that is behind leaves requests out, and doesn't send them all at once)
            due, count = max(due + pause, time.monotonic()), count + 1

    def end(self):
        """All outcomes with their moments, once each worker has ended."""
        self.ended.set()
        for it in self.workers:
            it.join(30)
        return self.outcomes


def counts(outcomes):
    """How often each came about."""
    whats = [what for _, what in outcomes]
    return {it: whats.count(it) for it in sorted(set(whats))}
