"""Asks a relay for its metrics."""
import contextlib

from lib.sockets import connect, read_to_end
from lib.waiting import comes

# The most scrapes, each of some milliseconds, until a figure is told.
SCRAPES = 1_000


def scrape(address, path="/metrics", timeout=20):
    """Status and body of one request on a connection of its own."""
    with connect(address, timeout) as sock:
        sock.sendall(f"GET {path} HTTP/1.1\r\nHost: x\r\nConnection: close\r\n\r\n".encode())
        head, _, body = read_to_end(sock).partition(b"\r\n\r\n")
    return int((head.split() or [b"", b"0"])[1]), body.decode()


def scrape_again(address, path="/metrics"):
    """The same of a relay whose clock goes fast: the time of a client that isn't run for some milliseconds is over, and it asks again."""
    def answer():
        with contextlib.suppress(ConnectionError):
            said = scrape(address, path)
            return said if said[0] else None

    return comes(answer)


def told(metrics):
    """The lines of the figures."""
    status, text = scrape(metrics)
    return text.splitlines() if status == 200 else []


def comes_to_tell(it, metrics, line):
    before = line.rpartition(" ")[0]
    it.holds(line, comes(lambda: line in told(metrics), SCRAPES), [one for one in told(metrics) if one.startswith(f"{before} ")])
