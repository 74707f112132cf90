"""A relay with a target of this process behind each rule, and what is asked of a connection through it."""
import resource
import tempfile
import time

from lib.relay import DESCRIPTORS, Relay
from lib.sockets import connect, free_port, listener
from lib.talk import both_ways, seconds_until_end
from lib.waiting import processor_seconds, wait_until

WAIT_SECONDS = 5


class Served:
    """A relay with one rule for each given idle time, and the listening socket of each target."""

    def __init__(self, *idles, **limits):
        self.folder = tempfile.TemporaryDirectory(prefix="rows-")
        self.listens = [f"tcp:127.0.0.1:{free_port()}" for _ in idles]
        pairs = [listener(f"{self.folder.name}/target-{at}" if at % 2 else None) for at in range(len(idles))]
        self.accepts = [sock for sock, _ in pairs]
        for sock in self.accepts:
            sock.settimeout(WAIT_SECONDS)
        lines = zip(self.listens, pairs, idles)
        rules = [f"relay r{at} {listen} {target} {idle}\n" for at, (listen, (_, target), idle) in enumerate(lines)]
        self.relay = Relay("".join(rules), **limits)

    def open(self, at=0):
        client = connect(self.listens[at], WAIT_SECONDS)
        target, _ = self.accepts[at].accept()
        target.settimeout(WAIT_SECONDS)
        return client, target

    def __enter__(self):
        return self

    def __exit__(self, *_):
        self.relay.close()
        for sock in self.accepts:
            sock.close()
        self.folder.cleanup()


def opens(served, at):
    """Whether a new connection goes through."""
    try:
        return both_ways(*served.open(at))
    except OSError:
        return False


def stop_seconds(relay):
    """Stops a relay: its status, its totals, and the processor seconds of that, which hang on no other program. No other child ends meanwhile."""
    before = processor_seconds(relay.process.pid) + ended_seconds()
    status, totals, _ = relay.stop()
    return status, totals, ended_seconds() - before


def ended_seconds():
    """The processor seconds of all children that have ended."""
    used = resource.getrusage(resource.RUSAGE_CHILDREN)
    return used.ru_utime + used.ru_stime


def so_many_pairs(checks, name, count, *options, descriptors=DESCRIPTORS):
    """So many pairs stand at once and carry a byte each way; one more is dropped, until one of them ends."""
    with Served("never", "never", options=options, descriptors=descriptors) as served:
        relay = served.relay
        held = [served.open(at % 2) for at in range(count)]
        all_ids = 2 + 2 * count
        checks.holds(f"{name}: ids", wait_until(lambda: len(relay.ids()) == all_ids, 10), f"{len(relay.ids())} of {all_ids}")
        # (the first that doesn't is enough, since who waits for it waits long)
        first = next((at for at, pair in enumerate(held) if not both_ways(*pair)), None)
        checks.expect(f"{name}: each passes a byte both ways", None, first)
        one_more = connect(served.listens[0])
        checks.holds(f"{name}: one more is dropped", seconds_until_end(one_more, 10) is not None, "it stays open")
        checks.holds(f"{name}: a full relay goes on", both_ways(*held[-1]), "no byte came back")
        for sock in held[0]:
            sock.close()
        wait_until(lambda: len(relay.ids()) < all_ids, 10)
        time.sleep(0.1)
        checks.holds(f"{name}: room again", opens(served, 0), "no byte came back")
        held_seconds = processor_seconds(relay.process.pid)
        status, totals, seconds = stop_seconds(relay)
        checks.expect(f"{name}: status and totals", (0, (count + 2, count + 2)), (status, totals))
        took = f"{seconds:.2f} s, they {held_seconds:.2f} s"
        # (a bound in seconds alone hangs on the machine)
        checks.holds(f"{name}: the stop takes at most a second more of a processor than they did", seconds < 1 + held_seconds, took)
        for sock in [sock for pair in held for sock in pair]:
            sock.close()
