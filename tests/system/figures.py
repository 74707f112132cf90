#!/usr/bin/env python3
"""What the log and the figures tell of each way in which a connection ends or a client is refused, with exact numbers.

    python3 tests/system/figures.py [STAGE]..

causes   each end and refusal is counted and logged by its cause, those of a stop too.
address  the figures are given at an address.
quiet    a relay sleeps where nothing happens, and connections that have ended leave no alarm.
"""
import socket
import sys
import time

sys.path.insert(1, f"{sys.path[0]}/..")
from lib.log_text import logged
from lib.metrics import comes_to_tell, told
from lib.sockets import connect, read_to_end, some_address
from lib.stages import options, run_script
from lib.talk import has_ended, passes, says
from lib.tried import Tried
from lib.waiting import comes

# So many connections stand until the stop, and four beside them until the first rows have ended: the most that may stand at once.
HELD, MOST = 30, 34
# The turns that each loop makes at least for its half of these: each passes something twice.
LEAST_TURNS = 34
RULES = "relay a {0} {target} never\nrelay t {1} {3} never\nrelay g {2} unix:{folder}/gone never\n"
# What a line says of a connection that the stop ends.
STOPPED = ("a", "5", "2", "closed")
# The figures after all rows, and after two reloads.
FIGURES = """
pollrelay_loops 2
pollrelay_admin_sessions_total 7
pollrelay_admin_dropped_sessions_total 0
pollrelay_connections_limit 34
pollrelay_reloads_total 2
pollrelay_bytes_total{way="down"} 106
pollrelay_log_lines_total 45
pollrelay_log_lost_lines_total 0
pollrelay_rule_connections{rule="a"} 30
pollrelay_rule_connections{rule="t"} 0
pollrelay_rule_connections{rule="g"} 0
pollrelay_rule_accepted_total{rule="a"} 59
pollrelay_rule_accepted_total{rule="t"} 7
pollrelay_rule_accepted_total{rule="g"} 9
pollrelay_rule_bytes_total{rule="a",way="down"} 106
pollrelay_rule_refused_total{rule="a",cause="full"} 8
pollrelay_rule_refused_total{rule="a",cause="no_target"} 0
pollrelay_rule_refused_total{rule="g",cause="full"} 0
pollrelay_rule_refused_total{rule="g",cause="no_target"} 9
pollrelay_rule_ends_total{rule="a",cause="eof"} 4
pollrelay_rule_ends_total{rule="a",cause="idle"} 2
pollrelay_rule_ends_total{rule="a",cause="closed"} 3
pollrelay_rule_ends_total{rule="a",cause="drained"} 1
pollrelay_rule_ends_total{rule="a",cause="read"} 5
pollrelay_rule_ends_total{rule="a",cause="write"} 6
pollrelay_rule_ends_total{rule="a",cause="no_target"} 0
pollrelay_rule_ends_total{rule="t",cause="no_target"} 7
pollrelay_rule_no_target_total{rule="t",cause="refused"} 7
pollrelay_rule_no_target_total{rule="g",cause="unreachable"} 9
pollrelay_connect_seconds_bucket{rule="a",le="+Inf"} 51
pollrelay_connect_seconds_count{rule="a"} 51
pollrelay_connect_seconds_count{rule="t"} 0
pollrelay_connect_seconds_sum{rule="t"} 0.000000
pollrelay_connect_seconds_count{rule="g"} 0
pollrelay_connection_seconds_bucket{rule="a",le="+Inf"} 21
pollrelay_connection_seconds_count{rule="a"} 21
pollrelay_connection_seconds_count{rule="t"} 7
pollrelay_connection_seconds_count{rule="g"} 0
pollrelay_rule_accept_faults_total{rule="a"} 0
pollrelay_rule_listening{rule="a"} 1
""".split("\n")[1:-1]
# What a relay tells that has a connection over which 5 bytes went up and 2 down.
ONE_CONNECTION = """
pollrelay_loops 1
pollrelay_bytes_total{way="up"} 5
pollrelay_bytes_total{way="down"} 2
pollrelay_rule_connections{rule="a"} 1
pollrelay_rule_bytes_total{rule="a",way="up"} 5
pollrelay_rule_bytes_total{rule="a",way="down"} 2
pollrelay_rule_accepted_total{rule="a"} 1
""".split("\n")[1:-1]
# Connections of a rule with an idle time that end, longer than that time, and more turns than two loops make in a silence, beside those
# that a second brings.
ENDED, SILENCE, MOST_TURNS = 40, 3.5, 10


class World:
    """A relay, the connections that stand, and the id of the next connection's client: three listeners come first."""

    def __init__(self, it):
        self.it = it
        self.held = [it.ends() for _ in range(MOST)]
        it.expect("those that stand pass bytes", [True] * MOST, [one.pass_both() for one in self.held])
        self.next = 4 + 2 * MOST

    def opened(self):
        """A new connection, and its client's id."""
        self.next += 2
        return self.it.ends(), self.next - 2

    def talking(self):
        """The same, after 5 bytes went up and 2 down."""
        ends, id = self.opened()
        if not ends.pass_both():
            raise RuntimeError("a new connection passes no bytes")
        return ends, id

    def does(self, line):
        return self.it.answer(f"{line}\n") == "ok\n"

    def dropped(self, at):
        return has_ended(self.it.client(at))


def both_ends(world):
    """Of a connection that stood already, over which 5 bytes went up and 2 down."""
    return world.held.pop().finish()


def deadline(world):
    """One that passes at once, after 2 bytes went down and none up."""
    ends, id = world.opened()
    return passes(ends.peer, ends.client, b"hi") and world.does(f"deadline {id} 0") and ends.have_ended()


def close(world):
    """By an admin session, after 5 bytes went up and none down."""
    ends, id = world.opened()
    return passes(ends.client, ends.peer, b"hello") and world.does(f"close {id}") and ends.have_ended()


def drain(world):
    """Of the client's side, whose last 5 bytes go up in the step that ends it."""
    ends, id = world.talking()
    return world.does(f"drain {id}") and passes(ends.client, ends.peer, b"hello") and ends.have_ended()


def is_told(sock):
    """Waits until a byte is there that isn't read."""
    return len(sock.recv(1, socket.MSG_PEEK)) == 1


def client_resets(world):
    """It leaves 2 bytes unread."""
    ends, _ = world.talking()
    is_unread = says(ends.peer, b"hi") and is_told(ends.client)
    ends.client.close()
    return is_unread and has_ended(ends.peer)


def target_resets(world):
    """A write to a target that has reset its end after no more came from it: so the write is what fails."""
    ends, _ = world.talking()
    ends.peer.shutdown(socket.SHUT_WR)
    is_over = has_ended(ends.client)
    is_unread = says(ends.client, b"x") and is_told(ends.peer)
    ends.peer.close()
    return is_over and is_unread and comes(lambda: not says(ends.client, b"y"))


def nobody_listens(world):
    world.next += 2
    return world.dropped(1)


# Of each cause how it comes about, how many ends it makes, each a number of its own, and what each line of the log says: the rule, the
# bytes up and down, and the first word of how it ended; None may be any.
ROWS = (
    ("full", lambda world: world.dropped(0), 8, ("a", "0", "0", "full")),
    ("both ends of file", both_ends, 4, ("a", "5", "2", "eof")),
    ("no such path", lambda world: world.dropped(2), 9, ("g", "0", "0", "no")),
    ("nobody listens", nobody_listens, 7, ("t", "0", "0", "no")),
    ("a deadline", deadline, 2, ("a", "0", "2", "idle")),
    ("a close", close, 3, ("a", "5", "0", "closed")),
    ("a drain", drain, 1, ("a", "10", "2", "drained")),
    ("a reset of the client", client_resets, 5, ("a", "5", "4", "read")),
    ("a reset of the target", target_resets, 6, ("a", None, "2", "write")),
)
# The lines of the log: those of the rows, and of the stop.
LINES = sum(times for _, _, times, _ in ROWS) + HELD


def turns(metrics):
    """The turns of each of two loops."""
    fronts = [f'pollrelay_turns_total{{loop="{at}"}} ' for at in (0, 1)]
    return [int(line.removeprefix(front)) for front in fronts for line in told(metrics) if line.startswith(front)]


def say(found, said, least_ms=0):
    """How many lines say this, of a connection that stood for so many milliseconds at least."""
    def says_so(line):
        fields = line.get("rule"), line.get("up"), line.get("down"), line["how"].split(" ")[0]
        return all(want in (None, got) for want, got in zip(said, fields)) and int(line.get("ms", 0)) >= least_ms

    return sum(map(says_so, found))


def causes(checks, folder):
    log, metrics = f"{folder}/log", some_address()
    words = ("--log", log, "--metrics", metrics, "--connections", str(MOST))
    with Tried(checks, "causes", rules=RULES, options=words) as it:
        world = World(it)
        began = time.monotonic()
        for name, comes_about, times, _ in ROWS:
            it.expect(f"ends by {name}", times, sum(bool(comes_about(world)) for _ in range(times)))
        it.answers("reload\nreload\n", "rules 3\nrules 3\n")
        for line in FIGURES:
            comes_to_tell(it, metrics, line)
        made = turns(metrics)
        it.holds("both loops have connections", len(made) == 2 and min(made) >= LEAST_TURNS, f"{made} turns")
        stood = int((time.monotonic() - began) * 1000)
        it.stop()
        found = logged(log, LINES)
        it.expect("a line for each end, those of the stop too", LINES, len(found))
        for name, _, times, said in ROWS:
            it.expect(f"lines of {name}", times, say(found, said))
        it.expect("lines of the stop", HELD, say(found, STOPPED, stood))


def address(checks, _):
    metrics = some_address()
    with Tried(checks, "address", loops=1, options=("--metrics", metrics)) as it:
        it.holds("bytes pass", it.ends().pass_both(), "they don't")
        it.comes_to("totals\n", "totals up 5 down 2\n")
        with connect(metrics) as sock:
            sock.sendall(b"GET /metrics HTTP/1.1\r\nHost: relay\r\nConnection: close\r\n\r\n")
            answer = read_to_end(sock)
        it.expect("its front", b"HTTP/1.1 200 OK\r\n", answer[:17])
        text = answer.decode().split("\n")
        it.expect("its lines", ONE_CONNECTION, [line for line in ONE_CONNECTION if line in text])
        it.stop("listening 1\nup 5 down 2\n")


def used(it, metrics):
    """Turns, seconds of a processor, and the moment."""
    return sum(turns(metrics)), sum(it.relay.nanoseconds()) / 1e9, time.monotonic()


def quiet(checks, folder):
    metrics, rules = some_address(), "relay n {0} {target} never\nrelay i {1} {target} 3000\n"
    with Tried(checks, "quiet", rules=rules, options=("--log", f"{folder}/log", "--metrics", metrics)) as it:
        whole, half = it.ends(), it.ends()
        it.holds("one stands, of another the client's end has come", whole.pass_both() and half.pass_both() and half.half_end(), "not so")
        for _ in range(ENDED):
            ends = it.ends(1)
            it.holds("one comes and goes", ends.pass_both() and ends.finish(), "it doesn't")
            ends.close()
        comes_to_tell(it, metrics, 'pollrelay_rule_connections{rule="i"} 0')
        before = used(it, metrics)
        time.sleep(SILENCE)
        after = used(it, metrics)
        made, took, passed = (late - early for late, early in zip(after, before))
        it.holds("a loop sleeps", made < MOST_TURNS + 2 * int(passed), f"{made} turns in {passed:.1f} s")
        it.holds("each thread sleeps", took * 8 < passed, f"{took:.3f} s of a processor in {passed:.1f} s")
        it.stop("listening 2\nup 210 down 84\n")


STAGES = {it.__name__: it for it in (causes, address, quiet)}


if __name__ == "__main__":
    sys.exit(run_script(__doc__, STAGES))
