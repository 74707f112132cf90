#!/usr/bin/env python3
"""Gives a built relay a million random commands by a hundred admin clients at once, while bytes flow.

    python3 tests/system/steering_storm.py [--commands 1000000] [--seed N]

In the first half as many sessions stay as may stand at once, and each has each of its lines answered. In the second a hundred
clients come and go: a newcomer takes the place of the session that has got nowhere for longest, so that a client reads the replies
to a front of its lines. A reply is always one to the client's own next line. Connections of all kinds are reset, stalled and cut
meanwhile, over TCP and Unix sockets. Each has to end, what arrives is a front of what was sent, the totals are the sums of the
log's lines and lie between what arrived and what was sent, and nothing is left.
"""
import multiprocessing
import random
import sys
import tempfile

sys.path.insert(1, f"{sys.path[0]}/..")
from lib.admin_replies import is_reply
from lib.checks import Checks
from lib.lane_runs import expect_end, expect_nothing_left, told, warm_up
from lib.lanes import LANES, make_lanes, run_lanes
from lib.log_text import read_log
from lib.relay import Relay, Session, allow_descriptors
from lib.stages import options

# The sessions that the relay serves at once, the clients that come and go, and the processes that have both.
AT_ONCE, CLIENTS, PROCESSES = 32, 100, 4
# How many lines a client sends before it reads their replies.
LINES = 40
PLAN = [("rough", "never", 2), ("rough", 60_000, 2)]
# How often each line comes. A connection that is closed at once carries nothing, so that most leave it alone for a while.
COMMANDS = {
    "close {id}": 2, "drain {id}": 2, "deadline {id} {ms}": 16, "deadline {id} never": 20,
    "show {id}": 16, "show": 1, "list": 4, "totals": 4, "frob": 2, "list {id}": 2,
    "targets": 1, "target nobody {id} down": 2, "target nobody {id}": 1,
}


class Client(Session):
    """A session whose lines are sent many at once."""

    stood = []

    def send(self, rng, count):
        """Sends so many lines, on ids that stood a moment ago."""
        asked, ids = rng.choices(list(COMMANDS), COMMANDS.values(), k=count), Client.stood or [len(LANES) + 1]
        asked = [it.format(id=rng.choice(ids), ms=rng.choice((0, 1, 20, 1_000))) for it in asked]
        self.sock.sendall("".join(f"{it}\n" for it in asked).encode())
        return asked

    def answers(self, asked, faults):
        """How many of these lines were answered before the session ended."""
        for count, line in enumerate(asked):
            try:
                reply = self.reply(line)
            except (ConnectionError, EOFError):
                return count
            if not is_reply(line, reply, range(1, len(LANES) + 1)):
                faults.append(f"{line!r} was answered {reply!r}")
            elif line == "list":
                Client.stood = [int(it) for it in reply[0].split()[1:] if int(it) > len(LANES)]
        return len(asked)


def those_that_stay(admin, rng, count, faults):
    """Sessions that stay until so many lines are answered. Gives how many were, and that no session was cut short."""
    clients, given = [Client(admin) for _ in range(AT_ONCE // PROCESSES)], 0
    while given < count and not faults:
        asked = [it.send(rng, LINES) for it in clients]
        answered = [it.answers(lines, faults) for it, lines in zip(clients, asked)]
        given += sum(answered)
        if min(answered) < LINES:
            faults.append("a session that was to stay has ended")
    for it in clients:
        it.ask("quit")
        it.__exit__()
    return given, 0


def asked_once(admin, rng, client):
    """A client, a new one where there is none, and the lines that it has sent; no client where its session has ended."""
    try:
        client = client or Client(admin)
        return client, client.send(rng, rng.randint(1, LINES))
    except ConnectionError:
        return None, []


def those_that_come_and_go(admin, rng, count, faults):
    """Clients that come and go until so many lines are answered. Gives how many were, and how many sessions were cut short."""
    clients, given, cut = [None] * (CLIENTS // PROCESSES), 0, 0
    while given < count and not faults:
        clients = [asked_once(admin, rng, it) for it in clients]
        for at, (client, asked) in enumerate(clients):
            answered = client.answers(asked, faults) if client else 0
            given, cut = given + answered, cut + (answered < len(asked))
            is_over = answered < len(asked) or rng.random() < 0.3
            if client and is_over:
                client.__exit__()
            clients[at] = None if is_over else client
    for it in clients:
        if it:
            it.__exit__()
    return given, cut


def steer(work, admin, seed, count, results):
    """What one process of clients does."""
    faults = []
    try:
        given, cut = work(admin, random.Random(seed), count, faults)
    except (OSError, EOFError, ValueError) as fault:
        given, cut = 0, 0
        faults.append(f"the admin socket failed: {fault!r}")
    results.put((given, cut, faults[:3]))


def storm(checks, relay, work, commands, seed):
    """Connections, again and again, until all commands are answered. Gives their outcomes."""
    fork = multiprocessing.get_context("fork")
    results = fork.Queue()
    words = [(work, relay.admin, f"{seed} {it}", commands // PROCESSES, results) for it in range(PROCESSES)]
    clients = [fork.Process(target=steer, args=it) for it in words]
    for it in clients:
        it.start()
    outcomes, given = [], []
    while len(given) < PROCESSES:
        outcomes += run_lanes(["rough"], 4 * len(LANES), f"{seed} {len(outcomes)}")
        while not results.empty():
            given.append(results.get(timeout=600))
    for it in clients:
        it.join()
    answered, cut = sum(it[0] for it in given), sum(it[1] for it in given)
    checks.holds("storm: lines that were answered", answered >= commands // PROCESSES * PROCESSES, f"{answered} of {commands}")
    checks.expect("storm: replies", [], [fault for it in given for fault in it[2]][:3])
    print(f"{work.__name__}: {answered} lines beside {4 * len(outcomes)} connections, {cut} sessions cut short", flush=True)
    return outcomes


def expect_sums(checks, totals, path):
    """The totals are the sums of the log's lines, if it lost none."""
    with open(path, encoding="ascii") as file:
        lines, lost, others = read_log(file.read())
    checks.expect("storm: odd lines of the log", [], others[:3])
    sums = tuple(sum(int(it[way]) for it in lines) for way in ("up", "down"))
    checks.holds("storm: sums of the log", lost or sums == totals, f"{sums}, totals {totals}")


def run(checks, commands, seed):
    with tempfile.TemporaryDirectory(prefix="storm-") as folder:
        log = f"{folder}/log"
        with Relay(make_lanes(folder, PLAN), options=("--log", log)) as relay:
            before = warm_up(relay)
            outcomes = storm(checks, relay, those_that_stay, commands // 2, f"{seed} stay")
            outcomes += storm(checks, relay, those_that_come_and_go, commands // 2, f"{seed} go")
            up, down, sent_up, sent_down = told(checks, "storm", outcomes)
            expect_nothing_left(checks, "storm", relay, before)
            totals = expect_end(checks, "storm", relay)
            fits = up <= totals[0] <= sent_up and down <= totals[1] <= sent_down
            checks.holds("storm: totals", fits, f"{totals}, arrived {(up, down)}, sent {(sent_up, sent_down)}")
            expect_sums(checks, totals, log)


def main():
    given = options(__doc__, commands=1_000_000, seed=None)
    allow_descriptors()
    checks = Checks()
    run(checks, given.commands, given.seed)
    return checks.end()


if __name__ == "__main__":
    sys.exit(main())
