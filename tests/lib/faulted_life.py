"""A run of the built program on a system that fails it: a relay under a preloaded library or a tracer, from its start to its end, and
what has to hold whatever failed.
"""
import os
import random
import re
import socket
import time

from lib.clients import TAG_BYTES, Desk, Ledger, Misses, exchange, open_connection
from lib.own_etc import OwnEtc
from lib.relay import Relay, StartFault, totals_of
from lib.sockets import free_port
from lib.waiting import wait_until

# What a relay that can't start may say, as docs/operations.md has it.
START_LINES = re.compile(
    r"(unused socket 3: no (listener|address of a rule)\n)?"
    r"(cannot read rules|cannot listen [a-z0-9]+|relay fault: (device|memory))\n"
)
STOP_SECONDS = 20
# An address of the loopback at which no target is; what is told of a name whose look-up fails, and then goes well.
SECOND = "127.0.0.2"
TURNS = ("can't be looked up; its last addresses stay", "is looked up again")
GONE = ("error 404 no such connection", "error 409 closed")
MARKS = ("[refused]\n", "[failed]\n")


def said_of(errors):
    """What the program itself wrote to standard error, and whether the library failed a call."""
    said = errors
    for mark in MARKS:
        said = said.replace(mark, "")
    return said, said != errors


def start_fault(fault, may_lose_lines=0):
    """What is wrong with a relay that didn't start. Where two lines may be lost, that of the fault may be one of them."""
    said, _ = said_of(fault.errors)
    if may_lose_lines > 1 and not said:
        said = "relay fault: device\n"
    wrong = []
    if fault.is_hung:
        wrong.append(f"it neither starts nor ends: {fault.said!r}")
    elif fault.status != 3 or fault.said or not START_LINES.fullmatch(said):
        wrong.append(f"it ended at its start with {fault.status}, {fault.said!r} and {said!r}")
    if fault.left:
        wrong.append(f"it left {fault.left}")
    return wrong


class Run:
    """One relay with its clients, from its start to its end."""

    # The line that ends the relay, as it is asked.
    last_line = "stop"

    def __init__(self, targets, rng, most=1):
        self.targets, self.port, self.rng = targets, free_port(), rng
        # Each failed call may spoil a try.
        self.tries = most + 2
        self.ledger, self.misses, self.wrong = Ledger(), Misses(), []
        self.standing = []
        self.relay = self.rest = None

    def start(self, env, before=()):
        """The relay, which may not start."""
        self.relay = Relay(self.targets.rules(self.port), env=env, before=before, options=self.options())
        return self.relay

    def options(self):
        """What the relay is asked for beside its rules and its admin socket."""
        return ()

    def addresses(self):
        yield "tcp", f"tcp:127.0.0.1:{self.port}"
        yield "unix", f"unix:{self.relay.folder}/in.sock"

    def open(self, kind, address):
        tag = self.rng.randbytes(TAG_BYTES)
        return open_connection(address, self.targets.accepts[kind], tag, self.ledger, self.misses, f"a {kind} connection")

    def open_each(self):
        """One connection by each rule; where one is dropped the next has to be taken."""
        for kind, address in self.addresses():
            for _ in range(self.tries):
                if (taken := self.open(kind, address)) is not None:
                    self.standing.append(taken)
                    break
            else:
                self.wrong.append(f"no {kind} connection is taken any more")

    def ids(self, desk):
        """The list, asked again for up to three seconds while the workers of a connection that was cut have not ended."""
        found = []

        def is_short():
            found[:] = desk.ask("list").split()[1:]
            return len(found) <= 2 + 2 * len(self.standing)

        wait_until(is_short, 3)
        return found

    def look(self, desk):
        """The list, and deadlines that are far away. A connection that was cut isn't there any more."""
        ids = self.ids(desk)
        if ids[:2] != ["1", "2"] or ids[2:] != sorted(ids[2:], key=int) or len(ids) > 2 + 2 * len(self.standing):
            self.wrong.append(f"the list is {ids} with {len(self.standing)} connections")
        for id in {"1", *ids[-1:]}:
            for when in ("86400000", "never"):
                reply = desk.ask(f"deadline {id} {when}")
                if reply != "ok" and (id in ("1", "2") or reply not in GONE):
                    self.wrong.append(f"a deadline of {id} was answered {reply!r}")

    def pass_and_end(self, size):
        """Bytes both ways over the standing connections, and their ends."""
        exchange(self.standing, self.rng, size, self.ledger, self.misses)
        for it in self.standing:
            it.close()
        self.standing = []

    def expect_rest(self, rest):
        """Threads and descriptors are those of a relay at rest."""
        quiet = wait_until(lambda: (self.relay.threads(), self.relay.descriptors()) == rest, 3)
        if not quiet:
            self.wrong.append(f"threads and descriptors {(self.relay.threads(), self.relay.descriptors())}, at rest {rest}")

    def serve_and_stop(self, rest, size, may_lose_lines):
        """Clients, sessions, the ends of the clients, others after them, drains, and the stop while those stand."""
        desk = Desk(self.relay, self.misses, self.tries)
        self.open_each()
        self.look(desk)
        desk.drop()
        self.pass_and_end(size)
        if not wait_until(lambda: desk.ask("list") == "ids 1 2", 5):
            self.wrong.append(f"the list stays {desk.ask('list')!r}")
        desk.drop()
        if rest is not None:
            self.expect_rest(rest)
        self.open_each()
        self.drain(desk)
        self.stop(desk, may_lose_lines)
        for it in self.standing:
            it.close()

    def drain(self, desk):
        """Drains of the last id and of a listener, which take no memory. Where a reply was lost the drain was made before."""
        for id in (self.ids(desk)[-1:] or ["2"])[0], "1":
            reply = desk.ask(f"drain {id}")
            if reply not in ("ok", "error 409 draining", *GONE):
                self.wrong.append(f"a drain of {id} was answered {reply!r}")
        if wanting := [it for it in self.misses.names if it.startswith("'drain ")]:
            self.wrong.append(f"a drain wanted memory: {wanting}")

    def stop(self, desk, may_lose_lines=0):
        """Ends the relay, and looks at its end. A last line that can't be written is status 3, and a second one that can't is
        that of the fault."""
        before = len(self.misses.names)
        reply = desk.ask(self.last_line)
        desk.drop()
        if reply != "ok" and len(self.misses.names) > before:
            # It is carried out, and its reply was lost: one session, though later tries find nobody.
            del self.misses.names[before + 1 :]
        elif reply != "ok":
            self.wrong.append(f"{self.last_line!r} was answered {reply!r}")
        self.let_go()
        if not self.relay.ends_within(STOP_SECONDS):
            self.wrong.append("the relay doesn't end")
            return
        last = self.relay.process.stdout.read().decode()
        end = self.relay.process.returncode, self.said(), last
        is_right = end[:2] == (0, "") and self.ledger.holds(totals_of(last))
        if not is_right and end not in [(3, "relay fault: device\n", ""), (3, "", "")][:may_lose_lines]:
            self.wrong.append(f"it ended with {end}, and what arrived is {self.ledger}")
        if left := self.left():
            self.wrong.append(f"it left {left}")

    def said(self):
        """What the relay wrote to standard error that no run has to write."""
        return said_of(self.relay.errors())[0]

    def let_go(self):
        """What clients do once the relay was told to end."""

    def left(self):
        """The Unix paths that an ended relay has left."""
        return self.relay.sockets()


class Named(Run):
    """A relay by a configuration, whose TCP target is at a host that is named: at one address, and behind a reload at two, the second of
    which refuses who comes."""

    host = "app.internal"

    def __init__(self, *words):
        super().__init__(*words)
        self.etc, (self.address, self.tcp_port) = OwnEtc(), self.targets.accepts["tcp"].getsockname()
        self.etc.know({self.host: [self.address]})

    def text(self):
        return (
            f'admin = "{{folder}}/admin.sock"\n'
            f'[[rule]]\nname = "tcp"\nlisten = ["tcp:127.0.0.1:{self.port}"]\nbalance = "first"\nresolve = "500ms"\n'
            f'target = [{{ at = "tcp:{self.host}:{self.tcp_port}" }}]\n'
            f'[[rule]]\nname = "unix"\nlisten = ["unix:{{folder}}/in.sock"]\nidle = "60s"\ntarget = [{{ at = "{self.targets.unix_address}" }}]\n'
        )

    def start(self, env, before=()):
        # (the words ahead of the relay's own aren't to fail)
        words = (*self.etc.words, *before, "env", *(f"{name}={value}" for name, value in env.items()))
        self.relay = Relay(self.text(), form="config", env={}, before=words)
        self.expect_found(Desk(self.relay, self.misses, self.tries), self.address)
        return self.relay

    def expect_found(self, desk, *addresses):
        """The targets at these addresses, which come, whatever was refused meanwhile."""
        wanted = [f"tcp:{at}:{self.tcp_port}" for at in addresses]

        def found():
            return [line.split()[5] for line in desk.ask("targets").splitlines() if " rule tcp " in line]

        if not wait_until(lambda: found() == wanted, 10):
            self.wrong.append(f"the targets are {found()}, and not {wanted}")
        desk.drop()

    def look(self, desk):
        super().look(desk)
        self.etc.know({self.host: [self.address, SECOND]})
        if (reply := desk.ask("reload")) not in ("rules 2", "relay fault: memory"):
            self.wrong.append(f"a reload was answered {reply!r}")
        self.expect_found(desk, self.address, SECOND)

    def said(self):
        """A look-up that failed is told, and one that went well behind it."""
        lines, turns = super().said().splitlines(keepends=True), [f"names: {self.host} {turn}\n" for turn in TURNS]
        told = [it for it in lines if it.startswith("names: ")]
        return "".join(it for it in lines if it not in told or told != turns[: len(told)])

    def stop(self, desk, may_lose_lines=0):
        super().stop(desk, may_lose_lines)
        self.etc.close()


class Handed(Run):
    """A relay that is started with a listener, finds a Unix socket that a killed one left, and is told to finish: its connections
    end by themselves."""

    last_line = "finish 86400000"

    def __init__(self, *words):
        super().__init__(*words)
        self.path = f"{self.targets.folder}/in.sock"

    def options(self):
        return "--replace-stale", "--connect-timeout", "20000"

    def start(self, env, before=()):
        self.leave_stale()
        with socket.create_server(("127.0.0.1", 0)) as given:
            self.port = given.getsockname()[1]
            rules = self.targets.rules(self.port).replace("{folder}", self.targets.folder)
            self.relay = Relay(rules, env=env, before=before, options=self.options(), sockets=(given,))
        return self.relay

    def leave_stale(self):
        if self.left():
            os.unlink(self.path)
        with socket.socket(socket.AF_UNIX) as sock:
            sock.bind(self.path)

    def addresses(self):
        yield "tcp", f"tcp:127.0.0.1:{self.port}"
        yield "unix", f"unix:{self.path}"

    def let_go(self):
        for it in self.standing:
            it.close()

    def left(self):
        return [self.path] if os.path.lexists(self.path) else []


def rest_of(targets, env, kind=Run):
    """Threads and descriptors of a relay that has served, and serves nobody now."""
    run = kind(targets, random.Random(0))
    with run.start(env) as relay:
        run.open_each()
        run.pass_and_end(1_000)
        wait_until(lambda: relay.ids() == [1, 2], 5)
        time.sleep(0.3)
        rest = relay.threads(), relay.descriptors()
        run.stop(Desk(relay, run.misses))
        if run.misses.names or run.wrong:
            raise RuntimeError(f"a run in which nothing is refused: {run.misses.names} {run.wrong}")
    return rest


def single_run(targets, env, rest, seed, before=(), most=1, size=20_000, may_lose_lines=0, kind=Run):
    """A run in which calls fail, at most so many of them noticed: what came of it, whether one failed, and what is wrong."""
    run = kind(targets, random.Random(seed), most)
    targets.drain()
    try:
        relay = run.start(env, before)
    except StartFault as fault:
        return f"the start: {said_of(fault.errors)[0].strip()}", said_of(fault.errors)[1], start_fault(fault, may_lose_lines)
    with relay:
        run.serve_and_stop(rest, size, may_lose_lines)
        has_failed = said_of(relay.errors())[1]
    if rest is not None and len(run.misses.names) > (most if has_failed else 0):
        run.wrong.append(f"too much was dropped: {run.misses.names}")
    return (run.misses.names or ["nothing"])[0], has_failed, run.wrong + run.misses.wrong


def tell(checks, name, came, wrong):
    checks.holds(name, not wrong, f"{came}; {wrong[:3]}")


def summary(name, kinds):
    parts = ", ".join(f"{count} {kind}" for kind, count in kinds.most_common())
    print(f"{name}: {sum(kinds.values())} runs: {parts}", flush=True)


def kind_of(came):
    return re.sub(r": (TimeoutError|ConnectionResetError|BrokenPipeError|EOFError|ConnectionRefusedError).*", "", came)
