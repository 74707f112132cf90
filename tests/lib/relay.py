"""A relay as a process: starts it, asks its admin socket, and looks at its threads, descriptors and memory."""
import contextlib
import os
import random
import resource
import shutil
import signal
import stat
import subprocess
import tempfile
import time

from lib.activation import started_with
from lib.places import PROGRAM
from lib.sockets import REPLY_SECONDS, connect
from lib.waiting import comes

# Of threads that go last, as `nice` counts: on a machine that is full of other work the least, 19, would leave them next to nothing.
LOW_PRIORITY = 10
# 1,000 pairs take more descriptors than the 1,024 that a shell often gives.
DESCRIPTORS = 8192


class Asking:
    """The ids that a relay lists, of what asks it (`ask`)."""

    def ids(self):
        return [int(word) for word in self.ask("list").split()[1:]]

    def new_ids(self, before):
        """The ids that are listed beside those of before, once there are some. A relay lists a connection a moment after its connect to
        the target, which may have accepted it by then: until it is listed, the last id is that of another connection or of a listener."""
        return comes(lambda: [it for it in self.ids() if it not in before])


class Session(Asking):
    """One admin session: a line, its reply, and so on."""

    def __init__(self, path):
        self.sock = connect(f"unix:{path}")
        self.replies = self.sock.makefile("r", encoding="ascii", newline="\n")

    def line(self, asked):
        said = self.replies.readline()
        if not said.endswith("\n"):
            raise EOFError(f"no whole reply to {asked!r}: {said!r}")
        return said[:-1]

    def reply(self, asked):
        """The lines of the next reply, which is one to this line: those to `show` and `targets` have many."""
        lines = [self.line(asked)]
        while lines[-1].startswith({"show": "show ", "targets": "target "}.get(asked, "\n")):
            lines.append(self.line(asked))
        return lines

    def ask(self, line):
        self.sock.sendall(f"{line}\n".encode())
        return "\n".join(self.reply(line))

    def __enter__(self):
        return self

    def __exit__(self, *_):
        self.replies.close()
        self.sock.close()


class StartFault(RuntimeError):
    """A relay that ended, or was ended, before it said that it listens: its status, its outputs and the sockets that it left."""

    def __init__(self, relay, said):
        self.said = said
        self.is_hung = said != ""
        if not self.is_hung:
            self.is_hung = not relay.ends_within(REPLY_SECONDS)
        self.status, self.errors, self.left = relay.process.poll(), relay.errors(), relay.sockets()
        super().__init__(f"the relay didn't start: it said {said!r}")


class Relay(Asking):
    """A relay that serves a text of rules until stop() or the end of the with block. `{folder}` in the rules is its own folder.

    With an environment of its own its standard error is kept, for errors(). `before` are words ahead of the program's, as of a
    tracer, and `options` are added to those of `serve`. `wrapper` are words in place of the program's, as of packaging/pollrelay-run,
    which starts it. With sockets it is started with these, `handed` says so (`started_with`), and the environment is its alone.
    With `form="config"` the text is a configuration, which names its own admin socket, `{folder}/admin.sock`, or `options` do.
    """

    def __init__(
        self, rules, program=PROGRAM, descriptors=DESCRIPTORS, env=None, before=(), options=(), wrapper=(), sockets=(), handed=None, form="rules"
    ):
        self.folder = tempfile.mkdtemp(prefix="relay-")
        self.admin = f"{self.folder}/admin.sock"
        self.form = form
        self.write(rules)
        if wrapper:
            env = {**(env or {}), "POLLRELAY": program}
        steered = ("--admin", self.admin) if form == "rules" else ()
        words = [*before, *(wrapper or (program, "serve")), f"--{form}", f"{self.folder}/{form}", *steered, *options]
        self.kept_errors = None if env is None else open(f"{self.folder}/errors", "ab")
        given = {}
        if sockets:
            front, given = started_with(sockets, **(handed or {}))
            words = [*front, "env", *(f"{name}={value}" for name, value in (env or {}).items()), *words]
            env = env and {}
        self.process = subprocess.Popen(
            words, stdin=subprocess.DEVNULL, stdout=subprocess.PIPE, stderr=self.kept_errors,
            env=None if env is None else {**os.environ, **env}, preexec_fn=lambda: allow_descriptors(descriptors),
            **given,
        )
        said = self.process.stdout.readline().decode()
        if not said.startswith("listening "):
            fault = StartFault(self, said)
            self.close()
            raise fault
        self.said = said

    def write(self, text):
        """Has its file say this, for its next start or reload."""
        with open(f"{self.folder}/{self.form}", "w", encoding="utf-8") as file:
            file.write(text.replace("{folder}", self.folder))

    def errors(self):
        """What it wrote to standard error so far, where that is kept, without what a tracer ahead of it says there."""
        if self.kept_errors is None:
            return ""
        with open(self.kept_errors.name, encoding="utf-8", errors="replace") as file:
            return "".join(line for line in file if not line.startswith("strace: "))

    def sockets(self):
        """The names of Unix sockets in its folder."""
        return sorted(it.name for it in os.scandir(self.folder) if stat.S_ISSOCK(it.stat(follow_symlinks=False).st_mode))

    def ends_within(self, seconds):
        try:
            self.process.wait(seconds)
            return True
        except subprocess.TimeoutExpired:
            return False

    def ask(self, line):
        """The reply to one line, in a session of its own."""
        with Session(self.admin) as session:
            return session.ask(line)

    def has_standing(self, count):
        """Whether it lists so many connections, and has no more at its targets: one leaves the list before it is counted no more, and
        its target last."""
        listed = sum(" side client " in line for line in self.ask("show").splitlines())
        targets = [line.split() for line in self.ask("targets").splitlines() if line.startswith("target ")]
        return listed == count and sum(int(words[words.index("connections") + 1]) for words in targets) <= count

    def totals(self):
        return totals_of(self.ask("totals").removeprefix("totals "))

    def stop(self):
        """Stops the relay, and gives its status, its last totals and the seconds that it took."""
        began = time.monotonic()
        reply = self.ask("stop")
        if reply != "ok":
            raise RuntimeError(f"stop was answered {reply!r}")
        last, _ = self.process.communicate(timeout=REPLY_SECONDS)
        return self.process.returncode, totals_of(last.decode()), time.monotonic() - began

    def threads(self):
        return len(os.listdir(f"/proc/{self.process.pid}/task"))

    def nanoseconds(self):
        """The processor time of each of its threads, in the order in which they began."""
        task = f"/proc/{self.process.pid}/task"
        times = []
        for thread in sorted(os.listdir(task), key=int):
            with open(f"{task}/{thread}/schedstat", encoding="ascii") as file:
                times.append(int(file.read().split()[0]))
        return times

    def descriptors(self):
        return len(os.listdir(f"/proc/{self.process.pid}/fd"))

    def resident_kib(self):
        with open(f"/proc/{self.process.pid}/status", encoding="ascii") as file:
            return next(int(line.split()[1]) for line in file if line.startswith("VmRSS"))

    def traced(self):
        """The processes that a tracer ahead of the program has started, which would outlive it."""
        path = f"/proc/{self.process.pid}/task/{self.process.pid}/children"
        with open(path, encoding="ascii") as file:
            return [int(word) for word in file.read().split()]

    def have_loops_go_last(self):
        """Has all its threads share a processor, of which the loops have what the main thread leaves: so what a loop is told to do isn't
        done by the time that the main thread goes on."""
        processor, loops = {random.choice(sorted(os.sched_getaffinity(0)))}, self.loop_threads()
        for thread in [self.process.pid, *loops]:
            os.sched_setaffinity(thread, processor)
        for thread in loops:
            os.setpriority(os.PRIO_PROCESS, thread, LOW_PRIORITY)

    def loop_threads(self):
        """Its threads but for the main one."""
        return [it for it in map(int, os.listdir(f"/proc/{self.process.pid}/task")) if it != self.process.pid]

    @contextlib.contextmanager
    def giving_way(self):
        """While a loop loses its processor at once to a thread of that processor that it wakes, and not only at the end of its slice."""
        loops, none = self.loop_threads(), os.sched_param(0)
        for thread in loops:
            os.sched_setscheduler(thread, os.SCHED_IDLE, none)
        try:
            yield
        finally:
            # (some systems let nobody but root take that back: then loops are slower from here on)
            with contextlib.suppress(PermissionError):
                for thread in loops:
                    os.sched_setscheduler(thread, os.SCHED_OTHER, none)

    @contextlib.contextmanager
    def stopped(self):
        """While it is stopped, so that it finds all at once that is done meanwhile."""
        self.process.send_signal(signal.SIGSTOP)
        try:
            yield
        finally:
            self.process.send_signal(signal.SIGCONT)

    def close(self):
        if self.process.poll() is None:
            for child in self.traced():
                os.kill(child, signal.SIGKILL)
            self.process.kill()
        self.process.wait()
        self.process.stdout.close()
        if self.kept_errors is not None:
            self.kept_errors.close()
        shutil.rmtree(self.folder, ignore_errors=True)

    def __enter__(self):
        return self

    def __exit__(self, *_):
        self.close()


def totals_of(text):
    """The two numbers of `up U down D`, or None where the text is another."""
    words = text.split()
    if len(words) != 4 or words[0] != "up" or words[2] != "down":
        return None
    return int(words[1]), int(words[3])


def allow_descriptors(count=DESCRIPTORS):
    hard = resource.getrlimit(resource.RLIMIT_NOFILE)[1]
    most = count if hard == resource.RLIM_INFINITY else min(count, hard)
    resource.setrlimit(resource.RLIMIT_NOFILE, (most, hard))
