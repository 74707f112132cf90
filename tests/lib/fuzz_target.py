"""What afl-fuzz runs: the built program, or a driver of admin sessions or of clients with a relay behind it."""
import os
import re
import shutil
import struct
import subprocess
import tempfile
import threading

from lib.c_code import compiled
from lib.places import PROGRAM, TESTS
from lib.relay import Relay
from lib.sockets import REPLY_SECONDS, free_port
from lib.waiting import comes

# A line may name 67,108,864 holders, which takes 17 s.
HANG_MS = 60_000
STOPPED = 7
# The keys of a configuration: each verdict on a text that is none names one of them, or a line and a column.
KEYS = (
    "accepts_per_source admin allow at backlog backup balance connect_timeout connections connections_per_rule connections_per_source deny every "
    "fall file format from_client health idle keepalive listen log loops metrics mode name path proxy_protocol replace_stale resolve rise rule "
    "source target timeout to_target user_timeout weight"
).split()


def blocks_of(program, path):
    """Writes down where the program's blocks of code begin: its functions, where jumps go, and what comes after a jump.

    Of a program in Rattle they are those of functions that are named as in its source, not those of what it is linked with.
    """
    text = subprocess.run(["objdump", "-d", "-j", ".text", "--no-show-raw-insn", program], capture_output=True, text=True, check=True)
    starts, at, after_jump = set(), set(), False
    is_rattle, is_own = "::" in text.stdout, True
    for line in text.stdout.splitlines():
        if found := re.match(r"^[0-9a-f]+ <(.*)>:$", line):
            is_own = not is_rattle or "::" in found[1]
        if not is_own:
            continue
        if found := re.match(r"^\s+([0-9a-f]+):\t(\S+)\s*([0-9a-f]+ <)?", line):
            offset = int(found[1], 16)
            at.add(offset)
            if after_jump:
                starts.add(offset)
            after_jump = found[2].startswith("j")
            if found[2].startswith("j") and found[3]:
                starts.add(int(found[3][:-2], 16))
        elif found := re.match(r"^([0-9a-f]+) <", line):
            starts.add(int(found[1], 16))
            after_jump = False
    starts = sorted(starts & at)
    with open(path, "wb") as file:
        file.write(struct.pack(f"<{len(starts)}I", *starts))
    return len(starts)


# What is relayed while the text is an admin session, and while it is what a client says to a target of the driver's.
RULES = "relay tcp tcp:127.0.0.1:{port} tcp:127.0.0.1:9 never\nrelay unix unix:{{folder}}/in.sock tcp:127.0.0.1:9 60000\n"
AWAITS = (
    'admin = "{{folder}}/admin.sock"\nloops = 2\n[[rule]]\nname = "web"\nlisten = ["tcp:127.0.0.1:{port}"]\n'
    'target = [{{ at = "unix:{target}" }}]\nproxy_protocol = {{ from_client = ["127.0.0.0/8"] }}\n'
)


class Served:
    """A relay that is started anew whenever a session told it to stop."""

    def __init__(self, env, text, form):
        self.env, self.text, self.form, self.relay, self.wrong = env, text, form, None, []
        self.stops, self.is_over = 0, False
        # One for all relays in turn: nobody connects to it, so it is free again at once.
        self.port = free_port()
        self.folder = tempfile.mkdtemp(prefix="sessions-")
        self.link, self.target = f"{self.folder}/admin", f"{self.folder}/target"
        self.start()
        self.descriptors = self.relay.descriptors()
        self.keeper = threading.Thread(target=self.keep_up, daemon=True)
        self.keeper.start()

    def start(self):
        self.relay = Relay(self.text.format(port=self.port, target=self.target), env=self.env, form=self.form)
        fresh = f"{self.folder}/fresh"
        os.symlink(self.relay.admin, fresh)
        os.rename(fresh, self.link)

    def keep_up(self):
        """Restarts the relay after each stop, until it ends in another way."""
        while not self.is_over:
            self.relay.process.wait()
            if self.is_over:
                return
            if self.relay.process.returncode != 0:
                self.wrong.append(f"a relay ended with {self.relay.process.returncode}: {self.relay.errors()!r}")
                return
            self.stops += 1
            self.relay.close()
            try:
                self.start()
            except (OSError, RuntimeError) as fault:
                self.wrong.append(f"no relay after {self.stops} others: {fault}")
                return

    def left(self):
        """What is left of connections though all of them have ended."""
        if self.wrong or comes(lambda: self.relay.descriptors() <= self.descriptors):
            return []
        return [f"{self.relay.descriptors()} descriptors, at first {self.descriptors}"]

    def close(self):
        self.is_over = True
        self.relay.close()
        self.keeper.join(REPLY_SECONDS)
        shutil.rmtree(self.folder, ignore_errors=True)


class Target:
    """One kind of text: what is run on it, and with which environment."""

    def __init__(self, kind, folder, planted=""):
        self.kind, self.folder, self.served = kind, folder, None
        self.library = compiled(f"{TESTS}/fuzz/fuzz_run.c", f"{folder}/fuzz_run", f"{TESTS}/fuzz/fuzz_verdict.c", "-shared", "-fPIC")
        self.env, self.statuses = {"LC_ALL": "C"}, "01"
        if kind == "session":
            self.serve(planted, RULES, "rules")
            self.words, self.statuses = [self.driver(), self.served.link], f"0{STOPPED}"
        elif kind == "header":
            self.serve(planted, AWAITS, "config")
            self.words, self.statuses = [self.driver(), str(self.served.port), self.served.target], "0"
        else:
            self.words = [PROGRAM, "trace"] if kind == "trace" else [PROGRAM, "check", "--config" if kind == "config" else "--rules", "@@"]
            if planted:
                self.env["FUZZ_PLANTED"] = planted
            if kind == "config":
                self.env["FUZZ_VERDICTS"] = "".join(f"{it} " for it in KEYS)

    def serve(self, planted, text, form):
        with_fault = {"LD_PRELOAD": self.library, "FUZZ_PLANTED": planted} if planted else {"LC_ALL": "C"}
        self.served = Served(with_fault, text, form)

    def driver(self):
        return compiled(f"{TESTS}/fuzz/fuzz_{self.kind}.c", f"{self.folder}/fuzz_{self.kind}")

    def wrong(self):
        """How relays ended otherwise than by a session's stop, and what is left in one that has served."""
        if self.served is None:
            return []
        return self.served.wrong + (self.served.left() if self.kind == "header" else [])

    def close(self):
        if self.served is not None:
            self.served.close()

    def run(self, path):
        """The status of one run on the text of a file, or None where it takes too long; without afl-fuzz."""
        words = [path if word == "@@" else word for word in self.words]
        env = {**os.environ, **self.env, **({"LD_PRELOAD": self.library} if "FUZZ_VERDICTS" in self.env else {})}
        quiet = {"stdout": subprocess.DEVNULL, "stderr": subprocess.DEVNULL, "timeout": 10 * HANG_MS / 1000}
        with open(path, "rb") as stdin:
            try:
                return subprocess.run(words, stdin=stdin, env=env, check=False, **quiet).returncode
            except subprocess.TimeoutExpired:
                return None
