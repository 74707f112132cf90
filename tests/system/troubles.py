#!/usr/bin/env python3
"""Brings about each row of the table Troubleshooting in docs/operations.md on a relay of its own, and shows that what the row tells to
look at is there, and that what it tells to do helps where that is a command of the relay's.

    python3 tests/system/troubles.py

A row is found by the words of its first cell. Each row has a try here, and each try its row.
"""
import contextlib
import os
import re
import signal
import socket
import subprocess
import sys
import tempfile
import time
import urllib.error
import urllib.request

sys.path.insert(1, f"{sys.path[0]}/..")
from lib.black_hole import BlackHole
from lib.checks import Checks
from lib.echoes import comes_back, target
from lib.own_etc import OwnEtc
from lib.pages.markdown import bare, rows, section
from lib.pages.tree import GUIDE, Tree
from lib.places import PROGRAM
from lib.relay import Relay, StartFault
from lib.sockets import connect, free_port, listener
from lib.waiting import wait_until

SECONDS = 20
MANY = 1_500
TRIES = {}


def trial(row):
    """The try of the row whose first cell has these words."""
    return lambda tried: TRIES.setdefault(row, tried)


class Made:
    """A relay with one rule, web, and what it says; its rules, its log and its metrics."""

    def __init__(self, stack, to=None, idle="never", *options, **more):
        self.stack, self.port, metrics = stack, free_port(), free_port()
        self.to = to or target()[1]
        self.web, self.metrics = f"tcp:127.0.0.1:{self.port}", f"http://127.0.0.1:{metrics}"
        self.folder = stack.enter_context(tempfile.TemporaryDirectory(prefix="troubles-"))
        self.log = more.pop("log", f"{self.folder}/log")
        words = ("--metrics", f"tcp:127.0.0.1:{metrics}", "--log", self.log, *options)
        self.relay = stack.enter_context(Relay(f"relay web {self.web} {self.to} {idle}\n", options=words, env={}, **more))
        self.rules = f"{self.relay.folder}/rules"

    def client(self):
        """A connection through the relay."""
        sock = self.stack.enter_context(connect(self.web))
        sock.sendall(b"x")
        return sock if sock.recv(1) == b"x" else None

    def logged(self):
        with contextlib.suppress(OSError), open(self.log, encoding="ascii") as file:
            return file.read().splitlines()
        return []

    def ends(self, words):
        """Whether the log comes to have a line that ends so."""
        return wait_until(lambda: any(it.endswith(f" {words}") for it in self.logged()), SECONDS)

    def page(self, path, sent=None):
        try:
            with urllib.request.urlopen(self.metrics + path, sent, timeout=SECONDS) as answer:
                return answer.status, answer.read().decode()
        except urllib.error.HTTPError as refusal:
            return refusal.code, refusal.read().decode()

    def figure(self, name):
        return sum(float(it) for it in re.findall(rf"^{name}(?:{{.*}})? (\S+)$", self.page("/metrics")[1], re.M))


class Configured(Made):
    """The same by a configuration, whose rule has these further lines."""

    def __init__(self, stack, lines, to=None, before=()):
        self.stack, self.port = stack, free_port()
        self.to, self.web = to or target()[1], f"tcp:127.0.0.1:{self.port}"
        self.relay = stack.enter_context(Relay(self.text(lines), form="config", env={}, before=before))
        self.log = f"{self.relay.folder}/log"

    def text(self, lines, head=""):
        head += 'log = { file = "{folder}/log" }\nadmin = { path = "{folder}/admin.sock" }\n'
        return f'{head}[[rule]]\nname = "web"\nlisten = ["{self.web}"]\ntarget = [{{ at = "{self.to}" }}]\n{lines}'


def ctl(path, *words):
    ran = subprocess.run([PROGRAM, "ctl", "--admin", path, *words], capture_output=True, text=True, timeout=SECONDS, check=False)
    return ran.returncode, (ran.stdout + ran.stderr).strip()


def start_fault(rules, folder, *options, admin=None):
    """What `serve` says that ends at its start."""
    with open(f"{folder}/rules", "w", encoding="ascii") as file:
        file.write(rules)
    words = [PROGRAM, "serve", "--rules", f"{folder}/rules", "--admin", admin or f"{folder}/admin.sock", *options]
    ran = subprocess.run(words, capture_output=True, text=True, timeout=SECONDS, check=False)
    return ran.returncode, ran.stderr.strip()


def verdict(path, form="rules"):
    return subprocess.run([PROGRAM, "check", f"--{form}", path], capture_output=True, text=True, check=False).stdout.strip()


def is_closed(sock):
    try:
        return sock.recv(1) == b""
    except OSError:
        return True


def refuses(address):
    try:
        connect(address).close()
        return False
    except OSError:
        return True


def heed_ctrl_c():
    """(A shell that runs the tests behind itself has its programs ignore Ctrl-C.)"""
    signal.signal(signal.SIGINT, signal.SIG_DFL)


@trial("bad command line")
def _(stack, checks):
    for word in ("--help", "-h", "--version"):
        ran = subprocess.run([PROGRAM, word], capture_output=True, text=True, timeout=SECONDS, check=False)
        checks.expect(word, (2, "bad command line"), (ran.returncode, ran.stderr.strip()))
    told = subprocess.run([PROGRAM, "help"], capture_output=True, text=True, timeout=SECONDS, check=False)
    checks.holds("help", told.returncode == 0 and "pollrelay serve --rules FILE --admin PATH" in told.stdout, told)


@trial("pollrelay alone prints nothing and doesn't end")
def _(stack, checks):
    pipes = {"stdin": subprocess.PIPE, "stdout": subprocess.PIPE, "text": True}
    alone = stack.enter_context(subprocess.Popen([PROGRAM], **pipes, preexec_fn=heed_ctrl_c))
    alone.stdin.write("1 incref\n")
    alone.stdin.flush()
    checks.expect("it takes a line of a script", "held 0000000000000008 0 0 -\n", alone.stdout.readline())
    checks.expect("it goes on", None, alone.poll())
    alone.send_signal(signal.SIGINT)
    checks.expect("Ctrl-C ends it", -signal.SIGINT, alone.wait(SECONDS))


@trial("cannot listen web at the start, of a port")
def _(stack, checks):
    taken, address = listener()
    with taken, tempfile.TemporaryDirectory() as folder:
        checks.expect("a taken port", (3, "cannot listen web"), start_fault(f"relay web {address} unix:/a never\n", folder))
        port = f":{taken.getsockname()[1]}"
        shown = subprocess.run(["ss", "-Hltnp"], capture_output=True, text=True, check=False).stdout
        checks.holds("ss names who has it", any(port in it and f"pid={os.getpid()}" in it for it in shown.splitlines()), shown)


@trial("cannot listen web at the start, of a Unix path, after a relay was killed")
def _(stack, checks):
    folder = stack.enter_context(tempfile.TemporaryDirectory())
    rule = f"relay web unix:{folder}/web.sock unix:/a never\n"
    killed = Relay(rule)
    killed.process.kill()
    killed.close()
    checks.holds("the path is there", os.path.exists(f"{folder}/web.sock") and refuses(f"unix:{folder}/web.sock"), "")
    checks.expect("the next start", (3, "cannot listen web"), start_fault(rule, folder))
    with Relay(rule, options=("--replace-stale",)) as relay:
        checks.expect("with --replace-stale", [1], relay.ids())


@trial("cannot listen admin")
def _(stack, checks):
    folder = stack.enter_context(tempfile.TemporaryDirectory())
    checks.expect("no folder", (3, "cannot listen admin"), start_fault("", folder, admin=f"{folder}/none/admin.sock"))


@trial("bad rules: line 2")
def _(stack, checks):
    folder = stack.enter_context(tempfile.TemporaryDirectory())
    for name, line in (("two spaces", "relay  a unix:/a unix:/b never\n"), ("a tab", "relay\ta unix:/a unix:/b never\n"),
                       ("a carriage return", "relay a unix:/a unix:/b never\r\n"), ("a leading zero", "relay a unix:/a unix:/b 01\n")):
        checks.expect(name, (1, "bad rules: line 2"), start_fault(f"# one\n{line}", folder))
        checks.expect(f"{name}: check says the same", "bad rules: line 2", verdict(f"{folder}/rules"))


@trial("bad config: ..")
def _(stack, checks):
    folder = stack.enter_context(tempfile.TemporaryDirectory())
    faults = (
        ("no time", "idle", "unix:/b", "30x", "is no time"), ("what isn't served", "target 1: at", f"unix:/{100 * 'b'}", "30s", "this version doesn't serve it"),
    )
    for name, key, at, idle, why in faults:
        with open(f"{folder}/config", "w", encoding="ascii") as file:
            file.write(f'[[rule]]\nname = "web"\nlisten = ["unix:/a"]\ntarget = [{{ at = "{at}" }}]\nidle = "{idle}"\n')
        told = verdict(f"{folder}/config", "config")
        checks.holds(f"{name}: rule, key and what is wanted", told.startswith(f'bad config: rule "web": {key}: ') and why in told, told)
        words = [PROGRAM, "serve", "--config", f"{folder}/config", "--admin", f"{folder}/admin.sock"]
        ran = subprocess.run(words, capture_output=True, text=True, timeout=SECONDS, check=False)
        checks.expect(f"{name}: a start says the same", told, ran.stderr.strip())


@trial("cannot read rules, cannot read config")
def _(stack, checks):
    for form in ("rules", "config"):
        words = [PROGRAM, "serve", f"--{form}", f"/none/{form}", "--admin", "/none/admin"]
        ran = subprocess.run(words, capture_output=True, text=True, timeout=SECONDS, check=False)
        checks.expect(f"no file of {form}", (3, f"cannot read {form}"), (ran.returncode, ran.stderr.strip()))


@trial("a changed key of the configuration has no effect after a reload")
def _(stack, checks):
    made = Configured(stack, "")
    made.relay.write(made.text("", "loops = 3\n"))
    checks.expect("a reload", (0, "rules 1"), ctl(made.relay.admin, "reload"))
    told = "reload: loops has changed, and needs a restart\n"
    checks.holds("the line", wait_until(lambda: made.relay.errors() == told, SECONDS), made.relay.errors())


@trial("cannot open log")
def _(stack, checks):
    folder = stack.enter_context(tempfile.TemporaryDirectory())
    checks.expect("no folder", (3, "cannot open log"), start_fault("", folder, "--log", f"{folder}/none/log"))


@trial("few descriptors: 256, and 1280 may be needed")
def _(stack, checks):
    relay = stack.enter_context(Relay("", descriptors=256, options=("--loops", "8"), env={}))
    checks.holds("the line", wait_until(lambda: "few descriptors: 256, and 1280 may be needed" in relay.errors(), SECONDS), relay.errors())
    enough = stack.enter_context(Relay("", descriptors=1_280, options=("--loops", "8"), env={}))
    checks.expect("with as many as that", "", enough.errors())


@trial("unused socket tcp:127.0.0.1:8080")
def _(stack, checks):
    given = stack.enter_context(socket.create_server(("127.0.0.1", 0)))
    relay = stack.enter_context(Relay("", env={}, sockets=[given]))
    line = f"unused socket tcp:127.0.0.1:{given.getsockname()[1]}"
    checks.holds("the line", wait_until(lambda: line in relay.errors(), SECONDS), relay.errors())


@trial("clients are refused at once")
def _(stack, checks):
    made = Made(stack)
    checks.expect("a listener is closed", (0, "ok"), ctl(made.relay.admin, "close", "1"))
    checks.holds("clients are refused", refuses(made.web), "")
    checks.expect("no listener is shown", (0, "end"), ctl(made.relay.admin, "show"))
    checks.expect("a reload", (0, "rules 1"), ctl(made.relay.admin, "reload"))
    checks.holds("clients are served", comes_back(made.web), "")


@trial("clients connect, and nothing comes; the log has no line of them, or accept other")
def _(stack, checks):
    made = Made(stack)
    checks.expect("a deadline on a listener", (0, "ok"), ctl(made.relay.admin, "deadline", "1", "0"))
    client = stack.enter_context(connect(made.web))
    client.sendall(b"x")
    client.settimeout(0.5)
    with contextlib.suppress(TimeoutError):
        checks.holds("nothing comes", False, client.recv(1))
    checks.holds("its log", all(it.endswith(" accept other") for it in made.logged()), made.logged())
    checks.holds("the listener is shown", " side listener " in ctl(made.relay.admin, "show")[1], "")
    checks.expect("its health", (503, "not listening\n"), made.page("/healthz"))
    checks.expect("the deadline is lifted", (0, "ok"), ctl(made.relay.admin, "deadline", "1", "never"))
    client.settimeout(SECONDS)
    checks.expect("the client is served", b"x", client.recv(1))


@trial("clients connect and are closed at once: no target refused in the log")
def _(stack, checks):
    made = Made(stack, f"tcp:127.0.0.1:{free_port()}")
    checks.holds("it is closed", is_closed(stack.enter_context(connect(made.web))), "")
    checks.holds("the log", made.ends("no target refused"), made.logged())


@trial("the same with no target unreachable")
def _(stack, checks):
    made = Made(stack, "unix:/nowhere/at.all")
    checks.holds("it is closed", is_closed(stack.enter_context(connect(made.web))), "")
    checks.holds("the log", made.ends("no target unreachable"), made.logged())


@trial("the same, and the target in the log is tcp:0.0.0.0:PORT")
def _(stack, checks):
    etc = stack.enter_context(contextlib.closing(OwnEtc()))
    port = target()[1].rpartition(":")[2]
    made = Configured(stack, 'resolve = "500ms"\n', f"tcp:app.internal:{port}", etc.words)
    told = "names: app.internal can't be looked up; its last addresses stay\n"
    checks.holds("the line", wait_until(lambda: made.relay.errors() == told, SECONDS), made.relay.errors())
    asked = subprocess.run([*etc.words, "getent", "ahosts", "app.internal"], capture_output=True, text=True, check=False)
    checks.expect("the resolver", (2, ""), (asked.returncode, asked.stdout))
    checks.holds("it is closed", is_closed(stack.enter_context(connect(made.web))), "")
    checks.holds("the log", made.ends("no target unreachable"), made.logged())
    checks.holds("its target", any(f" tcp:0.0.0.0:{port} " in it for it in made.logged()), made.logged())
    etc.know({"app.internal": ["127.0.0.1"]})

    def is_served():
        with contextlib.suppress(ConnectionError):
            return made.client()

    checks.holds("it is looked up by itself", wait_until(is_served, SECONDS), made.logged())


@trial("the host of a target has a new address, and clients come to the old one")
def _(stack, checks):
    etc = stack.enter_context(contextlib.closing(OwnEtc()))
    etc.know({"app.internal": ["127.0.0.1"]})
    port = target()[1].rpartition(":")[2]
    made = Configured(stack, 'resolve = "24h"\n', f"tcp:app.internal:{port}", etc.words)

    def is_at(address):
        return f" at tcp:{address}:{port} " in ctl(made.relay.admin, "targets")[1]

    checks.holds("before", wait_until(lambda: is_at("127.0.0.1"), SECONDS), ctl(made.relay.admin, "targets"))
    etc.know({"app.internal": ["127.0.0.2"]})
    checks.holds("a client", made.client(), "no bytes")
    checks.holds("targets have the old one", is_at("127.0.0.1"), ctl(made.relay.admin, "targets"))
    checks.expect("a reload", (0, "rules 1"), ctl(made.relay.admin, "reload"))
    checks.holds("targets have the new one", wait_until(lambda: is_at("127.0.0.2"), SECONDS), ctl(made.relay.admin, "targets"))
    etc.know({})
    ctl(made.relay.admin, "reload")
    told = "names: app.internal can't be looked up; its last addresses stay\n"
    checks.holds("the line of a look-up that fails", wait_until(lambda: made.relay.errors() == told, SECONDS), made.relay.errors())


@trial("the same after some seconds, with no target timeout")
def _(stack, checks):
    hole = stack.enter_context(BlackHole())
    made = Made(stack, hole.address, "never", "--connect-timeout", "300")
    checks.holds("it is closed", is_closed(stack.enter_context(connect(made.web))), "")
    checks.holds("the log", made.ends("no target timeout"), made.logged())


@trial("the same with no target down")
def _(stack, checks):
    made = Configured(stack, 'health = { every = "100ms", timeout = "100ms", fall = 1, rise = 1 }\n', f"tcp:127.0.0.1:{free_port()}")
    checks.holds("a line of its target", wait_until(lambda: any(" target down" in it for it in made.logged()), SECONDS), made.logged())
    checks.holds("it is closed", is_closed(stack.enter_context(connect(made.web))), "")
    checks.holds("the log", made.ends("no target down"), made.logged())


@trial("the same with denied")
def _(stack, checks):
    made = Configured(stack, 'deny = ["127.0.0.0/8"]\n')
    checks.holds("it is closed", is_closed(stack.enter_context(connect(made.web))), "")
    checks.holds("the log", made.ends("denied") and "127.0.0.1" in made.logged()[0], made.logged())
    made.relay.write(made.text(""))
    checks.expect("a reload of mended lists", (0, "rules 1"), ctl(made.relay.admin, "reload"))
    checks.holds("clients are served", comes_back(made.web), "")


@trial("the same with bad header")
def _(stack, checks):
    made = Configured(stack, 'proxy_protocol = { from_client = ["127.0.0.0/8"] }\n')
    client = stack.enter_context(connect(made.web))
    client.sendall(b"GET / HTTP/1.1\r\n")
    checks.holds("it is closed", is_closed(client), "")
    checks.holds("the log", made.ends("bad header") and "127.0.0.1" in made.logged()[0], made.logged())
    made.relay.write(made.text(""))
    checks.expect("a reload without the list", (0, "rules 1"), ctl(made.relay.admin, "reload"))
    checks.holds("clients are served", comes_back(made.web), "")


@trial("the same after 5 seconds, with no header")
def _(stack, checks):
    made = Configured(stack, 'proxy_protocol = { from_client = ["127.0.0.0/8"] }\n')
    checks.holds("it is closed", is_closed(stack.enter_context(connect(made.web))), "")
    checks.holds("the log", made.ends("no header") and "127.0.0.1" in made.logged()[0], made.logged())
    with connect(made.web) as client:
        client.sendall(b"PROXY UNKNOWN\r\nhello")
        client.settimeout(SECONDS)
        checks.expect("one that sends a header is served", b"hello", client.recv(5))


@trial("the same with full")
def _(stack, checks):
    made = Made(stack, None, "never", "--connections", "1")
    made.client()
    checks.holds("it is closed", is_closed(stack.enter_context(connect(made.web))), "")
    checks.holds("the log", made.ends("full"), made.logged())
    checks.expect("the figures", made.figure("pollrelay_connections_limit"), made.figure("pollrelay_rule_connections"))


@trial("the same with rule full")
def _(stack, checks):
    made = Made(stack, None, "never", "--connections-per-rule", "1")
    made.client()
    checks.holds("it is closed", is_closed(stack.enter_context(connect(made.web))), "")
    checks.holds("the log", made.ends("rule full"), made.logged())


@trial("the same with source full")
def _(stack, checks):
    made = Configured(stack, "connections_per_source = 1\n")
    first = stack.enter_context(connect(made.web))
    first.sendall(b"hello")
    first.settimeout(SECONDS)
    checks.expect("the first is served", b"hello", first.recv(5))
    checks.holds("it is closed", is_closed(stack.enter_context(connect(made.web))), "")
    checks.holds("the log", made.ends("source full") and "127.0.0.1" in made.logged()[0], made.logged())


@trial("the same with source rate")
def _(stack, checks):
    made = Configured(stack, 'accepts_per_source = "1/h"\n')
    stack.enter_context(connect(made.web))
    checks.holds("it is closed", is_closed(stack.enter_context(connect(made.web))), "")
    checks.holds("the log", made.ends("source rate") and "127.0.0.1" in made.logged()[0], made.logged())


@trial("connections end with idle while bytes pass one way")
def _(stack, checks):
    accepts, to = listener()
    stack.enter_context(accepts)
    made = Made(stack, to, "700")
    client = stack.enter_context(connect(made.web))
    far = stack.enter_context(accepts.accept()[0])
    began, seen = time.monotonic(), ""
    with contextlib.suppress(OSError):
        while time.monotonic() - began < SECONDS and not made.logged():
            client.sendall(b"x")
            far.recv(1)
            # (without a process of its own, which a busy machine may start after the idle time)
            reply = made.relay.ask("show 2")
            seen = reply if reply.startswith("show") else seen
            time.sleep(0.02)
    checks.holds("the log", made.ends("idle"), made.logged())
    checks.holds("bytes passed up alone", re.search(r" up [1-9]\d* down 0 ", seen), seen)


@trial("connections end with read reset")
def _(stack, checks):
    made = Made(stack)
    client = made.client()
    client.setsockopt(socket.SOL_SOCKET, socket.SO_LINGER, b"\x01\0\0\0\0\0\0\0")
    client.close()
    checks.holds("the log", made.ends("read reset"), made.logged())


@trial("reload says bad rules: .., or systemctl reload fails")
def _(stack, checks):
    made = Made(stack)
    with open(made.rules, "a", encoding="ascii") as file:
        file.write("relay\n")
    checks.expect("a reload", (1, "bad rules: line 2"), ctl(made.relay.admin, "reload"))
    checks.expect("check", "bad rules: line 2", verdict(made.rules))
    checks.holds("nothing has changed", comes_back(made.web), "")


@trial("reload said rules N, and a connection still goes to the old target")
def _(stack, checks):
    made = Made(stack)
    client = made.client()
    with open(made.rules, "w", encoding="ascii") as file:
        file.write(f"relay web {made.web} tcp:127.0.0.1:{free_port()} never\n")
    checks.expect("a reload", (0, "rules 1"), ctl(made.relay.admin, "reload"))
    client.sendall(b"x")
    checks.expect("the old target answers", b"x", client.recv(1))
    checks.holds("its age", re.search(r" age \d+ ", ctl(made.relay.admin, "show", "2")[1]), "")
    checks.expect("close", (0, "ok"), ctl(made.relay.admin, "close", "2"))
    checks.holds("it has ended", is_closed(client), "")


@trial("cannot reach admin")
def _(stack, checks):
    checks.expect("no relay", (3, "cannot reach admin"), ctl("/none/admin.sock", "list"))


@trial("error 404 no such connection")
def _(stack, checks):
    made = Made(stack)
    checks.expect("an id that is gone", (1, "error 404 no such connection"), ctl(made.relay.admin, "close", "9"))
    checks.expect("the ids that are there", (0, "ids 1"), ctl(made.relay.admin, "list"))


@trial("finish said ok, and the relay goes on")
def _(stack, checks):
    made = Made(stack)
    client = made.client()
    checks.expect("finish", (0, "ok"), ctl(made.relay.admin, "finish", "86400000"))
    checks.expect("what stands", (0, "ids 2 3"), ctl(made.relay.admin, "list"))
    checks.expect("close", (0, "ok"), ctl(made.relay.admin, "close", "2"))
    checks.holds("the relay ends", made.relay.ends_within(SECONDS) and is_closed(client), "")


@trial("error 409 closed to reload")
def _(stack, checks):
    made = Made(stack)
    made.client()
    ctl(made.relay.admin, "finish", "86400000")
    checks.expect("a reload", (1, "error 409 closed"), ctl(made.relay.admin, "reload"))


@trial("error 409 draining to deadline")
def _(stack, checks):
    made = Made(stack)
    client = made.client()
    checks.expect("drain", (0, "ok"), ctl(made.relay.admin, "drain", "3"))
    checks.expect("a deadline", (1, "error 409 draining"), ctl(made.relay.admin, "deadline", "3", "9"))
    checks.expect("close", (0, "ok"), ctl(made.relay.admin, "close", "3"))
    checks.holds("it has ended", is_closed(client), "")


@trial("the log has lines that begin with lost")
def _(stack, checks):
    folder = stack.enter_context(tempfile.TemporaryDirectory())
    os.mkfifo(f"{folder}/log")
    reader = os.open(f"{folder}/log", os.O_RDWR | os.O_NONBLOCK)
    stack.callback(os.close, reader)
    made = Made(stack, f"tcp:127.0.0.1:{free_port()}", log=f"{folder}/log")
    for _ in range(3 * MANY):
        until_closed(connect(made.web))
    checks.holds("the figure", made.figure("pollrelay_log_lost_lines_total") > 0, "0")
    text = b""
    for _ in range(1_000):
        with contextlib.suppress(BlockingIOError):
            text += os.read(reader, 1 << 20)
        if re.search(rb"^lost [1-9]\d*\b", text, re.M):
            break
        until_closed(connect(made.web))
        time.sleep(0.01)
    checks.holds("the line", re.search(rb"^lost [1-9]\d*\b", text, re.M), text[-200:])


def until_closed(sock):
    with sock:
        is_closed(sock)


@trial("ADDRESS answers with status 404 or 405")
def _(stack, checks):
    made = Made(stack)
    checks.expect("another path", 404, made.page("/")[0])
    checks.expect("another method", 405, made.page("/metrics", b"x")[0])


def main():
    checks = Checks()
    table = {bare(cells[0]) for _, cells in list(rows(section(Tree().text(GUIDE), "Troubleshooting")))[1:]}
    checks.expect("each row has its try, and each try its row", set(), table ^ set(TRIES))
    for row, tried in TRIES.items():
        try:
            with contextlib.ExitStack() as stack:
                tried(stack, Named(checks, row))
        except (OSError, StartFault, subprocess.TimeoutExpired) as fault:
            checks.holds(row, False, repr(fault))
    return checks.end()


class Named:
    """Checks of one row, told with its words."""

    def __init__(self, checks, row):
        self.checks, self.row = checks, row

    def expect(self, name, wanted, got):
        self.checks.expect(f"{self.row}: {name}", wanted, got)

    def holds(self, name, is_so, otherwise):
        self.checks.holds(f"{self.row}: {name}", is_so, otherwise)


if __name__ == "__main__":
    sys.exit(main())
