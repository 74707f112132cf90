#!/usr/bin/env python3
"""A log in JSON: each line is one object, which Python's reader takes, with the facts of the line of text.

    python3 tests/system/json_log.py [STAGE]..

same      clients that end in different ways, at a relay with a log of text and at one with a log in JSON: both say the same of each.
escaped   a target and a client at paths with each byte that a path may have come back as they are.
lost      lines that found no room have an object with their number; they and the lines are as many as the clients.
settings  `--log` has the format of the configuration; a reload that changes the format says so, and the lines stay as they are.
"""
import contextlib
import fcntl
import json
import os
import socket
import struct
import sys
from concurrent.futures import ThreadPoolExecutor

sys.path.insert(1, f"{sys.path[0]}/..")
from lib.log_text import read_json_log, read_log
from lib.relay import Relay
from lib.sockets import connect, listener, read_to_end, some_address
from lib.stages import run_script
from lib.waiting import comes

# Clients whose lines, of some 160 bytes, don't all find room: the pipe takes so many bytes, and the relay keeps 131,072 at most.
CLIENTS, PIPE_BYTES = 1_000, 4_096
# All bytes of a path.
VISIBLE = "".join(map(chr, range(33, 127)))
READERS = {"text": read_log, "json": read_json_log}
RESET = struct.pack("ii", 1, 0)


def rule(name, listen, target, more=""):
    return f'[[rule]]\nname = "{name}"\nlisten = [{json.dumps(listen)}]\ntarget = [{{ at = {json.dumps(target)} }}]\n{more}'


def config(form, *rules, file="{folder}/log"):
    log = f'log = {{ file = "{file}", format = "{form}" }}\n' if form else ""
    return f'admin = "{{folder}}/admin.sock"\nloops = 1\n{log}{"".join(rules)}'


class Logged:
    """A relay with a log in this format, and what its log says."""

    def __init__(self, checks, form, *rules, options=(), path="log"):
        self.checks, self.form = checks, form
        self.relay = Relay(config(form, *rules), form="config", env={}, options=options)
        self.path = os.path.join(self.relay.folder, path)
        self.told = []

    def lines(self, count):
        """The lines of its log, once there are so many."""
        def read():
            with open(self.path, encoding="ascii") as file:
                return READERS[self.form](file.read())

        comes(lambda: len(read()[0]) >= count)
        lines, lost, others = read()
        self.checks.expect(f"{self.form}: lost lines, and other lines", (0, []), (lost, others))
        return lines

    def tells(self, client=None):
        """Notes what one more line says, but for the moment, the milliseconds and the port of this client."""
        lines = self.lines(len(self.told) + 1)
        line = {name: it for name, it in lines[-1].items() if name not in ("moment", "ms")}
        if client:
            self.checks.expect(f"{self.form}: the client's address", client, line.pop("client"))
        self.told.append(line)

    def __enter__(self):
        return self

    def __exit__(self, *_):
        self.relay.close()


def own(client):
    """A client's own address, as a log tells it."""
    host, port = client.getsockname()
    return f"tcp:{host}:{port}"


def passes(it, address, target):
    """A client that sends five bytes, has three back, and ends as its target does."""
    with connect(address) as client:
        name = own(client)
        client.sendall(b"hello")
        client.shutdown(socket.SHUT_WR)
        with target.accept()[0] as peer:
            read_to_end(peer)
            peer.sendall(b"bye")
        read_to_end(client)
    it.tells(name)


def resets(it, address, target):
    """One that breaks off."""
    with connect(address) as client, target.accept()[0]:
        name = own(client)
        client.setsockopt(socket.SOL_SOCKET, socket.SO_LINGER, RESET)
        client.close()
        it.tells(name)


def is_closed(it, address, target):
    """One that a session closes."""
    before = it.relay.ids()
    with connect(address) as client, target.accept()[0]:
        said = [it.relay.ask(f"close {id}") for id in it.relay.new_ids(before)[:1]]
        it.checks.expect(f"{it.form}: a close", ["ok"], said)
        it.tells(own(client))


def is_refused(it, address):
    """One that isn't served."""
    with connect(address) as client:
        name = own(client)
        with contextlib.suppress(OSError):
            read_to_end(client)
    it.tells(name)


def is_one_too_many(it, address, target):
    """Two, where one may stand."""
    with connect(address), target.accept()[0]:
        is_refused(it, address)
    it.tells()
    it.told[-1].pop("client")


def happens(it, addresses, target):
    web, dead, shut, one = addresses
    passes(it, web, target)
    resets(it, web, target)
    is_closed(it, web, target)
    is_refused(it, dead)
    is_refused(it, shut)
    is_one_too_many(it, one, target)
    return it.told


HOWS = ["eof", "read reset", "closed", "no target unreachable", "denied", "rule full", "eof"]


def same(checks, folder):
    target, at = listener()
    told = {}
    for form in READERS:
        web, dead, shut, one = addresses = [some_address() for _ in range(4)]
        rules = (
            rule("web", web, at), rule("dead", dead, f'unix:{folder}/"no\\ne"'), rule("shut", shut, at, 'deny = ["127.0.0.0/8"]\n'),
            rule("one", one, at, "connections = 1\n"),
        )
        with Logged(checks, form, *rules) as it:
            told[form] = happens(it, addresses, target)
            checks.expect(f"{form}: its end", 0, it.relay.stop()[0])
    checks.expect("the ends", HOWS, [it["how"] for it in told["text"]])
    for how, text, said in zip(HOWS, told["text"], told["json"]):
        checks.expect(f"the facts of `{how}`", text, said)
    target.close()


def escaped(checks, folder):
    """The folder's own path is short, and a socket may have 107 bytes."""
    listen, target = f"unix:{folder}/in", f"unix:/{VISIBLE}"
    with Logged(checks, "json", rule("all", listen, target)) as it, socket.socket(socket.AF_UNIX) as client:
        name = f'{folder}/a"b\\c{{}}'
        client.bind(name)
        client.connect(f"{folder}/in")
        line = it.lines(1)[0]
        checks.expect("the target", target, line["target"])
        checks.expect("the client", f"unix:{name}", line["client"])
        checks.expect("how it ended", "no target unreachable", line["how"])


def lost(checks, folder):
    address, path = some_address(), f"{folder}/pipe"
    os.mkfifo(path)
    reader = os.open(path, os.O_RDONLY | os.O_NONBLOCK)
    with open(reader, encoding="ascii") as pipe:
        os.set_blocking(reader, True)
        fcntl.fcntl(reader, fcntl.F_SETPIPE_SZ, PIPE_BYTES)
        refusals = rule("shut", address, "tcp:127.0.0.1:9", 'deny = ["127.0.0.0/8"]\n')
        with ThreadPoolExecutor(1) as pool, Relay(config("json", refusals, file=path), form="config") as relay:
            for _ in range(CLIENTS):
                with connect(address) as client, contextlib.suppress(OSError):
                    read_to_end(client)
            reading = pool.submit(pipe.read)
            checks.expect("its end", 0, relay.stop()[0])
            lines, count, others = read_json_log(reading.result())
    checks.expect("other lines", [], others)
    checks.holds("some are lost", count > 0, "none")
    checks.expect("lines and lost ones", CLIENTS, len(lines) + count)


def settings(checks, folder):
    target, at = listener()
    address = some_address()
    web = rule("web", address, at)
    with Logged(checks, "json", web, options=("--log", f"{folder}/other"), path=f"{folder}/other") as it:
        passes(it, address, target)
        checks.expect("the file", False, os.path.exists(f"{it.relay.folder}/log"))
        said = "--log is in force, not log of the config\n"
        checks.expect("what it says at its start", said, it.relay.errors())
        it.relay.write(config("text", web))
        checks.expect("a reload", "rules 1", it.relay.ask("reload"))
        said += "reload: format has changed, and needs a restart\n"
        checks.expect("what needs a restart", said, it.relay.errors())
        it.relay.write(config(None, web))
        checks.expect("a reload without a log", "rules 1", it.relay.ask("reload"))
        said += "reload: format has changed, and needs a restart\n"
        checks.expect("what needs a restart then", said, it.relay.errors())
        passes(it, address, target)
        it.relay.write(config("json", web))
        checks.expect("a reload as at the start", "rules 1", it.relay.ask("reload"))
        checks.expect("nothing more needs one", said, it.relay.errors())
        checks.expect("its end", 0, it.relay.stop()[0])
    target.close()


STAGES = {it.__name__: it for it in (same, escaped, lost, settings)}


if __name__ == "__main__":
    sys.exit(run_script(__doc__, STAGES))
