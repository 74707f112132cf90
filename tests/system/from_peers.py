#!/usr/bin/env python3
"""Starts each configuration of docs/from-haproxy-nginx-socat.md, those of HAProxy, nginx and socat too, with ports and paths of this
run's own, and sends a line through it; where it has a log, a line has to come there.

    python3 tests/system/from_peers.py

It installs Debian's haproxy, nginx-light, libnginx-mod-stream and socat where they are missing.
"""
import os
import re
import shlex
import signal
import subprocess
import sys
import tempfile

sys.path.insert(1, f"{sys.path[0]}/..")
from lib.checks import Checks
from lib.echoes import comes_back, target
from lib.packages import install
from lib.places import PROGRAM, ROOT
from lib.sockets import free_port, is_served
from lib.waiting import wait_until

PAGE = f"{ROOT}/docs/from-haproxy-nginx-socat.md"
SECTION = re.compile(r"^## (\d.*?)$(.*?)(?=^## |\Z)", re.M | re.S)
BLOCK = re.compile(r"^```(haproxy|nginx|socat|rules|toml|options)\n(.*?)^```$", re.M | re.S)
# What pollrelay reads, by the kind of its block.
FILES = {"rules": "rules", "toml": "relay.toml"}
SERVE = "pollrelay serve --rules rules --admin admin.sock\n"
# Debian's nginx has the streams in a module of its own.
NGINX = "load_module /usr/lib/nginx/modules/ngx_stream_module.so;\ndaemon off;\npid {folder}/nginx.pid;\nerror_log {folder}/errors;\nevents {{ }}\n"
SECONDS = 20


class Place:
    """The ports and paths of one try, in place of those of the page."""

    def __init__(self, folder):
        self.folder, self.port = folder, free_port()
        self.tcp, self.unix = target()[1], target(f"{folder}/app.sock")[1]
        # (nginx's workers are another user's)
        os.chmod(f"{folder}/app.sock", 0o666)
        self.own = {
            "127.0.0.1:8080": f"127.0.0.1:{self.port}", "TCP4-LISTEN:8080": f"TCP4-LISTEN:{self.port}",
            "127.0.0.1:8081": self.tcp.removeprefix("tcp:"), **{f"127.0.0.1:{it}": target()[1].removeprefix("tcp:") for it in (8082, 8083)},
            "127.0.0.1:9464": f"127.0.0.1:{free_port()}", "/run/app.sock": self.unix.removeprefix("unix:"),
            "/run/relay/db.sock": f"{folder}/db.sock", "/var/log/relay.log": f"{folder}/log",
        }

    def text(self, text):
        for old, new in self.own.items():
            text = text.replace(old, new)
        return text

    def address(self, text):
        return f"unix:{self.folder}/db.sock" if "/run/relay/db.sock" in text else f"tcp:127.0.0.1:{self.port}"


def words_of(kind, place, text, options):
    """The words that start a configuration, which is written into the place's folder."""
    folder = place.folder
    if kind == "socat":
        return shlex.split(place.text(text))
    with open(f"{folder}/{FILES.get(kind, kind)}", "w", encoding="ascii") as file:
        file.write((NGINX.format(folder=folder) if kind == "nginx" else "") + place.text(text))
    if kind in FILES:
        return [PROGRAM, *shlex.split(place.text(options))[1:]]
    return ["haproxy", "-db", "-f", f"{folder}/haproxy"] if kind == "haproxy" else ["nginx", "-p", folder, "-c", f"{folder}/nginx"]


def tries(checks, name, kind, text, options):
    with tempfile.TemporaryDirectory(prefix="from-peers-") as folder:
        os.chmod(folder, 0o755)
        place = Place(folder)
        with open(f"{folder}/said", "wb") as said:
            process = subprocess.Popen(
                words_of(kind, place, text, options), cwd=folder, stdin=subprocess.DEVNULL, stdout=said, stderr=said, start_new_session=True
            )
        try:
            begun = wait_until(lambda: is_served(place.address(text)), SECONDS)
            checks.holds(f"{name}: {kind} begins", begun, said_in(folder))
            checks.holds(f"{name}: {kind} relays a line", begun and comes_back(place.address(text)), said_in(folder))
            if "log" in f"{text}{options if kind in FILES else ''}":
                logged = f"{folder}/said" if kind == "haproxy" else f"{folder}/log"
                checks.holds(f"{name}: {kind} has a line of it", wait_until(lambda: has_a_line(logged), SECONDS), said_in(folder))
        finally:
            os.killpg(process.pid, signal.SIGTERM)
            process.wait()


def has_a_line(path):
    return os.path.exists(path) and os.path.getsize(path) > 0


def said_in(folder):
    with open(f"{folder}/said", encoding="utf-8", errors="replace") as file:
        return file.read()[-1_000:]


def main():
    checks = Checks()
    install("haproxy:haproxy", "nginx:nginx-light", "/usr/lib/nginx/modules/ngx_stream_module.so:libnginx-mod-stream", "socat:socat")
    with open(PAGE, encoding="utf-8") as file:
        page = file.read()
    for name, text in SECTION.findall(page):
        blocks = dict(BLOCK.findall(text))
        options = blocks.pop("options", SERVE)
        for kind, config in blocks.items():
            tries(checks, name, kind, config, options)
    count = len(checks.passed) + len(checks.failed)
    checks.holds("seven tasks, one in three forms and the others in four, of which one has a log", count == 2 * (3 + 6 * 4) + 4, count)
    return checks.end()


if __name__ == "__main__":
    sys.exit(main())
