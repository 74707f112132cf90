#!/usr/bin/env python3
"""The samples for Prometheus over a running relay: Debian's prometheus scrapes one that is in each trouble that an alert is for, and
each expression of examples/prometheus/alerts.yml and of examples/grafana/pollrelay.json gives data. An alert's expression gives none
before its trouble comes. promtool finds no fault in the rules.

    python3 tests/system/monitoring.py

It installs Debian's prometheus, in which promtool is, and python3-yaml where they are missing, and takes about half a minute.
"""
import contextlib
import json
import os
import re
import resource
import socket
import struct
import subprocess
import sys
import tempfile
import threading
import time
import urllib.parse
import urllib.request

SYSTEMS_OWN = "/usr/bin/python3"
sys.path.insert(1, f"{sys.path[0]}/..")
from lib.checks import Checks
from lib.echoes import target
from lib.packages import install
from lib.places import ROOT
from lib.relay import Relay
from lib.sockets import connect, free_port
from lib.waiting import wait_until

install("prometheus:prometheus", "/usr/lib/python3/dist-packages/yaml:python3-yaml")
if os.path.realpath(sys.executable) != os.path.realpath(SYSTEMS_OWN):
    # (another python than Debian's hasn't Debian's packages)
    os.execv(SYSTEMS_OWN, [SYSTEMS_OWN, *sys.argv])

import yaml

ALERTS, BOARD = f"{ROOT}/examples/prometheus/alerts.yml", f"{ROOT}/examples/grafana/pollrelay.json"
SECONDS = 60
# As many as the relay takes here, and so many that neither its queue nor a pipe has room for a line of each.
CONNECTIONS, MANY = 10, 3_000
# Alerts that come without a trouble: of a relay that has just begun.
AT_ONCE = {"PollrelayRestarted", "PollrelayDown"}
CONFIG = """
global:
  scrape_interval: 500ms
  scrape_timeout: 400ms
rule_files: ["{alerts}"]
scrape_configs:
  - job_name: pollrelay
    static_configs:
      - targets: ["127.0.0.1:{metrics}", "127.0.0.1:{nobody}"]
"""


class Prometheus:
    def __init__(self, folder, metrics):
        self.port = free_port()
        with open(f"{folder}/prometheus.yml", "w", encoding="ascii") as file:
            file.write(CONFIG.format(alerts=ALERTS, metrics=metrics, nobody=free_port()))
        words = [f"--config.file={folder}/prometheus.yml", f"--storage.tsdb.path={folder}/data", f"--web.listen-address=127.0.0.1:{self.port}"]
        self.said = open(f"{folder}/said", "wb")
        self.process = subprocess.Popen(["prometheus", *words], stdout=self.said, stderr=self.said)

    def query(self, expression):
        """The series that an expression gives now; none where Prometheus doesn't answer yet."""
        words = urllib.parse.urlencode({"query": expression})
        try:
            with urllib.request.urlopen(f"http://127.0.0.1:{self.port}/api/v1/query?{words}", timeout=SECONDS) as answer:
                return json.load(answer)["data"]["result"]
        except OSError:
            return []

    def close(self):
        self.process.terminate()
        self.process.wait()
        self.said.close()


def alerts():
    with open(ALERTS, encoding="utf-8") as file:
        return {it["alert"]: it["expr"] for group in yaml.safe_load(file)["groups"] for it in group["rules"]}


def panels():
    """The expressions of each panel, with something in place of the board's variables."""
    with open(BOARD, encoding="utf-8") as file:
        board = json.load(file)
    own = {"$instance": ".*", "$rule": ".*", "$__rate_interval": "10s"}
    found = [(it["title"], target["expr"]) for it in board["panels"] for target in it["targets"]]
    return [(title, re.sub(r"\$\w+", lambda it: own[it[0]], expression)) for title, expression in found]


def reset(address):
    """A connection that its client ends by a reset."""
    with connect(address) as sock:
        sock.sendall(b"x")
        sock.recv(1)
        sock.setsockopt(socket.SOL_SOCKET, socket.SO_LINGER, struct.pack("ii", 1, 0))


def troubles(relay, web, dead, until):
    """Keeps the relay in its troubles: clients that reset, a target that isn't there, more clients than it takes."""
    while not until.is_set():
        with contextlib.suppress(OSError):
            reset(web)
        with contextlib.suppress(OSError), connect(dead) as sock:
            sock.recv(1)
        time.sleep(0.05)


def without_descriptors(relay, address):
    """Has the relay's next accept fail."""
    whole = resource.prlimit(relay.process.pid, resource.RLIMIT_NOFILE)
    resource.prlimit(relay.process.pid, resource.RLIMIT_NOFILE, (3, whole[1]))
    with connect(address):
        time.sleep(1)
        resource.prlimit(relay.process.pid, resource.RLIMIT_NOFILE, whole)
        time.sleep(1)


def full_of(address, stack):
    """As many connections as stand, and some clients more than the relay takes."""
    for _ in range(CONNECTIONS):
        stack.enter_context(connect(address))
    for _ in range(MANY):
        with contextlib.suppress(OSError), connect(address) as sock:
            sock.recv(1)


def main():
    checks = Checks()
    told = subprocess.run(["promtool", "check", "rules", ALERTS], capture_output=True, text=True, check=False)
    checks.holds("promtool finds no fault", told.returncode == 0, told.stdout + told.stderr)
    metrics, ports, (_, to) = free_port(), [free_port() for _ in range(3)], target()
    web, dead, gone = (f"tcp:127.0.0.1:{it}" for it in ports)
    rules = f"relay web {web} {to} never\nrelay dead {dead} tcp:127.0.0.1:{free_port()} never\nrelay gone {gone} {to} never\n"
    with contextlib.ExitStack() as stack:
        folder = stack.enter_context(tempfile.TemporaryDirectory(prefix="monitoring-"))
        os.mkfifo(f"{folder}/log")
        # (a log that nobody reads, though it is open)
        reader = os.open(f"{folder}/log", os.O_RDWR)
        stack.callback(os.close, reader)
        options = ("--metrics", f"tcp:127.0.0.1:{metrics}", "--connections", str(CONNECTIONS), "--log", f"{folder}/log")
        relay = stack.enter_context(Relay(rules, options=options))
        prometheus = Prometheus(folder, metrics)
        stack.callback(prometheus.close)
        known = alerts()
        first = wait_until(lambda: len(prometheus.query("pollrelay_up_seconds[5s]")) == 1, SECONDS)
        checks.holds("Prometheus scrapes the relay", first, "")
        time.sleep(2)
        for name, expression in known.items():
            if name not in AT_ONCE:
                checks.expect(f"{name} is silent where nothing is wrong", [], prometheus.query(expression))
        until = threading.Event()
        thread = threading.Thread(target=troubles, args=(relay, web, dead, until))
        thread.start()
        stack.callback(thread.join)
        stack.callback(until.set)
        fires(checks, prometheus, known, "PollrelayTargetUnreached", "PollrelayConnectionsFail")
        without_descriptors(relay, gone)
        fires(checks, prometheus, known, "PollrelayAcceptsFail")
        checks.expect("a listener is closed", "ok", relay.ask("close 3"))
        full_of(web, stack)
        fires(checks, prometheus, known, *(it for it in known if it not in ("PollrelayTargetUnreached", "PollrelayConnectionsFail", "PollrelayAcceptsFail")))
        for title, expression in panels():
            checks.holds(f"the panel {title}: {expression}", wait_until(lambda: prometheus.query(expression), SECONDS), "gives no data")
        checks.expect("each figure of an alert or a panel is used by the server", set(), unknown_figures(metrics))
    return checks.end()


def fires(checks, prometheus, known, *names):
    for name in names:
        checks.holds(f"{name} fires", wait_until(lambda: prometheus.query(known[name]), SECONDS), known[name])


def unknown_figures(metrics):
    with urllib.request.urlopen(f"http://127.0.0.1:{metrics}/metrics", timeout=SECONDS) as answer:
        served = set(re.findall(r"^# TYPE (\w+)", answer.read().decode(), re.M))
    named = " ".join([*alerts().values(), *(it for _, it in panels())])
    return set(re.findall(r"\bpollrelay_\w+", named)) - served


if __name__ == "__main__":
    sys.exit(main())
