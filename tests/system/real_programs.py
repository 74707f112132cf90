#!/usr/bin/env python3
"""Sends the traffic of programs that know nothing of the relay through it, through TCP and Unix rules at once, while its admin socket
is asked every 100 ms: iperf3 both ways, redis-benchmark pipelined and not, and curl of a file whose checksum has to be the same.

    python3 tests/system/real_programs.py [--megabytes 1000]

It installs the Debian packages that are missing, by name, and takes a minute or two.
"""
import functools
import hashlib
import http.server
import json
import os
import random
import subprocess
import sys
import tempfile
import threading
import time

sys.path.insert(1, f"{sys.path[0]}/..")
from lib.checks import Checks
from lib.meddler import Meddler
from lib.packages import install
from lib.relay import Relay
from lib.sockets import free_port, is_served
from lib.stages import options
from lib.waiting import wait_until

IPERF_SECONDS = 10
REDIS_REQUESTS = 100_000
ASK_EVERY_SECONDS = 0.1
LIMIT_SECONDS = 300


class Servers:
    """iperf3, redis and an HTTP server on the loopback, each ended by its own handle."""

    def __init__(self, folder, megabytes):
        self.folder, self.megabytes = folder, megabytes
        self.iperf, self.redis, self.http = free_port(), free_port(), None
        quiet = {"stdin": subprocess.DEVNULL, "stdout": subprocess.DEVNULL, "stderr": subprocess.DEVNULL}
        redis = ["redis-server", "--port", str(self.redis), "--bind", "127.0.0.1", "--save", "", "--dir", folder]
        iperf = ["iperf3", "-s", "-B", "127.0.0.1", "-p", str(self.iperf)]
        self.processes = [subprocess.Popen(redis, **quiet), subprocess.Popen(iperf, **quiet)]
        self.serve_file()
        for port in (self.iperf, self.redis):
            wait_until(lambda: is_served(f"tcp:127.0.0.1:{port}"), 10)

    def serve_file(self):
        os.mkdir(f"{self.folder}/www")
        digest, rng = hashlib.sha256(), random.Random(9)
        with open(f"{self.folder}/www/file", "wb") as file:
            for _ in range(self.megabytes):
                block = rng.randbytes(1_000_000)
                digest.update(block)
                file.write(block)
        self.checksum = digest.hexdigest()
        handler = functools.partial(Quiet, directory=f"{self.folder}/www")
        self.server = http.server.ThreadingHTTPServer(("127.0.0.1", 0), handler)
        self.http = self.server.server_port
        threading.Thread(target=self.server.serve_forever, daemon=True).start()

    def stop(self):
        self.server.shutdown()
        for process in self.processes:
            process.terminate()
            process.wait(10)


class Quiet(http.server.SimpleHTTPRequestHandler):
    def log_message(self, *_):
        pass


def rules_of(folder, servers):
    """Each server behind a TCP rule, behind a Unix rule, and behind both in a row. Gives the ports and the text."""
    ports, lines = {}, []
    for name, target in (("iperf", servers.iperf), ("redis", servers.redis), ("http", servers.http)):
        ports[name], ports[f"{name}-far"] = free_port(), free_port()
        lines += [
            f"relay {name}-tcp tcp:127.0.0.1:{ports[name]} tcp:127.0.0.1:{target} never",
            f"relay {name}-in unix:{folder}/{name}.sock tcp:127.0.0.1:{target} 600000",
            f"relay {name}-far tcp:127.0.0.1:{ports[f'{name}-far']} unix:{folder}/{name}.sock never",
        ]
    return ports, "\n".join(lines) + "\n"


def iperf(checks, port, name, *words):
    command = ["iperf3", "-c", "127.0.0.1", "-p", str(port), "-t", str(IPERF_SECONDS), "-P", "2", "-J", *words]
    for _ in range(20):
        ran = subprocess.run(command, capture_output=True, text=True, timeout=LIMIT_SECONDS)
        # The server serves one test at a time, and may not have left the one before.
        if "the server is busy" not in ran.stdout:
            break
        time.sleep(0.5)
    end = json.loads(ran.stdout).get("end", {}) if ran.stdout.startswith("{") else {}
    received = end.get("sum_received", {}).get("bytes", 0)
    checks.holds(f"iperf3 {name}", ran.returncode == 0 and received > 1_000_000, f"{ran.stdout[-300:]} {ran.stderr}")
    print(f"iperf3 {name}: {received / IPERF_SECONDS / 1e6:.0f} MB/s", flush=True)


def redis(checks, name, where, *words):
    command = ["redis-benchmark", *where, "-n", str(REDIS_REQUESTS), "-c", "20", "-q", "-t", "set,get", *words]
    ran = subprocess.run(command, capture_output=True, text=True, timeout=LIMIT_SECONDS)
    said = [line for line in ran.stdout.replace("\r", "\n").splitlines() if "requests per second" in line]
    checks.holds(f"redis-benchmark {name}", ran.returncode == 0 and len(said) == 2, f"{ran.stdout[-300:]} {ran.stderr}")
    print(f"redis-benchmark {name}: {'; '.join(line.split(',')[0].strip() for line in said)}", flush=True)


def curl(checks, name, checksum, *words):
    process = subprocess.Popen(["curl", "-sS", "--fail", *words], stdout=subprocess.PIPE)
    digest = hashlib.sha256()
    while block := process.stdout.read(1 << 20):
        digest.update(block)
    process.stdout.close()
    checks.expect(f"curl {name}", (0, checksum), (process.wait(LIMIT_SECONDS), digest.hexdigest()))
    print(f"curl {name}: whole", flush=True)


def clients(checks, folder, ports, servers):
    """What runs at once. iperf3 serves one client at a time, so its runs are one after the other."""
    unix = [f"{folder}/{name}.sock" for name in ("redis", "http")]
    url = lambda port: f"http://127.0.0.1:{port}/file"

    def all_iperf():
        iperf(checks, ports["iperf"], "to the server, TCP")
        iperf(checks, ports["iperf"], "from the server, TCP", "-R")
        iperf(checks, ports["iperf-far"], "to the server, TCP and Unix")
        iperf(checks, ports["iperf-far"], "from the server, TCP and Unix", "-R")

    def all_redis():
        redis(checks, "TCP", ["-h", "127.0.0.1", "-p", str(ports["redis"])])
        redis(checks, "TCP, pipelined", ["-h", "127.0.0.1", "-p", str(ports["redis"])], "-P", "16")
        redis(checks, "Unix", ["-s", unix[0]])
        redis(checks, "Unix, pipelined", ["-s", unix[0]], "-P", "16")
        redis(checks, "TCP and Unix, pipelined", ["-h", "127.0.0.1", "-p", str(ports["redis-far"])], "-P", "16")

    return [
        all_iperf,
        all_redis,
        lambda: curl(checks, "TCP", servers.checksum, url(ports["http"])),
        lambda: curl(checks, "Unix", servers.checksum, "--unix-socket", unix[1], "http://relay/file"),
        lambda: curl(checks, "TCP and Unix", servers.checksum, url(ports["http-far"])),
    ]


def run(checks, folder, servers):
    ports, rules = rules_of(folder, servers)
    with Relay(rules) as relay:
        asking = Meddler(relay, pause=ASK_EVERY_SECONDS)
        asking.start()
        threads = [threading.Thread(target=work) for work in clients(checks, folder, ports, servers)]
        for thread in threads:
            thread.start()
        for thread in threads:
            thread.join()
        asking.end(checks, "list and totals")
        checks.holds("list and totals were asked", asking.asked > 50, f"{asking.asked} times")
        print(f"list and totals: asked {asking.asked} times, slowest {asking.slowest * 1000:.0f} ms")
        status, totals, seconds = relay.stop()
        checks.expect("status", 0, status)
        checks.holds("stopped within 2 s", seconds <= 2, f"{seconds:.2f} s")
        # curl's file came through four rules, and each iperf3 run moved something.
        checks.holds("totals", totals[1] > 4 * servers.megabytes * 1_000_000 and totals[0] > 1_000_000, f"{totals}")
        print(f"totals: up {totals[0]} down {totals[1]}, stopped in {seconds:.2f} s")


def main():
    given = options(__doc__, megabytes=1_000)
    install("iperf3:iperf3", "redis-benchmark:redis-tools", "redis-server:redis-server", "curl:curl")
    checks, servers = Checks(), None
    with tempfile.TemporaryDirectory(prefix="real-") as folder:
        try:
            servers = Servers(folder, given.megabytes)
            run(checks, folder, servers)
        finally:
            if servers:
                servers.stop()
    return checks.end()


if __name__ == "__main__":
    sys.exit(main())
