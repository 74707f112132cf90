#!/usr/bin/env python3
"""Measures the echo servers on `net` beside Go's and tokio's, in turn, on the loopback.

    python3 bench/echo/run.py [--rounds 5] [--seconds 1] [--only NAME,..]

`loops` is crates/loop_echo_server, as tasks on as many loops as there are processors, `threads` is crates/echo_server, with a
thread for each connection; both are built before (`rt run` in each folder). `go` has a goroutine for each connection, and
`tokio` a task. Each gives back what it is sent through a buffer of 4,096 bytes. A round starts each server once, with the first
one changing from round to round, and has the load generator of bench/relay say one byte and hear it again over 1, 64 and 500
connections at once. Prints the medians of each, and those of the rounds' ratios of `loops` to each other, and the load of the
machine before the first round and behind the last. What is missing of gcc, golang-go and, of Debian's crates, tokio is installed.
"""
import argparse
import contextlib
import os
import statistics
import subprocess
import sys
import tempfile

HERE = os.path.dirname(os.path.abspath(__file__))
ROOT = os.path.abspath(f"{HERE}/../..")
sys.path[:0] = [f"{ROOT}/tests", f"{ROOT}/bench/relay"]
from lib.packages import install  # noqa: E402
from lib.sockets import free_port, is_served  # noqa: E402
from lib.waiting import wait_until  # noqa: E402
from load import Load  # noqa: E402
from peers import TICK_NS, text_of  # noqa: E402

CONNECTIONS = (1, 64, 500)
REGISTRY = "/usr/share/cargo/registry"
MANIFEST = """[package]
name = "tokio_echo"
version = "0.1.0"
edition = "2021"

[[bin]]
name = "tokio_echo"
path = "{source}"

[dependencies]
tokio = {{ version = "1", features = ["net", "rt-multi-thread", "io-util"] }}
"""
SOURCES = """[source.crates-io]
replace-with = "debian"
[source.debian]
directory = "{registry}"
"""


def written(path, text):
    os.makedirs(os.path.dirname(path), exist_ok=True)
    with open(path, "w", encoding="ascii") as file:
        file.write(text)


def build(folder, names):
    """The load generator, and those peers that are measured."""
    install("gcc:gcc libc6-dev", *(["go:golang-go"] if "go" in names else []))
    subprocess.run(["gcc", "-O2", "-pthread", "-o", f"{folder}/load", f"{ROOT}/bench/relay/load.c"], check=True)
    if "go" in names:
        env = {**os.environ, "GOFLAGS": "-mod=mod", "GO111MODULE": "off", "GOCACHE": f"{folder}/cache"}
        subprocess.run(["go", "build", "-o", f"{folder}/go_echo", f"{HERE}/go_echo.go"], check=True, env=env)
    if "tokio" in names:
        install("cargo:cargo", f"{REGISTRY}/tokio-1.24.2:librust-tokio-dev librust-socket2-dev")
        written(f"{folder}/tokio/Cargo.toml", MANIFEST.format(source=f"{HERE}/tokio_echo.rs"))
        written(f"{folder}/tokio/.cargo/config.toml", SOURCES.format(registry=REGISTRY))
        words = ["cargo", "build", "--release", "--offline", "--quiet"]
        subprocess.run(words, cwd=f"{folder}/tokio", check=True)


def words_of(name, folder, port):
    idle_ms, listen = "60000", f"127.0.0.1:{port}"
    if name == "loops":
        loops = str(len(os.sched_getaffinity(0)))
        return [f"{ROOT}/crates/loop_echo_server/out/loop_echo_server", str(port), loops, idle_ms, f"unix:{folder}/end-{port}"]
    if name == "threads":
        return [f"{ROOT}/crates/echo_server/out/echo_server", str(port), idle_ms, f"unix:{folder}/end-{port}"]
    if name == "go":
        return [f"{folder}/go_echo", listen]
    return [f"{folder}/tokio/target/release/tokio_echo", listen]


@contextlib.contextmanager
def served(name, folder):
    """The port and the process of a server that runs."""
    port = free_port()
    process = subprocess.Popen(words_of(name, folder, port), stdin=subprocess.DEVNULL)
    try:
        if not wait_until(lambda: is_served(f"tcp:127.0.0.1:{port}"), 10):
            raise RuntimeError(f"{name} doesn't accept connections")
        yield port, process
    finally:
        process.terminate()
        process.wait(10)


def processor_ns(process):
    """The processor time of a server so far, of both kinds."""
    after_name = text_of(f"/proc/{process.pid}/stat").rpartition(")")[2].split()
    return (int(after_name[11]) + int(after_name[12])) * TICK_NS


def measure(name, folder, seconds):
    """For each number of connections the turns a second, the time of a turn in its middle, and the processor's for one."""
    found = {}
    load = Load(folder)
    try:
        with served(name, folder) as (port, process):
            for connections in CONNECTIONS:
                before = processor_ns(process)
                took, count, half, _, _ = load.ask(f"turns {port} {connections} {seconds}")
                spent = processor_ns(process) - before
                found[f"turns over {connections}, 1/s"] = count / took
                found[f"p50 over {connections}, us"] = half / 1e3
                found[f"processor for a turn over {connections}, us"] = spent / count / 1e3
    finally:
        load.stop()
    return found


def main():
    words = argparse.ArgumentParser(description=__doc__, formatter_class=argparse.RawDescriptionHelpFormatter)
    words.add_argument("--rounds", type=int, default=5)
    words.add_argument("--seconds", type=int, default=1)
    words.add_argument("--only", default="loops,threads,go,tokio")
    words = words.parse_args()
    names = words.only.split(",")
    results = {name: [] for name in names}
    with tempfile.TemporaryDirectory() as folder:
        build(folder, names)
        print(f"load before: {os.getloadavg()[0]:.1f}")
        for number in range(words.rounds):
            first = number % len(names)
            for name in names[first:] + names[:first]:
                results[name].append(measure(name, folder, words.seconds))
    print(f"load behind: {os.getloadavg()[0]:.1f}")
    for row in results[names[0]][0]:
        middle = {name: statistics.median(it[row] for it in results[name]) for name in names}
        print(f"{row}: " + ", ".join(f"{name} {value:.4g}" for name, value in middle.items()))
        for other in names[1:]:
            ratios = [mine[row] / its[row] for mine, its in zip(results[names[0]], results[other])]
            print(f"    {names[0]} to {other} {statistics.median(ratios):.3f} ({min(ratios):.3f} to {max(ratios):.3f})")


if __name__ == "__main__":
    main()
