"""The rows of the benchmark: what is measured of a relay, in one life of it."""
import contextlib
import itertools
import subprocess
import time

from load import Load
from peers import Started


def idle_row(started, load, connections, seconds):
    load.ask(f"hold {started.port} {connections}")
    time.sleep(min(1, seconds))
    before, began = started.processor_ns(), time.monotonic()
    time.sleep(seconds)
    spent = started.processor_ns() - before
    found = {
        f"memory with {connections} idle, MiB": started.resident_mib(),
        f"processor with {connections} idle, %": spent / (time.monotonic() - began) / 1e7,
    }
    load.ask("drop")
    time.sleep(0.5)
    return found


def bulk_row(started, load, connections, seconds):
    before = started.processor_ns()
    took, count = load.ask(f"bulk {started.port} {connections} {seconds}")
    spent = started.processor_ns() - before
    return {
        f"bytes one way over {connections}, MB/s": count / took / 1e6,
        f"processor for a GB over {connections}, s": spent / count,
    }


def turns_row(started, load, connections, seconds):
    before = started.processor_ns()
    took, count, half, most, longest = load.ask(f"turns {started.port} {connections} {seconds}")
    spent = started.processor_ns() - before
    return {
        f"turns over {connections}, 1/s": count / took,
        f"p50 of a turn over {connections}, us": half / 1e3,
        f"p99 of a turn over {connections}, us": most / 1e3,
        f"longest turn over {connections}, us": longest / 1e3,
        f"processor for a turn over {connections}, us": spent / count / 1e3,
    }


def connects_row(started, load, at_once, seconds):
    before = started.processor_ns()
    took, count = load.ask(f"connects {started.port} {at_once} {seconds}")
    time.sleep(0.3)  # what ended a moment ago is waited for
    spent = started.processor_ns() - before
    return {
        f"connections, {at_once} at a time, 1/s": count / took,
        f"processor for a connection, {at_once} at a time, us": spent / count / 1e3,
    }


ROWS = [(bulk_row, 1), (bulk_row, 16), (turns_row, 1), (turns_row, 16), (turns_row, 64), (connects_row, 8)]


@contextlib.contextmanager
def life(name, folder, idle=None):
    """One process life of a relay, and a load generator for it."""
    load = Load(folder)
    try:
        started = Started(name, folder, load.target, idle)
        try:
            yield started, load
        finally:
            started.stop()
    finally:
        load.stop()


def measure(name, folder, chosen, idle):
    """The figures of all rows, and what went wrong. All run in one life of the relay, the idle one first, before the others leave
    anything behind; but a row that fails ends that life, and those after it run in another.
    """
    rows = [(row, connections, chosen.seconds) for row, connections in ROWS]
    rows = iter(rows if name == "direct" else [(idle_row, chosen.idle, chosen.idle_seconds), *rows])
    found, wrong = {}, []
    for at in rows:
        try:
            with life(name, folder, idle) as (started, load):
                for at in itertools.chain([at], rows):
                    row, *how = at
                    found |= row(started, load, *how)
        except (RuntimeError, OSError, subprocess.TimeoutExpired) as fault:
            before = f" (after {fault.__context__})" if fault.__context__ else ""
            wrong.append(f"{name}: {at[0].__name__} of {at[1]}: {fault}{before}")
    return {key: value for key, value in found.items() if name != "direct" or "processor" not in key}, wrong
