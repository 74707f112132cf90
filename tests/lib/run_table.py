"""A run of the tests as a text in Markdown: when it was, of which text, on which machine, and a row for each part with its
seconds and how many it passed and failed. `sh tests/run.sh --table FILE` writes it, for docs/testing.md."""

import os
import re
import subprocess
import time
from collections import namedtuple

from lib.places import ROOT

# How a part ended. One that couldn't run has no seconds.
Ended = namedtuple("Ended", "name seconds passed failed")


def said_by_git(*words):
    try:
        said = subprocess.run(["git", "-C", ROOT, *words], capture_output=True, encoding="utf-8", check=False)
    except FileNotFoundError:
        return ""
    return said.stdout.strip() if said.returncode == 0 else ""


def tried_text():
    """Which text is tried: its commit, and whether files differ from that."""
    commit = said_by_git("rev-parse", "--short=12", "HEAD")
    if not commit:
        return "a text without a commit"
    changed = said_by_git("status", "--porcelain", "--untracked-files=no")
    return f"commit {commit}" + (" with changes" if changed else "")


def machine():
    with open("/proc/meminfo", encoding="ascii") as file:
        memory = int(re.search(r"^MemTotal:\s+(\d+) kB", file.read(), re.M)[1]) / 2**20
    system = os.uname()
    return f"{len(os.sched_getaffinity(0))} processors, {memory:.0f} GiB of memory, {system.sysname} {system.release}"


def opening(parts):
    """What is known before the run: the command, the date, the text and the machine."""
    command = " ".join(["sh tests/run.sh", *parts])
    return f"`{command}` of {time.strftime('%Y-%m-%d')}, {tried_text()}, on {machine()}, at a load of {os.getloadavg()[0]:.1f} at its start"


def table(begun, names, ended, seconds):
    """The text of a run that began so, of the parts with these names, each of which has ended."""
    ends = {it.name: it for it in ended}
    rows = [ends[it] for it in sorted(names)]
    passed, failed = sum(it.passed for it in rows), sum(it.failed for it in rows)
    lines = [f"{begun}: {passed:,} passed, {failed:,} failed, in {seconds:,.0f} s.", "", "| Part | Seconds | Passed | Failed |", "|---|---|---|---|"]
    for it in rows:
        took = "not run" if it.seconds is None else f"{it.seconds:,.0f}"
        lines.append(f"| `{it.name}` | {took} | {it.passed:,} | {it.failed:,} |")
    return "\n".join(lines) + "\n"
