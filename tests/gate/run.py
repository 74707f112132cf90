"""Runs tests in tiers, and proves nothing: what is proved, `rt ci` says.

    sh tests/run.sh [--lanes N] [--list] [--table FILE] [PART]..        the quick tier, or those parts
    sh tests/run.sh [--lanes N] [--list] [--table FILE] full            the full tier too
    sh tests/run.sh [--lanes N] [--list] [--table FILE] outside         of the quick tier what tries the program from outside

The quick tier is the rows of the table in tests/README.md that are quick, among them those that run the tests of crates, built as
`rt try` builds them, with checks in place of proofs, and those that try the relay from outside, on a program that is built the same
way; the tests of each crate that no row names; and each program on its stored input that is no row of its own. A part has a line: how it ended, its seconds, and how many it passed. A part that failed is
told with the end of what it said, and with the command that runs it alone. The last line is `N passed, M failed`.
With `--table` the file has, once all have ended, the date, the commit, the machine, and a row for each part.

It needs the kit's rt on the path, python3, and what the rows of the table name.
"""

import argparse
import contextlib
import os
import re
import shlex
import signal
import subprocess
import sys
import tempfile
import time
from collections import namedtuple

sys.path.insert(1, f"{sys.path[0]}/..")
from lib import run_table
from lib.places import ROOT

# What a test may take on a machine that is full of other work, in seconds.
TEST_SECONDS = 900
# What a part may take: so long, or so many times what the table says. Where more is ready to run than there are processors, its seconds
# are those that it would have had alone.
PART_SECONDS, TIMES = 2_400, 5
PROCESSORS = len(os.sched_getaffinity(0))
# How much is shown of what a failed part said: its last lines, and before them as many that tell of a failure.
LINES_SHOWN = 40
TELLS_FAILURE = re.compile(r"\bFAILED\b|panicked|^error")
# How a part says how many it passed: rt's tests and most scripts, and Python's own tests.
PASSED, RAN = re.compile(r"(\d+) passed[;,] (\d+) failed"), re.compile(r"^Ran (\d+) tests?", re.M)

# A word of the check that `rt try` makes beside each run, for a hint on names, which takes as long as the run.
HINT = b"no function"

PROGRAM, RELAY = "program", "pollrelay"
PROVED = f"crates/{RELAY}/out/{RELAY}"
# (a crate's tests that a row of the table runs with those of others are run alone by the crate's name)
QUICK, FULL, OUTSIDE, NAMED = "quick", "full", "outside", "named"
Row = namedtuple("Row", "name tier seconds needs command shows")


def rows():
    """The rows of the table of parts."""
    found = []
    for line in text_of(f"{ROOT}/tests/README.md").splitlines():
        if re.match(r"\| `\w+` \| \w+ \| \d+ \|", line):
            name, tier, seconds, needs, command, shows = (it.strip() for it in line.strip("|").split(" | "))
            found.append(Row(name.strip("`"), tier, int(seconds), [it for it in needs.split(", ") if it], command.strip("`"), shows))
    return found


class Part:
    """A part: a command, what it has to print, where that is stored, what it needs, and a file that it needs and isn't there."""

    def __init__(self, name, words, weight, folder="", needs=(), stdin=None, wanted=None, tier=QUICK, lacking=None):
        self.name, self.words, self.weight, self.folder = name, words, weight, f"{ROOT}/{folder}"
        self.on_program, self.is_alone, self.sleeps = (it in needs for it in (PROGRAM, "alone", "sleeps"))
        self.stdin, self.wanted, self.tier, self.lacking = stdin, wanted, tier, lacking
        self.running = self.said = None

    def start(self, program):
        self.began = self.looked = time.monotonic()
        self.had, self.said = 0, tempfile.TemporaryFile()
        self.printed = tempfile.TemporaryFile() if self.wanted is not None else self.said
        env = {**os.environ, "RT_SECONDS": str(TEST_SECONDS), "PYTHONDONTWRITEBYTECODE": "1"}
        if program:
            env["POLLRELAY"] = program
        with open(self.stdin or os.devnull, "rb") as given:
            self.running = subprocess.Popen(
                self.words, cwd=self.folder, env=env, stdin=given, stdout=self.printed, stderr=self.said, start_new_session=True
            )

    def seconds(self):
        return time.monotonic() - self.began

    def seconds_alone(self):
        now = time.monotonic()
        self.had += (now - self.looked) / max(1, os.getloadavg()[0] / PROCESSORS)
        self.looked = now
        return self.had

    def has_ended(self):
        if self.running.poll() is None and self.seconds_alone() > max(PART_SECONDS, TIMES * self.weight):
            os.killpg(self.running.pid, 9)
            self.running.wait()
        return self.running.poll() is not None

    def text(self, file=None):
        file = file or self.said
        file.seek(0)
        return file.read().decode(errors="replace")

    def counts(self):
        """How many it passed and failed. A part that says no numbers is one."""
        is_well = self.running.returncode == 0
        if self.wanted is not None:
            with open(self.wanted, encoding="utf-8") as file:
                is_well = is_well and self.text(self.printed) == file.read()
            return (1, 0) if is_well else (0, 1)
        passed, failed = told_counts(self.text()) or (int(is_well), 0)
        return passed, failed if is_well else max(failed, 1)


def told_counts(said):
    """How many a part says that it passed and failed, or None where it says nothing."""
    told, ran = PASSED.findall(said), RAN.findall(said)
    if told:
        return int(told[-1][0]), int(told[-1][1])
    return (int(ran[-1]), 0) if ran else None


def text_of(path):
    if not os.path.isfile(path):
        return ""
    with open(path, encoding="utf-8") as file:
        return file.read()


def crates():
    found = re.findall(r"^(\w+)[^:\n#]*:", text_of(f"{ROOT}/crates.txt"), re.M)
    return [(it, f"crates/{it}") for it in found]


def has_tests(folder):
    sources = (os.path.join(at, it) for at, _, files in os.walk(f"{ROOT}/{folder}/src") for it in files)
    return any("#[test]" in text_of(it) for it in sources)


def lines_in(folder):
    sources = (os.path.join(at, it) for at, _, files in os.walk(f"{ROOT}/{folder}/src") for it in files)
    return sum(text_of(it).count("\n") for it in sources)


def part_of(row):
    words = [sys.executable if it == "python3" else it for it in shlex.split(row.command)]
    files = [it for it in row.needs if "/" in it] + [os.environ.get("POLLRELAY", PROVED)] * (f"proved {PROGRAM}" in row.needs)
    lacking = next((it for it in files if not os.path.exists(os.path.join(ROOT, it))), None)
    return Part(row.name, words, row.seconds, needs=row.needs, tier=row.tier, lacking=lacking)


def parts():
    """All parts, the program's build first, and then those that take longest."""
    found = list(map(part_of, rows()))
    named, joined = {row.name for row in rows()}, {word for row in rows() if row.tier == QUICK for word in row.command.split()}
    for name, folder in crates():
        if has_tests(folder):
            tier = NAMED if name in joined else QUICK
            found.append(Part(name, ["rt", "try", "--test"], 60 + lines_in(folder) / 20, folder, tier=tier))
        stored = f"{ROOT}/{folder}/stdout"
        if os.path.isfile(f"{ROOT}/{folder}/src/main.rt") and os.path.isfile(stored) and name not in named:
            args = [it for it in text_of(f"{ROOT}/{folder}/args").split("\n") if it]
            given, is_relay = f"{ROOT}/{folder}/stdin", name == RELAY
            words = ["sh", "-c", 'exec "$POLLRELAY" "$@"', "sh", *args] if is_relay else ["rt", "try", "--", *args]
            stored_run = {"stdin": given if os.path.isfile(given) else None, "wanted": stored, "needs": [PROGRAM] * is_relay}
            found.append(Part(name, words, 1 if is_relay else 50, folder, **stored_run))
    found.sort(key=lambda it: -it.weight)
    return [Part(PROGRAM, [sys.executable, "tools/unproved.py"], 999), *found]


def words_of(pid):
    with open(f"/proc/{pid}/cmdline", "rb") as file:
        return file.read().split(b"\0")


def end_hints(groups):
    """Ends the hints of the parts with these process groups: `rt ci` says the same, and they take half of the processors."""
    for pid in map(int, filter(str.isdigit, os.listdir("/proc"))):
        with contextlib.suppress(OSError):
            if os.getpgid(pid) in groups and HINT in words_of(pid):
                os.kill(pid, signal.SIGKILL)


def shown(lines):
    """Of the lines that a failed part said, those that are shown."""
    before = [it for it in lines[:-LINES_SHOWN] if TELLS_FAILURE.search(it)]
    return before[:LINES_SHOWN] + lines[-LINES_SHOWN:]


class Run:
    """Which parts wait, run, and have ended, and how."""

    def __init__(self, chosen, lanes):
        self.waiting, self.lanes, self.running = chosen, lanes, []
        self.passed = self.failed = 0
        self.ended = []
        self.program = os.environ.get("POLLRELAY")
        self.is_built = self.program is not None

    def may_start(self, part):
        if part.on_program and not self.is_built:
            return False
        if part.is_alone:
            return not self.running and all(it.is_alone for it in self.waiting)
        return sum(it.sleeps == part.sleeps for it in self.running) < self.lanes

    def start_ready(self):
        for part in list(self.waiting):
            if part.lacking:
                self.leave_out(part, f"there is no {part.lacking}")
            elif not any(it.is_alone for it in self.running) and self.may_start(part):
                self.waiting.remove(part)
                part.start(self.program if part.on_program else None)
                self.running.append(part)

    def end(self, part):
        passed, failed = part.counts()
        self.passed, self.failed = self.passed + passed, self.failed + failed
        self.ended.append(run_table.Ended(part.name, part.seconds(), passed, failed))
        word = "FAILED" if failed else "ok"
        print(f"{word:6}  {part.name:18} {part.seconds():5.0f} s  {passed} passed, {failed} failed", flush=True)
        if failed:
            said = part.text() + (part.text(part.printed) if part.wanted is not None else "")
            print("\n".join(f"    {it}" for it in shown(said.splitlines())))
            print(f"    alone: sh tests/run.sh {part.name}", flush=True)
        if part.name == PROGRAM:
            self.note_program(part, failed)
        part.said.close()
        part.printed.close()

    def note_program(self, part, failed):
        """Parts on the program can't run where it wasn't built: each has failed."""
        self.is_built = True
        if not failed:
            self.program = part.text().split()[-1]
            return
        for it in [it for it in self.waiting if it.on_program]:
            self.leave_out(it, "no program was built")

    def leave_out(self, part, why):
        """A part that can't run has failed."""
        self.waiting.remove(part)
        self.failed += 1
        self.ended.append(run_table.Ended(part.name, None, 0, 1))
        print(f"FAILED  {part.name:18}     not run, since {why}", flush=True)

    def run(self):
        while self.waiting or self.running:
            self.start_ready()
            end_hints({it.running.pid for it in self.running})
            for part in [it for it in self.running if it.has_ended()]:
                self.running.remove(part)
                self.end(part)
            time.sleep(0.2)


def chosen_parts(names):
    """Those that are named, or the quick tier, or with `full` both tiers, or with `outside` those of the quick tier that try the
    program; the program is built where one of them needs it."""
    program, *found = parts()
    tiers = {QUICK, FULL} if FULL in names else {QUICK} if QUICK in names or not names else set()
    unknown = set(names) - {PROGRAM, QUICK, FULL, OUTSIDE, *(it.name for it in found)}
    if unknown:
        sys.exit(f"no part is named {' '.join(sorted(unknown))}: sh tests/run.sh --list")
    chosen = [it for it in found if it.name in names or it.tier in tiers or OUTSIDE in names and it.on_program and it.tier == QUICK]
    is_wanted = "POLLRELAY" not in os.environ and any(it.on_program for it in chosen)
    return [program, *chosen] if is_wanted or PROGRAM in names else chosen


def print_list(chosen):
    shown = {it.name: f"{it.seconds:4} s  {it.shows}" + (f" (needs: {', '.join(it.needs)})" if it.needs else "") for it in rows()}
    crate = "        the crate's tests pass, or its program prints what is stored for its input"
    for it in chosen:
        if it.name != PROGRAM:
            print(f"{it.name:22} {it.tier:5} {shown.get(it.name, crate)}")


def main():
    options = argparse.ArgumentParser(description=__doc__.split("\n")[0])
    options.add_argument("parts", nargs="*", metavar="PART", help="parts, or outside, or a tier: quick, full")
    options.add_argument("--lanes", type=int, default=PROCESSORS, metavar="N")
    options.add_argument("--list", action="store_true", help="say which parts there are")
    options.add_argument("--table", type=argparse.FileType("w", encoding="utf-8"), metavar="FILE", help="write how each part ended")
    given = options.parse_args()
    if given.list:
        print_list(chosen_parts(given.parts) if given.parts else parts())
        return 0
    chosen = chosen_parts(given.parts)
    names, opening = [it.name for it in chosen], run_table.opening(given.parts)
    print("Runs tests, and proves nothing: `rt ci` proves.", flush=True)
    began, run = time.monotonic(), Run(chosen, max(1, given.lanes))
    run.run()
    took = time.monotonic() - began
    if given.table:
        with given.table as file:
            file.write(run_table.table(opening, names, run.ended, took))
    print(f"in {took:.0f} s, with nothing proved")
    print(f"{run.passed} passed, {run.failed} failed")
    return 1 if run.failed else 0


if __name__ == "__main__":
    sys.exit(main())
