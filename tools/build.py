"""Proves and builds a crate and every library below it, those that don't wait for each other at once.

    python3 tools/build.py [CRATE] [--for-checks] [--keep-going] [--lanes N] [--jobs N]

CRATE is pollrelay where none is named. It needs the kit's rt on the path. What stands in out/ of this text already isn't
built again. Every 10 seconds a line says how far it is; the first crate that isn't proved ends it with what the prover
said, and status 1. With `--keep-going` all that doesn't stand on that crate is built first.

A lane is a check that is under way: one a processor, as far as free memory holds them. First come those with the most
above them. A check shares its proofs among some processes, its jobs. Each loads the libraries below anew, so it has as
many as processors are free, and one at least; but the crates wait for each other in a long chain, and a check has the
most whose own text and the longest chain above it come to at least three quarters of what any other's under way does.

Libraries hold their statements alone, as those of `rt ci` do, and nothing is kept in out/incremental: that leaves out
a third of the processor time. But `rt check` wants libraries with their proofs, and would build them all again. With
`--for-checks`, or where some stand already, they are built so that it takes them.
"""

import argparse
import os
import re
import shutil
import signal
import subprocess
import sys
import tempfile
import time

ROOT = os.path.dirname(os.path.dirname(os.path.realpath(__file__)))
RT = shutil.which("rt") or sys.exit("rt isn't on the path")
sys.path.insert(0, os.path.dirname(os.path.realpath(RT)))
sys.dont_write_bytecode = True
import rtlib  # the kit's own module, beside rt: it knows how a crate is passed to the checker

BYTES_OF_A_CHECK, BYTES_OF_A_JOB = 3_000_000_000, 500_000_000
SAYS_EVERY = 10
MOST_JOBS = 3

# What a check says of what is well, which is left out where it failed.
WELL = re.compile(r"^(\S.*: proved|statements .*|library .*|so far: .*)\n", re.M)

# For what `rt ci` refuses a crate that is proved: a pattern that takes each value, a contract that no call can meet, a value that
# a tactic has chosen.
REFUSED_ALL_THE_SAME = (rtlib.CATCHES_ALL, rtlib.EMPTY, rtlib.CHOSEN, rtlib.CHOSEN_BELOW)


def free_bytes():
    """The free memory, under the limit of the process's group too."""
    found = [1024 * rtlib.number_in("/proc/meminfo", r"MemAvailable:\s+(\d+)")]
    for limit, held in rtlib.GROUPS:
        limit, held = rtlib.number_in(limit, r"(\d+)"), rtlib.number_in(*held)
        if limit and held is not None:
            found.append(limit - held)
    return min(found)


def bytes_of(jobs):
    return BYTES_OF_A_CHECK + (jobs - 1) * BYTES_OF_A_JOB


def lines_above(crate, crates):
    """The lines of code of the longest chain of crates that are above this one, each above the next."""
    return max((it.count(rb"\n") + lines_above(it, crates) for it in crates if crate in it.deps), default=0)


def clock(seconds):
    return f"{int(seconds) // 60}:{int(seconds) % 60:02}"


def program_stamp(crate):
    """What `rt run` notes beside a program that it built of this text."""
    return crate.stamp() + rtlib.sum_of(f"{crate.folder}/out/{crate.name}")


def note(crate, cuts):
    """Where it is noted of which text the crate was built: where `rt` looks, but for libraries of statements."""
    if crate.is_program:
        return f"{crate.folder}/out/{crate.name}.stamp"
    return f"{crate.folder}/out/rlib/{'statements' if cuts else 'stamp'}"


def stands(crate, cuts):
    """Whether out/ holds the library, of that kind, or the program, built of this text."""
    noted = rtlib.text_of(note(crate, cuts))
    return noted is not None and noted == (program_stamp(crate) if crate.is_program else crate.stamp())


class Check:
    """The proof and the build of a crate, in a process of its own."""

    def __init__(self, crate, cuts, jobs):
        self.crate, self.cuts, self.jobs, self.began = crate, cuts, jobs, time.monotonic()
        self.stamp, self.said = crate.stamp(), tempfile.TemporaryFile("w+", errors="replace")
        crate.out = self.said
        made = os.path.dirname(note(crate, cuts))
        if not crate.is_program:
            shutil.rmtree(made, ignore_errors=True)
        os.makedirs(made, exist_ok=True)
        self.running = self.start([rtlib.RATTLE, "build", *self.words()])

    def words(self):
        # (the search for contracts that no call can meet is for who changes them)
        words = [*self.crate.words(["--jobs", str(self.jobs)], keeps=False), *["--empty-contracts"] * (not self.cuts)]
        if self.crate.is_program:
            toolchain = ["--toolchain", f"{rtlib.KIT}/toolchain", "--backend", "llvm"]
            return [*words, *toolchain, "-o", f"out/{self.crate.name}.o"]
        return [*words, *["--statements"] * self.cuts, "-o", self.crate.rlib]

    def start(self, words):
        how = {"cwd": self.crate.folder, "stdin": subprocess.DEVNULL, "stderr": subprocess.STDOUT}
        return subprocess.Popen([*rtlib.guarded(), *words], stdout=self.said, **how)

    def status(self):
        """None while the check runs, and then its status, once what it proved is linked and noted."""
        status = self.running.poll()
        if status == 0 and self.is_refused_all_the_same():
            status = 1
        if status == 0 and self.crate.is_program:
            status = self.link()
        if status == 0 and self.crate.stamp() == self.stamp:
            text = program_stamp(self.crate) if self.crate.is_program else self.stamp
            with open(note(self.crate, self.cuts), "w", encoding="utf-8") as file:
                file.write(text)
        return status

    def is_refused_all_the_same(self):
        self.said.seek(0)
        text = self.said.read()
        return any(it.search(text) for it in REFUSED_ALL_THE_SAME)

    def link(self):
        made, kit = f"out/{self.crate.name}", rtlib.KIT
        words = ["--target", "x86_64-unknown-linux-gnu", "--toolchain", f"{kit}/toolchain"]
        words += ["-o", made, f"{made}.o", f"{kit}/c/libos_c.a", f"{kit}/c/liblibc_c.a"]
        return self.start([f"{kit}/bin/rattle-link", *words]).wait()

    def seconds(self):
        return time.monotonic() - self.began

    def end(self):
        """Ends a check that is still under way, and gives what it said, but for what is well."""
        if self.running.poll() is None:
            self.running.kill()
            self.running.wait()
        with self.said:
            self.said.seek(0)
            return WELL.sub("", self.said.read())


class Build:
    """Which crates are left, under way and done."""

    def __init__(self, crates, cuts, lanes, jobs, keeps_going=False):
        self.cuts, self.lanes, self.jobs, self.keeps_going = cuts, lanes, jobs, keeps_going
        self.memory, self.began = free_bytes(), time.monotonic()
        self.total, self.running = len(crates), []
        self.ahead = {it.name: lines_above(it, crates) + it.count(rb"\n") for it in crates}
        left = [it for it in crates if not stands(it, cuts)]
        is_over = crates[-1].is_program and crates[-1] not in left
        self.left = [] if is_over else sorted(left, key=lambda it: -self.ahead[it.name])
        self.done = self.total - len(self.left)

    def say(self, text):
        print(f"{clock(time.monotonic() - self.began)}  {self.done} of {self.total} crates, {text}", flush=True)

    def start_ready(self):
        waits = {it.name for it in [*self.left, *(it.crate for it in self.running)]}
        for crate in list(self.left):
            if any(it.name in waits for it in crate.below()):
                continue
            room = self.memory - sum(bytes_of(it.jobs) for it in self.running)
            if self.running and (len(self.running) >= self.lanes or room < BYTES_OF_A_CHECK):
                return
            self.left.remove(crate)
            self.running.append(Check(crate, self.cuts, self.jobs_of(crate, room)))

    def jobs_of(self, crate, room):
        most = min(self.jobs, 1 + int(max(0, room - BYTES_OF_A_CHECK) / BYTES_OF_A_JOB))
        if all(4 * self.ahead[crate.name] >= 3 * self.ahead[it.crate.name] for it in self.running):
            return most
        return max(1, min(most, self.lanes - sum(it.jobs for it in self.running)))

    def look(self):
        """Takes in the checks that have ended. Gives the first that failed, or None."""
        for check in list(self.running):
            status = check.status()
            if status is None:
                continue
            self.running.remove(check)
            if status == -signal.SIGKILL and (self.lanes, self.jobs) != (1, 1):
                self.say(f"{check.crate.name} was killed, most likely for memory: from here on one at a time")
                self.lanes, self.jobs = 1, 1
                self.left.insert(0, check.crate)
            elif status:
                return check
            else:
                self.done += 1
                self.say(f"{check.crate.name} proved in {clock(check.seconds())}")
            check.end()
        return None

    def refuse(self, check):
        """Tells what the prover said of a crate, and leaves out all that stands on it."""
        name = check.crate.name
        print(check.end(), end="")
        self.say(f"{name} NOT PROVED: what the prover said of it stands above")
        self.left = [it for it in self.left if name not in (other.name for other in it.below())]

    def run(self):
        """Gives the names of the crates that weren't proved: of the first, or where it keeps going of all."""
        said, refused = time.monotonic(), []
        while self.left or self.running:
            self.start_ready()
            time.sleep(0.1)
            failed = self.look()
            if failed:
                self.refuse(failed)
                refused.append(failed.crate.name)
                if not self.keeps_going:
                    return refused
            if time.monotonic() - said >= SAYS_EVERY:
                said = time.monotonic()
                self.say("under way: " + ", ".join(f"{it.crate.name} {clock(it.seconds())}" for it in self.running))
        return refused


def crates_of(name):
    """The crate and the repository's libraries below it, lowest first, with their folders held for this run."""
    rtlib.guarded()
    crates = {it.name: it for it in rtlib.crates_below(ROOT)}
    if name not in crates:
        sys.exit(f"crates.txt names no crate {name}")
    found = [*crates[name].below(), crates[name]]
    for it in found:
        rtlib.stop_on_links(it.folder)
    return found, rtlib.lock(found)


def main():
    options = argparse.ArgumentParser(description=__doc__.split("\n")[0])
    options.add_argument("crate", nargs="?", default="pollrelay")
    options.add_argument("--for-checks", action="store_true", help="so that rt check takes the libraries")
    options.add_argument("--keep-going", action="store_true", help="after a crate that isn't proved too")
    processors = len(os.sched_getaffinity(0))
    options.add_argument("--lanes", type=int, default=processors, metavar="N")
    options.add_argument("--jobs", type=int, default=min(MOST_JOBS, processors), metavar="N")
    given = options.parse_args()
    crates, held = crates_of(given.crate)
    try:
        cuts = not given.for_checks and not any(it.is_built() for it in crates if it.makes_rlib())
        return built(Build(crates, cuts, max(1, given.lanes), max(1, given.jobs), given.keep_going))
    finally:
        for it in held:
            os.close(it)


def built(build):
    """The exit status of a build, once it has told how it ended."""
    refused = build.run()
    if not refused:
        build.say("all proved and built")
        return 0
    for it in build.running:
        it.end()
    if build.keeps_going:
        build.say("not proved: " + ", ".join(refused))
    return 1


if __name__ == "__main__":
    sys.exit(main())
