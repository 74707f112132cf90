"""The kit's checker on a crate of this repository, run as `rt ci` runs it: over the libraries in `out/`, one job a check."""

import os
import re
import shutil
import subprocess
import sys
import tempfile
from collections import namedtuple

from lib.places import ROOT
from lib.waiting import processor_seconds

RT = os.path.realpath(shutil.which("rt") or "rt")
sys.path.insert(0, os.path.dirname(RT))
sys.dont_write_bytecode = True
import rtlib  # the kit's own module, beside rt: it knows how a crate is passed to the checker

BYTES_OF_A_CHECK = 3_000_000_000

# What a command printed, its exit status, the processor seconds that it took, and those from the end of the function before
# it to the end of each function.
Run = namedtuple("Run", "text status seconds by_function")


def crates(root=ROOT):
    """The crates of crates.txt, lowest first. The main thread asks for them before others run checks."""
    rtlib.guarded()  # (its first call sets a signal's handler)
    return rtlib.crates_below(root)


def lanes():
    """How many checks may run side by side: one a processor, as many as free memory holds."""
    with open("/proc/meminfo", encoding="ascii") as file:
        free = 1024 * int(re.search(r"MemAvailable:\s+(\d+)", file.read())[1])
    return max(1, min(len(os.sched_getaffinity(0)), free // BYTES_OF_A_CHECK))


def run(words, folder):
    """Runs a command and measures it with all that it starts."""
    how = {"cwd": folder, "stdin": subprocess.DEVNULL, "stdout": subprocess.PIPE, "stderr": subprocess.STDOUT}
    started = subprocess.Popen([*rtlib.guarded(), *words], errors="replace", text=True, **how)
    lines, by_function, last = [], {}, 0
    for line in started.stdout:
        lines.append(line)
        ended = re.match(r"checked (\S+), \d+ of \d+", line)
        if ended:
            now = processor_seconds(started.pid)
            by_function[ended[1]], last = now - last, now
    _, status, used = os.wait4(started.pid, 0)
    started.returncode = os.waitstatus_to_exitcode(status)
    return Run("".join(lines), started.returncode, used.ru_utime + used.ru_stime, by_function)


def check(crate, texts, flags, kept=None):
    """Checks a copy of the crate with `texts`, by path, in place of its own. What the check proves is kept in `kept`."""
    with tempfile.TemporaryDirectory(prefix="check-") as room:
        for part in rtlib.PARTS:
            if os.path.isdir(f"{crate.folder}/{part}"):
                shutil.copytree(f"{crate.folder}/{part}", f"{room}/{part}")
        for path, text in texts.items():
            with open(f"{room}/{path}", "w", encoding="utf-8") as file:
                file.write(text)
        words = [rtlib.RATTLE, "check", *crate.words(["--jobs", "1", *flags], keeps=False)]
        return run([*words, *(["--incremental", kept] if kept else [])], room)


def newest(crate):
    """When the crate's text, or that of a library below it, changed last. A file that is gone has changed its folder."""
    found = [os.path.getmtime(f"{ROOT}/crates.txt")]
    for it in [crate, *crate.below()]:
        for part in rtlib.PARTS:
            for at, _, files in os.walk(f"{it.folder}/{part}"):
                found += [os.path.getmtime(path) for path in [at, *(f"{at}/{name}" for name in files)]]
    return max(found)


def stamp(crate):
    """Where `rt` notes which text it built a library of. `rt ci` leaves libraries without one."""
    return f"{crate.folder}/out/rlib/stamp"


def stands(crate):
    """Whether `out/` holds what a proof of this text leaves: the library, or the built program."""
    if os.path.exists(stamp(crate)):
        return crate.is_built()
    made = f"{crate.folder}/out/{crate.name}" if crate.is_program else f"{crate.rlib}/format"
    return os.path.exists(made) and os.path.getmtime(made) > newest(crate)


def prove(crate):
    """Proves a crate and the libraries below it where `out/` doesn't show that they are, and says whether they are.

    Libraries of `rt ci` hold statements alone, which fit no library that another command built: it's all or none."""
    kinds = {os.path.exists(stamp(it)) for it in crate.below()}
    if len(kinds) < 2 and all(map(stands, [*crate.below(), crate])):
        return True
    done = run([RT, "check" if crate.is_program else "lib", "--jobs", "1"], crate.folder)
    if done.status:
        print(done.text, end="")
    return not done.status
