"""Runs the tests of several crates, built as one, with nothing proved: all that they have have to pass.

    python3 tests/gate/crate_tests.py CRATE..

What they use is built once, and that is most of the build. `rt try --test` in a crate's folder runs its tests alone.
"""

import os
import re
import shutil
import subprocess
import sys
import tempfile

sys.path.insert(1, f"{sys.path[0]}/..")
from lib.joined import Joined

NAME = "joined_tests"
TEST = re.compile(r"^\s*#\[test\]", re.M)
PASSED = re.compile(r"(\d+) passed[;,] 0 failed")


def tests_in(folder):
    """How many tests stand in the files of a folder."""
    count = 0
    for at, _, files in os.walk(folder):
        for it in files:
            with open(f"{at}/{it}", encoding="utf-8") as file:
                count += len(TEST.findall(file.read()))
    return count


def status(crates):
    """The exit status of the tests of these crates, which is bad too where fewer were run than there are."""
    with tempfile.TemporaryDirectory(prefix="crate-tests-") as top:
        joined = Joined(top, NAME)
        for it in crates:
            joined.take_crate(it)
        joined.begin("lib.rt")
        words = [shutil.which("rt"), "try", "--test"]
        ran = subprocess.run(words, cwd=joined.crate, stdout=subprocess.PIPE, stderr=subprocess.STDOUT, text=True, errors="replace", check=False)
        wanted = tests_in(f"{joined.crate}/src")
    print(ran.stdout, end="")
    if ran.returncode == 0 and PASSED.findall(ran.stdout) != [str(wanted)]:
        print(f"{wanted} tests stand in {' '.join(crates)}, and not all were run")
        return 1
    return ran.returncode


if __name__ == "__main__":
    sys.exit(status(sys.argv[1:] or sys.exit(__doc__)))
