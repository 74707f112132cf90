#!/usr/bin/env python3
"""Follows docs/quickstart.md in an empty folder, as far as it goes by hand: writes its files, gives its commands with the program on
the path and ports that are free, and looks for what they have to print.

    python3 tests/system/quickstart.py

It installs Debian's curl where that is missing.
"""
import os
import re
import signal
import subprocess
import sys
import tempfile

sys.path.insert(1, f"{sys.path[0]}/..")
from lib.checks import Checks
from lib.follower import Follower
from lib.packages import install
from lib.places import PROGRAM, ROOT
from lib.sockets import free_port

# The ports that the page has.
PORT = re.compile(r"\b(?:808[0-9]|9464)\b")


def with_free_ports(page):
    found = {it: str(free_port()) for it in sorted(set(PORT.findall(page)))}
    return PORT.sub(lambda it: found[it[0]], page)


def end(path):
    """Ends the process whose number stands there, which a page that failed left."""
    try:
        with open(path, encoding="ascii") as file:
            os.kill(int(file.read()), signal.SIGTERM)
    except (OSError, ValueError):
        pass


def main():
    checks = Checks()
    install("curl:curl")
    with open(f"{ROOT}/docs/quickstart.md", encoding="utf-8") as file:
        page = with_free_ports(file.read())
    with tempfile.TemporaryDirectory(prefix="quickstart-") as folder:
        os.symlink(PROGRAM, f"{folder}/pollrelay")
        os.mkdir(f"{folder}/empty")
        follower = Follower(checks, f"{folder}/empty", {"PATH": f"{folder}:{os.environ['PATH']}"})
        try:
            follower.follow(page)
        finally:
            # (what a page that failed may leave)
            end(f"{folder}/empty/web.pid")
            subprocess.run([PROGRAM, "ctl", "--admin", f"{folder}/empty/admin.sock", "stop"], capture_output=True, check=False)
    return checks.end()


if __name__ == "__main__":
    sys.exit(main())
