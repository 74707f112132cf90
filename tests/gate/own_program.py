#!/usr/bin/env python3
"""Follows docs/your-own-program.md in an empty folder: writes its files, gives its commands, and looks for what they have to print.

    python3 tests/gate/own_program.py [--unproved]        with --unproved it leaves out the commands that prove
"""
import re
import sys
import tempfile

sys.path.insert(1, f"{sys.path[0]}/..")
from lib.checks import Checks
from lib.follower import Follower
from lib.places import ROOT
from lib.stages import options

PAGE = f"{ROOT}/docs/your-own-program.md"
PROVES = re.compile(r"\brt (check|run|lib|test|ci)\b|--(built|for-checks)\b")


def main():
    given, checks = options(__doc__, unproved=False), Checks()
    with open(PAGE, encoding="utf-8") as file:
        page = file.read()
    with tempfile.TemporaryDirectory(prefix="own-program-") as folder:
        Follower(checks, folder, {"HOBRINTZA": ROOT}, PROVES if given.unproved else None).follow(page)
    return checks.end()


if __name__ == "__main__":
    sys.exit(main())
