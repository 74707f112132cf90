"""Finds what `rt ci` refuses of a crate's text before it proves anything, in seconds; `rt check` doesn't look.

    python3 tests/gate/layout.py [CRATE]..

That is: a file that isn't laid out as `rt fmt` does; an operator that isn't the library's own; a tactic's word where it is no
name; a name of the kit's that something else is given. It needs the kit's rt on the path. The last line is `N passed, M failed`.
"""

import importlib.machinery
import importlib.util
import os
import shutil
import subprocess
import sys

sys.path.insert(1, f"{sys.path[0]}/..")
from lib.places import ROOT

RT = os.path.realpath(shutil.which("rt") or sys.exit("rt isn't on the path"))
sys.path.insert(0, os.path.dirname(RT))
sys.dont_write_bytecode = True
import rtlib  # the kit's own module, beside rt


def module_of(path):
    """The rt program as a module, which has one of the tests of a text."""
    loader = importlib.machinery.SourceFileLoader("rt", path)
    made = importlib.util.module_from_spec(importlib.util.spec_from_loader("rt", loader))
    loader.exec_module(made)
    return made


rt = module_of(RT)


def is_laid_out(crate):
    """Whether the crate's files are as `rt fmt` would leave them; those that aren't are told."""
    files = [it for it in rtlib.files_of(crate.folder) if it.endswith((".rt", ".antt"))]
    return subprocess.run([rtlib.RATTLE, "fmt", "--check", *files], check=False).returncode == 0


def passes(test, crate):
    """Whether one of the kit's tests of a text passes: it tells why, and exits, where it doesn't."""
    try:
        test(crate)
    except SystemExit:
        return False
    return True


def tests_of_text(crate):
    yield is_laid_out(crate)
    yield passes(lambda it: rtlib.stop_on_text(it, "verdict"), crate)
    yield passes(rt.stop_on_words, crate)


def counts(root, names):
    """How many tests of the texts below a root passed and failed."""
    crates = {it.name: it for it in rtlib.crates_below(root)}
    told = [it for name in names or crates for it in tests_of_text(crates[name])]
    return told.count(True), told.count(False)


def main():
    passed, failed = counts(ROOT, sys.argv[1:])
    print(f"{passed} passed, {failed} failed")
    return failed > 0


if __name__ == "__main__":
    sys.exit(main())
