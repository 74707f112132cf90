"""How `tools/unproved.py` finds that a program runs, with `sleep` in place of the program. It takes a second."""

import glob
import os
import shutil
import subprocess
import sys
import tempfile
import unittest
from collections import namedtuple

sys.path.insert(1, f"{sys.path[0]}/../../tools")
import unproved
from lib.waiting import TURNS, comes

Trial = namedtuple("Trial", "made")
# How often one is looked for that isn't there.
FEW = 100
# The loader by which the kit starts a program, and the system might.
LOADER = sorted(glob.glob("/lib*/ld-linux*.so*"))[-1]


class Runs(unittest.TestCase):
    def finds(self, *words, turns=TURNS):
        """Whether the program is found while these words run, in which PROGRAM is its path."""
        with tempfile.TemporaryDirectory() as folder:
            os.mkdir(f"{folder}/tried")
            program = f"{folder}/tried/program"
            shutil.copy(shutil.which("sleep"), program)
            process = subprocess.Popen([program if it == "PROGRAM" else it for it in words], stdin=subprocess.PIPE)
            try:
                return comes(lambda: unproved.runs(Trial(folder)), turns)
            finally:
                process.kill()
                process.communicate()

    def test_a_program_that_the_system_starts_is_found(self):
        self.assertTrue(self.finds("PROGRAM", "60"))

    def test_a_program_that_the_loader_starts_is_found(self):
        self.assertTrue(self.finds(LOADER, "PROGRAM", "60"))

    def test_what_only_names_the_program_is_not_it(self):
        self.assertFalse(self.finds("sh", "-c", "read line", "PROGRAM", turns=FEW))


if __name__ == "__main__":
    unittest.main()
