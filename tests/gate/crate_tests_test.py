"""How `crate_tests.py` joins crates, and what it takes for a pass, with a made `rt` in place of the kit's. It takes a second."""

import contextlib
import io
import os
import unittest
from unittest import mock

import crate_tests
from lib import joined
from lib.made import MadeFolder

CRATES = "low: std_low\none_tests tests_may=Wait: low net\ntwo_tests: low\n"
TESTS = "#[test]\nfn is_so() {}\n"
# Says how many passed, and leaves the crate that it was run in where the test finds it.
RT = """#!/bin/sh
cp -r ../.. "$KEPT"
echo "test result: $PASSES passed; 0 failed"
exit ${ENDS:-0}
"""


class Joins(MadeFolder):
    def setUp(self):
        super().setUp()
        self.write("crates.txt", CRATES)
        self.write("crates/low/src/lib.rt", "pub fn low() {}\n")
        self.write("crates/one_tests/src/lib.rt", "//! One.\n#![tactic(auto)]\n\n#[cfg(test)]\nmod tests;\n")
        self.write("crates/one_tests/src/tests.rt", f"mod rows;\nuse crate::tests::rows::ROWS;\n{TESTS}")
        self.write("crates/one_tests/src/tests/rows.rt", f"pub const ROWS: u8 = 1;\n{TESTS}")
        self.write("crates/two_tests/src/lib.rt", f"//! Two.\n#![tactic(auto)]\n\n{TESTS}")
        os.chmod(self.write("bin/rt", RT), 0o755)
        path = {"PATH": f"{self.folder}/bin:{os.environ['PATH']}", "KEPT": f"{self.folder}/kept"}
        self.patched(mock.patch.object(joined, "ROOT", self.folder), mock.patch.dict(os.environ, path))

    def status(self, passes, ends=0):
        with mock.patch.dict(os.environ, {"PASSES": str(passes), "ENDS": str(ends)}), contextlib.redirect_stdout(io.StringIO()):
            return crate_tests.status(["one_tests", "two_tests"])

    def kept(self, path):
        with open(f"{self.folder}/kept/{path}", encoding="utf-8") as file:
            return file.read()

    def test_all_tests_have_to_be_run_and_to_pass(self):
        self.assertEqual([self.status(3), self.status(2), self.status(3, ends=1)], [0, 1, 1])

    def test_each_crate_is_a_module_of_one_that_uses_what_they_use(self):
        self.status(3)
        self.assertEqual(self.kept("crates.txt"), f"{CRATES}joined_tests: low net\n")
        self.assertEqual(self.kept("crates/low/src/lib.rt"), "pub fn low() {}\n")
        source = "crates/joined_tests/src"
        self.assertIn("mod one_tests;\nmod two_tests;\n", self.kept(f"{source}/lib.rt"))
        self.assertEqual(self.kept(f"{source}/one_tests.rt"), "//! One.\n\n#[cfg(test)]\nmod tests;\n")
        self.assertIn("use crate::one_tests::tests::rows::ROWS;", self.kept(f"{source}/one_tests/tests.rt"))
        self.assertIn(TESTS, self.kept(f"{source}/one_tests/tests/rows.rt"))


if __name__ == "__main__":
    unittest.main()
