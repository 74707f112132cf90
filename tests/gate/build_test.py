"""What `tools/build.py` does with crates that wait for each other, with the prover played by a script. It takes seconds."""

import contextlib
import io
import os
import re
import sys
import time
import unittest
from unittest import mock

sys.path[1:1] = [f"{sys.path[0]}/..", f"{sys.path[0]}/../../tools"]
import build
from lib.made import MadeFolder

CRATES = "base:\nleft: base\nright: base\ntop: left right\naside:\n"

# It notes when it begins and ends and what it is told; it refuses a crate that the file `refused` names, and warns of one that
# `warned` names.
PROVER = """#!/bin/sh
name=; to=; last=
for word in "$@"; do
    case $last in --crate-name) name=$word;; -o) to=$word;; esac
    last=$word
done
echo "begins $name $*" >>{folder}/log
sleep 0.5
echo "fn $name::good: proved"
if grep -qsx "$name" {folder}/refused; then
    echo "fn $name::bad: no proof: a goal is open"
    exit 1
fi
if grep -qsx "$name" {folder}/warned; then
    echo "./specs/A.antt warning: this pattern binds a variable spelled like a constructor: other"
fi
mkdir -p "$to"
echo "ends $name" >>{folder}/log
"""


class Builds(MadeFolder):
    def setUp(self):
        super().setUp()
        self.write("crates.txt", CRATES)
        self.write("prover", PROVER.replace("{folder}", self.folder))
        os.chmod(f"{self.folder}/prover", 0o755)
        for name in ("base", "left", "right", "top", "aside"):
            self.write(f"crates/{name}/src/lib.rt", "//! A crate.\n")

    def build(self, *words, says_every=10, free=100_000_000_000):
        """The status, the printed lines, and what the prover was asked and ended, in order."""
        self.write("log", "")
        played = {"ROOT": self.folder, "SAYS_EVERY": says_every, "free_bytes": lambda: free}
        with mock.patch.multiple(build, **played), mock.patch.object(build.rtlib, "RATTLE", f"{self.folder}/prover"):
            with mock.patch.object(sys, "argv", ["build.py", *words]):
                with contextlib.redirect_stdout(io.StringIO()) as said:
                    status = build.main()
        with open(f"{self.folder}/log", encoding="utf-8") as file:
            return status, said.getvalue().splitlines(), file.read().splitlines()

    def order(self, *words, **how):
        status, _, log = self.build(*words, **how)
        self.assertEqual(status, 0)
        return [" ".join(it.split()[:2]) for it in log]

    def test_what_does_not_wait_for_each_other_is_built_at_once(self):
        order = self.order("top", "--lanes", "2")
        self.assertEqual(order[:2], ["begins base", "ends base"])
        self.assertEqual(sorted(order[2:4]), ["begins left", "begins right"])
        self.assertEqual(order[-2:], ["begins top", "ends top"])

    def test_with_one_lane_or_little_memory_one_stands_after_the_other(self):
        for how in ({"words": ("--lanes", "1")}, {"words": ("--lanes", "4"), "free": 4_000_000_000}):
            order = self.order("top", *how.pop("words"), **how)
            self.assertEqual([it.split()[0] for it in order], ["begins", "ends"] * 4)
            self.write("crates/base/src/lib.rt", f"//! A crate, {time.time()}.\n")

    def test_only_what_the_crate_needs_is_built_and_only_what_changed_again(self):
        self.assertEqual(len(self.order("top")), 8)
        self.assertEqual(self.order("top"), [])
        self.write("crates/left/src/lib.rt", "//! Another.\n")
        self.assertEqual(self.order("top"), ["begins left", "ends left", "begins top", "ends top"])

    def test_the_first_that_is_refused_ends_it_with_its_lines(self):
        self.write("refused", "left\n")
        status, lines, log = self.build("top", "--lanes", "1")
        self.assertEqual(status, 1)
        self.assertIn("fn left::bad: no proof: a goal is open", lines)
        self.assertNotIn("fn left::good: proved", lines)
        self.assertIn("left NOT PROVED", lines[-1])
        self.assertFalse([it for it in log if it.startswith("begins top")])
        self.write("refused", "")
        again = self.order("top", "--lanes", "1")
        self.assertNotIn("begins base", again)
        self.assertIn("ends top", again)

    def test_what_the_gate_refuses_of_a_proved_crate_is_refused(self):
        self.write("warned", "left\n")
        status, lines, log = self.build("top", "--lanes", "1")
        self.assertEqual(status, 1)
        self.assertTrue(any("spelled like a constructor" in it for it in lines), lines)
        self.assertFalse([it for it in log if it.startswith("begins top")])
        self.write("warned", "")
        self.assertIn("ends left", self.order("top", "--lanes", "1"))

    def test_it_keeps_going_with_what_does_not_stand_on_what_was_refused(self):
        self.write("refused", "left\n")
        status, lines, log = self.build("top", "--lanes", "1", "--keep-going")
        self.assertEqual(status, 1)
        self.assertIn("fn left::bad: no proof: a goal is open", lines)
        self.assertIn("2 of 4 crates, not proved: left", lines[-1])
        self.assertIn("ends right", log)
        self.assertFalse([it for it in log if it.startswith("begins top")])

    def test_it_says_how_far_it_is(self):
        _, lines, _ = self.build("top", says_every=0.2)
        said = [it for it in lines if re.match(r"\d+:\d\d  \d of 4 crates, under way: \w+ \d+:\d\d", it)]
        self.assertTrue(len(said) >= 3, lines)
        self.assertTrue(any("left" in it and "right" in it for it in said), lines)
        self.assertRegex(lines[-1], "4 of 4 crates, all proved and built")

    def test_libraries_hold_statements_but_where_a_check_is_to_take_them(self):
        _, _, log = self.build("aside")
        self.assertIn("--statements", log[0].split())
        _, _, log = self.build("aside", "--for-checks")
        self.assertNotIn("--statements", log[0].split())
        self.assertIn("--empty-contracts", log[0].split())
        self.assertEqual(self.order("aside"), [])

    def test_an_unknown_crate_is_told(self):
        with self.assertRaisesRegex(SystemExit, "no crate gone"):
            self.build("gone")


if __name__ == "__main__":
    unittest.main()
