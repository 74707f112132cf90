"""What `wrong_bodies.py` makes of receipts, with the checker played over two made crates. It takes a few seconds."""

import contextlib
import io
import os
import re
import tempfile
import unittest
from unittest import mock

import wrong_bodies
from lib import checker, receipts
from lib.played_checks import SEARCHED, says


class Repository:
    """Two made crates, `high` over `low`, of eight functions and wrong bodies each, and a prover that knows right bodies."""

    def __init__(self, folder):
        self.folder, self.kit, self.unproved, self.tried = folder, "kit-1 logic a1\n", set(), []
        self.write("crates.txt", "low:\nhigh: low\n")
        self.write(receipts.NAME, "")
        for crate in ("low", "high"):
            bodies = [f"pub fn f{n}(x: u64) -> u64 {{\n    x + {n}\n}}\n" for n in range(8)]
            self.write(f"crates/{crate}/src/lib.rt", "".join(bodies))
            self.write(f"crates/{crate}/specs/Lib.antt", "pub mod Sums\n")
            self.write(f"crates/{crate}/proofs/Lib.antt", "mod Sums\n")
            for n in range(8):
                self.edit(crate, n, f"{n} + x + 1")

    def write(self, path, text):
        path = f"{self.folder}/{path}"
        os.makedirs(os.path.dirname(path), exist_ok=True)
        with open(path, "w", encoding="utf-8") as file:
            file.write(text)

    def read(self, path):
        with open(f"{self.folder}/{path}", encoding="utf-8") as file:
            return file.read()

    def edit(self, crate, n, new):
        lines = f"refused: {crate}::f{n}\nfile: src/lib.rt\nold:     x + {n}\nnew:     {new}\n"
        self.write(f"crates/{crate}/wrong-bodies/f{n}_adds.edit", lines)

    def check(self, crate, texts, flags, kept):
        """As a check of the named functions: proved where the body has no third summand."""
        names, said = flags[1::2], []
        self.tried += [f"{crate.name}/{it}_adds" for it in names]
        for name in names:
            body = re.search(rf"fn {name}\(.*\n(.*)\n", texts["src/lib.rt"])[1]
            said.append(f"fn {crate.name}::{name}: {SEARCHED if body.count('+') > 1 else 'proved'}")
        wrong = sum("no proof" in it for it in said)
        return says(*said, last=f"only={len(said)} proved={len(said) - wrong}", status=int(wrong > 0))

    def run(self, *words, commit="one"):
        """The status, the lines that it printed, and the bodies that it tried, with the sample chosen by `commit`."""
        self.tried = []
        played = {"check": self.check, "prove": lambda it: it.name not in self.unproved}
        played["crates"] = lambda: checker.rtlib.crates_below(self.folder)
        played["run"] = lambda words, folder: checker.Run(self.kit, 0, 0.0, {})
        at = mock.patch.object(receipts, "ROOT", self.folder)
        with at, mock.patch.multiple(checker, **played), contextlib.redirect_stdout(io.StringIO()) as said:
            with mock.patch.object(receipts, "seed", lambda crates, standing: commit):
                status = wrong_bodies.main([*words])
        return status, said.getvalue().splitlines(), sorted(set(self.tried))


ALL = sorted(f"{crate}/f{n}_adds" for crate in ("low", "high") for n in range(8))


class Receipts(unittest.TestCase):
    def setUp(self):
        folder = tempfile.TemporaryDirectory()
        self.addCleanup(folder.cleanup)
        self.here = Repository(folder.name)
        self.assertEqual(self.here.run("--all")[0], 0)

    def tried(self, *words, **how):
        status, lines, tried = self.here.run(*words, **how)
        self.assertEqual((status, lines[-1]), (0, f"{len(tried)} passed, 0 failed"))
        return tried

    def test_a_whole_run_gives_each_refused_body_a_receipt(self):
        self.assertEqual([it.split()[0] for it in self.here.read(receipts.NAME).splitlines()], ALL)

    def test_what_has_a_receipt_is_passed_over_save_one_in_eight(self):
        status, lines, tried = self.here.run()
        self.assertEqual((status, len(tried)), (0, 2))
        counted = "14 taken from receipts; of 16 that have one, 2 were tried all the same"
        self.assertEqual(lines[-2:], [counted, "2 passed, 0 failed"])
        self.assertEqual(self.tried(), tried)

    def test_commits_choose_other_samples_until_every_body_was_in_one(self):
        samples = [self.tried(commit=f"commit {it}") for it in range(100)]
        self.assertEqual(sorted({it for sample in samples for it in sample}), ALL)
        self.assertEqual({len(it) for it in samples}, {2})

    def test_all_tries_every_one(self):
        self.assertEqual(self.tried("--all"), ALL)

    def test_a_body_whose_edit_changed_is_tried(self):
        for commit in ("one", "two", "three"):
            self.here.edit("high", 3, f"3 + x + {len(commit)}")
            self.assertIn("high/f3_adds", self.tried(commit=commit))

    def stale_by(self, path, old, new):
        """The bodies that are tried for each of 20 samples once a text has changed, whatever the sample."""
        text = self.here.read(path)
        self.assertIn(old, text)
        self.here.write(path, text.replace(old, new, 1))
        tried = [set(self.tried(commit=f"commit {it}")) for it in range(20)]
        self.here.write(path, text)
        return sorted(set.intersection(*tried))

    def test_a_byte_of_a_crate_makes_its_bodies_and_those_above_tried(self):
        of_high = [it for it in ALL if it.startswith("high/")]
        changes = [("src/lib.rt", "{\n", "{ \n"), ("specs/Lib.antt", "S", "s"), ("proofs/Lib.antt", "S", "s")]
        for part, old, new in changes:
            self.assertEqual(self.stale_by(f"crates/high/{part}", old, new), of_high)
            self.assertEqual(self.stale_by(f"crates/low/{part}", old, new), ALL)

    def test_a_line_of_crates_txt_makes_the_bodies_above_it_tried(self):
        self.assertEqual(self.stale_by("crates.txt", "high:", "high may_wait=1:"), [it for it in ALL if "high" in it])
        self.assertEqual(self.stale_by("crates.txt", "low:", "low may_wait=1:"), ALL)

    def test_another_logic_and_other_judges_make_every_body_tried(self):
        with mock.patch.object(self.here, "kit", "kit-1 logic b2\n"):
            self.assertEqual(self.tried(), ALL)
        with mock.patch.object(receipts, "JUDGES", receipts.JUDGES[1:]):
            self.assertEqual(self.tried(), ALL)
        self.assertEqual(len(self.tried()), 2)

    def test_another_kit_of_the_same_logic_takes_the_receipts(self):
        with mock.patch.object(self.here, "kit", "kit-2 logic a1\n"):
            self.assertEqual(len(self.tried()), 2)

    def test_a_kit_that_names_no_logic_ends_the_run(self):
        with mock.patch.object(self.here, "kit", "kit-2\n"), self.assertRaisesRegex(SystemExit, "names no logic"):
            self.here.run()

    def test_a_forged_receipt_is_none(self):
        lines = self.here.read(receipts.NAME).splitlines()
        other = lines[0].split()[1]
        for forged in ("0" * 40, other, "yes", ""):
            self.here.write(receipts.NAME, "\n".join([*lines[:-1], f"{ALL[-1]} {forged}"]) + "\n")
            for commit in ("one", "two", "three"):
                self.assertIn(ALL[-1], self.tried(commit=commit), forged)

    def test_a_right_body_without_a_receipt_fails_and_gets_none(self):
        self.here.edit("low", 5, "5 + x")
        for words in ((), ("--write",), ("--all",)):
            status, lines, _ = self.here.run(*words)
            self.assertEqual((status, lines[-3]), (1, "FAILED: low/f5_adds"))
            self.assertRegex(lines[-1], "^[0-9]+ passed, 1 failed$")
            self.assertTrue(any("NOT REFUSED" in it for it in lines))
        self.assertNotIn("low/f5_adds", self.here.read(receipts.NAME))

    def test_a_right_body_with_a_receipt_fails_the_gate_when_the_sample_has_it(self):
        self.here.edit("low", 5, "5 + x")
        with mock.patch.object(wrong_bodies, "judged", lambda run, batch, names: [wrong_bodies.Verdict(True, "")] * len(batch)):
            self.here.run("--all")
        runs = [self.here.run(commit=f"commit {it}") for it in range(100)]
        found = [status for status, _, tried in runs if "low/f5_adds" in tried]
        self.assertEqual({status for status, _, tried in runs if "low/f5_adds" not in tried}, {0})
        self.assertTrue(found and set(found) == {1})
        told = [line for _, lines, _ in runs for line in lines if "though its receipt says that it is refused" in line]
        self.assertEqual(len(told), len(found))
        self.assertEqual(self.here.run("--all")[0], 1)

    def test_a_body_of_a_crate_that_is_not_proved_gets_no_receipt(self):
        self.here.write("crates/low/src/lib.rt", self.here.read("crates/low/src/lib.rt") + "\n")
        before = self.here.read(receipts.NAME)
        self.here.unproved = {"low"}
        for words in ((), ("--write",), ("--all",)):
            status, lines, tried = self.here.run(*words)
            self.assertEqual((status, lines[-1], tried), (1, "0 passed, 1 failed", []))
        self.assertEqual(self.here.read(receipts.NAME), before)

    def test_only_a_run_that_is_told_to_writes(self):
        self.here.write("crates/low/src/lib.rt", self.here.read("crates/low/src/lib.rt") + "\n")
        before = self.here.read(receipts.NAME)
        self.assertEqual(self.tried(), ALL)
        self.assertEqual(self.here.read(receipts.NAME), before)
        self.assertEqual(self.tried("--write", "low"), [it for it in ALL if "low" in it])
        of_high = [it for it in before.splitlines() if it.startswith("high")]
        now = self.here.read(receipts.NAME).splitlines()
        self.assertEqual([it for it in now if it.startswith("high")], of_high)
        self.assertFalse(set(now) & {it for it in before.splitlines() if it.startswith("low")})
        self.assertEqual(len(now), 16)


if __name__ == "__main__":
    unittest.main()
