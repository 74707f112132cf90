"""What `tools/vendor.py` copies into another repository, finds changed there, and refuses. It takes seconds."""

import contextlib
import io
import pathlib
import subprocess
import sys
import unittest
from unittest import mock

sys.path[1:1] = [f"{sys.path[0]}/..", f"{sys.path[0]}/../../tools"]
import vendor
from lib.made import MadeFolder

CRATES = "# Lowest first.\n# What all use.\nbase:\nleft may_wait=2: base arrayvec\n# The top.\ntop: left\naside: base\n"
SOURCES = {"base": "pub fn one() {}\n", "left": "use std::sync::{Mutex, Wait};\n", "top": "use std::net::Net;\n", "aside": "\n"}
OWN = "# Mine.\nmine: top\n"


class Vendors(MadeFolder):
    def setUp(self):
        super().setUp()
        self.here, self.there = pathlib.Path(self.folder) / "here", pathlib.Path(self.folder) / "there"
        self.there.mkdir()
        for path, text in {"crates.txt": CRATES, "LICENSE": "a licence\n", "README.md": "It needs logic 0123456789abcdef.\n"}.items():
            self.write(f"here/{path}", text)
        for name, text in SOURCES.items():
            self.write(f"here/crates/{name}/src/lib.rt", text)
            for path in ("README.md", "specs/Lib.antt", "proofs/f/Proof.antt", "must-fail/a.edit", "out/rlib/format", "stdout"):
                self.write(f"here/crates/{name}/{path}", f"{name}\n")
        self.patched(mock.patch.object(vendor, "ROOT", self.here))

    def ran(self, *words):
        with contextlib.redirect_stdout(io.StringIO()) as said:
            status = vendor.main([*words, str(self.there)])
        return status, said.getvalue()

    def files(self):
        return sorted(it.relative_to(self.there).as_posix() for it in self.there.rglob("*") if it.is_file())

    def text(self, path):
        return (self.there / path).read_text(encoding="utf-8")

    def test_a_crate_comes_with_all_below_it_and_the_licence_and_without_tests(self):
        self.assertEqual(self.ran("left")[0], 0)
        parts = ("LICENSE", "README.md", "proofs/f/Proof.antt", "specs/Lib.antt", "src/lib.rt")
        self.assertEqual(self.files(), ["crates.txt", *(f"crates/{name}/{it}" for name in ("base", "left") for it in parts), "hobrintza.sha256"])
        self.assertIn("proved by logic 0123456789abcdef.", self.text("hobrintza.sha256"))

    def test_the_lines_of_crates_txt_come_with_their_comments_and_the_readers_own_stay(self):
        self.write("there/crates.txt", OWN)
        for names, lines in ((["left"], ["# What all use.", "base:", "left may_wait=2: base arrayvec"]),
                             (["top"], ["# What all use.", "base:", "left may_wait=2: base arrayvec", "# The top.", "top: left"])):
            self.ran(*names)
            self.assertEqual(self.text("crates.txt").splitlines(), [vendor.BEGIN, *lines, vendor.END, "# Mine.", "mine: top"])

    def test_what_was_copied_before_stays_and_is_brought_up_to_date(self):
        self.ran("top")
        self.write("there/crates/base/out/kept", "built\n")
        self.write("here/crates/base/src/two.rt", "two\n")
        (self.here / "crates/base/specs/Lib.antt").unlink()
        self.assertEqual(self.ran("aside")[0], 0)
        self.assertIn("crates/base/src/two.rt", self.files())
        self.assertIn("crates/base/out/kept", self.files())
        self.assertNotIn("crates/base/specs/Lib.antt", self.files())
        self.assertEqual(self.ran("--check"), (0, "4 crates are as they were copied\n"))

    def test_sha256sum_reads_the_digests(self):
        self.ran("top")
        words = ["sha256sum", "--check", "--strict", "--quiet", "hobrintza.sha256"]
        self.assertEqual(subprocess.run(words, cwd=self.there, capture_output=True, check=False).returncode, 0)
        self.write("there/crates/left/src/lib.rt", "another\n")
        self.assertNotEqual(subprocess.run(words, cwd=self.there, capture_output=True, check=False).returncode, 0)

    def test_a_check_tells_what_was_changed_and_nothing_is_written_over_it(self):
        for path, text, told in (
            ("crates/left/src/lib.rt", "another\n", "crates/left/src/lib.rt is changed"),
            ("crates/base/src/more.rt", "more\n", "crates/base/src/more.rt was added"),
            ("crates/base/LICENSE", None, "crates/base/LICENSE is gone"),
            ("crates.txt", OWN, "crates.txt has no line of left in the block of copied crates"),
        ):
            with self.subTest(path):
                self.ran("left")
                before = self.text(path) if (self.there / path).is_file() else None
                self.write(f"there/{path}", text) if text else (self.there / path).unlink()
                status, said = self.ran("--check")
                self.assertEqual((status, told in said.splitlines()), (1, True), said)
                status, said = self.ran("top")
                self.assertEqual((status, said.endswith("nothing is written\n")), (1, True), said)
                self.assertNotIn("crates/top/src/lib.rt", self.files())
                self.write(f"there/{path}", before) if before else (self.there / path).unlink()

    def test_a_crate_of_the_readers_own_is_not_written_over(self):
        for path, text in (("crates.txt", "base: std\n"), ("crates/base/src/lib.rt", "mine\n")):
            with self.subTest(path):
                self.write(f"there/{path}", text)
                status, said = self.ran("left")
                self.assertEqual((status, "has crates of its own named base" in said, self.text(path)), (1, True, text), said)
                (self.there / path).unlink()

    def test_an_unknown_name_is_told_and_so_is_one_that_is_gone_here(self):
        self.assertEqual(self.ran("left", "gone"), (1, "crates.txt here names no gone\nnothing is written\n"))
        self.ran("aside")
        self.write("here/crates.txt", CRATES.replace("aside: base\n", ""))
        status, said = self.ran("left")
        self.assertEqual((status, "no crate any more" in said and "aside" in said), (1, True), said)

    def test_handles_that_are_not_allowed_are_told(self):
        self.assertEqual(self.ran("base")[1], "copied: base\n")
        self.assertIn("HANDLES has to allow Wait, Net\n", self.ran("top")[1])
        self.write("there/HANDLES", "Handles allowed: Wait, Net.\n")
        self.assertNotIn("HANDLES", self.ran("top")[1])

    def test_a_folder_that_is_not_there_and_this_repository_are_refused(self):
        for words in (["left"], ["left", f"{self.there}/gone"], ["left", str(self.here)], ["--check"], ["left", "--check"], ["--built"], ["--built", str(self.there)], ["--check", "left", str(self.there)]):
            with self.assertRaises(SystemExit):
                vendor.main(words)

    def with_libraries(self, *proved):
        """Has these crates stand proved here, each with a library of its own."""
        for name in proved:
            self.write(f"here/crates/{name}/out/rlib/{name}.rlib/code", f"code of {name}\n")
            self.write(f"here/crates/{name}/out/rlib/stamp", f"sum of {name}")
        self.patched(mock.patch.object(vendor, "unproved", lambda names: [it for it in names if it not in proved]))

    def test_libraries_come_along_where_all_of_them_stand_proved(self):
        self.with_libraries("base")
        self.assertEqual(self.ran("--built", "left")[0], 1)
        self.assertEqual(self.files(), [])
        self.with_libraries("base", "left")
        status, said = self.ran("--built", "left")
        self.assertEqual((status, "proved already: base left\n" in said), (0, True), said)
        self.assertEqual(self.text("crates/left/out/rlib/left.rlib/code"), "code of left\n")
        self.assertEqual(self.text("crates/left/out/rlib/stamp"), "sum of left")
        self.assertEqual(self.ran("--check"), (0, "2 crates are as they were copied, and 2 libraries\n"))

    def test_a_library_that_is_changed_or_of_other_sources_is_told(self):
        self.with_libraries("base", "left")
        for path, told in (
            ("crates/left/out/rlib/left.rlib/code", "the library of left is changed, or proved anew since"),
            ("crates/left/out/rlib/stamp", "the library of left is changed, or proved anew since"),
            ("crates/left/out/rlib/left.rlib/more", "the library of left is changed, or proved anew since"),
            ("crates/base/src/lib.rt", "crates/base/src/lib.rt is changed"),
        ):
            with self.subTest(path):
                before = [self.ran("--built", "left"), self.ran("--check")]
                self.assertEqual([it[0] for it in before], [0, 0], before)
                kept = self.text(path) if (self.there / path).is_file() else None
                self.write(f"there/{path}", "another\n")
                self.assertEqual(self.ran("--check"), (1, f"{told}\n"))
                self.write(f"there/{path}", kept) if kept else (self.there / path).unlink()
        self.write("here/crates/base/src/lib.rt", "pub fn two() {}\n")
        self.ran("left")
        self.assertEqual(self.ran("--check"), (1, "the library of base was proved from other sources\n"))

    def test_a_check_where_nothing_was_copied_fails(self):
        self.assertEqual(self.ran("--check"), (1, "0 crates are as they were copied\n"))


if __name__ == "__main__":
    unittest.main()
