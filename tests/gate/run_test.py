"""What `tests/gate/run.py` counts and says of parts that pass, fail, and print other text than is stored; and that each script has a
row in its table, and takes from `tests/lib` alone. It takes seconds."""

import ast
import contextlib
import io
import os
import re
import sys
import unittest
from unittest import mock

import run
from lib import run_table
from lib.made import MadeFolder


class Runs(MadeFolder):
    def setUp(self):
        super().setUp()
        self.patched(mock.patch.object(run, "ROOT", self.folder), mock.patch.dict(os.environ))
        os.environ.pop("POLLRELAY", None)

    def part(self, name, script, **how):
        return run.Part(name, ["sh", "-c", script], 0, **how)

    def ran(self, *parts, lanes=2):
        """The numbers that passed and failed, and the printed lines."""
        whole = run.Run(list(parts), lanes)
        with contextlib.redirect_stdout(io.StringIO()) as said:
            whole.run()
        return whole.passed, whole.failed, said.getvalue()

    def stored(self, text):
        return self.write("stdout", text)

    def test_numbers_are_those_that_a_part_says(self):
        parts = self.part("rt", "echo 'test result: ok. 7 passed; 0 failed'"), self.part("script", "echo 3 passed, 0 failed")
        self.assertEqual(self.ran(*parts)[:2], (10, 0))

    def test_a_part_that_says_no_number_is_one(self):
        self.assertEqual(self.ran(self.part("quiet", "true"))[:2], (1, 0))
        self.assertEqual(self.ran(self.part("python", "echo 'Ran 5 tests in 1s' >&2"))[:2], (5, 0))

    def test_a_status_that_is_bad_has_failed_whatever_is_said(self):
        passed, failed, said = self.ran(self.part("liar", "echo 9 passed, 0 failed; exit 3"))
        self.assertEqual((passed, failed), (9, 1))
        self.assertIn("FAILED  liar", said)
        self.assertIn("alone: sh tests/run.sh liar", said)

    def test_what_failed_is_shown(self):
        passed, failed, said = self.ran(self.part("crate", "echo test close_ends_a_read ... FAILED; echo '4 passed; 2 failed'; exit 1"))
        self.assertEqual((passed, failed), (4, 2))
        self.assertIn("close_ends_a_read ... FAILED", said)

    def test_a_failure_that_many_lines_follow_is_shown(self):
        early, many = "echo 'test a_row ... FAILED'; echo 'test b_row ... ok'", "for n in $(seq 60); do echo line $n.; done; false"
        said = self.ran(self.part("long", f"{early}; {many}"))[2]
        self.assertIn("test a_row ... FAILED", said)
        self.assertIn("line 21.", said)
        self.assertNotIn("b_row", said)

    def test_a_printed_text_is_compared(self):
        self.assertEqual(self.ran(self.part("same", "echo hello", wanted=self.stored("hello\n")))[:2], (1, 0))
        self.assertEqual(self.ran(self.part("other", "echo hullo", wanted=self.stored("hello\n")))[:2], (0, 1))
        self.assertEqual(self.ran(self.part("ended", "echo hello; exit 1", wanted=self.stored("hello\n")))[:2], (0, 1))

    def test_the_hint_of_a_run_is_ended_and_no_other_process(self):
        hint, other = (f'python3 -c "import time; time.sleep(5)" "{it}" & wait $!; echo $?' for it in ("no function", "no fun"))
        for script, status in ((hint, "137"), (other, "0")):
            part = self.part("rt", f"{script} >{self.folder}/status; echo 1 passed, 0 failed")
            self.assertEqual(self.ran(part)[:2], (1, 0))
            with open(f"{self.folder}/status", encoding="ascii") as file:
                self.assertEqual(status, file.read().strip())

    def test_parts_on_the_program_have_it(self):
        program = self.part(run.PROGRAM, "sleep 0.3; echo /bin/true")
        asks = self.part("asks", 'test "$POLLRELAY" = /bin/true', needs=[run.PROGRAM])
        self.assertEqual(self.ran(program, asks)[:2], (2, 0))

    def test_parts_on_a_program_that_was_not_built_have_failed(self):
        program = self.part(run.PROGRAM, "exit 1")
        passed, failed, said = self.ran(program, self.part("asks", "true", needs=[run.PROGRAM]))
        self.assertEqual((passed, failed), (0, 2))
        self.assertIn("asks", said)

    def test_a_part_that_lacks_a_file_has_failed(self):
        passed, failed, said = self.ran(self.part("asks", "true", lacking="out/program"))
        self.assertEqual((passed, failed), (0, 1))
        self.assertIn("there is no out/program", said)

    def test_a_part_that_runs_alone_does(self):
        note = f"{self.folder}/note"
        beside = self.part("beside", f"echo in >> {note}; sleep 0.5; echo out >> {note}")
        alone = self.part("alone", f"echo alone >> {note}", needs=["alone"])
        self.ran(alone, beside)
        with open(note, encoding="utf-8") as file:
            self.assertEqual(file.read().split(), ["in", "out", "alone"])

    def test_a_part_that_sleeps_takes_no_lane_of_one_that_computes(self):
        waits = f"for _ in $(seq 100); do test -e {self.folder}/note && exit 0; sleep 0.1; done; exit 1"
        computes = self.part("computes", waits)
        sleeps = self.part("sleeps", f"touch {self.folder}/note", needs=["sleeps"])
        self.assertEqual(self.ran(computes, sleeps, lanes=1)[:2], (2, 0))

    def test_a_part_that_takes_too_long_is_ended(self):
        with mock.patch.object(run, "PART_SECONDS", 0.3), mock.patch("os.getloadavg", return_value=(0, 0, 0)):
            self.assertEqual(self.ran(self.part("hangs", "sleep 60"))[:2], (0, 1))

    def test_a_part_that_takes_long_on_a_busy_machine_is_not_ended(self):
        with mock.patch.object(run, "PART_SECONDS", 0.3), mock.patch("os.getloadavg", return_value=(100 * run.PROCESSORS, 0, 0)):
            self.assertEqual(self.ran(self.part("waits", "sleep 1"))[:2], (1, 0))

    def test_tiers_and_names_choose_parts_and_the_program_comes_where_it_is_needed(self):
        rows = ("| `one` | quick | 9 |  | `sh one` | x |", "| `two` | full | 5 | program, alone, gcc | `sh two` | x |", "| `three` | gate | 5 |  | `sh three` | x |", "| `four` | quick | 3 | program | `sh four` | x |")
        self.write("tests/README.md", "\n".join(rows))
        chosen = lambda *names: [it.name for it in run.chosen_parts(names)]
        self.assertEqual((chosen(), chosen("quick"), chosen("three")), (["program", "one", "four"], ["program", "one", "four"], ["three"]))
        self.assertEqual((chosen("full"), chosen("two", "one")), (["program", "one", "two", "four"], ["program", "one", "two"]))
        os.environ["POLLRELAY"] = "/bin/true"
        self.assertEqual((chosen("two"), chosen("outside")), (["two"], ["four"]))

    def test_tests_of_a_crate_are_run_with_those_of_others_or_alone(self):
        self.write("crates.txt", "one:\ntwo: one\nthree:\n")
        for name in ("one", "two"):
            self.write(f"crates/{name}/src/lib.rt", "#[test]\n")
        self.write("tests/README.md", "| `both` | quick | 9 |  | `sh both one` | x |")
        chosen = lambda *names: [it.name for it in run.chosen_parts(names)]
        self.assertEqual((chosen(), chosen("one"), chosen("full")), (["two", "both"], ["one"], ["two", "both"]))

    def test_files_and_the_proved_program_are_what_a_part_may_lack(self):
        for needs, lacking in (([], None), (["program"], None), (["out/it", "alone"], "out/it"), (["proved program"], run.PROVED)):
            self.assertEqual(run.part_of(run.Row("x", "full", 1, needs, "sh x", "y")).lacking, lacking)
        os.environ["POLLRELAY"] = "/bin/true"
        self.assertIsNone(run.part_of(run.Row("x", "full", 1, ["proved program"], "sh x", "y")).lacking)

    def table_of(self, *rows, words=()):
        """What the runner returns for a table of these parts, and the text that it writes."""
        self.write("tests/README.md", "\n".join(rows))
        path = f"{self.folder}/table"
        with mock.patch.object(sys, "argv", ["run.py", "--table", path, *words]), contextlib.redirect_stdout(io.StringIO()):
            status = run.main()
        with open(path, encoding="utf-8") as file:
            return status, file.read()

    def test_a_table_has_each_part_with_its_counts(self):
        rows = ("| `well` | quick | 9 |  | `echo 1207 passed, 0 failed` | x |", "| `ill` | full | 9 |  | `sh -c 'echo 4 passed, 2 failed; exit 1'` | x |", "| `mute` | quick | 9 |  | `true` | x |", "| `lacks` | quick | 9 | out/it | `true` | x |")
        status, text = self.table_of(*rows, words=["full"])
        self.assertEqual(re.findall(r"^\| `(\w+)` \| ([\w ]+) \| ([\d,]+) \| (\d+) \|$", text, re.M), [("ill", "0", "4", "2"), ("lacks", "not run", "0", "1"), ("mute", "0", "1", "0"), ("well", "0", "1,207", "0")])
        self.assertEqual((status, text.count("\n")), (1, 8))
        self.assertRegex(text, r"^`sh tests/run\.sh full` of \d{4}-\d\d-\d\d, .*commit.*, on \d+ processors, \d+ GiB of memory, Linux \S+, .*: 1,212 passed, 3 failed, in \d+ s\.\n\n\| Part ")

    def test_a_table_without_a_part_is_not_written(self):
        ended = [run_table.Ended("one", 1, 2, 0)]
        self.assertIn("| `one` | 1 | 2 | 0 |", run_table.table("", ["one"], ended, 3))
        with self.assertRaises(KeyError):
            run_table.table("", ["one", "two"], ended, 3)

    def test_a_table_that_cannot_be_written_is_refused_before_any_part_runs(self):
        with self.assertRaises(SystemExit), contextlib.redirect_stderr(io.StringIO()):
            with mock.patch.object(sys, "argv", ["run.py", "--table", f"{self.folder}/none/table", "one"]):
                run.main()

    def test_an_unknown_part_is_refused(self):
        with mock.patch.object(sys, "argv", ["run.py", "nobody"]), self.assertRaises(SystemExit) as refused:
            run.main()
        self.assertIn("nobody", str(refused.exception))


def scripts():
    """The scripts of tests/, by their paths from the top."""
    folders = ("gate", "system", "fuzz", "packaging")
    return [f"tests/{it}/{name}" for it in folders for name in os.listdir(f"{run.ROOT}/tests/{it}") if name.endswith((".py", ".sh"))]


def imported(path):
    """The modules that a script imports."""
    with open(f"{run.ROOT}/{path}", encoding="utf-8") as file:
        for it in ast.walk(ast.parse(file.read())):
            if isinstance(it, ast.Import):
                yield from (name.name for name in it.names)
            elif isinstance(it, ast.ImportFrom):
                yield it.module


# What a script tries that has another name than it says.
MORE_TESTED = {"planted_faults": {"relay_program", "relay_rows", "steering_storm"}, "receipts_test": {"wrong_bodies"}}


class Table(unittest.TestCase):
    def test_each_script_has_a_row_and_each_row_its_files(self):
        named = {word for row in run.rows() for word in row.command.split() if "/" in word}
        # (the runner, and what stands in for the program)
        self.assertEqual(set(scripts()) - named, {"tests/gate/run.py", "tests/system/wrong_relay.py"})
        self.assertEqual([it for it in named if not os.path.isfile(f"{run.ROOT}/{it}")], [])

    def test_each_row_is_read_and_no_name_stands_twice(self):
        with open(f"{run.ROOT}/tests/README.md", encoding="utf-8") as file:
            lines = [line for line in file if line.startswith("| `") and line.count("|") > 3]
        names = [it.name for it in run.parts()]
        self.assertEqual((len(run.rows()), len(set(names))), (len(lines), len(names)))

    def test_a_script_takes_from_lib_alone_but_for_what_it_tests(self):
        known = {os.path.basename(it)[:-3] for it in scripts()}
        for path in scripts():
            name = os.path.basename(path)[:-3]
            tested = MORE_TESTED.get(name, {name.removesuffix("_test")})
            if path.endswith(".py"):
                self.assertEqual(set(imported(path)) & known - tested, set(), path)


if __name__ == "__main__":
    unittest.main()
