#!/usr/bin/env python3
"""Tests of the claims among the subjects of pages.py: names that are there pass, and each kind of name that isn't is told."""
import pathlib
import sys
import tempfile
import unittest
from unittest import mock

sys.path.insert(1, f"{sys.path[0]}/..")
from lib.pages import claims, quotes
from lib.pages.tree import Tree

SOURCE = """
/// A list of timers.
pub struct Timers {}

impl<A: Allocator> Timers<A> {
    pub fn arm(&mut self, at: u64) -> bool
        ensures armed { IsArmed self.new at }
        ensures* lends { self.new }
    {
        true
    }
}

pub fn next() -> u64
    ensures least { result ≡ 0 }
{
    0
}

pub fn unused() -> u64
    ensures field_of_none { result ≡ 0 }
{
    // arm
    next()
}
"""
LAWS = """
pub fn time_passes()
    ensures later { 0 < 1 }
{}
"""
PROGRAM = """
fn main() {
    begin();
}

fn begin() {
    Timers::new().arm(next());
}
"""
FACTS = "abbrev pub IsArmed : ℕ → Type 0\n  pub field : ℕ\nabbrev pub armed_at : ℕ → ℕ\n"


class Claims(unittest.TestCase):
    def setUp(self):
        with tempfile.TemporaryDirectory() as room:
            texts = (("timing/src/lib.rt", SOURCE), ("timing/src/laws.rt", LAWS), ("timing/specs/Facts.antt", FACTS),
                     ("pollrelay/src/main.rt", PROGRAM))
            (pathlib.Path(room) / "crates.txt").write_text("timing:\npollrelay: timing\n")
            for name, text in texts:
                file = pathlib.Path(room) / "crates" / name
                file.parent.mkdir(parents=True, exist_ok=True)
                file.write_text(text)
            self.tree = Tree(room)
            self.crates = {it: claims.crate_of(self.tree, it) for it in ("timing", "pollrelay")}
            # (a tree reads each file once)
            self.tree.text("crates.txt")

    def checked(self, cell, promise="it arms"):
        text = f"## Timers (`timing`)\n\n| Promise | Function and clause |\n|---|---|\n| {promise} | {cell} |\n"
        return claims.promises(text, self.tree, self.crates)

    def missing(self, cell):
        return [name for _, name in self.checked(cell)[0]]

    def not_as_said(self, *row):
        return self.checked(*row)[2]

    def test_names_that_are_there_pass(self):
        self.assertEqual(self.missing("`Timers::arm` `armed`, `lends` (`IsArmed`); `next` `least`"), [])

    def test_a_call_that_is_not_there_is_told(self):
        self.assertEqual(self.missing("`Timers::disarm` `armed`"), ["Timers::disarm"])

    def test_a_clause_of_another_call_is_told(self):
        self.assertEqual(self.missing("`next` `armed`"), ["armed"])

    def test_a_clause_that_one_of_two_calls_lacks_is_told(self):
        self.assertEqual(self.missing("`Timers::arm`, `next` `armed`"), ["armed"])

    def test_a_definition_is_no_clause_of_a_call(self):
        self.assertEqual(self.missing("`next` `armed_at`"), ["armed_at"])
        self.assertEqual(self.missing("`next` (`armed_at`)"), [])

    def test_a_function_that_a_program_comes_to_is_of_use(self):
        self.assertEqual(self.not_as_said("`next` `least`; `Timers::arm` `armed`"), [])

    def test_each_function_that_no_program_comes_to_is_told(self):
        self.assertEqual(self.not_as_said("`unused` `field_of_none`"), [(5, "unused")])
        self.assertEqual(self.not_as_said("`Timers::arm` `armed`; `unused` `field_of_none`"), [(5, "unused")])

    def test_a_row_of_definitions_alone_is_told(self):
        self.assertEqual(self.not_as_said("`IsArmed`"), [(5, "any function")])

    def test_a_call_of_a_crate_that_is_not_below_the_program_is_told(self):
        self.tree = self.tree.having("crates.txt", "timing:\npollrelay:\n")
        self.assertEqual(self.not_as_said("`Timers::arm` `armed`"), [(5, "arm")])

    def test_a_law_and_a_library_call_say_what_they_are(self):
        self.assertEqual(self.not_as_said("`laws::time_passes` `later`"), [])
        self.assertEqual(self.not_as_said("`time_passes` `later`"), [])
        self.assertEqual(self.not_as_said("`unused` `field_of_none`", "it arms (library call: `unused`)"), [])

    def test_a_call_of_a_program_that_is_said_to_be_none_is_told(self):
        self.assertEqual(self.not_as_said("`next` `least`", "it arms (library calls: `next`)"), [(5, "next")])

    def test_a_namesake_of_what_a_program_calls_is_told(self):
        with mock.patch.object(claims, "NAMESAKES", {("timing", "next")}):
            self.assertEqual(self.not_as_said("`next` `least`"), [(5, "next")])
            self.assertEqual(self.not_as_said("`next` `least`", "it arms (library call: `next`)"), [])

    def test_a_row_outside_a_table_is_told(self):
        table = "| Promise | Clause |\n|---|---|\n| it arms | `arm` |\n"
        self.assertEqual(claims.rows_outside(f"{table}\ntext\n\n{table}"), [])
        self.assertEqual(claims.rows_outside(f"{table}\n| it waits | `next` |\n"), [5])

    def test_a_definition_that_is_not_there_is_told(self):
        self.assertEqual(self.missing("`next` `least` (`IsLeast`, `field`)"), ["IsLeast", "field"])

    def test_a_file_that_is_not_there_is_told(self):
        self.assertEqual(self.missing("`tests/no_such_file.sh`"), ["tests/no_such_file.sh"])

    def missing_of_model(self, row):
        text = f"| Step of a model | Function | File |\n|---|---|---|\n{row}\n"
        source = {"crates/timing/src/lib.rt": SOURCE}
        return [name for _, name in claims.models(text, {"set_alarm"}, lambda name: source.get(name, ""))[0]]

    def test_steps_of_a_model_and_their_functions_pass(self):
        self.assertEqual(self.missing_of_model("| `set_alarm` | `arm`, `next` | `crates/timing/src/lib.rt` |"), [])

    def test_a_step_a_function_and_a_file_that_are_not_there_are_told(self):
        row = "| `set_clock` | `disarm` | `crates/timing/src/lib.rt` |\n| `set_alarm` | `arm` | `crates/timing/src/no.rt` |"
        told = ["set_clock", "crates/timing/src/lib.rt disarm", "crates/timing/src/no.rt arm"]
        self.assertEqual(self.missing_of_model(row), told)

    def test_a_line_of_an_example_that_no_program_has_is_told(self):
        text = "```rust\nfn arm(&self) {\n    self.next();\n    self.gone();\n}\n```\n\nself.gone();\n```text\nself.gone();\n```\n"
        missing, seen = quotes.missing(text, {"fn arm(&self)", "self.next();", "}"})
        self.assertEqual((missing, seen), ([(4, "self.gone();")], 4))


if __name__ == "__main__":
    unittest.main()
