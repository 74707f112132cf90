"""Tries `clauses.py` on a made crate: what is lost, weakened or asked is told, and what is named with a reason passes."""

import contextlib
import io
import os
import unittest
from unittest import mock

import clauses
from lib import clause_texts
from lib.made import MadeFolder

QUEUE = """//! A queue.

ghost use Rattle.std.specs.Prelude.{◌≡◌};
ghost use Rattle.made.specs.Queue.{Fits, items_of};

pub struct Queue {
    items: u64,
    ghost small: { items < 64 },
}

impl Queue {
    /// Puts a byte in.
    pub fn push(&mut self, byte: u8) -> Result<(), Full>
        requires open { self.old.is_open }
        ensures added { IfOk result (items_of self.new
            ≡ items_of self.old + 1) }
        ensures { Fits self.new }
    {
        self.items += 1;
        Ok(())
    }

    fn count(&self) -> u64 {
        self.items
    }
}

impl Sink for Queue {
    ghost tells = { λ queue. items_of queue };

    fn flush(&mut self) -> bool
        ensures flushed { result ≡ true }
    {
        true
    }
}

pub trait Sink {
    ghost tells: { Self → ℕ };

    fn close(&mut self) -> bool
        ensures closed { result ≡ true };
}
"""

SPEC = """-- What a queue holds.
use Rattle.std.specs.Prelude.{ℕ, ◌<◌}
pub use Rattle.low.specs.Names.{name}

module _ {A : Type 0} where
  -- how many there are
  abbrev pub items_of : A → ℕ
  items_of q = q.items

-- it isn't full
pub record Fits (q : ℕ) : Type 0 where
  pub least : 0 < q
  pub most : q < 64
"""

OTHER = "-- Another crate's.\nabbrev pub room_of : ℕ → ℕ\nroom_of q = 64\n"
FILES = {"made/src/queue.rt": QUEUE, "made/specs/Queue.antt": SPEC, "low/specs/Room.antt": OTHER}


class Clauses(MadeFolder):
    def setUp(self):
        super().setUp()
        self.patched(mock.patch.object(clause_texts, "ROOT", self.folder))
        for path, text in FILES.items():
            self.write(f"crates/{path}", text)
        os.makedirs(f"{self.folder}/tests/gate")
        self.assertEqual(self.run_main("--write")[0], 0)

    def change(self, path, old, new):
        with open(f"{self.folder}/crates/{path}", encoding="utf-8") as file:
            text = file.read()
        self.assertEqual(text.count(old), 1, old)
        self.write(f"crates/{path}", text.replace(old, new))

    def queue(self, old, new):
        self.change("made/src/queue.rt", old, new)

    def spec(self, old, new):
        self.change("made/specs/Queue.antt", old, new)

    def run_main(self, *words):
        with contextlib.redirect_stdout(io.StringIO()) as said:
            status = clauses.main([*words])
        return status, said.getvalue().splitlines()

    def says(self, *lines):
        """Adds lines to the changes."""
        self.write(clauses.CHANGES, clauses.HEAD + "".join(f"{it}\n" for it in lines))

    def told(self):
        """What fails, without the hints."""
        status, lines = self.run_main()
        wrong = [it for it in lines[:-2] if not it.startswith("    ")]
        self.assertEqual(status, int(bool(wrong)), lines)
        self.assertTrue(lines[-1].endswith(f" passed, {len(wrong)} failed"), lines)
        return wrong

    def passes_with(self, *lines):
        self.says(*lines)
        self.assertEqual(self.told(), [])

    def fails_with(self, *starts):
        wrong = self.told()
        self.assertEqual(len(wrong), len(starts), wrong)
        for line, start in zip(wrong, starts):
            self.assertTrue(line.startswith(start), line)

    def test_the_list_names_each_promise_of_the_crate(self):
        with open(f"{self.folder}/{clauses.LIST}", encoding="utf-8") as file:
            names = [it.rsplit(" ", 1)[0] for it in file.read().splitlines()]
        self.assertEqual(names, [
            "low room_of definition", "made Fits definition", "made Queue ghost:small", "made Queue ghost:tells",
            "made Queue::count -", "made Queue::flush ensures:flushed", "made Queue::push ensures:#1",
            "made Queue::push ensures:added", "made Queue::push requires:open", "made Sink ghost:tells",
            "made Sink::close ensures:closed", "made items_of definition", "made name use"])

    def test_the_same_passes_in_another_layout_and_with_other_bodies_and_comments(self):
        self.queue("(items_of self.new\n            ≡ items_of", "(items_of self.new ≡ items_of")
        self.queue("self.items += 1;", "self.items += 2;")
        self.queue("/// Puts a byte in.", "/// Puts one byte in, or says `ensures nothing { }`.")
        self.spec("-- how many there are", "-- how many items there are")
        self.assertEqual(self.told(), [])

    def test_a_clause_that_was_taken_out_fails_until_its_reason_is_given(self):
        self.queue("        ensures { Fits self.new }\n", "")
        self.fails_with("made Queue::push ensures:#1 is gone")
        self.passes_with("made Queue::push ensures:#1 gone the caller asks `fits` itself")

    def test_a_clause_that_was_weakened_fails_until_its_reason_is_given(self):
        self.queue("≡ items_of self.old + 1", "≤ items_of self.old + 1")
        self.fails_with("made Queue::push ensures:added has another text")
        self.passes_with("made Queue::push ensures:added changed an item may be merged with the last")

    def test_a_clause_that_was_renamed_is_one_that_is_gone_and_a_new_one(self):
        self.queue("ensures added", "ensures grown")
        self.fails_with("made Queue::push ensures:added is gone", "1 new in no line of")

    def test_a_clause_of_a_trait_counts(self):
        self.queue("closed { result ≡ true }", "closed { result ≡ result }")
        self.fails_with("made Sink::close ensures:closed has another text")

    def test_an_invariant_and_what_an_implementation_means_count(self):
        self.queue("items < 64", "items < 128")
        self.queue("λ queue. items_of queue", "λ queue. 0")
        self.fails_with("made Queue ghost:small has another text", "made Queue ghost:tells has another text")

    def test_a_definition_that_was_weakened_fails(self):
        self.spec("  pub least : 0 < q\n", "")
        self.fails_with("made Fits definition has another text")
        self.passes_with("made Fits definition changed an empty queue fits too")

    def test_the_last_line_of_a_definition_counts_and_so_does_its_module(self):
        self.spec("pub most : q < 64", "pub most : q < 65")
        self.spec("module _ {A : Type 0} where", "module _ {A : Type 0} {none : ⊥} where")
        self.fails_with("made Fits definition has another text", "made items_of definition has another text")

    def test_a_name_that_is_handed_on_from_elsewhere_fails(self):
        self.spec("Rattle.low.specs.Names", "Rattle.low.specs.OtherNames")
        self.fails_with("made name use has another text")

    def test_a_new_requires_fails_even_on_a_function_without_a_clause(self):
        self.queue("    fn count(&self) -> u64 {", "    fn count(&self) -> u64\n        requires some { 0 < self.now.items }\n    {")
        self.fails_with("made Queue::count requires:some came to what was there")
        self.run_main("--add")
        self.fails_with("made Queue::count requires:some came to what was there")
        self.passes_with("made Queue::count requires:some new nobody counts an empty queue")

    def test_new_functions_and_clauses_fail_until_they_are_listed(self):
        self.queue("    fn count", "    fn has(&self) -> bool\n        requires a { true }\n        ensures b { result ≡ true }\n    {\n        true\n    }\n\n    fn count")
        self.queue("-> u64 {", "-> u64\n        ensures counts { result ≡ self.now.items }\n    {")
        self.fails_with("3 new in no line of")
        self.assertEqual(self.run_main("--add")[0], 0)
        self.assertEqual(self.told(), [])
        self.queue("        ensures b { result ≡ true }\n", "")
        self.fails_with("made Queue::has ensures:b is gone")

    def test_what_is_added_to_the_list_hides_no_change(self):
        self.queue("≡ items_of self.old + 1", "≤ items_of self.old + 1")
        self.run_main("--add")
        self.fails_with("made Queue::push ensures:added has another text")

    def test_a_second_definition_of_a_name_fails(self):
        self.write("crates/low/specs/Queue.antt", "-- any will do\nabbrev pub Fits : ℕ → Type 0\nFits q = ⊤\n")
        self.fails_with("low Fits definition came to what was there")
        self.passes_with("low Fits definition new another crate's word")

    def test_an_import_that_means_another_definition_fails_where_there_are_two(self):
        self.write("crates/low/specs/Queue.antt", "-- any will do\nabbrev pub Fits : ℕ → Type 0\nFits q = ⊤\n")
        self.run_main("--write")
        self.queue("Rattle.made.specs.Queue.{Fits, items_of}", "Rattle.low.specs.Queue.{Fits, items_of}")
        self.fails_with("made Queue::push ensures:#1 has another text")

    def test_a_short_name_of_a_module_that_stands_for_another_fails(self):
        self.queue("ghost use Rattle.std.specs.Prelude.{◌≡◌};", "ghost use Rattle.made.specs.Queue as spec;")
        self.queue("ensures { Fits self.new }", "ensures { spec.Fits self.new }")
        self.run_main("--write")
        self.queue("Rattle.made.specs.Queue as spec", "Rattle.low.specs.Queue as spec")
        self.fails_with("made Queue::push ensures:#1 has another text")

    def test_a_function_that_is_gone_is_named_as_a_whole_and_only_then(self):
        self.says("made Queue::push * gone callers use `extend`")
        self.queue("        ensures { Fits self.new }\n", "")
        self.fails_with("made Queue::push ensures:#1 is gone", "tests/gate/clauses.changes: nothing became of this so: made Queue::push *")
        start, end = QUEUE.index("    /// Puts a byte in."), QUEUE.index("    fn count")
        self.write("crates/made/src/queue.rt", QUEUE[:start] + QUEUE[end:])
        self.assertEqual(self.told(), [])

    def test_a_crate_that_is_gone_is_named_as_a_whole_and_only_then(self):
        self.says("low * * gone nobody used it")
        self.fails_with("tests/gate/clauses.changes: nothing became of this so: low * *")
        os.remove(f"{self.folder}/crates/low/specs/Room.antt")
        self.assertEqual(self.told(), [])
        self.says("made * * gone nobody used it")
        self.fails_with("low room_of definition is gone", "tests/gate/clauses.changes: nothing became of this so: made * *")

    def move_room(self):
        """Has `low` pass its one definition on to a crate of its own."""
        os.remove(f"{self.folder}/crates/low/specs/Room.antt")
        self.write("crates/lower/specs/Room.antt", OTHER)

    def test_what_moved_as_it_was_passes_where_a_line_says_so(self):
        self.move_room()
        self.fails_with("low room_of definition is gone", "lower room_of definition came to what was there")
        self.passes_with("low * * moved:other,lower it is for all")
        self.change("lower/specs/Room.antt", "room_of q = 64", "room_of q = 0")
        self.fails_with("low room_of definition is gone", "lower room_of definition came to what was there",
            "tests/gate/clauses.changes: nothing became of this so: low * *")

    def test_what_moved_to_another_crate_than_the_line_says_is_gone(self):
        self.move_room()
        self.says("low * * moved:made it is for all")
        self.fails_with("low room_of definition is gone", "lower room_of definition came to what was there",
            "tests/gate/clauses.changes: nothing became of this so: low * *")

    def test_a_requires_that_comes_to_what_moved_fails(self):
        os.rename(f"{self.folder}/crates/made", f"{self.folder}/crates/done")
        self.passes_with("made * * moved:done its name is another")
        self.change("done/src/queue.rt", "-> u64 {", "-> u64\n        requires some { 0 < self.now.items }\n    {")
        self.fails_with("done Queue::count requires:some came to what was there")

    def test_a_move_is_said_of_a_whole_crate(self):
        self.says("low room_of definition moved:lower it is for all")
        self.fails_with("tests/gate/clauses.changes: not `CRATE FUNCTION")

    def test_a_line_without_a_reason_fails(self):
        self.queue("        ensures { Fits self.new }\n", "")
        self.says("made Queue::push ensures:#1 gone   ")
        self.fails_with("made Queue::push ensures:#1 is gone", "tests/gate/clauses.changes: no reason is given")

    def test_a_line_that_names_nothing_which_changed_fails(self):
        self.says("made Queue::push ensures:added changed it was wrong")
        self.fails_with("tests/gate/clauses.changes: nothing became of this so: made Queue::push ensures:added changed")

    def test_a_line_with_the_wrong_word_or_none_fails(self):
        self.queue("        ensures { Fits self.new }\n", "")
        self.says("made Queue::push ensures:#1 changed it isn't needed", "made Queue::push ensures:#1 lost for good")
        self.fails_with(
            "made Queue::push ensures:#1 is gone", "tests/gate/clauses.changes: not `CRATE",
            "tests/gate/clauses.changes: nothing became of this so")

    def test_a_list_that_is_made_anew_empties_the_changes(self):
        self.queue("        ensures { Fits self.new }\n", "")
        self.says("made Queue::push ensures:#1 gone the caller asks `fits` itself")
        self.run_main("--write")
        self.assertEqual(self.told(), [])
        self.assertEqual(clauses.read(clauses.CHANGES), [])

    def test_no_list_is_a_failure(self):
        os.remove(f"{self.folder}/{clauses.LIST}")
        self.assertEqual(self.run_main()[0], 1)

    def test_a_crate_of_tests_promises_nothing(self):
        self.write("crates/made_tests/src/queue.rt", QUEUE)
        self.assertEqual(self.told(), [])
        self.assertIn("0 changes with a reason", self.run_main()[1])


if __name__ == "__main__":
    unittest.main()
