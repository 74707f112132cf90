"""What `wrong_bodies.py` makes of edits and of what a check says, with the checker played by texts. It takes a second."""

import unittest

import wrong_bodies
from lib import edits
from lib.edits import Edit
from lib.played_checks import SEARCHED, says

SOURCE = """\
const LIMIT: u64 = 8;

pub fn low(x: u64) -> u64
    ensures { result ≡ x }
{
    x + 0
}

impl Table {
    pub fn high(
        &self,
        x: u64,
    ) -> u64 {
        low(x) + 1
    }

    fn other(&self) -> u64 {
        low(2)
    }
}
"""

LOW = Edit("a", "low_adds", "a::low", (("src/lib.rt", "x + 0", "x + 3"),))
HIGH = Edit("a", "high_adds", "a::Table::high", (("src/lib.rt", "low(x) + 1", "low(x) + 4"),))
OTHER = Edit("a", "other_adds", "a::Table::other", (("src/lib.rt", "low(2)", "low(3)"),))
LIMITED = Edit("a", "limit_is_nine", "a::low", (("src/lib.rt", "LIMIT: u64 = 8", "LIMIT: u64 = 9"),))


def read(path):
    if path != "src/lib.rt":
        raise FileNotFoundError(path)
    return SOURCE


def tried(edits, check):
    """The verdicts on a batch, by the edit's name, and how many edits each check had."""
    sizes = []

    def count(texts, functions):
        sizes.append(len(functions))
        return check(texts["src/lib.rt"], functions)

    found = {edit.name: (verdict.is_refused, verdict.why) for edit, verdict, _ in wrong_bodies.try_batch(edits, count, read)}
    return found, sizes


def alone(edit, run):
    return tried([edit], lambda text, functions: run)[0][edit.name]


class Edits(unittest.TestCase):
    def test_an_edit_whose_old_text_is_gone_or_stands_twice_does_not_apply(self):
        for old, times in (("x + 9", 0), ("low(", 3)):
            texts, why = edits.apply(LOW._replace(pairs=(("src/lib.rt", old, "y"),)), read)
            self.assertIsNone(texts)
            self.assertIn(f"{times} times", why)

    def test_an_edit_of_no_file_or_that_names_no_function_does_not_apply(self):
        self.assertIn("no file", edits.apply(LOW._replace(pairs=(("src/gone.rt", "a", "b"),)), read)[1])
        self.assertIn("refused:", edits.apply(LOW._replace(refused=""), read)[1])

    def test_a_body_is_told_from_what_stands_round_it(self):
        for text, name in (("x + 0", "low"), ("low(x)", "high"), ("low(2)", "other")):
            self.assertEqual(edits.body_around(SOURCE, SOURCE.index(text))[1], name)
        for text in ("LIMIT", "result ≡", "impl", "&self,"):
            self.assertIsNone(edits.body_around(SOURCE, SOURCE.index(text)), text)

    def test_edits_of_one_function_and_of_no_body_stand_in_batches_of_their_own(self):
        again = LOW._replace(name="low_adds_more")
        self.assertEqual(edits.packed([LOW, HIGH, again, LIMITED], read), [[LOW, HIGH], [again], [LIMITED]])

    def test_what_is_put_behind_the_head_of_a_function_is_of_its_body(self):
        head = "    fn other(&self) -> u64 {"
        first = OTHER._replace(pairs=(("src/lib.rt", head, head + " low(3);"),))
        self.assertEqual(edits.packed([LOW, first], read), [[LOW, first]])
        changed = OTHER._replace(pairs=(("src/lib.rt", head, "    fn other(&mut self) -> u64 {"),))
        self.assertEqual(edits.packed([LOW, changed], read), [[LOW], [changed]])

    def test_an_edit_that_another_keeps_from_applying_stands_in_another_batch(self):
        twice = HIGH._replace(pairs=(("src/lib.rt", "low(x) + 1", "low(2)"),))
        self.assertEqual(edits.packed([twice, OTHER], read), [[twice], [OTHER]])


class Verdicts(unittest.TestCase):
    def test_a_batch_that_is_refused_whole_is_one_check(self):
        said = says(f"fn a::low: {SEARCHED}", f"fn a::Table::other: {SEARCHED}")
        found, sizes = tried([LOW, OTHER], lambda text, functions: said)
        self.assertEqual(sizes, [2])
        self.assertTrue(all(is_refused for is_refused, _ in found.values()), found)

    def test_a_right_body_is_reported_and_the_wrong_ones_beside_it_are_refused(self):
        lines = {"a::low": f"fn a::low: {SEARCHED}", "a::Table::other": "fn a::Table::other: proved"}
        found, sizes = tried([LOW, OTHER], lambda text, functions: says(*map(lines.get, functions)))
        self.assertTrue(found["low_adds"][0])
        self.assertEqual(found["other_adds"], (False, "NOT REFUSED: a::Table::other is proved"))
        self.assertEqual(sizes, [2, 1])

    def test_a_body_that_is_proved_alone_is_reported(self):
        proved = says("fn a::low: proved", last="only=1 proved=1", status=0)
        self.assertEqual(alone(LOW, proved), (False, "NOT REFUSED: it is proved"))

    def test_an_edit_that_does_not_compile_is_found_among_others(self):
        def check(text, functions):
            if "x + 3" in text:
                return says("src/lib.rt:6:5: error[unresolved]: cannot find `y`", last="error: could not compile")
            return says(*[f"fn {it}: {SEARCHED}" for it in functions])

        found, sizes = tried([LOW, HIGH, OTHER], check)
        self.assertFalse(found["low_adds"][0])
        self.assertIn("unresolved", found["low_adds"][1])
        self.assertTrue(found["high_adds"][0] and found["other_adds"][0])
        self.assertEqual(sizes, [3, 1, 2])

    def test_a_function_that_waits_for_what_it_calls_is_tried_without_it(self):
        def check(text, functions):
            if "x + 3" in text:
                return says(f"fn a::low: {SEARCHED}", "fn a::Table::high: no proof: it calls `a::low`, which is not proved")
            return says("fn a::low: proved", f"fn a::Table::high: {SEARCHED}")

        found, sizes = tried([LOW, HIGH], check)
        self.assertTrue(found["low_adds"][0] and found["high_adds"][0])
        self.assertEqual(sizes, [2, 1])

    def test_a_refusal_for_another_function_alone_is_none(self):
        waits = says("fn a::low: proved", "fn a::Table::high: no proof: it calls `a::low`, which is not proved")
        self.assertIn("not refused at a goal of its own", alone(HIGH, waits)[1].replace("isn't", "not"))

    def test_a_refusal_for_a_name_that_is_gone_is_none(self):
        long = "`record {x : Unit}`\n  has no field `result`\n  its fields are `x`"
        for gone in ("`c.add` has no field `result`", "`c.add` is not in scope", long):
            found = alone(LOW, says(f"./proofs/low/Answers.antt:3:9: error: `returns`: {gone}", "fn a::low: not proved"))
            self.assertFalse(found[0], gone)
            self.assertIn("names what is gone", found[1])

    def test_an_answer_that_waits_for_one_of_a_name_that_is_gone_is_none(self):
        gone = "./proofs/low/Answers.antt:3:9: error: `first`: `c.add` has no field `result`"
        waits = "./proofs/low/Answers.antt:9:9: error: 1 declaration that depends on `first`, which was rejected, was not checked: second"
        many = waits.replace("1 declaration that depends", "2 declarations that depend").replace("was not", "were not")
        self.assertFalse(alone(LOW, says(gone, waits, many, "fn a::low: not proved"))[0])
        wrong = "./proofs/low/Answers.antt:3:9: error: `first`: the two types differ"
        self.assertTrue(alone(LOW, says(wrong, waits, "fn a::low: not proved"))[0])

    def test_an_answer_that_no_longer_holds_is_a_refusal(self):
        wrong = "./proofs/low/Answers.antt:3:9: error: `returns`: the two types differ"
        self.assertTrue(alone(LOW, says(wrong, "fn a::low: not proved"))[0])

    def test_an_error_in_the_proof_of_another_function_is_no_refusal(self):
        wrong = "./proofs/lower/Answers.antt:3:9: error: `returns`: the two types differ"
        self.assertFalse(alone(LOW, says(wrong, "fn a::low: not proved"))[0])

    def test_a_text_that_cannot_be_read_is_reported(self):
        unread = "specs/Laws.antt:3:9: error: `Lmit` is not in scope"
        self.assertIn("can't be read", alone(LIMITED, says(unread, f"fn a::low: {SEARCHED}"))[1])

    def test_a_batch_that_breaks_another_function_is_reported(self):
        said = says(f"fn a::low: {SEARCHED}", f"fn a::between: {SEARCHED}")
        self.assertIn("a::between", alone(LOW, said)[1])

    def test_no_verdict_is_no_refusal(self):
        told = says("fn a::low: could not tell", last="rattle: no verdict: out of steps", status=3)
        self.assertIn("no verdict", alone(LOW, told)[1])


if __name__ == "__main__":
    unittest.main()
