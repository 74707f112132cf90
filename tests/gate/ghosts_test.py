#!/usr/bin/env python3
"""Tests of ghosts.py on a made crate: what is listed passes, and each way to tell less is told."""
import sys
import unittest

sys.path.insert(1, f"{sys.path[0]}/..")
from gate.ghosts import compared, lines_of

TRAIT = """
pub trait Half {
    /// What was tried.
    ghost tells: { Self → List Try → Type 0 };

    /// What was shut.
    ghost shut: { Self → Type 0 } = { λ _. Unit {0} };

    fn shut(&mut self)
        ensures told { shut self.new };
}
"""
COUNTING = """
impl<'a, T: Wait + Drop> Half for Counting<'a, T> {
    ghost tells = { λ half tries. half.tried ≡ length tries };

    ghost shut = { λ half. half.is_shut ≡ true };
}
"""
SOCKET = """
impl Half for crate::sockets::Socket {
    ghost tells = { λ _ _. ⊥ };

    fn shut(&mut self) {}
}
"""
LISTED = [
    "made Half.tells made::Counting told",
    "made Half.tells made::Socket empty nobody can know",
    "made Half.shut made::Counting told",
    "made Half.shut made::Socket empty nobody can know",
]


def said_of(code, listed):
    return compared(lines_of([("made", TRAIT + code)]), listed)[0]


class Ghosts(unittest.TestCase):
    def test_what_is_listed_passes(self):
        self.assertEqual(said_of(COUNTING + SOCKET, LISTED), [])

    def test_a_type_that_tells_less_is_told(self):
        said = said_of(COUNTING.replace("half.is_shut ≡ true", "Unit {0}") + SOCKET, LISTED)
        self.assertIn("isn't listed: made Half.shut made::Counting empty", said)
        self.assertIn("isn't listed: made Half.shut nowhere", said)
        self.assertIn("isn't so: made Half.shut made::Counting told", said)

    def test_a_member_that_is_left_out_is_told(self):
        said = said_of(COUNTING.replace("    ghost shut = { λ half. half.is_shut ≡ true };\n", "") + SOCKET, LISTED)
        self.assertIn("isn't listed: made Half.shut made::Counting empty", said)

    def test_a_type_that_goes_is_told(self):
        self.assertIn("isn't so: made Half.tells made::Counting told", said_of(SOCKET, LISTED))

    def test_a_new_type_is_told(self):
        self.assertEqual(said_of(COUNTING + SOCKET, LISTED[:3]), ["isn't listed: made Half.shut made::Socket empty"])

    def test_an_empty_member_needs_a_reason(self):
        listed = [it.removesuffix(" nobody can know") for it in LISTED]
        self.assertEqual(len(said_of(COUNTING + SOCKET, listed)), 2)

    def test_a_trait_in_a_comment_counts_for_nothing(self):
        commented = "".join(f"/// {it}\n" for it in COUNTING.splitlines())
        self.assertEqual(lines_of([("made", TRAIT.replace("Half", "Other") + commented)])[0], "made Other.tells nowhere")


if __name__ == "__main__":
    unittest.main()
