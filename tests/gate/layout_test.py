"""What `layout.py` finds in a made crate. It takes a second or two."""

import contextlib
import io
import os
import tempfile
import unittest

import layout

SOURCE = """//! A sum.
#![tactic(auto)]

ghost use Rattle.std.specs.Prelude.{◌≡◌};

/// One more than this.
pub fn more(x: u32) -> u64
    ensures { result ≡ 1 + x }
{
    1 + x as u64
}
"""

SPECS = """-- What is said of sums.
use Rattle.std.specs.Prelude.{◌≡◌, ℕ}

abbrev pub is_one : ℕ → Type 0
is_one n = n ≡ 1
"""


class Layout(unittest.TestCase):
    def counts(self, source=SOURCE, specs=SPECS):
        """What is counted in a crate with these texts."""
        texts = {"crates/sums/src/lib.rt": source, "crates/sums/specs/Lib.antt": "pub mod Ones\n"}
        texts |= {"crates.txt": "sums:\n", "crates/sums/specs/Ones.antt": specs}
        with tempfile.TemporaryDirectory() as folder:
            for path, text in texts.items():
                os.makedirs(os.path.dirname(f"{folder}/{path}"), exist_ok=True)
                with open(f"{folder}/{path}", "w", encoding="utf-8") as file:
                    file.write(text)
            with contextlib.redirect_stderr(io.StringIO()):
                return layout.counts(folder, [])

    def test_text_as_it_should_be_passes(self):
        self.assertEqual(self.counts(), (3, 0))

    def test_a_file_of_code_laid_out_otherwise_fails(self):
        self.assertEqual(self.counts(source=SOURCE.replace("    1 + x", "  1 + x")), (2, 1))

    def test_a_file_of_definitions_laid_out_otherwise_fails(self):
        self.assertEqual(self.counts(specs=SPECS.replace("n ≡ 1", "n  ≡  1")), (2, 1))

    def test_an_operator_of_ones_own_fails(self):
        own = SPECS + "\nabbrev pub ◌≤◌ : ℕ → ℕ → Type 0\nn ≤ m = n ≡ m\n"
        self.assertEqual(self.counts(specs=own), (2, 1))

    def test_an_imported_tactic_fails(self):
        taken = SPECS.replace("ℕ}\n", "ℕ}\nuse Prim.{simp}\n")
        self.assertEqual(self.counts(specs=taken), (2, 1))


if __name__ == "__main__":
    unittest.main()
