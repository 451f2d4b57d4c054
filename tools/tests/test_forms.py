"""tools/forms: the places of a small repository, point by point."""

import pathlib
import subprocess
import sys
import tempfile
import unittest

from .where import ROOT

CODE = """// A crate.
#[derive(Clone, Copy)]
pub enum Answer {
    Done(u32),
    Refused(u32),
}

pub fn told(refusal: u32, kind: Kind) -> u32
    requires { 8 * rows ≤ length words.now }
{
    match kind {
        Kind::Position => refusal,
        Kind::Velocity => 0,
    }
}

fn sum_words(words: &[u32], rows: usize) -> u32
    requires { 8 * rows ≤ length words.now }
{
    let mut sum = 0;
    let mut i = 0;
    while i < rows {
        sum = sum + words[i];
        i += 1;
    }
    sum
}

fn sum_numbers(numbers: &[f64], rows: usize) -> f64
    requires { 8 * rows ≤ length words.now }
{
    let mut total = 0;
    let mut i = 0;
    while i < rows {
        total = total + numbers[i];
        i += 1;
    }
    total
}

fn put_two(out: &mut [u8], at: usize) -> usize {
    at + 2
}
"""


class Forms(unittest.TestCase):
    def test_a_place_of_each_point(self):
        with tempfile.TemporaryDirectory() as folder:
            root = pathlib.Path(folder)
            (root / "crates/a/src").mkdir(parents=True)
            (root / "crates/a/src/lib.rt").write_text(CODE)
            (root / "crates/a/proofs/told").mkdir(parents=True)
            (root / "crates/a/proofs/told/Answers.antt").write_text("pub returns : goal.returns\nreturns c = search rules\n")
            run = subprocess.run([sys.executable, ROOT / "tools/forms", root], capture_output=True, text=True, check=True)
        lines = run.stdout.splitlines()
        self.assertEqual(
            lines,
            [
                "1 crates/a/src/lib.rt:3 enum Answer { Done, Refused }",
                "1 crates/a/src/lib.rt:8 told(refusal: u32)",
                "2 crates/a/src/lib.rt:17 sum_words ~ sum_numbers",
                "3 crates/a/src/lib.rt:17 sum_words: while i < rows",
                "3 crates/a/src/lib.rt:29 sum_numbers: while i < rows",
                "5 crates/a/src/lib.rt:9 3 × 8 * rows ≤ length words.now",
                "6 crates/a/src/lib.rt:41 put_two(out, at) -> usize",
                "7 crates/a/src/lib.rt:8 told: match kind",
                "places: point 1: 2, point 2: 1, point 3: 2, point 4: 0, point 5: 1, point 6: 1, point 7: 1, point 8: 1 answers",
            ],
        )


if __name__ == "__main__":
    unittest.main()
