#!/usr/bin/env python3
"""Tests of dev/proofs.py on small repositories: holes, proofs of no function, walks by hand, files of laws that are not declared or not cited, laws found by words. No prover is needed.

    python3 tests/test_proofs.py [-v]
"""

import os
import shutil
import subprocess
import sys
import tempfile
import unittest

sys.dont_write_bytecode = True
ROOT = os.path.dirname(os.path.dirname(os.path.abspath(__file__)))
sys.path.insert(0, os.path.join(ROOT, "dev"))

import proofs  # noqa: E402

ANSWERS = """use Rattle.text.proofs.TextLaws.{put_full}
use Rattle.text.proofs.put_bytes.Goals as goal

-- is this a hole? No.
pub returns : goal.returns
returns c = put_full c.args.b
"""

FILES = {
    "crates.txt": "# libraries\ntext:\ntext_c staticlib: text\n",
    "crates/text/src/lib.rt": "mod reader;\npub fn put_bytes(b: &mut [u8]) {}\nimpl Text {\n    fn even(&self) {}\n    fn odd(&self) {}\n}\n",
    "crates/text/src/reader.rt": "pub fn next() {}\n",
    "crates/text/specs/Text.antt": "pub put : ℕ → ℕ\nput a = a\n",
    "crates/text/proofs/Lib.antt": "pub mod TextLaws\nmod MoreLaws\n",
    "crates/text/proofs/TextLaws.antt": "pub put_full : (b : ℕ) → put b ≡ b\nput_full b = refl\n",
    "crates/text/proofs/MoreLaws.antt": "pub put_more : put 1 ≡ 1\nput_more = refl\n",
    "crates/text/proofs/put_bytes/Answers.antt": ANSWERS,
    "crates/text/proofs/put_bytes/Invariants.antt": "abbrev pub decreases-loop : goal.decreases-loop\ndecreases-loop l = l.n\n",
    "crates/text/proofs/reader/next/Answers.antt": "pub returns : goal.returns\nreturns c = refl\n",
    "crates/text/proofs/+even_odd/Invariants.antt": "abbrev pub decreases-even : goal.decreases-even\ndecreases-even l = l.n\n",
    "crates/text_c/src/lib.rt": "pub fn md_put() {}\n",
    "docs/CLAIMS.md": "| a | `text/specs/Text.antt` `put` | `text/proofs/MoreLaws.antt` `put_more` |\n",
}


class Repository(unittest.TestCase):
    def setUp(self):
        self.base = tempfile.mkdtemp()
        self.addCleanup(shutil.rmtree, self.base)
        for name, text in FILES.items():
            self.write(name, text)

    def write(self, name, text):
        path = os.path.join(self.base, name)
        os.makedirs(os.path.dirname(path), exist_ok=True)
        with open(path, "w", encoding="utf-8") as f:
            f.write(text)

    def run_it(self, *words):
        return subprocess.run([sys.executable, os.path.join(ROOT, "dev", "proofs.py"), *words], cwd=self.base, capture_output=True, text=True)

    def faults(self, *words):
        run = self.run_it("check", *words)
        lines = run.stdout.split("\n")[:-2]
        self.assertEqual(run.returncode, 1 if lines else 0, run.stdout + run.stderr)
        return lines


class Check(Repository):
    def test_as_said(self):
        run = self.run_it("check")
        self.assertEqual((run.returncode, run.stdout), (0, "proofs: of 3 functions, and 2 files of laws: all as said\n"))
        self.assertEqual(self.run_it("check", "text_c").stdout, "proofs: of 0 functions, and 0 files of laws: all as said\n")

    def test_holes(self):
        self.write("crates/text/proofs/put_bytes/Answers.antt", ANSWERS.replace("put_full c.args.b", "rw (put_full ?)\n  at (?, c.args)"))
        self.write("crates/text/proofs/TextLaws.antt", FILES["crates/text/proofs/TextLaws.antt"].replace("= refl", "= ?"))
        self.assertEqual(self.faults(), ["crates/text/proofs/TextLaws.antt:2: a hole", "crates/text/proofs/put_bytes/Answers.antt:6: a hole",
                                         "crates/text/proofs/put_bytes/Answers.antt:7: a hole"])

    def test_walks(self):
        self.write("crates/text/proofs/put_bytes/Proof.antt", "walk : ℕ\nwalk = 1\n")
        self.assertEqual(self.faults(), ["crates/text/proofs/put_bytes/Proof.antt: a walk of the code by hand: write Answers.antt"])

    def test_no_such_function(self):
        self.write("crates/text/src/reader.rt", "pub fn last() {}\n")
        self.write("crates/text/src/lib.rt", FILES["crates/text/src/lib.rt"].replace("put_bytes", "put_byte").replace("fn even", "fn ev").replace("fn odd", "fn od"))
        self.assertEqual(self.faults(), ["crates/text/proofs/%s: the code has no such function" % name for name in ("+even_odd", "put_bytes", "reader/next")])

    def test_declared(self):
        self.write("crates/text/proofs/Lib.antt", "pub mod TextLaws\nmod OtherLaws\n")
        self.assertEqual(self.faults(), ["crates/text/proofs/MoreLaws.antt: Lib.antt does not declare it", "crates/text/proofs/Lib.antt: there is no OtherLaws.antt"])
        os.remove(os.path.join(self.base, "crates/text/proofs/Lib.antt"))
        self.assertEqual(len(self.faults()), 2)

    def test_cited(self):
        """By a file of the crate or of another, by a page of claims, or by an edit."""
        self.write("docs/CLAIMS.md", "none\n")
        self.assertEqual(self.faults(), ["crates/text/proofs/MoreLaws.antt: nothing cites it"])
        self.write("docs/claims/01.md", "contract `text/src/lib.rt` `put_bytes`, law `text/proofs/MoreLaws.antt` `put_more`\n")
        self.assertEqual(self.faults(), [])
        os.remove(os.path.join(self.base, "docs/claims/01.md"))
        self.write("crates/text/must-fail/a.edit", "# of: a\n# wrong: b\n# refused by: `put_more`\nfile: src/lib.rt\n")
        self.assertEqual(self.faults(), [])
        os.remove(os.path.join(self.base, "crates/text/must-fail/a.edit"))
        self.write("crates/text_c/proofs/md_put/Answers.antt", "use Rattle.text.proofs.MoreLaws.{put_more}\n")
        self.assertEqual(self.faults(), [])

    def test_itself(self):
        """That a file cites itself is no use."""
        self.write("docs/CLAIMS.md", "none\n")
        self.write("crates/text/proofs/MoreLaws.antt", "use Rattle.text.proofs.MoreLaws.{put_more}\n" + FILES["crates/text/proofs/MoreLaws.antt"])
        self.assertEqual(self.faults(), ["crates/text/proofs/MoreLaws.antt: nothing cites it"])


class Laws(Repository):
    def test_laws(self):
        text = "-- bytes\npub put_full : (b : ℕ) → put b o ≡ o\nput_full b = refl\n\nown : ℕ\n\nmodule _ where\n  pub put_more : a < b\n      → put a ≡ put b\n  unfolding put\n"
        self.assertEqual(list(proofs.laws(text)), [(2, "put_full", "(b : ℕ) → put b o ≡ o"), (8, "put_more", "a < b → put a ≡ put b")])

    def test_found(self):
        """By whole words of the name or the statement, and in no function's proof."""
        run = self.run_it("laws", "put", "≡")
        self.assertEqual(run.stdout, "crates/text/proofs/MoreLaws.antt:1: put_more : put 1 ≡ 1\ncrates/text/proofs/TextLaws.antt:1: put_full : (b : ℕ) → put b ≡ b\n")
        self.assertEqual(self.run_it("laws", "pu").stdout, "")
        self.assertEqual(self.run_it("laws", "returns").stdout, "")


class TheCommand(unittest.TestCase):
    def run_it(self, folder, *words):
        return subprocess.run([sys.executable, os.path.join(ROOT, "dev", "proofs.py"), *words], cwd=folder, capture_output=True, text=True)

    def test_usage(self):
        for words in ((), ("laws",), ("check", "--goals"), ("name", "text", "put_bytes")):
            self.assertEqual(self.run_it(ROOT, *words).returncode, 2)

    def test_no_repository(self):
        run = self.run_it("/", "check")
        self.assertEqual((run.returncode, run.stderr), (1, "no crates.txt here or above\n"))


if __name__ == "__main__":
    unittest.main()
