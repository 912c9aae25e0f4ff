#!/usr/bin/env python3
"""Tests of dev/claims.py and dev/crates.py on small repositories: the pages, edits that lack their lines or do not fit, names and links that are not there.

    python3 tests/test_claims.py [-v]
"""

import os
import shutil
import subprocess
import sys
import tempfile
import unittest

sys.dont_write_bytecode = True
ROOT = os.path.dirname(os.path.dirname(os.path.abspath(__file__)))

FILES = {
    "crates.txt": "# All crates.\n\n## The low one\n# words\nlow:\n\n## Others\n# the record\nhigh staticlib: low\n",
    "crates/low/specs/Words.antt": "pub record Word where\n  pub size : ℕ\n\nabbrev pub capacityOf : ℕ → ℕ\ncapacityOf w = w / 3\n",
    "crates/low/proofs/WordsLaws.antt": "pub node-has : capacityOf 3 ≡ 1\nnode-has = refl\n",
    "crates/low/src/lib.rt": "pub fn clear(words: &mut [u32]) {\n    words[0] = 0;\n}\n",
    "crates/high/src/lib.rt": "pub struct Record {}\nfn read() -> u32 {\n    1\n}\n",
    "crates/low/must-fail/clear_one.edit": "# of: \"all node words are 0\"\n# wrong: the first word is 1\n# refused by: the contract of `clear`\nfile: src/lib.rt\nold: words[0] = 0;\nnew: words[0] = 1;\n",
    "crates/low/must-fail/less.edit": "# of: ruled out: \"a word less\"\n# wrong: four words a node\n# refused by: `node-has`\nfile: specs/Words.antt\nold: w / 3\nnew: w / 4\n",
    "crates/high/must-fail/reads.edit": "# of: wrong program: \"the reader of all X\"\n# wrong: a read is 0\n# refused by: the contract of `read`\nfile: src/lib.rt\nold:     1\nnew:     0\n",
    "crates/low/must-fail/reads_defined.edit": "# of: wrong program: \"the reader of all X\"\n# wrong: a word is 0\n# refused by: `node-has`\nfile: specs/Words.antt\nold: record Word\nnew: record Zero\n",
    "crates/high/must-fail/less.edit": "# of: ruled out: \"a word less\"\n# wrong: half a word\n# refused by: the contract of `read`\nfile: src/lib.rt\nold: -> u32\nnew: -> u16\n",
    "docs/CLAIMS.md": "| a | `low/specs/Words.antt` `Word` `size` `capacityOf` | `low/proofs/WordsLaws.antt` `node-has`; contract `low/src/lib.rt` `clear` |\n"
                      "The struct: `high/src/lib.rt` `Record`. Names after other words are not looked for: `low/specs/Words.antt`, then `nowhere`.\n"
                      "[01](claims/01.md) [1](claims/02.md#one) [2](claims/02.md#and-two)\n",
    "docs/claims/01.md": "# Claims: `01`\n\n| b | `low/specs/Words.antt` `size` |\n",
    "docs/claims/02.md": "# Claims of 02\n\n## One\n\n### A part\n\n## And two\n",
    "README.md": "# Name\n\n[claims](docs/CLAIMS.md), [of 01](docs/claims/01.md#claims-01), [above](#name), [a folder](crates/), [elsewhere](https://example.org/a#b).\n"
                 "\n    [no link](nowhere.md)\n\n```\n# no heading\n[none](nowhere.md)\n```\n\nNor is `[this](nowhere.md)`.\n\n## Name\n\n[the second](#name-1)\n",
    "docs/CRATES.md": "# Crates\n\n%s\n%s\n\nBehind.\n" % ("<!-- Made by python3 dev/crates.py, from crates.txt and a log of the gate. -->", "<!-- The end of what is made. -->"),
}


class Repository(unittest.TestCase):
    """A small repository, whose page of wrong programs is up to date."""

    def setUp(self):
        self.base = tempfile.mkdtemp()
        self.addCleanup(shutil.rmtree, self.base)
        for name, text in FILES.items():
            self.write(name, text)
        self.run_it("table")

    def write(self, name, text):
        path = os.path.join(self.base, name)
        os.makedirs(os.path.dirname(path), exist_ok=True)
        with open(path, "w", encoding="utf-8") as f:
            f.write(text)

    def read(self, name):
        with open(os.path.join(self.base, name), encoding="utf-8") as f:
            return f.read()

    def run_it(self, *words, tool="claims.py"):
        return subprocess.run([sys.executable, "-B", os.path.join(ROOT, "dev", tool), *words], cwd=self.base, capture_output=True, text=True)


class Claims(Repository):
    def faults(self):
        run = self.run_it("check")
        lines = run.stdout.split("\n")[:-2]
        self.assertEqual(run.returncode, 1 if lines else 0, run.stdout + run.stderr)
        return lines

    def test_as_said(self):
        self.assertEqual(self.faults(), [])

    def test_page(self):
        page = self.read("docs/WRONG-PROGRAMS.md")
        self.assertIn("| \"the reader of all X\" | [reads_defined](../crates/low/must-fail/reads_defined.edit) `low`: `node-has` | [reads](../crates/high/must-fail/reads.edit) `high`: the contract of `read` |", page)
        self.assertIn("| \"a word less\" | [less](../crates/low/must-fail/less.edit) `low`: `node-has` | [less](../crates/high/must-fail/less.edit) `high`: the contract of `read` |", page)
        self.assertIn("| the first word is 1 | \"all node words are 0\" | program | the contract of `clear` | [clear_one](../crates/low/must-fail/clear_one.edit) |", page)
        self.assertLess(page.index("## `low`"), page.index("## `high`"))
        self.assertTrue(page.endswith("\n5 edits.\n"))

    def test_out_of_date(self):
        self.write("crates/low/must-fail/less.edit", FILES["crates/low/must-fail/less.edit"].replace("four words", "five words"))
        self.assertEqual(self.faults(), ["docs/WRONG-PROGRAMS.md is out of date: python3 dev/claims.py table"])
        self.run_it("table")
        self.assertEqual(self.faults(), [])

    def test_an_edit_that_moves(self):
        """An edit that goes to another crate with its file takes its lines along."""
        os.remove(os.path.join(self.base, "crates/high/must-fail/reads.edit"))
        self.write("crates/low/src/read.rt", FILES["crates/high/src/lib.rt"])
        self.write("crates/low/must-fail/reads.edit", FILES["crates/high/must-fail/reads.edit"].replace("src/lib.rt", "src/read.rt"))
        self.run_it("table")
        self.assertEqual(self.faults(), [])

    def test_one_side(self):
        """What 01 singles out is there as a definition and as a program."""
        for name, fault in (("crates/low/must-fail/less", "no wrong definition: ruled out: \"a word less\""),
                            ("crates/high/must-fail/reads", "no wrong program: wrong program: \"the reader of all X\"")):
            os.remove(os.path.join(self.base, name + ".edit"))
            self.run_it("table")
            self.assertEqual(self.faults(), [fault])
            self.write(name + ".edit", FILES[name + ".edit"])

    def check_edit(self, text, fault):
        self.write("crates/low/must-fail/clear_one.edit", text)
        self.run_it("table")
        self.assertEqual(self.faults(), ["crates/low/must-fail/clear_one.edit: " + fault])

    def test_lines(self):
        said = FILES["crates/low/must-fail/clear_one.edit"]
        lacks = "its first lines are `# of: `, `# wrong: ` and `# refused by: `; it lacks `# %s: `"
        self.check_edit(said[said.index("file: "):], lacks % "of")
        self.check_edit(said.replace("# wrong: the first word is 1\n", ""), lacks % "wrong")
        self.check_edit(said.replace("# refused by: ", "# refused by:"), lacks % "refused by")
        self.check_edit("# first\n" + said, lacks % "of")
        self.check_edit(said.replace("word is 1", "word | is 1"), "a `|` in its first lines would break the table")

    def test_fit(self):
        said = FILES["crates/low/must-fail/clear_one.edit"]
        self.check_edit(said.replace("old: words[0] = 0;", "old: words[1] = 0;"), "an `old:` text is not in src/lib.rt")
        self.check_edit(said.replace("old: words[0] = 0;", "old: 0"), "an `old:` text is more than once in src/lib.rt")
        self.check_edit(said.replace("src/lib.rt", "src/main.rt"), "there is no file src/main.rt")
        self.check_edit(said[:said.index("file: ")], "it changes nothing")

    def test_replacements_in_turn(self):
        """A second replacement meets the text that the first has left."""
        said = FILES["crates/low/must-fail/clear_one.edit"]
        self.write("crates/low/must-fail/clear_one.edit", said + "old: words[0] = 1;\nnew: words[0] = 2;\n")
        self.assertEqual(self.faults(), [])

    def test_refused_by(self):
        said = FILES["crates/low/must-fail/clear_one.edit"]
        self.check_edit(said.replace("`clear`", "`cleared`"), "nothing is named `cleared`")
        self.check_edit(said.replace("`clear`", "`low/specs/Word.antt`"), "there is no low/specs/Word.antt")

    def test_citations(self):
        self.write("docs/CLAIMS.md", FILES["docs/CLAIMS.md"].replace("Words.antt` `Word`", "Words.antt` `Wort`").replace("`low/src/lib.rt`", "`low/src/main.rt`").replace("`Record`", "`Rec`"))
        self.assertEqual(self.faults(), [
            "docs/CLAIMS.md:1: there is no `Wort` in low/specs/Words.antt",
            "docs/CLAIMS.md:1: there is no low/src/main.rt",
            "docs/CLAIMS.md:2: there is no `Rec` in high/src/lib.rt"])

    def test_citations_of_a_page(self):
        self.write("docs/claims/01.md", FILES["docs/claims/01.md"].replace("`size`", "`sized`"))
        self.write("docs/claims/02.md", FILES["docs/claims/02.md"] + "`low/specs/Word.antt`\n")
        self.assertEqual(self.faults(), [
            "docs/claims/01.md:3: there is no `sized` in low/specs/Words.antt",
            "docs/claims/02.md:8: there is no low/specs/Word.antt"])

    def test_index(self):
        """The first page of claims leads to every other page, and to every section."""
        self.write("docs/claims/03.md", "# Claims of 03\n")
        self.write("docs/claims/02.md", FILES["docs/claims/02.md"] + "## Three\n")
        self.assertEqual(self.faults(), ["docs/CLAIMS.md: there is no link to claims/02.md#three", "docs/CLAIMS.md: there is no link to claims/03.md"])

    def test_links(self):
        """Files and headings that are linked to, from any page."""
        self.write("docs/deep/A.md", "# A page\n\n[a](../CLAIMS.md) [b](../NOWHERE.md) [c](../claims/01.md#claims-01) [d](../claims/01.md#claims) ![e](e.svg) [f](#a-page) [g](#b)\n"
                                     "[h](/etc) [i](../../../x.md) [j](../../crates.txt#low)\n")
        self.assertEqual(self.faults(), [
            "docs/deep/A.md:3: there is no ../NOWHERE.md",
            "docs/deep/A.md:3: no heading is ../claims/01.md#claims",
            "docs/deep/A.md:3: there is no e.svg",
            "docs/deep/A.md:3: no heading is #b",
            "docs/deep/A.md:4: there is no /etc",
            "docs/deep/A.md:4: there is no ../../../x.md",
            "docs/deep/A.md:4: no heading is ../../crates.txt#low"])
        self.write("README.md", FILES["README.md"].replace("#name-1", "#name-2"))
        self.write("target/B.md", "[a](nowhere.md)\n")
        self.write("crates/low/out/C.md", "[a](nowhere.md)\n")
        self.assertEqual(self.faults()[0], "README.md:16: no heading is #name-2")
        self.assertEqual(len(self.faults()), 8)

    def test_usage(self):
        self.assertEqual(self.run_it().returncode, 2)


LOG = """gate: note: elsewhere
fn high::read: proved
rt: low proved
rt: high proved
rt: high: its tests are proved
rt: must-fail low/clear_one.edit: refused, as it must be: proofs/clear/Answers.antt:3:1: error: `returns`: no
rt: must-fail low/less.edit: refused, as it must be
rt: ok; handles allowed: none; must-fail edits: 2 refused, 1 of them only by a limit; every proof and must-fail edit was done in this run
4 passed, 0 failed
gate: took 1 min 5 s on 2 cores
4 passed, 0 failed
"""

TABLES = """### The low one

| crate | holds | edits |
|---|---|---|
| `low` | words | 3 |

### Others

| crate | holds | edits |
|---|---|---|
| `high` | the record | 2 |

2 crates, 5 edits.

The gate took 1 min 5 s on 2 cores: 2 crates and 2 edits, `4 passed, 0 failed`.
"""


class Crates(Repository):
    """The page of crates."""

    def crates(self, *words):
        run = self.run_it(*words, tool="crates.py")
        self.assertEqual(run.stderr, "")
        return run.returncode, run.stdout

    def log(self, text):
        self.write("log", text)
        return os.path.join(self.base, "log")

    STALE = (1, "docs/CRATES.md is out of date: python3 dev/crates.py\n")
    FRESH = (0, "crates: as docs/CRATES.md says\n")

    def test_tables(self):
        """Made without a log, with what one says, and kept."""
        self.assertEqual(self.crates("--check"), self.STALE)
        self.assertEqual(self.crates(), (0, ""))
        self.assertIn("| `low` | words | 3 |\n", self.read("docs/CRATES.md"))
        self.assertEqual(self.crates("--check"), self.FRESH)
        self.assertEqual(self.crates(self.log(LOG)), (0, ""))
        begin, end = FILES["docs/CRATES.md"].split("\n")[2:4]
        self.assertEqual(self.read("docs/CRATES.md"), "# Crates\n\n%s\n\n%s\n%s\n\nBehind.\n" % (begin, TABLES, end))
        self.assertEqual(self.crates("--check"), self.FRESH)
        self.assertEqual(self.crates(), (0, ""))
        self.assertIn(TABLES, self.read("docs/CRATES.md"))

    def test_out_of_date_page(self):
        """A group, a crate or an edit more or less, or another line, makes the page stale; another time does not."""
        self.crates(self.log(LOG))
        self.write("docs/CRATES.md", self.read("docs/CRATES.md").replace("1 min 5 s", "2 min 5 s"))
        self.assertEqual(self.crates("--check"), self.FRESH)
        said = FILES["crates.txt"]
        for text in (said.replace("# words", "# other words"), said.replace("## Others", "## Other"), said.replace("\n## Others\n", ""), said + "# more\nmore: low\n"):
            self.write("crates.txt", text)
            self.assertEqual(self.crates("--check"), self.STALE)
        self.write("crates.txt", said)
        os.remove(os.path.join(self.base, "crates/low/must-fail/clear_one.edit"))
        self.assertEqual(self.crates("--check"), self.STALE)
        self.crates()
        self.assertIn("| `low` | words | 2 |\n", self.read("docs/CRATES.md"))
        self.assertIn("2 min 5 s", self.read("docs/CRATES.md"))

    def test_list(self):
        """A crate has a group, and a line right above it."""
        for text, fault in (("# words\nlow:\n", "low stands above the first group"),
                            ("## A\nlow:\n", "low: the line above it does not say what it holds"),
                            ("## A\n# words\n\nlow:\n", "low: the line above it does not say what it holds"),
                            ("## A\n# words | more\nlow:\n", "low: the line above it does not say what it holds")):
            self.write("crates.txt", text)
            self.assertEqual(self.crates("--check"), (1, "crates.txt: %s\n" % fault))

    def test_log(self):
        """A log that is none, or is of a gate that failed or did not do all."""
        page = self.read("docs/CRATES.md")
        path = self.log("rt: low proved\n")
        self.assertEqual(self.crates(path), (1, "%s is no log of a gate that passed\n" % path))
        self.assertEqual(self.crates("nowhere")[0], 1)
        path = self.log(LOG.replace("every proof and must-fail edit was done in this run", "done in this run: 1 of the 2 proofs; the others are kept"))
        self.assertEqual(self.crates(path), (1, "%s is of a run that took over what earlier ones proved: its time says nothing\n" % path))
        self.assertEqual(self.read("docs/CRATES.md"), page)

    def test_marks(self):
        self.write("docs/CRATES.md", "# Crates\n")
        self.assertIn("do not stand there once each", self.crates()[1])
        self.assertEqual(self.crates("a", "b")[0], 2)


if __name__ == "__main__":
    unittest.main()
