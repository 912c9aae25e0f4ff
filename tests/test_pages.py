#!/usr/bin/env python3
"""Tests of README and of the page on cases: the commands that they show, what these print, and the bytes of a case; 2 seconds.

    python3 tests/test_pages.py [-v]

The reference stands in for `memcase`, so that nothing has to be built for them.  The other pages are held to what is
printed by the tests of what they show.
"""

import glob
import os
import re
import shlex
import subprocess
import sys
import tempfile
import unittest

from rooms import ROOT

REFERENCE = shlex.join([sys.executable, os.path.join(ROOT, "tools", "reference.py")])
README_LINES = 180


def read(name):
    with open(os.path.join(ROOT, *name.split("/")), encoding="utf-8") as file:
        return file.read()


def section(page, title):
    return read(page).split("\n## %s\n" % title)[1].split("\n## ")[0]


def printed(words, data=b""):
    """What a command prints, from the root of the repository."""
    return subprocess.run(words, cwd=ROOT, input=data, stdout=subprocess.PIPE, check=False).stdout


def encoded(path):
    return printed([sys.executable, "tools/casetext.py", "encode", path])


def answer(path):
    """What the reference prints of a text."""
    return printed(shlex.split(REFERENCE), encoded(path)).decode("ascii")


def shown(text):
    """A text as a page shows it."""
    return "".join("    %s\n" % line if line else "\n" for line in text.splitlines())


class FirstCase(unittest.TestCase):
    """README's first case, saved and run."""

    SECTION = section("README.md", "A first case")

    def setUp(self):
        folder = tempfile.TemporaryDirectory()
        self.addCleanup(folder.cleanup)
        self.path = os.path.join(folder.name, "mine.txt")
        block = re.search(r"(?m)(?:^    .*\n)+", self.SECTION).group()
        with open(self.path, "w", encoding="ascii") as file:
            file.write(re.sub("(?m)^    ", "", block))

    def test_read(self):
        """The lines that are explained are those of its text, which stands above."""
        lines = re.findall(r"(?m)^\| `([^`]+)` \|", self.SECTION)
        self.assertEqual(lines, answer(self.path).splitlines())
        self.assertEqual(answer(self.path), answer("examples/worked.txt"))

    def test_run(self):
        command, = re.findall(r"(?m)^    (python3 tools/casetext.py run mine.txt --memcase) crates/memcase/out/memcase$", self.SECTION)
        words = shlex.split(command.replace("mine.txt", shlex.quote(self.path)))
        text = printed([sys.executable, *words[1:], REFERENCE]).decode("ascii")
        self.assertIn("    %s crates/memcase/out/memcase\n\n%s" % (command, shown(text)), self.SECTION + "\n")


class FirstCommand(unittest.TestCase):
    def test_crates(self):
        """How many crates it proves: `memcase`, and what stands below it."""
        lines = [line.split("#")[0].split(":") for line in read("crates.txt").splitlines() if ":" in line.split("#")[0]]
        stands_on = {name.split()[0]: more.split() for name, more in lines}
        found, todo = set(), ["memcase"]
        while todo:
            name = todo.pop()
            if name in stands_on and name not in found:
                found.add(name)
                todo += stands_on[name]
        self.assertIn(" it proves %d crates," % len(found), section("README.md", "Two commands"))


class Texts(unittest.TestCase):
    def test_encoded(self):
        """What `memcase` prints of an example is shown behind its command."""
        for page, wanted in (("README.md", ["worked"]), ("docs/CASES.md", ["regfile", "budget"])):
            text = read(page)
            found = re.findall(r"(?m)^    (python3 tools/casetext.py encode examples/(\w+).txt \| (?:crates/memcase/out/memcase|\(cd crates/memcase && rt run\)))$", text)
            self.assertEqual([name for _, name in found], wanted)
            for command, name in found:
                self.assertIn("%s\n\n%s\n" % (command, shown(answer("examples/%s.txt" % name))), text)

    def test_budget(self):
        """The case that is counted by hand is the example's."""
        block, = [part for part in section("docs/CASES.md", "Planning the list").split("\n\n") if part.startswith("    node")]
        wanted = [line.strip() for line in read("examples/budget.txt").splitlines() if line.strip()]
        self.assertEqual([line.strip() for line in block.splitlines() if line.strip()],
                         [line for line in wanted if not line.startswith(("#", "memory"))])

    def test_bytes(self):
        """The bytes, in a table and in one line, are those of the paper's file."""
        text, wanted = section("docs/CASES.md", "The file, byte by byte"), encoded("examples/worked.txt").hex(" ")
        cells = re.findall(r"(?m)^\| ((?:`[0-9a-f ]+` ?)+)\|", text)
        self.assertEqual(" ".join(part for cell in cells for part in re.findall("`([^`]+)`", cell)), wanted)
        self.assertIn("\n    %s\n" % wanted, text)


class Pages(unittest.TestCase):
    def test_length(self):
        self.assertLessEqual(len(read("README.md").splitlines()), README_LINES)

    def test_files(self):
        """Every file beside the crates that a page runs or names is there."""
        named = set()
        for path in [os.path.join(ROOT, "README.md"), *glob.glob(os.path.join(ROOT, "*", "*.md"))]:
            with open(path, encoding="utf-8") as file:
                for name in re.findall(r"\b(?:tools|tests|dev|link|include|examples|bench)/(?:\w+/)*\w+\.(?:\w+)\b", file.read()):
                    named.add(name)
                    self.assertTrue(os.path.isfile(os.path.join(ROOT, name)), "%s: %s" % (path, name))
        self.assertGreater(len(named), 40)


if __name__ == "__main__":
    unittest.main()
