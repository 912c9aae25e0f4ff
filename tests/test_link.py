#!/usr/bin/env python3
"""Tests of what a simulator links that need no proof: the headers, the version, and the page on linking; a few seconds.

    python3 tests/test_link.py [-v]

Programs are linked to target/staticlib/libmangerday.a, as link/install leaves it; where it is not there, they are
compiled alone.  CC and CXX name the compilers, `cc` and `c++` where they are not set.
"""

import os
import re
import shutil
import subprocess
import sys
import tempfile
import unittest

from rooms import ROOT
from papers import ENTRY_LIMIT, IDLE, NAMES, NODE_LIMIT
from rowcases import WORKED
from second.reference import memcase

ARCHIVE = os.path.join(ROOT, "target", "staticlib", "libmangerday.a")
INCLUDE = os.path.join(ROOT, "include")
WARNINGS = ["-Wall", "-Wextra", "-Werror", "-pedantic"]
C = os.environ.get("CC", "cc")
CPP = os.environ.get("CXX", "c++")

# The functions of the archive, as the second program names them.
FUNCTIONS = sorted("md_" + name for name in [*NAMES.values(), "case"])

# A line of the table of refusals.
ROW = re.compile(r'^    ROW\((MD_ROW_[A-Z_]+), (\d+), "([^"\\]+)"\)( \\)?$', re.MULTILINE)


def read(*names):
    with open(os.path.join(ROOT, *names), encoding="utf-8") as file:
        return file.read()


def page():
    """The page on linking."""
    return read("docs", "LINKING.md")


def blocks(text):
    """The indented blocks of a text, each as its lines, without the four spaces."""
    found = re.findall(r"(?:^    .*\n(?:\n(?=    ))?)+", text, re.MULTILINE)
    return [re.sub("^    ", "", block, flags=re.MULTILINE) for block in found]


def parts(block):
    """The parts of a block between which a line is empty."""
    return [part + "\n" for part in block.rstrip("\n").split("\n\n")]


def rows():
    """Name, number and sentence of each row of the header."""
    return [(name, int(number), sentence) for name, number, sentence, _ in ROW.findall(read("include", "mangerday.h"))]


class Programs(unittest.TestCase):
    """A folder for the programs of each test."""

    def setUp(self):
        folder = tempfile.TemporaryDirectory()
        self.addCleanup(folder.cleanup)
        self.folder = folder.name

    def compiled(self, compiler, standard, name, source, *more):
        """The path of a program, compiled without a warning."""
        path, program = os.path.join(self.folder, name), os.path.join(self.folder, "program")
        with open(path, "w", encoding="ascii") as file:
            file.write(source)
        words = [compiler, "-std=" + standard, *WARNINGS, "-I", INCLUDE, path, *more, "-o", program]
        done = subprocess.run(words, stdout=subprocess.PIPE, stderr=subprocess.STDOUT, text=True, check=False)
        self.assertEqual((done.returncode, done.stdout), (0, ""))
        return program

    def printed(self, *arguments):
        """What such a program prints."""
        done = subprocess.run([self.compiled(*arguments)], stdout=subprocess.PIPE, text=True, check=True)
        return done.stdout


class Header(Programs):

    def test_compiles_alone(self):
        """Each header alone, nothing of it used, in every language that it is for."""
        for compiler, standard, name, header in [(C, "c99", "a.c", "mangerday.h"), (C, "c11", "a.c", "mangerday.h"),
                                                 (CPP, "c++11", "a.cpp", "mangerday.h"),
                                                 (CPP, "c++17", "a.cpp", "mangerday.hpp"),
                                                 (CPP, "c++20", "a.cpp", "mangerday.hpp")]:
            with self.subTest(header=header, standard=standard):
                self.compiled(compiler, standard, name, '#include "%s"\nint main(void) { return 0; }\n' % header)

    def test_rows(self):
        """The table is whole, and a program has its numbers and sentences."""
        table = rows()
        self.assertEqual([number for _, number, _ in table], list(range(1, 17)))
        for _, number, sentence in table:
            self.assertTrue(sentence.isascii() and not sentence.endswith("."), number)
        self.assertEqual(len({sentence for *_, sentence in table}), 16)
        lines = ['    printf("%%d %%s\\n", %s, md_reason(%s));\n' % (name, name) for name, *_ in table]
        lines += ['    printf("%%d %%s\\n", MD_ACCEPTED, md_reason(%su));\n' % number for number in (0, 17, 4294967295)]
        source = '#include <stdio.h>\n#include "mangerday.h"\nint main(void)\n{\n%s    return 0;\n}\n' % "".join(lines)
        wanted = ["%d %s" % (number, sentence) for _, number, sentence in table]
        wanted += ["0 accepted", "0 no row of the table", "0 no row of the table"]
        for compiler, standard, name in [(C, "c99", "rows.c"), (CPP, "c++17", "rows.cpp")]:
            with self.subTest(standard=standard):
                self.assertEqual(self.printed(compiler, standard, name, source).splitlines(), wanted)

    def test_numbers(self):
        """Limits and answers, as the second program has them."""
        source = ('#include <stdio.h>\n#include "mangerday.h"\nint main(void)\n{\n'
                  '    printf("%u %d %d %d %d %s\\n", MD_IDLE, MD_NODE_LIMIT, MD_ENTRY_LIMIT, MD_KEPT, MD_ENTERED, '
                  'MD_VERSION);\n    return 0;\n}\n')
        printed = self.printed(C, "c99", "numbers.c", source).split()
        self.assertEqual(printed[:5], [str(number) for number in (IDLE, NODE_LIMIT, ENTRY_LIMIT, 0, 1)])
        self.assertRegex(printed[5], r"^\d+\.\d+\.\d+$")

    def test_functions(self):
        """The header, the Rust crate and the page name the functions that the second program has, and no others."""
        header = re.sub(r"/\*.*?\*/", "", read("include", "mangerday.h"), flags=re.DOTALL)
        self.assertEqual(sorted(re.findall(r"^uint32_t (md_\w+)\(", header, re.MULTILINE)), FUNCTIONS)
        self.assertEqual(sorted(re.findall(r"pub fn (md_\w+)\(", read("link", "rust", "src", "raw.rs"))), FUNCTIONS)
        table = "".join(line for line in page().splitlines(True) if line.startswith("| `md_"))
        named = [name for line in table.splitlines() for name in re.findall(r"`(md_\w+)`", line.split(" | ")[0])]
        self.assertEqual(sorted(named), sorted([*FUNCTIONS, "md_reason"]))

    def test_one_version(self):
        version = re.findall(r'^#define MD_VERSION "(.*)"$', read("include", "mangerday.h"), re.MULTILINE)
        for file in "Cargo.toml", "Cargo.lock":
            found = re.findall(r'^name = "mangerday"\nversion = "(.*)"$', read("link", "rust", file), re.MULTILINE)
            self.assertEqual(found, version, file)


class Page(Programs):
    """What the page on linking shows."""

    def shown(self):
        """The parts of its blocks."""
        return [part for block in blocks(page()) for part in parts(block)]

    def test_example(self):
        """The C++ program of the page prints what is shown behind its commands."""
        block, = [block for block in blocks(page()) if block.startswith("#include")]
        source, commands = block.split("\n\nc++ ")
        _, printed = commands.split("\n\n")
        if not os.path.exists(ARCHIVE):
            self.compiled(CPP, "c++17", "mine.cpp", source + "\n", "-c")
            self.skipTest("no archive: link/install target/prefix makes it")
        self.assertEqual(self.printed(CPP, "c++17", "mine.cpp", source + "\n", ARCHIVE), printed)

    def test_texts(self):
        """The paper's text is shown of C and of Rust, and what the example of formulas prints."""
        self.assertEqual(self.shown().count(memcase(WORKED)), 2)
        self.assertEqual(self.shown().count(read("link", "c", "formula.txt")), 1)

    def test_sentence(self):
        """The refusal that is shown of Rust is a row's."""
        number, sentence = re.search(r"`refused (\d+): ([^`]+)`", page()).groups()
        self.assertIn((int(number), sentence), [row[1:] for row in rows()])

    def test_files(self):
        """Every file that the page names is there."""
        named = re.findall(r"\b(?:link|include)/[\w/]+\.\w+", page())
        self.assertTrue(named)
        for name in named:
            self.assertTrue(os.path.isfile(os.path.join(ROOT, name)), name)


class Install(Programs):
    """`link/install` where it has nothing to install."""

    def run_with(self, *words):
        done = subprocess.run([os.path.join(ROOT, "link", "install"), *words], cwd=self.folder, capture_output=True,
                              text=True, check=False)
        self.assertEqual(os.listdir(self.folder), [])
        return done.returncode, done.stdout, done.stderr

    def test_help(self):
        for word in "--help", "-h":
            status, out, errors = self.run_with(word)
            self.assertEqual((status, errors), (0, ""))
            self.assertTrue(out.startswith("usage: link/install PREFIX\n"), out)
            for name in "include/mangerday.h ", "include/mangerday.hpp ", "lib/libmangerday.a ", "mangerday.pc ":
                self.assertIn("PREFIX/" + name if "/" in name else name, out)

    def test_misuse(self):
        usage = "usage: link/install PREFIX"
        self.assertEqual(self.run_with(), (2, "", usage + "\n"))
        self.assertEqual(self.run_with(""), (2, "", usage + "\n"))
        self.assertEqual(self.run_with("one", "two"), (2, "", usage + "\n"))
        self.assertEqual(self.run_with("--prefix=x"), (
            2, "", "link/install: no option --prefix=x; %s, and a folder of that name is written ./--prefix=x\n" % usage))


@unittest.skipUnless(shutil.which("cargo"), "no cargo")
class RustAlone(Programs):
    """The Rust crate, copied away from the repository.  It is compiled and not linked, so that an archive of nothing is
    enough."""

    def setUp(self):
        super().setUp()
        self.crate = os.path.join(self.folder, "crate")
        shutil.copytree(os.path.join(ROOT, "link", "rust"), self.crate, ignore=shutil.ignore_patterns("target"))
        self.lib = os.path.join(self.folder, "prefix", "lib")
        os.makedirs(self.lib)
        with open(os.path.join(self.lib, "libmangerday.a"), "w", encoding="ascii") as file:
            file.write("!<arch>\n")

    def checked(self, lib):
        """The status of a check of the crate, and what was said."""
        words = ["cargo", "check", "--quiet", "--offline", "--target-dir", os.path.join(self.folder, "made")]
        done = subprocess.run(words, cwd=self.crate, env={**os.environ, "MANGERDAY_LIB": lib}, capture_output=True,
                              text=True, check=False)
        return done.returncode, done.stderr

    def test_header_of_the_prefix(self):
        status, errors = self.checked(self.lib)
        self.assertNotEqual(status, 0)
        self.assertIn("mangerday: there is no %s/../include/mangerday.h: run `link/install PREFIX`" % self.lib, errors)
        shutil.copytree(INCLUDE, os.path.join(self.folder, "prefix", "include"))
        self.assertEqual(self.checked(self.lib), (0, ""))

    def test_no_archive(self):
        status, errors = self.checked("prefix/lib")
        self.assertNotEqual(status, 0)
        self.assertIn("mangerday: there is no prefix/lib/libmangerday.a: run `link/install PREFIX`", errors)
        self.assertIn("the whole path of PREFIX/lib", errors)


if __name__ == "__main__":
    sys.exit(unittest.main())
