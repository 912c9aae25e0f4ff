#!/usr/bin/env python3
"""Every short text of a formula, through the archive and by the table-driven reader: the number, the place, the
predicates listed.

    python3 tests/linktexts.py PROGRAM [--letters L] [--behind K]

PROGRAM is link/c/texts.c linked to the archive.  It is run on all texts of up to L letters, and on those of up to K
behind each of some beginnings that have nearly as many openers as there may be.  What it writes is compared with
tools/second/formulas.py, which goes once through what texts have in common.  The status is 1 where one differs.

link/test runs it up to 5 letters, and 3 behind a beginning.  Longer ones, where link/install has built the archive:

    cc -O2 -Iinclude link/c/texts.c target/staticlib/libmangerday.a -o target/texts
    python3 tests/linktexts.py target/texts --letters 7 --behind 5
"""

import argparse
import subprocess
import sys

import rooms  # noqa: F401
from second import formulas
from second.formulas import Fault

LETTERS = b"mbN&()-> 03x"

# Beginnings with 31 and 32 openers, of each kind alone and mixed.
BEGINNINGS = ["(" * 31, "(" * 32, "N" * 31, "N" * 32, "b0->" * 31, "b0 -> " * 15 + "(N" * 8, "N(b0->" * 10 + "N("]

ROWS = {15: 1, 16: 2}


class Differs(Exception):
    """The program does not write what the reader says."""


def right(letter, number):
    """The program's memory has one predicate and the nodes 0 to 3, of which 3 is on an index variable."""
    return number < 1 if letter == "m" else number < 3


def code(fault, before):
    return ROWS[fault.number] << 4 | fault.place - before


def sizes(letters):
    """How many texts begin with one of so many letters less than the most."""
    found = [1]
    for _ in range(letters):
        found.append(1 + len(LETTERS) * found[-1])
    return found


class Walk:
    """The texts in the program's order, against what it writes."""

    def __init__(self, written, beginning, letters):
        self.written, self.beginning, self.sizes = written, beginning, sizes(letters)
        self.text = bytearray(beginning)
        self.compared = self.read = 0

    def expect(self, byte, many):
        """The next so many texts all have this byte."""
        while many:
            part = min(many, 1 << 20)
            found = self.written.read(part)
            if found != bytes([byte]) * part:
                raise Differs("after `%s`: %s, not %d" % (self.text.decode("latin-1"), list(found[:12]), byte))
            self.compared += part
            many -= part

    def all(self):
        at = formulas.begin()
        for byte in self.beginning:
            at = formulas.step(at, byte, right)
        self.texts(at, len(self.sizes) - 1)
        if self.written.read(1):
            raise Differs("more bytes than texts")

    def texts(self, at, left):
        """The texts that begin with the one at this position, and have so many letters more at most."""
        self.read += 1
        try:
            listed = len(formulas.end(at, right).named)
            self.expect(listed, 1)
        except Fault as fault:
            self.expect(code(fault, len(self.beginning)), 1)
        for letter in LETTERS if left else b"":
            self.text.append(letter)
            try:
                after = formulas.step(at, letter, right)
            except Fault as fault:
                self.expect(code(fault, len(self.beginning)), self.sizes[left - 1])
            else:
                self.texts(after, left - 1)
            self.text.pop()


def compare(program, letters, beginning=""):
    """How many texts were compared."""
    command = [program, str(letters)] + ([beginning] if beginning else [])
    with subprocess.Popen(command, stdout=subprocess.PIPE) as running:
        walk = Walk(running.stdout, beginning.encode("ascii"), letters)
        try:
            walk.all()
        except Differs:
            running.kill()
            raise
    if running.returncode:
        raise Differs("%s ended with status %d" % (program, running.returncode))
    return walk.compared


def main():
    parser = argparse.ArgumentParser(description=__doc__, formatter_class=argparse.RawDescriptionHelpFormatter)
    parser.add_argument("program", metavar="PROGRAM")
    parser.add_argument("--letters", type=int, default=5, metavar="L", help="letters at most (5)")
    parser.add_argument("--behind", type=int, default=3, metavar="K", help="letters at most behind a beginning (3)")
    options = parser.parse_args()
    try:
        compared = compare(options.program, options.letters)
        print("%d texts of up to %d letters" % (compared, options.letters))
        compared = sum(compare(options.program, options.behind, beginning) for beginning in BEGINNINGS)
        print("%d texts of up to %d letters behind %d beginnings" % (compared, options.behind, len(BEGINNINGS)))
    except Differs as difference:
        print("linktexts: %s" % difference)
        return 1
    return 0


if __name__ == "__main__":
    sys.exit(main())
