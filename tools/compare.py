#!/usr/bin/env python3
"""Compare a program with the reference, on random case files and on the stored ones.

    python3 tools/compare.py [--count N] [--seed S] [--timeout T] [--keep FOLDER] PROGRAM..

PROGRAM (with its arguments) is run on each case file on its standard input; what it
writes to standard output must be what the reference says `memcase` prints.  A program
that ends with a status other than 0, is ended by a signal, or does not end in T
seconds differs.  Where the text is right and the program wrote to standard error there is
no verdict: it says that something failed.  The stored cases (storedcases.py) that `memcase` runs come first, then N
random ones, valid and damaged; case i of seed S is the same each time.  The first
differences are printed, each with its kind (differences.py), and the case files of all go to
FOLDER where one is given.  The status is 1 where anything differs, and 2 where nothing does
and a verdict is missing, or where the tool cannot do what it is asked to.
"""

import argparse
import os
from collections import Counter

from arbitration.differences import classify
from common.endings import Parser, end, need_least, need_time
from common.randomcases import random_bytes
from common.simulatorruns import Misuse, escaped, last_line, need_program, run
from papers import TEXT_BYTES
from second.reference import memcase
from storedcases import all_cases

SHOWN = 5
SHOWN_BYTES = 400
SHOWN_LINES = 20


def stored_cases():
    """Name, bytes and expected text of the stored cases that `memcase` runs."""
    for case in all_cases():
        if case.through == "memcase":
            yield case.name, case.data, case.out


def random_cases(seed, count):
    for number in range(count):
        data, kind = random_bytes(seed * 1000003 + number)
        yield "seed-%d-case-%d-%s" % (seed, number, kind), data, memcase(data)


def outcome_kind(text):
    words = text.split()
    return "refused " + words[1] if words[0] == "refused" else "accepted"


def shown(text):
    """The bytes of a text as far as they are shown, printable but for the ends of lines."""
    lines = text[:SHOWN_BYTES].split(b"\n")
    found = "\n".join(escaped(line) for line in lines[:SHOWN_LINES])
    if len(lines) <= SHOWN_LINES and len(text) <= SHOWN_BYTES:
        return found
    return found + ".. (%s bytes)\n" % (len(text) if len(text) <= TEXT_BYTES else "more than %d" % TEXT_BYTES)


def report(name, data, expected, done):
    """Say how a run differs."""
    found = "(%s)\n" % done.how if done.failure else shown(done.out)
    print("differs: " + name)
    if not done.failure:
        difference = classify(data, expected, done.out)
        print("%s: %s" % (difference.kind, difference.words))
    print("expected:\n" + shown(expected) + "found:\n" + found)


def keep(folder, name, data):
    try:
        os.makedirs(folder, exist_ok=True)
        with open(os.path.join(folder, name + ".case"), "wb") as file:
            file.write(data)
    except OSError as error:
        raise Misuse("cannot keep a case file in %s: %s" % (folder, error.strerror)) from None


def compare(named_cases, ask, folder=None):
    """Run all cases; how many differ, how many have no verdict, and a count of each kind of outcome."""
    different = missing = 0
    kinds = Counter()
    for name, data, text in named_cases:
        kinds[outcome_kind(text)] += 1
        expected = text.encode("ascii")
        done = ask(data)
        if done.failure or done.out != expected:
            different += 1
            if different <= SHOWN:
                report(name, data, expected, done)
            if folder:
                keep(folder, name, data)
        elif done.errors:
            missing += 1
            if missing <= SHOWN:
                print("no verdict: %s: the text is right, and the program wrote to standard error%s"
                      % (name, last_line(done.errors)))
    return different, missing, kinds


def compare_program(options):
    """Run a program on all cases and print what came out; the status to end with."""
    need_least("--count", options.count, 0)
    need_time("--timeout", options.timeout)
    if options.no_stored and not options.count:
        raise Misuse("no case to run: --count must be 1 or more with --no-stored")
    program = need_program(options.program, ": name one that is there and can be run")

    def wanted():
        if not options.no_stored:
            yield from stored_cases()
        yield from random_cases(options.seed, options.count)

    different, missing, kinds = compare(wanted(), lambda data: run(program, data, options.timeout), options.keep)
    for kind, number in sorted(kinds.items(), key=lambda item: (len(item[0]), item[0])):
        print("%6d %s" % (number, kind))
    print("%d cases, %d differ%s"
          % (sum(kinds.values()), different, ", %d without a verdict" % missing if missing else ""))
    return 1 if different else 2 if missing else 0


def main():
    parser = Parser(description=__doc__, formatter_class=argparse.RawDescriptionHelpFormatter)
    parser.add_argument("--count", type=int, default=3000, help="random cases (3000)")
    parser.add_argument("--seed", type=int, default=1, help="seed of the random cases (1)")
    parser.add_argument("--timeout", type=float, default=20, help="seconds for one run (20)")
    parser.add_argument("--keep", metavar="FOLDER", help="write the case files that differ here")
    parser.add_argument("--no-stored", action="store_true", help="random cases only")
    parser.add_argument("program", nargs=argparse.REMAINDER, metavar="PROGRAM")
    options = parser.parse_args()
    if not options.program:
        parser.error("name the program")
    end("compare", compare_program, options)


if __name__ == "__main__":
    main()
