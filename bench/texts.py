#!/usr/bin/env python3
"""The time of reading a formula, by the library: texts of three lengths that are refused at their end.

    python3 bench/texts.py

Prints a table: microseconds for each length, and nanoseconds a byte of the longest; the last column is how many times
longer the longest takes than the shortest, which has a sixteenth of its bytes.
"""

import subprocess
import sys

import build

ROW_OF = {"outside": 15, "past": 15, "wrong": 15, "33": 16, "short": 13}


def expected_row(what):
    return next(row for word, row in ROW_OF.items() if word in what.split(", ")[1])


def measured(program):
    """For each kind of text its row and its microseconds by length."""
    found = {}
    done = subprocess.run([program], stdout=subprocess.PIPE, text=True, check=True)
    for line in done.stdout.splitlines():
        what, length, microseconds, row = line.split("\t")
        if int(row) != expected_row(what):
            sys.exit("texts: %s, %s bytes: row %s" % (what, length, row))
        found.setdefault((what, int(row)), {})[int(length)] = float(microseconds)
    return found


def main():
    found = measured(build.texts_program())
    lengths = sorted(next(iter(found.values())))
    print("| text | row | %s | ns a byte | longest to shortest |" % " | ".join("%s bytes, us" % format(x, ",") for x in lengths))
    print("|---|---|%s---|---|" % ("---|" * len(lengths)))
    for (what, row), times in found.items():
        print("| %s | %d | %s | %.2f | %.1f |" % (what, row, " | ".join("%.1f" % times[x] for x in lengths),
                                                1000 * times[lengths[-1]] / lengths[-1], times[lengths[-1]] / times[lengths[0]]))


if __name__ == "__main__":
    main()
