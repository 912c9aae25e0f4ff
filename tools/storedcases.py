#!/usr/bin/env python3
"""The stored cases, which the program `cases_test` runs.

    python3 tools/storedcases.py list           a line for each: name, through what it is run, what it tests
    python3 tools/storedcases.py case NAME      the bytes of the case file
    python3 tools/storedcases.py text NAME      what must be printed

They stand in one file, crates/cases_test/stdin.  Before each case are eight numbers of four bytes,
low byte first: 1; how many node words, list words and text bytes are lent to it; its length; from
which node word and list word on digests are taken (0 but where the words before are not known); and
how many of its bytes the call is lent.  crates/cases_test/stdout has for each case a line

    case NUMBER: ROW COUNT N W NODES ENTRIES ASSERT CHECK D D D

with what the call returned and counted, the record, and digests of 60,100 node words, 30,100 list
words and 65,636 text bytes; then the text, if the case was accepted.  Words are 2^31 + 7, bytes 135
and the record's words 7 before.  A digest is the buffer as one large number, its first word or byte
the highest, and of that the remainder by 2^31 - 19.  cases/manifest has the names, in order.
`through` is `memcase`, which lends its own lengths and reads the first 65,536 bytes, or `library`:
the call that runs a case.  tests/cases.py makes these files.  The status is 0, or 2 where the
tool cannot do what it is asked to.
"""

import os
import sys
from collections import namedtuple

from common.endings import end
from common.simulatorruns import Misuse
from second.reference import refused_line

ROOT = os.path.dirname(os.path.dirname(os.path.abspath(__file__)))
INPUT = os.path.join(ROOT, "crates", "cases_test", "stdin")
OUTPUT = os.path.join(ROOT, "crates", "cases_test", "stdout")
MANIFEST = os.path.join(ROOT, "cases", "manifest")

WORD, BYTE, OUT = (1 << 31) + 7, 0x87, 7
BUFFERS = 60100, 30100, 65636
PRIME = (1 << 31) - 19

# `lengths` are those of the three lent buffers, `lent` the bytes that the call is lent; `row`,
# `count` and `record` are what it answers; `out` is what must be printed.
Case = namedtuple("Case", "name through what data lengths lent row count record out")


def digest(data):
    return int.from_bytes(data, "big") % PRIME


def digest_words(words, length, start):
    """The digest from `start` on of words that are followed by the pattern, `length` in all."""
    data = b"".join(word.to_bytes(4, "big") for word in words) + WORD.to_bytes(4, "big") * (length - len(words))
    return digest(data[4 * start:])


def read(path, mode="rb"):
    try:
        with open(path, mode) as file:
            return file.read()
    except OSError as error:
        raise Misuse("cannot read %s: %s; run it in a whole clone" % (path, error.strerror)) from None


def all_cases():
    """The stored cases, in order."""
    data, out, at, place = read(INPUT), read(OUTPUT), 0, 0
    for line in read(MANIFEST).decode("ascii").splitlines():
        name, through, what = line.split(" ", 2)
        numbers = [int.from_bytes(data[at + i:at + i + 4], "little") for i in range(0, 32, 4)]
        at += 32 + numbers[4]
        end = out.index(b"\n", place) + 1
        row, count, *rest = [int(x) for x in out[place:end].split()[2:]]
        text = out[end:end + count].decode("ascii") if row == 0 else refused_line(row, count)
        place = end + (count if row == 0 else 0)
        yield Case(name, through, what, data[at - numbers[4]:at], tuple(numbers[1:4]), numbers[7], row, count,
                   tuple(rest[:6]), text)


def named(name):
    for case in all_cases():
        if case.name == name:
            return case
    raise Misuse("no case %s; `python3 tools/storedcases.py list` has the names" % name)


def show(command="", *names):
    """Print what a command asks for."""
    if command in ("-h", "--help"):
        print(__doc__.strip())
    elif command == "list" and not names:
        for case in all_cases():
            print(case.name, case.through, case.what)
    elif command == "case" and len(names) == 1:
        sys.stdout.buffer.write(named(names[0]).data)
    elif command == "text" and len(names) == 1:
        sys.stdout.write(named(names[0]).out)
    else:
        raise Misuse("write `list`, `case NAME` or `text NAME`; --help says more")
    return 0


def main():
    end("storedcases", show, *sys.argv[1:])


if __name__ == "__main__":
    main()
