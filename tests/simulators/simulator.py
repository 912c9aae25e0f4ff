#!/usr/bin/env python3
"""Simulators to try the arbiter with: a right one, and others that fail each in its way.

    python3 tests/simulators/simulator.py WAY < FILE.case

Without a way, or with one that is none, it names the ways and ends with 2.
"""

import os
import signal
import sys
import time

sys.path.insert(0, os.path.join(os.path.dirname(os.path.abspath(__file__)), os.pardir))

import rooms  # noqa: F401
import wrongcounts
import wrongreads
import wrongswings
import wrongwrites
from second import entrycount
from second.calls import Memory
from second.reference import memcase


def right_text():
    return memcase(sys.stdin.buffer.read())


def write(text):
    sys.stdout.write(text)
    sys.stdout.flush()


def right():
    write(right_text())


def loses_unknown():
    """A bit that is read as unknown is printed as 1."""
    write(right_text().replace(" 1:1", " 1:0"))


def with_wrong(place, name, wrong):
    """The text of a simulator of which one function is a wrong one."""
    right_one = getattr(place, name)
    setattr(place, name, lambda *arguments: wrong(right_one, *arguments))
    right()


def hangs():
    time.sleep(1000)


def hangs_after_text():
    right()
    time.sleep(1000)


def hangs_with_output_closed():
    right()
    os.close(1)
    time.sleep(1000)


def leaves_child():
    """Ends, and leaves a process behind that keeps the output open; prints its number."""
    child = os.fork()
    if child == 0:
        time.sleep(1000)
    write("%d\n" % child)


def hangs_where_idle():
    """Hangs where a write is idle, and so does a child; their numbers are put into the file that PIDS names."""
    text = right_text()
    if "idle" not in text:
        write(text)
        return
    os.fork()
    with open(os.environ["PIDS"], "a", encoding="ascii") as file:
        file.write("%d\n" % os.getpid())
    time.sleep(1000)


def ends_by_signal():
    os.kill(os.getpid(), signal.SIGTERM)


def ends_with_status():
    sys.exit("the licence\nhas expired\n")


def ends_with_status_after_text():
    right()
    sys.exit(3)


def ends_where_idle():
    """Ends with a status where a write is idle."""
    text = right_text()
    if "idle" in text:
        sys.exit(4)
    write(text)


def writes_without_end():
    while True:
        write("write 0\n" * 1000)


def complains():
    """The right text, after more standard error than a pipe holds."""
    sys.stderr.write("warning\n" * 100000)
    right()


def complains_without_end():
    while True:
        sys.stderr.write("warning\n" * 1000)


def breaks_off():
    """The right text without its last line."""
    write("".join(right_text().splitlines(keepends=True)[:-1]))


def refuses_after_text():
    """A refusal that does not stand alone."""
    write("write 0\nrefused 9 after 1\n")


def reads_nothing():
    pass


def writes_nothing():
    sys.stdin.buffer.read()


# The wrong function of each simulator that has one.
WRONG = {
    "forgets-held-word": (Memory, "read", wrongreads.forgets_held_word),
    "holds-across-ports": (Memory, "read", wrongreads.holds_across_ports),
    # An idle write gets a place; or it is printed as idle, and counted in the last line.
    "enters-idle-writes": (Memory, "write", wrongwrites.idle_entered),
    "counts-idle-writes": (entrycount, "write_counts", wrongcounts.idle_counted),
    # Asserts that are printed as kept, and counted in the last line: all; those that differ where b does not hold.
    "counts-kept-asserts": (entrycount, "assert_counts", wrongcounts.kept_counted),
    "counts-asserts-outside-b": (entrycount, "assert_counts", wrongcounts.counted_outside_b),
}

# Those by which an answer swings when an X becomes known, each by the name of its wrong function.
WRONG.update({wrong[2].__name__.replace("_", "-"): wrong for wrong in wrongswings.SWINGING})

WAYS = [right, loses_unknown, hangs, hangs_after_text, hangs_with_output_closed, hangs_where_idle, leaves_child,
        ends_by_signal, ends_with_status, ends_with_status_after_text, ends_where_idle, writes_without_end, complains,
        complains_without_end, breaks_off, refuses_after_text, reads_nothing, writes_nothing]


def main(words):
    """Do as the one word says."""
    ways = {function.__name__.replace("_", "-"): function for function in WAYS}
    way = words[0] if len(words) == 1 else None
    if way in WRONG:
        with_wrong(*WRONG[way])
    elif way in ways:
        ways[way]()
    else:
        print("simulator: WAY is one of: " + ", ".join([*ways, *WRONG]), file=sys.stderr)
        sys.exit(2)


if __name__ == "__main__":
    main(sys.argv[1:])
