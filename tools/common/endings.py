"""How a tool ends: with the status of its work, or with one line on standard error that says what is wrong.

    2      the tool cannot do what it is asked to, or cannot write what it found
    130    it was ended by Ctrl-C, and the program that it ran with it; nothing is said.  143 and 129: by SIGTERM, SIGHUP
    141    its standard output was closed before all was written, as by `| head`; nothing is said

The line is `TOOL: MESSAGE`, printable whatever it names, and cut where it is long.
"""

import argparse
import math
import os
import signal
import sys
from contextlib import contextmanager

from common.diagrams import TooLarge
from common.simulatorruns import Misuse, escaped

MISUSE, OUTPUT_CLOSED = 2, 141

# Signals that end a tool; the status is 128 more.
ENDING = signal.SIGINT, signal.SIGTERM, signal.SIGHUP

# How much of a message is shown: its beginning, and its end, which says what to do.
SHOWN_FIRST, SHOWN_LAST = 400, 200

# A run may take as long; a longer time does not fit the system's clocks.
MOST_SECONDS = 1000000


def say(line, file=None):
    """Print a line; the names and texts of others in it may have any bytes."""
    print(printable(line), file=file)


def printable(line):
    return escaped(os.fsencode(line))


def shortened(text):
    """A printable text, without its middle where it is long."""
    if len(text) <= SHOWN_FIRST + SHOWN_LAST:
        return text
    return "%s .. %s" % (text[:SHOWN_FIRST], text[-SHOWN_LAST:])


def complain(name, message):
    """Say on standard error what is wrong, where it can be written to."""
    if sys.stderr is None:
        return
    try:
        print(shortened(printable("%s: %s" % (name, message))), file=sys.stderr, flush=True)
    except OSError:
        pass


class Parser(argparse.ArgumentParser):
    """A parser of arguments whose mistakes are one line; options are written whole."""

    def __init__(self, **given):
        super().__init__(allow_abbrev=False, **given)

    def error(self, message):
        complain(os.path.splitext(self.prog)[0], "%s; --help says more" % message)
        sys.exit(MISUSE)


def need_least(option, number, least):
    if number is not None and number < least:
        raise Misuse("%s must be %d or more" % (option, least))


def need_time(option, seconds):
    """Misuse where a time for one run is none, or too long."""
    if not (seconds > 0 and math.isfinite(seconds)):
        raise Misuse("%s must be above 0" % option)
    if seconds > MOST_SECONDS:
        raise Misuse("%s must be at most %d" % (option, MOST_SECONDS))


def standard_input(most=-1):
    """The bytes of standard input, at most so many."""
    if sys.stdin is None:
        raise Misuse("standard input is closed: give it a case file, as `< FILE.case`")
    try:
        return sys.stdin.buffer.read(most)
    except OSError as error:
        raise Misuse("cannot read standard input: %s" % (error.strerror or error)) from None


class Ended(BaseException):
    """A signal has ended the tool."""


def stop(number, _frame):
    raise Ended(number)


@contextmanager
def ended_by_signals():
    """Signals that end a tool end what it runs first; those that are ignored stay ignored."""
    before = {number: signal.getsignal(number) for number in ENDING}
    changed = [number for number, handler in before.items() if handler != signal.SIG_IGN]
    for number in changed:
        signal.signal(number, stop)
    try:
        yield
    finally:
        for number in changed:
            signal.signal(number, before[number])


def drop_output():
    """What was not written is not tried again when Python ends."""
    with open(os.devnull, "wb") as nothing:
        os.dup2(nothing.fileno(), sys.stdout.fileno())


def status_of(name, work, arguments):
    """The status of a tool's work; that of its fault, which is said, where it has one."""
    try:
        if sys.stdout is None:
            raise Misuse("standard output is closed: give it a file")
        with ended_by_signals():
            status = work(*arguments)
            sys.stdout.flush()
        return status
    except BrokenPipeError:
        drop_output()
        return OUTPUT_CLOSED
    except Ended as ended:
        return 128 + ended.args[0]
    except TooLarge:
        complain(name, "these conditions are too large to compare: compare cases with fewer variables")
    except Misuse as error:
        complain(name, error)
    except OSError as error:
        if error.filename is None:
            drop_output()
        complain(name, "%s: %s" % (error.filename or "cannot write", error.strerror or error))
    return MISUSE


def end(name, work, *arguments):
    """End with the status of a tool's work on these arguments, and with 2 and a line where it cannot be done."""
    sys.exit(status_of(name, work, arguments))
