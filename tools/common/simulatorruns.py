"""Runs of a simulator: a command is given a case on its standard input, and what it wrote is kept.

A command is split into words as a shell does it and run without a shell.  Each run has a process group of
its own, which is killed when the run is over.  `end_all`, which a signal handler may call, kills the groups
of all runs at once, of whatever thread, and lets none begin any more.
"""

import math
import os
import selectors
import shlex
import shutil
import signal
import subprocess
import tempfile
import threading
import time
from collections import namedtuple

from papers import TEXT_BYTES

HUNG, CRASHED = "hung", "crashed"

READ_BYTES = 65536
KEPT_ERROR_BYTES = 4096
POLL_SECONDS = 0.005
# So long may pass until a run that waits sees that all were ended.
LOOK_SECONDS = 0.25
SHOWN_BYTES = 72
# So much of a line is shown before the place that is meant.
SHOWN_BEFORE = 24

# Words that a shell takes for itself.
OPERATORS = "|", ">", ">>", "<", "2>", "&&", "||", ";", "&"

# What a run wrote, at most one byte more than the longest text; HUNG, CRASHED or None;
# how it failed, in words; the end of what it wrote to standard error; and how long it took.
Run = namedtuple("Run", "out failure how errors seconds", defaults=(b"", 0.0))


class Misuse(Exception):
    """A tool cannot do what it is asked to, with the reason."""


class AllEnded(Exception):
    """Runs were ended from outside: nothing is known of this one."""


class Register:
    """The process groups of the runs that are under way, and whether all were ended.

    A group is taken out before its process is collected, so that no number in it is that of another group.
    """

    def __init__(self):
        self.lock = threading.RLock()
        self.groups = set()
        self.ended = False

    def enter(self, group):
        """Enter the group of a run that has begun; whether it may go on."""
        with self.lock:
            self.groups.add(group)
            return not self.ended

    def leave(self, group):
        with self.lock:
            self.groups.discard(group)

    def end(self):
        with self.lock:
            self.ended = True
            for group in self.groups:
                os.killpg(group, signal.SIGKILL)


register = Register()


def end_all():
    """Kill all runs that are under way, and let none begin: `run` raises AllEnded from now on."""
    register.end()


def all_ended():
    return register.ended


def has_ended(process):
    """Whether the process has ended; it is not collected, so its group's number stays taken."""
    return os.waitid(os.P_PID, process.pid, os.WEXITED | os.WNOHANG | os.WNOWAIT) is not None


def follow(process, deadline):
    """Read what the process writes until the run is over; its output, whether that is
    closed, and the end of its standard error."""
    out, errors, closed = bytearray(), b"", False
    with selectors.DefaultSelector() as selector:
        selector.register(process.stdout, selectors.EVENT_READ)
        selector.register(process.stderr, selectors.EVENT_READ)
        while len(out) <= TEXT_BYTES and not (closed and has_ended(process)):
            left = deadline - time.monotonic()
            if left <= 0 or all_ended():
                break
            for key, _ in selector.select(min(left, POLL_SECONDS if closed else LOOK_SECONDS)):
                data = os.read(key.fd, READ_BYTES)
                if not data:
                    selector.unregister(key.fileobj)
                    closed = closed or key.fileobj is process.stdout
                elif key.fileobj is process.stdout:
                    out += data
                else:
                    errors = (errors + data)[-KEPT_ERROR_BYTES:]
    return bytes(out[:TEXT_BYTES + 1]), closed, errors


def rest_of(stream):
    """What is in the pipe at once, at most one read of it."""
    os.set_blocking(stream.fileno(), False)
    try:
        return os.read(stream.fileno(), READ_BYTES)
    except BlockingIOError:
        return b""


def run(command, data, seconds):
    """One run of a command with these bytes on its standard input; AllEnded where all runs were ended."""
    if all_ended():
        raise AllEnded()
    begun = time.monotonic()
    deadline = begun + seconds
    with tempfile.TemporaryFile() as case:
        case.write(data)
        case.seek(0)
        process = subprocess.Popen(command, stdin=case, stdout=subprocess.PIPE, stderr=subprocess.PIPE,
                                   start_new_session=True)
    with process.stdout, process.stderr:
        try:
            if register.enter(process.pid):
                out, closed, errors = follow(process, deadline)
                ended = has_ended(process)
        finally:
            register.leave(process.pid)
            os.killpg(process.pid, signal.SIGKILL)
            process.wait()
        if all_ended():
            raise AllEnded()
        errors += rest_of(process.stderr)
    took = time.monotonic() - begun
    if len(out) > TEXT_BYTES:
        return Run(out, None, None, errors, took)
    if ended and process.returncode != 0:
        return Run(out, CRASHED, ending(process.returncode) + last_line(errors), errors, took)
    if ended and closed:
        return Run(out, None, None, errors, took)
    what = "its output was still open" if ended else "it had not ended"
    return Run(out, HUNG, "%s after %s" % (what, seconds_words(seconds)), errors, took)


def seconds_words(seconds):
    return "%g second%s" % (seconds, "" if seconds == 1 else "s")


def ending(status):
    if status > 0:
        return "it ended with status %d" % status
    names = {number.value: " (%s)" % number.name for number in signal.Signals}
    return "it ended by signal %d%s" % (-status, names.get(-status, ""))


def last_line(errors):
    """The last line of a standard error, as more words to a sentence."""
    line = errors.strip().split(b"\n")[-1].strip()
    return ": " + cut(line, 0) if line else ""


def escaped(data):
    """Bytes as printable text, a backslash doubled."""
    return "".join(chr(byte) if 32 <= byte < 127 and byte != 92 else "\\\\" if byte == 92 else "\\x%02x" % byte
                   for byte in data)


def shown_from(place):
    """From which byte on a line is shown, so that a place of it is within what is shown."""
    return 0 if place < SHOWN_BYTES - SHOWN_BEFORE else place - SHOWN_BEFORE


def cut(data, start):
    """The bytes from `start` on as far as they are shown."""
    end = start + SHOWN_BYTES
    return (".." if start else "") + escaped(data[start:end]) + (".." if end < len(data) else "")


def read_at_most(path, most, why=""):
    """The bytes of a file; Misuse where it cannot be read or is longer, with a reason why none is."""
    try:
        with open(path, "rb") as file:
            data = file.read(most + 1)
    except OSError as error:
        raise Misuse("cannot read %s: %s" % (path, error.strerror)) from None
    if len(data) > most:
        raise Misuse("%s is longer than %d bytes%s" % (path, most, why))
    return data


def words_of(command):
    """A command as the words that are run."""
    try:
        words = shlex.split(command)
    except ValueError as error:
        raise Misuse("the command %s cannot be split: %s" % (command, error)) from None
    if not words:
        raise Misuse("an empty command")
    for word in words:
        if word in OPERATORS:
            raise Misuse("`%s` is no word of a command that is run without a shell: use sh -c '..'" % word)
    return need_program(words, "")


def need_program(words, hint):
    """The words of a command, where the first is a program that can be run."""
    if shutil.which(words[0]) is None:
        if os.path.dirname(words[0]) and os.path.isfile(words[0]):
            raise Misuse("%s is not executable: chmod +x it, or name its interpreter" % words[0])
        raise Misuse("no program %s%s" % (words[0], hint))
    return words


def need_seconds(seconds):
    if not (seconds > 0 and math.isfinite(seconds)):
        raise Misuse("--seconds must be above 0")
