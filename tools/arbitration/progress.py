"""Work of many runs: by threads, with a line that says how far it is, and ended by signals."""

import os
import queue
import signal
import sys
import threading
import time

from common.simulatorruns import end_all
from language.words import counted

# How often the line of progress is written, where it is rewritten and where it is not.
TERMINAL_SECONDS, LOG_SECONDS = 0.1, 5
TICK_SECONDS = 0.5

STOPPING = signal.SIGINT, signal.SIGTERM, signal.SIGHUP
# So long after the first signal a further SIGINT is taken for the same one: `timeout` sends two, one to the process
# and one to its group.
SAME_SECONDS = 1


class Stopping:
    """Signals that end the runs: the first ends them, and SIGINT once more, a second later, the arbiter itself."""

    def __init__(self):
        self.signal = None
        self.since = None
        self.heeded = [number for number in STOPPING if signal.getsignal(number) != signal.SIG_IGN]
        for number in self.heeded:
            signal.signal(number, self.stop)

    def stop(self, number, _):
        if self.signal is None:
            self.since = time.monotonic()
            self.signal = signal.Signals(number)
            end_all()
        elif number == signal.SIGINT and time.monotonic() - self.since >= SAME_SECONDS:
            signal.signal(number, signal.SIG_DFL)
            os.kill(os.getpid(), number)

    def status(self, status):
        """The status to end with, when all is told: this one where no signal came, and further signals do not change
        that of the first."""
        if self.signal is None:
            return status
        for number in self.heeded:
            signal.signal(number, signal.SIG_IGN)
        return 128 + self.signal


class Progress:
    """A line on standard error that says how far the runs are: rewritten on a terminal, else a line now and then."""

    def __init__(self, wanted, total):
        self.terminal = sys.stderr.isatty()
        self.wanted = self.terminal if wanted is None else wanted
        self.total = total
        self.begun = self.last = time.monotonic()
        self.done = self.parted = 0

    def step(self, parted):
        self.done += 1
        self.parted += parted
        self.tick()

    def tick(self):
        now = time.monotonic()
        if self.wanted and now - self.last >= (TERMINAL_SECONDS if self.terminal else LOG_SECONDS):
            self.last = now
            self.write(self.line(now - self.begun))

    def line(self, took):
        words = "%d of %s, %d not agreed" % (self.done, counted(self.total, "case"), self.parted)
        if self.done and took >= 1:
            words += ", %d s left" % round(took / self.done * (self.total - self.done))
        return words

    def say(self, words):
        """Another line in its place."""
        if self.wanted:
            self.write(words)

    def write(self, words):
        sys.stderr.write("\r%s\x1b[K" % words if self.terminal else "arbiter: %s\n" % words)
        sys.stderr.flush()

    def end(self):
        if self.wanted and self.terminal:
            sys.stderr.write("\r\x1b[K")
            sys.stderr.flush()


def results(work, items, jobs):
    """What `work` makes of each item, or the exception that it raises, with the item, as they come, by so many threads;
    None now and then while nothing comes.  Items are taken when a thread is free."""
    left, lock, done = iter(items), threading.Lock(), queue.SimpleQueue()

    def take():
        with lock:
            return next(left, None)

    def run_all():
        for item in iter(take, None):
            try:
                done.put((item, work(item)))
            except BaseException as error:  # pylint: disable=broad-except
                done.put((item, error))
        done.put(None)

    threads = [threading.Thread(target=run_all) for _ in range(jobs)]
    for thread in threads:
        thread.start()
    while threads:
        try:
            found = done.get(timeout=TICK_SECONDS)
        except queue.Empty:
            yield None
            continue
        if found is None:
            threads.pop()
        else:
            yield found
