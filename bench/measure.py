"""Runs of programs on case files: the processor's seconds, the clock's, and the text."""

import os
import resource
import time
from collections import namedtuple

# `seconds` is the least of the processor's seconds, user and system, start-up counted;
# `clock` the least of the clock's; `text` what was printed, or how the program failed.
Result = namedtuple("Result", "seconds clock text")

# Seconds of a run that is short or long; a short one is run so many times more.
SHORT, LONG = 0.005, 2
MORE = 3


class Meter:
    """Runs each program `runs` times on a file, in turn, so that both meet the same load."""

    def __init__(self, folder, runs, limit):
        self.output = os.path.join(folder, "output")
        self.runs = runs
        self.limit = limit

    def once(self, program, path):
        actions = [(os.POSIX_SPAWN_OPEN, 0, path, os.O_RDONLY, 0),
                   (os.POSIX_SPAWN_OPEN, 1, self.output, os.O_WRONLY | os.O_CREAT | os.O_TRUNC, 0o644)]
        start = time.perf_counter()
        child = os.posix_spawnp(program[0], program, os.environ, file_actions=actions)
        try:
            resource.prlimit(child, resource.RLIMIT_CPU, (self.limit, self.limit))
        except ProcessLookupError:
            pass
        _, status, usage = os.wait4(child, 0)
        clock = time.perf_counter() - start
        if status:
            text = "(status %d)" % os.WEXITSTATUS(status)
            if os.WIFSIGNALED(status):
                text = "(ended by signal %d; the limit is %d s)" % (os.WTERMSIG(status), self.limit)
        else:
            with open(self.output, encoding="latin-1") as file:
                text = file.read()
        return usage.ru_utime + usage.ru_stime, clock, text

    def measure(self, programs, path):
        """A Result for each program; more runs where they are short, fewer where one is long."""
        found = [[self.once(program, path)] for program in programs]
        longest = max(results[0][0] for results in found)
        runs = min(self.runs, 2) if longest > LONG else self.runs * (MORE if longest < SHORT else 1)
        for _ in range(runs - 1):
            for program, results in zip(programs, found):
                results.append(self.once(program, path))
        return [Result(min(seconds for seconds, _, _ in results),
                       min(clock for _, clock, _ in results), results[0][2]) for results in found]
