"""Cases judged: `memcase` and the simulators are run on them, and what a report keeps of each is made (reports.py)."""

import hashlib
import io
import itertools
import os
import re
import threading
import time
from collections import namedtuple

from arbitration.differences import classify
from arbitration.reduction import reduce
from arbitration.reports import AGREED, DIFFERS, NO_VERDICT, NOT_RUN
from common.casefile import NotACaseFile
from common.simulatorruns import HUNG, AllEnded, all_ended, cut, last_line, run, shown_from
from language import casetext
from papers import NAMES, TEXT_BYTES
from sharpened import keptorder
from sharpened.sharpercases import sharper_pairs

# A whole text: a refusal alone, or lines of which the last says how many entries there are.
WHOLE_NUMBER = rb"(0|[1-9][0-9]*)"
WHOLE = re.compile(rb"refused " + WHOLE_NUMBER + rb" after " + WHOLE_NUMBER + rb"\n|((?!refused)[^\n]+\n)*end "
                   + WHOLE_NUMBER + rb"\n")

# A line of two texts: its number from 1 up, and the line in each with its newline, None where the text has ended
# before it.
Lines = namedtuple("Lines", "number right found")


# Texts

def first_difference(right, found):
    """The first line in which two texts differ, or None."""
    lines = itertools.zip_longest(io.BytesIO(right), io.BytesIO(found))
    for number, (one, other) in enumerate(lines, 1):
        if one != other:
            return Lines(number, one, other)
    return None


def lines_at(right, found, number):
    """The lines of a number in two texts, or the first in which they differ where those are the same."""
    if number:
        lines = [next(itertools.islice(io.BytesIO(text), number - 1, None), None) for text in (right, found)]
        if lines[0] != lines[1]:
            return Lines(number, *lines)
    return first_difference(right, found)


def shown_line(line, start):
    if line is None:
        return "(no line)"
    text = line.removesuffix(b"\n")
    return (cut(text, start) or "(empty line)") + ("" if line.endswith(b"\n") else " (no newline)")


def shown_difference(right, found, line):
    """A line in which two texts differ, the place of it within what is shown of both."""
    number, one, other = lines_at(right, found, line)
    common = len(os.path.commonprefix([one or b"", other or b""]))
    start = shown_from(common)
    return {"line": number, "byte": common + 1, "right": shown_line(one, start), "found": shown_line(other, start),
            "stopped": len(found) > TEXT_BYTES}


# Runs

class Program:
    """A command, how long a run of it may take, and after how many hung runs it is given up, 0 for never."""

    def __init__(self, name, words, seconds, hangs):
        self.name = name
        self.words = words
        self.seconds = seconds
        self.hangs = hangs
        self.hung = 0
        self.lock = threading.Lock()

    def once(self, data, seconds):
        """A run of at most so many seconds that is not counted."""
        return run(self.words, data, min(seconds, self.seconds))

    def run(self, data):
        done = self.once(data, self.seconds)
        if done.failure == HUNG:
            with self.lock:
                self.hung += 1
        return done

    def given_up(self):
        return 0 < self.hangs <= self.hung


def judge_fault(judge):
    """Why there is no verdict, in words after `memcase`; None where it gave a whole text and nothing else."""
    if judge.failure:
        return "%s: %s" % (judge.failure, judge.how)
    if len(judge.out) > TEXT_BYTES:
        return "wrote more than %d bytes" % TEXT_BYTES
    if judge.errors:
        return "wrote to standard error" + last_line(judge.errors)
    if not WHOLE.fullmatch(judge.out):
        return "wrote no whole text: its last line is neither `end N` nor a refusal alone"
    return None


def verdict(right, done):
    if done.failure:
        return done.failure
    return AGREED if done.out == right else DIFFERS


def run_record(data, right, done):
    """What is kept of a simulator's run on a case; None stands for a run that was not made."""
    if done is None:
        return {"verdict": NOT_RUN, "seconds": 0}
    found = {"verdict": verdict(right, done), "seconds": round(done.seconds, 4)}
    if found["verdict"] == DIFFERS:
        difference = classify(data, right, done.out)
        found["difference"] = difference_record(difference)
        found["shown"] = shown_difference(right, done.out, difference.line)
    elif done.failure:
        found.update(how=done.how, right=done.out == right)
    return found


def difference_record(difference):
    """A difference as a report has it."""
    pairs = difference.assignment
    return {**difference._asdict(), "assignment": None if pairs is None else [list(pair) for pair in pairs]}


def same_way(right, runs):
    """Whether there are two simulators, both differ, and the first wrong line of both is the same."""
    if len(runs) < 2 or any(done is None or verdict(right, done) != DIFFERS for done in runs):
        return False
    return len({first_difference(right, done.out) for done in runs}) == 1


class Judging:
    """`memcase`, the simulators, and how many sharper cases are made of a case."""

    def __init__(self, memcase, simulators, sharpen):
        self.memcase = memcase
        self.simulators = simulators
        self.sharpen = sharpen

    def is_over(self):
        """Whether nothing is left to be run."""
        return self.memcase.given_up() or all(simulator.given_up() for simulator in self.simulators)

    def record(self, name, read):
        """What is kept of a case, which `read` gives the bytes of: `memcase` first, and the simulators where it gives a
        text."""
        if self.is_over():
            return self.not_run(name)
        data = read()
        judge = self.memcase.run(data)
        record = {"name": name, "bytes": len(data), "digest": hashlib.sha256(data).hexdigest(),
                  "seconds": round(judge.seconds, 4), "fault": judge_fault(judge)}
        if record["fault"]:
            return {**record, **self.without_runs(NO_VERDICT)}
        runs = [None if simulator.given_up() else simulator.run(data) for simulator in self.simulators]
        return {**record, "runs": [run_record(data, judge.out, done) for done in runs],
                "alike": same_way(judge.out, runs), "orders": self.orders(data, runs)}

    def not_run(self, name):
        """What is kept of a case where nothing is run any more."""
        many = "%d hung run%s" % (self.memcase.hangs, "" if self.memcase.hangs == 1 else "s")
        fault = "was given up after " + many if self.memcase.given_up() else None
        return {"name": name, "bytes": None, "digest": None, "seconds": 0, "fault": fault,
                **self.without_runs(NO_VERDICT if fault else NOT_RUN)}

    def without_runs(self, word):
        many = len(self.simulators)
        return {"runs": [{"verdict": word, "seconds": 0}] * many, "alike": False, "orders": [[] for _ in range(many)]}

    def orders(self, data, runs):
        """Run the sharper cases of a case: what is kept of each simulator's answers."""
        found = [[] for _ in runs]
        for where, pair in sharper_pairs(data, self.sharpen):
            for place, done in enumerate(runs):
                if done is not None and not self.simulators[place].given_up():
                    found[place].append(order_record(where, pair, done, self.order(place, pair, done)))
        return found

    def order(self, place, pair, done):
        """A simulator's answer to a sharper case beside its answer to the case, which may have failed."""
        if done.failure:
            return keptorder.Judgement(keptorder.FAILED)
        return keptorder.judge_runs(pair, [done, self.simulators[place].run(pair.second.case.bytes())])


def order_record(where, pair, done, judgement):
    """What is kept of a simulator's answer to a sharper case."""
    found = {"verdict": judgement.verdict, "where": where}
    if judgement.verdict == keptorder.SWINGS:
        swing = judgement.swings[0]
        found["access"] = NAMES[pair.first.case.accesses[swing.access - 1].kind]
        found["words"] = pair.shown_swing(swing, pair.first.name, pair.second.name)
    elif judgement.verdict == keptorder.FAILED:
        found["access"] = None
        found["words"] = "" if done.failure else judgement.why
    return found


# The smallest case of a group

class Reduction:
    """The search for the smallest case on which a simulator differs in a given way, for so many seconds at most."""

    def __init__(self, memcase, simulator, kind, access, seconds):
        self.memcase = memcase
        self.simulator = simulator
        self.wanted = kind, access
        self.deadline = time.monotonic() + seconds
        # The texts of the cases that were found to differ so, and the difference.
        self.found = {}

    def is_over(self):
        return all_ended() or time.monotonic() >= self.deadline

    def texts(self, data):
        """What `memcase` and the simulator print of a case; None where one of them fails."""
        found = []
        for program in (self.memcase, self.simulator):
            left = self.deadline - time.monotonic()
            if left <= 0:
                return None
            found.append(program.once(data, left))
        judge, done = found
        return None if judge_fault(judge) or done.failure else (judge.out, done.out)

    def parts(self, data):
        """Whether the simulator differs on a case in the way that is wanted."""
        if self.is_over():
            return False
        try:
            texts = self.texts(data)
        except AllEnded:
            return False
        if texts is None or texts[0] == texts[1]:
            return False
        difference = classify(data, *texts)
        if (difference.kind, difference.access) != self.wanted:
            return False
        self.found[data] = texts, difference
        return True

    def record(self, place, name, data):
        """What is kept of the search among the cases made of one; None where that one does not differ so again."""
        if not self.parts(data):
            return None
        smallest = reduce(data, self.parts)
        texts, difference = self.found[smallest]
        return {"simulator": place, "kind": self.wanted[0], "access": self.wanted[1], "name": name,
                "bytes": len(smallest), "hex": smallest.hex(" "), "text": text_of(smallest),
                "difference": difference_record(difference), "shown": shown_difference(*texts, difference.line),
                "whole": not self.is_over()}


def text_of(data):
    """The text of a case, or None of a damaged one."""
    try:
        return casetext.decode(data)
    except NotACaseFile:
        return None
