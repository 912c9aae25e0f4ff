"""The order of what a simulator printed of two cases, the second a sharpening of the first.

Where the accesses up to one are a sharpening, each bit that a read of the second may return the first may return,
and a check condition that holds in the first holds in the second.  Nothing is claimed of the assert condition, of
the places of writes, of `idle`, `entered` and `kept`, and of the last line: only their form is looked at.
"""

import re
from collections import namedtuple

from common.diagrams import FALSE, NotACondition, TooLarge
from papers import ASSERT, CHECK, READ, TEXT_BYTES, WRITE

KEPT, SWINGS, NO_CLAIM, FAILED = "order kept", "swings", "no claim", "failed"

REFUSAL = re.compile(r"refused (0|[1-9][0-9]*) after (0|[1-9][0-9]*)\n")
WRITE_LINE = re.compile(r"write (idle|0|[1-9][0-9]*)")
END_LINE = re.compile(r"end (0|[1-9][0-9]*)")
ASSERT_LINE = re.compile(r"assert (entered|kept) ")
CHECK_LINE = re.compile(r"check ")

# What is judged of two texts: the verdict; the swings; how many reads and checks were compared, and how many of
# them are not the same; why there is no claim or no text.
Judgement = namedtuple("Judgement", "verdict swings compared sharper why", defaults=((), 0, 0, ""))

# A read bit that may be more, or a check condition (`bit` is None) that no longer holds: the access from 1 up,
# an assignment as pairs, and what both texts say there.
Swing = namedtuple("Swing", "access bit assignment first second")


class Malformed(Exception):
    """A text that no case prints, with the reason."""


# What is printed

def condition_line(diagrams, start, line):
    """The condition that ends a line."""
    begun = start.match(line)
    if not begun:
        raise Malformed("it does not begin as the access's line does")
    condition, end = diagrams.condition_at(line, begun.end())
    need_end(line, end)
    return condition


def need_end(line, end):
    if end != len(line):
        raise Malformed("it goes on after its last condition, at byte %d" % (end + 1))


def after(line, at, text):
    """The place behind a text that must stand at a place."""
    if not line.startswith(text, at):
        raise Malformed("there is no `%s` at byte %d" % (text, at + 1))
    return at + len(text)


def read_line(diagrams, w, line):
    """The pairs of a read's line, the lowest bit first."""
    pairs = []
    at = after(line, 0, "read")
    for _ in range(w):
        h, at = diagrams.condition_at(line, after(line, at, " "))
        l, at = diagrams.condition_at(line, after(line, at, ":"))
        pairs.append((h, l))
    need_end(line, at)
    return pairs[::-1]


def answer(diagrams, w, kind, line):
    """What a line says: a read's pairs, or a condition, None of a write."""
    if kind == READ:
        return read_line(diagrams, w, line)
    if kind != WRITE:
        return condition_line(diagrams, ASSERT_LINE if kind == ASSERT else CHECK_LINE, line)
    if not WRITE_LINE.fullmatch(line):
        raise Malformed("it is no line of a write")
    return None


def answers(diagrams, case, text):
    """What a text says of each access of its case; Malformed otherwise."""
    lines = text.split("\n")
    if lines.pop():
        raise Malformed("its last line has no newline")
    if len(lines) != len(case.accesses) + 1:
        raise Malformed("lines: %d, and a case of so many accesses prints %d" % (len(lines), len(case.accesses) + 1))
    found = []
    for number, (access, line) in enumerate(zip(case.accesses, lines), 1):
        try:
            found.append(answer(diagrams, case.w, access.kind, line))
        except (Malformed, NotACondition) as wrong:
            raise Malformed("line %d: %s" % (number, wrong)) from None
    if not END_LINE.fullmatch(lines[-1]):
        raise Malformed("its last line is not `end N`")
    return found


# The order

def value(diagrams, pair, condition):
    """What a pair is where a condition holds that settles both its halves."""
    h, l = (diagrams.and_(condition, half) != FALSE for half in pair)
    return "X" if h and l else "1" if h else "0" if l else "neither"


def swing_of_bit(diagrams, holds, number, bit, one, other):
    """The swing of a read's bit, or None."""
    more = diagrams.and_(holds, diagrams.or_(diagrams.but_not(other[0], one[0]), diagrams.but_not(other[1], one[1])))
    if more == FALSE:
        return None
    there = diagrams.settled(more, [*one, *other])
    return Swing(number, bit, diagrams.assignment(there), value(diagrams, one, there), value(diagrams, other, there))


def swing_of_check(diagrams, holds, number, one, other):
    """The swing of a check condition, or None."""
    lost = diagrams.and_(holds, diagrams.but_not(one, other))
    return Swing(number, None, diagrams.assignment(lost), "holds", "not") if lost != FALSE else None


def swings_of(diagrams, holds, number, kind, one, other):
    """The swings of one access."""
    if kind == CHECK:
        found = [swing_of_check(diagrams, holds, number, one, other)]
    else:
        found = [swing_of_bit(diagrams, holds, number, bit, *pairs) for bit, pairs in enumerate(zip(one, other))]
    return [swing for swing in found if swing]


def is_other(diagrams, holds, one, other):
    """Whether two answers are not the same somewhere."""
    if isinstance(one, int):
        one, other = [(one, one)], [(other, other)]
    return any(diagrams.and_(holds, half) != diagrams.and_(holds, half_of_other)
               for pair, pair_of_other in zip(one, other) for half, half_of_other in zip(pair, pair_of_other))


def compare(pair, first, second):
    """The judgement on what two texts say of each access."""
    if pair.whole == FALSE and not any(pair.holds):
        return Judgement(NO_CLAIM, why="the second is no sharpening of the first")
    swings, compared, sharper = [], 0, 0
    for number, (holds, access, one, other) in enumerate(zip(pair.holds, pair.first.case.accesses, first, second), 1):
        if access.kind in (READ, CHECK) and holds != FALSE:
            compared += 1
            sharper += is_other(pair.diagrams, holds, one, other)
            swings += swings_of(pair.diagrams, holds, number, access.kind, one, other)
    return Judgement(SWINGS if swings else KEPT, swings, compared, sharper)


def judge(pair, texts):
    """The judgement on the two texts, as bytes, that a simulator printed of a pair of cases."""
    found = []
    try:
        for source, data in zip((pair.first, pair.second), texts):
            text = data.decode("latin-1")
            if REFUSAL.fullmatch(text):
                return Judgement(NO_CLAIM, why="%s: %s" % (source.name, text.strip()))
            found.append(answers(pair.diagrams, source.case, text))
        return compare(pair, *found)
    except Malformed as wrong:
        return Judgement(FAILED, why="%s: no text of this case: %s" % (source.name, wrong))
    except TooLarge:
        return Judgement(NO_CLAIM, why="these conditions are too large to compare")


def judge_runs(pair, runs):
    """The same of two runs of a simulator."""
    for source, run in zip((pair.first, pair.second), runs):
        if run.failure:
            return Judgement(FAILED, why="%s: %s: %s" % (source.name, run.failure, run.how))
        if len(run.out) > TEXT_BYTES:
            return Judgement(FAILED, why="%s: it wrote more than %d bytes" % (source.name, TEXT_BYTES))
    return judge(pair, [run.out for run in runs])
