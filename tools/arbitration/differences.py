"""What kind of difference there is between `memcase`'s text of a case and a simulator's, and what shows it.

The texts are gone through line by line, and the first line that does not say the same is the difference: later
ones may follow from it.  Its kind is one of

    sharper              the simulator admits less than `memcase`: it has lost an unknown
    looser               the simulator admits more
    other                neither: some more and some less; another place, count or word
    spelled otherwise    every line says the same, and bytes differ
    refused otherwise    one refuses the case and the other does not, or by another row or after other accesses
    no text              the simulator's text is no text of the case

A read bit (h:l) admits 1 where h holds and 0 where l holds.  It is sharper where under each assignment the simulator
admits a part of what `memcase` admits, and looser where it is the reverse.  A bit that admits neither value admits
less than any other, so that it counts as sharper; it is shown as `neither`.  A line is sharper, or looser, where all
its bits that differ are.  Of a line that is other a bit is shown that is X by `memcase` and not by the simulator,
where there is one.

A check condition holds where every plain memory passes every check.  A memory that admits less passes more checks: a
condition that holds at more assignments than `memcase`'s, and falls at none more, is sharper; a check is claimed that
does not hold.  The reverse is looser.  An assert condition holds where the asserted data is inside what the memory
admits.  A memory that admits less has less data inside: here a condition that holds at fewer assignments is sharper,
and one that holds at more is looser.  `entered` for `kept` is other where the conditions are the same; else the
conditions decide.

A text says the same as another where it has more blanks, blank lines, carriage returns at the ends of lines, no
newline at the very end, zeros before numbers, or conditions that agree under every assignment.  It is no text of the
case where a line is none of its access, where it is cut off or goes on, and where it is longer than any text of
`memcase`.

Where the conditions of a line are too large to compare the difference is other, and the sentence says so.
"""

import io
import itertools
import re
from collections import namedtuple

from common.casefile import NotACaseFile, parse
from common.diagrams import FALSE, Diagrams, NotACondition, TooLarge
from common.simulatorruns import cut, shown_from
from papers import CHECK, FIELDS, INPUT_BYTES, NAMES, READ, TEXT_BYTES, WRITE
from sharpened.casepairs import shown_assignment
from sharpened.keptorder import END_LINE, REFUSAL, Malformed, answer, value

SHARPER, LOOSER, OTHER, SPELLED, REFUSED, NO_TEXT = (
    "sharper", "looser", "other", "spelled otherwise", "refused otherwise", "no text")

# The kind; the kind of access that it is in, `end` for the last line, and `case` where the whole text or a refusal
# is meant; the access from 0 up, and None where there is none; the bit of a read from 0 up, the lowest, or None; the
# line of `memcase`'s text from 1 up; an assignment that shows it, as pairs of a variable and its value, empty where
# every one does, or None; what `memcase` and the simulator say there, short and printable; and one sentence, in which
# accesses are counted from 1.
Difference = namedtuple("Difference", "kind access number bit line assignment right found words")

END, CASE = "end", "case"
KINDS = {NAMES[kind]: kind for kind in FIELDS}

ENDS_BEFORE, GOES_ON = "it ends before this line", "it goes on after its last line"

# The row that refuses a case whose text is too long.
TEXT_ROW = "13"

# What a value admits, in words.
ADMITTED = {"X": "0 and 1", "1": "1", "0": "0", "neither": "nothing"}

BLANKS = " \t\r"
MANY_BLANKS = re.compile(r"[ \t]+")
INNER_BLANKS = re.compile(r"(?<=[(:]) | (?=[):])")
LEADING_ZEROS = re.compile(r"(?<![0-9])0+(?=[0-9])")

# A line of a simulator as it stands, without its newline, and with plain blanks and numbers; whether a newline ends it.
Line = namedtuple("Line", "raw plain ended")

# What differs within a line: the kind, the bit, an assignment, what both say there, and the words on it.
Found = namedtuple("Found", "kind bit assignment right found words")


# Texts

def plain_line(raw):
    """A line with one blank where there are more, and no zeros before numbers."""
    line = MANY_BLANKS.sub(" ", raw.decode("latin-1").strip(BLANKS))
    return LEADING_ZEROS.sub("", INNER_BLANKS.sub("", line))


def lines_of(text):
    """The lines of a text that are not blank."""
    parts = text.split(b"\n")
    lines = [Line(raw, plain_line(raw), place < len(parts) - 1) for place, raw in enumerate(parts)]
    return [line for line in lines if line.plain]


def refusal_of(lines):
    """The row and the count of a text that is a refusal alone; None otherwise."""
    found = REFUSAL.fullmatch(lines[0].plain + "\n") if len(lines) == 1 else None
    return found and (found[1], found[2])


def shown(raw, start=0):
    """A line as far as it is shown; None is one that is not there."""
    return "(no line)" if raw is None else cut(raw, start) or "(empty line)"


def shown_both(right, found):
    """Two lines with the first byte in which they differ within what is shown."""
    common = sum(1 for _ in itertools.takewhile(lambda both: both[0] == both[1], zip(right or b"", found or b"")))
    start = shown_from(common)
    return shown(right, start), shown(found, start)


def spelled_text(right, found):
    """The difference of texts that differ in blanks, ends of lines or zeros before numbers alone."""
    lines = itertools.zip_longest(io.BytesIO(right), io.BytesIO(found))
    number, both = next((number, both) for number, both in enumerate(lines, 1) if both[0] != both[1])
    texts = shown_both(*(line and line.removesuffix(b"\n") for line in both))
    ends = ["" if line is None or line.endswith(b"\n") else " (no newline)" for line in both]
    return Difference(SPELLED, CASE, None, None, number, None, texts[0] + ends[0], texts[1] + ends[1],
                      "line %d: the same, with other blanks, ends of lines or zeros before numbers" % number)


# Conditions of a line

def kind_of(less, more):
    """The kind of a difference that admits less, and more, under these conditions; None where there is none."""
    if less == FALSE:
        return None if more == FALSE else LOOSER
    return SHARPER if more == FALSE else OTHER


def less_and_more(diagrams, right, found):
    """Where a pair admits less than another, and where more."""
    less = diagrams.or_(*(diagrams.but_not(one, other) for one, other in zip(right, found)))
    more = diagrams.or_(*(diagrams.but_not(other, one) for one, other in zip(right, found)))
    return less, more


def lost_unknown(diagrams, right, found):
    """Where a pair is X by `memcase` and not by the simulator."""
    return diagrams.but_not(diagrams.and_(*right), diagrams.and_(*found))


def bit_shown(diagrams, bit, right, found):
    """What a read's bit is by both at an assignment where they differ: one that loses an unknown, if any does."""
    less, more = less_and_more(diagrams, right, found)
    places = [lost_unknown(diagrams, right, found), diagrams.and_(less, more), less, more]
    there = diagrams.settled(next(place for place in places if place != FALSE), [*right, *found])
    values = [value(diagrams, pair, there) for pair in (right, found)]
    assignment = diagrams.assignment(there)
    words = ", bit %d, %s: memcase admits %s, the simulator %s" % (
        bit, shown_assignment(assignment), ADMITTED[values[0]], ADMITTED[values[1]])
    return bit, assignment, *values, words


def read_found(diagrams, right, found):
    """How two reads differ; None where they say the same."""
    bits = [(bit, one, other) for bit, (one, other) in enumerate(zip(right, found)) if one != other]
    if not bits:
        return None
    kinds = {kind_of(*less_and_more(diagrams, one, other)) for _, one, other in bits}
    if len(kinds) == 1 and kinds != {OTHER}:
        return Found(kinds.pop(), *bit_shown(diagrams, *bits[0]))
    losing = [bit for bit in bits if lost_unknown(diagrams, *bit[1:]) != FALSE]
    return Found(OTHER, *bit_shown(diagrams, *(losing or bits)[0]))


def condition_found(diagrams, kind, right, found):
    """How two conditions of a check or of an assert differ; None where they agree."""
    fewer, more = diagrams.but_not(right, found), diagrams.but_not(found, right)
    less, admits_more = (more, fewer) if kind == CHECK else (fewer, more)
    if less == admits_more == FALSE:
        return None
    there = less if less != FALSE else admits_more
    holds = diagrams.and_(there, right) != FALSE
    both = ("holds", "fails") if holds else ("fails", "holds")
    assignment = diagrams.assignment(there)
    words = ", %s: the %s condition %s in memcase's text and %s in the simulator's" % (
        shown_assignment(assignment), NAMES[kind], *both)
    return Found(kind_of(less, admits_more), None, assignment, *both, words)


def word_found(right, found):
    """How two words of a line differ; None where they are the same."""
    if right == found:
        return None
    both = [cut(word.encode("latin-1"), 0) for word in (right, found)]
    return Found(OTHER, None, None, *both, ": %s in memcase's text, %s in the simulator's" % tuple(both))


def place_word(line):
    place = line.split(" ")[1]
    return place if place == "idle" else "place " + place


def entries_word(line):
    count = END_LINE.fullmatch(line)
    if not count:
        raise Malformed("it is not `end N`")
    return count[1] + (" entry" if count[1] == "1" else " entries")


def line_found(diagrams, w, kind, right, found):
    """How two lines of an access differ, or two last lines where the kind is None; None where they say the same.
    Malformed or NotACondition where the second is no such line."""
    if kind is None:
        return word_found(entries_word(right), entries_word(found))
    other, one = answer(diagrams, w, kind, found), answer(diagrams, w, kind, right)
    if kind == WRITE:
        return word_found(place_word(right), place_word(found))
    if kind == READ:
        return read_found(diagrams, one, other)
    differs = condition_found(diagrams, kind, one, other)
    if differs or kind == CHECK:
        return differs
    return word_found(right.split(" ")[1], found.split(" ")[1])


# Two texts of one case

class Texts:
    """A case that is parsed, `memcase`'s text of it and a simulator's, neither of them a refusal."""

    def __init__(self, case, right, found):
        self.w = case.w
        self.kinds = [access.kind for access in case.accesses] + [None]
        self.right, self.found = lines_of(right), lines_of(found)
        self.texts = right, found
        self.diagrams = Diagrams()

    def difference(self):
        """The first difference."""
        if len(self.right) != len(self.kinds):
            return self.no_text(0, "memcase's own text is none of this case", OTHER)
        written = None
        for place, kind in enumerate(self.kinds):
            if place >= len(self.found):
                return self.no_text(place, ENDS_BEFORE)
            differs = self.line(place, kind)
            if differs and differs.kind != SPELLED:
                return differs
            written = written or differs
        if len(self.found) > len(self.kinds):
            return self.no_text(len(self.kinds), GOES_ON)
        return written or spelled_text(*self.texts)

    def line(self, place, kind):
        """How the lines at a place differ; None where they do not."""
        right, found = self.right[place], self.found[place]
        try:
            differs = None if found.plain == right.plain else line_found(
                self.diagrams, self.w, kind, right.plain, found.plain)
        except (Malformed, NotACondition) as wrong:
            return self.no_line(place, str(wrong))
        except TooLarge:
            return self.made(place, Found(OTHER, None, None, *self.shown_lines(place),
                                          ": the conditions are too large to compare"))
        if self.is_cut(place) and (differs or kind is not None):
            return self.no_line(place, "no newline ends it")
        if differs:
            return self.made(place, differs)
        if found.plain != right.plain:
            return self.made(place, Found(SPELLED, None, None, *self.shown_lines(place),
                                          ": the same under every assignment, written otherwise"))
        return None

    def is_cut(self, place):
        """Whether no newline ends a line of the simulator."""
        return not self.found[place].ended

    def label(self, place):
        if self.kinds[place] is None:
            return "the last line"
        return "access %d (%s)" % (place + 1, NAMES[self.kinds[place]])

    def made(self, place, found):
        """The difference of a line."""
        kind = self.kinds[place]
        return Difference(found.kind, END if kind is None else NAMES[kind], None if kind is None else place,
                          found.bit, place + 1, found.assignment, found.right, found.found,
                          self.label(place) + found.words)

    def no_line(self, place, why):
        """A line of the simulator is none of its access, or is cut off."""
        if not self.is_cut(place):
            words = ": no text of the case: line %d: %s" % (place + 1, why)
            return self.made(place, Found(NO_TEXT, None, None, *self.shown_lines(place), words))
        is_begun = self.right[place].raw.startswith(self.found[place].raw)
        return self.no_text(place, "it is cut off here" if is_begun else why)

    def no_text(self, place, why, kind=NO_TEXT):
        """The simulator's text is no text of the case, from the line of a place on."""
        words = "line %d: no text of the case: %s" % (place + 1, why)
        return Difference(kind, CASE, None, None, place + 1, None, *self.shown_lines(place), words)

    def shown_lines(self, place):
        """The lines of a place, as far as they are shown."""
        return shown_both(*(lines[place].raw if place < len(lines) else None for lines in (self.right, self.found)))


# Refusals

def any_line(line):
    """Malformed or NotACondition where a line is none of any access."""
    word = line.split(" ")[0]
    if word not in KINDS:
        raise Malformed("it begins as no line does")
    answer(Diagrams(), line.count(":"), KINDS[word], line)


def text_fault(case, lines):
    """The place of the first line that is none of an accepted case, and why; None where all are.  The case is None
    where the file is damaged, and the accesses are not known."""
    last = len(case.accesses) if case else len(lines) - 1
    for place, line in enumerate(lines[:last + 1]):
        try:
            if place == last:
                entries_word(line.plain)
            elif case:
                answer(Diagrams(), case.w, case.accesses[place].kind, line.plain)
            else:
                any_line(line.plain)
        except (Malformed, NotACondition) as wrong:
            return place, str(wrong)
        except TooLarge:
            continue
    if len(lines) <= last:
        return len(lines), ENDS_BEFORE
    return (last + 1, GOES_ON) if len(lines) > last + 1 else None


def shown_refusal(refusal):
    return cut(("refused %s after %s" % refusal).encode("ascii"), 0) if refusal else "accepted"


def refused(right, found):
    both = shown_refusal(right), shown_refusal(found)
    return Difference(REFUSED, CASE, None, None, 1, None, *both,
                      "the case: %s in memcase's text, %s in the simulator's" % both)


def refused_by_memcase(data, right, found, row):
    """The difference where `memcase` refuses the case and the simulator does not."""
    lines = lines_of(found)
    fault = text_fault(parsed(data), lines)
    if fault is None:
        return refused(row, None)
    place, why = fault
    raw = lines[place].raw if place < len(lines) else None
    return Difference(NO_TEXT, CASE, None, None, 1, None, shown(right.rstrip(b"\n")), shown(raw),
                      "line %d: no text of the case: %s" % (place + 1, why))


# The whole

def parsed(data):
    """The case of a file, as far as `memcase` reads it; None where the file is damaged."""
    try:
        return parse(data[:INPUT_BYTES])
    except NotACaseFile:
        return None


def too_long(data, right, found):
    """The difference where the simulator wrote more than any text has.  Where `memcase` refuses the case because its
    text is too long, and the simulator's is a text as far as its lines are whole, they refuse otherwise."""
    row = refusal_of(lines_of(right))
    lines = lines_of(found[:TEXT_BYTES])[:-1]
    if row and row[0] == TEXT_ROW and text_fault(parsed(data), lines) == (len(lines), ENDS_BEFORE):
        return refused(row, None)
    both = shown(right.split(b"\n")[0]), shown(found.split(b"\n")[0])
    return Difference(NO_TEXT, CASE, None, None, 1, None, *both,
                      "the case: no text of it: the simulator wrote more than %d bytes" % TEXT_BYTES)


def nothing(right):
    return Difference(NO_TEXT, CASE, None, None, 1, None, shown(right.split(b"\n")[0]), "(nothing)",
                      "the case: no text of it: the simulator wrote nothing")


def classify(data, right, found):
    """The difference of two texts, as bytes, of the case file `data`: `memcase`'s, and a simulator's that is not the
    same."""
    if right == found:
        raise ValueError("the texts are the same")
    if len(found) > TEXT_BYTES:
        return too_long(data, right, found)
    if not lines_of(found):
        return nothing(right)
    rows = refusal_of(lines_of(right)), refusal_of(lines_of(found))
    if rows[0] and rows[0] == rows[1]:
        return spelled_text(right, found)
    if rows[1]:
        return refused(*rows)
    if rows[0]:
        return refused_by_memcase(data, right, found, rows[0])
    case = parsed(data)
    if case is None:
        both = shown_both(right.split(b"\n")[0], found.split(b"\n")[0])
        return Difference(OTHER, CASE, None, None, 1, None, *both,
                          "the case: memcase's own text is none of this file, which is damaged")
    return Texts(case, right, found).difference()
