"""Two cases, and under which assignments the second is a sharpening of the first.

Under an assignment it is where both have the same n, w, kinds, ports, b and check data, access by access, and are
alike but for bits of enables, addresses and written or asserted data that are X in the first and 0 or 1 in the
second.  A node must be one of the file: those that accesses make have other numbers in another case and are not
followed.
"""

import functools
from collections import namedtuple

from common.casefile import NotACaseFile, parse
from common.diagrams import FALSE, TRUE, Diagrams
from common.simulatorruns import Misuse, read_at_most
from language import casetext
from papers import CHECK, ENABLED, NAMES, USER_VARIABLE, Access
from second.tables import is_standard

# The largest case file has 7,000,000 bytes.
INPUT_BYTES = 1 << 24
SHOWN_BYTES = 300

UNDER_ALL = "under every assignment"

# A case: what it is called, its contents, and where it is a text the line of each access, and the text.
Source = namedtuple("Source", "name case lines text", defaults=((), ""))

# Bits of an access that are not alike: the access from 1 up; the field, with its bit; what it is in the first and
# in the second, and the condition under which; and whether it is sharpened there.
Change = namedtuple("Change", "access field first second where sharper")


# What is given

def read_bytes(path):
    return read_at_most(path, INPUT_BYTES, ": no case and no text of one is")


def read_source(path):
    """The case of a file."""
    if not path.endswith((".txt", ".case")):
        raise Misuse("%s: name it .txt, for a text of casetext.py, or .case, for a case file" % path)
    data = read_bytes(path)
    try:
        if path.endswith(".case"):
            return Source(path, parse(data))
        text = data.decode("utf-8")
        return Source(path, *casetext.read_text(text), text)
    except UnicodeDecodeError:
        raise Misuse("%s is no text; a case file is named .case" % path) from None
    except casetext.Mistake as mistake:
        raise Misuse("%s is no text of a case: %s" % (path, mistake)) from None
    except NotACaseFile as wrong:
        raise Misuse("%s is no case file: %s" % (path, wrong)) from None


def label(source, number):
    """An access in words."""
    line = ", line %d" % source.lines[number - 1] if source.lines else ""
    return "access %d (%s%s)" % (number, NAMES[source.case.accesses[number - 1].kind], line)


def need_nodes(source):
    """Misuse where the nodes are not in standard form, or an access names one that cannot be followed."""
    if not is_standard(source.case.nodes):
        raise Misuse("%s: its nodes are not in standard form, and the case is refused (row 2)" % source.name)
    variables = [USER_VARIABLE] * 2 + [variable for variable, _, _ in source.case.nodes]
    for number, access in enumerate(source.case.accesses, 1):
        for node in nodes_of(access):
            if node >= len(variables):
                raise Misuse("%s: %s names node %d, and the file has none of that number; a node that an access makes "
                             "cannot be followed: write its condition as a node of the file"
                             % (source.name, label(source, number), node))
            if variables[node] < USER_VARIABLE:
                raise Misuse("%s: %s names a node on an index variable, node %d, and the case is refused (row 5); "
                             "variables of accesses are 8 to 63" % (source.name, label(source, number), node))


def nodes_of(access):
    """The nodes that an access names."""
    return {*access.control, *(half for pair in access.address + access.data for half in pair)}


def with_conditions(diagrams, source):
    """The accesses of a case with conditions in place of node numbers."""
    need_nodes(source)
    conditions = diagrams.load(source.case.nodes)

    def pairs(words):
        return [(conditions[h], conditions[l]) for h, l in words]

    return [Access(access.kind, [conditions[node] for node in access.control], pairs(access.address),
                   pairs(access.data), access.port) for access in source.case.accesses]


# What is sharper

class Pair:
    """Two cases.  `holds` has, for each access, the condition under which those up to it are a sharpening, as far
    as there are such; `whole` is that of the whole cases, and `reason` says why it holds nowhere."""

    def __init__(self, first, second, diagrams=None):
        self.first, self.second = first, second
        self.diagrams = diagrams or Diagrams()
        self.changes, self.holds, self.reason = [], [], None
        self.becomes = functools.lru_cache(None)(self.becomes)
        accesses = [with_conditions(self.diagrams, source) for source in (first, second)]
        self.reason = self.sizes_apart() or self.compare(*accesses) or self.counts_apart()
        self.whole = FALSE if self.reason else (self.holds or [TRUE])[-1]

    def sizes_apart(self):
        for name in ("n", "w"):
            one, other = getattr(self.first.case, name), getattr(self.second.case, name)
            if one != other:
                return "%s is %d in the first and %d in the second" % (name, one, other)
        return None

    def counts_apart(self):
        one, other = len(self.first.case.accesses), len(self.second.case.accesses)
        return "accesses: %d in the first and %d in the second" % (one, other) if one != other else None

    def compare(self, first, second):
        """Go through the accesses as long as an assignment is left; the reason where none is."""
        left = TRUE
        for number, (one, other) in enumerate(zip(first, second), 1):
            reason = self.kinds_apart(number, one, other)
            changes = [] if reason or one == other else list(self.changes_of(number, one, other))
            left = self.without(FALSE if reason else left, changes)
            self.changes += changes
            self.holds.append(left)
            if left == FALSE:
                return reason or self.reason_of(next(change for change in changes if not change.sharper))
        return None

    def kinds_apart(self, number, one, other):
        if one.kind != other.kind:
            return "%s: %s in the second" % (self.label(number), label(self.second, number))
        if one.port != other.port:
            return "%s: port %d in the first and %d in the second" % (self.label(number), one.port, other.port)
        return None

    def without(self, left, changes):
        """A condition without the places where something is not alike and not sharper."""
        for change in changes:
            if not change.sharper:
                left = self.diagrams.but_not(left, change.where)
        return left

    def changes_of(self, number, one, other):
        """How two accesses of one kind are not alike."""
        for (field, sharpens, pair), (_, _, pair_of_other) in zip(self.fields(one), self.fields(other)):
            for was, now, where in self.becomes(pair, pair_of_other):
                yield Change(number, field, was, now, where, sharpens and was == "X" and now in ("0", "1"))

    def fields(self, access):
        """The name of each bit, whether it may be sharpened, and its pair."""
        if access.kind in ENABLED:
            yield "enable", True, tuple(access.control)
        else:
            yield "b", False, (access.control[0], self.diagrams.not_(access.control[0]))
        for bit, pair in enumerate(access.address):
            yield "address bit %d" % bit, True, pair
        for bit, pair in enumerate(access.data):
            yield "data bit %d" % bit, access.kind != CHECK, pair

    def becomes(self, one, other):
        """What a pair is in the first and in the second, and where, for each two that are not the same."""
        places = [(was, now, self.diagrams.and_(first, second))
                  for was, first in self.values(one) for now, second in self.values(other) if was != now]
        return [place for place in places if place[2] != FALSE]

    def values(self, pair):
        """Where a pair is what."""
        h, l = pair
        d = self.diagrams
        return ("0", d.but_not(l, h)), ("1", d.but_not(h, l)), ("X", d.and_(h, l)), ("neither", d.not_(d.or_(h, l)))

    # In words

    def label(self, number):
        """An access in words, with its line in both texts where that is not the same."""
        text = label(self.first, number)
        lines = self.first.lines and self.second.lines
        if not lines or self.first.lines[number - 1] == self.second.lines[number - 1]:
            return text
        return "%s and %d)" % (text[:-1].replace("line", "lines"), self.second.lines[number - 1])

    def shown_where(self, condition):
        if condition == TRUE:
            return UNDER_ALL
        if self.diagrams.length(condition) <= SHOWN_BYTES:
            return "where " + self.diagrams.text(condition)
        return "where a condition of %d bytes holds, %s" % (
            self.diagrams.length(condition), shown_assignment(self.diagrams.assignment(condition)))

    def shown_change(self, change):
        return "%s, %s: %s becomes %s %s" % (
            self.label(change.access), change.field, change.first, change.second, self.shown_where(change.where))

    def reason_of(self, change):
        """Why no assignment is left."""
        return self.shown_change(change) + ("" if change.where == TRUE else ", and no other assignment was left")

    def shown_whole(self):
        if self.reason:
            return "the second is a sharpening of the first under no assignment: %s" % self.reason
        if self.whole == TRUE:
            return "the second is a sharpening of the first " + UNDER_ALL
        return "the second is a sharpening of the first exactly %s: for one, %s" % (
            self.shown_where(self.whole), shown_assignment(self.diagrams.assignment(self.whole)))

    def shown_swing(self, swing, first="the first", second="the second"):
        place = "%s, " % self.label(swing.access) + ("" if swing.bit is None else "bit %d, " % swing.bit)
        where = place + shown_assignment(swing.assignment)
        if swing.bit is None:
            return "%s: the check condition holds in %s and not in %s" % (where, first, second)
        return "%s: %s in %s and %s in %s" % (where, swing.first, first, swing.second, second)


def shown_assignment(values):
    return "under " + " ".join("%d=%d" % value for value in values) if values else UNDER_ALL
