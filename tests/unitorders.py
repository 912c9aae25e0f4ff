"""What a sum, a unit write and a unit read build, operation by operation, as the readings of 02's 'Units of several cells'
say it, and the lines of the table that pins it (crates/unit_programs/specs/Orders.antt).

As in `buildorder`, what is made is told by the answers of the operations, one after the other, over truth tables.
"""

import os
import re
from collections import namedtuple

from rooms import ROOT
from papers import entry_size, halves, pairs
from buildorder import Building, Given, made, tables_of, triples
from buildorder import words_of as node_words

TABLE = os.path.join(ROOT, "crates", "unit_programs", "specs", "Orders.antt")

LITTLE, BIG = "little", "big"

# A program and its store: what it is, the nodes from 2 up, three words each, and its arguments.
Sum = namedtuple("Sum", "nodes n k address")
Written = namedtuple("Written", "nodes order n w unit control address data")
Read = namedtuple("Read", "nodes order n w m unit entries held control address")


def offset(order, unit, j):
    return j - 1 if order == LITTLE else unit - j


class Units(Building):
    """The operations of a program of units, in their order."""

    def add(self, address, k):
        """The address and k, pair by pair; no carry after the last bit."""
        carry, found = (self.zero, self.one), []
        for i, pair in enumerate(address):
            one = k >> i & 1
            x = self.mixed(pair, carry)
            found.append(x[::-1] if one else x)
            if i + 1 < len(address):
                carry = self.carried(one, pair, carry)
        return found

    def mixed(self, pair, carry):
        (h, l), (ch, cl) = pair, carry
        return self.half(h, l, cl, ch), self.half(h, l, ch, cl)

    def half(self, h, l, other, own):
        return self.ite("x", h, self.or_("Or(a.l, .)", l, other), own)

    def carried(self, one, pair, carry):
        (h, l), (ch, cl) = pair, carry
        if one:
            return self.or_("carry.h", h, ch), self.and_("carry.l", l, cl)
        return self.and_("carry.h", h, ch), self.or_("carry.l", l, cl)

    def part(self, order, unit, address, j):
        return self.add(address, offset(order, unit, j))

    def unit_write(self, order, unit, control, address, data, w):
        """The words of its entries, part 1 first."""
        marks = self.marks("write: ", control, address)
        return [word for j in range(1, unit + 1)
                for word in (*marks, *halves(self.part(order, unit, address, j)), *data[2 * w * (j - 1):2 * w * j])]

    def unit_read(self, order, m, unit, control, address, entries, held, w):
        word = []
        for j in range(1, unit + 1):
            word += self.look(self.part(order, unit, address, j), entries, w)
        word += [self.zero, self.one] * ((m - unit) * w)
        unknown = self.and_("read: S", *control)
        return [self.hold(unknown, control, word[k], held[k]) for k in self.halves("hold", m * w)]


def built(line, building=None):
    """The operations of a line's program, and its answer."""
    building = building or Units()
    tables = tables_of(line.nodes)

    def given(words):
        return [Given(tables[word], None) for word in words]

    address = pairs(given(line.address))
    if isinstance(line, Sum):
        return building, halves(building.add(address, line.k))
    if isinstance(line, Written):
        return building, building.unit_write(line.order, line.unit, given(line.control), address, given(line.data), line.w)
    size, entries = entry_size(line.n, line.w), []
    for place in range(0, len(line.entries), size):
        words = given(line.entries[place:place + size])
        entries.append((words[0], words[1], pairs(words[2:2 + 2 * line.n]), words[2 + 2 * line.n:]))
    return building, building.unit_read(line.order, line.m, line.unit, given(line.control), address, entries, given(line.held), line.w)


def left(line, building=None):
    """The words of the nodes that the program makes, and the nodes that it answers."""
    building, answer = built(line, building)
    there = tables_of(line.nodes)
    new = made(there, [table for operation in building.operations for table in operation.answers])
    numbers = {table: number for number, table in enumerate([*there, *new])}
    return node_words(line, new), [numbers[given.table] for given in answer]


# Other orders of the same operations, and one more of them: what they answer is the same.

class LowFirst(Units):
    def mixed(self, pair, carry):
        (h, l), (ch, cl) = pair, carry
        low = self.half(h, l, ch, cl)
        return self.half(h, l, cl, ch), low


class BothOrsFirst(Units):
    def mixed(self, pair, carry):
        (h, l), (ch, cl) = pair, carry
        first, second = self.or_("", l, cl), self.or_("", l, ch)
        return self.ite("", h, first, ch), self.ite("", h, second, cl)


class CarryLowFirst(Units):
    def carried(self, one, pair, carry):
        (h, l), (ch, cl) = pair, carry
        low = (self.and_ if one else self.or_)("", l, cl)
        return (self.or_ if one else self.and_)("", h, ch), low


class CarryBefore(Units):
    def add(self, address, k):
        carry, found = (self.zero, self.one), []
        for i, pair in enumerate(address):
            one = k >> i & 1
            after = self.carried(one, pair, carry) if i + 1 < len(address) else carry
            x = self.mixed(pair, carry)
            found.append(x[::-1] if one else x)
            carry = after
        return found


class CarryAfterLast(Units):
    def add(self, address, k):
        return super().add([*address, (self.zero, self.one)], k)[:-1]


class CarriesFirst(Units):
    def add(self, address, k):
        carries = [(self.zero, self.one)]
        for i, pair in enumerate(address[:-1]):
            carries.append(self.carried(k >> i & 1, pair, carries[-1]))
        found = [self.mixed(pair, carry) for pair, carry in zip(address, carries)]
        return [x[::-1] if k >> i & 1 else x for i, x in enumerate(found)]


class SumsFirst(Units):
    def unit_write(self, order, unit, control, address, data, w):
        sums = [self.part(order, unit, address, j) for j in range(1, unit + 1)]
        marks = self.marks("", control, address)
        return [word for j, part in enumerate(sums) for word in (*marks, *halves(part), *data[2 * w * j:2 * w * (j + 1)])]


class OwnMarks(Units):
    def unit_write(self, order, unit, control, address, data, w):
        found = []
        for j in range(1, unit + 1):
            part = self.part(order, unit, address, j)
            found += [*self.marks("", control, part), *halves(part), *data[2 * w * (j - 1):2 * w * j]]
        return found


class LastPartFirst(Units):
    def unit_write(self, order, unit, control, address, data, w):
        marks = self.marks("", control, address)
        sums = {j: self.part(order, unit, address, j) for j in range(unit, 0, -1)}
        return [word for j in range(1, unit + 1) for word in (*marks, *halves(sums[j]), *data[2 * w * (j - 1):2 * w * j])]


class SumsBeforeLooks(Units):
    def unit_read(self, order, m, unit, control, address, entries, held, w):
        sums = [self.part(order, unit, address, j) for j in range(1, unit + 1)]
        word = [half for part in sums for half in self.look(part, entries, w)] + [self.zero, self.one] * ((m - unit) * w)
        unknown = self.and_("", *control)
        return [self.hold(unknown, control, word[k], held[k]) for k in range(2 * m * w)]


class UnknownFirst(Units):
    def unit_read(self, order, m, unit, control, address, entries, held, w):
        self.and_("", *control)
        return super().unit_read(order, m, unit, control, address, entries, held, w)


WRONG = (LowFirst, BothOrsFirst, CarryLowFirst, CarryBefore, CarryAfterLast, CarriesFirst, SumsFirst, OwnMarks,
         LastPartFirst, SumsBeforeLooks, UnknownFirst)


# The table: `NAME = KIND ARGUMENTS MADE ANSWER`, lists in parentheses.

LINE = re.compile(r"(?m)^-- (.*)\nabbrev pub (\w+) : Order\n\2 = (sums|writes|reads) (.*)$")
KINDS = {"sums": Sum, "writes": Written, "reads": Read}


def value(word):
    if word == LITTLE or word == BIG:
        return word
    return int(word) if word.isdigit() else [int(number) for number in re.findall(r"\d+", word)]


def read_table(text=None):
    """The lines of the table by their names: a program and its store, the nodes made and the answer."""
    if text is None:
        with open(TABLE, encoding="utf-8") as file:
            text = file.read()
    found = {}
    for _, name, kind, rest in LINE.findall(text):
        *arguments, new, answer = map(value, re.findall(r"\([^)]*\)|\S+", rest))
        found[name] = KINDS[kind](triples(arguments[0]), *arguments[1:]), new, answer
    return found


def faults(table=None):
    """Where a line is not what the operations leave, and wrong orders that no line tells."""
    table = read_table() if table is None else table
    found = ["%s: %s" % (name, left(line)) for name, (line, new, answer) in table.items() if left(line) != (new, answer)]
    return found + ["no line tells %s" % wrong.__name__ for wrong in WRONG
                    if all(left(line, wrong()) == (new, answer) for line, new, answer in table.values())]


def list_text(words):
    return "(%s)" % " ∷ ".join([*map(str, words), "[]"]) if words else "[]"


def text_of(line):
    """A line's program and what it leaves, as the table has it."""
    kind = next(kind for kind, of in KINDS.items() if isinstance(line, of))
    words = [list_text(halves(line.nodes)), *(list_text(word) if isinstance(word, (list, tuple)) else str(word) for word in line[1:])]
    return " ".join([kind, *words, *map(list_text, left(line))])


if __name__ == "__main__":
    raise SystemExit("\n".join(faults()) or None)
