"""Written formulas: what a text lists, or the row and the place that refuse it.

The grammar is written out below over letters, each a byte or a class of bytes.  A table is made of it (canonical
LR(1)), and a text is read with the table and a stack: what is not yet finished stands on the stack, so that the
letters N and the arrows around a place are those on the stack there.  Such a table moves by no letter with which no
text of the language could go on, so that a fault is found at its place.  Names are the request's (02).
"""

import functools
from collections import namedtuple

from second.tables import Refused

# More open parentheses, N and arrows than this around one place are refused by 16.
OPEN_LIMIT = 32

# No predicate has a number past this one.
LAST_NUMBER = (1 << 32) - 1

DIGIT, SPACE, END = "digit", "space", "end"

# The first of these is the whole text; a bar stands between the ways to write a part, one of which may be empty.
GRAMMAR = """
text        = spaces formula
formula     = conjunction | arrow formula
arrow       = b number spaces - > spaces
conjunction = unit | conjunction & spaces unit
unit        = predicate | N spaces unit | ( spaces formula ) spaces
predicate   = m number spaces
number      = digit | number digit
spaces      = | spaces space
"""

LETTERS = {ord(letter): letter for letter in "mbN&()->"}
LETTERS.update((ord(digit), DIGIT) for digit in "0123456789")
LETTERS[ord(" ")] = SPACE

# What is open around a place while it stands on the stack.
OPEN = "(", "N", "arrow"

# The letters that open it; `>` is the second of the two of an arrow.
OPENING = "(", "N", ">"


class Fault(Refused):
    """A text that row 15 or 16 refuses, with the place of the byte, or the length of the text for its end."""

    def __init__(self, number, place):
        super().__init__(number)
        self.place = place


# Arrows in text order, each with the arrow next around it, None where there is none, and its node; predicates in
# text order, each with its step, the arrow next around it and its number.
Arrow = namedtuple("Arrow", "around node")
Named = namedtuple("Named", "step arrow predicate")
Reading = namedtuple("Reading", "arrows named")


class Table:
    """The LR(1) table of a grammar: where each state goes by a letter or part, and what it has finished before a
    letter."""

    def __init__(self, grammar):
        self.ways = []
        for line in grammar.strip().splitlines():
            part, ways = line.split("=", 1)
            self.ways += [(part.strip(), tuple(way.split())) for way in ways.split("|")]
        self.parts = {part: [i for i, (left, _) in enumerate(self.ways) if left == part] for part, _ in self.ways}
        self.find_firsts()
        self.moves, self.finished = [], []
        self.find_states()

    def find_firsts(self):
        """The letters that each part may begin with, None among them where it may be empty."""
        self.firsts = {part: set() for part in self.parts}
        size = -1
        while size != sum(map(len, self.firsts.values())):
            size = sum(map(len, self.firsts.values()))
            for part, way in self.ways:
                self.firsts[part] |= self.first(way)

    def first(self, way):
        found = set()
        for symbol in way:
            begin = self.firsts.get(symbol, {symbol})
            found |= begin - {None}
            if None not in begin:
                return found
        return found | {None}

    def closure(self, items):
        """Items (way, how much of it is read, the letter after it), with those of parts that may begin there."""
        found, waiting = set(items), list(items)
        while waiting:
            way, read, after = waiting.pop()
            rest = self.ways[way][1][read:]
            if rest and rest[0] in self.parts:
                begun = [(other, 0, letter) for letter in self.first(rest[1:] + (after,))
                         for other in self.parts[rest[0]]]
                waiting += [item for item in begun if item not in found]
                found.update(begun)
        return frozenset(found)

    def find_states(self):
        states = [self.closure([(0, 0, END)])]
        numbers = {states[0]: 0}
        for items in states:
            moved = {}
            self.finished.append({})
            for way, read, after in items:
                right = self.ways[way][1]
                if read < len(right):
                    moved.setdefault(right[read], []).append((way, read + 1, after))
                elif self.finished[-1].setdefault(after, way) != way:
                    raise ValueError("two ways are finished before `%s`" % after)
            self.moves.append({})
            for symbol, kernel in moved.items():
                state = self.closure(kernel)
                if state not in numbers:
                    numbers[state] = len(states)
                    states.append(state)
                self.moves[-1][symbol] = numbers[state]
            if set(self.moves[-1]) & set(self.finished[-1]):
                raise ValueError("a way is finished before a letter by which it goes on")


@functools.lru_cache
def table():
    return Table(GRAMMAR)


# The stack is its last entry: a state, the letter or part by which it was come to, the value of that, the entry
# below; then how many are open in the stack, how many of them are N, and which arrow is the last.
Entry = namedtuple("Entry", "state symbol value below opened steps arrow")

# A text read up to a place: the stack there, and what is finished, the last one first, each (one, those before it).
Position = namedtuple("Position", "table stack place arrows named")


def begin():
    return Position(table(), Entry(0, None, None, None, 0, 0, None), 0, None, None)


def pushed(rules, stack, symbol, value):
    opened = stack.opened + (symbol in OPEN)
    steps = stack.steps + (symbol == "N")
    arrow = value if symbol == "arrow" else stack.arrow
    return Entry(rules.moves[stack.state][symbol], symbol, value, stack, opened, steps, arrow)


def after_digit(number, digit):
    """A number with one more digit; past the largest, any is as good as another."""
    return min(10 * number + digit, LAST_NUMBER + 1)


def letter_value(stack, letter, byte, place):
    """A digit's is the number that ends with it; another letter's is its place."""
    if letter != DIGIT:
        return place
    return after_digit(stack.value if stack.symbol == "number" else 0, byte - ord("0"))


def test_number(stack, right):
    """Row 15 of the number that ends with the last digit."""
    number, letter = stack.value, stack.below
    if letter.symbol == "number":
        letter = letter.below
    if not right(letter.symbol, number):
        raise Fault(15, letter.value)


def test_open(stack, letter, place):
    """Row 16 of a letter that opens."""
    if letter in OPENING and stack.opened >= OPEN_LIMIT:
        raise Fault(16, place - 1 if letter == ">" else place)


def finish(at, way):
    """The stack with the symbols of a way replaced by its part."""
    part, symbols = at.table.ways[way]
    stack, values = at.stack, []
    for _ in symbols:
        values.append(stack.value)
        stack = stack.below
    value = values[0] if part == "number" else None
    arrows, named = at.arrows, at.named
    if part == "arrow":
        value = arrows[2] + 1 if arrows else 0
        arrows = Arrow(stack.arrow, number_in(symbols, values)), arrows, value
    if part == "predicate":
        named = Named(stack.steps, stack.arrow, number_in(symbols, values)), named
    return at._replace(stack=pushed(at.table, stack, part, value), arrows=arrows, named=named)


def number_in(symbols, values):
    return values[::-1][symbols.index("number")]


def before(at, letter, right):
    """The position with all finished that is finished before a letter."""
    if at.stack.symbol == DIGIT and letter != DIGIT:
        test_number(at.stack, right)
    while True:
        way = at.table.finished[at.stack.state].get(letter)
        if not way:
            return at, way
        at = finish(at, way)


def step(at, byte, right):
    """The position after one more byte; `right` tells of `m` or `b` and a number whether it is a right one."""
    letter = LETTERS.get(byte)
    at, _ = before(at, letter, right)
    stack = at.stack
    if letter not in at.table.moves[stack.state]:
        raise Fault(15, at.place)
    test_open(stack, letter, at.place)
    stack = pushed(at.table, stack, letter, letter_value(stack, letter, byte, at.place))
    return at._replace(stack=stack, place=at.place + 1)


def end(at, right):
    """The reading of a text that ends here."""
    at, way = before(at, END, right)
    if way is None:
        raise Fault(15, at.place)
    return Reading(unrolled(at.arrows), unrolled(at.named))


def unrolled(last):
    found = []
    while last:
        found.append(last[0])
        last = last[1]
    return found[::-1]


def read(text, right):
    """The reading of a text, or the Fault that refuses it."""
    at = begin()
    for byte in text:
        at = step(at, byte, right)
    return end(at, right)


def enclosing(reading, arrow):
    """The nodes of an arrow and of those around it, outermost first."""
    found = []
    while arrow is not None:
        found.append(reading.arrows[arrow].node)
        arrow = reading.arrows[arrow].around
    return found[::-1]


def in_order(named):
    """By step, then by text."""
    return sorted(named, key=lambda one: one.step)
