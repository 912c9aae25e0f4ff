"""Random formulas from seeds, with what they list and where their numbers and openers stand; calls that are lent
them, and damage to their texts."""

from collections import namedtuple

import rooms  # noqa: F401
from papers import ASSERT_FORMULA, CHECK_FORMULA
from randomcalls import Pool, damage_state, other_node
from second.calls import Call
from second.formulas import OPEN_LIMIT

LETTERS = "mbN&()-> 0123456789"

# A text with, in text order, its predicates (step, nodes of the arrows around it, predicate), its numbers (place,
# letter, number) and what it opens (place, how many are open around it).
Written = namedtuple("Written", "text named numbers openers")


class Writer:
    """A formula that is written from left to right."""

    def __init__(self, rng, predicates, nodes, spaces):
        self.rng, self.predicates, self.nodes, self.spaces = rng, predicates, nodes, spaces
        self.text, self.named, self.numbers, self.openers = "", [], [], []
        self.space()

    def space(self):
        if self.rng.chance(self.spaces):
            self.text += " " * self.rng.between(1, 3)

    def token(self, text):
        self.text += text
        self.space()

    def number(self, letter, choices):
        number = self.rng.choice(choices)
        self.numbers.append((len(self.text), letter, number))
        zeros = "0" * (self.rng.between(1, 12) if self.rng.chance(8) else 0)
        self.token("%s%s%d" % (letter, zeros, number))
        return number

    def open(self, text, opened):
        self.openers.append((len(self.text), opened))
        self.token(text)

    def formula(self, size, opened, steps, nodes):
        """Some arrows, then units with so many predicates or a few more in all."""
        while self.rng.chance(30):
            node = self.number("b", self.nodes)
            self.open("->", opened)
            opened, nodes = opened + 1, nodes + [node]
        while True:
            part = size if self.rng.chance(30) else self.rng.between(1, size)
            self.unit(part, opened, steps, nodes)
            size -= part
            if size <= 0:
                break
            self.token("&")

    def unit(self, size, opened, steps, nodes):
        if self.rng.chance(30):
            for _ in range(self.rng.between(1, 3)):
                self.open("N", opened)
                opened, steps = opened + 1, steps + 1
        if size == 1 and self.rng.chance(80):
            self.named.append((steps, nodes, self.number("m", self.predicates)))
            return
        self.open("(", opened)
        self.formula(size, opened + 1, steps, nodes)
        self.token(")")

    def chain(self, many):
        """So many openers, one in the other, and a predicate, perhaps of more."""
        opened, steps, nodes, closing, last = 0, 0, [], 0, "("
        for _ in range(many):
            last = self.rng.choice("(N" if last == "N" else "(Nb")
            if last == "b":
                nodes = nodes + [self.number("b", self.nodes)]
            self.open("->" if last == "b" else last, opened)
            opened, steps, closing = opened + 1, steps + (last == "N"), closing + (last == "(")
        if last == "N":
            self.unit(1, opened, steps, nodes)
        else:
            self.formula(self.rng.between(1, 3), opened, steps, nodes)
        for _ in range(closing):
            self.token(")")

    def written(self):
        return Written(self.text.encode("ascii"), self.named, self.numbers, self.openers)


def formula(rng, predicates, nodes, size=None):
    """A formula of some of these predicates and nodes, few openers deep or about as many as may be."""
    writer = Writer(rng, predicates, nodes, rng.choice([0, 30, 60]))
    if rng.chance(12):
        writer.chain(rng.between(OPEN_LIMIT - 4, OPEN_LIMIT + 2))
    else:
        writer.formula(size or rng.between(1, 6), 0, 0, [])
    return writer.written()


def first_fault(written, right):
    """The row and the place of the first wrong number or of the first opener that is one too many, None where there
    is neither."""
    faults = [(place, 15) for place, letter, number in written.numbers if not right(letter, number)]
    faults += [(place, 16) for place, opened in written.openers if opened >= OPEN_LIMIT]
    return min(faults)[::-1] if faults else None


def damaged(rng, text):
    """A text with one or two bytes changed, put in or left out, or a part of it left out or twice there."""
    for _ in range(rng.between(1, 2)):
        at = rng.below(len(text) + 1)
        byte = bytes([ord(rng.choice(LETTERS)) if rng.chance(90) else rng.below(256)])
        way = rng.below(10)
        if way < 3:
            text = text[:at] + byte + text[at + 1:]
        elif way < 6:
            text = text[:at] + byte + text[at:]
        elif way < 8:
            text = text[:at] + text[at + 1:]
        elif way == 8:
            text = text[:at]
        else:
            other = rng.below(len(text) + 1)
            text = text[:max(at, other)] + text[min(at, other):]
    return text


def any_text(rng):
    return "".join(rng.choice(LETTERS) for _ in range(rng.below(12))).encode("ascii")


# Calls.

def predicates(rng, pool, n, w, kind, many):
    """A table of so many predicates and of some words more."""
    table = []
    for _ in range(many):
        table += pool.pairs(n, pool.true if kind == ASSERT_FORMULA and rng.chance(85) else 0) + pool.pairs(w)
    return table + rng.words(rng.below(2 * n + 2 * w) if rng.chance(40) else 0)


def call(rng, state, size=None):
    """A call of a formula on a memory, such as it accepts most often."""
    pool = Pool(rng, state)
    n, w = min(state.record.n, 20), min(state.record.w, 20)
    kind = rng.choice([ASSERT_FORMULA, CHECK_FORMULA])
    many = rng.between(1, 4)
    table = predicates(rng, pool, n, w, kind, many)
    some = [pool.node() for _ in range(rng.between(1, 3))]
    written = formula(rng, range(many), some, size)
    answer = 3 * len(written.named) + (rng.below(8) if rng.chance(80) else 0)
    return Call(kind, data=rng.words(answer), text=written.text, table=table)


def damage_call(rng, one, state):
    """A call with its text, a word of its table, its table's or its answer's length changed."""
    way = rng.below(10)
    if way < 4:
        return one._replace(text=damaged(rng, one.text) if rng.chance(90) else any_text(rng))
    if way < 8 and one.table:
        table = list(one.table)
        at = rng.below((len(table) + 1) // 2) * 2
        if rng.chance(60):
            table[rng.below(len(table))] = other_node(rng, state)
        else:
            table[at:at + 2] = [rng.choice([0, 1])] * len(table[at:at + 2])
        return one._replace(table=table)
    if way == 8:
        return one._replace(table=one.table[:rng.below(len(one.table) + 1)])
    return one._replace(data=one.data[:rng.below(len(one.data) + 1)])


def damage(rng, one, state):
    if rng.chance(60):
        return damage_call(rng, one, state), state
    return one, damage_state(rng, state)
