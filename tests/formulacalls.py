#!/usr/bin/env python3
"""The calls of `formulas_test`: the language of formulas and the places of its faults, wrong numbers, how deep
they nest, every row that an assert or a check of a formula can meet and the order of these rows, the order of the
answer, the conditions that are built, accesses up to a refused one, texts and stores at their limits.

    python3 tests/formulacalls.py            write crates/formulas_test/stdin and stdout
    python3 tests/formulacalls.py --check    compare them; status 1 where one is not as made
    python3 tests/formulacalls.py --list     each call's line, and what the call is for

What must be printed is found by tools/second/calls.py.
"""

import os
import sys

from rooms import ROOT
import callscript
from callscript import LENGTH, OUT, RECORD, changes, main, runs
from memorycalls import ONE, TERMINALS, X, ZERO, bits, filled, record_of
from papers import ASSERT_FORMULA, CHECK_FORMULA, FORMULAS, NAMES
from second.calls import Call, Told, run

NODES, LIST, TEXT, TABLE, ANSWER = range(5)
TEXT_LENGTH = 65600
KINDS = {ASSERT_FORMULA: 1, CHECK_FORMULA: 2}
LONGEST_STRIDE = 6


class Script(callscript.Script):
    """The input so far, what must be printed, and the name of each call."""

    def __init__(self):
        super().__init__()
        self.buffers = [[0] * (TEXT_LENGTH if buffer == TEXT else LENGTH) for buffer in range(5)]

    def put(self, buffer, words):
        """Make a buffer begin with these words; a text in the stride that takes the fewest items."""
        if buffer != TEXT:
            super().put(buffer, words)
            return
        old = self.buffers[TEXT]
        ways = [[(*run, stride) for start in range(stride) for run in runs(old, words, start, stride)]
                for stride in range(1, LONGEST_STRIDE + 1)]
        for place, many, value, step, stride in min(ways, key=len):
            self.item(callscript.PUT, TEXT, place, many, stride, value, step, 0)
        old[:len(words)] = words

    def call(self, name, call, record, nodes, entries):
        """A call, and what it answers and leaves."""
        if tuple(record) != self.record:
            self.item(RECORD, *record, 0)
        lent = nodes, entries, list(call.text), call.table, call.data
        for buffer, words in enumerate(lent):
            self.put(buffer, words)
        self.item(KINDS[call.kind], *map(len, lent), 0, len(self.names))
        left = run(call, record, nodes, entries, [])
        self.record = tuple(left.record)
        self.names.append(name)
        self.lines.append(self.line(call, left))
        return left

    def line(self, call, left):
        numbers = [left.number, *(OUT if told is None else told for told in left.out), *left.record]
        text = "call %d %s" % (len(self.names) - 1, " ".join(map(str, numbers)))
        for name, buffer, new in (("nodes", NODES, left.nodes), ("list", LIST, left.list), ("answer", ANSWER, left.data)):
            old = self.buffers[buffer]
            for place, changed in changes(old[:len(new)], new):
                text += "; %s %d: %s" % (name, place, " ".join(map(str, changed)))
            old[:len(new)] = new
        return text + "\n"


S = Script()

# Variable 8 is node 2, index variable 0 node 3, not 8 node 4, variable 9 node 5, variable 10 node 6; the count is 7.
STORE = TERMINALS + [8, 0, 1, 0, 0, 1, 8, 1, 0, 9, 0, 1, 10, 0, 1]
COUNT = 7
ROOM = [9] * 60
A, NOT_A, INDEX, C, D = 2, 4, 3, 5, 6

# Predicates for n = 1 and w = 1: 1@0, 0@1, 1 at the location that variable 8 is, X@0, 0@0.
PREDICATES = [ZERO + ONE, ONE + ZERO, [A, NOT_A] + ONE, ZERO + X, ZERO + ZERO]
TABLE_WORDS = [word for words in PREDICATES for word in words]


def joined(*predicates):
    return [word for words in predicates for word in words]


def tell(name, kind, text, record=None, nodes=None, entries=None, table=None, answer=30):
    """A formula on that store with room for nodes and space for four entries, if nothing else is said; the answer
    slice is of so many words, 8 in each."""
    call = Call(kind, data=[8] * answer, text=text.encode("latin-1"), table=list(TABLE_WORDS if table is None else table))
    record = record_of(1, 1, COUNT, 0) if record is None else record
    nodes = STORE + ROOM if nodes is None else nodes
    entries = [7] * 24 if entries is None else entries
    return S.call("%s, %s" % (name, NAMES[kind]), call, record, list(nodes), list(entries))


def each(name, text, **lent):
    """By both calls, on the same memory."""
    return [tell(name, kind, text, **lent) for kind in FORMULAS]


def fault(text, row, place, **lent):
    """A text that is refused at a place, by both calls in turn."""
    kind = ASSERT_FORMULA if len(S.names) % 2 else CHECK_FORMULA
    left = tell("`%s`" % (text if len(text) < 60 else text[:57] + ".."), kind, text, **lent)
    assert (left.number, left.out) == (row, Told(None, None, place)), (text, left.number, left.out)


def listed(text, expected, **lent):
    """A text that is read, and the triples that it lists."""
    kind = ASSERT_FORMULA if len(S.names) % 2 else CHECK_FORMULA
    left = tell("`%s`" % (text if len(text) < 60 else text[:57] + ".."), kind, text, **lent)
    assert left.number == 0 and left.out == Told(len(expected), len(expected), None), (text, left.number, left.out)
    assert left.data[:3 * len(expected)] == joined(*expected), (text, left.data)


# The language.

def right_texts():
    """Texts of the language, and what they list."""
    listed("m0", [(0, 1, 0)])
    listed("  m0  ", [(0, 1, 0)])
    listed("m3 & m1", [(0, 1, 3), (0, 1, 1)])
    listed("m3&m1&m0", [(0, 1, 3), (0, 1, 1), (0, 1, 0)])
    listed("N m1", [(1, 1, 1)])
    listed("NNm1", [(2, 1, 1)])
    listed(" N  N m1 ", [(2, 1, 1)])
    listed("N m1 & m0", [(0, 1, 0), (1, 1, 1)])
    listed("N(m1 & m0)", [(1, 1, 1), (1, 1, 0)])
    listed("(m0)", [(0, 1, 0)])
    listed("( ( m0 ) )", [(0, 1, 0)])
    listed("((m3) & (m1 & m0))", [(0, 1, 3), (0, 1, 1), (0, 1, 0)])
    listed("b2 -> m0", [(0, 2, 0)])
    listed("b2->m0", [(0, 2, 0)])
    listed(" b2  ->  m0 ", [(0, 2, 0)])
    listed("b2 -> m0 & m1", [(0, 2, 0), (0, 2, 1)])
    listed("(b2 -> m0) & m1", [(0, 2, 0), (0, 1, 1)])
    listed("m0 & (b2 -> m1)", [(0, 1, 0), (0, 2, 1)])
    listed("b2 -> b2 -> m0", [(0, 2, 0)])
    listed("b2 -> b4 -> m0", [(0, 0, 0)])
    listed("b1 -> m0 & (b2 -> m1) & m3", [(0, 1, 0), (0, 2, 1), (0, 1, 3)])
    listed("b2 -> N(b1 -> m1 & N m0) & m3", [(0, 2, 3), (1, 2, 1), (2, 2, 0)])
    listed("N(b2 -> m0)", [(1, 2, 0)])
    listed("b0 -> m0", [(0, 0, 0)])
    listed("b5 -> (b2 -> m0) & (b4 -> m1)", [(0, 7, 0), (0, 8, 1)])
    listed("(((((((m0)))))))", [(0, 1, 0)])


def outside():
    """Texts outside the language: the first byte with which none goes on, or the end."""
    for text, place in (
            ("", 0), (" ", 1), ("m", 1), ("b", 1), ("N", 1), ("(", 1), ("m ", 1), ("b ", 1), ("m 0", 1), ("b 2 -> m0", 1),
            ("M0", 0), ("n m0", 0), ("&", 0), (")", 0), ("-", 0), (">", 0), ("->", 0), ("0", 0), ("7m0", 0), ("x", 0),
            ("m0 m1", 3), ("m0m1", 2), ("m0 0", 3), ("m0 &", 4), ("m0 & ", 5), ("m0 && m1", 4), ("& m0", 0),
            ("m0 & & m1", 5), ("m0 N m1", 3), ("m0 (m1)", 3), ("m0)", 2), ("(m0))", 4), ("(m0", 3), ("((m0)", 5),
            ("()", 1), ("( )", 2), ("(m0 m1)", 4), ("N", 1), ("N ", 2), ("N & m0", 2), ("N)", 1), ("N b2 -> m0", 2),
            ("Nb2->m0", 1), ("m0 & b1 -> m2", 5), ("(m0 & b1 -> m2)", 6), ("b2", 2), ("b2 ", 3), ("b2 m0", 3),
            ("b2 &", 3), ("b2 -", 4), ("b2 - > m0", 4), ("b2 -& m0", 4), ("b2 -- > m0", 4), ("b2 > m0", 3), ("b2 ->", 5),
            ("b2 -> ", 6), ("b2 -> -> m0", 6), ("b2 -> )", 6), ("(b2 -> )", 7), ("b2 & b2 -> m0", 3), ("b2)", 2),
            ("m0 -> m1", 3), ("m0 - m1", 3), ("b2 -> b2", 8), ("(b2) -> m0", 3), ("b2 -> (m0", 9), ("m0,m1", 2),
            ("m0 | m1", 3), ("m-1", 1), ("m+1", 1), ("m0x0", 2), ("m0.", 2), ("m0\t& m1", 2), ("m0\n", 2), ("\nm0", 0),
            ("m0\0", 2), ("\0", 0), ("m0 \xa0", 3), ("\xff", 0), ("m0 &\r m1", 4), ("m\xb2", 1), ("m0/", 2), ("m0:", 2),
            ("m0'", 2), ("m0*", 2), ("m0!", 2), ("m0`", 2), ("mm0", 1), ("mb2", 1), ("bm0", 1), ("bb2 -> m0", 1),
            ("N N", 3), ("m0 & m", 6), ("m0 & (m1 & m)", 12), ("b2 -> m0 & b2 -> m1", 11), ("b2->m0->m1", 6)):
        fault(text, 15, place)


def numbers():
    """Predicates past the table, past 4,294,967,295; numbers with zeros before them; the place is the letter's,
    also where the text goes on as none does."""
    last = len(PREDICATES)
    listed("m4", [(0, 1, 4)])
    listed("m04 & m0000000000000000000000000000000000000001", [(0, 1, 4), (0, 1, 1)])
    for number in (last, last + 1, 10, 40, 44, 2 ** 32 - 1, 2 ** 32, 2 ** 32 + 1, 2 ** 32 + 4, 2 ** 33, 2 ** 64, 2 ** 64 + 1,
                   10 ** 10, 10 ** 19, 10 ** 20, 10 ** 40, 5 * 2 ** 32 + 3):
        fault("m%d" % number, 15, 0)
    fault("m0 & m5", 15, 5)
    fault(" m5 & m6", 15, 1)
    fault("m5x", 15, 0)
    fault("m5 x", 15, 0)
    fault("m4x", 15, 2)
    fault("m4 x", 15, 3)
    fault("m5)", 15, 0)
    fault("(m5", 15, 1)
    fault("m0 & N (m05 &", 15, 8)
    fault("m0 m5", 15, 3)
    fault("N m" + "0" * 50 + "5", 15, 2)
    listed("N m" + "0" * 50 + "4", [(1, 1, 4)])
    fault("m" + "9" * 200, 15, 0)
    fault("m4" + "0" * 200, 15, 0)
    fault("m1 0", 15, 3)


def tables():
    """The last predicate of a table is one that is whole."""
    for words in range(10):
        table = TABLE_WORDS[:words]
        for number in range(3):
            text = "m%d" % number
            if number < words // 4:
                listed(text, [(0, 1, number)], table=table)
            else:
                fault(text, 15, 0, table=table)
    # 48 words each for n = 8 and w = 16.
    record = record_of(8, 16, COUNT, 0)
    predicate = bits(5, 8) + bits(77, 16)
    for words in (47, 48, 95, 96, 97):
        for number in range(2):
            lent = dict(record=record, table=(predicate * 3)[:words], nodes=STORE + [9] * 300, entries=[7] * 100)
            if number < words // 48:
                listed("m%d" % number, [(0, 1, number)], **lent)
            else:
                fault("m%d" % number, 15, 0, **lent)
    # Words past the predicates that a text names are not looked at.
    listed("m1", [(0, 1, 1)], table=[99, 0, 99, 0] + PREDICATES[1] + [99] * 7)


def conditions_named():
    """A node at or past the count, or on an index variable, also where it is made by the conditions."""
    for node in (0, 1, A, NOT_A, C, D):
        listed("b%d -> m0" % node, [(0, node, 0)])
    listed("b0000000006 -> m0", [(0, D, 0)])
    for node in (INDEX, COUNT, COUNT + 1, 13, 2 ** 32 - 1, 2 ** 32, 2 ** 32 + A, 2 ** 64 + A, 10 ** 30):
        fault("b%d -> m0" % node, 15, 0)
    fault("m0 & (b3 -> m0)", 15, 6)
    fault("b2 -> b3 -> m0", 15, 6)
    fault("b2 -> b5 -> b7 -> m0", 15, 12)
    fault("b3", 15, 0)
    fault("b3x", 15, 0)
    fault("b3 - > m0", 15, 0)
    fault("b2x", 15, 2)
    fault("b7 -> m9", 15, 0)
    fault("b2 -> m9", 15, 6)
    fault("b03 -> m0", 15, 0)
    # Without its nodes past 3, the store has index variable 0 as its last.
    record = record_of(1, 1, 4, 0)
    fault("b3 -> m0", 15, 0, record=record)
    fault("b4 -> m0", 15, 0, record=record)
    listed("b2 -> m0", [(0, 2, 0)], record=record)


# How deep it nests.

def closing(opened):
    return ")" * opened.count("(")


def nesting():
    """32 open are read, of each kind and mixed, and the 33rd is refused at its place."""
    for opener, steps in (("(", 0), ("N", 1), ("b1->", 0)):
        for many in (31, 32):
            opened = opener * many
            listed(opened + "m0" + closing(opened), [(steps * many, 1, 0)])
        place = 32 * len(opener) + (2 if opener[0] == "b" else 0)
        opened = opener * 33
        fault(opened + "m0" + closing(opened), 16, place)
        fault(opened, 16, place)
        fault(opened + "x", 16, place)
        fault(opener * 32 + opener[:-1], *((15, 32 * 4 + 3) if opener[0] == "b" else (15, 32)))
    fault(" (" * 33, 16, 65)
    fault("N " * 33, 16, 64)
    fault("b1  ->  " * 33, 16, 260)
    mixed = "N(b1->N(" * 6 + "N("
    assert mixed.count("N") + mixed.count("(") + mixed.count(">") == 32
    listed(mixed + "m0" + closing(mixed), [(13, 1, 0)])
    for opener in ("(", "N", "b1->"):
        fault(mixed + opener + "m0" + closing(mixed + opener), 16, len(mixed) + (2 if opener[0] == "b" else 0))
    other = "b1->N(" * 10 + "(b1->"
    fault(other + "N" + "m0", 16, len(other))
    fault(other + "(m0)", 16, len(other))
    fault(other + "b1->m0", 16, len(other) + 2)
    for one, two in (("(", "N"), ("N", "("), ("(", "b1->"), ("b1->", "N"), ("b1->", "(")):
        for many in (1, 16, 31):
            opened = one * many + two * (32 - many)
            listed(opened + "m0" + closing(opened), [(opened.count("N"), 1, 0)])
            opened += two
            fault(opened + "m0" + closing(opened), 16, len(opened) - (2 if two == "b1->" else 1))


def closed():
    """What is closed is not open: a unit ends its N, a parenthesis the arrows in it."""
    listed("&".join(["(m0)"] * 35), [(0, 1, 0)] * 35, answer=105)
    listed("&".join(["Nm0"] * 35), [(1, 1, 0)] * 35, answer=105)
    listed("&".join(["(b1->m0)"] * 35), [(0, 1, 0)] * 35, answer=105)
    listed("N" * 32 + "m0&" + "N" * 32 + "m0", [(32, 1, 0)] * 2)
    deep = "(" * 32 + "m0" + ")" * 32
    listed(deep + "&" + deep, [(0, 1, 0)] * 2)
    fault(deep + "&(" + deep + ")", 16, 67 + 32)
    arrows = "(" + "b1->" * 31 + "m0)"
    listed(arrows + "&" + arrows, [(0, 1, 0)] * 2)
    fault(arrows + "&(" + arrows + ")", 16, len(arrows) + 3 + 30 * 4 + 2 + 0)
    fault("b1->" + arrows + "&m0", 16, 4 + 1 + 30 * 4 + 2)
    fault("N" * 32 + "m0 & " + "N" * 33 + "m0", 16, 37 + 32)
    fault("b1->" * 31 + "(m0)&(Nm0)", 16, 31 * 4 + 6)


def which_first():
    """15 and 16 by the earlier place; an opener that cannot stand there is 15."""
    full = "(" * 32
    fault(full + "m9" + "(", 15, 32)
    fault(full + "(" + "m9", 16, 32)
    fault(full + "m0(", 15, 34)
    fault(full + "m0N", 15, 34)
    fault(full + "m0b1->m0", 15, 34)
    fault(full + "m0&(", 16, 35)
    fault(full + "m0&b1->", 15, 35)
    fault(full + "m0&N", 16, 35)
    fault(full + "b1", 15, 34)
    fault(full + "b1-", 15, 35)
    fault(full + "b1 -x", 15, 36)
    fault(full + "b1 - >m0", 15, 36)
    fault(full + "b1 ->", 16, 35)
    fault(full + "b1 ->x", 16, 35)
    fault(full + "b9 ->", 15, 32)
    fault(full + "b3->", 15, 32)
    fault("x" + full + "(", 15, 0)
    fault("m9 & " + full + "(", 15, 0)
    fault("m0 x" + full + "(", 15, 3)
    fault("N" * 32 + "N" + "x", 16, 32)
    fault("N" * 31 + "x" + "NN", 15, 31)
    fault("N" * 32 + ")", 15, 32)
    fault("N" * 32 + "b1->m0", 15, 32)


# Rows, and their order.

def row_1():
    for name, n, w in (("n = 9", 9, 1), ("n = 0", 0, 1), ("w = 17", 1, 17), ("w = 0", 1, 0)):
        for text in ("m0", "x"):
            each("%s, `%s`" % (name, text), text, record=record_of(n, w, COUNT, 0), answer=2)


def row_2():
    for name, count, nodes in (("5 words", 2, TERMINALS[:5]), ("count 1", 1, STORE), ("count 8, capacity 7", 8, STORE),
                               ("node 0 on 63", COUNT, [63] + STORE[1:] + ROOM),
                               ("a node twice", COUNT + 1, STORE + [10, 0, 1] + ROOM)):
        each("2 before 3 and 15, " + name, "m9", record=record_of(1, 1, count, 9), nodes=nodes, answer=0)


def row_3():
    entry = [1, 0, 0, 1, 1, 0]
    for name, entries, asserted, checked, words in (
            ("1 entry, no words", 1, 1, 1, []), ("1 entry, 5 words", 1, 1, 1, entry[:5]),
            ("entry word 7 of count 7", 1, 1, 1, entry[:5] + [7]), ("entry word on index 0", 1, 1, 1, [INDEX] + entry[1:]),
            ("assert condition 7 of count 7", 0, 7, 1, entry), ("check condition on index 0", 0, 1, INDEX, entry)):
        for text in ("m0", "m9"):
            each("3 before 15, %s" % name, text, record=record_of(1, 1, COUNT, entries, asserted, checked), entries=words,
                 answer=2)
    # A list with an entry whose words are right, and words past it that are not looked at.
    each("an entry", "m0 & m1", record=record_of(1, 1, COUNT, 1), entries=entry + [99] * 20)


def row_13():
    """Three words for each predicate: one word short, just enough, and more, which stay as they are."""
    for text, many in (("m0", 1), ("m0 & N m1", 2), ("m1 & m1 & N(m0 & m3)", 4)):
        for words in (0, 3 * many - 3, 3 * many - 1, 3 * many, 3 * many + 1, 3 * many + 4):
            for left in each("%d words for %d" % (words, many), text, answer=words):
                assert left.number == (13 if words < 3 * many else 0)
                assert left.data[3 * many:] == [8] * max(0, words - 3 * many)


# Variables 8, 9 and 10 under three arrows: And(2, 5) is one node, And of that and 6 two more.
THREE = "b2 -> b5 -> b6 -> m0"


def row_9():
    """The conditions' own 9, in room for fewer nodes than they need; with room for them all, an access's."""
    for room in range(COUNT, COUNT + 9):
        for words in (3 * room, 3 * room + 2):
            for left in each("%d words, three arrows" % words, THREE, nodes=(STORE + ROOM)[:words]):
                if room < COUNT + 3:
                    assert (left.number, left.out) == (9, Told(None, None, None)) and left.data == [8] * 30
                    assert left.nodes[3 * COUNT:3 * room] == [0] * (3 * (room - COUNT)), "cleared"
                    assert left.nodes[3 * room:] == [9] * (words - 3 * room) and left.record.nodes == COUNT
                else:
                    assert left.out == Told(1, int(left.number == 0), None) and left.data[:3] == [0, 9, 0]
    # The arrow of 8 and 9 stands twice and makes one node; And with node 1 makes none.
    for room in (COUNT, COUNT + 1):
        for left in each("%d nodes, an And twice" % room, "(b2 -> b5 -> m0) & (b2 -> b1 -> b5 -> m1)",
                         nodes=(STORE + ROOM)[:3 * room]):
            assert left.number == 9 and (left.out.listed is None) == (room == COUNT)
    # No node is needed for one arrow, or for arrows of the same node, of a node and its negation.
    for text in ("b2 -> m0", "b2 -> b2 -> m0", "b2 -> b4 -> m0", "b0 -> b6 -> m0"):
        for left in each("`%s`, no room" % text, text, nodes=STORE):
            assert left.number == 9 and left.out == Told(1, 0, None)


def order_of_rows():
    """Calls that more than one row refuses: 1, 2, 3, 15 or 16, 13, 9, then an access's."""
    wrong_table = [99, 0, 0, 0] + TABLE_WORDS[4:]
    for record, terminal in ((record_of(9, 1, COUNT, 9), 63), (record_of(1, 1, COUNT, 9), 63),
                             (record_of(1, 1, COUNT, 9), 64), (record_of(1, 1, COUNT, 0), 64)):
        for text in (THREE + "x", "(" * 33, THREE):
            for answer in (2, 3):
                each("terminal %d, `%s`, answer of %d" % (terminal, text[:24], answer), text, record=record,
                     nodes=[terminal] + STORE[1:] + [9] * 5, table=wrong_table, answer=answer)
    for room in (5, 10):
        for answer in (2, 3):
            each("room of %d words, answer of %d" % (room, answer), THREE, nodes=STORE + [9] * room, table=wrong_table,
                 answer=answer)


# What is built, and in which order.

def built():
    """The Ands are built outermost first, in text order, whatever the order of the list."""
    listed(THREE, [(0, 9, 0)])
    listed("b6 -> b5 -> b2 -> m0", [(0, 8, 0)])
    listed("b5 -> b2 -> b6 -> m0", [(0, 9, 0)])
    # The first in the text is the last in the list.
    listed("N(b2 -> b5 -> m0) & (b5 -> b6 -> m1)", [(0, 8, 1), (1, 7, 0)])
    listed("NN(b2 -> b6 -> m0) & N(b5 -> b6 -> m1) & (b2 -> b5 -> m3)", [(0, 9, 3), (1, 8, 1), (2, 7, 0)])
    listed("b2 -> N(b5 -> m0) & (b6 -> m1) & m3", [(0, 8, 1), (0, 2, 3), (1, 7, 0)])
    listed("b2 -> b5 -> (b6 -> m0) & (b6 -> m1) & N(b1 -> m0)", [(0, 9, 0), (0, 9, 1), (1, 7, 0)])
    # An arrow's condition is not that of one beside it.
    listed("(b2 -> m0) & (b5 -> m1) & (b2 -> b5 -> m3)", [(0, 2, 0), (0, 5, 1), (0, 7, 3)])
    listed("(b4 -> (b5 -> m0) & m1) & (b6 -> m0)", [(0, 7, 0), (0, 4, 1), (0, 6, 0)])
    # As many as may be open, of variables 8 and 9 in turn.
    listed("b2->b5->" * 16 + "m0", [(0, 7, 0)])


def order_of_list():
    """By step, then by text."""
    listed("NNm0 & Nm1 & m3 & Nm0 & m1 & NNm3 & m0", [(0, 1, 3), (0, 1, 1), (0, 1, 0), (1, 1, 1), (1, 1, 0), (2, 1, 0),
                                                   (2, 1, 3)])
    listed("N(m0 & N m1) & N m3 & (N N m0)", [(1, 1, 0), (1, 1, 3), (2, 1, 1), (2, 1, 0)])
    listed("m1 & m1 & m0 & m0 & m1", [(0, 1, 1), (0, 1, 1), (0, 1, 0), (0, 1, 0), (0, 1, 1)])
    listed("NNNm0 & NNm1 & Nm3 & m0", [(0, 1, 0), (1, 1, 3), (2, 1, 1), (3, 1, 0)])
    listed("N" * 12 + "m0 & " + "N" * 9 + "m1 & " + "N" * 10 + "m3", [(9, 1, 1), (10, 1, 3), (12, 1, 0)])
    # Asserts in the list's order: the last in the list is what a read then finds.
    for text, check in (("N m4 & m0", "m4"), ("m4 & N m0", "m0")):
        left = tell("`%s`" % text, ASSERT_FORMULA, text, entries=[7] * 40)
        assert left.number == 0 and left.record.entries == 2
        for one in (check, "m0 & m4"):
            tell("`%s` after `%s`" % (one, text), CHECK_FORMULA, one, record=left.record, nodes=left.nodes, entries=left.list)


# Accesses that are refused.

ROWS = [("5, the count", [0, 1, 99, 0]), ("5, on index 0", [INDEX, 1, 1, 0]), ("6, address", [0, 0, 1, 0]),
        ("6, data", [0, 1, 0, 0]), ("7, or X", [1, 1, 1, 0])]


def stopped():
    """An access that is refused first, in the middle or last: those before it stand, none follows it, and the answer
    stays written.  An X address is an assert's 7 alone."""
    for name, words in ROWS:
        table = PREDICATES[0] + words + PREDICATES[1]
        for text, made in (("m1 & m0 & m2", 0), ("m0 & m1 & m2", 1), ("m0 & m2 & m1", 2), ("m1", 0),
                           ("N m1 & m0 & m2", 2), ("b2 -> m0 & m1", 1)):
            for left in each("%s, `%s`" % (name, text), text, table=table, entries=[7] * 40):
                many = text.count("m")
                assert left.out == Told(many, made if left.number else many, None), (name, text, left.out)
                assert left.number in (0, int(name[0]))
    # Under b0 an X address is no 7, but row 5 and row 6 are met.
    for name, words in ROWS:
        each("%s, b0" % name, "b0 -> m1 & m0", table=PREDICATES[0] + words)


def made_by_conditions():
    """A word of the table that names a node is judged in its access: one that a condition or an earlier access has
    made is right there, and one that nobody made is 5."""
    table = PREDICATES[0] + [0, 1, 7, 1] + [0, 1, 8, 1]
    for left in each("node 7 is made", "b2 -> b5 -> m1", table=table):
        assert left.number == 0
    for left in each("node 7 is on an index variable", "m1", table=table):
        assert (left.number, left.out) == (5, Told(1, 0, None))
    for left in each("node 8 is of the look", "b2 -> b5 -> m0 & m2", table=table):
        assert left.out.made == 1 and left.number == 5
    # Not of node 5 is made by the first access, and is the node that the second names.
    record = record_of(1, 1, COUNT, 0)
    first = tell("not 9 is made", ASSERT_FORMULA, "b5 -> m0", record=record)
    made = [node for node in range(COUNT, first.record.nodes) if first.nodes[3 * node:3 * node + 3] == [9, 1, 0]]
    assert made
    for text, number in (("b5 -> m0 & m1", 0), ("m1 & (b5 -> m0)", 5)):
        left = tell("not 9, `%s`" % text, ASSERT_FORMULA, text, table=PREDICATES[0] + ONE + [C, made[0]])
        assert left.number == number, left


def space():
    """8 by an assert where the list has no space, first, in the middle and last: it clears, and those made stand.
    A check needs none, and an assert of what is there is kept."""
    text = "m0 & N m1 & NN m4 & NNN m1"
    for entries in range(4):
        for words in (6 * entries, 6 * entries + 5):
            left = tell("%d list words" % words, ASSERT_FORMULA, text, entries=[7] * words)
            if entries < 3:
                assert (left.number, left.out) == (8, Told(4, entries, None)) and left.record.entries == entries
                assert left.nodes[3 * left.record.nodes:] == [0] * (len(left.nodes) - 3 * left.record.nodes)
            else:
                assert left.out == Told(4, 4, None) and left.record.entries == 3, "the fourth is kept"
            tell("%d list words" % words, CHECK_FORMULA, text, entries=[7] * words)
    # After it the memory goes on as it is.
    left = tell("one entry", ASSERT_FORMULA, text, entries=[7] * 6)
    left = tell("one entry, kept", ASSERT_FORMULA, "m0 & m0", record=left.record, nodes=left.nodes, entries=left.list)
    assert left.number == 0 and left.record.entries == 1


def room():
    """9 in each access, for want of a node, in room for from none to all that are needed."""
    for kind, text in ((CHECK_FORMULA, "m0 & N m1 & m2"), (ASSERT_FORMULA, "m0 & (b2 -> m1 & m2)"),
                       (CHECK_FORMULA, "b2 -> b5 -> m0 & (b6 -> m1) & m2")):
        whole = tell("room for all", kind, text, record=record_of(1, 1, COUNT, 1), entries=PREDICATES[0][:0] + [1, 0, C, 1, 1, D]
                     + [7] * 30, nodes=STORE + [9] * 120)
        assert whole.number == 0
        counts = set()
        for nodes in range(COUNT, whole.record.nodes + 1):
            left = tell("room for %d" % nodes, kind, text, record=record_of(1, 1, COUNT, 1),
                        entries=[1, 0, C, 1, 1, D] + [7] * 30, nodes=(STORE + [9] * 120)[:3 * nodes])
            assert left.number == (9 if nodes < whole.record.nodes else 0)
            counts.add(left.out.made)
            if left.number:
                assert left.nodes[3 * left.record.nodes:] == [0] * (len(left.nodes) - 3 * left.record.nodes)
        assert len(counts) >= 3, counts


def chain():
    """Formulas one after the other: what is asserted holds when it is checked, and what is not narrows the check
    condition."""
    left = tell("begun", ASSERT_FORMULA, "b2 -> m0 & m1", entries=[7] * 40, nodes=STORE + [9] * 120)
    for kind, text in ((CHECK_FORMULA, "b2 -> m0"), (CHECK_FORMULA, "b2 -> m0 & N m1"), (CHECK_FORMULA, "m1"),
                       (ASSERT_FORMULA, "b2 -> m0"), (ASSERT_FORMULA, "b4 -> m4"), (CHECK_FORMULA, "b2 -> b5 -> m2"),
                       (ASSERT_FORMULA, "N(b5 -> m2) & m3"), (CHECK_FORMULA, "(b2 -> m0) & N(b4 -> m4)")):
        left = tell("`%s` then" % text, kind, text, record=left.record, nodes=left.nodes, entries=left.list)
        assert left.number in (0, 8)
    assert left.record.check_condition != 1


# Limits.

def repeated(piece, length):
    """As many of a piece as fit with one `m0` after them, and spaces to the length."""
    many = (length - 2) // len(piece)
    text = piece * many + "m0"
    return text + " " * (length - len(text)), many + 1


def long_texts():
    """Texts of 65,536 bytes: predicates for which the answer is too short, a fault at the last byte, digits, spaces.
    The digits of a number may go on to any length."""
    size = 65536
    text, many = repeated("m0&", size)
    assert many == 21845 and len(text) == size
    left = tell("%d predicates" % many, CHECK_FORMULA, text, answer=49160)
    assert left.number == 13
    for last, place in (("&", size), ("x", size - 1), (" )", size - 1)):
        fault(text[:size - len(last)] + last, 15, place, answer=49160)
    zeros = "m" + "0" * (size - 1)
    listed(zeros, [(0, 1, 0)])
    fault(zeros[:-1] + "9", 15, 0)
    fault(zeros[:size - 9] + "x" + zeros[:8], 15, size - 9)
    listed(" " * (size - 2) + "m0", [(0, 1, 0)])
    fault(" " * size, 15, size)
    listed("m0" + " " * (size - 2), [(0, 1, 0)])
    deep = "(" * 32
    fault(" " * (size - 33) + deep + "(", 16, size - 1)


def many_predicates():
    """Hundreds of predicates, each step with some of them; the memory is checked so many times."""
    text = "&".join("N" * (7 * i % 5) + "m%d" % (i % 2) for i in range(180))
    expected = sorted(((7 * i % 5, 1, i % 2) for i in range(180)), key=lambda one: one[0])
    listed(text, expected, answer=540, entries=[7] * 30)
    for answer in (539, 540):
        tell("180 predicates, %d words" % answer, CHECK_FORMULA, text, answer=answer)


def largest_sizes():
    """n = 8 and w = 16, with an address bit of variable 8 and a data bit of variable 10."""
    record, nodes, entries = record_of(8, 16, COUNT, 0), STORE + [9] * 1500, [7] * 150
    address = bits(0b0101101, 7) + [A, NOT_A]
    word = bits(0x5a3c, 15) + X
    table = address + word + bits(200, 8) + bits(0xeb67, 16) + [1] * 16 + word
    for kind, text in ((ASSERT_FORMULA, "m0 & N m1"), (CHECK_FORMULA, "b5 -> m1 & N N m0"), (CHECK_FORMULA, "m2"),
                       (ASSERT_FORMULA, "b5 -> m0 & m2")):
        left = tell("n = 8, w = 16, `%s`" % text, kind, text, record=record, nodes=nodes, entries=entries, table=table)
        record, nodes, entries = left.record, left.nodes, left.list
    assert left.number == 7 and left.out == Told(2, 1, None)


def largest_stores():
    """16,382 nodes in words for 16,385: the Ands of variable 8 with node 13,006 and with 13,007 are the last two, and
    one more is 9, which leaves the words past 16,384 nodes."""
    words = 49155
    nodes = filled(16381, words)
    nodes[3 * 16381:3 * 16382] = [8, 0, 1]
    record = record_of(1, 1, 16382, 0)
    for text, number, told in (("b13006 -> m0", 9, Told(1, 0, None)),
                               ("b16381 -> (b13006 -> m0) & (b13007 -> m0)", 9, Told(2, 0, None)),
                               ("b16381 -> (b13006 -> m0) & (b13007 -> m0) & (b13005 -> m0)", 9, Told(None, None, None)),
                               ("b16382 -> m0", 15, Told(None, None, 0))):
        left = tell("16382 nodes, `%s`" % text, CHECK_FORMULA, text, record=record, nodes=nodes)
        assert (left.number, left.out) == (number, told), left[:2]
        assert left.nodes[3 * 16384:] == [7] * 3
    # With room for two, a check at 1 needs one.
    left = tell("16382 nodes, at 1", CHECK_FORMULA, "b13006 -> m1", record=record, nodes=nodes)
    assert left.number in (0, 9)


SMALL = [right_texts, outside, numbers, tables, conditions_named, nesting, closed, which_first, row_1, row_2, row_3, row_13,
         row_9, order_of_rows, built, order_of_list, stopped, made_by_conditions, space, room, chain]
GROUPS = SMALL + [many_predicates, largest_sizes, largest_stores, long_texts]


def script(groups=GROUPS):
    S.__init__()
    for group in groups:
        group()
    return S


if __name__ == "__main__":
    folder = os.path.join(ROOT, "crates", "formulas_test")
    os.makedirs(folder, exist_ok=True)
    sys.exit(main(script(), folder))
