#!/usr/bin/env python3
"""The operations of `conditions_test`: decision diagrams at their limits.

    python3 tests/conditioncalls.py            write crates/conditions_test/stdin and stdout
    python3 tests/conditioncalls.py --check    compare them; status 1 where one is not as made
    python3 tests/conditioncalls.py --list     each line, and what it is for

The input has items of eight numbers of four bytes, low byte first, on a buffer of 49,160 words:

    9 0 PLACE MANY STRIDE VALUE STEP 0    put words, as memory_test does
    1 COUNT WORDS                         whether the first WORDS words and COUNT are a store; if they
                                          are, the operations that follow are on it
    2 WORDS                               the capacity of so many words
    3 COUNT WORDS                         clear from node COUNT on
    4 PLACE MANY                          show words
    10                                    ends the operations on a store
    11 to 16                              variable V; ite, not, and, or, any of nodes: 1n V F G H
    21 0 F 0 0 LOW HIGH                   the value of F under an assignment
    22 0 0 0 0 NODE                       whether an argument may name the node
    23 0 H L, 24 0 F G H                  whether some assignment makes the pair neither, the three hold
    25 0 F 0 0 ROOM, 26 0 F               the text of F in so many of 20 bytes, or in 65,536
    27 V LOW HIGH                         the node search for these words, V being any number: FOUND NODE
                                          COMPARED, where FOUND is 1 with a match, NODE; 0 with none, and
                                          2 where LOW or HIGH is not below the count, so that nothing is
                                          searched; what is not said is 0

What must be printed is found with tools/second/tables.py, but for the parity of 56 variables, which has too
many for tables: there it is derived (class Parity), and the derivation is held to tables for fewer.
The node search goes over the words, one node after the other (nodesearch.py).
"""

import sys

from rooms import ROOT
from callscript import LENGTH, WORD, main, runs
from nodesearch import node_search
from papers import halves, node_capacity
from second.calls import tables_of, value
from second.tables import Conditions, Refused, is_standard

TERMINALS = [64, 0, 0, 64, 1, 1]
END = 10
VARIABLE, ITE, NOT, AND, OR, ANY = range(11, 17)
NAMES = {VARIABLE: "variable", ITE: "ite", NOT: "not", AND: "and", OR: "or", ANY: "any"}
SEARCH = 27
NONE, FOUND, NOT_ASKED = range(3)
ASSIGNMENTS = 0, 0xff, 0x100, 1 << 63, (1 << 63) + 0x100, (1 << 64) - 1, (1 << 63) - 1


class Store:
    """A store as its nodes, by truth tables; once full it builds nothing and answers node 0."""

    def __init__(self, nodes, capacity):
        self.nodes, self.capacity, self.full = nodes, capacity, False

    def build(self, kind, variable, f, g, h):
        """The node that an operation answers."""
        if self.full:
            return 0
        if kind == VARIABLE:
            conditions = Conditions([variable], self.capacity)
            conditions.load(self.nodes[2:])
        else:
            conditions = tables_of(self.nodes, [f, g, h], 0, self.capacity)
        f, g, h = (conditions.tables[x] for x in (f, g, h))
        count = len(self.nodes)
        try:
            made = {VARIABLE: lambda: conditions.make(variable, 0, conditions.true),
                    ITE: lambda: conditions.ite(f, g, h), NOT: lambda: conditions.not_(f),
                    AND: lambda: conditions.and_(f, g), OR: lambda: conditions.or_(f, g),
                    ANY: lambda: conditions.any(f)}[kind]()
        except Refused:
            self.full, made = True, 0
        words = conditions.words(count)
        self.nodes += zip(words[0::3], words[1::3], words[2::3])
        return conditions.numbers[made]

    def value(self, node, assignment):
        return value(self.nodes, node, assignment)

    def table(self, nodes):
        conditions = tables_of(self.nodes, nodes, 0, self.capacity)
        return conditions, [conditions.tables[x] for x in nodes]

    def neither(self, h, l):
        conditions, (one, other) = self.table([h, l])
        return one | other != conditions.true

    def together(self, f, g, h):
        _, (one, two, three) = self.table([f, g, h])
        return one & two & three != 0

    def text(self, node):
        conditions, (table,) = self.table([node])
        return conditions.text(table)

    def is_user(self, node):
        return node < len(self.nodes) and self.nodes[node][0] >= 8

    def search(self, variable, low, high):
        """Whether a node is found, the node, and how many were compared."""
        if max(low, high) >= len(self.nodes):
            return NOT_ASKED, 0, 0
        node, compared = node_search(self.nodes, variable, low, high)
        return (NONE, 0, compared) if node is None else (FOUND, node, compared)


class Parity:
    """Parities of the variables from v to 63 and their negations, which are all that is built here.

    The parity from v up, P(v), is (v P(v+1) Q(v+1)), and its negation Q(v) is (v Q(v+1) P(v+1)).  Both
    parts of P(v) are there before it, so that P(v), Q(v) and the variable take one new node each where
    they are not there.  P(63) is variable 63.  And of P and Q is 0, Or is 1, and every step of either
    has a constant as its result, so that they make no node.
    """

    full = False

    def __init__(self):
        self.nodes = [(64, 0, 0), (64, 1, 1)]
        self.known = {}

    def node(self, key):
        if key not in self.known:
            self.known[key] = len(self.nodes)
            self.nodes.append(key)
        return self.known[key]

    def key(self, node):
        return next(key for key, number in self.known.items() if number == node)

    def build(self, kind, variable, f, g, h):
        if kind == VARIABLE:
            return self.node((63, 0) if variable == 63 else (variable, "alone"))
        if kind == NOT and f < 2:
            return 1 - f
        if kind == NOT:
            first, negated = self.key(f)
            return self.node((first, 1 - negated))
        if kind == ITE:
            return self.node((self.key(f)[0], 0))
        assert {self.key(f), self.key(g)} == {(self.key(f)[0], 0), (self.key(f)[0], 1)}
        return 0 if kind == AND else 1

    def value(self, node, assignment):
        first, negated = self.key(node)
        return bin(assignment >> first).count("1") % 2 ^ negated

    def neither(self, h, l):
        return h == l

    def together(self, f, g, h):
        return f == 1 and g == h

    def text(self, node):
        """The beginning of it, since all of it is twice as long for each variable more."""
        first, _ = self.key(node)
        return " ".join("(%d" % v for v in range(first, 64)) + " " * 65536


class Script:
    """The input so far, what must be printed, and what each line is for."""

    def __init__(self):
        self.words = [0] * LENGTH
        self.items, self.lines, self.names = [], [], []
        self.store = None
        self.open = False

    def item(self, *numbers):
        """Before an item that is no operation, one that ends those on a store."""
        if self.open and numbers[0] < VARIABLE:
            self.open = False
            self.item(END)
        self.items.append(b"".join(number.to_bytes(4, "little") for number in (*numbers, *[0] * 8)[:8]))

    def line(self, name, text):
        self.names.append(name)
        self.lines.append(text + "\n")

    def put(self, words):
        for start in range(3):
            for place, many, first, step in runs(self.words, words, start, 3):
                self.item(9, 0, place, many, 3, first, step)
        self.words[:len(words)] = words

    def begin(self, name, words, count, store=None):
        """Whether words and count are a store, on which operations follow."""
        self.put(words)
        self.item(1, count, len(words))
        nodes = [tuple(words[i:i + 3]) for i in range(0, 3 * count, 3)]
        standard = (len(words) >= 6 and 2 <= count <= node_capacity(len(words)) and words[:6] == TERMINALS
                    and is_standard(nodes[2:]))
        self.open = standard
        self.line(name, " %d" % standard)
        self.store = store or Store(nodes, node_capacity(len(words)))
        return standard

    def build(self, kind, variable=0, f=0, g=0, h=0):
        self.item(kind, variable, f, g, h)
        before = len(self.store.nodes)
        node = self.store.build(kind, variable, f, g, h)
        self.line("%s %d %d %d %d" % (NAMES[kind], variable, f, g, h),
                  " %d %d %d" % (node, len(self.store.nodes), self.store.full))
        if isinstance(self.store, Store):
            new = [x for node in self.store.nodes[before:] for x in node]
            self.words[3 * before:3 * before + len(new)] = new
        return node

    def values(self, node):
        for assignment in ASSIGNMENTS:
            self.item(21, 0, node, 0, 0, assignment % WORD, assignment // WORD)
            self.line("%d under %d" % (node, assignment), " %d" % self.store.value(node, assignment))

    def may_name(self, node):
        self.item(22, 0, 0, 0, 0, node)
        self.line("may name %d" % node, " %d" % self.store.is_user(node))

    def neither(self, h, l):
        self.item(23, 0, h, l)
        self.line("neither %d nor %d" % (h, l), " %d" % self.store.neither(h, l))

    def together(self, f, g, h):
        self.item(24, 0, f, g, h)
        self.line("%d, %d, %d together" % (f, g, h), " %d" % self.store.together(f, g, h))

    def text(self, node, room):
        self.item(25, 0, node, 0, 0, room)
        text = self.store.text(node)
        shown = text[:room]
        self.line("text of %d in %d" % (node, room), "%s at %d %d" % (shown.ljust(20, "."), len(shown), len(text) > room))

    def long_text(self, node):
        self.item(26, 0, node)
        self.line("text of %d" % node, "%s at 65536 1" % self.store.text(node)[:29])

    def search(self, variable, low, high):
        self.item(SEARCH, variable, low, high)
        answer = self.store.search(variable, low, high)
        self.line("search %d %d %d" % (variable, low, high), " %d %d %d" % answer)
        return answer

    def show(self, place, many):
        self.item(4, place, many)
        self.line("words from %d" % place, "".join(" %d" % x for x in self.words[place:place + many]))

    def clear(self, count, many):
        self.item(3, count, many)
        end = 3 * node_capacity(many)
        self.words[3 * count:end] = [0] * (end - 3 * count)

    def capacity(self, words):
        self.item(2, words)
        self.line("capacity of %d words" % words, " %d" % node_capacity(words))

    def input(self):
        return b"".join(self.items)

    def output(self):
        return "".join(self.lines).encode("ascii")


def standard_form(s):
    """Sizes, counts, each word of the terminals wrong by one; nodes that keep or break a condition."""
    for words in (5, 6, 7, 8):
        s.begin("terminals in %d words" % words, (TERMINALS + [0, 0])[:words], 2)
    for count in (1, 2, 3):
        s.begin("count %d" % count, TERMINALS, count)
    for place, word in ((0, 63), (1, 1), (2, 1), (3, 65), (4, 0), (5, 0)):
        s.begin("word %d is %d" % (place, word), TERMINALS[:place] + [word] + TERMINALS[place + 1:], 2)
    kept = (8, 0, 2), (8, 2, 0), (0, 2, 1), (63, 0, 1), (9, 1, 0)
    broken = (64, 0, 1), (9, 0, 2), (9, 2, 0), (10, 0, 2), (8, 2, 2), (9, 0, 1), (8, 0, 3), (8, 4, 0), (8, 0, WORD - 1)
    for node in kept + broken:
        found = s.begin("node 3 is (%d %d %d)" % node, TERMINALS + [9, 0, 1, *node], 4)
        assert found == (node in kept), node
    s.begin("node 2 is (8 0 3), node 3 (9 0 1)", TERMINALS + [8, 0, 3, 9, 0, 1], 4)
    s.begin("node 2 twice, counted once", TERMINALS + [9, 0, 1, 9, 0, 1], 3)


def variables(s):
    """User variables and index variables: each twice, its values, its text, Any of it; a choice."""
    s.begin("27 words", TERMINALS + [0] * 21, 2)
    eight = s.build(VARIABLE, 8)
    s.values(eight)
    assert s.build(VARIABLE, 8) == eight
    for room in (20, 7, 6, 0):
        s.text(eight, room)
    last = s.build(VARIABLE, 63)
    s.values(last)
    assert s.build(VARIABLE, 63) == last
    for variable in (0, 7, 8):
        s.build(ANY, f=s.build(VARIABLE, variable))
    # Variable 8 where variable 0 holds, and else variable 9; Any of it is Or of its children.
    choice = s.build(ITE, f=s.build(VARIABLE, 0), g=eight, h=s.build(VARIABLE, 9))
    s.text(choice, 20)
    either = s.build(ANY, f=choice)
    s.text(either, 20)
    for node in (choice, either, 1, len(s.store.nodes)):
        s.may_name(node)


def room(s):
    """Stores with room for two nodes and for three; what a full one answers, and clearing."""
    for words in (6, 7, 8, 9, 11):
        s.begin("%d words" % words, TERMINALS + [7] * (words - 6), 2)
        s.build(VARIABLE, 8)
        s.build(VARIABLE, 9)
        s.build(ITE, f=1, g=1, h=0)
        s.build(ANY, f=1)
        s.show(0, words)
        s.clear(2, words)
        s.show(0, words)


def parity_to(s, first):
    """The parity of the variables from 63 down to the first, its negation, and both together."""
    node = 0
    for variable in range(63, first - 1, -1):
        alone = s.build(VARIABLE, variable)
        node = s.build(ITE, f=alone, g=s.build(NOT, f=node), h=node)
    s.values(node)
    negation = s.build(NOT, f=node)
    s.values(negation)
    s.neither(node, negation)
    s.neither(node, node)
    s.together(1, node, negation)
    s.together(1, node, node)
    s.build(AND, f=node, g=negation)
    s.build(OR, f=node, g=negation)
    return node


def parity(s):
    """56 variables: few nodes, and 2^56 paths.  The table is one for all operations."""
    words = TERMINALS + [0] * 501
    found = []
    for store in (Parity(), None):
        trial = Script()
        trial.begin("trial", words, 2, store)
        parity_to(trial, 50)
        found.append(trial.lines)
    assert found[0] == found[1], "the derivation does not hold for 14 variables"
    s.begin("parity in 507 words", words, 2, Parity())
    s.long_text(parity_to(s, 8))
    # The words that the parity left are not known here: all are put anew.
    s.words = [None] * LENGTH


def filled(count, words):
    """Each variable from 63 down to 1 and its negation as nodes 2 to 127, then the pairs of unequal
    nodes below 128 on variable 0; 7 in the words past them."""
    nodes = [(64, 0, 0), (64, 1, 1)] + [(v, low, 1 - low) for v in range(63, 0, -1) for low in (0, 1)]
    below = range(len(nodes))
    nodes += [(0, low, high) for low in below for high in below if low != high]
    nodes.append(nodes[-1])
    return [x for node in nodes[:count] for x in node] + [7] * (words - 3 * count)


def largest(s):
    """From 64 nodes on a quicker test is tried first; 16,384 nodes are the most; the last node."""
    for count in (63, 64):
        assert s.begin("%d nodes" % count, filled(64, 192), count)
    assert not s.begin("64 nodes, one of them twice", filled(63, 189) + [63, 0, 1], 64)
    assert s.begin("16384 nodes", filled(16384, 49155), 16384)
    assert not s.begin("16385 nodes", filled(16385, 49155), 16385)
    assert not s.begin("16384 nodes, one of them twice", filled(16383, 49149) + [0, 0, 1, 7, 7, 7], 16384)
    # Nodes 126, 124 and 122 are variables 1, 2 and 3.  And of the first two takes the last node.
    s.begin("16383 nodes", filled(16383, 49155), 16383)
    assert s.build(AND, f=126, g=124) == 16383
    assert s.build(AND, f=126, g=122) == 0
    s.show(49146, 9)
    s.clear(16383, 49155)
    s.show(49146, 9)


def few_nodes(s):
    """The search on few nodes: either child the larger one, the same children on two variables; and words that
    no Make searches for, or that are no nodes."""
    nodes = [(9, 0, 1), (9, 1, 0), (8, 0, 1), (8, 2, 3), (8, 3, 2), (7, 4, 0), (7, 1, 4), (7, 4, 1)]
    last = len(nodes) + 1
    s.begin("search among %d nodes" % (last + 1), TERMINALS + halves(nodes), last + 1)
    for number, node in enumerate(nodes, 2):
        assert s.search(*node) == (FOUND, number, number - max(node[1:]))
    # On another variable, with the children the other way round, with one child another; with the last node and
    # the one before it as larger child; with equal children, the words of terminals, variables past 63.
    other = (10, 0, 1), (7, 0, 1), (8, 1, 0), (7, 0, 4), (8, 0, 3), (8, 3, 0), (7, 6, 4)
    near_last = (6, 9, 0), (6, 0, 9), (6, 8, 1), (6, 1, 8), (6, 8, 9)
    no_make = (8, 2, 2), (8, 0, 0), (8, 9, 9), (64, 0, 0), (64, 1, 1), (64, 0, 1), (72, 0, 1), (WORD - 1, 2, 3)
    for words in other + near_last + no_make:
        assert s.search(*words) == (NONE, 0, last - max(words[1:]))
    for low, high in ((10, 0), (0, 10), (10, 10), (9, 11), (WORD - 1, 0), (0, WORD - 1)):
        assert s.search(9, low, high) == (NOT_ASKED, 0, 0)


def each_distance(s):
    """The search for each of nine nodes above the larger child, the last node being one of 14 above it; and for
    the node that stands in the words past the last one."""
    ends = [(64, 0, 0), (64, 1, 1)]
    alike = ends + [(v, 0, 1) for v in range(63, 48, -1)]
    below = ends + [(v, 0, 1) for v in range(63, 53, -1)]
    unlike = below + [(0, low, 11) for low in range(11)] + [(0, 11, high) for high in range(4)]
    for nodes, larger in ((alike, 1), (unlike, 11)):
        for count in range(larger + 1, len(nodes)):
            s.begin("search among %d nodes" % count, halves(nodes), count)
            for node in range(larger + 1, min(larger + 10, count)):
                assert s.search(*nodes[node]) == (FOUND, node, node - larger)
            assert s.search(*nodes[count]) == (NONE, 0, count - 1 - larger)


def after_building(s):
    """The search finds a node as soon as it is made; a full store is searched as any other."""
    s.begin("search among 2 nodes, with room for 2", TERMINALS + [0] * 6, 2)
    assert s.search(8, 0, 1) == (NONE, 0, 0)
    s.build(VARIABLE, 8)
    assert s.search(8, 0, 1) == (FOUND, 2, 1)
    assert s.search(8, 1, 0) == (NONE, 0, 1)
    s.build(NOT, f=2)
    assert s.search(8, 1, 0) == (FOUND, 3, 2)
    s.build(VARIABLE, 9)
    assert s.search(8, 1, 0) == (FOUND, 3, 2)
    assert s.search(9, 0, 1) == (NONE, 0, 2)


def many_nodes(s):
    """The search on 16,384 nodes, of which those from 128 up are on variable 0 with children below 128."""
    last = 16383
    s.begin("search among 16384 nodes", filled(16384, 49155), 16384)
    # Nine nodes above node 1, the last ten, and some between.
    for node in range(2, 11):
        assert s.search(64 - node // 2, node % 2, 1 - node % 2) == (FOUND, node, node - 1)
    for distance in range(10):
        assert s.search(0, 127, 126 - distance) == (FOUND, last - distance, last - distance - 127)
    for words in ((1, 1, 0), (0, 0, 1), (0, 63, 64), (0, 64, 63)):
        assert s.search(*words)[0] == FOUND
    # None above nodes 0, 1 and 127, and with 0 to 9 nodes to compare.
    for words in ((0, 0, 0), (64, 1, 0), (1, 0, 127), (1, 127, 0), (0, 127, 127)):
        assert s.search(*words) == (NONE, 0, last - max(words[1:]))
    for distance in range(10):
        assert s.search(0, last - distance, distance) == (NONE, 0, distance)
    assert s.search(0, 0, 16384) == (NOT_ASKED, 0, 0)
    s.begin("search among 16383 nodes", filled(16384, 49155), 16383)
    assert s.search(0, 127, 126) == (NONE, 0, 16382 - 127)


def searches(s):
    for group in (few_nodes, each_distance, after_building, many_nodes):
        group(s)


def script():
    s = Script()
    for words in (5, 6, 7, 8, 49151, 49152, 60000):
        s.capacity(words)
    for group in (standard_form, variables, room, parity, largest, searches):
        group(s)
    return s


if __name__ == "__main__":
    sys.exit(main(script(), ROOT + "/crates/conditions_test"))
