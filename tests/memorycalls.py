#!/usr/bin/env python3
"""The calls of `memory_test`: every row by each call that can meet it, the order of the rows, idle
writes, the panel's rulings, a list of just the entries that are needed, what ports hold, lists and
stores at their limits.

    python3 tests/memorycalls.py            write crates/memory_test/stdin and stdout
    python3 tests/memorycalls.py --check    compare them; status 1 where one is not as made
    python3 tests/memorycalls.py --list     each call's line, and what the call is for

What must be printed is found by tools/second/calls.py.
"""

import sys

from rooms import ROOT
from callscript import ACCESSES, Script, main
from papers import (ASSERT, CHECK, EVALUATE, FRESH, IDLE, ITE, NAMES, PORTS, PORT_WORDS, READ, VARIABLE, WRITE, Record,
                    held_places)
from second.calls import Call, run

TERMINALS = [64, 0, 0, 64, 1, 1]
ONE, ZERO, X = [1, 0], [0, 1], [1, 1]

S = Script()


def record_of(n, w, count, entries, asserted=1, checked=1):
    return Record(n, w, count, entries, asserted, checked)


def port_words(w, words=()):
    """Port words: held words of node 1 but for those that `words` has by their ports, and 7 in every
    word past a held one."""
    found = [7] * (PORTS * PORT_WORDS)
    for port in range(PORTS):
        found[held_places(port, w)] = dict(words).get(port, [1] * (2 * w))
    return found


def access(kind, control, address, data):
    """An access; an assert or a check has the first word of the control as b."""
    return Call(kind, control if kind in (WRITE, READ) else control[:1], address, data)


def tell(name, call, record, nodes, entries=(), times=1, ports=None):
    """A call; Fresh is lent ports of 7 in every word, and a read those that hold X, if no others are said."""
    if ports is None:
        ports = port_words(0 if call.kind == FRESH else min(record.w, 16))
    return S.call("%s, %s" % (name, NAMES[call.kind]), call, record, list(nodes), list(entries), ports, times)


def each(name, record, nodes, entries, control, address, data):
    """The four accesses, each on the same memory."""
    for kind in ACCESSES:
        tell(name, access(kind, control, address, data), record, nodes, entries)


def node_calls(name, record, nodes):
    """Evaluate node 1, variable 8, Ite(1, 1, 0)."""
    tell(name, Call(EVALUATE, other=(1, 0)), record, nodes)
    tell(name, Call(VARIABLE, other=(8,)), record, nodes)
    tell(name, Call(ITE, other=(1, 1, 0)), record, nodes)


def one_at_0(name, record, nodes, entries):
    """The accesses of 1 at address 0, enabled."""
    each(name, record, nodes, entries, ONE, ZERO, ONE)


def fresh(name, n, w, nodes):
    tell(name, Call(FRESH, other=(n, w)), record_of(1, 1, 2, 0), nodes)


# Each row of the table of refusals, by every call that can meet it.

def row_1():
    """All eight calls refuse by 1 whatever the rest is; at the ends of the ranges Fresh accepts."""
    nodes = TERMINALS + [7] * 3
    for name, n, w in (("n = 9", 9, 1), ("n = 0", 0, 1), ("w = 17", 1, 17), ("w = 0", 1, 0)):
        fresh(name, n, w, nodes)
        node_calls(name, record_of(n, w, 2, 0), nodes)
        one_at_0(name, record_of(n, w, 2, 0), nodes, [7] * 6)
    fresh("n = 8, w = 16", 8, 16, [7] * 9)
    fresh("n = 1, w = 1", 1, 1, [7] * 6)


def row_2():
    """All refuse by 2; Fresh only 5 words, since it reads none of them."""
    def store(name, count, nodes):
        node_calls(name, record_of(1, 1, count, 0), nodes)
        one_at_0(name, record_of(1, 1, count, 0), nodes, [7] * 6)

    fresh("5 words", 1, 1, TERMINALS[:5])
    store("5 words", 2, TERMINALS[:5])
    store("count 1", 1, TERMINALS + [7] * 3)
    store("count 3, capacity 2", 3, TERMINALS + [8, 0])
    store("node 0 on 63", 2, [63] + TERMINALS[1:] + [7] * 3)
    store("a node twice", 4, TERMINALS + [8, 0, 1, 8, 0, 1, 7, 7, 7])


def row_3():
    """The accesses refuse by 3 what 5 would refuse of an argument; the node calls skip 3 and accept.

    Node 3 is index variable 0, and 4 the count.
    """
    nodes = TERMINALS + [8, 0, 1, 0, 0, 1, 7, 7, 7]
    entry = [1, 0, 0, 1, 1, 0]
    for name, asserted, checked, entries in (
            ("1 entry, no words", 1, 1, []),
            ("1 entry, 5 words", 1, 1, entry[:5]),
            ("entry word 4 of count 4", 1, 1, entry[:5] + [4]),
            ("entry word on index 0", 1, 1, [3] + entry[1:]),
            ("assert condition 4 of count 4", 4, 1, entry),
            ("check condition on index 0", 1, 3, entry)):
        one_at_0(name, record_of(1, 1, 4, 1, asserted, checked), nodes, entries)
    node_calls("1 entry, conditions 4 and 3", record_of(1, 1, 4, 1, 4, 3), nodes)
    # A held word, by a read alone: in the port that it reads, in another; not past the first 2w words.
    for port in range(PORTS):
        for held in ([4, 1], [1, 4], [3, 1], [1, 3], [2 ** 32 - 1, 1]):
            lent_ports("held word %d:%d in port %d" % (*held, port), port_words(1, {port: held}))
        lent_ports("4 past the held word of port %d" % port, port_words(2, {port: [1, 1, 4, 4]}))


# A store with variable 8 as node 2, index variable 0 as node 3, count 4 and room for one more node,
# and a list of one entry, 1@0; 7 stands in each word that nothing is said of.
LENT = TERMINALS + [8, 0, 1, 0, 0, 1, 7, 7, 7, 7]
LENT_LIST = [1, 0, 0, 1, 1, 0, 7, 7]


def lent(name, kinds, control=ONE, address=ZERO, data=ONE):
    for kind in kinds:
        tell(name, access(kind, list(control), list(address), list(data)), record_of(1, 1, 4, 1), LENT, LENT_LIST)


def lent_ports(name, ports, port=1, control=ONE, address=ZERO, data=ONE):
    """A read on that store, by a port and lent these port words."""
    call = Call(READ, control, address, data, port=port)
    tell(name, call, record_of(1, 1, 4, 1), LENT + [7] * 6, LENT_LIST, ports=ports)


def on_lent(name, call):
    tell(name, call, record_of(1, 1, 4, 1), LENT)


def row_4():
    lent("address of 3 words", ACCESSES, address=[0, 1, 0])
    lent("address of 1 word", ACCESSES, address=[0])
    lent("data or answer of 3 words", ACCESSES, data=[1, 0, 0])
    lent("data or answer of 1 word", ACCESSES, data=[1])
    lent("enable of 3 words", (WRITE, READ), control=[1, 0, 0])
    lent("enable of 1 word", (WRITE, READ), control=[1])


def row_5():
    """By each call that is lent the node; evaluate asks only that it is below the count."""
    for variable in (7, 64, 2 ** 32 - 1, 8, 63):
        on_lent("variable %d" % variable, Call(VARIABLE, other=(variable,)))
    for node, what in ((4, "the count"), (3, "on index 0")):
        on_lent("f " + what, Call(ITE, other=(node, 1, 0)))
        on_lent("g " + what, Call(ITE, other=(1, node, 0)))
        on_lent("h " + what, Call(ITE, other=(1, 1, node)))
    on_lent("the count", Call(EVALUATE, other=(4, 256)))
    on_lent("index 0 under 2^8", Call(EVALUATE, other=(3, 256)))
    on_lent("variable 8 under 2^8", Call(EVALUATE, other=(2, 256)))
    lent("control h or b the count", ACCESSES, control=[4, 1])
    lent("control h or b on index 0", ACCESSES, control=[3, 1])
    lent("control l the count", (WRITE, READ), control=[1, 4])
    lent("control l on index 0", (WRITE, READ), control=[1, 3])
    lent("address h the count", ACCESSES, address=[4, 1])
    lent("address l on index 0", ACCESSES, address=[0, 3])
    lent("data h on index 0", (WRITE, ASSERT, CHECK), data=[3, 1])
    lent("data l the count", (WRITE, ASSERT, CHECK), data=[0, 4])


def row_6():
    """(0, 0) is neither everywhere, the others where variable 8 is 0."""
    lent("enable (0, 0)", (WRITE, READ), control=[0, 0])
    lent("enable (2, 0)", (WRITE, READ), control=[2, 0])
    lent("address (0, 0)", ACCESSES, address=[0, 0])
    lent("address (0, 2)", ACCESSES, address=[0, 2])
    lent("data (0, 0)", (WRITE, ASSERT, CHECK), data=[0, 0])
    lent("data (2, 2)", (WRITE, ASSERT, CHECK), data=[2, 2])


def wide(name, kind, list_words, control, address, data):
    """Variable 8 is node 2, its negation node 3; room for 6 more nodes, no entries, so many list words."""
    nodes = TERMINALS + [8, 0, 1, 8, 1, 0] + [7] * 19
    tell(name, access(kind, control, address, data), record_of(1, 1, 4, 0), nodes, [7] * list_words)


def row_7():
    """Where b and an X address bit meet; only an assert asks."""
    wide("b = 1, (1, 1)", ASSERT, 7, [1], X, ONE)
    wide("b = 2, (1, 2)", ASSERT, 7, [2], [1, 2], ONE)
    wide("b = 2, (2, 1)", ASSERT, 7, [2], [2, 1], ONE)
    wide("b = 2, (1, 3)", ASSERT, 7, [2], [1, 3], ONE)
    wide("b = 0, (1, 1)", ASSERT, 7, [0], X, ONE)
    wide("b = 1, (1, 1)", CHECK, 7, [1], X, ONE)
    wide("enable 1, (1, 1)", WRITE, 7, ONE, X, ONE)
    wide("enable 1, (1, 1)", READ, 7, ONE, X, ONE)


def row_8():
    """A write and an assert have built conditions, and clear the words from the count on.

    Nothing was written, so an assert of X is kept and needs no entry; so is one whose b is 0, and a write
    whose enable is 0 is idle.  Reads and checks need none.
    """
    for name, words, control, data in (
            ("no list words, data 1", 0, ONE, ONE), ("no list words, data X", 0, ONE, X),
            ("5 list words, data 1", 5, ONE, ONE), ("no list words, enable or b 0", 0, ZERO, ONE)):
        for kind in (WRITE, ASSERT, READ, CHECK):
            wide(name, kind, words, control, ZERO, data)


def row_9():
    """Index variable 0 is a new node; address 0 takes a second, its negation, and address 1 none."""
    for name, words, address in (("6 words, at 0", 6, ZERO), ("8 words, at 1", 8, ONE), ("9 words, at 1", 9, ONE),
                                 ("9 words, at 0", 9, ZERO), ("11 words, at 0", 11, ZERO),
                                 ("12 words, at 0", 12, ZERO)):
        nodes = (TERMINALS + [7] * 6)[:words]
        each(name, record_of(1, 1, 2, 0), nodes, [7] * 6, ONE, address, ONE)
        tell(name, Call(VARIABLE, other=(8,)), record_of(1, 1, 2, 0), nodes)
    # Variable 9 is node 2, 'variable 8 or 9' node 3, with room for one node: Not of node 2 needs one,
    # Not of node 3 two, of which the first is cleared.
    nodes = TERMINALS + [9, 0, 1, 8, 2, 1] + [7] * 5
    tell("enable (1, 3)", Call(WRITE, [1, 3], ZERO, ONE), record_of(1, 1, 4, 0), nodes, [7] * 6)
    tell("not 3", Call(ITE, other=(3, 0, 1)), record_of(1, 1, 4, 0), nodes)
    tell("not 2", Call(ITE, other=(2, 0, 1)), record_of(1, 1, 4, 0), nodes)


def row_14():
    """A read's port above 3."""
    for port in (0, 3, 4, 5, 255, 2 ** 31, 2 ** 32 - 1):
        lent_ports("port %d" % port, port_words(1), port)


# Calls that more than one row refuses.

def ordered(name, record, terminal, list_words, control, address, data, room=5):
    """The accesses on a store with variable 9 as node 2, 'variable 8 or 9' as node 3 and `room` words
    more, where each access needs two nodes; node 0 is on the variable `terminal`.  The list has one
    entry, 1@0, and 8 words or, with space for one more, 16.  n is 2."""
    nodes = [terminal] + TERMINALS[1:] + [9, 0, 1, 8, 2, 1] + [7] * room
    entries = ([1, 0, 0, 1, 0, 1, 1, 0] + [7] * 8)[:list_words]
    each(name, record, nodes, entries, control, address, data)


def order():
    """Every row from 1 up, then one row less each time: n = 9; node 0 on variable 63; two entries in a
    list of one; data of three words; a control that is the count; an address bit (0, 0); one that is X;
    no space for an entry; no room for the nodes.  Each line has the lowest row that is left for its
    call: row 7 is an assert's; from there on a write and an assert have the 9 that comes before the
    entry needs its space."""
    ordered("1 to 9", record_of(9, 1, 4, 2), 63, 8, [4, 3], [0, 0, 1, 1], [0, 1, 0])
    ordered("2 to 9", record_of(2, 1, 4, 2), 63, 8, [4, 3], [0, 0, 1, 1], [0, 1, 0])
    ordered("3 to 9", record_of(2, 1, 4, 2), 64, 8, [4, 3], [0, 0, 1, 1], [0, 1, 0])
    ordered("4 to 9", record_of(2, 1, 4, 1), 64, 8, [4, 3], [0, 0, 1, 1], [0, 1, 0])
    memory = record_of(2, 1, 4, 1)
    ordered("5 to 9", memory, 64, 8, [4, 3], [0, 0, 1, 1], ZERO)
    ordered("6 to 9", memory, 64, 8, [1, 3], [0, 0, 1, 1], ZERO)
    ordered("7 to 9", memory, 64, 8, [1, 3], [0, 1, 1, 1], ZERO)
    ordered("8 and 9", memory, 64, 8, [1, 3], [0, 1, 0, 1], ZERO)
    ordered("9", memory, 64, 16, [1, 3], [0, 1, 0, 1], ZERO)
    # With room for 10 more nodes: 8 by a write and by an assert of another word, and both clear; an
    # assert of the word that is there is kept, and meets no 8.
    ordered("8", memory, 64, 8, [1, 3], [0, 1, 0, 1], ZERO, 30)
    ordered("8, or kept", memory, 64, 8, [1, 3], [0, 1, 0, 1], ONE, 30)
    ordered("none", memory, 64, 16, [1, 3], [0, 1, 0, 1], ZERO, 30)


def order_of_idle():
    """The same with an enable, or a b, of 0, on a list with no space: a write meets rows 1 to 6, else it is
    idle.  An assert is kept, where there is room for the nodes of its look."""
    memory = record_of(2, 1, 4, 1)
    for rows, record, terminal, address, data, room in (
            ("1 to 6", record_of(9, 1, 4, 2), 63, [0, 0, 4, 1], [0, 1, 0], 5),
            ("2 to 6", record_of(2, 1, 4, 2), 63, [0, 0, 4, 1], [0, 1, 0], 5),
            ("3 to 6", record_of(2, 1, 4, 2), 64, [0, 0, 4, 1], [0, 1, 0], 5),
            ("4 to 6", memory, 64, [0, 0, 4, 1], [0, 1, 0], 5), ("5 and 6", memory, 64, [0, 0, 4, 1], ZERO, 5),
            ("6", memory, 64, [0, 0, 1, 1], ZERO, 5), ("9 or idle", memory, 64, [1, 3, 1, 1], ZERO, 5),
            ("kept or idle", memory, 64, [1, 3, 1, 1], ZERO, 60)):
        ordered(rows + ", enable or b 0", record, terminal, 8, ZERO, address, data, room)


def order_of_read():
    """A read's rows, 1, 2, 3, 4, 14, 5, 6, 9: a held word that is the count, in a port that is read or
    not; a port above 3; and what the other rows refuse."""
    right, wrong, neither = port_words(1), port_words(1, {2: [1, 4]}), [0, 0]
    for port in (2, 0, 4):
        lent_ports("3 to 6, port %d" % port, wrong, port, [4, 1], neither, [7])
        lent_ports("3, 5, 6, port %d" % port, wrong, port, [4, 1], neither)
        lent_ports("3, port %d" % port, wrong, port)
    for control, address, data, what in (([4, 1], neither, [7], "4, 14, 5, 6"), ([4, 1], neither, ONE, "14, 5, 6"),
                                         (neither, ZERO, ONE, "14, 6"), ([1, 0, 0], ZERO, ONE, "4, 14")):
        lent_ports(what, right, 4, control, address, data)
    # n = 9, node 0 on variable 63; and with no room for the nodes that the look needs.
    for n, terminal, ports, what in ((9, 63, wrong, "1, 2, 3, 14"), (1, 63, wrong, "2, 3, 14"), (1, 64, wrong, "3, 14"),
                                     (1, 64, right, "14, 9")):
        tell(what, Call(READ, ONE, ZERO, ONE, port=4), record_of(n, 1, 2, 0), [terminal] + TERMINALS[1:], [], ports=ports)
    tell("3, 9", Call(READ, ONE, ZERO, ONE), record_of(1, 1, 2, 0), TERMINALS, [], ports=wrong)


def order_in_write():
    """The enable is X where variable 8 holds, the address where 9 does: its conditions take 5 nodes more,
    one each for hard and u, one for h, two for s.  With fewer it is 9, whether there is space or not; with 9
    nodes and up no space is 8, which clears as 9 does, and with space it is entered."""
    nodes = TERMINALS + [8, 0, 1, 9, 0, 1] + [7] * 20
    call = Call(WRITE, [1, 2], [1, 3], ONE)
    for room in range(4, 11):
        for words, space in ((0, "no words"), (5, "no space"), (6, "space")):
            left = tell("%d nodes, %s" % (room, space), call, record_of(1, 1, 4, 0), nodes[:3 * room + 1], [7] * words)
            assert left.number == (9 if room < 9 else 8 if words < 6 else 0)


def order_in_assert():
    """b is 'variable 8, and neither 9 nor 10', with address bits that are X where 9 holds and where 10
    does.  Its conditions take 9 nodes more, and its Write then one.  With 15 nodes 9 comes before the
    entry is needed; with 16 no space is 8, and with space Write has 9; with 17 it is entered."""
    nodes = TERMINALS + [9, 0, 1, 10, 0, 1, 10, 1, 0, 9, 4, 0, 8, 0, 5] + [7] * 30
    for room in (15, 16, 17):
        for words, space in ((7, "no space"), (8, "space")):
            tell("%d nodes, %s" % (room, space), Call(ASSERT, [6], [1, 2, 1, 3], ONE), record_of(2, 1, 7, 0),
                 nodes[:3 * room], [7] * words)


def order_unlisted():
    """Calls that are lent no list.  Not of node 3 needs two nodes, and in 12 words there is no room for one."""
    def unlisted(name, n, terminal, words, call):
        nodes = ([terminal] + TERMINALS[1:] + [9, 0, 1, 8, 2, 1] + [7] * 5)[:words]
        tell(name, call, record_of(n, 1, 4, 1), nodes)

    for name, n, terminal, node in (("1, 2, 5, 9", 9, 63, 4), ("2, 5, 9", 1, 63, 4), ("5, 9", 1, 64, 4), ("9", 1, 64, 1)):
        unlisted(name, n, terminal, 17, Call(ITE, other=(3, 0, node)))
        unlisted(name, n, terminal, 12, Call(VARIABLE, other=(10 if name == "9" else 7,)))
    unlisted("1, 2, 5", 9, 63, 17, Call(EVALUATE, other=(4, 0)))
    unlisted("2, 5", 1, 63, 17, Call(EVALUATE, other=(4, 0)))
    unlisted("1, 2", 1, 64, 5, Call(FRESH, other=(9, 1)))
    unlisted("2", 1, 64, 5, Call(FRESH, other=(1, 1)))


# Writes that are idle.

def idle():
    """A write whose enable is 0 is idle on a full list and with no room for a node, whatever its address
    and data are, and leaves everything; rows 1 to 6 come before."""
    record = record_of(1, 1, 4, 1)
    for name, address, data in (("at 0", ZERO, ONE), ("at X", X, ZERO), ("data X", ONE, X),
                                ("an address that is X where variable 8 holds", [1, 2], ONE),
                                ("data that is X where variable 8 holds", ZERO, [2, 1])):
        for room, nodes, entries in (("full list", LENT, LENT_LIST), ("no room for a node", LENT[:12], LENT_LIST[:6]),
                                     ("space and room", LENT + [7] * 30, LENT_LIST + [7] * 30)):
            left = tell("idle, %s, %s" % (name, room), Call(WRITE, ZERO, address, data), record, nodes, entries)
            assert left[:5] == (0, IDLE, record, nodes, entries)
    tell("idle, no entries, no list words", Call(WRITE, ZERO, ZERO, ONE), record_of(1, 1, 2, 0), TERMINALS)
    for name, control, address, data in (
            ("address of 3 words", ZERO, [0, 1, 0], ONE), ("data of 1 word", ZERO, ZERO, [1]),
            ("enable of 1 word", [0], ZERO, ONE), ("enable of 3 words", [0, 1, 0], ZERO, ONE),
            ("enable l the count", [0, 4], ZERO, ONE), ("enable l on index 0", [0, 3], ZERO, ONE),
            ("address h the count", ZERO, [4, 1], ONE), ("address l on index 0", ZERO, [0, 3], ONE),
            ("data h on index 0", ZERO, ZERO, [3, 1]), ("data l the count", ZERO, ZERO, [0, 4]),
            ("enable (0, 2)", [0, 2], ZERO, ONE), ("address (0, 0)", ZERO, [0, 0], ONE),
            ("address (2, 0)", ZERO, [2, 0], ONE), ("data (0, 0)", ZERO, ZERO, [0, 0]),
            ("data (2, 2)", ZERO, ZERO, [2, 2])):
        lent("enable h 0, " + name, [WRITE], control, address, data)


def not_idle():
    """An enable that may be 1 under some assignment is not idle: X, variable 8, its negation, and those that
    are X where one of them holds.  With no space 8, and with space entered."""
    for words in (5, 6):
        for control in (X, [2, 3], [3, 2], [2, 1], [3, 1], [1, 2], [1, 3], ONE):
            wide("enable %d:%d, %d list words" % (*control, words), WRITE, words, control, ZERO, ONE)


# Calls one after the other.

class Memory:
    """A memory on which one call follows another."""

    def __init__(self, what, n, w, nodes, entries, before=record_of(1, 1, 2, 0)):
        self.what = what
        self.record, self.nodes, self.entries, self.ports = before, list(nodes), list(entries), port_words(0)
        self.go("begun", Call(FRESH, other=(n, w)))

    def go(self, name, call, times=1):
        left = tell("%s, %s" % (self.what, name), call, self.record, self.nodes, self.entries, times, self.ports)
        self.record, self.nodes, self.entries, self.ports = left.record, left.nodes, left.list, left.ports
        return left

    def variable(self, v):
        """The pair of variable v."""
        node = self.go("variable %d" % v, Call(VARIABLE, other=(v,))).out
        return [node, self.go("not %d" % v, Call(ITE, other=(node, 0, 1))).out]

    def write(self, address, data, enable=ONE):
        return self.go("write", Call(WRITE, enable, address, data))

    def read(self, address, enable=ONE, port=0):
        return self.go("port %d" % port, Call(READ, enable, address, [7] * (2 * self.record.w), port=port))

    def held(self, port):
        return self.ports[held_places(port, self.record.w)]

    def check(self, address, data):
        return self.go("check", Call(CHECK, [1], address, data))

    def assert_(self, address, data, b=1):
        return self.go("assert", Call(ASSERT, [b], address, data))


def ruling(number, writes, address, enable, expected, w=1):
    """Writes (address, data, enable), and the read that follows them; the bit that the panel ruled."""
    memory = Memory("R%d" % number, 1, w, [0] * 96, [0] * 24)
    for at, data, enabled in writes:
        assert (memory.write(at, data, enabled).out == IDLE) == (enabled == ZERO), "R%d" % number
    assert memory.read(address, enable).data == expected, "R%d" % number


def rulings():
    ruling(1, [], ZERO, ONE, X)
    ruling(2, [(ZERO, ONE, ONE)], ZERO, ONE, ONE)
    ruling(3, [(ZERO, ONE, ONE)], ONE, ONE, X)
    ruling(4, [(ZERO, ONE, X)], ZERO, ONE, X)
    ruling(5, [(ZERO, ONE, ONE), (ZERO, ONE, X)], ZERO, ONE, ONE)
    ruling(6, [(ZERO, ONE, ONE), (ONE, ONE, ONE)], X, ONE, ONE)
    ruling(7, [(ZERO, ONE, ONE), (ONE, ZERO, ONE)], X, ONE, X)
    ruling(8, [(ZERO, ONE, ONE), (ONE, ONE, ONE), (X, ZERO, ONE)], ZERO, ONE, X)
    ruling(9, [(ZERO, ONE, ZERO)], ZERO, ONE, X)
    ruling(10, [(ZERO, ONE, ONE)], ZERO, X, X)
    memory = Memory("R10, the port's last word 1", 1, 1, [0] * 96, [0] * 24)
    memory.write(ZERO, ONE)
    memory.read(ZERO)
    assert memory.read(ZERO, X).data == ONE
    memory = Memory("R11", 1, 2, [0] * 96, [0] * 24)
    memory.write(ZERO, ONE + ZERO)
    memory.write(ONE, ZERO + ONE)
    assert memory.check(X, X + X).record.check_condition == 1
    assert memory.check(X, ONE + ZERO).record.check_condition == 0


def idle_between():
    """Idle writes take no place between entries, nor after the last that the list holds, and build nothing:
    an enable of 0 and an X address, with symbolic data.  After 8 the words past the count are 0, and the
    memory goes on."""
    memory = Memory("idle between", 1, 1, [7] * 60, [7] * 12)
    a = memory.variable(8)
    idle_write = [a[0], 1], a, ZERO
    assert memory.write(*idle_write).out == IDLE
    assert memory.write(ZERO, ONE).out == 0
    assert memory.write(*idle_write).out == IDLE
    assert memory.read(ZERO).data == ONE
    assert memory.write(ONE, a, a).out == 1, "the place that the idle ones did not take"
    before = memory.record
    assert memory.go("three times", Call(WRITE, ZERO, X, ONE), 3).out == IDLE
    assert memory.assert_(ZERO, ZERO, 0).out == 0, "kept on a full list"
    assert memory.record.entries == before.entries == 2
    assert memory.write(ZERO, ZERO, [a[0], 1]).number == 8
    assert memory.write(*idle_write).out == IDLE
    assert memory.read(ONE).number == 0 and memory.check(ZERO, ONE).number == 0


def budget():
    """Six accesses of which three count: two writes whose enable may be 1, and an assert of 0 where X is.  A list
    of three entries is enough, and in one of two the last access meets 8."""
    for entries, row in ((3, 0), (2, 8)):
        memory = Memory("list of %d entries" % entries, 1, 1, [7] * 60, [7] * (6 * entries))
        a = memory.variable(8)
        assert [memory.write(*given).out for given in ((ZERO, ONE), (ONE, ZERO, a), (ONE, ONE, ZERO))] == [0, 1, IDLE]
        assert [memory.assert_(*given).out for given in ((ZERO, ONE), (ONE, ZERO, a[0]))] == [0, 0], "kept"
        assert memory.assert_(ONE, ZERO).number == row and memory.record.entries == entries


def holding():
    """A port holds the last word read by it: a disabled read gives it again, one under an X enable the
    union of it and the look; no other port is touched, nor is a word past the held ones."""
    memory = Memory("ports", 1, 2, [7] * 300, [7] * 60)
    a, b = memory.variable(8), memory.variable(9)
    memory.write(ZERO, ONE + ZERO)
    memory.write(ONE, ZERO + a)
    for port in range(PORTS):
        assert memory.read(ONE, ZERO, port).data == X + X, "a fresh port"
    for port, address in ((0, ZERO), (1, ONE), (2, b)):
        memory.read(address, ONE, port)
    assert [memory.held(port) for port in (0, 1, 3)] == [ONE + ZERO, ZERO + a, X + X]
    memory.write(ZERO, ZERO + ZERO)
    for port in range(PORTS):
        held = memory.held(port)
        for address in (ZERO, X):
            assert memory.read(address, ZERO, port).data == held, "kept by a disabled read"
    # The look at 1 is 0 and variable 8.
    assert memory.read(ONE, X, 0).data == X + [a[0], 1], "joined"
    assert memory.read(ONE, X, 1).data == ZERO + a, "joined with the same word"
    assert memory.read(ONE, X, 3).data == X + X, "joined with X"
    # An enable that is variable 9: the look where it is 1, the held word where it is 0; then X there.
    memory.read(ONE, ONE, 0)
    assert memory.read(ZERO, b, 0).data[:2] == ZERO, "chosen"
    memory.read(b, a, 2)
    memory.read(ZERO, [b[0], 1], 1)
    memory.read(a, [1, a[0]], 2)
    memory.read(X, [a[0], 1], 3)
    # Refused reads leave every port.
    held = list(memory.ports)
    for control, address, port, row in ((ONE, [0, 0], 0, 6), (ONE, ZERO, 4, 14), ([0, 99], ZERO, 1, 5),
                                        (ONE, ZERO + ZERO, 2, 4)):
        assert memory.read(address, control, port).number == row and memory.ports == held
    # A refused Fresh leaves them too, and one that is accepted begins them anew.
    assert memory.go("refused", Call(FRESH, other=(9, 2))).number == 1 and memory.ports == held
    memory.go("begun again", Call(FRESH, other=(1, 1)))
    assert memory.ports == [1] * (PORTS * PORT_WORDS)


def late_nine():
    """9 where no room is left for a node of the look, of S, of a choice or of its Ite: every port is left.

    The enable is 1 where variable 8 is, X where 9 alone is, and else 0."""
    memory = Memory("few nodes", 1, 1, [7] * 120, [7] * 12)
    a, b, c, d = (memory.variable(v) for v in (8, 9, 10, 11))
    either = memory.go("8 or 9", Call(ITE, other=(a[0], 1, b[0]))).out
    memory.write(ZERO, c)
    memory.read(ZERO, ONE, 1)
    memory.write(ZERO, d)
    call = Call(READ, [either, a[1]], ZERO, [7, 7], port=1)
    needed = run(call, memory.record, memory.nodes, memory.entries, memory.ports).record.nodes
    for nodes in range(memory.record.nodes, needed + 1):
        left = tell("few nodes, %d" % nodes, call, memory.record, memory.nodes[:3 * nodes + 2], memory.entries,
                    ports=memory.ports)
        assert left.number == (9 if nodes < needed else 0)
        assert (left.ports == memory.ports) == (nodes < needed)


def bits(number, many):
    """A number's bits as constants, lowest bit first."""
    return [x for i in range(many) for x in (ONE if number >> i & 1 else ZERO)]


def largest_sizes():
    """n = 8 and w = 16.  Address bit 7 is variable 63 and data bit 15 variable 8.

    An assert of the word that is there is kept; of another it is entered, and the assert condition is
    0.  A check of the other word then holds, and one of the first not.  A write to an X address takes
    the last of three entries' words, and one more is refused by 8."""
    memory = Memory("n = 8, w = 16", 8, 16, [7] * 3000, [7] * 150)
    low, high = memory.variable(8), memory.variable(63)
    address = bits(0b0101101, 7)[:14] + high
    word = bits(0x5a3c, 15) + low
    other = bits(0xeb67, 16)
    memory.read(address)
    memory.write(address, word)
    assert memory.read(address).data == word
    memory.assert_(address, word)
    memory.check(address, word)
    memory.assert_(address, other)
    memory.check(address, other)
    memory.check(address, word)
    memory.write([1] * 16, word)
    memory.read(address)
    assert memory.write(address, word).number == 8
    assert memory.write(address, word, ZERO).out == IDLE
    # The held words are all 32 words of a port.
    memory.read(address, ONE, 3)
    assert memory.read([1] * 16, ZERO, 0).data == memory.held(3)
    memory.read([1] * 16, [high[0], 1], 3)
    assert memory.ports[32:96] == [1] * 64


def lists():
    """12 and 17 words are two entries.  A list may hold any words."""
    for words in (12, 17):
        memory = Memory("list of %d words" % words, 1, 1, [7] * 31, [7] * words, record_of(9, 9, 9, 9))
        memory.write(ZERO, ONE)
        memory.write(ONE, ZERO)
        assert memory.write(ONE, ONE).number == 8
    memory = Memory("list of any words", 1, 1, [2 ** 32 - 1] * 48, [2 ** 32 - 1] * 20, record_of(9, 9, 9, 9))
    memory.read(ZERO)
    memory.write(ZERO, ONE)
    memory.read(ZERO)
    memory.read(ONE)


def most_entries():
    """4,096 entries are the most: one more is refused by 8 although there are words, and a record that
    has more by 3.  With one word less than 4,096 entries have, 4,095 are the most."""
    write = Call(WRITE, ONE, ZERO, ONE)
    for words, counts in ((24582, (4094, 4095, 4096, 4097)), (24575, (4094, 4095, 4096))):
        for entries in counts:
            tell("%d entries, %d words" % (entries, words), write, record_of(1, 1, 2, entries), TERMINALS, [1] * words)
    # An assert of 1 at 0, where X is, is the 4,096th entry.  One of 0 has then no space; one of 1 is kept.
    nodes = TERMINALS + [7] * 18
    last = tell("4095 entries, assert 1", Call(ASSERT, [1], ZERO, ONE), record_of(1, 1, 2, 4095), nodes, [1] * 24582)
    for data in (ZERO, ONE):
        tell("4096 entries, assert", Call(ASSERT, [1], ZERO, data), record_of(1, 1, 2, 4096), nodes, last.list)
    # An idle write is accepted with as many entries as there may be, and refused by 3 with more.
    for entries in (4095, 4096, 4097):
        tell("%d entries, enable 0" % entries, Call(WRITE, ZERO, ZERO, ONE), record_of(1, 1, 2, entries), TERMINALS,
             [1] * 24582)
    memory = Memory("all entries", 1, 1, [7] * 6, [2 ** 32 - 1] * 24582)
    assert memory.go("4096 writes", write, 4096).out == 4095
    assert memory.go("4097th write", write).number == 8
    assert memory.write(ONE, X, ZERO).out == IDLE


def filled(count, words):
    """A store of the pairs of unequal nodes: on variable 63 those below 2, on 62 below 4, on 61 below
    16, on 60 below 256; 7 in the words past them."""
    nodes = [(64, 0, 0), (64, 1, 1)]
    for variable in (63, 62, 61, 60):
        below = range(len(nodes))
        nodes += [(variable, low, high) for low in below for high in below if low != high]
    return [x for node in nodes[:count] for x in node] + [7] * (words - 3 * count)


def largest_stores():
    """As many nodes as there can be, in words for one more.

    Variable 8 becomes node 16,380, and node 16,381 has 13,006 where it is 0 and 13,007 where it is 1:
    (60 50 0) and (60 50 1).  Node 69 is Not of 50 and no node on variable 60 has it, so Not of 16,381
    needs three: it makes the last two, and for the third has 9, which clears them and leaves the three
    words past 16,384 nodes.  A read at address 0 needs two nodes, which are the last; after variable 9
    there is room for one of them."""
    record, nodes = record_of(1, 1, 16380, 0), filled(16380, 49155)
    for call in (Call(VARIABLE, other=(8,)), Call(ITE, other=(16380, 13007, 13006))):
        left = tell("16380 nodes", call, record, nodes)
        record, nodes = left.record, left.nodes
    assert tell("16382 nodes, not 16381", Call(ITE, other=(16381, 0, 1)), record, nodes).number == 9
    read = Call(READ, ONE, ZERO, ONE)
    assert tell("16382 nodes", read, record, nodes, [7] * 6).record.nodes == 16384
    more = tell("16382 nodes", Call(VARIABLE, other=(9,)), record, nodes)
    assert tell("16383 nodes", read, more.record, more.nodes, [7] * 6).number == 9
    # Node 2 is variable 63.
    for assignment in (2 ** 63, 2 ** 63 - 1, 2 ** 64 - 1):
        tell("under %d" % assignment, Call(EVALUATE, other=(2, assignment)), more.record, more.nodes)
    nodes = filled(16385, 49155)
    for count in (16385, 16384):
        name = "%d nodes" % count
        node_calls(name, record_of(1, 1, count, 0), nodes)
        one_at_0(name, record_of(1, 1, count, 0), nodes, [7] * 6)
    # A write at an address that is X where node 13,006 holds needs its Not: 9, whether there is space or not.
    for words, enable, number in ((6, ONE, 9), (5, ONE, 9), (5, ZERO, 0)):
        left = tell("16384 nodes, %d list words, enable %d" % (words, enable[0]), Call(WRITE, enable, [1, 13006], ONE),
                    record_of(1, 1, 16384, 0), nodes, [7] * words)
        assert left.number == number


SMALL = [row_1, row_2, row_3, row_4, row_5, row_6, row_7, row_8, row_9, row_14, order, order_of_idle, order_of_read,
         order_in_write, order_in_assert, order_unlisted, idle, not_idle, rulings, idle_between, budget, holding,
         late_nine]
GROUPS = SMALL + [largest_sizes, lists, most_entries, largest_stores]


def script(groups=GROUPS):
    S.__init__()
    for group in groups:
        group()
    return S


if __name__ == "__main__":
    sys.exit(main(script(), ROOT + "/crates/memory_test"))
