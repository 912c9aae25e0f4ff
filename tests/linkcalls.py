#!/usr/bin/env python3
"""The thirteen functions for C, held to the second program: what each returns, and every word of every buffer.

    python3 tests/linkcalls.py ARCHIVE [--times K]

makes a shared object of the archive and calls it through ctypes on random inputs from fixed seeds,
long and short, valid and damaged; K times as many with --times.  The calls' answers are found by
tools/second/calls.py, those of case files by tools/reference.py; a node must hold under its witness, by the
library's own evaluate too.  It prints how often each function met each row, 0 being accepted, and how many
of the writes were idle; the status is 1 where anything differs, or where a row was not met that a function
can meet, or no idle write, or where the archive has other functions than these.
"""

import argparse
import ctypes
import os
import subprocess
import sys
import tempfile
from collections import Counter

import rooms  # noqa: F401
import randomformulas
from common.randomcases import random_bytes
from papers import (ASSERT, ASSERT_FORMULA, CHECK, CHECK_FORMULA, EVALUATE, FORMULAS, FRESH, IDLE, ITE, NAMES, READ,
                    TERMINALS, TEXT, VARIABLE, WITNESS, WRITE, entry_size)
from randomcalls import (Shape, Words, access, after, any_call, call, damage, memory, no_memory, shape, standard, store,
                         unbegun, user_variables)
from second.calls import Call, run, value
from second.reference import left_of, run_case

# The rows that a function can meet.
REACHED = {WRITE: {0, 1, 2, 3, 4, 5, 6, 8, 9}, READ: {0, 1, 2, 3, 4, 5, 6, 9, 14}, ASSERT: set(range(10)),
           CHECK: {0, 1, 2, 3, 4, 5, 6, 9}, FRESH: {0, 1, 2}, EVALUATE: {0, 1, 2, 5}, VARIABLE: {0, 1, 2, 5, 9},
           ITE: {0, 1, 2, 5, 9}, ASSERT_FORMULA: {0, 1, 2, 3, 5, 6, 7, 8, 9, 13, 15, 16},
           CHECK_FORMULA: {0, 1, 2, 3, 5, 6, 9, 13, 15, 16}, TEXT: {0, 1, 2, 5, 13}, WITNESS: {0, 1, 2, 5}}
REACHED_BY_CASES = {0, 1, 2, 5, 6, 7, 8, 9, 10, 11, 12, 13, 14}
GUARD = 8


class Differs(Exception):
    """The library does not do what the second program says, with the input."""


def exported(archive):
    """The names that an archive defines for its callers."""
    listed = subprocess.run(["nm", "-g", "--defined-only", archive], stdout=subprocess.PIPE, text=True, check=True)
    return sorted(words[2] for words in map(str.split, listed.stdout.splitlines()) if len(words) == 3)


class Library:
    """The archive as a shared object."""

    def __init__(self, archive, folder):
        path = os.path.join(folder, "mangerday.so")
        subprocess.run([os.environ.get("CC", "cc"), "-shared", "-o", path, "-Wl,--whole-archive", archive,
                        "-Wl,--no-whole-archive"], check=True)
        self.library = ctypes.CDLL(path)

    def __getattr__(self, name):
        return getattr(self.library, "md_" + name)


class Lent:
    """A lent buffer, with words after it that nothing may change."""

    def __init__(self, words, kind=ctypes.c_uint32):
        self.length = len(words)
        self.buffer = (kind * (self.length + GUARD))(*words, *[77] * GUARD)

    def slice(self):
        return self.buffer, ctypes.c_size_t(self.length)

    def words(self):
        found = list(self.buffer)
        if found[self.length:] != [77] * GUARD:
            raise Differs("words were written past a buffer of %d" % self.length)
        return found[:self.length]


def ask(library, one, state, out):
    """A call of the library: what it returned, its out-word, and every buffer."""
    record, nodes, entries, ports = (Lent(words) for words in state)
    control, address, data = Lent(one.control), Lent(one.address), Lent(one.data)
    told = ctypes.c_uint32(out)
    at = record.buffer
    other = [ctypes.c_uint32(x) for x in one.other]
    if one.kind == FRESH:
        number = library.fresh(at, *other, *nodes.slice(), ports.buffer)
    elif one.kind == EVALUATE:
        number = library.evaluate(at, *nodes.slice(), other[0], ctypes.c_uint64(one.other[1]), ctypes.byref(told))
    elif one.kind == VARIABLE:
        number = library.variable(at, *nodes.slice(), *other, ctypes.byref(told))
    elif one.kind == ITE:
        number = library.ite(at, *nodes.slice(), *other, ctypes.byref(told))
    else:
        first = control.slice() if one.kind in (WRITE, READ) else [ctypes.c_uint32(one.control[0])]
        if one.kind == READ:
            first = [ports.buffer, ctypes.c_uint32(one.port), *first]
        last = [ctypes.byref(told)] if one.kind in (WRITE, ASSERT) else []
        function = getattr(library, NAMES[one.kind])
        number = function(at, *nodes.slice(), *entries.slice(), *first, *address.slice(), *data.slice(), *last)
    if control.words() != list(one.control) or address.words() != list(one.address):
        raise Differs("a slice was written that is only read")
    return number, told.value, tuple(record.words()), nodes.words(), entries.words(), data.words(), ports.words()


def ask_formula(library, one, state, out):
    """The same of a formula; its out-words are three, and those of ports none."""
    record, nodes, entries = (Lent(words) for words in state[:3])
    text, table, answer = Lent(one.text, ctypes.c_uint8), Lent(one.table), Lent(one.data)
    told = [ctypes.c_uint64(out) for _ in range(3)]
    function = getattr(library, NAMES[one.kind])
    number = function(record.buffer, *nodes.slice(), *entries.slice(), *text.slice(), *table.slice(), *answer.slice(),
                      *map(ctypes.byref, told))
    if bytes(text.words()) != one.text or table.words() != list(one.table):
        raise Differs("a slice was written that is only read")
    return (number, tuple(word.value for word in told), tuple(record.words()), nodes.words(), entries.words(), answer.words(),
            list(state.ports))


def ask_question(library, one, state, out):
    """The same of a text or a witness, which has an out-word of 64 bits, and is lent neither list nor ports."""
    record, nodes, text = Lent(state.record), Lent(state.nodes), Lent(one.data, ctypes.c_uint8)
    told = ctypes.c_uint64(out)
    lent = text.slice() if one.kind == TEXT else ()
    function = getattr(library, NAMES[one.kind])
    number = function(record.buffer, *nodes.slice(), ctypes.c_uint32(one.other[0]), *lent, ctypes.byref(told))
    return (number, told.value, tuple(record.words()), nodes.words(), list(state.list), text.words(), list(state.ports))


def asked_by(kind):
    """What calls a function of the library."""
    return ask_formula if kind in FORMULAS else ask_question if kind in (TEXT, WITNESS) else ask


def told_words(one, left, out):
    """The out-word of a call, or the three of a formula, where it is `out` before it."""
    if one.kind in FORMULAS:
        return tuple(out if word is None else word for word in left.out)
    return out if left.out is None else left.out


def is_idle(one, left):
    return one.kind == WRITE and left.out == IDLE


def full_list(rng, state):
    """The list with no space for one more entry."""
    size = entry_size(state.record.n, state.record.w)
    return state.list[:state.record.entries * size + rng.below(size)]


class Test:
    """The library, how often each function met each row, and how many writes were idle."""

    def __init__(self, library):
        self.library = library
        self.met = Counter()
        self.idle = 0

    def compare(self, rng, one, state):
        expected = run(one, *state)
        out = rng.below(1 << 32)
        wanted = (expected.number, told_words(one, expected, out), tuple(expected.record), *expected[3:])
        found = asked_by(one.kind)(self.library, one, state, out)
        names = "number", "out-word", "record", "node words", "list words", "data", "port words"
        for what, right, answer in zip(names, wanted, found):
            if right != answer:
                raise Differs("%s: %s is %s, not %s\n%s\n%s" % (NAMES[one.kind], what, answer, right, one, state))
        self.met[one.kind, expected.number] += 1
        self.idle += is_idle(one, expected)
        return expected

    def capacities(self, rng, one, state, left):
        """The call with room for from none to all of the nodes that it needs: 9 where that is not enough.
        A write also with no space for its entry: then 8 where it is, unless the write is idle."""
        if left.number or one.kind == FRESH:
            return
        least, needed = state.record.nodes, left.record.nodes
        for nodes in range(needed, least - 1, -1 - (needed - least) // 12):
            small = state._replace(nodes=state.nodes[:3 * nodes + rng.below(3)])
            self.expect(rng, one, small, 9 if nodes < needed else 0)
            if one.kind == WRITE:
                full = small._replace(list=full_list(rng, state))
                self.expect(rng, one, full, 9 if nodes < needed else 0 if is_idle(one, left) else 8)

    def expect(self, rng, one, state, number):
        if self.compare(rng, one, state).number != number:
            raise Differs("%s in %d node words, %d list words: not %d" % (
                NAMES[one.kind], len(state.nodes), len(state.list), number))

    def step(self, rng, state, one, damaged):
        """A call, most often as it should be, else damaged; the memory to go on from."""
        if not rng.chance(damaged):
            left = self.compare(rng, one, state)
            if rng.chance(10):
                self.capacities(rng, one, state, left)
            return after(left)
        left = self.compare(rng, *damage(rng, one, state))
        return after(left) if left.number == 0 and rng.chance(50) else state

    def chain(self, seed):
        """Calls one after another from a Fresh."""
        rng = Words(seed)
        size = shape(rng)
        state = self.step(rng, unbegun(rng, size), Call(FRESH, other=(size.n, size.w)), 10)
        for _ in range(rng.between(5, 20)):
            state = self.step(rng, state, call(rng, state, size.variables), 25)

    def any_memory(self, seed):
        """Calls on a memory whose nodes, entries and conditions are any that rows 1 to 3 let pass."""
        rng = Words(seed)
        size = shape(rng)
        variables = size.variables + (list(range(min(8, size.n + 2))) if rng.chance(50) else [])
        nodes = store(rng, variables, rng.between(2, 60))
        state = memory(rng, size, nodes, rng.below(7), rng.below(600), rng.below(3 * entry_size(size.n, size.w)))
        for _ in range(4):
            self.step(rng, state, call(rng, state, size.variables), 40)

    def ask_of_node(self, rng, node, state):
        """The witness of a node, where it must hold, and its text in buffers of several lengths; both damaged too."""
        one = Call(WITNESS, other=(node,))
        witness = self.compare(rng, one, state).out
        self.holds(node, witness, state)
        text = Call(TEXT, other=(node,), data=text_buffer(rng, 100 + rng.below(4000)))
        left = self.compare(rng, text, state)
        length = left.out if left.number == 0 else 1 + rng.below(4100)
        for room in (length, length + 1 + rng.below(9), length - 1, rng.below(length)):
            self.compare(rng, text._replace(data=text_buffer(rng, room)), state)
        self.compare(rng, *damage(rng, one, state))
        self.compare(rng, *damage(rng, text, state))

    def holds(self, node, witness, state):
        """Node 0 alone does not hold under its witness, by evaluate in the library and here."""
        number, found, *_ = ask(self.library, Call(EVALUATE, other=(node, witness)), state, 7)
        here = value(standard(state), node, witness)
        if number or found != here or here != (node != 0):
            raise Differs("witness %#x of node %d: it is %d there, by evaluate %d, row %d\n%s" % (
                witness, node, here, found, number, state))

    def questions(self, seed):
        """Texts and witnesses of nodes, those on index variables among them."""
        rng = Words(seed)
        size = shape(rng)
        nodes = store(rng, size.variables + list(range(min(8, size.n + 2))), rng.between(2, 60))
        state = memory(rng, size, nodes, rng.below(2), rng.below(60), rng.below(30))
        for node in {0, 1, len(nodes) - 1, rng.below(len(nodes)), rng.below(len(nodes))}:
            self.ask_of_node(rng, node, state)

    def any_question(self, seed):
        """A text or a witness of any words at all."""
        rng = Words(seed)
        state = no_memory(rng)
        self.compare(rng, Call(WITNESS, other=(rng.word(),)), state)
        self.compare(rng, Call(TEXT, other=(rng.word(),), data=text_buffer(rng, rng.below(40))), state)

    def all_variables(self, seed):
        """Witnesses of nodes on all 64 variables, more than tables do: each node must hold there."""
        rng = Words(seed)
        self.all_hold(memory(rng, Shape(1, 1, [8]), store(rng, list(range(64)), 300), 0, 3, 6))
        chain = TERMINALS + [(variable, 0, 1 if variable == 63 else 64 - variable) for variable in range(63, -1, -1)]
        if self.all_hold(memory(rng, Shape(1, 1, [8]), chain, 0, 3, 6)) != (1 << 64) - 1:
            raise Differs("the And of all variables holds under no other assignment")

    def all_hold(self, state):
        """The last node's witness; every node must hold under its own."""
        for node in range(state.record.nodes):
            number, witness, *_ = ask_question(self.library, Call(WITNESS, other=(node,)), state, 7)
            if number:
                raise Differs("witness of node %d: row %d\n%s" % (node, number, state))
            self.holds(node, witness, state)
            self.met[WITNESS, 0] += 1
        return witness

    def formulas(self, seed):
        """Formulas on a memory, one after another, as they should be, damaged, and with less room than they need."""
        rng = Words(seed)
        size = shape(rng)
        variables = size.variables + (list(range(min(8, size.n + 2))) if rng.chance(50) else [])
        state = memory(rng, size, store(rng, variables, rng.between(4, 30)), rng.below(3), rng.below(900),
                       rng.below(6 * entry_size(size.n, size.w)))
        for _ in range(4):
            one = randomformulas.call(rng, state)
            if rng.chance(45):
                self.compare(rng, *randomformulas.damage(rng, one, state))
                continue
            left = self.compare(rng, one, state)
            if rng.chance(20):
                self.little_room(rng, one, state, left)
            state = after(left)

    def little_room(self, rng, one, state, left):
        """A formula with room for from none to all of the nodes that it needs, and an answer slice that is short."""
        for nodes in range(state.record.nodes, left.record.nodes + 1, 1 + (left.record.nodes - state.record.nodes) // 12):
            self.compare(rng, one, state._replace(nodes=state.nodes[:3 * nodes + rng.below(3)]))
        if left.out.listed:
            self.compare(rng, one._replace(data=one.data[:3 * left.out.listed - 1]), state)

    def long_formula(self, seed, size):
        """A formula of many predicates on a small memory, as it should be and damaged."""
        rng = Words(seed)
        shaped = Shape(1, 1, [8, 9])
        state = memory(rng, shaped, store(rng, shaped.variables, 8), 0, 600, 120)
        one = randomformulas.call(rng, state, size)
        self.compare(rng, one, state)
        for _ in range(3):
            self.compare(rng, one._replace(text=randomformulas.damaged(rng, one.text)), state)

    def any_words(self, seed):
        """Any words at all, and memories with any call."""
        rng = Words(seed)
        state = no_memory(rng)
        self.compare(rng, any_call(rng, state), state)
        size = shape(rng)
        state = memory(rng, size, store(rng, size.variables, 6), 1, 30, 30)
        self.compare(rng, any_call(rng, state), state)

    def large_store(self, seed, count):
        """Stores of 49,152 words and more: thousands of nodes, up to the 16,384 that there may be."""
        rng = Words(seed)
        size = Shape(1, rng.between(1, 2), list(range(8, 20)))
        nodes = store(rng, size.variables, count)
        state = memory(rng, size, nodes, 2, 49152 - 3 * len(nodes) + rng.below(9), 3 * entry_size(size.n, size.w))
        for _ in range(4):
            state = self.step(rng, state, call(rng, state, size.variables), 15)
        self.ask_of_node(rng, state.record.nodes - 1 - rng.below(9), state)

    def large_list(self, seed, entries):
        """Lists of thousands of entries, up to the 4,096 that there may be."""
        rng = Words(seed)
        size = Shape(1, 1, user_variables(rng, 2))
        state = memory(rng, size, store(rng, size.variables, 6), entries, 300, rng.between(6, 40))
        for _ in range(3):
            self.step(rng, state, access(rng, state), 20)

    def case(self, seed):
        """A case file, in buffers that are long enough, just long enough, or too short."""
        rng = Words(seed)
        data, _ = random_bytes(seed)
        ample = run_case(data)
        needed = (40, 60, 40)
        if ample.record:
            size = entry_size(ample.record.n, ample.record.w)
            needed = (3 * ample.record.nodes, ample.record.entries * size, len(ample.text))
        lengths = [buffer_length(rng, length) for length in needed]
        nodes, listed, record = rng.words(lengths[0]), rng.words(lengths[1]), tuple(rng.words(6))
        text = bytes(rng.below(256) for _ in range(lengths[2]))
        wanted = left_of(run_case(data, *lengths), record, nodes, listed, text)
        found = self.ask_case(data, nodes, listed, text, record, rng.next())
        if found != tuple(wanted):
            raise Differs("case of seed %d, lent %s: %s, not %s" % (seed, lengths, found[:3], tuple(wanted)[:3]))
        self.met["case", wanted.number] += 1

    def ask_case(self, data, nodes, listed, text, record, count):
        nodes, listed, record = Lent(nodes), Lent(listed), Lent(record)
        text, case = Lent(text, ctypes.c_uint8), Lent(data, ctypes.c_uint8)
        told = ctypes.c_uint64(count)
        number = self.library.case(*case.slice(), *nodes.slice(), *listed.slice(), *text.slice(), record.buffer,
                                   ctypes.byref(told))
        case.words()
        return number, told.value, tuple(record.words()), nodes.words(), listed.words(), bytes(text.words())


def text_buffer(rng, length):
    return [rng.below(256) for _ in range(length)]


def buffer_length(rng, needed):
    """Most often ample, else near what is needed, or anything."""
    way = rng.below(10)
    if way == 0:
        return needed
    if way == 1:
        return needed + rng.below(4)
    if way == 2:
        return max(0, needed - rng.between(1, 4))
    if way == 3:
        return rng.below(min(needed + 1, 8) if rng.chance(30) else needed + 1)
    return needed + rng.below(300)


def all_tests(test, times):
    for seed in range(350 * times):
        test.chain(seed)
    for seed in range(600 * times):
        test.any_memory(100000 + seed)
    for seed in range(5000 * times):
        test.any_words(200000 + seed)
    for seed, count in enumerate([2000, 12000, 16380, 16384]):
        test.large_store(300000 + seed, count)
    for seed, entries in enumerate([1000, 4095, 4096]):
        test.large_list(400000 + seed, entries)
    for seed in range(1800 * times):
        test.case(500000 + seed)
    for seed in range(900 * times):
        test.formulas(600000 + seed)
    for seed in range(20 * times):
        test.long_formula(700000 + seed, 10 * (1 + seed % 20))
    for seed in range(200 * times):
        test.questions(800000 + seed)
    for seed in range(500 * times):
        test.any_question(900000 + seed)
    for seed in range(2 * times):
        test.all_variables(1000000 + seed)


def report(test):
    """Print the counts; the status to end with."""
    status = 0
    for kind, rows in [*REACHED.items(), ("case", REACHED_BY_CASES)]:
        found = {row: many for (one, row), many in test.met.items() if one == kind}
        name = NAMES.get(kind, kind)
        print("%-14s %s" % (name, " ".join("%d:%d" % item for item in sorted(found.items()))))
        if set(found) != rows:
            print("linkcalls: %s met the rows %s, not %s: other seeds are needed" % (name, sorted(found), sorted(rows)))
            status = 1
    print("%d of the writes idle" % test.idle)
    if not test.idle:
        print("linkcalls: no write was idle: other seeds are needed")
        status = 1
    print("%d calls compared, every buffer" % sum(test.met.values()))
    return status


def main():
    parser = argparse.ArgumentParser(description=__doc__, formatter_class=argparse.RawDescriptionHelpFormatter)
    parser.add_argument("archive", metavar="ARCHIVE", help="libmangerday.a, as link/install leaves it")
    parser.add_argument("--times", type=int, default=1, metavar="K", help="K times as many inputs (1)")
    options = parser.parse_args()
    if not os.path.isfile(options.archive):
        sys.exit("linkcalls: no %s; `link/install PREFIX` makes PREFIX/lib/libmangerday.a" % options.archive)
    functions = sorted("md_" + name for name in [*NAMES.values(), "case"])
    if exported(options.archive) != functions:
        print("linkcalls: the archive has %s, not %s" % (exported(options.archive), functions))
        return 1
    with tempfile.TemporaryDirectory() as folder:
        test = Test(Library(options.archive, folder))
        try:
            all_tests(test, options.times)
        except Differs as difference:
            print("linkcalls: " + str(difference))
            return 1
    return report(test)


if __name__ == "__main__":
    sys.exit(main())
