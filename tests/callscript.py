"""Calls as a stored input, and what a program that runs them must print.

tests/README.md, 'The stored inputs', says how both are laid out.
"""

import sys

from papers import ASSERT, CHECK, EVALUATE, FRESH, PORTS, PORT_WORDS, READ, WRITE
from second.calls import run

LENGTH = 49160
NODES, LIST, CONTROL, ADDRESS, DATA, HELD = range(6)
PUT, RECORD = 9, 10
ACCESSES = WRITE, READ, ASSERT, CHECK
OUT = 7
WORD = 1 << 32


def numbers(call, entries):
    """The numbers of a call's item after the length of the node words."""
    if call.kind in (WRITE, READ):
        return len(entries), len(call.control), len(call.address), len(call.data)
    if call.kind in (ASSERT, CHECK):
        return len(entries), call.control[0], len(call.address), len(call.data)
    if call.kind == EVALUATE:
        node, assignment = call.other
        return node, assignment % WORD, assignment // WORD, 0
    return (*call.other, 0, 0, 0, 0)[:4]


def runs(old, new, start, stride):
    """The runs (place, many, value, step) that make `new` of `old` at every stride-th place."""
    places = range(start, len(new), stride)
    i = 0
    while i < len(places):
        if old[places[i]] == new[places[i]]:
            i += 1
            continue
        first = i
        step = (new[places[i + 1]] - new[places[i]]) % WORD if i + 1 < len(places) else 0
        while i + 1 < len(places) and (new[places[i + 1]] - new[places[i]]) % WORD == step:
            i += 1
        yield places[first], i - first + 1, new[places[first]], step
        i += 1


def changes(old, new):
    """The runs of words that differ, each as its place and the new words."""
    found, last = [], None
    for place in [i for i, (a, b) in enumerate(zip(old, new)) if a != b]:
        if place - 1 != last:
            found.append((place, []))
        found[-1][1].append(new[place])
        last = place
    return found


def left_words(call, left):
    """The buffers that a call is lent and may write, with their names and what it leaves of them."""
    yield "nodes", NODES, left.nodes
    if call.kind in ACCESSES:
        yield "list", LIST, left.list
        yield "data", DATA, left.data
    if call.kind in (FRESH, READ):
        yield "ports", HELD, left.ports


class Script:
    """The input so far, what must be printed, and the name of each call."""

    def __init__(self):
        self.buffers = [[0] * LENGTH for _ in range(5)] + [[0] * (PORTS * PORT_WORDS)]
        self.record = (0,) * 6
        self.items = []
        self.lines = []
        self.names = []

    def item(self, *numbers):
        self.items.append(b"".join(number.to_bytes(4, "little") for number in numbers))

    def put(self, buffer, words):
        """Make a buffer begin with these words."""
        old = self.buffers[buffer]
        strides = (0, 1, 2) if buffer == NODES else (0,)
        for start in strides:
            for place, many, value, step in runs(old, words, start, len(strides)):
                self.item(PUT, buffer, place, many, len(strides), value, step, 0)
        old[:len(words)] = words

    def call(self, name, call, record, nodes, entries, ports, times=1):
        """A call, `times` times; what the last one answers, and what all leave."""
        if tuple(record) != self.record:
            self.item(RECORD, *record, 0)
        self.put(NODES, nodes)
        if call.kind in ACCESSES:
            self.put(LIST, entries)
            self.put(CONTROL, call.control if call.kind in (WRITE, READ) else [])
            self.put(ADDRESS, call.address)
            self.put(DATA, call.data)
        if call.kind in (FRESH, READ):
            self.put(HELD, ports)
        last = call.port if call.kind == READ else times
        self.item(call.kind, len(nodes), *numbers(call, entries), last, len(self.names))
        for _ in range(times):
            left = run(call, record, nodes, entries, ports)
            record, nodes, entries, ports = left.record, left.nodes, left.list, left.ports
        self.record = tuple(left.record)
        self.names.append(name)
        self.lines.append(self.line(call, left))
        return left

    def line(self, call, left):
        words = " ".join(str(x) for x in left.record)
        text = "call %d %d %d %s" % (len(self.names) - 1, left.number, OUT if left.out is None else left.out, words)
        for name, buffer, new in left_words(call, left):
            old = self.buffers[buffer]
            for place, changed in changes(old[:len(new)], new):
                text += "; %s %d: %s" % (name, place, " ".join(str(x) for x in changed))
            old[:len(new)] = new
        return text + "\n"

    def input(self):
        return b"".join(self.items)

    def output(self):
        return "".join(self.lines).encode("ascii")


def main(script, folder):
    """Write the input and the output to a folder, compare them (--check), or name the calls (--list)."""
    if "--list" in sys.argv[1:]:
        for name, line in zip(script.names, script.lines):
            print("%s  (%s)" % (line.rstrip("\n"), name))
        return 0
    status = 0
    for name, data in (("stdin", script.input()), ("stdout", script.output())):
        path = "%s/%s" % (folder, name)
        if "--check" in sys.argv[1:]:
            with open(path, "rb") as file:
                if file.read() != data:
                    print("%s is not what %s makes: run it with no argument" % (path, sys.argv[0]))
                    status = 1
        else:
            with open(path, "wb") as file:
                file.write(data)
    print("%d calls, %d bytes" % (len(script.names), len(script.input())))
    return status
