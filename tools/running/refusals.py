"""Refusals in words: the row of the table, and where in the case the reason stands, as far as it can be told."""

import os
import re
from bisect import bisect_left

from common.diagrams import FALSE
from language.words import counted
from papers import ENABLED, ENTRY_LIMIT, NODE_LIMIT, PORTS, READ, TEXT_BYTES, USER_VARIABLE
from second.tables import is_standard

ROOT = os.path.dirname(os.path.dirname(os.path.dirname(os.path.abspath(__file__))))
HEADER = os.path.join(ROOT, "include", "mangerday.h")
ROW = re.compile(r'ROW\(MD_ROW_\w+, ([0-9]+), "([^"]+)"\)')


def read_rows():
    """The table of refusals, which the header has: a sentence for each number."""
    with open(HEADER, encoding="ascii") as file:
        return {int(number): sentence for number, sentence in ROW.findall(file.read())}


ROWS = read_rows()

# The rows by which a call may refuse an access of a case that got so far; the others are of the whole file.
OF_CALLS = 5, 6, 7, 8, 9, 14


def sentence(row):
    return "refused by row %d: %s" % (row, ROWS.get(row, "no row of the table"))


def fields(access):
    """The name of each field of an access, bit by bit, with the nodes that it names."""
    yield ("enable" if access.kind in ENABLED else "b"), tuple(access.control)
    for what, pairs in (("address", access.address), ("data", access.data)):
        for bit, pair in enumerate(pairs):
            yield "%s bit %d" % (what, bit), pair


def file_lines(row, data, place):
    """More lines on a refusal of a file's bytes; its accepted accesses end at a place."""
    if row == 10:
        yield "it has %s" % counted(len(data), "byte")
    elif row == 11 and place < len(data):
        yield "byte %d, counted from 0, is %d; 1 is a write, 2 a read, 3 an assert, 4 a check" % (place, data[place])
    elif row == 12:
        yield "the last access ends after %d of %d bytes" % (place, len(data))


class Reasons:
    """What is known of a refused case: its contents; the nodes that there were, from node 0 up, and whether they are
    all; how many nodes and entries, and bytes of the text, there may be, None where that is not known; names."""

    def __init__(self, case, nodes, all_nodes, capacities, text, readable):
        self.case, self.nodes, self.all_nodes, self.capacities = case, nodes, all_nodes, capacities
        self.text = text
        self.diagrams, self.names = readable.diagrams, readable.names
        self.conditions = self.diagrams.load(nodes[2:]) if is_standard(nodes[2:]) else []

    def lines(self, row, access):
        """More lines on a refusal, which may be none; `access` is the refused one, None where none is."""
        find = {1: self.of_shape, 2: self.of_nodes, 8: self.of_entries, 9: self.of_room}
        find_in_access = {5: self.of_names, 6: self.of_pairs, 7: self.of_address, 14: self.of_port}
        if row == 13:
            return [self.of_text(access)]
        if row in find:
            return list(find[row]())
        return list(find_in_access[row](access)) if row in find_in_access and access else []

    def of_shape(self):
        yield "n is %d and w is %d" % (self.case.n, self.case.w)

    def of_nodes(self):
        nodes = self.case.nodes
        if not is_standard(nodes):
            count = bisect_left(range(len(nodes) + 1), True, key=lambda many: not is_standard(nodes[:many]))
            yield "node %d, (%d %d %d), is the first that is not: %s" % (
                count + 1, *nodes[count - 1], why_not_standard(nodes[:count]))
        elif self.capacities and len(nodes) + 2 > self.capacities[0]:
            yield "with 0 and 1 there are %d nodes, and there is room for %d" % (len(nodes) + 2, self.capacities[0])
            yield more("--nodes", self.capacities[0], NODE_LIMIT)

    def of_entries(self):
        if self.capacities:
            yield "the list has room for %s" % counted(self.capacities[1], "entry", "entries")
            yield more("--entries", self.capacities[1], ENTRY_LIMIT)

    def of_room(self):
        if self.capacities:
            yield "there is room for %s" % counted(self.capacities[0], "node")
            yield more("--nodes", self.capacities[0], NODE_LIMIT)
        if any("[" in name for name in self.names.variables.values()):
            yield "vectors that are compared may need fewer nodes where their bits alternate (`a[4:0] = 8 step 2`)"

    def of_text(self, access):
        """What to do where the text has no room; `access` is None where its last line alone has none."""
        if self.text is None:
            words = "the text of the program has no room: give more by --text, which needs the archive"
        else:
            words = "the text has room for %s%s; give more by --text" % (
                counted(self.text, "byte"), ", as in `memcase`" if self.text == TEXT_BYTES else "")
        return words + (", or make the read a check, which prints one condition" if access and access.kind == READ
                        else "")

    def of_names(self, access):
        for name, nodes in fields(access):
            for node in nodes:
                if node >= len(self.nodes):
                    yield "%s names node %d, and %s" % (name, node, self.known_nodes())
                    return
                if self.nodes[node][0] < USER_VARIABLE:
                    yield "%s names node %d, which is on variable %d" % (name, node, self.nodes[node][0])
                    return

    def known_nodes(self):
        if self.all_nodes:
            return "there are nodes 0 to %d" % (len(self.nodes) - 1)
        return "the file has nodes 0 to %d; which nodes accesses have made is not known without the archive" % (
            len(self.nodes) - 1)

    def condition(self, node):
        """The condition of a node, None where it is not known."""
        return self.conditions[node] if node < len(self.conditions) else None

    def of_pairs(self, access):
        for name, nodes in fields(access):
            halves = [self.condition(node) for node in nodes]
            if len(halves) == 2 and None not in halves:
                neither = self.diagrams.not_(self.diagrams.or_(*halves))
                if neither != FALSE:
                    yield "%s is neither 1 nor 0 %s" % (name, self.under(neither))
                    return

    def of_address(self, access):
        b = self.condition(access.control[0])
        for name, nodes in list(fields(access))[1:1 + self.case.n]:
            halves = [self.condition(node) for node in nodes]
            if b is not None and None not in halves:
                unknown = self.diagrams.and_(b, self.diagrams.and_(*halves))
                if unknown != FALSE:
                    yield "%s is X, and b holds, %s" % (name, self.under(unknown))
                    return

    def of_port(self, access):
        yield "the port is %d, and ports are 0 to %d" % (access.port, PORTS - 1)

    def under(self, f):
        values = self.diagrams.assignment(f)
        return "under " + self.names.assignment(values) if values else "under every assignment"


def more(option, now, most):
    """What to do where there is no room."""
    if now >= most:
        return "that is the most that there may be: a case with fewer accesses or fewer variables needs less"
    return "give more by %s, at most %d" % (option, most)


def why_not_standard(nodes):
    """Why the last of some nodes is not in standard form, where those before it are."""
    variable, low, high = nodes[-1]
    number = len(nodes) + 1
    if variable > 63:
        return "variables are 0 to 63"
    if max(low, high) >= number:
        return "a child is not a node before it"
    if low == high:
        return "its children are the same node"
    if nodes[-1] in nodes[:-1]:
        return "node %d has the same words" % (nodes.index(nodes[-1]) + 2)
    return "a child is not on a later variable"
