"""How many entries a list of accepted accesses makes, counted from the accesses with truth tables.

A write counts one where its enable may be 1 under some assignment, an assert one where its data differs
from the look under some assignment with b; nothing else counts.  The look is the paper's (01, source
document 000), location by location: a cell starts all X; each write before it, in order, replaces the
word of a cell that it certainly hits, and joins its data to the word of one that it may hit; the words
of all cells that the address admits are joined.  An assert is a write too, whose enable is b.

No list and no answer is asked: idle writes and kept asserts are stored as the others are, and change
no cell.  Tables are plain numbers here, and no node is made.
"""

from papers import ASSERT, WRITE, halves


def admitted(where, address):
    """The locations that an address admits inside the table `where`, each with the table of where it does."""
    found = [(0, where)] if where else []
    for i, (h, l) in enumerate(address):
        found = [(location | value << i, inside) for location, table in found
                 for value, half in ((0, l), (1, h)) if (inside := table & half)]
    return found


class Cells:
    """The word of each location after some accesses, as the tables of its halves."""

    def __init__(self, n, w, true):
        self.true = true
        self.words = [[true] * (2 * w)] * (1 << n)
        self.waiting = []

    def add(self, access):
        """One more write or assert; it is stored when a look asks for it."""
        self.waiting.append(access)

    def enable(self, access):
        return access.control if access.kind == WRITE else (access.control[0], self.true & ~access.control[0])

    def store(self, access):
        h, l = self.enable(access)
        certain = h & ~l
        for bit in access.address:
            certain &= ~(bit[0] & bit[1])
        data = halves(access.data)
        for location, hit in admitted(h, access.address):
            lasting = ~(hit & certain)
            self.words[location] = [old & lasting | new & hit for old, new in zip(self.words[location], data)]

    def look(self, where, address):
        """The halves of the look at an address inside the table `where`, and 0 elsewhere."""
        for access in self.waiting:
            self.store(access)
        self.waiting = []
        found = [0] * len(self.words[0])
        for location, inside in admitted(where, address):
            found = [joined | half & inside for joined, half in zip(found, self.words[location])]
        return found


def write_counts(access):
    return access.control[0] != 0


def assert_counts(cells, access):
    b, = access.control
    return any((half & b) != found for half, found in zip(halves(access.data), cells.look(b, access.address)))


def entry_count(n, w, true, accesses):
    """The entries of these accesses, which have tables in place of nodes; `true` is the table of node 1."""
    cells = Cells(n, w, true)
    count = 0
    for access in accesses:
        if access.kind == WRITE:
            count += write_counts(access)
        elif access.kind == ASSERT:
            count += assert_counts(cells, access)
        else:
            continue
        cells.add(access)
    return count
