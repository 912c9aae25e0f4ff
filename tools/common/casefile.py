"""Case files as bytes: put together from nodes and accesses, and taken apart.

Nothing is judged here: a case may be one that is refused.
"""

from papers import (ASSERT, BYTE, CHECK, FIELDS, NODE, NUMBER, READ, SIZES, WRITE, Access, access_of, field_size,
                    fields_of, numbers_of)

# Pairs (h, l) of node numbers.
ZERO = (0, 1)
ONE = (1, 0)
X = (1, 1)

VALUES = {"0": ZERO, "1": ONE, "X": X}


def bits(text):
    """Pairs from a text of 0, 1 and X, the highest bit first."""
    return [VALUES[letter] for letter in reversed(text)]


def number_bits(value, count):
    """The pairs of a number, the lowest bit first."""
    return [ONE if value >> i & 1 else ZERO for i in range(count)]


def number_bytes(number, size=NUMBER):
    return number.to_bytes(size, "little")


def fields_bytes(access, names):
    """The bytes of some fields of an access."""
    numbers = numbers_of(access)
    return b"".join(number_bytes(number, field_size(name)) for name in names for number in numbers[name])


def first_bytes(access):
    """The bytes of an access before its nodes: its kind, and the fields of a byte."""
    names = [name for name in FIELDS.get(access.kind, ()) if field_size(name) == BYTE]
    return bytes((access.kind,)) + fields_bytes(access, names)


def access_bytes(access):
    """The bytes of an access; one of a kind that is none is written as a check is."""
    return bytes((access.kind,)) + fields_bytes(access, FIELDS.get(access.kind, FIELDS[CHECK]))


def node_bytes(node):
    return b"".join(map(number_bytes, node, NODE))


class CaseFile:
    """The contents of a case file."""

    def __init__(self, n=1, w=1):
        self.n = n
        self.w = w
        self.nodes = []
        self.accesses = []
        self._numbers = {}

    def node(self, variable, low, high):
        """The number of the node with these words; it is added where it is new."""
        if low == high:
            return low
        words = (variable, low, high)
        if words not in self._numbers:
            self.add_node(*words)
        return self._numbers[words]

    def add_node(self, variable, low, high):
        """Add a node with these words, whatever they are; its number."""
        self.nodes.append((variable, low, high))
        number = len(self.nodes) + 1
        self._numbers.setdefault((variable, low, high), number)
        return number

    def variable(self, v):
        """The node that holds where variable v is 1."""
        return self.node(v, 0, 1)

    def complement(self, number):
        """The node that holds where the given one does not, nodes added as needed."""
        if number < 2:
            return 1 - number
        variable, low, high = self.nodes[number - 2]
        return self.node(variable, self.complement(low), self.complement(high))

    def pair(self, number):
        """The pair that is 1 where the node holds, else 0."""
        return (number, self.complement(number))

    def bit(self, v):
        """The pair of variable v."""
        return self.pair(self.variable(v))

    def parity(self, variables):
        """The nodes that hold where an odd and an even number of the variables are 1."""
        odd, even = 0, 1
        for v in sorted(variables, reverse=True):
            odd, even = self.node(v, odd, even), self.node(v, even, odd)
        return odd, even

    def fill(self, count, lowest=9):
        """Add nodes over the variables `lowest` to `lowest` + 3 until there are `count`."""
        numbers = [0, 1]
        for v in range(lowest + 3, lowest - 1, -1):
            below = list(numbers)
            for low in below:
                for high in below:
                    if len(self.nodes) >= count:
                        return
                    if low != high:
                        numbers.append(self.node(v, low, high))

    def write(self, enable, address, data):
        self.accesses.append(Access(WRITE, list(enable), list(address), list(data)))

    def read(self, enable, address, port=0):
        self.accesses.append(Access(READ, list(enable), list(address), [], port))

    def assert_(self, b, address, data):
        self.accesses.append(Access(ASSERT, [b], list(address), list(data)))

    def check(self, b, address, data):
        self.accesses.append(Access(CHECK, [b], list(address), list(data)))

    def header_bytes(self, nodes=None, accesses=None):
        """Everything before the accesses; counts that are given stand in place of the right ones."""
        return (bytes(getattr(self, size) for size in SIZES)
                + number_bytes(len(self.nodes) if nodes is None else nodes) + b"".join(map(node_bytes, self.nodes))
                + number_bytes(len(self.accesses) if accesses is None else accesses))

    def access_bytes(self):
        return b"".join(map(access_bytes, self.accesses))

    def bytes(self):
        return self.header_bytes() + self.access_bytes()


class NotACaseFile(Exception):
    """The bytes are not the sections and accesses of a case file."""


class Bytes:
    """Bytes and a position, with complaints that name the place."""

    def __init__(self, data):
        self.data = data
        self.at = 0

    def number(self, size, what):
        if len(self.data) - self.at < size:
            raise NotACaseFile("the file ends at byte %d, inside %s" % (len(self.data), what))
        self.at += size
        return int.from_bytes(self.data[self.at - size:self.at], "little")


def parse_header(source, case):
    """How many accesses there are; what stands before them is put into the case, the nodes where all can be read."""
    for size in SIZES:
        setattr(case, size, source.number(BYTE, size))
    nodes = []
    for number in range(source.number(NUMBER, "the count of nodes")):
        what = "node %d" % (number + 2)
        nodes.append(tuple(source.number(size, what) for size in NODE))
    count = source.number(NUMBER, "the count of accesses")
    for node in nodes:
        case.add_node(*node)
    return count


def parse_access(source, case):
    """The next access of a case, added to it."""
    number = len(case.accesses)
    what = "access %d" % number
    kind = source.number(BYTE, what)
    if kind not in FIELDS:
        raise NotACaseFile("byte %d: access %d has the unknown kind %d"
                           % (source.at - 1, number, kind))
    fields = fields_of(kind, case.n, case.w)
    case.accesses.append(access_of(kind, {
        field.name: [source.number(field.size, what) for _ in range(field.count)] for field in fields}))


def parse(data):
    """The contents of a well-formed case file; NotACaseFile otherwise."""
    case, wrong = parse_start(data)
    if wrong:
        raise wrong
    return case


def parse_start(data):
    """The contents of a case file as far as whole accesses can be read, and the NotACaseFile that says why there are
    no more, or None."""
    source = Bytes(data)
    case = CaseFile()
    try:
        for _ in range(parse_header(source, case)):
            parse_access(source, case)
        if source.at != len(data):
            raise NotACaseFile("%d bytes after the last access" % (len(data) - source.at))
    except NotACaseFile as wrong:
        return case, wrong
    return case, None
