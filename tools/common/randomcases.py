"""Random case files from seeds, valid and damaged.

The generator of random numbers is written out here, so that a seed gives the same
file with every release of Python.
"""

from common.casefile import CaseFile, ONE, X, ZERO, access_bytes, first_bytes, number_bits, number_bytes
from papers import ASSERT, LIST_WORDS, PORTS, READ, USER_VARIABLE, WRITE, Access, entry_size
from second.reference import run_case
from second.tables import Conditions, TooManyVariables

MASK = (1 << 64) - 1


class Random:
    """Numbers from a seed (the generator known as splitmix64)."""

    def __init__(self, seed):
        self.state = seed & MASK

    def next(self):
        self.state = (self.state + 0x9E3779B97F4A7C15) & MASK
        z = self.state
        z = (z ^ z >> 30) * 0xBF58476D1CE4E5B9 & MASK
        z = (z ^ z >> 27) * 0x94D049BB133111EB & MASK
        return z ^ z >> 31

    def below(self, bound):
        return self.next() % bound

    def between(self, least, most):
        return least + self.below(most - least + 1)

    def chance(self, percent):
        return self.below(100) < percent

    def choice(self, items):
        return items[self.below(len(items))]

    def some(self, items, count):
        """`count` different items, or all where there are fewer."""
        rest = list(items)
        return [rest.pop(self.below(len(rest))) for _ in range(min(count, len(rest)))]


class Builder:
    """A case file that grows by random nodes and accesses."""

    def __init__(self, rng, n, w, users, nodes, index_nodes=0, unknown=25):
        self.rng = rng
        self.case = CaseFile(n, w)
        self.unknown = unknown
        self.users = sorted(rng.some(range(USER_VARIABLE, 64), users))
        for _ in range(nodes):
            number = self.random_node(self.users)
            if rng.chance(70):
                self.case.complement(number)
        for _ in range(index_nodes):
            self.random_node(list(range(8)) + self.users)
        self.find_tables()

    def variable_of(self, number):
        return 64 if number < 2 else self.case.nodes[number - 2][0]

    def random_node(self, variables):
        """A node on one of the variables, often with children below the next one."""
        v = self.rng.choice(variables)
        below = [k for k in range(len(self.case.nodes) + 2) if self.variable_of(k) > v]
        return self.case.node(v, self.rng.choice(below), self.rng.choice(below))

    def find_tables(self):
        """Tables of the file's nodes, for legal pairs, and the nodes that accesses may name."""
        used = {node[0] for node in self.case.nodes} | {0}
        conditions = Conditions(used, len(self.case.nodes) + 2)
        for variable, low, high in self.case.nodes:
            conditions.add(conditions.join(variable, conditions.tables[low],
                                           conditions.tables[high]))
        self.tables = conditions.tables
        self.numbers = conditions.numbers
        self.true = conditions.true
        self.named = [k for k in range(len(self.tables)) if self.variable_of(k) >= USER_VARIABLE]

    def condition(self):
        """A node for b; sometimes one that an earlier access may have made."""
        if self.rng.chance(10):
            return self.rng.below(len(self.tables) + 20)
        return self.rng.choice(self.named + [1, 1, 1])

    def complement(self, number):
        return self.numbers.get(self.true & ~self.tables[number])

    def known_pair(self):
        """A pair that is nowhere X."""
        number = self.rng.choice(self.named)
        other = self.complement(number)
        if other is None or self.rng.chance(50):
            return self.rng.choice([ZERO, ONE])
        return (number, other)

    def unknown_pair(self):
        """A pair that is X under some assignment."""
        number = self.rng.choice(self.named)
        if self.rng.chance(30):
            return X
        if self.rng.chance(15):
            number = self.rng.below(len(self.tables) + 20)
        elif self.rng.chance(40):
            other = self.rng.choice(self.named)
            if self.tables[number] | self.tables[other] == self.true:
                return (number, other)
        return self.rng.choice([(number, 1), (1, number)])

    def pair(self):
        return self.unknown_pair() if self.rng.chance(self.unknown) else self.known_pair()

    def enable(self):
        return ONE if self.rng.chance(60) else self.pair()

    def earlier(self):
        return self.rng.choice(self.case.accesses) if self.case.accesses else None

    def address(self, bit=None):
        """An address, often that of an earlier access."""
        bit = bit or self.pair
        earlier = self.earlier()
        if earlier and self.rng.chance(45):
            return list(earlier.address)
        return [bit() for _ in range(self.case.n)]

    def data(self, bit=None):
        bit = bit or self.pair
        earlier = self.earlier()
        if earlier and earlier.data and self.rng.chance(40):
            return list(earlier.data)
        return [bit() for _ in range(self.case.w)]

    def add_write(self):
        """Some are idle."""
        self.case.write(ZERO if self.rng.chance(15) else self.enable(), self.address(), self.data())

    def add_read(self):
        """Often by a port that was used, under an enable that is not certainly 1."""
        used = [access.port for access in self.case.accesses if access.kind == READ]
        if used and self.rng.chance(60):
            self.case.read(self.rng.choice([ZERO, X, self.pair()]), self.address(), self.rng.choice(used))
        else:
            self.case.read(self.enable(), self.address(), self.rng.below(PORTS))

    def add_held(self):
        """A word at every location, and words that ports hold."""
        for location in range(1 << self.case.n):
            self.case.write(ONE, number_bits(location, self.case.n), self.data())
        for _ in range(self.rng.between(1, 2)):
            self.case.read(ONE, self.address(), self.rng.below(PORTS))

    def add_check(self):
        self.case.check(self.condition(), self.address(), self.data())

    def add_assert(self):
        """Half of them look for b's that leave out the X bits of the address."""
        b = self.condition()
        earlier = self.earlier()
        if earlier and earlier.kind in (WRITE, ASSERT) and self.rng.chance(50):
            self.case.assert_(b, earlier.address, earlier.data)
        elif self.rng.chance(70):
            self.case.assert_(b, [self.known_pair() for _ in range(self.case.n)], self.data())
        else:
            number = self.rng.choice(self.named)
            other = self.complement(number)
            address = [self.known_pair() for _ in range(self.case.n)]
            if other is not None:
                address[self.rng.below(self.case.n)] = (number, 1)
                b = other
            self.case.assert_(b, address, self.data())

    def add_accesses(self, count):
        adders = [self.add_write, self.add_write, self.add_write, self.add_read, self.add_read,
                  self.add_assert, self.add_check]
        for _ in range(count):
            self.rng.choice(adders)()


def without_refusals(case, numbers=(5, 6, 7)):
    """Take out the accesses that these rows refuse."""
    while True:
        outcome = run_case(case.bytes())
        if outcome.refusal not in numbers:
            return case
        del case.accesses[outcome.after]


def made_nodes(case):
    """The nodes that the accesses of an accepted case make and later ones may name."""
    conditions = run_case(case.bytes()).conditions
    return [number for number in range(len(case.nodes) + 2, conditions.count())
            if conditions.variable(conditions.tables[number]) >= USER_VARIABLE]


def show_nodes(case, numbers):
    """Write each of the nodes to location 0 as a pair (node, 1) and read it back: so its text
    is printed, and with it which node has which number."""
    zero = [ZERO] * case.n
    for at in range(0, len(numbers), case.w):
        shown = [(number, 1) for number in numbers[at:at + case.w]]
        case.write(ONE, zero, shown + [X] * (case.w - len(shown)))
        case.read(ONE, zero)


def tiny(rng):
    """Small enough for all plain runs."""
    builder = Builder(rng, rng.between(1, 2), rng.between(1, 2), rng.between(1, 3),
                      rng.between(1, 5), rng.below(2))
    if rng.chance(40):
        builder.add_held()
    builder.add_accesses(rng.between(1, 6))
    return builder.case


def small(rng):
    builder = Builder(rng, rng.between(1, 3), rng.between(1, 3), rng.between(3, 6),
                      rng.between(2, 12), rng.choice([0, 0, 1, 3]))
    if rng.chance(30):
        builder.add_held()
    builder.add_accesses(rng.between(2, 12))
    return builder.case


def wide(rng):
    """More address and data bits, and few accesses."""
    builder = Builder(rng, rng.between(3, 8), rng.between(4, 16), rng.between(2, 4),
                      rng.between(2, 6), rng.below(3), unknown=10)
    builder.add_accesses(rng.between(1, 5))
    return builder.case


def full(rng):
    """So many nodes in the file that an access may meet the last one."""
    builder = Builder(rng, rng.between(1, 2), rng.between(1, 2), 2, 3)
    builder.add_accesses(rng.between(2, 6))
    builder.case.fill(5461 - 2 - rng.below(30), lowest=57)
    return builder.case


def wordy(rng):
    """Long texts, some longer than the buffer."""
    case = CaseFile(1, rng.between(1, 3))
    odd, even = case.parity(range(8, 8 + rng.between(8, 12)))
    bit = rng.choice([(odd, even), (even, odd), (odd, 1)])
    address = rng.choice([ZERO, ONE])
    case.write(ONE, [rng.choice([address, address, X])], [bit] * case.w)
    for _ in range(rng.between(1, 8)):
        case.read(rng.choice([ONE, ONE, (odd, even)]), [rng.choice([address, address, X])])
        if rng.chance(30):
            case.check(rng.choice([1, odd]), [address], [ONE] * case.w)
    return case


def long_list(rng):
    """As many writes as the list holds, and one more or fewer, with idle ones between them.  The last
    may be idle, or need a node, for which there may be no room."""
    n, w = rng.between(6, 8), rng.between(13, 16)
    case = CaseFile(n, w)

    def add_write(enable, location):
        case.write(enable, number_bits(location, n), [rng.choice([ZERO, ONE]) for _ in range(w)])

    entries = LIST_WORDS // entry_size(n, w) + rng.choice([-1, 0, 1, 1])
    for number in range(entries - 1):
        add_write(ONE, number)
        if rng.chance(2):
            add_write(ZERO, number)
    add_write(rng.choice([ONE, ZERO, (1, case.variable(8))]), 0)
    if rng.chance(50):
        case.fill(5461 - 2 - rng.below(2), lowest=57)
    if rng.chance(30):
        case.read(ONE, [ZERO] * n)
    return case


def valid(rng):
    """A random case that is mostly accepted."""
    draw = rng.below(1000)
    if draw < 230:
        case = tiny(rng)
    elif draw < 820:
        case = small(rng)
    elif draw < 880:
        case = wide(rng)
    elif draw < 930:
        case = wordy(rng)
    elif draw < 980:
        return full(rng)
    else:
        return long_list(rng)
    if rng.chance(90):
        case = without_refusals(case)
        if rng.chance(30):
            show_nodes(case, rng.some(made_nodes(case), 6))
    return case


# Damage.  Each takes the case and gives the bytes of a damaged one.

def cut(rng, case):
    data = case.bytes()
    return data[:rng.below(len(data) + 1)]


def changed_bytes(rng, case):
    data = bytearray(case.bytes())
    for _ in range(rng.between(1, 3)):
        at = rng.below(len(data))
        data[at] = rng.choice([rng.below(256), data[at] ^ 1 << rng.below(8), rng.below(5)])
    return bytes(data)


def extended(rng, case):
    return case.bytes() + bytes(rng.below(256) for _ in range(rng.between(1, 5)))


def access_place(case, number):
    """Where an access begins in the bytes of its case."""
    return len(case.header_bytes()) + sum(len(access_bytes(access)) for access in case.accesses[:number])


def wrong_kind(rng, case):
    if not case.accesses:
        return cut(rng, case)
    at = rng.below(len(case.accesses))
    kind = rng.choice([0, 5, 6, 128, 255, rng.between(1, 4)])
    place = access_place(case, at)
    data = bytearray(case.bytes())
    data[place] = kind
    # Often the file ends at the kind or in its access.
    end = rng.choice([len(data), len(data), place + 1, place + 1 + rng.below(8)])
    return bytes(data[:end])


def wrong_port(rng, case):
    """A read of a port that is not there, or of another that is; sometimes with a wrong node, or cut."""
    enable = rng.choice([ONE, X, (0, 0), (rng.below(len(case.nodes) + 10), 1)])
    port = rng.choice([PORTS, PORTS + 1, 255, rng.below(256), rng.below(PORTS)])
    at = rng.below(len(case.accesses) + 1)
    case.accesses.insert(at, Access(READ, list(enable), [rng.choice([ZERO, ONE, X]) for _ in range(case.n)], [], port))
    data = case.bytes()
    if rng.chance(70):
        return data
    return data[:access_place(case, at) + 1 + rng.below(6)]


def wrong_assert(rng, case):
    """An assert with an X in its address."""
    address = [rng.choice([ZERO, ONE, X]) for _ in range(case.n)]
    address[rng.below(case.n)] = rng.choice([X, X, (rng.below(len(case.nodes) + 2), 1)])
    b = rng.choice([0, 1, rng.below(len(case.nodes) + 2)])
    case.accesses.insert(rng.below(len(case.accesses) + 1),
                         Access(ASSERT, [b], address, [rng.choice([ZERO, X]) for _ in range(case.w)]))
    return case.bytes()


def wrong_idle(rng, case):
    """A write that is idle but for a pair that is neither, or a node that is not there; or an idle one."""
    count = len(case.nodes) + 2
    pairs = [ZERO] + [rng.choice([ZERO, ONE, X]) for _ in range(case.n + case.w)]
    pairs[rng.below(len(pairs))] = rng.choice([ZERO, (0, 0), (0, rng.below(count)), (rng.below(count), 0), (0, 65535)])
    case.accesses.insert(rng.below(len(case.accesses) + 1),
                         Access(WRITE, list(pairs[0]), pairs[1:1 + case.n], pairs[1 + case.n:]))
    return case.bytes()


def wrong_size(rng, case):
    if rng.chance(50):
        case.n = rng.choice([0, 9, 10, 255, rng.between(1, 8)])
    else:
        case.w = rng.choice([0, 17, 255, rng.between(1, 16)])
    data = case.bytes()
    return data if rng.chance(70) else data[:rng.below(8)]


def wrong_node(rng, case):
    """A node that is not in standard form, or one that is after all."""
    if not case.nodes:
        return extended(rng, case)
    at = rng.below(len(case.nodes))
    variable, low, high = case.nodes[at]
    case.nodes[at] = rng.choice([
        (variable, low, low), (variable, high, low), (64, low, high), (255, low, high),
        (rng.below(64), low, high), (variable, at + 2, high), (variable, low, at + 3),
        (variable, low, 65535), case.nodes[rng.below(len(case.nodes))],
        (variable, rng.below(at + 2), high)])
    data = case.bytes()
    return data if rng.chance(80) else data[:rng.below(len(data))]


def wrong_argument(rng, case):
    """One node number of one access replaced."""
    if not case.accesses:
        return cut(rng, case)
    at = rng.below(len(case.accesses))
    access = bytearray(access_bytes(case.accesses[at]))
    start = len(first_bytes(case.accesses[at]))
    place = start + 2 * rng.below((len(access) - start) // 2)
    count = len(case.nodes) + 2
    number = rng.choice([0, 0, 1, count, count - 1, rng.below(count), rng.below(count + 30), 65535])
    access[place:place + 2] = number_bytes(number)
    parts = [access_bytes(other) for other in case.accesses]
    parts[at] = bytes(access)
    return case.header_bytes() + b"".join(parts)


def wrong_count(rng, case):
    """A count of nodes or accesses that is not that of the file."""
    nodes, accesses = len(case.nodes), len(case.accesses)
    wrong = rng.choice([-2, -1, 1, 2, 255, 256])
    if rng.chance(50):
        nodes = max(0, nodes + wrong)
    else:
        accesses = max(0, accesses + wrong)
    return case.header_bytes(nodes, accesses) + case.access_bytes()


def any_bytes(rng, _case):
    size = rng.choice([0, 1, 2, 3, 4, 5, 6, 7, rng.below(40), rng.below(300)])
    top = rng.choice([2, 5, 9, 256])
    return bytes(rng.below(top) for _ in range(size))


DAMAGES = [cut, changed_bytes, changed_bytes, extended, wrong_kind, wrong_size, wrong_node,
           wrong_argument, wrong_argument, wrong_argument, wrong_port, wrong_assert, wrong_idle, wrong_count, any_bytes]


def damaged(rng):
    """The bytes of a damaged case, and the damage's name."""
    case = tiny(rng) if rng.chance(60) else small(rng)
    if rng.chance(80):
        case = without_refusals(case)
    damage = rng.choice(DAMAGES)
    return damage(rng, case), damage.__name__


def has_tables(data):
    """Whether the reference can say what these bytes print."""
    try:
        run_case(data)
    except TooManyVariables:
        return False
    return True


def random_bytes(seed):
    """The bytes of a random case, valid or damaged, and the name of its kind."""
    rng = Random(seed)
    while True:
        if rng.chance(60):
            data, kind = valid(rng).bytes(), "valid"
        else:
            data, kind = damaged(rng)
        if has_tables(data):
            return data, kind
