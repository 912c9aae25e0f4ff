"""Random memories, calls on them, and damage to both, from seeds."""

from collections import namedtuple

import rooms  # noqa: F401
from common.randomcases import Random
from papers import (ASSERT, CHECK, EVALUATE, FRESH, ITE, PORTS, PORT_WORDS, READ, TERMINALS, USER_VARIABLE, VARIABLE,
                    WRITE, Record, entry_size, halves, held_places, node_capacity)
from second.calls import Call, run, tables_of
from second.tables import TooManyVariables, is_standard

EDGES = 7, 8, 9, 15, 16, 17, 63, 64, 65, 4096, 4097, 16383, 16384, 16385
LARGE = (1 << 32) - 1, (1 << 32) - 2, 1 << 31, (1 << 31) - 1, 1 << 30, 1 << 16, 0x55555556
ONE, ZERO, X = [1, 0], [0, 1], [1, 1]

State = namedtuple("State", "record nodes list ports")
Shape = namedtuple("Shape", "n w variables")

# A call, the memory that it is lent, and what it answers and leaves.
Step = namedtuple("Step", "call state left")


class Words(Random):
    """Random words, small ones and those at the edges of a range more often."""

    def word(self):
        way = self.below(10)
        if way < 5:
            return self.below(5)
        if way == 5:
            return self.below(70)
        if way < 8:
            return self.choice(EDGES if way == 6 else LARGE)
        return self.below(1 << 32)

    def words(self, many):
        return [self.word() for _ in range(many)]

    def record(self):
        return Record(*self.words(6))

    def ports(self):
        return self.words(PORTS * PORT_WORDS)


# Memories.

def shape(rng):
    """Small memories more often than large ones."""
    n = rng.between(1, 3 if rng.chance(70) else 8)
    w = rng.between(1, 3 if rng.chance(70) else 16)
    return Shape(n, w, user_variables(rng, 3 if n > 5 else 6))


def user_variables(rng, most):
    many = rng.between(1, most)
    if rng.chance(50):
        return list(range(8, 8 + many))
    return sorted({rng.between(8, 63) for _ in range(many)})


def store(rng, variables, most):
    """Nodes in standard form, up to so many, on these variables."""
    nodes, seen = list(TERMINALS), set()
    for _ in range(2 * most):
        if len(nodes) >= most:
            break
        variable = rng.choice(variables)
        node = variable, child(rng, nodes, variable), child(rng, nodes, variable)
        if node[1] != node[2] and node not in seen:
            seen.add(node)
            nodes.append(node)
    return nodes


def child(rng, nodes, variable):
    """A node on a later variable."""
    for _ in range(8):
        node = rng.below(len(nodes))
        if nodes[node][0] > variable:
            return node
    return rng.below(2)


def memory(rng, size, nodes, entries, more_nodes, more_list):
    """A memory with these nodes, whose entries, conditions and held words are any user nodes."""
    users = [i for i, node in enumerate(nodes) if node[0] >= USER_VARIABLE]
    listed = [rng.choice(users) for _ in range(entries * entry_size(size.n, size.w))]
    conditions = [1, 1] if rng.chance(50) else [rng.choice(users), rng.choice(users)]
    return State(Record(size.n, size.w, len(nodes), entries, *conditions), halves(nodes) + rng.words(more_nodes),
                 listed + rng.words(more_list), held_ports(rng, size.w, users))


def held_ports(rng, w, users):
    """Port words whose held words are any of these nodes."""
    ports = rng.ports()
    for port in range(PORTS):
        ports[held_places(port, w)] = [rng.choice(users) for _ in range(2 * w)]
    return ports


def unbegun(rng, size):
    """Any words, for a Fresh of this shape: few or many nodes, and a list of few entries."""
    nodes = rng.words(rng.between(6, 120) if rng.chance(50) else rng.between(100, 900))
    listed = rng.words(rng.below(8) * entry_size(size.n, size.w) + rng.below(4))
    return State(rng.record(), nodes, listed, rng.ports())


def no_memory(rng):
    """Any words: a memory only by luck."""
    nodes, listed = rng.words(rng.below(40)), rng.words(rng.below(40))
    record = rng.record()
    if rng.chance(50):
        record = record._replace(n=rng.between(0, 9), w=rng.between(0, 17))
    if rng.chance(50) and len(nodes) >= 6:
        nodes[:6] = halves(TERMINALS)
        record = record._replace(nodes=rng.between(1, 4))
    return State(record, nodes, listed, rng.ports())


def standard(state):
    """The nodes of a memory, or the terminals alone where they are in no standard form."""
    count = state.record.nodes
    if 2 <= count <= node_capacity(len(state.nodes)):
        nodes = [tuple(state.nodes[i:i + 3]) for i in range(0, 3 * count, 3)]
        if nodes[:2] == TERMINALS and is_standard(nodes[2:]):
            return nodes
    return list(TERMINALS)


# Calls.

class Pool:
    """Nodes of a memory that an access may name, each with its truth table."""

    def __init__(self, rng, state):
        self.rng = rng
        nodes = standard(state)
        users = [i for i, node in enumerate(nodes) if node[0] >= USER_VARIABLE]
        chosen = sorted({0, 1, *users[-16:], *(rng.choice(users) for _ in range(30))})
        try:
            conditions = tables_of(nodes, chosen, 0, node_capacity(len(state.nodes) + 6))
            self.true = conditions.true
            self.tables = {x: conditions.tables[x] for x in chosen}
        except TooManyVariables:
            self.true, self.tables = 1, {0: 0, 1: 1}
        self.nodes = sorted(self.tables)

    def node(self):
        return self.rng.choice(self.nodes)

    def pair(self, apart=0):
        """A legal pair that is X nowhere in the table `apart`."""
        rng = self.rng
        if rng.chance(35):
            return X if not apart and rng.chance(40) else rng.choice([ONE, ZERO])
        h = self.node()
        table = self.tables[h]
        others = [l for l in self.nodes if table | self.tables[l] == self.true and not apart & table & self.tables[l]]
        if not others:
            return rng.choice([ONE, ZERO])
        pair = [h, rng.choice(others)]
        return pair[::-1] if rng.chance(50) else pair

    def pairs(self, many, apart=0):
        return halves(self.pair(apart) for _ in range(min(many, 40)))

    def enable(self):
        way = self.rng.below(100)
        return list(ONE if way < 45 else ZERO if way < 60 else self.pair())


def call(rng, state, variables):
    """A call on a memory, such as it accepts most often."""
    way = rng.below(100)
    if way < 14:
        return Call(VARIABLE, other=(rng.choice(variables),))
    if way < 42:
        pool = Pool(rng, state)
        f, g, h = pool.node(), pool.node(), pool.node()
        return Call(ITE, other=rng.choice([(f, 0, 1), (f, g, 0), (f, g, h), (f, g, h)]))
    if way < 48:
        return Call(EVALUATE, other=(rng.below(len(standard(state))), rng.next()))
    return access(rng, state)


def access(rng, state):
    pool = Pool(rng, state)
    n, w = state.record[:2]
    kind = rng.choice([WRITE, READ, ASSERT, CHECK])
    if kind == WRITE:
        return Call(kind, pool.enable(), pool.pairs(n), pool.pairs(w))
    if kind == READ:
        return Call(kind, pool.enable(), pool.pairs(n), rng.words(2 * min(w, 40)), port=rng.below(PORTS))
    b = 1 if rng.chance(30) else pool.node()
    return Call(kind, [b], pool.pairs(n, pool.tables[b] if kind == ASSERT else 0), pool.pairs(w))


def any_call(rng, state):
    """A call with any words, in slices of any length."""
    def words(many):
        return rng.words(2 * min(many, 20) if rng.chance(80) else rng.below(40))

    n, w = state.record[:2]
    kind = rng.between(1, 8)
    if kind == FRESH:
        return Call(kind, other=(rng.word(), rng.word()))
    if kind == EVALUATE:
        return Call(kind, other=(rng.word(), rng.next()))
    if kind == VARIABLE:
        return Call(kind, other=(rng.word(),))
    if kind == ITE:
        return Call(kind, other=tuple(rng.words(3)))
    return Call(kind, words(1) if kind in (WRITE, READ) else [rng.word()], words(n), words(w), port=any_port(rng))


def any_port(rng):
    return rng.below(PORTS) if rng.chance(60) else rng.choice([PORTS, PORTS + 1, rng.word()])


# Calls one after another.

def after(left):
    """The memory that a call leaves."""
    return State(left.record, left.nodes, left.list, left.ports)


def chain(rng):
    """The steps from a Fresh on, a quarter of the calls damaged."""
    size = shape(rng)
    state, one = unbegun(rng, size), Call(FRESH, other=(size.n, size.w))
    for _ in range(rng.between(6, 21)):
        left = run(one, *state)
        yield Step(one, state, left)
        state = after(left)
        one = call(rng, state, size.variables)
        if rng.chance(25):
            one = damage_call(rng, one, state)


# Damage.

def damage(rng, one, state):
    """A call and a memory with one or two things changed."""
    for _ in range(rng.between(1, 2)):
        if rng.chance(55):
            one = damage_call(rng, one, state)
        else:
            state = damage_state(rng, state)
    return one, state


def near(rng, word):
    return rng.choice([(word + 1) % (1 << 32), (word - 1) % (1 << 32), rng.word(), rng.word()])


def changed(rng, words, below):
    words = list(words)
    if below:
        place = rng.below(below)
        words[place] = rng.choice([words[place] ^ 1 << rng.below(32), words[rng.below(below)], near(rng, words[place]),
                                   near(rng, words[place])])
    return words


def resized(rng, words, length):
    return list(words[:length]) + rng.words(length - len(words))


def damage_state(rng, state):
    record, nodes, listed, ports = state
    way = rng.below(10)
    if way < 2:
        place = rng.below(6)
        record = Record(*record[:place], near(rng, record[place]), *record[place + 1:])
    elif way == 2:
        nodes = changed(rng, nodes, 3 * min(record.nodes, len(nodes) // 3))
    elif way == 3:
        nodes = changed(rng, nodes, len(nodes))
    elif way == 4:
        listed = changed(rng, listed, len(listed))
    elif way == 5:  # little room, or none, for new nodes
        nodes = resized(rng, nodes, 3 * min(record.nodes, 20000) + rng.below(9))
    elif way == 6:
        nodes = resized(rng, nodes, rng.below(len(nodes) + 8))
    elif way == 7:  # no room for an entry
        size = entry_size(min(record.n, 20), min(record.w, 20))
        listed = resized(rng, listed, min(record.entries, 5000) * size + rng.below(size))
    elif way == 8:
        listed = resized(rng, listed, rng.below(len(listed) + 8))
    else:
        ports = damage_ports(rng, ports, min(record.w, 16), state)
    return State(record, nodes, listed, ports)


def damage_ports(rng, ports, w, state):
    """A word changed, most often of a held word."""
    ports = list(ports)
    inside = rng.below(2 * w) if w and rng.chance(80) else rng.below(PORT_WORDS)
    ports[PORT_WORDS * rng.below(PORTS) + inside] = other_node(rng, state)
    return ports


def other_node(rng, state):
    """A node below the count, one on an index variable, one at or past the count, or any word."""
    nodes = standard(state)
    way = rng.below(4)
    if way < 2:
        return rng.below(len(nodes))
    index = [i for i, node in enumerate(nodes) if node[0] < USER_VARIABLE]
    if way == 2 and index:
        return rng.choice(index)
    return rng.choice([len(nodes), len(nodes) + 1, (1 << 32) - 1, (0x55555556 + len(nodes)) % (1 << 32)])


def damage_call(rng, one, state):
    if one.other:
        values = list(one.other)
        place = 0 if one.kind == EVALUATE else rng.below(len(values))
        values[place] = rng.word() if one.kind == VARIABLE else other_node(rng, state)
        return one._replace(other=tuple(values))
    if one.kind in (ASSERT, CHECK) and rng.chance(20):
        return one._replace(control=[other_node(rng, state)])
    if one.kind == ASSERT and rng.chance(30) and one.address:  # an X address bit
        bit = rng.below((len(one.address) + 1) // 2)
        return one._replace(address=one.address[:2 * bit] + X + one.address[2 * bit + 2:])
    if one.kind == READ and rng.chance(20):
        return one._replace(port=any_port(rng))
    field = rng.choice(["control", "address", "data"] if one.kind in (WRITE, READ) else ["address", "data"])
    return one._replace(**{field: damage_slice(rng, list(getattr(one, field)), state)})


def damage_slice(rng, words, state):
    """A word or a pair changed, or another length."""
    if words and rng.chance(30):
        at = rng.below((len(words) + 1) // 2) * 2
        node = 0 if rng.chance(30) else other_node(rng, state)
        return words[:at] + [node] * len(words[at:at + 2]) + words[at + 2:]
    if words and rng.chance(70):
        words[rng.below(len(words))] = other_node(rng, state)
        return words
    length = max(0, len(words) + rng.choice([1, -1])) if rng.chance(70) else rng.below(40)
    return resized(rng, words, length)
