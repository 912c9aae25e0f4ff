"""The memory over truth tables, and the calls on any words: what each answers and leaves.

A call is given its record, node words, list and port words as they are, whatever stands in
them, and answers a `Left`: the number of the row that refuses it or 0, its out-word (None where
it has none to write; of a formula three, a `Told`), and all that it leaves, the buffers that it
does not change among them.  Each access is built in the paper's order, no step left out, so that
nodes are numbered and counted as the paper counts them and refusal 9 comes where it must.  Names
are the paper's (01).
"""

from collections import namedtuple

from papers import (ASSERT, ENABLED, EVALUATE, FORMULAS, FRESH, IDLE, ITE, PORTS, PORT_WORDS, READ, TERMINALS, TEXT,
                    USER_VARIABLE, VARIABLE, VARIABLES, WITNESS, WRITE, Record, entry_size, halves, held_places,
                    in_range, list_capacity, node_capacity, pairs)
from second.formulas import LAST_NUMBER, Fault, in_order, read
from second.tables import Conditions, Refused, is_standard

Entry = namedtuple("Entry", "h s address data")

# A call's arguments: `control` is the enable's words, or b alone; `other` is what is no slice
# in the calls that are no accesses: n and w; a node and an assignment; a variable; f, g and h; the
# node of a text or of a witness.  `port` is a read's, `text` and `table` are a formula's bytes and its
# table of predicates.  The `data` of a text is its buffer, byte by byte.
Call = namedtuple("Call", "kind control address data other port text table", defaults=((), (), (), (), 0, b"", ()))

# What a call answers and leaves; `data` are the words of a read's or a formula's answer, the bytes of a text's
# buffer, or the data as lent.
Left = namedtuple("Left", "number out record nodes list data ports")

# What a formula tells: how many predicates it lists, how many accesses were made, and the place of a fault in the
# text; None where it is not told.
Told = namedtuple("Told", "listed made place")


class Memory:
    """The accesses over tables, each step in the paper's order."""

    def __init__(self, n, w, conditions, list_words):
        self.n = n
        self.w = w
        self.conditions = conditions
        self.entry_capacity = list_capacity(n, w, list_words)
        self.entries = []
        self.ports = [[(conditions.true, conditions.true)] * w] * PORTS
        self.assert_condition = conditions.true
        self.check_condition = conditions.true

    def record(self):
        numbers = self.conditions.numbers
        return Record(self.n, self.w, self.conditions.count(), len(self.entries),
                      numbers[self.assert_condition], numbers[self.check_condition])

    def build_entry(self, control, address, data):
        """What Write appends: h and s are built."""
        c = self.conditions
        hard = c.and_(control[0], c.not_(control[1]))
        unique = c.true
        for h, l in address:
            unique = c.and_(unique, c.not_(c.and_(h, l)))
        entry_h = c.and_(hard, unique)
        entry_s = c.or_(c.and_(*control), c.and_(hard, c.not_(unique)))
        return Entry(entry_h, entry_s, address, data)

    def entry_words(self, first):
        """The list words of the entries from `first` on."""
        numbers = self.conditions.numbers
        return [numbers[x] for e in self.entries[first:] for x in [e.h, e.s] + halves(e.address) + halves(e.data)]

    def need_space(self):
        if len(self.entries) >= self.entry_capacity:
            raise Refused(8)

    def narrow(self, inside, address):
        c = self.conditions
        for i, (h, l) in enumerate(address):
            inside = c.and_(inside, c.ite(c.index(i), h, l))
        return inside

    def look(self, address):
        c = self.conditions
        inside = self.narrow(c.true, address)
        word = [c.true] * (2 * self.w)
        for entry in self.entries:
            match = self.narrow(inside, entry.address)
            hard = c.and_(match, entry.h)
            soft = c.and_(match, entry.s)
            word = [c.ite(hard, e, c.ite(soft, c.or_(e, r), r)) for e, r in zip(halves(entry.data), word)]
        return pairs([c.any(c.and_(inside, r)) for r in word])

    def inside(self, words, others):
        """Where each bit of `words` admits nothing that the bit of `others` does not."""
        c = self.conditions
        result = c.true
        for pair, other in zip(words, others):
            for half, bound in zip(pair, other):
                result = c.and_(result, c.or_(c.not_(half), bound))
        return result

    def write(self, control, address, data):
        """The place of the entry, for which space is needed once it is built; or `idle`, and nothing is
        built, where the enable is 0 under every assignment."""
        if control[0] == 0:
            return "idle"
        entry = self.build_entry(control, address, data)
        self.need_space()
        self.entries.append(entry)
        return len(self.entries) - 1

    def read(self, control, address, port):
        """The look, the port's word or the union of both, as the enable says; it becomes the port's."""
        c = self.conditions
        word, held = halves(self.look(address)), halves(self.ports[port])
        unknown = c.and_(*control)
        self.ports[port] = pairs([c.ite(c.ite(unknown, r, control[0]), r, p) for r, p in zip(word, held)])
        return self.ports[port]

    def check(self, b, address, data):
        c = self.conditions
        word = self.look(address)
        holds = self.inside(word, data)
        self.check_condition = c.and_(self.check_condition, c.or_(c.not_(b), holds))

    def assert_(self, b, address, data):
        c = self.conditions
        word = self.look(address)
        within = self.inside(data, word)
        self.assert_condition = c.and_(self.assert_condition, c.or_(c.not_(b), within))
        holds = self.inside(word, data)
        if c.or_(c.not_(b), c.and_(within, holds)) == c.true:
            return "kept"
        self.need_space()
        self.entries.append(self.build_entry((b, c.not_(b)), address, data))
        return "entered"


def row_5(nodes, words):
    """An access's or Ite's node not below the count, or on an index variable."""
    return any(word >= len(nodes) or nodes[word][0] < USER_VARIABLE for word in set(words))


def entry_words(record, entries):
    """The list words of the entries."""
    return entries[:record.entries * entry_size(record.n, record.w)]


def test_list(record, nodes, entries):
    """Row 3, but for held words."""
    if record.entries > list_capacity(record.n, record.w, len(entries)):
        raise Refused(3)
    if row_5(nodes, entry_words(record, entries) + [record.assert_condition, record.check_condition]):
        raise Refused(3)


def store_nodes(record, words):
    """Row 2, and the store's nodes, three words each."""
    count = record.nodes
    if len(words) < 6 or not 2 <= count <= node_capacity(len(words)):
        raise Refused(2)
    nodes = [tuple(words[i:i + 3]) for i in range(0, 3 * count, 3)]
    if nodes[:2] != TERMINALS or not is_standard(nodes[2:]):
        raise Refused(2)
    return nodes


def supports(nodes):
    """The variables that each node turns on, bit v for variable v."""
    found = [0, 0]
    for variable, low, high in nodes[2:]:
        found.append(1 << variable | found[low] | found[high])
    return found


def tables_of(nodes, roots, index_bits, capacity):
    """Tables over the index variables and those that some nodes turn on, and the store's nodes in them."""
    used = (1 << index_bits) - 1
    reached = supports(nodes)
    for root in roots:
        used |= reached[root]
    conditions = Conditions([v for v in range(VARIABLES) if used >> v & 1], capacity)
    conditions.load(nodes[2:])
    return conditions


def value(nodes, node, assignment):
    """A node's value under one assignment: the one row of every node's table."""
    row = [0, 1]
    for variable, low, high in nodes[2:]:
        row.append(row[high] if assignment >> variable & 1 else row[low])
    return row[node]


class Access:
    """An access on a memory that rows 1 and 2 let pass: the rows after them, and what it leaves."""

    def __init__(self, call, record, nodes, node_words, entries, ports):
        self.call, self.record, self.nodes = call, record, nodes
        self.entries, self.ports = list(entries), list(ports)
        self.capacity = node_capacity(node_words)
        self.enabled = call.kind in ENABLED
        self.given = [] if call.kind == READ else call.data
        self.test()
        roots = [*self.arguments(), *set(self.used_entries()), record.assert_condition, record.check_condition]
        if call.kind == READ:
            roots += self.held(call.port)
        self.conditions = tables_of(nodes, roots, record.n, self.capacity)

    def arguments(self):
        return [*self.call.control, *self.call.address, *self.given]

    def used_entries(self):
        return entry_words(self.record, self.entries)

    def held(self, port):
        """A port's held word, as its node numbers."""
        return self.ports[held_places(port, self.record.w)]

    def test(self):
        """Rows 3, 4, 14 and 5."""
        n, w = self.record[:2]
        call = self.call
        test_list(self.record, self.nodes, self.entries)
        if call.kind == READ and any(row_5(self.nodes, self.held(port)) for port in range(PORTS)):
            raise Refused(3)
        if len(call.address) != 2 * n or len(call.data) != 2 * w or self.enabled and len(call.control) != 2:
            raise Refused(4)
        test_port(call.kind, call.port)
        if row_5(self.nodes, self.arguments()):
            raise Refused(5)

    def memory(self):
        """The memory with the entries as they stand in the list, and with the port of a read; a write
        reads no entry."""
        record, tables = self.record, self.conditions.tables
        memory = Memory(record.n, record.w, self.conditions, len(self.entries))
        if self.call.kind == WRITE:
            memory.entries = [None] * record.entries
        else:
            memory.entries = [self.entry(place) for place in range(record.entries)]
        if self.call.kind == READ:
            memory.ports[self.call.port] = pairs([tables[x] for x in self.held(self.call.port)])
        memory.assert_condition = tables[record.assert_condition]
        memory.check_condition = tables[record.check_condition]
        return memory

    def entry(self, place):
        n, w = self.record[:2]
        size = entry_size(n, w)
        h, s, *words = [self.conditions.tables[x] for x in self.entries[place * size:(place + 1) * size]]
        return Entry(h, s, pairs(words[:2 * n]), pairs(words[2 * n:]))

    def run(self):
        """Rows 6 to 9 and the access itself: out-word, record, new node words, list, data and ports."""
        memory, tables, call = self.memory(), self.conditions.tables, self.call
        control = tuple(tables[x] for x in call.control)
        address = pairs([tables[x] for x in call.address])
        given = pairs([tables[x] for x in self.given])
        test_pairs(self.conditions, call.kind, control, address, given)
        answer = do_access(memory, call.kind, control, address, given, call.port)
        out = out_word(call.kind, answer)
        numbers = self.conditions.numbers
        data = list(call.data)
        if call.kind == READ:
            data = [numbers[x] for x in halves(answer)]
            self.ports[held_places(call.port, self.record.w)] = [numbers[x] for x in halves(memory.ports[call.port])]
        new = memory.entry_words(self.record.entries)
        start = len(self.used_entries())
        self.entries[start:start + len(new)] = new
        return out, memory.record(), self.conditions.words(self.record.nodes), self.entries, data, self.ports


def out_word(kind, answer):
    """The out-word of an access, None where it has none."""
    if kind == WRITE:
        return IDLE if answer == "idle" else answer
    return int(answer == "entered") if kind == ASSERT else None


def test_port(kind, port):
    """Row 14."""
    if kind == READ and port >= PORTS:
        raise Refused(14)


def test_pairs(conditions, kind, control, address, data):
    """Rows 6 and 7."""
    asked = address + data + ([control] if kind in ENABLED else [])
    if any(h | l != conditions.true for h, l in asked):
        raise Refused(6)
    if kind == ASSERT and any(control[0] & h & l for h, l in address):
        raise Refused(7)


def do_access(memory, kind, control, address, data, port):
    """Rows 9 and 8, and the access itself; its answer."""
    if kind == WRITE:
        return memory.write(control, address, data)
    if kind == READ:
        return memory.read(control, address, port)
    if kind == ASSERT:
        return memory.assert_(control[0], address, data)
    return memory.check(control[0], address, data)


def need_node(record, node):
    """Row 5 of a call that asks of a node and builds none."""
    if node >= record.nodes:
        raise Refused(5)


def node_call(call, record, nodes, node_words):
    """Evaluate, variable or Ite: out-word, record and new node words."""
    if call.kind == EVALUATE:
        node, assignment = call.other
        need_node(record, node)
        return value(nodes, node, assignment), record, []
    capacity = node_capacity(node_words)
    if call.kind == VARIABLE:
        variable, = call.other
        if not USER_VARIABLE <= variable < VARIABLES:
            raise Refused(5)
        conditions = Conditions([variable], capacity)
        conditions.load(nodes[2:])
        made = conditions.make(variable, 0, conditions.true)
    else:
        if row_5(nodes, call.other):
            raise Refused(5)
        conditions = tables_of(nodes, call.other, 0, capacity)
        made = conditions.ite(*[conditions.tables[x] for x in call.other])
    return conditions.numbers[made], record._replace(nodes=conditions.count()), conditions.words(record.nodes)


def first_assignment(conditions, table):
    """The assignment in which every variable is 0 that can be where the table holds, the lowest variable first; 0
    where the table holds nowhere."""
    found = 0
    for variable, mask in zip(conditions.variables, conditions.masks):
        if table & ~mask:
            table &= ~mask
        elif table:
            found |= 1 << variable
    return found


def put_text(conditions, table, room):
    """Row 13, and the bytes of a condition's text."""
    if conditions.text_length(table) > len(room):
        raise Refused(13)
    written = list(conditions.text(table).encode("ascii"))
    return len(written), written + list(room[len(written):])


def question(call, record, nodes, capacity):
    """Text or witness of a node, on an index variable too: out-word and data."""
    node, = call.other
    need_node(record, node)
    conditions = tables_of(nodes, [node], 0, capacity)
    table = conditions.tables[node]
    if call.kind == WITNESS:
        return first_assignment(conditions, table), list(call.data)
    return put_text(conditions, table, call.data)


# Written formulas.

def predicate_size(record):
    return 2 * record.n + 2 * record.w


def is_right(record, nodes, table, letter, number):
    """Whether a formula may name this predicate (`m`) or node (`b`)."""
    if letter == "b":
        return not row_5(nodes, [number])
    return number < len(table) // predicate_size(record) and number <= LAST_NUMBER


def test_answer(listed, answer):
    """Row 13: three words for each."""
    if 3 * listed > len(answer):
        raise Refused(13)


def arrow_conditions(reading, nodes, capacity):
    """The condition of each arrow, as its node, with what stands around it, and the conditions that are then there."""
    conditions = tables_of(nodes, [arrow.node for arrow in reading.arrows], 0, capacity)
    found = []
    for arrow in reading.arrows:
        outer = conditions.true if arrow.around is None else found[arrow.around]
        found.append(conditions.and_(outer, conditions.tables[arrow.node]))
    return [conditions.numbers[table] for table in found], conditions


def triples(reading, built):
    """The answer's triples: step, condition, predicate."""
    return [(one.step, 1 if one.arrow is None else built[one.arrow], one.predicate) for one in in_order(reading.named)]


def predicate_access(kind, record, table, condition, predicate):
    """The access by a predicate of the table."""
    size = predicate_size(record)
    words = list(table[predicate * size:(predicate + 1) * size])
    return Call(FORMULAS[kind], [condition], words[:2 * record.n], words[2 * record.n:])


def make_accesses(call, listed, left):
    """Accesses one after the other, up to the first that is refused: what is left, and how many were made."""
    made = 0
    for _, condition, predicate in listed:
        one = predicate_access(call.kind, left.record, call.table, condition, predicate)
        left = run(one, left.record, left.nodes, left.list, left.ports)
        if left.number:
            break
        made += 1
    return left, made


def formula(call, record, nodes, words, entries, ports):
    """What a formula leaves that is read and whose conditions are built."""
    test_list(record, nodes, entries)
    reading = read(call.text, lambda letter, number: is_right(record, nodes, call.table, letter, number))
    test_answer(len(reading.named), call.data)
    built, conditions = arrow_conditions(reading, nodes, node_capacity(len(words)))
    listed = triples(reading, built)
    answer = halves(listed)
    new = conditions.words(record.nodes)
    start = 3 * record.nodes
    left = Left(0, None, record._replace(nodes=conditions.count()), words[:start] + new + words[start + len(new):],
                entries, [], ports)
    left, made = make_accesses(call, listed, left)
    return left._replace(out=Told(len(listed), made, None), data=answer + list(call.data[len(answer):]))


def fresh(call, node_words):
    n, w = call.other
    if not in_range(n, w):
        raise Refused(1)
    if node_words < 6:
        raise Refused(2)
    return Record(n, w, 2, 0, 1, 1)


def refused_out(call, refused):
    """The out-word of a refused call: a formula tells the place of a fault."""
    if call.kind not in FORMULAS:
        return None
    return Told(None, None, refused.place if isinstance(refused, Fault) else None)


def accepted(call, record, words, entries, ports):
    """What a call leaves that no row refuses; of a formula, no row but those of its accesses."""
    data = list(call.data)
    if call.kind == FRESH:
        after = fresh(call, len(words))
        return Left(0, None, after, halves(TERMINALS) + words[6:], entries, data, [1] * (PORTS * PORT_WORDS))
    if not in_range(record.n, record.w):
        raise Refused(1)
    nodes = store_nodes(record, words)
    if call.kind in FORMULAS:
        return formula(call, record, nodes, words, entries, ports)
    if call.kind in (TEXT, WITNESS):
        out, data = question(call, record, nodes, node_capacity(len(words)))
        return Left(0, out, record, words, entries, data, ports)
    if call.kind in (EVALUATE, VARIABLE, ITE):
        out, after, new = node_call(call, record, nodes, len(words))
    else:
        out, after, new, entries, data, ports = Access(call, record, nodes, len(words), entries, ports).run()
    start = 3 * record.nodes
    return Left(0, out, after, words[:start] + new + words[start + len(new):], entries, data, ports)


def run(call, record, words, entries, ports):
    """What a call answers and leaves.  Raises TooManyVariables where tables do not do."""
    words, entries, ports = list(words), list(entries), list(ports)
    try:
        return accepted(call, record, words, entries, ports)
    except Refused as refused:
        if refused.number in (8, 9):
            start, end = 3 * record.nodes, 3 * node_capacity(len(words))
            words[start:end] = [0] * (end - start)
        data = [0] * len(call.data) if (call.kind, refused.number) == (TEXT, 13) else list(call.data)
        return Left(refused.number, refused_out(call, refused), record, words, entries, data, ports)
