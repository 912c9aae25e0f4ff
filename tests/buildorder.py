"""The order of building, operation by operation: what each access builds, as the sentences of 01 and 02 say it, and
the lines of the table of calls that pins it (crates/model/specs/Orders.antt).

Ite makes just the parts of its answer that are not there, low before high and the answer last, whatever it was
given; so what an access makes is told by the answers of its operations, one after the other, and no store is needed.
`made_by_calls` finds the same with the second program's calls, and the tests hold both to each other.
"""

import os
import re
from collections import namedtuple

from rooms import ROOT
from papers import (ASSERT, CHECK, PORTS, PORT_WORDS, READ, TERMINALS, USER_VARIABLE, WRITE, Record, entry_size, halves,
                    held_places, pairs)
from second.calls import Call, run
from second.tables import Conditions

TABLE = os.path.join(ROOT, "crates", "model", "specs", "Orders.antt")

# Truth tables over these variables.
SPACE = Conditions([0, 1, 2, 8, 9, 10], 1 << 30)
TRUE = SPACE.true

# A call and its memory: the nodes from 2 up, three words each, the words of the entries, the record's conditions,
# and the word that the port of a read holds.
Line = namedtuple("Line", "name kind n w nodes entries asserted checked control address data port held",
                  defaults=(0, ()))

# A condition, and the operation that gave it, None of one that was there.
Given = namedtuple("Given", "table by")


def ite(f, g, h):
    return f & g | ~f & h & TRUE


def parts_of(table, found={}):  # noqa: B006
    """The nodes of a table, low before high and itself last."""
    parts = found.get(table)
    if parts is None:
        if table in (0, TRUE):
            parts = ()
        else:
            _, low, high = SPACE.parts(table)
            parts = tuple(dict.fromkeys(parts_of(low) + parts_of(high) + (table,)))
        found[table] = parts
    return parts


def any_answers(table):
    """The answers of the operations of Any, its own last."""
    variable, low, high = SPACE.parts(table)
    if variable >= USER_VARIABLE:
        return (table,)
    first, second = any_answers(low), any_answers(high)
    return first + second + (first[-1] | second[-1],)


class Operation:
    """An operation of an access: its place in the sentences, what it is, its arguments, and the conditions whose nodes
    it makes, its own answer last.  Not, And, Or and Ite have the three of Ite, Any one, an index variable none."""

    def __init__(self, site, kind, number, arguments, answers):
        self.site, self.kind, self.number, self.arguments, self.answers = site, kind, number, arguments, answers
        self.table = answers[-1]


class Building:
    """The operations of an access, in their order; `needed` are those whose answers it leaves."""

    def __init__(self):
        self.operations = []
        self.needed = []
        self.zero, self.one = Given(0, None), Given(TRUE, None)

    # Operations.

    def put(self, site, kind, arguments, answers):
        operation = Operation(site, kind, len(self.operations), arguments, answers)
        self.operations.append(operation)
        return Given(operation.table, operation.number)

    def ite(self, site, f, g, h, kind="Ite"):
        return self.put(site, kind, (f, g, h), (ite(f.table, g.table, h.table),))

    def not_(self, site, f):
        return self.ite(site, f, self.zero, self.one, "Not")

    def and_(self, site, f, g):
        return self.ite(site, f, g, self.zero, "And")

    def or_(self, site, f, g):
        return self.ite(site, f, self.one, g, "Or")

    def any(self, site, f):
        return self.put(site, "Any", (f,), any_answers(f.table))

    def index(self, site, i):
        return self.put(site, "index", (), (SPACE.masks[i],))

    # Loops.

    def bits(self, _loop, many):
        return range(many)

    def halves(self, _loop, many):
        return range(2 * many)

    def all_of(self, _loop, site, start, terms):
        """And of a start and of each term in its turn."""
        for term in terms:
            start = self.and_(site, start, term())
        return start

    # Accesses.

    def marks(self, who, control, address):
        """A write's h and s."""
        hard = self.hard(who, *control)
        u = self.all_of(who + "unique", who + "u", self.one, [
            lambda pair=address[i]: self.apart(who, *pair) for i in self.bits(who + "unique", len(address))])
        h = self.and_(who + "h", hard, u)
        return h, self.soft(who, control, hard, u, h)

    def hard(self, who, h, l):
        return self.and_(who + "hard", h, self.not_(who + "Not c.l", l))

    def apart(self, who, h, l):
        return self.not_(who + "Not And(a.h,a.l)", self.and_(who + "And(a.h,a.l)", h, l))

    def soft(self, who, control, hard, u, _h):
        both = self.and_(who + "And(c.h,c.l)", *control)
        other = self.and_(who + "And(hard, Not u)", hard, self.not_(who + "Not u", u))
        return self.or_(who + "s", both, other)

    def narrow(self, who, inside, address):
        return self.all_of(who, who, inside, [
            lambda i=i: self.chosen(who, i, *address[i]) for i in self.bits(who, len(address))])

    def chosen(self, who, i, h, l):
        return self.ite(who + ": Ite(index, h, l)", self.index(who + ": index", i), h, l)

    def look(self, address, entries, w):
        inside = self.narrow("in", self.one, address)
        word = [self.one] * (2 * w)
        for h, s, entry_address, data in entries:
            word = self.entry(inside, h, s, entry_address, data, word)
        for k in self.halves("settle", w):
            word[k] = self.settle(inside, word[k])
        return word

    def entry(self, inside, h, s, address, data, word):
        m = self.narrow("m", inside, address)
        hm = self.and_("hm", m, h)
        sm = self.and_("sm", m, s)
        word = list(word)
        for k in self.halves("merge", len(word) // 2):
            word[k] = self.merge(hm, sm, data[k], word[k])
        return word

    def merge(self, hm, sm, e, r):
        return self.ite("Ite(hm, e, ..)", hm, e, self.ite("Ite(sm, .., r)", sm, self.or_("Or(e,r)", e, r), r))

    def settle(self, inside, r):
        return self.any("Any", self.and_("And(in,r)", inside, r))

    def write(self, control, address):
        self.needed += self.marks("write: ", control, address)

    def read(self, control, address, entries, held, w):
        word = self.look(address, entries, w)
        unknown = self.and_("read: S", *control)
        for k in self.halves("hold", w):
            word[k] = self.hold(unknown, control, word[k], held[k])
        self.needed += word

    def hold(self, unknown, control, r, p):
        return self.ite("read: Ite(t, r, p)", self.ite("read: t", unknown, r, control[0]), r, p)

    def inside(self, who, words, others):
        return self.all_of(who, who, self.one, [
            lambda k=k: self.within(who, words[k], others[k]) for k in self.halves(who, len(words) // 2)])

    def within(self, who, x, y):
        return self.or_(who + ": Or(Not, .)", self.not_(who + ": Not", x), y)

    def check(self, b, address, data, entries, w, condition):
        word = self.look(address, entries, w)
        holds = self.inside("check: C", word, data)
        self.check_condition(b, holds, condition)

    def check_condition(self, b, holds, condition):
        under = self.or_("check: Or(Not b, C)", self.not_("check: Not b", b), holds)
        self.needed.append(self.and_("check: condition", condition, under))

    def assert_(self, b, address, data, entries, w, condition):
        word = self.look(address, entries, w)
        within = self.inside("assert: A", data, word)
        not_b = self.not_("assert: Not b", b)
        under = self.or_("assert: Or(Not b, A)", not_b, within)
        self.needed.append(self.and_("assert: condition", condition, under))
        kept = self.keep(b, not_b, under, within, word, data)
        if kept.table != TRUE:
            self.enter(b, not_b, address)

    def keep(self, _b, not_b, _under, within, word, data):
        holds = self.inside("assert: C", word, data)
        kept = self.or_("assert: keep", not_b, self.and_("assert: And(A,C)", within, holds))
        self.needed.append(kept)
        return kept

    def enter(self, b, not_b, address):
        self.needed += self.marks("assert's write: ", (b, not_b), address)


def tables_of(nodes):
    """The table of each node."""
    found = [0, TRUE]
    for variable, low, high in nodes:
        found.append(SPACE.join(variable, found[low], found[high]))
    return found


def built(line, building=None):
    """The operations of a line's call."""
    building = building or Building()
    tables = tables_of(line.nodes)

    def given(words):
        return [Given(tables[word], None) for word in words]

    size = entry_size(line.n, line.w)
    entries = []
    for place in range(0, len(line.entries), size):
        words = given(line.entries[place:place + size])
        entries.append((words[0], words[1], pairs(words[2:2 + 2 * line.n]), words[2 + 2 * line.n:]))
    control, address, data = given(line.control), pairs(given(line.address)), given(line.data)
    condition, = given([line.asserted if line.kind == ASSERT else line.checked])
    if line.kind == WRITE:
        building.write(control, address)
    elif line.kind == READ:
        building.read(control, address, entries, given(line.held), line.w)
    elif line.kind == CHECK:
        building.check(control[0], address, data, entries, line.w, condition)
    else:
        building.assert_(control[0], address, data, entries, line.w, condition)
    return building


def made(there, answers):
    """The conditions that become nodes, in their order, where nodes of these are made one after the other."""
    seen, found = set(there), []
    for answer in answers:
        for part in parts_of(answer):
            if part not in seen:
                seen.add(part)
                found.append(part)
    return tuple(found)


# The same by the second program's calls.

def state_of(line, more, entries=None):
    """Record, node words with room for so many nodes more, list with these words and ports."""
    count = 2 + len(line.nodes)
    record = Record(line.n, line.w, count, len(line.entries) // entry_size(line.n, line.w), line.asserted, line.checked)
    words = halves(TERMINALS) + halves(line.nodes) + [7] * (3 * more)
    ports = [1] * (PORTS * PORT_WORDS)
    ports[held_places(line.port, line.w)] = line.held if line.kind == READ else [1] * (2 * line.w)
    return record, words, list(line.entries) if entries is None else list(entries), ports


def call_of(line):
    data = [0] * (2 * line.w) if line.kind == READ else list(line.data)
    return Call(line.kind, list(line.control), list(line.address), data, port=line.port)


def left_by_calls(line, more=400, entries=None):
    """What the second program's call leaves of a line's memory."""
    if entries is None:
        entries = list(line.entries) + [5] * entry_size(line.n, line.w)
    return run(call_of(line), *state_of(line, more, entries))


def made_by_calls(line):
    """The words of the nodes that the second program's call makes, None where it is refused."""
    left = left_by_calls(line)
    if left.number:
        return None
    return left.nodes[6 + 3 * len(line.nodes):3 * left.record.nodes]


def words_of(line, tables):
    """The words of nodes with these tables, one after the other behind a line's nodes."""
    numbers = {table: number for number, table in enumerate(tables_of(line.nodes) + list(tables))}
    found = []
    for table in tables:
        variable, low, high = SPACE.parts(table)
        found += [variable, numbers[low], numbers[high]]
    return found


# The table.

# A line as it is written: what its call leaves.
Written = namedtuple("Written", "rec nodes list ports call made after left holds answer")

TOKEN = re.compile(r"∷|\+\+|\[\]|[(){};=]|[^\s(){};]+")


class Reader:
    """The definitions of the table's file that give lines, one read when it is asked for: numbers, lists, records and
    applications."""

    def __init__(self, text):
        lines = [line for line in text.split("\n") if not line.startswith("--")]
        self.bodies = {}
        for block in "\n".join(lines).split("\n\n"):
            head, _, body = block.strip().partition("\n")
            name = re.match(r"(?:abbrev|unfoldable) pub (\S+) :", head)
            if name:
                parameters, _, rest = body.partition("=")
                self.bodies[name[1]] = parameters.split()[1:], TOKEN.findall(rest)
        self.known = {name: (lambda *words, name=name: (name, *words)) for name in (
            "record_of", "write", "read", "assert", "check", "place", "filled")}
        self.known.update(in_port=lambda port, word: (port, word), length=len, replicate=lambda many, word: [word] * many)
        self.constants = {"idle", "kept", "entered", "accepted"}

    def value(self, name, *given):
        parameters, tokens = self.bodies[name]
        assert len(parameters) == len(given), name
        found, rest = self.expression(tokens, dict(zip(parameters, given)))
        assert not rest, rest
        return found

    def expression(self, tokens, given):
        found, tokens = self.application(tokens, given)
        if tokens and tokens[0] in ("∷", "++"):
            sign = tokens[0]
            rest, tokens = self.expression(tokens[1:], given)
            found = [found, *rest] if sign == "∷" else [*found, *rest]
        return found, tokens

    def application(self, tokens, given):
        if tokens[0] == "record":
            return self.record(tokens[2:], given)
        first = tokens[0]
        if first not in self.known and not (first in self.bodies and first not in given):
            return self.atom(tokens, given)
        arguments, tokens = [], tokens[1:]
        while tokens and (tokens[0] in ("(", "[]") or tokens[0][0].isalnum()):
            argument, tokens = self.atom(tokens, given)
            arguments.append(argument)
        return (self.known[first] if first in self.known else lambda *words: self.value(first, *words))(*arguments), tokens

    def atom(self, tokens, given):
        first, rest = tokens[0], tokens[1:]
        if first == "(":
            found, rest = self.expression(rest, given)
            assert rest[0] == ")", rest
            return found, rest[1:]
        if first == "[]":
            return [], rest
        if first.isdigit():
            return int(first), rest
        if first in given:
            return given[first], rest
        return first if first in self.constants else self.value(first), rest

    def record(self, tokens, given):
        fields = {}
        while tokens[0] != "}":
            name = tokens[0]
            assert tokens[1] == "=", tokens
            fields[name], tokens = self.expression(tokens[2:], given)
            if tokens[0] == ";":
                tokens = tokens[1:]
        return Written(**fields), tokens[1:]

    def lines(self):
        """The lines of the table by their names."""
        names = [token for table in ("orders", "over_users") for token in self.bodies[table][1] if token not in ("∷", "[]")]
        return {name: self.value(name) for name in names}


KINDS = {"write": WRITE, "read": READ, "assert": ASSERT, "check": CHECK}


def triples(words):
    return [tuple(words[place:place + 3]) for place in range(0, len(words), 3)]


def line_of(name, written):
    """A line's call and its memory."""
    _, n, w, _, entries, asserted, checked = written.rec
    kind, *words = written.call
    control, address, data = words[-3:]
    port, held = (written.ports[0], written.ports[1]) if kind == "read" else (0, ())
    return Line(name, KINDS[kind], n, w, triples(written.nodes)[2:], written.list[:entries * entry_size(n, w)], asserted,
                checked, control if isinstance(control, list) else [control], address, data, port, held)


def read_table():
    with open(TABLE, encoding="utf-8") as file:
        return Reader(file.read()).lines()


def faults(line, written):
    """Where a written line is not what the second program's call leaves, with just the nodes that it makes and with one
    less."""
    found = []
    more = len(written.made) // 3
    left = left_by_calls(line, more, written.list)
    words = written.nodes + written.made
    if left.number or left.nodes != words:
        found.append("made: %s" % left.nodes[len(written.nodes):])
    if ("record_of", *left.record) != written.after:
        found.append("after: %s" % (left.record,))
    if left.list != written.left:
        found.append("left: %s" % left.list)
    answer = written.answer
    if line.kind == READ:
        given = answer == ("filled", left.data) and written.holds == (line.port, left.data)
    elif line.kind == WRITE:
        given = answer == ("place", left.out)
    else:
        given = answer == ("accepted" if line.kind == CHECK else "entered" if left.out else "kept")
    if not given:
        found.append("answer: %s %s" % (left.out, left.data))
    if left_by_calls(line, more - 1, written.list).number != 9:
        found.append("one node less is enough")
    return ["%s: %s" % (line.name, fault) for fault in found]


def list_text(words):
    return "(%s)" % " ∷ ".join([*map(str, words), "[]"]) if words else "[]"


def text_of(line):
    """A call over the nodes `users` and further ones as the table has it, by what the second program leaves."""
    left = left_by_calls(line)
    size = entry_size(line.n, line.w)
    before = "(record_of %s)" % " ".join(map(str, state_of(line, 0)[0]))
    after = "(record_of %s)" % " ".join(map(str, left.record))
    more = list_text(halves(line.nodes[3:]))
    made, entries = list_text(made_by_calls(line)), list_text(line.entries)
    if line.kind == READ:
        return " ".join(("reads", before, after, more, entries, list_text(line.held), list_text(line.control),
                         list_text(line.address), made, list_text(left.data)))
    control = list_text(line.control) if line.kind == WRITE else str(line.control[0])
    name = next(name for name, kind in KINDS.items() if kind == line.kind)
    call = "(%s)" % " ".join((name, control, list_text(line.address), list_text(line.data)))
    if left.record.entries * size == len(line.entries):
        return " ".join(("stays", before, after, more, entries, call, made, "kept" if line.kind == ASSERT else "accepted"))
    entry = list_text(left.list[len(line.entries):len(line.entries) + size])
    return " ".join(("adds", before, after, more, entries, call, made, entry,
                     "(place %d)" % left.out if line.kind == WRITE else "entered"))
