"""What a case file must print, found with truth tables and no decision diagrams.

A node is the truth table of its condition over the variables in use: the index
variables 0 to n-1 and every variable that a node of the file names.  Reduced
ordered diagrams are canonical, so two nodes are the same exactly where their
tables are, and Make makes a new node exactly where its table was not yet seen.
Each access is built in the paper's order, no step left out, so that nodes are
numbered and counted as the paper counts them and refusal 9 comes where it must.
The number in the last line is counted from the accesses (entrycount.py) and not from the list.
Names in this file are the paper's (01).
"""

from collections import namedtuple

from papers import (ASSERT, BYTE, FIELDS, INPUT_BYTES, LIST_WORDS, NODE, NODE_WORDS, NUMBER, READ, SIZES, TERMINALS,
                    TEXT_BYTES, USER_VARIABLE, WRITE, access_of, fields_of, in_range, node_capacity)
from second.calls import Memory, do_access, test_pairs, test_port
from second.entrycount import entry_count
from second.tables import Conditions, Refused, Searches, is_standard

# An access with tables in place of node numbers.  `control` is the enable's pair
# or the condition b; `answer` is a read's list of pairs, a write's place or the word
# `idle`, an assert's word `entered` or `kept`, and None for a check.
Event = namedtuple("Event", "kind port control address data answer")

# `text` is None in a refused case; `refusal` and `after` are None in an accepted one.
# `lines` are those written, also before a refusal.
Outcome = namedtuple("Outcome", "text lines refusal after record events conditions check_table memory")


class Reader:
    """The bytes of a case file and a position in them."""

    def __init__(self, data):
        self.data = data
        self.at = 0

    def need(self, count):
        """Refuse where fewer than `count` bytes are left."""
        if len(self.data) - self.at < count:
            raise Refused(10)

    def number(self, size=NUMBER):
        self.need(size)
        self.at += size
        return int.from_bytes(self.data[self.at - size:self.at], "little")

    def at_end(self):
        return self.at == len(self.data)


def read_nodes(reader):
    count = reader.number()
    reader.need(sum(NODE) * count)
    return [tuple(map(reader.number, NODE)) for _ in range(count)]


def load_nodes(n, nodes, node_words):
    """Row 2 and the tables of the file's nodes."""
    capacity = node_capacity(node_words)
    if node_words < 6 or len(nodes) + 2 > capacity or not is_standard(nodes):
        raise Refused(2)
    variables = set(range(n)) | {variable for variable, _, _ in nodes}
    conditions = Conditions(variables, capacity)
    conditions.load(nodes)
    return conditions


def read_access(reader, n, w):
    """Rows 11 and 10, and the next access."""
    kind = reader.number(BYTE)
    if kind not in FIELDS:
        raise Refused(11)
    fields = fields_of(kind, n, w)
    reader.need(sum(field.count * field.size for field in fields))
    return access_of(kind, {field.name: [reader.number(field.size) for _ in range(field.count)] for field in fields})


def as_tables(conditions, access):
    """Rows 14, 5, 6 and 7; control, address and data with tables in place of node numbers."""
    test_port(access.kind, access.port)

    def table(number):
        if number >= conditions.count():
            raise Refused(5)
        found = conditions.tables[number]
        if conditions.variable(found) < USER_VARIABLE:
            raise Refused(5)
        return found

    control = tuple(table(number) for number in access.control)
    address = [(table(h), table(l)) for h, l in access.address]
    data = [(table(h), table(l)) for h, l in access.data]
    test_pairs(conditions, access.kind, control, address, data)
    return control, address, data


def line_parts(memory, kind, answer):
    """An access's line as a list of strings and tables."""
    if kind == WRITE:
        return ["write %s" % answer]
    if kind == READ:
        parts = ["read"]
        for h, l in reversed(answer):
            parts += [" ", h, ":", l]
        return parts
    if kind == ASSERT:
        return ["assert %s " % answer, memory.assert_condition]
    return ["check ", memory.check_condition]


class Text:
    """The lines printed so far, in a buffer of `room` bytes."""

    def __init__(self, room, lines):
        self.room = room
        self.lines = lines

    def put(self, conditions, parts):
        """Append a line whole, or refuse; a long text is measured before it is written."""
        length = 1 + sum(len(part) if isinstance(part, str) else conditions.text_length(part)
                         for part in parts)
        if length > self.room:
            raise Refused(13)
        self.room -= length
        self.lines.append("".join(part if isinstance(part, str) else conditions.text(part)
                                  for part in parts) + "\n")


class Case:
    """One run of a case file; what is known of it so far."""

    def __init__(self):
        self.events = []
        self.lines = []
        self.memory = None

    def run(self, data, node_words, list_words, text_bytes):
        """The text of an accepted case; Refused otherwise."""
        reader = Reader(data)
        reader.need(len(SIZES))
        n, w = (reader.number(BYTE) for _ in SIZES)
        if not in_range(n, w):
            raise Refused(1)
        conditions = load_nodes(n, read_nodes(reader), node_words)
        self.memory = Memory(n, w, conditions, list_words)
        text = Text(text_bytes, self.lines)
        for _ in range(reader.number()):
            self.access(reader, text)
        if not reader.at_end():
            raise Refused(12)
        text.put(conditions, ["end %d" % entry_count(n, w, conditions.true, self.events)])
        return "".join(self.lines)

    def access(self, reader, text):
        """Read, do and print one access."""
        memory = self.memory
        access = read_access(reader, memory.n, memory.w)
        kind, port = access.kind, access.port
        control, address, data = as_tables(memory.conditions, access)
        answer = do_access(memory, kind, control, address, data, port)
        text.put(memory.conditions, line_parts(memory, kind, answer))
        self.events.append(Event(kind, port, control, address, data, answer))

    def outcome(self, text, refusal):
        memory = self.memory
        accepted = refusal is None
        return Outcome(
            text=text,
            lines=self.lines,
            refusal=refusal,
            after=None if accepted else len(self.events),
            record=memory.record() if accepted else None,
            events=self.events,
            conditions=memory.conditions if memory else None,
            check_table=memory.check_condition if accepted else None,
            memory=memory if accepted else None)


def run_case(data, node_words=NODE_WORDS, list_words=LIST_WORDS, text_bytes=TEXT_BYTES):
    """The outcome of a case file with lent buffers of these lengths.

    Raises TooManyVariables where tables do not do.
    """
    case = Case()
    try:
        return case.outcome(case.run(data, node_words, list_words, text_bytes), None)
    except Refused as refused:
        return case.outcome(None, refused.number)


CaseLeft = namedtuple("CaseLeft", "number count record nodes list text")


def left_of(outcome, record, node_words, list_words, text_bytes):
    """What the library's call on a case leaves of a record and of words and bytes as they were."""
    if outcome.refusal is not None:
        return CaseLeft(outcome.refusal, outcome.after, record, [0] * len(node_words), [0] * len(list_words),
                        bytes(len(text_bytes)))
    nodes = [x for node in TERMINALS for x in node] + outcome.conditions.words(2)
    entries = outcome.memory.entry_words(0)
    text = outcome.text.encode("ascii")
    return CaseLeft(0, len(text), outcome.record, nodes + node_words[len(nodes):],
                    entries + list_words[len(entries):], text + text_bytes[len(text):])


def printed(outcome):
    """What is printed of a case."""
    if outcome.text is not None:
        return outcome.text
    return refused_line(outcome.refusal, outcome.after)


def refused_line(number, after):
    return "refused %d after %d\n" % (number, after)


def memcase(data):
    """What the program `memcase` prints for these bytes on its standard input."""
    return printed(run_case(data[:INPUT_BYTES]))


def node_searches(outcome):
    """The node searches of a case: all, and those past g and h.  Before there are nodes there are none."""
    return outcome.conditions.searches() if outcome.conditions else (Searches(0, 0), Searches(0, 0))


def searches_of(data):
    """The node searches of `memcase` on these bytes: all, and those past g and h."""
    return node_searches(run_case(data[:INPUT_BYTES]))


def searches_text(outcome):
    lines = ["searches %d compared %d" % (found.number, found.compared) for found in node_searches(outcome)]
    return "%s\npast g and h: %s\n" % tuple(lines)
