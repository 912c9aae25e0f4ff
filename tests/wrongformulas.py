"""Wrong readers and wrong calls of formulas, for the self test.

Each is given the right function first, then what that one is given.
"""

import re

import rooms  # noqa: F401
import formulacalls
from papers import ASSERT, CHECK
from second import calls, formulas
from second.calls import Told
from second.formulas import DIGIT, GRAMMAR, Fault, Table
from second.tables import Refused


# Grammars.

def grammar(old, new):
    """The table of the grammar with a line of it changed."""
    assert GRAMMAR.count(old) == 1, old
    changed = Table(GRAMMAR.replace(old, new))

    def wrong(_right):
        return changed
    wrong.__name__ = "`%s`" % " ".join(new.split("\n")[0].split())
    return wrong


WRONG_GRAMMARS = [
    # N over what follows in its conjunction.
    grammar("conjunction = unit | conjunction & spaces unit\nunit        = predicate | N spaces unit |",
            "conjunction = unit | unit & spaces conjunction | N spaces conjunction\nunit        = predicate |"),
    # An arrow that misses the second conjunct.
    grammar("formula     = conjunction | arrow formula",
            "formula     = conjunction | arrow unit | arrow unit & spaces conjunction"),
    # An arrow inside a conjunction without parentheses.
    grammar("conjunction = unit | conjunction & spaces unit",
            "conjunction = unit | unit & spaces formula"),
    # N before an arrow without parentheses.
    grammar("N spaces unit |", "N spaces unit | N spaces arrow unit |"),
    # Spaces nowhere; none before the text; none after a predicate; between - and >.
    grammar("spaces      = | spaces space", "spaces      ="),
    grammar("text        = spaces formula", "text        = formula"),
    grammar("predicate   = m number spaces", "predicate   = m number"),
    grammar("- > spaces", "- spaces > spaces"),
    # Empty parentheses; a conjunction that may be empty after its &; units side by side.
    grammar("( spaces formula ) spaces", "( spaces formula ) spaces | ( spaces ) spaces"),
    grammar("conjunction = unit | conjunction & spaces unit", "conjunction = unit | conjunction & spaces"),
    grammar("conjunction = unit | conjunction & spaces unit",
            "conjunction = unit | conjunction & spaces unit | conjunction unit"),
    # A condition without its arrow.
    grammar("arrow       = b number spaces - > spaces", "arrow       = b number spaces & spaces"),
]


# What stands around a place.

def n_ignored(right, rules, stack, symbol, value):
    return right(rules, stack, symbol, value)._replace(steps=0)


def arrows_counted_as_steps(right, rules, stack, symbol, value):
    entry = right(rules, stack, symbol, value)
    return entry._replace(steps=entry.steps + (symbol == "arrow"))


def uncounted(part):
    def wrong(right, rules, stack, symbol, value):
        entry = right(rules, stack, symbol, value)
        return entry._replace(opened=stack.opened) if symbol == part else entry
    wrong.__name__ = "`%s` uncounted" % part
    return wrong


def nearest_arrow_forgotten(right, rules, stack, symbol, value):
    """A parenthesis hides the arrows around it."""
    entry = right(rules, stack, symbol, value)
    return entry._replace(arrow=None) if symbol == "(" else entry


def limit(many):
    def wrong(_right, stack, letter, place):
        if letter in formulas.OPENING and stack.opened >= many:
            raise Fault(16, place - 1 if letter == ">" else place)
    wrong.__name__ = "limit_%d" % many
    return wrong


def arrow_at_its_end(_right, stack, letter, place):
    if letter in formulas.OPENING and stack.opened >= formulas.OPEN_LIMIT:
        raise Fault(16, place)


def arrow_at_its_node(_right, stack, letter, place):
    if letter in formulas.OPENING and stack.opened >= formulas.OPEN_LIMIT:
        while letter == ">" and stack.symbol != "b":
            stack = stack.below
        raise Fault(16, stack.value if letter == ">" else place)


def arrow_by_its_first_byte(right, stack, letter, place):
    """One too many by its `-` alone, whatever follows."""
    if letter == "-" and stack.opened >= formulas.OPEN_LIMIT:
        raise Fault(16, place)
    right(stack, letter, place)


# Numbers.

def wraps(many):
    def wrong(_right, number, digit):
        return (10 * number + digit) % many
    wrong.__name__ = "wraps_at_%d" % many
    return wrong


def last_digit_alone(_right, _number, digit):
    return digit


def wrong_number_unseen(_right, _stack, _number):
    return None


def wrong_number_at_its_digits(right, stack, right_number):
    try:
        right(stack, right_number)
    except Fault as fault:
        raise Fault(15, fault.place + 1) from None


def judged_before_a_byte_of_the_language(right, at, letter, right_number):
    """A number before a byte with which no text goes on is not judged."""
    wrong_next = letter not in at.table.moves[at.stack.state] and letter not in at.table.finished[at.stack.state]
    if at.stack.symbol == DIGIT and wrong_next:
        return at, None
    return right(at, letter, right_number)


# The whole text.

def changed_text(name, pattern, new):
    def wrong(right, text, right_number):
        return right(re.sub(pattern, new, text), right_number)
    wrong.__name__ = name
    return wrong


def leading_zeros_refused(right, text, right_number):
    found = re.search(rb"[mb]0[0-9]", text)
    if found:
        raise Fault(15, found.start())
    return right(text, right_number)


def trailing_text_ignored(right, text, right_number):
    try:
        return right(text, right_number)
    except Fault as fault:
        if fault.number != 15 or fault.place == len(text):
            raise
        return right(text[:fault.place], right_number)


def fault_at_the_end(right, text, right_number):
    try:
        return right(text, right_number)
    except Fault as fault:
        raise Fault(fault.number, len(text)) from None


def without_limit(right, text, right_number):
    """The text read with no row 16."""
    asked, formulas.test_open = formulas.test_open, lambda *_: None
    try:
        return right(text, right_number)
    finally:
        formulas.test_open = asked


def fault_15_first(right, text, right_number):
    """15 wherever there is one, also after an earlier 16."""
    without_limit(right, text, right_number)
    return right(text, right_number)


def fault_16_first(right, text, right_number):
    """16 before an earlier wrong number."""
    try:
        right(text, lambda *_: True)
    except Fault as fault:
        if fault.number == 16:
            raise
    return right(text, right_number)


# Which numbers are right.

def one_predicate_more(right, record, nodes, table, letter, number):
    return right(record, nodes, [0] * (len(table) + calls.predicate_size(record)), letter, number)


def last_predicate_refused(right, record, nodes, table, letter, number):
    return right(record, nodes, table[:max(0, len(table) - calls.predicate_size(record))], letter, number)


def unfinished_predicate_named(right, record, nodes, table, letter, number):
    return right(record, nodes, [0] * (len(table) + calls.predicate_size(record) - 1), letter, number)


def index_node_taken(right, record, nodes, table, letter, number):
    return number < len(nodes) if letter == "b" else right(record, nodes, table, letter, number)


# The answer and the conditions.

def by_text_alone(_right, named):
    return list(named)


def ties_reversed(_right, named):
    return sorted(named[::-1], key=lambda one: one.step)


def steps_falling(_right, named):
    return sorted(named, key=lambda one: -one.step)


def by_step_then_predicate(_right, named):
    return sorted(named, key=lambda one: (one.step, one.predicate))


def innermost_alone(_right, reading, nodes, capacity):
    conditions = calls.tables_of(nodes, [arrow.node for arrow in reading.arrows], 0, capacity)
    return [arrow.node for arrow in reading.arrows], conditions


def outermost_alone(right, reading, nodes, capacity):
    built, conditions = right(reading, nodes, capacity)
    for place, arrow in enumerate(reading.arrows):
        if arrow.around is not None:
            built[place] = built[arrow.around]
    return built, conditions


def innermost_first(_right, reading, nodes, capacity):
    conditions = calls.tables_of(nodes, [arrow.node for arrow in reading.arrows], 0, capacity)
    built = []
    for place in range(len(reading.arrows)):
        made = conditions.true
        for node in formulas.enclosing(reading, place)[::-1]:
            made = conditions.and_(made, conditions.tables[node])
        built.append(conditions.numbers[made])
    return built, conditions


def in_list_order(_right, reading, nodes, capacity):
    """Built for the predicates in the list's order."""
    conditions = calls.tables_of(nodes, [arrow.node for arrow in reading.arrows], 0, capacity)
    built = [None] * len(reading.arrows)
    for one in calls.in_order(reading.named):
        made, around = conditions.true, []
        place = one.arrow
        while place is not None:
            around.append(place)
            place = reading.arrows[place].around
        for place in around[::-1]:
            made = conditions.and_(made, conditions.tables[reading.arrows[place].node])
            built[place] = conditions.numbers[made]
    return built, conditions


def built_of_or(_right, reading, nodes, capacity):
    """And built as Not of Or of Nots."""
    conditions = calls.tables_of(nodes, [arrow.node for arrow in reading.arrows], 0, capacity)
    found = []
    for arrow in reading.arrows:
        outer = conditions.true if arrow.around is None else found[arrow.around]
        inner = conditions.tables[arrow.node]
        found.append(conditions.not_(conditions.or_(conditions.not_(outer), conditions.not_(inner))))
    return [conditions.numbers[table] for table in found], conditions


# The order of rows.

def row_13_first(right, call, record, nodes, *lent):
    """13 before 15 and 16, by the letters m."""
    calls.test_list(record, nodes, lent[1])
    if 3 * call.text.count(b"m") > len(call.data):
        raise Refused(13)
    return right(call, record, nodes, *lent)


def row_9_before_13(right, call, *lent):
    right(call._replace(data=[0] * (3 * len(call.text))), *lent)
    return right(call, *lent)


def row_15_before_3(right, call, record, nodes, *lent):
    formulas.read(call.text, lambda letter, number: calls.is_right(record, nodes, call.table, letter, number))
    return right(call, record, nodes, *lent)


def one_word_less(_right, listed, answer):
    if 3 * listed > len(answer) + 1:
        raise Refused(13)


def one_word_more(_right, listed, answer):
    if 3 * listed >= len(answer):
        raise Refused(13)


def two_words_each(_right, listed, answer):
    if 2 * listed > len(answer):
        raise Refused(13)


def answer_whole(_right, listed, answer):
    """13 unless the answer slice is just long enough."""
    if 3 * listed != len(answer):
        raise Refused(13)


# The accesses.

def made_undone(right, call, listed, left):
    after, made = right(call, listed, left)
    return (left._replace(number=after.number), made) if after.number else (after, made)


def goes_on(right, call, listed, left):
    """The accesses after a refused one are made too."""
    made, number = 0, 0
    for one in listed:
        left, more = right(call, [one], left)
        made, number = made + more, number or left.number
    return left._replace(number=number), made


def refused_one_counted(right, call, listed, left):
    after, made = right(call, listed, left)
    return after, made + (after.number != 0)


def one_less_made(right, call, listed, left):
    after, made = right(call, listed, left)
    return after, made - 1 if after.number and made else made


def refusal_lost(right, call, listed, left):
    after, made = right(call, listed, left)
    return after._replace(number=0), made


def all_or_none(right, call, listed, left):
    """No access is made where one would be refused."""
    after, made = right(call, listed, left)
    return (left._replace(number=after.number), 0) if after.number else (after, made)


def conditions_ignored(right, kind, record, table, _condition, predicate):
    return right(kind, record, table, 1, predicate)


def next_predicate(right, kind, record, table, condition, predicate):
    return right(kind, record, table, condition, (predicate + 1) % (len(table) // calls.predicate_size(record)))


def data_first(right, kind, record, table, condition, predicate):
    one = right(kind, record, table, condition, predicate)
    words = [*one.address, *one.data]
    return one._replace(data=words[:2 * record.w], address=words[2 * record.w:])


def other_access(right, kind, record, table, condition, predicate):
    one = right(kind, record, table, condition, predicate)
    return one._replace(kind=ASSERT if one.kind == CHECK else CHECK)


# The whole call.

def is_own(left):
    return left.number != 0 and left.out.listed is None


def own_9_writes_answer(right, call, *lent):
    left = right(call, *lent)
    return left._replace(data=[0] * len(left.data)) if is_own(left) and left.number == 9 else left


def own_9_clears_nothing(right, call, record, words, *lent):
    left = right(call, record, words, *lent)
    return left._replace(nodes=words) if is_own(left) and left.number == 9 else left


def own_9_keeps_the_count(right, call, record, *lent):
    """The record goes on from the nodes that were made."""
    left = right(call, record, *lent)
    return left._replace(record=record._replace(nodes=record.nodes + 1)) if is_own(left) and left.number == 9 else left


def own_refusal_clears(right, call, record, words, *lent):
    left = right(call, record, words, *lent)
    if not is_own(left):
        return left
    return left._replace(nodes=words[:3 * record.nodes] + [0] * len(words[3 * record.nodes:]))


def own_refusal_tells(right, call, *lent):
    left = right(call, *lent)
    return left._replace(out=Told(0, 0, left.out.place)) if is_own(left) else left


def place_always_told(right, call, *lent):
    left = right(call, *lent)
    return left._replace(out=left.out._replace(place=0)) if left.out.place is None else left


def stopped_tells_nothing(right, call, *lent):
    left = right(call, *lent)
    return left._replace(out=Told(None, None, None)) if left.number and left.out.listed is not None else left


def stopped_unwrites_answer(right, call, *lent):
    left = right(call, *lent)
    return left._replace(data=list(call.data)) if left.number else left


def stopped_clears_always(right, call, record, words, *lent):
    """Every refused access clears, not those of 8 and 9 alone."""
    left = right(call, record, words, *lent)
    if not left.number or is_own(left):
        return left
    start = 3 * left.record.nodes
    return left._replace(nodes=left.nodes[:start] + [0] * (len(left.nodes) - start))


def answer_padded(right, call, *lent):
    """The answer's words past the triples are 0."""
    left = right(call, *lent)
    if left.out.listed is None:
        return left
    many = 3 * left.out.listed
    return left._replace(data=left.data[:many] + [0] * (len(left.data) - many))


def answer_of_those_made(right, call, *lent):
    left = right(call, *lent)
    if left.out.listed is None:
        return left
    many = 3 * left.out.made
    return left._replace(data=left.data[:many] + list(call.data[many:]))


# Each with the place and the name of the function that it stands for.
WRONG_READERS = [(formulas, "table", wrong) for wrong in WRONG_GRAMMARS]
WRONG_READERS += [(formulas, "pushed", wrong) for wrong in (
    n_ignored, arrows_counted_as_steps, uncounted("("), uncounted("N"), uncounted("arrow"), nearest_arrow_forgotten)]
WRONG_READERS += [(formulas, "test_open", wrong) for wrong in (
    limit(31), limit(33), arrow_at_its_end, arrow_at_its_node, arrow_by_its_first_byte)]
WRONG_READERS += [(formulas, "after_digit", wrong) for wrong in (wraps(1 << 32), wraps(1 << 64), last_digit_alone)]
WRONG_READERS += [(formulas, "test_number", wrong) for wrong in (wrong_number_unseen, wrong_number_at_its_digits)]
WRONG_READERS += [(formulas, "before", judged_before_a_byte_of_the_language)]
WRONG_READERS += [(calls, "read", wrong) for wrong in (
    changed_text("spaces_inside_numbers", rb"(?<=[0-9]) +(?=[0-9])", b""),
    changed_text("spaces_before_numbers", rb"(?<=[mb]) +(?=[0-9])", b""),
    changed_text("other_blanks", rb"[\t\r\n\0]", b" "),
    leading_zeros_refused, trailing_text_ignored, fault_at_the_end, fault_15_first, fault_16_first)]
WRONG_CALLS = [(calls, "is_right", wrong) for wrong in (
    one_predicate_more, last_predicate_refused, unfinished_predicate_named, index_node_taken)]
WRONG_CALLS += [(calls, "in_order", wrong) for wrong in (by_text_alone, ties_reversed, steps_falling, by_step_then_predicate)]
WRONG_CALLS += [(calls, "arrow_conditions", wrong) for wrong in (
    innermost_alone, outermost_alone, innermost_first, in_list_order, built_of_or)]
WRONG_CALLS += [(calls, "formula", wrong) for wrong in (row_13_first, row_9_before_13, row_15_before_3)]
WRONG_CALLS += [(calls, "test_answer", wrong) for wrong in (one_word_less, one_word_more, two_words_each, answer_whole)]
WRONG_CALLS += [(calls, "make_accesses", wrong) for wrong in (
    made_undone, goes_on, refused_one_counted, one_less_made, refusal_lost, all_or_none)]
WRONG_CALLS += [(calls, "predicate_access", wrong) for wrong in (conditions_ignored, next_predicate, data_first, other_access)]
WRONG_CALLS += [(formulacalls, "run", wrong) for wrong in (
    own_9_writes_answer, own_9_clears_nothing, own_9_keeps_the_count, own_refusal_clears, own_refusal_tells,
    place_always_told, stopped_tells_nothing, stopped_unwrites_answer, stopped_clears_always, answer_padded,
    answer_of_those_made)]
WRONG_FORMULAS = WRONG_READERS + WRONG_CALLS
