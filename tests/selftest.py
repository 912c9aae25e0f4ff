#!/usr/bin/env python3
"""Tests of the tools themselves; a few seconds.

    python3 tests/selftest.py [-v]

They hold the reference to the paper's file, rulings and small inputs, to all plain
runs of small cases, its count of entries to its list and to one found bit by bit, its
node searches to ones that go from node to node and to sums worked out by hand, its reader of
formulas to the language as its clauses define it, and all to wrong programs, each of which
the cases must find out.
"""

import functools
import itertools
import os
import unittest
from collections import Counter

from rooms import ROOT
import callscript
import cases
import conditioncalls
import derivedcases
import formulacalls
import memorycalls
import papers
import randomcalls
import randomformulas
import rowcases
import storedcases
import unitorders
import wrongcounts
import wrongformulas
import wrongorders
import wrongreads
import wrongsearches
import wrongwrites
from common import randomcases
from common.casefile import CaseFile, NotACaseFile, ONE, X, ZERO, parse
from common.randomcases import Random
from language import casetext
from nodesearch import node_search
from papers import TERMINALS
from planting import planted
from second import calls, entrycount, formulas, plain, reference, tables
from second.reference import Event, memcase, printed, run_case
from second.tables import Conditions, TooManyVariables


@functools.lru_cache
def stored_cases():
    return cases.all_cases()


def read_lines(case):
    """The lines that a case prints for its reads and checks."""
    return [line for line in memcase(case.bytes()).splitlines() if line[0] in "rc"]


class Paper(unittest.TestCase):
    def test_worked_file(self):
        self.assertEqual(memcase(rowcases.WORKED),
                         "write 0\nread 1:(8 0 1)\ncheck (8 1 0)\nend 1\n")

    def test_rulings(self):
        expected = {"01": ["read 1:1"], "02": ["read 1:0"], "03": ["read 1:1"], "04": ["read 1:1"],
                    "05": ["read 1:0"], "06": ["read 1:0"], "07": ["read 1:1"], "08": ["read 1:1"],
                    "09": ["read 1:1"], "10": ["read 1:1"], "10-last": ["read 1:0", "read 1:0"],
                    "11": ["check 1", "check 0"]}
        for number, what, script in rowcases.RULINGS:
            with self.subTest(what):
                self.assertEqual(read_lines(rowcases.ruling_case(script)), expected[number])

    def test_small_inputs_of_the_table(self):
        def refusal(data, **lengths):
            return run_case(data, **lengths).refusal

        case = CaseFile()
        index = case.node(7, 0, 1)
        case.check(index, [ZERO], [ONE])
        pair = CaseFile()
        pair.write((0, 0), [ZERO], [ONE])
        unknown = CaseFile()
        unknown.assert_(1, [X], [ONE])
        write = CaseFile()
        write.write(ONE, [ZERO], [ONE])
        read = CaseFile()
        read.read(ONE, [ZERO])
        self.assertEqual(refusal(CaseFile(9, 1).bytes()), 1)
        self.assertEqual(refusal(CaseFile().bytes(), node_words=5), 2)
        self.assertEqual(refusal(case.bytes()), 5)
        self.assertEqual(refusal(pair.bytes()), 6)
        self.assertEqual(refusal(unknown.bytes()), 7)
        self.assertEqual(refusal(write.bytes(), list_words=0), 8)
        self.assertEqual(refusal(read.bytes(), node_words=6), 9)
        self.assertEqual(refusal(b""), 10)
        self.assertEqual(refusal(bytes((1, 1, 0, 0, 1, 0, 0))), 11)
        self.assertEqual(refusal(CaseFile().bytes() + b"\0"), 12)
        self.assertEqual(refusal(CaseFile().bytes(), text_bytes=5), 13)
        self.assertEqual(run_case(CaseFile().bytes(), text_bytes=6).text, "end 0\n")
        idle = CaseFile()
        idle.write(ZERO, [ZERO], [ONE])
        self.assertEqual(run_case(idle.bytes(), node_words=6, list_words=0).text, "write idle\nend 0\n")
        read.read(ONE, [ZERO], 4)
        self.assertEqual(refusal(read.bytes()), 14)

    def test_every_row_is_stored(self):
        found = {case.row for case in storedcases.all_cases()}
        self.assertEqual(found, {0, 1, 2, 5, 6, 7, 8, 9, 10, 11, 12, 13, 14})


class Tables(unittest.TestCase):
    def test_every_function_of_three_variables(self):
        """Ite, Not, And, Or and Any on tables say what they must, under every assignment."""
        conditions = Conditions([0, 8, 9], 10000)
        functions = range(0, 256, 7)
        for f in functions:
            self.assertEqual(conditions.not_(f), 255 & ~f)
            low = {a & ~1 for a in range(8) if f >> a & 1}
            exists = sum(1 << a for a in range(8) if a & ~1 in low)
            self.assertEqual(conditions.any(f), exists)
            for g in functions:
                self.assertEqual(conditions.and_(f, g), f & g)
                self.assertEqual(conditions.or_(f, g), f | g)
                for h in range(0, 256, 31):
                    self.assertEqual(conditions.ite(f, g, h), f & g | 255 & ~f & h)

    def test_nodes_are_made_children_first(self):
        """The nodes of each run are a store in standard form, in the order they were made."""
        for seed in range(60):
            conditions = run_case(randomcases.small(Random(seed)).bytes()).conditions
            words = []
            for table in conditions.tables[2:]:
                variable, low, high = conditions.parts(table)
                words.append((variable, conditions.numbers[low], conditions.numbers[high]))
            self.assertTrue(tables.is_standard(words))

    def test_ite_makes_exactly_the_parts_of_its_result(self):
        """A law of canonical nodes that the recursion does not use: what Ite adds is the
        parts of its result that were not there, low before high, the result last."""
        for seed in range(40):
            rng = Random(seed)
            conditions = Conditions([0, 1, 8, 9, 10], 10000)
            for _ in range(30):
                f, g, h = (rng.choice(conditions.tables + [conditions.index(rng.below(2))])
                           if rng.chance(70) else conditions.make(rng.choice([8, 9, 10]), 0, conditions.true)
                           for _ in range(3))
                before = list(conditions.tables)
                expected = []
                new_parts(conditions, f & g | conditions.true & ~f & h, set(before), expected)
                conditions.ite(f, g, h)
                self.assertEqual(conditions.tables, before + expected)

    def test_too_many_variables(self):
        case = CaseFile()
        case.parity(range(8, 64))
        with self.assertRaises(TooManyVariables):
            run_case(case.bytes())

    def test_derivations_hold_for_fewer_variables(self):
        """What derivedcases.py derives for 56 variables, truth tables say for 5, 7 and 8."""
        for size, text_bytes in ((5, 190), (7, 400), (8, 800)):
            for case in derivedcases.many_variables(size, text_bytes):
                outcome = run_case(case.data, *case.lengths)
                self.assertEqual((printed(outcome), outcome.record), (case.out, case.record), case.name)
        for case in derivedcases.much_work(40):
            self.assertEqual(memcase(case.data), case.out)


def new_parts(conditions, table, seen, made):
    """Append the table's parts that are not in `seen`, low first, then the table."""
    if table in seen:
        return
    _, low, high = conditions.parts(table)
    new_parts(conditions, low, seen, made)
    new_parts(conditions, high, seen, made)
    seen.add(table)
    made.append(table)


class IdleWrites(unittest.TestCase):
    def test_only_their_lines_are_lost_without_them(self):
        """A case without its idle writes prints the same but for `write idle`."""
        found = 0
        for seed in range(300):
            case = randomcases.without_refusals(randomcases.small(Random(seed)))
            outcome = run_case(case.bytes())
            entered = [event.answer != "idle" for event in outcome.events]
            found += entered.count(False)
            case.accesses = list(itertools.compress(case.accesses, entered))
            self.assertEqual(memcase(case.bytes()), printed(outcome).replace("write idle\n", ""), seed)
        self.assertGreater(found, 200)

    def test_random_calls_have_them(self):
        found = 0
        for seed in range(1000):
            rng = randomcalls.Words(seed)
            size = randomcalls.shape(rng)
            state = randomcalls.memory(rng, size, randomcalls.store(rng, size.variables, 8), 1, 30, 30)
            found += calls.run(randomcalls.access(rng, state), *state).out == papers.IDLE
        self.assertGreater(found, 30)


def tiny_case(seed):
    return randomcases.without_refusals(randomcases.tiny(Random(seed)))


def has_differences(case):
    return bool(plain.differences(run_case(case.bytes()), case.n, case.w))


class PlainRuns(unittest.TestCase):
    def test_reads_ports_and_checks_are_exact(self):
        reads = checks = held = idle = 0
        for seed in range(400):
            case = tiny_case(seed)
            outcome = run_case(case.bytes())
            self.assertEqual(plain.differences(outcome, case.n, case.w), [], seed)
            reads += sum(event.kind == papers.READ for event in outcome.events)
            checks += sum(event.kind == papers.CHECK for event in outcome.events)
            idle += sum(event.answer == "idle" for event in outcome.events)
            held += sum(word != [(outcome.conditions.true,) * 2] * case.w for word in outcome.memory.ports)
        self.assertGreater(reads, 200)
        self.assertGreater(checks, 100)
        self.assertGreater(held, 60)
        self.assertGreater(idle, 60)

    def test_stored_cases_are_exact(self):
        for case in [*rowcases.idle(), *rowcases.counted(), *rowcases.ports(), *rowcases.rulings()]:
            outcome = run_case(case.data)
            self.assertEqual(plain.differences(outcome, *case.data[:2]), [], case.name)

    def test_wrong_reads_are_found(self):
        for wrong in wrongreads.WRONG_WORDS:
            with planted(calls.Memory, "read", wrong):
                self.assertTrue(any(has_differences(tiny_case(seed)) for seed in range(300)), wrong.__name__)

    def test_wrong_writes_are_found(self):
        for wrong in wrongwrites.WRONG_WORDS:
            with planted(calls.Memory, "write", wrong):
                self.assertTrue(any(has_differences(tiny_case(seed)) for seed in range(300)), wrong.__name__)

    def test_idle_writes_would_change_no_word(self):
        """An entry of an idle write changes no read, held word or check."""
        with planted(calls.Memory, "write", wrongwrites.idle_entered):
            self.assertFalse(any(has_differences(tiny_case(seed)) for seed in range(100)))

    def test_one_run_after_another(self):
        """Runs kept together by their contents say the same as all runs one by one."""
        again = 0
        for seed in range(300):
            case = tiny_case(seed)
            if case.w > 1 or len(case.accesses) > 6:
                continue
            outcome = run_case(case.bytes())
            for assignment in plain.user_assignments(outcome.conditions):
                events = [plain.plain_event(event, assignment) for event in outcome.events]
                self.assertEqual(plain.run_states(events, case.n, case.w),
                                 plain.run_choices(events, case.n, case.w))
            ports = [event.port for event in outcome.events if event.kind == papers.READ]
            again += len(ports) - len(set(ports))
        self.assertGreater(again, 10)


# The count of entries the slowest way: under one assignment, with the events as plain.py has them.

def bit_values(words, bit):
    return {word >> bit & 1 for word in words}


def enable_bits(event):
    """The bits that the enable of a write may be, and b of an assert; none of another event."""
    if event.kind == papers.ASSERT:
        return [event.control]
    return event.control if event.kind == papers.WRITE else []


def cell_values(events, location, bit):
    """What a bit of a cell may be after these events."""
    values = {0, 1}
    for event in events:
        enables = enable_bits(event)
        if 1 in enables and location in event.locations:
            certain = enables == [1] and event.locations == [location]
            values = bit_values(event.words, bit) | (set() if certain else values)
    return values


def counts_here(events, event, w):
    """Whether an event after these counts under their assignment.  Where b holds, row 7 leaves an assert one
    location."""
    if event.kind != papers.ASSERT:
        return 1 in enable_bits(event)
    if not event.control:
        return False
    location, = event.locations
    return any(bit_values(event.words, bit) != cell_values(events, location, bit) for bit in range(w))


def slow_count(outcome, w):
    """How many of the events count under some assignment."""
    found = set()
    for assignment in plain.user_assignments(outcome.conditions):
        events = [plain.plain_event(event, assignment) for event in outcome.events]
        found |= {place for place, event in enumerate(events) if counts_here(events[:place], event, w)}
    return len(found)


# The count of a chain of calls.

def step_event(step, variables):
    """A step's access with tables over these variables, its nodes taken in the node words that it is lent."""
    call, state, _ = step
    conditions = Conditions(variables, papers.node_capacity(len(state.nodes)))
    conditions.load(randomcalls.standard(state)[2:])
    given = call.control, call.address, [] if call.kind == papers.READ else call.data
    control, address, data = ([conditions.tables[node] for node in words] for words in given)
    return Event(call.kind, call.port, tuple(control), papers.pairs(address), papers.pairs(data), None)


def chain_count(steps, rows=(0,)):
    """The count of those accesses of a chain that are answered by one of these rows, 0 being accepted."""
    last = randomcalls.after(steps[-1].left)
    variables = {node[0] for node in randomcalls.standard(last)} & set(range(papers.USER_VARIABLE, papers.VARIABLES))
    events = [step_event(step, variables) for step in steps
              if step.left.number in rows and step.call.kind in callscript.ACCESSES]
    return entrycount.entry_count(last.record.n, last.record.w, Conditions(variables, 2).true, events)


class EntryCounts(unittest.TestCase):
    """The count, which is found from the accesses, is the number of entries in the list."""

    def test_stored_cases(self):
        for case in stored_cases():
            if case.record:
                self.assertEqual(case.out.splitlines()[-1], "end %d" % case.record.entries, case.name)

    def test_random_cases(self):
        answers = Counter()
        for seed in range(300):
            outcome = run_case(randomcases.without_refusals(randomcases.small(Random(seed))).bytes())
            if outcome.refusal is None:
                self.assertEqual(outcome.lines[-1], "end %d\n" % len(outcome.memory.entries), seed)
                answers.update(event.answer for event in outcome.events if isinstance(event.answer, str))
        self.assertGreater(min(answers[word] for word in ("entered", "kept", "idle")), 60)

    def test_one_assignment_at_a_time(self):
        asserts = 0
        for seed in range(600):
            case = tiny_case(seed)
            outcome = run_case(case.bytes())
            self.assertEqual(outcome.lines[-1], "end %d\n" % slow_count(outcome, case.w), seed)
            asserts += sum(event.kind == papers.ASSERT for event in outcome.events)
        self.assertGreater(asserts, 200)

    def test_chains_of_calls(self):
        """From a Fresh on, with node calls and refused calls among them; with the accesses that 8 or 9 refuses
        the count would often be another."""
        refused = told = 0
        for seed in range(400):
            steps = list(randomcalls.chain(randomcalls.Words(seed)))
            entries = steps[-1].left.record.entries
            self.assertEqual(chain_count(steps), entries, seed)
            refused += sum(step.left.number != 0 for step in steps)
            told += chain_count(steps, (0, 8, 9)) != entries
        self.assertGreater(refused, 400)
        self.assertGreater(told, 50)


# Node searches.

def store_and_tables(seed):
    """A small random store, and tables over most of its variables."""
    rng = randomcalls.Words(seed)
    variables = [0, 8, 9, 10]
    nodes = randomcalls.store(rng, variables, 14)
    conditions = Conditions(rng.some(variables, 3), 100)
    conditions.load(nodes[2:])
    return nodes, conditions


def searched_words(nodes, conditions):
    """What a Make may search for: unequal children on later variables."""
    for variable in conditions.variables:
        children = [number for number, table in enumerate(conditions.tables)
                    if table is not None and nodes[number][0] > variable]
        for low, high in itertools.permutations(children, 2):
            yield variable, low, high


def table_search(conditions, variable, low, high):
    children = conditions.tables[low], conditions.tables[high]
    return conditions.search(conditions.join(variable, *children), *children)


def finds_out(nodes, conditions, wrong):
    return any(wrong(node_search, nodes, *words) != table_search(conditions, *words)
               for words in searched_words(nodes, conditions))


def search_by_nodes(_right, conditions, table, low, high):
    """The search from node to node, in place of the difference."""
    words = conditions.words(2)
    nodes = TERMINALS + list(zip(words[0::3], words[1::3], words[2::3]))
    return node_search(nodes, conditions.variable(table), conditions.numbers[low], conditions.numbers[high])


def search_operations():
    """What the operations of `conditions_test` print of searches, or None where one is not as it was meant."""
    script = conditioncalls.Script()
    try:
        conditioncalls.few_nodes(script)
        conditioncalls.each_distance(script)
    except AssertionError:
        return None
    return script.output()


def ruling_2(node_words):
    """R2: 1@0, then a read of 0."""
    case = CaseFile()
    case.write(ONE, [ZERO], [ONE])
    case.read(ONE, [ZERO])
    return run_case(case.bytes(), node_words)


def ruling_2_sums(node_words):
    return reference.node_searches(ruling_2(node_words))


def variable_sums():
    """Variable 8, Or and And of it with itself, twice, and its negation."""
    conditions = Conditions([8], 10)
    eight = conditions.make(8, 0, conditions.true)
    for _ in range(2):
        conditions.or_(eight, eight)
        conditions.and_(eight, eight)
    conditions.not_(eight)
    return conditions.searches()


def worked_sums():
    return [ruling_2_sums(node_words) for node_words in (12, 9, 6, 5)] + [variable_sums()]


class NodeSearches(unittest.TestCase):
    """The node search, which is a difference of numbers, against one that goes from node to node; and the sums
    of searches and of nodes compared."""

    def test_small_stores(self):
        answers = Counter()
        for seed in range(200):
            nodes, conditions = store_and_tables(seed)
            for words in searched_words(nodes, conditions):
                found = table_search(conditions, *words)
                self.assertEqual(found, node_search(nodes, *words), (seed, words))
                answers["none" if found[0] is None else "match"] += 1
        self.assertGreater(answers["match"], 1000)
        self.assertGreater(answers["none"], 3000)

    def test_random_cases(self):
        for seed in range(60):
            data = randomcases.small(Random(seed)).bytes()
            found = reference.searches_of(data)
            with planted(Conditions, "search", search_by_nodes):
                self.assertEqual(reference.searches_of(data), found, seed)

    def test_wrong_searches_are_found(self):
        stores = [store_and_tables(seed) for seed in range(20)]
        for wrong in wrongsearches.WRONG_SEARCHES:
            self.assertTrue(any(finds_out(*store, wrong) for store in stores), wrong.__name__)

    def test_first_match(self):
        """Where a node stands twice, which no store in standard form shows."""
        nodes = TERMINALS + [(9, 0, 1), (8, 0, 1), (9, 0, 1)]
        self.assertEqual(node_search(nodes, 9, 0, 1), (2, 1))
        for wrong in wrongsearches.WRONG_WHERE_TWICE:
            self.assertFalse(any(finds_out(*store_and_tables(seed), wrong) for seed in range(20)), wrong.__name__)
            self.assertNotEqual(wrong(node_search, nodes, 9, 0, 1), (2, 1), wrong.__name__)

    def test_stored_operations_find_each(self):
        right = search_operations()
        self.assertIsNotNone(right)
        for wrong in wrongsearches.WRONG_SEARCHES:
            with planted(conditioncalls, "node_search", wrong):
                self.assertNotEqual(search_operations(), right, wrong.__name__)

    def test_sums_of_ruling_2(self):
        """Worked out.  The write builds nothing.  The read:

        index 0            Make(0,0,1)  none, 2 nodes: 2-1-1 = 0; node 2
        Ite(2,0,1)         Make(0,1,0)  none, 3 nodes: 3-1-1 = 1; node 3, which is `in`
        index 0, entry     Make(0,0,1)  node 2: 2-1 = 1; Ite(2,0,1) is remembered
        And(in,3)          Make(0,1,0)  node 3, which is g: 3-1 = 2; this is m, and hm
        Ite(hm,0,1)        Make(0,0,1)  node 2: 2-1 = 1; the l of the bit
        And(in,2)          equal children, so that nothing is searched; it is 0
        """
        self.assertEqual(ruling_2_sums(12), ((5, 0 + 1 + 1 + 2 + 1), (4, 0 + 1 + 1 + 1)))
        # The second search, and with less room the first, is followed by 9; with no room for terminals none is.
        self.assertEqual(ruling_2_sums(9), ((2, 0 + 1),) * 2)
        self.assertEqual(ruling_2_sums(6), ((1, 0),) * 2)
        self.assertEqual(ruling_2_sums(5), ((0, 0),) * 2)

    def test_sums_of_a_variable(self):
        """Worked out: Make(8,0,1), none, 2-1-1 = 0; Or is Ite(2,1,2) and And is Ite(2,2,0), both node 2, which is h
        and g, 2-1 = 1 each, and then remembered; Not is Make(8,1,0), none, 3-1-1 = 1."""
        self.assertEqual(variable_sums(), ((4, 0 + 1 + 1 + 1), (2, 0 + 1)))

    def test_wrong_sums_are_found(self):
        right = worked_sums()
        for wrong in wrongsearches.WRONG_SUMS:
            with planted(Conditions, "make", wrong):
                self.assertNotEqual(worked_sums(), right, wrong.__name__)

    def test_text(self):
        self.assertEqual(reference.searches_text(ruling_2(12)),
                         "searches 5 compared 5\npast g and h: searches 4 compared 3\n")


# The language of formulas by its clauses: texts put together from the parts, and what such texts begin with.

CLAUSES = {
    "formula": [["conjunction"], ["b0", "->", "formula"]],
    "conjunction": [["unit"], ["unit", "&", "conjunction"]],
    "unit": [["m0"], ["N", "unit"], ["(", "formula", ")"]],
}


def token_texts(token, length):
    """The texts of a token up to a length, with spaces after it; a number may have any digits, here all 0."""
    words = [token + "0" * more for more in range(length)] if token[-1] == "0" else [token]
    return {(word + " " * spaces)[:length + 1] for word in words for spaces in range(length)}


def language(length):
    """The texts of the language up to a length, and those with which a text of it begins."""
    whole = {token: {text for text in token_texts(token, length) if len(text) <= length}
             for clauses in CLAUSES.values() for clause in clauses for token in clause if token not in CLAUSES}
    begun = {token: {text[:many] for text in token_texts(token, length) for many in range(length + 1)} for token in whole}
    for part in CLAUSES:
        whole[part], begun[part] = set(), set()
    size = None
    while size != sum(map(len, [*whole.values(), *begun.values()])):
        size = sum(map(len, [*whole.values(), *begun.values()]))
        for part, clauses in CLAUSES.items():
            for clause in clauses:
                texts = {""}
                for next_part in clause:
                    begun[part] |= joined_texts(texts, begun[next_part], length)
                    texts = joined_texts(texts, whole[next_part], length)
                whole[part] |= texts
    spaces = {" " * many for many in range(length + 1)}
    return joined_texts(spaces, whole["formula"], length), spaces | joined_texts(spaces, begun["formula"], length)


def joined_texts(firsts, seconds, length):
    return {first + second for first in firsts for second in seconds if len(first) + len(second) <= length}


def any_number(_letter, _number):
    return True


def faults(at, byte):
    """The place of the fault of the next byte, or of the end; None where there is none."""
    try:
        formulas.end(at, any_number) if byte is None else formulas.step(at, byte, any_number)
        return None
    except formulas.Fault as fault:
        return fault.number, fault.place


def tree_reading(text, right):
    """What a text lists, each with the nodes around it, or its fault."""
    try:
        reading = formulas.read(text, right)
        return [(one.step, formulas.enclosing(reading, one.arrow), one.predicate) for one in reading.named]
    except formulas.Fault as fault:
        return fault.number, fault.place


def small_numbers(letter, number):
    return number < (3 if letter == "m" else 5)


def group_output(group):
    """What a group of the stored formulas prints, or what is said where one is not as it was meant."""
    try:
        return formulacalls.script([group]).output()
    except AssertionError as error:
        return str(error)


def holds(state, node, assignment):
    return calls.value(randomcalls.standard(state), node, assignment)


class Formulas(unittest.TestCase):
    """The reader, which goes by a table, against the language as its clauses define it and against formulas that
    were written together with what they list; and the calls."""

    def test_every_short_text(self):
        """Each text that begins one of the language, and each letter after it: the place of the fault is the first
        byte with which no text goes on, or the end."""
        length = 6
        whole, begun = language(length)
        waiting, found = [("", formulas.begin())], Counter()
        while waiting:
            text, at = waiting.pop()
            self.assertEqual(faults(at, None), None if text in whole else (15, len(text)), text)
            found[text in whole] += 1
            for letter in "mbN&()-> 0x" if len(text) < length else "":
                goes_on = text + letter in begun
                self.assertEqual(faults(at, ord(letter)), None if goes_on else (15, len(text)), text + letter)
                if goes_on:
                    waiting.append((text + letter, formulas.step(at, ord(letter), any_number)))
        self.assertEqual(found[True], len(whole))
        self.assertEqual(sum(found.values()), len(begun))
        self.assertGreater(len(whole), 100)

    def test_every_byte(self):
        """After each of some beginnings, every byte that is no letter of the language is a fault."""
        for text in (b"", b"m0", b"m0 ", b"b1", b"b1 -> ", b"N", b"(m0 & ", b"m", b"b"):
            for byte in set(range(256)) - set(b"mbN&()-> 0123456789"):
                self.assertEqual(tree_reading(text + bytes([byte]), any_number), (15, len(text)))
        for digit in b"0123456789":
            self.assertEqual(tree_reading(b"m" + bytes([digit]), any_number), [(0, [], digit - 48)])

    def test_written_formulas(self):
        """What was written is read; a wrong number, or one opener too many, is refused at the first such place."""
        found = Counter()
        for seed in range(1500):
            rng = randomcalls.Words(seed)
            predicates = rng.choice([range(3), range(4), [0, 2 ** 32, 10 ** 30]])
            written = randomformulas.formula(rng, predicates, rng.choice([range(5), range(6)]))
            fault = randomformulas.first_fault(written, small_numbers)
            self.assertEqual(tree_reading(written.text, small_numbers), fault or written.named, written.text)
            found[fault and fault[0]] += 1
        self.assertGreater(min(found[None], found[15], found[16]), 40)

    def test_calls(self):
        """A triple's condition holds where the nodes of all arrows around it do; the steps rise; a formula that is
        stopped has made the accesses that it would make without the rest."""
        rows = Counter()
        for seed in range(400):
            rng = randomcalls.Words(seed)
            size = randomcalls.shape(rng)._replace(n=rng.between(1, 3))
            state = randomcalls.memory(rng, size, randomcalls.store(rng, size.variables, 10), 1, rng.choice([30, 600]), 80)
            one = randomformulas.call(rng, state)
            if rng.chance(50):
                one = randomformulas.damage_call(rng, one, state)
            left = calls.run(one, *state)
            rows[left.number] += 1
            if left.out.listed is None:
                self.assertEqual((left.record, left.list, left.data), (state.record, state.list, list(one.data)))
                continue
            self.answer(rng, one, left)
            if left.number:
                self.assertLess(left.out.made, left.out.listed)
            else:
                self.assertEqual(left.out.made, left.out.listed)
        self.assertLessEqual({0, 5, 6, 9, 13, 15, 16}, set(rows))

    def answer(self, rng, one, left):
        """The words of an answer against the text."""
        reading = formulas.read(one.text, any_number)
        many = left.out.listed
        self.assertEqual(many, len(reading.named))
        self.assertEqual(left.data[3 * many:], one.data[3 * many:])
        steps = left.data[0:3 * many:3]
        self.assertEqual(steps, sorted(steps))
        expected = [named for step in range(33) for named in reading.named if named.step == step]
        self.assertEqual(left.data[2:3 * many:3], [named.predicate for named in expected])
        after = randomcalls.after(left)
        for place, named in enumerate(expected):
            assignment = rng.next()
            nodes = formulas.enclosing(reading, named.arrow)
            self.assertEqual(holds(after, left.data[3 * place + 1], assignment),
                             int(all(holds(after, node, assignment) for node in nodes)))

    def test_wrong_formulas_are_found(self):
        right = {group: group_output(group) for group in formulacalls.SMALL}
        for place, name, wrong in wrongformulas.WRONG_FORMULAS:
            with planted(place, name, wrong):
                self.assertTrue(any(group_output(group) != right[group] for group in formulacalls.SMALL), wrong.__name__)

    def test_every_row_is_stored(self):
        rows = {kind: set() for kind in papers.FORMULAS}
        script = formulacalls.script(formulacalls.SMALL)
        for name, line in zip(script.names, script.lines):
            kind = papers.ASSERT_FORMULA if name.endswith("assert_formula") else papers.CHECK_FORMULA
            rows[kind].add(int(line.split()[2]))
        self.assertEqual(rows[papers.ASSERT_FORMULA], {0, 1, 2, 3, 5, 6, 7, 8, 9, 13, 15, 16})
        self.assertEqual(rows[papers.CHECK_FORMULA], {0, 1, 2, 3, 5, 6, 9, 13, 15, 16})


# Wrong programs: a class, the name of a function of it, and the wrong function, which
# is given the right one first.

def soft_replaces(_right, self, address):
    c = self.conditions
    inside = self.narrow(c.true, address)
    halves = [c.true] * (2 * self.w)
    for entry in self.entries:
        match = self.narrow(inside, entry.address)
        hit = c.or_(c.and_(match, entry.h), c.and_(match, entry.s))
        halves = [c.ite(hit, e, r) for e, r in zip([half for pair in entry.data for half in pair], halves)]
    halves = [c.any(c.and_(inside, r)) for r in halves]
    return list(zip(halves[0::2], halves[1::2]))


def x_address_reads_as_ones(right, self, address):
    true = self.conditions.true
    return right(self, [(true, 0) if pair == (true, true) else pair for pair in address])


def x_write_ignored(right, self, control, address, data):
    true = self.conditions.true
    if any(pair == (true, true) for pair in address):
        control = (0, true)
    return right(self, control, address, data)


def never_enters(_right, _self, _control, address, data):
    return calls.Entry(0, 0, address, data)


def high_part_first(right, self, f, g, h):
    ends = f in (0, self.true) or g == h or (g == self.true and h == 0)
    if not ends and (f, g, h) not in self._ite:
        v = min(self.variable(f), self.variable(g), self.variable(h))
        self.ite(self.high(f, v), self.high(g, v), self.high(h, v))
    return right(self, f, g, h)


def always_entered(right, self, b, address, data):
    answer = right(self, b, address, data)
    if answer == "kept":
        self.entries.append(self.build_entry((b, self.conditions.not_(b)), address, data))
    return "entered"


def assert_idle(right, self, b, address, data):
    return right(self, b, address, data) if b else "idle"


def assert_builds_before_8(right, self, b, address, data):
    """8 after the conditions of the entry, as in a write."""
    capacity, self.entry_capacity = self.entry_capacity, len(self.entries) + 1
    answer = right(self, b, address, data)
    self.entry_capacity = capacity
    if len(self.entries) > capacity:
        raise tables.Refused(8)
    return answer


def no_last_node(right, self, table):
    if len(self.tables) >= self.capacity - 1:
        raise tables.Refused(9)
    return right(self, table)


def one_entry_more(_right, self):
    if len(self.entries) > self.entry_capacity:
        raise tables.Refused(8)


def no_row_6(_right, conditions, access):
    try:
        table = conditions.tables.__getitem__
        return (tuple(map(table, access.control)), [(table(h), table(l)) for h, l in access.address],
                [(table(h), table(l)) for h, l in access.data])
    except IndexError:
        raise tables.Refused(5) from None


def idle_before_row_6(right, conditions, kind, control, address, data):
    if kind != papers.WRITE or control[0]:
        right(conditions, kind, control, address, data)


def idle_unread(right, conditions, access):
    """Address and data of an idle write are not looked at."""
    if access.kind == papers.WRITE and access.control == [0, 1]:
        return (0, conditions.true), [], []
    return right(conditions, access)


def idle_with_place(right, memory, kind, answer):
    return ["write idle %d" % len(memory.entries)] if answer == "idle" else right(memory, kind, answer)


def port_after_nodes(right, conditions, access):
    found = right(conditions, access._replace(port=0))
    calls.test_port(access.kind, access.port)
    return found


def port_before_bytes(right, reader, n, w):
    first = reader.data[reader.at:reader.at + 2]
    if len(first) == 2:
        calls.test_port(*first)
    return right(reader, n, w)


def ports_start_0(right, self, *arguments):
    right(self, *arguments)
    self.ports = [[(0, self.conditions.true)] * self.w] * papers.PORTS


def kind_after_bytes(right, self, n, w):
    self.need(3)
    return right(self, n, w)


def lowest_bit_first(right, memory, kind, answer):
    return right(memory, kind, answer[::-1] if kind == papers.READ else answer)


WRONG = [
    (calls.Memory, "look", soft_replaces),
    (calls.Memory, "look", x_address_reads_as_ones),
    (calls.Memory, "__init__", ports_start_0),
    (calls.Memory, "build_entry", x_write_ignored),
    (calls.Memory, "build_entry", never_enters),
    (calls.Memory, "assert_", always_entered),
    (calls.Memory, "assert_", assert_idle),
    (calls.Memory, "assert_", assert_builds_before_8),
    (calls.Memory, "need_space", one_entry_more),
    (tables.Conditions, "add", no_last_node),
    (tables.Conditions, "ite", high_part_first),
    (reference, "as_tables", no_row_6),
    (reference, "as_tables", port_after_nodes),
    (reference, "as_tables", idle_unread),
    (reference, "test_pairs", idle_before_row_6),
    (reference, "read_access", kind_after_bytes),
    (reference, "read_access", port_before_bytes),
    (reference, "line_parts", lowest_bit_first),
    (reference, "line_parts", idle_with_place),
]
WRONG += [(calls.Memory, "read", wrong) for wrong in wrongreads.WRONG_READS]
WRONG += [(calls.Memory, "write", wrong) for wrong in wrongwrites.WRONG_WRITES]
WRONG += wrongcounts.WRONG_COUNTS


def index_nodes_taken(_right, nodes, words):
    return any(word >= len(nodes) for word in words)


def nothing_cleared(right, call, record, words, entries, ports):
    left = right(call, record, words, entries, ports)
    return left._replace(nodes=list(words)) if left.number else left


def write_clears_nothing_by_8(right, call, record, words, entries, ports):
    left = right(call, record, words, entries, ports)
    return left._replace(nodes=list(words)) if left.number == 8 and call.kind == papers.WRITE else left


def idle_clears(right, call, record, words, entries, ports):
    """An idle write leaves the words past the count as a refusal by 8 does."""
    left = right(call, record, words, entries, ports)
    if left.out != papers.IDLE:
        return left
    return left._replace(nodes=left.nodes[:3 * record.nodes] + [0] * (len(words) - 3 * record.nodes))


def idle_before_rows(right, call, record, words, entries, ports):
    """A write whose enable's h is node 0 is idle, whatever the rest is."""
    if call.kind == papers.WRITE and call.control[:1] == [0]:
        return calls.Left(0, papers.IDLE, record, words, entries, call.data, ports)
    return right(call, record, words, entries, ports)


def idle_answers_place(right, kind, answer):
    return 0 if answer == "idle" else right(kind, answer)


def refused_read_replaces(right, call, record, words, entries, ports):
    left = right(call, record, words, entries, ports)
    return left._replace(ports=[1] * len(ports)) if left.number and call.kind == papers.READ else left


def fresh_leaves_ports(right, call, record, words, entries, ports):
    left = right(call, record, words, entries, ports)
    return left._replace(ports=ports) if call.kind == papers.FRESH else left


def fresh_of_held_words(right, call, record, words, entries, ports):
    """Fresh writes the held words alone."""
    left = right(call, record, words, entries, ports)
    if call.kind != papers.FRESH or left.number:
        return left
    after = list(ports)
    for port in range(papers.PORTS):
        after[papers.held_places(port, left.record.w)] = [1] * (2 * left.record.w)
    return left._replace(ports=after)


def other_ports_untested(right, self):
    ports = self.ports
    self.ports = list(ports)
    for port in set(range(papers.PORTS)) - {self.call.port}:
        self.ports[papers.held_places(port, self.record.w)] = [1] * (2 * self.record.w)
    try:
        right(self)
    finally:
        self.ports = ports


def port_before_row_4(right, self):
    calls.test_port(self.call.kind, self.call.port)
    right(self)


def port_after_row_5(right, self):
    call = self.call
    self.call = call._replace(port=0)
    right(self)
    self.call = call
    calls.test_port(call.kind, call.port)


def conditions_kept(right, self):
    return right(self)._replace(assert_condition=1, check_condition=1)


def one_entry_less(right, n, w, list_words):
    return max(0, right(n, w, list_words) - 1)


WRONG_CALLS = [
    (calls.Memory, "build_entry", never_enters),
    (calls.Memory, "assert_", assert_idle),
    (calls.Memory, "assert_", assert_builds_before_8),
    (calls.Memory, "need_space", one_entry_more),
    (calls.Memory, "record", conditions_kept),
    (tables.Conditions, "add", no_last_node),
    (calls, "row_5", index_nodes_taken),
    (calls, "list_capacity", one_entry_less),
    (calls, "test_pairs", idle_before_row_6),
    (calls, "out_word", idle_answers_place),
    (calls.Access, "test", other_ports_untested),
    (calls.Access, "test", port_before_row_4),
    (calls.Access, "test", port_after_row_5),
    (callscript, "run", nothing_cleared),
    (callscript, "run", write_clears_nothing_by_8),
    (callscript, "run", idle_clears),
    (callscript, "run", idle_before_rows),
    (callscript, "run", refused_read_replaces),
    (callscript, "run", fresh_leaves_ports),
    (callscript, "run", fresh_of_held_words),
]
WRONG_CALLS += [(calls.Memory, "read", wrong) for wrong in wrongreads.WRONG_READS]
WRONG_CALLS += [(calls.Memory, "write", wrong) for wrong in wrongwrites.WRONG_WRITES]


class Orders(unittest.TestCase):
    """The order of building, and the table of calls that pins it."""

    def test_every_line_is_the_second_programs(self):
        self.assertEqual(self.telling.faults(), [])

    def test_every_wrong_order_is_told_by_a_line(self):
        self.telling.search(40)
        self.assertEqual(self.telling.untold, {})

    def test_most_wrong_orders_are_told(self):
        self.assertGreater(len(self.telling.told), 3800)

    def test_every_wrong_order_of_a_formula_is_told_by_a_computed_call(self):
        self.assertEqual(wrongorders.untold_formulas()[0], [])

    def test_every_line_of_units_is_the_truth_tables(self):
        self.assertEqual(unitorders.faults(), [])

    def test_each_wrong_line_of_units_is_told(self):
        table = unitorders.read_table()
        for name, (line, made, answer) in table.items():
            for wrong in ((line, made[3:], answer), (line, made, answer[::-1] + [0])):
                self.assertIn(name, "".join(unitorders.faults({**table, name: wrong})))

    @classmethod
    def setUpClass(cls):
        cls.telling = wrongorders.Telling()


class WrongPrograms(unittest.TestCase):
    def test_stored_cases_find_each(self):
        stored = [case for case in stored_cases() if len(case.data) < 5000 and not derived(case)]
        for place, name, wrong in WRONG:
            with planted(place, name, wrong):
                self.assertTrue(any(differs(case) for case in stored), wrong.__name__)

    def test_random_cases_find_each(self):
        """But for the limits, which few random cases meet."""
        limits = [no_last_node, one_entry_more, assert_builds_before_8, *wrongwrites.WRONG_LIMITS]
        expected = []
        for seed in range(500):
            data, _ = randomcases.random_bytes(seed)
            expected.append((data, memcase(data)))
        for place, name, wrong in WRONG:
            if wrong not in limits:
                with planted(place, name, wrong):
                    self.assertTrue(any(memcase(data) != text for data, text in expected), wrong.__name__)

    def test_stored_calls_find_each(self):
        """Each wrong program of the calls answers or leaves something else somewhere."""
        right = calls_output()
        for place, name, wrong in WRONG_CALLS:
            with planted(place, name, wrong):
                self.assertNotEqual(calls_output(), right, wrong.__name__)


def calls_output():
    """What the small stored calls print, or what is said where one is not as it was meant."""
    try:
        return memorycalls.script(memorycalls.SMALL).output()
    except AssertionError as error:
        return str(error)


def derived(case):
    return case.name.startswith(("parity-56", "one-of-2-56", "work"))


def differs(case):
    data = case.data[:papers.INPUT_BYTES] if case.through == "memcase" else case.data
    outcome = run_case(data, *case.lengths)
    return (printed(outcome), outcome.record) != (case.out, case.record)


class Texts(unittest.TestCase):
    def test_examples(self):
        with open(os.path.join(ROOT, "examples", "worked.txt"), encoding="utf-8") as file:
            self.assertEqual(casetext.encode(file.read()), rowcases.WORKED)

    def test_round_trip(self):
        trips = 0
        for seed in range(500):
            data, _ = randomcases.random_bytes(seed)
            try:
                text = casetext.decode(data)
            except NotACaseFile:
                continue
            trips += 1
            self.assertEqual(casetext.encode(text), data)
            self.assertEqual(parse(data).bytes(), data)
        self.assertGreater(trips, 200)

    def test_mistakes_name_the_line(self):
        start = "memory n=1 w=1\n"
        mistakes = ["read enable=1 address=0\n", start + "read enable=1 address=00\n",
                    start + "read enable=1 address=a\n", start + "node 3 = (8 0 1)\n",
                    start + "node a = (8 0 1)\nread enable=a address=0\n", start + "write enable=1 address=0\n",
                    start + "check b=70000 address=0 data=0\n", start + "jump\n", start + start,
                    start + "read enable=1 address=0\nnode a = (8 0 1)\n", start + "node A = (8 0 1)\n",
                    start + "node a = (8 0 1)\nnode a = (8 1 0)\n", "memory n=256 w=1\n",
                    start + "read port=256 enable=1 address=0\n", start + "read port=a enable=1 address=0\n",
                    start + "read port=1 port=1 enable=1 address=0\n", start + "write port=1 enable=1 address=0 data=0\n"]
        for text in mistakes:
            with self.assertRaisesRegex(casetext.Mistake, "line %d: " % text.count("\n")):
                casetext.encode(text)

    def test_port(self):
        """Port 0 where it is left out; any that a byte can say, and decode prints it."""
        read = "enable=1 address=0\n"
        data = casetext.encode("memory n=1 w=1\nread %sread port=3 %sread port=4 %s" % (read, read, read))
        self.assertEqual([access.port for access in parse(data).accesses], [0, 3, 4])
        lines = casetext.decode(data).splitlines()[1:]
        self.assertEqual(lines, ["read port=%d enable=1 address=0" % port for port in (0, 3, 4)])

    def test_complement_of_b(self):
        text = "memory n=1 w=1\nnode a = (8 0 1)\nnode c = (8 1 0)\ncheck b=!a address=0 data=0\n"
        self.assertEqual(parse(casetext.encode(text)).accesses[0].control, [3])

    def test_order_of_bits(self):
        data = casetext.encode("memory n=2 w=3\nnode a = (8 0 1)\nnode b = (8 1 0)\n"
                               "write enable=!a address=0,a data=1X0\n")
        access = parse(data).accesses[0]
        self.assertEqual(access.control, [3, 2])
        self.assertEqual(access.address, [(2, 3), ZERO])
        self.assertEqual(access.data, [ZERO, X, ONE])


class Numbers(unittest.TestCase):
    def test_generator(self):
        """The published first numbers of the generator for seed 1234567."""
        rng = Random(1234567)
        self.assertEqual([rng.next() for _ in range(3)],
                         [6457827717110365317, 3203168211198807973, 9817491932198370423])


if __name__ == "__main__":
    unittest.main()
