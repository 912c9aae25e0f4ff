#!/usr/bin/env python3
"""Tests of `casetext.py run`; a few seconds.

    python3 tests/test_run.py [-v] [--archive FILE].. [Archives]

What is shown in names is read back by another reader and compared, under every assignment, with the second program's
text; witnesses are held to all plain runs.  The second program stands in for the archive, so that nothing has to be
built; where an archive is there, built in the clone or named, it must show the same to the byte (`Archives` alone
tests that).
"""

import contextlib
import io
import os
import re
import shlex
import shutil
import subprocess
import sys
import tempfile
import unittest
import xml.etree.ElementTree
from itertools import product

from rooms import ROOT, TOOLS
import secondmodel
import shownanswers
import storedcases
from common.casefile import ONE, X, ZERO, CaseFile
from common.diagrams import FALSE, TRUE, Diagrams
from common.randomcases import Random, random_bytes, small, tiny, without_refusals
from common.simulatorruns import Misuse
from language import casetext, traces
from papers import ASSERT, CHECK, READ, USER_VARIABLE, WRITE
from randompairs import text_value
from running import archive, dot, readable, refusals, runcommand, witnesses
from second import plain
from second.reference import memcase, run_case

REFERENCE = shlex.join([sys.executable, os.path.join(TOOLS, "reference.py")])
ARCHIVES = []


def show(*words, find=secondmodel.find):
    """The status of a run inside this process, what it printed and what it complained."""
    out, errors = io.StringIO(), io.StringIO()
    with contextlib.redirect_stdout(out), contextlib.redirect_stderr(errors):
        try:
            runcommand.main(list(words), find)
        except SystemExit as end:
            return end.code, out.getvalue(), errors.getvalue()
    raise AssertionError("main came back")


def read(path):
    with open(os.path.join(ROOT, path), encoding="utf-8") as file:
        return file.read()


class Files(unittest.TestCase):
    """A folder for each test."""

    def setUp(self):
        self.folder = tempfile.mkdtemp()
        self.addCleanup(shutil.rmtree, self.folder)

    def put(self, name, data):
        path = os.path.join(self.folder, name)
        with open(path, "wb") as file:
            file.write(data if isinstance(data, bytes) else data.encode("utf-8"))
        return path

    def expect(self, name, data, status, lines, *options):
        """A run's status and its last lines."""
        found = show(self.put(name, data), *options)
        self.assertEqual(found[0], status, found)
        self.assertEqual(found[1].splitlines()[-len(lines):], lines)
        self.assertEqual(found[2], "")

    def expect_misuse(self, message, *words, find=secondmodel.find):
        status, out, errors = show(*words, find=find)
        self.assertEqual((status, out), (2, ""))
        self.assertEqual(errors.replace(self.folder + "/", ""), "casetext: %s\n" % message)


# Names for random cases

def user_variables(case):
    return sorted({node[0] for node in case.nodes if node[0] >= USER_VARIABLE})


def random_names(rng, case):
    """Names for some variables, some of them bits of a vector, and for some nodes."""
    variables = user_variables(case)
    names = {}
    vector = sorted(rng.some(variables, rng.below(len(variables) + 1)) if variables else [])
    up = rng.chance(50)
    for bit, variable in enumerate(vector):
        names[variable] = "r[%d]" % (bit if up else len(vector) - 1 - bit)
    for variable in variables:
        if variable not in names and rng.chance(60):
            names[variable] = "name%d" % variable
    conditions = {number: "node%d" % number for number in range(2, len(case.nodes) + 2) if rng.chance(30)}
    return names, conditions


def values_of(case, names, conditions, assignment):
    """The values of all names under an assignment, vectors as numbers."""
    found = {"r": 0}
    for variable in range(USER_VARIABLE, 64):
        value = assignment >> variable & 1
        name = names.get(variable, "v%d" % variable)
        found[name] = found["v%d" % variable] = value
        if name.startswith("r["):
            found["r"] = 2 * found["r"] + value
    nodes = witnesses.node_values([(64, 0, 0), (64, 1, 1), *case.nodes], assignment)
    for number, name in conditions.items():
        found[name] = nodes[number]
    return found


def assignments(case):
    variables = user_variables(case)
    for values in product((0, 1), repeat=len(variables)):
        yield sum(value << variable for variable, value in zip(variables, values))


def run_of(case, names=None, conditions=None, engine=None, full=True):
    """A case run as a text with names would be, each access in a line of its own."""
    numbers = range(1, len(case.accesses) + 1)
    loaded = runcommand.Loaded("a case", case.bytes(), case, "line", numbers, ["-"] * len(case.accesses), names or {},
                            conditions or {})
    return runcommand.Running(loaded, engine or secondmodel.SecondProgram(), archive.Sizes(), full)


def shown_accesses(report):
    """The lines below each access."""
    found = []
    for line in report:
        if line.startswith("line "):
            found.append([])
        elif not line.strip():
            break
        else:
            found[-1].append(line.strip())
    return found


def letters(text, assignment):
    """The word of a read's line under an assignment, the highest bit first."""
    pairs = [[text_value(half, assignment) for half in pair] for pair in split_pairs(text)]
    return "".join({(1, 1): "X", (1, 0): "1", (0, 1): "0"}[tuple(pair)] for pair in pairs)


def split_pairs(text):
    """The two texts of each pair of a read's line."""
    found, depth = [["", ""]], 0
    half = 0
    for letter in text:
        depth += (letter == "(") - (letter == ")")
        if letter == ":" and not depth:
            half = 1
        elif letter == " " and not depth:
            found.append(["", ""])
            half = 0
        else:
            found[-1][half] += letter
    return found


class Answers(unittest.TestCase):
    """What is shown of each access is what is printed of it, under every assignment."""

    def expect_same(self, seed, case, names, conditions):
        printed = run_case(case.bytes())
        run = run_of(case, names, conditions)
        shown = shown_accesses(runcommand.Report(run).lines())
        self.assertEqual(len(shown), len(printed.events), seed)
        for assignment in assignments(case):
            values = values_of(case, names, conditions, assignment)
            for event, line, lines in zip(printed.events, printed.lines, shown):
                with self.subTest(seed=seed, assignment=assignment, line=line, lines=lines):
                    self.expect_access(event.kind, line.rstrip("\n"), lines, assignment, values)

    def expect_access(self, kind, line, lines, assignment, values):
        if kind == WRITE:
            place = line.removeprefix("write ")
            self.assertTrue(lines[0].startswith("idle: " if place == "idle" else "entered at place %s (" % place))
        elif kind == READ:
            self.assertEqual(shownanswers.shown_word(lines, values), letters(line.removeprefix("read "), assignment))
        else:
            text = line.removeprefix("check ").removeprefix("assert entered ").removeprefix("assert kept ")
            self.assertEqual(shownanswers.shown_condition(lines[0], values), text_value(text, assignment))

    def test_random_cases(self):
        for seed in range(120):
            rng = Random(7000 + seed)
            case = without_refusals((small if seed % 3 else tiny)(rng))
            self.expect_same(seed, case, *random_names(rng, case))

    def test_counts(self):
        """What is said to be added adds up to what there is at the end, and what is made is what calls make."""
        for seed in range(60):
            case = without_refusals(small(Random(8000 + seed)))
            report = list(runcommand.Report(run_of(case)).lines())
            added = [re.findall(r"\+([0-9]+) (entr|node)", lines[-1] if lines[0].startswith("idle") else lines[0])
                     for lines in shown_accesses(report)]
            entries, nodes = (sum(int(number) for line in added for number, word in line if word == one)
                              for one in ("entr", "node"))
            record = run_case(case.bytes()).record
            self.assertEqual((entries, nodes), (record.entries, record.nodes - len(case.nodes) - 2), seed)
            self.assertEqual(report[-1], "nodes: %d of 5461 (0 and 1, %d of the file, %d made); entries: %d of %d" % (
                record.nodes, len(case.nodes), nodes, entries, 16384 // (2 + 2 * case.n + 2 * case.w)))

    def test_program(self):
        """A program shows the same but for nodes."""
        path = os.path.join(ROOT, "examples", "registers.txt")
        program = archive.Program(shlex.split(REFERENCE), 60)
        status, out, _ = show(path, find=lambda *_: (program, None))
        other, right, _ = show(path)
        without = re.sub(r" \(nothing added\)|(?:, |(?<=\())\+[0-9]+ nodes?", "", right).replace(" ()", "")
        without = re.sub(r"nodes: .*; entries: ([0-9]+) of .*", r"entries: \1", without)
        self.assertEqual((status, out), (other, without))


class Texts(unittest.TestCase):
    """Conditions as texts."""

    def random_condition(self, rng, diagrams, variables):
        if not variables:
            return rng.below(2)
        return diagrams.make(variables[0], self.random_condition(rng, diagrams, variables[1:]),
                             self.random_condition(rng, diagrams, variables[1:]))

    def test_random_conditions(self):
        for seed in range(400):
            rng = Random(9000 + seed)
            diagrams = Diagrams()
            variables = [8, 9, 12, 20, 63][:rng.between(1, 5)]
            case = CaseFile()
            named = self.random_condition(rng, diagrams, variables[:3])
            names = readable.Names(diagrams, [], {variables[0]: "r[1]", variables[-1]: "r[0]"}, {})
            if named > TRUE:
                names.add(named, "hit")
            f = self.random_condition(rng, diagrams, variables)
            text = readable.Readable(diagrams, names, full=True).condition(f)
            for values in product((0, 1), repeat=len(variables)):
                assignment = sum(value << variable for variable, value in zip(variables, values))
                known = values_of(case, names.variables, {}, assignment)
                known["hit"] = int(diagrams.value(named, assignment))
                self.assertEqual(shownanswers.condition_value(text, known), diagrams.value(f, assignment), (seed, text))

    def test_forms(self):
        """Each form that a reader of the text expects."""
        diagrams = Diagrams()
        variables = {8: "we", 9: "r[1]", 10: "r[0]", 11: "d"}
        names = readable.Names(diagrams, [], variables, {})
        we, high, low, d = (diagrams.make(variable, FALSE, TRUE) for variable in variables)
        shown = readable.Readable(diagrams, names)
        five = diagrams.and_(high, diagrams.not_(low))
        hit = diagrams.and_(we, five)
        self.assertEqual(shown.condition(hit), "we & r == 2")
        self.assertEqual(shown.condition(diagrams.not_(hit)), "!we | r != 2")
        self.assertEqual(shown.condition(diagrams.or_(five, d)), "d | r == 2")
        self.assertEqual(shown.condition(diagrams.ite(we, diagrams.not_(d), d)), "we ^ d")
        names.add(hit, "hit")
        shown = readable.Readable(diagrams, names)
        self.assertEqual(shown.condition(diagrams.not_(hit)), "!hit")
        self.assertEqual(shown.condition(diagrams.and_(hit, d)), "hit & d")
        self.assertEqual(shown.condition(diagrams.or_(diagrams.not_(hit), d)), "!hit | d")
        word = [(diagrams.ite(hit, bit, FALSE), diagrams.not_(diagrams.ite(hit, bit, FALSE))) for bit in (low, high, d)]
        self.assertEqual(shown.word(word), ("by case", ["where hit: d,10", "else: 000 = 0x0"]))
        self.assertEqual(shown.word([ZERO, ONE, X, ONE]), ("1X10", []))
        self.assertEqual(shown.word([ZERO, ONE, ONE, ONE, ZERO]), ("01110 = 0x0e", []))
        bits = [(low, diagrams.not_(low)), (high, diagrams.not_(high)), ONE]
        self.assertEqual(shown.word(bits), ("1,r[1:0]", []))
        self.assertEqual(shown.word(bits[::-1]), ("r[0:1],1", []))
        self.assertEqual(shown.word([bits[1], bits[0], bits[1]]), ("r[1:0],r[1]", []))
        self.assertEqual(shown.word([bits[0], bits[0], bits[1][::-1]]), ("!r[1],r[0],r[0]", []))
        self.assertEqual(names.assignment([(8, 1), (9, 0), (10, 1)]), "we=1 r=01")
        self.assertEqual(names.assignment([(9, 0), (11, 1)]), "r[1]=0 d=1")

    def test_names(self):
        """A vector's highest bit is its first variable, whichever way its indices go; and names that are alike."""
        diagrams = Diagrams()
        names = readable.Names(diagrams, [], {8: "up[0]", 9: "up[1]", 12: "down[4]", 13: "down[3]", 14: "down[2]",
                                              20: "v21", 30: "odd[1]", 31: "odd[3]"}, {})
        self.assertEqual(names.assignment([(8, 1), (9, 0), (12, 1), (14, 0), (20, 1), (21, 0), (30, 1), (31, 0)]),
                         "up=10 down=1-0 v21=1 vv21=0 odd[1]=1 odd[3]=0")
        self.assertEqual(names.numbered("v21"), diagrams.make(20, FALSE, TRUE))
        self.assertEqual(names.numbered("vv21"), diagrams.make(21, FALSE, TRUE))
        self.assertIsNone(names.numbered("v7"))
        names = readable.Names(diagrams, [(8, 1, 0), (8, 0, 1), (9, 1, 0)], {}, {2: "empty", 3: "full", 4: "idle"})
        self.assertEqual([names.literal(*value) for value in ((8, 0), (8, 1), (9, 0), (9, 1))],
                         ["!full", "full", "idle", "!idle"])
        self.assertEqual(names.numbered("empty"), diagrams.make(8, TRUE, FALSE))

    def test_long_conditions_are_cut(self):
        """A condition of many variables, with a text that would be too long for any memory, ends at once."""
        diagrams = Diagrams()
        f = FALSE
        for variable in range(63, 7, -1):
            f = diagrams.make(variable, f, diagrams.not_(f)) if variable % 2 else diagrams.ite(
                diagrams.make(variable, FALSE, TRUE), diagrams.make(variable + 1, f, TRUE), f)
        shown = readable.Readable(diagrams, readable.Names(diagrams, [], {}, {}))
        self.assertRegex(shown.condition(f), r"\.\. \(cut: [0-9]+ nodes\)\Z")
        self.assertLess(len(shown.condition(f)), 130)
        whole = readable.Readable(diagrams, readable.Names(diagrams, [], {}, {}), full=True)
        self.assertGreater(len(whole.condition(f)), 130)


# Witnesses

def plain_choice(event, choice):
    """Whether a choice is one of a plain event (tools/plain.py)."""
    control = event.control if isinstance(event.control, list) else [event.control]
    stores = event.kind == WRITE or event.kind == ASSERT and event.control
    return (choice.enable in control and choice.location in event.locations
            and (not stores or choice.word in event.words))


def plain_found(case, events, run):
    """The word that the last of some plain events finds in a run, stepped by tools/plain.py; None of what is no run."""
    array = tuple(run.start.get(location, 0) for location in range(1 << case.n))
    for event, choice in zip(events[:-1], run.choices):
        if not plain_choice(event, choice):
            return None
        if event.kind in (WRITE, ASSERT) and event.control:
            chosen = event._replace(control=[choice.enable] if event.kind == WRITE else 1, locations=[choice.location],
                                    words=[choice.word])
            (array, _), = plain.after_event(array, (), chosen)
        elif event.kind == CHECK and not plain.allowed(array, event._replace(locations=[choice.location])):
            return None
    return array[run.choices[-1].location] if plain_choice(events[-1], run.choices[-1]) else None


class Witnesses(unittest.TestCase):
    """A witness is there exactly where a check condition is not 1, and is one."""

    def test_exactly_where_a_check_fails(self):
        """Each check of each case under each assignment: a run is found exactly where all plain runs say so."""
        found = 0
        for seed in range(600):
            case = without_refusals(tiny(Random(5000 + seed)))
            outcome = run_case(case.bytes())
            words = [(64, 0, 0), (64, 1, 1), *triples(outcome)]
            for place in plain.user_assignments(outcome.conditions):
                assignment = number_of_place(outcome.conditions, place)
                values = witnesses.node_values(words, assignment)
                events = [witnesses.event_of(values, access) for access in case.accesses]
                plains = [plain.plain_event(event, place) for event in outcome.events]
                for number in checks_up_to_the_first_failure(plains, case):
                    run = witnesses.find_run(events[:number + 1], case.w)
                    fails = not all_allowed(plains[:number + 1], case)
                    self.assertEqual(run is not None, fails, (seed, assignment, number))
                    if run:
                        found += 1
                        self.expect_run(case, events[:number + 1], plains[:number + 1], run)
        self.assertGreater(found, 200)

    def expect_run(self, case, events, plains, run):
        word = plain_found(case, plains, run)
        self.assertEqual(word, run.word)
        self.assertNotIn(word, plains[-1].words)
        self.assertEqual(witnesses.replay(case.n, events, run), word)
        self.assertTrue(witnesses.shows_failure(case.n, events, run))

    def test_shown(self):
        """What is shown of a case: a witness exactly where its last check condition is not 1, the assignment is one
        under which the check fails and no value of it can be left out, and no run is missing."""
        shown = 0
        for seed in range(150):
            rng = Random(6000 + seed)
            case = without_refusals(small(rng))
            names, conditions = random_names(rng, case)
            run = run_of(case, names, conditions)
            lines = list(runcommand.Witnesses(run).lines())
            table = run_case(case.bytes()).check_table
            fails = table != run_case(case.bytes()).conditions.true
            self.assertEqual(any(line.startswith("the check at") for line in lines), fails, seed)
            self.assertFalse(any("no plain run" in line for line in lines), seed)
            if fails:
                shown += 1
                self.expect_first(run, lines)
        self.assertGreater(shown, 40)

    def expect_first(self, run, lines):
        first = next(line for line in lines if line.startswith("the check at line "))
        number, where = next(witnesses.falls(run.diagrams, run.case.accesses, run.outcome.answers))
        self.assertIn("at line %d fails" % (number + 1), first)
        values = witnesses.fewest_values(run.diagrams, where)
        self.assertEqual(run.diagrams.but_not(witnesses.cube(run.diagrams, values), where), FALSE)
        for value in values:
            fewer = witnesses.cube(run.diagrams, [other for other in values if other != value])
            self.assertNotEqual(run.diagrams.but_not(fewer, where), FALSE)
        self.assertTrue(lines[-1].startswith(("    line", "the check at", "and so do", "    no access")), lines[-1])

    def test_wrong_runs(self):
        """Runs that are none are found out: a choice that is not admitted, and one that finds what is allowed."""
        events = [witnesses.Event(WRITE, 0, "X", "0X", "1X"), witnesses.Event(CHECK, 0, "1", "01", "11")]
        run = witnesses.find_run(events, 2)
        self.assertEqual(run.choices, [witnesses.Choice(1, 1, 0b10), witnesses.Choice(1, 1, None)])
        self.assertTrue(witnesses.shows_failure(2, events, run))
        for wrong in (witnesses.Choice(1, 2, 0b10), witnesses.Choice(1, 1, 0b01), witnesses.Choice(0, 1, 0b11),
                      witnesses.Choice(1, 1, 0b11)):
            self.assertFalse(witnesses.shows_failure(2, events, run._replace(choices=[wrong, run.choices[1]])))
        self.assertFalse(witnesses.shows_failure(2, events, run._replace(word=0b00)))
        self.assertTrue(witnesses.find_run([events[0]._replace(data="11"), events[1]], 2).start)
        must = events[0]._replace(control="1", address="01", data="11")
        self.assertIsNone(witnesses.find_run([must, events[1]], 2))
        self.assertIsNone(witnesses.find_run([events[0], events[1]._replace(control="0")], 2))
        self.assertIsNone(witnesses.find_run([events[0], events[1]._replace(data="XX")], 2))

    def test_large_memory(self):
        """256 locations of 16 bits, of which any may be meant."""
        case = CaseFile(8, 16)
        case.write(ONE, [X] * 8, [ONE] * 16)
        for _ in range(200):
            case.write(X, [X] * 7 + [ONE], [ONE] * 15 + [ZERO])
        case.check(1, [X] * 8, [ONE] * 16)
        run = run_of(case)
        lines = list(runcommand.Witnesses(run).lines())
        self.assertEqual(lines[0], "the check at line 202 fails under every assignment")
        self.assertIn("line 201: write, its enable X taken as 1, its address 1XXXXXXX taken as 10000000: stores "
                      "0111111111111111 = 0x7fff in location 128", lines[-2])
        self.assertIn("finds 0111111111111111 = 0x7fff in location 128", lines[-1])

    def test_wrong_model(self):
        """A simulator that falsely says that a check fails is found out."""
        class Wrong(secondmodel.SecondProgram):
            has_calls = False

            def case(self, data, sizes):
                printed = super().case(data, sizes)
                return printed._replace(text=printed.text.replace("check 1", "check 0"))

        case = CaseFile()
        case.write(ONE, [ZERO], [ONE])
        case.check(1, [ZERO], [ONE])
        lines = list(runcommand.Witnesses(run_of(case, engine=Wrong())).lines())
        self.assertEqual(lines[-1], "  no plain run shows it: what the model answered is wrong")


def triples(outcome):
    """The words of the nodes of a case that ran, from node 2 up."""
    words = outcome.conditions.words(2)
    return [tuple(words[place:place + 3]) for place in range(0, len(words), 3)]


def number_of_place(conditions, place):
    """A place in a table as an assignment."""
    return sum((place >> bit & 1) << variable for bit, variable in enumerate(conditions.variables))


def all_allowed(plains, case):
    """Whether the last of some plain events allows all that it may find, by all plain runs."""
    states = set(plain.contents(case.n, case.w))
    for event in plains[:-1]:
        if event.kind != READ:
            states = {after for array in states for after, _ in plain.after_event(array, (), event)}
    return all(plain.allowed(array, plains[-1]) for array in states)


def checks_up_to_the_first_failure(plains, case):
    """The checks before which every check holds."""
    for number, event in enumerate(plains):
        if event.kind == CHECK:
            yield number
            if not all_allowed(plains[:number + 1], case):
                return


class Refusals(Files):
    """Each row in words, with its line and what can be told."""

    HEAD = "memory n=1 w=1\nnode a = (8 0 1)\nnode b = (9 0 1)\nnode i = (3 0 1)\nread enable=1 address=0\n"

    def expect_row(self, row, lines, access, *more, head=HEAD):
        width = len("line 6  ")
        self.expect("x.txt", head + access + "\n", 3, [
            "line 6  " + access, " " * width + refusals.sentence(row), *(" " * width + line for line in lines),
            "", *more])

    def test_rows_of_accesses(self):
        total = "nodes: 7 of 5461 (0 and 1, 3 of the file, 2 made); entries: 0 of 2730"
        self.expect_row(5, ["data bit 0 names node 99, and there are nodes 0 to 6"],
                        "write enable=1 address=0 data=99:0", total)
        self.expect_row(5, ["enable names node 4, which is on variable 3"], "write enable=i:1 address=0 data=1", total)
        self.expect_row(6, ["address bit 0 is neither 1 nor 0 under a=0 b=0"],
                        "write enable=1 address=a:b data=1", total)
        self.expect_row(6, ["data bit 0 is neither 1 nor 0 under every assignment"], "check b=1 address=0 data=0:0",
                        total)
        self.expect_row(7, ["address bit 0 is X, and b holds, under a=1 b=1"], "assert b=a address=1:b data=1", total)
        self.expect_row(14, ["the port is 4, and ports are 0 to 3"], "read port=4 enable=1 address=0", total)

    def test_rows_of_space(self):
        head = self.HEAD.replace("node i = (3 0 1)\n", "")
        text = head + "write enable=1 address=0 data=a:1\nread enable=1 address=0\n"
        self.expect("x.txt", text, 3, [
            "line 5  write enable=1 address=0 data=a:1",
            "        " + refusals.sentence(8), "        the list has room for 0 entries",
            "        give more by --entries, at most 4096", "",
            "nodes: 6 of 5461 (0 and 1, 2 of the file, 2 made); entries: 0 of 0"], "--entries", "0")
        needed = run_case(casetext.encode(text)).record.nodes
        self.expect("x.txt", text, 0, [
            "nodes: %d of %d (0 and 1, 2 of the file, %d made); entries: 1 of 1" % (needed, needed, needed - 4)],
            "--nodes", str(needed), "--entries", "1")
        self.expect("x.txt", text, 3, [
            "line 6  read enable=1 address=0",
            "        " + refusals.sentence(9), "        there is room for %d nodes" % (needed - 1),
            "        give more by --nodes, at most 16384", "",
            "nodes: 6 of %d (0 and 1, 2 of the file, 2 made); entries: 1 of 2730" % (needed - 1)],
            "--nodes", str(needed - 1))
        self.expect("x.txt", text, 3, [
            "line 6  read enable=1 address=0",
            "        " + refusals.sentence(13), "        the text has room for 20 bytes; give more by --text, or make "
            "the read a check, which prints one condition", "",
            "nodes: 6 of 5461 (0 and 1, 2 of the file, 2 made); entries: 1 of 2730"], "--text", "20")
        self.expect("x.txt", text, 3, ["with 0 and 1 there are 4 nodes, and there is room for 3",
                                       "give more by --nodes, at most 16384"], "--nodes", "3")

    def test_text_of_a_program(self):
        """A program whose text is too short tells no answers before the refusal, but the line of it."""
        program = archive.Program(shlex.split(REFERENCE) + ["--text-bytes", "10"], 60)
        path = self.put("x.txt", self.HEAD + "read enable=1 address=1\n")
        self.assertEqual(show(path, find=lambda *_: (program, None)), (3, "\n".join([
            "line 6  read enable=1 address=1", "        " + refusals.sentence(13),
            "        the text of the program has no room: give more by --text, which needs the archive, or make the "
            "read a check, which prints one condition", ""]), ""))

    def test_full_text(self):
        """The last line alone does not fit: every answer is shown."""
        text = run_case(casetext.encode(self.HEAD)).text
        status, out, _ = show(self.put("x.txt", self.HEAD), "--text", str(len(text) - 1))
        self.assertEqual(status, 3)
        self.assertEqual(out.splitlines()[:4], [
            "line 5  read enable=1 address=0", "        word X (+2 nodes)", refusals.sentence(13),
            "the text has room for %d bytes; give more by --text" % (len(text) - 1)])

    def test_text_of_memcase(self):
        """The parity of 14 variables does not fit as a word that is read; a check of it does."""
        head = "memory n=1 w=1\nvariable a[13:0]\nlet odd = %s\nwrite enable=1 address=0 data=odd\n" % " ^ ".join(
            "a%d" % bit for bit in range(14))
        status, out, _ = show(self.put("x.txt", head + "read enable=1 address=0\n"))
        self.assertEqual((status, out.splitlines()[-3:-1]), (3, [
            "        the text has room for 65536 bytes, as in `memcase`; give more by --text, or make the read a "
            "check, which prints one condition", ""]))
        self.assertEqual(show(self.put("x.txt", head + "check b=1 address=0 data=odd\n"))[0], 0)

    def test_vectors_without_room(self):
        """Two vectors one behind the other need more nodes than where their bits alternate, and a line says so."""
        text = "memory n=1 w=1\nvariable a[3:0]%s\nvariable b[3:0]%s\nlet same = a == b\n" \
            "write enable=same address=0 data=1\nread enable=1 address=0\n"
        apart = text % ("", "")
        room = run_case(casetext.encode(apart)).record.nodes - 1
        self.expect("x.txt", apart, 3, [
            "        there is room for %d nodes" % room, "        give more by --nodes, at most 16384",
            "        vectors that are compared may need fewer nodes where their bits alternate (`a[4:0] = 8 step 2`)",
            "", show(self.put("x.txt", apart), "--nodes", str(room))[1].splitlines()[-1]], "--nodes", str(room))
        self.assertEqual(show(self.put("x.txt", text % (" = 8 step 2", " = 9 step 2")), "--nodes", str(room))[0], 0)

    def full_text(self, more=0):
        """A text whose case file has 65,536 bytes, and 97 for each access more."""
        nodes = [(variable, low, 1 - low) for variable in range(8, 14) for low in (0, 1)][:11]
        return "\n".join(["memory n=7 w=16", *("node %d = (%d %d %d)" % (number, *node)
                                               for number, node in enumerate(nodes, 2)),
                          *["write enable=0 address=%s data=%s" % ("0" * 7, "0" * 16)] * (675 + more)])

    def test_longer_than_memcase_reads(self):
        """Files of 65,536 bytes and of more, beside what the second program says of what `memcase` reads of them."""
        for more in (0, 1):
            text = self.full_text(more)
            data = casetext.encode(text)
            self.assertEqual(len(data), 65536 + 97 * more)
            self.assertEqual(memcase(data).startswith("refused"), bool(more))
            for name, given, what in (("x.txt", text, "its case file"), ("x.case", data, "the file")):
                status, out, _ = show(self.put(name, given))
                said = "%s has %d bytes, and `memcase` reads the first 65536: it refuses this case" % (what, len(data))
                self.assertEqual((status, said in out.splitlines()), (0, bool(more)))
                self.assertEqual(out.splitlines()[-1].startswith("nodes: "), not more)

    def test_bytes_that_memcase_does_not_read(self):
        """Of a case of 65,536 bytes with one more behind it `memcase` reads the case alone, and accepts it."""
        data = casetext.encode(self.full_text()) + b"!"
        self.assertTrue(memcase(data).endswith("end 0\n"))
        status, out, _ = show(self.put("x.case", data))
        self.assertEqual((status, out.splitlines()[-1]), (
            3, "the file has 65537 bytes, and `memcase` reads the first 65536"))

    def test_rows_of_files(self):
        worked = storedcases.named("worked").data
        for data, lines in (
                (b"\x09" + worked[1:], [refusals.sentence(1), "n is 9 and w is 1"]),
                (worked[:9] + b"\x08\x02\x00\x02\x00" + worked[14:], [
                    refusals.sentence(2), "node 3, (8 2 2), is the first that is not: its children are the same node"]),
                (worked[:20], [refusals.sentence(10), "it has 20 bytes", "",
                               "nodes: 4 of 5461 (0 and 1, 2 of the file, 0 made); entries: 0 of 2730"]),
                (b"\x09\x01\x05", [refusals.sentence(1), "n is 9 and w is 1"]),
                (worked[:1], [refusals.sentence(10), "it has 1 byte", "",
                              "nodes: 2 of 5461 (0 and 1, 0 of the file, 0 made); entries: 0 of 2730"]),
                (worked[:39] + b"\x05" + worked[40:], [
                    refusals.sentence(11),
                    "byte 39, counted from 0, is 5; 1 is a write, 2 a read, 3 an assert, 4 a check", "",
                    "nodes: 10 of 5461 (0 and 1, 2 of the file, 6 made); entries: 1 of 2730"]),
                (worked + b"!", [refusals.sentence(12), "the last access ends after 50 of 51 bytes", "",
                                 "nodes: 10 of 5461 (0 and 1, 2 of the file, 6 made); entries: 1 of 2730"])):
            with self.subTest(lines=lines):
                self.expect("x.case", data, 3, lines)

    def test_as_the_table_says(self):
        """The table of the page on cases is the header's."""
        table = re.findall(r"^\| ([0-9]+) \| (.*) \|$", read("docs/CASES.md"), re.MULTILINE)
        self.assertEqual([(int(row), words) for row, words in table], sorted(refusals.ROWS.items()))

    def test_stored_cases(self):
        """Every stored case that tables do: the row, and after how many accesses, are those that are stored."""
        for case in storedcases.all_cases():
            if case.through != "memcase" or len(case.data) > 400 or not case.row:
                continue
            with self.subTest(case.name):
                status, out, _ = show(self.put("x.case", case.data))
                self.assertEqual(status, 3)
                self.assertIn("refused by row %d: " % case.row, out)
                heads = [line for line in out.splitlines() if line.startswith("access ")]
                self.assertEqual(len(heads), case.count + (case.row in (5, 6, 7, 8, 9, 13, 14)))


class Traces(Files):
    """A trace is run as its text is, and shown by its own lines."""

    def test_example(self):
        with open(os.path.join(ROOT, "examples", "regfile.csv"), "rb") as file:
            text = traces.text_of(file.read())
        as_text, as_trace = show(self.put("x.txt", text)), show(os.path.join(ROOT, "examples", "regfile.csv"))
        self.assertEqual((as_text[0], as_text[2]), (as_trace[0], as_trace[2]))
        place = re.compile(r"^line [0-9]+ +", re.MULTILINE)
        self.assertEqual(place.sub("", as_text[1]), place.sub("", as_trace[1]))
        lines = re.findall(r"# line ([0-9]+)", text)
        self.assertEqual(re.findall(r"^line ([0-9]+)", as_trace[1], re.MULTILINE), lines)

    def test_mistakes(self):
        table = "# memory n=1 w=1\nkind,port,enable,address,data,b\nwrite,,1,2,1,\n"
        self.expect_misuse("x.csv is no text of a case: line 3, column address: `2` is no word of bits: a decimal word "
                           "is written 0d2", self.put("x.csv", table))
        self.expect_misuse("x.csv is no text in UTF-8 (byte 0xff in line 1): save it as UTF-8; a case file is "
                           "named .case", self.put("x.csv", b"\xff"))
        self.expect_misuse("x.csv is no text of a case: say the address bits and data bits: a line `# memory n=5 w=16` "
                           "above the header", self.put("x.csv", "kind,address\nread,x\n"))

    def test_lost_unknown(self):
        """A check of a word that was written to an unknown address does not hold, and z is not another name for it."""
        table = "# memory n=1 w=4\nkind,address:dec,data:hex\nwrite,%s,5\ncheck,%s,5\n"
        self.assertEqual(show(self.put("x.csv", table % ("x", "x")))[0], 1)
        self.expect_misuse("x.csv is no text of a case: line 3, column address: `z` is no value here: write x for "
                           "unknown, or declare it above the header (`# variable z`) if it is a name",
                           self.put("x.csv", table % ("z", "z")))


class Pictures(Files):
    """Conditions as graphs."""

    def value(self, text, names, assignment):
        """The value of a graph under an assignment, from its first node on."""
        label = dict(re.findall(r'^ +(n[0-9]+) \[.*label="([^"]*)"\];$', text, re.MULTILINE))
        low = dict(re.findall(r"^ +(n[0-9]+) -> (n[0-9]+) \[style=dashed\];$", text, re.MULTILINE))
        high = dict(re.findall(r"^ +(n[0-9]+) -> (n[0-9]+);$", text, re.MULTILINE))
        self.assertEqual(set(low), set(high))
        root, = set(label) - set(low.values()) - set(high.values()) if low else set(label)
        while label[root] not in ("0", "1"):
            root = (high if assignment >> names[label[root]] & 1 else low)[root]
        return int(label[root])

    def test_values(self):
        for seed in range(60):
            rng = Random(3000 + seed)
            case = without_refusals(small(rng))
            names, conditions = random_names(rng, case)
            run = run_of(case, names, conditions)
            for number, (access, line) in enumerate(zip(case.accesses, run.outcome.lines), 1):
                if access.kind == WRITE:
                    continue
                what, text = str(number), re.sub(r"^(check|assert (entered|kept)) ", "", line)
                if access.kind == READ:
                    what, text = "%d:%d:l" % (number, case.w - 1), split_pairs(line.removeprefix("read "))[0][1]
                graph = dot.graph(run.diagrams, runcommand.chosen_condition(run, what)[0], run.names, "x")
                numbers = {run.names.variable(variable): variable for variable in range(8, 64)}
                for assignment in assignments(case):
                    self.assertEqual(self.value(graph, numbers, assignment), text_value(text, assignment))

    def test_graph(self):
        diagrams = Diagrams()
        f = diagrams.make(8, TRUE, diagrams.make(10, TRUE, FALSE))
        names = readable.Names(diagrams, [], {8: "loaded"}, {})
        self.assertEqual(dot.graph(diagrams, f, names, 'a "title"').splitlines(), [
            "digraph condition {", '    label="a \\"title\\""; labelloc=t;', '    n0 [shape=box, label="0"];',
            '    n1 [shape=box, label="1"];', '    n2 [label="v10"];', '    n3 [label="loaded"];',
            "    n2 -> n1 [style=dashed];", "    n2 -> n0;", "    n3 -> n1 [style=dashed];", "    n3 -> n2;",
            "    { rank=same; n0; n1; }", "}"])

    def test_what(self):
        """Names, the last conditions, lines and bits; and what names none."""
        for what, title in (("loaded", "loaded"), ("assert", "assert condition"),
                            ("27", "check condition after line 27"),
                            ("28:1:l", "line 28: bit 1 may be 0"), ("28:0:h", "line 28: bit 0 may be 1")):
            status, out, _ = show("examples/buffer.txt", "--dot", what)
            self.assertEqual(status, 0)
            self.assertIn('label="%s"' % title, out)
        for what in ("28", "28:2:h", "28:0:x", "26", "27:0:h", "28:0", "28:0:"):
            line = what.split(":")[0]
            message = ("%s names no condition of line %s: of a read name a bit and a half, as %s:0:h, of a check or an "
                       "assert the line alone; a write has none" % (what, line, line))
            self.expect_misuse(message, "examples/buffer.txt", "--dot", what)
        self.expect_misuse("no accepted access is at line 14", "examples/buffer.txt", "--dot", "14")
        self.expect_misuse("no condition or variable is named ready; others are `check`, `assert`, LINE and LINE:BIT:h",
                           "examples/buffer.txt", "--svg", "ready")
        self.expect_misuse("-o goes with one of --dot and --svg", "examples/buffer.txt", "-o", "x")
        path = self.put("x.txt", "memory n=5 w=1\nvariable ra[4:0]\nvariable b[0:0]\nread enable=b address=ra\n")
        self.expect_misuse("`ra` is a vector: name a bit, ra[4] to ra[0]", path, "--svg", "ra")
        self.expect_misuse("`b` is a vector: name a bit, b[0]", path, "--dot", "b")
        self.assertEqual(show(path, "--svg", "ra[4]")[0], 0)

    def test_output_file(self):
        path = os.path.join(self.folder, "x.svg")
        self.assertEqual(show("examples/buffer.txt", "--svg", "check", "-o", path), (0, "", ""))
        self.assertEqual(read(path), show("examples/buffer.txt", "--svg", "check")[1])
        self.expect_misuse("no/x.svg: No such file or directory", "examples/buffer.txt", "--svg", "check", "-o",
                           os.path.join(self.folder, "no", "x.svg"))
        self.expect_misuse("cannot write: No such file or directory", "examples/buffer.txt", "--svg", "check", "-o", "")
        self.expect_misuse("no condition or variable is named ; others are `check`, `assert`, LINE and LINE:BIT:h",
                           "examples/buffer.txt", "--svg", "")

    def test_svg(self):
        """Every node is drawn once and inside, none over another, and every edge once."""
        for seed in range(40):
            rng = Random(4000 + seed)
            diagrams = Diagrams()
            names = readable.Names(diagrams, [], {8: "a<b&c", 9: "long_name_of_a_variable"}, {})
            f = Texts().random_condition(rng, diagrams, [8, 9, 10, 11, 12, 13][:rng.between(1, 6)])
            tree = xml.etree.ElementTree.fromstring(dot.picture(diagrams, f, names, "<title> & more"))
            nodes = readable.reached(diagrams, f)
            inner = sum(node > TRUE for node in nodes)
            shapes = {tag: [one.attrib for one in tree.iter("{http://www.w3.org/2000/svg}" + tag)]
                      for tag in ("ellipse", "rect", "path")}
            self.assertEqual((len(shapes["ellipse"]), len(shapes["rect"]) - 1), (inner, len(nodes) - inner))
            dashed = [one for one in shapes["path"] if "stroke-dasharray" in one]
            self.assertEqual((len(dashed), len(shapes["path"]) - 2), (inner, 2 * inner))
            spans = [(float(one["cy"]), float(one["cx"]) - float(one["rx"]), float(one["cx"]) + float(one["rx"]))
                     for one in shapes["ellipse"]]
            for y, left, right in spans:
                self.assertTrue(0 <= left and right <= float(tree.attrib["width"]))
                self.assertEqual(sum(other == y and start < right and left < end for other, start, end in spans), 1)

    def test_too_large_for_a_picture(self):
        """Two words of 4 bits alike, and of 7, the bits of one before those of the other."""
        for bits, fits in ((4, True), (7, False)):
            pairs = ["node x%d = (%d 0 1)\nnode y%d = (%d 0 1)\nnode z%d = (%d 1 0)\n" % (
                bit, 8 + bit, bit, 40 + bit, bit, 40 + bit) for bit in range(bits)]
            alike = ["node c%d = (%d z%d y%d)\n" % (bit, 8 + bit, bit, bit) for bit in range(bits)]
            data = ",".join("c%d:1" % bit for bit in range(bits))
            path = self.put("x.txt", "memory n=1 w=%d\n%s%scheck b=1 address=0 data=%s\n" % (
                bits, "".join(pairs), "".join(alike), data))
            status, out, errors = show(path, "--svg", "check")
            self.assertEqual(status, 0 if fits else 2, errors)
            self.assertEqual(show(path, "--dot", "check")[0], 0)
            if not fits:
                self.assertRegex(errors, r"the condition has [0-9]+ nodes, and a picture at most 300; --dot writes it")


class Commands(Files):
    """The command, its statuses and its complaints."""

    def command(self, *words, data=None):
        done = subprocess.run([sys.executable, os.path.join(TOOLS, "casetext.py"), "run", *words], cwd=ROOT, input=data,
                              capture_output=True, check=False)
        return done.returncode, done.stdout.decode("ascii"), done.stderr.decode("ascii")

    def test_command(self):
        """The same by the command and inside this process, from a file and from standard input, as text and as case."""
        text = read("examples/worked.txt")
        program = archive.Program(shlex.split(REFERENCE), 60)
        status, out, errors = show("examples/worked.txt", find=lambda *_: (program, None))
        self.assertEqual((status, errors), (1, ""))
        self.assertEqual(self.command("examples/worked.txt", "--memcase", REFERENCE), (status, out, errors))
        self.assertEqual(self.command("-", "--memcase", REFERENCE, data=text.encode()), (status, out, errors))
        case = self.command("-", "--memcase", REFERENCE, data=casetext.encode(text))
        self.assertEqual(case[0], 1)
        self.assertIn("access 1  write enable=1 address=v8 data=1\n          entered at place 0 (+1 entry)\n", case[1])
        self.assertIn("access 2  read port=0 enable=1 address=0\n          word by case\n            where v8: X\n",
                      case[1])

    def test_arguments(self):
        self.assertEqual(self.command("--nodes", "x", "y"), (
            2, "", "casetext: argument --nodes: invalid int value: 'x'; --help says more\n"))
        self.assertEqual(self.command("x.csv", "--n", "5"), (
            2, "", "casetext: unrecognized arguments: --n 5; --help says more\n"))
        self.assertEqual(self.command("--help")[0], 0)

    def test_statuses(self):
        self.assertEqual(show("examples/budget.txt")[0], 0)
        self.assertEqual(show("examples/buffer.txt")[0], 1)
        self.assertEqual(show("examples/buffer.txt", "--entries", "1")[0], 3)
        self.assertEqual(show("examples/nothing.txt")[0], 2)

    def test_misuse(self):
        buffer = os.path.join(ROOT, "examples", "buffer.txt")
        self.expect_misuse("cannot read nothing.txt: No such file or directory", self.folder + "/nothing.txt")
        for data, place in ((b"\xff\xfe", "ff in line 1"), ("# a\n# \xe9".encode("latin-1"), "e9 in line 2")):
            self.expect_misuse("x.txt is no text in UTF-8 (byte 0x%s): save it as UTF-8; a case file is named "
                               ".case" % place, self.put("x.txt", data))
        self.expect_misuse("x.txt is no text of a case: the text has no `memory` line", self.put("x.txt", b""))
        for words, message in (
                (["--nodes", "1"], "--nodes must be 2 to 16384"), (["--nodes", "16385"], "--nodes must be 2 to 16384"),
                (["--entries", "-1"], "--entries must be 0 to 4096"),
                (["--text", "0"], "--text must be 1 to 1073741824"),
                (["--seconds", "0"], "--seconds must be above 0")):
            self.expect_misuse(message, buffer, *words)
        self.expect_misuse("no archive nothere; `link/install target/prefix` builds it", buffer, "--archive", "nothere",
                           find=archive.find)
        for command, message in (
                ("cat", "what the model printed is no text of this case: its last line has no newline"),
                ("false", "false crashed: it ended with status 1"), ("nosuchprogram", "no program nosuchprogram")):
            self.expect_misuse(message, buffer, "--memcase", command, find=archive.find)
        sizes = "--nodes, --entries and --text need the archive, for a program's sizes are its own; " + archive.BUILD
        self.expect_misuse(sizes, buffer, "--memcase", REFERENCE, "--nodes", "9", find=archive.find)

    def test_long_and_odd_texts(self):
        """Neither a long line nor control bytes come out as they are."""
        text = "memory n=1 w=1\nwrite enable=1 address=0 data=%s\x1b[2J\n" % ("0" * 5000)
        status, out, errors = show(self.put("x.txt", text))
        self.assertEqual((status, out), (2, ""))
        self.assertNotIn("\x1b", errors)
        text = "memory n=1 w=1\nwrite enable=1 address=0 %s data=1   # \x1b[2J\n" % (" " * 5000)
        self.expect("x.txt", text, 0, ["line 2  write enable=1 address=0 data=1",
                                       "        entered at place 0 (+1 entry)", "",
                                       "nodes: 2 of 5461 (0 and 1, 0 of the file, 0 made); entries: 1 of 2730"])

    def test_cut_off_and_random_bytes(self):
        """Any bytes as a case file end with a status that is documented, and no traceback."""
        for seed in range(60):
            data, _ = random_bytes(40000 + seed)
            for name in ("x.case", "x.txt", "x"):
                status, _, errors = show(self.put(name, data))
                self.assertIn(status, (0, 1, 2, 3))
                self.assertEqual(errors.count("\n"), int(status == 2), errors)

    def test_two_answers(self):
        """Calls that do not answer what the whole case does are an error."""
        class Counts(secondmodel.SecondProgram):
            def calls(self, case, sizes):
                found = super().calls(case, sizes)
                return found._replace(steps=self.wrong(found.steps))

        class Place(Counts):
            def wrong(self, steps):
                return [steps[0]._replace(out=7), *steps[1:]]

        class Word(Counts):
            def wrong(self, steps):
                return [steps[0], steps[1]._replace(word=[(1, 1)]), steps[2]]

        class Condition(Counts):
            def wrong(self, steps):
                return steps[:2] + [steps[2]._replace(record=steps[2].record._replace(check_condition=1))]

        class Fewer(Counts):
            def wrong(self, steps):
                return steps[:2]

        message = ("the case as a whole and its accesses one by one do not have the same answers: the archive is not "
                   "the model's; `link/install target/prefix` builds it anew")
        for engine in (Place, Word, Condition, Fewer):
            self.expect_misuse(message, "examples/worked.txt", find=lambda *_, engine=engine: (engine(), None))


def found_archive():
    """The archive that is named, or that was built; None where none is named and none was built."""
    if ARCHIVES:
        return archive.Archive(ARCHIVES)
    try:
        engine, _ = archive.find([], None, 10)
    except Misuse:
        return None
    return engine if isinstance(engine, archive.Archive) else None


class Archives(Files):
    """The archive shows the same as the second program, to the byte."""

    def setUp(self):
        super().setUp()
        self.archive = found_archive()
        if self.archive is None:
            self.skipTest("no archive or no C compiler")

    def expect_same(self, *words):
        right = show(*words)
        self.assertEqual(show(*words, find=lambda *_: (self.archive, None)), right)

    def test_examples(self):
        for name in os.listdir(os.path.join(ROOT, "examples")):
            if name.endswith(".txt"):
                self.expect_same(os.path.join(ROOT, "examples", name))

    def test_random_cases(self):
        for seed in range(80):
            self.expect_same(self.put("x.case", random_bytes(seed)[0]))

    def test_sizes(self):
        for option, sizes in (("--nodes", range(2, 70, 3)), ("--entries", range(6)), ("--text", range(1, 200, 9))):
            for size in sizes:
                self.expect_same("examples/buffer.txt", option, str(size))

    def test_large_case(self):
        """More bytes, nodes and entries than `memcase` has room for."""
        case = CaseFile(2, 2)
        for _ in range(4000):
            case.write(ONE, [ONE, ZERO], [ONE, X])
        case.read(ONE, [ONE, ZERO])
        status, out, _ = show(self.put("x.case", case.bytes()), "--entries", "4000", "--nodes", "16384",
                              find=lambda *_: (self.archive, None))
        self.assertEqual(status, 0)
        self.assertTrue(out.endswith("access 4001  read port=0 enable=1 address=01\n             word X1 (+5 nodes)\n\n"
                                     "nodes: 7 of 16384 (0 and 1, 0 of the file, 5 made); entries: 4000 of 4000\n"
                                     "the file has %d bytes, and `memcase` reads the first 65536: it refuses this case"
                                     "\n" % len(case.bytes())),
                        out[-200:])


class Documents(unittest.TestCase):
    def test_page(self):
        """What the page on running shows is what is printed."""
        section = read("docs/RUNNING.md")
        alone = [block.strip() for block in section.split("\n\n") if block.startswith("    ") and "\n" not in block]
        commands = [block for block in alone if block.startswith("python3 tools/casetext.py run ")]
        self.assertEqual(len(commands), 3)
        for command in commands:
            with self.subTest(command):
                words = shlex.split(command)[3:]
                if "-o" not in words:
                    out = show(*words)[1]
                    shown = "".join("    %s\n" % line if line else "\n" for line in out.splitlines())
                    self.assertIn("    %s\n\n%s" % (command, shown), section)
                else:
                    path = words[words.index("-o") + 1]
                    self.assertIn("](%s)" % os.path.relpath(path, "docs"), section)
                    self.assertEqual(show(*words[:words.index("-o")]), (0, read(path), ""))


if __name__ == "__main__":
    os.chdir(ROOT)
    while "--archive" in sys.argv:
        place = sys.argv.index("--archive")
        ARCHIVES.append(sys.argv[place + 1])
        del sys.argv[place:place + 2]
    unittest.main()
