#!/usr/bin/env python3
"""Tests of what says whether a case is a sharpening of another, and whether answers keep the order; some seconds.

    python3 tests/test_sharpening.py [-v]

The reference stands in for `memcase` and for simulators, so that nothing has to be built for them.
"""

import functools
import os
import shlex
import shutil
import subprocess
import sys
import tempfile
import time
import unittest
from collections import Counter

from rooms import ROOT, TOOLS
import randompairs
import wrongswings
from common.casefile import ONE, X, ZERO, CaseFile
from common.diagrams import FALSE, TRUE, Diagrams, NotACondition, TooLarge
from common.randomcases import Random
from language import casetext
from papers import ASSERT, CHECK, READ, TEXT_BYTES
from planting import planted
from randompairs import assignments, pair_value, text_value
from second.reference import memcase
from sharpened import keptorder, sharpercases
from sharpened.casepairs import Pair, Source

REFERENCE = "python3 tools/reference.py"
SIMULATOR = "python3 tests/simulators/simulator.py "


def pair_of(first, second):
    return Pair(Source("the first", first), Source("the second", second))


def texts(pair):
    """What the reference prints of both cases."""
    return [memcase(source.case.bytes()).encode("ascii") for source in (pair.first, pair.second)]


def without_unknown(printed):
    """Texts in which unknown bits are 1."""
    return [text.replace(b" 1:1", b" 1:0") for text in printed]


def case_of(text):
    return casetext.read_text(text)[0]


# The definition once more, under one assignment and without diagrams.

def may_become(first, second, one, other, assignment):
    was, now = pair_value(first, one, assignment), pair_value(second, other, assignment)
    return was == now or was == X and now in (ZERO, ONE)


def access_is_sharper(first, second, one, other, assignment):
    if (one.kind, one.port) != (other.kind, other.port):
        return False
    pairs = list(zip(one.address, other.address))
    alike = []
    if len(one.control) == 2:
        pairs.append((one.control, other.control))
    else:
        alike.append((one.control, other.control))
    (alike if one.kind == CHECK else pairs).extend(zip(one.data, other.data))
    return (all(may_become(first, second, *both, assignment) for both in pairs)
            and all(pair_value(first, was, assignment) == pair_value(second, now, assignment) for was, now in alike))


def sharper_up_to(first, second, assignment):
    """For each access of both whether those up to it are a sharpening."""
    holds, found = True, []
    for one, other in zip(first.accesses, second.accesses):
        holds = holds and access_is_sharper(first, second, one, other, assignment)
        found.append(holds)
    return found


def words_of_line(line):
    """The conditions of a read's or a check's line, as texts, the highest bit's first."""
    found, depth = [""], 0
    for letter in line.split(" ", 1)[1].replace(":", " "):
        depth += (letter == "(") - (letter == ")")
        if letter == " " and not depth:
            found.append("")
        else:
            found[-1] += letter
    return found


def line_swings(kind, first, second, assignment):
    """Whether a line's answer swings under an assignment."""
    values = [[text_value(text, assignment) for text in words_of_line(line)] for line in (first, second)]
    if kind == CHECK:
        return values[0] > values[1]
    return any(now > was for was, now in zip(*values))


class Sharpenings(unittest.TestCase):
    """Under which assignments a case is a sharpening of another."""

    def expect_as_defined(self, seed, first, second):
        """How many assignments there are in all, and those under which it is one."""
        pair = pair_of(first, second)
        counts = Counter()
        for assignment in assignments(first, second):
            right = sharper_up_to(first, second, assignment)
            holds = pair.holds + [FALSE] * (len(right) - len(pair.holds))
            self.assertEqual([pair.diagrams.value(condition, assignment) for condition in holds], right, seed)
            whole = all(right) and len(first.accesses) == len(second.accesses)
            self.assertEqual(pair.diagrams.value(pair.whole, assignment), whole, seed)
            counts[whole] += 1
        return pair, counts

    def test_as_defined(self):
        kinds = Counter()
        for seed in range(600):
            pair, counts = self.expect_as_defined(seed, *randompairs.random_pair(seed, damaged=seed % 3))
            kinds["all" if not counts[False] else "some" if counts[True] else "none"] += 1
            kinds["changes"] += any(change.sharper for change in pair.changes)
        self.assertGreater(min(kinds[kind] for kind in ("all", "some", "none", "changes")), 80, kinds)

    def test_changes_as_defined(self):
        """What is said of each bit is so under each assignment, and nothing is left unsaid."""
        letters = {ZERO: "0", ONE: "1", X: "X", (0, 0): "neither"}
        said = 0
        for seed in range(200):
            first, second = randompairs.random_pair(seed)
            pair = pair_of(first, second)
            for assignment in assignments(first, second):
                right = {(number, name, letters[was], letters[now])
                         for number in range(1, len(pair.holds) + 1)
                         for name, was, now in values_of(first, second, number, assignment) if was != now}
                found = {change[:4] for change in pair.changes if pair.diagrams.value(change.where, assignment)}
                self.assertEqual(found, right, seed)
                said += len(right)
        self.assertGreater(said, 1000)

    def test_each_need(self):
        """What must be alike: each is said, and there is no sharpening where it is not."""
        start = "memory n=1 w=1\nnode a = (8 0 1)\nnode not_a = (8 1 0)\n"
        first = start + ("write enable=X address=X data=X\nread port=1 enable=X address=X\n"
                         "assert b=a address=0 data=X\ncheck b=a address=X data=X\n")
        for old, new, whole, said in (
                ("write enable=X address=X data=X", "write enable=1 address=a data=0", "1", "enable: X becomes 1"),
                ("read port=1 enable=X address=X", "read port=1 enable=0 address=1", "1", "address bit 0: X becomes 1"),
                ("address=0 data=X", "address=0 data=1", "1", "access 3 (assert, line 6), data bit 0: X becomes 1"),
                ("check b=a address=X", "check b=a address=!a", "1", "address bit 0: X becomes 0 where (8 0 1)"),
                ("check b=a", "check b=1", "(8 0 1)", "access 4 (check, line 7), b: 0 becomes 1 where (8 1 0)"),
                ("assert b=a", "assert b=0", "(8 1 0)", "access 3 (assert, line 6), b: 1 becomes 0 where (8 0 1)"),
                ("check b=a address=X data=X", "check b=a address=X data=0", "0",
                 "access 4 (check, line 7), data bit 0: X becomes 0 under every assignment"),
                ("check b=a address=X data=X", "check b=a address=X data=1:a", "(8 0 1)",
                 "access 4 (check, line 7), data bit 0: X becomes 1 where (8 1 0)"),
                ("port=1", "port=2", "0", "access 2 (read, line 5): port 1 in the first and 2 in the second"),
                ("assert b=a address=0", "assert b=a address=1", "0",
                 "access 3 (assert, line 6), address bit 0: 0 becomes 1 under every assignment"),
                ("assert b=a address=0", "assert b=a address=X", "0",
                 "access 3 (assert, line 6), address bit 0: 0 becomes X under every assignment"),
                ("write enable=X", "write enable=0:0", "0", "enable: X becomes neither under every assignment"),
                ("assert b=a", "check b=a", "0", "access 3 (assert, line 6): access 3 (check, line 6) in the second"),
                ("check b=a address=X data=X\n", "", "0", "accesses: 4 in the first and 3 in the second")):
            with self.subTest(new):
                pair = pair_of_texts(first, first.replace(old, new, 1))
                self.assertEqual(pair.diagrams.text(pair.whole), whole)
                self.assertIn(said, pair.reason or "; ".join(map(pair.shown_change, pair.changes)))
        for size in ("n=2 w=1", "n=1 w=2"):
            self.assertIn(" is 1 in the first and 2 in the second",
                          pair_of_texts("memory n=1 w=1", "memory " + size).reason)

    def test_no_assignment_left(self):
        """By two accesses together, each of which leaves one."""
        start = "memory n=1 w=1\nnode a = (8 0 1)\nnode c = (8 1 0)\n"
        pair = pair_of_texts(start + "check b=a address=0 data=0\ncheck b=a address=0 data=0\n",
                             start + "check b=0 address=0 data=0\ncheck b=1 address=0 data=0\n")
        self.assertEqual(pair.reason, "access 2 (check, line 5), b: 0 becomes 1 where (8 1 0), "
                                      "and no other assignment was left")
        self.assertEqual(pair.holds, [pair.diagrams.make(8, TRUE, FALSE), FALSE])

    def test_elsewhere_they_may_differ(self):
        """Node numbers are each file's own, and only what holds under an assignment counts."""
        first = "memory n=1 w=1\nnode a = (9 0 1)\nnode d = (8 0 1)\nnode e = (8 0 a)\ncheck b=e address=0 data=a:1\n"
        second = "memory n=1 w=1\nnode d = (8 0 1)\ncheck b=d address=0 data=1:1\n"
        pair = pair_of_texts(first, second)
        self.assertEqual(pair.diagrams.text(pair.whole), "(9 0 1)")
        self.assertEqual(pair.shown_whole(),
                         "the second is a sharpening of the first exactly where (9 0 1): for one, under 9=1")


def values_of(first, second, number, assignment):
    """The bits of an access of both cases by their names, with what they are in each."""
    both = [list(named_pairs(case.accesses[number - 1])) for case in (first, second)]
    for (name, one), (_, other) in zip(*both):
        yield name, pair_value(first, one, assignment), pair_value(second, other, assignment)


def named_pairs(access):
    """The bits of an access by their names, but for b."""
    if len(access.control) == 2:
        yield "enable", access.control
    for bit, pair in enumerate(access.address):
        yield "address bit %d" % bit, pair
    for bit, pair in enumerate(access.data):
        yield "data bit %d" % bit, pair


def pair_of_texts(first, second):
    return Pair(*(Source(name, *casetext.read_text(text), text)
                  for name, text in (("the first", first), ("the second", second))))


@functools.lru_cache
def random_pairs(count, damaged):
    """Pairs of random cases: sharpened under some assignments, and those that the tool makes."""
    found = []
    for seed in range(count):
        first, second = randompairs.random_pair(seed, damaged)
        found.append(pair_of(first, second))
        found += [pair_of(first, one.case) for one in sharpercases.sharper_cases(first, 3, seed)]
    return found


class Orders(unittest.TestCase):
    """Whether answers keep the order."""

    def test_reference_keeps_it(self):
        """The theorem, tried on the second program; some answers are sharper, and some are not."""
        counts = Counter()
        for pair in random_pairs(250, 0) + random_pairs(100, 1):
            judgement = keptorder.judge(pair, texts(pair))
            self.assertIn(judgement.verdict, (keptorder.KEPT, keptorder.NO_CLAIM), judgement)
            counts[judgement.verdict] += 1
            counts["compared"] += judgement.compared
            counts["sharper"] += judgement.sharper
            if judgement.verdict == keptorder.KEPT:
                counts += strictly(pair)
        self.assertGreater(counts[keptorder.KEPT], 600, counts)
        self.assertGreater(counts[keptorder.NO_CLAIM], 10, counts)
        self.assertGreater(counts["compared"] - counts["sharper"], 500, counts)
        for kind in ("read", "check", "assert falls"):
            self.assertGreater(counts[kind], 10, counts)

    def test_as_defined(self):
        """Right and wrong answers, and those to the cases the other way round, are judged as they are under each
        assignment."""
        counts = Counter()
        for number, pair in enumerate(random_pairs(120, 0)):
            right = texts(pair)
            with planted(*wrongswings.SWINGING[number % len(wrongswings.SWINGING)]):
                wrong = texts(pair)
            for printed in (right, wrong, right[::-1], [wrong[0], right[1]], without_unknown(right)):
                counts[self.expect_as_defined(pair, printed)] += 1
        self.assertGreater(min(counts[keptorder.KEPT], counts[keptorder.SWINGS]), 100, counts)

    def expect_as_defined(self, pair, printed):
        """Swings are found in exactly the lines that have one, and each is one under its assignment."""
        judgement = keptorder.judge(pair, printed)
        if judgement.verdict == keptorder.NO_CLAIM:
            return judgement.verdict
        first, second = pair.first.case, pair.second.case
        lines = list(zip(*(text.decode("ascii").splitlines() for text in printed)))
        swinging = set()
        for assignment in assignments(first, second):
            for number, holds in enumerate(sharper_up_to(first, second, assignment), 1):
                kind = first.accesses[number - 1].kind
                if holds and kind in (READ, CHECK) and line_swings(kind, *lines[number - 1], assignment):
                    swinging.add(number)
        self.assertEqual({swing.access for swing in judgement.swings}, swinging)
        for swing in judgement.swings:
            self.expect_swing(pair, swing, lines[swing.access - 1])
        return judgement.verdict

    def expect_swing(self, pair, swing, lines):
        """A swing is one whatever the variables are that its assignment does not name."""
        names = {(1, 0): "1", (0, 1): "0", (1, 1): "X", (0, 0): "neither"}
        for rest in (0, (1 << 64) - 1):
            assignment = rest
            for variable, value in swing.assignment:
                assignment = assignment & ~(1 << variable) | value << variable
            self.assertTrue(sharper_up_to(pair.first.case, pair.second.case, assignment)[swing.access - 1])
            values = [[text_value(text, assignment) for text in words_of_line(line)] for line in lines]
            if swing.bit is None:
                self.assertEqual(values, [[1], [0]])
            else:
                at = len(values[0]) - 2 * swing.bit - 2
                self.assertEqual([names[tuple(found[at:at + 2])] for found in values], [swing.first, swing.second])
                self.assertTrue(any(now > was for was, now in zip(values[0][at:at + 2], values[1][at:at + 2])))

    def test_wrong_simulators_swing(self):
        """Each that loses or invents what is known is found out without a reference, by the cases the tool makes."""
        for place, name, wrong in wrongswings.SWINGING:
            with planted(place, name, wrong):
                self.assertTrue(any(keptorder.judge(pair, texts(pair)).verdict == keptorder.SWINGS
                                    for pair in random_pairs(120, 0) if pair.whole == TRUE), wrong.__name__)

    def test_wrong_simulators_that_keep_it(self):
        """The order says nothing against a wrong simulator of which no answer swings."""
        for place, name, wrong in wrongswings.KEEPING:
            with planted(place, name, wrong):
                self.assertFalse(any(keptorder.judge(pair, texts(pair)).verdict == keptorder.SWINGS
                                     for pair in random_pairs(120, 0)), wrong.__name__)

    def test_lost_unknown(self):
        found = Counter()
        for pair in random_pairs(120, 0):
            found[keptorder.judge(pair, without_unknown(texts(pair))).verdict] += 1
        self.assertGreater(found[keptorder.SWINGS], 20)

    def test_answers_of_the_first_to_a_wider_case(self):
        """The other way round, answers that are sharper swing: what the second admits, the first must."""
        found = Counter()
        for pair in random_pairs(120, 0):
            found[keptorder.judge(pair, texts(pair)[::-1]).verdict] += 1
        self.assertGreater(found[keptorder.SWINGS], 20)

    def test_refused(self):
        """Only accepted cases are compared: one refused alone gives no claim, in either."""
        start = "memory n=1 w=1\n"
        for first, second, why in (
                ("assert b=1 address=X data=1\n", "assert b=1 address=0 data=1\n", "the first: refused 7 after 0"),
                ("write enable=1 address=0 data=X\n", "write enable=1 address=0 data=0:0\n",
                 "the second: refused 6 after 0")):
            pair = pair_of_texts(start + first, start + second)
            self.assertEqual(keptorder.judge(pair, texts(pair)), keptorder.Judgement(keptorder.NO_CLAIM, why=why))
        pair = pair_of_texts(start + "write enable=X address=0 data=1\nread enable=1 address=0\n",
                             start + "write enable=1 address=0 data=1\nread enable=1 address=0\n")
        printed = [texts(pair)[0], b"refused 9 after 1\n"]
        self.assertEqual(keptorder.judge(pair, printed).why, "the second: refused 9 after 1")

    def test_assert_condition_may_swing(self):
        """It held, and no longer does: nothing is said."""
        start = "memory n=1 w=1\n"
        end = "assert b=1 address=0 data=1\nread enable=1 address=0\n"
        pair = pair_of_texts(start + "write enable=1 address=0 data=X\n" + end,
                             start + "write enable=1 address=0 data=0\n" + end)
        first, second = texts(pair)
        self.assertIn(b"assert entered 1\n", first)
        self.assertIn(b"assert entered 0\n", second)
        self.assertEqual(keptorder.judge(pair, [first, second]), keptorder.Judgement(keptorder.KEPT, [], 1, 0))

    def test_accesses_before_one_that_is_not_alike(self):
        """They are judged; those from it on are not."""
        start = "memory n=1 w=1\nwrite enable=1 address=0 data=%s\nread enable=1 address=0\n"
        first = start % "X" + "read port=1 enable=1 address=0\n"
        second = start % "1" + "read port=2 enable=1 address=0\n"
        pair = pair_of_texts(first, second)
        self.assertEqual(keptorder.judge(pair, texts(pair)), keptorder.Judgement(keptorder.KEPT, [], 1, 1))
        wrong = [b"write 0\nread 1:0\nread 1:0\nend 1\n", b"write 0\nread 0:1\nread 0:1\nend 1\n"]
        self.assertEqual(keptorder.judge(pair, wrong).swings, [keptorder.Swing(2, 0, [], "1", "0")])

    def test_malformed(self):
        pair = pair_of_texts("memory n=1 w=2\nwrite enable=1 address=0 data=XX\nassert b=1 address=0 data=XX\n"
                             "read enable=1 address=0\ncheck b=1 address=0 data=XX\n", "memory n=1 w=2\n")
        right = "write 0\nassert kept 1\nread 1:1 1:1\ncheck 1\nend 1\n"
        for old, new, why in (
                ("end 1\n", "end 1", "its last line has no newline"),
                ("end 1\n", "end 1\n\n", "lines: 6, and a case of so many accesses prints 5"),
                ("end 1", "end", "its last line is not `end N`"),
                ("write 0", "write 00", "line 1: it is no line of a write"),
                ("assert kept", "assert", "line 2: it does not begin as the access's line does"),
                ("check 1", "check  1", "line 4: no condition goes on so at byte 7"),
                ("check 1", "check (8 0 1", "line 4: no condition goes on so at byte 13"),
                ("check 1", "check (7 0 1)", "line 4: no condition goes on so at byte 7"),
                ("check 1", "check (64 0 1)", "line 4: no condition goes on so at byte 7"),
                ("check 1", "check (8 0 1 1)", "line 4: no condition goes on so at byte 13"),
                ("check 1", "check (8 0)", "line 4: no condition goes on so at byte 11"),
                ("check 1", "check 1)", "line 4: it goes on after its last condition, at byte 8"),
                ("read 1:1 1:1", "read 1:1", "line 3: there is no ` ` at byte 9"),
                ("read 1:1 1:1", "read 1 1:1", "line 3: there is no `:` at byte 7"),
                ("read 1:1 1:1", "read 1:1 1:1 1:1", "line 3: it goes on after its last condition, at byte 13"),
                ("read 1:1 1:1", "\xff", "line 3: there is no `read` at byte 1"),
                (right, "", "lines: 0, and a case of so many accesses prints 5"),
                (right, right + "refused 1 after 0\n", "lines: 6, and a case of so many accesses prints 5")):
            with self.subTest(new):
                printed = [right.replace(old, new).encode("latin-1"), b"end 0\n"]
                self.assertEqual(keptorder.judge(pair, printed),
                                 keptorder.Judgement(keptorder.FAILED, why="the first: no text of this case: " + why))


def strictly(pair):
    """How many reads and checks are sharper somewhere in the second, and how many assert conditions are lost."""
    counts = Counter()
    d = pair.diagrams
    found = [keptorder.answers(d, source.case, text.decode("ascii"))
             for source, text in zip((pair.first, pair.second), texts(pair))]
    for holds, access, one, other in zip(pair.holds, pair.first.case.accesses, *found):
        if access.kind == READ:
            counts["read"] += any(d.and_(holds, d.but_not(was, now)) for bit, bit_of_other in zip(one, other)
                                  for was, now in zip(bit, bit_of_other))
        elif access.kind == CHECK:
            counts["check"] += d.and_(holds, d.but_not(other, one)) != FALSE
        elif access.kind == ASSERT:
            counts["assert falls"] += d.and_(holds, d.but_not(one, other)) != FALSE
    return counts


class DiagramsTest(unittest.TestCase):
    def test_as_values(self):
        """Each operation under every assignment, on random conditions of five variables."""
        variables = [8, 9, 20, 62, 63]
        rng = Random(7)
        d = Diagrams()
        pool = [FALSE, TRUE]
        for _ in range(300):
            pool.append(d.join(rng.choice(variables), rng.choice(pool), rng.choice(pool)))
        rows = [sum(rng.below(2) << v for v in variables) for _ in range(10)]
        for _ in range(2000):
            f, g, h = (rng.choice(pool) for _ in range(3))
            for a in rows:
                x, y, z = (d.value(one, a) for one in (f, g, h))
                self.assertEqual([d.value(one, a) for one in (d.ite(f, g, h), d.not_(f), d.and_(f, g), d.or_(f, g),
                                                              d.but_not(f, g))],
                                 [y if x else z, not x, x and y, x or y, x and not y])
            self.assertEqual(d.text(f) == d.text(g), f == g)
            self.assertEqual(d.condition_at(" " + d.text(f), 1), (f, d.length(f) + 1))
            self.assertEqual(text_value(d.text(f), rows[0]), d.value(f, rows[0]))

    def test_any_order_of_variables(self):
        """A text that is not ordered or not reduced is the condition that it says."""
        d = Diagrams()
        for text, reduced in (("(9 (8 0 1) (8 1 1))", "(8 (9 0 1) 1)"), ("(8 1 1)", "1"), ("(8 (8 0 1) 1)", "(8 0 1)")):
            self.assertEqual(d.text(d.condition_at(text, 0)[0]), reduced)

    def test_assignments(self):
        d = Diagrams()
        condition = d.condition_at("(8 0 (9 (10 0 1) 0))", 0)[0]
        self.assertEqual(d.assignment(condition), [(8, 1), (9, 0), (10, 1)])
        self.assertEqual(d.assignment(TRUE), [])

    def test_deep_and_large(self):
        """56 variables, one after another and as a parity; a text of 13,000 levels."""
        d = Diagrams()
        nested = "".join("(%d 0 " % v for v in range(8, 64)) + "1" + ")" * 56
        self.assertEqual(len(d.assignment(d.condition_at(nested, 0)[0])), 56)
        odd, even = FALSE, TRUE
        for v in range(63, 7, -1):
            odd, even = d.make(v, odd, even), d.make(v, even, odd)
        self.assertEqual(d.length(odd), d.length(even))
        self.assertGreater(d.length(odd), 1 << 56)
        begun = time.monotonic()
        deep = "(8 0 " * 13000 + "1" + ")" * 13000
        self.assertEqual(d.text(d.condition_at(deep, 0)[0]), "(8 0 1)")
        self.assertRaises(NotACondition, d.condition_at, deep[:-1], 0)
        self.assertLess(time.monotonic() - begun, 5)

    def test_too_large(self):
        """28 variables that equal 28 later ones."""
        sources = [Source("", case_of_variables(lowest)) for lowest in (8, 36)]
        self.assertRaises(TooLarge, lambda: Pair(*sources, Diagrams(steps=20000)))


def case_of_variables(lowest):
    """A case that writes 28 variables: two of them are alike where each of 28 equals one of 28 others."""
    case = CaseFile(1, 14)
    bits = [case.bit(v) for v in range(lowest + 27, lowest - 1, -1)]
    case.write(ONE, [ZERO], bits[:14])
    case.write(ONE, [ZERO], bits[14:])
    return case


class Files(unittest.TestCase):
    """A folder for each test, and the commands."""

    def setUp(self):
        self.folder = tempfile.mkdtemp()
        self.addCleanup(shutil.rmtree, self.folder)

    def path(self, name):
        return os.path.join(self.folder, name)

    def put(self, name, data):
        with open(self.path(name), "wb") as file:
            file.write(data if isinstance(data, bytes) else data.encode("utf-8"))
        return self.path(name)

    def tool(self, name, *words):
        """Status, standard output and standard error; the folder's name is left out of both."""
        command = [sys.executable, os.path.join(TOOLS, name), *words]
        done = subprocess.run(command, cwd=ROOT, capture_output=True, check=False)
        texts_written = [text.decode("ascii").replace(self.folder + "/", "") for text in (done.stdout, done.stderr)]
        return (done.returncode, *texts_written)

    def expect(self, words, status, lines, tool="sharpening.py"):
        self.assertEqual(self.tool(tool, *words), (status, "".join(line + "\n" for line in lines), ""))

    def expect_misuse(self, message, *words, tool="sharpening.py"):
        self.assertEqual(self.tool(tool, *words), (2, "", tool.removesuffix(".py") + ": " + message + "\n"))


class Commands(Files):
    BUFFER = ["examples/buffer.txt", "examples/buffer-sharper.txt"]
    SAID = [
        "access 5 (write, lines 22 and 17), address bit 0: X becomes 0 under every assignment",
        "access 7 (write, lines 26 and 22), enable: X becomes 0 where (10 0 1)",
        "access 7 (write, lines 26 and 22), enable: X becomes 1 where (10 1 0)",
        "the second is a sharpening of the first under every assignment"]

    def test_example(self):
        self.expect(self.BUFFER, 0, self.SAID)
        kept = ": order kept, reads and checks: 4, sharper in the second: 2"
        self.expect([*self.BUFFER, "--run", REFERENCE, "--run", SIMULATOR + "complains"], 0,
                    [*self.SAID, REFERENCE + kept, SIMULATOR + "complains" + kept])
        printed = [self.put("%d" % number, memcase(casetext.encode(read(path))))
                   for number, path in enumerate(self.BUFFER)]
        self.expect([*self.BUFFER, "--outputs", *printed], 0, [*self.SAID, "outputs" + kept])
        self.expect([*self.BUFFER, "--outputs", *printed[::-1]], 1, [
            *self.SAID, "outputs: swings",
            "  access 8 (check, lines 27 and 23), under 8=1 10=1: the check condition holds in the first and not in the "
            "second",
            "  access 9 (read, lines 28 and 24), bit 0, under 8=0 9=0: 0 in the first and X in the second",
            "  access 9 (read, lines 28 and 24), bit 1, under 8=0 9=0: 1 in the first and X in the second"])

    def test_simulators_that_fail(self):
        runs = [word for way in ("ends-with-status", "breaks-off", "writes-without-end") for word in
                ("--run", SIMULATOR + way)]
        self.expect([*self.BUFFER, *runs], 1, [
            *self.SAID,
            SIMULATOR + "ends-with-status: failed: examples/buffer.txt: crashed: it ended with status 1: has expired",
            SIMULATOR + "breaks-off: failed: examples/buffer.txt: no text of this case: lines: 9, and a case of so many "
            "accesses prints 10",
            SIMULATOR + "writes-without-end: failed: examples/buffer.txt: it wrote more than %d bytes" % TEXT_BYTES])
        self.expect([*self.BUFFER, "--run", SIMULATOR + "hangs", "--seconds", "0.5"], 1, [
            *self.SAID, SIMULATOR + "hangs: failed: examples/buffer.txt: hung: it had not ended after 0.5 seconds"])

    def test_case_files(self):
        """A text beside a case file, and a simulator that swings on plain texts."""
        start, end = "memory n=1 w=2\nread enable=1 address=", "read port=1 enable=1 address=0\n"
        first = self.put("a.case", casetext.encode(start + "X\nwrite enable=X address=0 data=1X\n" + end))
        second = self.put("b.txt", start + "1\n\nwrite enable=1 address=0 data=10\n" + end)
        said = ["access 1 (read), address bit 0: X becomes 1 under every assignment",
                "access 2 (write), enable: X becomes 1 under every assignment",
                "access 2 (write), data bit 0: X becomes 0 under every assignment",
                "the second is a sharpening of the first under every assignment"]
        wrong = SIMULATOR + "loses-unknown"
        self.expect([first, second, "--run", wrong], 1, [
            *said, wrong + ": swings",
            "  access 3 (read), bit 0, under every assignment: 1 in the first and 0 in the second"])

    def test_no_claim(self):
        first = self.put("a.txt", "memory n=1 w=1\nassert b=1 address=X data=1\n")
        second = self.put("b.txt", "memory n=1 w=1\nassert b=1 address=0 data=1\n")
        whole = "the second is a sharpening of the first under "
        self.expect([first, second, "--run", REFERENCE], 3, [
            "access 1 (assert, line 2), address bit 0: X becomes 0 under every assignment",
            whole + "every assignment", REFERENCE + ": no claim: a.txt: refused 7 after 0"])
        self.expect([second, first, "--run", REFERENCE], 3, [
            "access 1 (assert, line 2), address bit 0: 0 becomes X under every assignment: no sharpening there",
            whole + "no assignment: access 1 (assert, line 2), address bit 0: 0 becomes X under every assignment",
            REFERENCE + ": no claim: a.txt: refused 7 after 0"])
        other = self.put("c.txt", "memory n=1 w=2\n")
        self.expect([second, other, "--run", REFERENCE], 3, [
            whole + "no assignment: w is 1 in the first and 2 in the second",
            REFERENCE + ": no claim: the second is no sharpening of the first"])

    def test_many_variables(self):
        """A condition of 56 variables, by outputs: truth tables end at 16."""
        lines = ["memory n=1 w=1"] + ["node a%d = (%d 0 %s)" % (v, v, "1" if v == 63 else "a%d" % (v + 1))
                                      for v in range(63, 7, -1)]
        first, second = (self.put(name, "\n".join(lines + ["write enable=1 address=0 data=" + bit, "read enable=1 address=0"]))
                         for name, bit in (("a.txt", "X"), ("b.txt", "1:a8")))
        nested = "".join("(%d 0 " % v for v in range(8, 64)) + "1" + ")" * 56
        printed = [self.put("1", "write 0\nread %s:%s\nend 1\n" % (nested, nested)),
                   self.put("2", "write 0\nread 1:%s\nend 1\n" % nested)]
        status, out, errors = self.tool("sharpening.py", first, second, "--outputs", *printed)
        self.assertEqual((status, errors), (1, ""))
        self.assertIn("X becomes 1 where a condition of ", out)
        self.assertIn("  access 2 (read, line 59), bit 0, under 8=0: neither in the first and 1 in the second\n", out)

    def test_time_on_a_large_pair(self):
        """3,000 accesses of which every bit is sharpened, and a text of 65,536 bytes."""
        first, second = CaseFile(8, 8), CaseFile(8, 8)
        for number in range(3000):
            first.write(X, [X] * 8, [X] * 8)
            second.write(ONE, [(ZERO, ONE)[number >> bit & 1] for bit in range(8)], [ZERO] * 8)
        begun = time.monotonic()
        pair = pair_of(first, second)
        self.assertEqual((len(pair.changes), pair.whole), (3000 * 17, TRUE))
        self.assertLess(time.monotonic() - begun, 5)
        condition = "(8 (9 (10 0 1) 1) (11 1 0))"
        many = (TEXT_BYTES - 100) // (len(condition) + len("check \n"))
        case = CaseFile(1, 1)
        for _ in range(many):
            case.check(1, [X], [X])
        printed = ("check %s\n" % condition * many + "end 0\n").encode("ascii")
        begun = time.monotonic()
        self.assertEqual(keptorder.judge(pair_of(case, case), [printed, printed]).compared, many)
        self.assertLess(time.monotonic() - begun, 5)


def read(path):
    with open(os.path.join(ROOT, path), encoding="utf-8") as file:
        return file.read()


class MisuseTest(Files):
    def test_files(self):
        right = self.put("a.txt", "memory n=1 w=1\n")
        self.put("empty.txt", b"")
        os.mkdir(self.path("folder.txt"))
        for name, message in (
                ("none.txt", "cannot read none.txt: No such file or directory"),
                ("folder.txt", "cannot read folder.txt: Is a directory"),
                ("a", "a: name it .txt, for a text of casetext.py, or .case, for a case file"),
                ("empty.txt", "empty.txt is no text of a case: the text has no `memory` line")):
            with self.subTest(name):
                self.expect_misuse(message, right, self.path(name))
                self.expect_misuse(message, self.path(name), right)
        self.expect_misuse("binary.txt is no text; a case file is named .case",
                           self.put("binary.txt", b"\xff\0"), right)
        self.expect_misuse("short.case is no case file: the file ends at byte 1, inside w",
                           self.put("short.case", b"\1"), right)
        self.expect_misuse("long.case is no case file: 1 bytes after the last access",
                           self.put("long.case", b"\1\1\0\0\0\0\0"), right)
        self.expect_misuse("b.txt is no text of a case: line 2: unknown word `rite\\x1b`; a line begins with memory, "
                           "variable, let, node, write, read, assert or check", self.put("b.txt", "memory n=1 w=1\nrite\x1b\n"), right)
        huge = self.path("huge.txt")
        with open(huge, "wb") as file:
            file.truncate(1 << 30)
        self.expect_misuse("huge.txt is longer than 16777216 bytes: no case and no text of one is", right, huge)
        self.assertEqual(self.tool("sharpening.py", right)[0], 2)

    def test_outputs_and_commands(self):
        right = self.put("a.txt", "memory n=1 w=1\n")
        said = "the second is a sharpening of the first under every assignment\n"
        for message, *words in (
                ("cannot read none: No such file or directory", "--outputs", self.path("none"), right),
                ("no program no-such-simulator", "--run", "no-such-simulator --fast"),
                ("an empty command", "--run", ""),
                ("the command 'a cannot be split: No closing quotation", "--run", "'a")):
            with self.subTest(message):
                self.assertEqual(self.tool("sharpening.py", right, right, *words),
                                 (2, said, "sharpening: %s\n" % message))
        self.expect_misuse("--seconds must be above 0", right, right, "--seconds", "0")

    def test_nodes(self):
        right = self.put("a.txt", "memory n=1 w=1\n")
        start = "memory n=1 w=1\nnode a = (8 0 1)\nnode i = (7 0 1)\n"
        for name, text, message in (
                ("made.txt", start + "read enable=1 address=0\ncheck b=4 address=0 data=1\n",
                 "made.txt: access 2 (check, line 5) names node 4, and the file has none of that number; a node that an "
                 "access makes cannot be followed: write its condition as a node of the file"),
                ("index.txt", start + "read enable=i:1 address=0\n",
                 "index.txt: access 1 (read, line 4) names a node on an index variable, node 3, and the case is refused "
                 "(row 5); variables of accesses are 8 to 63"),
                ("order.txt", "memory n=1 w=1\nnode a = (8 0 1)\nnode 3 = (9 0 a)\n",
                 "order.txt: its nodes are not in standard form, and the case is refused (row 2)")):
            with self.subTest(name):
                path = self.put(name, text)
                self.expect_misuse(message, path, right)
                self.expect_misuse(message, right, path)
                self.expect_misuse(message, path, self.path("made"), tool="sharper.py")

    def test_unfollowed_index_node_is_no_matter(self):
        """A node on an index variable that no access names."""
        path = self.put("a.txt", "memory n=1 w=1\nnode i = (7 0 1)\nread enable=X address=0\n")
        self.expect([path, path], 0, ["the second is a sharpening of the first under every assignment"])

    def test_too_large(self):
        paths = [self.put("%d.case" % lowest, case_of_variables(lowest).bytes()) for lowest in (8, 36)]
        self.expect_misuse("these conditions are too large to compare: compare cases with fewer variables", *paths)


class Making(Files):
    """Sharper cases of a case."""

    def test_which_bits(self):
        case = case_of("memory n=1 w=2\nnode a = (8 0 1)\nwrite enable=X address=0 data=X1\nread enable=1 address=X\n"
                       "assert b=1 address=0 data=1X\ncheck b=1 address=X data=XX\nread enable=a:1 address=1:a\n")
        self.assertEqual(sharpercases.unknown_bits(case), [(1, "enable", 0), (1, "data", 1), (2, "address", 0),
                                                      (3, "data", 0), (4, "address", 0)])
        found = sharpercases.sharper_cases(case, 100)
        self.assertEqual([len(one.known) for one in found], [5] + [1] * 10)
        self.assertEqual(len({one.case.bytes() for one in found}), 11)
        for one in found:
            pair = pair_of(case, one.case)
            self.assertEqual((pair.whole, len(pair.changes)), (TRUE, len(one.known)))

    def test_how_many(self):
        """Up to so many, spread evenly over the case."""
        case = CaseFile(1, 1)
        for _ in range(100):
            case.write(ONE, [ZERO], [X])
        for count, made in ((0, 0), (1, 1), (2, 2), (9, 9), (150, 150), (201, 201), (500, 201)):
            self.assertEqual(len(sharpercases.sharper_cases(case, count)), made)
        accesses = [unknown.access for one in sharpercases.sharper_cases(case, 11)[1:] for unknown, _ in one.known]
        self.assertEqual(accesses, list(range(1, 101, 10)))
        self.assertEqual({pair for one in sharpercases.sharper_cases(case, 11) for _, pair in one.known}, {ZERO, ONE})
        self.assertEqual(sharpercases.sharper_cases(CaseFile(1, 1), 9), [])

    def test_one_unknown(self):
        """Each value once."""
        case = case_of("memory n=1 w=1\nread enable=1 address=X\n")
        self.assertEqual(sorted(map(sharpercases.words, sharpercases.sharper_cases(case, 5))),
                         ["access 1, address bit 0 becomes 0", "access 1, address bit 0 becomes 1"])

    def test_command(self):
        """Texts that say the sharper cases, and keep all other lines."""
        folder = self.path("made")
        status, out, errors = self.tool("sharper.py", "examples/registers.txt", folder, "--count", "4")
        self.assertEqual((status, errors), (0, ""))
        lines = out.splitlines()
        self.assertEqual([line.split(": ")[0] for line in lines],
                         ["made/registers-sharper-%d.txt" % number for number in range(1, 5)])
        self.assertEqual(lines[0].split(": ")[1], "all 3 X are known")
        first = case_of(read("examples/registers.txt"))
        made = sharpercases.sharper_cases(first, 4)
        for number, one in enumerate(made, 1):
            text = read(os.path.join(folder, "registers-sharper-%d.txt" % number))
            self.assertEqual(casetext.encode(text), one.case.bytes())
            lines = zip(read("examples/registers.txt").splitlines(), text.splitlines())
            changed = [new for old, new in lines if old != new]
            self.assertEqual(len(changed), len(one.known))
            self.assertTrue(all(line.endswith("    # sharper") for line in changed))

    def test_case_file(self):
        path = self.put("a.case", casetext.encode("memory n=1 w=1\nread enable=1 address=X\n"))
        self.assertEqual(self.tool("sharper.py", path, self.folder)[0], 0)
        self.expect_misuse("a-sharper-1.txt is there already: name another folder", path, self.folder, tool="sharper.py")
        self.assertEqual(self.tool("sharpening.py", path, self.path("a-sharper-2.txt"), "--run", REFERENCE)[0], 0)

    def test_misuse(self):
        path = self.put("a.txt", "memory n=1 w=1\ncheck b=1 address=0 data=X\n")
        self.expect_misuse("a.txt: no bit of an enable, an address or written or asserted data is a plain X",
                           path, self.folder, tool="sharper.py")
        self.expect_misuse("--count must be 1 or more", path, self.folder, "--count", "0", tool="sharper.py")
        known = self.put("b.txt", "memory n=1 w=1\nread enable=1 address=X\n")
        self.expect_misuse("a.txt: File exists", known, path, tool="sharper.py")


class Arbitration(Files):
    """The arbiter with sharper cases."""

    def arbitrate(self, first, second, *options):
        status, out, errors = self.tool("arbiter.py", self.folder, first, second, "--memcase", REFERENCE, *options)
        self.assertEqual(errors, "")
        return status, out.splitlines()

    def test_right(self):
        """Cases of which none can be made count none: without an X, refused, of nodes that accesses make."""
        self.put("a.txt", "memory n=1 w=1\nwrite enable=X address=0 data=1\nread enable=1 address=0\n")
        self.put("b.txt", "memory n=1 w=1\nassert b=1 address=X data=1\n")
        self.put("c.txt", "memory n=1 w=1\nread enable=1 address=0\ncheck b=2 address=X data=1\n")
        self.put("d.case", b"\1")
        right = SIMULATOR + "right"
        status, lines = self.arbitrate(right, right, "--sharpen", "5")
        self.assertEqual((status, lines), (0, [
            "4 cases",
            "first: agreed 4, differs 0, hung 0, crashed 0",
            "second: agreed 4, differs 0, hung 0, crashed 0",
            "4 sharper cases of 2 cases",
            "first: order kept in 2 pairs, swings in 0, no claim in 2, failed in 0",
            "second: order kept in 2 pairs, swings in 0, no claim in 2, failed in 0"]))
        self.assertEqual(self.arbitrate(right, right), (0, lines[:3]))

    def test_agreed_and_swings(self):
        """A simulator that is right on the case and says more on a sharper one; and one that fails there."""
        self.put("a.txt", "memory n=1 w=1\nwrite enable=1 address=0 data=1\nwrite enable=X address=0 data=1\n"
                          "read enable=1 address=0\n")
        status, lines = self.arbitrate(SIMULATOR + "right", SIMULATOR + "idle-forgets", "--sharpen", "5")
        self.assertEqual((status, lines), (1, [
            "1 case",
            "first: agreed 1, differs 0, hung 0, crashed 0",
            "second: agreed 1, differs 0, hung 0, crashed 0",
            "2 sharper cases of 1 case",
            "first: order kept in 2 pairs, swings in 0, no claim in 0, failed in 0",
            "second: order kept in 1 pair, swings in 1, no claim in 0, failed in 0",
            "",
            "second swings on sharper cases, read: 1 case",
            "  a.txt, where access 2, enable becomes 0",
            "    access 3 (read), bit 0, under every assignment: 1 in the case and X in the sharper case"]))
        self.assertEqual(self.arbitrate(SIMULATOR + "right", SIMULATOR + "idle-forgets")[0], 0)

    def test_check_condition(self):
        self.put("a.txt", "memory n=1 w=1\nnode a = (8 0 1)\nnode c = (8 1 0)\nwrite enable=1 address=0 data=X\n"
                          "check b=a address=0 data=1\n")
        status, lines = self.arbitrate(SIMULATOR + "right", SIMULATOR + "unknown-passes", "--sharpen", "2", "--table")
        self.assertEqual(status, 1)
        self.assertIn("second swings on sharper cases, check: 1 case", lines)
        self.assertIn("  second swings where access 1, data bit 0 becomes 0", lines)
        self.assertIn("    access 2 (check), under 8=1: the check condition holds in the case and not in the "
                      "sharper case", lines)

    def test_failed(self):
        """One that fails on every case, and one that fails on the sharper ones alone."""
        self.put("a.txt", "memory n=1 w=1\nwrite enable=X address=0 data=1\nread enable=1 address=0\n")
        status, lines = self.arbitrate(SIMULATOR + "ends-with-status", SIMULATOR + "ends-where-idle", "--sharpen", "5")
        self.assertEqual((status, lines), (1, [
            "1 case",
            "first: agreed 0, differs 0, hung 0, crashed 1",
            "second: agreed 1, differs 0, hung 0, crashed 0",
            "2 sharper cases of 1 case",
            "first: order kept in 0 pairs, swings in 0, no claim in 0, failed in 2",
            "second: order kept in 1 pair, swings in 0, no claim in 0, failed in 1",
            "",
            "second failed on sharper cases: 1 case",
            "  a.txt, where access 1, enable becomes 0",
            "    the sharper case: crashed: it ended with status 4",
            "",
            "first crashed, it ended with status 1: 1 case",
            "  a.txt: it ended with status 1: has expired"]))

    def test_misuse(self):
        self.put("a.txt", "memory n=1 w=1\n")
        self.expect_misuse("--sharpen must be 0 or more", self.folder, REFERENCE, REFERENCE, "--memcase", REFERENCE,
                           "--sharpen", "-1", tool="arbiter.py")


class Documents(unittest.TestCase):
    def test_page(self):
        """What the page on arbitration shows of sharper inputs is what is printed."""
        section = read("docs/ARBITRATION.md").split("\n## Sharpening an input\n")[1].split("\n## ")[0]
        alone = [block.strip() for block in section.split("\n\n") if block.startswith("    ") and "\n" not in block]
        commands = [block for block in alone if block.startswith("python3 tools/")]
        self.assertEqual(len(commands), 2)
        for command in commands:
            with self.subTest(command):
                self.assertIn("    %s\n\n%s" % (command, printed_by(command)), section)


def printed_by(command):
    """What a command of the page prints, as it is shown there; the reference stands in for `memcase`."""
    words = shlex.split(command) + (["--memcase", REFERENCE] if "arbiter" in command else [])
    done = subprocess.run(words, cwd=ROOT, stdout=subprocess.PIPE, check=False)
    return "".join("    %s\n" % line if line else "\n" for line in done.stdout.decode("ascii").splitlines())


if __name__ == "__main__":
    unittest.main()
