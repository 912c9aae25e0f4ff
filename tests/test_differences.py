#!/usr/bin/env python3
"""Tests of what classifies the difference of two texts, and of what reduces a case that has one; some seconds.

    python3 tests/test_differences.py [-v]

Kinds are found once more under each assignment, one by one and without diagrams.  The reference stands in for
`memcase`, and with a wrong function in it for simulators.
"""

import functools
import itertools
import re
import unittest
from collections import Counter, namedtuple

import rooms  # noqa: F401
import papers
import wrongcounts
import wrongreads
import wrongswings
import wrongwrites
from arbitration import reduction
from arbitration.differences import LOOSER, NO_TEXT, OTHER, REFUSED, SHARPER, SPELLED, classify
from arbitration.reduction import Enough, reduce
from common import randomcases
from common.casefile import ONE, X, ZERO, CaseFile, NotACaseFile, number_bits, parse
from common.diagrams import Diagrams
from common.randomcases import Random
from language import casetext
from papers import ASSERT, CHECK, READ, TEXT_BYTES, WRITE, Access
from planting import planted
from randompairs import assignments, node_value, random_case, text_value
from rowcases import WORKED
from second.calls import Memory
from second.reference import memcase, run_case
from second.tables import is_standard
from storedcases import named

WORKED_TEXT = b"write 0\nread 1:(8 0 1)\ncheck (8 1 0)\nend 1\n"
VARIABLE = re.compile(r"\(([0-9]+) ")
READS = [(Memory, "read", wrong) for wrong in wrongreads.WRONG_WORDS]
WRITES = [(Memory, "write", wrong) for wrong in wrongwrites.WRONG_WORDS + wrongwrites.WRONG_LINES]
SIMULATORS = READS + WRITES + wrongswings.SWINGING + wrongcounts.WRONG_COUNTS


def text_of(data, simulator=None):
    """What the reference prints of a case, or a simulator, which is the reference with a wrong function."""
    if simulator is None:
        return memcase(data).encode("ascii")
    with planted(*simulator):
        return memcase(data).encode("ascii")


def encoded(text):
    return casetext.encode(text)


# The kinds once more, under each assignment and without diagrams

# What shows a difference: its kind, line and access; the bits that differ; what each bit or condition is under each
# assignment, None of other lines.
Shown = namedtuple("Shown", "kind line access bits values")


def conditions_of(line):
    """The texts of the conditions in a line, by counting parentheses."""
    found, depth, start = [], 0, 0
    for place, letter in enumerate(line + " "):
        depth += {"(": 1, ")": -1}.get(letter, 0)
        if depth == 0 and letter in " :":
            found.append(line[start:place])
            start = place + 1
    return [text for text in found if text[:1] in ("(", "0", "1") and text]


def assignments_of(*texts):
    variables = sorted({int(found) for text in texts for found in VARIABLE.findall(text)})
    for values in itertools.product((0, 1), repeat=len(variables)):
        yield sum(value << variable for variable, value in zip(variables, values))


def admitted(pair, assignment):
    """The values that a pair of texts admits."""
    return frozenset(value for text, value in zip(pair, (1, 0)) if text_value(text, assignment))


def fits(condition, assignment, kind):
    """What a memory would admit of which a condition is said, as far as one bit can show it: nothing is left to admit
    where a check holds, or where an assert fails."""
    holds = bool(text_value(condition, assignment))
    return frozenset() if holds == (kind == CHECK) else frozenset([1])


def line_values(kind, line):
    """The sets of values that a line admits, the lowest bit first, as functions of an assignment."""
    texts = conditions_of(line)
    if kind == READ:
        pairs = list(zip(texts[::2], texts[1::2]))[::-1]
        return [functools.partial(admitted, pair) for pair in pairs]
    return [lambda assignment: fits(texts[0], assignment, kind)]


def relation(pairs):
    """The kind of sets that are each compared with another."""
    less = any(one - other for one, other in pairs)
    more = any(other - one for one, other in pairs)
    return {(True, False): SHARPER, (False, True): LOOSER, (True, True): OTHER}.get((less, more))


def line_relation(kind, right, found):
    """The kind of two lines of reads, asserts or checks, and the bits that differ."""
    places = list(assignments_of(right, found))
    kinds = [relation([(one(place), other(place)) for place in places])
             for one, other in zip(line_values(kind, right), line_values(kind, found))]
    bits = [bit for bit, what in enumerate(kinds) if what]
    kinds = {what for what in kinds if what}
    return (kinds.pop() if len(kinds) == 1 else OTHER if kinds else None), bits


def expected(case, right, found):
    """The difference of two texts of a case, each of them whole."""
    kinds = [access.kind for access in case.accesses] + [None]
    lines = list(zip(kinds, right.decode("ascii").splitlines(), found.decode("ascii").splitlines()))
    for number, (kind, one, other) in enumerate(lines, 1):
        access = papers.NAMES.get(kind, "end")
        what, bits = (None, []) if kind in (WRITE, None) else line_relation(kind, one, other)
        if what:
            return Shown(what, number, access, bits if kind == READ else [None], (kind, one, other))
        words = [line.split(" ")[:2] for line in (one, other)]
        if kind in (WRITE, ASSERT, None) and words[0] != words[1]:
            return Shown(OTHER, number, access, [None], None)
    number = next(place for place, line in enumerate(lines, 1) if line[1] != line[2])
    return Shown(SPELLED, number, papers.NAMES.get(lines[number - 1][0], "end"), [None], None)


NAMES = {frozenset([0, 1]): "X", frozenset([1]): "1", frozenset([0]): "0", frozenset(): "neither"}


def said(kind, values, bit, assignment):
    """What a line says at an assignment, as a difference shows it."""
    value = values[bit or 0](assignment)
    if kind == READ:
        return NAMES[value]
    return "holds" if (value == frozenset()) == (kind == CHECK) else "fails"


class Classified(unittest.TestCase):
    """Against each assignment, one by one."""

    def hold(self, data, right, found):
        """Hold what is said of two texts to what is expected."""
        difference = classify(data, right, found)
        shown = expected(parse(data), right, found)
        self.assertEqual((difference.kind, difference.line, difference.access), shown[:3], (right, found))
        self.assertEqual(difference.number, None if difference.access == "end" else shown.line - 1)
        self.assertIn(difference.bit, shown.bits)
        self.assertTrue(difference.words.isprintable(), difference.words)
        if shown.values:
            self.hold_assignment(difference, *shown.values)
            if difference.kind != OTHER:
                self.assertEqual(difference.bit, shown.bits[0])
        return difference

    def hold_assignment(self, difference, kind, right, found):
        """The assignment shows what both say, whatever the other variables are, and that it is not the same."""
        values = line_values(kind, right), line_values(kind, found)
        fixed = dict(difference.assignment)
        places = [place for place in assignments_of(right, found)
                  if all(place >> variable & 1 == value for variable, value in fixed.items())]
        self.assertTrue(places)
        for place in places:
            both = [said(kind, lines, difference.bit, place) for lines in values]
            self.assertEqual(both, [difference.right, difference.found])
        one, other = (lines[difference.bit or 0](places[0]) for lines in values)
        self.assertNotEqual(one, other)
        self.assertTrue(difference.kind != SHARPER or other < one)
        self.assertTrue(difference.kind != LOOSER or one < other)
        self.hold_lost(difference, kind, right, found)

    def hold_lost(self, difference, kind, right, found):
        """Of a read that is other an unknown that is lost is shown, where there is one."""
        if kind == READ and difference.kind == OTHER:
            values = list(zip(line_values(kind, right), line_values(kind, found)))
            lost = any(len(one(place)) == 2 > len(other(place))
                       for one, other in values for place in assignments_of(right, found))
            self.assertEqual(difference.right == "X" != difference.found, lost)

    def test_altered(self):
        """Conditions, places, words and counts of right texts replaced at random."""
        kinds = Counter()
        for seed in range(1200):
            rng = Random(seed)
            case = randomcases.without_refusals(randomcases.tiny(rng) if rng.chance(50) else randomcases.small(rng))
            data = case.bytes()
            right = text_of(data)
            if right.startswith(b"refused"):
                continue
            found = altered(rng, right)
            if found != right:
                difference = self.hold(data, right, found)
                kinds[difference.kind, difference.access] += 1
        for kind, access in itertools.product((SHARPER, LOOSER, OTHER, SPELLED), ("read", "assert", "check")):
            self.assertGreater(kinds[kind, access], 2, (kind, access, kinds))
        self.assertGreater(min(kinds[OTHER, "write"], kinds[OTHER, "end"]), 20, kinds)

    def test_simulators(self):
        """What wrong simulators print of random cases."""
        kinds = Counter()
        for simulator in SIMULATORS:
            for data in ACCEPTED():
                right, found = text_of(data), text_of(data, simulator)
                if right != found and not found.startswith(b"refused"):
                    kinds[self.hold(data, right, found).kind] += 1
        self.assertGreater(min(kinds[SHARPER], kinds[LOOSER]), 10, kinds)

    def test_one_flaw_is_one_group(self):
        """A flaw of one kind is in one group, whatever the case is."""
        for group, simulator in GROUPS:
            with self.subTest(simulator[2].__name__):
                groups = {classify(data, text_of(data), text_of(data, simulator))[:2] for data in ACCEPTED()
                          if text_of(data, simulator) != text_of(data)}
                self.assertEqual(groups, {group})

    def test_many_variables(self):
        """Conditions on all 56 variables."""
        chains = [functools.reduce(lambda rest, v: "(%d %d %s)" % (v, end, rest), range(63, 7, -1), str(1 - end))
                  for end in (0, 1)]
        data = encoded("memory n=1 w=1\nread enable=1 address=0\n")
        right = "read %s:%s\nend 0\n" % tuple(chains)
        for found, kind, words in (("read 0:1", OTHER, "0"), ("read %s:1" % chains[0], LOOSER, "X"),
                                   ("read 1:1", LOOSER, "X"), ("read %s:0" % chains[0], SHARPER, "neither")):
            difference = classify(data, right.encode("ascii"), (found + "\nend 0\n").encode("ascii"))
            self.assertEqual((difference.kind, difference.found), (kind, words))
        self.assertEqual(len(classify(data, right.encode("ascii"), b"read 0:1\nend 0\n").assignment), 56)

    def test_too_large(self):
        """Conditions that take too many steps to compare."""
        data = encoded("memory n=1 w=1\nread enable=1 address=0\nread enable=1 address=0\n")
        right = b"read (8 0 1):(8 1 0)\nread 1:1\nend 0\n"
        found = b"read (9 (8 0 1) 1):(8 (9 0 1) 0)\nread 1:0\nend 0\n"
        steps = Diagrams.__init__.__defaults__
        Diagrams.__init__.__defaults__ = (1,)
        try:
            difference = classify(data, right, found)
        finally:
            Diagrams.__init__.__defaults__ = steps
        self.assertEqual(difference.kind, OTHER)
        self.assertEqual(difference.words, "access 1 (read): the conditions are too large to compare")


@functools.lru_cache(None)
def ACCEPTED():
    """Accepted random cases."""
    return random_cases(60, 5000)


def random_cases(count, seed):
    """So many random cases that are accepted."""
    found = []
    while len(found) < count:
        seed += 1
        rng = Random(seed)
        data = randomcases.without_refusals(randomcases.tiny(rng) if rng.chance(50) else randomcases.small(rng)).bytes()
        if not memcase(data).startswith("refused"):
            found.append(data)
    return found


# The group of each wrong function.
GROUPS = [
    ((SHARPER, "read"), (Memory, "read", wrongreads.unknown_enable_as_1)),
    ((SHARPER, "read"), (Memory, "read", wrongreads.unknown_enable_as_0)),
    ((LOOSER, "read"), (Memory, "read", wrongreads.always_joined)),
    ((LOOSER, "read"), (Memory, "read", wrongreads.forgets_held_word)),
    ((SHARPER, "check"), (Memory, "check", wrongswings.unknown_passes)),
    ((OTHER, "write"), (Memory, "write", wrongwrites.idle_entered)),
    ((OTHER, "write"), (Memory, "write", wrongwrites.unknown_enable_idle)),
    ((OTHER, "end"), (wrongcounts.entrycount, "assert_counts", wrongcounts.kept_counted)),
]


# Texts altered at random

def random_condition(rng, depth=2):
    """The text of a condition, often not reduced or not in the order of its variables."""
    if depth == 0 or rng.chance(30):
        return rng.choice("01")
    return "(%d %s %s)" % (rng.choice([8, 9, 10, 11, 37]), random_condition(rng, depth - 1),
                           random_condition(rng, depth - 1))


def other_condition(rng, text):
    """A condition in the place of another: of another meaning, mostly weaker or stronger; or of the same."""
    new = random_condition(rng)
    return rng.choice([new, "(8 %s %s)" % (text, text), "(9 %s %s)" % (text, new), "(8 %s %s)" % (new, text),
                       "0", "1", text])


def altered_line(rng, line):
    """A line with some conditions, its number or its word replaced."""
    texts = conditions_of(line)
    if line.startswith(("write", "end")):
        return line.split(" ")[0] + " " + rng.choice(["0", "1", "7"] + ["idle"] * line.startswith("write"))
    texts = [other_condition(rng, text) if rng.chance(50) else text for text in texts]
    if line.startswith("read"):
        return "read " + " ".join("%s:%s" % pair for pair in zip(texts[::2], texts[1::2]))
    if line.startswith("check"):
        return "check " + texts[0]
    return "assert %s %s" % (rng.choice(["entered", "kept", line.split(" ")[1]]), texts[0])


def altered(rng, text):
    lines = text.decode("ascii").splitlines()
    for _ in range(rng.between(1, 3)):
        place = rng.below(len(lines))
        if rng.chance(20) or not lines[place].startswith(("write", "end")):
            lines[place] = altered_line(rng, lines[place])
    return "".join(line + "\n" for line in lines).encode("ascii")


class Texts(unittest.TestCase):
    """What is no text, is refused, or is spelled otherwise."""

    def kind(self, found, data=WORKED, right=WORKED_TEXT):
        difference = classify(data, right, found)
        for text in (difference.right, difference.found, difference.words):
            self.assertTrue(text and text.isascii() and text.isprintable() and len(text) < 500, difference)
        return difference

    def expect(self, found, kind, access, line, **named_arguments):
        difference = self.kind(found, **named_arguments)
        self.assertEqual((difference.kind, difference.access, difference.line), (kind, access, line), found)
        return difference

    def test_spelled(self):
        for found, access, line in (
                (WORKED_TEXT[:-1], "case", 4), (WORKED_TEXT + b"\n", "case", 5), (b"\n" + WORKED_TEXT, "case", 1),
                (WORKED_TEXT.replace(b"\n", b"\r\n"), "case", 1), (WORKED_TEXT.replace(b" ", b"\t "), "case", 1),
                (WORKED_TEXT.replace(b"write 0", b" write 00 "), "case", 1),
                (WORKED_TEXT.replace(b"1:(8 0 1)", b"1 : ( 08 00 1 )"), "case", 2),
                (WORKED_TEXT.replace(b"1:(", b"(9 1 1):("), "read", 2),
                (WORKED_TEXT.replace(b"(8 1 0)", b"(9 (8 1 0) (8 1 0))"), "check", 3),
                (WORKED_TEXT.replace(b"(8 1 0)", b"(8 (8 1 0) (8 1 0))").replace(b"end", b"\n\nend"), "check", 3)):
            self.expect(found, SPELLED, access, line)

    def test_no_text(self):
        for found, access, line in (
                (b"", "case", 1), (b"\n \r\n", "case", 1), (b"write 0\n", "case", 2), (WORKED_TEXT[:-6], "case", 4),
                (WORKED_TEXT + b"end 1\n", "case", 5), (WORKED_TEXT * 2, "case", 5),
                (b"Write 0\n", "write", 1), (b"write -1\n", "write", 1), (b"write idle idle\n", "write", 1),
                (b"\x00\xff\n", "write", 1), (b"\xff" * 5000, "case", 1), (b"write 0\nread 1\n", "read", 2),
                (b"write 0\nread 1:0 1:0\n", "read", 2), (b"write 0\nread 1:(7 0 1)\n", "read", 2),
                (b"write 0\nread 1:(64 0 1)\n", "read", 2), (b"write 0\nread 1:(8 0 1\n", "read", 2),
                (b"write 0\nread 1:((8 0 1)\n", "read", 2), (b"write 0\nread 1:2\n", "read", 2),
                (WORKED_TEXT.replace(b"end", b"END"), "end", 4), (WORKED_TEXT.replace(b"check", b"assert"), "check", 3),
                (b"write 0\nrefused 9 after 1\n", "read", 2), (b"y\n" * TEXT_BYTES, "case", 1),
                (b"x" * (TEXT_BYTES + 1), "case", 1), (WORKED, "case", 1), (b"write 0\r", "case", 1),
                (b"write " + b"9" * 60000, "case", 1), (b"(8 " * 20000 + b"\n", "write", 1)):
            self.expect(found, NO_TEXT, access, line)
        self.assertEqual(self.kind(b"write " + b"9" * 60000 + WORKED_TEXT[7:])[:2], (OTHER, "write"))
        deep = b"(8 " * 9000 + b"0" + b" 1)" * 9000
        self.assertEqual(self.kind(WORKED_TEXT.replace(b"1:(", deep + b":("))[:2], (SHARPER, "read"))

    def test_cut_off(self):
        """At every length; a text without its last newline alone is whole."""
        text = text_of(named("example-registers").data)
        for length in range(len(text) - 1):
            difference = self.kind(text[:length], data=named("example-registers").data, right=text)
            self.assertEqual((difference.kind, difference.access), (NO_TEXT, "case"), text[:length])
            self.assertEqual(difference.line, text[:length].count(b"\n") + 1)

    def test_any_bytes(self):
        """Bytes of a text changed at random: there is a kind, and what is shown can be printed."""
        kinds = Counter()
        for seed in range(1500):
            rng = Random(seed)
            found = bytearray(WORKED_TEXT)
            for _ in range(rng.between(1, 2)):
                found[rng.below(len(found))] = rng.choice([rng.below(256), *b"01 :()8"])
            if found != WORKED_TEXT:
                kinds[self.kind(bytes(found)).kind] += 1
        self.assertEqual(set(kinds), {SHARPER, LOOSER, OTHER, SPELLED, NO_TEXT})

    def test_refused(self):
        self.expect(b"refused 5 after 1\n", REFUSED, "case", 1)
        short = {"data": WORKED[:-1], "right": b"refused 10 after 2\n"}
        for found, kind in ((b"refused 10 after 1\n", REFUSED), (b"refused 11 after 2\n", REFUSED),
                            (b"refused 10 after 2", SPELLED), (b" refused 010  after 2\r\n", SPELLED),
                            (WORKED_TEXT, REFUSED), (b"end 0\n", REFUSED), (b"refused\n", NO_TEXT), (b"", NO_TEXT),
                            (b"refused 10 after 2\nend 0\n", NO_TEXT), (b"\x1b[31m\n", NO_TEXT),
                            (b"write 0\nread 1:(8 0\nend 1\n", NO_TEXT), (b"write 0\n", NO_TEXT)):
            self.expect(found, kind, "case", 1, **short)
        self.expect(b"refused 5 after " + b"9" * 9000, REFUSED, "case", 1)
        whole = {"data": encoded("memory n=1 w=1\nnode x = (8 0 1)\nread enable=1 address=x:x\n"),
                 "right": b"refused 6 after 0\n"}
        self.expect(b"read 1:1\nend 0\n", REFUSED, "case", 1, **whole)
        for found in (b"read 1:1\n", b"end 0\n", b"write 0\nend 0\n", b"read 1:1\nread 1:1\nend 0\n"):
            self.expect(found, NO_TEXT, "case", 1, **whole)

    def test_refused_too_long(self):
        """A text that is too long, and goes on in the simulator."""
        case = CaseFile(1, 1)
        for _ in range(6000):
            case.read(ONE, [ZERO])
        refused = {"data": case.bytes(), "right": b"refused 13 after 6000\n"}
        self.expect(b"read (8 0 1):1\n" * 5000, REFUSED, "case", 1, **refused)
        self.expect(b"y\n" * 40000, NO_TEXT, "case", 1, **refused)

    def test_words(self):
        """The sentences that are shown."""
        for found, words in (
                (WORKED_TEXT.replace(b"1:(8 0 1)", b"(8 0 1):(8 0 1)"),
                 "access 2 (read), bit 0, under 8=0: memcase admits 1, the simulator nothing"),
                (WORKED_TEXT.replace(b"(8 0 1)", b"0"),
                 "access 2 (read), bit 0, under 8=1: memcase admits 0 and 1, the simulator 1"),
                (WORKED_TEXT.replace(b"(8 1 0)", b"1"), "access 3 (check), under 8=1: the check condition fails in "
                 "memcase's text and holds in the simulator's"),
                (WORKED_TEXT.replace(b"write 0", b"write idle"),
                 "access 1 (write): place 0 in memcase's text, idle in the simulator's"),
                (WORKED_TEXT.replace(b"end 1", b"end 2"),
                 "the last line: 1 entry in memcase's text, 2 entries in the simulator's"),
                (b"refused 9 after 1\n", "the case: accepted in memcase's text, refused 9 after 1 in the simulator's")):
            self.assertEqual(self.kind(found).words, words)
        with self.assertRaises(ValueError):
            classify(WORKED, WORKED_TEXT, WORKED_TEXT)


# Reduction

class Counted:
    """A test of bytes that counts how often it is asked, and sees that nothing is tried that is longer than what was
    found before."""

    def __init__(self, test):
        self.test, self.count, self.shortest = test, 0, None

    def __call__(self, data):
        self.count += 1
        if self.shortest is not None and len(data) > self.shortest:
            raise AssertionError("%d bytes are tried, and %d were found" % (len(data), self.shortest))
        found = self.test(data)
        self.shortest = len(data) if found else self.shortest
        return found


def parting(simulator):
    """The test that a simulator's text of a case is not the right one."""
    return Counted(lambda data: text_of(data) != text_of(data, simulator))


def parsed(data):
    try:
        return parse(data)
    except NotACaseFile:
        return None


def holds_of(test):
    """A test of a whole case as one of bytes."""
    def holds(data):
        case = parsed(data)
        return case is not None and test(case)

    return Counted(holds)


def many(case, kind):
    return sum(access.kind == kind for access in case.accesses)


def without_access(data, place):
    case = parse(data)
    del case.accesses[place]
    return case.bytes()


def plain_accesses():
    """All accesses of a memory of one address bit and one data bit whose bits are 0, 1 or X, by two ports."""
    values = ZERO, ONE, X
    for enable, address in itertools.product(values, values):
        yield from (Access(WRITE, list(enable), [address], [data]) for data in values)
        yield from (Access(READ, list(enable), [address], [], port) for port in range(2))
    for kind, b, address, data in itertools.product((ASSERT, CHECK), (0, 1), values, values):
        yield Access(kind, [b], [address], [data])


def plain_cases(accesses):
    """All cases of so many of these."""
    for chosen in itertools.product(list(plain_accesses()), repeat=accesses):
        case = CaseFile(1, 1)
        case.accesses = list(chosen)
        yield case.bytes()


class Reduced(unittest.TestCase):
    def reduced(self, data, parts, **options):
        """What a case is reduced to: it parts, is no longer, and no access can be dropped."""
        found = reduce(data, parts, **options)
        self.assertTrue(found == data or parts.test(found))
        self.assertLessEqual(len(found), len(data))
        case = parsed(found)
        if case and not options:
            for place in range(len(case.accesses)):
                self.assertFalse(parts.test(without_access(found, place)), casetext.decode(found))
        return found

    def expect(self, text, data, parts):
        self.assertEqual(casetext.decode(self.reduced(data, parts)), text)

    def test_planted(self):
        """Tests whose smallest cases are known."""
        data = named("example-registers").data
        self.expect("memory n=1 w=1\n", data, holds_of(lambda case: True))
        self.expect("memory n=1 w=1\nwrite enable=1 address=0 data=0\nwrite enable=1 address=0 data=0\n"
                    "read port=0 enable=1 address=0\n", data,
                    holds_of(lambda case: many(case, WRITE) >= 2 and many(case, READ)))
        self.expect("memory n=2 w=3\nwrite enable=X address=00 data=100\n", data, holds_of(
            lambda case: case.n > 1 and case.w > 2 and any(
                access.kind == WRITE and access.control == [1, 1] and access.data[2] == ONE
                for access in case.accesses)))
        many_nodes = encoded("memory n=2 w=2\nnode a = (9 0 1)\nnode 3 = (9 1 0)\nnode 4 = (8 a 1)\nnode 5 = (8 3 a)\n"
                             "write enable=1 address=a,0 data=0X\nread port=3 enable=4:5 address=1,a\n"
                             "check b=5 address=XX data=4:3,a\n")
        self.expect("memory n=1 w=1\nnode 2 = (8 0 1)\nnode 3 = (8 1 0)\nread port=0 enable=2:3 address=0\n",
                    many_nodes, holds_of(lambda case: any(
                        access.kind == READ and access.control[0] > 1 for access in case.accesses)))

    def test_nodes(self):
        """Nodes that are needed and not named; variables that may be the same; a file that may be mended."""
        data = encoded("memory n=1 w=1\nnode a = (8 0 1)\nnode b = (8 1 0)\nnode c = (9 0 1)\nnode d = (9 1 0)\n"
                       "write enable=a address=0 data=1\nread enable=1 address=a\nwrite enable=c address=0 data=X\n")
        self.expect("memory n=1 w=1\nnode 2 = (8 0 1)\nnode 3 = (8 1 0)\nnode 4 = (9 0 1)\n", data,
                    holds_of(lambda case: len(case.nodes) > 2))
        self.expect("memory n=1 w=1\nnode 2 = (8 0 1)\nnode 3 = (8 1 0)\nwrite enable=2:3 address=0 data=0\n"
                    "write enable=2:3 address=0 data=0\n", data, holds_of(lambda case: sum(
                        access.kind == WRITE and access.control[0] > 1 for access in case.accesses) > 1))
        damaged = bytearray(data + b"\1\0")
        damaged[len(parse(data).header_bytes()) - 2] += 2
        parts = Counted(lambda data: any(line.startswith("read") for line in run_case(data).lines))
        self.expect("memory n=1 w=1\nread port=0 enable=1 address=0\n", bytes(damaged), parts)

    def test_variables(self):
        """A variable set to a value, or made the same as another, under each assignment."""
        for seed in range(60):
            case = random_case(Random(seed))
            variables = [variable for variable in reduction.variables_of(case) if variable > 7]
            whole = reduction.read_case(case.bytes())
            for v, value in itertools.product(variables, (0, 1)):
                self.hold_values(case, reduction.restricted(whole, v, value),
                                 lambda at, v=v, value=value: at & ~(1 << v) | value << v)
            for v, u in itertools.permutations(variables, 2):
                self.hold_values(case, reduction.merged(whole, v, u),
                                 lambda at, v=v, u=u: at & ~(1 << v) | (at >> u & 1) << v)

    def hold_values(self, case, other, place_of):
        """The nodes that accesses of a case name are in another what they were at an assignment of its own."""
        self.assertTrue(is_standard(other.nodes))
        for place, (one, two) in itertools.product(assignments(case), zip(case.accesses, other.accesses)):
            values = [node_value(case, node, place_of(place)) for node in reduction.named_nodes(one)]
            self.assertEqual(values, [node_value(other, node, place) for node in reduction.named_nodes(two)])

    def test_given_back(self):
        """Where nothing smaller parts, nothing may be tried, or the test ends the search."""
        data = named("example-registers").data
        for parts in (lambda data: False, enough):
            self.assertEqual(reduce(data, parts), data)
        self.assertEqual(reduce(data, lambda data: True, tries=0), data)
        for data in (b"", b"\0", b"\1\1\0"):
            self.assertEqual(reduce(data, lambda data: False), data)

    def test_bound(self):
        """No more tests than are allowed, and what was found so far."""
        simulator = Memory, "read", wrongreads.forgets_held_word
        data = next(data for data in random_cases(50, 0) if parting(simulator)(data))
        sizes = []
        for tries in (1, 5, 20, 1000):
            parts = parting(simulator)
            sizes.append(len(self.reduced(data, parts, tries=tries)))
            self.assertLessEqual(parts.count, tries)
        self.assertEqual(sizes, sorted(sizes, reverse=True))
        self.assertLess(sizes[-1], sizes[0])
        noted = []
        found = reduce(data, parting(simulator), note=noted.append)
        self.assertEqual(noted[-1], found)
        self.assertEqual(sorted(map(len, noted), reverse=True), list(map(len, noted)))

    def test_simulators(self):
        """Wrong simulators: a few accesses are left, of one address bit and one data bit and of few tests."""
        asked = Counter()
        for simulator in SIMULATORS:
            parts = parting(simulator)
            data = next((data for data in ACCEPTED() if parts.test(data)), None)
            if data is None:
                continue
            asked["simulators"] += 1
            case = parse(self.reduced(data, parts))
            self.assertLessEqual(len(case.accesses), 4, simulator)
            self.assertLess(parts.count, 120)
            self.assertEqual((case.n, case.w), (1, 1), simulator)
        self.assertGreater(asked["simulators"], len(SIMULATORS) - 6)

    def test_smallest(self):
        """No case of fewer accesses with bits 0, 1 and X parts."""
        for wrong, left in ((wrongreads.unknown_enable_as_1, 2), (wrongswings.unknown_address_as_1, 2),
                            (wrongreads.forgets_held_word, 3)):
            parts = parting((Memory, "read", wrong))
            data = next(data for data in ACCEPTED() if parts.test(data))
            self.assertEqual(len(parse(self.reduced(data, parts)).accesses), left)
            self.assertFalse(any(map(parts.test, plain_cases(1))))
        self.assertFalse(any(map(parts.test, itertools.islice(plain_cases(2), 0, None, 3))))

    def test_made_nodes(self):
        """An access that names a node which accesses make."""
        case = parse(encoded("memory n=1 w=1\nnode a = (8 0 1)\nnode b = (9 0 1)\nnode 4 = (9 1 0)\n"
                             "write enable=1 address=1 data=a:1\nwrite enable=1 address=0 data=a:1\n"
                             "write enable=b address=0 data=1:4\nread enable=1 address=0\nread enable=1 address=X\n"))
        made = randomcases.made_nodes(case)
        self.assertTrue(made)
        case.check(made[-1], number_bits(0, 1), [ONE])
        self.assertIn(b"check (", text_of(case.bytes()))
        parts = Counted(lambda data: b"check (" in text_of(data))
        found = parse(self.reduced(case.bytes(), parts))
        self.assertLess(len(found.accesses), 4)
        parts = holds_of(lambda case: many(case, CHECK)
                         and case.accesses[-1].control[0] > len(case.nodes) + 1)
        found = parse(self.reduced(case.bytes(), parts))
        self.assertEqual((len(found.nodes), len(found.accesses), found.accesses[0].control), (0, 1, [made[-1] - 3]))

    def test_damaged(self):
        """Damaged files, each down to the row that refuses it."""
        left = Counter()
        for seed in range(400):
            data, _ = randomcases.damaged(Random(seed))
            if not randomcases.has_tables(data) or not memcase(data).startswith("refused"):
                continue
            row = memcase(data).split(" ")[1]
            parts = Counted(lambda data: memcase(data).startswith("refused %s " % row))
            found = self.reduced(data, parts)
            left[row] = max(left[row], len(found))
        self.assertEqual(left["10"], 0)
        self.assertLess(max(left.values()), 40, left)
        self.assertEqual((left["11"], left["12"]), (7, 7))

    def test_any_test(self):
        """Tests that are true of any cases: what is found parts, is no longer, and is found without a fault."""
        for seed in range(60):
            data, _ = randomcases.random_bytes(seed)
            if len(data) < 3000:
                parts = Counted(lambda data, seed=seed: sum(data) * 7 % 11 > seed % 9)
                self.reduced(data, parts, tries=150)
        largest = named("limit-nodes-words-49151").data
        parts = holds_of(lambda case: len(case.accesses) > 0)
        self.assertLess(len(self.reduced(largest, parts, tries=60)), len(largest))


def enough(_data):
    raise Enough()


if __name__ == "__main__":
    unittest.main()
