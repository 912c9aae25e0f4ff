#!/usr/bin/env python3
"""Tests of the text language and of the import of traces; some seconds.

    python3 tests/test_casetext.py [-v]

The reference stands in for `memcase`, so that nothing has to be built for them.
"""

import csv
import hashlib
import itertools
import os
import shutil
import subprocess
import sys
import tempfile
import unittest
from collections import Counter
from unittest import mock

from rooms import ROOT, TOOLS
import storedcases
from common.casefile import ONE, X, ZERO, CaseFile, NotACaseFile
from common.diagrams import Diagrams
from common.randomcases import Random
from language import casetext, traces
from papers import ASSERT, CHECK, READ, WRITE
from randompairs import pair_value, text_value
from rowcases import WORKED
from second.reference import memcase
from second.tables import is_standard
from sharpened import casepairs, sharpercases

LETTERS = {ZERO: "0", ONE: "1", X: "X"}


def read(name):
    with open(os.path.join(ROOT, *name.split("/")), encoding="utf-8") as file:
        return file.read()


def case_of(text):
    return casetext.read_text(text)[0]


def one_access(text, n=1, w=1):
    return case_of("memory n=%d w=%d\n%s\n" % (n, w, text)).accesses[-1]


def letters(pairs):
    """Pairs that are 0, 1 or X, the highest bit first."""
    return "".join(LETTERS[pair] for pair in reversed(pairs))


def mistake_in(text):
    """The mistake of a text, or None."""
    try:
        casetext.read_source(text)
    except casetext.Mistake as mistake:
        return str(mistake)
    return None


class OldTexts(unittest.TestCase):
    """Texts from before `variable` and `let` mean what they did."""

    # The bytes of the examples as they were then.
    DIGESTS = {"worked": "e928a3a1654a2bd8", "registers": "313d58b71423983b", "buffer": "224af0b45d09a37e",
               "budget": "f1d21cf299cdd5e4", "buffer-sharper": "f27945142583ad1f"}

    def test_examples(self):
        for name, digest in self.DIGESTS.items():
            data = casetext.encode(read("examples/%s.txt" % name))
            self.assertEqual(hashlib.sha256(data).hexdigest()[:16], digest, name)

    def test_stored_cases(self):
        """What `decode` prints of each, `encode` turns into the same bytes."""
        trips = 0
        for case in storedcases.all_cases():
            try:
                text = casetext.decode(case.data)
            except NotACaseFile:
                continue
            self.assertEqual(casetext.encode(text), case.data, case.name)
            trips += 1
        self.assertGreater(trips, 200)

    def test_names_and_complements(self):
        """Random cases written with names that are also letters, `!name` and h:l, beside the same made by calls."""
        for seed in range(300):
            rng = Random(seed)
            case, lines, pairs = self.named_nodes(rng)
            for _ in range(rng.between(1, 5)):
                self.random_access(rng, case, lines, pairs)
            self.assertEqual(casetext.encode("\n".join(lines)), case.bytes(), seed)

    def named_nodes(self, rng):
        case = CaseFile(rng.between(1, 3), rng.between(1, 3))
        lines = ["memory n=%d w=%d" % (case.n, case.w)]
        pairs = {"0": ZERO, "1": ONE, "X": X}
        for name in rng.some(["x", "x0", "xX", "a", "enable", "not_x"], rng.between(1, 4)):
            variable = rng.below(8) + 8
            if (variable, 0, 1) in case.nodes:
                continue
            number = case.variable(variable)
            pair = case.pair(number)
            lines += ["node %s = (%d 0 1)" % (name, variable), "node %d = (%d 1 0)" % (pair[1], variable)]
            pairs.update({name: pair, "!" + name: pair[::-1], "%s:1" % name: (number, 1),
                          "%d:%s" % (pair[1], name): pair[::-1]})
        return case, lines, pairs

    def random_access(self, rng, case, lines, pairs):
        enable, *rest = [rng.choice(sorted(pairs)) for _ in range(1 + case.n + case.w)]
        bits = [pairs[item] for item in rest]
        address, data = bits[:case.n][::-1], bits[case.n:][::-1]
        fields = ["enable=" + enable, "address=" + ",".join(rest[:case.n]), "data=" + ",".join(rest[case.n:])]
        if rng.chance(50):
            case.write(pairs[enable], address, data)
            lines.append("write %s" % " ".join(rng.some(fields, 3)))
        else:
            case.read(pairs[enable], address)
            lines.append("read %s  # %s" % (" ".join(rng.some(fields[:2], 2)), fields[2]))

    def test_no_node_is_made(self):
        """Without `variable` and `let` the nodes are those of the `node` lines."""
        start = "memory n=1 w=1\nnode a = (8 0 1)\n"
        for line in ("read enable=a address=0", "read enable=!a address=0", "read enable=a & 1 address=0",
                     "check b=!a address=0 data=0"):
            self.assertIn("line 3: column ", mistake_in(start + line))
            case = case_of(start + "node c = (8 1 0)\n" + line)
            self.assertEqual(case.nodes, [(8, 0, 1), (8, 1, 0)])

    def test_nodes_that_are_not_standard(self):
        """They can be named by h:l and b, as before."""
        start = "memory n=1 w=1\nnode a = (8 0 0)\nnode c = (8 0 0)\n"
        access = case_of(start + "check b=c address=a:c data=2:1").accesses[0]
        self.assertEqual((access.control, access.address, access.data), ([3], [(2, 3)], [(2, 1)]))
        self.assertIn("not in standard form", mistake_in(start + "read enable=a address=0"))

    def test_x_is_a_node(self):
        text = "memory n=1 w=1\n%sread enable=x address=x\n"
        self.assertEqual(case_of(text % "node x = (8 0 1)\nnode n = (8 1 0)\n").accesses[0].address, [(2, 3)])
        self.assertEqual(case_of(text % "").accesses[0].address, [X])


# Expressions, each as a tree with a way to write it and a way to find it under an assignment.

class Tree:
    """`level` says how closely the text binds; `bits` gives its bits under an assignment, the highest first."""

    def __init__(self, level, text, width, bits):
        self.level, self.text, self.width, self.bits = level, text, width, bits


CHOICE, OR, XOR, AND, COMPARISON, UNARY, ATOM = range(7)
OPERATORS = {OR: ("|", lambda a, b: a | b), XOR: ("^", lambda a, b: a ^ b), AND: ("&", lambda a, b: a & b)}
VECTORS = [("we", 1), ("stall", 1), ("r", 3), ("s", 3), ("t", 1)]
DECLARED = "variable we, stall\nvariable r[2:0] s[0:2]\nvariable\tt\n"


def numbers_of(name):
    """The variables of a name: from 8 up as they are declared."""
    before = itertools.takewhile(lambda vector: vector[0] != name, VECTORS)
    first = 8 + sum(width for _, width in before)
    return list(range(first, first + dict(VECTORS)[name]))


VARIABLES = [number for name, _ in VECTORS for number in numbers_of(name)]


def assignments():
    for values in itertools.product((0, 1), repeat=len(VARIABLES)):
        yield sum(value << number for number, value in zip(VARIABLES, values))


class Trees:
    """Random expressions over the vectors."""

    def __init__(self, rng):
        self.rng = rng

    def within(self, tree, level):
        """The text of a tree where one is needed that binds at least so closely."""
        return "(%s)" % tree.text if tree.level < level or self.rng.chance(10) else tree.text

    def blank(self):
        return self.rng.choice(["", " ", "\t", "  "])

    def tree(self, width, depth):
        ways = [self.name, self.operator, self.operator, self.operator, self.choice, self.tilde, self.number]
        if width == 1:
            ways += [self.comparison, self.comparison, self.negation]
        return self.rng.choice(ways if depth else [self.name])(width, depth - 1)

    def name(self, width, _depth):
        name, whole = self.rng.choice([vector for vector in VECTORS if vector[1] >= width])
        numbers = numbers_of(name)
        first = self.rng.below(whole - width + 1)
        text = name
        if whole > 1:
            indices = [2, 1, 0] if name == "r" else [0, 1, 2]
            single = "%s[%d]" % (name, indices[first]) if self.rng.chance(50) else "%s%d" % (name, indices[first])
            part = "%s[%d:%d]" % (name, indices[first], indices[first + width - 1])
            text = single if width == 1 else name if width == whole and self.rng.chance(70) else part
        chosen = numbers[first:first + width]
        return Tree(ATOM, text, width, lambda a: [a >> number & 1 for number in chosen])

    def number(self, width, _depth):
        value = self.rng.below(1 << width)
        text = self.rng.choice(["%d'h%x" % (width, value), "%d'b%s" % (width, format(value, "b")),
                                "%d'd%d" % (width, value)])
        return Tree(ATOM, text, width, lambda a: [value >> place & 1 for place in reversed(range(width))])

    def operator(self, width, depth):
        level = self.rng.choice([OR, XOR, AND])
        mark, found = OPERATORS[level]
        one, other = self.tree(width, depth), self.tree(width, depth)
        text = "%s%s%s%s%s" % (self.within(one, level), self.blank(), mark, self.blank(), self.within(other, level + 1))
        return Tree(level, text, width, lambda a: [found(*both) for both in zip(one.bits(a), other.bits(a))])

    def comparison(self, _width, depth):
        width = self.rng.between(1, 3)
        one, mark = self.tree(width, depth), self.rng.choice(["==", "!="])
        if self.rng.chance(50):
            value = self.rng.below(1 << width)
            text = self.rng.choice(["%d" % value, "0x%x" % value, "0d%d" % value])
            other = Tree(ATOM, text, width, lambda a: [value >> place & 1 for place in reversed(range(width))])
        else:
            other = self.tree(width, depth)
        sides = [self.within(one, UNARY), self.within(other, UNARY)]
        return Tree(COMPARISON, (self.blank() + mark + self.blank()).join(sides), 1,
                    lambda a: [int((one.bits(a) == other.bits(a)) == (mark == "=="))])

    def choice(self, width, depth):
        condition, one, other = self.tree(1, depth), self.tree(width, depth), self.tree(width, depth)
        text = "%s ? %s : %s" % (self.within(condition, OR), self.within(one, CHOICE), self.within(other, CHOICE))
        return Tree(CHOICE, text, width, lambda a: one.bits(a) if condition.bits(a) == [1] else other.bits(a))

    def tilde(self, width, depth, mark="~"):
        tree = self.tree(width, depth)
        return Tree(UNARY, mark + self.within(tree, UNARY), width, lambda a: [1 - bit for bit in tree.bits(a)])

    def negation(self, width, depth):
        return self.tilde(width, depth, "!")


class Expressions(unittest.TestCase):
    """Expressions under every assignment."""

    def expect_nodes(self, case, seed):
        """The nodes are in standard form, and an access needs each."""
        self.assertTrue(is_standard(case.nodes), seed)
        needed = {node for access in case.accesses for node in casepairs.nodes_of(access)}
        for number in range(len(case.nodes) + 1, 1, -1):
            self.assertIn(number, needed, seed)
            needed.update(case.nodes[number - 2][1:])

    def expect_bits(self, case, pairs, tree, seed):
        for a in assignments():
            values = [pair_value(case, pair, a) for pair in reversed(pairs)]
            self.assertEqual(values, [(bit, 1 - bit) for bit in tree.bits(a)], (seed, tree.text))

    def test_random(self):
        """In fields, behind `let` and as b, beside the tree's own values."""
        for seed in range(60):
            trees = Trees(Random(seed))
            bit, vector = trees.tree(1, 4), trees.tree(3, 3)
            text = ("memory n=3 w=4\n%slet hit = %s\nlet v = %s\nwrite enable=%s address=%s data=hit,v\n"
                    "check b=%s address=v[2:0] data=v2,!v1,v[0],!hit\n"
                    % (DECLARED, bit.text, vector.text, bit.text, vector.text, bit.text))
            case = case_of(text)
            self.expect_nodes(case, seed)
            write, check = case.accesses
            self.expect_bits(case, [tuple(write.control)], bit, seed)
            self.expect_bits(case, write.address, vector, seed)
            self.assertEqual(write.data, write.address + [tuple(write.control)])
            self.assertEqual(check.control[0], write.control[0])
            self.assertEqual(check.address, write.address)
            high, middle, low = write.address[::-1]
            self.assertEqual(check.data[::-1], [high, middle[::-1], low, tuple(write.control[::-1])])

    def test_two_sides(self):
        """h:l, whose sides are expressions, vectors or numbers of nodes."""
        for seed in range(40):
            trees = Trees(Random(seed))
            high, low = trees.tree(3, 3), trees.tree(3, 3)
            case = case_of("memory n=3 w=1\n%sread enable=1 address=%s : %s\n" % (
                DECLARED, trees.within(high, OR), trees.within(low, OR)))
            for a in assignments():
                values = [pair_value(case, pair, a) for pair in reversed(case.accesses[0].address)]
                self.assertEqual(values, list(zip(high.bits(a), low.bits(a))), seed)
        access = one_access("variable a\nread enable=a:1 address=1:!a")
        self.assertEqual((access.control, access.address), ([2, 1], [(1, 3)]))

    def test_as_written(self):
        """Precedence and association, beside the same with all parentheses."""
        same = [("a | b ^ c & d", "a | (b ^ (c & d))"), ("a & b ^ c | d", "((a & b) ^ c) | d"),
                ("!a & b", "(!a) & b"), ("a & r == 5", "a & (r == 5)"), ("!a == b", "(!a) == b"),
                ("a ? b : c ? d : a", "a ? b : (c ? d : a)"), ("a | b ? c : d", "(a | b) ? c : d"),
                ("a ^ b ^ c", "(a ^ b) ^ c"), ("!!a", "a"), ("r == 5", "r2 & !r1 & r[0]"), ("r != 0x5", "!(r == 3'd5)"),
                ("~r == 2", "r == 5"), ("a&b|c", "(a & b) | c"), ("1 & a | 0", "a"), ("r[2:1] == 2", "r2 & !r1")]
        for one, other in same:
            access = one_access("variable a b c d r[2:0]\nread enable=%s address=(%s)" % (one, other))
            self.assertEqual(tuple(access.control), access.address[0], one)

    def test_order_of_variables(self):
        """From 8 up as declared, a vector from its first index on; or the numbers that are given."""
        text = ("memory n=1 w=1\nvariable we r[2:0]\nvariable s[0:1] = 20 step 3\nvariable t\nvariable u = 13\n"
                "variable v[9:8]\n")
        source = casetext.read_source(text)
        self.assertEqual(source.variables, {8: "we", 9: "r[2]", 10: "r[1]", 11: "r[0]", 20: "s[0]", 23: "s[1]", 24: "t",
                                            13: "u", 25: "v[9]", 26: "v[8]"})
        case = case_of(text + "check b=we & r0 & u & v8 address=0 data=0\n")
        self.assertEqual(case.nodes, [(26, 0, 1), (13, 0, 2), (11, 0, 3), (8, 0, 4)])

    def test_fifty_six(self):
        names = " ".join("a%d" % number for number in range(56))
        self.assertEqual(len(casetext.read_source("memory n=1 w=1\nvariable %s" % names).variables), 56)
        self.assertEqual(mistake_in("memory n=1 w=1\nvariable %s b" % names),
                         "line 2: column %d: `b` would be variable 64, and variables are 8 to 63" % (len(names) + 11))

    def test_source(self):
        """Lines, names of variables, and names of conditions that have a node."""
        source = casetext.read_source("memory n=1 w=2\n\nnode a = (9 0 1)\nnode c = (8 1 a)\nnode 4 = (11 0 1)\n"
                                      "variable we = 12\nlet same = a\nlet hit = we & a\nlet other = a & we\n"
                                      "let never = 0\nlet unused = we | a\nlet v = 2'b10 ^ (hit ? 2'b11 : 0)\n"
                                      "read enable=hit address=never\n# end\nwrite enable=1 address=0 data=v\n")
        self.assertEqual(source.lines, [13, 15])
        self.assertEqual(source.variables, {9: "a", 12: "we"})
        names = {name: number for number, name in source.conditions.items()}
        self.assertEqual(sorted(names), ["a", "c", "hit", "v[1]"])
        self.assertEqual((names["a"], names["c"]), (2, 3))
        self.assertEqual(source.case.accesses[0].control, [names["hit"], names["v[1]"]])

    def test_nodes_and_variables_together(self):
        """Nodes of the text keep their numbers, and those that are made come behind them."""
        case = case_of("memory n=1 w=1\nnode a = (9 0 1)\nnode 3 = (8 0 a)\nvariable we = 8\n"
                       "check b=we & a address=!a data=3:1\n")
        self.assertEqual(case.nodes, [(9, 0, 1), (8, 0, 2), (9, 1, 0)])
        self.assertEqual(case.accesses[0][1:4], ([3], [(4, 2)], [(3, 1)]))

    def test_interleaved(self):
        """A comparison is small where the bits alternate; too large a one is a mistake."""
        text = "memory n=1 w=1\nvariable r[15:0] = 8%s\nvariable s[15:0] = %s\ncheck b=r == s address=0 data=0\n"
        case = case_of(text % (" step 2", "9 step 2"))
        self.assertEqual(len(case.nodes), 3 * 16)
        with mock.patch.object(casetext, "Diagrams", lambda: Diagrams(1000)):
            self.assertRegex(mistake_in(text % ("", "24")), "^line 4: a condition takes too many steps in this order ")
        with mock.patch.object(casetext, "LAST_NODE", 40):
            self.assertRegex(mistake_in(text % (" step 2", "9 step 2")), "^line 4: the conditions up to here need ")


class Words(unittest.TestCase):
    def expect(self, text, wanted, width):
        self.assertEqual(letters(one_access("read enable=1 address=" + text, width).address), wanted, text)

    def test_numbers(self):
        """Every base, with and without a width, in every width."""
        rng = Random(1)
        for width in list(range(1, 17)) * 6:
            value = rng.below(1 << rng.between(1, width))
            wanted = format(value, "0%db" % width)
            for text in ("0x%X" % value, "0d%d" % value, "0b%s" % format(value, "b"), "0o%o" % value, "'h%x" % value,
                         "%d'h%x" % (width, value), "%d'D%d" % (width, value), "%d'b%s" % (width, wanted),
                         "%d'o0_0%o" % (width, value), wanted):
                if not (text.startswith("0x") and len(text) == width and set(text) <= set("0x1")):
                    self.expect(text, wanted, width)

    def test_unknown_digits(self):
        rng = Random(2)
        for _ in range(100):
            digits = "".join(rng.choice("0123456789abcdefxX") for _ in range(rng.between(1, 4)))
            bits = "".join("XXXX" if digit in "xX" else format(int(digit, 16), "04b") for digit in digits)
            self.expect("%d'h%s" % (len(bits), digits), bits, len(bits))
            self.expect("16'h" + digits, ("X" if digits[0] in "xX" else "0") * (16 - len(bits)) + bits, 16)
            self.expect("'h0" + digits, "0" * (20 - len(bits)) + bits, 20)

    def test_letters(self):
        """x is X, alone all of a field, and tabs separate."""
        for text, wanted in (("01x", "01X"), ("x0X", "X0X"), ("x,1,x", "X1X"), ("xx1", "XX1"), ("x", "XXX"),
                             ("X", "XXX"), ("\t1 , 0x ", "10X"), ("0b1x0", "1X0"), ("3'b1x", "01X"), ("3'bx", "XXX"),
                             ("3'dx", "XXX"), ("3'hx", "XXX"), ("1'b1,2'b0x", "10X"), ("3'o7", "111"), ("0X1", "0X1")):
            self.expect(text, wanted, 3)
        self.expect("0x1x", "1XXXX", 5)
        self.expect("0xxf", "X1111", 5)
        self.expect("0xx10x1xxx1xx011", "0XX10X1XXX1XX011", 16)
        self.assertEqual(letters(one_access("write\tenable=1\t\taddress=0\tdata=x", 1, 4).data), "XXXX")
        self.assertEqual(one_access("read  port = 2 enable = x address = 1").control, [1, 1])

    def test_wrong(self):
        for width, text, reason in (
                (4, "0x10", "`0x10` may be a hexadecimal word, 4'h10, or the bits 0X10: write one of these"),
                (3, "0x1", "`0x1` may be a hexadecimal word, 3'h1, or the bits 0X1: write one of these"),
                (5, "0x001", "`0x001` may be a hexadecimal word, 5'h001, or the bits 0X001: write one of these"),
                (4, "0x1f", "`0x1f` is too large for 4 bits"), (5, "0xx0f", "`0xx0f` is too large for 5 bits"),
                (5, "5'd32", "`5'd32` is too large for 5 bits"), (5, "4'd3", "`address` has 4 bits and needs 5"),
                (5, "17", "`17` is no word of bits: a decimal word is written 0d17"),
                (5, "10", "`address` has 2 bits and needs 5; a decimal word is written 0d10"),
                (5, "1,0x1", "`0x1` has no width, and can only be the whole field; as bits it is 0X1"),
                (5, "5'hzz", "`5'hzz` is no word: z is no value here, x is unknown"),
                (5, "0b12", "`0b12` is no word: 2 is no digit of its base"),
                (5, "0d", "an operator is needed before `d`"), (5, "5'h_", "`5'h_` is no word: it has no digit"),
                (5, "0'h1", "`0'h1` is no word: its width must be 1 to 255"),
                (5, "99999'h1", "`99999'h1` is no word: its width must be 1 to 255"),
                (5, "0d" + "9" * 9999, "`0d%s..` is too large for any word of a case" % ("9" * 38))):
            mistake = mistake_in("memory n=%d w=1\nread enable=1 address=%s\n" % (width, text))
            self.assertRegex(mistake, "^line 2: column [0-9]+: ")
            self.assertEqual(mistake.split(": ", 2)[2], reason)


START = "memory n=2 w=2\nvariable we stall\nvariable r[1:0]\n"


class Mistakes(unittest.TestCase):
    """Each names its line, and the column or the piece, and what to do."""

    def expect(self, line, message, start=START):
        self.assertEqual(mistake_in(start + line), "line %d: %s" % (start.count("\n") + 1, message))

    def test_variables(self):
        for line, message in (
                ("variable", "`variable` needs a name"),
                ("variable a 5", "column 12: `5` is no name: a letter, then letters, digits and _"),
                ("variable a[4]", "column 10: a variable is written NAME, and a vector NAME[4:0]"),
                ("variable x1", "column 10: `x1` is no name: x, X, 0 and 1 are bits"),
                ("variable we", "column 10: the name `we` is declared twice, before in line 2"),
                ("variable r0", "column 10: the name `r0` is declared twice, before in line 3, as r[0]"),
                ("variable a0 a[1:0]", "column 13: the name `a0` is declared twice, before in line 4"),
                ("variable a[56:0]", "column 10: `a` has indices above 255, or more than the 56 bits that there are "
                                     "variables for"),
                ("variable a b = 9", "column 14: a number is given to one name alone, `variable r[4:0] = 20` or "
                                     "`= 20 step 2`"),
                ("variable a = 9", "column 10: `a` would be variable 9, which is `stall`"),
                ("variable a = 7", "column 10: `a` would be variable 7, and variables are 8 to 63"),
                ("variable a[1:0] = 9 step 0", "column 10: the step must be 1 or more"),
                ("node a = (20 0 1)", "nodes come before the first access, `variable` and `let`")):
            self.expect(line, message)
        self.expect("variable a", "column 10: `a` would be variable 8, which is one of a `node` line: give its number, "
                                  "as in `variable NAME = 20`", "memory n=1 w=1\nnode b = (8 0 1)\n")
        self.expect("variable a", "the first line must be `memory n=.. w=..`", "# nothing\n")
        self.expect("variable b = 9", "column 10: the name `b` is declared twice, before in line 2",
                    "memory n=1 w=1\nnode b = (8 0 1)\n")

    def test_expressions(self):
        for expression, column, message in (
                ("", 0, "a name, a number or `(` is needed at the end"),
                ("we &", 4, "a name, a number or `(` is needed at the end"),
                ("wee", 0, "no variable, condition or node has the name `wee`; did you mean `we`?"),
                ("We", 0, "no variable, condition or node has the name `We`; did you mean `we`?"),
                ("r > 3", 2, "no expression goes on with `>`; the operators are ! ~ == != & ^ | and ? :"),
                ("r + 3", 2, "no expression goes on with `+`; the operators are ! ~ == != & ^ | and ? :"),
                ("we stall", 3, "an operator is needed before `stall`"),
                ("(we", 3, "`)` is needed at the end, for `(` in column 11"),
                ("we)", 2, "an operator is needed before `)`"), ("we && stall", 3, "`&&` is written `&`"),
                ("we || stall", 3, "`||` is written `|`"),
                ("we & r", 3, "`&` has 1 bit before it and 2 bits behind it"),
                ("!r", 0, "`!` is of one bit, and here it has 2; write `~` for each bit, or `== 0`"),
                ("r == 4", 2, "`4` is too large for 2 bits"),
                ("r == 11", 2, "`11` is too large for 2 bits; bits are written 0b11"),
                ("r == 01", 5, "`01` is no number of an expression: bits are written 0b01"),
                ("r == we", 2, "`==` has 2 bits before it and 1 bit behind it"),
                ("we == we == we", 9, "a comparison of a comparison needs parentheses"),
                ("r[2]", 2, "`r` has no bit 2: it is [1:0]"), ("we[0]", 3, "`we` has no bit 0: it is no vector"),
                ("r[0:1]", 1, "`r` has its bits in the other order: it is [1:0]"),
                ("we ? r", 6, "`:` is needed at the end, for `?` in column 14"),
                ("r ? 1 : 0", 2, "`?` is of one bit, and here it has 2"), ("5", 0, "`5` is too large for 1 bit"),
                ("we ? 5 : 6", 3, "`?` has a number on both sides, and neither has a width: write one as 5'h1f"),
                ("we = 1", 3, "no expression goes on with `=`; a comparison is written `==`"),
                ("we & x", 5, "`x` is unknown, and conditions are of bits that are 0 or 1; in a field it can be an "
                              "item of its own"),
                ("r == 2'b1x", 5, "`2'b1x` has unknown bits, and conditions are of bits that are 0 or 1; in a field it "
                                  "can be an item of its own"),
                ("(" * 51 + "we", 50, "more than 50 parentheses and choices are open; name a part with `let`")):
            self.expect("let hit = " + expression, "column %d: %s" % (column + 11 - (not expression), message))
        self.expect("let hit", "column 5: a condition is named by `let NAME = EXPRESSION`")
        self.expect("let we = 1", "column 5: the name `we` is declared twice, before in line 2")

    def test_fields(self):
        for line, message in (
                ("read enable=1 adress=0", "column 15: `read` takes port, enable, address, not `adress`; did you mean "
                                           "`address`?"),
                ("read enable=we & r =1 address=0", "column 18: `read` takes port, enable, address, not `r`; a "
                                                    "comparison is written `==`"),
                ("read we address=0", "column 6: `we` should be written as name=value"),
                ("read enable=1", "`read` needs `address=`"),
                ("read enable=1 enable=1 address=0", "column 15: `enable` twice; one statement to a line"),
                ("read enable=1 address=r; read enable=1 address=r", "column 31: `enable` twice; one statement to a "
                                                                     "line"),
                ("read enable=1 address=r; check b=1 address=r data=r", "column 32: `read` takes port, enable, "
                 "address, not `b`; one statement to a line"),
                ("read enable=1 address=r;", "column 24: no expression goes on with `;`; one statement to a line"),
                ("read port=1, enable=1 address=r", "column 11: the port must be a number, without a comma, not `1,`"),
                ("read enable=r address=0", "column 13: `enable` has 2 bits and needs 1"),
                ("read enable=we,, address=r", "column 16: an item is missing"),
                ("check b=r address=r data=r", "column 9: `b` is one condition, and `r` has 2 bits"),
                ("read port=we enable=1 address=r", "column 11: the port must be a number, not `we`"),
                ("read enable=1:99999 address=r", "column 13: a node is 99999, and at most 65535 fits the file"),
                ("rite\x1b", "unknown word `rite\x1b`; a line begins with memory, variable, let, node, write, read, "
                             "assert or check")):
            self.expect(line, message)

    def test_long_lines(self):
        """No input is shown whole."""
        for line in ("%s", "%s=1", "let a = %s", "let a = 9'h%s", "let %s = 1", "variable %s", "variable %s = 9",
                     "variable a = %s", "variable a[%s:0]", "read enable=1 address=%s", "read enable=1 address=1,0x%s",
                     "read enable=1:%s address=r", "read port=%s enable=1 address=r", "read %s=1",
                     "check b=%s address=r data=r", "check b=!%s address=r data=r", "memory n=%s w=1"):
            for letter in "a017x(!'":
                self.assertRegex(mistake_in(START + line % (letter * 9999)) or "line 4: ", "^line 4: .{0,300}$")

    def test_limits(self):
        lines = ["memory n=1 w=1"] + ["read enable=1 address=0"] * 65536
        self.assertEqual(mistake_in("\n".join(lines)), "line 65537: more than 65535 accesses")
        case = case_of(START + "let a = " + " & ".join(["we"] * 50000) + "\ncheck b=a address=r data=r\n")
        self.assertEqual(case.nodes[0], (8, 0, 1))
        self.assertIsNone(mistake_in(START + "let a = " + "!" * 50000 + "we\n"))

    def test_random_texts(self):
        """Whatever stands in a text, it is a case or a mistake that names a line."""
        pieces = ["we", "stall", "r", "r[", "1:0]", "]", "0", "1", "5", "x", "X", "0x1f", "2'b1x", "'", "(", ")", "!",
                  "~", "&", "^", "|", "==", "!=", "?", ":", ",", "=", " ", "\t", "enable=", "address=", "data=", "b=",
                  "port=", "write ", "read ", "let ", "variable ", "node ", "memory ", "step", "#", "\n", "\0", "é"]
        for seed in range(3000):
            rng = Random(seed)
            line = rng.choice(["let hit = ", "write enable=", "check b=we address=r data=", "variable ", ""])
            text = START + line + "".join(rng.choice(pieces) for _ in range(rng.between(1, 12)))
            try:
                casetext.encode(text)
            except casetext.Mistake as mistake:
                self.assertRegex(str(mistake), "(?s)^line [45678]: ", seed)


# Traces

ACCESSES = "# memory n=2 w=4\nkind,port,enable,address,data,b\n"
CYCLES = "# memory n=2 w=4\nre0,raddr0,re2,raddr2,we,waddr,wdata\n"


def text_of(table, **given):
    return traces.text_of(table.encode("utf-8"), **given)


def lines_of(table):
    """The lines of a table's text without comments."""
    return [" ".join(line.split("#")[0].split()) for line in text_of(table).splitlines()]


class Traces(unittest.TestCase):
    """Tables of accesses, the text of each beside what is written by hand."""

    def expect(self, table, *lines):
        self.assertEqual([line for line in lines_of(table) if line], ["memory n=2 w=4", *lines])

    def test_access_to_a_row(self):
        self.expect(ACCESSES + "write,,we,r,4'hx,\nread,2,x,0d1,,\nREAD,,1,x,,\n\n,,,,,\n"
                               'assert,,,"r1,0",0x3,we & r == 2\ncheck,,,01,d,!hit\n# end\n',
                    "variable we", "variable r[1:0]", "variable d[3:0]", "variable hit",
                    "write enable=we address=r data=4'hx", "read port=2 enable=x address=0d1",
                    "read enable=1 address=x", "assert b=we & r == 2 address=r1,0 data=0x3",
                    "check b=!hit address=01 data=d")

    def test_columns_left_out(self):
        """And in another order."""
        self.expect("# memory n=2 w=4\nData, Kind ,address\n0xf,write,1x\n,read,00\n0x1,check,r\n",
                    "variable r[1:0]", "write enable=1 address=1x data=0xf", "read enable=1 address=00",
                    "check b=1 address=r data=0x1")

    def test_cycle_to_a_row(self):
        """In the order of the columns; groups that are empty, or not enabled and empty, make no access."""
        self.expect(CYCLES + "1,r,0,01,we,r,x\n,,0,,,,\n,,,,1,00,0xf\n", "variable r[1:0]", "variable we",
                    "read enable=1 address=r", "read port=2 enable=0 address=01", "write enable=we address=r data=x",
                    "write enable=1 address=00 data=0xf")
        self.expect("# memory n=2 w=4\nwaddr1,wdata1,we,waddr,wdata,raddr\n00,x,we,01,x,10\n", "variable we",
                    "write enable=1 address=00 data=x", "write enable=we address=01 data=x", "read enable=1 address=10")

    def test_radix(self):
        self.expect("# memory n=2 w=4\nkind,address:dec,data:hex\nwrite,3,x\nwrite,r,(d)\nwrite,x,c\nwrite,2'b0x,0_8\n",
                    "variable r[1:0]", "variable d[3:0]", "write enable=1 address=2'd3 data=4'hx",
                    "write enable=1 address=r data=(d)", "write enable=1 address=2'dx data=4'hc",
                    "write enable=1 address=2'b0x data=4'h0_8")
        self.expect("# memory n=2 w=4\nwaddr:bin,wdata:oct\nx1,17\n", "write enable=1 address=2'bx1 data=4'o17")

    def test_declared(self):
        """Variables and conditions above the header; then no other name is one."""
        start = "# memory n=2 w=4\n# variable r[1:0], we\n# let hit = we & r == 1\n# Let us begin.\n"
        table = start + "kind,enable,address,data\nwrite,hit,r,x\n"
        self.expect(table, "variable r[1:0], we", "let hit = we & r == 1", "write enable=hit address=r data=x")
        with self.assertRaisesRegex(casetext.Mistake, "^line 7, column enable: no variable, condition or node has the "
                                                      "name `hits`; did you mean `hit`[?]$"):
            text_of(table + "write,hits,r,x\n")
        self.expect("# memory n=2 w=4\n# let hit = we & r == 1\nkind,enable,address,data\nwrite,hit,r,x\n",
                    "variable we", "variable r[1:0]", "let hit = we & r == 1", "write enable=hit address=r data=x")

    def test_forms_of_tables(self):
        """A byte order mark, other ends of lines, other separators, quotes, --n and --w; and comments with the rows."""
        for table in ("\ufeff# memory n=2 w=4\r\nkind,address\r\n\r\nread,00\r\n",
                      "# memory n=2 w=4\rkind,address\r\rread,00\r",
                      '"# memory n=2 w=4";\nkind;"address"\n;\n"read"; "00"\n'.replace(' "00"', '"00"'),
                      "# memory n=2 w=4\nkind\taddress\n\nread\t00", "# memory n=2 w=4,,\nkind,address,\n\nread,00,\n"):
            self.expect(table, "read enable=1 address=00")
            self.assertIn("# line 4\n", text_of(table))
        self.assertEqual(text_of("kind,address\nread,x\n", n=2, w=4).splitlines()[0], "memory n=2 w=4")
        text = text_of("# memory n=2 w=4\nnote,kind,time,address\n\"a\x1b\nb # c\",read,10 ns,00\nd,read,,01\n")
        self.assertTrue(text.splitlines()[2].endswith("  # line 3, a? b # c, time 10 ns"), text)
        self.assertTrue(text.splitlines()[3].endswith("  # line 5, d"), text)

    def test_mistakes(self):
        for table, message in (
                ("", "the trace has no header; import --help says what it is"),
                ("# memory n=2 w=4\n", "the trace has no header; import --help says what it is"),
                ("kind,address\nread,x\n", "say the address bits and data bits: a line `# memory n=5 w=16` above the "
                                           "header"),
                ("kind,adress\n", "line 1: no column is called `adress`; did you mean `address`?; the columns are "
                                  "kind, port, enable, b, address, data, time, note, or we, waddr, wdata, re and "
                                  "raddr; import --help says more"),
                ("kind,kind,address\n", "line 1: the column `kind` twice"),
                ("kind,data\n", "line 1: the header needs the column `address`"),
                ("address,data\n", "line 1: the header needs `kind` beside `address`"),
                ("kind,we,address\n", "line 1: `kind` is the column of a table with an access to a row, and `we` of "
                                      "one with a cycle to a row"),
                ("we,waddr\n", "line 1: the header needs the column `wdata` beside `we`"),
                ("re1\n", "line 1: the header needs the column `raddr1` beside `re1`"),
                ("raddr4\n", "line 1: a read is by port 0 to 3, not 4"),
                ("kind,address:hexa\n", "line 1: `address:hexa`: addresses and data alone have a radix, one of bin, "
                                        "oct, dec, hex"),
                (ACCESSES + "wite,,1,x,x,\n", "line 3, column kind: `wite` is none of write, read, assert, check; did "
                                              "you mean `write`?"),
                (ACCESSES + "\nwrite,,1,x,,\n", "line 4, column data: the cell is empty, and a write needs it"),
                (ACCESSES + "assert,,,x,x,\n", "line 3, column b: the cell is empty, and an assert needs it"),
                ("# memory n=2 w=4\nkind,address\nwrite,x\n", "line 3, column data: there is no such column, and a "
                                                              "write needs it"),
                (ACCESSES + "read,,1,x,x,\n", "line 3, column data: a read has no data: leave the cell empty, or make "
                                              "it a check"),
                (ACCESSES + "write,1,1,x,x,\n", "line 3, column port: a write has no port: leave the cell empty"),
                (ACCESSES + "read,p,1,x,,\n", "line 3, column port: the port must be a number, not `p`"),
                (ACCESSES + "read,,1,3,,\n", "line 3, column address: `3` is no word of bits: a decimal word is "
                                             "written 0d3"),
                (ACCESSES + "read,,1,00,,,7\n", "line 3: it has more cells than the header; a cell that holds a comma "
                                                "is quoted"),
                (ACCESSES + "write,,1,r,r,\n", "line 3, column data: `r` is a vector of 2 bits in a cell before, and "
                                               "of 4 here: use two names"),
                (ACCESSES + 'read,,"1,x,,\n', "line 3: no row of a table: unexpected end of data"),
                (ACCESSES + "read,,1 # one,x,,\n", "line 3, column enable: no expression goes on with `#`"),
                (ACCESSES + "read,,1 address=01,x,,\n", "line 3, column enable: no expression goes on with `=01`; a "
                                                        "comparison is written `==`"),
                (ACCESSES + "# variable we\n", "line 3: `# variable` must stand above the header"),
                ("# memory n=2 w=4\nkind,address:hex\nread,0x1\n", "line 3, column address: `0x1` in a column of "
                 "hexadecimal digits may have a digit x: write it without 0x, or as 2'h.."),
                ("# memory n=2 w=4\nkind,address:hex\nread,4\n", "line 3, column address: `2'h4` is too large for 2 "
                                                                 "bits"),
                ("# memory n=2 w=4\nkind,enable,address:hex\nread,d,(a)\nread,1,a\n", "line 4, column address: `a` is "
                 "made of digits of this column, and is a name elsewhere: write (a) for the name, or 2'ha"),
                ("# memory n=2 w=4\n# let = we\nkind,address\n", "line 2: a condition is named by `let NAME = "
                                                                "EXPRESSION`"),
                ("# memory n=2\nkind,address\n", "line 1: `memory` needs `w=`")):
            with self.subTest(table):
                with self.assertRaises(casetext.Mistake) as found:
                    text_of(table)
                self.assertEqual(str(found.exception), message)
        with self.assertRaisesRegex(casetext.Mistake, "^line 1: `# memory` and --n or --w: give one of them$"):
            text_of(ACCESSES, n=2)

    NO_NAMES = ["z", "Z", "zz", "zzzz", "xxZZ", "z0", "H", "l", "u", "W", "U1", "hl", "UUUU", "true", "False", "HIGH",
                "low", "HiZ", "unknown", "undef", "dontcare"]

    def no_value(self, header, cells, message):
        with self.assertRaises(casetext.Mistake) as found:
            text_of("# memory n=2 w=4\n%s\n%s\n" % (header, cells))
        self.assertEqual(str(found.exception), "line 3, column " + message)

    def test_values_that_there_are_not(self):
        """What a simulator writes for a value is no variable: an unknown would be lost."""
        meant = {"true": "1", "high": "1", "h": "1", "false": "0", "low": "0", "l": "0"}
        for text in self.NO_NAMES:
            write = meant.get(text.lower(), "x for unknown")
            for radix in ("", ":hex", ":dec", ":oct", ":bin"):
                self.no_value("kind,address,data" + radix, "write,00,%s" % text, "data: `%s` is no value here: write "
                              "%s, or declare it above the header (`# variable %s[3:0]`) if it is a name" % (
                                  text, write, text))
            self.no_value("kind,enable,address", "read,%s,00" % text, "enable: `%s` is no value here: write %s, or "
                          "declare it above the header (`# variable %s`) if it is a name" % (text, write, text))
        self.no_value("kind,b,address,data", "check,z,00,x", "b: `z` is no value here: write 0 or 1, or declare it "
                                                             "above the header (`# variable z`) if it is a name")
        self.no_value("kind,address,data:hex", "write,00,Fz", "data: `Fz` is no value here: write x for unknown, or "
                                                              "declare it above the header (`# variable Fz[3:0]`) if "
                                                              "it is a name")
        for text in ("UU3F", "wel", "zZ3f"):
            self.no_value("kind,address,data:hex", "write,00,%s" % text, "data: `%s` is no value here: write x for "
                          "unknown, or declare it above the header (`# variable %s[3:0]`) if it is a name" % (text, text))
        for text in ("-", "--", "?", "01-0", "0?", "0z"):
            self.no_value("kind,address,data", "write,00,%s" % text,
                          "data: `%s` is no value here: write x for unknown" % text)
        self.no_value("kind,address,data", 'write,"z,0",x', "address: `z` is no value here: write x for unknown, or "
                      "declare it above the header (`# variable z[1:0]`) if it is a name")

    def test_digits_of_a_column(self):
        for radix, text, wrong in (("bin", "01u0", "u"), ("bin", "012", "2"), ("oct", "18", "8"), ("hex", "1g", "g"),
                                   ("dec", "1a", "a"), ("hex", "0U3f", "U"), ("dec", "12z", "z")):
            self.no_value("kind,address,data:" + radix, "write,00,%s" % text, "data: `%s` is no digit of a column :%s; "
                          "x%s is unknown" % (wrong, radix, " alone" if radix == "dec" else ""))

    def test_names_like_values(self):
        """Names with other letters too, in parentheses and in expressions, are names; and all that are declared."""
        for text in ("hold", "wel", "we", "lo", "zed", "valid", "truth", "(z)", "(h)"):
            name = text.strip("()")
            self.expect("# memory n=2 w=4\nkind,address,data\nwrite,00,%s\n" % text, "variable %s[3:0]" % name,
                        "write enable=1 address=00 data=%s" % text)
        for text in self.NO_NAMES:
            for radix in ("", ":hex", ":dec", ":bin"):
                self.expect("# memory n=2 w=4\n# variable %s[3:0]\nkind,address,data%s\nwrite,00,%s\n" % (
                    text, radix, text), "variable %s[3:0]" % text, "write enable=1 address=00 data=%s" % text)
        self.expect("# memory n=2 w=4\n# let z = we\nkind,enable,address\nread,z,x\n", "variable we", "let z = we",
                    "read enable=z address=x")

    def test_same_port(self):
        for header, one, other in (("re,raddr,re0,raddr0", "re", "re0"), ("raddr0,raddr", "raddr", "raddr0")):
            with self.assertRaises(casetext.Mistake) as found:
                text_of("# memory n=2 w=4\n%s\n" % header)
            self.assertEqual(str(found.exception), "line 2: `%s` and `%s` are the same port" % (one, other))
        self.expect("# memory n=2 w=4\nraddr,raddr1,waddr,wdata,waddr0,wdata0\n00,01,10,x,11,x\n",
                    "read enable=1 address=00", "read port=1 enable=1 address=01", "write enable=1 address=10 data=x",
                    "write enable=1 address=11 data=x")

    def test_random_tables(self):
        """Whatever stands in the cells, a table is a text that encodes, or a mistake that names a line."""
        pieces = ["we", "r", "r0", "r[1]", "0", "1", "x", "0x3", "2'b1x", "0d1", "(", ")", "!", "&", "==", ",", '"',
                  "#", "=", " ", "write", "read", "\n", "\0", "é", ";", ":", "?", "d"]
        rows = {ACCESSES: ["write,,we,r,d,", "read,3,1,01,,", "check,,,x,x,we"],
                CYCLES: ["1,r,0,,we,r,d", ",,,,1,00,x"]}
        counts = Counter()
        for seed in range(2000):
            rng = Random(seed)
            start = rng.choice(sorted(rows))
            cells = rng.choice(rows[start]).split(",")
            for _ in range(rng.below(3)):
                cells[rng.below(len(cells))] = "".join(rng.choice(pieces) for _ in range(rng.between(0, 3)))
            try:
                casetext.encode(text_of(start + rng.choice(rows[start]) + "\n" + ",".join(cells)))
                counts["encoded"] += 1
            except casetext.Mistake as mistake:
                self.assertRegex(str(mistake), "(?s)^line [3-9][:,] ", seed)
                counts["mistakes"] += 1
        self.assertGreater(min(counts.values()), 500)


# The examples, under each assignment by a register file of letters.

def merged(one, other):
    """Bits of two words of which either may be there."""
    return "".join(bit if bit == also else "X" for bit, also in zip(one, other))


class RegisterFile:
    """Registers and ports of letters 0, 1 and X, with addresses that are known."""

    def __init__(self, count, width):
        self.registers = ["X" * width] * count
        self.ports = ["X" * width] * 4

    def write(self, enable, address, data):
        if enable != "0":
            old = self.registers[address]
            self.registers[address] = data if enable == "1" else merged(old, data)

    def read(self, enable, address, port):
        held = self.ports[port]
        found = held if enable == "0" else self.registers[address]
        self.ports[port] = merged(held, found) if enable == "X" else found
        return self.ports[port]

    def passes(self, address, data):
        return all(bit in ("X", found) for bit, found in zip(data, self.registers[address]))


def bits(value, width):
    return format(value, "0%db" % width)


def read_letters(line, assignment):
    """What a printed read is under an assignment."""
    found, depth = [""], 0
    for letter in line.removeprefix("read "):
        depth += (letter == "(") - (letter == ")")
        if letter == " " and not depth:
            found.append("")
        else:
            found[-1] += letter
    pairs = [tuple(text_value(text, assignment) for text in pair.split(":")) for pair in found]
    return "".join({(0, 1): "0", (1, 0): "1", (1, 1): "X"}[pair] for pair in pairs)


class Examples(unittest.TestCase):
    def test_register_file(self):
        """examples/regfile.txt: we, cancel and rd are the variables 8, 9 and 10 to 14."""
        lines = memcase(casetext.encode(read("examples/regfile.txt"))).splitlines()
        self.assertEqual(lines[:3] + lines[-1:], ["write 0", "write 1", "write 2", "end 3"])
        for we, cancel, rd in itertools.product((0, 1), (0, 1), range(32)):
            assignment = we << 8 | cancel << 9 | sum((rd >> bit & 1) << 14 - bit for bit in range(5))
            file = RegisterFile(32, 16)
            file.write("1", 5, bits(0x1234, 16))
            file.write("1", 6, "X" * 8 + bits(0x3f, 8))
            writes = we and not cancel
            file.write(str(int(writes)), rd, bits(0x1235, 16))
            checks = [(writes and rd == 5, 5, bits(0x1235, 16)), (not (writes and rd == 5), 5, bits(0x1234, 16)),
                      (writes, rd, bits(0x1235, 16)), (not writes or rd != 6, 6, "X" * 8 + bits(0x3f, 8)),
                      (we and rd == 5, rd, bits(0x1235, 16))]
            self.assertEqual(read_letters(lines[5], assignment), file.registers[5])
            holds = list(itertools.accumulate((not b or file.passes(address, data) for b, address, data in checks),
                                              lambda one, other: one and other))
            printed = [text_value(line.split(" ", 1)[1], assignment) for line in lines if line.startswith("check")]
            self.assertEqual(printed, list(map(int, holds)), (we, cancel, rd))

    def test_trace(self):
        """examples/regfile.csv: we and rd are the variables 8 and 9 to 13."""
        text = traces.text_of(read("examples/regfile.csv").encode("utf-8"))
        case, _ = casetext.read_text(text)
        printed = [line for line in memcase(case.bytes()).splitlines() if line.startswith("read")]
        rows = list(csv.DictReader(line for line in read("examples/regfile.csv").splitlines() if line[0] != "#"))
        self.assertEqual(len(printed), sum(row["raddr0:dec"] != "" for row in rows) * 2)
        for we, rd in itertools.product((0, 1), range(32)):
            assignment = we << 8 | sum((rd >> bit & 1) << 13 - bit for bit in range(5))
            wanted = self.reads_of(rows, str(we), rd)
            self.assertEqual([read_letters(line, assignment) for line in printed], wanted, (we, rd))

    def reads_of(self, rows, we, rd):
        """What the reads of the trace return under one assignment, from its cells."""
        file, found = RegisterFile(32, 16), []
        enables = {"0": "0", "1": "1", "x": "X", "we": we}
        for row in rows:
            for port in (0, 1):
                address = row["raddr%d:dec" % port]
                if address:
                    found.append(file.read(enables[row["re%d" % port]], int(address), port))
            if row["we"] != "0":
                address = rd if row["waddr:dec"] == "rd" else int(row["waddr:dec"])
                data = "".join("XXXX" if digit == "x" else bits(int(digit, 16), 4) for digit in row["wdata:hex"])
                file.write(enables[row["we"]], address, data)
        return found


    def test_sharper(self):
        """Sharper texts of a text whose nodes are made say the sharper cases."""
        text = read("examples/regfile.txt")
        source = casepairs.Source("regfile.txt", *casetext.read_text(text), text)
        found = sharpercases.sharper_cases(source.case, 4)
        self.assertEqual(len(found), 4)
        for one in found:
            self.assertEqual(casetext.encode(sharpercases.sharper_text(*sharpercases.text_of(source), one)), one.case.bytes())


UTF8 = "- is no text in UTF-8 (byte 0x%s): save it as UTF-8; a case file is named .case"


class Commands(unittest.TestCase):
    """The tool on files, of which some are none."""

    def setUp(self):
        self.folder = tempfile.mkdtemp()
        self.addCleanup(shutil.rmtree, self.folder)

    def run_tool(self, action, data, *options):
        words = [sys.executable, os.path.join(TOOLS, "casetext.py"), action, "-", *options]
        done = subprocess.run(words, input=data, stdout=subprocess.PIPE, stderr=subprocess.PIPE, check=False)
        return done.returncode, done.stdout, done.stderr.decode("ascii")

    def test_no_case(self):
        """A line on standard error that is printable, and status 1."""
        for action, data, message in (
                ("encode", b"", "the text has no `memory` line"), ("encode", b"\xff\0\1", UTF8 % "ff in line 1"),
                ("encode", "memory n=1 w=1\n# \xe9".encode("latin-1"), UTF8 % "e9 in line 2"),
                ("encode", CYCLES.encode(), "line 2: unknown word `re0,raddr0,re2,raddr2,we,waddr,wdata`; a line "
                 "begins with memory, variable, let, node, write, read, assert or check; it looks like a trace: use "
                 "import"),
                ("decode", b"# A text.\nmemory n=1 w=1\n", "the file ends at byte 25, inside node 6; it looks like a "
                                                           "text: decode reads a case file"),
                ("import", b"kind,address\nread,x\n", "say the address bits and data bits: a line `# memory n=5 w=16` "
                                                      "above the header, or --n and --w"),
                ("encode", b"memory n=1 w=1\nrite\x1b\xc3\xa9\n", "line 2: unknown word `rite\\x1b\\xc3\\xa9`; a line "
                 "begins with memory, variable, let, node, write, read, assert or check"),
                ("encode", b"memory n=1 w=1\nwrite enable=1 addr", "line 2: `write` needs `address=`"),
                ("encode", b"memory n=1 w=1\nread address=0 enable=", "line 2: column 23: `enable` has 0 bits and "
                                                                      "needs 1"),
                ("decode", b"", "the file ends at byte 0, inside n"),
                ("import", b"", "the trace has no header; import --help says what it is"),
                ("import", b"\xff", UTF8 % "ff in line 1"),
                ("import", ACCESSES.encode() + b"wri", "line 3, column kind: `wri` is none of write, read, assert, "
                                                       "check; did you mean `write`?")):
            self.assertEqual(self.run_tool(action, data), (1, b"", "casetext: %s\n" % message))

    def test_files(self):
        path = os.path.join(self.folder, "none")
        words = [sys.executable, os.path.join(TOOLS, "casetext.py")]
        done = subprocess.run(words + ["encode", path], stdout=subprocess.PIPE, stderr=subprocess.PIPE, check=False)
        self.assertEqual((done.returncode, done.stdout), (1, b""))
        self.assertRegex(done.stderr.decode("ascii"), "^casetext: .*No such file or directory.*\n$")

    def test_pipe(self):
        """From a table to what is printed."""
        table = b"kind,address,data\nwrite,r,x\ncheck,r,x\n"
        status, text, errors = self.run_tool("import", table, "--n", "1", "--w", "1")
        self.assertEqual((status, errors), (0, ""))
        status, data, errors = self.run_tool("encode", text)
        self.assertEqual((status, errors), (0, ""))
        self.assertEqual(memcase(data), "write 0\ncheck 1\nend 1\n")
        self.assertEqual(casetext.encode(self.run_tool("decode", data)[1].decode("ascii")), data)


class Documents(unittest.TestCase):
    SECTION = read("docs/CASES.md")

    def test_first_example(self):
        """README's first case is the paper's file, of which the page shows the bytes."""
        section = read("README.md").split("\n## A first case\n")[1].split("\n## ")[0]
        self.assertEqual(casetext.encode(section.split("\n\n    ")[1].split("\n\n")[0]), WORKED)

    def test_register_file(self):
        printed = memcase(casetext.encode(read("examples/regfile.txt")))
        self.assertIn("encode examples/regfile.txt | crates/memcase/out/memcase\n\n%s" % shown(printed), self.SECTION)
        start = read("examples/regfile.txt").split("\n\n", 1)[1].split("\n\n# Any register")[0]
        self.assertIn(shown(start), self.SECTION)

    def test_traces(self):
        """Both tables, and what comes of the first."""
        table = read("examples/regfile.csv")
        self.assertIn(shown(table[table.index("# memory"):]), self.SECTION)
        begun = "\n".join(line.rstrip() for line in text_of(table).splitlines()[:9]) + "\n"
        self.assertIn(shown(begun), self.SECTION)
        second = [block for block in self.SECTION.split("\n\n") if block.startswith("    # memory") and "kind" in block]
        text = text_of(second[0].replace("    ", ""))
        self.assertEqual(len(case_of(text).accesses), 3)

    def test_help(self):
        """The texts and tables that are shown as examples are such."""
        example = casetext.__doc__[casetext.__doc__.index("    memory n=5"):].split("\n\n")[0]
        statements = [line[4:].split("    ")[0] for line in example.splitlines()]
        case = case_of("\n".join(statements))
        self.assertEqual([access.kind for access in case.accesses], [WRITE, READ, ASSERT, CHECK])
        table = traces.__doc__[traces.__doc__.index("    # memory"):].split("\n\n")[0].replace("    ", "")
        self.assertEqual([access.kind for access in case_of(text_of(table)).accesses], [WRITE, READ, CHECK])


def shown(text):
    """A text as a page shows it."""
    return "".join("    %s\n" % line if line else "\n" for line in text.splitlines())


if __name__ == "__main__":
    unittest.main()
