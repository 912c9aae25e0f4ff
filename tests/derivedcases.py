"""Stored cases with too many variables, or too much work, for truth tables.

What they must print is derived by hand; each derivation is written beside its cases.
The derivations speak of any number of variables: the stored cases have 56, all user
variables, and the self test holds the same cases with fewer to truth tables.
"""

import rooms  # noqa: F401
from common.casefile import CaseFile, ONE, X, ZERO
from papers import LIST_WORDS, NODE_WORDS, TEXT_BYTES, Record
from second.reference import refused_line, run_case
from stored import Stored


def parity_case(build, size, node_words, list_words):
    """The bytes, record and printed text of a case on the parity P of `size` variables from 8 up.

    `build(case, odd, even)` adds accesses that name no node but 0, 1, P and not P.

    Derivation.  Take the same case with one variable in the place of P (`small`, for
    which truth tables do).  Each condition that an access builds, or a port holds, is a
    function of the index variables and of P.  Index variables come first in the order.
    Below them Ite works on functions of P alone: 0, 1, P, not P.  With variables 8 to v fixed,
    these are 0, 1 and the odd and the even parity of the variables after v, and all of
    them are nodes of the file.  So no new node is on a user variable, in either case,
    and on index variables both make the same ones in the same order.  The full case has
    two nodes more for each further variable, all of them before P; so a node number of
    the small case from 2 up is less by that many, its capacity too, and 9 comes in the
    same place.  A line with no P in it is the same line.  P's text has more than 2 to
    the 56th bytes: the first line with P in it is refused with 13.
    """
    more = 2 * (size - 1)
    full = CaseFile()
    build(full, *full.parity(range(8, 8 + size)))
    small = CaseFile()
    build(small, *small.parity([8]))
    outcome = run_case(small.bytes(), node_words - 3 * more, list_words)
    for number, line in enumerate(outcome.lines):
        if "(8 " in line:
            return full.bytes(), None, refused_line(13, number)
    if outcome.text is None:
        return full.bytes(), None, refused_line(outcome.refusal, outcome.after)
    record = outcome.record
    record = record._replace(nodes=record.nodes + more,
                             assert_condition=moved(record.assert_condition, more),
                             check_condition=moved(record.check_condition, more))
    return full.bytes(), record, outcome.text


def moved(number, more):
    return number if number < 2 else number + more


def parity_accesses(case, odd, even):
    """Parity in every place of an access, and no line with its text."""
    p, q = (odd, even), (even, odd)
    case.assert_(odd, [p], [p])
    case.assert_(odd, [p], [p])
    case.write(ONE, [p], [ONE])
    case.read(ONE, [p])
    case.write(ZERO, [p], [q])
    case.write(p, [ZERO], [ONE])
    case.write((odd, 1), [q], [p])
    case.read((odd, 1), [X])
    case.read((odd, 1), [q], 2)
    case.read((even, 1), [p], 2)
    case.read(ZERO, [p], 2)
    case.check(even, [ONE], [X])
    case.check(odd, [X], [p])
    case.assert_(even, [q], [q])
    case.read(ONE, [X])


def parity_cases(size, text_bytes):
    def stored(name, what, build, node_words=NODE_WORDS, list_words=LIST_WORDS, through="memcase"):
        data, record, out = parity_case(build, size, node_words, list_words)
        return Stored("parity-%d-%s" % (size, name), data, through, (node_words, list_words, text_bytes),
                      record, out, "parity of %d variables: %s" % (size, what))

    yield stored("places", "as address, enable, data and b", parity_accesses)
    yield stored("text-read", "its text in a read (13)",
                 lambda case, odd, even: (case.write(ONE, [(odd, even)], [ONE]), case.read(ONE, [ZERO])))
    yield stored("text-check", "its text in a check (13)",
                 lambda case, odd, even: (case.read(ONE, [ZERO]), case.check(odd, [ZERO], [ONE])))
    yield stored("text-assert", "its text in an assert (13)",
                 lambda case, odd, even: (case.write(ONE, [ZERO], [ZERO]), case.assert_(odd, [ZERO], [ONE])))
    yield stored("row-06", "a pair (P, P), which is neither where P does not hold",
                 lambda case, odd, even: case.write(ONE, [(odd, odd)], [ONE]))
    yield stored("row-06-idle", "the same in a write whose enable is 0",
                 lambda case, odd, even: case.write(ZERO, [(odd, odd)], [ONE]))
    yield stored("row-07", "an address bit X where P holds, b is P",
                 lambda case, odd, even: case.assert_(odd, [(odd, 1)], [ONE]))
    yield stored("row-07-apart", "an address bit X where P holds, b is not P (accepted)",
                 lambda case, odd, even: case.assert_(even, [(odd, 1)], [ONE]))
    yield stored("row-08", "no space for a second entry", parity_accesses, list_words=11, through="library")
    small = CaseFile()
    parity_accesses(small, *small.parity([8]))
    more = 2 * (size - 1)
    need = run_case(small.bytes()).conditions.count() + more
    for count in range(len(small.nodes) + 2 + more, need + 1):
        yield stored("nodes-%d" % count, "capacity %d of the %d that the case needs" % (count, need),
                     parity_accesses, node_words=3 * count, through="library")


class OneAssignment:
    """Nodes for pairs that are neither, or X, under one assignment of `size` variables from 8 up."""

    def __init__(self, size):
        self.case = CaseFile()
        self.odd, self.even = self.case.parity(range(8, 8 + size))
        # Of the variables from v up: their odd and even parity, the even parity without the
        # assignment of all zeros, and the odd parity with it.
        odd, even, without, with_zeros = 0, 1, 0, 1
        for v in range(7 + size, 8, -1):
            without = self.case.node(v, without, odd)
            with_zeros = self.case.node(v, with_zeros, even)
            odd, even = self.case.node(v, odd, even), self.case.node(v, even, odd)
        self.almost_even = self.case.node(8, without, odd)
        self.even_and_one_odd = self.case.node(8, even, with_zeros)

    def with_access(self, add):
        made = CaseFile()
        made.nodes = list(self.case.nodes)
        add(made)
        return made.bytes()


def one_assignment_cases(size, text_bytes):
    """Pairs and b's that meet or miss under one of 2 to the `size`th assignments."""
    nodes = OneAssignment(size)
    odd, even = nodes.odd, nodes.even
    neither = (odd, nodes.almost_even)
    once_x = (odd, nodes.even_and_one_odd)

    def stored(name, what, out, add, record=None):
        return Stored("one-of-2-%d-%s" % (size, name), nodes.with_access(add), "memcase",
                      (NODE_WORDS, LIST_WORDS, text_bytes), record, out, what)

    # Derivation: the pair `neither` is neither at the assignment of all zeros alone, whose
    # parity is even.  Rows 1, 2 and 5 do not refuse; 6 does.
    yield stored("row-06-address", "an address pair that is neither under one assignment", refused_line(6, 0),
                 lambda case: case.write(ONE, [neither], [ONE]))
    yield stored("row-06-data", "a data pair that is neither under one assignment", refused_line(6, 0),
                 lambda case: case.check(0, [ONE], [neither[::-1]]))
    yield stored("row-06-enable", "an enable that is neither under one assignment", refused_line(6, 0),
                 lambda case: case.read(neither, [ONE]))
    # Derivation: the pair `once_x` is X where variable 8 alone is 1, and known elsewhere.
    # b = odd holds there: 7.
    yield stored("row-07", "an address bit X under one assignment, where b holds", refused_line(7, 0),
                 lambda case: case.assert_(odd, [once_x], [ONE]))
    # Derivation: b = even does not hold there, so 7 does not refuse.  The list has no entry: the
    # look is all X, so the data is inside it and the assert condition stays 1; the look's l is
    # not inside the data's, so C is 0, and Or(Not b, 0) = odd is not 1: entered.
    # Nodes of the file, with s the number of variables: 2s of parities and 2(s-1) of the two
    # chains (each has no node at the last variable); with the terminals 4s.  Made: index 0 and
    # one node on it (2), the And of the pair, which holds under one assignment (s nodes, the
    # last of which is a parity), and its Not (likewise): 2(s-1).  All else that is built
    # is there: 6s nodes.
    yield stored("row-07-apart", "an address bit X under one assignment, where b does not hold",
                 "assert entered 1\nend 1\n", lambda case: case.assert_(even, [once_x], [ONE]),
                 Record(1, 1, 6 * size, 1, 1, 1))


def many_variables(size=56, text_bytes=TEXT_BYTES):
    """The self test holds the derivations to truth tables with a smaller size."""
    yield from parity_cases(size, text_bytes)
    yield from one_assignment_cases(size, text_bytes)


def much_work(count=2000):
    """Reads of a long list: each of `count` reads goes through `count` entries."""
    case = CaseFile()
    for _ in range(count):
        case.write(ONE, [ZERO], [ONE])
    for _ in range(count):
        case.read(ONE, [ZERO])
    # Derivation: only 0, 1, index 0 and its Not are ever built.  The lines `write N` have at most
    # 11 bytes and the lines `read 1:0` have 9, 40,000 bytes together, so all of them fit; then
    # there is a byte after the last access.
    yield Stored("work-%d-reads" % count, case.bytes() + b"\0", "memcase", (NODE_WORDS, LIST_WORDS, TEXT_BYTES),
                 None, refused_line(12, 2 * count), "%d reads of a list of %d entries, then 12" % (count, count))
