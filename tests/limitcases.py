"""Stored cases at limits, of node numbers, and of diagrams with many paths."""

import rooms  # noqa: F401
from common import randomcases
from common.casefile import CaseFile, ONE, X, ZERO, bits, number_bits
from common.randomcases import Random
from papers import INPUT_BYTES, TEXT_BYTES
from rowcases import all_kinds, held_words, idle_writes, one_assert, one_write, symbolic
from second.reference import run_case
from stored import through_library, through_memcase


# Limits.

def limits():
    yield from wide_limits()
    yield from entry_limits()
    yield from node_limits()
    yield from input_limits()
    yield from text_limits()


def wide_symbolic():
    """n=8, w=16: a write, a read, an assert and a check at an address of 8 variables; and that address."""
    case = CaseFile(8, 16)
    address = [case.bit(8 + i) for i in range(8)]
    case.write(ONE, address, number_bits(0xA5C3, 16))
    case.read(ONE, address)
    case.assert_(1, address, number_bits(0xA5C3, 16))
    case.check(1, address, number_bits(0xA5C3, 16))
    return case, address


def wide_limits():
    case, _ = wide_symbolic()
    yield through_memcase("limit-wide-symbolic", case.bytes(), "n=8, w=16, a symbolic address of 8 variables")
    case = CaseFile(8, 16)
    for location in (0, 1, 128, 255):
        case.write(ONE, number_bits(location, 8), number_bits(location * 257, 16))
    for location in (0, 1, 2, 128, 255):
        case.read(ONE, number_bits(location, 8))
    case.read(ONE, bits("X0000000"))
    case.read(ONE, bits("XXXXXXXX"))
    case.check(1, bits("11111111"), bits("X" * 16))
    case.assert_(1, bits("10000000"), number_bits(128 * 257, 16))
    yield through_memcase("limit-wide-locations", case.bytes(), "n=8, w=16, single locations")


def entry_limits():
    def writes(n, w, count):
        case = CaseFile(n, w)
        for number in range(count):
            case.write(ONE, number_bits(number % (1 << n), n), number_bits(number, w))
        return case

    case = writes(8, 16, 327)
    case.read(ONE, number_bits(70, 8))
    yield through_memcase("limit-entries-wide", case.bytes(), "the last entry: 327 of 50 words, then a read")
    yield through_memcase("limit-entries-wide-after", writes(8, 16, 328).bytes(),
                          "the entry after the last: 328 of 50 words")
    yield through_memcase("limit-entries-narrow-after", writes(1, 1, 2731).bytes(),
                          "the entry after the last: 2731 of 6 words")
    case = writes(8, 16, 327)
    case.write(ZERO, number_bits(70, 8), [X] * 16)
    case.read(ONE, number_bits(70, 8))
    yield through_memcase("limit-entries-idle", case.bytes(), "the last entry, then an idle write and a read")
    case = CaseFile()
    for _ in range(2731):
        case.write(ZERO, [ZERO], [ONE])
    case.write(ONE, [ZERO], [ONE])
    yield through_memcase("limit-idle-writes", case.bytes(),
                          "2731 idle writes, which is one more than the list has places, and an entry at place 0")
    data = writes(1, 1, 4097).bytes()
    yield through_library("limit-entries-4096", data, "entry 4097, with list words for more", list_words=30000)
    yield through_library("limit-entries-4095", data, "list words for 4095 entries", list_words=24575)


def node_limits():
    def filled(count, index=False):
        """A write that makes no node and a read that needs index 0; `count` nodes in the file."""
        case = CaseFile()
        case.fill(count - index)
        if index:
            case.node(0, 0, 1)
        case.write(ONE, [X], [ONE])
        case.read(ONE, [X])
        return case.bytes()

    yield through_memcase("limit-nodes-last", filled(5458),
                          "the last node: 5460 nodes with the terminals, one made")
    yield through_memcase("limit-nodes-after", filled(5459),
                          "the node after the last: 5461 nodes with the terminals, one needed")
    yield through_memcase("limit-nodes-found", filled(5459, index=True),
                          "5461 nodes with the terminals, and the one that is needed is there")
    yield through_memcase("limit-nodes-file", filled(5460), "one node too many in the file (2)")
    data = filled(16382)
    for words in (49151, 49152, 60000):
        yield through_library("limit-nodes-words-%d" % words, data,
                              "16384 nodes with the terminals and %d node words" % words, node_words=words)


def input_limits():
    def checks(count):
        """A case of 196 + 99 * count bytes."""
        case = CaseFile(8, 16)
        case.fill(38)
        for number in range(count):
            case.check(1, number_bits(number % 256, 8), [X] * 16)
        return case.bytes()

    data = checks(660)
    assert len(data) == INPUT_BYTES
    yield through_memcase("limit-input-exact", data, "65536 bytes")
    yield through_memcase("limit-input-extra", data + b"\0", "65537 bytes: memcase does not read the last")
    yield through_library("limit-input-extra-library", data + b"\0", "65537 bytes: the library does, and answers 12")
    yield through_memcase("limit-input-cut", checks(661), "65635 bytes of a case: memcase reads 65536, which end early")
    yield through_library("limit-input-cut-library", checks(661), "65635 bytes of a case: the library reads them all")


def text_limits():
    def texts(total):
        """A case whose text would have `total` bytes."""
        case = CaseFile()
        odd, even = case.parity(range(8, 18))
        case.write(ONE, [ZERO], [(odd, even)])
        length = len("write 0\n" + "end 1\n")
        long_line = None
        while True:
            case.read(ONE, [ZERO])
            if long_line is None:
                long_line = len(run_case(case.bytes()).text) - length
            length += long_line
            if total - length < long_line + 100:
                break
        nines = (total - length) % 8
        for _ in range(nines):
            case.read(ONE, [ONE])
        for _ in range((total - length - 9 * nines) // 8):
            case.check(0, [ZERO], [ONE])
        return case

    yield through_memcase("limit-text-exact", texts(TEXT_BYTES).bytes(), "a text of 65536 bytes")
    yield through_memcase("limit-text-after-end", texts(TEXT_BYTES + 1).bytes(), "a text of 65537 bytes: 13 at `end`")
    yield through_memcase("limit-text-after-access", texts(TEXT_BYTES + 7).bytes(),
                          "a text of 65543 bytes: 13 at the last access")


# Numbers of nodes.

def numbers_of_nodes():
    """Which node has which number: each node that accesses have made is printed."""
    case = CaseFile()
    f = case.node(8, case.variable(9), case.variable(10))
    case.write((1, f), [ZERO], [ONE])
    randomcases.show_nodes(case, randomcases.made_nodes(case))
    yield through_memcase("numbers-not", case.bytes(), "the nodes of Not, low part first")
    for name, made in (("all-kinds", all_kinds()), ("symbolic", symbolic()), ("assert", one_assert()),
                       ("held", held_words()), ("write", one_write()), ("idle", idle_writes())):
        randomcases.show_nodes(made, randomcases.made_nodes(made))
        yield through_memcase("numbers-" + name, made.bytes(), "every node made on a user variable, by its number")
    for seed in range(12):
        made = randomcases.without_refusals(randomcases.small(Random(5000 + seed)))
        randomcases.show_nodes(made, randomcases.made_nodes(made)[:24])
        yield through_memcase("numbers-random-%02d" % seed, made.bytes(),
                              "nodes made on user variables, by their numbers, seed %d" % (5000 + seed))


# Shared diagrams.

def shared():
    """Conditions with many more paths than nodes, within truth tables."""
    case = CaseFile()
    odd, even = case.parity(range(8, 16))
    case.write(ONE, [(odd, even)], [(even, odd)])
    case.read(ONE, [(odd, even)])
    case.read(ONE, [ZERO])
    case.check(odd, [ONE], [ZERO])
    case.assert_(even, [ZERO], [ONE])
    case.assert_(odd, [ZERO], [ONE])
    yield through_memcase("shared-parity-8", case.bytes(), "parity of 8 variables as address and data")
    for size in (11, 12):
        case = CaseFile()
        odd, even = case.parity(range(8, 8 + size))
        case.write(ONE, [ZERO], [(odd, even)])
        case.read((1, 0), [ZERO])
        yield through_memcase("shared-parity-%d" % size, case.bytes(),
                              "the text of the parity of %d variables, twice" % size)
