"""Stored cases for the paper's examples and rulings, each row of its table, and their order; what ports hold;
writes that are idle; asserts that are counted."""

import os

from rooms import ROOT
from common.casefile import CaseFile, ONE, X, ZERO, access_bytes, bits, number_bits
from language import casetext
from papers import LIST_WORDS, PORTS, Access, entry_size
from second.reference import printed, run_case
from stored import through_library, through_memcase

WORKED = bytes.fromhex(
    "01 01 02 00 08 00 00 01 00 08 01 00 00 00 03 00 01 01 00 00 00 02 00 03 00 01 00 00 00"
    "02 00 01 00 00 00 00 00 01 00 04 01 00 00 00 01 00 01 00 00 00")


# The paper's examples.

def examples():
    yield through_memcase("worked", WORKED, "the paper's file")
    for name in ("worked", "registers", "buffer", "budget"):
        with open(os.path.join(ROOT, "examples", name + ".txt"), encoding="utf-8") as file:
            data = casetext.encode(file.read())
        yield through_memcase("example-" + name, data, "examples/%s.txt" % name)


RULINGS = [
    ("01", "R1 nothing, read 0: X", "read 0"),
    ("02", "R2 1@0, read 0: 1", "1@0, read 0"),
    ("03", "R3 1@0, read 1: X", "1@0, read 1"),
    ("04", "R4 1@0 with enable X, read 0: X", "1@0X, read 0"),
    ("05", "R5 1@0, again with enable X: 1", "1@0, 1@0X, read 0"),
    ("06", "R6 1@0, 1@1, read X: 1", "1@0, 1@1, read X"),
    ("07", "R7 1@0, 0@1, read X: X", "1@0, 0@1, read X"),
    ("08", "R8 1@0, 1@1, 0@X, read 0: X", "1@0, 1@1, 0@X, read 0"),
    ("09", "R9 1@0 with enable 0, read 0: X", "1@00, read 0"),
    ("10", "R10 1@0, read 0 with enable X on a fresh port: X", "1@0, read 0X"),
    ("10-last", "R10 1@0, read 0 with enable X where the same port's last word was 1: 1", "1@0, read 0, read 0X"),
    ("11", "R11 w=2, 01@0, 10@1: check X against XX holds, against 01 not",
     "01@0, 10@1, check X XX, check X 01"),
]


def ruling_case(script):
    """A case from `D@A` or `D@AE`, `read A` or `read AE`, `check A D`; E is the enable."""
    case = CaseFile(1, 2 if "check" in script else 1)
    for item in script.split(", "):
        words = item.split()
        if words[0] == "read":
            case.read(bits(words[1][1:] or "1")[0], bits(words[1][0]))
        elif words[0] == "check":
            case.check(1, bits(words[1]), bits(words[2]))
        else:
            data, _, place = item.partition("@")
            case.write(bits(place[1:] or "1")[0], bits(place[0]), bits(data))
    return case


def rulings():
    for number, what, script in RULINGS:
        yield through_memcase("ruling-" + number, ruling_case(script).bytes(), what)


def paper():
    yield from examples()
    yield from rulings()


# Cases that several tests start from.

def read_only():
    """One read of location 0, on no node of the file."""
    case = CaseFile()
    case.read(ONE, [ZERO])
    return case


def all_kinds():
    """Two locations of one bit; every kind of access, on two nodes."""
    case = CaseFile()
    a = case.bit(8)
    case.write(ONE, [a], [ONE])
    case.assert_(a[0], [ONE], [ZERO])
    case.read(ONE, [X])
    case.check(a[0], [ONE], [X])
    case.check(1, [ZERO], [ONE])
    return case


def held_words():
    """Two locations of two bits; words held by three ports, then reads whose enables are 0, X and symbolic."""
    case = CaseFile(1, 2)
    a, b, c = case.bit(8), case.bit(9), case.bit(10)
    either = case.node(8, b[0], 1)
    case.write(ONE, [ZERO], [a, ONE])
    case.write(ONE, [ONE], [b, ZERO])
    case.read(ONE, [ZERO])
    case.read(ONE, [c], 1)
    case.write(ONE, [ZERO], [c, ZERO])
    case.read(ZERO, [ZERO])
    case.read(X, [ZERO])
    case.read((either, a[1]), [ONE], 1)
    case.read((b[0], 1), [ZERO], 2)
    case.read(c, [X])
    case.read((1, a[0]), [c], 1)
    return case


def symbolic():
    """Four locations of two bits; symbolic addresses, X bits, asserts kept and entered."""
    case = CaseFile(2, 2)
    a, b, c = case.bit(8), case.bit(9), case.bit(20)
    case.write(ONE, [a, ZERO], [ONE, b])
    case.write((c[0], 1), [X, b], [ZERO, X])
    case.assert_(b[0], [a, b], [ONE, ZERO])
    case.assert_(b[0], [a, b], [ONE, ZERO])
    case.read(ONE, [X, ZERO])
    case.check(c[0], [a, b], [ONE, X])
    case.read(c, [b, a])
    return case


# Rows, one after another.

def row_1():
    for n, w in ((0, 1), (9, 1), (255, 1), (1, 0), (1, 17), (1, 255), (0, 0), (9, 17)):
        yield through_memcase("row-01-n%d-w%d" % (n, w), CaseFile(n, w).bytes(), "n=%d, w=%d" % (n, w))
    for n, w in ((1, 1), (8, 1), (1, 16), (8, 16)):
        yield through_memcase("sizes-n%d-w%d" % (n, w), CaseFile(n, w).bytes(),
                              "n=%d, w=%d and nothing else" % (n, w))


WRONG_NODES = [
    ("variable-64", [(64, 0, 1)], "a node on variable 64"),
    ("variable-255", [(255, 0, 1)], "a node on variable 255"),
    ("terminal-words", [(64, 0, 0)], "the words of a terminal again"),
    ("equal-children", [(8, 1, 1)], "low and high equal"),
    ("equal-children-node", [(9, 0, 1), (8, 2, 2)], "low and high the same node"),
    ("itself-low", [(8, 2, 1)], "the low child is the node itself"),
    ("itself-high", [(8, 0, 2)], "the high child is the node itself"),
    ("later-low", [(8, 3, 1), (9, 0, 1)], "the low child is a later node"),
    ("later-high", [(8, 0, 3), (9, 0, 1)], "the high child is a later node"),
    ("no-node", [(8, 0, 65535)], "a child that is no node"),
    ("order-low", [(8, 0, 1), (9, 2, 1)], "a variable greater than the low child's"),
    ("order-high", [(8, 0, 1), (9, 0, 2)], "a variable greater than the high child's"),
    ("same-variable", [(8, 0, 1), (8, 2, 1)], "a variable equal to the low child's"),
    ("repeated", [(8, 0, 1), (8, 0, 1)], "the same three words again, at once"),
    ("repeated-later", [(8, 0, 1), (8, 1, 0), (9, 0, 1), (8, 0, 1)], "the same three words again"),
    ("repeated-many", [(v, 0, 1) for v in range(63, 7, -1)] + [(v, 1, 0) for v in range(63, 7, -1)] + [(40, 0, 1)],
     "the same three words again, in a store of more than 64 nodes"),
    ("repeated-far", [(v, 0, 1) for v in range(63, 7, -1)] + [(v, 1, 0) for v in range(63, 7, -1)] + [(63, 0, 1)],
     "the first node again, as the last of more than 64"),
]


def row_2():
    for name, nodes, what in WRONG_NODES:
        case = CaseFile()
        for words in nodes:
            case.add_node(*words)
        case.read(ONE, [ZERO])
        yield through_memcase("row-02-" + name, case.bytes(), what)
    for words in (0, 5, 6, 7):
        yield through_library("row-02-words-%d" % words, CaseFile().bytes(),
                              "%d node words and no node in the file" % words, node_words=words)
    case = all_kinds()
    for words in (11, 12):
        yield through_library("row-02-two-nodes-words-%d" % words, case.bytes()[:16],
                              "%d node words and two nodes in the file" % words, node_words=words)
    case = CaseFile()
    for v, low, high in ((63, 0, 1), (62, 1, 2), (8, 2, 3), (7, 4, 1), (0, 5, 3), (0, 3, 5)):
        case.add_node(v, low, high)
    case.read(ONE, [(4, 1)])
    yield through_memcase("nodes-on-index-variables", case.bytes(),
                          "standard form with nodes on index variables, which a read then finds")
    yield through_memcase("nodes-on-16-variables", sixteen_variables().bytes(),
                          "a chain of nodes over 8 index and 8 user variables")


def sixteen_variables():
    case = CaseFile(8, 1)
    low = 0
    for v in list(range(15, 7, -1)) + list(range(7, -1, -1)):
        low = case.node(v, low, 1)
    case.read(ONE, [ZERO] * 8)
    return case


ARGUMENTS = ["enable-h", "enable-l", "address-h", "address-l", "data-h", "data-l", "b"]


def with_argument(argument, number):
    """all_kinds' nodes and an index node; a write, or a check for b, that names `number` once."""
    case = all_kinds()
    case.node(0, 0, 1)
    del case.accesses[1:]
    if argument == "b":
        case.check(number, [ZERO], [X])
        return case
    place, _, half = argument.partition("-")
    pair = (number, 1) if half == "h" else (1, number)
    pairs = {"enable": ONE, "address": ZERO, "data": ONE}
    pairs[place] = pair
    case.write(pairs["enable"], [pairs["address"]], [pairs["data"]])
    return case


def row_5():
    for argument in ARGUMENTS:
        for number, name, what in ((3, "node", "the last node on a user variable (accepted)"),
                                   (4, "index", "a node on an index variable"),
                                   (5, "count", "the node at the count"),
                                   (65535, "far", "node 65535")):
            yield through_memcase("row-05-%s-%s" % (argument, name),
                                  with_argument(argument, number).bytes(),
                                  "%s is %s" % (argument, what))
    case = CaseFile()
    a, b = case.bit(8), case.bit(9)
    case.write((a[0], 1), [(1, b[0])], [ONE])
    outcome = run_case(case.bytes())
    made = outcome.conditions.count() - 1
    for number, name in ((made, "made"), (made + 1, "not-made")):
        later = CaseFile()
        later.nodes, later.accesses = list(case.nodes), list(case.accesses)
        later.read((number, 1), [ZERO])
        later.check(number, [ZERO], [ONE])
        yield through_memcase("row-05-earlier-%s" % name, later.bytes(),
                              "a node that an earlier access has %s" % name.replace("-", " "))
    case = read_only()
    case.check(2, [ZERO], [ONE])
    yield through_memcase("row-05-earlier-index", case.bytes(),
                          "an index variable's node, which an earlier access has made")


def row_6():
    case = CaseFile()
    f = case.pair(case.node(8, case.variable(9), 1))
    g = case.bit(10)
    illegal = {"false": (0, 0), "some": (f[0], 0), "apart": (f[0], g[0]), "same": (f[1], f[1])}
    for name, pair in illegal.items():
        for kind in ("write-enable", "write-address", "write-data", "read-enable", "read-address",
                     "assert-address", "assert-data", "check-address", "check-data"):
            access, place = kind.split("-")
            pairs = {"enable": ONE, "address": ONE, "data": ONE}
            pairs[place] = pair
            one = CaseFile()
            one.nodes = list(case.nodes)
            address, data = [pairs["address"]], [pairs["data"]]
            if access == "write":
                one.write(pairs["enable"], address, data)
            elif access == "read":
                one.read(pairs["enable"], address)
            elif access == "assert":
                one.assert_(0, address, data)
            else:
                one.check(0, address, data)
            if name in ("false", "apart") or place == "address":
                yield through_memcase("row-06-%s-%s" % (kind, name), one.bytes(),
                                      "a pair that is neither: %s" % name)
    one = CaseFile(3, 3)
    one.nodes = list(case.nodes)
    one.write(ONE, [ONE, ONE, ONE], [ONE, ONE, (f[1], g[0])])
    yield through_memcase("row-06-highest-data-bit", one.bytes(), "the highest data bit is neither")
    one.accesses = [Access(1, list(f), [f, g, (f[0], f[0])], [ONE, ONE, ONE])]
    yield through_memcase("row-06-highest-address-bit", one.bytes(), "the highest address bit is neither")
    one.accesses = []
    one.write((f[0], 1), [(1, g[1]), g, f], [(f[1], f[0]), X, (g[0], 1)])
    yield through_memcase("row-06-legal", one.bytes(), "pairs that are legal under every assignment")


def row_7():
    def asserted(b, address, n=1):
        case = CaseFile(n, 1)
        f, g = case.bit(8), case.bit(9)
        case.assert_(b(case, f, g), address(case, f, g), [ONE])
        case.read(ONE, [ONE] * n)
        return case.bytes()

    yield through_memcase("row-07-true", asserted(lambda c, f, g: 1, lambda c, f, g: [X]),
                          "b=1 and an X address")
    yield through_memcase("row-07-false", asserted(lambda c, f, g: 0, lambda c, f, g: [X]),
                          "b=0 and an X address (accepted)")
    yield through_memcase("row-07-meets", asserted(lambda c, f, g: g[0], lambda c, f, g: [(f[0], 1)]),
                          "b and the X of an address bit hold together under some assignment")
    yield through_memcase("row-07-apart", asserted(lambda c, f, g: f[1], lambda c, f, g: [(f[0], 1)]),
                          "the address bit is X only where b does not hold (accepted)")
    yield through_memcase("row-07-highest-bit",
                          asserted(lambda c, f, g: 1, lambda c, f, g: [ONE, f, (f[0], 1)], 3),
                          "the highest address bit is X under some assignment")
    yield through_memcase("row-07-data",
                          kept_x().bytes(), "X data in an assert (accepted)")


def kept_x():
    case = CaseFile()
    case.assert_(1, [ZERO], [X])
    case.write(ONE, [ZERO], [ONE])
    case.assert_(1, [ZERO], [X])
    case.assert_(1, [ZERO], [ZERO])
    case.read(ONE, [ZERO])
    return case


def row_8():
    case = CaseFile()
    case.write(ONE, [ZERO], [ONE])
    case.write(ONE, [ONE], [ONE])
    for words in (0, 5, 6, 11, 12, 13):
        yield through_library("row-08-words-%d" % words, case.bytes(),
                              "two writes into %d list words, 6 to an entry" % words, list_words=words)
    case = kept_assert()
    for words in (6, 11, 12):
        yield through_library("row-08-assert-words-%d" % words, case.bytes(),
                              "an assert kept, which needs no space, and one entered; %d list words" % words,
                              list_words=words)
    yield from by_capacity("assert", one_assert(), 0, LIST_WORDS,
                           "an assert with no space for its entry: 9 where a node is missing earlier, else 8",
                           "the same assert with space: 9 also in its write")
    yield from by_capacity("write", one_write(), 5, 6,
                           "a write with no space for its entry: 9 where a node is missing, else 8",
                           "the same write with space")


def by_capacity(access, case, few, enough, no_space, space):
    """The case without and with space in its list, at every node number from the file's count to the
    last one that it needs."""
    for count in range(len(case.nodes) + 2, run_case(case.bytes()).record.nodes + 1):
        for row, list_words, text in ((8, few, no_space), (9, enough, space)):
            yield through_library("row-%02d-%s-nodes-%d" % (row, access, count), case.bytes(),
                                  "%s; capacity %d" % (text, count), node_words=3 * count, list_words=list_words)


def kept_assert():
    case = CaseFile()
    case.write(ONE, [ZERO], [ONE])
    case.assert_(1, [ZERO], [ONE])
    case.assert_(1, [ONE], [ONE])
    return case


def one_write():
    """A write that makes five nodes: one each for hard and u, one for h, two for s."""
    case = CaseFile()
    case.write((1, case.variable(8)), [(1, case.variable(9))], [ONE])
    return case


def one_assert():
    """An assert that is entered and makes nodes before its write and in it."""
    case = CaseFile()
    f, g = case.variable(8), case.variable(9)
    both = case.node(8, 0, g)
    address = (case.node(8, 1, g), case.complement(both))
    case.assert_(both, [address], [case.bit(10)])
    return case


def turning_counts(case, need):
    """The capacities up to `need` next to which the outcome of the case changes."""
    counts = range(len(case.nodes) + 2, need + 1)
    outs = [printed(run_case(case.bytes(), node_words=3 * count)) for count in counts]
    return [count for at, count in enumerate(counts)
            if at == 0 or outs[at] != outs[at - 1] or outs[at] != outs[min(at + 1, len(outs) - 1)]]


def row_9():
    yield through_library("row-09-six-words", read_only().bytes(), "6 node words, a read, n=1",
                          node_words=6)
    for name, case in (("all-kinds", all_kinds()), ("symbolic", symbolic()), ("held", held_words())):
        outcome = run_case(case.bytes())
        for count in turning_counts(case, outcome.record.nodes):
            yield through_library("row-09-%s-%03d" % (name, count), case.bytes(),
                                  "capacity %d of the %d that the case needs" % (count, outcome.record.nodes),
                                  node_words=3 * count)
        for extra in (-1, 1, 2):
            words = 3 * outcome.record.nodes + extra
            yield through_library("row-09-%s-words-%d" % (name, words), case.bytes(),
                                  "%d node words where %d nodes are needed" % (words, outcome.record.nodes),
                                  node_words=words)


def row_10():
    for name, data in (("worked", WORKED), ("all-kinds", all_kinds().bytes())):
        for length in range(len(data)):
            yield through_memcase("cut-%s-%03d" % (name, length), data[:length],
                                  "the first %d of %d bytes" % (length, len(data)))


def row_11():
    for kind in (0, 5, 6, 127, 255):
        case = read_only()
        case.accesses.append(Access(kind, [1, 0], [ZERO], []))
        yield through_memcase("row-11-kind-%d" % kind, case.bytes(), "kind %d after one access" % kind)
        at = len(case.header_bytes() + access_bytes(case.accesses[0]))
        yield through_memcase("row-11-kind-%d-alone" % kind, case.bytes()[:at + 1],
                              "kind %d as the last byte: 11 and not 10" % kind)
    case = CaseFile()
    case.accesses.append(Access(0, [], [], []))
    yield through_memcase("row-11-first", case.bytes(), "kind 0")


def row_12():
    for extra in (b"\0", b"\n", b"\1", b"\xff" * 100):
        yield through_memcase("row-12-worked-%d-%d" % (len(extra), extra[0]), WORKED + extra,
                              "%d bytes %d after the last access" % (len(extra), extra[0]))
    yield through_memcase("row-12-no-access", CaseFile().bytes() + b"\0", "a byte after no access")


def row_13():
    for size in range(8):
        yield through_library("row-13-end-%d" % size, CaseFile().bytes(),
                              "a text of 6 bytes into %d" % size, text_bytes=size)
    for name, case in (("all-kinds", all_kinds()), ("symbolic", symbolic())):
        text = run_case(case.bytes()).text
        sizes = set()
        length = 0
        for line in text.splitlines(keepends=True):
            sizes |= {length + 1, length + len(line) // 2, length + len(line) - 1, length + len(line)}
            length += len(line)
        for size in sorted(sizes):
            yield through_library("row-13-%s-%03d" % (name, size), case.bytes(),
                                  "a text of %d bytes into %d" % (len(text), size), text_bytes=size)


def row_14():
    for port in (PORTS - 1, PORTS, PORTS + 1, 128, 255):
        case = read_only()
        case.read(X, [ZERO], port)
        yield through_memcase("row-14-port-%d" % port, case.bytes(),
                              "port %d after one access%s" % (port, "" if port >= PORTS else " (accepted)"))
    yield through_memcase("row-14-no-port-byte", WORKED[:30] + WORKED[31:], "the paper's file without its port byte")


def rows():
    for row in (row_1, row_2, row_5, row_6, row_7, row_8, row_9, row_10, row_11, row_12, row_13, row_14):
        yield from row()


def orders():
    """Which refusal comes first."""
    def case(*accesses, nodes=((8, 0, 1), (8, 1, 0))):
        made = CaseFile()
        for words in nodes:
            made.add_node(*words)
        made.accesses = [Access(*access) for access in accesses]
        return made

    wrong = ((8, 1, 1),)
    yield through_memcase("order-01-10", bytes((9, 1)), "1 before missing sections")
    yield through_memcase("order-10-01", bytes((9,)), "a missing w before n=9")
    yield through_memcase("order-10-02", case(nodes=wrong).bytes()[:8], "missing bytes of the nodes before 2")
    yield through_memcase("order-02-10", case(nodes=wrong).bytes()[:9], "2 before the missing count of accesses")
    yield through_library("order-10-02-words", case().bytes()[:13],
                          "missing bytes of the nodes before a store of 5 words", node_words=5)
    yield through_library("order-02-10-words", case().bytes()[:14],
                          "a store of 5 words before the missing count of accesses", node_words=5)
    yield through_library("order-01-02", bytes((9, 1, 0, 0, 0, 0)), "1 before a store of 0 words", node_words=0)
    data = case((1, [99, 1], [ZERO], [ONE])).bytes()
    yield through_memcase("order-10-05", data[:-1], "missing bytes of an access before 5")
    yield through_memcase("order-05-12", data + b"\0", "5 before a byte after the last access")
    yield through_memcase("order-05-06", case((1, [0, 0], [ZERO], [(1, 99)])).bytes(),
                          "5 at the last argument before 6 at the first")
    yield through_memcase("order-06-07", case((3, [1], [X], [(0, 0)])).bytes(), "6 at the data before 7")
    yield through_memcase("order-05-07", case((3, [99], [X], [ONE])).bytes(), "5 at b before 7")
    yield through_library("order-07-08", case((3, [1], [X], [ONE])).bytes(), "7 before 8", list_words=0)
    yield through_library("order-06-08", case((1, [0, 0], [ZERO], [ONE])).bytes(), "6 before 8", list_words=0)
    yield through_library("order-06-09", case((2, [0, 0], [ZERO], [])).bytes(), "6 before 9", node_words=12)
    yield through_library("order-09-13", case((2, [1, 0], [ZERO], [])).bytes(), "9 before 13",
                          node_words=12, text_bytes=0)
    yield through_library("order-08-13", case((1, [1, 0], [ZERO], [ONE])).bytes(), "8 before 13",
                          list_words=0, text_bytes=0)
    good = (1, [1, 0], [ZERO], [ONE])
    yield through_library("order-13-11", case(good, (9, [], [], [])).bytes(),
                          "13 at an access before the unknown kind of the next", text_bytes=7)
    yield through_library("order-11-13", case(good, (9, [], [], [])).bytes(),
                          "its line fits: then the unknown kind", text_bytes=8)
    yield through_library("order-12-13", case(good).bytes() + b"\0", "12 before 13 at `end`", text_bytes=8)
    yield through_library("order-13-12", case(good).bytes() + b"\0", "13 at the last access before 12", text_bytes=7)
    yield through_library("order-13-end", case(good).bytes(), "13 at `end`", text_bytes=13)
    yield through_memcase("order-11-before-content", case(good, (0, [99], [], [])).bytes(), "11 before 5")
    yield from port_orders(case)
    yield from idle_orders(case)


def port_orders(case):
    """Where 14 stands in a read: after the missing bytes, before the nodes."""
    data = case((2, [1, 0], [ZERO], [], 4)).bytes()
    start = len(case().bytes())
    yield through_memcase("order-10-port", data[:start + 1], "a kind of a read and no port byte")
    yield through_memcase("order-10-14-alone", data[:start + 2], "missing bytes of a read after its port 4")
    yield through_memcase("order-10-14", data[:-1], "a missing byte of a read by port 4 before 14")
    yield through_memcase("order-14-12", data + b"\0", "14 before a byte after the last access")
    yield through_memcase("order-14-05", case((2, [99, 1], [ZERO], [], 4)).bytes(), "14 before 5")
    yield through_memcase("order-14-06", case((2, [0, 0], [ZERO], [], 4)).bytes(), "14 before 6")
    yield through_library("order-14-09", data, "14 before 9", node_words=12)
    yield through_library("order-14-13", data, "14 before 13", text_bytes=0)


def idle_orders(case):
    """An idle write meets the rows of its bytes and nodes, and 13; neither 8 nor 9."""
    def idle(address=ZERO, data=ONE, enable=ZERO):
        return case((1, list(enable), [address], [data]), nodes=((8, 0, 1), (9, 0, 1))).bytes()

    yield through_memcase("order-10-idle", idle()[:-1], "a missing byte of a write whose enable is 0")
    yield through_memcase("order-12-idle", idle() + b"\0", "an idle write, then a byte after the last access")
    for name, pair in (("count", (0, 4)), ("far", (0, 65535))):
        yield through_memcase("order-05-idle-address-" + name, idle(address=pair), "5 at the address before idle")
        yield through_memcase("order-05-idle-data-" + name, idle(data=pair), "5 at the data before idle")
        yield through_memcase("order-05-idle-enable-" + name, idle(enable=pair), "5 at the enable's l, its h is 0")
    for name, pair in (("false", (0, 0)), ("some", (0, 2))):
        yield through_memcase("order-06-idle-address-" + name, idle(address=pair), "6 at the address before idle")
        yield through_memcase("order-06-idle-data-" + name, idle(data=pair), "6 at the data before idle")
        yield through_memcase("order-06-idle-enable-" + name, idle(enable=pair), "6 at the enable, its h is 0")
    yield through_library("order-idle-08", idle(), "an idle write and no list words (accepted)", list_words=0)
    yield through_library("order-idle-09", idle(address=(1, 2)),
                          "an idle write that would need a node, and no room for it (accepted)", node_words=12)
    yield through_library("order-idle-09-08", idle(address=(1, 2)), "the same with no list words (accepted)",
                          node_words=12, list_words=0)
    for size in (10, 11, 16, 17):
        yield through_library("order-13-idle-%d" % size, idle(), "`write idle` and `end 0`, 17 bytes, into %d" % size,
                              text_bytes=size)
    kept = case((3, [0], [ZERO], [ONE])).bytes()
    yield through_library("order-kept-08", kept, "an assert whose b is 0 is kept, with no list words (accepted)",
                          list_words=0)
    yield through_library("order-09-kept", kept, "an assert whose b is 0 looks, and meets 9", node_words=12)
    yield through_library("order-09-08", one_write().bytes(), "9 before 8 in a write", node_words=24, list_words=0)


# Writes that are idle.

def idle_writes():
    """Entries among writes whose enables are 0, with symbolic and X addresses and data; of one of the addresses
    Not is no node of the file."""
    case = CaseFile(1, 2)
    a, b = case.bit(8), case.bit(9)
    either = case.node(8, b[0], 1)
    case.write(ZERO, [ONE], [ONE, ONE])
    case.write(ONE, [ZERO], [a, ONE])
    case.write(ZERO, [ZERO], [ZERO, ZERO])
    case.write(ZERO, [X], [b, X])
    case.write(a, [ONE], [b, ZERO])
    case.write(ZERO, [(either, 1)], [(1, b[0]), a])
    case.read(ONE, [ZERO])
    case.read(ONE, [ONE])
    case.assert_(0, [ZERO], [ZERO, ZERO])
    case.check(1, [ZERO], [a, ONE])
    case.write((b[0], 1), [ZERO], [ZERO, X])
    case.write(ZERO, [b], [a, b])
    case.read(ONE, [ZERO])
    return case


def idle():
    case = idle_writes()
    yield through_memcase("idle-between", case.bytes(), "idle writes take no place, build nothing and change no word")
    size = entry_size(case.n, case.w)
    for words in range(0, 3 * size + 1, size):
        yield through_library("idle-words-%d" % words, case.bytes(),
                              "the same with list words for %d of its 3 entries" % (words // size), list_words=words)
    case = CaseFile()
    for _ in range(3):
        case.write(ZERO, [X], [ONE])
    yield through_memcase("idle-only", case.bytes(), "three idle writes: no entries")
    case.read(ONE, [ZERO])
    case.write(ONE, [ZERO], [ONE])
    case.read(ONE, [ZERO])
    yield through_memcase("idle-first", case.bytes(), "a write after idle ones is the first entry")
    case = CaseFile()
    a = case.bit(8)
    for enable in (X, a, a[::-1], (a[0], 1), (a[1], 1), (1, a[0]), (1, a[1])):
        case.write(enable, [ZERO], [ONE])
        case.write(ZERO, [ZERO], [ONE])
    case.read(ONE, [ZERO])
    yield through_memcase("idle-or-not", case.bytes(),
                          "enables that may be 1 under some assignment are entered, and between them idle ones")


# What is counted of asserts; of writes, the idle ones above.

def counted():
    """Asserts whose data differs from the look, and such as are kept, after writes that may hit."""
    case = CaseFile()
    a = case.bit(8)
    case.write(ONE, [ZERO], [ONE])
    case.write(X, [ZERO], [ZERO])
    case.assert_(1, [ZERO], [X])
    case.assert_(1, [ZERO], [ZERO])
    case.write(ONE, [X], [ONE])
    case.assert_(1, [ZERO], [ZERO])
    case.assert_(1, [ZERO], [X])
    case.assert_(1, [a], [ONE])
    case.assert_(1, [a], [ONE])
    case.assert_(a[0], [ONE], [ONE])
    yield through_memcase("counted-asserts", case.bytes(),
                          "of seven asserts the second to the fifth differ from the look and are counted")


# What ports hold.

def ports():
    yield through_memcase("ports-held", held_words().bytes(), "words held and read again under enables 0, X and symbolic")
    yield from kept_words()
    yield from joined_words()
    yield from ports_apart()
    case = CaseFile()
    case.write(ONE, [ZERO], [ONE])
    for port in range(PORTS):
        case.read(ZERO, [ZERO], port)
        case.read(X, [ZERO], port)
    yield through_memcase("ports-fresh", case.bytes(), "ports that nothing was read by hold X")


def kept_words():
    """A disabled read, at any address and after any write, gives the word that its port holds."""
    case = CaseFile(1, 2)
    a = case.bit(8)
    case.write(ONE, [ZERO], bits("10"))
    case.read(ONE, [ZERO], 3)
    case.write(ONE, [ZERO], bits("01"))
    for address in (ZERO, ONE, X, a):
        case.read(ZERO, [address], 3)
    case.assert_(1, [ZERO], bits("11"))
    case.read(ZERO, [ZERO], 3)
    case.read(ONE, [ZERO], 3)
    case.read(ZERO, [ONE], 3)
    yield through_memcase("ports-kept", case.bytes(), "disabled reads keep their port's word until it is replaced")
    case = CaseFile()
    a, b = case.bit(8), case.bit(9)
    case.write(ONE, [ZERO], [b])
    case.read(ONE, [ZERO])
    case.write(ONE, [ZERO], [ONE])
    case.read(a, [ZERO])
    case.read(ZERO, [ZERO])
    case.read(a[::-1], [ZERO])
    yield through_memcase("ports-chosen", case.bytes(), "a symbolic enable chooses between the look and the held word")


def joined_words():
    """Under an X enable each bit is what the look or the held word admits, and so it is held."""
    case = CaseFile(1, 3)
    case.write(ONE, [ZERO], bits("10X"))
    case.write(ONE, [ONE], bits("11X"))
    case.read(ONE, [ZERO], 1)
    case.read(X, [ONE], 1)
    case.read(ZERO, [ONE], 1)
    case.read(ONE, [ONE], 1)
    case.read(X, [ONE], 1)
    yield through_memcase("ports-joined", case.bytes(), "an X enable joins the look and the held word, bit by bit")
    case = CaseFile()
    a, b = case.bit(8), case.bit(9)
    case.write(ONE, [ZERO], [a])
    case.read(ONE, [ZERO])
    case.write(ONE, [ZERO], [b])
    case.read(X, [ZERO])
    case.read((a[0], 1), [ONE])
    case.read((1, b[0]), [ZERO])
    yield through_memcase("ports-joined-symbolic", case.bytes(), "an enable that is X under some assignments")


def ports_apart():
    """A read replaces its own port's word and no other."""
    case = CaseFile(2, 2)
    for location in range(4):
        case.write(ONE, number_bits(location, 2), number_bits(3 - location, 2))
    for port in range(PORTS):
        case.read(ONE, number_bits(port, 2), port)
    for port in range(PORTS):
        case.read(ZERO, bits("00"), port)
    case.read(X, bits("11"), 2)
    for port in range(PORTS):
        case.read(ZERO, bits("00"), port)
    yield through_memcase("ports-apart", case.bytes(), "four ports hold four words")
