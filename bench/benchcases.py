"""The benchmark's case files, made from fixed seeds.

No case meets 9, and none names a node that an access made, for the program over BuDDy
can say neither.  `trial(bytes)` runs a case with nodes numbered as 01 does and gives the
refusal and K (None and None where the case is accepted) and the node count; a case is cut
before the access that would be refused.
"""

import sys
from collections import namedtuple

import build

sys.path[:0] = [build.TOOLS, build.TESTS]
from common import randomcases  # noqa: E402
from common.casefile import CaseFile, ONE, X, ZERO, number_bits  # noqa: E402
from common.randomcases import Random  # noqa: E402
from derivedcases import OneAssignment, many_variables  # noqa: E402
from limitcases import wide_symbolic  # noqa: E402
from papers import LIST_WORDS, PORTS, READ  # noqa: E402

USER = 8
PARITY = range(8, 64)
DENSE = "dense diagrams"
DENSE_READS = "dense-300-reads"

Bench = namedtuple("Bench", "kind name data what")

# A series: `points` are (x, case without the reads, case with them, how many reads).
Series = namedtuple("Series", "name title x_label points")


class Maker:
    """Makes cases, and cuts them where they would be refused."""

    def __init__(self, trial):
        self.trial = trial

    def cut(self, case, left_out=()):
        """The case without the accesses that rows of `left_out` refuse, and cut before the
        first that another row refuses."""
        while True:
            refusal, after, _ = self.trial(case.bytes())
            if refusal is None:
                return case
            if refusal in left_out:
                del case.accesses[after]
            elif after == 0:
                raise ValueError("refused %d at once" % refusal)
            else:
                # 13 may also come at the last line.
                del case.accesses[min(after, len(case.accesses) - 1):]

    def bench(self, kind, name, case, what, until_full=False):
        """The case, which must be accepted, or with `until_full` as far as it is."""
        if until_full:
            self.cut(case)
        refusal, after, _ = self.trial(case.bytes())
        if refusal is not None:
            raise ValueError("%s: refused %d after %d" % (name, refusal, after))
        return Bench(kind, name, case.bytes(), what)


# Diagrams.

def dense(case, rng, variables, leaves=(ONE, ZERO)):
    """A pair whose value under each assignment of the variables is drawn from `leaves`."""
    variables = list(variables)
    if not variables:
        return rng.choice(leaves)
    low = dense(case, rng, variables[1:], leaves)
    high = dense(case, rng, variables[1:], leaves)
    return tuple(case.node(variables[0], a, b) for a, b in zip(low, high))


def subset_parity(case, rng):
    """The pair of the parity of about half of the user variables."""
    return case.parity([v for v in PARITY if rng.chance(50)])


# Random cases.

def names_file_nodes(case, access):
    count = len(case.nodes) + 2
    nodes = list(access.control) + [node for pair in access.address + access.data for node in pair]
    return all(node < count for node in nodes)


def random_case(seed):
    rng = Random(seed)
    if seed % 5 < 2:
        case = randomcases.small(rng)
    elif seed % 5 == 2:
        case = randomcases.wide(rng)
    else:
        builder = randomcases.Builder(rng, rng.between(2, 8), rng.between(2, 16), rng.between(3, 8),
                                      rng.between(10, 30), unknown=rng.choice([5, 10, 25]))
        builder.add_accesses(rng.between(10, 60))
        case = builder.case
    case.accesses = [access for access in case.accesses if names_file_nodes(case, access)]
    return case


def random_benches(maker, count):
    seed = 70000
    made = 0
    while made < count:
        seed += 1
        case = random_case(seed)
        try:
            maker.cut(case, left_out=(5, 6, 7))
        except ValueError:
            continue
        made += 1
        yield Bench("random", "random-%d" % seed, case.bytes(),
                    "n=%d, w=%d, %d nodes in the file, %d accesses"
                    % (case.n, case.w, len(case.nodes), len(case.accesses)))


# Long lists.

def full_list(n, w, address, data, enable=lambda number: ONE, entries=None):
    """A case of so many writes, or of as many as the list holds."""
    case = CaseFile(n, w)
    if entries is None:
        entries = LIST_WORDS // (2 + 2 * n + 2 * w)
    for number in range(entries):
        case.write(enable(number), address(case, number), data(case, number))
    return case


def constant_address(case, number):
    return number_bits(number % (1 << case.n), case.n)


def constant_data(case, number):
    return number_bits(number * 40503, case.w)


def variable_data(case, number):
    """Data bits that are one of eight variables or its complement."""
    bits = [case.bit(USER + (number * 5 + i * 3) % 8) for i in range(case.w)]
    return [bit if (number + i) % 3 else bit[::-1] for i, bit in enumerate(bits)]


def narrow_address(case, number):
    """An address of constants and two variables."""
    choices = [ZERO, ONE, case.bit(8), case.bit(9)]
    return [choices[(number // (1 + i) + i) % 4] for i in range(case.n)]


def many_constant_reads(case, count):
    for number in range(count):
        case.read(ONE, number_bits(number * 37 % (1 << case.n), case.n))


def long_benches(maker):
    kind = "long lists"
    case = full_list(8, 16, constant_address, constant_data)
    many_constant_reads(case, 20)
    yield maker.bench(kind, "wide-constant", case, "327 writes of constants at n=8, w=16, then 20 reads")
    case = full_list(8, 16, constant_address, variable_data)
    many_constant_reads(case, 5)
    yield maker.bench(kind, "wide-variables", case, "327 writes of variables at n=8, w=16, then 5 reads")

    rng = Random(1)
    case = full_list(8, 16, lambda case, number: [rng.choice([ZERO, ONE, ONE, X]) for _ in range(8)],
                     constant_data, lambda number: X if number % 4 == 0 else ONE)
    many_constant_reads(case, 10)
    case.read(ONE, [X] * 8)
    case.check(1, [X] * 8, [X] * 16)
    yield maker.bench(kind, "wide-unknown", case,
                      "327 writes at n=8, w=16, X in addresses and enables, then 11 reads and a check")

    case = full_list(8, 16, narrow_address, lambda case, number: number_bits(number % 4, 16))
    for number in range(10):
        case.read(ONE, narrow_address(case, number))
    yield maker.bench(kind, "wide-choices", case,
                      "327 writes at n=8, w=16, each to one of four locations by two variables, then 10 reads")

    case = full_list(1, 1, constant_address, constant_data)
    many_constant_reads(case, 100)
    yield maker.bench(kind, "narrow-constant", case, "2,730 writes of constants at n=1, w=1, then 100 reads")
    case = full_list(1, 1, narrow_address, lambda case, number: [case.bit(8 + number % 2)],
                     lambda number: X if number % 5 == 0 else ONE)
    for number in range(100):
        case.read(ONE, narrow_address(case, number))
    yield maker.bench(kind, "narrow-variables", case,
                      "2,730 writes at n=1, w=1, of two variables, some with enable X, then 100 reads")


# Many reads of one list.

def writes_and_reads(writes, reads):
    case = full_list(1, 1, constant_address, constant_data, entries=writes)
    many_constant_reads(case, reads)
    return case


def held_reads(count):
    """Reads by each port in turn, under each enable in turn, so that held words are read again and joined."""
    case = full_list(4, 4, narrow_address, lambda case, number: number_bits(number % 4, 4), entries=64)
    enables = [ONE, ZERO, X, case.bit(8), (case.variable(9), 1)]
    for number in range(count):
        case.read(enables[number % len(enables)], narrow_address(case, number), number % PORTS)
    return case


def read_benches(maker):
    kind = "many reads"
    case = full_list(8, 16, constant_address, constant_data)
    many_constant_reads(case, 400)
    yield maker.bench(kind, "wide-400-reads", case, "400 reads of 327 entries at n=8, w=16")
    yield maker.bench(kind, "1300-and-1300", writes_and_reads(1300, 1300), "1,300 writes and 1,300 reads at n=1, w=1")
    yield maker.bench(kind, "2000-and-2000", writes_and_reads(2000, 2000), "2,000 writes and 2,000 reads at n=1, w=1")
    case = full_list(4, 8, narrow_address, lambda case, number: number_bits(number % 4, 8), entries=64)
    for number in range(600):
        case.read(ONE, narrow_address(case, number))
    yield maker.bench(kind, "choices-600-reads", case,
                      "600 reads of 64 entries at n=4, w=8, addresses by two variables")
    yield maker.bench(kind, "held-600-reads", held_reads(600),
                      "600 reads of 64 entries at n=4, w=4 by four ports, enables 1, 0, X and variables")
    count, case = fullest(maker, lambda count: dense_case(8, 2, 2, 8, (ONE, ZERO, X), count, reads=300))
    yield maker.bench(kind, DENSE_READS, case,
                      "300 reads of %d entries at n=2, w=2, dense conditions of 8 variables, nearly full" % (count + 4))
    case = full_list(4, 2, constant_address, variable_data, entries=100)
    many_constant_reads(case, 600)
    yield maker.bench(kind, "variables-600-reads", case, "600 reads of 100 entries at n=4, w=2, data of variables")


# Many reads over a large store.

def reads_over(n, w, nodes, entries, reads):
    """Reads of constants where so many nodes stand in the file, before those of the indices."""
    case = CaseFile(n, w)
    case.fill(nodes)
    for number in range(entries):
        case.write(ONE, constant_address(case, number), constant_data(case, number))
    many_constant_reads(case, reads)
    return case


LARGE = ((8, 1, 3800, 300, 300), (4, 2, 4800, 300, 300), (1, 1, 5400, 800, 600))


def large_benches(maker):
    """Each read asks for the node of each index at each entry, and that node stands at the store's end."""
    kind = "large stores"
    for n, w, nodes, entries, reads in LARGE:
        yield maker.bench(kind, "over-%d-n-%d" % (nodes, n), reads_over(n, w, nodes, entries, reads),
                          "%d reads of %d entries at n=%d, w=%d over %s nodes of the file"
                          % (reads, entries, n, w, format(nodes, ",")))


# Idle writes.

def idle_writes(n, w, count):
    """A case of so many writes whose enable is 0."""
    return full_list(n, w, constant_address, constant_data, lambda number: ZERO, count)


def idle_benches(maker):
    """Nothing is built or entered: such a case should take little more than to read it, and reads after idle
    writes what they take of an empty list."""
    kind = "idle writes"
    yield maker.bench(kind, "2000-idle", idle_writes(1, 1, 2000), "2,000 idle writes at n=1, w=1")
    yield maker.bench(kind, "640-idle-wide", idle_writes(8, 16, 640), "640 idle writes at n=8, w=16")
    case = idle_writes(1, 1, 2000)
    many_constant_reads(case, 2000)
    yield maker.bench(kind, "2000-idle-and-2000", case, "2,000 idle writes and 2,000 reads at n=1, w=1")


# Dense diagrams.

def dense_writes(case, rng, variables, leaves, count):
    """Writes of dense enables, addresses and data; they print no condition."""
    bits = [dense(case, rng, variables, leaves) for _ in range(3)]
    for number in range(count):
        enable = rng.choice(bits)
        address = [rng.choice(bits) for _ in range(case.n)]
        case.write(enable, address, [rng.choice(bits) for _ in range(case.w)])


def dense_case(seed, n, w, size, leaves, writes, reads=20):
    """Dense writes and a last write of constants everywhere, so that reads print constants."""
    rng = Random(seed)
    case = CaseFile(n, w)
    dense_writes(case, rng, range(8, 8 + size), leaves, writes)
    for location in range(1 << n):
        case.write(ONE, number_bits(location, n), number_bits(location, w))
    many_constant_reads(case, reads)
    return case


def fullest(maker, make, most=30):
    """`make(count)` with the greatest count up to `most` that is accepted."""
    count = 1
    while count < most and maker.trial(make(count + 1).bytes())[0] is None:
        count += 1
    return count, make(count)


def dense_benches(maker):
    kind = DENSE
    both, three = (ONE, ZERO), (ONE, ZERO, X)
    for seed, n, w, size, leaves in ((1, 1, 1, 11, both), (2, 1, 1, 10, three), (3, 2, 2, 10, both),
                                     (4, 2, 2, 9, three), (5, 2, 8, 8, three), (6, 3, 4, 9, both),
                                     (7, 4, 4, 7, three)):
        count, case = fullest(maker, lambda count: dense_case(seed, n, w, size, leaves, count))
        yield maker.bench(kind, "dense-%d" % seed, case,
                          "dense conditions of %d variables in %d writes at n=%d, w=%d, then constants and 20 reads"
                          % (size, count, n, w))
    rng = Random(7)
    case = CaseFile(1, 1)
    dense_writes(case, rng, range(8, 19), (ONE, ZERO, X), 40)
    yield maker.bench(kind, "dense-enables", case,
                      "writes with dense conditions of 11 variables until the store is nearly full",
                      until_full=True)
    case, address = wide_symbolic()
    for number in range(40):
        case.write(ONE, number_bits(number, 8), number_bits(number, 16))
        case.read(ONE, address)
    yield maker.bench(kind, "dense-address", case,
                      "an address of 8 variables at n=8, w=16, writes and reads until nearly full",
                      until_full=True)
    yield maker.bench(kind, "file-5461", file_of_nodes(5459), "a store of 5,461 nodes from the file, and a read")
    yield maker.bench(kind, "file-random", random_file(9),
                      "a store of random nodes from the file, nearly full, and accesses")


def is_dense(bench):
    """Whether the node searches of a case are added up."""
    return bench.kind == DENSE or bench.name == DENSE_READS


def file_of_nodes(count):
    """A file of `count` nodes, one of them index 0, a write and a read that make no other."""
    case = CaseFile()
    case.fill(count - 1)
    case.node(0, 0, 1)
    case.write(ONE, [X], [ONE])
    case.read(ONE, [X])
    return case


def random_file(seed):
    rng = Random(seed)
    case = CaseFile(1, 1)
    while len(case.nodes) < 5000:
        dense(case, rng, range(10, 18), (ONE, ZERO))
    odd, even = case.parity([8, 9])
    case.write((odd, even), [(even, odd)], [(odd, even)])
    case.read(ONE, [(even, odd)])
    case.check(odd, [ZERO], [ONE])
    return case


# Parity of 56 variables.

def parity_benches(maker):
    kind = "parity of 56"
    for stored in many_variables():
        if stored.through == "memcase" and not stored.out.startswith("refused 9 "):
            yield Bench(kind, stored.name, stored.data, stored.what)
    rng = Random(11)
    case = CaseFile(4, 4)
    bits = [subset_parity(case, rng) for _ in range(2)]
    for number in range(12):
        case.write(bits[number % 2], [bits[number % 2], ZERO, ONE, bits[number % 2][::-1]], [bits[0]] * 4)
    for location in range(16):
        case.write(ONE, number_bits(location, 4), number_bits(location, 4))
    for number in range(200):
        case.read(ONE, number_bits(number % 16, 4))
    yield maker.bench(kind, "parity-list", case,
                      "28 writes at n=4, w=4, parities of two halves of the variables in all places, then 200 reads")


# Two counters.

def not_at(case, modulus, steps, start, target):
    """The node that holds unless `start` and the steps of the variables that are 1 add up to `target`."""
    reached = [{start}]
    for step in steps:
        reached.append({state for old in reached[-1] for state in (old, (old + step) % modulus)})
    below = {state: int(state != target) for state in reached[-1]}
    for level in reversed(range(len(steps))):
        below = {state: case.node(USER + level, below[state], below[(state + steps[level]) % modulus])
                 for state in sorted(reached[level])}
    return below[start]


def counters(modulus):
    """A write whose data is two counters that are never both at 0, for all their steps are odd and one began at 1:
    a pair that is legal everywhere, which shows in many pairs of nodes alone."""
    rng = Random(modulus)
    case = CaseFile()
    first, second = (not_at(case, modulus, [2 * rng.below(modulus // 2) + 1 for _ in PARITY], start, 0)
                     for start in (0, 1))
    case.write(ONE, [ZERO], [(first, second)])
    return case


# Cases that must end in well under a second.

def must_be_fast(maker):
    kind = "under a second"

    def parity(name, what, add):
        case = CaseFile()
        add(case, *case.parity(PARITY))
        return Bench(kind, name, case.bytes(), "parity of 56 variables as " + what)

    yield parity("parity-address", "an address",
                 lambda case, p, q: (case.write(ONE, [(p, q)], [ONE]), case.read(ONE, [(p, q)])))
    yield parity("parity-data", "a data bit",
                 lambda case, p, q: (case.write(ONE, [ZERO], [(p, q)]), case.check(1, [ZERO], [(p, q)])))
    yield parity("parity-enable", "an enable",
                 lambda case, p, q: (case.write((p, q), [ZERO], [ONE]), case.write(ONE, [ZERO], [ONE]),
                                     case.read(ONE, [ZERO])))
    yield parity("parity-b", "an assert's b",
                 lambda case, p, q: (case.assert_(p, [ZERO], [ONE]), case.check(p, [ZERO], [ONE])))
    yield parity("parity-text", "a condition to print (13)",
                 lambda case, p, q: (case.write(ONE, [ZERO], [(p, q)]), case.read(ONE, [ZERO])))
    nodes = OneAssignment(56)
    neither = (nodes.odd, nodes.almost_even)
    data = nodes.with_access(lambda case: case.write(ONE, [neither], [ONE]))
    yield Bench(kind, "one-of-2-56", data, "a pair that is illegal only under one of 2^56 assignments (6)")
    yield Bench(kind, "counters-24", counters(24).bytes(),
                "a data bit of two counters modulo 24 over 56 variables, legal everywhere")
    yield Bench(kind, "file-5461", file_of_nodes(5459).bytes(), "a store of 5,461 nodes from a file")
    yield Bench(kind, "2730-writes", full_list(1, 1, constant_address, constant_data).bytes(), "2,730 writes")
    yield Bench(kind, "2000-idle", idle_writes(1, 1, 2000).bytes(), "2,000 idle writes")
    yield Bench(kind, "1300-and-1300", writes_and_reads(1300, 1300).bytes(), "1,300 writes and 1,300 reads")
    yield Bench(kind, "over-3800-n-8", reads_over(*LARGE[0]).bytes(),
                "300 reads of 300 entries over 3,800 nodes of the file")


# Locations.

def chosen_address(case, variables):
    """An address of n bits that follow the variables in turn."""
    return [case.bit(variables[i % len(variables)]) for i in range(case.n)]


def data_path(n, first, second, data_variables):
    """Six accesses of a data path, w=16: two results of variables written and read back, the
    second checked and asserted.  The variables of an address say which location it is."""
    case = CaseFile(n, 16)
    first, second = chosen_address(case, first), chosen_address(case, second)
    one, two = ([case.bit(start + i % data_variables) for i in range(16)] for start in (16, 32))
    case.write(ONE, first, one)
    case.read(ONE, first)
    case.write(ONE, second, two)
    case.read(ONE, second)
    case.check(1, second, two)
    case.assert_(1, second, two)
    return case


def any_location(n):
    """An address of n variables, so any of the locations: a constant written, read back,
    asserted and checked, w=16."""
    case = CaseFile(n, 16)
    address = [case.bit(8 + i) for i in range(n)]
    case.write(ONE, address, number_bits(0xA5C3, 16))
    case.read(ONE, address)
    case.assert_(1, address, number_bits(0xA5C3, 16))
    case.check(1, address, number_bits(0xA5C3, 16))
    return case


def location_benches():
    """(name, title, [(locations, bytes)])."""
    sizes = range(1, 9)
    yield ("two-locations", "a data path, each address one of two locations, data of 32 variables",
           [(1 << n, data_path(n, [8], [9], 16).bytes()) for n in sizes])
    yield ("four-locations", "a data path, each address one of four locations, data of 16 variables",
           [(1 << n, data_path(n, [8, 9], [10, 11], 8).bytes()) for n in sizes])
    yield ("any-location", "an address of n variables, so any location: written, read, asserted, checked",
           [(1 << n, any_location(n).bytes()) for n in sizes])


# How the cost of a read grows.

def growth_series(maker, quick):
    reads = 30 if quick else 100

    def point(x, case, count):
        without = case.bytes()
        many_constant_reads(case, count)
        return x, without, case.bytes(), count

    yield Series("entries-wide", "a read of constants against the entries (n=8, w=16)", "entries",
                 [point(entries, full_list(8, 16, constant_address, constant_data, entries=entries), reads)
                  for entries in (0, 41, 82, 123, 164, 205, 246, 287, 327)])
    yield Series("entries-narrow", "a read of constants against the entries (n=1, w=1)", "entries",
                 [point(entries, full_list(1, 1, constant_address, constant_data, entries=entries), 4 * reads)
                  for entries in (0, 341, 682, 1023, 1365, 1706, 2047, 2388, 2730)])
    yield Series("width", "a read of constants against w (n=8, 300 entries)", "w",
                 [point(w, full_list(8, w, constant_address, constant_data, entries=300), reads)
                  for w in (1, 2, 4, 6, 8, 10, 12, 14, 16)])
    points = []
    for size in range(2, 11):
        case = dense_case(20 + size, 3, 1, size, (ONE, ZERO), 3, reads=8)
        refusal, _, nodes = maker.trial(case.bytes())
        if refusal is not None:
            break
        with_reads = case.bytes()
        case.accesses = [access for access in case.accesses if access.kind != READ]
        points.append((nodes, case.bytes(), with_reads, 8))
    yield Series("nodes", "a read of dense conditions against the nodes (n=3, w=1, 11 entries)",
                 "nodes", points)


def all_benches(maker, quick):
    yield from random_benches(maker, 15 if quick else 40)
    yield from long_benches(maker)
    yield from read_benches(maker)
    yield from large_benches(maker)
    yield from idle_benches(maker)
    yield from dense_benches(maker)
    yield from parity_benches(maker)
