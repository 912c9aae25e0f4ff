"""Random pairs of cases from seeds, the second a sharpening of the first under some assignments or none; and what
nodes and printed conditions are under an assignment, found without any diagram or table."""

import itertools
import re

import rooms  # noqa: F401
from common import randomcases
from common.casefile import ONE, X, ZERO, CaseFile
from common.randomcases import Random
from papers import ASSERT, CHECK, READ, USER_VARIABLE, WRITE
from sharpened.casepairs import nodes_of

INNERMOST = re.compile(r"\(([0-9]+) ([01]) ([01])\)")


# Under one assignment

def assignments(*cases):
    """All assignments of the variables that nodes of the cases turn on."""
    variables = sorted({node[0] for case in cases for node in case.nodes})
    for values in itertools.product((0, 1), repeat=len(variables)):
        yield sum(value << variable for variable, value in zip(variables, values))


def node_value(case, node, assignment):
    while node > 1:
        variable, low, high = case.nodes[node - 2]
        node = high if assignment >> variable & 1 else low
    return node


def pair_value(case, pair, assignment):
    return tuple(node_value(case, node, assignment) for node in pair)


def text_value(text, assignment):
    """The value of a condition's text, from the inside out."""
    while len(text) > 1:
        text = INNERMOST.sub(lambda found: found[3 if assignment >> int(found[1]) & 1 else 2], text)
    return int(text)


# Cases

def copy(case):
    found = CaseFile(case.n, case.w)
    for node in case.nodes:
        found.add_node(*node)
    found.accesses = list(case.accesses)
    return found


def can_be_followed(case, access):
    return all(node < 2 or node < len(case.nodes) + 2 and case.nodes[node - 2][0] >= USER_VARIABLE
               for node in nodes_of(access))


def random_case(rng):
    """An accepted case whose accesses name nodes of the file alone."""
    case = randomcases.tiny(rng) if rng.chance(50) else randomcases.small(rng)
    case.accesses = [access for access in case.accesses if can_be_followed(case, access)]
    return randomcases.without_refusals(case)


class Bits:
    """Random pairs of a case's nodes that are neither 1 nor 0 nowhere."""

    def __init__(self, rng, case):
        self.rng, self.case = rng, case
        self.named = [0, 1] + [number for number, node in enumerate(case.nodes, 2) if node[0] >= USER_VARIABLE]
        self.assignments = list(assignments(case))

    def row(self, node):
        return [node_value(self.case, node, assignment) for assignment in self.assignments]

    def pair(self):
        for _ in range(20):
            h, l = self.rng.choice(self.named), self.rng.choice(self.named)
            if all(map(max, self.row(h), self.row(l))):
                return h, l
        return X

    def sharper(self, pair):
        """Often 0, 1 or a pair of nodes in the place of one that may be X; else the pair."""
        if 0 in pair or self.rng.chance(60):
            return pair
        return self.rng.choice([ZERO, ONE, self.pair(), self.pair()])

    def access(self, access):
        """An access with some of its bits sharpened, or replaced where they may be X."""
        control = access.control if access.kind in (ASSERT, CHECK) else list(self.sharper(tuple(access.control)))
        data = access.data if access.kind == CHECK else [self.sharper(pair) for pair in access.data]
        return access._replace(control=control, address=[self.sharper(pair) for pair in access.address], data=data)


def sharpened(rng, case):
    bits = Bits(rng, case)
    found = copy(case)
    found.accesses = [bits.access(access) for access in case.accesses]
    return found


# Damage.  Each changes a case in place so that it is a sharpening under fewer assignments, or under none.

def replace(rng, case, kinds, change):
    """Change one access of these kinds, where there is one."""
    places = [place for place, access in enumerate(case.accesses) if access.kind in kinds]
    if places:
        place = rng.choice(places)
        case.accesses[place] = change(case.accesses[place])


def other_b(rng, case):
    b = rng.choice(Bits(rng, case).named)
    replace(rng, case, (ASSERT, CHECK), lambda access: access._replace(control=[b]))


def other_check_data(rng, case):
    bits = Bits(rng, case)
    replace(rng, case, (CHECK,), lambda access: access._replace(data=[bits.pair() for _ in access.data]))


def other_port(rng, case):
    replace(rng, case, (READ,), lambda access: access._replace(port=rng.below(4)))


def turned_bit(rng, case):
    def change(access):
        pairs = list(access.address)
        place = rng.below(len(pairs))
        pairs[place] = pairs[place][::-1]
        return access._replace(address=pairs)

    replace(rng, case, (WRITE, READ, ASSERT, CHECK), change)


def unknown_bit(rng, case):
    replace(rng, case, (WRITE, ASSERT), lambda access: access._replace(data=[X] + access.data[1:]))


def other_kind(rng, case):
    replace(rng, case, (CHECK,), lambda access: access._replace(kind=ASSERT))


def fewer_accesses(_rng, case):
    del case.accesses[-1:]


DAMAGES = [other_b, other_check_data, other_port, turned_bit, unknown_bit, other_kind, fewer_accesses]


def random_pair(seed, damaged=0):
    """Two random cases of equal n and w, with so many damages."""
    rng = Random(seed)
    first = random_case(rng)
    second = sharpened(rng, first)
    for _ in range(damaged):
        rng.choice(DAMAGES)(rng, second)
    return first, second
