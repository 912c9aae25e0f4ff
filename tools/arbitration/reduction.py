"""The smallest case that still parts two programs, made of one that does.

`reduce(data, parts)` is given the bytes of a case and a test of bytes, which runs the programs.  Of two cases the
smaller is that with fewer accesses; of as many, that whose file is shorter (fewer nodes and bits); then that with
fewer address and data bits; then with fewer variables; then with plainer bits: of an enable or b 1, then 0, then X,
then a condition, of an address or data 0, then 1, then X, then a condition; then with lower ports and variables.

These are tried, over and over until none gives a smaller case that parts: accesses are dropped, halves first, then
quarters, down to single ones; nodes that nothing names are dropped, or any where they are not in standard form;
address and data bits are, down to one; a variable is set to 0 or 1, or made the same as another; a bit is replaced by
0, 1, X or by what its condition is where its first variable is 0 or 1, in all places where it stands and then in each;
ports become 0.  So in the end no single access can be dropped, unless a bound was met: of tries, or of cases made.

Nodes that accesses make have other numbers where accesses or nodes are dropped.  They are taken as they come: their
numbers are kept behind the last node of the file, and the test says whether the case still parts.  A damaged file is
cut at its end, as far as it then parts.  Where its sections and the count of its accesses are whole it is then reduced
as a case, with what stands behind its last whole access and with a count that is too large by as much as before.
"""

import itertools

from common.casefile import ONE, X, ZERO, CaseFile, Bytes, NotACaseFile, parse_access, parse_header
from common.diagrams import Diagrams, TooLarge
from papers import NUMBER_LIMIT, READ, USER_VARIABLE
from second.tables import is_standard

# So many runs of a test that takes 20 ms are 10 seconds.
TRIES = 500

# So many cases are made for each that may be tried: some are no smaller, or were tried before.
MADE = 4

# Variables are made the same as others where there are no more of them, and no more nodes: it takes long.
MERGED_VARIABLES, MERGED_NODES = 12, 1000

# Bits from the plainest on, of a control and of addresses and data.
CONTROLS, WORDS = (ONE, ZERO, X), (ZERO, ONE, X)


class Enough(Exception):
    """The search ends with what was found so far; a test may raise it too."""


# Cases as they are changed

class FileCase(CaseFile):
    """A case file that may be damaged: with bytes behind its last whole access, and a count of accesses that is too
    large by `more`."""

    def __init__(self, n=1, w=1, rest=b"", more=0):
        super().__init__(n, w)
        self.rest, self.more = rest, more

    def bytes(self):
        return self.header_bytes(accesses=len(self.accesses) + self.more) + self.access_bytes() + self.rest


def read_case(data):
    """The case of a file; None where its sections or the count of its accesses are not whole."""
    source, found = Bytes(data), FileCase()
    try:
        count = parse_header(source, found)
    except NotACaseFile:
        return None
    end = source.at
    try:
        while len(found.accesses) < count:
            parse_access(source, found)
            end = source.at
    except NotACaseFile:
        pass
    found.rest, found.more = data[end:], count - len(found.accesses)
    return found


def without_nodes_and_accesses(case):
    return FileCase(case.n, case.w, case.rest, case.more)


def copy(case, accesses):
    """The case with other accesses."""
    found = without_nodes_and_accesses(case)
    for node in case.nodes:
        found.add_node(*node)
    found.accesses = list(accesses)
    return found


def named_nodes(access):
    """The nodes that an access names, in its order."""
    return [*access.control, *(half for pair in access.address + access.data for half in pair)]


def with_nodes(access, node_of):
    """The access with each node replaced."""
    def pairs(words):
        return [(node_of(h), node_of(l)) for h, l in words]

    return access._replace(control=[node_of(node) for node in access.control], address=pairs(access.address),
                           data=pairs(access.data))


def rebuilt(case, node_of):
    """The case with its nodes made anew, each by `node_of`, which is given the new case, the new numbers of the
    nodes so far, and the node's number and words."""
    found = without_nodes_and_accesses(case)
    numbers = [0, 1]
    for number, words in enumerate(case.nodes, 2):
        numbers.append(node_of(found, numbers, number, *words))
    return renumbered(found, case, numbers)


def renumbered(found, case, numbers):
    """A case with the accesses of another, the nodes of which have these numbers in it; a number behind the last node
    is as far behind it as before."""
    moved = len(found.nodes) - len(case.nodes)

    def node_of(node):
        return numbers[node] if node < len(numbers) else max(0, min(node + moved, NUMBER_LIMIT))

    found.accesses = [with_nodes(access, node_of) for access in case.accesses]
    return found


def used_nodes(case):
    """The nodes that accesses name, and those below them."""
    used = {node for access in case.accesses for node in named_nodes(access)}
    for number in range(len(case.nodes) + 1, 1, -1):
        if number in used:
            used.update(case.nodes[number - 2][1:])
    return used


def without_nodes(case, dropped):
    """The case without some nodes; where one of these is named, node 0 is."""
    def node_of(found, numbers, number, variable, *children):
        if number in dropped:
            return 0
        return found.add_node(variable, *(numbers[child] if child < number else child for child in children))

    return rebuilt(case, node_of)


def unneeded(case):
    """The nodes that nothing names; all where they are not in standard form, and so have no meaning."""
    used = used_nodes(case) if is_standard(case.nodes) else ()
    return [number for number in range(2, len(case.nodes) + 2) if number not in used]


def restricted(case, variable, value):
    """The case where a variable has a value."""
    def node_of(found, numbers, _number, v, low, high):
        if v == variable:
            return numbers[high if value else low]
        return found.node(v, numbers[low], numbers[high])

    return rebuilt(case, node_of)


def renamed(case, names):
    """The case with other variables, in the same order."""
    return rebuilt(case, lambda found, numbers, _number, v, low, high:
                   found.node(names[v], numbers[low], numbers[high]))


def merged(case, variable, other):
    """The case where a variable is the same as another."""
    diagrams = Diagrams()
    parts = [diagrams.load(restricted_words(case, variable, value)) for value in (0, 1)]
    condition = diagrams.make(other, 0, 1)
    conditions = [diagrams.ite(condition, high, low) for low, high in zip(*parts)]
    found = without_nodes_and_accesses(case)
    numbers = {0: 0, 1: 1}
    for condition in conditions:
        put_condition(found, diagrams, numbers, condition)
    if len(found.nodes) > NUMBER_LIMIT:
        raise TooLarge()
    return renumbered(found, case, [numbers[condition] for condition in conditions])


def restricted_words(case, variable, value):
    """The case's nodes with the children of those on a variable replaced by the one of its value: no standard form,
    but one that Diagrams.load makes into conditions."""
    return [(v, *((high,) * 2 if value else (low,) * 2)) if v == variable else (v, low, high)
            for v, low, high in case.nodes]


def put_condition(case, diagrams, numbers, condition):
    """The number of a condition's node, made where it is new."""
    if condition not in numbers:
        variable, low, high = diagrams.nodes[condition]
        low, high = (put_condition(case, diagrams, numbers, child) for child in (low, high))
        numbers[condition] = case.node(variable, low, high)
    return numbers[condition]


def variables_of(case):
    return sorted({variable for variable, _, _ in case.nodes})


def without_bits(case, field, dropped):
    """The case without some bits of its addresses or its data."""
    found = copy(case, [])
    found.n -= len(dropped) if field == "address" else 0
    found.w -= len(dropped) if field == "data" else 0
    for access in case.accesses:
        pairs = [pair for bit, pair in enumerate(getattr(access, field)) if bit not in dropped]
        found.accesses.append(access._replace(**{field: pairs}))
    return found


# Bits.  A place is the number of an access and the place of the pair in it, 0 being the control.

def pairs_of(access):
    """The pairs of an access, its control first: b with None."""
    control = tuple(access.control) if len(access.control) == 2 else (access.control[0], None)
    return [control, *access.address, *access.data]


def with_pair(access, place, pair):
    """The access with a pair replaced."""
    if place == 0:
        return access._replace(control=[node for node in pair if node is not None])
    pairs = [*access.address, *access.data]
    pairs[place - 1] = pair
    n = len(access.address)
    return access._replace(address=pairs[:n], data=pairs[n:])


def plainest(place):
    return CONTROLS if place == 0 else WORDS


def weight(place, pair):
    """How plain a pair is: 0 to 2 for a value, 3 for any other."""
    values = plainest(place)
    pair = (pair[0], 1 - pair[0]) if pair[1] is None and pair[0] < 2 else pair
    return values.index(pair) if pair in values else len(values)


def part_of(case, pair, value):
    """A pair where the first variable of its nodes has a value; None where it has none, or names another node."""
    halves = [node for node in pair if node is not None]
    if max(halves) >= len(case.nodes) + 2 or max(halves) < 2:
        return None
    tops = [case.nodes[node - 2][0] if node > 1 else None for node in halves]
    first = min(top for top in tops if top is not None)
    parts = [case.nodes[node - 2][1 + value] if top == first else node for node, top in zip(halves, tops)]
    return tuple(parts) if len(parts) == 2 else (parts[0], None)


def plainer(case, place, pair):
    """Pairs to be tried in the place of one, from the plainest on."""
    is_b = pair[1] is None
    found = [(values[0], None) if is_b else values for values in plainest(place)[:weight(place, pair)]]
    if weight(place, pair) == len(plainest(place)):
        found += [part for part in (part_of(case, pair, value) for value in (0, 1)) if part]
    return [other for other in dict.fromkeys(found) if other != pair]


def replaced(case, places, pair):
    """The case with the pairs of some places replaced."""
    accesses = list(case.accesses)
    for number, place in places:
        accesses[number] = with_pair(accesses[number], place, pair)
    return copy(case, accesses)


def places_of(case):
    """The places of each pair; of controls apart from others, and of those that are b."""
    found = {}
    for number, access in enumerate(case.accesses):
        for place, pair in enumerate(pairs_of(access)):
            found.setdefault((place == 0, pair), []).append((number, place))
    return found


def size(case, data):
    """What is compared first of two cases, with their bytes, the smaller being the one to be had."""
    return len(case.accesses), len(data)


def plainness(case):
    """What is compared then."""
    pairs = sum(weight(place, pair) for access in case.accesses for place, pair in enumerate(pairs_of(access)))
    variables = variables_of(case)
    return (case.n + case.w, len(variables), pairs, sum(access.port for access in case.accesses), sum(variables),
            case.more)


# The search

class Reduction:
    """The smallest case so far, and the tests that are left."""

    def __init__(self, data, parts, tries, note):
        self.data, self.parts, self.note = data, parts, note
        self.left, self.made = tries, MADE * tries
        self.case, self.is_tidy = None, False
        self.seen = {data}

    def parts_still(self, data):
        """Whether bytes part the two; each are tried once."""
        if data in self.seen:
            return False
        if self.left < 1:
            raise Enough()
        self.seen.add(data)
        self.left -= 1
        if not self.parts(data):
            return False
        self.data = data
        if self.note:
            self.note(data)
        return True

    def attempt(self, case):
        """Take a case in the place of the smallest so far, if it is smaller and parts."""
        self.made -= 1
        if self.made < 0:
            raise Enough()
        data = case.bytes()
        one, other = size(case, data), size(self.case, self.data)
        if one > other or one == other and plainness(case) >= plainness(self.case) or not self.parts_still(data):
            return False
        self.take(case)
        return True

    def take(self, case):
        self.case, self.is_tidy = case, not unneeded(case)

    def tidied(self, case):
        """A case without nodes that nothing names, where the smallest so far has none of these."""
        dropped = unneeded(case) if self.is_tidy else []
        return without_nodes(case, set(dropped)) if dropped else case

    def run(self):
        self.cut_end()
        case = read_case(self.data)
        if case is None:
            return
        self.take(case)
        before = None
        while before != self.data:
            before = self.data
            for step in (self.drop_accesses, self.drop_rest, self.drop_nodes, self.drop_bits, self.fix_variables,
                         self.merge_variables, self.replace_everywhere, self.replace_each, self.lower_ports,
                         self.lower_variables):
                step()

    def cut_end(self):
        """Cut bytes at the end of a damaged file, as many as go."""
        step = len(self.data)
        while step and is_damaged(self.data):
            if not (step <= len(self.data) and self.parts_still(self.data[:len(self.data) - step])):
                step //= 2

    def drop(self, count, attempt):
        """Drop parts of a case, of which there are `count()`, the last ones first: halves, then quarters, down to
        single ones, and these until none goes.  `attempt` tries the case without those from one to another."""
        length = max(1, count() // 2)
        while True:
            dropped = False
            end = count()
            while end > 0:
                start = max(0, end - length)
                dropped = attempt(start, end) or dropped
                end = start
            if length == 1 and not dropped:
                return
            length = max(1, length // 2)

    def drop_accesses(self):
        def attempt(start, end):
            accesses = self.case.accesses
            case = copy(self.case, accesses[:start] + accesses[end:])
            return self.attempt(self.tidied(case)) or end - start == 1 and self.attempt(case)

        self.drop(lambda: len(self.case.accesses), attempt)

    def drop_rest(self):
        """Mend a damaged file: its end and its count, or either."""
        for rest, more in ((b"", 0), (b"", self.case.more), (self.case.rest, 0), (self.case.rest, 1)):
            found = copy(self.case, self.case.accesses)
            found.rest, found.more = rest, more
            self.attempt(found)

    def drop_nodes(self):
        if not self.is_tidy:
            self.drop(lambda: len(unneeded(self.case)), lambda start, end: self.attempt(
                without_nodes(self.case, set(unneeded(self.case)[start:end]))))

    def drop_bits(self):
        """One bit is left of an address and of data: without any the case is refused, whatever else it has."""
        for field, name in (("data", "w"), ("address", "n")):
            def attempt(start, end, field=field, name=name):
                left = getattr(self.case, name) - (end - start)
                return left > 0 and self.attempt(self.tidied(without_bits(self.case, field, range(start, end))))

            self.drop(lambda name=name: getattr(self.case, name), attempt)

    def fix_variables(self):
        if is_standard(self.case.nodes):
            for variable, value in itertools.product(variables_of(self.case), (0, 1)):
                self.attempt(self.tidied(restricted(self.case, variable, value)))

    def merge_variables(self):
        if not is_standard(self.case.nodes) or len(self.case.nodes) > MERGED_NODES:
            return
        variables = variables_of(self.case)
        for variable, other in itertools.permutations(variables if len(variables) <= MERGED_VARIABLES else [], 2):
            if min(variable, other) >= USER_VARIABLE and {variable, other} <= set(variables_of(self.case)):
                try:
                    self.attempt(self.tidied(merged(self.case, variable, other)))
                except TooLarge:
                    continue

    def replace_everywhere(self):
        """Replace each pair by a plainer one in all places at once."""
        self.replace(lambda found: list(found.values()))

    def replace_each(self):
        self.replace(lambda found: [[place] for places in found.values() for place in places])

    def replace(self, chosen):
        for places in chosen(places_of(self.case)):
            number, place = places[0]
            again = True
            while again:
                pair = pairs_of(self.case.accesses[number])[place]
                again = any(self.attempt(self.tidied(replaced(self.case, places, other)))
                            for other in plainer(self.case, place, pair))

    def lower_ports(self):
        """All reads by port 0; or each port by itself; or the ports in the order of their first reads."""
        ports = list(dict.fromkeys(access.port for access in self.case.accesses if access.kind == READ))
        changes = [dict.fromkeys(ports, 0), {port: place for place, port in enumerate(ports)}]
        for change in [changes[0], *({port: 0} for port in ports), changes[1]]:
            self.attempt(copy(self.case, [access._replace(port=change.get(access.port, access.port))
                                          for access in self.case.accesses]))

    def lower_variables(self):
        """Variables from 8 up, in their order."""
        if is_standard(self.case.nodes):
            users = [variable for variable in variables_of(self.case) if variable >= USER_VARIABLE]
            names = {variable: variable for variable in range(USER_VARIABLE)}
            names.update((variable, number) for number, variable in enumerate(users, USER_VARIABLE))
            self.attempt(renamed(self.case, names))


def is_damaged(data):
    case = read_case(data)
    return case is None or bool(case.rest or case.more)


def reduce(data, parts, tries=TRIES, note=None):
    """The smallest case found for which `parts`, given its bytes, is true, as it is for `data`; at most so many
    others are tried.  `note`, where there is one, is given the bytes of each that is smaller, as it is found."""
    reduction = Reduction(data, parts, tries, note)
    try:
        reduction.run()
    except Enough:
        pass
    return reduction.data
