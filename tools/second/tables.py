"""Conditions as truth tables: Make, Ite, Not, And, Or and Any, with no decision diagram.

A node is the truth table of its condition over the variables in use.  Reduced ordered
diagrams are canonical, so two nodes are the same exactly where their tables are, and Make
makes a new node exactly where its table was not yet seen.  Names are the paper's (01).
"""

from collections import namedtuple

from papers import TERMINAL, USER_VARIABLE, VARIABLES

# A truth table of 16 variables has 65,536 bits.
TABLE_VARIABLES = 16

# How many node searches there were, and how many nodes they compared in all.
Searches = namedtuple("Searches", "number compared")


class Refused(Exception):
    """A refusal, with the number of its row."""

    def __init__(self, number):
        super().__init__(number)
        self.number = number


class TooManyVariables(Exception):
    """Too many variables are in use for truth tables."""


def is_standard(nodes):
    """Standard form of nodes 2 and up, given as their words, three by three."""
    variables = [TERMINAL, TERMINAL]
    seen = set()
    for number, (variable, low, high) in enumerate(nodes, 2):
        if variable >= VARIABLES or low >= number or high >= number or low == high:
            return False
        if variable >= variables[low] or variable >= variables[high]:
            return False
        if (variable, low, high) in seen:
            return False
        seen.add((variable, low, high))
        variables.append(variable)
    return True


class Conditions:
    """Truth tables over the variables in use, and which of them are nodes.

    Bit a of a table is the condition's value under assignment a, in which bit j is the
    value of the j-th variable in use.  `tables` has each node's table, None where the node
    turns on a variable that is not in use: no table in use can be that node's.
    `searched_near` has how many nodes each search compared that was for g or h of the Ite that
    asked, `searched_past` the same of every other search.
    """

    def __init__(self, variables, capacity):
        self.variables = sorted(variables)
        if len(self.variables) > TABLE_VARIABLES:
            raise TooManyVariables(len(self.variables))
        self.capacity = capacity
        size = 1 << len(self.variables)
        self.true = (1 << size) - 1
        self.place = {v: j for j, v in enumerate(self.variables)}
        self.masks = [self._mask(j, size) for j in range(len(self.variables))]
        self.tables = [0, self.true]
        self.numbers = {0: 0, self.true: 1}
        self._parts = {0: (TERMINAL, 0, 0), self.true: (TERMINAL, self.true, self.true)}
        self._ite = {}
        self._any = {}
        self._lengths = {0: 1, self.true: 1}
        self.searched_near = []
        self.searched_past = []

    @staticmethod
    def _mask(place, size):
        """The assignments in which the variable at `place` is 1."""
        block = 1 << place
        mask = ((1 << block) - 1) << block
        width = 2 * block
        while width < size:
            mask |= mask << width
            width *= 2
        return mask

    def load(self, nodes):
        """Nodes in standard form as they stand, from node 2 up."""
        for variable, low, high in nodes:
            children = self.tables[low], self.tables[high]
            if variable in self.place and None not in children:
                self.add(self.join(variable, *children))
            else:
                self.tables.append(None)

    def words(self, first):
        """The words of the nodes from `first` on."""
        found = []
        for table in self.tables[first:]:
            variable, low, high = self.parts(table)
            found += [variable, self.numbers[low], self.numbers[high]]
        return found

    def count(self):
        return len(self.tables)

    def parts(self, table):
        """The least variable that the table turns on, and the table with it at 0 and at 1."""
        found = self._parts.get(table)
        if found is None:
            found = self._find_parts(table)
            self._parts[table] = found
        return found

    def _find_parts(self, table):
        for place, mask in enumerate(self.masks):
            block = 1 << place
            low = table & ~mask
            high = table & mask
            if low != high >> block:
                return self.variables[place], low | low << block, high | high >> block
        raise AssertionError("a table that turns on no variable is a terminal")

    def variable(self, table):
        return self.parts(table)[0]

    def join(self, variable, low, high):
        """The table that is `low` where the variable is 0 and `high` where it is 1."""
        mask = self.masks[self.place[variable]]
        return low & ~mask | high & mask

    def search(self, table, low, high):
        """The node search for a table with these children, which begins above the larger child and ends at
        the first match: the match, None where there is none, and how many nodes were compared."""
        match = self.numbers.get(table)
        last = len(self.tables) - 1 if match is None else match
        return match, last - max(self.numbers[low], self.numbers[high])

    def make(self, variable, low, high, near=()):
        """`near` are g and h of the Ite that asks."""
        if low == high:
            return low
        table = self.join(variable, low, high)
        match, compared = self.search(table, low, high)
        (self.searched_near if table in near else self.searched_past).append(compared)
        if match is None:
            self.add(table)
        return table

    def searches(self):
        """All searches, and those past g and h: a program that looks at these two first makes no other."""
        near, past = self.searched_near, self.searched_past
        return Searches(len(near + past), sum(near + past)), Searches(len(past), sum(past))

    def add(self, table):
        """A new node at the count."""
        if len(self.tables) >= self.capacity:
            raise Refused(9)
        self.numbers[table] = len(self.tables)
        self.tables.append(table)

    def ite(self, f, g, h):
        if f == self.true:
            return g
        if f == 0:
            return h
        if g == h:
            return g
        if g == self.true and h == 0:
            return f
        key = (f, g, h)
        result = self._ite.get(key)
        if result is None:
            v = min(self.variable(f), self.variable(g), self.variable(h))
            low = self.ite(self.low(f, v), self.low(g, v), self.low(h, v))
            high = self.ite(self.high(f, v), self.high(g, v), self.high(h, v))
            result = self.make(v, low, high, (g, h))
            self._ite[key] = result
        return result

    def low(self, table, variable):
        top, low, _ = self.parts(table)
        return low if top == variable else table

    def high(self, table, variable):
        top, _, high = self.parts(table)
        return high if top == variable else table

    def not_(self, f):
        return self.ite(f, 0, self.true)

    def and_(self, f, g):
        return self.ite(f, g, 0)

    def or_(self, f, g):
        return self.ite(f, self.true, g)

    def any(self, f):
        """Or over the index variables."""
        variable, low, high = self.parts(f)
        if variable >= USER_VARIABLE:
            return f
        result = self._any.get(f)
        if result is None:
            first = self.any(low)
            second = self.any(high)
            result = self.or_(first, second)
            self._any[f] = result
        return result

    def index(self, i):
        return self.make(i, 0, self.true)

    def text_length(self, table):
        """How many bytes the condition's text has."""
        found = self._lengths.get(table)
        if found is None:
            variable, low, high = self.parts(table)
            found = len(str(variable)) + 4 + self.text_length(low) + self.text_length(high)
            self._lengths[table] = found
        return found

    def text(self, table):
        if table == 0:
            return "0"
        if table == self.true:
            return "1"
        variable, low, high = self.parts(table)
        return "(%d %s %s)" % (variable, self.text(low), self.text(high))
