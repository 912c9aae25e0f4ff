"""Conditions as decision diagrams, of up to 64 variables, for the tools that compare conditions.

A condition is the number of its node: 0 is false and 1 true, and two conditions that agree under every
assignment have the same number.  A text is `0`, `1` or `(v low high)`, as `memcase` prints it.  Nothing
here is counted or ordered as the paper's store is; that is what tables.py is for.
"""

import re

from papers import TERMINALS, USER_VARIABLE, VARIABLES

FALSE, TRUE = 0, 1

# So many remembered steps are three seconds of work and 200 MB.
STEPS = 1 << 20

# What a condition's text is made of.
PART = re.compile(r"\((?P<variable>[0-9]{1,2}) |(?P<value>[01])|(?P<space> )|(?P<close>\))")


class NotACondition(Exception):
    """A text that does not go on as a condition, with the place."""


class TooLarge(Exception):
    """Conditions that take too many steps to compare."""


class Diagrams:
    """Nodes, each with its variable and its two children, and each once."""

    def __init__(self, steps=STEPS):
        self.nodes = list(TERMINALS)
        self.steps = steps
        self._numbers = {}
        self._ite = {}
        self._lengths = {FALSE: 1, TRUE: 1}

    def make(self, variable, low, high):
        """The condition that is `low` where the variable is 0 and `high` where it is 1; both turn on later
        variables alone."""
        if low == high:
            return low
        words = variable, low, high
        if words not in self._numbers:
            self._numbers[words] = len(self.nodes)
            self.nodes.append(words)
        return self._numbers[words]

    def join(self, variable, low, high):
        """The same of any two conditions."""
        if variable < min(self.variable(low), self.variable(high)):
            return self.make(variable, low, high)
        return self.ite(self.make(variable, FALSE, TRUE), high, low)

    def load(self, nodes):
        """The conditions of a file's nodes in standard form, by node number."""
        found = [FALSE, TRUE]
        for variable, low, high in nodes:
            found.append(self.make(variable, found[low], found[high]))
        return found

    def variable(self, f):
        return self.nodes[f][0]

    def ite(self, f, g, h):
        """If f then g, else h."""
        if f == TRUE or g == h:
            return g
        if f == FALSE:
            return h
        if g == TRUE and h == FALSE:
            return f
        key = f, g, h
        if key not in self._ite:
            if len(self._ite) >= self.steps:
                raise TooLarge()
            variable = min(self.nodes[f][0], self.nodes[g][0], self.nodes[h][0])
            low = self.ite(self.part(f, variable, 1), self.part(g, variable, 1), self.part(h, variable, 1))
            high = self.ite(self.part(f, variable, 2), self.part(g, variable, 2), self.part(h, variable, 2))
            self._ite[key] = self.make(variable, low, high)
        return self._ite[key]

    def part(self, f, variable, child):
        """The child of f on the variable, or f where it turns on a later one."""
        words = self.nodes[f]
        return words[child] if words[0] == variable else f

    def not_(self, f):
        return self.ite(f, FALSE, TRUE)

    def and_(self, f, g):
        return self.ite(f, g, FALSE)

    def or_(self, f, g):
        return self.ite(f, TRUE, g)

    def but_not(self, f, g):
        return self.ite(g, FALSE, f)

    def value(self, f, assignment):
        """Whether a condition holds, bit v of the assignment being variable v."""
        while f > TRUE:
            variable, low, high = self.nodes[f]
            f = high if assignment >> variable & 1 else low
        return f == TRUE

    def settled(self, f, others):
        """A condition that holds somewhere, narrowed to where each of the others holds throughout or nowhere."""
        for other in others:
            f = self.and_(f, other) or self.but_not(f, other)
        return f

    def assignment(self, f):
        """Values of variables, as pairs, with which a condition holds whatever the others are; it holds somewhere."""
        found = []
        while f != TRUE:
            variable, low, high = self.nodes[f]
            found.append((variable, int(low == FALSE)))
            f = high if low == FALSE else low
        return found

    # Texts

    def condition_at(self, text, at):
        """The condition whose text begins at a place, and where it ends."""
        opened = []
        found = None
        while found is None or opened:
            part = PART.match(text, at)
            kind = part and part.lastgroup
            if kind == "variable" and found is None and USER_VARIABLE <= int(part["variable"]) < VARIABLES:
                opened.append((int(part["variable"]), None))
            elif kind == "value" and found is None:
                found = int(part["value"])
            elif kind == "space" and found is not None and opened[-1][1] is None:
                opened[-1] = opened[-1][0], found
                found = None
            elif kind == "close" and found is not None and opened[-1][1] is not None:
                found = self.join(*opened.pop(), found)
            else:
                raise NotACondition("no condition goes on so at byte %d" % (at + 1))
            at = part.end()
        return found, at

    def length(self, f):
        """How many bytes a condition's text has."""
        if f not in self._lengths:
            variable, low, high = self.nodes[f]
            self._lengths[f] = len("(%d  )" % variable) + self.length(low) + self.length(high)
        return self._lengths[f]

    def text(self, f):
        if f <= TRUE:
            return str(f)
        variable, low, high = self.nodes[f]
        return "(%d %s %s)" % (variable, self.text(low), self.text(high))
