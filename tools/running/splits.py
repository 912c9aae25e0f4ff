"""Conditions restricted to where others hold, and words by case.

A word that is short under each of a few conditions is read more easily as a list of these cases than bit by bit.
"""

from collections import Counter

from common.diagrams import FALSE, TRUE

# A word is split into no more parts, of which no more are different, and tried with no more named conditions.
MOST_PARTS = 64
MOST_CASES = 5
MOST_NAMES = 32


class TooManyParts(Exception):
    """A word that has no short list of cases."""


class Splits:
    """Conditions restricted to where others hold."""

    def __init__(self, diagrams):
        self.diagrams = diagrams
        self.memory = {}

    def restrict(self, f, where):
        """A condition that is f where `where`, which holds somewhere, does, and as small as that makes it at once."""
        if f <= TRUE or where == TRUE:
            return f
        if (f, where) not in self.memory:
            self.memory[f, where] = self.restricted(f, where)
        return self.memory[f, where]

    def restricted(self, f, where):
        d = self.diagrams
        variable, low, high = d.nodes[f]
        if d.variable(where) < variable:
            return self.restrict(f, d.or_(*d.nodes[where][1:]))
        where_low, where_high = d.part(where, variable, 1), d.part(where, variable, 2)
        if where_low == FALSE:
            return self.restrict(high, where_high)
        if where_high == FALSE:
            return self.restrict(low, where_low)
        return d.make(variable, self.restrict(low, where_low), self.restrict(high, where_high))

    def word(self, pairs, where):
        """A word where a condition holds."""
        return tuple((self.restrict(h, where), self.restrict(l, where)) for h, l in pairs)

    def cases(self, pairs, conditions, is_short):
        """A word as a list of words of which each bit is short, and where each is the word; together they are
        everywhere.  None where there is no such short list.  `conditions` are those that have names."""
        found = {}
        try:
            self.split(tuple(pairs), TRUE, conditions[:MOST_NAMES], is_short, found, [MOST_PARTS])
        except TooManyParts:
            return None
        return list(found.items())

    def split(self, pairs, where, conditions, is_short, found, left):
        """Add the cases of a word that is asked for where a condition holds; `left` counts the parts down."""
        left[0] -= 1
        if all(map(is_short, pairs)):
            found[pairs] = self.diagrams.or_(found.get(pairs, FALSE), where)
        if not left[0] or len(found) > MOST_CASES:
            raise TooManyParts()
        if pairs in found:
            return
        by = self.named_split(pairs, where, conditions, is_short) or self.variable_split(pairs, is_short)
        for side in (by, self.diagrams.not_(by)):
            both = self.diagrams.and_(where, side)
            if both != FALSE:
                self.split(self.word(pairs, side), both, conditions, is_short, found, left)

    def named_split(self, pairs, where, conditions, is_short):
        """The first condition with a name on one side of which the word is short; None where there is none."""
        for by in conditions:
            for side in (by, self.diagrams.not_(by)):
                if self.diagrams.and_(where, side) not in (FALSE, where) and all(map(is_short, self.word(pairs, side))):
                    return by
        return None

    def variable_split(self, pairs, is_short):
        """The variable that most of the bits turn on which are not short."""
        counts = Counter(variable for pair in pairs if not is_short(pair)
                         for variable in variables_of(self.diagrams, pair))
        variable = min(counts, key=lambda one: (-counts[one], one))
        return self.diagrams.make(variable, FALSE, TRUE)


def variables_of(diagrams, conditions):
    """The variables that some conditions turn on."""
    found, seen, open_nodes = set(), set(conditions), list(conditions)
    while open_nodes:
        variable, low, high = diagrams.nodes[open_nodes.pop()]
        if low != high:
            found.add(variable)
            new = {low, high} - seen
            seen |= new
            open_nodes += new
    return found
