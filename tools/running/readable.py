"""Conditions, words and assignments in names, as a reader of a text knows them.

A condition is written with `!` (not), `==` and `!=` of a vector, `&` (and), `^` (exclusive or) and `|` (or), in this
order of precedence, over the names of variables and of the text's conditions.  A variable without a name is `v` and
its number.
"""

import functools
import re

from common.casefile import VALUES
from common.diagrams import FALSE, TRUE, TooLarge
from papers import ENABLED, NAMES, READ, USER_VARIABLE, VARIABLES
from running.splits import Splits
from second.tables import is_standard

# How many characters are shown of a condition, and of a bit inside a word.
SHOWN = 100
SHOWN_IN_WORD = 24

# Past so many characters a condition is not written out at all.
LONGEST = 100000

# A condition is written as a sum of products where it has no more nodes and no more products.
SUM_NODES = 100
SUM_PRODUCTS = 24

OR, XOR, AND, ATOM = range(4)
VECTOR_BIT = re.compile(r"(!?\w+)\[([0-9]+)\]\Z")
VECTOR_BITS = re.compile(r"(!?\w+)\[([0-9]+)(?::([0-9]+))?\]\Z")
LETTERS = {pair: letter for letter, pair in VALUES.items()}


class TooMany(Exception):
    """A sum of more products than are written."""


class Names:
    """The names of variables, and of conditions by their numbers in a `Diagrams`."""

    def __init__(self, diagrams, nodes, variables, conditions):
        """`nodes` are those of the file from node 2 up; `variables` and `conditions` have the names of variables and
        of nodes."""
        self.diagrams = diagrams
        self.variables = dict(variables)
        self.conditions, self.complements, self.nots = {}, {}, {}
        self.numbers = {name: diagrams.make(variable, FALSE, TRUE) for variable, name in variables.items()}
        loaded = diagrams.load(nodes) if is_standard(nodes) else []
        for number, name in conditions.items():
            if number < len(loaded):
                self.add(loaded[number], name)

    def add(self, f, name):
        self.numbers[name] = f
        variable, low, high = self.diagrams.nodes[f]
        if (low, high) == (FALSE, TRUE):
            self.variables.setdefault(variable, name)
        elif (low, high) == (TRUE, FALSE):
            self.nots.setdefault(variable, name)
        elif f > TRUE:
            self.conditions.setdefault(f, name)
            self.complements.setdefault(self.diagrams.not_(f), name)

    def variable(self, number):
        """The name of a variable; one that has none is `v` and its number, with more `v` where that is another name."""
        name = "v%d" % number
        while number not in self.variables and name in self.numbers:
            name = "v" + name
        return self.variables.get(number, name)

    def literal(self, variable, value):
        """A variable or its complement, by the name of that where it alone has one."""
        if variable in self.nots and variable not in self.variables:
            return "!" + self.nots[variable] if value else self.nots[variable]
        return self.variable(variable) if value else "!" + self.variable(variable)

    def numbered(self, name):
        """The condition of a name, None where there is none."""
        if name in self.numbers:
            return self.numbers[name]
        for variable in range(USER_VARIABLE, VARIABLES):
            if self.variable(variable) == name:
                return self.diagrams.make(variable, FALSE, TRUE)
        return None

    def bits(self, name):
        """The names of the bits of a vector that have conditions, the highest first; none where there is no such
        vector."""
        found = [VECTOR_BIT.match(one) for one in self.numbers]
        indices = sorted({int(bit[2]) for bit in found if bit and bit[1] == name}, reverse=True)
        return ["%s[%d]" % (name, index) for index in indices]

    def assignment(self, values):
        """Values of variables in words; a vector is one word, in which `-` is a bit that has no value here."""
        values = dict(values)
        words = []
        for variable, value in values.items():
            vector = self.vector_of(variable)
            given = [bit for bit in vector if bit in values]
            if len(given) == 1:
                words.append("%s=%d" % (self.variable(variable), value))
            elif variable == min(given):
                digits = "".join(str(values.get(bit, "-")) for bit in vector)
                words.append("%s=%s" % (self.vector_name(variable), digits))
        return " ".join(words)

    def vector_name(self, variable):
        """The name of the vector that a variable is a bit of."""
        return VECTOR_BIT.match(self.variable(variable))[1]

    def vector_of(self, variable):
        """The variables of the vector that a variable is a bit of, the highest bit first, which is the first variable;
        itself where it is of none."""
        match = VECTOR_BIT.match(self.variable(variable))
        return self.vector(match[1]) or [variable] if match else [variable]

    @functools.lru_cache(None)
    def vector(self, name):
        """The variables of a vector in their order; none where its indices do not go up or down by one with them."""
        bits = [(number, VECTOR_BIT.match(one)) for number, one in sorted(self.variables.items())]
        bits = [(number, int(bit[2])) for number, bit in bits if bit and bit[1] == name]
        steps = {after[1] - before[1] for before, after in zip(bits, bits[1:])}
        return [number for number, _ in bits] if steps in ({1}, {-1}) else []


def length(text):
    """The length of a text that stands beside how it binds."""
    return len(text[0])


def size(diagrams, f, most=None):
    """How many nodes a condition has, 0 and 1 not counted; of one that has more than `most`, some number above it."""
    return sum(node > TRUE for node in reached(diagrams, f, most))


def reached(diagrams, f, most=None):
    """The nodes that a condition is made of; of one that has more than `most`, so many that it is told."""
    found, open_nodes = {f}, [f]
    while open_nodes and (most is None or len(found) <= most + 2):
        node = open_nodes.pop()
        if node > TRUE:
            new = set(diagrams.nodes[node][1:]) - found
            found |= new
            open_nodes += new
    return found


class Sums:
    """Conditions as sums of products of which none and no factor can be left out (Minato and Morreale)."""

    def __init__(self, diagrams):
        self.diagrams = diagrams
        self.memory = {}

    def products(self, f):
        """The products of a condition, each a tuple of variables and their values; TooMany where there are more than
        are written."""
        return self.between(f, f)[0]

    def between(self, least, most):
        """Products whose sum holds where `least` does and nowhere where `most` does not; and the sum."""
        if least == FALSE:
            return [], FALSE
        if most == TRUE:
            return [()], TRUE
        if (least, most) not in self.memory:
            self.memory[least, most] = self.split(least, most)
        return self.memory[least, most]

    def split(self, least, most):
        d = self.diagrams
        variable = min(d.variable(least), d.variable(most))
        low, high = d.part(least, variable, 1), d.part(least, variable, 2)
        most_low, most_high = d.part(most, variable, 1), d.part(most, variable, 2)
        without, sum_low = self.between(d.but_not(low, most_high), most_low)
        with_it, sum_high = self.between(d.but_not(high, most_low), most_high)
        rest = d.or_(d.but_not(low, sum_low), d.but_not(high, sum_high))
        both, sum_both = self.between(rest, d.and_(most_low, most_high))
        products = ([((variable, 0), *product) for product in without]
                    + [((variable, 1), *product) for product in with_it] + both)
        if len(products) > SUM_PRODUCTS:
            raise TooMany()
        return products, d.make(variable, d.or_(sum_low, sum_both), d.or_(sum_high, sum_both))


class Readable:
    """Conditions, bits and words as texts."""

    def __init__(self, diagrams, names, full=False):
        self.diagrams = diagrams
        self.names = names
        self.sums = Sums(diagrams)
        self.splits = Splits(diagrams)
        self.shown = LONGEST if full else SHOWN
        self.texts = {}

    # Conditions

    def condition(self, f):
        """A condition's text, cut where it is long."""
        if f not in self.texts:
            self.texts[f] = self.condition_text(f)
        return self.texts[f]

    def condition_text(self, f):
        text = min([self.plain_text(f), *self.split_texts(f)], key=length)[0]
        if len(text) <= self.shown:
            return text
        return "%s.. (cut: %d nodes)" % (text[:self.shown - 30].rstrip(), size(self.diagrams, f))

    def plain_text(self, f):
        """The text of a condition over variables, and how it binds: as nested factors or as a sum of products,
        whichever is shorter."""
        name = self.name(f)
        if name is not None:
            return name, ATOM
        return min([(self.beginning(f), self.split(f)[0]), *self.sum_texts(f)], key=length)

    def split_texts(self, f):
        """The texts of a condition that is one with a name, or its complement, and something else, or either."""
        if self.name(f) is not None or size(self.diagrams, f, SUM_NODES) > SUM_NODES:
            return
        for named, name in self.names.conditions.items():
            where, elsewhere = (self.splits.restrict(f, side) for side in (named, self.diagrams.not_(named)))
            if elsewhere == FALSE:
                yield self.with_name(name, AND, where)
            if where == FALSE:
                yield self.with_name("!" + name, AND, elsewhere)
            if where == TRUE:
                yield self.with_name(name, OR, elsewhere)
            if elsewhere == TRUE:
                yield self.with_name("!" + name, OR, where)

    def with_name(self, name, level, f):
        text, own = self.plain_text(f)
        return "%s %s %s" % (name, "&" if level == AND else "|", "(%s)" % text if own < level else text), level

    def beginning(self, f):
        """The text of a condition as nested factors, of which no more is made than tells that it is too long."""
        text = ""
        for part in self.factors(f, OR):
            text += part
            if len(text) > self.shown:
                break
        return text

    def name(self, f):
        """The name of a condition, or that of its complement behind `!`; None where neither has one."""
        if f <= TRUE:
            return str(f)
        variable, low, high = self.diagrams.nodes[f]
        if {low, high} == {FALSE, TRUE}:
            return self.names.literal(variable, high == TRUE)
        if f in self.names.conditions:
            return self.names.conditions[f]
        return "!" + self.names.complements[f] if f in self.names.complements else None

    def factors(self, f, level):
        """The parts of a condition's text as nested factors, in parentheses where it binds less than `level`."""
        name = self.name(f)
        if name is not None:
            yield name
            return
        own, parts = self.split(f)
        if own < level:
            yield "("
        for part in parts:
            if isinstance(part, str):
                yield part
            else:
                yield from self.factors(*part)
        if own < level:
            yield ")"

    def split(self, f):
        """A condition by its first variable: how its text binds, and its parts, conditions with their level."""
        variable, low, high = self.diagrams.nodes[f]
        yes, no = self.names.literal(variable, 1), self.names.literal(variable, 0)
        if FALSE in (low, high):
            return AND, [(no if high == FALSE else yes) + " & ", (low or high, AND)]
        if high == TRUE:
            return OR, [yes + " | ", (low, OR)]
        if low == TRUE:
            return OR, [no + " | ", (high, OR)]
        if self.diagrams.not_(low) == high:
            return XOR, [yes + " ^ ", (low, XOR)]
        return OR, [yes + " & ", (high, AND), " | %s & " % no, (low, AND)]

    def sum_texts(self, f):
        """The text of a condition as a sum of products, and how it binds; none where it is large or has too many."""
        if size(self.diagrams, f, SUM_NODES) > SUM_NODES:
            return
        try:
            products = self.sums.products(f)
        except (TooMany, TooLarge):
            return
        common = [value for value in products[0] if all(value in product for product in products)]
        others = [[value for value in product if value not in common] for product in products]
        if len(products) == 1:
            yield self.product_text(common), AND
        elif common:
            yield "%s & (%s)" % (self.product_text(common), self.sum_text(others)), AND
        else:
            yield self.sum_text(others), OR

    def product_text(self, values):
        return " & ".join(self.with_vectors(values, "%s == %d", self.names.literal))

    def sum_text(self, products):
        """A sum; of its products those of one factor say, of a vector, what it is not."""
        alone = [(variable, 1 - value) for product in products if len(product) == 1 for variable, value in product]
        texts = self.with_vectors(alone, "%s != %d", lambda variable, value: self.names.literal(variable, 1 - value))
        return " | ".join(texts + [self.product_text(product) for product in products if len(product) > 1])

    def with_vectors(self, values, form, literal):
        """Texts of values of variables, one for a vector of which every bit has a value."""
        values = dict(values)
        texts = []
        for variable, value in values.items():
            vector = self.names.vector_of(variable)
            if len(vector) < 2 or not all(bit in values for bit in vector):
                texts.append(literal(variable, value))
            elif variable == min(vector):
                number = int("".join(str(values[bit]) for bit in vector), 2)
                texts.append(form % (self.names.vector_name(variable), number))
        return texts

    def where(self, f):
        """A condition in a sentence."""
        return "under every assignment" if f == TRUE else "nowhere" if f == FALSE else "where " + self.condition(f)

    # Bits and words

    def bit(self, pair):
        """A bit that is known or X everywhere, as it is written in a word; None where that would not be short."""
        if pair in LETTERS:
            return LETTERS[pair]
        h, l = pair
        if size(self.diagrams, h, SHOWN_IN_WORD) > SHOWN_IN_WORD or self.diagrams.not_(h) != l:
            return None
        text = self.name(h) or self.condition(h)
        if len(text) > SHOWN_IN_WORD:
            return None
        return text if self.name(h) else "(%s)" % text

    def is_short(self, pair):
        """Whether a bit is 0, 1, X or what has a name."""
        return pair in LETTERS or self.name(pair[0]) is not None and self.diagrams.not_(pair[0]) == pair[1]

    def word(self, pairs):
        """A word, the highest bit first, and lines on it: a word for each of some cases, or what its `?` are.  `pairs`
        has the lowest bit first."""
        halves = {half for pair in pairs for half in pair}
        if not all(map(self.is_short, pairs)) and all(size(self.diagrams, f, SUM_NODES) <= SUM_NODES for f in halves):
            cases = self.splits.cases(pairs, list(self.names.conditions), self.is_short)
            if cases:
                return "by case", list(self.case_lines(cases))
        bits = [self.bit(pair) or "?" for pair in reversed(pairs)]
        lines = ["bit %d %s" % (number, self.halves(pair)) for number, pair in reversed(list(enumerate(pairs)))
                 if self.bit(pair) is None]
        return joined(bits) + hexadecimal(pairs), lines

    def case_lines(self, cases):
        """A line for each case, those with short conditions first; a condition is shown as it is where those before it
        do not hold."""
        rest = TRUE
        for number, (pairs, where) in enumerate(sorted(cases, key=lambda case: len(self.condition(case[1])))):
            here = self.splits.restrict(where, rest)
            rest = self.diagrams.but_not(rest, where)
            words = ["else"] if number else []
            words += ["where " + self.condition(here)] if here != TRUE else []
            yield "%s: %s" % (" ".join(words), self.short_word(pairs))

    def short_word(self, pairs):
        return joined([self.bit(pair) for pair in reversed(pairs)]) + hexadecimal(pairs)

    def halves(self, pair):
        h, l = pair
        if self.are_complements(h, l):
            return "is 1 where %s, else 0" % self.condition(h)
        return "may be 1 %s, and 0 %s" % (self.where(h), self.where(l))

    def are_complements(self, f, g):
        """Whether two conditions are known to be complements: not where they are too large to compare."""
        try:
            return self.diagrams.not_(f) == g
        except TooLarge:
            return False


    # Accesses

    def access(self, access, conditions):
        """An access of which no text is known; `conditions` are those of the nodes, as far as they are known."""
        word = NAMES[access.kind]
        if access.kind in ENABLED:
            control = "enable=" + self.given([access.control], conditions)
        else:
            node = access.control[0]
            control = "b=" + (self.condition(conditions[node]) if node < len(conditions) else "node %d" % node)
        text = "%s %s address=%s" % (word, control, self.given(access.address, conditions))
        if access.kind == READ:
            return text.replace("read", "read port=%d" % access.port)
        return "%s data=%s" % (text, self.given(access.data, conditions))

    def given(self, pairs, conditions):
        """Pairs of nodes as an access gives them, the highest bit first; h:l where a bit is not short."""
        bits = []
        for h, l in reversed(pairs):
            known = max(h, l) < len(conditions)
            bits.append(known and self.bit((conditions[h], conditions[l])) or "%d:%d" % (h, l))
        return joined(bits)


def joined(bits):
    """Bits as a word: letters that stand side by side are joined, and so are the bits of a vector."""
    items = []
    for bit in bits:
        if items and is_letters(bit) and is_letters(items[-1]):
            items[-1] += bit
        else:
            items.append(bit)
    return ",".join(with_vectors(items))


def is_letters(item):
    return set(item) <= set("01X?")


def with_vectors(items):
    """Items of a word, in which bits of a vector that follow one another are one, as `r[4:0]`."""
    found = []
    for item in items:
        bit, before = VECTOR_BIT.match(item), VECTOR_BITS.match(found[-1] if found else "")
        if bit and before and before[1] == bit[1] and follows(before, int(bit[2])):
            found[-1] = "%s[%s:%s]" % (bit[1], before[2], bit[2])
        else:
            found.append(item)
    return found


def follows(before, index):
    """Whether a bit's index goes on as those of a slice do, or is next to that of one bit."""
    first, last = int(before[2]), int(before[3] or before[2])
    step = (last > first) - (last < first) or index - first
    return abs(step) == 1 and index == last + step


def hexadecimal(pairs):
    """A word of constants once more, in hexadecimal; nothing of another word, and of one bit."""
    if len(pairs) == 1 or any(LETTERS.get(pair) not in ("0", "1") for pair in pairs):
        return ""
    value = sum((LETTERS[pair] == "1") << number for number, pair in enumerate(pairs))
    return " = 0x%0*x" % ((len(pairs) + 3) // 4, value)
