"""Case files as readable text.

    python3 tools/casetext.py encode FILE.txt > FILE.case
    python3 tools/casetext.py decode FILE.case > FILE.txt
    python3 tools/casetext.py import FILE.csv > FILE.txt      (import --help)
    python3 tools/casetext.py run FILE.txt                    (run --help)

`encode` writes the case file of a text, and `decode` a text of a case file, which `encode` turns into the same bytes.
`import` writes a text from a trace, a table of accesses in CSV.  `run` runs a text and says what came out in the
names of the text.  `-` stands for standard input.  Content is not judged: a text may say a case that `memcase` refuses.

A text has one statement to a line; `#` begins a comment, and blanks and tabs separate.

    memory n=5 w=16                         first: address bits and data bits
    variable we stall                       variables: each is 0 or 1, and every answer says under which values
    variable r[4:0]                         a vector of five variables, r[4] the highest bit
    let hit = we & !stall & r == 5          a name for a condition
    write enable=hit address=r data=0x00ff
    read port=2 enable=1 address=0d5
    assert b=we address=00101 data=16'hxx3f
    check b=!hit | stall address=r[4],0000 data=000000001111111X

A name begins with a letter and goes on with letters, digits and `_`; one that is written with x, X, 0 and 1 alone is
none, as those are bits.  r[3] is also called r3.  A name is declared above its use.

Variables and their order.  A variable has a number from 8 to 63, so that there are 56 at most: the first that is
declared has 8, the next 9, and so on, in a vector from its first index to its last.  So r[4] above is 10 and r[0] 14.
`variable we = 12` gives the number, and `variable r[4:0] = 20 step 2` the numbers 20, 22 and on; the next that has none
given is the one after the highest so far.  The conditions of a text are reduced decision diagrams in the order of these
numbers, and so are those that `memcase` prints: (12 0 1) is the variable 12.  Two vectors that are compared with each
other make small diagrams where their bits alternate (`r[15:0] = 8 step 2` and `s[15:0] = 9 step 2`), and large ones
where one stands before the other.

Expressions, from those that bind most closely on; equal ones are taken from left to right:

    ( .. )            parentheses
    !a   ~a           not a; `!` is of one bit, `~` of each bit of a vector
    r == 5   r != s   whether two vectors are the same, or are not
    a & b             and
    a ^ b             either, and not both
    a | b             or
    c ? a : b         a where c holds, else b

Their operands are names, bits r[3] and parts r[3:0] of vectors, and numbers: 5, 0x1f, 5'h1f; a number has the width of
what stands beside it.  `let` may name a vector too: `let s = r ^ 0x1f` has the bits s[4] to s[0].

Fields.  The fields of an access may stand in any order; a value reaches to the next field.  `enable` is one bit,
`address` n bits and `data` w bits, the highest bit first, as in the lines that `memcase` prints.  (In the file the
lowest bit is first.)  They are one of

    0x1f  0d31        a hexadecimal or decimal word, 0b and 0o a binary or octal one: it is the whole field, with zeros
                      before it.  A digit x is unknown in all its bits (0xx3f), and as the highest digit fills the field
    X  x              every bit is unknown
    items             with commas between them

and an item is one of

    0  1  X  x        the bit that is 0, 1 or unknown; several may stand together, as 01x
    5'h1f  5'd31      a word with its width, as in Verilog; 5'bxx111, 5'o37
    EXPRESSION        its bits, each 1 where the condition holds and 0 where it does not: r, !we, hit & stall, r[3:0]
    h:l               two expressions: the bit may be 1 where h holds and 0 where l holds, so that it is unknown where
                      both do: `d | stall : !d | stall` is unknown where stall holds, and d elsewhere

`10` is therefore two bits, and the decimal number ten is 0d10.  `0x` begins a hexadecimal word, and what could be one
and bits as well (0x1 where three bits are needed) is refused: write 0X1, or 3'h1.  `b` is an expression, or the number
of a node.  `port` is the read port, 0 to 3, and 0 where it is left out.

The nodes of the file that these conditions need are made, each once, in the order of their first use.  A text may also
say nodes itself, above its first `variable`, `let` and access:

    node x = (8 0 1)            from node 2 up: variable, low child, high child.  `node 2 = ..` gives no
    node notx = (8 1 0)         name; the number must be that of the next node.  A node's name begins with
    node 4 = (9 0 x)            a small letter

A node is named by its number or by its name where a child, `b`, h or l stands, and by its name in expressions.  Numbers
may also be those of nodes that an earlier access makes.  In a text that has neither `variable` nor `let` no node is
made: of a name, of `!x` and of every expression the file must have the nodes.  There x may be a name, and is then the
node and not the unknown bit.
"""

import re
from collections import namedtuple

import papers
from common.casefile import CaseFile, VALUES, parse
from common.diagrams import FALSE, TRUE, Diagrams, TooLarge
from language.expressions import LONGEST_NAME, Reader, Vector, nearest
from language.words import LETTERS, Mistake, counted, fits, fitted, read_word, shown
from papers import BYTE_LIMIT, NAMES, NUMBER_LIMIT, USER_VARIABLE, VARIABLES
from second.tables import is_standard

FIELDS = {NAMES[kind]: list(fields) for kind, fields in papers.FIELDS.items()}
LEFT_OUT = {"port": "0"}
BIT_LETTERS = {pair: letter for letter, pair in VALUES.items()}

# A node's name, and the name of a variable or a condition.
NAME = re.compile(r"[a-z][A-Za-z0-9_]*\Z")
DECLARED_NAME = re.compile(r"[A-Za-z_][A-Za-z0-9_]*\Z")
NUMBER = re.compile(r"[0-9]+\Z")
NODE_LINE = re.compile(r"(\S+)\s*=\s*\(\s*(\S+)\s+(\S+)\s+(\S+)\s*\)\Z")
FIRST_WORD = re.compile(r"\s*(\S+)\s*")
FIELD = re.compile(r"(?:^|(?<=\s))([A-Za-z_][A-Za-z0-9_]*)\s*=(?!=)\s*")
VARIABLE = re.compile(r"([^\s\[\],=]+)(?:\[\s*([0-9]{1,9})\s*:\s*([0-9]{1,9})\s*\])?(?=[\s,=]|\Z)[\s,]*")
GIVEN_NUMBER = re.compile(r"=\s*([0-9]+)(?:\s+step\s+([0-9]+))?\s*\Z")
LET_LINE = re.compile(r"(\S+?)\s*=(?!=)\s*")

LAST_NODE = NUMBER_LIMIT
MANY_ACCESSES = NUMBER_LIMIT

# What a text says: the case, the line of each access, the name of each variable by its number, and the names of
# conditions by the number of their node: those of `node` lines, and those of `let` that an access needs.
Source = namedtuple("Source", "case lines variables conditions")


def plain_number(text, most, what, at=None):
    if not NUMBER.match(text):
        hint = ", without a comma" if NUMBER.match(text.strip(",")) else ""
        raise Mistake("%s must be a number%s, not `%s`" % (what, hint, shown(text)), at)
    digits = text.lstrip("0") or "0"
    if len(digits) > len(str(most)) or int(digits) > most:
        raise Mistake("%s is %s, and at most %d fits the file" % (what, shown(text), most), at)
    return int(digits)


class NoNode(Exception):
    """A condition of which the file has no node, where none is made."""


class Nodes:
    """The nodes of a case and the conditions that they are.  `made` says whether nodes are added as needed."""

    def __init__(self, case):
        self.case = case
        self.diagrams = Diagrams()
        self.made = False
        self._numbers = {FALSE: 0, TRUE: 1}
        self._conditions = None

    def load(self):
        """The conditions of the `node` lines, of which all stand above what asks first."""
        if self._conditions is not None:
            return
        if not is_standard(self.case.nodes):
            raise Mistake("the `node` lines are not in standard form (children first, on later variables, unlike each "
                          "other; no node twice), and only h:l and `b` can name such nodes")
        self._conditions = self.diagrams.load(self.case.nodes)
        self._numbers.update((condition, number) for number, condition in enumerate(self._conditions))

    def condition(self, number):
        """The condition of a node of the `node` lines; NoNode where there is none."""
        self.load()
        if number >= len(self._conditions):
            raise NoNode()
        return self._conditions[number]

    def find(self, condition):
        """The node that a condition is, or None."""
        return self._numbers.get(condition)

    def number(self, condition):
        """The node that a condition is; it is added, and those below it, where they are made, else NoNode."""
        self.load()
        if condition not in self._numbers:
            if not self.made:
                raise NoNode()
            variable, low, high = self.diagrams.nodes[condition]
            number = self.case.node(variable, self.number(low), self.number(high))
            if number > LAST_NODE:
                raise Mistake("the conditions up to here need more nodes than %d, the most that a file has" % LAST_NODE)
            self._numbers[condition] = number
        return self._numbers[condition]

    def pair(self, condition):
        """The pair that is 1 where a condition holds, else 0."""
        return self.number(condition), self.number(self.diagrams.not_(condition))


class Encoder:
    """Reads a text line by line into a case file."""

    def __init__(self):
        self.case = None
        self.nodes = None
        self.node_names = {}        # a node's number by its name
        self.vectors = {}           # a Vector by its name
        self.places = {}            # where each name was declared, in words
        self.variables = {}         # a variable's name by its number
        self.named = []             # the conditions of `let`, each with its name
        self.number = 0             # the line that is read
        self._fields = {}           # what texts of fields were found to be
        self._conditions = {}       # and those of b

    def line(self, number, text):
        """Read one line."""
        self.number = number
        body = text.split("#", 1)[0].rstrip()
        first = FIRST_WORD.match(body)
        if not first:
            return
        word, rest, at = first[1], body[first.end():], first.end()
        if word == "memory":
            self.memory(rest, at)
        elif word not in self.STATEMENTS and word not in FIELDS:
            raise Mistake("unknown word `%s`; a line begins with memory, variable, let, node, write, read, assert or "
                          "check" % shown(word))
        elif self.case is None:
            raise Mistake("the first line must be `memory n=.. w=..`")
        elif word in FIELDS:
            self.access(word, rest, at)
        else:
            self.STATEMENTS[word](self, rest, at)

    def memory(self, rest, at):
        if self.case is not None:
            raise Mistake("a second `memory` line")
        fields = self.fields("memory", rest, at, ["n", "w"])
        self.case = CaseFile(*(plain_number(fields[size][0], BYTE_LIMIT, size) for size in ("n", "w")))
        self.nodes = Nodes(self.case)

    # Names

    def new_name(self, name, at):
        """A name of a variable or a condition."""
        if not DECLARED_NAME.match(name):
            raise Mistake("`%s` is no name: a letter, then letters, digits and _" % shown(name), at)
        if LETTERS.match(name):
            raise Mistake("`%s` is no name: x, X, 0 and 1 are bits" % shown(name), at)
        if len(name) > LONGEST_NAME:
            raise Mistake("`%s` is no name: it has more than %d letters" % (shown(name), LONGEST_NAME), at)

    def declare(self, name, vector, at):
        """Give a name to a vector, and names to its bits."""
        line = "line %d" % self.number
        self.put(name, vector, line, at)
        for index, bit in zip(vector.indices, vector.bits):
            self.put("%s%d" % (name, index), Vector((bit,), ()), "%s, as %s[%d]" % (line, name, index), at)

    def put(self, name, vector, place, at):
        if name in self.places:
            raise Mistake("the name `%s` is declared twice, before in %s" % (shown(name), self.places[name]), at)
        self.places[name] = place
        self.vectors[name] = vector

    def vector(self, name, at):
        """The conditions that a name has."""
        if name in self.vectors:
            return self.vectors[name]
        if name in self.node_names:
            return Vector((self.nodes.condition(self.node_names[name]),), ())
        if LETTERS.match(name):
            raise Mistake("`%s` is unknown, and conditions are of bits that are 0 or 1; in a field it can be an item "
                          "of its own" % shown(name), at)
        raise Mistake("no variable, condition or node has the name `%s`%s" % (
            shown(name), nearest(name, [*self.vectors, *self.node_names])), at)

    def variable(self, rest, at):
        """`variable NAME[HIGH:LOW] ..`, or one alone with the number of its first bit."""
        declared, place = [], 0
        while place < len(rest) and rest[place] != "=":
            match = VARIABLE.match(rest, place)
            if not match:
                raise Mistake("a variable is written NAME, and a vector NAME[4:0]", at + place)
            declared.append((match, at + place))
            place = match.end()
        if not declared:
            raise Mistake("`variable` needs a name")
        given = GIVEN_NUMBER.match(rest, place)
        if place < len(rest) and (not given or len(declared) > 1):
            raise Mistake("a number is given to one name alone, `variable r[4:0] = 20` or `= 20 step 2`", at + place)
        self.nodes.made = True
        for match, column in declared:
            self.one_variable(match, given, column)

    def one_variable(self, match, given, at):
        name, first, last = match.groups()
        self.new_name(name, at)
        indices = index_range(name, first, last, at)
        names = ["%s[%d]" % (name, index) for index in indices] or [name]
        numbers = self.variable_numbers(names, given, at)
        bits = tuple(self.nodes.diagrams.make(number, FALSE, TRUE) for number in numbers)
        self.declare(name, Vector(bits, indices), at)
        self.variables.update(zip(numbers, names))

    def variable_numbers(self, names, given, at):
        """The numbers of the variables of one name."""
        first = max([USER_VARIABLE - 1, *self.variables]) + 1
        step = 1
        if given:
            first = plain_number(given[1], BYTE_LIMIT, "the number of a variable", at)
            step = plain_number(given[2] or "1", BYTE_LIMIT, "the step", at)
        if not step:
            raise Mistake("the step must be 1 or more", at)
        numbers = [first + step * place for place in range(len(names))]
        of_nodes = set() if given else {variable for variable, _, _ in self.case.nodes}
        for name, number in zip(names, numbers):
            if not USER_VARIABLE <= number < VARIABLES:
                raise Mistake("`%s` would be variable %d, and variables are %d to %d" % (
                    name, number, USER_VARIABLE, VARIABLES - 1), at)
            if number in self.variables:
                raise Mistake("`%s` would be variable %d, which is `%s`" % (name, number, self.variables[number]), at)
            if number in of_nodes:
                raise Mistake("`%s` would be variable %d, which is one of a `node` line: give its number, as in "
                              "`variable NAME = 20`" % (name, number), at)
        return numbers

    def let(self, rest, at):
        match = LET_LINE.match(rest)
        if not match:
            raise Mistake("a condition is named by `let NAME = EXPRESSION`", at)
        name, start = match[1], match.end()
        self.new_name(name, at)
        self.nodes.made = True
        bits = Reader(self.nodes.diagrams, self, rest[start:], at + start).bits()
        indices = tuple(range(len(bits) - 1, -1, -1)) if len(bits) > 1 else ()
        self.declare(name, Vector(bits, indices), at)
        self.named += zip(["%s[%d]" % (name, index) for index in indices] or [name], bits)

    # Nodes

    def node(self, rest, _at):
        if self.case.accesses or self.nodes.made:
            raise Mistake("nodes come before the first access, `variable` and `let`")
        match = NODE_LINE.match(rest)
        if not match:
            raise Mistake("a node is written `node NAME = (VARIABLE LOW HIGH)`")
        name, variable, low, high = match.groups()
        number = len(self.case.nodes) + 2
        if number - 1 > LAST_NODE:
            raise Mistake("more than %d nodes" % LAST_NODE)
        self.new_node_name(name, number)
        words = (plain_number(variable, BYTE_LIMIT, "the variable"),
                 self.node_number(low), self.node_number(high))
        self.case.add_node(*words)

    STATEMENTS = {"node": node, "variable": variable, "let": let}

    def new_node_name(self, name, number):
        if NUMBER.match(name):
            if (name.lstrip("0") or "0") != str(number):
                raise Mistake("the next node is node %d, not %s" % (number, shown(name)))
        elif not NAME.match(name):
            raise Mistake("`%s` is no name: a small letter, then letters, digits and _" % shown(name))
        elif name in self.node_names:
            raise Mistake("a second node has the name `%s`" % shown(name))
        else:
            self.node_names[name] = number
            self.places[name] = "line %d" % self.number

    def is_node(self, text):
        return text in self.node_names or bool(NUMBER.match(text))

    def node_number(self, text, at=None):
        if not NUMBER.match(text) and text not in self.node_names:
            raise Mistake("no node has the name `%s`%s" % (shown(text), nearest(text, list(self.node_names))), at)
        return plain_number(str(self.node_names.get(text, text)), LAST_NODE, "a node", at)

    # Accesses

    def fields(self, word, rest, at, wanted):
        """The fields of a line, each with its place, which must be those wanted; some may be left out."""
        matches = list(FIELD.finditer(rest))
        before = rest[:matches[0].start()] if matches else rest
        if before:
            raise Mistake("`%s` should be written as name=value" % shown(before.split()[0]), at)
        ends = [match.start() for match in matches[1:]] + [len(rest)]
        found = {}
        for match, end in zip(matches, ends):
            key = match[1]
            if key not in wanted:
                hint = "; a comparison is written `==`" if key in self.places else \
                    "; one statement to a line" if ";" in rest[:match.start()] else nearest(key, wanted)
                raise Mistake("`%s` takes %s, not `%s`%s" % (word, ", ".join(wanted), shown(key), hint),
                              at + match.start())
            if key in found:
                raise Mistake("`%s` twice; one statement to a line" % key, at + match.start())
            found[key] = rest[match.end():end].rstrip(), at + match.end()
        for key in wanted:
            if key not in found and key not in LEFT_OUT:
                raise Mistake("`%s` needs `%s=`" % (word, key))
        return {**{key: (value, at) for key, value in LEFT_OUT.items()}, **found}

    def access(self, word, rest, at):
        fields = self.fields(word, rest, at, FIELDS[word])
        if len(self.case.accesses) >= MANY_ACCESSES:
            raise Mistake("more than %d accesses" % MANY_ACCESSES)
        if word in ("write", "read"):
            control = self.pairs("enable", *fields["enable"])[0]
        else:
            control = self.b(*fields["b"])
        address = self.pairs("address", *fields["address"])
        data = self.pairs("data", *fields["data"]) if "data" in fields else None
        if word == "write":
            self.case.write(control, address, data)
        elif word == "read":
            text, place = fields["port"]
            self.case.read(control, address, plain_number(text, BYTE_LIMIT, "the port", place))
        elif word == "assert":
            self.case.assert_(control, address, data)
        else:
            self.case.check(control, address, data)

    def width(self, field):
        return {"enable": 1, "b": 1, "address": self.case.n, "data": self.case.w}[field]

    def pairs(self, field, text, at):
        """The pairs of a field, the lowest bit first as in the file; its text has the highest first."""
        if (field, text) not in self._fields:
            self._fields[field, text] = self.new_pairs(field, text, at)[::-1]
        return self._fields[field, text]

    def new_pairs(self, field, text, at):
        items = text.split(",") if text else []
        width = self.width(field)
        found, start = [], at
        for item in items:
            blank = len(item) - len(item.lstrip())
            found += self.item(item.strip(), start + blank, width if len(items) == 1 else None)
            start += len(item) + 1
        if len(found) != width:
            hint = "; a decimal word is written 0d%s" % shown(text) if NUMBER.match(text) else ""
            raise Mistake("`%s` has %s and needs %d%s" % (field, counted(len(found), "bit"), width, hint), at)
        return found

    def item(self, text, at, width):
        """The pairs of one item, the highest bit first; `width` is that of the field where the item is all of it."""
        if not text:
            raise Mistake("an item is missing", at)
        if text in ("X", "x") and width is not None and text not in self.node_names:
            return [VALUES["X"]] * width
        if all(letter in VALUES for letter in text):
            return [VALUES[letter] for letter in text]
        if text in self.node_names:
            return self.expression(text, at, width)
        word = read_word(text, at)
        if word:
            return self.word(word, at, width)
        if LETTERS.match(text):
            return [VALUES[letter] for letter in text.upper()]
        return self.expression(text, at, width)

    def word(self, word, at, width):
        """The pairs of a word of a base; one that has no width of its own is the whole field."""
        text = word.text
        bits = text.upper() if LETTERS.match(text) else ""
        if word.width is None and width is None:
            raise Mistake("`%s` has no width, and can only be the whole field%s" % (
                shown(text), "; as bits it is %s" % shown(bits) if bits else ""), at)
        if word.width is None and len(bits) == width:
            if len(bits) <= 4 or fits(word, width):
                raise Mistake("`%s` may be a hexadecimal word, %d'h%s, or the bits %s: write one of these" % (
                    text, width, text[2:], bits), at)
            return [VALUES[letter] for letter in bits]
        return [VALUES[letter] for letter in fitted(word, word.width or width, at)]

    def expression(self, text, at, width):
        """The pairs of an item that is an expression, or of two with a colon between them."""
        h, colon, l = text.partition(":")
        if colon and self.is_node(h) and self.is_node(l):
            return [(self.node_number(h, at), self.node_number(l, at))]
        if NUMBER.match(text):
            raise Mistake("`%s` is no word of bits: a decimal word is written 0d%s" % (shown(text), shown(text)), at)
        sides = Reader(self.nodes.diagrams, self, text, at, width).sides()
        try:
            if len(sides) == 1:
                return [self.nodes.pair(condition) for condition in sides[0]]
            return list(zip(*(self.side(side, at) for side in sides)))
        except NoNode:
            raise Mistake("the file has no node for `%s` or for what is not it: add one, write h:l, or declare a "
                          "`variable` in place of nodes, and nodes are made" % shown(text), at) from None

    def side(self, side, at):
        """The nodes of h or l: of conditions, or a node that is named by its number."""
        if isinstance(side, str):
            return [self.node_number(side, at)]
        return [self.nodes.number(condition) for condition in side]

    def b(self, text, at):
        """The node that is b."""
        if text not in self._conditions:
            self._conditions[text] = self.condition(text, at)
        return self._conditions[text]

    def condition(self, text, at):
        """The node of an expression, of a node's number, or of `!` and a number."""
        plain = text.removeprefix("!")
        try:
            if self.is_node(text):
                return self.node_number(text, at)
            if NUMBER.match(plain):
                return self.nodes.number(self.nodes.diagrams.not_(self.nodes.condition(self.node_number(plain, at))))
            bits = Reader(self.nodes.diagrams, self, text, at, 1).bits()
            if len(bits) != 1:
                raise Mistake("`b` is one condition, and `%s` has %d bits" % (shown(text), len(bits)), at)
            return self.nodes.number(bits[0])
        except NoNode:
            raise Mistake("the file has no node that is `%s`: add one, or declare a `variable` in place of nodes, and "
                          "nodes are made" % shown(text), at) from None

    def names_of_conditions(self):
        """The names of nodes by their numbers, the first that each has."""
        found = {number: name for name, number in self.node_names.items()}
        for name, condition in self.named:
            number = self.nodes.find(condition)
            if number is not None and number > 1:
                found.setdefault(number, name)
        return found

    def names_of_variables(self):
        """The names of variables by their numbers: as declared, or as a node is named that is the variable."""
        found = {self.case.nodes[number - 2][0]: name for name, number in reversed(self.node_names.items())
                 if self.case.nodes[number - 2][1:] == (0, 1)}
        return {**found, **self.variables}


def index_range(name, first, last, at):
    """The indices of a vector in order; none where it is no vector."""
    if first is None:
        return ()
    first, last = int(first), int(last)
    if max(first, last) > 255 or abs(first - last) >= VARIABLES - USER_VARIABLE:
        raise Mistake("`%s` has indices above 255, or more than the %d bits that there are variables for" % (
            shown(name), VARIABLES - USER_VARIABLE), at)
    return tuple(range(first, last - 1, -1) if first > last else range(first, last + 1))


def read_source(text):
    """What a text says, a Source; Mistake otherwise."""
    encoder = Encoder()
    lines = []
    for number, line in enumerate(text.removeprefix("\ufeff").splitlines(), 1):
        try:
            encoder.line(number, line)
        except TooLarge:
            raise Mistake("line %d: a condition takes too many steps in this order of variables: give vectors that are "
                          "compared alternating numbers, as `variable r[15:0] = 8 step 2`" % number) from None
        except Mistake as mistake:
            column = "" if mistake.at is None else "column %d: " % (mistake.at + 1)
            raise Mistake("line %d: %s%s" % (number, column, mistake)) from None
        if encoder.case is not None and len(encoder.case.accesses) > len(lines):
            lines.append(number)
    if encoder.case is None:
        raise Mistake("the text has no `memory` line")
    return Source(encoder.case, lines, encoder.names_of_variables(), encoder.names_of_conditions())


def read_text(text):
    """The case that a text says, and the number of the line of each access; Mistake otherwise."""
    source = read_source(text)
    return source.case, source.lines


def says_nodes(text):
    """Whether all nodes of a text's case stand in it, so that an access of it may be written with their numbers."""
    words = (FIRST_WORD.match(line.split("#", 1)[0]) for line in text.splitlines())
    return not any(word and word[1] in ("variable", "let") for word in words)


def encode(text):
    """The bytes of the case that a text says; Mistake otherwise."""
    return read_text(text)[0].bytes()


def shown_pairs(pairs):
    """Pairs as text, the highest bit first; values that stand side by side are joined."""
    items = []
    joined = False
    for pair in reversed(pairs):
        letter = BIT_LETTERS.get(pair)
        if letter and joined:
            items[-1] += letter
        else:
            items.append(letter or "%d:%d" % pair)
        joined = letter is not None
    return ",".join(items)


def shown_access(access):
    word = NAMES[access.kind]
    if word in ("write", "read"):
        control = "enable=" + shown_pairs([tuple(access.control)])
    else:
        control = "b=%d" % access.control[0]
    address = "address=" + shown_pairs(access.address)
    if word == "read":
        return "read port=%d %s %s" % (access.port, control, address)
    return "%s %s %s data=%s" % (word, control, address, shown_pairs(access.data))


def decode(data):
    """The text of a well-formed case file; NotACaseFile otherwise."""
    case = parse(data)
    lines = ["memory n=%d w=%d" % (case.n, case.w)]
    lines += ["node %d = (%d %d %d)" % ((number,) + node)
              for number, node in enumerate(case.nodes, 2)]
    lines += [shown_access(access) for access in case.accesses]
    return "\n".join(lines) + "\n"


def is_text(data):
    """Whether bytes begin as a text does, with its `memory` line."""
    lines = data.decode("utf-8", "replace").removeprefix("\ufeff").splitlines()
    words = filter(None, (FIRST_WORD.match(line.split("#", 1)[0]) for line in lines))
    return next((word[1] for word in words), None) == "memory"
