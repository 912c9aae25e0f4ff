"""Expressions over named conditions, as they stand behind `let` and in the fields of an access.

The operators, and how closely they bind, stand in the opening words of casetext.py.  The operands are names, bits r[3]
and parts r[3:0] of vectors, and numbers: 0 and 1, decimal numbers, and the words of words.py.  A number has the width
of what stands beside it.  Two vectors must have the same width.

A value here is a tuple of conditions (diagrams.py), the highest bit first, or a number that has no width yet.
"""

import difflib
import re
from collections import namedtuple

from common.diagrams import FALSE, TRUE
from language.words import Mistake, Word, counted, fitted, read_word, shown

TOKEN = re.compile(r"(?P<word>[0-9]*'[0-9A-Za-z_]+|0[xbdo][0-9A-Za-z_]+)|(?P<number>[0-9]+)"
                   r"|(?P<name>[A-Za-z_][A-Za-z0-9_]*)|(?P<operator>==|!=|&&|\|\||[!~&^|?:()\[\]])")
BLANK = re.compile(r"\s*")
NEVER = {"&&": "&", "||": "|"}
HINTS = {"=": "; a comparison is written `==`", ";": "; one statement to a line",
         **dict.fromkeys("<>+-*/%", "; the operators are ! ~ == != & ^ | and ? :")}

# Parentheses and choices that may be open around one place.
NESTING = 50
LONGEST_NUMBER = 80
LONGEST_NAME = 64

Token = namedtuple("Token", "kind text at")
END = "the end"


def tokens(text, at):
    """The tokens of an expression whose first letter is at a place of the line."""
    found, place = [], BLANK.match(text).end()
    while place < len(text):
        match = TOKEN.match(text, place)
        if not match:
            raise Mistake("no expression goes on with `%s`%s" % (
                shown(text[place:].split()[0]), HINTS.get(text[place], "")), at + place)
        if match.group() in NEVER:
            raise Mistake("`%s` is written `%s`" % (match.group(), NEVER[match.group()]), at + place)
        found.append(Token(match.lastgroup, match.group(), at + place))
        place = BLANK.match(text, match.end()).end()
    return found + [Token(END, END, at + len(text))]


def nearest(name, names):
    """A hint at the name that is most like one that is not there."""
    found = [other for other in names if other.lower() == name.lower()]
    if not found and len(name) <= LONGEST_NAME:
        found = difflib.get_close_matches(name, names, 1)
    return "; did you mean `%s`?" % found[0] if found else ""


class Reader:
    """Reads one expression.  `names` gives the value of a name, a `Vector`, and is asked by names.vector(name, at);
    `width` is that of the place for which the expression is written, None where it has none."""

    def __init__(self, diagrams, names, text, at, width=None):
        self.diagrams = diagrams
        self.names = names
        self.tokens = tokens(text, at)
        self.start = self.tokens[0].at
        self.place = 0
        self.open = 0
        self.width = width

    # Tokens

    @property
    def token(self):
        return self.tokens[self.place]

    def take(self, *texts):
        """The next token where it is one of these operators, and go on; else None."""
        token = self.token
        if token.kind != "operator" or token.text not in texts:
            return None
        self.place += 1
        return token

    def need(self, text, opened):
        if not self.take(text):
            raise Mistake("`%s` is needed %s, for `%s` in column %d" % (
                text, self.before(), opened.text, opened.at + 1), self.token.at)

    def before(self):
        return "at the end" if self.token.kind == END else "before `%s`" % shown(self.token.text)

    def need_end(self):
        if self.token.kind != END:
            raise Mistake("an operator is needed before `%s`" % shown(self.token.text), self.token.at)

    def deeper(self, token):
        self.open += 1
        if self.open > NESTING:
            raise Mistake("more than %d parentheses and choices are open; name a part with `let`" % NESTING, token.at)

    # The grammar

    def bits(self):
        """The whole expression as conditions."""
        value = self.choice()
        self.need_end()
        return self.settled(value, self.width or 1, self.start)

    def sides(self):
        """An item: one expression, or h and l with a colon between them.  A number alone on a side is a node's, and
        stays a text."""
        first = self.side()
        mark = self.take(":")
        if not mark:
            self.need_end()
            return [self.settled(first, self.width or 1, self.start)]
        second = self.side()
        self.need_end()
        if isinstance(first, str) or isinstance(second, str):
            return [side if isinstance(side, str) else self.one_bit(side, mark) for side in (first, second)]
        return list(self.alike(mark, first, second, self.width))

    def side(self):
        token, after = self.token, self.tokens[min(self.place + 1, len(self.tokens) - 1)]
        if token.kind == "number" and (after.kind == END or after.text == ":"):
            self.place += 1
            return token.text
        return self.choice()

    def choice(self):
        condition = self.either(0)
        mark = self.take("?")
        if not mark:
            return condition
        self.deeper(mark)
        high = self.choice()
        self.need(":", mark)
        low = self.choice()
        self.open -= 1
        condition, = self.one_bit(condition, mark)
        return self.joined(mark, lambda one, other: self.diagrams.ite(condition, one, other), high, low)

    LEVELS = "|", "^", "&"

    def either(self, level):
        """Operands of an operator of this level, and of those that bind more closely."""
        if level == len(self.LEVELS):
            return self.comparison()
        value = self.either(level + 1)
        while mark := self.take(self.LEVELS[level]):
            value = self.joined(mark, getattr(self, self.NAMES[mark.text]), value, self.either(level + 1))
        return value

    NAMES = {"|": "or_", "^": "unlike", "&": "and_"}

    def or_(self, one, other):
        return self.diagrams.or_(one, other)

    def and_(self, one, other):
        return self.diagrams.and_(one, other)

    def unlike(self, one, other):
        return self.diagrams.ite(one, self.diagrams.not_(other), other)

    def comparison(self):
        value = self.unary()
        mark = self.take("==", "!=")
        if not mark:
            return value
        one, other = self.alike(mark, value, self.unary(), None)
        again = self.take("==", "!=")
        if again:
            raise Mistake("a comparison of a comparison needs parentheses", again.at)
        return (self.same(one, other, mark.text == "=="),)

    def same(self, one, other, wanted):
        """Whether two vectors are the same, or are not; from the lowest bit up, which is last in the order."""
        d = self.diagrams
        found = TRUE
        for first, second in reversed(list(zip(one, other))):
            found = d.and_(d.not_(self.unlike(first, second)), found)
        return found if wanted else d.not_(found)

    def unary(self):
        marks = []
        while mark := self.take("!", "~"):
            marks.append(mark)
        value = self.operand()
        for mark in reversed(marks):
            value = self.one_bit(value, mark) if mark.text == "!" else self.settled(value, self.width or 1, mark.at)
            value = tuple(self.diagrams.not_(bit) for bit in value)
        return value

    def operand(self):
        token = self.token
        opened = self.take("(")
        if opened:
            self.deeper(opened)
            value = self.choice()
            self.need(")", opened)
            self.open -= 1
            return value
        self.place += token.kind not in (END, "operator")
        if token.kind == "number":
            return decimal(token)
        if token.kind == "word":
            return known(token)
        if token.kind == "name":
            return self.named(token)
        raise Mistake("a name, a number or `(` is needed %s" % self.before(), token.at)

    def named(self, token):
        vector = self.names.vector(token.text, token.at)
        opened = self.take("[")
        if not opened:
            return vector.bits
        first = self.index(vector, token)
        last = self.index(vector, token) if self.take(":") else first
        self.need("]", opened)
        if first > last:
            raise Mistake("`%s` has its bits in the other order: it is %s" % (shown(token.text), vector.range),
                          opened.at)
        return vector.bits[first:last + 1]

    def index(self, vector, name):
        """The place of a bit in a vector, by its index."""
        token = self.token
        if token.kind != "number":
            raise Mistake("the number of a bit is needed %s" % self.before(), token.at)
        self.place += 1
        places = vector.places()
        if token.text not in places:
            has = "is %s" % vector.range if vector.range else "is no vector"
            raise Mistake("`%s` has no bit %s: it %s" % (shown(name.text), shown(token.text), has), token.at)
        return places[token.text]

    # Widths

    def settled(self, value, width, at):
        """A value as conditions; a number that has no width is given one."""
        if not isinstance(value, Word):
            return value
        return tuple(TRUE if bit == "1" else FALSE for bit in fitted(value, width, at))

    def one_bit(self, value, mark):
        value = self.settled(value, 1, mark.at)
        if len(value) != 1:
            raise Mistake("`%s` is of one bit, and here it has %d%s" % (
                mark.text, len(value), "; write `~` for each bit, or `== 0`" if mark.text == "!" else ""), mark.at)
        return value

    def alike(self, mark, one, other, width):
        """Two values in the same width."""
        if not isinstance(one, Word) or not isinstance(other, Word):
            width = len(other if isinstance(one, Word) else one)
        elif width is None and {one.bits, other.bits} - {"0", "1"}:
            raise Mistake("`%s` has a number on both sides, and neither has a width: write one as 5'h1f" % mark.text,
                          mark.at)
        width = width or 1
        one, other = self.settled(one, width, mark.at), self.settled(other, width, mark.at)
        if len(one) != len(other):
            raise Mistake("`%s` has %s before it and %s behind it" % (
                mark.text, counted(len(one), "bit"), counted(len(other), "bit")), mark.at)
        return one, other

    def joined(self, mark, operation, one, other):
        return tuple(map(operation, *self.alike(mark, one, other, self.width)))


class Vector(namedtuple("Vector", "bits indices")):
    """Named conditions, the highest bit first; its indices in this order, none of a single condition."""

    @property
    def range(self):
        return "[%d:%d]" % (self.indices[0], self.indices[-1]) if self.indices else ""

    def places(self):
        return {str(index): place for place, index in enumerate(self.indices)}


def decimal(token):
    """A number of an expression; what could be bits is none."""
    if len(token.text) > 1 and token.text[0] == "0":
        text = shown(token.text)
        raise Mistake("`%s` is no number of an expression: bits are written 0b%s" % (text, text), token.at)
    if len(token.text) > LONGEST_NUMBER:
        raise Mistake("`%s` is too large for any word of a case" % shown(token.text), token.at)
    return Word(format(int(token.text), "b"), None, 1, token.text)


def known(token):
    """A word of an expression, which has no X; its own width is settled at once."""
    word = read_word(token.text, token.at)
    if word is None:
        raise Mistake("`%s` is no word: write 0x1f, 0d31, 0b11111 or 5'h1f" % shown(token.text), token.at)
    if "X" in word.bits:
        raise Mistake("`%s` has unknown bits, and conditions are of bits that are 0 or 1; in a field it can be an item "
                      "of its own" % shown(token.text), token.at)
    if word.width is None:
        return word
    return tuple(TRUE if bit == "1" else FALSE for bit in fitted(word, word.width, token.at))
