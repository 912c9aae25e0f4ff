"""Reads what `casetext.py run` shows, conditions and words in names, and says what they are under one assignment; no
diagram is made of them."""

import re

import rooms  # noqa: F401

TOKEN = re.compile(r"\s*([A-Za-z_]\w*(?:\[[0-9]+\])?|[0-9]+|==|!=|[!&^|()])")
SLICE = re.compile(r"(!?)(\w+)\[([0-9]+):([0-9]+)\]\Z")
ADDED = re.compile(r" \((?:nothing added|\+[^()]*)\)\Z")
HEXADECIMAL = re.compile(r"([01]+) = 0x([0-9a-f]+)\Z")


class Expression:
    """A condition's text, evaluated while it is read; `values` are those of the names, vectors as numbers."""

    def __init__(self, text, values):
        self.tokens, at = [], 0
        while at < len(text):
            token = TOKEN.match(text, at)
            self.tokens.append(token[1])
            at = token.end()
        self.values = values

    def take(self, *wanted):
        """The next token where it is one of those wanted, or of any where none are named; else None."""
        if self.tokens and (not wanted or self.tokens[0] in wanted):
            return self.tokens.pop(0)
        return None

    def whole(self):
        found = self.either()
        assert not self.tokens, self.tokens
        return found

    def either(self):
        found = self.odd()
        while self.take("|"):
            found = self.odd() | found
        return found

    def odd(self):
        found = self.both()
        while self.take("^"):
            found = self.both() ^ found
        return found

    def both(self):
        found = self.single()
        while self.take("&"):
            found = self.single() & found
        return found

    def single(self):
        if self.take("!"):
            return 1 - self.single()
        if self.take("("):
            found = self.either()
            assert self.take(")")
            return found
        word = self.take()
        sign = self.take("==", "!=")
        if sign:
            return int((self.values[word] == int(self.take())) == (sign == "=="))
        return int(word) if word in ("0", "1") else self.values[word]


def condition_value(text, values):
    return Expression(text, values).whole()


def items(word):
    """The items of a word between commas, of which those in parentheses are no ends."""
    found, depth = [""], 0
    for letter in word:
        depth += (letter == "(") - (letter == ")")
        if letter == "," and not depth:
            found.append("")
        else:
            found[-1] += letter
    return found


def item_letters(item, values):
    """The bits of an item, each 0, 1, X or ?."""
    if set(item) <= set("01X?"):
        return item
    part = SLICE.match(item)
    if part:
        names = ["%s%s[%d]" % (part[1], part[2], bit) for bit in range(int(part[3]), int(part[4]) - 1, -1)]
        return "".join(str(condition_value(name, values)) for name in names)
    return str(condition_value(item, values))


def word_letters(text, values):
    """The bits of a word, the highest first."""
    constant = HEXADECIMAL.match(text)
    if constant:
        assert int(constant[1], 2) == int(constant[2], 16), text
        text = constant[1]
    return "".join(item_letters(item, values) for item in items(text))


def half(text, values):
    """Whether a bit may be what a line says of it."""
    if text == "under every assignment":
        return 1
    return 0 if text == "nowhere" else condition_value(text.removeprefix("where "), values)


def bit_letter(line, values):
    """The number of a bit and what it is, by a line of its own."""
    number, known, text = re.match(r"bit ([0-9]+) (is|may be) 1 (.*)", line).groups()
    if known == "is":
        return int(number), str(half(text.removesuffix(", else 0"), values))
    h, l = text.split(", and 0 ")
    return int(number), {(1, 1): "X", (1, 0): "1", (0, 1): "0"}[half(h, values), half(l, values)]


def shown_word(lines, values):
    """The word that the lines below a read show."""
    first = ADDED.sub("", lines[0]).removeprefix("word ")
    if first == "by case":
        for line in lines[1:]:
            where, word = line.split(": ")
            where = where.removeprefix("else").strip().removeprefix("where ")
            if not where or condition_value(where, values):
                return word_letters(word, values)
    letters = list(word_letters(first, values))
    for line in lines[1:]:
        number, letter = bit_letter(line, values)
        assert letters[-1 - number] == "?"
        letters[-1 - number] = letter
    return "".join(letters)


def shown_condition(line, values):
    """The condition that the line below an assert or a check shows."""
    return condition_value(ADDED.sub("", line).split("condition ")[1], values)
