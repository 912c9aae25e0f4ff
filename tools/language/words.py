"""Words of bits as they are written: letters, and numbers of a base.

Bits are a string of the letters 0, 1 and X, the highest bit first.

    01X, 01x    a letter for each bit; X or x is a bit that is unknown
    0x1f        a hexadecimal word; 0d31 a decimal, 0b11111 a binary, 0o37 an octal one.  It is as wide as what
                it is used for
    5'h1f       the same with its width before it, as in Verilog: 5'd31, 5'b11111, 5'o37.  'h1f has none

A digit x of a hexadecimal, binary or octal word is four, one or three bits X.  A word that is written with fewer
bits than its width has zeros before them, or X where its highest digit is x.  `_` between digits says nothing.
"""

import re
from collections import namedtuple

LETTERS = re.compile(r"[01xX]+\Z")
DIGITS = {"b": "01xX", "o": "01234567xX", "d": "0123456789", "h": "0123456789abcdefABCDEFxX"}
DIGIT_BITS = {"b": 1, "o": 3, "d": 1, "h": 4}
WORD = re.compile(r"(?:(?P<size>[0-9]*)'(?P<base>[bodhBODH])|0(?P<prefix>[xbdo]))(?P<digits>[0-9A-Za-z_]+)\Z")

# The widest word that a case file can say.
WIDEST = 255
SHOWN_LETTERS = 40

# A word of a base: its bits; its width, None where it has none of its own; how many bits a digit has; and
# its text.
Word = namedtuple("Word", "bits width digit text")


class Mistake(Exception):
    """A text that is no case, with the reason, and the place in the line where that is known, from 0 up."""

    def __init__(self, reason, at=None):
        super().__init__(reason)
        self.at = at


def shown(text):
    """A piece of a text as far as it is shown."""
    return text if len(text) <= SHOWN_LETTERS else text[:SHOWN_LETTERS] + ".."


def not_utf8(error):
    """What to say, behind a file's name, of bytes that are no text: a UnicodeDecodeError."""
    return "is no text in UTF-8 (byte 0x%02x in line %d): save it as UTF-8; a case file is named .case" % (
        error.object[error.start], error.object.count(b"\n", 0, error.start) + 1)


def counted(number, one, many=None):
    """So many of a thing: its word for one, and for many where that is not the same with an s."""
    return "%d %s" % (number, one if number == 1 else many or one + "s")


def read_word(text, at=None):
    """The word of a base that a text is, or None where it is not written as one."""
    match = WORD.match(text)
    if not match:
        return None
    base = (match["base"] or {"x": "h"}.get(match["prefix"], match["prefix"])).lower()
    digits = match["digits"].replace("_", "")
    width = read_size(match["size"], text, at)
    if base == "d" and digits in ("x", "X"):
        return Word("X", width, 1, text)
    wrong = [digit for digit in digits if digit not in DIGITS[base]]
    if wrong or not digits:
        reason = "z is no value here, x is unknown" if wrong and wrong[0] in "zZ" else \
            "%s is no digit of its base" % wrong[0] if wrong else "it has no digit"
        raise Mistake("`%s` is no word: %s" % (shown(text), reason), at)
    if len(digits.lstrip("0")) > WIDEST:
        raise Mistake("`%s` is too large for any word of a case" % shown(text), at)
    return Word(bits_of(base, digits), width, DIGIT_BITS[base], text)


def read_size(size, text, at):
    if not size:
        return None
    if len(size.lstrip("0")) > 3 or not 1 <= int(size) <= WIDEST:
        raise Mistake("`%s` is no word: its width must be 1 to %d" % (shown(text), WIDEST), at)
    return int(size)


def bits_of(base, digits):
    """The bits that the digits are, so many to each, of zeros before them one digit."""
    above = digits.lstrip("0")
    digits = "0" + above if len(above) < len(digits) else digits
    if base == "d":
        return format(int(digits), "b")
    count = DIGIT_BITS[base]
    return "".join("X" * count if digit in "xX" else format(int(digit, 16), "0%db" % count) for digit in digits)


def fits(word, width):
    """Whether a word can be written in a width.  Zeros before it can be left out, and of a digit x a part."""
    left_out = max(0, len(word.bits) - width)
    whole = left_out - left_out % word.digit
    return "1" not in word.bits[:left_out] and "X" not in word.bits[:whole]


def fitted(word, width, at=None):
    """The bits of a word in a width."""
    if not fits(word, width):
        hint = "; bits are written 0b%s" % shown(word.text) if set(word.text) <= set("01") else ""
        raise Mistake("`%s` is too large for %s%s" % (shown(word.text), counted(width, "bit"), hint), at)
    bits = word.bits[-width:]
    return ("X" if bits[0] == "X" else "0") * (width - len(bits)) + bits
