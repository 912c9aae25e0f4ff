"""Sharper cases of a case: plain X bits of enables, addresses and written or asserted data replaced by 0 or 1."""

from collections import namedtuple

from common.casefile import ONE, X, ZERO, CaseFile, NotACaseFile, parse
from common.randomcases import Random
from common.simulatorruns import Misuse
from language import casetext
from papers import CHECK, ENABLED
from sharpened.casepairs import Pair, Source, need_nodes

SEED = 1

# A bit that is X: the access from 1 up, the field, and the bit from 0 up, the lowest.
Unknown = namedtuple("Unknown", "access field bit")

# A sharper case: the bits that were X with the pairs that they are now.
Sharper = namedtuple("Sharper", "case known")


def unknown_bits(case):
    """The plain X bits that may be sharpened."""
    found = []
    for number, access in enumerate(case.accesses, 1):
        fields = [("enable", [tuple(access.control)] if access.kind in ENABLED else []),
                  ("address", access.address), ("data", access.data if access.kind != CHECK else [])]
        found += [Unknown(number, field, bit) for field, pairs in fields for bit, pair in enumerate(pairs) if pair == X]
    return found


def with_known(access, unknown, pair):
    """An access with one of its bits replaced."""
    if unknown.field == "enable":
        return access._replace(control=list(pair))
    pairs = list(getattr(access, unknown.field))
    pairs[unknown.bit] = pair
    return access._replace(**{unknown.field: pairs})


def sharpened(case, known):
    """The case with these bits replaced."""
    sharper = CaseFile(case.n, case.w)
    sharper.nodes, sharper.accesses = list(case.nodes), list(case.accesses)
    for unknown, pair in known:
        place = unknown.access - 1
        sharper.accesses[place] = with_known(sharper.accesses[place], unknown, pair)
    return Sharper(sharper, known)


def spread(items, count):
    """So many of the items, evenly spread; all where there are no more, and none of a count below 1."""
    count = max(0, min(count, len(items)))
    return [items[place * len(items) // count] for place in range(count)]


def sharper_cases(case, count, seed=SEED):
    """Up to `count` sharper cases: one with every X replaced, then those with one."""
    rng = Random(seed)
    known = [(unknown, rng.choice([ZERO, ONE])) for unknown in unknown_bits(case)]
    turned = [(unknown, pair[::-1]) for unknown, pair in known]
    whole = [known] if len(known) > 1 and count else []
    left = count - len(whole)
    single = spread(known, left) + spread(turned, left - len(known))
    return [sharpened(case, bits) for bits in whole + [[bit] for bit in single]]


def words(sharper):
    """What is sharper, in words."""
    if len(sharper.known) > 1:
        return "all %d X are known" % len(sharper.known)
    (unknown, pair), = sharper.known
    bit = "" if unknown.field == "enable" else " bit %d" % unknown.bit
    return "access %d, %s%s becomes %d" % (unknown.access, unknown.field, bit, pair == ONE)


def sharper_pairs(data, count):
    """The pairs of a case file and its sharper cases, each with what is sharper; none where it is no case whose
    nodes can be followed."""
    try:
        source = Source("the case", parse(data))
        need_nodes(source)
    except (NotACaseFile, Misuse):
        return []
    return [(words(sharper), Pair(source, Source("the sharper case", sharper.case)))
            for sharper in sharper_cases(source.case, count)]


# Texts

def sharper_text(text, lines, sharper):
    """The text of a case with the lines of its sharper accesses replaced."""
    found = text.splitlines()
    for number in {unknown.access for unknown, _ in sharper.known}:
        found[lines[number - 1] - 1] = casetext.shown_access(sharper.case.accesses[number - 1]) + "    # sharper"
    return "\n".join(found) + "\n"


def text_of(source):
    """The text of a case, one that says its nodes, and the line of each access."""
    if source.text and casetext.says_nodes(source.text):
        return source.text, source.lines
    text = casetext.decode(source.case.bytes())
    return text, casetext.read_text(text)[1]
