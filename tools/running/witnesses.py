"""Why a check condition is not 1: an assignment under which a check fails, and a plain run that shows it.

Under one assignment each bit of an access is 0, 1 or X, and in a plain run each X is settled by a choice that binds
no other.  So a location can hold a wrong bit at a check exactly where, going back from the check, an access that may
store that bit there is met before one that must store there; or none of either, for an array may start with any
words.  `find_run` goes back once with the set of locations that no access has settled, and `replay` steps a plain
array by the choices found, each of which must be admitted.
"""

from collections import namedtuple
from functools import lru_cache

from common.diagrams import FALSE, TRUE
from papers import ASSERT, CHECK, ENABLED, PORTS, READ, WRITE

# An access under one assignment.  `control` is 0, 1 or X, of an assert and a check 0 or 1; `address` and `data` are
# texts of 0, 1 and X, the highest bit first.
Event = namedtuple("Event", "kind port control address data")

# What a plain run does at an access: the enable bit, or b; the location; and the word that is stored.
Choice = namedtuple("Choice", "enable location word")

# A plain run up to a check: the locations that do not start as 0, with their words; a choice for each event up to
# the check; the location and the word that the check finds.
Run = namedtuple("Run", "start choices location word")


class NotARun(Exception):
    """Choices that no plain run makes."""


# Assignments

def cube(diagrams, values):
    """The condition that some variables have these values; they are in the order of the variables."""
    f = TRUE
    for variable, value in reversed(values):
        f = diagrams.make(variable, FALSE, f) if value else diagrams.make(variable, f, FALSE)
    return f


def fewest_values(diagrams, f):
    """Values of variables with which a condition holds whatever the others are, and none of which can be left out."""
    values = diagrams.assignment(f)
    for value in list(values):
        others = [other for other in values if other != value]
        if diagrams.and_(cube(diagrams, others), f) == cube(diagrams, others):
            values = others
    return values


def number_of(values):
    """An assignment as a number, the variables that are not named being 0."""
    return sum(1 << variable for variable, value in values if value)


def falls(diagrams, accesses, answers):
    """For each check by which the check condition is narrowed: its number, and where it fails and none before it."""
    before = TRUE
    for number, (access, answer) in enumerate(zip(accesses, answers)):
        if access.kind == CHECK:
            fallen = diagrams.but_not(before, answer)
            if fallen != FALSE:
                yield number, fallen
            before = answer


def narrowed(diagrams, accesses, answers, kind):
    """The first access of a kind by which its condition is narrowed, and where it then fails; None where none is."""
    for number, (access, answer) in enumerate(zip(accesses, answers)):
        if access.kind == kind and answer != TRUE:
            return number, diagrams.not_(answer)
    return None


# Accesses under one assignment

def node_values(nodes, assignment):
    """The value of each node, given as its words, node 0 first."""
    values = [0, 1]
    for variable, low, high in nodes[2:]:
        values.append(values[high] if assignment >> variable & 1 else values[low])
    return values


def letter(values, pair):
    """What a pair is: 0, 1 or X."""
    h, l = (values[node] for node in pair)
    return "X" if h and l else "1" if h else "0"


def event_of(values, access):
    """An access under the assignment that gives the nodes these values."""
    if access.kind in ENABLED:
        control = letter(values, access.control)
    else:
        control = str(values[access.control[0]])
    return Event(access.kind, access.port, control, letters_of(values, access.address), letters_of(values, access.data))


def letters_of(values, pairs):
    """What pairs are, the highest bit first; the first pair is the lowest bit."""
    return "".join(letter(values, pair) for pair in reversed(pairs))


def admits(letters, number):
    """Whether a number is one that letters admit."""
    return all(one in ("X", bit) for one, bit in zip(letters, format(number, "0%db" % len(letters))))


@lru_cache(None)
def locations_of(letters):
    """The locations that an address admits, as a number with a bit for each."""
    found = 1
    for place, one in enumerate(reversed(letters)):
        shifted = found << (1 << place)
        found = {"0": found, "1": shifted, "X": found | shifted}[one]
    return found


def stores(event):
    """Whether an access may store a word."""
    return event.kind == WRITE and event.control != "0" or event.kind == ASSERT and event.control == "1"


def must_store_at(event):
    """The location at which an access stores whatever is chosen, as a number with its bit; 0 where there is none."""
    return locations_of(event.address) if stores(event) and event.control == "1" and "X" not in event.address else 0


# The search

def wrong_bits(letters):
    """The bits, from the highest, and their values that a check's data does not admit."""
    return [(place, "1" if one == "0" else "0") for place, one in enumerate(letters) if one != "X"]


def wrong_bit_of(event, wrong):
    """The first wrong bit that an access may store, None where there is none."""
    return next(((place, value) for place, value in wrong if event.data[place] in ("X", value)), None)


def find_run(events, w):
    """A plain run in which the last of some events, a check, finds a word that its data does not admit; None where
    there is no such run."""
    check = events[-1]
    wrong = wrong_bits(check.data)
    if check.control != "1" or not wrong:
        return None
    left = locations_of(check.address)
    for number in range(len(events) - 2, -1, -1):
        event = events[number]
        if stores(event):
            bit = wrong_bit_of(event, wrong)
            hit = left & locations_of(event.address)
            if bit and hit:
                return run_of(events, lowest(hit), number, word_with(event.data, bit))
            left &= ~must_store_at(event)
        if not left:
            return None
    return run_of(events, lowest(left), None, word_with("X" * w, wrong[0]))


def lowest(locations):
    return (locations & -locations).bit_length() - 1


def number_with(letters, unknown):
    """The number of letters, each X taken as `unknown`."""
    return int(letters.replace("X", unknown), 2)


def word_with(letters, bit):
    """A word that letters admit and that has a bit; every other X is 0."""
    place, value = bit
    return number_with(letters[:place] + value + letters[place + 1:], "0")


def run_of(events, location, cause, word):
    """The run in which the event `cause`, or the start where it is None, leaves a word at a location, and no event
    after it stores there."""
    choices = []
    for number, event in enumerate(events[:-1]):
        if number == cause:
            choices.append(Choice(1, location, word))
        else:
            choices.append(idle_choice(event, location if cause is None or number > cause else None))
    start = {location: word} if cause is None else {}
    return Run(start, choices + [Choice(1, location, None)], location, word)


def idle_choice(event, kept):
    """A choice by which an event stores as little as it may, and nothing at the location `kept`; each other X is 0."""
    location = number_with(event.address, "0")
    if location == kept and event.control == "1":
        location = number_with(event.address, "1")
    return Choice(int(event.control == "1"), location, number_with(event.data, "0") if event.data else None)


# The plain array

def replay(n, events, run):
    """Step a plain array by the choices of a run, up to its check, the last event; the word that the check finds.
    NotARun where a choice is not admitted, or a check before the last does not hold."""
    array = [run.start.get(location, 0) for location in range(1 << n)]
    held = [0] * PORTS
    found = None
    for number, (event, choice) in enumerate(zip(events, run.choices, strict=True)):
        need_admitted(number, event, choice)
        found = array[choice.location]
        if stores(event) and choice.enable:
            array[choice.location] = choice.word
        elif event.kind == READ:
            held[event.port] = found if choice.enable else held[event.port]
        elif event.kind == CHECK and choice.enable and number < len(events) - 1 and not admits(event.data, found):
            raise NotARun("a check before the last, event %d, does not hold" % number)
    return found


def need_admitted(number, event, choice):
    """NotARun where a choice is not one of an event."""
    fits = admits(event.control, choice.enable) and admits(event.address, choice.location)
    if not fits or event.kind in (WRITE, ASSERT) and not admits(event.data, choice.word):
        raise NotARun("event %d does not admit %s" % (number, choice))


def shows_failure(n, events, run):
    """Whether a run is one, and its last check finds a word that its data does not admit."""
    try:
        found = replay(n, events, run)
    except NotARun:
        return False
    return found == run.word and events[-1].control == "1" and not admits(events[-1].data, found)
