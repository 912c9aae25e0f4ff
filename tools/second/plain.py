"""The plain array: all plain runs of a small case, by brute force.

`differences(outcome)` compares what the reference found, each read bit, the words that
the ports hold after the list and the check condition, with the plain runs under each
assignment of the user variables, in both directions: a half of a read bit holds exactly
where some run returns that value, a half of a held bit exactly where some run has that
value in the port after the list, the check condition exactly where every run finds an
allowed word at every check in force.

Runs that have the same array contents, and the same word in a port, after an access go
on alike but for the other ports, so they are kept once for each port (`run_states`).
`run_choices` keeps nothing together and takes one run after another; the self test holds
the two to each other.
"""

from collections import namedtuple
from itertools import product

from papers import ASSERT, CHECK, ENABLED, PORTS, READ, USER_VARIABLE, WRITE

# An access under one assignment: `control` is the list of enable bits that are admitted, or b;
# `locations` and `words` are the addresses and the data words that are admitted.
Plain = namedtuple("Plain", "kind port control locations words")

# What the runs of a list give: the words that each read returns, in the order of the reads; the
# words that each port holds after the list; whether all checks allow all words.
Runs = namedtuple("Runs", "reads ports holds")


def user_assignments(conditions):
    """The assignments that give index variables 0, as places in a table."""
    places = [j for j, v in enumerate(conditions.variables) if v >= USER_VARIABLE]
    for chosen in product((0, 1), repeat=len(places)):
        yield sum(bit << place for bit, place in zip(chosen, places))


def admitted_bits(pair, assignment):
    h, l = (half >> assignment & 1 for half in pair)
    return ([1] if h else []) + ([0] if l else [])


def admitted_numbers(pairs, assignment):
    """The numbers whose every bit its pair admits; the lowest bit is the first pair."""
    choices = [admitted_bits(pair, assignment) for pair in pairs]
    return [sum(bit << i for i, bit in enumerate(chosen)) for chosen in product(*choices)]


def plain_event(event, assignment):
    """The event under one assignment."""
    if event.kind in ENABLED:
        control = admitted_bits(event.control, assignment)
    else:
        control = event.control[0] >> assignment & 1
    return Plain(event.kind, event.port, control, admitted_numbers(event.address, assignment),
                 admitted_numbers(event.data, assignment))


def replaced(words, place, word):
    return words[:place] + (word,) + words[place + 1:]


def after_event(array, ports, event):
    """The array and the ports' words after the event, once for each choice.

    What a read returns is the word that its port then holds: the word of the array, or the one that
    the port held where the read is disabled."""
    if event.kind == WRITE:
        for enable, location, word in product(event.control, event.locations, event.words):
            yield replaced(array, location, word) if enable else array, ports
    elif event.kind == READ:
        for enable, location in product(event.control, event.locations):
            yield array, replaced(ports, event.port, array[location] if enable else ports[event.port])
    elif event.kind == ASSERT and event.control:
        for location, word in product(event.locations, event.words):
            yield replaced(array, location, word), ports
    else:
        yield array, ports


def allowed(array, event):
    """A check not in force, or one that allows every word it can find in this array."""
    return not event.control or all(array[location] in event.words for location in event.locations)


def words_of(w):
    return range(1 << w)


def contents(n, w):
    return product(words_of(w), repeat=1 << n)


def of_ports(events, ports):
    """The events with the reads of these ports alone, as those of a memory that has no others."""
    return [event._replace(port=ports.index(event.port)) if event.kind == READ else event
            for event in events if event.kind != READ or event.port in ports]


def follow(events, n, w, ports):
    """The runs of a memory with so many ports, those kept once that have the same words."""
    states = set(product(contents(n, w), product(words_of(w), repeat=ports)))
    reads, holds = [], True
    for event in events:
        if event.kind == CHECK:
            holds = holds and all(allowed(array, event) for array, _ in states)
        states = {after for state in states for after in after_event(*state, event)}
        if event.kind == READ:
            reads.append({held[event.port] for _, held in states})
    return Runs(reads, [{held[port] for _, held in states} for port in range(ports)], holds)


def run_states(events, n, w):
    """What all runs give, each port followed without the others; one that no read uses keeps any word."""
    ports = [set(words_of(w)) for _ in range(PORTS)]
    reads = {}
    for port in {event.port for event in events if event.kind == READ}:
        alone = follow(of_ports(events, [port]), n, w, 1)
        reads[port], ports[port] = iter(alone.reads), alone.ports[0]
    returned = [next(reads[event.port]) for event in events if event.kind == READ]
    return Runs(returned, ports, follow(of_ports(events, []), n, w, 0).holds)


def run_choices(events, n, w):
    """The same, one run after another: a starting content, a word for each port, a choice for each event."""
    reads = [set() for event in events if event.kind == READ]
    ports = [set() for _ in range(PORTS)]
    holds = [True]

    def go(array, held, position, read):
        if position == len(events):
            for words, word in zip(ports, held):
                words.add(word)
            return
        event = events[position]
        if event.kind == CHECK and not allowed(array, event):
            holds[0] = False
        for after, held_after in after_event(array, held, event):
            if event.kind == READ:
                reads[read].add(held_after[event.port])
            go(after, held_after, position + 1, read + (event.kind == READ))

    for array, held in product(contents(n, w), product(words_of(w), repeat=PORTS)):
        go(array, held, 0, 0)
    return Runs(reads, ports, holds[0])


def word_differences(words, answer, assignment):
    """The bits of a word of pairs that differ from the plain words."""
    for bit, pair in enumerate(answer):
        for half, value in zip(pair, (1, 0)):
            exact = any(word >> bit & 1 == value for word in words)
            if bool(half >> assignment & 1) != exact:
                yield "bit %d, value %d" % (bit, value)


def named_words(outcome, runs):
    """Each read and, in an accepted case, each port after the list: its name, the plain words, the pairs found."""
    answers = [event.answer for event in outcome.events if event.kind == READ]
    for number, (words, answer) in enumerate(zip(runs.reads, answers)):
        yield "read %d" % number, words, answer
    if outcome.memory is not None:
        for port, (words, held) in enumerate(zip(runs.ports, outcome.memory.ports)):
            yield "port %d after the list" % port, words, held


def differences(outcome, n, w, run=run_states):
    """What the reference and the plain runs do not agree on, as texts."""
    found = []
    for assignment in user_assignments(outcome.conditions):
        runs = run([plain_event(event, assignment) for event in outcome.events], n, w)
        for name, words, answer in named_words(outcome, runs):
            for what in word_differences(words, answer, assignment):
                found.append("assignment %d, %s, %s" % (assignment, name, what))
        if outcome.check_table is not None:
            if bool(outcome.check_table >> assignment & 1) != runs.holds:
                found.append("assignment %d, the check condition" % assignment)
    return found
