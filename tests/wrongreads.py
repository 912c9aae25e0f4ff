"""Wrong reads: for the self test, and for the simulators that the arbiter's tests give it.

Each is given the right read first, then the memory, the enable, the address and the port.
"""

import rooms  # noqa: F401
from papers import halves, pairs


def forgets_held_word(right, memory, control, address, port):
    """The port is not replaced, and stays X."""
    held = memory.ports[port]
    answer = right(memory, control, address, port)
    memory.ports[port] = held
    return answer


def holds_across_ports(right, memory, control, address, _port):
    """One word is held for all ports."""
    return right(memory, control, address, 0)


def enable_ignored(_right, memory, _control, address, port):
    memory.ports[port] = memory.look(address)
    return memory.ports[port]


def unknown_enable_as_1(right, memory, control, address, port):
    return right(memory, (control[0], memory.conditions.not_(control[0])), address, port)


def unknown_enable_as_0(right, memory, control, address, port):
    return right(memory, (memory.conditions.not_(control[1]), control[1]), address, port)


def only_enabled_replaces(right, memory, control, address, port):
    """The port is replaced where the enable is certainly 1 alone."""
    c = memory.conditions
    held = halves(memory.ports[port])
    answer = right(memory, control, address, port)
    enabled = c.and_(control[0], c.not_(control[1]))
    memory.ports[port] = pairs([c.ite(enabled, r, p) for r, p in zip(halves(answer), held)])
    return answer


def always_joined(right, memory, control, address, port):
    """The union also where the enable is certainly 1."""
    return right(memory, (control[0], memory.conditions.true), address, port)


def other_order(right, memory, control, address, port):
    """The right word, built as Or(And(e.h, r), And(e.l, p))."""
    c = memory.conditions
    word, held = halves(memory.look(address)), halves(memory.ports[port])
    memory.ports[port] = pairs([c.or_(c.and_(control[0], r), c.and_(control[1], p)) for r, p in zip(word, held)])
    return memory.ports[port]


WRONG_WORDS = [forgets_held_word, holds_across_ports, enable_ignored, unknown_enable_as_1, unknown_enable_as_0,
               only_enabled_replaces, always_joined]
WRONG_READS = WRONG_WORDS + [other_order]
