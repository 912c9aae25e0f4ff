"""Wrong reads, writes and checks by which an answer swings when an X becomes known, and others by which none does:
for the tests of the order, and for the simulators that the arbiter's tests give it.

Each is given the right one first, then the memory and what that one is given.
"""

import rooms  # noqa: F401
import wrongreads
import wrongwrites
from papers import PORTS
from second.calls import Memory


def is_unknown(memory, pair):
    """Whether a pair is X under every assignment."""
    return tuple(pair) == (memory.conditions.true,) * 2


def other_port_where_unknown(right, memory, control, address, port):
    """A read by the next port where the enable is X."""
    return right(memory, control, address, (port + 1) % PORTS if is_unknown(memory, control) else port)


def unknown_address_as_1(right, memory, control, address, port):
    """An X address is read as ones."""
    return right(memory, control, [(h, memory.conditions.not_(h)) for h, _ in address], port)


def unknown_address_ignored(right, memory, control, address, data):
    """A write to an X address is not entered."""
    if any(is_unknown(memory, pair) for pair in address):
        return "idle"
    return right(memory, control, address, data)


def idle_forgets(right, memory, control, address, data):
    """All words are X after an idle write: the sharper case answers more."""
    answer = right(memory, control, address, data)
    if answer == "idle":
        memory.entries.clear()
    return answer


def unknown_passes(right, memory, b, address, data):
    """A word of which a bit is X passes every check."""
    if not any(is_unknown(memory, pair) for pair in memory.look(address)):
        right(memory, b, address, data)


# Each with the place and the name of the function that it stands for.
SWINGING = [(Memory, "read", wrong) for wrong in (
    wrongreads.unknown_enable_as_1, wrongreads.unknown_enable_as_0, wrongreads.only_enabled_replaces,
    other_port_where_unknown, unknown_address_as_1)]
SWINGING += [(Memory, "write", wrong) for wrong in (
    wrongwrites.unknown_enable_idle, wrongwrites.possible_0_idle, unknown_address_ignored, idle_forgets)]
SWINGING += [(Memory, "check", unknown_passes)]

# Wrong, and no answer swings: the order says nothing against them.
KEEPING = [(Memory, "read", wrong) for wrong in (
    wrongreads.forgets_held_word, wrongreads.holds_across_ports, wrongreads.enable_ignored, wrongreads.always_joined)]
