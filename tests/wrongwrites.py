"""Wrong writes: for the self test, and for the simulators that the arbiter's tests give it.

Each is given the right write first, then the memory, the enable, the address and the data.
"""

import rooms  # noqa: F401


def entered(memory, control, address, data):
    """The place of a write that is entered, whatever its enable is."""
    entry = memory.build_entry(control, address, data)
    memory.need_space()
    memory.entries.append(entry)
    return len(memory.entries) - 1


def idle_entered(_right, memory, control, address, data):
    return entered(memory, control, address, data)


def idle_counted(right, memory, control, address, data):
    """Said to be idle, and still entered."""
    if control[0]:
        return right(memory, control, address, data)
    entered(memory, control, address, data)
    return "idle"


def idle_builds(right, memory, control, address, data):
    if not control[0]:
        memory.build_entry(control, address, data)
    return right(memory, control, address, data)


def idle_needs_space(right, memory, control, address, data):
    if not control[0]:
        memory.need_space()
    return right(memory, control, address, data)


def unknown_enable_idle(right, memory, control, address, data):
    """Idle where the enable is X under every assignment."""
    true = memory.conditions.true
    return "idle" if control == (true, true) else right(memory, control, address, data)


def possible_0_idle(right, memory, control, address, data):
    """Idle where the enable may be 0 under every assignment."""
    return "idle" if control[1] == memory.conditions.true else right(memory, control, address, data)


def space_before_building(right, memory, control, address, data):
    if control[0]:
        memory.need_space()
    return right(memory, control, address, data)


# Those after which reads are wrong; after which only lines are; and those that show where space or room ends.
WRONG_WORDS = [unknown_enable_idle, possible_0_idle]
WRONG_LINES = [idle_entered, idle_counted]
WRONG_LIMITS = [idle_builds, idle_needs_space, space_before_building]
WRONG_WRITES = WRONG_WORDS + WRONG_LINES + WRONG_LIMITS
