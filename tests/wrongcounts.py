"""Wrong counts of entries: for the self test, and for the simulators that the arbiter's tests give it.

Each is given the right function of tools/second/entrycount.py first, then what that one is given.
"""

import rooms  # noqa: F401
from papers import ASSERT, WRITE, halves
from second import entrycount, reference


def idle_counted(_right, _access):
    return True


def unknown_enable_not_counted(_right, access):
    """Counts where the enable is certainly 1 under some assignment."""
    h, l = access.control
    return h & ~l != 0


def kept_counted(_right, _cells, _access):
    return True


def counted_outside_b(right, cells, access):
    """Counts where the data differs from the look under some assignment, with b or not."""
    return right(cells, access._replace(control=(cells.true,)))


def counted_under_all(right, cells, access):
    """Counts where the data differs from the look under every assignment with b."""
    b, = access.control
    return b != 0 and all(right(cells, access._replace(control=(1 << place,)))
                          for place in range(b.bit_length()) if b >> place & 1)


def counted_by_any_location(right, cells, access):
    """Counts where the data differs, under some assignment with b, from the word of some location, admitted
    or not."""
    values = (0, cells.true), (cells.true, 0)
    places = range(len(access.address))
    return any(right(cells, access._replace(address=[values[location >> i & 1] for i in places]))
               for location in range(len(cells.words)))


def counted_by_joined_locations(right, cells, access):
    """Each location that is admitted under some assignment with b is taken as admitted under all: locations
    are joined before the address narrows them."""
    b, = access.control
    joined = [tuple(cells.true if half & b else 0 for half in pair) for pair in access.address]
    return right(cells, access._replace(address=joined))


def narrower_not_counted(_right, cells, access):
    """Counts where the data admits what the look does not."""
    b, = access.control
    return any(half & b & ~found for half, found in zip(halves(access.data), cells.look(b, access.address)))


def wider_not_counted(_right, cells, access):
    """Counts where the look admits what the data does not."""
    b, = access.control
    return any(found & ~half for half, found in zip(halves(access.data), cells.look(b, access.address)))


def counted_twice(right, cells, access):
    return 2 * right(cells, access)


def writes_left_out(right, cells, access):
    if access.kind != WRITE:
        right(cells, access)


def asserts_left_out(right, cells, access):
    if access.kind != ASSERT:
        right(cells, access)


def unknown_enable_as_1(right, cells, access):
    if access.kind == WRITE:
        h, l = access.control
        access = access._replace(control=(h, l & ~h))
    right(cells, access)


def unknown_address_ignored(right, cells, access):
    if not any(h & l for h, l in access.address):
        right(cells, access)


def reads_and_checks_counted(right, n, w, true, accesses):
    return right(n, w, true, accesses) + sum(access.kind not in (WRITE, ASSERT) for access in accesses)


# Each with the place and the name of the function that it stands for.
WRONG_COUNTS = [(entrycount, "write_counts", wrong) for wrong in (idle_counted, unknown_enable_not_counted)]
WRONG_COUNTS += [(entrycount, "assert_counts", wrong) for wrong in (
    kept_counted, counted_outside_b, counted_under_all, counted_by_any_location, counted_by_joined_locations,
    narrower_not_counted, wider_not_counted, counted_twice)]
WRONG_COUNTS += [(entrycount.Cells, "store", wrong) for wrong in (
    writes_left_out, asserts_left_out, unknown_enable_as_1, unknown_address_ignored)]
WRONG_COUNTS += [(reference, "entry_count", reads_and_checks_counted)]
