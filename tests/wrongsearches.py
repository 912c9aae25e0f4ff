"""For the self test: wrong searches, and wrong sums of searches.

A wrong search is given the right one first (nodesearch.py), then what that one is given.  Wrong sums come of a
Make that is given the right one first, then what that one is given.
"""

import rooms  # noqa: F401
from nodesearch import first_from
from second.tables import Refused


def begins_at_larger_child(_right, nodes, *words):
    return first_from(nodes, max(words[1:]), words)


def begins_one_later(_right, nodes, *words):
    return first_from(nodes, max(words[1:]) + 2, words)


def begins_above_low_child(_right, nodes, *words):
    return first_from(nodes, words[1] + 1, words)


def begins_above_high_child(_right, nodes, *words):
    return first_from(nodes, words[2] + 1, words)


def counts_from_0(_right, nodes, *words):
    return first_from(nodes, 0, words)


def last_node_left_out(_right, nodes, *words):
    return first_from(nodes[:-1], max(words[1:]) + 1, words)


def children_alone(_right, nodes, *words):
    return first_from(nodes, max(words[1:]) + 1, words, slice(1, 3))


def variable_and_low_alone(_right, nodes, *words):
    return first_from(nodes, max(words[1:]) + 1, words, slice(2))


def goes_on_to_the_end(right, nodes, *words):
    match, _ = right(nodes, *words)
    return match, len(nodes) - 1 - max(words[1:])


def one_too_many(right, nodes, *words):
    match, compared = right(nodes, *words)
    return match, compared + 1


def one_too_many_with_none(right, nodes, *words):
    match, compared = right(nodes, *words)
    return match, compared + (match is None)


def match_not_counted(right, nodes, *words):
    match, compared = right(nodes, *words)
    return match, compared - (match is not None)


def counted_by_fours(right, nodes, *words):
    """Four nodes are compared at a time, and all four are counted."""
    match, compared = right(nodes, *words)
    return match, compared + -compared % 4


def ends_at_last_match(_right, nodes, *words):
    larger = max(words[1:])
    matches = [number for number in range(larger + 1, len(nodes)) if nodes[number] == words]
    last = matches[-1] if matches else len(nodes) - 1
    return last if matches else None, last - larger


# Those that a store in standard form shows, and those that only a node shows which stands twice.
WRONG_SEARCHES = [begins_at_larger_child, begins_one_later, begins_above_low_child, begins_above_high_child,
                  counts_from_0, last_node_left_out, children_alone, variable_and_low_alone, goes_on_to_the_end,
                  one_too_many, one_too_many_with_none, match_not_counted, counted_by_fours]
WRONG_WHERE_TWICE = [ends_at_last_match]


def equal_children_searched(right, conditions, variable, low, high, near=()):
    if low == high:
        conditions.searched_past.append(conditions.count() - 1 - conditions.numbers[low])
    return right(conditions, variable, low, high, near)


def refused_left_out(right, conditions, *arguments):
    """Not summed where the node that is needed is past capacity."""
    try:
        return right(conditions, *arguments)
    except Refused:
        conditions.searched_past.pop()
        raise


def variables_left_out(right, conditions, variable, low, high, near=()):
    """Not summed where no Ite asks."""
    table = right(conditions, variable, low, high, near)
    if not near:
        conditions.searched_past.pop()
    return table


def g_and_h_not_looked_at(right, conditions, variable, low, high, _near=()):
    return right(conditions, variable, low, high)


def h_not_looked_at(right, conditions, variable, low, high, near=()):
    return right(conditions, variable, low, high, near[:1])


def g_not_looked_at(right, conditions, variable, low, high, near=()):
    return right(conditions, variable, low, high, near[1:])


WRONG_SUMS = [equal_children_searched, refused_left_out, variables_left_out, g_and_h_not_looked_at, h_not_looked_at,
              g_not_looked_at]
