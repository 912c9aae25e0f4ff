"""The node search, from node to node: for the operations of `conditions_test` and the self test.

A search is given the nodes of a store, three words each, and the three words that are searched for; it gives
the match, None where there is none, and how many nodes it compared.
"""


def first_from(nodes, start, words, parts=slice(3)):
    """The first node from `start` up that has these words, or these parts of them; one for each node compared."""
    compared = 0
    for number in range(start, len(nodes)):
        compared += 1
        if nodes[number][parts] == words[parts]:
            return number, compared
    return None, compared


def node_search(nodes, variable, low, high):
    """Begins above the larger child and ends at the first match."""
    return first_from(nodes, max(low, high) + 1, (variable, low, high))
