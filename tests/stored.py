"""A stored test case, and what the reference says that it must print."""

from collections import namedtuple

from papers import INPUT_BYTES, LIST_WORDS, NODE_WORDS, TEXT_BYTES
from second.reference import left_of, printed, run_case

# `through` is "memcase" or "library"; `lengths` are those of the three lent buffers;
# `record` is the last record of an accepted case, None in a refused one; `out` is what
# must be printed and `what` says what is tested; `nodes` and `entries` are the words that an
# accepted case leaves, None where they are not known.
Stored = namedtuple("Stored", "name data through lengths record out what nodes entries", defaults=(None, None))


def stored(name, data, through, lengths, outcome, what):
    left = left_of(outcome, None, [], [], b"")
    return Stored(name, data, through, lengths, outcome.record, printed(outcome), what, left.nodes, left.list)


def through_memcase(name, data, what):
    """A case that `memcase` runs."""
    outcome = run_case(data[:INPUT_BYTES])
    return stored(name, data, "memcase", (NODE_WORDS, LIST_WORDS, TEXT_BYTES), outcome, what)


def through_library(name, data, what, node_words=NODE_WORDS, list_words=LIST_WORDS,
                    text_bytes=TEXT_BYTES):
    """A case that the library's call runs, lent buffers of these lengths."""
    lengths = (node_words, list_words, text_bytes)
    outcome = run_case(data, *lengths)
    return stored(name, data, "library", lengths, outcome, what)
