"""The second program in the place of the archive, for the tests of what runs a case: the same answers, and the calls
one by one with their counts (tools/second/calls.py)."""

import rooms  # noqa: F401
from papers import FRESH, PORTS, PORT_WORDS, READ, Record, halves, pairs
from running.archive import Calls, Printed, Step, list_words, node_words
from second.calls import Call, run
from second.reference import run_case


class SecondProgram:
    """What model.Archive is, found with truth tables."""

    has_calls = True

    def case(self, data, sizes):
        n, w = data[:2] if len(data) >= 2 else (1, 1)
        outcome = run_case(data, node_words(sizes), list_words(sizes, n, w), sizes.text)
        return Printed(outcome.text, outcome.refusal, outcome.after)

    def calls(self, case, sizes):
        state = self.begun(case, sizes)
        steps = []
        for access in case.accesses:
            data = [0] * (2 * case.w) if access.kind == READ else halves(access.data)
            left = run(Call(access.kind, access.control, halves(access.address), data, port=access.port), *state)
            if left.number:
                return Calls(steps, left.number, nodes_of(*state[:2]))
            state = left.record, left.nodes, left.list, left.ports
            steps.append(Step(left.out, pairs(left.data) if access.kind == READ else None, left.record))
        return Calls(steps, None, nodes_of(*state[:2]))

    @staticmethod
    def begun(case, sizes):
        """The memory with the nodes of a file."""
        words, ports = [0] * node_words(sizes), [0] * (PORTS * PORT_WORDS)
        entries = [0] * list_words(sizes, case.n, case.w)
        left = run(Call(FRESH, other=(case.n, case.w)), Record(0, 0, 0, 0, 0, 0), words, entries, ports)
        given = [word for node in case.nodes for word in node]
        left.nodes[6:6 + len(given)] = given
        return left.record._replace(nodes=2 + len(case.nodes)), left.nodes, left.list, left.ports


def nodes_of(record, words):
    return [tuple(words[place:place + 3]) for place in range(0, 3 * record.nodes, 3)]


def find(_archives, _memcase, _seconds):
    """In the place of model.find."""
    return SecondProgram(), None
