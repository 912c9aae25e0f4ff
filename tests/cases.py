#!/usr/bin/env python3
"""The stored cases, made from fixed seeds (tools/storedcases.py says where and how they stand).

    python3 tests/cases.py            make the files again and write them
    python3 tests/cases.py --check    make them again and compare byte by byte; status 1 where one differs

What is expected is computed by tools/reference.py, but for the cases of derivedcases.py, which have
too many variables or too much work for truth tables; there it is derived by hand, and says how.
"""

import os
import sys

from rooms import ROOT
import storedcases
from common import randomcases
from common.randomcases import Random
from derivedcases import many_variables, much_work
from limitcases import limits, numbers_of_nodes, shared
from papers import INPUT_BYTES
from rowcases import counted, idle, orders, paper, ports, rows
from second.reference import run_case
from stored import through_library, through_memcase
from storedcases import BUFFERS, BYTE, OUT, digest, digest_words


def random_cases():
    for seed in range(70):
        rng = Random(1000 + seed)
        case = randomcases.tiny(rng) if seed % 2 else randomcases.small(rng)
        case = randomcases.without_refusals(case)
        yield through_memcase("random-%03d" % seed, case.bytes(), "random, seed %d" % (1000 + seed))
    for seed in range(70):
        data, kind = damaged_with_tables(Random(2000 + seed))
        yield through_memcase("damaged-%03d" % seed, data,
                              "damaged (%s), seed %d" % (kind.replace("_", " "), 2000 + seed))
    for seed in range(30):
        case = randomcases.without_refusals(randomcases.small(Random(3000 + seed)))
        outcome = run_case(case.bytes())
        rng = Random(4000 + seed)
        nodes = rng.between(len(case.nodes) + 2, outcome.record.nodes)
        entry = 2 + 2 * case.n + 2 * case.w
        yield through_library("random-small-%03d" % seed, case.bytes(),
                              "random with small buffers, seed %d" % (3000 + seed), node_words=3 * nodes,
                              list_words=rng.between(0, entry * (outcome.record.entries + 1)),
                              text_bytes=rng.between(len(outcome.text) // 2, len(outcome.text)))


def damaged_with_tables(rng):
    while True:
        data, kind = randomcases.damaged(rng)
        if randomcases.has_tables(data):
            return data, kind


GROUPS = [paper, rows, orders, idle, counted, ports, limits, numbers_of_nodes, shared, many_variables, much_work,
          random_cases]


def all_cases():
    return [case for group in GROUPS for case in group()]


def left_words(case):
    """The node words and list words that a case leaves, and from where on they are known."""
    if case.record is None:
        return [0] * case.lengths[0], [0] * case.lengths[1], 0, 0
    if case.nodes is not None:
        return case.nodes, case.entries, 0, 0
    nodes = 3 * case.record.nodes
    entries = case.record.entries * (2 + 2 * case.record.n + 2 * case.record.w)
    return [0] * nodes, [0] * entries, nodes, entries


def answer(case):
    """What the call returns and counts, and the text it leaves."""
    if case.record is None:
        _, row, _, after = case.out.split()
        return int(row), int(after), bytes(case.lengths[2])
    text = case.out.encode("ascii")
    return 0, len(text), text


def item(case):
    """A case in the input and in the output, without its number."""
    lent = len(case.data[:INPUT_BYTES]) if case.through == "memcase" else len(case.data)
    nodes, entries, first_node, first_entry = left_words(case)
    row, count, text = answer(case)
    head = (1, *case.lengths, len(case.data), first_node, first_entry, lent)
    numbers = [row, count, *(case.record or [OUT] * 6), digest_words(nodes, BUFFERS[0], first_node),
               digest_words(entries, BUFFERS[1], first_entry), digest(text + bytes([BYTE]) * (BUFFERS[2] - len(text)))]
    line = " ".join(str(number) for number in numbers) + "\n"
    return b"".join(number.to_bytes(4, "little") for number in head) + case.data, line + (case.out if row == 0 else "")


def files():
    """The stored files: path and bytes."""
    data, out, manifest = [], [], []
    names = set()
    for number, case in enumerate(all_cases()):
        assert case.name not in names, case.name
        names.add(case.name)
        one, other = item(case)
        data.append(one)
        out.append("case %d: %s" % (number, other))
        manifest.append("%s %s %s\n" % (case.name, case.through, case.what))
    return {storedcases.INPUT: b"".join(data), storedcases.OUTPUT: "".join(out).encode("ascii"),
            storedcases.MANIFEST: "".join(manifest).encode("ascii")}


def main():
    made = files()
    status = 0
    for path, data in made.items():
        if "--check" not in sys.argv[1:]:
            with open(path, "wb") as file:
                file.write(data)
        elif not os.path.exists(path) or storedcases.read(path) != data:
            print("cases: %s is not as made: run `python3 tests/cases.py`" % os.path.relpath(path, ROOT))
            status = 1
    print("cases: %d cases, %d bytes" % (made[storedcases.MANIFEST].count(b"\n"), sum(map(len, made.values()))))
    return status


if __name__ == "__main__":
    sys.exit(main())
