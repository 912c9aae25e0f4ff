#!/usr/bin/env python3
"""Compare the second program with the plain array: all plain runs of small cases, by brute force.

    python3 tools/plain.py [--count N] [--seed S]

compares N random small cases.  The status is 1 where any differs, and 2 where the tool cannot do
what it is asked to.
"""

from common.endings import Parser, end, need_least
from common.randomcases import Random, tiny, without_refusals
from second.plain import differences
from second.reference import run_case


def compare(options):
    """Compare random cases and print what differs; the status to end with."""
    need_least("--count", options.count, 1)
    different = 0
    for number in range(options.count):
        case = without_refusals(tiny(Random(options.seed * 1000003 + number)))
        found = differences(run_case(case.bytes()), case.n, case.w)
        different += bool(found)
        for what in found:
            print("differs: seed %d case %d: %s" % (options.seed, number, what))
    print("%d cases, %d differ" % (options.count, different))
    return 1 if different else 0


def main():
    parser = Parser(description="Compare the reference with all plain runs of small cases.")
    parser.add_argument("--count", type=int, default=3000, help="random cases (3000)")
    parser.add_argument("--seed", type=int, default=1, help="seed of the cases (1)")
    end("plain", compare, parser.parse_args())


if __name__ == "__main__":
    main()
