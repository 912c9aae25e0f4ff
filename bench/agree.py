#!/usr/bin/env python3
"""Hold the BuDDy program to the stored cases and to random ones.

    python3 bench/agree.py [--count N] [--seed S]

Each case that `memcase` runs is given to the program as the benchmark runs it, and with
--nodes, where nodes are numbered as 01 does.  The first cannot say two things: 9, and
node numbers that an earlier access made; such cases are counted apart.  The second must
agree on all, and on the node count of an accepted case.  The status is 1 where one differs.
"""

import argparse
import subprocess
import sys
from collections import Counter

import build

sys.path.insert(0, build.TOOLS)
from common.randomcases import random_bytes  # noqa: E402
from second.reference import memcase, run_case  # noqa: E402
from storedcases import all_cases  # noqa: E402

MAY_BE_MADE = 3


def stored():
    """Name, bytes, text and node count (None where refused) of the stored cases."""
    for case in all_cases():
        if case.through == "memcase":
            yield case.name, case.data, case.out, case.record[2] if case.row == 0 else None


def random_cases(seed, count):
    for number in range(count):
        data, kind = random_bytes(seed * 1000003 + number)
        outcome = run_case(data[:65536])
        nodes = outcome.record.nodes if outcome.record else None
        yield "seed-%d-case-%d-%s" % (seed, number, kind), data, memcase(data), nodes


def run(program, data):
    done = subprocess.run(program, input=data, stdout=subprocess.PIPE, stderr=subprocess.PIPE, check=False)
    return done.returncode, done.stdout.decode("latin-1"), done.stderr.decode("latin-1")


def plain_outcome(program, data, text):
    status, found, _ = run([program], data)
    if text.startswith("refused 9 "):
        return "meets 9"
    if status == MAY_BE_MADE:
        return "names a node that an access may have made"
    return "agrees" if status == 0 and found == text else "differs"


def numbered_outcome(program, data, text, nodes):
    status, found, error = run([program, "--nodes"], data)
    if status != 0 or found != text:
        return "differs"
    if nodes is not None and error != "nodes %d\n" % nodes:
        return "differs in the node count"
    return "agrees"


def main():
    parser = argparse.ArgumentParser(description=__doc__, formatter_class=argparse.RawDescriptionHelpFormatter)
    parser.add_argument("--count", type=int, default=1000, help="random cases (1000)")
    parser.add_argument("--seed", type=int, default=1)
    options = parser.parse_args()
    program = build.buddy_program()
    failed = False
    for title, made in (("stored", stored()), ("random", random_cases(options.seed, options.count))):
        plain, numbered = Counter(), Counter()
        for name, data, text, nodes in made:
            outcomes = plain_outcome(program, data, text), numbered_outcome(program, data, text, nodes)
            plain[outcomes[0]] += 1
            numbered[outcomes[1]] += 1
            if any(outcome.startswith("differs") for outcome in outcomes):
                failed = True
                print("differs: " + name)
        for mode, counter in (("as the benchmark runs it", plain), ("--nodes", numbered)):
            print("%s, %s: %s" % (title, mode, ", ".join("%d %s" % (n, what) for what, n in sorted(counter.items()))))
    sys.exit(1 if failed else 0)


if __name__ == "__main__":
    main()
