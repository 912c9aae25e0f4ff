#!/usr/bin/env python3
"""What a case file must print, by the second program: truth tables, and no decision diagrams.

    python3 tools/reference.py [--searches] [--node-words N] [--list-words N] [--text-bytes N]

reads a case file on standard input and prints what `memcase` must print.  With
the length of a buffer it prints what the library's call must answer, and reads all
the bytes.  With --searches it prints the node searches of the case in place of its
text, up to the refusal of a refused one: how many Makes of unequal children
searched, and how many nodes they compared; then the same without those of an Ite
whose g or h is the node.  Every answer of Ite is remembered here and none is built
twice, so that these are the searches of a program which forgets nothing.  The status is 0
where it prints, refusals too, and 2 where it cannot say what is printed.
"""

import sys

from common.endings import Parser, end, need_least, standard_input
from common.simulatorruns import Misuse
from papers import INPUT_BYTES
from second.reference import printed, run_case, searches_text
from second.tables import TABLE_VARIABLES, TooManyVariables


def run_given(options):
    """Print what a case on standard input must print, with buffers of the lengths that are given."""
    lengths = {name: value for name, value in vars(options).items() if name != "searches" and value is not None}
    for name, value in lengths.items():
        need_least("--" + name.replace("_", "-"), value, 0)
    data = standard_input(-1 if lengths else INPUT_BYTES)
    try:
        outcome = run_case(data, **lengths)
    except TooManyVariables as error:
        raise Misuse("%s variables in use; truth tables do %d" % (error, TABLE_VARIABLES)) from None
    sys.stdout.write(searches_text(outcome) if options.searches else printed(outcome))
    return 0


def main():
    parser = Parser(description="Print what a case file must print.")
    parser.add_argument("--searches", action="store_true", help="print the node searches in place of the text")
    parser.add_argument("--node-words", type=int)
    parser.add_argument("--list-words", type=int)
    parser.add_argument("--text-bytes", type=int)
    end("reference", run_given, parser.parse_args())


if __name__ == "__main__":
    main()
