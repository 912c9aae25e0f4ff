#!/usr/bin/env python3
"""Is a case a sharpening of another, and do a simulator's answers keep the order?

    python3 tools/sharpening.py FIRST SECOND [--outputs TEXT1 TEXT2] [--run COMMAND].. [--seconds S]

FIRST and SECOND are texts of casetext.py, named `.txt`, or case files, named `.case`.  Under an assignment the
second is a sharpening of the first where both have the same n, w, kinds, ports, b and check data, access by access,
and are alike but for bits of enables, addresses and written or asserted data that are X in the first and 0 or 1 in
the second.  Each bit that is not alike is named, and where it becomes what; then under which assignments the whole
second case is a sharpening.  Accesses are counted from 1, bits from 0, the lowest.  Behind an access after which no
assignment is left nothing is compared.

There, if both cases are accepted, each bit that a read of the second may return the first may return, and a check
condition that holds in the first holds in the second; an access is judged where those up to it are a sharpening.
Nothing is claimed of the assert condition, of places, of `idle`, `entered` and `kept`, and of the last line.

    --outputs TEXT1 TEXT2   judge what a simulator printed of the two cases, in two files
    --run COMMAND           run a simulator on both, and judge; it may be given several times.  COMMAND gets a case
                            on its standard input; it is split into words as a shell does it, and run without one
    --seconds S             for one run (10)

    order kept   no bit may be more, and no check condition is lost
    swings       a bit may be more, or a check condition is lost: the access, the bit and an assignment are shown
    no claim     the second is no sharpening of the first, or a case was refused: only accepted cases are compared
    failed       the simulator hung or crashed, or wrote no text of the case

The status is 0 where the second is a sharpening under some assignment and every order is kept, 1 where a simulator
swings or failed, 3 where nothing is claimed, 2 where the tool cannot do what it is asked to.

A node must be one of the file: those that accesses make have other numbers in another case and are not followed.
`python3 tools/sharper.py` makes sharper cases of a case.
"""

import argparse

from common.diagrams import FALSE
from common.endings import Parser, end, need_time, say
from common.simulatorruns import run, words_of
from sharpened import keptorder
from sharpened.casepairs import Pair, read_bytes, read_source

SHOWN_SWINGS = 5


def judgement_lines(pair, name, judgement):
    if judgement.verdict == keptorder.KEPT:
        yield "%s: order kept, reads and checks: %d, sharper in the second: %d" % (
            name, judgement.compared, judgement.sharper)
    elif judgement.verdict == keptorder.SWINGS:
        yield "%s: swings" % name
        yield from ("  " + pair.shown_swing(swing) for swing in judgement.swings[:SHOWN_SWINGS])
        if len(judgement.swings) > SHOWN_SWINGS:
            yield "  and %d more" % (len(judgement.swings) - SHOWN_SWINGS)
    else:
        yield "%s: %s: %s" % (name, judgement.verdict, judgement.why)


def judgements(pair, options):
    """Each simulator's name and the judgement on it."""
    if options.outputs:
        yield "outputs", keptorder.judge(pair, [read_bytes(path) for path in options.outputs])
    for command in options.run:
        words = words_of(command)
        runs = [run(words, source.case.bytes(), options.seconds) for source in (pair.first, pair.second)]
        yield command, keptorder.judge_runs(pair, runs)


def exit_status(pair, verdicts):
    if {keptorder.SWINGS, keptorder.FAILED} & verdicts:
        return 1
    return 3 if pair.whole == FALSE or keptorder.NO_CLAIM in verdicts else 0


def sharpening(options):
    """Compare, judge and print; the status to end with."""
    need_time("--seconds", options.seconds)
    pair = Pair(read_source(options.first), read_source(options.second))
    for change in pair.changes:
        say(pair.shown_change(change) + ("" if change.sharper else ": no sharpening there"))
    say(pair.shown_whole())
    verdicts = set()
    for name, judgement in judgements(pair, options):
        verdicts.add(judgement.verdict)
        for line in judgement_lines(pair, name, judgement):
            say(line)
    return exit_status(pair, verdicts)


def main():
    parser = Parser(description=__doc__, formatter_class=argparse.RawDescriptionHelpFormatter)
    parser.add_argument("first", metavar="FIRST")
    parser.add_argument("second", metavar="SECOND")
    parser.add_argument("--outputs", nargs=2, metavar=("TEXT1", "TEXT2"), help="what a simulator printed of both")
    parser.add_argument("--run", action="append", default=[], metavar="COMMAND", help="a simulator to be run on both")
    parser.add_argument("--seconds", type=float, default=10, metavar="S", help="for one run (10)")
    end("sharpening", sharpening, parser.parse_args())


if __name__ == "__main__":
    main()
