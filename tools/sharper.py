#!/usr/bin/env python3
"""Make sharper cases of a case.

    python3 tools/sharper.py FILE FOLDER [--count N] [--seed S]

FILE is a text of casetext.py, named `.txt`, or a case file, named `.case`.  Up to N texts are written to FOLDER, and
none over a file that is there.  In the first every plain X of an enable, an address or written or asserted data is
replaced by 0 or 1, as the seed says; in each of the others one is, and these are spread evenly over the case.  b and
the data of checks stay, and so does a bit that is X under some assignments alone.  A line that is changed has the
node numbers in place of names; all others are as they were.  A text with `variable` or `let` is written anew, as
`casetext.py decode` prints it: its nodes have numbers only in the file.

`python3 tools/sharpening.py` judges what simulators answer to such cases, as `arbiter.py --sharpen N` does for all
cases of a folder.  The status is 0, or 2 where nothing can be made.
"""

import argparse
import os

from common.endings import Parser, end, need_least, say
from common.simulatorruns import Misuse
from sharpened.casepairs import need_nodes, read_source
from sharpened.sharpercases import SEED, sharper_cases, sharper_text, text_of, words

COUNT = 8


def write_new(path, text):
    try:
        with open(path, "x", encoding="utf-8") as file:
            file.write(text)
    except FileExistsError:
        raise Misuse("%s is there already: name another folder" % path) from None
    except OSError as error:
        raise Misuse("cannot write %s: %s" % (path, error.strerror)) from None


def make(options):
    """Write the sharper cases and name them."""
    need_least("--count", options.count, 1)
    source = read_source(options.file)
    need_nodes(source)
    found = sharper_cases(source.case, options.count, options.seed)
    if not found:
        raise Misuse("%s: no bit of an enable, an address or written or asserted data is a plain X" % options.file)
    text, lines = text_of(source)
    stem = os.path.splitext(os.path.basename(options.file))[0]
    os.makedirs(options.folder, exist_ok=True)
    for number, sharper in enumerate(found, 1):
        path = os.path.join(options.folder, "%s-sharper-%d.txt" % (stem, number))
        write_new(path, sharper_text(text, lines, sharper))
        say("%s: %s" % (path, words(sharper)))
    return 0


def main():
    parser = Parser(description=__doc__, formatter_class=argparse.RawDescriptionHelpFormatter)
    parser.add_argument("file", metavar="FILE")
    parser.add_argument("folder", metavar="FOLDER")
    parser.add_argument("--count", type=int, default=COUNT, metavar="N", help="how many at most (%d)" % COUNT)
    parser.add_argument("--seed", type=int, default=SEED, metavar="S", help="of the values (%d)" % SEED)
    end("sharper", make, parser.parse_args())


if __name__ == "__main__":
    main()
