#!/usr/bin/env python3
"""Case files as readable text: encode, decode, import and run.  `--help` prints what language/casetext.py says."""

import argparse
import sys

from common.casefile import NotACaseFile
from common.endings import OUTPUT_CLOSED, Parser, complain, drop_output
from language import casetext, traces
from language.words import Mistake, not_utf8


def read_input(name):
    if name == "-":
        return sys.stdin.buffer.read()
    with open(name, "rb") as file:
        return file.read()


def written(work, name):
    """Write what is made of a file to standard output; the status is 1, with a line, where nothing can be made."""
    try:
        data = work(read_input(name))
        sys.stdout.buffer.write(data)
        sys.stdout.buffer.flush()
        return
    except UnicodeDecodeError as error:
        message = "%s %s" % (name, not_utf8(error))
    except BrokenPipeError:
        drop_output()
        sys.exit(OUTPUT_CLOSED)
    except (Mistake, NotACaseFile, OSError) as error:
        message = str(error)
    complain("casetext", message)
    sys.exit(1)


def encoded(data):
    """The case file of a text, given as bytes; Mistake otherwise, which says where it is a trace."""
    text = data.decode("utf-8")
    try:
        return casetext.encode(text)
    except Mistake as mistake:
        if not traces.is_trace(text):
            raise
        raise Mistake("%s; it looks like a trace: use import" % mistake) from None


def decoded(data):
    """The text of a case file as bytes; NotACaseFile otherwise, which says where it is a text."""
    try:
        return casetext.decode(data).encode("ascii")
    except NotACaseFile as wrong:
        if not casetext.is_text(data):
            raise
        raise NotACaseFile("%s; it looks like a text: decode reads a case file" % wrong) from None


def import_trace(arguments):
    """`casetext.py import`."""
    parser = Parser(prog="casetext.py import", description=traces.__doc__,
                    formatter_class=argparse.RawDescriptionHelpFormatter)
    parser.add_argument("file", metavar="FILE.csv")
    parser.add_argument("--n", type=int, metavar="N", help="address bits")
    parser.add_argument("--w", type=int, metavar="W", help="data bits")
    options = parser.parse_args(arguments)
    written(lambda data: traces.imported(data, options.n, options.w), options.file)


def main():
    action, *arguments = sys.argv[1:] or ["--help"]
    if action == "run":
        from running import runcommand
        sys.exit(runcommand.main(arguments))
    if action == "import":
        sys.exit(import_trace(arguments))
    parser = Parser(description=casetext.__doc__, formatter_class=argparse.RawDescriptionHelpFormatter,
                    usage="casetext.py ACTION FILE")
    parser.add_argument("action", choices=["encode", "decode", "import", "run"])
    parser.add_argument("file")
    options = parser.parse_args()
    if options.action == "encode":
        written(encoded, options.file)
    else:
        written(decoded, options.file)


if __name__ == "__main__":
    main()
