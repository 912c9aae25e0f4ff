#!/usr/bin/env python3
"""Run one or two simulators and `memcase` on a folder of case files, and say where and how they part.

    python3 tools/arbiter.py [options] FOLDER 'COMMAND' ['COMMAND 2']
    python3 tools/arbiter.py merge [options] REPORT.json ..

Cases are the files of FOLDER and of the folders in it that are named `.case`, and those named `.txt` or `.csv`, which
are texts and traces of casetext.py and encoded first; capital letters count too, and links to folders are not followed.
A command gets a case on its standard input and writes the case's text to its standard output.  It is split into words
as a shell does it and run without a shell, in the folder where the arbiter is run.

    agreed    standard output is byte for byte what `memcase` prints, and the status 0
    differs   it is not, with status 0; or it is longer than any text of `memcase`
    hung      the run had not ended, or its output was still open, after S seconds
    crashed   it ended with another status or by a signal, whatever it wrote
    not run   K runs of the simulator had hung before (--hangs)

Each run has a process group of its own, which is killed when the run is over; a process that leaves its group is not
followed.  A case is judged by `memcase` alone.
There is no verdict, and nothing is counted, where it hangs or crashes itself, writes anything to standard error, or
writes a text that is no whole one: neither `refused R after K` alone nor lines of which the last is `end N`.

A difference is one of these kinds, by the first line that does not say the same (differences.py has each rule):

    sharper              the simulator admits less than `memcase`: it has lost an unknown
    looser               it admits more
    other                neither
    spelled otherwise    every line says the same, and bytes differ
    refused otherwise    one refuses the case and the other does not, or in another way
    no text              what the simulator wrote is no text of the case

Totals are printed first.  Then come groups, each with its cases: the differences of one simulator, of one kind and in
one kind of access, with what shows the smallest of them; then runs that crashed or hung in one way; then cases without
a verdict, those in which both simulators have the same wrong line first, and files that are left out: those named
`.txt` that are no text of a case, and those that cannot be read.  They change the status with --strict alone.

With --reduce the smallest case is looked for on which the simulator still differs in the way of a group.  With
--sharpen N each simulator is also run on up to N sharper cases of each case, in which bits that are X there are 0 or 1
(sharper.py), and its answer must be within its own answer to the case itself (sharpening.py); `memcase` is not asked.
Where it is not, the simulator swings.  It failed where it hangs, crashes or writes no text of the case, and nothing is
claimed where it refuses one of the two.

--json writes a report (reports.py has its fields), --html a page for a browser.  With --shard I/N every N-th case is
run, from the I-th on, so that N machines or jobs share a folder; `merge` joins the reports and prints what one run of
all cases prints.

Ctrl-C, SIGTERM and SIGHUP kill the simulators, and what was finished is reported.  Ctrl-C once more, a second later,
ends it without a report.

The status is 0 where all agreed; 1 where a simulator did not, swings, or failed on a sharper case; 2 where `memcase`
failed, the arbiter cannot do what it is asked to, nothing was there to be run (an empty shard is 0), a part is missing
from what is merged, or, with --strict, a file named as a case was left out; 130, 143 and 129 after Ctrl-C, SIGTERM and
SIGHUP.
"""

import argparse
import os
import re
import sys
import time

from arbitration import reports
from arbitration.casefolder import case_files, read_case, shortened
from arbitration.judging import Judging, Program, Reduction
from arbitration.progress import Progress, Stopping, results
from arbitration.reportpage import page
from arbitration.reports import AGREED, DIFFERS
from arbitration.reporttext import JUDGE, report_lines
from common.endings import Parser, complain
from common.simulatorruns import AllEnded, Misuse, all_ended, end_all, escaped, need_program, need_seconds, words_of
from language.words import counted

ROOT = os.path.dirname(os.path.dirname(os.path.abspath(__file__)))
MEMCASE = "crates/memcase/out/memcase"

HANGS = 10
REDUCE_SECONDS = 60


# What is given

def read_memcase(command):
    if command is None:
        return need_program([os.path.join(ROOT, *MEMCASE.split("/"))], "; `rt run < /dev/null` in crates/memcase builds it")
    return words_of(command)


def read_names(names, many):
    """The names of so many simulators."""
    if many > 2:
        raise Misuse("one simulator or two, each command as one word in quotation marks, and not %d" % many)
    names = names or ["first", "second"][:many]
    if len({*names, JUDGE}) <= many:
        raise Misuse("the simulators need two names, neither of them %s" % JUDGE if many == 2 else
                     "the simulator needs a name other than %s" % JUDGE)
    if not all(name.isprintable() and name.strip() for name in names):
        raise Misuse("a name must be printable")
    return names


def read_shard(text):
    """The numbers of `I/N`."""
    found = re.fullmatch(r"([0-9]{1,9})/([0-9]{1,9})", text)
    shard = [int(number) for number in found.groups()] if found else [0, 0]
    if not 1 <= shard[0] <= shard[1]:
        raise Misuse("--shard is I/N with I from 1 to N, as 2/8, and not %s" % shortened(text))
    return shard


def need_files(options):
    """See that the files of a report can be written."""
    if options.html == "-":
        raise Misuse("--html needs the name of a file")
    for path in (options.json, options.html):
        if path not in (None, "-"):
            reports.need_place(path)
    if options.json not in (None, "-") and options.html is not None and is_same_file(options.json, options.html):
        raise Misuse("--json and --html both write %s: name two files" % options.html)


def is_same_file(one, other):
    """Whether two names are of one file that is there or can be made; a device takes both."""
    one, other = os.path.realpath(one), os.path.realpath(other)
    return one == other and (os.path.isfile(one) or not os.path.exists(one))


def need_reduced(folder, cases):
    """See that the smallest cases can be written to a folder, and are no cases of the next run."""
    if os.path.exists(folder) and not os.path.isdir(folder):
        raise Misuse("%s is no folder, and --reduced writes to one" % folder)
    outer = os.path.realpath(cases)
    if os.path.commonpath([outer, os.path.realpath(folder)]) == outer:
        raise Misuse("--reduced %s is in the folder of cases, so that its files are cases of the next run: name one "
                     "outside of it" % shortened(folder))


def need_options(options):
    """See that what is given can be done, before anything is run."""
    need_seconds(options.seconds)
    for name, least in (("jobs", 1), ("sharpen", 0), ("hangs", 0)):
        if getattr(options, name) < least:
            raise Misuse("--%s must be %d or more" % (name, least))
    if not 0 < options.reduce_seconds < float("inf"):
        raise Misuse("--reduce-seconds must be above 0")
    need_files(options)
    if options.reduced is not None:
        need_reduced(options.reduced, options.folder)


# An arbitration

def not_agreed(record):
    return any(run["verdict"] != AGREED for run in record["runs"])


def run_cases(judging, files, options, report):
    """Run the cases, and put what comes of them into the report; the error that ended it early, or None."""
    progress = Progress(options.progress, len(files))
    error = None
    for found in results(lambda file: judging.record(file.name, lambda: read_case(file.path)), files,
                         min(options.jobs, len(files))):
        if found is None:
            progress.tick()
            continue
        file, record = found
        if isinstance(record, Misuse):
            report["left_out"].append({"name": file.name, "why": str(record)})
            progress.step(False)
        elif isinstance(record, dict):
            report["cases"].append(record)
            progress.step(not_agreed(record))
        elif not isinstance(record, AllEnded) and error is None:
            error = record
            end_all()
    progress.end()
    report["cases"].sort(key=lambda case: reports.case_order(case["name"]))
    report["left_out"].sort(key=lambda file: reports.case_order(file["name"]))
    return error


def reduce_groups(judging, files, options, report):
    """Look for the smallest case of each group of differences, and put it into the report."""
    paths = {file.name: file.path for file in files}
    wanted = [group for group in reports.groups(report)
              if group.verdict == DIFFERS and not judging.simulators[group.simulator].given_up()]
    progress = Progress(options.progress, len(wanted))
    progress.say("0 of %s reduced" % counted(len(wanted), "group"))

    def reduced(group):
        simulator = judging.simulators[group.simulator]
        name = report["cases"][group.cases[0]]["name"]
        search = Reduction(judging.memcase, simulator, group.kind, group.access, options.reduce_seconds)
        return search.record(group.simulator, name, read_case(paths[name]))

    done = 0
    for _, found in filter(None, results(reduced, wanted, min(options.jobs, len(wanted)))):
        done += 1
        progress.say("%d of %s reduced" % (done, counted(len(wanted), "group")))
        if isinstance(found, dict):
            report["reduced"].append(found)
        elif isinstance(found, BaseException) and not isinstance(found, (AllEnded, Misuse)):
            end_all()
            raise found
    progress.end()
    report["reduced"].sort(key=lambda item: (item["simulator"], item["kind"], item["access"]))


def write_reduced(folder, report):
    """Write the smallest cases to a folder, as texts, and damaged ones as case files."""
    os.makedirs(folder, exist_ok=True)
    for item in report["reduced"]:
        words = report["names"][item["simulator"]], item["kind"], item["access"]
        stem = re.sub(r"[^A-Za-z0-9]+", "-", "-".join(words)).strip("-")
        if item["text"] is None:
            with open(os.path.join(folder, stem + ".case"), "wb") as file:
                file.write(bytes.fromhex(item["hex"]))
        else:
            with open(os.path.join(folder, stem + ".txt"), "w", encoding="utf-8") as file:
                file.write(item["text"])


def new_report(options, names, shard, found, planned, others):
    part = {"folder": escaped(os.fsencode(options.folder)), "shard": shard, "found": found, "planned": planned,
            "done": 0, "ended": None, "began": time.strftime("%Y-%m-%dT%H:%M:%SZ", time.gmtime()), "took": 0}
    return {"format": reports.FORMAT, "names": names, "commands": options.commands,
            "memcase": options.memcase or MEMCASE, "seconds": options.seconds, "sharpen": options.sharpen,
            "hangs": options.hangs, "parts": [part], "unnamed": len(others), "others": others, "left_out": [],
            "cases": [], "reduced": []}


def arbitrate(options, stopping):
    """Run all cases and tell what came out; the status to end with."""
    need_options(options)
    names = read_names(options.names, len(options.commands))
    shard = read_shard(options.shard)
    memcase = Program(JUDGE, read_memcase(options.memcase), options.seconds, options.hangs)
    simulators = [Program(name, words_of(command), options.seconds, options.hangs)
                  for name, command in zip(names, options.commands)]
    every, others = case_files(options.folder)
    files = every[shard[0] - 1::shard[1]]
    report = new_report(options, names, shard, len(every), len(files), others)
    judging = Judging(memcase, simulators, options.sharpen)

    begun = time.monotonic()
    error = run_cases(judging, files, options, report)
    if error is not None and not report["cases"]:
        raise error
    if (options.reduce or options.reduced) and not all_ended():
        reduce_groups(judging, files, options, report)
    part = report["parts"][0]
    part["took"] = round(time.monotonic() - begun, 3)
    part["done"] = len(report["cases"]) + len(report["left_out"])
    if all_ended() and part["done"] < part["planned"]:
        part["ended"] = stopping.signal.name if stopping.signal else shortened(str(error))
    tell(report, options, False)
    if options.reduced:
        write_reduced(options.reduced, report)
    if error is not None:
        raise error
    if not report["cases"] and part["ended"] is None and shard[1] == 1:
        raise Misuse("nothing was run: no file of %s is a case" % options.folder)
    need_all(report, options)
    return reports.status(report)


def need_all(report, options):
    """With --strict, see that no file that is named as a case was left out."""
    if options.strict and report["left_out"]:
        many = len(report["left_out"])
        raise Misuse("--strict: %s named as %s left out" % (
            counted(many, "file"), "a case was" if many == 1 else "cases were"))


def merge(options):
    """Join reports and tell what is in them; the status to end with."""
    need_files(options)
    for path in options.reports:
        if options.html is not None and is_same_file(path, options.html):
            raise Misuse("%s is a report that is joined: name another file for --html" % options.html)
    report = reports.joined(options.reports, [reports.read_file(path) for path in options.reports])
    tell(report, options, True)
    need_all(report, options)
    return reports.status(report, True)


def tell(report, options, merged):
    """Write the files that are asked for, and print the report, also where a file cannot be written."""
    faults = []
    for path, text_of in ((options.json, reports.as_text), (options.html, lambda known: page(known, merged))):
        if path not in (None, "-"):
            try:
                reports.write_file(path, text_of(report))
            except OSError as error:
                faults.append(error)
    if options.json == "-":
        put(reports.as_text(report).splitlines())
    else:
        put(report_lines(report, options.all, options.table, merged))
    if faults:
        raise faults[0]


def put(lines):
    """Print lines; where nobody reads them any more, as behind a pipe to `head`, that is no fault."""
    try:
        for line in lines:
            print(line)
        sys.stdout.flush()
    except OSError as error:
        os.dup2(os.open(os.devnull, os.O_WRONLY), 1)
        if not isinstance(error, BrokenPipeError):
            raise


# The commands

def add_shown(parser):
    """The options of what is told."""
    parser.add_argument("--all", action="store_true",
                        help="name all cases of a group and all files left out, and a row for every case")
    parser.add_argument("--table", action="store_true", help="a row for every case on which not all agreed")
    parser.add_argument("--json", metavar="FILE", help="write a report; - is standard output, with nothing else")
    parser.add_argument("--html", metavar="FILE", help="write a page for a browser")
    parser.add_argument("--strict", action="store_true", help="status 2 where a file named as a case was left out")


class OptionParser(Parser):
    """A parser that raises Misuse where words are no options: those of one simulator and of two are tried."""

    def error(self, message):
        raise Misuse(message + "; --help says more")


def run_parser(names):
    """The parser of a run, `--names` followed by so many."""
    parser = OptionParser(prog="arbiter.py", description=__doc__, formatter_class=argparse.RawDescriptionHelpFormatter)
    parser.add_argument("folder", metavar="FOLDER")
    parser.add_argument("commands", nargs="+", metavar="COMMAND", help="one or two, each as one word")
    parser.add_argument("--memcase", metavar="COMMAND", help="the judge (%s)" % MEMCASE)
    parser.add_argument("--seconds", type=float, default=10, metavar="S", help="for one run (10)")
    parser.add_argument("--jobs", type=int, default=os.cpu_count() or 1, metavar="N",
                        help="cases run at a time (as many as there are processors)")
    parser.add_argument("--names", nargs=names, metavar="NAME", help="what the simulators are called (first second)")
    parser.add_argument("--hangs", type=int, default=HANGS, metavar="K",
                        help="a simulator is no longer run after K hung runs, 0 for never (%d)" % HANGS)
    parser.add_argument("--sharpen", type=int, default=0, metavar="N",
                        help="sharper cases of each case, at most so many (0)")
    parser.add_argument("--reduce", action="store_true", help="look for the smallest case of each group of differences")
    parser.add_argument("--reduce-seconds", type=float, default=REDUCE_SECONDS, metavar="S",
                        help="for one group (%d)" % REDUCE_SECONDS)
    parser.add_argument("--reduced", metavar="FOLDER", help="--reduce, and write the smallest cases to a folder")
    parser.add_argument("--shard", default="1/1", metavar="I/N", help="every N-th case, from the I-th on (1/1)")
    parser.add_argument("--progress", action=argparse.BooleanOptionalAction,
                        help="say on standard error how far it is (on a terminal)")
    add_shown(parser)
    return parser


def run_options(words):
    """The options of a run.  Names may stand before the folder, so that only the number of commands tells how many
    there are."""
    for names in (2, 1):
        try:
            options = run_parser(names).parse_args(words)
        except Misuse as mistake:
            wrong = mistake
        else:
            if options.names is None or len(options.names) == len(options.commands):
                return options
            wrong = Misuse("--names takes as many names as there are simulators")
    raise wrong


def merge_options(words):
    parser = OptionParser(prog="arbiter.py merge",
                          description="Join reports of one arbitration, and print what one run of all cases prints.")
    parser.add_argument("reports", nargs="+", metavar="REPORT.json")
    add_shown(parser)
    return parser.parse_args(words)


def work(words, stopping):
    """Do what the words ask for; the status to end with."""
    if words[:1] == ["merge"]:
        return merge(merge_options(words[1:]))
    return arbitrate(run_options(words), stopping)


def open_outputs():
    """See that there is a standard output and a standard error, and that both take any letters."""
    sys.stdout = sys.stdout or open(os.devnull, "w", encoding="utf-8")
    sys.stderr = sys.stderr or open(os.devnull, "w", encoding="utf-8")
    sys.stdout.reconfigure(errors="backslashreplace")


def main():
    stopping = Stopping()
    open_outputs()
    try:
        status = work(sys.argv[1:], stopping)
    except (Misuse, OSError) as error:
        complain("arbiter", str(error))
        status = 2
    except AllEnded:
        status = 2
    sys.exit(stopping.status(status))


if __name__ == "__main__":
    main()
