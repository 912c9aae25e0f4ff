#!/usr/bin/env python3
"""The benchmark: `memcase` against the same accesses over BuDDy.

    python3 bench/run.py [--memcase "PROGRAM.."] [--quick] [--runs K] [--limit S] [--into FOLDER]

Builds the program over BuDDy with -O2 (apt-get install g++ libbdd-dev), makes the case
files under target/bench/, runs both programs on each K times in turn, checks that they print
the same text, and prints tables with ratios.  Seconds are the processor's, start-up counted,
the least of K runs.  The node searches of the dense cases are added up by the second program,
which takes some seconds in all.  Then writes BENCHMARK.md and its plots into docs/, or into
FOLDER; with --quick, which runs fewer cases fewer times, into target/bench/.  bench/WHY.md says
why a goal is not met; BENCHMARK.md names it.  The status is 1 where texts differ, where a case
that must end in well under a second does not, or where a program failed.
"""

import argparse
import datetime
import os
import shlex
import subprocess
import sys

import benchcases
import build
import report
from measure import Meter
from second.reference import searches_of


def trial_with(program):
    """The refusal, K and node count of a case, nodes numbered as 01 does."""
    def trial(data):
        done = subprocess.run([program, "--nodes"], input=data, stdout=subprocess.PIPE,
                              stderr=subprocess.PIPE, check=True)
        words = done.stdout.decode("ascii").split()
        nodes = int(done.stderr.split()[1])
        if words[0] == "refused":
            return int(words[1]), int(words[3]), nodes
        return None, None, nodes
    return trial


class Bench:
    """The programs, and the runs of them on case files."""

    def __init__(self, memcase, buddy, runs, limit):
        self.programs = [memcase, [buddy], [buddy, "--skip"]]
        self.folder = os.path.join(build.FOLDER, "cases")
        os.makedirs(self.folder, exist_ok=True)
        self.meter = Meter(build.FOLDER, runs, limit)
        self.trial = trial_with(buddy)
        self.failures = []

    def run(self, name, data, programs=3):
        """Results of the first `programs` programs; differences are noted."""
        path = os.path.join(self.folder, name + ".case")
        with open(path, "wb") as file:
            file.write(data)
        results = self.meter.measure(self.programs[:programs], path)
        if any(result.text != results[0].text for result in results):
            self.failures.append("%s: the texts differ: %s" % (name, [result.text[:60] for result in results]))
        elif results[0].text.startswith("("):
            self.failures.append("%s: %s" % (name, results[0].text))
        return results

    def nodes(self, data):
        return self.trial(data)[2]


def kinds_table(bench, maker, quick):
    rows = []
    for case in benchcases.all_benches(maker, quick):
        results = bench.run(case.name, case.data)
        rows.append(report.Row(case.kind, case.name, case.what, bench.nodes(case.data),
                               *(result.seconds for result in results),
                               searches_of(case.data) if benchcases.is_dense(case) else None))
    return rows


def fast_table(bench, maker):
    rows = []
    for case in benchcases.must_be_fast(maker):
        memcase, buddy = bench.run(case.name, case.data, programs=2)
        rows.append(report.Fast(case.what, memcase.seconds, memcase.clock, buddy.seconds))
        if memcase.seconds >= report.WELL_UNDER:
            bench.failures.append("%s: %.2f s, not well under a second" % (case.name, memcase.seconds))
    return rows


def call_table():
    """Times of single calls of the library."""
    done = subprocess.run([build.calls_program()], stdout=subprocess.PIPE, check=True, text=True)
    lines = [line.split("\t") for line in done.stdout.splitlines()]
    return [report.Call(what, int(nodes), float(micro), int(row)) for what, nodes, micro, row in lines]


def location_tables(bench):
    tables = []
    for name, title, points in benchcases.location_benches():
        rows = []
        for locations, data in points:
            memcase, buddy = bench.run("%s-%d" % (name, locations), data, programs=2)
            rows.append(report.Location(locations, bench.nodes(data), memcase.seconds, buddy.seconds))
        tables.append((name, title, rows))
    return tables


def growth_tables(bench, maker, quick):
    tables = []
    for series in benchcases.growth_series(maker, quick):
        rows = []
        for x, without, with_reads, reads in series.points:
            base = bench.run("%s-%d-without" % (series.name, x), without, programs=2)
            full = bench.run("%s-%d-with" % (series.name, x), with_reads, programs=2)
            rows.append(report.Growth(x, bench.nodes(with_reads), reads,
                                      *((b.seconds - a.seconds) / reads for a, b in zip(base, full))))
        tables.append((series, rows))
    return tables


def main():
    parser = argparse.ArgumentParser(description=__doc__, formatter_class=argparse.RawDescriptionHelpFormatter)
    parser.add_argument("--memcase", default=os.path.join(build.ROOT, "crates", "memcase", "out", "memcase"),
                        help="the program, with its arguments (crates/memcase/out/memcase)")
    parser.add_argument("--quick", action="store_true", help="fewer cases and runs; docs/ is left alone")
    parser.add_argument("--runs", type=int,
                        help="runs of each program on each case (7, quick 3), three times as many of short ones")
    parser.add_argument("--limit", type=int, default=60, help="processor's seconds for one run (60)")
    parser.add_argument("--into", metavar="FOLDER", help="where BENCHMARK.md and the plots go")
    options = parser.parse_args()
    memcase = shlex.split(options.memcase)
    if os.path.sep in memcase[0] and not os.path.exists(memcase[0]):
        sys.exit("%s is not there: build it, or name it with --memcase" % os.path.relpath(memcase[0]))

    bench = Bench(memcase, build.buddy_program(), options.runs or (3 if options.quick else 7), options.limit)
    maker = benchcases.Maker(bench.trial)
    empty = bench.run("empty", b"", programs=2)
    found = report.Figures(
        date=datetime.date.today().isoformat(), cores=os.cpu_count(), runs=bench.meter.runs,
        start=[result.seconds for result in empty], rows=kinds_table(bench, maker, options.quick),
        fast=fast_table(bench, maker), calls=call_table(), locations=location_tables(bench),
        growth=growth_tables(bench, maker, options.quick))

    print(report.summary(found))
    into = options.into or (build.FOLDER if options.quick else os.path.join(build.ROOT, "docs"))
    os.makedirs(into, exist_ok=True)
    for name, text in report.files(found):
        with open(os.path.join(into, name), "w", encoding="ascii") as file:
            file.write(text)
    for failure in bench.failures:
        print("FAILED " + failure)
    sys.exit(1 if bench.failures else 0)


if __name__ == "__main__":
    main()
