"""The benchmark's figures as tables, in print and in Markdown, and its plots."""

import math
from collections import namedtuple

from benchcases import DENSE
from measure import MORE, SHORT
from plots import line_plot

# `searches` are a dense case's node searches, all and those past g and h; None of another.
Row = namedtuple("Row", "kind name what nodes memcase buddy skip searches")
Fast = namedtuple("Fast", "what memcase clock buddy")
Location = namedtuple("Location", "locations nodes memcase buddy")
Growth = namedtuple("Growth", "x nodes reads memcase buddy")
Call = namedtuple("Call", "what nodes microseconds row")
WHY = ("Why memcase is the slower one where it is, and how the sizes of its tables were chosen: `bench/WHY.md`.")

Figures = namedtuple("Figures", "date cores runs start rows fast calls locations growth")

# The goals: the ratio of the sums of the whole set, of a kind, and the ratio of a case.
WHOLE_GOAL = 1.0
DENSE_GOAL = 1.5
KIND_GOAL = 3.0
CASE_GOAL = 3.0
WELL_UNDER = 0.5


def milliseconds(seconds):
    return "%.2f" % (1000 * seconds)


def microseconds(seconds):
    """A dash where a difference of two times is not above the noise."""
    return "%.1f" % (1e6 * seconds) if seconds > 0 else "-"


def ratio(a, b):
    return a / b if b > 0 else float("inf")


def ratio_text(a, b):
    return "%.2f" % ratio(a, b) if a > 0 and b > 0 else "-"


def geometric_mean(values):
    return math.exp(sum(math.log(value) for value in values) / len(values))


def kinds(rows):
    """(kind, its rows), in the order of the rows."""
    found = {}
    for row in rows:
        found.setdefault(row.kind, []).append(row)
    return found.items()


def total(rows, program):
    return sum(getattr(row, program) for row in rows)


KIND_HEADER = ("kind", "cases", "memcase ms", "BuDDy ms", "ratio", "mean ratio", "greatest ratio", "of", "goal",
               "BuDDy --skip ms", "ratio to it")


def goals(figures):
    """Each kind and the whole set, with its rows and its goal."""
    for kind, rows in kinds(figures.rows):
        yield kind, rows, DENSE_GOAL if kind == DENSE else KIND_GOAL
    yield "whole set", figures.rows, WHOLE_GOAL


def kind_lines(figures):
    """A row of cells for each kind, and one for the whole set."""
    for kind, rows, goal in goals(figures):
        yield kind_cells(kind, rows, goal)


def not_met(figures):
    """The kinds, the whole set and the cases that miss their goal, with what they have, as lines of Markdown."""
    for kind, rows, goal in goals(figures):
        found = ratio(total(rows, "memcase"), total(rows, "buddy"))
        if found > goal:
            worst = sorted(rows, key=lambda row: row.buddy - row.memcase)[:3]
            names = ["%s (%s)" % (row.name, ratio_text(row.memcase, row.buddy)) for row in worst]
            yield "- %s: %.2f where the goal is %g; most is lost on %s" % (kind, found, goal, ", ".join(names))
    for row in figures.rows:
        found = ratio(row.memcase, row.buddy)
        if found > CASE_GOAL:
            yield "- %s, a case of %s: %.2f where the goal is %g" % (row.name, row.kind, found, CASE_GOAL)


def not_met_text(figures):
    return "\n".join(not_met(figures)) or "None."


def kind_cells(kind, rows, goal):
    memcase, buddy, skip = (total(rows, program) for program in ("memcase", "buddy", "skip"))
    worst = max(rows, key=lambda row: ratio(row.memcase, row.buddy))
    met = "met" if memcase <= goal * buddy else "NOT met"
    mean = geometric_mean([max(ratio(row.memcase, row.buddy), 1e-6) for row in rows])
    return (kind, str(len(rows)), milliseconds(memcase), milliseconds(buddy), ratio_text(memcase, buddy),
            "%.2f" % mean, ratio_text(worst.memcase, worst.buddy), worst.name,
            "at most %g: %s" % (goal, met), milliseconds(skip), ratio_text(memcase, skip))


def nanoseconds_each(seconds, count):
    """A dash where there is nothing to divide, or nothing above the noise."""
    return "%.2f" % (1e9 * seconds / count) if seconds > 0 and count > 0 else "-"


def search_lines(figures):
    """A row of cells for each dense case; the last one is without start-up."""
    for row in figures.rows:
        if row.searches:
            every, past = row.searches
            sums = [every.number, every.compared, past.number, past.compared]
            yield (row.name, str(row.nodes), *("{:,}".format(figure) for figure in sums), milliseconds(row.memcase),
                   nanoseconds_each(row.memcase - figures.start[0], past.compared))


SEARCH_HEADER = ("case", "nodes", "searches", "nodes compared", "searches past g and h",
                 "nodes compared past g and h", "memcase ms", "ns a node")


def fast_lines(figures):
    for row in figures.fast:
        yield (row.what, milliseconds(row.memcase), milliseconds(row.clock), milliseconds(row.buddy),
               "yes" if row.memcase < WELL_UNDER else "NO")


FAST_HEADER = ("case", "memcase ms", "by the clock ms", "BuDDy ms", "under %g s" % WELL_UNDER)


def row_2_lines(figures):
    """Fast against plain, by the number of nodes."""
    found = {(call.what, call.nodes): call.microseconds for call in figures.calls}
    for call in figures.calls:
        if call.what == "fast":
            plain = found["plain", call.nodes]
            yield (str(call.nodes), "%.4f" % (call.microseconds / 1000), "%.4f" % (plain / 1000),
                   "%.0f" % (plain / call.microseconds))


ROW_2_HEADER = ("nodes", "fast ms", "plain ms", "times")


def call_lines(figures):
    for call in figures.calls:
        if call.what not in ("fast", "plain"):
            yield call.what, str(call.nodes), "%.2f" % call.microseconds


CALL_HEADER = ("call", "nodes", "us a call")


def location_lines(rows):
    first = rows[0]
    for row in rows:
        yield (str(row.locations), str(row.nodes), milliseconds(row.memcase), milliseconds(row.buddy),
               "%.0f" % ratio(row.locations, first.locations), "%.1f" % ratio(row.nodes, first.nodes),
               "%.1f" % ratio(row.memcase, first.memcase))


LOCATION_HEADER = ("locations", "nodes", "memcase ms", "BuDDy ms", "times the locations", "times the nodes",
                   "times memcase's ms")


def growth_lines(rows):
    for row in rows:
        yield (str(row.x), str(row.nodes), str(row.reads), microseconds(row.memcase), microseconds(row.buddy),
               ratio_text(row.memcase, row.buddy))


def growth_header(series):
    return (series.x_label, "node count", "reads", "memcase us a read", "BuDDy us a read", "ratio")


def case_lines(figures):
    for row in figures.rows:
        yield (row.kind, row.name, row.what, str(row.nodes), milliseconds(row.memcase), milliseconds(row.buddy),
               ratio_text(row.memcase, row.buddy), milliseconds(row.skip))


CASE_HEADER = ("kind", "case", "what", "nodes", "memcase ms", "BuDDy ms", "ratio", "BuDDy --skip ms")


def printed_table(header, lines):
    lines = [header] + list(lines)
    widths = [max(len(line[i]) for line in lines) for i in range(len(header))]
    return "\n".join("  ".join(cell.ljust(width) for cell, width in zip(line, widths)).rstrip() for line in lines)


def markdown_table(header, lines):
    out = ["| %s |" % " | ".join(header), "|%s|" % "|".join("---" for _ in header)]
    out += ["| %s |" % " | ".join(line) for line in lines]
    return "\n".join(out)


def start_text(figures):
    return ("Start-up alone (an empty file): memcase %s ms, BuDDy %s ms."
            % tuple(milliseconds(seconds) for seconds in figures.start))


def summary(figures):
    """What the command prints."""
    parts = [printed_table(KIND_HEADER, kind_lines(figures)), start_text(figures),
             "Goals not met\n" + not_met_text(figures),
             "Searches of the dense cases\n" + printed_table(SEARCH_HEADER, search_lines(figures)),
             printed_table(FAST_HEADER, fast_lines(figures)),
             "Row 2's test in a library call\n" + printed_table(ROW_2_HEADER, row_2_lines(figures)),
             "Library calls on a small store\n" + printed_table(CALL_HEADER, call_lines(figures))]
    for _, title, rows in figures.locations:
        parts.append("Locations, w=16: " + title + "\n" + printed_table(LOCATION_HEADER, location_lines(rows)))
    for series, rows in figures.growth:
        parts.append("The cost of " + series.title + "\n" + printed_table(growth_header(series), growth_lines(rows)))
    return "\n\n".join(parts)


def plot_name(name):
    return "benchmark-%s.svg" % name


def files(figures):
    """(name, contents) of the Markdown file and the plots."""
    yield "BENCHMARK.md", markdown(figures)
    for series, rows in figures.growth:
        yield plot_name(series.name), line_plot(
            series.title[0].upper() + series.title[1:], series.x_label, "us a read", [row.x for row in rows],
            [("memcase", [1e6 * row.memcase for row in rows]), ("BuDDy", [1e6 * row.buddy for row in rows])])
    xs = [row.locations for row in figures.locations[0][2]]
    yield plot_name("locations-nodes"), line_plot(
        "Nodes against locations, w=16", "locations", "nodes", xs,
        [(name.replace("-", " "), [row.nodes for row in rows]) for name, _, rows in figures.locations], True)
    yield plot_name("locations-time"), line_plot(
        "memcase's time against locations, w=16, start-up counted", "locations", "ms", xs,
        [(name.replace("-", " "), [1000 * row.memcase for row in rows]) for name, _, rows in figures.locations], True)


def markdown(figures):
    parts = ["# Benchmark", introduction(figures),
             "## Against BuDDy", AGAINST, markdown_table(KIND_HEADER, kind_lines(figures)), start_text(figures),
             "### Goals not met", not_met_text(figures), WHY,
             "## Searches of the dense cases", SEARCHES, markdown_table(SEARCH_HEADER, search_lines(figures)),
             "## Cases that must end in well under a second", markdown_table(FAST_HEADER, fast_lines(figures)),
             "## A library call", CALLS, markdown_table(ROW_2_HEADER, row_2_lines(figures)),
             SMALL_CALLS, markdown_table(CALL_HEADER, call_lines(figures)),
             "## How the cost of a read grows", GROWTH]
    for series, rows in figures.growth:
        parts += ["### " + series.title[0].upper() + series.title[1:],
                  "![%s](%s)" % (series.title, plot_name(series.name)),
                  markdown_table(growth_header(series), growth_lines(rows))]
    parts += ["## Locations", LOCATIONS,
              "![nodes against locations](%s)" % plot_name("locations-nodes"),
              "![time against locations](%s)" % plot_name("locations-time")]
    for _, title, rows in figures.locations:
        parts += ["### " + title[0].upper() + title[1:], markdown_table(LOCATION_HEADER, location_lines(rows))]
    parts += ["## All cases", markdown_table(CASE_HEADER, case_lines(figures))]
    return "\n\n".join(parts) + "\n"


def introduction(figures):
    return ("Made by `python3 bench/run.py` on %s, on a machine of %d cores. Each figure is the least of %d runs of "
            "the whole program (%d where a run takes less than %g ms), start-up counted, in milliseconds of the "
            "processor, user and system. Both programs get the same file in turn, and their texts were compared."
            % (figures.date, figures.cores, figures.runs, MORE * figures.runs, 1000 * SHORT))


AGAINST = """`bench/memcase_buddy.cpp` is the same accesses over BuDDy, the same steps of 01 in the same order of variables, compiled with -O2. It does not count nodes as 01 does, so it leaves out the bookkeeping that refusal 9 asks for. `--skip` is the same program that leaves out an entry as soon as its match is false everywhere; 01 builds Or(e,r) for such an entry too, so a program that counts nodes cannot. Ratios are memcase's time over BuDDy's: of the sums, and the geometric mean over the cases. The goals are a ratio of the sums of at most 1.5 for dense diagrams, at most 3 for every other kind and at most 1 for the whole set, and a ratio of at most 3 for every single case."""

SEARCHES = """How many nodes the searches of Make compare, added up over a case by the second program (`tools/reference.py --searches`), for the dense diagrams and `dense-300-reads`. Every Make of unequal children is a search: it begins above the larger child and ends at the first match, and so compares as many nodes as the match's number, or with none the count less one, less the larger child's number. `past g and h` are the searches that memcase makes: where g or h of an Ite is the node that its Make asks for, it searches nothing. The second program remembers every answer of Ite; memcase has a table of 32,768 places for them, builds again what was pushed out, and searches for that again. The last column is memcase's time less its start-up for each node compared past g and h; whatever else a case takes is in it, which is most where few nodes are compared. A dash stands where the difference is not above the noise."""

CALLS = """`bench/calls.c` calls the library as a simulator does: evaluate, on a store of so many nodes. What it takes is row 2's test. `fast` is a store in standard form; in `plain` the last node repeats the one before it, so that the certificate fails, every two nodes are compared and the call is refused by 2. Microseconds of the processor, the least of 9 rounds."""

SMALL_CALLS = """The same on a store of 40 nodes, with constants as arguments: what a call costs that has next to nothing to do. An access that builds and Ite make a computed table of 32,768 places, which is most of it."""

GROWTH = """The cost of one read: the time of a case with reads less that of the same case without, divided by the number of reads. The reads of constants go through the whole list. A dash stands where the difference is not above the noise."""

LOCATIONS = """In the spirit of table 2 of source document 000: the same accesses at w=16 on memories of 2 to 256 locations. The first two tables have addresses that are one of a few locations, by the value of variables. In the third the address may be any location: index variables come before user variables in 01's order, so that the diagram of `in` has a node for each location there."""
