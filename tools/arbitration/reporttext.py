"""What is printed of a report: totals first, then groups, then the cases one by one where that is asked for."""

from arbitration.reports import (AGREED, CRASHED, DIFFERS, HUNG, NOT_RUN, VERDICTS, ended_parts, groups, kind_counts,
                                 missing_shards, order_counts, reduced_of, sharper_counts, verdict_counts)
from language.words import counted
from papers import TEXT_BYTES
from sharpened import keptorder

JUDGE = "memcase"
SHOWN_NAMES = 5
SHOWN_TEXT_LINES = 40


def printable(line):
    """A line without control characters; what comes of `escaped` is as it was."""
    return "".join(letter if letter.isprintable() else "\\x%02x" % ord(letter) for letter in line)


# Totals

def shards_words(shards):
    return ", ".join("%d/%d" % tuple(shard) for shard in shards)


def extent_words(report, merged):
    """How many cases there are, how many files named as cases are none, and the shard, or those that are missing."""
    words = counted(len(report["cases"]), "case")
    if report["left_out"]:
        words += ", %s left out (named below)" % counted(len(report["left_out"]), "file")
    if merged and missing_shards(report):
        return "%s; missing: shards %s" % (words, shards_words(missing_shards(report)))
    if not merged and missing_shards(report):
        return "%s, shard %s" % (words, shards_words([report["parts"][0]["shard"]]))
    return words


def end_lines(report):
    """Where runs were ended early."""
    for part in ended_parts(report):
        shard = "" if part["shard"][1] == 1 else "shard %s " % shards_words([part["shard"]])
        files = counted(part["planned"], "file")
        yield "%sended early (%s): %d of %s looked at" % (shard, part["ended"], part["done"], files)


def verdict_words(report, place):
    counts = verdict_counts(report, place)
    words = []
    for verdict in VERDICTS + ((NOT_RUN,) if counts[NOT_RUN] else ()):
        kinds = kind_counts(report, place) if verdict == DIFFERS else {}
        inner = ", ".join("%s %d" % item for item in kinds.items())
        words.append("%s %d" % (verdict, counts[verdict]) + (" (%s)" % inner if inner else ""))
    return ", ".join(words)


def total_lines(report, merged):
    yield extent_words(report, merged)
    for place, name in enumerate(report["names"]):
        yield "%s: %s" % (name, verdict_words(report, place))
        if verdict_counts(report, place)[NOT_RUN]:
            yield "  no longer run after %s (--hangs)" % counted(report["hangs"], "hung run")
    failed = sum(case["fault"] is not None for case in report["cases"])
    if failed:
        yield "memcase failed: no verdict in " + counted(failed, "case")
    yield from end_lines(report)
    if report["sharpen"]:
        yield "%s of %s" % tuple(map(counted, sharper_counts(report), ("sharper case", "case")))
        for place, name in enumerate(report["names"]):
            counts = order_counts(report, place)
            yield "%s: order kept in %s, swings in %d, no claim in %d, failed in %d" % (
                name, counted(counts[keptorder.KEPT], "pair"), counts[keptorder.SWINGS], counts[keptorder.NO_CLAIM],
                counts[keptorder.FAILED])


# Groups

def place_words(shown):
    """Where two texts differ; the lines of the text of a case are others."""
    return "output line %d, byte %d" % (shown["line"], shown["byte"])


def shown_lines(name, shown):
    """A line of both texts."""
    width = max(len(name), len(JUDGE))
    yield "  %-*s  %s" % (width, JUDGE, shown["right"])
    yield "  %-*s  %s" % (width, name, shown["found"])
    if shown["stopped"]:
        yield "  %s wrote more than %d bytes and was stopped" % (name, TEXT_BYTES)


def names_shown(names, every):
    """The names of cases, as many as are shown."""
    many = len(names) if every or len(names) == SHOWN_NAMES + 1 else SHOWN_NAMES
    yield from names[:many]
    if len(names) > many:
        yield "and %d more (--all names them)" % (len(names) - many)


def name_lines(names, every):
    """The names of the cases behind the first."""
    if names:
        yield "  and in"
        yield from ("    " + name for name in names_shown(names, every))


def reduced_words(reduced):
    """The line above the smallest case found of a group."""
    how = "" if reduced["whole"] else ", with the search ended early"
    return "smallest case found, of %s%s" % (counted(reduced["bytes"], "byte"), how)


def reduced_lines(name, reduced):
    """The smallest case found of a group, and how it parts the two."""
    yield "  %s:" % reduced_words(reduced)
    if reduced["text"] is None:
        yield "    in hexadecimal: " + reduced["hex"]
    else:
        lines = reduced["text"].splitlines()
        yield from ("    " + line for line in lines[:SHOWN_TEXT_LINES])
        if len(lines) > SHOWN_TEXT_LINES:
            yield "    and %s more (--reduced FOLDER writes all)" % counted(len(lines) - SHOWN_TEXT_LINES, "line")
    yield "    " + reduced["difference"]["words"]
    yield from ("  " + line for line in shown_lines(name, reduced["shown"]))


def title(report, group):
    """The line above a group."""
    name, many = report["names"][group.simulator], counted(len(group.cases), "case")
    if group.verdict == DIFFERS:
        return "%s differs, %s, %s: %s" % (name, group.kind, group.access, many)
    if group.verdict in (HUNG, CRASHED):
        return "%s %s, %s: %s" % (name, group.verdict, group.kind, many)
    access = ", " + group.access if group.access else ""
    return "%s %s on sharper cases%s: %s" % (name, group.verdict, access, many)


def first_lines(report, group):
    """What is said of the first case of a group."""
    case, name = report["cases"][group.cases[0]], report["names"][group.simulator]
    run = case["runs"][group.simulator]
    if group.verdict == DIFFERS:
        yield run["difference"]["words"]
        yield "%s, %s" % (case["name"], place_words(run["shown"]))
        yield from shown_lines(name, run["shown"])
    elif group.verdict in (HUNG, CRASHED):
        yield "%s: %s" % (case["name"], failure_words(run))
    else:
        order = next(order for order in case["orders"][group.simulator]
                     if (order["verdict"], order.get("access")) == (group.verdict, group.access) and order["words"])
        yield "%s, where %s" % (case["name"], order["where"])
        yield "  " + order["words"]


def failure_words(run):
    return run["how"] + (", and its text was right" if run["right"] else "")


def group_lines(report, group, every):
    yield title(report, group)
    yield from ("  " + line for line in first_lines(report, group))
    yield from name_lines([report["cases"][number]["name"] for number in group.cases[1:]], every)
    reduced = reduced_of(report, group)
    if reduced:
        yield from reduced_lines(report["names"][group.simulator], reduced)


def fault_lines(report, every):
    """The cases without a verdict."""
    faulty = [case for case in report["cases"] if case["fault"] is not None]
    if faulty:
        yield "no verdict: memcase failed in " + counted(len(faulty), "case")
        yield "  %s: %s" % (faulty[0]["name"], faulty[0]["fault"])
        yield from name_lines([case["name"] for case in faulty[1:]], every)


def alike_lines(report, every):
    """The cases in which both simulators have the same wrong line first."""
    alike = [case["name"] for case in report["cases"] if case["alike"]]
    if alike:
        yield "%s and %s differ from memcase in the same way: %s" % (*report["names"], counted(len(alike), "case"))
        yield from ("  " + name for name in names_shown(alike, every))


def left_out_lines(report, every):
    yield from ("left out: %s %s" % (file["name"], file["why"]) for file in report["left_out"])
    if report["unnamed"]:
        yield "left out: %s not named .case, .txt or .csv" % counted(report["unnamed"], "file")
        if every:
            yield from ("  " + name for name in report.get("others", []))


# The table

def detail_lines(report, case):
    """What is said below the row of a case."""
    if case["fault"] is not None:
        yield "  no verdict: memcase " + case["fault"]
    for name, run in zip(report["names"], case["runs"]):
        if run["verdict"] == DIFFERS:
            yield "  %s differs, %s: %s" % (name, run["difference"]["kind"], place_words(run["shown"]))
            yield from ("  " + line for line in shown_lines(name, run["shown"]))
        elif run["verdict"] in (HUNG, CRASHED):
            yield "  %s %s: %s" % (name, run["verdict"], failure_words(run))
    for name, found in zip(report["names"], case["orders"]):
        for order in found:
            if order.get("words"):
                yield "  %s %s where %s" % (name, order["verdict"], order["where"])
                yield "    " + order["words"]


def table_lines(report, every):
    """A row for each case on which not all agree, or for every case."""
    rows = [(case, list(detail_lines(report, case))) for case in report["cases"]]
    rows = [(case, details) for case, details in rows if every or details or is_open(case)]
    if not rows:
        return
    widths = [max(len(case["name"]) for case, _ in rows)] + [max(len(name), len(DIFFERS)) for name in report["names"]]
    for cells, details in [(["case", *report["names"]], [])] + [
            ([case["name"], *(run["verdict"] for run in case["runs"])], details) for case, details in rows]:
        yield "  ".join("%-*s" % item for item in zip(widths, cells)).rstrip()
        yield from details


def is_open(case):
    """Whether some simulator has not agreed."""
    return any(run["verdict"] != AGREED for run in case["runs"])


# All of it

def report_lines(report, every=False, table=False, merged=False):
    """The lines that are printed: blocks, with an empty line between two."""
    blocks = [list(total_lines(report, merged))]
    blocks += [list(group_lines(report, group, every)) for group in groups(report)]
    blocks += [list(fault_lines(report, every)), list(alike_lines(report, every)), list(left_out_lines(report, every))]
    if table or every:
        blocks.append(list(table_lines(report, every)))
    for number, block in enumerate(block for block in blocks if block):
        yield from ([""] if number else []) + [printable(line) for line in block]
