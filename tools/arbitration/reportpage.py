"""A report as one page for a browser: totals, groups with what shows them, and the cases.

The page is whole by itself: no script, no picture and nothing from elsewhere.  All that a report holds is escaped,
since names, commands and what simulators wrote may have any letters.
"""

import html
import textwrap

from arbitration.reports import (AGREED, CRASHED, DIFFERS, HUNG, NO_VERDICT, NOT_RUN, VERDICTS, groups, kind_counts,
                                 missing_shards, order_counts, reduced_of, sharper_counts, verdict_counts)
from arbitration.reporttext import (detail_lines, end_lines, extent_words, failure_words, first_lines, is_open,
                                    place_words, printable, reduced_words, shards_words, shown_lines, title)
from common.simulatorruns import seconds_words
from language.words import counted
from sharpened import keptorder

CLASSES = {AGREED: "agreed", DIFFERS: "differs", HUNG: "hung", CRASHED: "crashed", NOT_RUN: "notrun",
           NO_VERDICT: "notrun", keptorder.SWINGS: "differs", keptorder.FAILED: "crashed"}

STYLE = """
body { font: 15px/1.45 system-ui, "DejaVu Sans", sans-serif; color: #1c1f23; background: #fff; max-width: 76em;
  margin: 1.5em auto; padding: 0 1.2em; }
h1 { font-size: 1.5em; margin: 0 0 .2em; }
h2 { font-size: 1.2em; margin: 1.8em 0 .5em; border-bottom: 1px solid #d5d9de; padding-bottom: .2em; }
h3 { font-size: 1em; margin: 0 0 .4em; }
p { margin: .3em 0; }
code, pre, .case { font: 13px/1.4 ui-monospace, "DejaVu Sans Mono", monospace; }
pre { background: #f5f6f8; padding: .5em .7em; margin: .4em 0; overflow-x: auto; }
.case, code { overflow-wrap: anywhere; }
table { border-collapse: collapse; }
th, td { text-align: left; vertical-align: top; padding: .25em .8em .25em 0; border-bottom: 1px solid #e6e9ec; }
th { font-weight: 600; color: #4a5159; }
th.number, td.number { text-align: right; font-variant-numeric: tabular-nums; white-space: nowrap; }
.agreed { color: #1a6b35; } .differs { color: #b3261e; } .hung { color: #8a5a00; } .crashed { color: #7a2a8a; }
.notrun { color: #656d76; }
.bar { display: flex; width: 16em; height: .8em; background: #e6e9ec; margin-top: .35em; }
.bar span { display: block; } .bar .agreed { background: #2f9e57; } .bar .differs { background: #d2453d; }
.bar .hung { background: #dd9a1b; } .bar .crashed { background: #9a4fb0; } .bar .notrun { background: #a8b0b8; }
.warning { background: #fff4d6; border-left: 4px solid #dd9a1b; padding: .4em .7em; }
section, section.differs { border: 1px solid #d5d9de; border-left: 4px solid #d2453d; padding: .7em 1em; margin: .8em 0;
  color: inherit; }
section.hung { border-left-color: #dd9a1b; color: inherit; }
section.crashed { border-left-color: #9a4fb0; color: inherit; }
summary { cursor: pointer; color: #2a4f87; }
ul { margin: .3em 0; padding-left: 1.4em; }
.cases { width: 100%; }
.cases tr.more td { padding: 0 0 .4em 1.2em; }
.cases tr:has(+ tr.more) td { border-bottom: 0; }
#open-only:checked ~ .cases tr.all-agreed { display: none; }
a { color: #2a4f87; }
"""


class Figure(str):
    """A cell that stands to the right, as numbers do."""


def text(value):
    """A text of others within the page."""
    return html.escape(printable(str(value)))


def element(name, inner, **attributes):
    """An element; `class_` is the attribute class."""
    given = "".join(' %s="%s"' % (key.rstrip("_"), text(value)) for key, value in attributes.items() if value)
    return "<%s%s>%s</%s>" % (name, given, inner, name)


def pre(lines):
    return element("pre", "\n".join(text(line) for line in lines))


def row(cells, cell="td", **attributes):
    """A row; figures and numbers stand to the right."""
    return element("tr", "".join(
        element(cell, text(value), class_="number") if isinstance(value, (int, float, Figure)) else
        element(cell, value) for value in cells), **attributes)


def table(names, rows, **attributes):
    """A table under a head of names, which are texts within the page or figures."""
    return element("table", element("thead", row(names, "th")) + element("tbody", "\n".join(rows)), **attributes)


def paragraph(words, **attributes):
    return element("p", text(words), **attributes)


def verdict_cell(verdict):
    return element("span", text(verdict), class_=CLASSES.get(verdict))


def seconds(value):
    return Figure("%.2f" % value)


# Totals

def bar(counts, many):
    """The shares of the verdicts."""
    parts = ['<span class="%s" style="width:%.2f%%" title="%s %d"></span>' % (
        CLASSES[word], 100 * counts[word] / many, word, counts[word])
        for word in (*VERDICTS, NOT_RUN, NO_VERDICT) if counts[word] and many]
    return element("div", "".join(parts), class_="bar")


def simulator_row(report, place):
    counts = verdict_counts(report, place)
    kinds = ", ".join("%s %d" % item for item in kind_counts(report, place).items())
    name = element("strong", text(report["names"][place])) + "<br>" + element("code", text(report["commands"][place]))
    figures = [counts[word] for word in (*VERDICTS, NOT_RUN)]
    return row([name + bar(counts, len(report["cases"])), *figures, text(kinds)])


def totals_part(report):
    rows = [simulator_row(report, place) for place in range(len(report["names"]))]
    return table(["simulator", *map(Figure, (*VERDICTS, NOT_RUN)), "kinds of difference"], rows)


def orders_part(report):
    if not report["sharpen"]:
        return ""
    words = keptorder.KEPT, keptorder.SWINGS, keptorder.NO_CLAIM, keptorder.FAILED
    rows = []
    for place, name in enumerate(report["names"]):
        counts = order_counts(report, place)
        rows.append(row([text(name), *(counts[word] for word in words)]))
    said = "%s of %s" % tuple(map(counted, sharper_counts(report), ("sharper case", "case")))
    return element("h2", "Sharper cases") + paragraph(said) + table(["simulator", *map(Figure, words)], rows)


# Groups

def case_link(report, number):
    return element("a", text(report["cases"][number]["name"]), class_="case", href="#case-%d" % number)


def shown_assignment(assignment):
    if assignment is None:
        return ""
    where = " ".join("%s=%s" % tuple(pair) for pair in assignment) if assignment else "every assignment"
    return element("p", "assignment: " + element("code", text(where)))


def reduced_part(name, reduced):
    """The smallest case found of a group, and how it parts the two."""
    case = reduced["hex"] if reduced["text"] is None else reduced["text"]
    return element("details", element("summary", text(reduced_words(reduced))) + pre(case.splitlines())
                   + paragraph(reduced["difference"]["words"]) + pre(flush(shown_lines(name, reduced["shown"]))),
                   open="open")


def flush(lines):
    """Lines without the blanks that all begin with."""
    return textwrap.dedent("\n".join(lines)).split("\n")


def group_section(report, number, group):
    """A group: what shows its smallest case, the reduced case, and links to all of its cases."""
    parts = [element("h3", text(title(report, group)))]
    lines = list(first_lines(report, group))
    run = report["cases"][group.cases[0]]["runs"][group.simulator]
    if group.verdict == DIFFERS:
        parts += [paragraph(lines[0]), shown_assignment(run["difference"]["assignment"]),
                  element("p", case_link(report, group.cases[0]) + text(", " + place_words(run["shown"]))),
                  pre(flush(lines[2:]))]
    else:
        parts.append(pre(lines))
    reduced = reduced_of(report, group)
    if reduced:
        parts.append(reduced_part(report["names"][group.simulator], reduced))
    if len(group.cases) > 1:
        items = "".join(element("li", case_link(report, case)) for case in group.cases)
        parts.append(element("details", element("summary", text(counted(len(group.cases), "case")))
                             + element("ul", items)))
    return element("section", "\n".join(parts), id="group-%d" % number, class_=CLASSES[group.verdict])


def groups_part(report):
    found = groups(report)
    if not found:
        return ""
    rows = [row([element("a", text(title(report, group).rpartition(": ")[0]), href="#group-%d" % number),
                 len(group.cases)]) for number, group in enumerate(found)]
    sections = [group_section(report, number, group) for number, group in enumerate(found)]
    return element("h2", "Groups") + table(["group", Figure("cases")], rows) + "\n" + "\n".join(sections)


# Lists

def list_part(heading, words, items):
    if not items:
        return ""
    return element("h2", heading) + paragraph(words) + element("ul", "".join(element("li", item) for item in items))


def faults_part(report):
    return list_part("No verdict", "Cases in which memcase failed.", [
        case_link(report, number) + text(": " + case["fault"]) for number, case in enumerate(report["cases"])
        if case["fault"] is not None])


def alike_part(report):
    return list_part("Wrong in the same way", "Cases in which both simulators have the same wrong line first.", [
        case_link(report, number) for number, case in enumerate(report["cases"]) if case["alike"]])


def left_out_part(report):
    files = [element("span", text(file["name"]), class_="case") + " " + text(file["why"])
             for file in report["left_out"]]
    if report["unnamed"]:
        said = text("%s not named .case, .txt or .csv" % counted(report["unnamed"], "file"))
        items = "".join(element("li", text(name), class_="case") for name in report.get("others", []))
        files.append(element("details", element("summary", said) + element("ul", items)) if items else said)
    return list_part("Left out", "Files of the folder that are no cases.", files)


# Cases

def brief(report, case):
    """What a folded case says: each simulator that did not agree, and how."""
    if case["fault"] is not None:
        return "no verdict"
    said = ["%s: %s" % (name, brief_run(run)) for name, run in zip(report["names"], case["runs"])
            if run["verdict"] != AGREED]
    swings = [name for name, found in zip(report["names"], case["orders"])
              if any(order.get("words") for order in found)]
    return "; ".join(said + ["%s wrong on sharper cases" % name for name in swings])


def brief_run(run):
    if run["verdict"] == DIFFERS:
        return "%s, %s, output line %d" % (run["difference"]["kind"], run["difference"]["access"], run["shown"]["line"])
    return failure_words(run) if run["verdict"] in (HUNG, CRASHED) else run["verdict"]


def case_words(case):
    return [run["difference"]["words"] for run in case["runs"] if run["verdict"] == DIFFERS]


def case_rows(report, number, case):
    """The row of a case, and one with what is to be told of it."""
    cells = [element("span", text(case["name"]), class_="case"), Figure("" if case["bytes"] is None else case["bytes"]),
             seconds(case["seconds"])]
    for run in case["runs"]:
        cells += [verdict_cell(run["verdict"]), seconds(run["seconds"])]
    details = list(detail_lines(report, case))
    agreed = not details and not is_open(case)
    found = [row(cells, id="case-%d" % number, class_="all-agreed" if agreed else "")]
    if details:
        inner = element("summary", text(brief(report, case))) + "".join(map(paragraph, case_words(case)))
        more = element("details", inner + pre(flush(details)))
        found.append(element("tr", '<td colspan="%d">%s</td>' % (len(cells), more), class_="more"))
    return found


def cases_part(report):
    names = ["case", Figure("bytes"), Figure("memcase s")]
    for name in report["names"]:
        names += [text(name), Figure("s")]
    rows = [line for number, case in enumerate(report["cases"]) for line in case_rows(report, number, case)]
    box = '<input type="checkbox" id="open-only"> <label for="open-only">only those on which not all agreed</label>\n'
    return element("h2", "Cases") + box + table(names, rows, class_="cases")


# The page

def warnings(report, merged):
    words = [extent_words(report, merged)] if merged and missing_shards(report) else []
    words += end_lines(report)
    for place, name in enumerate(report["names"]):
        if verdict_counts(report, place)[NOT_RUN]:
            words.append("%s was no longer run after %s" % (name, counted(report["hangs"], "hung run")))
    return "".join(paragraph(line, class_="warning") for line in words)


def parts_part(report):
    rows = [row([text(part["folder"]), text(shards_words([part["shard"]])), part["done"], part["planned"],
                 text(part["began"]), part["took"]]) for part in report["parts"]]
    said = "judge: %s; %s for one run" % (report["memcase"], seconds_words(report["seconds"]))
    return element("h2", "Runs") + paragraph(said) + table(
        ["folder", "shard", Figure("files looked at"), Figure("of"), "began", Figure("seconds")], rows)


def page(report, merged=False):
    """The whole page."""
    heading = "Arbitration of " + ", ".join(dict.fromkeys(part["folder"] for part in report["parts"]))
    extent = "" if merged and missing_shards(report) else paragraph(extent_words(report, merged))
    body = [element("h1", text(heading)), extent, warnings(report, merged), totals_part(report), orders_part(report),
            groups_part(report), faults_part(report), alike_part(report), left_out_part(report), cases_part(report),
            parts_part(report)]
    return "\n".join([
        '<!DOCTYPE html>', '<html lang="en">', '<head>', '<meta charset="utf-8">',
        '<meta name="viewport" content="width=device-width, initial-scale=1">', element("title", text(heading)),
        element("style", STYLE), '</head>', element("body", "\n".join(part for part in body if part)), '</html>', ''])
