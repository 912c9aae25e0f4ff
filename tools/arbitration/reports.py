"""Reports of an arbitration: what is kept of each case, totals and groups, files of them, and several joined.

A report is a dictionary of plain values, so that the file `--json` writes has all of it:

    format      FORMAT, which changes where a reader of old reports would go wrong
    names       what the simulators are called; `commands`, `memcase`: the command lines
    seconds     for one run; `sharpen`, `hangs`: as the options of those names
    parts       what was run to make it, more than one of joined reports: `folder`; `shard`, the numbers I and N of
                every N-th case from the I-th on, 1 and 1 of all; `found`, the files of the whole folder that are named
                as cases; `planned` and `done`, how many of them were to be looked at and were; `ended`, what ended it
                early, or null; `began`, `took`: when it began, and how many seconds it took
    unnamed     how many files are no cases by their names; `others`: these names, which older reports do not have
    left_out    files that are named as cases and are none: `name`, `why`
    cases       in the order of their names: `name`; `bytes`, `digest`: of the case file, null where it was not read;
                `seconds` of `memcase`; `fault`, why there is no verdict, or null; `runs`, `alike`, `orders`
    reduced     the smallest cases found of groups: `simulator`, `kind`, `access`; `name` of the case that it was made
                of; `bytes`; `hex`; `text` of casetext.py, null of a damaged case; `difference`, `shown`; `whole`,
                whether it was ended before nothing more could be left out

and, made of these and not read again, `totals` and `groups`.  For each simulator in turn `runs` has a `verdict` and
its `seconds`; where it differs `difference`, the fields of differences.py, and `shown`: the line, the byte, and what
both have there; where it hung or crashed `how`, and whether its text was `right`.  `alike`: all simulators have the
same wrong line first.  `orders`, for each simulator: its verdicts on sharper cases, each with `where` and, of those
that are wrong, the kind of `access` and `words`.
"""

import json
import os
from collections import Counter, namedtuple

from arbitration.differences import LOOSER, NO_TEXT, OTHER, REFUSED, SHARPER, SPELLED
from common.simulatorruns import CRASHED, HUNG, Misuse, cut, read_at_most
from sharpened import keptorder

FORMAT = "mangerday arbitration 1"

AGREED, DIFFERS, NOT_RUN, NO_VERDICT = "agreed", "differs", "not run", "-"
VERDICTS = AGREED, DIFFERS, HUNG, CRASHED
KINDS = SHARPER, LOOSER, OTHER, SPELLED, REFUSED, NO_TEXT
ACCESSES = "write", "read", "assert", "check", "end", "case"

# The largest report that is read; one of a hundred thousand cases has some 40 MB.
REPORT_BYTES = 1 << 30

# Cases in which a simulator fails in the same way: its number; the verdict; the kind of a difference, or what is the
# same of the others; the kind of access, or None; the numbers of the cases, that of the smallest first.
Group = namedtuple("Group", "simulator verdict kind access cases")


# Shapes

class Shape:
    """What a value of a report must be: `is_of` says whether it is."""

    def __init__(self, is_of):
        self.is_of = is_of


def of_types(*types):
    return Shape(lambda value: isinstance(value, types) and (bool in types or not isinstance(value, bool)))


def list_of(shape):
    return Shape(lambda value: isinstance(value, list) and all(map(shape.is_of, value)))


def fields(**shapes):
    """A dictionary that has these and may have more."""
    return Shape(lambda value: isinstance(value, dict) and all(
        name in value and shape.is_of(value[name]) for name, shape in shapes.items()))


def one_of(*words):
    return Shape(lambda value: isinstance(value, str) and value in words)


def either(*shapes):
    return Shape(lambda value: any(shape.is_of(value) for shape in shapes))


STRING, WHOLE, NUMBER, TRUTH, NOTHING = (
    of_types(str), of_types(int), of_types(int, float), of_types(bool), of_types(type(None)))
MAYBE_WHOLE, MAYBE_STRING = either(WHOLE, NOTHING), either(STRING, NOTHING)

DIFFERENCE = fields(kind=one_of(*KINDS), access=one_of(*ACCESSES), number=MAYBE_WHOLE, bit=MAYBE_WHOLE,
                    line=MAYBE_WHOLE, assignment=either(list_of(list_of(WHOLE)), NOTHING), right=STRING, found=STRING,
                    words=STRING)
SHOWN = fields(line=WHOLE, byte=WHOLE, right=STRING, found=STRING, stopped=TRUTH)
RUN = either(fields(verdict=one_of(AGREED, NOT_RUN, NO_VERDICT), seconds=NUMBER),
             fields(verdict=one_of(DIFFERS), seconds=NUMBER, difference=DIFFERENCE, shown=SHOWN),
             fields(verdict=one_of(HUNG, CRASHED), seconds=NUMBER, how=STRING, right=TRUTH))
ORDER = either(fields(verdict=one_of(keptorder.KEPT, keptorder.NO_CLAIM), where=STRING),
               fields(verdict=one_of(keptorder.SWINGS, keptorder.FAILED), where=STRING, access=MAYBE_STRING,
                      words=STRING))
CASE = fields(name=STRING, bytes=MAYBE_WHOLE, digest=MAYBE_STRING, seconds=NUMBER, fault=MAYBE_STRING,
              runs=list_of(RUN), alike=TRUTH, orders=list_of(list_of(ORDER)))
PART = fields(folder=STRING, shard=list_of(WHOLE), found=WHOLE, planned=WHOLE, done=WHOLE, ended=MAYBE_STRING,
              began=STRING, took=NUMBER)
REDUCED = fields(simulator=WHOLE, kind=STRING, access=MAYBE_STRING, name=STRING, bytes=WHOLE, hex=STRING,
                 text=MAYBE_STRING, difference=DIFFERENCE, shown=SHOWN, whole=TRUTH)
REPORT = fields(format=one_of(FORMAT), names=list_of(STRING), commands=list_of(STRING), memcase=STRING, seconds=NUMBER,
                sharpen=WHOLE, hangs=WHOLE, parts=list_of(PART), unnamed=WHOLE,
                left_out=list_of(fields(name=STRING, why=STRING)), cases=list_of(CASE), reduced=list_of(REDUCED))


def fits(report):
    """Whether a value is a report: its shape, and as many runs and verdicts in each case as there are simulators."""
    if not REPORT.is_of(report) or not report["parts"]:
        return False
    many = len(report["names"])
    return (many in (1, 2) and len(report["commands"]) == many and list_of(STRING).is_of(report.get("others", []))
            and all(len(case["runs"]) == len(case["orders"]) == many for case in report["cases"])
            and all(len(part["shard"]) == 2 and 1 <= part["shard"][0] <= part["shard"][1] for part in report["parts"])
            and all(0 <= reduced["simulator"] < many for reduced in report["reduced"]))


# Totals and groups

def verdict_counts(report, simulator):
    return Counter(case["runs"][simulator]["verdict"] for case in report["cases"])


def kind_counts(report, simulator):
    """How many differences of each kind there are, in the order of KINDS."""
    found = Counter(case["runs"][simulator]["difference"]["kind"] for case in report["cases"]
                    if case["runs"][simulator]["verdict"] == DIFFERS)
    return {kind: found[kind] for kind in KINDS if found[kind]}


def order_counts(report, simulator):
    return Counter(order["verdict"] for case in report["cases"] for order in case["orders"][simulator])


def sharper_counts(report):
    """How many sharper cases were run, and of how many cases."""
    made = [max(map(len, case["orders"])) for case in report["cases"]]
    return sum(made), sum(many > 0 for many in made)


def totals(report):
    return {
        "cases": len(report["cases"]),
        "no verdict": sum(case["fault"] is not None for case in report["cases"]),
        "alike": sum(case["alike"] for case in report["cases"]),
        "simulators": [{"name": name, "verdicts": dict(verdict_counts(report, place)),
                        "differences": kind_counts(report, place), "orders": dict(order_counts(report, place))}
                       for place, name in enumerate(report["names"])]}


def manner(how):
    """How a run failed, without what the simulator itself said of it."""
    return how.partition(": ")[0]


def failures_of(case, simulator):
    """The ways in which a simulator fails on a case, each once: verdict, kind and access of a group."""
    run = case["runs"][simulator]
    found = []
    if run["verdict"] == DIFFERS:
        found.append((DIFFERS, run["difference"]["kind"], run["difference"]["access"]))
    elif run["verdict"] in (HUNG, CRASHED):
        found.append((run["verdict"], manner(run["how"]), None))
    swings = [(order["verdict"], order["verdict"], order["access"]) for order in case["orders"][simulator]
              if order["verdict"] in (keptorder.SWINGS, keptorder.FAILED) and order["words"]]
    return found + sorted(set(swings), key=swings.index)


def place_in(words, word):
    """A word's place in a list, and the word: those that are not in it come last, by their letters."""
    return words.index(word) if word in words else len(words), word or ""


def group_order(group):
    return (place_in((DIFFERS, keptorder.SWINGS, keptorder.FAILED, CRASHED, HUNG), group.verdict), group.simulator,
            place_in(KINDS, group.kind), place_in(ACCESSES, group.access))


def groups(report):
    """The groups: differences, then swings on sharper cases, then crashed and hung runs; each by simulator, kind and
    access."""
    found = {}
    for number, case in enumerate(report["cases"]):
        for simulator in range(len(report["names"])):
            for failure in failures_of(case, simulator):
                found.setdefault((simulator, *failure), []).append(number)
    return sorted((Group(*key, smallest_first(report, numbers)) for key, numbers in found.items()), key=group_order)


def smallest_first(report, numbers):
    """The numbers of cases, that of the fewest bytes moved to the front."""
    first = min(numbers, key=lambda number: (report["cases"][number]["bytes"] or 0, number))
    return [first] + [number for number in numbers if number != first]


def reduced_of(report, group):
    """The smallest case found of a group, or None."""
    wanted = group.simulator, group.kind, group.access
    found = [item for item in report["reduced"] if (item["simulator"], item["kind"], item["access"]) == wanted]
    return min(found, key=lambda reduced: (reduced["bytes"], reduced["name"]), default=None)


def missing_shards(report):
    """The shards, as pairs I and N, that no part has."""
    have = {tuple(part["shard"]) for part in report["parts"]}
    if (1, 1) in have:
        return []
    return [(place, many) for many in sorted({many for _, many in have}) for place in range(1, many + 1)
            if (place, many) not in have]


def ended_parts(report):
    """The parts that a signal ended and no other of the same shard makes good."""
    whole = {tuple(part["shard"]) for part in report["parts"] if part["ended"] is None}
    return [part for part in report["parts"]
            if part["ended"] is not None and tuple(part["shard"]) not in whole and (1, 1) not in whole]


def status(report, merged=False):
    """0 where all agreed, 1 where a simulator did not, 2 where `memcase` failed, something is missing or nothing was
    run.  Of a shard by itself no other is missing, and it may be empty; of joined reports all are wanted."""
    cases = report["cases"]
    if any(case["fault"] is not None for case in cases) or ended_parts(report) or merged and missing_shards(report):
        return 2
    if not cases and (merged or not missing_shards(report)):
        return 2
    verdicts = {run["verdict"] for case in cases for run in case["runs"]}
    swung = {order["verdict"] for case in cases for found in case["orders"] for order in found}
    return 0 if verdicts <= {AGREED} and not swung & {keptorder.SWINGS, keptorder.FAILED} else 1


# Files

def as_text(report):
    """The file of a report, with what is made of it for those who read it."""
    made = {"totals": totals(report), "groups": [shown_group(report, group) for group in groups(report)]}
    return json.dumps({**report, **made}, indent=1, ensure_ascii=True) + "\n"


def shown_group(report, group):
    return {**group._asdict(), "simulator": report["names"][group.simulator],
            "cases": [report["cases"][number]["name"] for number in group.cases]}


def need_place(path):
    """See that a file can be written, before hours are spent on what it is to hold."""
    folder = os.path.dirname(path) or "."
    if os.path.isdir(path):
        raise Misuse("%s is a folder: name a file" % path)
    if not os.path.isdir(folder):
        raise Misuse("no folder %s for %s: make it first" % (folder, os.path.basename(path)))
    if not os.access(folder, os.W_OK):
        raise Misuse("the folder %s cannot be written" % folder)


def write_file(path, text):
    """Write a file whole: what is read under its name is never a part of it."""
    if not os.path.exists(path) or os.path.isfile(path):
        part = "%s.%d.part" % (path, os.getpid())
        with open(part, "w", encoding="utf-8") as file:
            file.write(text)
        os.replace(part, path)
    else:
        with open(path, "w", encoding="utf-8") as file:
            file.write(text)


def read_file(path):
    """The report of a file."""
    data = read_at_most(path, REPORT_BYTES)
    try:
        report = json.loads(data.decode("utf-8"))
    except (ValueError, RecursionError) as error:
        raise Misuse("%s is no JSON, or only a part of it: %s" % (path, cut(str(error).encode("utf-8"), 0))) from None
    if not isinstance(report, dict) or report.get("format") != FORMAT:
        raise Misuse("%s is no report of this arbiter: `--json` writes them, with the format `%s`" % (path, FORMAT))
    if not fits(report):
        raise Misuse("%s is a damaged report: make it again with `--json`" % path)
    return {name: value for name, value in report.items() if name not in ("totals", "groups")}


# Joining

SAME = {"names": "the names of the simulators", "commands": "the commands", "memcase": "the command of memcase",
        "seconds": "--seconds", "sharpen": "--sharpen"}


def need_same(paths, reports):
    """See that reports are of one arbitration, by what was run and by how many cases there are."""
    for path, report in zip(paths[1:], reports[1:]):
        for name, words in SAME.items():
            if report[name] != reports[0][name]:
                raise Misuse("%s and %s are of two arbitrations: %s are not the same" % (paths[0], path, words))
        if report["parts"][0]["found"] != reports[0]["parts"][0]["found"]:
            raise Misuse("%s and %s are of two arbitrations: one folder has %d cases, the other %d" % (
                paths[0], path, reports[0]["parts"][0]["found"], report["parts"][0]["found"]))


def said_of(case):
    """What two reports must say alike of a case: all but the seconds, and what was not run."""
    return [case["fault"] and manner(case["fault"]),
            [{name: value for name, value in run.items() if name in ("verdict", "difference")} for run in case["runs"]],
            [[order["verdict"] for order in found] for found in case["orders"]]]


def was_run(case):
    return any(run["verdict"] != NOT_RUN for run in case["runs"])


def joined_case(one, other, paths):
    """A case that two reports have; one on which a simulator was not run says nothing of it."""
    if one["digest"] and other["digest"] and one["digest"] != other["digest"]:
        raise Misuse("%s is not the same case in %s and in %s" % (one["name"], *paths))
    if not was_run(one) or not was_run(other):
        return one if was_run(one) else other
    run_in_both = [place for place, runs in enumerate(zip(one["runs"], other["runs"]))
                   if all(run["verdict"] != NOT_RUN for run in runs)]
    if said_of(narrowed(one, run_in_both)) != said_of(narrowed(other, run_in_both)):
        raise Misuse("%s has other verdicts in %s than in %s: %s and %s" % (
            one["name"], *paths, shown_verdicts(one), shown_verdicts(other)))
    many = [sum(run["verdict"] != NOT_RUN for run in case["runs"]) for case in (one, other)]
    return one if many[0] >= many[1] else other


def narrowed(case, places):
    """A case with some of its simulators."""
    return {**case, "runs": [case["runs"][place] for place in places],
            "orders": [case["orders"][place] for place in places]}


def shown_verdicts(case):
    if case["fault"]:
        return "no verdict"
    return ", ".join(run["verdict"] + (" (%s)" % run["difference"]["kind"] if run["verdict"] == DIFFERS else "")
                     for run in case["runs"])


def joined_cases(paths, reports):
    found, where = {}, {}
    for path, report in zip(paths, reports):
        for case in report["cases"]:
            name = case["name"]
            if name in found:
                case = joined_case(found[name], case, (where[name], path))
            else:
                where[name] = path
            found[name] = case
    return sorted(found.values(), key=lambda case: case_order(case["name"]))


def case_order(name):
    """The order of names is that of the folders and files in them."""
    return name.split("/")


def unlike(items):
    """The items in their order, each once."""
    found = []
    for item in items:
        if item not in found:
            found.append(item)
    return found


def joined(paths, reports):
    """One report of several of one arbitration."""
    need_same(paths, reports)
    every = {name: [item for report in reports for item in report[name]] for name in ("parts", "left_out", "reduced")}
    return {
        **reports[0],
        "parts": sorted(unlike(every["parts"]), key=lambda part: (part["shard"][1], part["shard"][0], part["began"])),
        "unnamed": max(report["unnamed"] for report in reports),
        "others": max((report.get("others", []) for report in reports), key=len),
        "left_out": sorted(unlike(every["left_out"]), key=lambda file: case_order(file["name"])),
        "cases": joined_cases(paths, reports),
        "reduced": unlike(every["reduced"])}
