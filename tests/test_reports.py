#!/usr/bin/env python3
"""Tests of the arbiter's reports: groups, files, shards and their joining, pages, signals; some seconds.

    python3 tests/test_reports.py [-v]

Most cases are judged in this process, by programs that are functions; the second program stands in for `memcase`.
"""

import argparse
import copy
import json
import os
import pty
import re
import shlex
import shutil
import signal
import subprocess
import sys
import tempfile
import threading
import time
import unittest
from collections import Counter
from contextlib import chdir, redirect_stdout
from html.parser import HTMLParser
from io import StringIO
from unittest import mock

from rooms import ROOT, TOOLS
import arbiter
import storedcases
import wrongreads
from arbitration import judging, reportpage, reports
from arbitration.differences import SHARPER
from arbitration.reporttext import report_lines
from common.randomcases import Random, random_bytes
from common.simulatorruns import CRASHED, HUNG, Misuse, Run
from language import casetext
from planting import planted
from second.calls import Memory
from second.reference import memcase
from test_arbiter import REFERENCE, alive, simulator

EXAMPLE = b"memory n=1 w=1\nread enable=1 address=0\n"


# Reports that are made in this process

class Answering:
    """A program that is a function of a case and its right text: its own text, or a run."""

    seconds = 10

    def __init__(self, answer):
        self.answer = answer

    def once(self, data, _):
        return self.run(data)

    def run(self, data):
        found = self.answer(data, memcase(data))
        return found if isinstance(found, Run) else Run(found.encode("ascii"), None, None, b"", 0.01)

    def given_up(self):
        return False


def right(_, text):
    return text


# Flaws, and the group that a difference by each is in.
FLAWS = {
    "sharper": (lambda text: text.replace(" 1:1", " 1:0"), ("sharper", "read")),
    "count": (lambda text: re.sub(r"^end (\d+)$", lambda found: "end %d" % (int(found[1]) + 1), text, flags=re.M),
              ("other", "end")),
    "newline": (lambda text: text[:-1], None),
    "nothing": (lambda text: "", ("no text", "case")),
}


def flawed(data, text):
    """A simulator that has each flaw in some cases, and crashes or hangs in others."""
    way = (["right", "crash", "hang"] + list(FLAWS))[sum(data) % 7]
    if way == "crash":
        return Run(b"", CRASHED, "it ended with status 3: no licence", b"", 0.01)
    if way == "hang":
        return Run(b"", HUNG, "it had not ended after 10 seconds", b"", 10.0)
    return text if way == "right" else FLAWS[way][0](text)


def loses_unknown(_, text):
    return text.replace(" 1:1", " 1:0")


def random_cases(many):
    return [("%02d/%d.case" % (number % 3, number), random_bytes(number)[0]) for number in range(many)]


def options(**changed):
    given = {"folder": "cases", "commands": ["a", "b"], "memcase": None, "seconds": 10, "sharpen": 0, "hangs": 10}
    return argparse.Namespace(**{**given, **changed})


def made(cases, answers, shard=(1, 1), names=("A", "B"), sharpen=0):
    """The report of a shard of cases, as the arbiter makes it."""
    cases = sorted(cases, key=lambda case: reports.case_order(case[0]))
    mine = cases[shard[0] - 1::shard[1]]
    report = arbiter.new_report(options(commands=list(names), sharpen=sharpen), list(names), list(shard), len(cases),
                                len(mine), [])
    judge = judging.Judging(Answering(right), [Answering(answer) for answer in answers], sharpen)
    report["cases"] = [judge.record(name, lambda data=data: data) for name, data in mine]
    report["parts"][0]["done"] = len(mine)
    return report


def printed(report, merged=False):
    return "\n".join(report_lines(report, True, True, merged))


def written(report):
    """A report as it comes back from its file."""
    with tempfile.TemporaryDirectory() as folder:
        path = os.path.join(folder, "a.json")
        reports.write_file(path, reports.as_text(report))
        return reports.read_file(path)


class Groups(unittest.TestCase):
    """What is counted and grouped, against what was planted."""

    @classmethod
    def setUpClass(cls):
        cls.cases = random_cases(140)
        cls.report = made(cls.cases, [flawed, right])

    def expected(self):
        """How many cases each verdict has, and each group of the flaws that have one alone."""
        verdicts, found = Counter(), Counter()
        for _, data in self.cases:
            text = memcase(data)
            answer = flawed(data, text)
            if isinstance(answer, Run):
                verdicts[answer.failure] += 1
            elif answer == text:
                verdicts["agreed"] += 1
            else:
                verdicts["differs"] += 1
                found.update(group for flaw, group in FLAWS.values() if group and flaw(text) == answer)
        return verdicts, found

    def test_counts(self):
        verdicts, found = self.expected()
        self.assertEqual(reports.verdict_counts(self.report, 0), verdicts)
        self.assertEqual(set(reports.verdict_counts(self.report, 1)), {"agreed"})
        sizes = {(group.kind, group.access): len(group.cases) for group in reports.groups(self.report)}
        self.assertGreater(min(found.values()), 1)
        for key, many in found.items():
            self.assertEqual(sizes[key], many, key)
        self.assertEqual(sizes["it ended with status 3", None], verdicts["crashed"])
        self.assertEqual(sum(sizes.values()), sum(verdicts.values()) - verdicts["agreed"])
        self.assertEqual(reports.status(self.report), 1)

    def test_smallest_first(self):
        data = dict(self.cases)
        for group in reports.groups(self.report):
            sizes = [len(data[self.report["cases"][number]["name"]]) for number in group.cases]
            self.assertEqual(sizes[0], min(sizes))
            self.assertEqual(len(set(group.cases)), len(group.cases))

    def test_differences_are_kept(self):
        """The assignment of each lost unknown shows it: `memcase` may have both values there."""
        shown = [case["runs"][0]["difference"] for case in self.report["cases"]
                 if case["runs"][0].get("difference", {}).get("kind") == SHARPER]
        self.assertTrue(shown)
        self.assertEqual({(difference["right"], difference["found"]) for difference in shown}, {("X", "1")})

    def test_status(self):
        cases = self.cases[:10]
        self.assertEqual(reports.status(made(cases, [right, right])), 0)
        self.assertEqual(reports.status(made(cases, [right], names=("A",))), 0)
        failed = made(cases, [right, right])
        failed["cases"][3]["fault"] = "hung: it had not ended"
        self.assertEqual(reports.status(failed), 2)
        self.assertEqual(reports.status(made([], [right, right])), 2)
        self.assertEqual(reports.status(made([], [right, right], (2, 3))), 0)
        self.assertEqual(reports.status(made([], [right, right], (2, 3)), True), 2)

    def test_sharper_cases(self):
        """Swings are groups too, by the kind of access."""
        text = "memory n=1 w=1\nwrite enable=1 address=0 data=X\nread enable=1 address=0\n"
        report = made([("a.case", casetext.encode(text))], [loses_unknown, right], sharpen=2)
        self.assertIn(("swings", "read"), [(group.verdict, group.access) for group in reports.groups(report)])
        self.assertEqual(written(report), report)


class Reducing(unittest.TestCase):
    """The smallest case of a group."""

    def reduced(self, answer, name, kind, access, seconds=60):
        """What is kept of the search among the cases made of a stored one."""
        search = judging.Reduction(Answering(right), Answering(answer), kind, access, seconds)
        return search.record(0, name, storedcases.named(name).data)

    def test_smallest(self):
        """The case that is kept differs in the way of its group, and no other access is left in it."""
        found = self.reduced(loses_unknown, "example-registers", "sharper", "read")
        self.assertEqual([found[name] for name in ("simulator", "kind", "access", "whole")], [0, "sharper", "read", True])
        data = casetext.encode(found["text"])
        self.assertEqual((data.hex(" "), len(data)), (found["hex"], found["bytes"]))
        self.assertEqual(re.findall(r"^(read|write|assert|check)", found["text"], re.M), ["read"])
        self.assertIn(" 1:1", memcase(data))
        self.assertEqual((found["shown"]["line"], found["difference"]["number"]), (1, 0))

    def test_the_way_is_kept(self):
        """A smaller case on which the simulator differs in another way is not taken."""
        def two_flaws(_, text):
            return text.replace("end ", "end 1") if text.count("\n") < 4 else text.replace(" 1:1", " 1:0")

        found = self.reduced(two_flaws, "example-registers", "sharper", "read")
        self.assertEqual(found["difference"]["kind"], "sharper")
        self.assertEqual(memcase(casetext.encode(found["text"])).count("\n"), 4)

    def test_ends(self):
        """A search ends when its time is up, with what it has; and there is none where a run cannot be made again."""
        def slow(data, text):
            time.sleep(0.05)
            return loses_unknown(data, text)

        begun = time.monotonic()
        found = self.reduced(slow, "example-registers", "sharper", "read", 0.4)
        self.assertLess(time.monotonic() - begun, 20)
        self.assertFalse(found["whole"])
        self.assertIn(" 1:1", memcase(bytes.fromhex(found["hex"])))
        self.assertIsNone(self.reduced(right, "example-registers", "sharper", "read"))
        self.assertIsNone(self.reduced(lambda *_: Run(b"", "hung", "x"), "example-registers", "sharper", "read"))

    def test_damaged(self):
        """Of a case that is no case file there is no text, and its bytes are kept."""
        found = self.reduced(lambda *_: "refused 1 after 0\n", damaged_name(), "refused otherwise", "case")
        self.assertEqual((found["text"], len(bytes.fromhex(found["hex"]))), (None, found["bytes"]))


def damaged_name():
    """A stored case that is refused since it ends early."""
    return next(case.name for case in storedcases.all_cases() if case.through == "memcase"
                and memcase(case.data).startswith("refused 10 after "))


class Joining(unittest.TestCase):
    """Shards joined are the whole, and what cannot be joined is said."""

    @classmethod
    def setUpClass(cls):
        cls.cases = random_cases(40)
        cls.whole = made(cls.cases, [flawed, loses_unknown])

    def shards(self, many):
        return [written(made(self.cases, [flawed, loses_unknown], (place, many))) for place in range(1, many + 1)]

    def join(self, parts):
        return reports.joined(["%d.json" % number for number in range(1, len(parts) + 1)], parts)

    def test_whole(self):
        for many in (1, 2, 3, 7, 50):
            with self.subTest(many):
                parts = self.shards(many)
                self.assertEqual(sum(len(part["cases"]) for part in parts), len(self.cases))
                parts.reverse()
                joined = self.join(parts)
                self.assertEqual(joined["cases"], self.whole["cases"])
                self.assertEqual(printed(joined, True), printed(self.whole))
                self.assertEqual(reports.status(joined, True), reports.status(self.whole))
                self.assertEqual(reports.totals(joined), reports.totals(self.whole))

    def test_missing(self):
        parts = self.shards(4)
        joined = self.join([parts[3], parts[1]])
        self.assertEqual(printed(joined, True).splitlines()[0], "20 cases; missing: shards 1/4, 3/4")
        self.assertEqual(reports.status(joined, True), 2)
        self.assertEqual(printed(parts[1]).splitlines()[0], "10 cases, shard 2/4")
        self.assertEqual(reports.status(self.join([joined, parts[0], parts[2]]), True), 1)

    def test_ended(self):
        """A part that was ended early is made good by another of the same shard."""
        parts = self.shards(2)
        early = copy.deepcopy(parts[0])
        early["cases"] = early["cases"][:5]
        early["parts"][0].update(ended="SIGTERM", done=5, began="2026-01-01T00:00:00Z")
        joined = self.join([early, parts[1]])
        self.assertEqual(reports.status(joined, True), 2)
        self.assertIn("shard 1/2 ended early (SIGTERM): 5 of 20 files looked at", printed(joined, True))
        self.assertEqual(printed(self.join([early, *parts]), True), printed(self.whole))

    def test_twice(self):
        """What two reports have alike is counted once, and seconds may differ."""
        other = copy.deepcopy(self.whole)
        other["cases"][0]["runs"][0]["seconds"] = 9
        self.assertEqual(printed(self.join([self.whole, other, self.whole]), True), printed(self.whole))

    def test_not_run(self):
        """A run that was not made yields to one that was, whichever report is first."""
        other = copy.deepcopy(self.whole)
        for case in other["cases"][20:]:
            case["runs"][0] = {"verdict": "not run", "seconds": 0}
            case["orders"][0] = []
        for pair in ([self.whole, other], [other, self.whole]):
            self.assertEqual(reports.totals(self.join(pair)), reports.totals(self.whole))

    def test_other_files(self):
        """The names of files that are no cases are kept; a report without them, as older ones are, is joined too."""
        named = copy.deepcopy(self.whole)
        named.update(unnamed=2, others=["a<b>.md", "notes"])
        older = {name: value for name, value in written(named).items() if name != "others"}
        self.assertTrue(reports.fits(older))
        line = "left out: 2 files not named .case, .txt or .csv\n"
        self.assertIn("\n%s  a<b>.md\n  notes\n" % line, printed(written(named)))
        self.assertIn("\n%s\n" % line, printed(older))
        for pair in ([named, older], [older, named]):
            self.assertEqual(printed(self.join(pair), True), printed(named))
        self.assertIn("a&lt;b&gt;.md", reportpage.page(named))
        self.assertIn("2 files not named", reportpage.page(older))
        for others in (None, [1], "notes"):
            self.assertFalse(reports.fits({**named, "others": others}))

    def test_mistakes(self):
        name = self.whole["cases"][4]["name"]
        for change, message in (
                (lambda other: other.update(names=["A", "C"]), "of two arbitrations: the names of the simulators"),
                (lambda other: other.update(commands=["x", "y"]), "of two arbitrations: the commands"),
                (lambda other: other.update(seconds=20), "of two arbitrations: --seconds"),
                (lambda other: other["parts"][0].update(found=41), "one folder has 40 cases, the other 41"),
                (lambda other: other["cases"][4].update(digest="0"), name + " is not the same case in 1.json and in 2"),
                (lambda other: other["cases"][4].update(fault="hung: x"),
                 name + " has other verdicts in 1.json than in 2.json: ")):
            other = copy.deepcopy(self.whole)
            change(other)
            with self.assertRaises(Misuse) as raised:
                self.join([self.whole, other])
            self.assertIn(message, str(raised.exception))


class Files(unittest.TestCase):
    """Files of reports: what is in them, and files that are none."""

    def setUp(self):
        self.folder = tempfile.mkdtemp()
        self.addCleanup(shutil.rmtree, self.folder)
        self.report = made(random_cases(12), [flawed, loses_unknown])

    def read(self, data):
        path = os.path.join(self.folder, "a.json")
        with open(path, "wb") as file:
            file.write(data)
        return reports.read_file(path)

    def test_contents(self):
        text = reports.as_text(self.report)
        self.assertEqual(self.read(text.encode("ascii")), self.report)
        found = json.loads(text)
        self.assertEqual(found["format"], "mangerday arbitration 1")
        self.assertEqual(found["totals"]["cases"], 12)
        grouped = [name for group in found["groups"] if group["simulator"] == "B" for name in group["cases"]]
        self.assertEqual(sorted(grouped), sorted(case["name"] for case in found["cases"]
                                                 if case["runs"][1]["verdict"] != "agreed"))
        self.assertEqual(os.listdir(self.folder), ["a.json"])

    def test_no_reports(self):
        whole = reports.as_text(self.report).encode("ascii")
        for data in (b"", b"{", b"\xff\xfe", b"[" * 100000, whole[:-100], whole.replace(b'"names"', b'"names', 1)):
            with self.assertRaisesRegex(Misuse, "a.json is no JSON, or only a part of it"):
                self.read(data)
        for data in (b"[]", b"1", b"null", b"{}", b'{"format": "other"}',
                     whole.replace(b"arbitration 1", b"arbitration 2")):
            with self.assertRaisesRegex(Misuse, "a.json is no report of this arbiter"):
                self.read(data)
        with self.assertRaisesRegex(Misuse, "cannot read .*none.json: No such file"):
            reports.read_file(os.path.join(self.folder, "none.json"))

    def test_damaged_reports(self):
        """A report in which anything was lost or replaced is refused, or can be told."""
        refused = 0
        for seed in range(400):
            rng = Random(seed)
            damaged = copy.deepcopy(self.report)
            damage(damaged, rng)
            try:
                found = self.read(json.dumps(damaged).encode("ascii"))
            except Misuse:
                refused += 1
            else:
                printed(reports.joined(["a.json"], [found]), True)
                reportpage.page(found, True)
                reports.as_text(found)
        self.assertGreater(refused, 200)


def damage(report, rng):
    """Lose or replace one value somewhere in a report."""
    place, keys = report, []
    while True:
        keys = list(place) if isinstance(place, dict) else list(range(len(place)))
        key = rng.choice(keys)
        inner = place[key]
        if not isinstance(inner, (dict, list)) or not inner or rng.choice([True, False, False]):
            break
        place = inner
    if rng.choice([True, False]):
        del place[key]
    else:
        place[key] = rng.choice([None, -1, "x\x1b", [], {}, 1.5, True])


class Page(HTMLParser):
    """A page taken apart: every element must be closed, and nothing come from elsewhere."""

    VOID = {"meta", "br", "input"}

    def __init__(self, text):
        super().__init__()
        self.open, self.ids, self.links, self.texts, self.tags, self.faults = [], [], [], [], Counter(), []
        self.feed(text)
        self.close()

    def handle_starttag(self, tag, attrs):
        self.tags[tag] += 1
        given = dict(attrs)
        self.ids += [given["id"]] if "id" in given else []
        self.links += [given["href"]] if "href" in given else []
        self.faults += [name for name in given if name.startswith("on") or name == "src"]
        if tag not in self.VOID:
            self.open.append(tag)

    def handle_endtag(self, tag):
        if not self.open or self.open.pop() != tag:
            self.faults.append("</%s>" % tag)

    def handle_data(self, data):
        self.texts.append(data)


class Pages(unittest.TestCase):
    def check(self, text):
        """The page taken apart, where it is well formed and whole by itself."""
        found = Page(text)
        self.assertEqual((found.open, found.faults), ([], []))
        self.assertEqual(len(set(found.ids)), len(found.ids))
        self.assertLessEqual({link[:1] for link in found.links}, {"#"})
        self.assertLessEqual({link[1:] for link in found.links}, set(found.ids))
        self.assertFalse({"script", "link", "img", "iframe", "object"} & set(found.tags))
        return found

    def test_whole(self):
        report = made(random_cases(60), [flawed, loses_unknown])
        found = self.check(reportpage.page(report))
        self.assertEqual(sum(name.startswith("case-") for name in found.ids), 60)
        self.assertEqual(found.tags["section"], len(reports.groups(report)))
        for case in report["cases"]:
            self.assertIn(case["name"], found.texts)

    def test_escaped(self):
        """Names, commands and what simulators wrote do not become elements or control characters."""
        report = made([("<script>x</script>&\"'.case", casetext.encode(EXAMPLE.decode()))],
                      [lambda *_: "<b>\x1b[2J</b>\n", lambda *_: Run(b"", "crashed", "<i>", b"", 0)],
                      names=("<u>", "\"&amp;"))
        report["left_out"] = [{"name": "<s>", "why": "is <em>\x1b"}]
        text = reportpage.page(report)
        found = self.check(text)
        self.assertFalse({"b", "i", "u", "s", "em"} & set(found.tags))
        self.assertNotIn("\x1b", text)
        self.assertIn("<script>x</script>&\"'.case", found.texts)
        self.assertNotIn("\x1b", printed(report))

    def test_other_reports(self):
        """Sharper cases, one simulator, none agreed, no cases, missing shards, reduced cases."""
        one = made(random_cases(5), [right], (2, 3), names=("A",))
        self.check(reportpage.page(one, True))
        self.check(reportpage.page(made([], [right]), False))
        cases = [("a.case", casetext.encode("memory n=1 w=1\nread enable=X address=X\n"))]
        sharper = made(cases, [loses_unknown, right], sharpen=3)
        difference, shown = (sharper["cases"][0]["runs"][0][name] for name in ("difference", "shown"))
        for text in ("memory n=1 w=1\n", None):
            sharper["reduced"] = [{"simulator": 0, "kind": "sharper", "access": "read", "name": "a.case", "bytes": 6,
                                   "hex": "01 01 00", "text": text, "difference": difference, "shown": shown,
                                   "whole": False}]
            self.assertTrue(reports.fits(sharper))
            self.assertIn(text or "01 01 00", self.check(reportpage.page(sharper)).texts + ["memory n=1 w=1\n"])
            self.assertIn("    memory n=1 w=1" if text else "    in hexadecimal: 01 01 00", printed(sharper))

    def test_many_cases(self):
        report = made(random_cases(100), [flawed, loses_unknown])
        report["cases"] = [{**case, "name": "%d/%s" % (number, case["name"])}
                           for number in range(50) for case in report["cases"]]
        begun = time.monotonic()
        self.assertLess(len(reportpage.page(report)), 10000000)
        self.assertLess(time.monotonic() - begun, 20)


# The command

class Commands(unittest.TestCase):
    def setUp(self):
        self.folder = tempfile.mkdtemp()
        self.addCleanup(shutil.rmtree, self.folder)
        os.mkdir(self.path("cases"))

    def path(self, *names):
        return os.path.join(self.folder, *names)

    def put(self, name, data):
        with open(self.path("cases", name), "wb") as file:
            file.write(data)

    def words(self, *words):
        return [sys.executable, os.path.join(TOOLS, "arbiter.py"), *words]

    def arbitrate(self, *words):
        """The status, and what was printed to both outputs."""
        done = subprocess.run(self.words(self.path("cases"), *words, "--memcase", REFERENCE), capture_output=True,
                              check=False)
        return done.returncode, done.stdout.decode("utf-8"), done.stderr.decode("utf-8")

    def merge(self, *words):
        done = subprocess.run(self.words("merge", *words), capture_output=True, check=False, cwd=self.folder)
        return done.returncode, done.stdout.decode("utf-8"), done.stderr.decode("utf-8")

    def test_shards(self):
        for name in ("ruling-01", "ruling-02", "idle-first", "row-01-n9-w1"):
            self.put(name + ".case", storedcases.named(name).data)
        self.put("notes.txt", b"notes\n")
        way = simulator("loses-unknown")
        whole = self.arbitrate(way)
        self.assertEqual((whole[0], whole[2]), (1, ""))
        names = ["1.json", "2.json"]
        for place, name in enumerate(names, 1):
            status, out, errors = self.arbitrate(way, "--shard", "%d/2" % place, "--json", self.path(name))
            self.assertIn(", shard %d/2\n" % place, out)
            self.assertEqual(errors, "")
        self.assertEqual(self.merge(*names, "--json", "all.json", "--html", "all.html"), whole)
        self.assertEqual(self.merge("all.json"), whole)
        self.assertEqual(self.merge("all.json", "--strict"),
                         (2, whole[1], "arbiter: --strict: 1 file named as a case was left out\n"))
        status, out, errors = self.merge("all.json", "--json", "-")
        self.assertEqual((status, json.loads(out)["totals"]["cases"], errors), (1, 4, ""))
        self.assertEqual(self.merge(names[0])[0], 2)
        self.assertEqual(self.merge("none.json"),
                         (2, "", "arbiter: cannot read none.json: No such file or directory\n"))
        self.assertEqual(self.merge(*names, "--html", "2.json"), (
            2, "", "arbiter: 2.json is a report that is joined: name another file for --html\n"))
        status, out, errors = self.arbitrate(way, "--shard", "9/9")
        self.assertEqual((status, out.splitlines()[0], errors), (0, "0 cases, shard 9/9", ""))

    def test_reduce(self):
        """The smallest case of a group is written to a folder too, and is in the report."""
        self.put("a.txt", EXAMPLE)
        status, out, errors = self.arbitrate(simulator("loses-unknown"), "--reduced", self.path("made"), "--json", "-")
        self.assertEqual((status, errors), (1, ""))
        found, = json.loads(out)["reduced"]
        with open(self.path("made", "first-sharper-read.txt"), encoding="utf-8") as file:
            self.assertEqual(file.read(), found["text"])

    def test_signals(self):
        """What was finished is told, the simulators and their children are gone, and a merge says what is missing."""
        self.put("a.txt", EXAMPLE)
        self.put("b.txt", EXAMPLE)
        self.put("c.case", storedcases.named("ruling-09").data)
        self.put("d.txt", EXAMPLE)
        for number in (signal.SIGINT, signal.SIGTERM):
            with self.subTest(number.name):
                status, out, errors, left = self.ended_by(number)
                self.assertEqual((status, out.splitlines(), errors), (128 + number, [
                    "2 cases",
                    "first: agreed 2, differs 0, hung 0, crashed 0",
                    "second: agreed 2, differs 0, hung 0, crashed 0",
                    "ended early (%s): 2 of 4 files looked at" % number.name], ""))
                self.assertEqual(len(left), 2)
                self.assertFalse([process for process in left if not gone(process)])
                status, out, _ = self.merge("a.json")
                self.assertEqual((status, out.splitlines()[3]),
                                 (2, "ended early (%s): 2 of 4 files looked at" % number.name))
                self.assertTrue(os.path.getsize(self.path("a.html")))

    def test_sent_again(self):
        """A further SIGINT at once, as `timeout -s INT` sends it, loses no report and leaves no process."""
        self.put("a.txt", EXAMPLE)
        self.put("b.txt", b"memory n=1 w=1\nrite\n")
        self.put("c.case", storedcases.named("ruling-09").data)
        status, out, errors, left = self.ended_by(signal.SIGINT, True)
        self.assertEqual((status, out.splitlines()[:4], errors), (128 + signal.SIGINT, [
            "1 case, 1 file left out (named below)",
            "first: agreed 1, differs 0, hung 0, crashed 0",
            "second: agreed 1, differs 0, hung 0, crashed 0",
            "ended early (SIGINT): 2 of 3 files looked at"], ""))
        self.assertEqual(len(reports.read_file(self.path("a.json"))["cases"]), 1)
        self.assertEqual([gone(process) for process in left], [True, True])

    def test_sent_later(self):
        """A further SIGINT ends it from one second after the first signal on, whichever that was; others do not."""
        for first in ("SIGINT", "SIGTERM", "SIGHUP"):
            with self.subTest(first):
                done = subprocess.run(
                    [sys.executable, "-c", SENT_LATER, TOOLS, first], capture_output=True, check=False,
                    preexec_fn=lambda: signal.signal(signal.SIGINT, signal.default_int_handler))
                self.assertEqual((done.returncode, done.stdout.decode("ascii").split(), done.stderr), (
                    -signal.SIGINT, [first, "0.0", "0.5", "0.99", "SIGTERM"], b""))

    def ended_by(self, number, again=False):
        """The arbiter's end where a signal comes while a simulator hangs, and some more at once; the processes that
        hung."""
        pids = self.path("pids-%d" % number)
        process = subprocess.Popen(
            self.words(self.path("cases"), simulator("right"), simulator("hangs-where-idle"), "--memcase", REFERENCE,
                       "--jobs", "1", "--seconds", "600", "--json", self.path("a.json"), "--html", self.path("a.html")),
            stdout=subprocess.PIPE, stderr=subprocess.PIPE, env={**os.environ, "PIDS": pids},
            preexec_fn=lambda: signal.signal(signal.SIGINT, signal.default_int_handler))
        try:
            for _ in range(1200):
                if len(lines_of(pids)) == 2:
                    break
                time.sleep(0.05)
            process.send_signal(number)
            for _ in range(5 if again else 0):
                time.sleep(0.002)
                process.send_signal(number)
            out, errors = process.communicate(timeout=60)
        finally:
            process.kill()
        return process.returncode, out.decode("ascii"), errors.decode("ascii"), [int(line) for line in lines_of(pids)]

    def test_progress(self):
        """A line that is rewritten on a terminal and gone at the end; what is printed is as without it."""
        for number in range(4):
            self.put("%d.txt" % number, EXAMPLE)
        words = self.words(self.path("cases"), simulator("loses-unknown"), "--memcase", REFERENCE, "--jobs", "1")
        terminal, other = pty.openpty()
        with os.fdopen(terminal, "rb", buffering=0) as screen:
            done = subprocess.run(words, stdout=subprocess.PIPE, stderr=other, check=False)
            os.close(other)
            shown = b""
            while not shown.endswith(b"\r\x1b[K"):
                shown += screen.read(4096)
        self.assertRegex(shown, rb"\r[1-4] of 4 cases, [1-4] not agreed")
        quiet = subprocess.run([*words, "--no-progress"], capture_output=True, check=False)
        self.assertEqual((done.stdout, quiet.stderr), (quiet.stdout, b""))

    def test_output_that_cannot_be_written(self):
        self.put("a.txt", EXAMPLE)
        words = self.words(self.path("cases"), simulator("loses-unknown"), "--memcase", REFERENCE)
        with open("/dev/full", "wb") as full:
            done = subprocess.run(words, stdout=full, stderr=subprocess.PIPE, check=False)
        self.assertEqual((done.returncode, done.stderr), (2, b"arbiter: [Errno 28] No space left on device\n"))
        ends = os.pipe()
        os.close(ends[0])
        with os.fdopen(ends[1], "wb") as closed:
            done = subprocess.run(words, stdout=closed, stderr=subprocess.PIPE, check=False)
        self.assertEqual((done.returncode, done.stderr), (1, b""))


# Signals that a process sends itself, at the times of a clock that is set by hand.
SENT_LATER = """
import os, signal, sys
sys.path.insert(0, sys.argv[1])
from arbitration import progress
clock = 100.0
progress.time.monotonic = lambda: clock
stopping = progress.Stopping()
os.kill(os.getpid(), signal.Signals[sys.argv[2]])
print(stopping.signal.name, flush=True)
for later in (0.0, 0.5, 0.99):
    clock = 100 + later
    os.kill(os.getpid(), signal.SIGINT)
    print(later, flush=True)
clock = 101.0
os.kill(os.getpid(), signal.SIGTERM)
print("SIGTERM", flush=True)
os.kill(os.getpid(), signal.SIGINT)
print("still there", flush=True)
"""


def lines_of(path):
    if not os.path.exists(path):
        return []
    with open(path, encoding="ascii") as file:
        return file.read().splitlines()


def gone(process):
    """Whether a killed process is gone, soon."""
    for _ in range(100):
        if not alive(process):
            return True
        time.sleep(0.05)
    return False


class Shards(unittest.TestCase):
    def test_numbers(self):
        self.assertEqual([arbiter.read_shard(text) for text in ("1/1", "2/8", "16/16")], [[1, 1], [2, 8], [16, 16]])
        for text in ("0/2", "3/2", "1", "a/b", "1/0", "-1/2", "1/2/3", "", " 1/2", "1/2\n", "1/99999999999",
                     "x" * 5000):
            with self.assertRaises(Misuse) as raised:
                arbiter.read_shard(text)
            self.assertLess(len(str(raised.exception)), 400)


ANSWERING = threading.Lock()


def answered(program, data, _):
    """A run of the reference, or of a simulator that holds across ports."""
    with ANSWERING:
        if program.name == "memcase":
            return Run(memcase(data).encode("ascii"), None, None)
        with planted(Memory, "read", wrongreads.holds_across_ports):
            return Run(memcase(data).encode("ascii"), None, None)


def indented(text):
    """A text as a page shows it."""
    return "".join("    %s\n" % line if line else "\n" for line in text.splitlines())


class Documents(unittest.TestCase):
    """The page on arbitration, up to sharper inputs: its commands, and what they print."""

    def setUp(self):
        with open(os.path.join(ROOT, "docs", "ARBITRATION.md"), encoding="utf-8") as file:
            self.section = file.read().split("\n## Sharpening an input\n")[0]
        self.folder = tempfile.mkdtemp()
        self.addCleanup(shutil.rmtree, self.folder)

    def commands(self, start):
        """The commands that stand alone and begin so."""
        blocks = [block for block in self.section.split("\n\n") if "\n" not in block]
        return [block.strip() for block in blocks if block.startswith("    " + start)]

    def printed_by(self, command):
        """What a command prints, as the page shows it; the reference stands in for `memcase`."""
        words = shlex.split(command.replace("target/", self.folder + "/"))
        done = subprocess.run(words + ([] if "merge" in words else ["--memcase", REFERENCE]), cwd=ROOT,
                              stdout=subprocess.PIPE, check=False)
        return indented(done.stdout.decode("ascii"))

    def shown(self, command):
        self.assertIn("    %s\n\n%s" % (command, self.printed_by(command)), self.section)

    def test_commands(self):
        """The first is run as it stands; the second runs many cases, which are answered in this process."""
        first, second = self.commands("python3 tools/arbiter.py examples")
        self.shown(first)
        words = shlex.split(second)
        self.assertEqual(words[3:], ["python3 tests/simulators/simulator.py holds-across-ports", "--reduce"])
        with chdir(ROOT), mock.patch.object(judging.Program, "once", answered), redirect_stdout(StringIO()) as out:
            self.assertEqual(arbiter.work([*words[2:], "--memcase", REFERENCE], None), 1)
        self.assertIn("    %s\n\n%s" % (second, indented(out.getvalue())), self.section)

    def test_job_array(self):
        """The script of the job array, as one job of it is run."""
        script, = re.findall(r"\n    (#!/bin/sh\n(?:    .*\n)*)", self.section)
        script = script.replace("\n    ", "\n").replace("target/", self.folder + "/")
        script = script.replace(" --jobs", " --memcase %s --jobs" % shlex.quote(REFERENCE))
        path = os.path.join(self.folder, "arbitrate.sh")
        with open(path, "w", encoding="utf-8") as file:
            file.write(script)
        numbers = {"SLURM_ARRAY_TASK_ID": "4", "SLURM_ARRAY_TASK_COUNT": "4", "SLURM_CPUS_PER_TASK": "2"}
        done = subprocess.run(["sh", path], cwd=ROOT, capture_output=True, check=False, env={**os.environ, **numbers})
        self.assertEqual((done.stderr, done.stdout.splitlines()[0]), (b"", b"1 case, shard 4/4"))
        self.assertEqual(len(reports.read_file(os.path.join(self.folder, "shard-4.json"))["cases"]), 1)

    @unittest.skipUnless(shutil.which("parallel"), "GNU parallel is not installed")
    def test_parallel(self):
        command, = self.commands("parallel ")
        command = command.replace("target/", self.folder + "/").replace(
            " --jobs", " --memcase %s --jobs" % shlex.quote(REFERENCE))
        subprocess.run(["sh", "-c", command], cwd=ROOT, stderr=subprocess.DEVNULL, check=False)
        command, = self.commands("python3 tools/arbiter.py merge")
        self.shown(command)
        self.assertTrue(os.path.getsize(os.path.join(self.folder, "arbitration.html")))


if __name__ == "__main__":
    unittest.main()
