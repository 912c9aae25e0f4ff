#!/usr/bin/env python3
"""Tests of the arbiter, with simulators that fail each in its way; a few seconds.

    python3 tests/test_arbiter.py [-v]

The reference stands in for `memcase`, so that nothing has to be built for them.
"""

import os
import re
import shlex
import shutil
import subprocess
import sys
import tempfile
import time
import unittest
from concurrent.futures import ThreadPoolExecutor

from rooms import ROOT, TOOLS
import arbiter
import storedcases
from arbitration import casefolder, judging, reporttext
from common import simulatorruns
from common.simulatorruns import CRASHED, HUNG, Misuse, words_of
from papers import TEXT_BYTES
from rowcases import WORKED
from second.reference import memcase

WORKED_TEXT = b"write 0\nread 1:(8 0 1)\ncheck (8 1 0)\nend 1\n"

NOT_WHOLE = "wrote no whole text: its last line is neither `end N` nor a refusal alone"

# Long enough for a right simulator on a machine with other work.
SECONDS = 10
# Short, for those that do not end.
SOON = 0.5


def python(*words):
    """A command that runs a Python program of the repository."""
    return shlex.join([sys.executable, os.path.join(ROOT, *words[0].split("/")), *words[1:]])


REFERENCE = python("tools/reference.py")


def simulator(way):
    return python("tests/simulators/simulator.py", way)


def run(way, data=WORKED, seconds=SECONDS):
    """What one run of a simulator wrote and how it failed, by the arbiter's own function."""
    return simulatorruns.run(shlex.split(simulator(way)), data, seconds)[:3]


class Folders(unittest.TestCase):
    """A folder of cases for each test."""

    def setUp(self):
        self.folder = tempfile.mkdtemp()
        self.addCleanup(shutil.rmtree, self.folder)

    def put(self, name, data):
        path = os.path.join(self.folder, name)
        os.makedirs(os.path.dirname(path), exist_ok=True)
        with open(path, "wb") as file:
            file.write(data)

    def put_stored(self, *names):
        for name in names:
            self.put(name + ".case", storedcases.named(name).data)

    def arbitrate(self, *words, memcase=REFERENCE):
        """The arbiter's status and what it printed, given commands and options."""
        words = [sys.executable, os.path.join(TOOLS, "arbiter.py"), self.folder, *words]
        if memcase is not None:
            words += ["--memcase", memcase]
        done = subprocess.run(words, stdout=subprocess.PIPE, stderr=subprocess.PIPE, check=False)
        self.errors = done.stderr.decode("ascii")
        return done.returncode, done.stdout.decode("ascii")

    def expect(self, status, lines, *arguments, **named):
        self.assertEqual(self.arbitrate(*arguments, **named), (status, "".join(line + "\n" for line in lines)))
        self.assertEqual(self.errors, "")

    def expect_misuse(self, message, *arguments, **named):
        self.assertEqual(self.arbitrate(*arguments, **named), (2, ""))
        self.assertEqual(self.errors, "arbiter: " + message + "\n")


class Verdicts(Folders):
    """Each verdict by its row, on the paper's file."""

    def setUp(self):
        super().setUp()
        self.put("worked.case", WORKED)

    def test_agreed(self):
        """A refused case, the input of the largest stored case, and texts in folders."""
        self.put("inner/worked.txt", open_text("examples/worked.txt"))
        self.put_stored("row-01-n9-w1", "limit-nodes-words-49151")
        self.put("notes", b"")
        self.expect(0, [
            "4 cases",
            "first: agreed 4, differs 0, hung 0, crashed 0",
            "second: agreed 4, differs 0, hung 0, crashed 0",
            "",
            "left out: 1 file not named .case, .txt or .csv",
        ], simulator("right"), simulator("complains"))

    def test_all_rows(self):
        self.put("inner/worked.txt", open_text("examples/worked.txt"))
        self.expect(0, [
            "2 cases",
            "A: agreed 2, differs 0, hung 0, crashed 0",
            "second one: agreed 2, differs 0, hung 0, crashed 0",
            "",
            "case              A        second one",
            "inner/worked.txt  agreed   agreed",
            "worked.case       agreed   agreed",
        ], simulator("right"), simulator("right"), "--all", "--names", "A", "second one")

    def test_differs(self):
        self.put_stored("ruling-01", "ruling-02")
        self.expect(1, [
            "3 cases",
            "first: agreed 3, differs 0, hung 0, crashed 0",
            "second: agreed 2, differs 1 (sharper 1), hung 0, crashed 0",
            "",
            "second differs, sharper, read: 1 case",
            "  access 1 (read), bit 0, under every assignment: memcase admits 0 and 1, the simulator 1",
            "  ruling-01.case, output line 1, byte 8",
            "    memcase  read 1:1",
            "    second   read 1:0",
            "",
            "case            first    second",
            "ruling-01.case  agreed   differs",
            "  second differs, sharper: output line 1, byte 8",
            "    memcase  read 1:1",
            "    second   read 1:0",
        ], simulator("right"), simulator("loses-unknown"), "--table")

    def test_one_simulator(self):
        """One alone is judged too, with a name of its own."""
        self.put_stored("ruling-01")
        for names, name in (([], "first"), (["--names", "Only"], "Only")):
            self.expect(1, [
                "2 cases",
                name + ": agreed 1, differs 1 (sharper 1), hung 0, crashed 0",
                "",
                name + " differs, sharper, read: 1 case",
                "  access 1 (read), bit 0, under every assignment: memcase admits 0 and 1, the simulator 1",
                "  ruling-01.case, output line 1, byte 8",
                "    memcase  read 1:1",
                "    %-7s  read 1:0" % name,
            ], simulator("loses-unknown"), *names)

    def test_ports(self):
        """One that forgets what a port holds, and one that holds across ports: each is one group, shown by its
        smallest case."""
        self.put_stored("ports-apart", "ports-kept", "ruling-10", "ruling-10-last")
        self.expect(1, [
            "5 cases",
            "first: agreed 2, differs 3 (looser 3), hung 0, crashed 0",
            "second: agreed 4, differs 1 (other 1), hung 0, crashed 0",
            "",
            "first differs, looser, read: 3 cases",
            "  access 3 (read), bit 0, under every assignment: memcase admits 1, the simulator 0 and 1",
            "  ruling-10-last.case, output line 3, byte 8",
            "    memcase  read 1:0",
            "    first    read 1:1",
            "  and in",
            "    ports-apart.case",
            "    ports-kept.case",
            "",
            "second differs, other, read: 1 case",
            "  access 9 (read), bit 0, under every assignment: memcase admits 1, the simulator 0",
            "  ports-apart.case, output line 9, byte 6",
            "    memcase  read 1:0 1:0",
            "    second   read 0:1 0:1",
        ], simulator("forgets-held-word"), simulator("holds-across-ports"))

    def test_idle_writes(self):
        """One that gives idle writes a place, and one that only counts them; both are right where there are none."""
        self.put_stored("idle-first", "ruling-09", "ruling-02")
        self.expect(1, [
            "4 cases",
            "first: agreed 2, differs 2 (other 2), hung 0, crashed 0",
            "second: agreed 2, differs 2 (other 2), hung 0, crashed 0",
            "",
            "first differs, other, write: 2 cases",
            "  access 1 (write): idle in memcase's text, place 0 in the simulator's",
            "  ruling-09.case, output line 1, byte 7",
            "    memcase  write idle",
            "    first    write 0",
            "  and in",
            "    idle-first.case",
            "",
            "second differs, other, end: 2 cases",
            "  the last line: 0 entries in memcase's text, 1 entry in the simulator's",
            "  ruling-09.case, output line 3, byte 5",
            "    memcase  end 0",
            "    second   end 1",
            "  and in",
            "    idle-first.case",
        ], simulator("enters-idle-writes"), simulator("counts-idle-writes"))

    def test_counts(self):
        """One that counts kept asserts, and one that counts what differs only where b does not hold; both are
        right where every assert is entered."""
        self.put_stored("example-budget", "row-07-data", "row-07-apart")
        status, out = self.arbitrate(simulator("counts-kept-asserts"), simulator("counts-asserts-outside-b"))
        lines = out.splitlines()
        self.assertEqual((status, lines[:3]), (1, [
            "4 cases",
            "first: agreed 2, differs 2 (other 2), hung 0, crashed 0",
            "second: agreed 3, differs 1 (other 1), hung 0, crashed 0"]))
        self.assertEqual([line for line in lines if " differs, " in line],
                         ["first differs, other, end: 2 cases", "second differs, other, end: 1 case"])

    def test_hung(self):
        self.expect(1, [
            "1 case",
            "first: agreed 0, differs 0, hung 1, crashed 0",
            "second: agreed 1, differs 0, hung 0, crashed 0",
            "",
            "first hung, it had not ended after 2 seconds: 1 case",
            "  worked.case: it had not ended after 2 seconds",
        ], simulator("hangs"), simulator("right"), "--seconds", "2")

    def test_many_hung(self):
        """After so many hung runs a simulator is no longer run; where all are given up, the rest costs no time."""
        for number in range(60):
            self.put("%02d.case" % number, WORKED)
        begun = time.monotonic()
        status, out = self.arbitrate(simulator("hangs"), "--seconds", str(SOON), "--hangs", "2", "--jobs", "1")
        self.assertLess(time.monotonic() - begun, 20)
        self.assertEqual((status, out.splitlines()[:3]), (1, [
            "61 cases",
            "first: agreed 0, differs 0, hung 2, crashed 0, not run 59",
            "  no longer run after 2 hung runs (--hangs)"]))
        status, out = self.arbitrate(simulator("right"), "--seconds", str(SOON), "--hangs", "1", "--jobs", "1",
                                     memcase=simulator("hangs"))
        self.assertEqual((status, out.splitlines()[:3]), (2, [
            "61 cases",
            "first: agreed 0, differs 0, hung 0, crashed 0",
            "memcase failed: no verdict in 61 cases"]))

    def test_crashed(self):
        self.expect(1, [
            "1 case",
            "first: agreed 0, differs 0, hung 0, crashed 1",
            "second: agreed 0, differs 0, hung 0, crashed 1",
            "",
            "first crashed, it ended by signal 15 (SIGTERM): 1 case",
            "  worked.case: it ended by signal 15 (SIGTERM)",
            "",
            "second crashed, it ended with status 1: 1 case",
            "  worked.case: it ended with status 1: has expired",
            "",
            "case         first    second",
            "worked.case  crashed  crashed",
            "  first crashed: it ended by signal 15 (SIGTERM)",
            "  second crashed: it ended with status 1: has expired",
        ], simulator("ends-by-signal"), simulator("ends-with-status"), "--table")

    def test_crashed_after_the_right_text(self):
        self.expect(1, [
            "1 case",
            "first: agreed 0, differs 0, hung 0, crashed 1",
            "second: agreed 1, differs 0, hung 0, crashed 0",
            "",
            "first crashed, it ended with status 3: 1 case",
            "  worked.case: it ended with status 3, and its text was right",
        ], simulator("ends-with-status-after-text"), simulator("right"))

    def test_without_end_and_without_input(self):
        self.expect(1, [
            "1 case",
            "first: agreed 0, differs 1 (no text 1), hung 0, crashed 0",
            "second: agreed 0, differs 1 (no text 1), hung 0, crashed 0",
            "",
            "first differs, no text, case: 1 case",
            "  the case: no text of it: the simulator wrote more than 65536 bytes",
            "  worked.case, output line 2, byte 1",
            "    memcase  read 1:(8 0 1)",
            "    first    write 0",
            "    first wrote more than 65536 bytes and was stopped",
            "",
            "second differs, no text, case: 1 case",
            "  the case: no text of it: the simulator wrote nothing",
            "  worked.case, output line 1, byte 1",
            "    memcase  write 0",
            "    second   (no line)",
        ], simulator("writes-without-end"), simulator("reads-nothing"))

    def test_wrong_alike(self):
        """Two are wrong alike where their first wrong line is the same, and not where it is another."""
        self.put_stored("ruling-01", "example-registers")
        status, out = self.arbitrate(simulator("loses-unknown"), simulator("loses-unknown"))
        lines = out.splitlines()
        self.assertEqual((status, lines[:3]), (1, [
            "3 cases",
            "first: agreed 1, differs 2 (sharper 2), hung 0, crashed 0",
            "second: agreed 1, differs 2 (sharper 2), hung 0, crashed 0"]))
        self.assertEqual(lines[-3:], [
            "first and second differ from memcase in the same way: 2 cases",
            "  example-registers.case",
            "  ruling-01.case"])
        self.assertNotIn("same way", self.arbitrate(simulator("loses-unknown"), simulator("writes-nothing"))[1])

    def test_memcase_fails(self):
        """No verdict is counted, though the simulators are right or wrong."""
        for way, how in (("hangs", "hung: it had not ended after 0.5 seconds"),
                         ("ends-with-status", "crashed: it ended with status 1: has expired"),
                         ("writes-without-end", "wrote more than 65536 bytes"),
                         ("complains", "wrote to standard error: warning"),
                         ("breaks-off", NOT_WHOLE), ("refuses-after-text", NOT_WHOLE),
                         ("writes-nothing", NOT_WHOLE)):
            with self.subTest(way):
                self.expect(2, [
                    "1 case",
                    "first: agreed 0, differs 0, hung 0, crashed 0",
                    "second: agreed 0, differs 0, hung 0, crashed 0",
                    "memcase failed: no verdict in 1 case",
                    "",
                    "no verdict: memcase failed in 1 case",
                    "  worked.case: " + how,
                    "",
                    "case         first    second",
                    "worked.case  -        -",
                    "  no verdict: memcase " + how,
                ], simulator("right"), simulator("loses-unknown"), "--table",
                    "--seconds", str(SOON if way == "hangs" else SECONDS), memcase=simulator(way))

    def test_many_names(self):
        """A group names some of its cases, and with --all all of them."""
        for number in range(9):
            self.put("%d.txt" % number, b"memory n=1 w=1\nread enable=1 address=0\n")
        status, out = self.arbitrate(simulator("loses-unknown"))
        self.assertEqual((status, out.splitlines()[-7:]), (1, [
            "  and in", *("    %d.txt" % number for number in range(1, 6)), "    and 3 more (--all names them)"]))
        out = self.arbitrate(simulator("loses-unknown"), "--all")[1]
        self.assertIn("  and in\n%s\n" % "".join("    %d.txt\n" % number for number in range(1, 9)), out)


class StrayTexts(Folders):
    """Files that are named as cases and are none do not end the run."""

    def test_left_out(self):
        """The status is as without them."""
        self.put("worked.case", WORKED)
        self.put("a.txt", b"memory n=1 w=1\nrite\n")
        self.put("b\x1b[2J.txt", b"\xff")
        self.put("long.txt", b"x" * 5000000)
        self.put("notes", b"")
        os.symlink("nowhere", os.path.join(self.folder, "c.case"))
        os.mkfifo(os.path.join(self.folder, "d.txt"))
        with open(os.path.join(self.folder, "huge.txt"), "wb") as file:
            file.truncate(1 << 30)
        left_out = [
            "left out: a.txt is no text of a case: line 2: unknown word `rite`",
            "left out: b\\x1b[2J.txt is no text in UTF-8 (byte 0xff in line 1): save it as UTF-8; "
            "a case file is named .case",
            "left out: c.case is no file",
            "left out: d.txt is no file",
            "left out: huge.txt is longer than 16777216 bytes: no case and no text of one is",
            "left out: 1 file not named .case, .txt or .csv"]
        status, out = self.arbitrate(simulator("right"))
        self.assertEqual((status, self.errors), (0, ""))
        lines = out.splitlines()
        self.assertEqual(lines[:3], ["1 case, 6 files left out (named below)",
                                     "first: agreed 1, differs 0, hung 0, crashed 0", ""])
        self.assertEqual([line.split("; a line begins")[0] for line in lines[3:] if "long.txt" not in line], left_out)
        self.assertEqual([len(line) < 400 for line in lines if "long.txt" in line], [True])
        self.assertEqual(self.arbitrate(simulator("loses-unknown"))[0], 0)
        self.assertEqual(self.arbitrate(simulator("ends-with-status"))[0], 1)

    def test_told(self):
        """The first line counts files named as cases that are none, --strict fails them, and --all names the others."""
        self.put("worked.txt", open_text("examples/worked.txt"))
        self.put("inner/note\x1b.md", b"")
        right = simulator("right")
        status, out = self.arbitrate(right, "--strict", "--all")
        lines = out.splitlines()
        self.assertEqual((status, self.errors, lines[0]), (0, "", "1 case"))
        self.assertEqual(lines[3:5], ["left out: 1 file not named .case, .txt or .csv", "  inner/note\\x1b.md"])
        self.assertNotIn("note", self.arbitrate(right)[1])
        self.put("typo.txt", b"memory n=1 w=1\nread enable=1 adress=0\n")
        status, out = self.arbitrate(right)
        self.assertEqual((status, self.errors, out.splitlines()[:2]), (0, "", [
            "1 case, 1 file left out (named below)", "first: agreed 1, differs 0, hung 0, crashed 0"]))
        self.assertIn("\nleft out: typo.txt is no text of a case: line 2", out)
        self.assertEqual(self.arbitrate(right, "--strict"), (2, out))
        self.assertEqual(self.errors, "arbiter: --strict: 1 file named as a case was left out\n")
        self.put("more.TXT", b"")
        self.assertEqual(self.arbitrate(simulator("loses-unknown"), "--strict")[0], 2)
        self.assertEqual(self.errors, "arbiter: --strict: 2 files named as cases were left out\n")

    def test_capital_letters(self):
        """Suffixes count in any letters; links to folders are not followed."""
        self.put("A.CASE", WORKED)
        self.put("B.Txt", open_text("examples/worked.txt"))
        self.put("C.CSV", open_text("examples/regfile.csv"))
        os.symlink(os.path.join(ROOT, "examples"), os.path.join(self.folder, "linked"))
        self.expect(0, ["3 cases", "first: agreed 3, differs 0, hung 0, crashed 0"], simulator("right"))

    def test_other_encodings(self):
        """What is wrong, and where, in a text that is not UTF-8."""
        text = "# caf\xe9\nmemory n=1 w=1\n"
        for place, (data, where) in enumerate([
                (text.encode("latin-1"), "byte 0xe9 in line 1"),
                (b"\n\n" + text.encode("latin-1"), "byte 0xe9 in line 3"),
                (text.encode("utf-16"), "byte 0xff in line 1"),
                (text.encode("utf-8")[:6], "byte 0xc3 in line 1")]):
            path = os.path.join(self.folder, "%d.%s" % (place, ["txt", "CSV"][place % 2]))
            self.put(path, data)
            with self.assertRaises(Misuse) as raised:
                casefolder.read_case(path)
            self.assertEqual(str(raised.exception),
                             "is no text in UTF-8 (%s): save it as UTF-8; a case file is named .case" % where)

    def test_nothing_left(self):
        self.put("a.txt", b"memory n=1 w=1\nrite\n")
        status, out = self.arbitrate(simulator("right"))
        self.assertEqual((status, self.errors),
                         (2, "arbiter: nothing was run: no file of %s is a case\n" % self.folder))
        self.assertEqual(out.splitlines()[0], "0 cases, 1 file left out (named below)")
        self.assertIn("left out: a.txt is no text of a case: line 2: unknown word `rite`", out)


def open_text(name):
    return storedcases.read(os.path.join(ROOT, *name.split("/")))


class MisuseTest(Folders):
    def test_folder(self):
        right = simulator("right")
        self.expect_misuse("no case in %s: no file is named .case, .txt or .csv" % self.folder, right, right)
        self.put("worked.case", WORKED)
        outer = self.folder
        self.folder = outer + "/none"
        self.expect_misuse("no folder " + self.folder, right, right)
        self.folder = outer + "/worked.case"
        self.expect_misuse(self.folder + " is a file: give the folder that holds it", right, right)

    def test_programs(self):
        """A file that cannot be run, and words that are a shell's."""
        self.put("worked.case", WORKED)
        self.put("sim.sh", b"#!/bin/sh\nexec cat\n")
        script = os.path.join(self.folder, "sim.sh")
        os.chmod(script, 0o644)
        self.expect_misuse(script + " is not executable: chmod +x it, or name its interpreter", script)
        self.expect_misuse("no program " + script + "x", script + "x")
        self.assertEqual(words_of("sh " + script), ["sh", script])
        self.expect_misuse("`|` is no word of a command that is run without a shell: use sh -c '..'",
                           simulator("right") + " | cat")
        for operator in ("|", ">", ">>", "<", "2>", "&&", "||", ";", "&"):
            with self.assertRaisesRegex(Misuse, "^`%s` is no word" % re.escape(operator)):
                words_of("cat %s f" % operator)
            inner = "cat %s f" % operator
            self.assertEqual(words_of("sh -c '%s'" % inner), ["sh", "-c", inner])

    def test_files_written(self):
        """Files that would overwrite each other, and a folder whose files would be cases; nothing is run."""
        self.put("worked.case", WORKED)
        hangs = simulator("hangs")
        place = tempfile.mkdtemp()
        self.addCleanup(shutil.rmtree, place)
        same = os.path.join(place, "a")
        os.symlink(place, os.path.join(place, "again"))
        for other in (same, os.path.join(place, ".", "a"), os.path.join(place, "again", "a")):
            self.expect_misuse("--json and --html both write %s: name two files" % other, hangs, "--json", same,
                               "--html", other)
        inner = os.path.join(self.folder, "new")
        self.expect_misuse("--reduced %s is in the folder of cases, so that its files are cases of the next run: "
                           "name one outside of it" % inner, hangs, "--reduced", inner)
        os.symlink(self.folder, os.path.join(place, "cases"))
        for path in ("", "/", "/inner/new", "/inner/.."):
            for folder in (self.folder, os.path.join(place, "cases")):
                with self.assertRaisesRegex(Misuse, "is in the folder of cases"):
                    arbiter.need_reduced(folder + path, self.folder)
        beside = self.folder + "-reduced"
        self.addCleanup(shutil.rmtree, beside, True)
        self.assertEqual(self.arbitrate(simulator("right"), "--reduced", beside, "--json", "/dev/null", "--html",
                                        "/dev/null")[0], 0)
        self.assertEqual(self.errors, "")

    def test_commands_and_options(self):
        self.put("worked.case", WORKED)
        right = simulator("right")
        self.expect_misuse("no program no-such-simulator", right, "no-such-simulator --fast")
        self.expect_misuse("an empty command", "", right)
        broken = os.path.join(self.folder, "broken")
        self.put("broken", b"\0")
        os.chmod(broken, 0o755)
        self.expect_misuse("[Errno 8] Exec format error: %r" % broken, right, broken)
        self.expect_misuse("the command 'a cannot be split: No closing quotation", right, "'a")
        self.expect_misuse("no program no-such-judge", right, right, memcase="no-such-judge")
        self.expect_misuse("--seconds must be above 0", right, right, "--seconds", "nan")
        self.expect_misuse("--jobs must be 1 or more", right, right, "--jobs", "0")
        self.expect_misuse("--hangs must be 0 or more", right, "--hangs", "-1")
        self.expect_misuse("the simulators need two names, neither of them memcase", right, right,
                           "--names", "A", "A")
        self.expect_misuse("the simulator needs a name other than memcase", right, "--names", "memcase")
        self.expect_misuse("--names takes as many names as there are simulators", right, right, "--names", "A")
        self.expect_misuse("one simulator or two, each command as one word in quotation marks, and not 3", right, right,
                           right)
        self.expect_misuse("the following arguments are required: COMMAND; --help says more")
        self.expect_misuse("--shard is I/N with I from 1 to N, as 2/8, and not 3/2", right, "--shard", "3/2")
        self.expect_misuse("no folder %s/none for a.json: make it first" % self.folder, right,
                           "--json", self.folder + "/none/a.json")
        self.expect_misuse("%s is a folder: name a file" % self.folder, right, "--html", self.folder)


class Runs(unittest.TestCase):
    """Single runs: what was written, and how the run ended."""

    def test_ends(self):
        hung = HUNG, "it had not ended after 0.5 seconds"
        self.assertEqual(run("right"), (WORKED_TEXT, None, None))
        self.assertEqual(run("hangs", seconds=SOON), (b"", *hung))
        self.assertEqual(run("hangs", seconds=1), (b"", HUNG, "it had not ended after 1 second"))
        self.assertEqual(run("complains-without-end", seconds=SOON), (b"", *hung))
        self.assertEqual(run("ends-with-status-after-text"),
                         (WORKED_TEXT, CRASHED, "it ended with status 3"))

    def test_hung_after_the_text(self):
        """The text is there, and still the run has not ended; what is left of it is killed."""
        ways = ["hangs-after-text", "hangs-with-output-closed", "leaves-child"]
        with ThreadPoolExecutor(len(ways)) as pool:
            opened, closed, left = pool.map(lambda way: run(way, seconds=2), ways)
        not_ended = HUNG, "it had not ended after 2 seconds"
        self.assertEqual(opened, (WORKED_TEXT, *not_ended))
        self.assertEqual(closed, (WORKED_TEXT, *not_ended))
        self.assertEqual(left[1:], (HUNG, "its output was still open after 2 seconds"))
        self.assert_ends(int(left[0]))

    def assert_ends(self, process):
        """A killed process is gone soon."""
        for _ in range(100):
            if not alive(process):
                break
            time.sleep(0.05)
        self.assertFalse(alive(process))

    def test_the_output_is_bounded(self):
        begun = time.monotonic()
        found = run("writes-without-end", seconds=60)
        self.assertEqual((len(found[0]), found[1]), (TEXT_BYTES + 1, None))
        self.assertLess(time.monotonic() - begun, 30)

    def test_input_not_read(self):
        self.assertEqual(run("reads-nothing", bytes(10000000)), (b"", None, None))


def alive(process):
    """Whether a process is there and runs; one that has ended and is not collected does not."""
    try:
        with open("/proc/%d/stat" % process, encoding="ascii", errors="replace") as file:
            return file.read().rpartition(")")[2].split()[0] != "Z"
    except FileNotFoundError:
        return False


class Simulators(unittest.TestCase):
    def test_ways(self):
        """Words that are no way are answered by the ways, and each of those is one."""
        known = None
        for words in ([], ["--help"], ["wrong"], ["right", "right"]):
            path = os.path.join(ROOT, "tests", "simulators", "simulator.py")
            done = subprocess.run([sys.executable, path, *words], stdin=subprocess.DEVNULL, capture_output=True,
                                  check=False)
            self.assertEqual((done.returncode, done.stdout), (2, b""))
            start, _, ways = done.stderr.decode("ascii").partition(": WAY is one of: ")
            self.assertEqual((start, ways.count("\n")), ("simulator", 1))
            self.assertIn(known, (None, ways))
            known = ways
        self.assertLessEqual({"right", "loses-unknown", "holds-across-ports", "idle-forgets"},
                             set(known.strip().split(", ")))


class Comparing(unittest.TestCase):
    """What compare.py makes of a program that is right, wrong, or complains."""

    def test_faults(self):
        for way, status, last in (("right", 0, "3 cases, 0 differ"), ("loses-unknown", 1, "3 cases, 1 differ"),
                                  ("complains", 2, "3 cases, 0 differ, 3 without a verdict"),
                                  ("ends-with-status-after-text", 1, "3 cases, 3 differ"),
                                  ("breaks-off", 1, "3 cases, 3 differ")):
            with self.subTest(way):
                words = [sys.executable, os.path.join(TOOLS, "compare.py"), "--no-stored", "--count", "3", "--seed", "1"]
                done = subprocess.run(words + shlex.split(simulator(way)), stdout=subprocess.PIPE, check=False)
                self.assertEqual((done.returncode, done.stdout.decode("ascii").splitlines()[-1]), (status, last))

    def test_whole_texts(self):
        whole = [b"end 0\n", WORKED_TEXT, b"refused 13 after 7\n"]
        broken = [b"", b"end 0", b"end\n", b"end 01\n", b"write 0\n", b"refused 1 after 0", b"refused 1 after 0\nend 1\n",
                  b"end 1\nrefused 1 after 0\n", b"\nend 1\n", b"end 1\n\n"]
        self.assertEqual([text for text in whole + broken if judging.WHOLE.fullmatch(text)], whole)


class Lines(unittest.TestCase):
    """The first line that differs, and what is shown of it."""

    def lines(self, right, found):
        """The place of the difference, and both lines as they are shown."""
        shown = judging.shown_difference(right, found, None)
        return ["line %d, byte %d" % (shown["line"], shown["byte"]), *reporttext.shown_lines("B", shown)]

    def test_first_difference(self):
        right = memcase(storedcases.named("example-registers").data).encode("ascii")
        self.assertEqual(judging.first_difference(right, right), None)
        lines = right.splitlines(keepends=True)
        self.assertEqual(len(lines), 18)
        for number, line in enumerate(lines, 1):
            wrong = b"".join(lines[:number - 1]) + b"?" + line + b"".join(lines[number:])
            self.assertEqual(judging.first_difference(right, wrong), (number, line, b"?" + line))
            shorter = b"".join(lines[:number - 1])
            self.assertEqual(judging.first_difference(right, shorter), (number, line, None))
            self.assertEqual(judging.first_difference(shorter, right), (number, None, line))

    def test_later_line(self):
        """The line of a classified difference is shown, though another was spelled otherwise before it."""
        shown = judging.shown_difference(b"write 0\nend 1\n", b"write 00\nend 2\n", 2)
        self.assertEqual((shown["line"], shown["byte"], shown["right"], shown["found"]), (2, 5, "end 1", "end 2"))
        shown = judging.shown_difference(b"write 0\nend 1\n", b"write 00\nend 1\n", 2)
        self.assertEqual((shown["line"], shown["byte"]), (1, 8))

    def test_newlines(self):
        self.assertEqual(self.lines(b"end 0\n", b"end 0"), [
            "line 1, byte 6",
            "  memcase  end 0",
            "  B        end 0 (no newline)"])
        self.assertEqual(self.lines(b"end 0\n", b"end 0\r\n"), [
            "line 1, byte 6",
            "  memcase  end 0",
            "  B        end 0\\x0d"])
        self.assertEqual(self.lines(b"end 0\n", b"\nend 0\n"), [
            "line 1, byte 1",
            "  memcase  end 0",
            "  B        (empty line)"])
        self.assertEqual(self.lines(b"end 0\n", b"end 0\nbye\n"), [
            "line 2, byte 1",
            "  memcase  (no line)",
            "  B        bye"])

    def test_unprintable(self):
        self.assertEqual(self.lines(b"end 0\n", b"end \\\x1b[2J\xff\n")[2], "  B        end \\\\\\x1b[2J\\xff")

    def test_long_lines(self):
        """The place of the difference is shown, in a line of any length."""
        self.assertEqual(self.lines(b"a" * 1000 + b"01" + b"b" * 1000 + b"\n", b"a" * 1000 + b"11\n"), [
            "line 1, byte 1001",
            "  memcase  .." + "a" * 24 + "01" + "b" * 46 + "..",
            "  B        .." + "a" * 24 + "11"])
        self.assertEqual(self.lines(b"a" * 47 + b"0\n", b"a" * 47 + b"1" * 1000 + b"\n"), [
            "line 1, byte 48",
            "  memcase  " + "a" * 47 + "0",
            "  B        " + "a" * 47 + "1" * 25 + ".."])


if __name__ == "__main__":
    unittest.main()
