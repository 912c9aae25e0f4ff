#!/usr/bin/env python3
"""Tests of what the tools make of programs that are none, files that are none and options that cannot be; some seconds.

    python3 tests/test_errors.py [-v]

Whatever is given, a tool ends with a status that it names, and says on standard error, in one line that begins with
its name, what is wrong; or it reports.  There is no traceback, nothing that a terminal would take for a command, and
nothing long is repeated whole.  A closed output ends it without a word.

Most are run in this process, by their `main`, so that there can be many.
"""

import contextlib
import importlib
import io
import os
import shutil
import signal
import subprocess
import sys
import tempfile
import time
import unittest
from collections import namedtuple
from unittest import mock

from rooms import ROOT, TOOLS
from common.casefile import CaseFile, NotACaseFile, parse
from common.diagrams import Diagrams
from common.simulatorruns import Misuse
from language import casetext
from rowcases import WORKED
from second import reference
from sharpened import casepairs, keptorder

TEXT = b"memory n=1 w=1\nnode a = (8 0 1)\nnode b = (8 1 0)\nwrite enable=1 address=a data=X\nread enable=1 address=0\n"
PRINTABLE = {10, *range(32, 127)}
LONGEST_LINE, LONGEST_OUTPUT = 1000, 20000

# What a tool ended with and wrote.
Done = namedtuple("Done", "status out errors")

# Files that are no case, by their names, and what is said of each: by all tools that read a text, or a case file.
FILES = {
    "empty.txt": (b"", "memory"),
    "binary.txt": (bytes(range(256)) * 9, "no text"),
    "latin.txt": (b"memory n=1 w=1 # \xe9\n", "no text"),
    "escape.txt": (b"memory n=1 w=1\n\x1b[31mred\x07\n", "line 2"),
    "nul.txt": (b"memory n=1 w=1\nread enable=\0 address=0\n", "line 2"),
    "cut.txt": (TEXT[:-3], "line 5"),
    "long-word.txt": (b"memory n=1 w=1\n" + b"y" * 5000000, "line 2"),
    "long-value.txt": (b"memory n=1 w=1\nread enable=" + b"\x1b" * 5000000 + b" address=0\n", "line 2"),
    "long-key.txt": (b"memory n=1 w=1\nread " + b"k" * 5000000 + b"=0\n", "line 2"),
    "long-number.txt": (b"memory n=1 w=" + b"7" * 5000000 + b"\n", "line 1"),
    "long-node.txt": (b"memory n=1 w=1\nread enable=1 address=" + b"7" * 5000000 + b":1\n", "line 2"),
    "empty.case": (b"", "byte 0"),
    "binary.case": (b"\x01\x01\x00\x00\x01\x00\x1b" + bytes(range(256)), "kind"),
    "cut.case": (WORKED[:-1], "byte 49"),
    "more.case": (WORKED + b"\x1b", "after the last access"),
}

# Programs that are none, and what is said of each.
NO_PROGRAMS = [("nosuch", "nosuch"), ("./folder.txt", "folder.txt"), ("./notes", "notes"),
               ("./no-program", "no-program"), ("\x1b[31m", "\\x1b"), ("n" * 20000, "n")]

# Programs that are no simulators, as scripts of a shell.
PROGRAMS = {
    "escapes": "printf '\\000\\033[31m\\377\\n\\007'",
    "closes": "exec <&-; echo end 0",
    "long-line": "head -c 5000000 /dev/zero | tr '\\000' x",
    "complains": "head -c 300000 /dev/zero | tr '\\000' '\\033' >&2; exit 3",
    "killed": "kill -9 $$",
}


def printed(data):
    """Bytes as far as they are shown in a message of a test."""
    return data[:300]


class Folder(unittest.TestCase):
    """A folder with such files and programs, and checks of what a tool makes of them."""

    @classmethod
    def setUpClass(cls):
        cls.folder = tempfile.mkdtemp()
        cls.addClassCleanup(shutil.rmtree, cls.folder)
        cls.addClassCleanup(os.chdir, os.getcwd())
        os.chdir(cls.folder)
        os.mkdir("folder.txt")
        os.mkdir("folder.case")
        for name, (data, _) in FILES.items():
            put(name, data)
        put("right.txt", TEXT)
        put("right.case", casetext.encode(TEXT.decode("ascii")))
        put("notes", b"#!/bin/sh\necho end 0\n")
        put("no-program", b"\x7fELF nothing\n", 0o755)
        for name, script in PROGRAMS.items():
            put(name, ("#!/bin/sh\n%s\n" % script).encode("ascii"), 0o755)
        with open("huge.case", "wb") as file:
            file.truncate(1 << 25)

    def clean(self, done, tool):
        """Nothing that no tool may write."""
        for written in (done.out, done.errors):
            self.assertNotIn(b"Traceback", written)
            self.assertLessEqual(set(written), PRINTABLE, printed(written))
            self.assertLess(len(written), LONGEST_OUTPUT)
        self.assertLess(max(map(len, done.errors.split(b"\n"))), LONGEST_LINE)
        return done

    def expect_error(self, part, tool, *words, statuses=(2,), **options):
        """A line on standard error that has a part, and a status."""
        with self.subTest(tool=tool, words=[word[:40] for word in words]):
            done = self.clean(called(tool, *words, **options), tool)
            self.assertIn(done.status, statuses, printed(done.errors))
            self.assertTrue(done.errors.startswith(b"%s: " % tool.encode("ascii")), printed(done.errors))
            self.assertEqual(done.errors.count(b"\n"), 1, printed(done.errors))
            self.assertIn(part, done.errors.decode("ascii"))

    def expect_report(self, part, tool, *words, statuses=(1,), **options):
        """A report that has a part, nothing on standard error, and a status."""
        with self.subTest(tool=tool, words=[word[:40] for word in words]):
            done = self.clean(called(tool, *words, **options), tool)
            self.assertEqual(done.errors, b"")
            self.assertIn(done.status, statuses)
            self.assertIn(part, done.out.decode("ascii"))


def put(name, data, mode=0o644):
    with open(name, "wb") as file:
        file.write(data)
    os.chmod(name, mode)


def called(tool, *words, data=b""):
    """A run of a tool in this process."""
    streams = [io.TextIOWrapper(io.BytesIO(data), "utf-8")]
    streams += [io.TextIOWrapper(io.BytesIO(), "utf-8", write_through=True) for _ in range(2)]
    module = importlib.import_module(tool)
    with contextlib.ExitStack() as stack:
        stack.enter_context(mock.patch.object(sys, "argv", ["tools/%s.py" % tool, *words]))
        for name, stream in zip(("stdin", "stdout", "stderr"), streams):
            stack.enter_context(mock.patch.object(sys, name, stream))
        status = status_of(module.main)
    return Done(status, *(stream.buffer.getvalue() for stream in streams[1:]))


def status_of(main):
    """The status with which a program ends; a text is written to standard error, as Python does it."""
    try:
        main()
    except SystemExit as end:
        if isinstance(end.code, str):
            print(end.code, file=sys.stderr)
            return 1
        return end.code or 0
    return 0


def run(tool, *words, **options):
    """A run of a tool as a process."""
    done = subprocess.run([sys.executable, os.path.join(TOOLS, tool + ".py"), *words], check=False, timeout=60,
                          **{"stdin": subprocess.DEVNULL, "stdout": subprocess.PIPE, "stderr": subprocess.PIPE,
                             **options})
    return Done(done.returncode, done.stdout or b"", done.stderr or b"")


class Compare(Folder):
    FEW = "--no-stored", "--count", "2", "--timeout", "5"

    def test_no_programs(self):
        for program, part in NO_PROGRAMS:
            self.expect_error(part, "compare", *self.FEW, program)

    def test_programs(self):
        for program, part in (("cat", "\\x01"), ("true", "wrote nothing"), ("false", "status 1"),
                              ("yes", "more than 65536"), ("./escapes", "\\x00\\x1b[31m\\xff"), ("./closes", "end 0"),
                              ("./killed", "SIGKILL"), ("./long-line", "more than 65536"), ("./complains", "status 3")):
            self.expect_report(part, "compare", *self.FEW, program)
            self.expect_report("2 cases, 2 differ\n", "compare", *self.FEW, program)

    def test_options(self):
        for words, part in ((["--count", "-1"], "--count"), (["--count", "0"], "--count"),
                            (["--count", "x"], "--count"), (["--timeout", "0"], "--timeout"),
                            (["--timeout", "nan"], "--timeout"),
                            (["--timeout", "inf"], "--timeout"), (["--timeout", "1e12"], "--timeout"),
                            (["--seed", "\x1b"], "--seed"), (["--\x1b"], "\\x1b"),
                            (["--keep", "right.txt/x"], "right.txt/x"), (["--keep", "k" * 300], "kkk")):
            with self.subTest(words):
                done = called("compare", "--no-stored", "--count", "1", *words, "true")
                self.assertEqual(done.status, 2)
                self.assertIn(part.encode("ascii"), self.clean(done, "compare").errors)
                self.assertEqual(done.errors.count(b"\n"), 1)
        self.expect_error("name the program", "compare")

    def test_keep(self):
        self.expect_report("differs: seed-1-case-0-valid", "compare", *self.FEW, "--keep", "kept", "true")
        self.assertEqual(len(os.listdir("kept")), 2)

    def test_signals(self):
        """A signal ends the program that is run, and the tool without a word."""
        put("waits", b"#!/bin/sh\necho $$ > waiting\nexec sleep 100\n", 0o755)
        for number in (signal.SIGINT, signal.SIGTERM, signal.SIGHUP):
            with self.subTest(number):
                put("waiting", b"")
                tool = subprocess.Popen([sys.executable, os.path.join(TOOLS, "compare.py"), "--no-stored", "./waits"],
                                        stdout=subprocess.PIPE, stderr=subprocess.PIPE)
                while not (os.path.getsize("waiting") and is_reading(tool.pid)):
                    time.sleep(0.01)
                tool.send_signal(number)
                self.assertEqual((tool.communicate(timeout=60), tool.returncode), ((b"", b""), 128 + number))
                with open("waiting", encoding="ascii") as file:
                    self.assertFalse(os.path.exists("/proc/%d" % int(file.read())))


def is_reading(process):
    """Whether a process waits for what others write."""
    folder = "/proc/%d/fd" % process
    with contextlib.suppress(FileNotFoundError):
        return any("eventpoll" in os.readlink(os.path.join(folder, name)) for name in os.listdir(folder))
    return False


class Files(Folder):
    """Files that are none, by each tool that reads one."""

    def test_sharpening(self):
        for name, (_, part) in FILES.items():
            self.expect_error(part, "sharpening", name, "right.txt")
            self.expect_error(name, "sharpening", "right.txt", name)
        for name in ("missing.txt", "folder.txt", "folder.case", "huge.case", "right", "\x1b[31m.txt", "\udcff.txt",
                     "x" * 9000 + ".txt"):
            self.expect_error("txt" if name.endswith("txt") else name, "sharpening", name, "right.txt")
        for name in ("missing", "folder.txt", "huge.case"):
            self.expect_outputs(2, name)
        for name in ("empty.txt", "binary.case", "long-word.txt", "cut.txt", "latin.txt"):
            self.expect_outputs(1, name)

    def expect_outputs(self, status, name):
        """A file that is no text of a case, as what a simulator has printed."""
        with self.subTest(outputs=name):
            done = self.clean(called("sharpening", "right.txt", "right.txt", "--outputs", name, name), "sharpening")
            self.assertEqual(done.status, status)
            part, written = (name, done.errors) if status == 2 else ("failed: ", done.out)
            self.assertIn(part, written.decode("ascii"))

    def test_sharper(self):
        for name, (_, part) in FILES.items():
            self.expect_error(part, "sharper", name, "made")
        for name in ("missing.txt", "folder.txt", "huge.case", "right"):
            self.expect_error(name, "sharper", name, "made")
        for folder in ("right.txt", "right.txt/made", "f" * 300, ""):
            self.expect_error(folder[:9], "sharper", "right.txt", folder)
        self.assertFalse(os.path.exists("made"))

    # Of casetext.py: some of these are its own part.
    def test_encode(self):
        for name, (_, part) in FILES.items():
            if name.endswith(".txt"):
                self.expect_error(part, "casetext", "encode", name, statuses=(1, 2))
        for name in ("missing.txt", "folder.txt", "\x1b[31m.txt", "\udcff.txt", "x" * 300 + ".txt"):
            self.expect_error("txt", "casetext", "encode", name, statuses=(1, 2))
        self.expect_error("line 2", "casetext", "encode", "-", data=b"memory n=1 w=1\n\x1b\n", statuses=(1, 2))

    def test_decode(self):
        for name, (_, part) in FILES.items():
            if name.endswith(".case"):
                self.expect_error(part, "casetext", "decode", name, statuses=(1, 2))
        for name in ("missing.case", "folder.case", "long-word.txt"):
            self.expect_error("", "casetext", "decode", name, statuses=(1, 2))

    @unittest.skipIf(os.geteuid() == 0, "everything may be read")
    def test_no_permission(self):
        put("secret.txt", TEXT, 0)
        for tool, words in (("sharpening", ["secret.txt", "right.txt"]), ("sharper", ["secret.txt", "made"]),
                            ("casetext", ["encode", "secret.txt"])):
            self.expect_error("ermission", tool, *words, statuses=(1, 2))

    def test_cut_off(self):
        """Cases, texts and outputs at every length."""
        case = parse(WORKED)
        text = TEXT.decode("ascii")
        output = reference.memcase(WORKED)
        for length in range(len(WORKED)):
            with self.assertRaises(NotACaseFile):
                parse(WORKED[:length])
            self.assertTrue(reference.memcase(WORKED[:length]).startswith("refused 10 after "))
        for length in range(len(text)):
            with contextlib.suppress(casetext.Mistake):
                casetext.encode(text[:length])
        for length in range(len(output)):
            with self.assertRaises(keptorder.Malformed):
                keptorder.answers(Diagrams(), case, output[:length])

    def test_cut_off_sources(self):
        for name, data in (("cut-off.case", WORKED), ("cut-off.txt", TEXT)):
            for length in range(0, len(data), 3):
                put(name, data[:length])
                with contextlib.suppress(Misuse):
                    casepairs.read_source(name)


class Simulators(Folder):
    """Programs that are no simulators, by `sharpening.py --run`."""

    def test_no_programs(self):
        for program, part in [*NO_PROGRAMS, ("", "empty"), ("'", "split"), ("'" + "x" * 9000, "split")]:
            with self.subTest(program[:40]):
                done = self.clean(called("sharpening", "right.txt", "right.txt", "--run", program), "sharpening")
                self.assertEqual((done.status, done.errors.count(b"\n")), (2, 1))
                self.assertIn(part, done.errors.decode("ascii"))

    def test_programs(self):
        for program, part in (("cat", "no text of this case"), ("true", "lines: 0"), ("false", "status 1"),
                              ("yes", "more than 65536"), ("./escapes", "no text of this case"),
                              ("./closes", "no text of this case"), ("./killed", "SIGKILL"),
                              ("./long-line", "more than 65536"), ("./complains", "status 3")):
            self.expect_report(part, "sharpening", "right.txt", "right.txt", "--run", program)


class Options(Folder):
    """Options that cannot be, and standard inputs."""

    def test_options(self):
        for tool, words, part in (
                ("sharpening", [], "FIRST"), ("sharpening", ["right.txt"], "SECOND"),
                ("sharpening", ["right.txt", "right.txt", "\x1b[31m"], "\\x1b"),
                ("sharpening", ["right.txt", "right.txt", "--seconds", "nan"], "--seconds"),
                ("sharpening", ["right.txt", "right.txt", "--seconds", "-1"], "--seconds"),
                ("sharpening", ["right.txt", "right.txt", "--seconds", "1e300"], "--seconds"),
                ("sharpening", ["right.txt", "right.txt", "--outputs", "one"], "--outputs"),
                ("sharper", [], "FILE"), ("sharper", ["right.txt"], "FOLDER"),
                ("sharper", ["right.txt", "made", "--count", "0"], "--count"),
                ("sharper", ["right.txt", "made", "--count", "1e3"], "--count"),
                ("sharper", ["right.txt", "made", "--seed", "x" * 9000], "--seed"),
                ("reference", ["--node-words", "-1"], "--node-words"),
                ("reference", ["--list-words", "-1"], "--list-words"),
                ("reference", ["--text-bytes", "-1"], "--text-bytes"),
                ("reference", ["--text-bytes", "x"], "--text-bytes"),
                ("reference", ["right.case"], "right.case"), ("reference", ["\x1b"], "\\x1b"),
                ("plain", ["--count", "-1"], "--count"), ("plain", ["--count", "0"], "--count"),
                ("plain", ["--seed", "x"], "--seed"), ("plain", ["more"], "more"),
                ("storedcases", [], "list"), ("storedcases", ["case"], "list"), ("storedcases", ["\x1b"], "list"),
                ("storedcases", ["list", "x"], "list"), ("storedcases", ["case", "nosuch"], "nosuch"),
                ("storedcases", ["text", "\x1b[31m"], "\\x1b[31m"), ("storedcases", ["text", "\udcff"], "\\xff"),
                ("storedcases", ["text", "n" * 9000], "nnn")):
            self.expect_error(part, tool, *words)

    # Of casetext.py, which says them over several lines where they are its parser's.
    def test_actions(self):
        for words in ([], ["encode"], ["nosuch", "right.txt"], ["encode", "right.txt", "more"]):
            with self.subTest(words):
                done = self.clean(called("casetext", *words), "casetext")
                self.assertIn(done.status, (0, 1, 2) if not words else (1, 2))

    def test_standard_input(self):
        """What the second program makes of any bytes, and of more than `memcase` reads."""
        for data in (b"", b"\x1b" * 70000, bytes(1 << 20), WORKED[:20], bytes(range(256)) * 500):
            self.expect_report("refused ", "reference", data=data, statuses=(0,))
        self.expect_report("end 1\n", "reference", data=WORKED, statuses=(0,))
        self.expect_report("refused 12 after 3\n", "reference", data=WORKED + bytes(1 << 20), statuses=(0,))
        case = CaseFile(1, 1)
        case.parity(range(8, 28))
        self.expect_error("variables", "reference", data=case.bytes())

    def test_help(self):
        for tool in ("compare", "sharpening", "sharper", "reference", "plain", "storedcases", "casetext", "arbiter"):
            for word in ("--help", "-h"):
                self.expect_report("python3 tools/%s.py" % tool if tool not in ("reference", "plain") else "usage: ",
                                   tool, word, statuses=(0,))


class Streams(Folder):
    """Standard streams that are closed or full; as processes."""

    PRINTING = [("reference", []), ("storedcases", ["list"]), ("storedcases", ["case", "worked"]),
                ("plain", ["--count", "1"]), ("compare", ["--no-stored", "--count", "1", "true"]),
                ("sharpening", ["right.txt", "right.txt"])]

    # Of casetext.py and arbiter.py, each their own part.
    OTHERS = [("casetext", ["decode", "right.case"]), ("casetext", ["encode", "right.txt"]),
              ("arbiter", ["cases", "true", "true", "--memcase", "true"])]

    @classmethod
    def setUpClass(cls):
        super().setUpClass()
        os.mkdir("cases")
        put("cases/right.case", WORKED)

    def test_closed_pipe(self):
        """As by `| head`: nothing is said, and the status is that of a program which the system ends for it."""
        for tool, words in self.PRINTING + self.OTHERS:
            with self.subTest(tool=tool, words=words):
                reading, writing = os.pipe()
                os.close(reading)
                with os.fdopen(writing, "wb") as pipe:
                    done = run(tool, *words, stdout=pipe)
                self.assertEqual(self.clean(done, tool).errors, b"")
                if (tool, words) in self.PRINTING:
                    self.assertEqual(done.status, 141)
                self.assertNotEqual(done.status, 0)

    @unittest.skipUnless(os.path.exists("/dev/full"), "there is no /dev/full")
    def test_full(self):
        for tool, words in self.PRINTING + self.OTHERS:
            with self.subTest(tool=tool, words=words), open("/dev/full", "wb") as full:
                self.expect_line("No space left", run(tool, *words, stdout=full), tool)

    def test_closed(self):
        """No standard output, and no standard input, at all."""
        for tool, words in self.PRINTING[:2]:
            with self.subTest(tool=tool):
                done = run(tool, *words, stdout=None, preexec_fn=lambda: os.close(1))
                self.expect_line("standard output", done, tool)
        self.expect_line("standard input", run("reference", preexec_fn=lambda: os.close(0)), "reference")
        self.assertEqual(run("reference", "--text-bytes", "-1", preexec_fn=lambda: os.close(2)).status, 2)

    def expect_line(self, part, done, tool):
        self.assertIn(part.encode("ascii"), self.clean(done, tool).errors)
        self.assertEqual((done.errors.count(b"\n"), done.errors.split(b":")[0]), (1, tool.encode("ascii")), done.errors)
        self.assertIn(done.status, (1, 2))

    def test_as_a_process(self):
        """What is called in this process is what a process does."""
        for tool, words in (("compare", ["nosuch"]), ("sharpening", ["empty.txt", "right.txt"]),
                            ("plain", ["--count", "0"])):
            self.assertEqual(run(tool, *words), called(tool, *words))


# Of arbiter.py, all of this.
class Arbiter(Folder):
    """Folders and programs that are none; as processes."""

    def setUp(self):
        self.cases = tempfile.mkdtemp(dir=self.folder)
        self.reference = "%s %s" % (sys.executable, os.path.join(TOOLS, "reference.py"))
        put(os.path.join(self.cases, "right.case"), WORKED)

    def expect(self, part, *words, statuses=(2,), memcase=None):
        with self.subTest(words=[word[:40] for word in words]):
            done = self.clean(run("arbiter", *words, "--memcase", memcase or self.reference), "arbiter")
            self.assertIn(done.status, statuses, printed(done.errors))
            self.assertIn(part, (done.errors if done.status == 2 else done.out).decode("ascii"))
            self.assertEqual(done.errors.count(b"\n"), done.status == 2, printed(done.errors))

    def test_no_programs(self):
        for program, part in [*NO_PROGRAMS[1:], ("'", "split")]:
            self.expect(part, self.cases, program, "true")
        self.expect("nosuch", self.cases, "true", "true", memcase="nosuch")

    def test_folders(self):
        for folder in ("missing", "right.txt", "\x1b[31m", ""):
            self.expect("folder" if folder else "", folder, "true", "true")

    def test_options(self):
        for words in (["--seconds", "nan"], ["--seconds", "1e300"], ["--jobs", "0"], ["--sharpen", "-1"], ["--\x1b"]):
            done = self.clean(run("arbiter", self.cases, "true", "true", "--memcase", "true", *words), "arbiter")
            self.assertEqual(done.status, 2, words)

    def test_programs(self):
        for first, second in (("cat", "yes"), ("./escapes", "./long-line"), ("./complains", "./killed")):
            self.expect("1 case", self.cases, first, second, statuses=(1,))

    def test_stray_files(self):
        """Files that are no case do not end the run."""
        for name, (data, _) in FILES.items():
            put(os.path.join(self.cases, name), data[:100000])
        self.expect("long-word.txt", self.cases, self.reference, self.reference, statuses=(0,))


if __name__ == "__main__":
    os.chdir(ROOT)
    unittest.main()
