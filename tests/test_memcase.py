#!/usr/bin/env python3
"""A fault of the system is no verdict: what memcase writes where it cannot read or write, or is given an argument.

    python3 tests/test_memcase.py [crates/memcase/out/memcase]
"""
import os
import subprocess
import sys
import tempfile
import unittest

MEMCASE = "crates/memcase/out/memcase"

# The paper's own file, and what it prints.
FILE = bytes.fromhex("0101020008000001000801000000030001010000000200030001000000020001000000000001000401000000010001000000")
TEXT = b"write 0\nread 1:(8 0 1)\ncheck (8 1 0)\nend 1\n"


def run(file=FILE, arguments=(), stdin=None, stdout=subprocess.PIPE):
    """What memcase writes on standard output and on standard error."""
    given = {"stdin": stdin} if stdin is not None else {"input": file}
    done = subprocess.run([MEMCASE, *arguments], stdout=stdout, stderr=subprocess.PIPE, timeout=60, **given)
    return done.stdout, done.stderr


class Faults(unittest.TestCase):
    def test_verdict(self):
        self.assertEqual(run(), (TEXT, b""))

    def test_empty_file_is_refused(self):
        self.assertEqual(run(b""), (b"refused 10 after 0\n", b""))

    def test_input_that_cannot_be_read(self):
        with tempfile.TemporaryDirectory() as folder:
            unreadable = os.open(folder, os.O_RDONLY)
            try:
                written, said = run(stdin=unreadable)
            finally:
                os.close(unreadable)
        self.assertEqual(written, b"")
        self.assertNotEqual(said, b"")

    def test_output_that_cannot_be_written(self):
        with open("/dev/full", "wb") as full:
            _, said = run(stdout=full)
        self.assertNotEqual(said, b"")

    def test_argument(self):
        written, said = run(arguments=["a.case"])
        self.assertEqual(written, b"")
        self.assertNotEqual(said, b"")


if __name__ == "__main__":
    if len(sys.argv) > 1:
        MEMCASE = sys.argv.pop(1)
    if not os.path.exists(MEMCASE):
        sys.exit(f"{MEMCASE} is not there: `rt run < /dev/null` in crates/memcase builds it")
    unittest.main()
