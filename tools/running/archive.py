"""The model that runs a case: the archive of the C functions through ctypes, or a program such as `memcase`.

`find` gives the one to be used.  Both have `case(data, sizes)`, which is what is printed of a case file, and
`calls(case, sizes)`, its accesses one by one with the node and entry counts after each; a program has no calls.
"""

import ctypes
import glob
import os
import re
import shutil
import subprocess
import tempfile
from collections import namedtuple

from common.simulatorruns import Misuse, last_line, need_program, run, words_of
from papers import (ASSERT, ENTRY_LIMIT, INPUT_BYTES, LIST_WORDS, NODE_LIMIT, NODE_WORDS, PORTS, PORT_WORDS, READ,
                    TEXT_BYTES, WRITE, Record, entry_size, halves, node_capacity, pairs)

ROOT = os.path.dirname(os.path.dirname(os.path.dirname(os.path.abspath(__file__))))
# Where archives are that were built in the clone: those of one pattern are used together.
ARCHIVES = [os.path.join(ROOT, *path) for path in
            (("crates", "capi*_c", "out", "libcapi*_c.a"), ("target", "staticlib", "libmangerday.a"),
             ("target", "prefix", "lib", "libmangerday.a"))]
FUNCTIONS = ["md_" + name for name in ("fresh", "write", "read", "assert", "check", "case")]
MEMCASE = os.path.join(ROOT, "crates", "memcase", "out", "memcase")
BUILD = "`link/install target/prefix` builds it"

REFUSAL = re.compile(rb"refused (0|[1-9][0-9]*) after (0|[1-9][0-9]*)\n")

# How many nodes, entries and bytes of text a case is lent space for; None is the space that `memcase` has.
Sizes = namedtuple("Sizes", "nodes entries text", defaults=(None, None, TEXT_BYTES))

# What came of a case: its text, None where it was refused; then the row, and after how many accesses.
Printed = namedtuple("Printed", "text row after", defaults=(None, None))

# An accepted call: its out-word, the pairs of a read's answer, and the record after it.
Step = namedtuple("Step", "out word record")

# The calls of a case: the accepted ones, the row that refused the one after them or None, and the nodes that there
# are then, from node 0 up.
Calls = namedtuple("Calls", "steps row nodes")


def node_words(sizes):
    return NODE_WORDS if sizes.nodes is None else 3 * sizes.nodes


def list_words(sizes, n, w):
    return LIST_WORDS if sizes.entries is None else sizes.entries * entry_size(n, w)


def capacities(sizes, n, w):
    """How many nodes and entries there may be."""
    return node_capacity(node_words(sizes)), min(ENTRY_LIMIT, list_words(sizes, n, w) // entry_size(n, w))


def need_sizes(sizes):
    """Misuse where a buffer is asked for that no memory can use whole."""
    for name, value, least, most in (("--nodes", sizes.nodes, 2, NODE_LIMIT),
                                     ("--entries", sizes.entries, 0, ENTRY_LIMIT), ("--text", sizes.text, 1, 1 << 30)):
        if value is not None and not least <= value <= most:
            raise Misuse("%s must be %d to %d" % (name, least, most))


def words_buffer(words):
    return (ctypes.c_uint32 * max(1, len(words)))(*words)


class Archive:
    """The archive as a shared object, made with the C compiler."""

    has_calls = True

    def __init__(self, paths):
        names = " and ".join(paths)
        with tempfile.TemporaryDirectory() as folder:
            made = os.path.join(folder, "mangerday.so")
            command = [compiler(), "-shared", "-o", made, "-Wl,--whole-archive", *paths, "-Wl,--no-whole-archive"]
            done = subprocess.run(command, stdout=subprocess.PIPE, stderr=subprocess.STDOUT, check=False)
            if done.returncode:
                raise Misuse("no shared object can be made of %s%s" % (names, last_line(done.stdout)))
            try:
                self.library = ctypes.CDLL(made)
            except OSError:
                raise Misuse("%s cannot be loaded on this machine" % names) from None
        for name in FUNCTIONS:
            if not hasattr(self.library, name):
                raise Misuse("%s is not the model's: there is no %s in it; %s" % (names, name, BUILD))
            getattr(self.library, name).restype = ctypes.c_uint32

    def case(self, data, sizes):
        """What is printed of a case file."""
        n, w = data[:2] if len(data) >= 2 else (1, 1)
        nodes, entries = (ctypes.c_uint32 * node_words(sizes))(), (ctypes.c_uint32 * max(1, list_words(sizes, n, w)))()
        text, record, count = ctypes.create_string_buffer(sizes.text), (ctypes.c_uint32 * 6)(), ctypes.c_uint64()
        given = (ctypes.c_uint8 * max(1, len(data))).from_buffer_copy(data or b"\0")
        row = self.library.md_case(given, ctypes.c_size_t(len(data)), nodes, ctypes.c_size_t(node_words(sizes)),
                                   entries, ctypes.c_size_t(list_words(sizes, n, w)), text,
                                   ctypes.c_size_t(sizes.text), record, ctypes.byref(count))
        if row:
            return Printed(None, row, count.value)
        return Printed(text.raw[:count.value].decode("ascii"))

    def calls(self, case, sizes):
        """The accesses of a case, whose n, w and nodes are accepted, one call after another."""
        memory = Memory(self.library, case, sizes)
        steps = []
        for access in case.accesses:
            row, out, word = memory.access(access)
            if row:
                return Calls(steps, row, memory.nodes())
            steps.append(Step(out, word, memory.record()))
        return Calls(steps, None, memory.nodes())


def compiler():
    name = os.environ.get("CC", "cc")
    if shutil.which(name) is None:
        raise Misuse("no C compiler %s, which makes a shared object of the archive" % name)
    return name


class Memory:
    """A memory in buffers of its own: record, node words, list words and ports."""

    def __init__(self, library, case, sizes):
        self.library = library
        self.w = case.w
        self._record = (ctypes.c_uint32 * 6)()
        self._nodes = (ctypes.c_uint32 * node_words(sizes))()
        self._list = (ctypes.c_uint32 * max(1, list_words(sizes, case.n, case.w)))()
        self._ports = (ctypes.c_uint32 * (PORTS * PORT_WORDS))()
        self._lent_nodes = self._nodes, ctypes.c_size_t(node_words(sizes))
        self._lent_list = self._list, ctypes.c_size_t(list_words(sizes, case.n, case.w))
        self.call("fresh", ctypes.c_uint32(case.n), ctypes.c_uint32(case.w), *self._lent_nodes, self._ports)
        self.load(case.nodes)

    def call(self, name, *arguments):
        return getattr(self.library, "md_" + name)(self._record, *arguments)

    def load(self, nodes):
        """Put the nodes of a file into the node words, from node 2 up."""
        words = [word for node in nodes for word in node]
        self._nodes[6:6 + len(words)] = words
        self._record[2] = 2 + len(nodes)

    def record(self):
        return Record(*self._record)

    def nodes(self):
        """The words of each node, from node 0 up."""
        words = self._nodes[:3 * self._record[2]]
        return list(zip(words[0::3], words[1::3], words[2::3]))

    def access(self, access):
        """The row that refuses an access or 0, its out-word, and the pairs of a read's answer."""
        out = ctypes.c_uint32()
        lent = [*self._lent_nodes, *self._lent_list]
        address, data = slice_of(halves(access.address)), slice_of(halves(access.data))
        if access.kind == READ:
            answer = words_buffer([0] * (2 * self.w))
            row = self.call("read", *lent, self._ports, ctypes.c_uint32(access.port), *slice_of(access.control),
                            *address, answer, ctypes.c_size_t(2 * self.w))
            return row, None, pairs(list(answer))
        if access.kind == WRITE:
            row = self.call("write", *lent, *slice_of(access.control), *address, *data, ctypes.byref(out))
        elif access.kind == ASSERT:
            row = self.call("assert", *lent, ctypes.c_uint32(access.control[0]), *address, *data, ctypes.byref(out))
        else:
            row = self.call("check", *lent, ctypes.c_uint32(access.control[0]), *address, *data)
        return row, out.value, None


def slice_of(words):
    """Words and their number, as they are lent to a call that only reads them."""
    return words_buffer(words), ctypes.c_size_t(len(words))


class Program:
    """A command that reads a case on standard input and prints its text, as `memcase` does."""

    has_calls = False

    def __init__(self, command, seconds):
        self.command, self.seconds = command, seconds

    def case(self, data, sizes):
        if sizes != Sizes():
            raise Misuse("--nodes, --entries and --text need the archive, for a program's sizes are its own; " + BUILD)
        if len(data) > INPUT_BYTES:
            raise Misuse("the case has %d bytes, and a program reads the first %d: it needs the archive; %s"
                         % (len(data), INPUT_BYTES, BUILD))
        done = run(self.command, data, self.seconds)
        if done.failure:
            raise Misuse("%s %s: %s" % (self.command[0], done.failure, done.how))
        refusal = REFUSAL.fullmatch(done.out)
        if refusal:
            return Printed(None, int(refusal[1]), int(refusal[2]))
        return Printed(done.out.decode("latin-1"))


def need_files(paths):
    for path in paths:
        if not os.path.isfile(path):
            raise Misuse("no archive %s; %s" % (path, BUILD))
    return paths


def find(archives, memcase, seconds):
    """The model to be used, and what is missing, in words, or None: the command or the archives that are named, else
    archives that were built, else `memcase`."""
    if memcase is not None:
        return Program(words_of(memcase), seconds), None
    if archives:
        return Archive(need_files(archives)), None
    missing = "there is no archive of the model; " + BUILD
    for paths in filter(None, map(sorted, map(glob.glob, ARCHIVES))):
        try:
            return Archive(paths), None
        except Misuse as error:
            missing = str(error)
    need_program([MEMCASE], "; `rt run < /dev/null` in crates/memcase builds it, and `link/install target/prefix` the archive")
    return Program([MEMCASE], seconds), missing
