"""The papers' numerals: the kinds of calls, limits, the words of a memory and the layout of a case file.

The second program, the reader of files and the commands take them from here, as 01 and the requests say them.  Names
are the papers'.
"""

from collections import namedtuple
from functools import lru_cache

# Calls

# The accesses, numbered as in a case file, and the other calls.
(WRITE, READ, ASSERT, CHECK, FRESH, EVALUATE, VARIABLE, ITE, ASSERT_FORMULA, CHECK_FORMULA, TEXT,
 WITNESS) = range(1, 13)
NAMES = {WRITE: "write", READ: "read", ASSERT: "assert", CHECK: "check", FRESH: "fresh", EVALUATE: "evaluate",
         VARIABLE: "variable", ITE: "ite", ASSERT_FORMULA: "assert_formula", CHECK_FORMULA: "check_formula",
         TEXT: "text", WITNESS: "witness"}

# The accesses that have an enable, which is a pair; the others have a condition b.
ENABLED = WRITE, READ

# The calls of written formulas, each with the access that it makes.
FORMULAS = {ASSERT_FORMULA: ASSERT, CHECK_FORMULA: CHECK}

# The out-word of a write that is idle; that of one that is entered is its place.
IDLE = (1 << 32) - 1

# The words of a memory

NODE_LIMIT = 16384
ENTRY_LIMIT = 4096

# The variable of nodes 0 and 1, and their words; index variables are below the first user variable.
TERMINAL = 64
TERMINALS = [(TERMINAL, 0, 0), (TERMINAL, 1, 1)]
USER_VARIABLE = 8
VARIABLES = 64

# Four ports of 32 words; a port's held word is in the first 2w of its own.
PORTS = 4
PORT_WORDS = 32

Record = namedtuple("Record", "n w nodes entries assert_condition check_condition")

# What `memcase` lends to a case, and how much of its standard input it reads.
NODE_WORDS = 16384
LIST_WORDS = 16384
TEXT_BYTES = 65536
INPUT_BYTES = 65536


def in_range(n, w):
    return 1 <= n <= 8 and 1 <= w <= 16


def entry_size(n, w):
    return 2 + 2 * n + 2 * w


def node_capacity(node_words):
    return min(node_words // 3, NODE_LIMIT)


def list_capacity(n, w, list_words):
    return min(list_words // entry_size(n, w), ENTRY_LIMIT)


def held_places(port, w):
    """Where a port's held word stands in the port words."""
    return slice(PORT_WORDS * port, PORT_WORDS * port + 2 * w)


def pairs(words):
    return list(zip(words[0::2], words[1::2]))


def halves(word):
    return [half for pair in word for half in pair]


# The case file: the sizes; how many nodes there are, and each node; how many accesses there are, and each access.

# A number has one byte or two, the low byte first; both have a highest.
BYTE, NUMBER = 1, 2
BYTE_LIMIT, NUMBER_LIMIT = 255, 65535

# A byte each.
SIZES = "n", "w"

# A node's variable and children.
NODE = BYTE, NUMBER, NUMBER

# An access is its kind, a byte, and these fields.  The bits of an address or of data begin with the lowest.
FIELDS = {
    WRITE: ("enable", "address", "data"),
    READ: ("port", "enable", "address"),
    ASSERT: ("b", "address", "data"),
    CHECK: ("b", "address", "data"),
}

# A field: how many numbers it has, and of how many bytes.
Field = namedtuple("Field", "name count size")

# An access: `control` is a list of one node or two, `address` and `data` are lists of pairs; `port` is a read's.
Access = namedtuple("Access", "kind control address data port", defaults=(0,))


def field_size(name):
    """The bytes of one number of a field; all but a port's are nodes."""
    return BYTE if name == "port" else NUMBER


@lru_cache(None)
def fields_of(kind, n, w):
    """The fields of an access, in the order of the file."""
    counts = {"port": 1, "enable": 2, "b": 1, "address": 2 * n, "data": 2 * w}
    return [Field(name, counts[name], field_size(name)) for name in FIELDS[kind]]


def access_of(kind, numbers):
    """The access whose fields have these numbers."""
    port, = numbers.get("port", [0])
    control = numbers["enable" if kind in ENABLED else "b"]
    return Access(kind, control, pairs(numbers["address"]), pairs(numbers.get("data", [])), port)


def numbers_of(access):
    """The numbers of the fields of an access."""
    return {"port": [access.port], "enable": access.control, "b": access.control, "address": halves(access.address),
            "data": halves(access.data)}
