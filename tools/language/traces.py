"""A trace of accesses, a table in CSV, as a text of casetext.py.

    python3 tools/casetext.py import FILE.csv [--n N] [--w W] > FILE.txt

`-` stands for standard input.  Address bits and data bits are said by --n and --w, or by a line above the header:

    # memory n=5 w=16
    kind,port,enable,address,data,b
    write,,we,r,16'h00ff,
    read,1,1,r,,
    check,,,00101,16'hxx3f,we

The header names the columns, in any order, and has one of two forms.

An access to a row:

    kind      write, read, assert or check
    enable    of a write or read; where there is no such column it is 1
    b         of an assert or check; where there is no such column it is 1
    address   of every access
    data      of a write, assert or check
    port      of a read, 0 to 3; 0 where it is empty

A clock cycle to a row, with a group of columns for each access that it makes, in the order of the groups:

    we waddr wdata      enable, address and data of a write; we0, we1 and on, with their waddr0 and so on, where there
                        are several
    re raddr            enable and address of a read by port 0; re0 to re3, with their raddr0 to raddr3, by these ports

So a memory that reads before it writes has the columns of its reads before those of its writes.  Where all cells of a
group are empty, or its enable is 0 and the others are empty, it makes no access in that row.

Columns `time` and `note` may stand in both: they become part of the line's comment.  No other column may.

A cell is written as the field of a text is (python3 tools/casetext.py --help): bits 01x, words 0x1f, 0d31, 16'hxx3f,
names and expressions, x alone for a field that is all unknown.  Words that have no mark need one in the header:
`address:dec`, `data:hex`, `:bin` or `:oct` say how the digits of a column are read (x is a digit too).  In a column
`:hex` what is made of the digits 0 to 9, a to f and x is a word, and a name of such letters stands in parentheses.

A name is a variable, and need not be declared: the variables are declared in the order in which they come first, a
name that is the whole of an address or of data as a vector of that width, r[4:0].  What a simulator may have written
for a value is no name unless it is declared: digits of the column with ? or the letters U Z W L H and - of std_logic,
words as true, low, hiz and unknown; it is refused, and x is the unknown value.  To choose the order, and to have every other
name refused, declare them above the header; conditions may be named there too.  A line there that begins so is a
statement of the text, and any other that begins with `#` a comment:

    # variable we r[4:0]
    # let hit = we & r == 5

Fields may be quoted, and must be where they hold a comma; a table may have `;` or tabs in place of commas.  Empty rows
and rows that begin with `#` are left out.  Each line of the text has the number of its row's line as a comment.  Where
a trace cannot be read, a line on standard error names the line and the column, and the status is 1.
"""

import csv
import functools
import io
import re
from collections import namedtuple

from common.diagrams import TooLarge
from language import casetext
from language.expressions import nearest, tokens
from language.words import LETTERS, WORD, Mistake, read_word, shown
from papers import BYTE_LIMIT

FIELDS = "port", "enable", "b", "address", "data"
REMARKS = "time", "note"
RADIX = {"bin": "b", "oct": "o", "dec": "d", "hex": "h"}
RADIX_NAMES = {letter: name for name, letter in RADIX.items()}
DIGITS = {"b": re.compile(r"[01xX_]+\Z"), "o": re.compile(r"[0-7xX_]+\Z"), "d": re.compile(r"[0-9_]+\Z|[xX]\Z"),
          "h": re.compile(r"[0-9a-fA-FxX_]+\Z")}
# What is no name unless it is declared: digits of a column with z or ?, letters of std_logic, and words.
COLUMN_DIGITS = {"": "01", "b": "01", "o": "01234567", "d": "0123456789", "h": "0123456789abcdef"}
MEANT = {"true": "1", "high": "1", "h": "1", "false": "0", "low": "0", "l": "0", "hiz": "x for unknown",
         "unknown": "x for unknown", "undef": "x for unknown", "dontcare": "x for unknown"}
CYCLE = re.compile(r"(we|waddr|wdata|re|raddr)([0-9]*)\Z")
CYCLE_FIELDS = {"we": "enable", "waddr": "address", "wdata": "data", "re": "enable", "raddr": "address"}
COLUMNS = ["kind", *FIELDS, *REMARKS]
STATEMENT = re.compile(r"#\s*(memory|variable|let)\b\s*(.*)\Z", re.DOTALL)
NAME_AND_NUMBER = re.compile(r"(.*[A-Za-z_])([0-9]+)\Z")
LET_NAME = re.compile(r"[^\s=]+")
LEFT_OUT = {"enable": "1", "b": "1", "port": "0"}
SEPARATORS = ",", ";", "\t"

# A column: its place in a row, its name, and the letter of its radix or "".
Column = namedtuple("Column", "place name radix")

# Columns that make an access, by their fields.  `kind` and `port` are None where the row says them.
Group = namedtuple("Group", "kind port columns")

# A row: the line on which it begins, and its cells.
Row = namedtuple("Row", "line cells")

# An access: its row's line, its kind and port, its cells by their fields, and what its comment says.
Access = namedtuple("Access", "line kind cells remark")

# What a cell says, and the name of its column, None where there is no such column.
Cell = namedtuple("Cell", "text column")


def mistake(line, column, reason):
    place = "line %d" % line + (", column %s" % column if column else "")
    return Mistake("%s: %s" % (place, reason))


# Rows

def separator(text):
    """What separates the cells: as the header has it."""
    for line in text.splitlines():
        if line.strip() and not line.lstrip().lstrip('"').startswith("#"):
            return next((mark for mark in SEPARATORS if mark in line), ",")
    return ","


def all_rows(text):
    """The rows that are not empty."""
    reader = csv.reader(io.StringIO(text, newline=""), delimiter=separator(text), strict=True)
    line = 1
    try:
        for cells in reader:
            cells = [" ".join(cell.split()) for cell in cells]
            if any(cells):
                yield Row(line, cells)
            line = reader.line_num + 1
    except csv.Error as error:
        raise mistake(line, None, "no row of a table: %s" % error) from None


def statement(row):
    """The statement that a row is which begins with `#`: its word and the rest, or None."""
    match = STATEMENT.match(", ".join(row.cells).rstrip(", "))
    return match and match.groups()


# The header

def read_columns(row):
    found = []
    for place, cell in enumerate(row.cells):
        name, colon, radix = cell.lower().partition(":")
        name, radix = name.strip(), radix.strip()
        if not name and not colon:
            continue
        if name not in COLUMNS and not CYCLE.match(name):
            raise mistake(row.line, None, "no column is called `%s`%s; the columns are %s, or we, waddr, wdata, re and "
                          "raddr; import --help says more" % (shown(cell), nearest(name, COLUMNS), ", ".join(COLUMNS)))
        if colon and (radix not in RADIX or not name.startswith(("address", "data", "waddr", "wdata", "raddr"))):
            raise mistake(row.line, None, "`%s`: addresses and data alone have a radix, one of %s" % (
                shown(cell), ", ".join(RADIX)))
        if name in [column.name for column in found]:
            raise mistake(row.line, None, "the column `%s` twice" % name)
        found.append(Column(place, name, RADIX.get(radix, "")))
    return found


def read_groups(row, columns):
    """The groups of columns that make accesses, and the columns of remarks."""
    remarks = [column for column in columns if column.name in REMARKS]
    rest = [column for column in columns if column.name not in REMARKS]
    names = [column.name for column in rest]
    if "kind" not in names:
        return cycle_groups(row, rest), remarks
    wrong = [name for name in names if CYCLE.match(name)]
    if wrong:
        raise mistake(row.line, None, "`kind` is the column of a table with an access to a row, and `%s` of one with a "
                      "cycle to a row" % wrong[0])
    if "address" not in names:
        raise mistake(row.line, None, "the header needs the column `address`")
    return [Group(None, None, {column.name: column for column in rest})], remarks


def cycle_groups(row, columns):
    groups = {}
    for column in columns:
        match = CYCLE.match(column.name)
        if not match:
            raise mistake(row.line, None, "the header needs `kind` beside `%s`" % column.name)
        key = "write" if match[1].startswith("w") else "read", match[2]
        groups.setdefault(key, {})[CYCLE_FIELDS[match[1]]] = column
    if not groups:
        raise mistake(row.line, None, "the header needs `kind` and `address`, or columns as waddr, wdata and raddr")
    for (kind, number), found in groups.items():
        for field, name in (("address", "addr"), ("data", "data"))[:2 if kind == "write" else 1]:
            if field not in found:
                raise mistake(row.line, None, "the header needs the column `%s%s%s` beside `%s`" % (
                    kind[0], name, number, next(iter(found.values())).name))
        if kind == "read" and number not in ("", "0", "1", "2", "3"):
            raise mistake(row.line, None, "a read is by port 0 to 3, not %s" % shown(number))
    if ("read", "") in groups and ("read", "0") in groups:
        one, other = (next(iter(groups["read", number].values())).name for number in ("", "0"))
        raise mistake(row.line, None, "`%s` and `%s` are the same port" % (one, other))
    return [Group(kind, (number or "0") if kind == "read" else None, found)
            for (kind, number), found in groups.items()]


# Accesses

class Table:
    """What a trace says: the statements above its header, and its accesses."""

    def __init__(self, text):
        self.statements = []
        self.accesses = []
        self.columns = self.groups = self.remarks = None
        for row in all_rows(text.removeprefix("\ufeff")):
            if row.cells[0].startswith("#"):
                self.remark(row)
            elif self.groups is None:
                self.columns = read_columns(row)
                self.groups, self.remarks = read_groups(row, self.columns)
            else:
                self.row(row)
        if self.groups is None:
            raise Mistake("the trace has no header; import --help says what it is")

    def remark(self, row):
        found = statement(row)
        if found and self.groups is not None:
            raise mistake(row.line, None, "`# %s` must stand above the header" % found[0])
        if found:
            self.statements.append((row.line, *found))

    def row(self, row):
        last = max(column.place for column in self.columns)
        if any(row.cells[last + 1:]):
            raise mistake(row.line, None, "it has more cells than the header; a cell that holds a comma is quoted")
        remark = ", ".join(["line %d" % row.line] + [
            ("time " if column.name == "time" else "") + cell_of(row, column)
            for column in self.remarks if cell_of(row, column)])
        for group in self.groups:
            access = read_access(row, group, remark)
            if access:
                self.accesses.append(access)


def cell_of(row, column):
    return row.cells[column.place] if column and column.place < len(row.cells) else ""


def read_access(row, group, remark):
    """The access that a group makes in a row; None where it makes none."""
    cells = {field: Cell(cell_of(row, column), column) for field, column in group.columns.items()}
    kind = group.kind
    if kind is None:
        kind = cells.pop("kind").text.lower()
        if kind not in casetext.FIELDS:
            raise mistake(row.line, "kind", "`%s` is none of %s%s" % (
                shown(kind), ", ".join(casetext.FIELDS), nearest(kind, list(casetext.FIELDS))))
    elif not any(cell.text for field, cell in cells.items() if field != "enable") \
            and ("enable" not in cells or cells["enable"].text in ("", "0")):
        return None
    if group.port is not None:
        cells["port"] = Cell(group.port, None)
    return Access(row.line, kind, needed(row, kind, cells), remark)


def with_article(kind):
    return ("an " if kind == "assert" else "a ") + kind


def needed(row, kind, cells):
    """The cells of a kind's fields, those that may be left out with what they are then."""
    for field, cell in cells.items():
        if cell.text and field not in casetext.FIELDS[kind]:
            raise mistake(row.line, cell.column.name, "%s has no %s: leave the cell empty%s" % (
                with_article(kind), field, ", or make it a check" if (kind, field) == ("read", "data") else ""))
    found = {}
    for field in casetext.FIELDS[kind]:
        cell = cells.get(field, Cell("", None))
        if not cell.text and (cell.column is None or field == "port") and field in LEFT_OUT:
            cell = Cell(LEFT_OUT[field], cell.column)
        if not cell.text:
            missing = "the cell is empty" if cell.column else "there is no such column"
            raise mistake(row.line, cell.column.name if cell.column else field, "%s, and %s needs it" % (
                missing, with_article(kind)))
        found[field] = cell
    return found


# Names

class Names:
    """The names that stand in expressions and were not declared, in the order in which they come first."""

    def __init__(self, known):
        self.known = known
        self.widths = {}

    def add(self, text, width):
        """The names of a text; one that is the whole text has a width, every other is one bit wherever it is not."""
        for item in text.split(","):
            for name in names_in(item.strip()):
                if name in self.known:
                    continue
                whole = width if name == text.strip("() ") else 1
                if whole > 1 and self.widths.get(name, 1) not in (1, whole):
                    raise Mistake("`%s` is a vector of %d bits in a cell before, and of %d here: use two names" % (
                        shown(name), self.widths[name], whole))
                self.widths[name] = max(whole, self.widths.get(name, 1))

    def is_bit(self, name):
        """Whether a name is that of a bit of a vector, r3."""
        match = NAME_AND_NUMBER.match(name)
        place = match.start(2) if match else len(name)
        return any(number == str(int(number[:9])) and int(number) < self.widths.get(name[:start], 1) > 1
                   for start in range(place, len(name)) for number in [name[start:]])

    def declarations(self):
        return ["variable %s" % (name if width == 1 else "%s[%d:0]" % (name, width - 1))
                for name, width in self.widths.items() if not self.is_bit(name)]


@functools.lru_cache(None)
def names_in(item):
    if LETTERS.match(item) or read_word_or_none(item):
        return []
    try:
        return [token.text for token in tokens(item, 0) if token.kind == "name" and not LETTERS.match(token.text)]
    except Mistake:
        return []


def read_word_or_none(text):
    try:
        return read_word(text)
    except Mistake:
        return None


# The text

class NoSizes(Mistake):
    """A trace that does not say address bits and data bits."""


class Writer:
    """Makes the text of a table.  Each of its lines is read as it is made, so that the text is one of a case."""

    def __init__(self):
        self.encoder = casetext.Encoder()
        self.lines = []

    def put(self, line, place, remark=""):
        """A line of the text that comes of a line of the table."""
        try:
            self.encoder.line(len(self.lines) + 1, line)
        except TooLarge:
            raise mistake(place, None, "its condition takes too many steps in this order of variables") from None
        except Mistake as wrong:
            raise mistake(place, None, wrong) from None
        self.lines.append("%-60s  # %s" % (line, remark) if remark else line)

    def table(self, table, n, w):
        self.memory(table, n, w)
        self.names(table)
        for access in table.accesses:
            fields = ["%s=%s" % (field, self.field(access, field, cell)) for field, cell in access.cells.items()
                      if (field, cell.text) != ("port", "0")]
            self.put(" ".join([access.kind, *fields]), access.line, shown_remark(access.remark))

    def memory(self, table, n, w):
        said = [(line, rest) for line, word, rest in table.statements if word == "memory"]
        if said and (n is not None or w is not None):
            raise mistake(said[0][0], None, "`# memory` and --n or --w: give one of them")
        if not said and (n is None or w is None):
            raise NoSizes("say the address bits and data bits: a line `# memory n=5 w=16` above the header")
        for line, rest in said or [(1, "n=%s w=%s" % (n, w))]:
            self.put("memory " + rest, line)

    def names(self, table):
        """The statements above the header, and where these declare no variable every name of the table."""
        said = [entry for entry in table.statements if entry[1] != "memory"]
        if not any(word == "variable" for _, word, _ in said):
            lets = [rest.partition("=") for _, _, rest in said]
            names = Names({LET_NAME.match(name.strip())[0] for name, _, _ in lets if name.strip()})
            self.need_values(table, names.known)
            for _, _, expression in lets:
                names.add(expression, 1)
            self.cell_names(names, table)
            for declaration in names.declarations():
                self.put(declaration, 1)
        for line, word, rest in said:
            self.put("%s %s" % (word, rest), line)
        self.need_values(table, self.encoder.vectors)
        self.lines.append("")

    def need_values(self, table, known):
        """Mistake where a cell, or an item of it, is written as a value that there is not, and is no known name."""
        for line, field, cell in named_cells(table):
            for item in cell.text.split(","):
                item = item.strip()
                reason = item not in known and no_value(item, cell.column, self.encoder.width(field), field)
                if reason:
                    raise mistake(line, cell.column.name, reason)

    def cell_names(self, names, table):
        """The names of the cells, by rows and from left to right."""
        for line, field, cell in named_cells(table):
            try:
                names.add(cell.text, self.encoder.width(field))
            except Mistake as wrong:
                raise mistake(line, cell.column.name, wrong) from None

    def field(self, access, field, cell):
        """What a cell is as a field, and Mistake with its column where it is none."""
        column = cell.column.name if cell.column else field
        try:
            text = self.marked(field, cell)
            if field == "port":
                casetext.plain_number(text, BYTE_LIMIT, "the port")
            elif field == "b":
                self.encoder.b(text, 0)
            else:
                self.encoder.pairs(field, text, 0)
            return text
        except TooLarge:
            raise mistake(access.line, column, "it takes too many steps in this order of variables") from None
        except Mistake as wrong:
            raise mistake(access.line, column, wrong) from None

    def marked(self, field, cell):
        """A cell with its radix in words of the text."""
        if not is_digits(cell):
            return cell.text
        if cell.text in self.encoder.vectors:
            raise Mistake("`%s` is made of digits of this column, and is a name elsewhere: write (%s) for the name, or "
                          "%d'h%s" % (cell.text, cell.text, self.encoder.width(field), cell.text))
        if cell.column.radix == "h" and cell.text[:2] in ("0x", "0X"):
            raise Mistake("`%s` in a column of hexadecimal digits may have a digit x: write it without 0x, or as "
                          "%d'h.." % (shown(cell.text), self.encoder.width(field)))
        return "%d'%s%s" % (self.encoder.width(field), cell.column.radix, cell.text)


def named_cells(table):
    """The cells in which names may stand, by rows and from left to right: each with its line and field."""
    cells = [(access.line, cell.column.place, field, cell) for access in table.accesses
             for field, cell in access.cells.items() if cell.column and field != "port" and not is_digits(cell)]
    return [(line, field, cell) for line, _, field, cell in sorted(cells, key=lambda entry: entry[:2])]


def no_value(text, column, width, field):
    """Why a text that is no known name is no value, or None."""
    is_name = casetext.DECLARED_NAME.match(text)
    wrong = None if is_name else wrong_digit(text, column.radix)
    if wrong:
        return "`%s` is no digit of a column :%s; x%s is unknown" % (
            wrong, RADIX_NAMES[column.radix], " alone" if column.radix == "d" else "")
    if not is_like_value(text.lower(), column.radix):
        return None
    meant = "0 or 1" if field == "b" else MEANT.get(text.lower(), "x for unknown")
    declared = text if width == 1 else "%s[%d:0]" % (text, width - 1)
    return "`%s` is no value here: write %s%s" % (shown(text), meant, (
        ", or declare it above the header (`# variable %s`) if it is a name" % shown(declared)) if is_name else "")


def wrong_digit(text, radix):
    """The first digit of a number that a column of a radix has not; None where a text is no number, or has none."""
    if not radix or LETTERS.match(text) or WORD.match(text) or not (text.isalnum() and text.isascii()):
        return None
    return next((digit for digit in text if digit.lower() not in COLUMN_DIGITS[radix] + "x"[:radix != "d"]), None)


def is_like_value(text, radix):
    """Whether a text in small letters is written as values are that are not 0, 1 or x."""
    letters = set(text)
    if not letters & set("zuwhl?-"):
        return text in MEANT
    return letters <= set(COLUMN_DIGITS[radix] + "x_zuwhl?-") or text in MEANT


def is_digits(cell):
    """Whether a cell has only digits of its column's radix."""
    return bool(cell.column and cell.column.radix and DIGITS[cell.column.radix].match(cell.text))


def shown_remark(remark):
    return "".join(letter if letter.isprintable() else "?" for letter in remark)


def read_trace(data, n=None, w=None):
    """The text of a trace, given as bytes, and the trace's line of each access."""
    table = Table(data.decode("utf-8"))
    writer = Writer()
    writer.table(table, n, w)
    return "\n".join(writer.lines) + "\n", [access.line for access in table.accesses]


def text_of(data, n=None, w=None):
    """The text of a trace, given as bytes."""
    return read_trace(data, n, w)[0]


def imported(data, n, w):
    """The text of a trace as bytes, for `import`, whose options may say the sizes."""
    try:
        return text_of(data, n, w).encode("utf-8")
    except NoSizes as wrong:
        raise Mistake("%s, or --n and --w" % wrong) from None


def is_trace(text):
    """Whether a text begins as a trace does: with a header of several cells, of which one names a column."""
    try:
        rows = (row for row in all_rows(text.removeprefix("\ufeff")) if not row.cells[0].startswith("#"))
        names = [cell.lower().partition(":")[0].strip() for cell in next(rows, Row(1, [])).cells]
    except Mistake:
        return False
    return len(names) > 1 and any(name in COLUMNS or CYCLE.match(name) for name in names)
