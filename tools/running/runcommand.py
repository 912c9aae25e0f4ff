"""Runs a text, a trace or a case file, and shows what came of each access in names.

    python3 tools/casetext.py run FILE [options]

FILE is a text (`.txt`), a trace (`.csv`), a case file (`.case`) or `-`, standard input; one of another name is a case
file where it has a zero byte.  Each access is shown with its line, and below it what came of it and how many nodes and
entries it added:

    entered at place P     a write, or an assert, that became entry P of the update list
    idle                   a write whose enable is 0 under every assignment: nothing is entered
    word 11,d,0            the word of a read, the highest bit first: 0, 1, X, or a condition that the bit is; `by case`
                           where the lines below have a word for each of some conditions; a bit is `?` where a line
                           below says where it may be 1 and where it may be 0
    assert condition C     C is the condition so far, after an assert that was entered, or kept: it changed nothing
    check condition C      C is the condition so far: where it holds, every plain memory passes every check

Conditions are written with ! & ^ | over the names of the text, and with == and != where every bit of a vector stands
in them; a variable without a name is `v` and its number.  Long ones are cut; --full shows them whole.

Where a check condition is not 1, an assignment is shown under which a check fails, what the model says of the word
there, and a plain run in which the check finds a wrong word: how the array starts, what every X of an access that
may touch the location is taken as, and the word found.  In an assignment a vector is one word, and a bit of it that
does not matter is `-`.

The model runs through the archive of the C functions, with as many nodes, entries and bytes of text as `memcase` has
or --nodes, --entries and --text say, once as a whole (md_case) and once access by access; the two must agree.  A case
file may have any length there; `memcase` reads 65536 bytes of it, and a line below the totals says where a case has
more.  Where there is no archive or no C compiler, `memcase` itself is run, and node counts are not known.

    --dot WHAT, --svg WHAT   write a condition as a graph for Graphviz, or as a picture, and nothing else.  WHAT is
                             a condition's or a variable's name; `check` or `assert`, the condition at the end;
                             LINE, that after a check or an assert; or LINE:BIT:h or LINE:BIT:l, of a read's bit.
                             In a case file LINE is the number of the access, from 1 up

The status is 0 where the case ran and its check condition is 1, 1 where the check condition is not 1, 3 where the
case was refused, and 2 where the tool cannot do what it is asked to; with --dot and --svg it is 0 or 2.  Where the
tool was ended by Ctrl-C it is 130, and where its output was closed before all was written 141.
"""

import argparse
import functools
import sys
from collections import namedtuple

from common.casefile import ONE, CaseFile, parse_start
from common.diagrams import TRUE, Diagrams, NotACondition, TooLarge
from common.endings import Parser, end, need_time, say, standard_input
from common.simulatorruns import Misuse
from language import casetext, traces
from language.words import counted, not_utf8
from papers import (ASSERT, CHECK, IDLE, NAMES, READ, TERMINALS, USER_VARIABLE, WRITE, Access,
                    INPUT_BYTES as MEMCASE_BYTES)
from running import archive, dot, refusals, witnesses
from running.readable import Names, Readable
from second.tables import is_standard
from sharpened import keptorder
from sharpened.casepairs import INPUT_BYTES, nodes_of, read_bytes

SHOWN_LINE = 110
SHOWN_CHECKS = 5
SHOWN_EVENTS = 30
SHOWN_ZEROS = 12
WIDE = 5
STDIN = "standard input"

# What is run: its name, bytes and contents; the word and number of each access, as `line 7`; the text of each, None
# in a case file; the names of variables and of nodes.
Loaded = namedtuple("Loaded", "name data case word numbers texts variables conditions")

# What came of it: the answers to the accesses that were accepted, as conditions, and their lines, none where a program
# does not tell them; the calls or None; the row of a refusal or None, and how many accesses were accepted.
Outcome = namedtuple("Outcome", "answers lines calls row accepted")


# What is given

def read_input(name):
    if name != "-":
        return read_bytes(name)
    data = standard_input(INPUT_BYTES + 1)
    if len(data) > INPUT_BYTES:
        raise Misuse("standard input is longer than %d bytes: no case and no text of one is" % INPUT_BYTES)
    return data


def load(name):
    """The case of a file, with the names and lines of a text."""
    data = read_input(name)
    if name.endswith(".case") or not name.endswith(".txt") and b"\0" in data:
        return load_case(name, data)
    shown = STDIN if name == "-" else name
    try:
        text, places = traces.read_trace(data) if name.endswith(".csv") else (data.decode("utf-8"), None)
        source = casetext.read_source(text)
    except UnicodeDecodeError as error:
        raise Misuse("%s %s" % (shown, not_utf8(error))) from None
    except casetext.Mistake as mistake:
        raise Misuse("%s is no text of a case: %s" % (shown, mistake)) from None
    lines = text.splitlines()
    texts = [" ".join(lines[number - 1].split("#", 1)[0].split()) for number in source.lines]
    return Loaded(shown, source.case.bytes(), source.case, "line", places or source.lines, texts, source.variables,
                  source.conditions)


def load_case(name, data):
    case, _ = parse_start(data)
    return Loaded(STDIN if name == "-" else name, data, case, "access", range(1, len(case.accesses) + 1), None, {}, {})


# The run

def beginning(case, count, more=()):
    """The case with its first accesses alone, and more behind them."""
    found = CaseFile(case.n, case.w)
    found.nodes = case.nodes
    found.accesses = case.accesses[:count] + list(more)
    return found


class Running:
    """A case, the model that runs it and the space it is lent, and what came of it."""

    def __init__(self, loaded, engine, sizes, full=False):
        self.loaded, self.case, self.engine, self.sizes = loaded, loaded.case, engine, sizes
        self.diagrams = Diagrams()
        self.names = Names(self.diagrams, self.case.nodes, loaded.variables, loaded.conditions)
        self.readable = Readable(self.diagrams, self.names, full)
        self.outcome = self.run()

    def run(self):
        printed = self.engine.case(self.loaded.data, self.sizes)
        if printed.text is not None:
            answers, lines = self.answers(self.case, printed.text), printed.text.splitlines()
        else:
            answers, lines = self.before_refusal(printed)
        calls = None
        if self.engine.has_calls and printed.row not in (1, 2):
            calls = self.engine.calls(self.called(printed), self.sizes)
            self.hold(printed, answers, lines, calls)
        return Outcome(answers, lines, calls, printed.row, self.accepted(printed))

    def answers(self, case, text):
        """What a text says of each access; Misuse where it is none of the case."""
        try:
            return keptorder.answers(self.diagrams, case, text)
        except (keptorder.Malformed, NotACondition) as wrong:
            raise Misuse("what the model printed is no text of this case: %s" % wrong) from None

    def before_refusal(self, printed):
        """The answers before a refusal: those of the case without the accesses from the refused one on.  Its last line
        needs space that the refused case did not use."""
        if printed.after > len(self.case.accesses):
            raise Misuse("the model refused the case after %d accesses, and it has %d" % (
                printed.after, len(self.case.accesses)))
        if not printed.after:
            return [], []
        before = beginning(self.case, printed.after)
        sizes = self.sizes._replace(text=self.sizes.text + 16) if self.engine.has_calls else self.sizes
        text = self.engine.case(before.bytes(), sizes).text
        if text is None:
            return [], []
        return self.answers(before, text), text.splitlines()

    def called(self, printed):
        """The case as far as calls can go: with the refused access where a call can refuse it."""
        if printed.row is None:
            return self.case
        return beginning(self.case, printed.after + (printed.row in refusals.OF_CALLS))

    def hold(self, printed, answers, lines, calls):
        """Misuse where the whole case and its accesses one by one do not answer the same."""
        loaded = self.diagrams.load(calls.nodes[2:])
        refused = printed.row if printed.row in refusals.OF_CALLS else None
        same = calls.row == refused and len(calls.steps) == self.accepted(printed)
        for access, answer, line, step in zip(self.case.accesses, answers, lines, calls.steps):
            same = same and (line, answer) == called(loaded, access, line, step)
        if not same:
            raise Misuse("the case as a whole and its accesses one by one do not have the same answers: the archive is "
                         "not the model's; `link/install target/prefix` builds it anew")

    def text(self, number):
        """The line of a text that an access stands in, or the access as it is in a case file."""
        if self.loaded.texts is not None:
            return self.loaded.texts[number]
        return self.readable.access(self.case.accesses[number], self.conditions())

    @functools.lru_cache(None)
    def conditions(self):
        """The conditions of the nodes that are known; none of a file whose nodes are not in standard form."""
        nodes = self.nodes()[2:]
        return self.diagrams.load(nodes) if is_standard(nodes) else []

    def nodes(self):
        """The words of the nodes that are known, from node 0 up."""
        return self.outcome.calls.nodes if self.outcome.calls else TERMINALS + self.case.nodes

    def label(self, number):
        return "%s %d" % (self.loaded.word, self.loaded.numbers[number])

    def accepted(self, printed):
        """How many accesses were accepted."""
        return len(self.case.accesses) if printed.row is None else printed.after


def called(loaded, access, line, step):
    """The line of an access, where it is of a write or an assert, and its answer, as a call tells them."""
    if access.kind == WRITE:
        return "write %s" % ("idle" if step.out == IDLE else step.out), None
    if access.kind == READ:
        return line, [(loaded[h], loaded[l]) for h, l in step.word]
    if access.kind == CHECK:
        return line, loaded[step.record.check_condition]
    word = "entered" if step.out else "kept"
    return "assert %s %s" % (word, line.split(" ", 2)[2]), loaded[step.record.assert_condition]


# What is printed of each access

class Report:
    """The lines that are printed of a run."""

    def __init__(self, running):
        self.running = running
        self.readable = running.readable
        self.width = max(map(len, map(running.label, range(len(running.case.accesses)))), default=0) + 2

    def lines(self):
        running = self.running
        entries = 0
        for number, answer in enumerate(running.outcome.answers):
            added = self.added(number)
            yield self.head(number)
            for line in self.answer_lines(number, answer, entries, self.shown_added(added)):
                yield " " * self.width + line
            entries += added[0]
        if running.outcome.row is not None:
            yield from self.refusal_lines()
        yield from self.totals(entries)
        yield from self.length_lines()

    def head(self, number):
        text = self.running.text(number)
        if len(text) > SHOWN_LINE:
            text = text[:SHOWN_LINE - 2] + ".."
        return "%-*s%s" % (self.width, self.running.label(number), text)

    def added(self, number):
        """How many entries and nodes an access added; None nodes where that is not known."""
        line = self.running.outcome.lines[number]
        entries = int(line.startswith(("write ", "assert entered")) and line != "write idle")
        calls = self.running.outcome.calls
        if not calls:
            return entries, None
        before = calls.steps[number - 1].record.nodes if number else len(self.running.case.nodes) + 2
        return entries, calls.steps[number].record.nodes - before

    def shown_added(self, added):
        entries, nodes = added
        words = ["+" + counted(number, *names) for number, names in
                 ((entries, ("entry", "entries")), (nodes, ("node", "nodes"))) if number]
        if not words and nodes is not None:
            words = ["nothing added"]
        return " (%s)" % ", ".join(words) if words else ""

    def answer_lines(self, number, answer, entries, added):
        kind, line = self.running.case.accesses[number].kind, self.running.outcome.lines[number]
        if kind == WRITE:
            idle = line == "write idle"
            yield ("idle: its enable is 0 under every assignment" if idle else "entered at place " + line[6:]) + added
        elif kind == READ:
            word, more = self.readable.word(answer)
            yield "word %s%s" % (word, added)
            yield from ("  " + text for text in more)
        elif kind == ASSERT:
            word = "kept" if line.startswith("assert kept") else "entered at place %d" % entries
            yield "%s; assert condition %s%s" % (word, self.readable.condition(answer), added)
        else:
            yield "check condition %s%s" % (self.readable.condition(answer), added)

    def refusal_lines(self):
        running = self.running
        number, row = running.outcome.accepted, running.outcome.row
        access = running.case.accesses[number] if number < len(running.case.accesses) else None
        indent = ""
        if access and row > 2 and row not in (10, 11, 12):
            yield self.head(number)
            indent = " " * self.width
        yield indent + refusals.sentence(row)
        text = running.sizes.text if running.engine.has_calls else None
        reasons = refusals.Reasons(running.case, running.nodes(), running.outcome.calls is not None,
                                   self.capacities(), text, self.readable)
        place = len(beginning(running.case, number).bytes())
        for line in [*reasons.lines(row, access), *refusals.file_lines(row, running.loaded.data, place)]:
            yield indent + line

    def capacities(self):
        """How many nodes and entries there may be; None where a program knows that alone."""
        running = self.running
        return archive.capacities(running.sizes, running.case.n, running.case.w) if running.engine.has_calls else None

    def totals(self, entries):
        if self.running.outcome.row in (1, 2) or len(self.running.outcome.answers) < self.running.outcome.accepted:
            return
        yield ""
        calls = self.running.outcome.calls
        if not calls:
            yield "entries: %d" % entries
            return
        capacity = self.capacities()
        given = len(self.running.case.nodes)
        yield "nodes: %d of %d (0 and 1, %d of the file, %d made); entries: %d of %d" % (
            len(calls.nodes), capacity[0], given, len(calls.nodes) - given - 2, entries, capacity[1])

    def length_lines(self):
        """What `memcase` does with a file that is longer than what it reads.  It refuses the case but where the bytes
        past those are not the case's."""
        running = self.running
        length = len(running.loaded.data)
        if length > MEMCASE_BYTES:
            refuses = len(running.case.bytes()) != MEMCASE_BYTES
            yield "%s has %d bytes, and `memcase` reads the first %d%s" % (
                "the file" if running.loaded.texts is None else "its case file", length, MEMCASE_BYTES,
                ": it refuses this case" if refuses else "")


# Witnesses

class Witnesses:
    """What is printed of conditions that are not 1."""

    def __init__(self, running):
        self.running = running
        self.names, self.diagrams = running.names, running.diagrams

    def lines(self):
        running = self.running
        answers, accesses = running.outcome.answers, running.case.accesses
        asserted = witnesses.narrowed(self.diagrams, accesses, answers, ASSERT)
        if asserted:
            number, where = asserted
            yield "the assert at %s admits a word that cannot be there, under %s" % (
                running.label(number), self.shown(witnesses.fewest_values(self.diagrams, where)))
        fallen = list(witnesses.falls(self.diagrams, accesses, answers))
        if not fallen and any(access.kind == CHECK for access in accesses):
            yield "every check holds, under every assignment"
        for place, (number, where) in enumerate(fallen[:SHOWN_CHECKS]):
            values = witnesses.fewest_values(self.diagrams, where)
            yield "the check at %s fails under %s" % (running.label(number), self.shown(values))
            if not place:
                yield from ("  " + line for line in self.witness_lines(number, values))
        if len(fallen) > SHOWN_CHECKS:
            yield "and so do %d more checks, each somewhere where those before it hold" % (len(fallen) - SHOWN_CHECKS)

    def shown(self, values):
        if not values:
            return "every assignment"
        others = self.variables() - {variable for variable, _ in values}
        return self.names.assignment(values) + (", whatever the other variables are" if others else "")

    def variables(self):
        """The variables of the case."""
        return {variable for variable, _, _ in self.running.nodes()[2:] if variable >= USER_VARIABLE}

    def witness_lines(self, number, values):
        running = self.running
        nodes = running.nodes()
        accesses = running.case.accesses[:number + 1]
        if any(node >= len(nodes) for access in accesses for node in nodes_of(access)):
            yield "an access names a node that an access made: a plain run of it needs the archive; " + archive.BUILD
            return
        node_values = witnesses.node_values(nodes, witnesses.number_of(values))
        events = [witnesses.event_of(node_values, access) for access in accesses]
        word = self.word_there(number, values)
        if word:
            yield "the model's word at address %s is %s" % (events[-1].address, with_hexadecimal(word))
        yield "the data admits %s" % with_hexadecimal(events[-1].data)
        run = witnesses.find_run(events, running.case.w)
        if run is None or not witnesses.shows_failure(running.case.n, events, run):
            yield "no plain run shows it: what the model answered is wrong"
        else:
            yield from self.run_lines(events, run, values)

    def word_there(self, number, values):
        """The word that the model finds at the address of a check, by a read in the check's place; None where there is
        no space for that."""
        running = self.running
        address = running.case.accesses[number].address
        case = beginning(running.case, number, [Access(READ, ONE, address, [])])
        text = running.engine.case(case.bytes(), running.sizes).text
        if text is None:
            return None
        assignment = witnesses.number_of(values)
        word = running.answers(case, text)[-1]
        halves = [[self.diagrams.value(half, assignment) for half in pair] for pair in reversed(word)]
        return "".join(witnesses.letter((0, 1), pair) for pair in halves)

    def run_lines(self, events, run, values):
        """A plain run: its start, the accesses that may touch the location, and the word found."""
        others = sorted(self.variables() - {variable for variable, _ in values})
        yield "a plain run%s:" % self.with_zeros(others)
        yield "  the array starts with 0 in every location" + "".join(
            ", but %s in location %d" % (word_text(word, self.running.case.w), location)
            for location, word in run.start.items() if word)
        touched = [number for number, event in enumerate(events[:-1]) if may_touch(event, run.location)]
        if not touched:
            yield "  no access before the check touches location %d" % run.location
        if len(touched) > SHOWN_EVENTS:
            yield "  of %d accesses that may touch location %d the last %d:" % (
                len(touched), run.location, SHOWN_EVENTS)
        for number in [*touched[-SHOWN_EVENTS:], len(events) - 1]:
            yield "  %s: %s" % (self.running.label(number), step_text(events[number], run.choices[number], run.word))


    def with_zeros(self, others):
        if len(others) > SHOWN_ZEROS:
            return ", with 0 for every other variable"
        return ", with " + self.names.assignment([(variable, 0) for variable in others]) if others else ""


def step_text(event, choice, found):
    """What a run does at an access that may store, or at the check, which finds a word."""
    taken = []
    if event.control == "X":
        taken.append("its enable X taken as %d" % choice.enable)
    if choice.enable and "X" in event.address:
        bits = format(choice.location, "0%db" % len(event.address))
        taken.append("its address %s taken as %s" % (event.address, bits))
    if choice.enable and event.kind != CHECK and "X" in event.data:
        taken.append("its data %s taken as %s" % (event.data, word_text(choice.word, len(event.data))))
    if event.kind == CHECK:
        does = "finds %s in" % word_text(found, len(event.data))
    else:
        does = "stores %s in" % word_text(choice.word, len(event.data)) if choice.enable else "stores nothing in"
    return "%s: %s location %d" % (", ".join([NAMES[event.kind], *taken]), does, choice.location)


def may_touch(event, location):
    return witnesses.stores(event) and witnesses.admits(event.address, location)


def word_text(word, w):
    """A word in bits, and a wide one in hexadecimal too."""
    return with_hexadecimal(format(word, "0%db" % w))


def with_hexadecimal(letters):
    if len(letters) < WIDE or "X" in letters:
        return letters
    return "%s = 0x%0*x" % (letters, (len(letters) + 3) // 4, int(letters, 2))


# Pictures

def chosen_condition(running, what):
    """The condition that is named for a picture, and a title."""
    accesses, answers = running.case.accesses, running.outcome.answers
    if what in ("check", "assert"):
        kind = CHECK if what == "check" else ASSERT
        found = [answer for access, answer in zip(accesses, answers) if access.kind == kind]
        return found[-1] if found else TRUE, "%s condition" % what
    if what[:1].isdigit():
        return condition_at(running, what)
    named = running.names.numbered(what)
    bits = running.names.bits(what)
    if named is None and bits:
        raise Misuse("`%s` is a vector: name a bit, %s" % (
            shown_word(what), bits[0] if len(bits) == 1 else "%s to %s" % (bits[0], bits[-1])))
    if named is None:
        raise Misuse("no condition or variable is named %s; others are `check`, `assert`, LINE and LINE:BIT:h"
                     % shown_word(what))
    return named, what


def condition_at(running, what):
    """The condition of an access, named by its line, and by the bit and the half of a read; and a title."""
    line, *rest = what.split(":")
    numbers = list(running.loaded.numbers)[:len(running.outcome.answers)]
    if not line.isdigit() or int(line) not in numbers:
        raise Misuse("no accepted access is at %s %s" % (running.loaded.word, shown_word(line)))
    number = numbers.index(int(line))
    answer, label = running.outcome.answers[number], running.label(number)
    if isinstance(answer, int) and not rest:
        return answer, "%s condition after %s" % (NAMES[running.case.accesses[number].kind], label)
    halves = {"%d:%s" % (bit, "hl"[half]): (f, "%s: bit %d may be %d" % (label, bit, 1 - half))
              for bit, pair in enumerate(answer if isinstance(answer, list) else []) for half, f in enumerate(pair)}
    if ":".join(rest) in halves:
        return halves[":".join(rest)]
    raise Misuse("%s names no condition of %s: of a read name a bit and a half, as %s:0:h, of a check or an assert the "
                 "line alone; a write has none" % (shown_word(what), label, line))


def shown_word(text):
    return text if len(text) <= 40 else text[:38] + ".."


def draw(running, options):
    """The graph or the picture that is asked for."""
    f, title = chosen_condition(running, options.svg if options.dot is None else options.dot)
    if options.dot is not None:
        return dot.graph(running.diagrams, f, running.names, title)
    try:
        return dot.picture(running.diagrams, f, running.names, title)
    except dot.TooManyNodes as many:
        raise Misuse("the condition has %s nodes, and a picture at most %d; --dot writes it"
                     % (many, dot.MOST_NODES)) from None


def write_out(text, path):
    if path is None:
        sys.stdout.write(text)
        return
    with open(path, "w", encoding="ascii") as file:
        file.write(text)


# The command

def parser_of():
    parser = Parser(prog="casetext.py run", description=__doc__, formatter_class=argparse.RawDescriptionHelpFormatter)
    parser.add_argument("file", metavar="FILE")
    parser.add_argument("--nodes", type=int, metavar="N",
                        help="space for N nodes, 0 and 1 with them (5461; at most 16384)")
    parser.add_argument("--entries", type=int, metavar="N",
                        help="space for N entries of the update list (16384 words; at most 4096 entries)")
    parser.add_argument("--text", type=int, default=archive.Sizes().text, metavar="BYTES",
                        help="space for the text (65536)")
    parser.add_argument("--full", action="store_true", help="long conditions whole")
    parser.add_argument("--dot", metavar="WHAT", help="write a condition as a graph for Graphviz")
    parser.add_argument("--svg", metavar="WHAT", help="write a condition as a picture")
    parser.add_argument("-o", dest="output", metavar="FILE", help="where --dot or --svg writes (standard output)")
    parser.add_argument("--archive", action="append", metavar="FILE",
                        help="libmangerday.a, where it was not built in the clone; an archive in parts is given part by part")
    parser.add_argument("--memcase", metavar="COMMAND", help="run this in place of the archive, as `memcase`")
    parser.add_argument("--seconds", type=float, default=10, metavar="S", help="for a run of that command (10)")
    return parser


def show(running, missing):
    """Print what came of a case; the status to end with."""
    for line in Report(running).lines():
        say(line)
    if missing:
        say("node counts are not known, and sizes cannot be given: %s" % missing)
    if running.outcome.row is not None:
        return 3
    try:
        for line in Witnesses(running).lines():
            say(line)
    except TooLarge:
        say("the conditions are too large to look for an assignment under which a check fails")
    checks = [answer for access, answer in zip(running.case.accesses, running.outcome.answers) if access.kind == CHECK]
    return 1 if checks and checks[-1] != TRUE else 0


def work(options, find):
    need_time("--seconds", options.seconds)
    sizes = archive.Sizes(options.nodes, options.entries, options.text)
    archive.need_sizes(sizes)
    drawn = [what for what in (options.dot, options.svg) if what is not None]
    if len(drawn) > 1 or options.output is not None and not drawn:
        raise Misuse("-o goes with one of --dot and --svg")
    loaded = load(options.file)
    engine, missing = find(options.archive or [], options.memcase, options.seconds)
    running = Running(loaded, engine, sizes, options.full)
    if not drawn:
        return show(running, missing)
    write_out(draw(running, options), options.output)
    return 0


def main(arguments, find=archive.find):
    end("casetext", work, parser_of().parse_args(arguments), find)
