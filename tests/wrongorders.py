#!/usr/bin/env python3
"""Wrong orders of building: each means what the right one means, and makes other nodes or makes them in another order.

    python3 tests/wrongorders.py [--calls N] [--seed N] [--equal]

For every operation of the sentences of 01 and 02 about building there are the programs that skip it where the operation
around it does not need it, that build it at another place, and that have equal operations in its place.  Each that some
call can tell from the right one must be told by a line of the table of calls (crates/model/specs/Orders.antt), by the
nodes that its call makes; the status is 1 where one is not.  What a program builds a second time is there, so that only
the first time tells: a program that builds twice is one that builds earlier.

--calls   how many random calls are tried for what no line tells
--equal   lists the programs that no call told apart
"""

import argparse
import itertools
import os
import sys
from collections import defaultdict

from rooms import ROOT
import buildorder
import papers
import wrongformulas
from buildorder import SPACE, TRUE, Building, Line, built, ite, parts_of, tables_of
from common.randomcases import Random
from papers import ASSERT, ASSERT_FORMULA, CHECK, READ, TERMINALS, USER_VARIABLE, WRITE, Record, halves
from planting import planted
from second import calls, formulas
from second.calls import Call

# The places of an operation's arguments that are no constants.
OPEN = {"Not": (0,), "And": (0, 1), "Or": (0, 2), "Ite": (0, 1, 2), "Any": (0,), "index": ()}
CONSTANTS = {"Not": {1: 0, 2: 1}, "And": {2: 0}, "Or": {1: 1}, "Ite": {}}


class Case:
    """A line with its operations: which use each, and what each makes that is not there."""

    def __init__(self, line):
        self.line = line
        building = built(line)
        self.operations = building.operations
        self.there = frozenset(tables_of(line.nodes))
        self.needed = [given.by for given in building.needed if given.by is not None]
        self.users = [[] for _ in self.operations]
        self.at = defaultdict(list)
        for operation in self.operations:
            self.at[operation.site].append(operation.number)
            for argument in operation.arguments:
                if argument.by is not None:
                    self.users[argument.by].append(operation.number)
        self.new = [self.new_parts(operation.answers) for operation in self.operations]
        self.numbers = range(len(self.operations))
        self.made = self.replay(self.numbers)
        self.unneeded_by, self.nests_at = {}, {}

    def new_parts(self, answers):
        return tuple(part for answer in answers for part in parts_of(answer) if part not in self.there)

    def replay(self, order):
        """What is made in an order of operations, by their numbers, and of further conditions, as lists of their parts."""
        new = self.new
        return tuple(dict.fromkeys(part for one in order for part in (new[one] if isinstance(one, int) else one)))

    def first_user(self, number):
        return min(self.users[number], default=len(self.operations))

    def ready(self, number):
        """The place behind the last operation that this one needs."""
        return max((argument.by for argument in self.operations[number].arguments if argument.by is not None),
                   default=-1)

    def nests(self, sites, inner):
        """The operations at a nest's place, each with those inside that nothing else needs."""
        found = self.nests_at.get((sites, inner))
        if found is None:
            found = []
            for number in self.at[sites[0]]:
                if inner in inner_paths(self, number) and nest_sites(self, number, inner) == sites:
                    inside = [number]
                    for path in inner:
                        by = argument_at(self, number, path).by
                        if set(self.users[by]) <= set(inside):
                            inside.append(by)
                    found.append((number, inside[1:]))
            self.nests_at[sites, inner] = found
        return found

    def unneeded(self, rules):
        """The operations that nothing needs where an argument is not asked for at these places."""
        found = self.unneeded_by.get(rules)
        if found is None:
            asked = [False] * len(self.operations)
            for number in self.needed:
                asked[number] = True
            for operation in reversed(self.operations):
                if asked[operation.number]:
                    for place, argument in enumerate(operation.arguments):
                        if argument.by is not None and not is_idle(operation, place, rules):
                            asked[argument.by] = True
            found = self.unneeded_by[rules] = {number for number in self.numbers if not asked[number]}
        return found


def is_idle(operation, place, rules):
    """Whether an operation does not ask for an argument, by its rules or since its answer is another argument."""
    if len(operation.arguments) != 3:
        return False
    tables = [argument.table for argument in operation.arguments]
    if (operation.site, place, "rule") in rules:
        f, g, h = tables
        if g == h if place == 0 else f == (0 if place == 1 else TRUE):
            return True
    return (operation.site, place, "answer") in rules and operation.table in tables[:place] + tables[place + 1:]


# The wrong orders, each a name and what it makes of a case.

def skipping(rules, site=None):
    def made(case):
        skipped = case.unneeded(rules)
        if site is not None:
            skipped = {number for number in skipped if case.operations[number].site == site}
        if not any(case.new[number] for number in skipped):
            return case.made
        return case.replay(number for number in case.numbers if number not in skipped)
    return made


def never(site):
    def made(case):
        return case.replay(number for number in case.numbers if case.operations[number].site != site)
    return made


def later(case, site, other):
    """Behind the next of another site, where it is not needed before."""
    keys = [(number, 0) for number in case.numbers]
    for number in case.at[site]:
        for place in case.at[other]:
            if number < place < case.first_user(number):
                keys[number] = (place, 1)
                break
    return sorted(case.numbers, key=keys.__getitem__)


def earlier(case, site, other):
    """Before another site, the first that it can stand before."""
    keys = [(number, 0) for number in case.numbers]
    for number in case.at[site]:
        for place in case.at[other]:
            if case.ready(number) < place < number:
                keys[number] = (place, -1)
                break
    return sorted(case.numbers, key=keys.__getitem__)


def moved(way, site, other):
    return lambda case: case.replay(way(case, site, other))


def scheduled(numbers, before, first):
    """An order in which each comes after those before it: at each place one of `first`, where one is ready."""
    waiting = {number: len(before[number]) for number in numbers}
    after = defaultdict(list)
    for number in numbers:
        for one in before[number]:
            after[one].append(number)
    order, left = [], list(numbers)
    while left:
        ready = [number for number in left if not waiting[number]]
        chosen = next((number for number in ready if number in first), ready[0])
        left.remove(chosen)
        order.append(chosen)
        for number in after[chosen]:
            waiting[number] -= 1
    return order


def as_early(sites):
    def made(case):
        first = {number for site in sites for number in case.at[site]}
        before = [{argument.by for argument in operation.arguments if argument.by is not None}
                  for operation in case.operations]
        return case.replay(scheduled(list(case.numbers), before, first))
    return made


def as_late(sites):
    def made(case):
        first = {number for site in sites for number in case.at[site]}
        users = [set(found) for found in case.users]
        return case.replay(scheduled(list(case.numbers)[::-1], users, first)[::-1])
    return made


def put_before(site, further):
    """Further conditions built before each operation of a site; `further` is given the tables of its arguments."""
    def made(case):
        order = list(case.numbers)
        for number in case.at[site][::-1]:
            tables = [argument.table for argument in case.operations[number].arguments]
            order[number:number] = [case.new_parts(further(*tables))]
        return case.replay(order)
    return made


def of_answers(answers):
    """Another Ite or Any: what an operation's answers are, given the operation; its parts as they come."""
    def made(case):
        return tuple(dict.fromkeys(part for operation in case.operations for part in answers(operation)
                                   if part not in case.there))
    return made


def of_building(kind):
    def made(case):
        return case.replay([case.new_parts(operation.answers) for operation in built(case.line, kind()).operations])
    return made


# Skips.

def skips(sites, asked):
    """For each argument that an operation may not ask for, all that nothing else needs, and the sites near it alone; for
    each operation that several ask for, where none does; and all at once.  `asked` are the sites that give the argument
    at a site and a place."""
    given = defaultdict(set)
    for (site, _), inner in asked.items():
        given[site] |= inner

    def near(site, place):
        """The sites that give an argument, and those that give theirs."""
        first = asked[site, place]
        return sorted(first.union(*(given.get(one, ()) for one in first)))

    for way in ("rule", "answer"):
        asking = defaultdict(set)
        for (site, place), inner in asked.items():
            for one in inner:
                asking[one].add((site, place, way))
            rules = frozenset([(site, place, way)])
            where = "`%s` needs no argument %d by its %s" % (site, place, way)
            yield "nothing where %s" % where, skipping(rules)
            for one in near(site, place) if way == "rule" else sorted(inner):
                yield "no `%s` where %s" % (one, where), skipping(rules, one)
        for one, rules in asking.items():
            wider = rules.union(*(asking.get(site, ()) for site, _, _ in rules))
            for steps, by in (("one step", frozenset(rules)), ("two steps", frozenset(wider))):
                where = "where nothing asks for it in %s by its %s" % (steps, way)
                yield "no `%s` alone %s" % (one, where), skipping(by, one)
                yield "no `%s` %s" % (one, where), skipping(by)
        yield "nothing that nothing asks for by its %s" % way, skipping(frozenset().union(*asking.values()))
    for site in sites:
        yield "never `%s`" % site, never(site)


# Other places.

GROUPS = [
    ("write: Not c.l", "write: hard"), ("write: And(a.h,a.l)", "write: Not And(a.h,a.l)"),
    ("write: And(a.h,a.l)", "write: Not And(a.h,a.l)", "write: u"), ("write: Not u", "write: And(hard, Not u)"),
    ("in: index", "in: Ite(index, h, l)"), ("m: index", "m: Ite(index, h, l)"), ("m: index", "m: Ite(index, h, l)", "m"),
    ("hm", "sm"), ("m", "hm", "sm", "m: index", "m: Ite(index, h, l)"), ("Or(e,r)", "Ite(sm, .., r)"),
    ("Or(e,r)", "Ite(sm, .., r)", "Ite(hm, e, ..)"), ("And(in,r)", "Any"), ("read: t", "read: Ite(t, r, p)"),
    ("check: C: Not", "check: C: Or(Not, .)"), ("check: Not b", "check: Or(Not b, C)"),
    ("assert: A: Not", "assert: A: Or(Not, .)"), ("assert: C: Not", "assert: C: Or(Not, .)"),
    ("assert: A: Not", "assert: A: Or(Not, .)", "assert: A"), ("assert: C: Not", "assert: C: Or(Not, .)", "assert: C"),
    ("assert: Not b", "assert: Or(Not b, A)"), ("assert: Not b", "assert: Or(Not b, A)", "assert: condition"),
    ("assert: Or(Not b, A)", "assert: condition"), ("assert: And(A,C)", "assert: keep"),
]


def moves(sites, cases):
    """Each site behind and before each other, where it can stand there; sites as early and as late as can be."""
    for site, other in itertools.permutations(sites, 2):
        for where, way in (("behind", later), ("before", earlier)):
            if any(way(case, site, other) != list(case.numbers) for case in cases if case.at[site] and case.at[other]):
                yield "`%s` %s `%s`" % (site, where, other), moved(way, site, other)
    for group in [(site,) for site in sites] + GROUPS:
        yield "`%s` as early as can be" % "`, `".join(group), as_early(group)
        yield "`%s` as late as can be" % "`, `".join(group), as_late(group)


# Equal operations.

def not_(f):
    return TRUE & ~f


LAWS = {
    "And": [("Not Or(Not f, Not g)", lambda f, g, _: [not_(f), not_(g), not_(f & g)]),
            ("Not Or(Not g, Not f)", lambda f, g, _: [not_(g), not_(f), not_(f & g)])],
    "Or": [("Not And(Not f, Not g)", lambda f, _, g: [not_(f), not_(g), not_(f | g)]),
           ("Not And(Not g, Not f)", lambda f, _, g: [not_(g), not_(f), not_(f | g)])],
    "Ite": [("Or(And(f,g), And(Not f, h))", lambda f, g, h: [f & g, not_(f), h & ~f]),
            ("Or(And(f,g), Ite(f,0,h))", lambda f, g, h: [f & g, h & ~f]),
            ("And(Or(Not f, g), Or(f,h))", lambda f, g, h: [not_(f), not_(f) | g, f | h]),
            ("And(Ite(f,g,1), Or(f,h))", lambda f, g, h: [not_(f) | g, f | h]),
            ("Not Ite(f, Not g, Not h)", lambda f, g, h: [not_(g), not_(h), not_(ite(f, g, h))])],
}


def equal_operations(kinds):
    for site, kind in kinds.items():
        for name, law in LAWS.get(kind, ()):
            yield "`%s` as %s" % (site, name), put_before(site, law)


# Nests: an operation with one or two of the operations that give its arguments, as one function of what these are given.
# Each is named by a path, the places of the arguments on the way to it.

def argument_at(case, number, path):
    argument = case.operations[number].arguments[path[0]]
    for place in path[1:]:
        argument = case.operations[argument.by].arguments[place]
    return argument


def inner_places(case, operation):
    """The places of arguments that another site gives by an Ite."""
    for place in OPEN[operation.kind]:
        by = operation.arguments[place].by
        if by is not None and case.operations[by].site != operation.site and case.operations[by].kind in CONSTANTS:
            yield place


def inner_paths(case, number):
    """The nests of an operation: with none, one or two others."""
    operation = case.operations[number]
    yield ()
    first = [(place,) for place in inner_places(case, operation)]
    for path in first:
        yield (path,)
        for place in inner_places(case, case.operations[argument_at(case, number, path).by]):
            yield (path, path + (place,))
    yield from itertools.combinations(first, 2)


def nest_sites(case, number, inner):
    return (case.operations[number].site, *(case.operations[argument_at(case, number, path).by].site for path in inner))


def nest_shape(case, number, inner):
    """What a nest is of its leaves, as nested triples, and the paths to the leaves."""
    leaves, paths = [], []

    def triple(operation, path):
        return tuple(part(operation, path, place) for place in range(3))

    def part(operation, path, place):
        if place in CONSTANTS[operation.kind]:
            return "01"[CONSTANTS[operation.kind][place]]
        argument, path = operation.arguments[place], path + (place,)
        if path in inner:
            return triple(case.operations[argument.by], path)
        for at, leaf in enumerate(leaves):
            if leaf is argument:
                return at
        leaves.append(argument)
        paths.append(path)
        return len(leaves) - 1

    return triple(case.operations[number], ()), paths


def value_of(shape, leaves, one):
    """A shape's value where the leaves are these; `one` is every row."""
    if shape in ("0", "1"):
        return one if shape == "1" else 0
    if isinstance(shape, int):
        return leaves[shape]
    f, g, h = (value_of(part, leaves, one) for part in shape)
    return f & g | ~f & h & one


def rows_of(many):
    """The leaves as truth tables over themselves, and every row."""
    size = 1 << many
    return [sum(1 << row for row in range(size) if row >> leaf & 1) for leaf in range(many)], (1 << size) - 1


def other_programs(shape, many, found={}):  # noqa: B006
    """The lists of conditions, as shapes over the leaves, of which one Ite gives what the shape gives: none, each single
    one, and with three leaves at most each pair of And, Or, Not and the like."""
    key = shape, many
    if key not in found:
        leaves, one = rows_of(many)
        target = value_of(shape, leaves, one)
        steps, simple = {}, {}
        for f in range(many):
            for g, h in itertools.product([*range(many), "0", "1"], repeat=2):
                value = value_of((f, g, h), leaves, one)
                if value not in (0, one, target, *leaves):
                    steps.setdefault(value, (f, g, h))
                    if "0" in (g, h) or "1" in (g, h):
                        simple.setdefault(value, (f, g, h))
        found[key] = [[]] if is_one_ite(target, leaves, one) else []
        found[key] += [[step] for value, step in steps.items() if is_one_ite(target, leaves + [value], one, [value])]
        if many <= 3 and any(isinstance(part, tuple) for part in shape):
            found[key] += [[first, second] for (value, first), (other, second) in itertools.permutations(simple.items(), 2)
                           if is_one_ite(target, leaves + [value, other], one, [value, other])]
    return found[key]


def is_one_ite(target, values, one, used=()):
    """Whether Ite of some of these gives the target, with each of `used`."""
    for f in values:
        inside, outside = target & f, target & ~f
        on = [g for g in [*values, 0, one] if g & f == inside]
        off = [h for h in [*values, 0, one] if h & ~f == outside]
        if on and off and all(value == f or value in on or value in off for value in used):
            if len(used) < 2 or used[0] == f or used[1] == f or any(
                    {g, h} >= set(used) for g in on for h in off):
                return True
    return False


def nested(sites, inner, paths, program):
    """A program of other steps in the place of a nest: those of its operations that nothing else needs are not built."""
    def made(case):
        order = [(number,) for number in case.numbers]
        for number, gone in case.nests(sites, inner):
            tables = [argument_at(case, number, path).table for path in paths]
            for one in gone:
                order[one] = ()
            place = max(gone, default=number)
            order[place] = (case.new_parts([value_of(step, tables, TRUE) for step in program]), *order[place])
        return case.replay(one for part in order for one in part)
    return made


def step_text(step):
    return "Ite(%s)" % ",".join("xyzuv"[part] if isinstance(part, int) else part for part in step)


def nests(cases):
    """For each nest, every other program of as many steps, of one more or of fewer."""
    seen = {}
    for case in cases:
        for number in case.numbers:
            if case.operations[number].kind in CONSTANTS:
                for inner in inner_paths(case, number):
                    key = nest_sites(case, number, inner), inner
                    shape, paths = nest_shape(case, number, inner)
                    if key not in seen or len(seen[key][1]) < len(paths):
                        seen[key] = shape, paths
    for (sites, inner), (shape, paths) in seen.items():
        for program in other_programs(shape, len(paths)):
            text = ", ".join(step_text(step) for step in program) or "one Ite"
            yield "`%s` by %s" % ("`, `".join(sites), text), nested(sites, inner, paths, program)


# Ite and Any.

def high_first(table):
    """The parts of a table, high before low."""
    if table in (0, TRUE):
        return ()
    _, low, high = SPACE.parts(table)
    return high_first(high) + high_first(low) + (table,)


def any_with(step):
    """Parts of another Any, given the parts of Any of both children, and whether they stand."""
    def parts(table):
        variable, low, high = SPACE.parts(table)
        if variable >= USER_VARIABLE:
            return parts_of(table)
        return step(parts, low, high)
    return parts


def exists(table):
    return buildorder.any_answers(table)[-1]


def low_alone(parts, low, high):
    """High parts are passed over where Any of the low ones is 1."""
    if exists(low) == TRUE:
        return parts(low)
    return parts(low) + parts(high) + parts_of(exists(low) | exists(high))


def high_alone(parts, low, high):
    if exists(high) == TRUE:
        return parts(high)
    return parts(low) + parts(high) + parts_of(exists(low) | exists(high))


def high_before_low(parts, low, high):
    return parts(high) + parts(low) + parts_of(exists(low) | exists(high))


def joined_first(parts, low, high):
    """Any(Or(low, high)): one variable after the other, from the least."""
    return parts_of(low | high) + parts(low | high)


def by_nots(parts, low, high):
    """Or as Not And(Not, Not)."""
    first, second = exists(low), exists(high)
    further = [not_(first), not_(second), not_(first | second), first | second]
    return parts(low) + parts(high) + tuple(part for one in further for part in parts_of(one))


def greatest_first(table):
    """One variable after the other, from the greatest."""
    found = ()
    for variable in sorted((v for v in SPACE.variables if v < USER_VARIABLE), reverse=True):
        place = SPACE.place[variable]
        mask, block = SPACE.masks[place], 1 << place
        table = table & ~mask | (table & ~mask) << block | table & mask | (table & mask) >> block
        found += parts_of(table)
    return found


def other_any(parts):
    def answers(operation):
        if operation.kind == "Any":
            return parts(operation.arguments[0].table)
        return [part for answer in operation.answers for part in parts_of(answer)]
    return of_answers(answers)


def of_conditions():
    yield "Ite: high parts first", of_answers(
        lambda operation: [part for answer in operation.answers for part in high_first(answer)])
    for step in (low_alone, high_alone, high_before_low, joined_first, by_nots):
        yield "Any: %s" % step.__name__, other_any(any_with(step))
    yield "Any: greatest_first", other_any(greatest_first)


# Whole sentences.

class Other(Building):
    """A building whose further operations need no site."""

    def o(self, sign, *arguments):
        return getattr(self, sign)("further", *arguments)


def other(of):
    """A wrong building, by the one function of it that is another."""
    def kind(wrong):
        return type(wrong.__name__, (Other,), {of: wrong})
    return kind


@other("soft")
def soft_where_not_hard(self, who, control, _hard, _u, h):
    """s = And(c.h, Not h)."""
    return self.o("and_", control[0], self.o("not_", h))


@other("soft")
def soft_by_enable(self, who, control, _hard, u, _h):
    """s = And(c.h, Or(c.l, Not u))."""
    return self.o("and_", control[0], self.o("or_", control[1], self.o("not_", u)))


@other("soft")
def soft_by_two_ands(self, who, control, _hard, u, _h):
    """s = Or(And(c.h, c.l), And(c.h, Not u))."""
    both = self.o("and_", *control)
    return self.o("or_", both, self.o("and_", control[0], self.o("not_", u)))


@other("soft")
def soft_by_one_not(self, who, control, hard, u, h):
    """s = Or(And(c.h,c.l), And(hard, Not h))."""
    both = self.o("and_", *control)
    return self.o("or_", both, self.o("and_", hard, self.o("not_", h)))


@other("marks")
def unique_by_or(self, who, control, address):
    """u = Not of the Or of all And(a.h,a.l)."""
    hard = self.hard(who, *control)
    some = self.zero
    for h, l in address:
        some = self.o("or_", some, self.o("and_", h, l))
    u = self.o("not_", some)
    h = self.o("and_", hard, u)
    return h, self.soft(who, control, hard, u, h)


@other("marks")
def unique_first(self, who, control, address):
    """u before hard."""
    u = self.all_of(who, who, self.one, [lambda pair=pair: self.apart(who, *pair) for pair in address])
    hard = self.hard(who, *control)
    h = self.o("and_", hard, u)
    return h, self.soft(who, control, hard, u, h)


@other("marks")
def hard_narrowed(self, who, control, address):
    """h = hard, narrowed bit by bit."""
    hard = self.hard(who, *control)
    h = self.all_of(who, who, hard, [lambda pair=pair: self.apart(who, *pair) for pair in address])
    return h, self.soft(who, control, hard, h, h)


@other("enter")
def entry_as_it_must_be(self, b, not_b, address):
    """An assert's entry has h = b and s = 0, since no bit of its address is X there."""


@other("entry")
def entry_narrowed_alone(self, inside, h, s, address, data, word):
    """The entry's address by itself, then And with in."""
    m = self.o("and_", inside, self.narrow("m", self.one, address))
    return merged(self, m, h, s, data, word)


def merged(self, m, h, s, data, word):
    hm, sm = self.o("and_", m, h), self.o("and_", m, s)
    return [self.merge(hm, sm, e, r) for e, r in zip(data, word)]


@other("entry")
def entry_marks_narrowed(self, inside, h, s, address, data, word):
    """hm = in and h, narrowed; sm likewise."""
    hm = self.narrow("m", self.o("and_", inside, h), address)
    sm = self.narrow("m", self.o("and_", inside, s), address)
    return [self.merge(hm, sm, e, r) for e, r in zip(data, word)]


@other("entry")
def entry_passed_over(self, inside, h, s, address, data, word):
    """Nothing of an entry whose h and s are 0."""
    return Building.entry(self, inside, h, s, address, data, word) if h.table | s.table else word


@other("entry")
def entry_that_matches_nowhere(self, inside, h, s, address, data, word):
    """Nothing behind m where m is 0."""
    m = self.narrow("m", inside, address)
    return merged(self, m, h, s, data, word) if m.table else word


@other("entry")
def halves_that_stay(self, inside, h, s, address, data, word):
    """Nothing of a half that becomes what it is."""
    m = self.narrow("m", inside, address)
    hm, sm = self.o("and_", m, h), self.o("and_", m, s)
    return [r if e.table == r.table else self.merge(hm, sm, e, r) for e, r in zip(data, word)]


@other("merge")
def merge_nothing_where_neither(self, hm, sm, e, r):
    return Building.merge(self, hm, sm, e, r) if hm.table | sm.table else r


@other("merge")
def merge_entry_where_hard(self, hm, sm, e, r):
    """e itself where hm is 1."""
    return e if hm.table == TRUE else Building.merge(self, hm, sm, e, r)


@other("merge")
def merge_by_two(self, hm, sm, e, r):
    """Or(And(Or(hm,sm), e), And(Not hm, r))."""
    new = self.o("and_", self.o("or_", hm, sm), e)
    return self.o("or_", new, self.o("and_", self.o("not_", hm), r))


@other("merge")
def merge_soft_last(self, hm, sm, e, r):
    """Ite(sm, Or(e, r), r) in the place of r alone, behind Ite(hm, e, r)."""
    hard = self.o("ite", hm, e, r)
    return self.o("ite", sm, self.o("or_", hard, self.o("ite", hm, e, self.o("or_", e, r))), hard)


@other("settle")
def settle_all_at_once(self, inside, r):
    """1 where r is 1."""
    return r if r.table == TRUE else Building.settle(self, inside, r)


@other("settle")
def settle_none_at_0(self, inside, r):
    return r if r.table == 0 else Building.settle(self, inside, r)


@other("settle")
def settle_unnarrowed(self, inside, r):
    """r itself where it turns on no index variable."""
    return r if SPACE.variable(r.table) >= USER_VARIABLE else Building.settle(self, inside, r)


@other("settle")
def settle_any_twice(self, inside, r):
    """Any(r) before."""
    self.any("further", r)
    return Building.settle(self, inside, r)


@other("hold")
def hold_by_and_or(self, unknown, control, r, p):
    """Or(And(e.h, r), And(e.l, p))."""
    return self.o("or_", self.o("and_", control[0], r), self.o("and_", control[1], p))


@other("hold")
def hold_by_union(self, unknown, control, r, p):
    """Ite(S, Or(r, p), Ite(e.h, r, p))."""
    both = self.o("or_", r, p)
    return self.o("ite", unknown, both, self.o("ite", control[0], r, p))


@other("hold")
def hold_by_known(self, unknown, control, r, p):
    """Ite(e.h, Ite(e.l, Or(r,p), r), p)."""
    return self.o("ite", control[0], self.o("ite", control[1], self.o("or_", r, p), r), p)


@other("hold")
def hold_same(self, unknown, control, r, p):
    """Nothing where the look is what the port holds."""
    return r if r.table == p.table else Building.hold(self, unknown, control, r, p)


@other("hold")
def hold_where_never_unknown(self, unknown, control, r, p):
    """Ite(e.h, r, p) where S is 0."""
    return Building.hold(self, unknown, control, r, p) if unknown.table else self.o("ite", control[0], r, p)


@other("read")
def read_without_look(self, control, address, entries, held, w):
    """The held word, and no look, where the enable is 0."""
    if control[0].table:
        Building.read(self, control, address, entries, held, w)


@other("read")
def read_of_certain(self, control, address, entries, held, w):
    """Nothing behind the look where the enable is 1."""
    if control[1].table:
        Building.read(self, control, address, entries, held, w)
    else:
        self.look(address, entries, w)


@other("within")
def within_admitted(self, who, x, y):
    """Nothing where the bound is 1."""
    return self.one if y.table == TRUE else Building.within(self, who, x, y)


@other("within")
def within_same(self, who, x, y):
    return self.one if x.table == y.table else Building.within(self, who, x, y)


@other("inside")
def inside_by_faults(self, who, words, others):
    """Not of the Or of all And(x, Not y)."""
    some = self.zero
    for x, y in zip(words, others):
        some = self.o("or_", some, self.o("and_", x, self.o("not_", y)))
    return self.o("not_", some)


@other("inside")
def inside_while_it_may(self, who, words, others):
    """No further half where it is 0."""
    found = self.one
    for x, y in zip(words, others):
        if found.table:
            found = self.o("and_", found, self.within(who, x, y))
    return found


@other("inside")
def inside_by_bits(self, who, words, others):
    """And of both halves of a bit, then of the bits."""
    found = self.one
    for k in range(0, len(words), 2):
        bit = self.o("and_", self.within(who, words[k], others[k]), self.within(who, words[k + 1], others[k + 1]))
        found = self.o("and_", found, bit)
    return found


@other("check")
def check_nothing_where_b_is_never(self, b, address, data, entries, w, condition):
    if b.table:
        Building.check(self, b, address, data, entries, w, condition)


@other("check")
def check_nothing_where_it_fails(self, b, address, data, entries, w, condition):
    """Nothing where the check condition is 0."""
    if condition.table:
        Building.check(self, b, address, data, entries, w, condition)


@other("check")
def check_condition_goes_on(self, b, address, data, entries, w, condition):
    """Each half is taken to the check condition at once."""
    word = self.look(address, entries, w)
    not_b = self.o("not_", b)
    for x, y in zip(word, data):
        condition = self.o("and_", condition, self.o("or_", not_b, self.within("check: C", x, y)))


@other("check_condition")
def check_by_ite(self, b, holds, condition):
    self.o("and_", condition, self.o("ite", b, holds, self.one))


@other("check_condition")
def check_by_fault(self, b, holds, condition):
    """And(it, Not And(b, Not C))."""
    self.o("and_", condition, self.o("not_", self.o("and_", b, self.o("not_", holds))))


@other("check_condition")
def check_where_it_holds(self, b, holds, condition):
    """Nothing behind C where C is 1."""
    if holds.table != TRUE:
        Building.check_condition(self, b, holds, condition)


@other("check_condition")
def check_chosen(self, b, holds, condition):
    """Ite(b, And(it, C), it)."""
    self.o("ite", b, self.o("and_", condition, holds), condition)


@other("keep")
def keep_by_two_ors(self, b, not_b, under, within, word, data):
    holds = self.inside("assert: C", word, data)
    return self.o("and_", self.o("or_", not_b, within), self.o("or_", not_b, holds))


@other("keep")
def keep_by_ite(self, b, not_b, under, within, word, data):
    holds = self.inside("assert: C", word, data)
    return self.o("ite", b, self.o("and_", within, holds), self.one)


@other("keep")
def keep_goes_on_from_a(self, b, not_b, under, within, word, data):
    """C goes on from A: And(A,C) bit by bit."""
    for x, y in zip(word, data):
        within = self.o("and_", within, self.within("assert: C", x, y))
    return self.o("or_", not_b, within)


@other("keep")
def keep_both_ways_or_not(self, b, not_b, under, within, word, data):
    """No C where A fails under b: the assert is entered."""
    return Building.keep(self, b, not_b, under, within, word, data) if under.table == TRUE else under


@other("keep")
def keep_where_never(self, b, not_b, under, within, word, data):
    """No C where b is 0."""
    return Building.keep(self, b, not_b, under, within, word, data) if b.table else self.one


@other("keep")
def keep_no_c_where_a_is_0(self, b, not_b, under, within, word, data):
    return Building.keep(self, b, not_b, under, within, word, data) if within.table else not_b


@other("keep")
def keep_by_under(self, b, not_b, under, within, word, data):
    """Or(Not b, A) and C."""
    holds = self.inside("assert: C", word, data)
    return self.o("and_", under, self.o("or_", not_b, holds))


@other("keep")
def keep_under_and_c(self, b, not_b, under, within, word, data):
    """Or(Not b, And(Or(Not b, A), C))."""
    holds = self.inside("assert: C", word, data)
    return self.o("or_", not_b, self.o("and_", under, holds))


@other("assert_")
def assert_nothing_where_b_is_never(self, b, address, data, entries, w, condition):
    if b.table:
        Building.assert_(self, b, address, data, entries, w, condition)


@other("assert_")
def assert_both_in_one_loop(self, b, address, data, entries, w, condition):
    """A and C half by half together."""
    word = self.look(address, entries, w)
    within, holds = self.one, self.one
    for x, y in zip(word, data):
        within = self.o("and_", within, self.within("assert: A", y, x))
        holds = self.o("and_", holds, self.within("assert: C", x, y))
    not_b = self.o("not_", b)
    self.o("and_", condition, self.o("or_", not_b, within))
    kept = self.o("or_", not_b, self.o("and_", within, holds))
    if kept.table != TRUE:
        self.enter(b, not_b, address)


@other("assert_")
def assert_kept_first(self, b, address, data, entries, w, condition):
    """The assert condition behind what decides whether it is kept."""
    word = self.look(address, entries, w)
    within = self.inside("assert: A", data, word)
    not_b = self.o("not_", b)
    kept = self.keep(b, not_b, not_b, within, word, data)
    self.o("and_", condition, self.o("or_", not_b, within))
    if kept.table != TRUE:
        self.enter(b, not_b, address)


@other("assert_")
def assert_condition_last(self, b, address, data, entries, w, condition):
    """The assert condition behind the entry."""
    word = self.look(address, entries, w)
    within = self.inside("assert: A", data, word)
    not_b = self.o("not_", b)
    kept = self.keep(b, not_b, not_b, within, word, data)
    if kept.table != TRUE:
        self.enter(b, not_b, address)
    self.o("and_", condition, self.o("or_", not_b, within))


@other("look")
def look_all_matches_first(self, address, entries, w):
    """m, hm and sm of every entry, then the words."""
    inside = self.narrow("in", self.one, address)
    found = []
    for h, s, entry_address, data in entries:
        m = self.narrow("m", inside, entry_address)
        found.append((self.o("and_", m, h), self.o("and_", m, s), data))
    word = [self.one] * (2 * w)
    for hm, sm, data in found:
        word = [self.merge(hm, sm, e, r) for e, r in zip(data, word)]
    return [self.settle(inside, r) for r in word]


@other("look")
def look_half_by_half(self, address, entries, w):
    """Each half through all entries, and settled, before the next."""
    inside = self.narrow("in", self.one, address)
    word = []
    for k in range(2 * w):
        r = self.one
        for h, s, entry_address, data in entries:
            m = self.narrow("m", inside, entry_address)
            r = self.merge(self.o("and_", m, h), self.o("and_", m, s), data[k], r)
        word.append(self.settle(inside, r))
    return word


@other("look")
def look_unnarrowed_entries(self, address, entries, w):
    """Entries narrowed from 1; in comes in when the halves are settled."""
    inside = self.narrow("in", self.one, address)
    word = [self.one] * (2 * w)
    for h, s, entry_address, data in entries:
        word = merged(self, self.narrow("m", self.one, entry_address), h, s, data, word)
    return [self.settle(inside, r) for r in word]


@other("look")
def look_narrowed_words(self, address, entries, w):
    """And(in, r) in the place of r from the start."""
    inside = self.narrow("in", self.one, address)
    word = [inside] * (2 * w)
    for h, s, entry_address, data in entries:
        m = self.narrow("m", inside, entry_address)
        data = [self.o("and_", inside, e) for e in data]
        word = merged(self, m, h, s, data, word)
    return [self.any("further", r) for r in word]


@other("look")
def look_indexes_first(self, address, entries, w):
    """Every index variable before the rest."""
    for i in range(len(address)):
        self.index("further", i)
    return Building.look(self, address, entries, w)


@other("look")
def look_nothing_where_empty(self, address, entries, w):
    """No look where there is no entry."""
    return Building.look(self, address, entries, w) if entries else [self.one] * (2 * w)


@other("look")
def look_from_last_hard(self, address, entries, w):
    """From the last entry on that is hard at all that the address admits."""
    known = Building()
    inside = known.narrow("in", known.one, address)
    first = 0
    for place, (h, _, entry_address, _) in enumerate(entries):
        if known.narrow("m", inside, entry_address).table & h.table == inside.table:
            first = place
    return Building.look(self, address, entries[first:], w)


@other("look")
def look_newest_first(self, address, entries, w):
    """From the newest entry down: what is not yet decided."""
    inside = self.narrow("in", self.one, address)
    open_, word = inside, [self.zero] * (2 * w)
    for h, s, entry_address, data in entries[::-1]:
        m = self.narrow("m", open_, entry_address)
        hm, sm = self.o("and_", m, h), self.o("and_", m, s)
        some = self.o("or_", hm, sm)
        word = [self.o("or_", r, self.o("and_", some, e)) for e, r in zip(data, word)]
        open_ = self.o("and_", open_, self.o("not_", hm))
    return [self.any("further", self.o("or_", r, open_)) for r in word]


@other("chosen")
def chosen_where_told(self, who, i, h, l):
    """Nothing where both halves are the same node."""
    return h if h.table == l.table else Building.chosen(self, who, i, h, l)


SENTENCES = [kind for kind in list(globals().values()) if isinstance(kind, type) and issubclass(kind, Other)
             and kind is not Other]

BIT_LOOPS = ["write: unique", "assert's write: unique", "in", "m"]
HALF_LOOPS = ["settle", "merge", "hold", "check: C", "assert: A", "assert: C"]
AND_LOOPS = [*BIT_LOOPS, "check: C", "assert: A", "assert: C"]


def loop(name, of, order):
    """A loop in another order."""
    right = getattr(Building, of)

    def wrong(self, named, many):
        return order(many) if named == name else right(self, named, many)
    return type(name, (Other,), {of: wrong})


def and_loop(name, way):
    def wrong(self, named, site, start, terms):
        if named != name:
            return Building.all_of(self, named, site, start, terms)
        return way(self, start, terms)
    return type(name, (Other,), {"all_of": wrong})


def terms_first(self, start, terms):
    for term in [term() for term in terms]:
        start = self.o("and_", start, term)
    return start


def from_last(self, start, terms):
    found = None
    for term in [term() for term in terms][::-1]:
        found = term if found is None else self.o("and_", term, found)
    return self.o("and_", start, found)


def from_first_alone(self, start, terms):
    found = terms[0]()
    for term in terms[1:]:
        found = self.o("and_", found, term())
    return self.o("and_", start, found)


def without_end(self, start, terms):
    """No term where what it is taken to is 0."""
    for term in terms:
        start = self.o("and_", start, term()) if start.table else start
    return start


def sentences():
    for kind in SENTENCES:
        yield kind.__name__, of_building(kind)
    for name in BIT_LOOPS:
        yield "%s: highest bit first" % name, of_building(loop(name, "bits", lambda many: range(many)[::-1]))
    for name in HALF_LOOPS:
        yield "%s: highest half first" % name, of_building(loop(name, "halves", lambda many: range(2 * many)[::-1]))
        yield "%s: l before h" % name, of_building(loop(name, "halves", lambda many: [k ^ 1 for k in range(2 * many)]))
        yield "%s: every h, then every l" % name, of_building(
            loop(name, "halves", lambda many: [*range(0, 2 * many, 2), *range(1, 2 * many, 2)]))
        yield "%s: highest bit first, h before l" % name, of_building(
            loop(name, "halves", lambda many: [k ^ 1 for k in range(2 * many)][::-1]))
    for name in AND_LOOPS:
        for way in (terms_first, from_last, from_first_alone, without_end):
            yield "%s: %s" % (name, way.__name__), of_building(and_loop(name, way))


# All.

def wrong_orders(cases):
    """Every wrong order by its name, the sites taken from cases that have them all."""
    kinds, asked = {}, defaultdict(set)
    for case in cases:
        for operation in case.operations:
            kinds.setdefault(operation.site, operation.kind)
            for place, argument in enumerate(operation.arguments):
                if argument.by is not None:
                    asked[operation.site, place].add(case.operations[argument.by].site)
    found = {}
    for name, made in itertools.chain(skips(kinds, asked), moves(kinds, cases), equal_operations(kinds), nests(cases),
                                      of_conditions(), sentences()):
        found.setdefault(name, made)
    return found


# Random calls.

VARIABLES = [(8, 0, 1), (9, 0, 1), (10, 0, 1)]


def random_nodes(rng):
    """Up to three variables, and a few nodes over them."""
    nodes = VARIABLES[:rng.between(1, 3)]
    for _ in range(rng.below(4)):
        tops = [64, 64] + [variable for variable, _, _ in nodes]
        low, high = rng.below(len(tops)), rng.below(len(tops))
        below = [variable for variable in (8, 9, 10) if variable < min(tops[low], tops[high])]
        if low != high and below:
            node = rng.choice(below), low, high
            if node not in nodes:
                nodes.append(node)
    return nodes


class Words:
    """Random words of a call on a store."""

    def __init__(self, rng, nodes):
        self.rng = rng
        self.tables = tables_of(nodes)

    def node(self):
        """A terminal as often as another."""
        return self.rng.below(2) if self.rng.chance(40) else self.rng.below(len(self.tables))

    def nodes(self, many):
        return [self.node() for _ in range(many)]

    def pair(self, apart=0):
        """A legal pair that is X nowhere in the table `apart`."""
        h = self.node()
        fits = [l for l, table in enumerate(self.tables) if table | self.tables[h] == TRUE
                and not apart & table & self.tables[h]]
        l = self.rng.choice(fits) if fits else None
        if l is None:
            return self.rng.choice([[0, 1], [1, 0]])
        return [h, l] if self.rng.chance(50) else [l, h]

    def pairs(self, many, apart=0):
        return [word for _ in range(many) for word in self.pair(apart)]

    def any_pairs(self, many):
        """Of an entry or a port, which are not tested for row 6."""
        return self.pairs(many) if self.rng.chance(80) else self.nodes(2 * many)


def node_below(rng, nodes, limit):
    """A node that holds only where a table does: where another holds too, with the nodes that it needs."""
    tables = tables_of(nodes)
    table = limit & rng.choice(tables) & (TRUE if rng.chance(50) else not_(rng.choice(tables)))
    for part in parts_of(table):
        if part not in tables:
            variable, low, high = SPACE.parts(part)
            nodes = [*nodes, (variable, tables.index(low), tables.index(high))]
            tables.append(part)
    return nodes, tables.index(table)


def random_line(rng, kinds=(WRITE, READ, ASSERT, CHECK)):
    nodes = random_nodes(rng)
    words = Words(rng, nodes)
    kind = rng.choice(kinds)
    n = rng.between(1, 3 if kind == WRITE else 2)
    w = rng.between(1, 2)
    many = 0 if kind == WRITE else rng.below(3)
    entries = []
    for _ in range(many):
        entries += words.nodes(2) + words.any_pairs(n) + words.any_pairs(w)
    b = words.node()
    address = words.pairs(n, words.tables[b] if kind == ASSERT else 0)
    if kind == ASSERT and rng.chance(60):
        address = words.pairs(n)
        known = TRUE
        for h, l in papers.pairs(address):
            known &= not_(words.tables[h] & words.tables[l])
        nodes, b = node_below(rng, nodes, known)
    control = words.pair() if kind in (WRITE, READ) else [b]
    if kind == WRITE and control[0] == 0:
        control = [1, control[1]]
    data = [0] * (2 * w) if kind == READ else words.pairs(w)
    port = rng.below(4) if kind == READ else 0
    held = words.any_pairs(w) if kind == READ else ()
    return Line("", kind, n, w, nodes, entries, words.node(), words.node(), control, address, data, port, held)


# The conditions of a formula: And of the enclosing ones, outermost first, in the order of the text.

FORMULAS = [b"N(b2 -> b3 -> b4 -> m0) & (b3 -> b4 -> m1)", b"b4 -> b3 -> b2 -> m0"]
PREDICATES = [1, 0, 1, 1, 0, 1, 0, 1, 0, 1, 1, 0, 1, 0, 1, 1, 1]
EXAMPLES = os.path.join(ROOT, "crates", "formula_calls", "specs", "Examples.antt")


def with_further(further):
    """Further conditions before each And."""
    def wrong(_right, reading, nodes, capacity):
        conditions = calls.tables_of(nodes, [arrow.node for arrow in reading.arrows], 0, capacity)
        found = []
        for arrow in reading.arrows:
            outer = conditions.true if arrow.around is None else found[arrow.around]
            inner = conditions.tables[arrow.node]
            for step in further:
                values = [outer, inner]
                conditions.ite(*(values[part] if isinstance(part, int) else (0, conditions.true)[int(part)]
                                 for part in step))
            found.append(conditions.and_(outer, inner))
        return [conditions.numbers[table] for table in found], conditions
    return wrong


def last_arrow_first(_right, reading, nodes, capacity):
    """The arrows from the last to the first, each with what stands around it."""
    conditions = calls.tables_of(nodes, [arrow.node for arrow in reading.arrows], 0, capacity)
    found = {}
    for place in range(len(reading.arrows))[::-1]:
        made = conditions.true
        for node in formulas.enclosing(reading, place):
            made = conditions.and_(made, conditions.tables[node])
        found[place] = conditions.numbers[made]
    return [found[place] for place in range(len(reading.arrows))], conditions


def in_one_step(_right, reading, nodes, capacity):
    """No node but those of the whole condition of a predicate."""
    conditions = calls.tables_of(nodes, [arrow.node for arrow in reading.arrows], 0, capacity)
    used = {one.arrow for one in reading.named}
    tables = []
    for arrow in reading.arrows:
        outer = conditions.true if arrow.around is None else tables[arrow.around]
        tables.append(outer & conditions.tables[arrow.node])
    for place, table in enumerate(tables):
        if place in used:
            make_parts(conditions, table)
    return [conditions.numbers.get(table, 0) for table in tables], conditions


def make_parts(conditions, table):
    if table not in conditions.numbers:
        variable, low, high = conditions.parts(table)
        make_parts(conditions, low)
        make_parts(conditions, high)
        conditions.make(variable, low, high)


def wrong_formulas():
    for wrong in (wrongformulas.innermost_first, wrongformulas.in_list_order, wrongformulas.built_of_or,
                  last_arrow_first, in_one_step):
        yield wrong.__name__, "arrow_conditions", wrong
    for program in other_programs((0, 1, "0"), 2):
        if program:
            yield "And by %s" % ", ".join(map(step_text, program)), "arrow_conditions", with_further(program)


def formula_left(text):
    """What an assert by a formula leaves, lent plenty."""
    nodes = halves(TERMINALS) + halves(VARIABLES) + [7] * 120
    call = Call(ASSERT_FORMULA, data=[5] * 7, text=text, table=PREDICATES)
    return calls.run(call, Record(1, 2, 5, 0, 1, 1), nodes, [5] * 17, [7])


def untold_formulas():
    """The wrong orders of a formula's conditions that no computed call tells, and how many there are."""
    with open(EXAMPLES, encoding="utf-8") as file:
        examples = " ".join(file.read().split())
    right = {text: formula_left(text) for text in FORMULAS}
    for text in FORMULAS:
        # A digit of the first is its argument there.
        assert " ∷ ".join(map(str, text[:-2])) in examples, "%s has no such formula: %s" % (EXAMPLES, text)
    found, many = [], 0
    for name, of, wrong in wrong_formulas():
        many += 1
        with planted(calls, of, wrong):
            if all(formula_left(text) == right[text] for text in FORMULAS):
                found.append(name)
    return found, many


# What the table tells.

class Telling:
    """Which wrong orders the lines of the table tell, and which only other calls do."""

    def __init__(self, seed=1):
        self.rng = Random(seed)
        self.written = buildorder.read_table()
        self.lines = [Case(buildorder.line_of(name, written)) for name, written in self.written.items()]
        self.wrong = wrong_orders(self.lines + [self.random_case() for _ in range(20)])
        self.told = {}
        for name, made in self.wrong.items():
            told = next((case.line.name for case in self.lines if made(case) != case.made), None)
            if told:
                self.told[name] = told
        self.untold = {}
        self.tried = 0

    def random_case(self):
        return Case(random_line(self.rng))

    def faults(self):
        """Where a line is not what the second program leaves."""
        return [fault for case, written in zip(self.lines, self.written.values())
                for fault in buildorder.faults(case.line, written)]

    def left(self):
        return {name: made for name, made in self.wrong.items() if name not in self.told and name not in self.untold}

    def search(self, many):
        """Random calls, for what no line tells."""
        left = self.left()
        for _ in range(many):
            case = self.random_case()
            made = buildorder.made_by_calls(case.line)
            assert made is None or made == buildorder.words_of(case.line, case.made), case.line
            if made is None:
                continue
            self.tried += 1
            for name in [name for name, made in left.items() if made(case) != case.made]:
                self.untold[name] = case.line
                del left[name]


def is_of_users(line):
    """Whether a call is over the nodes of the table's own, so that it can be a line."""
    return line.nodes[:3] == VARIABLES


def main():
    parser = argparse.ArgumentParser(description="Wrong orders of building, and the lines that tell them.")
    parser.add_argument("--calls", type=int, default=60, help="random calls for what no line tells")
    parser.add_argument("--seed", type=int, default=1)
    parser.add_argument("--equal", action="store_true", help="list the programs that no call told apart")
    options = parser.parse_args()
    telling = Telling(options.seed)
    faults = telling.faults()
    telling.search(options.calls)
    for fault in faults:
        print("no line of the second program: %s" % fault)
    for name, line in telling.untold.items():
        print("told by no line: %s\n    but by %s" % (name, buildorder.text_of(line) if is_of_users(line) else line))
    if options.equal:
        for name in telling.left():
            print("told by no call: %s" % name)
    formulas_untold, formulas_many = untold_formulas()
    for name in formulas_untold:
        print("a formula's conditions, told by no line: %s" % name)
    print("wrong orders: %d; told by a line of %d: %d, only by another call: %d, by none of %d: %d" % (
        len(telling.wrong), len(telling.lines), len(telling.told), len(telling.untold), telling.tried,
        len(telling.left())))
    print("wrong orders of a formula's conditions: %d; told by a computed call: %d" % (
        formulas_many, formulas_many - len(formulas_untold)))
    return 1 if faults or telling.untold or formulas_untold else 0


if __name__ == "__main__":
    sys.exit(main())
