#!/usr/bin/env python3
"""The tables of docs/CRATES.md: the crates in groups, what each holds, and its edits; and how long the gate took. Run it anywhere in the repository; it needs no prover.

  dev/crates.py           write the tables from crates.txt and the edits; how long the gate took stays
  dev/crates.py LOG       the same with what a run of the gate took that proved all (`.ci/run > LOG`)
  dev/crates.py --check   fail where the page is out of date as to groups, crates or edits, or a crate lacks its group or line

In crates.txt `## TITLE` begins a group, and the comment right above a crate says what it holds.
"""
import os
import re
import sys

from claims import edits, read, root

LIST, PAGE = "crates.txt", "docs/CRATES.md"
BEGIN, END = "<!-- Made by python3 dev/crates.py, from crates.txt and a log of the gate. -->", "<!-- The end of what is made. -->"
HEAD = "| crate | holds | edits |\n|---|---|---|\n"


class Fault(Exception):
    """What is not as it has to be."""


# ---- the list

def groups(base):
    """The groups of the list: a title, and the crates with their lines."""
    found, above = [], None
    for line in read(os.path.join(base, LIST)).split("\n"):
        if line.startswith("## "):
            found.append((line[3:].strip(), []))
        elif ":" in line.split("#")[0]:
            crate = line.split(":")[0].split()[0]
            if not found or not above or "|" in above:
                raise Fault("%s: %s" % (LIST, crate + (" stands above the first group" if not found else ": the line above it does not say what it holds")))
            found[-1][1].append((crate, above))
        above = line[1:].strip() if re.match(r"#[^#]", line) else None
    return found


# ---- what the gate took

def logged(path):
    """What a run took, by its log."""
    text = read(path)
    whole = re.findall(r"(?m)^gate: (took .*)$", text)
    tally = re.findall(r"(?m)^(\d+ passed, \d+ failed)$", text)
    refused = re.findall(r"(?m)^rt: ok;.*must-fail edits: (\d+) refused", text)
    if not whole or not tally or not refused:
        raise Fault("%s is no log of a gate that passed" % path)
    if "every proof and must-fail edit was done in this run" not in text:
        raise Fault("%s is of a run that took over what earlier ones proved: its time says nothing" % path)
    return "The gate %s: %d crates and %s edits, `%s`." % (whole[-1], len(set(re.findall(r"(?m)^rt: (\w+) proved$", text))), refused[-1], tally[-1])


def kept(text):
    """What the page says of it as it is."""
    said = re.search(r"(?m)^The gate took .*$", text)
    return said.group() if said else None


# ---- the page

def tables(base, said):
    """What is made."""
    many = {}
    for edit in edits(base):
        many[edit.crate] = many.get(edit.crate, 0) + 1
    out, crates = [], 0
    for title, rows in groups(base):
        out.append("### %s\n\n" % title + HEAD)
        for crate, holds in rows:
            out[-1] += "| `%s` | %s | %s |\n" % (crate, holds, many.get(crate, ""))
        crates += len(rows)
    last = "%d crates, %d edits.%s\n" % (crates, sum(many.values()), "\n\n" + said if said else "")
    return "\n".join([*out, last])


def made(base, said=None):
    """The page, with what it says of the gate where nothing is given."""
    text = read(os.path.join(base, PAGE))
    if text.count(BEGIN) != 1 or text.count(END) != 1:
        raise Fault("%s: the lines `%s` and `%s` do not stand there once each" % (PAGE, BEGIN, END))
    before, rest = text.split(BEGIN)
    old, after = rest.split(END)
    return "%s%s\n\n%s\n%s%s" % (before, BEGIN, tables(base, said or kept(old)), END, after)


def main(words):
    if len(words) > 1 or words in (["-h"], ["--help"]):
        print(__doc__.strip())
        return 2
    base = root()
    try:
        if words == ["--check"]:
            if made(base) != read(os.path.join(base, PAGE)):
                raise Fault("%s is out of date: python3 dev/crates.py" % PAGE)
            print("crates: as %s says" % PAGE)
            return 0
        page = made(base, logged(words[0]) if words else None)
        with open(os.path.join(base, PAGE), "w", encoding="utf-8") as f:
            f.write(page)
    except (Fault, OSError) as fault:
        print(fault)
        return 1
    return 0


if __name__ == "__main__":
    sys.exit(main(sys.argv[1:]))
