#!/usr/bin/env python3
"""The wrong programs as a page, the names that the pages of claims cite, and the links between pages. Run it anywhere in the repository; it needs no prover.

  dev/claims.py table     write docs/WRONG-PROGRAMS.md from the first lines of crates/*/must-fail/*.edit
  dev/claims.py check     fail where that page is out of date, where an edit lacks its lines or does not fit the files,
                          where nothing has the name of what it says refuses it, where what 01 wants failed or rules
                          out is not there as a definition and as a program, where docs/CLAIMS.md or a page of
                          docs/claims/ cites a file or a name that is not there, where the first does not link to a page or section
                          of the others, or where a page links to what is not there

What refuses an edit is said by `rt must-fail CRATE`. An edit begins with three lines, each once and in this order:

  # of: the sentence of 01 (in quotation marks) or the claim that it breaks; before the sentence `wrong program: ` where 01
        names it as one to be failed, `ruled out: ` where 01 rules it out, `row N: ` where it is of the table
  # wrong: what the changed definition or program does
  # refused by: the contract, law or claim that no longer holds
"""
import glob
import os
import re
import sys

PAGE = "docs/WRONG-PROGRAMS.md"
CLAIMS = ("docs/CLAIMS.md", "docs/claims/*.md")
LINES = ("of", "wrong", "refused by")


def root():
    here = os.getcwd()
    while not os.path.exists(os.path.join(here, "crates.txt")):
        if here == "/":
            sys.exit("no crates.txt here or above")
        here = os.path.dirname(here)
    return here


def read(path):
    with open(path, encoding="utf-8") as f:
        return f.read()


# ---- edits

class Edit:
    """A must-fail edit: its crate, its label, what its first lines say, and its replacements (file, old, new)."""

    def __init__(self, base, path):
        self.path = os.path.relpath(path, base)
        self.crate, self.label = self.path.split(os.sep)[1], os.path.basename(path)[:-len(".edit")]
        lines = read(path).split("\n")
        self.said = {key: line[len(key) + 4:].strip() for key, line in zip(LINES, lines) if line.startswith("# %s: " % key)}
        self.changes, name, old = [], None, None
        for line in lines:
            if line.startswith("file: "):
                name = line[6:]
            elif line.startswith("old: "):
                old = line[5:]
            elif line.startswith("new:"):
                self.changes.append((name, old, line[5:]))

    def kind(self):
        """What it changes: the definition, the program, or both, whatever is done to proofs beside."""
        tops = {(name or "").split("/")[0] for name, _, _ in self.changes}
        words = [word for top, word in (("specs", "definition"), ("src", "program")) if top in tops]
        return " and ".join(words) or "proof"

    def faults(self, base):
        missing = [key for key in LINES if not self.said.get(key)]
        if missing:
            return ["%s: its first lines are `# of: `, `# wrong: ` and `# refused by: `; it lacks `# %s: `" % (self.path, missing[0])]
        if any("|" in text for text in self.said.values()):
            return ["%s: a `|` in its first lines would break the table" % self.path]
        texts = {}
        for name, old, new in self.changes:
            file = os.path.join(base, "crates", self.crate, name or "")
            if not os.path.isfile(file):
                return ["%s: there is no file %s" % (self.path, name)]
            text = texts.get(name) or read(file)
            if not old or text.count(old) != 1:
                return ["%s: an `old:` text is %s in %s" % (self.path, "not" if not old or old not in text else "more than once", name)]
            texts[name] = text.replace(old, new)
        return [] if self.changes else ["%s: it changes nothing" % self.path]


def edits(base):
    return [Edit(base, path) for path in sorted(glob.glob(os.path.join(glob.escape(base), "crates", "*", "must-fail", "*.edit")))]


def crates_of(base):
    lines = (line.split("#")[0] for line in read(os.path.join(base, "crates.txt")).split("\n"))
    return [line.split(":")[0].split()[0] for line in lines if ":" in line]


# ---- the page

HEAD = """# Wrong programs

Made by `python3 dev/claims.py table` from the first lines of the edits: change those, not this page.

Each edit under `crates/*/must-fail/` is a wrong definition or a wrong program of the same shape as the right one. The gate applies each to a copy of its crate, and fails where the prover accepts it. 'Of' is the sentence of 01, or the claim, that the edit breaks; 'refused by' is a contract, law or claim that no longer holds. A changed definition has its program, and laws that only spell it out, changed with it wherever that keeps the change from being refused for another reason. How an edit is written and tried: `docs/PROOFS.md`.
"""


def link(edit):
    return "[%s](../%s)" % (edit.label, edit.path.replace(os.sep, "/"))


FAIL_FIRST, RULED_OUT = "wrong program: ", "ruled out: "


def by_sentence(found, mark):
    """The edits whose sentence 01 names itself, by sentence: the definitions that have it wrong, and the programs."""
    rows = {}
    for edit in found:
        if edit.said.get("of", "").startswith(mark):
            rows.setdefault(edit.said["of"][len(mark):], ([], []))["definition" not in edit.kind()].append(edit)
    return sorted(rows.items())


def singled_out(found, mark, title):
    rows = by_sentence(found, mark)
    if not rows:
        return []
    out = ["", "## " + title, "", "| 01's words | definition, refused by | program, refused by |", "|---|---|---|"]
    for sentence, sides in rows:
        cells = ["; ".join("%s `%s`: %s" % (link(e), e.crate, e.said["refused by"]) for e in side) for side in sides]
        out.append("| %s | %s | %s |" % (sentence, *cells))
    return out


def one_sided(found):
    return ["no wrong %s: %s%s" % (kind, mark, sentence) for mark in (FAIL_FIRST, RULED_OUT) for sentence, sides in by_sentence(found, mark)
            for kind, side in zip(("definition", "program"), sides) if not side]


def page(base):
    found = edits(base)
    out = [HEAD.rstrip("\n")]
    out += singled_out(found, FAIL_FIRST, "Those that 01 wants failed first")
    out += singled_out(found, RULED_OUT, "Those that 01 rules out")
    for crate in crates_of(base):
        mine = [edit for edit in found if edit.crate == crate]
        if mine:
            out += ["", "## `%s`" % crate, "", "| wrong | of | changes | refused by | edit |", "|---|---|---|---|---|"]
            out += ["| %s | %s | %s | %s | %s |" % (e.said.get("wrong"), e.said.get("of"), e.kind(), e.said.get("refused by"), link(e)) for e in mine]
    return "\n".join(out + ["", "%d edits." % len(found), ""])


# ---- what the claims cite

FILE = re.compile(r"[\w.+-]+(?:/[\w.+-]+)+/?$")


def citations(text):
    """Each file that a text cites, and the names right after it: (line, file, names)."""
    for number, line in enumerate(text.split("\n"), 1):
        for cell in line.split("|"):
            current, end = None, 0
            for m in re.finditer(r"`([^`]+)`", cell):
                if FILE.match(m.group(1)):
                    current = [number, m.group(1), []]
                    yield current
                elif current and re.fullmatch(r"[ ]", cell[end:m.start()]) and " " not in m.group(1):
                    current[2].append(m.group(1))
                else:
                    current = None
                end = m.end()


def where(base, name):
    """The file that a citation means: from crates/, or from the root."""
    for path in (os.path.join(base, "crates", name), os.path.join(base, name)):
        if os.path.exists(path):
            return path
    return None


def declares(text, name):
    """Whether a file of definitions, laws or code has a declaration, field or constructor of this name."""
    name = re.escape(name)
    antt = r"(?m)^ *(?:(?:pub|abbrev|record|data|unfoldable|module) +)*«?" + name + r"»?(?=[\s:({])"
    code = r"\b(?:fn|struct|enum|const|mod|type) " + name + r"\b"
    return bool(re.search(antt, text) or re.search(code, text))


def cited_faults(base, page):
    out = []
    for number, name, names in list(citations(read(os.path.join(base, page)))):
        path = where(base, name)
        if not path:
            out.append("%s:%d: there is no %s" % (page, number, name))
        elif names and os.path.isfile(path):
            text = read(path)
            out += ["%s:%d: there is no `%s` in %s" % (page, number, n, name) for n in names if not declares(text, n)]
    return out


def claim_pages(base):
    return [os.path.relpath(path, base) for pattern in CLAIMS for path in sorted(glob.glob(os.path.join(glob.escape(base), pattern)))]


def index_faults(base):
    """The first page of claims links to each of the others, and to each section of them."""
    first, *others = claim_pages(base)
    wanted = [os.path.relpath(page, os.path.dirname(first)) + anchor for page in others for anchor in sections(read(os.path.join(base, page)))]
    linked = read(os.path.join(base, first))
    return ["%s: there is no link to %s" % (first, target) for target in wanted if "](%s)" % target not in linked]


def sections(text):
    """The anchors of a page's sections, or none where it has no sections."""
    return ["#" + anchor for anchor in anchors("\n".join(line for line in text.split("\n") if line.startswith("## ")))] or [""]


def refused_faults(base, found):
    """The names by which edits say what refuses them stand somewhere in the repository, whichever crate has them."""
    wanted = {}
    for edit in found:
        for name in re.findall(r"`([^`]+)`", edit.said.get("refused by", "")):
            wanted.setdefault(name, edit.path)
    out = ["%s: there is no %s" % (wanted.pop(name), name) for name in [n for n in wanted if "/" in n and not where(base, n)]]
    wanted = {name: path for name, path in wanted.items() if "/" not in name}
    for top in ("specs", "proofs", "src"):
        for path in glob.glob(os.path.join(glob.escape(base), "crates", "*", top, "**", "*.*"), recursive=True):
            text = read(path) if wanted and os.path.isfile(path) else ""
            wanted = {name: said for name, said in wanted.items() if name not in text or not declares(text, name)}
    return out + ["%s: nothing is named `%s`" % (said, name) for name, said in sorted(wanted.items())]


# ---- links between pages

def all_pages(base):
    """Every page of the repository, from its root."""
    for folder, folders, files in os.walk(base):
        folders[:] = sorted(name for name in folders if not name.startswith(".") and name not in ("target", "out"))
        for name in sorted(files):
            if name.endswith(".md"):
                yield os.path.relpath(os.path.join(folder, name), base)


def prose(text):
    """The lines of a page without what is code: (line, text)."""
    fenced = False
    for number, line in enumerate(text.split("\n"), 1):
        fenced ^= line.startswith("```")
        if not fenced and not line.startswith(("    ", "```")):
            yield number, re.sub(r"`[^`]*`", "", line)


def anchors(text):
    """The anchors of a page's headings: small letters, a hyphen for each space, no other signs; the second of two alike ends with -1."""
    found = []
    for _, line in prose(re.sub(r"(?m)^(#+ .*)$", lambda m: m.group().replace("`", ""), text)):
        if re.match(r"#{1,6} ", line):
            name = re.sub(r"[^\w -]", "", line.lstrip("#").strip().lower()).replace(" ", "-")
            again = sum(1 for other in found if re.fullmatch(re.escape(name) + r"(-\d+)?", other))
            found.append("%s-%d" % (name, again) if again else name)
    return found


def link_faults(base, page):
    out = []
    for number, line in prose(read(os.path.join(base, page))):
        for target in re.findall(r"\]\(([^()\s]+)\)", line):
            if re.match(r"\w+:", target):
                continue
            name, _, anchor = target.partition("#")
            path = os.path.normpath(os.path.join(base, os.path.dirname(page), name)) if name else os.path.join(base, page)
            if not path.startswith(base + os.sep) or not os.path.exists(path):
                out.append("%s:%d: there is no %s" % (page, number, target))
            elif anchor and (not path.endswith(".md") or anchor not in anchors(read(path))):
                out.append("%s:%d: no heading is %s" % (page, number, target))
    return out


# ---- the commands

def do_table(base):
    with open(os.path.join(base, PAGE), "w", encoding="utf-8") as f:
        f.write(page(base))
    print("%s: %d edits" % (PAGE, len(edits(base))))
    return 0


def do_check(base):
    found = edits(base)
    faults = [fault for edit in found for fault in edit.faults(base)] + refused_faults(base, found) + one_sided(found)
    path = os.path.join(base, PAGE)
    if not os.path.exists(path) or read(path) != page(base):
        faults.append("%s is out of date: python3 dev/claims.py table" % PAGE)
    faults += [fault for page in claim_pages(base) for fault in cited_faults(base, page)]
    faults += index_faults(base)
    faults += [fault for page in all_pages(base) for fault in link_faults(base, page)]
    for fault in faults:
        print(fault)
    print("claims: %d edits, %s" % (len(found), "%d faults" % len(faults) if faults else "all as said"))
    return 1 if faults else 0


def main(words):
    if words == ["table"]:
        return do_table(root())
    if words == ["check"]:
        return do_check(root())
    print(__doc__.strip())
    return 2


if __name__ == "__main__":
    sys.exit(main(sys.argv[1:]))
