#!/usr/bin/env python3
"""Brings the repository's own definitions and lemmas to the spelling of today's Rattle: words in snake case.

usage: python3 tools/spelling.py [--list]        at the top, after the kit's scripts, once

A word that a file of specs/ or proofs/ declares is respelled wherever it stands in a file of antt, in a clause or a `ghost use` of a source file,
in a must-fail edit, and between backticks in docs/, README.md and dev/: `withNode` becomes `with_node`, and `seek-goes-on` becomes `seek_goes_on`.
A dash stays before a word that is itself declared in specs/ or is one of std's words for lists, as in `length-packed`. What begins with a capital keeps it:
a type, a module, and the programs that are named as they are published. Functions of src/, exported names, strings, inputs and outputs keep their names.
It stops, and writes nothing, where two words of one file would fall together.
"""

import collections
import os
import re
import sys

W = r"[^\s(){}.;,@\"«»\[\]\\:]+"
TOKEN = re.compile(W)
DECLARED = re.compile(r"^ *(?:(?:abbrev|unfoldable|opaque|pub|instance|let|where) +)*(?:(?:record|data|ruleset|syntax) +)?(" + W + r")(?: +[({][^=]*?)?(?: [a-zA-Z₀-₉' ]+)? *(?::|$)")
IMPORTS = re.compile(r"(?m)^ *(?:pub )?use (\S+?)\.\{([^}]*)\}")
RESPELLED = re.compile(r"^[a-z][A-Za-z0-9_'₀-₉-]*$")
LISTS = set("length take drop set get_or append map filter sum replicate min max mod div".split())
RESERVED = set("data record open use pub let in where elim as abbrev mod module unfold unfolding ruleset «data»".split())
SKIPPED = {"out", ".git", "target"}
# Lemmas that would get the name of the definition that they are about.
LEMMAS = "is-user high-at low-at inside-halves fresh-unless fields-end same-pair carry-bit carry-h carry-l h-at l-at sum-bit one-of-four".split()
# The same, of those that have the new spelling already: in the crates named alone, and not in the path of a function's proof.
MORE = {"has_words": ("nodes", "search"), "all_made": ("formula_access",), "by_hand": ("model",), "parts_from": ("units",)}
# A field of a struct of src/ beside a field of a record.
APART = {"not_b"}


def files(top, folders, endings):
    for folder in folders:
        for at, dirs, names in os.walk(os.path.join(top, folder)):
            dirs[:] = sorted(d for d in dirs if d not in SKIPPED)
            for name in sorted(names):
                if name.endswith(endings):
                    yield os.path.join(at, name)


def read(path):
    with open(path, encoding="utf-8") as it:
        return it.read()


def declared(text):
    """The words that a file declares, at any depth: a signature, a field, a constructor."""
    found = set()
    for line in text.split("\n"):
        line = re.sub(r"\s*--.*", "", line)
        m = re.match(r"^ *(?:(?:abbrev|unfoldable|opaque|pub|instance) +)*(?:(?:record|data) +)?(" + W + r")(?=[ :]|$)", line)
        if not m or m[1] in RESERVED or m[1] in ("use", "module", "_", "infixl", "infixr", "λ"):
            continue
        rest = line[m.end() :]
        if re.match(r"\s*(?:$|:)", rest) or re.match(r"(?:\s*[({][^=]*)", rest) or re.search(r" : ", rest):
            found.add(m[1])
    return found


def snake(part):
    if re.match(r"[A-Z]", part):
        return part
    return re.sub(r"(?<=[a-z0-9_'])([A-Z]+)", lambda it: "_" + it[1].lower(), part)


def respelled(word, known):
    parts = [snake(it) for it in word.split("-")]
    out = parts[0]
    for part in parts[1:]:
        out += ("-" if part in known or re.match(r"[A-Z]", part) else "_") + part
    return out


def main(top, only_list):
    crates = os.path.join(top, "crates")
    antt = list(files(top, ["crates"], (".antt",)))
    texts = {it: read(it) for it in antt}
    own, stated = set(), set()
    for path, text in texts.items():
        words = declared(text)
        own |= words
        if "/specs/" in path:
            stated |= words
    known = {snake(it) for it in stated if "-" not in it and len(it) > 3} | LISTS
    functions = set()
    for path in files(top, ["crates"], (".rt",)):
        functions |= set(re.findall(r"\bfn (\w+)", read(path)))
    # a goal's answer is named after the goal, which the check names
    table = {it: respelled(it, known) for it in own if RESPELLED.match(it) and not it.startswith("Need-")}
    table.update((it, snake(it.replace("-", "_")) + "_lem") for it in LEMMAS if it in own)
    table = {a: b for a, b in table.items() if a != b}
    if only_list:
        for a, b in sorted(table.items()):
            print(a, b)
        return 0
    names = set(os.listdir(crates))
    bad, written = [], {}

    def turned(path, text, words=TOKEN):
        foreign = set()
        for module, list_ in IMPORTS.findall(text):
            m = re.match(r"Rattle\.(\w+)\.", module)
            if not (m and m[1] in names):
                foreign |= {it.strip().split(" as ")[0] for it in list_.split(",")}
        crate = os.path.relpath(path, crates).split(os.sep)[0]
        for it, where in MORE.items():
            if crate in where:
                text = re.sub(rf"(?<![.\w'-]){it}(?![\w'.-])", it + "_lem", text)
        here = collections.defaultdict(set)
        for it in TOKEN.findall(re.sub(r"--.*", "", text)):
            new = it if it in foreign else table.get(it, it)
            here[new].add(it)
        for new, old in here.items():
            if len(old - functions - APART) > 1:
                bad.append(f"{path}: {' and '.join(sorted(old))} fall together as {new}")
        return TOKEN.sub(lambda it: it[0] if it[0] in foreign else table.get(it[0], it[0]), text)

    for path, text in texts.items():
        written[path] = turned(path, text)
    for path in files(top, ["crates"], (".rt",)):
        text = read(path)
        out = []
        for line in text.split("\n"):
            if re.match(r"\s*(ghost|requires|ensures|//|≡|×|\(|λ|→|[a-zA-Z_.]+ )", line) and not re.match(r"\s*(pub |fn |let |use |mod |return|if |match |for |while )", line):
                comment = re.match(r"\s*//", line)
                sub = lambda it: table.get(it[0], it[0]) if it[0] not in functions else it[0]
                if comment:
                    line = re.sub(r"`([^`]*)`", lambda it: "`" + TOKEN.sub(sub, it[1]) + "`", line)
                    line = TOKEN.sub(lambda it: sub(it) if re.search("[a-z][A-Z]", it[0]) else it[0], line)
                elif re.match(r"\s*(ghost|requires|ensures)", line) or re.search(r"[≡×λ→]", line):
                    line = TOKEN.sub(sub, line)
            out.append(line)
        written[path] = "\n".join(out)
    for path in files(top, ["crates"], (".edit",)):
        written[path] = re.sub(r"(?m)^((?:old|new): )(.*)$", lambda it: it[1] + TOKEN.sub(lambda w: table.get(w[0], w[0]), it[2]), read(path))
    for path in [os.path.join(top, "README.md"), *files(top, ["docs", "dev"], (".md", ".py"))]:
        text = read(path)
        text = re.sub(r"`([^`\n]*)`", lambda it: "`" + TOKEN.sub(lambda w: table.get(w[0], w[0]), it[1]) + "`", text)
        written[path] = text
    if bad:
        print("\n".join(sorted(set(bad))))
        print(f"spelling: {len(set(bad))} fall together, nothing was written", file=sys.stderr)
        return 1
    n = 0
    for path, text in written.items():
        if text != read(path):
            n += 1
            with open(path, "w", encoding="utf-8") as it:
                it.write(text)
    print(f"spelling: {len(table)} words in {n} files")
    return 0


if __name__ == "__main__":
    raise SystemExit(main(os.path.dirname(os.path.dirname(os.path.abspath(__file__))), "--list" in sys.argv))
