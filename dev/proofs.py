#!/usr/bin/env python3
"""The files of proofs: what they hold, and laws by the words of their statements. Run it anywhere in the repository; it needs no prover.

  dev/proofs.py check [CRATE..]    fail where a file of proofs/ has a hole, where the proof of a function stands for no
                                   function or is a walk by hand, where a file of laws is not declared in proofs/Lib.antt or
                                   the other way round, or where nothing cites it
  dev/proofs.py laws WORD..        the laws whose statement has all these words, as `laws appended length`

A function's proof is Invariants.antt, Answers.antt or both, in crates/CRATE/proofs/FUNCTION/: its name, behind its module's or
its type's, as `put_bytes`, `reader/next` or `Record/write`; or `+ite`, or `+f_g`, for a cycle of calls. Proof.antt, a walk of
the code by hand, is none: each change of the code breaks it. A file of laws
is cited where another file of definitions or proofs takes a name of it, or a page of claims or an edit names what it proves.
"""
import glob
import os
import re
import sys

OF_FUNCTIONS = ("Invariants.antt", "Answers.antt", "Proof.antt")
PAGES = ("docs/CLAIMS.md", "docs/claims/*.md")


class Fault(Exception):
    """What a user is told."""


def root():
    here = os.getcwd()
    while not os.path.exists(os.path.join(here, "crates.txt")):
        if here == "/":
            raise Fault("no crates.txt here or above")
        here = os.path.dirname(here)
    return here


def read(path):
    with open(path, encoding="utf-8") as f:
        return f.read()


def found(base, *pattern):
    """The files of a pattern, from the root."""
    return [os.path.relpath(path, base) for path in sorted(glob.glob(os.path.join(glob.escape(base), *pattern), recursive=True))]


def crates_of(base):
    lines = (line.split("#")[0] for line in read(os.path.join(base, "crates.txt")).split("\n"))
    return [line.split(":")[0].split()[0] for line in lines if ":" in line]


# ---- what a file says

def plain(text):
    """A text without its comments."""
    return re.sub(r"(?m)(^|\s)--.*", r"\1", text)


def holes(text):
    """The lines of a file of proofs in which a `?` stands for a term."""
    return [number for number, line in enumerate(plain(text).split("\n"), 1) if re.search(r"(?<![^\s(,;\[{⟨=])\?(?![^\s),;\]}⟩])", line)]


def declared(text):
    """The modules that a Lib.antt declares."""
    return re.findall(r"(?m)^(?:pub )?mod (\S+)", text)


def laws(text):
    """The declarations of a file of laws that others may cite: line, name and statement."""
    for m in re.finditer(r"(?m)^ *pub ([^\s:]+) :((?:.*)(?:\n +→.*)*)", text):
        yield text.count("\n", 0, m.start()) + 1, m.group(1), re.sub(r"\s+", " ", m.group(2)).strip()


def functions(text):
    """The names of the functions of a source file."""
    return set(re.findall(r"\bfn (\w+)", text))


# ---- the check

def function_faults(base, crate, folder, files):
    """What is wrong with the proof of a function, in a folder below proofs/."""
    place = "crates/%s/proofs/%s" % (crate, folder)
    out = ["%s: a walk of the code by hand: write Answers.antt" % path for path in files if path.endswith("Proof.antt")]
    code = set().union(*(functions(read(os.path.join(base, path))) for path in found(base, "crates", crate, "src", "**", "*.rt")))
    last = folder.split("/")[-1]
    is_there = last in code or (last.startswith("+") and any(re.search(r"(?:^|_)%s(?:_|$)" % re.escape(name), last[1:]) for name in code))
    # A closure or a struct's ghost field has a folder below that of its function or type.
    return out + ([] if is_there or any(part in code for part in folder.split("/")) else ["%s: the code has no such function" % place])


def cited(base):
    """Each module of laws that a file of definitions, proofs or code takes a name of, as (crate, path), and the files that the pages of claims and the edits name."""
    modules, files, names = set(), set(), set()
    for path in found(base, "crates", "*", "*", "**", "*.*"):
        crate, top = path.split(os.sep)[1:3]
        if top in ("specs", "proofs", "src"):
            for name, module in re.findall(r"\bRattle\.(\w+)\.proofs\.([\w.+'-]+?)(?=\.\{|[\s.,;)]|$)", read(os.path.join(base, path))):
                if (name, module) != (crate, os.path.splitext("/".join(path.split(os.sep)[3:]))[0].replace("/", ".")):
                    modules.add((name, module))
        elif top == "must-fail":
            names.update(re.findall(r"`([^`]+)`", "".join(re.findall(r"(?m)^# refused by: .*", read(os.path.join(base, path))))))
    for pattern in PAGES:
        for path in found(base, *pattern.split("/")):
            files.update(re.findall(r"`([\w+-]+/proofs/[\w/+-]+\.antt)`", read(os.path.join(base, path))))
    return modules, files, names


def is_cited(crate, path, text, uses):
    modules, files, names = uses
    module = os.path.splitext("/".join(path.split(os.sep)[3:]))[0].replace("/", ".")
    return ((crate, module) in modules or "/".join(path.split(os.sep)[1:]) in files
            or any(name in names for name in re.findall(r"(?m)^ *(?:(?:abbrev|unfoldable|pub) )+([^\s:(]+)", text)))


def crate_faults(base, crate, uses):
    """What is wrong with the proofs of a crate, and how many functions and files of laws have one."""
    out, folders, files = [], {}, []
    for path in found(base, "crates", crate, "proofs", "**", "*.antt"):
        text, parts = read(os.path.join(base, path)), path.split(os.sep)[3:]
        out += ["%s:%d: a hole" % (path, number) for number in holes(text)]
        if parts[-1] in OF_FUNCTIONS:
            folders.setdefault("/".join(parts[:-1]), []).append(path)
        elif parts[-1] != "Lib.antt":
            files.append(path)
            if not is_cited(crate, path, text, uses):
                out.append("%s: nothing cites it" % path)
    for folder, those in sorted(folders.items()):
        out += function_faults(base, crate, folder, those)
    top = os.path.join("crates", crate, "proofs")
    lib = os.path.join(base, top, "Lib.antt")
    listed = declared(read(lib)) if os.path.exists(lib) else []
    there = [os.path.basename(path)[:-len(".antt")] for path in files if os.path.dirname(path) == top]
    out += ["%s: Lib.antt does not declare it" % os.path.join(top, name + ".antt") for name in there if name not in listed]
    out += ["%s: there is no %s.antt" % (os.path.join(top, "Lib.antt"), name) for name in listed if name not in there and not os.path.isdir(os.path.join(base, top, name))]
    return out, len(folders), len(files)


def do_check(base, crates):
    uses, faults, of_functions, of_laws = cited(base), [], 0, 0
    for crate in crates or crates_of(base):
        said, folders, files = crate_faults(base, crate, uses)
        faults, of_functions, of_laws = faults + said, of_functions + folders, of_laws + files
    for fault in faults:
        print(fault)
    print("proofs: of %d functions, and %d files of laws: %s" % (of_functions, of_laws, "%d faults" % len(faults) if faults else "all as said"))
    return 1 if faults else 0


def do_laws(base, words):
    for path in found(base, "crates", "*", "proofs", "**", "*.antt"):
        if os.path.basename(path) not in OF_FUNCTIONS:
            for line, name, statement in laws(read(os.path.join(base, path))):
                if all(re.search(r"(?<![^\s(){}.,])" + re.escape(word) + r"(?![^\s(){}.,])", name + " " + statement) for word in words):
                    print("%s:%d: %s : %s" % (path, line, name, statement))
    return 0


def main(words):
    command, rest = (words or [""])[0], words[1:]
    if command == "check" and not any(word.startswith("-") for word in rest):
        return do_check(root(), rest)
    if command == "laws" and rest:
        return do_laws(root(), rest)
    print(__doc__.strip())
    return 2


if __name__ == "__main__":
    try:
        sys.exit(main(sys.argv[1:]))
    except Fault as fault:
        print(fault, file=sys.stderr)
        sys.exit(1)
