#!/usr/bin/env python3
"""Tests of how the modules of tools/ import one another; some seconds.

    python3 tests/test_modules.py
"""

import ast
import os
import subprocess
import sys
import unittest

from rooms import TOOLS


def path_of(name):
    return os.path.join(TOOLS, *name.split(".")) + ".py"


def module_names():
    """The modules of tools/, as they are imported; those of packages have a dot."""
    for place, folders, files in os.walk(TOOLS):
        folders[:] = sorted(folder for folder in folders if folder != "__pycache__")
        package = os.path.relpath(place, TOOLS).replace(os.sep, ".")
        for file in sorted(files):
            if file.endswith(".py") and file != "__init__.py":
                yield file[:-3] if package == "." else "%s.%s" % (package, file[:-3])


MODULES = list(module_names())
PACKAGES = {name.partition(".")[0] for name in MODULES if "." in name}
COMMANDS = {name for name in MODULES if "." not in name and name != "papers"}


def imported(source):
    """The modules of tools/ that a source imports, in functions too."""
    found = set()
    for statement in ast.walk(ast.parse(source)):
        if isinstance(statement, ast.Import):
            found.update(name.name for name in statement.names)
        elif isinstance(statement, ast.ImportFrom):
            found.update([statement.module, *("%s.%s" % (statement.module, name.name) for name in statement.names)])
    return found & set(MODULES)


def imports_of(name):
    with open(path_of(name), encoding="utf-8") as file:
        return imported(file.read())


def cycle(graph):
    """Modules of which each imports the next, and the last the first; None where there are none."""
    done = set()

    def follow(name, way):
        if name in way:
            return way[way.index(name):]
        if name in done:
            return None
        found = next(filter(None, (follow(other, way + [name]) for other in sorted(graph[name]))), None)
        done.add(name)
        return found

    return next(filter(None, (follow(name, []) for name in sorted(graph))), None)


GRAPH = {name: imports_of(name) for name in MODULES}


class Modules(unittest.TestCase):
    def test_each_is_imported_alone(self):
        for name in MODULES:
            with self.subTest(module=name):
                words = [sys.executable, "-c", "import sys; sys.path[0] = sys.argv[1]; import " + name, TOOLS]
                done = subprocess.run(words, capture_output=True, text=True, check=False)
                self.assertEqual((done.returncode, done.stdout, done.stderr), (0, "", ""))

    def test_no_cycle(self):
        self.assertIsNone(cycle(GRAPH))

    def test_a_cycle_is_found(self):
        self.assertEqual(cycle({"a": {"b"}, "b": {"c", "d"}, "c": set(), "d": {"b"}}), ["b", "d"])
        self.assertEqual(cycle({"a": {"a"}}), ["a"])
        self.assertEqual(imported("def f():\n    from second import calls\n    import papers, os\n"),
                         {"second.calls", "papers"})

    def test_packages_use_no_command(self):
        self.assertFalse(COMMANDS & PACKAGES)
        for name in MODULES:
            if name not in COMMANDS:
                self.assertFalse(GRAPH[name] & COMMANDS, name)

    def test_papers_use_nothing(self):
        self.assertEqual(GRAPH["papers"], set())

    def test_second_program_is_of_its_own(self):
        """It has the papers' numerals in common with the tools, and nothing else."""
        for name in MODULES:
            if name.startswith("second."):
                others = {other for other in GRAPH[name] if not other.startswith("second.")}
                self.assertLessEqual(others, {"papers"}, name)


if __name__ == "__main__":
    unittest.main()
