"""Builds the benchmark's own programs: the one over BuDDy, and those that call the library."""

import os
import subprocess
import sys

HERE = os.path.dirname(os.path.abspath(__file__))
ROOT = os.path.dirname(HERE)
TOOLS = os.path.join(ROOT, "tools")
TESTS = os.path.join(ROOT, "tests")
FOLDER = os.path.join(ROOT, "target", "bench")
SOURCE = os.path.join(HERE, "memcase_buddy.cpp")
CALLS = os.path.join(HERE, "calls.c")
TEXTS = os.path.join(HERE, "texts.c")
ARCHIVE = os.path.join(ROOT, "target", "staticlib", "libmangerday.a")

# Static, so that no loading of shared libraries counts as BuDDy's start-up.
COMPILE = ["g++", "-O2", "-std=c++17", "-Wall", "-Wextra", "-static"]


def buddy_program():
    """The path of the program, built anew where its source is newer."""
    os.makedirs(FOLDER, exist_ok=True)
    program = os.path.join(FOLDER, "memcase_buddy")
    if os.path.exists(program) and os.path.getmtime(program) > os.path.getmtime(SOURCE):
        return program
    try:
        done = subprocess.run(COMPILE + ["-o", program, SOURCE, "-lbdd", "-lm"],
                              stderr=subprocess.PIPE, text=True, check=False)
    except FileNotFoundError:
        sys.exit("g++ is not there: apt-get install g++ libbdd-dev")
    if "bdd.h" in done.stderr or "-lbdd" in done.stderr:
        sys.exit("BuDDy is not there: apt-get install libbdd-dev")
    if done.returncode != 0:
        sys.exit(done.stderr)
    return program


def library_program(name, source):
    """The path of a program that is linked to the library."""
    if not os.path.exists(ARCHIVE):
        sys.exit("%s is not there: link/install target/prefix builds it" % os.path.relpath(ARCHIVE))
    os.makedirs(FOLDER, exist_ok=True)
    program = os.path.join(FOLDER, name)
    subprocess.run(["gcc", "-O2", "-std=gnu99", "-Wall", "-Wextra", "-I", os.path.join(ROOT, "include"),
                    "-o", program, source, ARCHIVE], check=True)
    return program


def calls_program():
    """The program that times single calls of the library."""
    return library_program("calls", CALLS)


def texts_program():
    """The program that times the reading of formulas."""
    return library_program("texts", TEXTS)
