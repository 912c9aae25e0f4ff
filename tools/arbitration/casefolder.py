"""The cases of a folder: which files are named as cases, and what their bytes are."""

import os
from collections import namedtuple

from common.simulatorruns import AllEnded, Misuse, all_ended, escaped
from language import casetext, traces
from language.words import not_utf8

# The largest case file has 7,000,000 bytes.
INPUT_BYTES = 1 << 24
SHOWN_MISTAKE = 240

# Case files, texts and traces.
NAMES = ".case", ".txt", ".csv"

# A file that is named as a case: its name, which is its path in the folder, and where it is.
File = namedtuple("File", "name path")


def stop_walk(error):
    raise Misuse("cannot read the folder %s: %s" % (error.filename, error.strerror))


def paths_in(folder):
    """The files below a folder, as lists of names from the folder on, sorted."""
    found = []
    for place, _, files in os.walk(folder, onerror=stop_walk):
        if all_ended():
            raise AllEnded()
        inner = os.path.relpath(place, folder)
        found += [([] if inner == "." else inner.split(os.sep)) + [file] for file in files]
    return sorted(found)


def is_named(name, suffixes):
    """Whether a name ends so, in letters of either case."""
    return name.lower().endswith(suffixes)


def case_files(folder):
    """The files of a folder that are named as cases, and the names of those that are not."""
    if os.path.isfile(folder):
        raise Misuse("%s is a file: give the folder that holds it" % folder)
    if not os.path.isdir(folder):
        raise Misuse("no folder %s" % folder)
    paths = paths_in(folder)
    named = [path for path in paths if is_named(path[-1], NAMES)]
    if not named:
        raise Misuse("no case in %s: no file is named .case, .txt or .csv" % folder)
    files = [File(name_of(path), os.path.join(folder, *path)) for path in named]
    return files, [name_of(path) for path in paths if not is_named(path[-1], NAMES)]


def name_of(path):
    """What a file of the folder is called, given the list of names that lead to it."""
    return escaped(os.fsencode("/".join(path)))


def read_bytes(path):
    """The bytes of a case file or of a text; Misuse, with words to stand after its name, otherwise."""
    if not os.path.isfile(path):
        raise Misuse("is no file")
    try:
        with open(path, "rb") as file:
            data = file.read(INPUT_BYTES + 1)
    except OSError as error:
        raise Misuse("cannot be read: %s" % error.strerror) from None
    if len(data) > INPUT_BYTES:
        raise Misuse("is longer than %d bytes: no case and no text of one is" % INPUT_BYTES)
    return data


def read_case(path):
    """The bytes of a case; Misuse, with words to stand after its name, otherwise."""
    data = read_bytes(path)
    if is_named(path, ".case"):
        return data
    try:
        return casetext.encode(traces.text_of(data) if is_named(path, ".csv") else data.decode("utf-8"))
    except UnicodeDecodeError as error:
        raise Misuse(not_utf8(error)) from None
    except casetext.Mistake as mistake:
        raise Misuse("is no text of a case: " + shortened(str(mistake))) from None
    except (ValueError, RecursionError):
        raise Misuse("is no text of a case: a number in it is too long, or it is nested too deeply") from None


def shortened(text):
    """A text of any length and letters as far as it is shown."""
    shown = escaped(text[:SHOWN_MISTAKE + 1].encode("utf-8", "backslashreplace"))
    return shown[:SHOWN_MISTAKE] + (".." if len(shown) > SHOWN_MISTAKE else "")
