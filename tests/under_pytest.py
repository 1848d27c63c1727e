#!/usr/bin/env python3
"""Runs the tests of a folder or of a module under pytest, by Debian's Python.

    tests/under_pytest.py PATH [OPTION VALUE..] [-m MARKS] [TEST..] [flag of pytest..]

PATH is relative to the root of the repository, and an OPTION one of a conftest.py there. A TEST is
a part of the name of a test or of its file, or a class with a test, such as Stays.test_names; all
run if none is given. pytest and jsonschema are installed from Debian's packages if they are
missing. The status is pytest's, or 1 if they can't be installed, after a line that says so.
"""
import os
import subprocess
import sys
from argparse import ArgumentParser

import debian
from program import ROOT

LIBRARIES = ("pytest", "jsonschema")
# The options of tests, each with a value.
OPTIONS = ("program", "files", "games", "seed", "jobs", "library", "pictures")


def words_of_pytest(words):
    """The words of a command line, with its names of tests as pytest chooses them."""
    parser = ArgumentParser(add_help=False, allow_abbrev=False)
    parser.add_argument("-m", dest="marks")
    for option in OPTIONS:
        parser.add_argument(f"--{option}")
    given, others = parser.parse_known_args(words)
    names = [word for word in others if not word.startswith("-")]
    chosen = " or ".join(f"({name.replace('.', ' and ')})" for name in names)
    values = {f"--{option}": getattr(given, option) for option in OPTIONS}
    values |= {"-m": given.marks, "-k": chosen or None}
    flags = [word for word in others if word.startswith("-")]
    return [*flags, *(it for pair in values.items() if pair[1] is not None for it in pair)]


def run(path, words, about=__doc__, more=()):
    """Runs the tests below a path, and of `more` modules, with the words of a command line; `about`
    is its help."""
    if {"-h", "--help"} & set(words):
        print(about.strip())
        return 0
    for library in LIBRARIES:
        if reason := debian.install_library(library, f"python3-{library}"):
            print(f"{path}: not tested: {reason}", file=sys.stderr)
            return 1
    command = [debian.PYTHON, "-m", "pytest", "-q", "-l", "-c", ROOT / "pyproject.toml"]
    command += ["--rootdir", ROOT, ROOT / path, *(ROOT / it for it in more)]
    command += words_of_pytest(words)
    environment = {**os.environ, "PYTHONDONTWRITEBYTECODE": "1"}
    return subprocess.run(command, env=environment).returncode


if __name__ == "__main__":
    sys.exit(run(sys.argv[1], sys.argv[2:]))
