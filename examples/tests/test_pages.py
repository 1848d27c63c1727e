"""The pages: their commands, their links and their length.

Each program that a command names is there and has the options that are given to it. What needs
nothing but the built program runs as it stands. The programs of docs/SIMULATOR.md are run by
tests/library, those of the ladder's pages by ladder/tests/test_docs.py.
"""
import re
import shlex
import subprocess
import sys
from functools import cache
from pathlib import Path

import pytest
from page_commands import ROOT, blocks_of, copy_of_tree, run_page, section_of

PAGES = sorted(
    [ROOT / name for name in ("README.md", "CONTRIBUTING.md", "SECURITY.md", "CHANGELOG.md")]
    + [ROOT / "examples/README.md", ROOT / "viewer/README.md", *ROOT.glob("docs/*.md")]
)
OURS = re.compile(
    r"(\./arena|(benches|bindings|checker|examples|ladder|tests|tools|viewer|\.ci)/\S+)$"
)
WITH_COMMANDS = ("./arena", "ladder/ladder")
# Programs whose --help lists their options.
WITH_HELP = ["./arena", "ladder/ladder", "checker/arena-check", "examples/round_robin.py"]
WITH_HELP += ["examples/split.py", "examples/learn.py", "benches/measure.py", "benches/live.py"]
RUN = (
    ("docs/FIRST_FILE.md", "The tournament"),
    ("docs/FIRST_FILE.md", "One game alone"),
    ("examples/README.md", "On one machine: games that come and go"),
)
MOST_LINES = {"README.md": 80, "docs/BENCHMARKS.md": 130}


def commands_of(page):
    """The simple commands of a page, in words, without what follows a comment sign."""
    for block in blocks_of(page.read_text()):
        if not block.is_run(ROOT):
            continue
        text = re.sub(r"\\\\\n *", "", "\n".join(block.lines))
        for line in re.split(r"\n|&&|[|;&()]", re.sub(r"(^|\s)#.*", "", text, flags=re.M)):
            try:
                words = shlex.split(line)
            except ValueError:
                continue  # a text in quotes that holds such a sign
            yield from simple(words)


def simple(words):
    """A command, and those that it is given to run."""
    starts = [at for at, word in enumerate(words) if OURS.match(word) and is_file(word)]
    ends = [*starts[1:], len(words)]
    for start, end in zip(starts, ends):
        yield words[start:end]


def is_file(word):
    """Whether a word is a program of the repository."""
    path = ROOT / word
    return path.is_file() and path.stat().st_mode & 0o100 != 0


COMMANDS = [(page, words) for page in PAGES for words in commands_of(page)]


@cache
def help_of(program, command):
    """What a program prints for --help, of one of its commands if it has such."""
    start = [program] if ROOT / program != ROOT / "arena" else [built()]
    if is_python(program):
        start = [sys.executable, ROOT / program]
    words = [*start, *([command] if command else []), "--help"]
    return subprocess.run(words, cwd=ROOT, capture_output=True, text=True).stdout


def is_python(program):
    return b"python3" in (ROOT / program).open("rb").readline()


def built():
    """The program that the tests are given."""
    import program as runs

    return runs.path


def test_the_pages_have_commands():
    found = {words[0] for _, words in COMMANDS}
    assert {"./arena", "ladder/ladder", "ladder/bots/serve", "checker/arena-check"} <= found


def test_each_option_is_known():
    unknown = []
    for page, words in COMMANDS:
        program, rest = words[0], [word for word in words[1:] if word != "--unproved"]
        if program not in WITH_HELP:
            continue
        command = rest[0] if program in WITH_COMMANDS and rest and rest[0][0].isalpha() else ""
        for word in rest:
            option = word.split("=")[0]
            if re.match("--[a-z]", option) and option not in help_of(program, command):
                unknown.append(f"{page.name}: {' '.join(words)}: {option}")
    assert unknown == []


def test_each_program_of_a_command_is_there():
    gone = []
    for page in PAGES:
        for block in blocks_of(page.read_text()):
            word = block.lines[0].split()[0] if block.lines[0].split() else ""
            if OURS.match(word) and word[-1] not in ":}" and not (ROOT / word).exists():
                gone.append(f"{page.name}: {word}")
    assert gone == []


@pytest.fixture(scope="module")
def tree(program, tmp_path_factory):
    """A copy of the repository with the program that the tests are given."""
    copied = copy_of_tree(tmp_path_factory.mktemp("pages") / "tree", Path(program))
    (copied / "out").mkdir()
    return copied


@pytest.mark.parametrize("name, heading", RUN)
def test_commands_that_run_as_they_stand(tree, name, heading):
    run_page(section_of((tree / name).read_text(), heading), tree, 0)


def without_code(text):
    return re.sub(r"`[^`]*`", "``", re.sub(r"```.*?```", "", text, flags=re.S))


def anchors_of(page):
    """The anchors of a page's headings."""
    headings = re.findall(r"^#+ (.*)$", page.read_text(), re.M)
    return {re.sub(r"[^\w\- ]", "", it.lower()).replace(" ", "-") for it in headings}


def test_each_link_leads_somewhere():
    wrong = []
    for page in PAGES:
        for target in re.findall(r"\]\(([^)\s]+)\)", without_code(page.read_text())):
            file, _, anchor = target.partition("#")
            to = (page.parent / file).resolve() if file else page
            if re.match("[a-z]+:", target):
                continue
            if not to.exists() or anchor and anchor not in anchors_of(to):
                wrong.append(f"{page.name}: {target}")
    assert wrong == []


def test_pages_are_as_short_as_they_should_be():
    for name, most in MOST_LINES.items():
        assert len((ROOT / name).read_text().splitlines()) <= most, name


def test_the_page_of_figures_has_a_place_for_each_part_of_benches_all():
    (parts,) = re.findall(r"^PARTS = \{(.*)\}$", (ROOT / "benches/all").read_text(), re.M)
    page = (ROOT / "docs/BENCHMARKS.md").read_text()
    assert len(re.findall(r'"(\w+)":', parts)) == 4
    for part in re.findall(r'"(\w+)":', parts):
        first, last = f"<!-- benches/all: {part} -->\n", f"<!-- end of {part} -->\n"
        assert page.count(first) == page.count(last) == 1
        assert page.index(first) < page.index(last)
