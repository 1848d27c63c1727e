"""Tests of edits.txt: what is read of it, and where a malformed one is refused."""
from __future__ import annotations

import shutil
import subprocess
from pathlib import Path

import pytest
from wrong_bodies.form import Fault, read

TOOLS = Path(__file__).resolve().parent.parent
SOURCE = "fn add(a: u8, b: u8) -> u8 {\n    let sum = a + b;\n    sum\n}\n"
MUST_FAIL = "file: src/lib.rt\nold: a + b\nnew: a - b\n"
WELL = """# A comment.

adds_nothing: src/lib.rt
    old:     let sum = a + b;
    old:     sum
    new:     a
    twin:     let all = a + b;
    # Another one.
    twin:
    twin:     all

subtracts: src/lib.rt
    old: a + b
    twin: b + a

forgets_the_sum: src/lib.rt
    old: fn add
    new: fn plus
    old: let sum = a + b;
    new:
"""


@pytest.fixture
def crate(tmp_path: Path) -> Path:
    """A crate with one function and one must-fail edit, in a repository with these tools."""
    folder = tmp_path / "crates/bs_sum"
    for part in ("src", "must-fail"):
        (folder / part).mkdir(parents=True)
    (folder / "src/lib.rt").write_text(SOURCE)
    (folder / "must-fail/subtracts.edit").write_text(MUST_FAIL)
    (tmp_path / "crates.txt").write_text("bs_sum:\n")
    shutil.copytree(TOOLS, tmp_path / "tools")
    return folder


def wrong(crate: Path, command: str) -> tuple[int, str]:
    """The status and the last line of tools/wrong in the crate's repository."""
    ran = subprocess.run(
        [crate.parent.parent / "tools/wrong", command], capture_output=True, text=True
    )
    assert not ran.stderr
    return ran.returncode, ran.stdout.splitlines()[-1]


def test_reads_texts_of_several_lines_and_twins(crate: Path) -> None:
    (crate / "edits.txt").write_text(WELL)
    kits, several, two = read(crate)
    assert (kits.name, kits.pairs, kits.twin) == (
        "subtracts",
        [("a + b", "a - b")],
        [("a + b", "b + a")],
    )
    old = "    let sum = a + b;\n    sum"
    assert several.pairs == [(old, "    a")]
    assert several.twin == [(old, "    let all = a + b;\n\n    all")]
    assert two.pairs == [("fn add", "fn plus"), ("let sum = a + b;", "")]
    assert [it.is_must_fail for it in (kits, several, two)] == [True, False, False]
    assert several.edited(several.pairs) == "fn add(a: u8, b: u8) -> u8 {\n    a\n}\n"
    assert wrong(crate, "dry-run") == (
        0,
        "2 edits and 2 twins can be applied, and 1 edits of must-fail/",
    )


@pytest.mark.parametrize(
    "text, line",
    [
        ("adds: src/lib.rt\n    old: a\n    nwe: b\n", 3),
        ("adds: src/lib.rt\n    old: a\n  new: b\n", 3),
        ("adds: src/lib.rt\n    old: a\nnew: b\n", 3),
        ("\nadds: src/lib.rt\n    old: a\n\n    new: b\n", 2),
        ("adds src/lib.rt\n    old: a\n    new: b\n", 1),
        ("adds: README.md\n    old: a\n    new: b\n", 1),
        ("# One.\n\nadds: src/lib.rt\n", 3),
        ("adds: src/lib.rt\n    old: a\n", 1),
        ("adds: src/lib.rt\n    new: b\n    old: a\n", 1),
        ("adds: src/lib.rt\n    old: a\n    twin: b\n    new: c\n", 1),
        ("adds: src/lib.rt\n    old: a\n    new: b\n    old: c\n    twin: d\n", 1),
        ("adds: src/lib.rt\n    old:\n    new: b\n", 1),
        ("adds: src/lib.rt\n    old: a\n    new: b\n\n" * 2, 5),
        ("adds: src/lib.rt\n    old: a\n    twin: b\n", 1),
        ("subtracts: src/lib.rt\n    old: a\n    new: b\n", 1),
        ("subtracts: src/lib.rt\n    old: a\n    twin: b\n", 1),
        ("subtracts: src/other.rt\n    old: a + b\n    twin: b\n", 1),
    ],
)
def test_refuses_a_malformed_file_by_its_line(crate: Path, text: str, line: int) -> None:
    (crate / "edits.txt").write_text(text)
    with pytest.raises(Fault) as fault:
        read(crate)
    assert str(fault.value).startswith(f"{crate}/edits.txt:{line}: ")


@pytest.mark.parametrize("old, count", [("a * b", 0), ("a", 3)])
def test_refuses_an_edit_that_cannot_be_applied(crate: Path, old: str, count: int) -> None:
    (crate / "edits.txt").write_text(f"\nadds: src/lib.rt\n    old: {old}\n    new: b\n")
    said = f"crates/bs_sum/edits.txt:2: 'old: {old}' occurs {count} times, not once"
    for command in ("dry-run", "missing", "together"):
        assert wrong(crate, command) == (2, said)


def test_refuses_a_malformed_must_fail_edit(crate: Path) -> None:
    (crate / "must-fail/subtracts.edit").write_text(MUST_FAIL + "twin: b + a\n")
    status, line = wrong(crate, "dry-run")
    assert status == 2 and line.startswith("crates/bs_sum/must-fail/subtracts.edit:1: ")


def test_finds_an_edit_without_a_twin(crate: Path) -> None:
    (crate / "edits.txt").write_text(WELL.replace("fn plus", " fn add"))
    (crate / "proofs/add").mkdir(parents=True)
    (crate / "proofs/add/Answers.antt").write_text("")
    assert wrong(crate, "missing") == (1, "1 of 3 edits want a twin")


def test_lists_the_edits_of_a_function(crate: Path) -> None:
    (crate / "edits.txt").write_text(WELL)
    status, line = wrong(crate, "list")
    where = "crates/bs_sum/must-fail/subtracts.edit:1"
    assert (status, line) == (0, f"bs_sum/src/lib.rt add: subtracts (with a twin), {where}")
