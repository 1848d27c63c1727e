"""Tests of tools/fault_sites: which lines it lists, and which changes it sees."""
from __future__ import annotations

import shutil
import subprocess
from pathlib import Path

import pytest

TOOLS = Path(__file__).resolve().parent.parent
SOURCE = """//! A reader that says `Fault::Memory`.
use crate::fault::Fault;
use std::alloc::AllocError;

/// Why a read ends.
pub enum Fault {
    Memory,
    Short(usize),
    Lost,
}

impl From<AllocError> for Fault {
    fn from(_error: AllocError) -> Self {
        Fault::Memory
    }
}

/// Reads, and may say `Fault::Lost`.
pub fn read(text: &str) -> Result<usize, Fault>
    ensures { OnErr result (result.err ≡ Fault::Lost) }
{
    let room = reserve(text.len())?;
    if room < text.len() {
        return Err(Fault::Short(room)); // no Fault::Lost
    }
    if !text.is_ascii() {
        return Err(Fault::Lost);
    }
    Ok(room)
}

fn reserve(room: usize) -> Result<usize, AllocError> {
    match room.checked_add(1) {
        Some(more) => Ok(more),
        None => Err(AllocError),
    }
}

fn is_lost(read: &Result<usize, Fault>) -> bool {
    match read {
        Err(Fault::Lost) => true,
        _ => false,
    }
}
"""
LISTED = [
    "arena/main.rt, from: Fault::Memory",
    "arena/main.rt, read: return Err(Fault::Lost);",
    "arena/main.rt, reserve: None => Err(AllocError),",
]
NEW = "not in tools/fault_sites.txt: arena/main.rt, "
GONE = "no longer there: arena/main.rt, "
# Changes of the source, and what is said of them.
SEEN = [
    ("    Ok(room)\n", "    Err(Fault::Lost)\n", [NEW + "read: Err(Fault::Lost)"]),
    ("    Ok(room)\n", "    Err(AllocError.into())\n", [NEW + "read: Err(AllocError.into())"]),
    ("    Ok(room)\n", "    rt.lock.wait(rt);\n    Ok(room)\n", [NEW + "read: rt.lock.wait(rt);"]),
    ("    Ok(room)\n", "    for _ in rt.forever() {}\n", [NEW + "read: for _ in rt.forever() {}"]),
    (
        "    Ok(room)\n",
        "    let held = state.lock(rt);\n",
        [NEW + "read: let held = state.lock(rt);"],
    ),
    (
        "Some(more) => Ok(more)",
        "Some(_) => Err(AllocError)",
        [NEW + "reserve: Some(_) => Err(AllocError),"],
    ),
    (
        "        return Err(Fault::Lost);",
        "        return Ok(0);",
        [GONE + "read: return Err(Fault::Lost);"],
    ),
    (
        "Err(Fault::Lost) => true",
        "Err(Fault::Lost) => Fault::Lost",
        [NEW + "is_lost: Err(Fault::Lost) => Fault::Lost,"],
    ),
    (
        "fn reserve(",
        "fn kept(",
        [NEW + "kept: None => Err(AllocError),", GONE + "reserve: None => Err(AllocError),"],
    ),
    (
        "    Lost,\n}",
        "    Lost,\n    Tired,\n}\n\nfn tire() -> Fault {\n    Fault::Tired\n}",
        [NEW + "tire: Fault::Tired"],
    ),
]
# Changes that make no fault.
UNSEEN = [
    ("    Ok(room)\n", "    Ok(read(text)?)\n"),
    ("    Ok(room)\n", "    // Fault::Lost, or AllocError\n    Ok(room)\n"),
    ("    Ok(room)\n", "    if let Err(Fault::Lost) = read(text) {}\n    Ok(room)\n"),
    (
        "{ OnErr result (result.err ≡ Fault::Lost) }",
        "{ OnErr result (result.err ≡ Fault::Memory) }",
    ),
    ("Fault::Short(room)", "Fault::Short(room - 1)"),
]


@pytest.fixture
def source(tmp_path: Path) -> Path:
    """The source of a program of one crate, whose places are listed."""
    file = tmp_path / "crates/arena/src/main.rt"
    file.parent.mkdir(parents=True)
    file.write_text(SOURCE)
    (tmp_path / "crates.txt").write_text("arena: clap\n")
    shutil.copytree(TOOLS, tmp_path / "tools")
    assert fault_sites(file, "--update") == (0, [])
    return file


def fault_sites(source: Path, *words: str) -> tuple[int, list[str]]:
    """The status of the tool in the source's repository, and its lines."""
    tool = source.parents[3] / "tools/fault_sites"
    ran = subprocess.run([tool, *words], capture_output=True, text=True)
    assert not ran.stderr
    return ran.returncode, ran.stdout.splitlines()


def test_lists_faults_that_are_made(source: Path) -> None:
    assert (source.parents[3] / "tools/fault_sites.txt").read_text().splitlines() == LISTED
    assert fault_sites(source) == (0, ["3 places that make a fault or wait"])


@pytest.mark.parametrize("old, new, said", SEEN)
def test_sees_a_change(source: Path, old: str, new: str, said: list[str]) -> None:
    assert SOURCE.count(old) == 1
    source.write_text(SOURCE.replace(old, new))
    status, lines = fault_sites(source)
    assert (status, lines[:-1]) == (1, said)


@pytest.mark.parametrize("old, new", UNSEEN)
def test_passes_what_makes_no_fault(source: Path, old: str, new: str) -> None:
    assert SOURCE.count(old) == 1
    source.write_text(SOURCE.replace(old, new))
    assert fault_sites(source) == (0, ["3 places that make a fault or wait"])
