"""Tests of tools/loops: which loops it finds, and which of them it refuses."""
from __future__ import annotations

import shutil
import subprocess
from pathlib import Path

import pytest

TOOLS = Path(__file__).resolve().parent.parent
LIVE = "fn serve() {\n    for _ in 0..u64::MAX {\n        read();\n    }\n}\n"
FINE = """//! Sums. A comment may say: for _ in 0..u64::MAX {
const SHORT: usize = 1 << 24;

impl<T: Clone> Clone for Sums<T> {
    fn sum(&self, numbers: &[u64]) -> u64 {
        let mut sum = 0u64;
        for number in numbers {
            sum += number;
        }
        for _ in 0..SHORT {
            sum += 1;
        }
        'left: while sum < 16_777_216 {
            sum += 1;
        }
        print("for _ in rt.forever() {");
        sum
    }
}
"""


@pytest.fixture
def root(tmp_path: Path) -> Path:
    """A repository of a program with one library, and these tools."""
    for crate in ("arena", "bs_host", "bs_other"):
        (tmp_path / f"crates/{crate}/src").mkdir(parents=True)
    (tmp_path / "crates/bs_host/src/live.rt").write_text(LIVE)
    (tmp_path / "crates/arena/src/main.rt").write_text(FINE)
    (tmp_path / "crates/bs_other/src/lib.rt").write_text(LIVE)  # is no part of the program
    (tmp_path / "crates.txt").write_text(
        "# A comment: of it.\nbs_host:\nbs_other:\narena: bs_host\n"
    )
    shutil.copytree(TOOLS, tmp_path / "tools")
    return tmp_path


def loops(root: Path, *words: str) -> tuple[int, list[str]]:
    """The status and the lines of tools/loops in that repository."""
    ran = subprocess.run([root / "tools/loops", *words], capture_output=True, text=True)
    assert not ran.stderr
    return ran.returncode, ran.stdout.splitlines()


def test_loops_with_a_bound(root: Path) -> None:
    status, lines = loops(root, "--list")
    assert (status, lines[-1]) == (0, "4 loops, 1 allowed, 0 refused")
    assert lines[0] == "crates/arena/src/main.rt:7: for number in numbers"
    assert lines[1] == "crates/arena/src/main.rt:10: for _ in 0..SHORT"
    assert lines[2] == "crates/arena/src/main.rt:13: while sum < 16_777_216"


@pytest.mark.parametrize(
    "head",
    [
        "for _ in 0..u64::MAX",
        "for _ in 1..=usize::MAX - 1",
        "for _ in rt.forever()",
        "loop",
        "'words: loop",
        "for _ in 0..20_000_000",
        "for turn in 0..LONG",
        "while turn < LONG",
        "for _ in (0..LONG).rev()",
        "for turn in (0..).step_by(2)",
        "for word in words.iter().cycle()",
    ],
)
def test_loops_without_a_bound(root: Path, head: str) -> None:
    loop = f"    {head} {{\n        go();\n    }}\n"
    text = f"const LONG: u64 = (1 << 24) + 1;\nfn count() {{\n{loop}}}\n"
    (root / "crates/bs_host/src/count.rt").write_text(text)
    status, lines = loops(root)
    assert (status, lines[-1]) == (1, "5 loops, 1 allowed, 1 refused")
    assert lines[0].startswith(f"crates/bs_host/src/count.rt:3: {head} -- ")


def test_a_range_outside_of_a_loop(root: Path) -> None:
    text = "fn count() {\n    (0..u64::MAX).for_each(|_| go());\n}\n"
    (root / "crates/bs_host/src/count.rt").write_text(text)
    assert loops(root)[0] == 1


def test_a_measure_that_is_too_large(root: Path) -> None:
    folder = root / "crates/bs_host/proofs/count"
    folder.mkdir(parents=True)
    text = "abbrev pub decreases-left : goal.decreases-left\ndecreases-left l = 2 ^ 64 - l.turn\n"
    (folder / "Invariants.antt").write_text(text)
    status, lines = loops(root)
    assert (status, lines[-1]) == (1, "5 loops, 1 allowed, 1 refused")
    (folder / "Invariants.antt").write_text(text.replace("64", "24"))
    assert loops(root)[0] == 0


def test_a_loop_with_a_measure(root: Path) -> None:
    folder = root / "crates/bs_host/proofs/count"
    folder.mkdir(parents=True)
    proof = "abbrev pub decreases-words : goal.decreases-words\ndecreases-words l = l.words\n"
    (folder / "Invariants.antt").write_text(proof)
    source = root / "crates/bs_host/src/count.rt"
    source.write_text("fn count() {\n    'words: loop {\n        go();\n    }\n}\n")
    assert loops(root)[0] == 0
    source.write_text("fn count() {\n    'letters: loop {\n        go();\n    }\n}\n")
    status, lines = loops(root)
    assert (status, lines[0].endswith("'letters: loop -- has no measure")) == (1, True)


def test_an_allowed_loop_that_is_gone(root: Path) -> None:
    (root / "crates/bs_host/src/live.rt").write_text("fn serve() {}\n")
    status, lines = loops(root)
    assert (status, lines[0].endswith("is allowed, and is not there")) == (1, True)
