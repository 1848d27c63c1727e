"""Tests of merge.py: parts that are missing or broken, and standings of the parts."""
import subprocess
from dataclasses import dataclass
from pathlib import Path

import pytest
import standings
from program import ROOT
from served_parts import split_and_served


@dataclass(frozen=True)
class Parts:
    """Two served parts of a command file, and the transcript of the whole."""

    whole: bytes
    folder: Path

    @property
    def first(self):
        return self.folder / "0001.transcript"

    @property
    def second(self):
        return self.folder / "0002.transcript"


@pytest.fixture
def parts(tmp_path):
    plan = (ROOT / "examples/two_games_interleaved.jsonl").read_bytes()
    whole, _ = split_and_served(plan, 1, tmp_path)
    return Parts(whole, tmp_path / "parts")


def refused(parts):
    ran = subprocess.run([ROOT / "examples/merge.py", parts.folder], capture_output=True, text=True)
    assert (ran.returncode, ran.stdout) == (1, "")
    return ran.stderr


def test_a_missing_transcript_is_reported(parts):
    parts.second.unlink()
    assert refused(parts) == "merge: 1 of 2 are missing: 0002.transcript\n"


def test_a_broken_transcript_is_reported(parts):
    text = parts.second.read_bytes()
    lines = text.splitlines(True)
    for broken, fault in [
        (b"", "it ends after line 0"),
        (text[:-1], "is not the one that comes next"),
        (text[:-9], "is no line of a transcript"),
        (b"".join(lines[:-1]), "it ends after line"),
        (b"".join(lines[1:]), "line 1 is not the one"),
        (text + lines[-1], "is not the one"),
        (parts.first.read_bytes(), "line 1 is not the one"),
        (b"7\n", "line 1 is no line"),
    ]:
        parts.second.write_bytes(broken)
        assert fault in refused(parts)


def test_the_standings_of_the_parts_are_those_of_the_whole(parts):
    of_parts = standings.report(standings.lines_of([parts.first, parts.second]))
    assert of_parts == standings.report(parts.whole.decode().splitlines())
