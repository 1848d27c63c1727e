"""The cases: command files, each with its transcript and its purpose.

They are in examples/: NAME.jsonl, NAME.transcript, and a line in examples/README.md with the
purpose of NAME. One more case is where the gate expects the program's input and output:
crates/arena/stdin with crates/arena/stdout.
"""
from __future__ import annotations

import json
import re
from collections import Counter
from collections.abc import Iterator
from dataclasses import dataclass
from pathlib import Path

ROOT = Path(__file__).resolve().parent.parent
FOLDER = ROOT / "examples"
# Command lines that serve nothing.
COMMAND_LINES: list[list[str | bytes]] = [
    ["--help"],
    ["--version"],
    ["serve", "--help"],
    ["serve", "-", "--workers", "5"],
    ["play"],
    ["serve", "no such file"],
]
COMMAND_LINES += [
    ["alone", "-"],
    ["live", "-"],
    ["live", "--help"],
    ["serve", "-", "--blocks", "x"],
    ["alone", "-", "--game", "a", "--workers", "2"],
    ["serve", b"\xff"],
]
COMMAND_LINES += [["alone", "-", "--game", "a", "--stay", "0"]]
# The number of blocks of a case, if it is not the program's default.
BLOCKS = {"stays": 12}
USUAL_BLOCKS = 64
WITH_STAYS = (3, 5)  # versions of the format in which games can come and go
PURPOSE = re.compile(r"^- `([a-z0-9_./]+)`: (\S.*)$")
SHOWS = 600  # the number of `show` lines of the file with a long transcript
TURNS = 2_000  # the number of `turn` lines of each game of the long file, which has 130 kB


@dataclass(frozen=True)
class Case:
    name: str
    file: Path
    transcript: Path

    @property
    def blocks(self) -> int:
        """The number of blocks for the transcript, which depends on it where games come and go."""
        return BLOCKS.get(self.name, USUAL_BLOCKS)

    @property
    def version(self) -> int:
        """The version of the format."""
        return int(json.loads(self.file.read_text().splitlines()[0]).get("version", 1))

    @property
    def has_stays(self) -> bool:
        """Whether games can come and go."""
        return self.version in WITH_STAYS

    def words(self, workers: int) -> list[str]:
        """The command line that serves the case."""
        return ["serve", str(self.file), "--workers", str(workers), "--blocks", str(self.blocks)]

    @property
    def live_words(self) -> list[str]:
        """The command line of `arena live` for the case."""
        return ["live", "--blocks", str(self.blocks)]


@dataclass(frozen=True)
class Alone:
    """One stay of a case: the command line that plays it alone, and its output."""

    words: list[str]
    section: bytes


def cases() -> list[Case]:
    """All cases, sorted by name."""
    found = [
        Case(file.stem, file, file.with_suffix(".transcript")) for file in FOLDER.glob("*.jsonl")
    ]
    arena = ROOT / "crates/arena"
    return sorted(
        [*found, Case("crates/arena/stdin", arena / "stdin", arena / "stdout")],
        key=lambda case: case.name,
    )


def purposes() -> dict[str, str]:
    """The purpose of each case, from the section Cases of examples/README.md."""
    part = (FOLDER / "README.md").read_text().split("\n## Cases\n")[1].split("\n## ")[0]
    lines = [PURPOSE.match(line) for line in part.splitlines() if line.startswith("- ")]
    return {line[1]: line[2] for line in lines if line}


def sections(transcript: bytes) -> list[tuple[str, bytes]]:
    """The sections of a transcript: pairs of a game's name and the lines of one stay."""
    found: list[tuple[str, bytes]] = []
    open_section = b""
    for line in transcript.splitlines(True):
        reply = json.loads(line)
        open_section += line
        if "final" in reply:
            found.append((reply["game"], open_section))
            open_section = b""
    return found


def lines_by_game(text: bytes) -> tuple[dict[str, list[list[bytes]]], list[bytes]]:
    """The lines of each game by its name, stay after stay, and the stray lines. The result is the
    same for a transcript and for the output of `arena live` for the file."""
    found: dict[str, list[list[bytes]]] = {}
    strays: list[bytes] = []
    for line in text.splitlines(True):
        reply = json.loads(line)
        if "line" in reply:
            strays.append(line)
            continue
        stays_of_game = found.setdefault(reply["game"], [[]])
        stays_of_game[-1].append(line)
        if "final" in reply:
            stays_of_game.append([])
    return found, strays


def stays(case: Case) -> Iterator[Alone]:
    """Each stay of a case, played alone."""
    counts: Counter[str] = Counter()
    for name, section in sections(case.transcript.read_bytes()):
        counts[name] += 1
        words = [
            "alone",
            str(case.file),
            "--game",
            name,
            "--stay",
            str(counts[name]),
            "--blocks",
            str(case.blocks),
        ]
        yield Alone(words, section)


def played_alone(case: Case) -> list[Alone]:
    """The stays that a slow test plays alone: the first, or all if games can come and go."""
    all_stays = list(stays(case))
    return all_stays if case.has_stays else all_stays[:1]


def many_shows(folder: Path) -> Path:
    """Makes a file whose transcript is written in several pieces, by several threads if there are
    several workers."""
    at = Path(folder) / "shows.jsonl"
    plan = '{"games":[{"game":"a","quota":16384}]}'
    first = '{"game":"a","do":"new","mode":"solo","width":25,"height":25,'
    first += '"snakes":[{"id":"s","x":1,"y":1}],"food":[{"x":3,"y":4}]}'
    at.write_text("\n".join([plan, first, *SHOWS * ['{"game":"a","do":"show"}'], ""]))
    return at


def many_turns(folder: Path) -> Path:
    """Makes a file of two games whose lines are parsed in several chunks, by several threads if
    there are several workers."""
    at = Path(folder) / "turns.jsonl"
    plan = '{"games":[{"game":"a","quota":4096},{"game":"b","quota":4096}]}'
    turns = [f'{{"game":"{game}","do":"turn","at":{at}}}' for at in range(TURNS) for game in "ab"]
    at.write_text("\n".join([plan, *turns, ""]))
    return at
