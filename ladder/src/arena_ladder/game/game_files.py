"""The files of a game: its command file and, while it is played, the answers of its bots.

Each line is written by one call before anything depends on it. So a game that was interrupted at
any moment continues from its files: bytes after the last line feed were not sent, and are removed.
"""

from __future__ import annotations

import errno
import json
import os
from collections.abc import Mapping
from pathlib import Path
from typing import Any

from arena_client import PLAN
from arena_ladder.net.bots import Answer, Look
from arena_ladder.net.misses import Miss


class LineFile:
    """A file of whole lines that can be extended."""

    def __init__(self, path: Path) -> None:
        self.file = open(path, "a+b", buffering=0)
        self.file.seek(0)
        text = self.file.read()
        self.lines = text[: text.rfind(b"\n") + 1].splitlines(keepends=True)
        self.cut(len(self.lines))

    def cut(self, count: int) -> None:
        """Keeps the first `count` of the lines that the file had when it was opened."""
        del self.lines[count:]
        self.file.truncate(sum(map(len, self.lines)))

    def write(self, line: bytes) -> None:
        """Writes a line; raises OSError if it could not be written completely."""
        if self.file.write(line) != len(line):
            raise OSError(errno.ENOSPC, os.strerror(errno.ENOSPC), self.file.name)

    def close(self) -> None:
        self.file.close()


class GameFiles:
    """The files of one game in the folder of a ladder.

    `commands` is the command file, `old_lines` its lines when it was opened, without the plan, and
    `moves` the number of moves among them.
    `answers` has a line for each turn, written before the move of that turn. It has the look of a
    bot with its first answer after each opening.
    """

    def __init__(self, folder: Path, name: str, plan: bytes = PLAN) -> None:
        self.path = command_file(folder, name)
        self.commands = LineFile(self.path)
        self.answers = LineFile(answers_file(folder, name))
        if not self.commands.lines:
            self.commands.write(plan)
        self.old_lines = self.commands.lines[1:]
        self.moves = sum(b'"do":"move"' in line for line in self.old_lines)
        self.looks: dict[str, Look] = {}  # that were written
        self.answers.cut(self.moves)

    def __enter__(self) -> GameFiles:
        return self

    def __exit__(self, *_: object) -> None:
        self.commands.close()
        self.answers.close()

    def old_answers(self) -> list[dict[str, Answer]]:
        """The answers of the bots in the turns that the command file has.

        From a line on that can't be read they are lost, and removed.
        """
        turns = []
        for line in self.answers.lines:
            try:
                turns.append(answers_in(line))
            except (ValueError, TypeError, AttributeError):
                break
        self.answers.cut(len(turns))
        return turns

    def add_answers(self, answers: Mapping[str, Answer], looks: Mapping[str, Look]) -> None:
        rows: dict[str, list[Any]] = {
            name: [it.move, it.cause, it.latency, it.shout] for name, it in answers.items()
        }
        for name in rows.keys() - self.looks.keys():
            self.looks[name] = look = looks.get(name, Look())
            rows[name].append([look.color, look.head, look.tail])
        self.answers.write((json.dumps(rows, separators=(",", ":")) + "\n").encode())


def answers_in(line: bytes) -> dict[str, Answer]:
    """The answers in a line of a file; raises ValueError, TypeError or AttributeError if it is
    damaged."""
    rows: dict[str, list[Any]] = json.loads(line)
    return {name: answer_in(*row) for name, row in rows.items()}


def answer_in(
    move: str | None, cause: str | None, latency: int, shout: str = "", *_: Any
) -> Answer:
    return Answer(move, None if cause is None else Miss(cause), latency, shout)


def make_folders(folder: Path) -> None:
    for name in ("games", "running"):
        (folder / name).mkdir(parents=True, exist_ok=True)


def command_file(folder: Path, name: str) -> Path:
    return folder / "games" / f"{name}.jsonl"


def answers_file(folder: Path, name: str) -> Path:
    return folder / "running" / f"{name}.answers"


def forget_answers(folder: Path, name: str) -> None:
    """Removes the file of the answers of a game whose result is stored."""
    answers_file(folder, name).unlink(missing_ok=True)


def running_games(folder: Path) -> set[str]:
    """The names of the games for which a folder has a file of answers."""
    return {path.stem for path in (folder / "running").glob("*.answers")}
