"""The answers of finished games: those of the last games are kept, compressed, beside the folder.

They have what the command file of a game has not: latencies, shouts, looks and missed moves, turn
by turn. No result depends on them, so that old ones can go.
"""

from __future__ import annotations

import gzip
import json
import os
from collections import deque
from dataclasses import dataclass
from pathlib import Path
from typing import Any

from arena_ladder.game.game_files import answers_file, forget_answers
from arena_ladder.net.bots import Look
from arena_ladder.texts import printable

MOST_GAMES = 10_000  # whose answers are kept
MOST_BYTES = 16 * 1024 * 1024  # of a game's answers that are read


@dataclass(frozen=True)
class Heard:
    """What a bot answered to a request: a direction or the cause of a missed move, and the rest.

    `look` is None where it is that of the turn before.
    """

    move: str | None
    cause: str | None
    latency: int
    shout: str = ""
    look: Look | None = None

    def row(self) -> list[Any]:
        """The answer for the viewer: what came in how many milliseconds, and the shout."""
        return [self.move, self.cause, self.latency, printable(self.shout)]


def kept_file(folder: Path, game: str) -> Path:
    return folder / "answers" / f"{game}.jsonl.gz"


class KeptAnswers:
    """Keeps the answers of the games that ended last in a folder."""

    def __init__(self, folder: Path) -> None:
        self.folder = folder
        kept = [(path.stat().st_mtime, path.name) for path in (folder / "answers").glob("*.gz")]
        self.files = deque(name for _, name in sorted(kept))  # the oldest first

    def keep(self, game: str) -> None:
        """Keeps the answers of a game whose result is stored, and forgets the oldest ones."""
        path = kept_file(self.folder, game)
        source = answers_file(self.folder, game)
        if source.is_file():
            path.parent.mkdir(exist_ok=True)
            unfinished = path.with_suffix(".unfinished")
            unfinished.write_bytes(gzip.compress(source.read_bytes(), 6))
            os.replace(unfinished, path)
            self.files.append(path.name)
        forget_answers(self.folder, game)
        while len(self.files) > MOST_GAMES:
            (self.folder / "answers" / self.files.popleft()).unlink(missing_ok=True)


def heard_in(folder: Path, game: str) -> list[dict[str, Heard]] | None:
    """The answers of a finished game, turn by turn and bot by bot; None if they are not kept.

    They end before a line that can't be read.
    """
    try:
        with gzip.open(kept_file(folder, game)) as file:
            text = file.read(MOST_BYTES)
    except (OSError, EOFError):
        return None
    turns = []
    for line in text.splitlines():
        try:
            turns.append({bot: heard_of(row) for bot, row in json.loads(line).items()})
        except (ValueError, TypeError, AttributeError):
            break
    return turns


def rows_of_answers(folder: Path, game: str) -> list[dict[str, list[Any]]]:
    """The answers of a finished game for the viewer; none if they are not kept."""
    turns = heard_in(folder, game) or []
    return [{bot: it.row() for bot, it in turn.items()} for turn in turns]


def heard_of(row: list[Any]) -> Heard:
    """The answer in a row; raises TypeError for another list."""
    move, cause, latency, shout, *look = row
    return Heard(move, cause, latency, shout, Look(*look[0]) if look else None)
