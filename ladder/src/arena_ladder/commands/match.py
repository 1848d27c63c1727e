"""Plays one game of some bots in a folder of its own."""

from __future__ import annotations

import json
import re
from collections import Counter, defaultdict
from collections.abc import Mapping, Sequence
from pathlib import Path
from typing import Any
from urllib.parse import urlsplit

from arena_client import Board
from arena_ladder.game.config import BOT_NAME, Config, ConfigFault, config_of
from arena_ladder.game.outcome import Outcome
from arena_ladder.game.pairing import Fixture
from arena_ladder.game.watch import Watch
from arena_ladder.net.bots import Answer
from arena_ladder.net.misses import Miss
from arena_ladder.results.bot_log import Asked, asked_of
from arena_ladder.texts import counted

MATCHES = Path("out/matches")
MOST_MATCHES = 100_000


def bots_of_words(words: Sequence[str]) -> list[dict[str, str]]:
    """Parses bots, each `NAME=URL` or a URL, which is then named by the end of its path."""
    bots = [bot_of_word(word) for word in words]
    names = [bot["name"] for bot in bots]
    for at, bot in enumerate(bots):
        if names.index(bot["name"]) < at:
            raise ConfigFault(f"two bots are named {bot['name']}: write NAME=URL")
    return bots


def bot_of_word(word: str) -> dict[str, str]:
    name, sign, url = word.partition("=")
    if sign and BOT_NAME.fullmatch(name):
        return {"name": name, "url": url}
    parts = urlsplit(word)
    last = parts.path.rstrip("/").rpartition("/")[2] or parts.hostname or ""
    found = re.sub(r"[^A-Za-z0-9_.-]", "", last)[:32]
    if not BOT_NAME.fullmatch(found):
        raise ConfigFault(f"{word!r} is neither NAME=URL nor the address of a bot")
    return {"name": found, "url": word}


def new_folder() -> Path:
    """Makes a folder for a match, with a number that none has yet."""
    MATCHES.mkdir(parents=True, exist_ok=True)
    for number in range(1, MOST_MATCHES):
        folder = MATCHES / f"{number:04}"
        try:
            folder.mkdir()
        except FileExistsError:
            continue
        return folder
    raise ConfigFault(f"{MATCHES} is full")


def match_config(folder: Path, words: Sequence[str], members: dict[str, Any]) -> Config:
    """The ladder of one game. Members that are None have their usual values."""
    bots = bots_of_words(words)
    given = {key: value for key, value in members.items() if value is not None}
    table = {"folder": str(folder), "bot": bots, "snakes": len(bots), **given}
    return config_of(table, "match")


class Boards(Watch):
    """Keeps the boards of a game, its outcome, and what was missed."""

    def __init__(self) -> None:
        self.boards: list[Board] = []
        self.outcome: Outcome | None = None
        self.missed: defaultdict[str, Counter[Miss]] = defaultdict(Counter)
        self.last: dict[str, Asked] = {}  # of each bot, the last request without a move

    def show(self, fixture: Fixture, board: Board) -> None:
        self.boards.append(board)

    def answered(self, game: str, turn: int, answers: Mapping[str, Answer]) -> None:
        for bot, answer in answers.items():
            if answer.cause is not None:
                self.missed[bot][answer.cause] += 1
                self.last[bot] = asked_of(game, turn, answer)

    def end(self, outcome: Outcome) -> None:
        self.outcome = outcome

    def missed_lines(self) -> list[str]:
        """What each bot missed, by cause, with the last bad answer."""
        lines = []
        for bot, missed in self.missed.items():
            causes = ", ".join(f"{cause} {moves}" for cause, moves in missed.items())
            last = self.last[bot]
            answer = f", status {last.status}" if last.status else ""
            answer += f": {json.dumps(last.start)}" if last.start else ""
            moves = counted(missed.total(), "move")
            lines.append(f"{bot} missed {moves} ({causes}); the last in turn {last.turn}{answer}")
        return lines


def result_lines(outcome: Outcome) -> list[str]:
    """The result of a game, a line for each seat."""
    lines = [counted(outcome.turns, "turn")]
    for it in outcome.finishes:
        why = f" ({it.cause}{f' by {it.killer}' if it.killer else ''})" if it.cause else ""
        lived = counted(it.turns, "turn")
        lines.append(f"{it.bot}: {it.result or 'done'}, length {it.length}, {lived}{why}")
    return lines
