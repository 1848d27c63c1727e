"""What the page is sent: the boards of a run, the games that ended, its progress, and colours."""

from __future__ import annotations

import time
from collections import Counter
from collections.abc import Mapping
from typing import Any

from arena_client import Board
from arena_ladder.game.outcome import Outcome, SeatResult
from arena_ladder.game.pairing import Fixture
from arena_ladder.game.watch import Watch
from arena_ladder.net.bots import Answer, Look
from arena_ladder.texts import counted

MOST_BOARDS = 16  # in a message
MOST_ENDED = 64  # games whose last board is kept for the page
WAIT_SECONDS = 5.0  # after which the time spent waiting is counted anew


class Waits:
    """For which bots games wait: the last answer of a turn is the one that was waited for."""

    def __init__(self) -> None:
        self.began = time.monotonic()
        self.now: Counter[str] = Counter()
        self.before: Counter[str] = Counter()

    def count(self, answers: Mapping[str, Answer]) -> None:
        if time.monotonic() - self.began > WAIT_SECONDS:
            self.began, self.before, self.now = time.monotonic(), self.now, Counter()
        last = max(answers, key=lambda bot: answers[bot].latency)
        self.now[last] += answers[last].latency

    def line(self) -> str:
        """The bot that was waited for most in the last seconds, with its share of the waiting."""
        waited = self.now + self.before
        if waited.total() == 0:
            return ""
        ((bot, most),) = waited.most_common(1)
        return f"waits most for {bot}, {100 * most / waited.total():.0f} % of the time"


class News(Watch):
    """Collects what has happened since the last message to the page."""

    def __init__(self) -> None:
        self.began = time.monotonic()
        self.done = self.fixtures = self.played = 0
        self.waits = Waits()
        self.boards: dict[str, Board] = {}
        self.changed: dict[str, None] = {}  # names of games, those that changed first before others
        self.ended: dict[str, list[str]] = {}  # the winners of games, oldest first
        self.colours: dict[str, str] = {}  # those that bots chose

    def begin(self, done: int, fixtures: int) -> None:
        self.done, self.fixtures = done, fixtures

    def enter(self, fixture: Fixture, looks: Mapping[str, Look]) -> None:
        usual = Look().color
        self.colours.update((bot, it.color) for bot, it in looks.items() if it.color != usual)

    def show(self, fixture: Fixture, board: Board) -> None:
        self.boards[fixture.name] = board
        self.changed[fixture.name] = None

    def count(self, answers: Mapping[str, Answer], own_seconds: float | None) -> None:
        self.waits.count(answers)

    def end(self, outcome: Outcome) -> None:
        self.done += 1
        self.played += 1
        self.ended[outcome.name] = [
            it.bot for it in outcome.finishes if it.result is SeatResult.WIN
        ]
        if len(self.ended) > MOST_ENDED:
            self.forget(next(iter(self.ended)))

    def forget(self, name: str) -> None:
        """Forgets a game that has ended."""
        del self.ended[name]
        self.boards.pop(name, None)
        self.changed.pop(name, None)

    def begin_anew(self) -> None:
        """Prepares the messages for another process, which first gets all boards."""
        self.changed = dict.fromkeys(self.boards)

    def games(self) -> str:
        """The games that are done, and of how many."""
        if self.fixtures and self.done <= self.fixtures:
            return f"{self.done:,} of {counted(self.fixtures, 'game', ',')}"
        return counted(self.done, "game", ",")

    def left(self) -> str:
        """The time that the other games take, or the games an hour of a ladder without an end."""
        took = time.monotonic() - self.began
        if not self.played:
            return ""
        if not self.fixtures:
            return f"{3600 * self.played / took:,.0f} an hour"
        return f"{duration((self.fixtures - self.done) * took / self.played)} left"

    def message(self) -> dict[str, Any]:
        """What has changed: some boards, those of ended games first, and the games that ended.

        A game is running for the page until its last board was sent.
        """
        names = sorted(self.changed, key=lambda name: name not in self.ended)[:MOST_BOARDS]
        boards = {name: self.boards[name] for name in names}
        for name in names:
            del self.changed[name]
        ended = {name: it for name, it in self.ended.items() if name not in self.changed}
        running = [name for name in self.boards if name not in ended]
        for name in ended:
            self.forget(name)
        return {
            "games": self.games(),
            "left": self.left(),
            "waits": self.waits.line(),
            "boards": boards,
            "running": running,
            "ended": ended,
            "colours": self.colours,
        }


def duration(seconds: float) -> str:
    """A time in the unit that fits it."""
    for unit, size in (("days", 86_400), ("hours", 3600), ("minutes", 60)):
        if seconds >= 2 * size:
            return f"{seconds / size:.0f} {unit}"
    return f"{seconds:.0f} seconds"
