"""Observers of a run: its progress, its page, and the keeper of its host."""

from __future__ import annotations

from collections.abc import Mapping, Sequence

from arena_client import Board
from arena_ladder.game.outcome import Outcome
from arena_ladder.game.pairing import Fixture
from arena_ladder.net.bots import Answer, Look


class Watch:
    """An observer of a run. Each method does nothing unless it is overridden."""

    def begin(self, done: int, fixtures: int) -> None:
        """Called first: `done` of `fixtures` games are done already."""

    def enter(self, fixture: Fixture, looks: Mapping[str, Look]) -> None:
        """Called when a game begins or goes on, with the looks of its bots."""

    def show(self, fixture: Fixture, board: Board) -> None:
        """Called with the first board of a game, and with the board after each turn."""

    def count(self, answers: Mapping[str, Answer], own_seconds: float | None) -> None:
        """Called with the answers of a turn, and the time from the last answers to its requests.

        The time is None in the first turn that this run plays of a game.
        """

    def answered(self, game: str, turn: int, answers: Mapping[str, Answer]) -> None:
        """Called with the answers to the requests of a game after a turn."""

    def notified(self, game: str, what: str, turn: int, answers: Mapping[str, Answer]) -> None:
        """Called with the answers to `start` or `end`."""

    def end(self, outcome: Outcome) -> None:
        """Called with the result of a game after it was stored."""

    def leave(self, bot: str) -> None:
        """Called when a bot has left the ladder and its last result is stored."""

    def say(self, text: str) -> None:
        """Called with a message for the person who runs the ladder."""


class Watches(Watch):
    """Passes each event to several observers."""

    def __init__(self, watches: Sequence[Watch]) -> None:
        self.watches = watches

    def begin(self, done: int, fixtures: int) -> None:
        for watch in self.watches:
            watch.begin(done, fixtures)

    def enter(self, fixture: Fixture, looks: Mapping[str, Look]) -> None:
        for watch in self.watches:
            watch.enter(fixture, looks)

    def show(self, fixture: Fixture, board: Board) -> None:
        for watch in self.watches:
            watch.show(fixture, board)

    def count(self, answers: Mapping[str, Answer], own_seconds: float | None) -> None:
        for watch in self.watches:
            watch.count(answers, own_seconds)

    def answered(self, game: str, turn: int, answers: Mapping[str, Answer]) -> None:
        for watch in self.watches:
            watch.answered(game, turn, answers)

    def notified(self, game: str, what: str, turn: int, answers: Mapping[str, Answer]) -> None:
        for watch in self.watches:
            watch.notified(game, what, turn, answers)

    def end(self, outcome: Outcome) -> None:
        for watch in self.watches:
            watch.end(outcome)

    def leave(self, bot: str) -> None:
        for watch in self.watches:
            watch.leave(bot)

    def say(self, text: str) -> None:
        for watch in self.watches:
            watch.say(text)
