"""The result of a game, for each of its seats."""

from __future__ import annotations

from collections import Counter
from collections.abc import Iterable
from dataclasses import dataclass, field
from enum import StrEnum

from arena_client import Board, Cause, Snake
from arena_ladder.game.payloads import living_of
from arena_ladder.net.bots import Answer
from arena_ladder.net.misses import Miss


@dataclass
class Tally:
    """Statistics of one bot in one game: the latencies, and the missed moves by cause."""

    latencies: Counter[int] = field(default_factory=Counter)  # by milliseconds
    missed: Counter[Miss] = field(default_factory=Counter)

    def add(self, answer: Answer) -> None:
        self.latencies[answer.latency] += 1
        if answer.cause is not None:
            self.missed[answer.cause] += 1


class SeatResult(StrEnum):
    """Whether a seat won its game. A game of one snake has no winner."""

    WIN = "win"
    DRAW = "draw"
    LOSS = "loss"
    NONE = ""


@dataclass(frozen=True)
class Finish:
    """How a game ended for a seat."""

    bot: str
    result: SeatResult
    out: int | None  # the turn in which its snake went out
    cause: Cause | None
    killer: str | None
    length: int
    turns: int  # in which its snake lived


@dataclass(frozen=True)
class Outcome:
    """The result of a game. `digest` is the SHA-256 of the lines that the host wrote for it."""

    name: str
    round: int
    turns: int
    lines: int
    digest: str
    finishes: tuple[Finish, ...]


def finishes_of(board: Board) -> tuple[Finish, ...]:
    """The result of each seat, from the last board of the game."""
    return tuple(finish_of(snake, board) for snake in board["snakes"])


def finish_of(snake: Snake, board: Board) -> Finish:
    return Finish(
        bot=snake["id"],
        result=result_of(snake, board),
        out=snake["out"],
        cause=snake["cause"],
        killer=snake["by"],
        length=len(snake["body"]),
        turns=board["turn"] if snake["out"] is None else snake["out"],
    )


def result_of(snake: Snake, board: Board) -> SeatResult:
    """A snake wins if it alone lives when the game is over.

    It draws if it lives in a game that is not over, or if no snake lives and it was among the last
    to go out.
    """
    living = living_of(board)
    if len(board["snakes"]) == 1:
        return SeatResult.NONE
    if snake["out"] is None:
        is_alone = board["over"] and len(living) == 1
        return SeatResult.WIN if is_alone else SeatResult.DRAW
    last = max(other["out"] or 0 for other in board["snakes"])
    is_among_last = not living and snake["out"] == last
    return SeatResult.DRAW if is_among_last else SeatResult.LOSS


def tallies_of(names: Iterable[str], turns: Iterable[dict[str, Answer]]) -> dict[str, Tally]:
    """The tally of each bot after these turns."""
    tallies = {name: Tally() for name in names}
    for answers in turns:
        for name, answer in answers.items():
            tallies[name].add(answer)
    return tallies
