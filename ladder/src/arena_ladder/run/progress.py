"""The progress of a run on a terminal, and its summary."""

from __future__ import annotations

import math
import sys
import time
from collections import Counter
from collections.abc import Iterable, Mapping

from rich.console import Console
from rich.progress import BarColumn, MofNCompleteColumn, Progress, TextColumn, TimeElapsedColumn

from arena_client import Board
from arena_ladder.game.outcome import Outcome
from arena_ladder.game.pairing import Fixture
from arena_ladder.game.watch import Watch
from arena_ladder.net.bots import Answer
from arena_ladder.net.misses import Miss
from arena_ladder.run.times import Times
from arena_ladder.texts import counted, printable

REFRESHES_A_SECOND = 4
ENOUGH_MOVES = 30  # for a median
MOST_OWN = 10_000  # tenths of a millisecond; longer times count as so long
MOST_MS = 60_000  # of an answer: the longest timeout
GROWTH, GROWTH_MS = (1.5, 10)  # a median that grows by more depends on the number of games


class Counts(Watch):
    """Counts the games, turns and moves of a run."""

    def __init__(self) -> None:
        self.began = time.monotonic()
        self.running: set[str] = set()
        self.done = self.fixtures = self.played = self.turns = self.moves = 0
        self.missed: Counter[Miss] = Counter()
        self.own = Times(MOST_OWN)  # of turns, in tenths of a millisecond
        self.lagged = 0  # turns in which the ladder itself was late
        self.strain = Strain()

    def begin(self, done: int, fixtures: int) -> None:
        self.done, self.fixtures = done, fixtures

    def show(self, fixture: Fixture, board: Board) -> None:
        if fixture.name not in self.running:
            self.running.add(fixture.name)
            self.strain.playing.update(fixture.bots)

    def count(self, answers: Mapping[str, Answer], own_seconds: float | None) -> None:
        self.turns += 1
        self.moves += len(answers)
        self.missed.update(it.cause for it in answers.values() if it.cause is not None)
        self.lagged += any(it.is_lagged for it in answers.values())
        self.strain.count(answers)
        if own_seconds is not None:
            self.own.add(max(0, math.ceil(own_seconds * 10_000)))

    def end(self, outcome: Outcome) -> None:
        self.running.discard(outcome.name)
        self.strain.end(it.bot for it in outcome.finishes)
        self.done += 1
        self.played += 1

    def leave(self, bot: str) -> None:
        self.strain.latencies.pop(bot, None)

    def rate(self) -> float:
        """The turns a second so far."""
        return self.turns / max(0.001, time.monotonic() - self.began)

    def line(self) -> str:
        """The progress so far, as a line."""
        return (
            f"{len(self.running)} running, {self.rate():.0f} turns a second, "
            f"{self.missed.total()} of {counted(self.moves, 'move')} missed"
        )

    def summary(self) -> list[str]:
        """The summary of the run: a line of the games, one of the moves, and warnings."""
        took = time.monotonic() - self.began
        is_part = 0 < self.fixtures and self.done <= self.fixtures
        of = f"{self.done} of " if is_part else ""
        games = (
            f"{of}{counted(self.fixtures if is_part else self.done, 'game')} "
            f"{'is' if self.done == 1 else 'are'} done, {self.played} of them now; "
            f"{counted(self.turns, 'turn')} in {took:.1f} s, {self.rate():.0f} a second"
        )
        moves = f"{self.missed.total()} of {counted(self.moves, 'move')} missed"
        own = self.own_times()
        if own is not None:
            moves += f"; own time between turns {own[0]:.1f} ms, 99 % {own[1]:.1f} ms"
        late = f"the ladder itself was late in {counted(self.lagged, 'turn')}"
        return [
            games,
            moves,
            *([f"{late}: play fewer games at once"] if self.lagged else []),
            *self.strain.warnings(),
        ]

    def own_times(self) -> tuple[float, float] | None:
        """The median and the 99th percentile of the ladder's own time between turns, in ms."""
        median, most = self.own.quantile(0.5), self.own.quantile(0.99)
        return None if median is None or most is None else (median / 10, most / 10)


class Strain:
    """Finds the bots that answer slower the more games they play at the same time."""

    def __init__(self) -> None:
        self.playing: Counter[str] = Counter()  # games by bot
        self.latencies: dict[str, dict[int, Times]] = {}  # by bot and its games

    def end(self, bots: Iterable[str]) -> None:
        """Takes the end of a game between some bots."""
        for bot in bots:
            self.playing[bot] -= 1
            if self.playing[bot] <= 0:
                del self.playing[bot]

    def count(self, answers: Mapping[str, Answer]) -> None:
        for bot, answer in answers.items():
            by_games = self.latencies.setdefault(bot, {})
            games = self.playing[bot]
            if games not in by_games:
                by_games[games] = Times(MOST_MS)
            by_games[games].add(answer.latency)

    def warnings(self) -> list[str]:
        """A line for each bot whose median with most games is far above that with fewest."""
        lines = []
        for bot, by_games in sorted(self.latencies.items()):
            enough = sorted(it for it in by_games if by_games[it].total() >= ENOUGH_MOVES)
            medians = [by_games[it].quantile(0.5) or 0 for it in enough]
            if medians and medians[-1] > medians[0] * GROWTH + GROWTH_MS:
                lines.append(
                    f"{bot} answers in {medians[0]} ms while it plays "
                    f"{counted(enough[0], 'game')} at once, in {medians[-1]} ms while it plays "
                    f"{enough[-1]}: a smaller games_a_bot may serve it better"
                )
        return lines


class ProgressBar(Watch):
    """A progress bar, if the standard error is a terminal; otherwise only messages."""

    def __init__(self, counts: Counts) -> None:
        self.counts = counts
        self.console = Console(stderr=True, markup=False, highlight=False)
        self.bar = Progress(
            TextColumn("games"),
            BarColumn(),
            MofNCompleteColumn(),
            TimeElapsedColumn(),
            TextColumn("{task.description}", markup=False),
            console=self.console,
            refresh_per_second=REFRESHES_A_SECOND,
        )
        self.task = self.bar.add_task("", total=None)

    def __enter__(self) -> ProgressBar:
        if self.console.is_terminal:
            self.bar.start()
        return self

    def __exit__(self, *_: object) -> None:
        if self.console.is_terminal:
            self.bar.stop()

    def begin(self, done: int, fixtures: int) -> None:
        self.bar.update(self.task, total=fixtures or None, completed=done)

    def count(self, answers: Mapping[str, Answer], own_seconds: float | None) -> None:
        if self.console.is_terminal:
            self.bar.update(self.task, description=self.counts.line())

    def end(self, outcome: Outcome) -> None:
        self.bar.update(self.task, completed=self.counts.done)

    def say(self, text: str) -> None:
        line = f"ladder: {printable(text)}"
        if self.console.is_terminal:
            self.console.print(line)
        else:
            print(line, file=sys.stderr)
