"""Plays one game: asks its bots, sends their moves to the host, and writes both to its files."""

from __future__ import annotations

from collections.abc import Mapping
from dataclasses import dataclass
from pathlib import Path

from arena_client import QUOTA, Board, Host, Stay, line_of
from arena_ladder.game.config import Config
from arena_ladder.game.draws import words_of
from arena_ladder.game.game_files import GameFiles
from arena_ladder.game.map_moves import map_members, opening_members
from arena_ladder.game.outcome import Outcome, Tally, finishes_of, tallies_of
from arena_ladder.game.pairing import Fixture
from arena_ladder.game.payloads import bodies, game_text, living_of, seats_of
from arena_ladder.game.watch import Watch
from arena_ladder.net.bots import Answer, BotClient, Look
from arena_ladder.texts import counted

FREE_AT = 1_000_000  # bytes of records; above that all but the last are freed


class GameFault(Exception):
    """A game whose file is not of this ladder, or a line of which the host refused."""


@dataclass(frozen=True)
class RunContext:
    """What all games of a run share."""

    config: Config
    folder: Path
    client: BotClient
    urls: dict[str, str]
    looks: dict[str, Look]
    watch: Watch


def opening(config: Config, fixture: Fixture) -> list[bytes]:
    """The lines that admit and begin a game; its name, bots and seed determine them."""
    rules, bots = config.rules, fixture.bots
    members = opening_members(config, fixture.key, len(bots))
    heads = members.pop("heads")
    snakes = [{"id": bot, **head._asdict()} for bot, head in zip(bots, heads)]
    sides = {"mode": rules.mode, "width": rules.width, "height": rules.height}
    begin = line_of(game=fixture.name, do="new", **sides, snakes=snakes, **members)
    return [line_of(game=fixture.name, do="admit", quota=QUOTA), begin]


class Game:
    """A game between some bots, from its first request to its outcome."""

    def __init__(self, context: RunContext, fixture: Fixture) -> None:
        self.context = context
        self.fixture = fixture
        self.text = game_text(context.config, fixture.name)
        self.seats = seats_of(context.config, fixture.name, fixture.bots, context.looks)
        self.tallies: dict[str, Tally] = {}
        self.answered_at: float | None = None
        self.stay: Stay | None = None

    async def play(self, host: Host) -> None:
        """Plays the game to its end, from where its files end.

        Each step depends only on the last board, the charge and the lines so far. So an interrupted
        game continues as it would have without the interruption.
        """
        plan = self.context.config.rules.plan
        with GameFiles(self.context.folder, self.fixture.name, plan) as files:
            self.stay = stay = await self.enter(host, files)
            if stay.board["turn"] == 0:
                await self.notify_all("start", stay.board)
            while not self.is_done(stay.board):
                if stay.charge > FREE_AT:
                    await stay.free()
                await self.play_turn(stay, files)
            if stay.is_open:
                await self.notify_all("end", stay.board)
                await stay.leave()

    async def enter(self, host: Host, files: GameFiles) -> Stay:
        """Admits and begins the game, and replays the moves of its file."""
        first = opening(self.context.config, self.fixture)
        old = files.old_lines
        if old[:2] != first[: len(old)]:
            raise GameFault(
                f"{files.path} does not begin as in this ladder: "
                "delete it, and the game begins anew"
            )
        turns = files.old_answers()
        self.say_lost(files.moves - len(turns))
        self.tallies = tallies_of(self.fixture.bots, turns)
        for answers in turns:
            self.hear(answers)
        for line in first[len(old) :]:
            files.commands.write(line)
        stay = await host.admit(self.fixture.name, QUOTA)
        await stay.replay([*first[1:], *old[2:]])
        stay.log = files.commands
        self.context.watch.enter(self.fixture, {bot: it.look for bot, it in self.seats.items()})
        self.context.watch.show(self.fixture, stay.board)
        return stay

    def say_lost(self, turns: int) -> None:
        """Says that answers of turns were lost, if they were."""
        if turns > 0:
            self.context.watch.say(
                f"{self.fixture.name} lost the answers of {counted(turns, 'turn')}: their times "
                "and missed moves are not counted"
            )

    def is_done(self, board: Board) -> bool:
        return board["over"] or board["turn"] >= self.context.config.rules.turns

    async def play_turn(self, stay: Stay, files: GameFiles) -> None:
        """Asks the living snakes' bots for their moves, and plays them."""
        config, board = self.context.config, stay.board
        answers = await self.ask_all(board)
        self.hear(answers)
        for name, answer in answers.items():
            self.tallies[name].add(answer)
        files.add_answers(answers, {bot: it.look for bot, it in self.seats.items()})
        moves = {name: answer.move for name, answer in answers.items() if answer.move is not None}
        words = words_of(config.seed, self.fixture.key, board["turn"], config.rules.words)
        more = map_members(config, self.fixture.key, board["turn"], (board, moves))
        self.context.watch.show(self.fixture, await stay.move(moves, words, **more))

    async def ask_all(self, board: Board) -> dict[str, Answer]:
        """Asks the bots of all living snakes at once; an answer may be that there is none."""
        names = living_of(board)
        urls = [self.context.urls[name] for name in names]
        requests = list(zip(urls, bodies(self.text, board, self.seats, names)))
        answers = dict(zip(names, await self.context.client.moves(requests)))
        asked_at = min(answer.asked_at for answer in answers.values())
        own = None if self.answered_at is None else asked_at - self.answered_at
        self.answered_at = max(answer.answered_at for answer in answers.values())
        self.context.watch.count(answers, own)
        self.context.watch.answered(self.fixture.name, board["turn"], answers)
        return answers

    def hear(self, answers: Mapping[str, Answer]) -> None:
        """Keeps the latency and the shout of each bot, which the next requests contain."""
        for name, answer in answers.items():
            self.seats[name].latency = answer.latency
            self.seats[name].shout = answer.shout

    async def notify_all(self, what: str, board: Board) -> None:
        """Notifies all bots of the start or the end of the game; what they answer is logged."""
        names = self.fixture.bots
        urls = [f"{self.context.urls[name]}/{what}" for name in names]
        requests = list(zip(urls, bodies(self.text, board, self.seats, names)))
        answers = dict(zip(names, await self.context.client.notify(requests)))
        self.context.watch.notified(self.fixture.name, what, board["turn"], answers)

    def outcome(self) -> Outcome:
        """The result of the game, after it was played."""
        stay = self.stay
        assert stay is not None
        return Outcome(
            name=self.fixture.name,
            round=self.fixture.round,
            turns=stay.board["turn"],
            lines=stay.replies,
            digest=stay.digest,
            finishes=finishes_of(stay.board),
        )
