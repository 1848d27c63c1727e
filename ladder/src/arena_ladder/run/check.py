"""Replays the games of a folder by `arena serve`, and compares them with the results."""

from __future__ import annotations

import hashlib
import json
import os
import subprocess
from collections.abc import Callable, Iterable
from concurrent.futures import ThreadPoolExecutor
from contextlib import closing
from dataclasses import dataclass
from pathlib import Path
from typing import Any

from arena_client import BLOCKS_OF_GAME, line_of
from arena_ladder.game.config import Config, config_from_identity
from arena_ladder.game.draws import words_of
from arena_ladder.game.game import opening
from arena_ladder.game.map_moves import map_members
from arena_ladder.game.outcome import Outcome, finishes_of
from arena_ladder.game.pairing import Fixture, fixtures_of
from arena_ladder.game.rated import Rated
from arena_ladder.game.tournament import Tournament, by_name
from arena_ladder.results.packs import commands_of
from arena_ladder.results.store import Store, StoreFault, open_store
from arena_ladder.run.endless import replay

SERVE_SECONDS = 600
NOT_AS_DRAWN = "the hazards or the food of the move after turn {} are not as drawn"


@dataclass(frozen=True)
class Checked:
    """The result of a check: the number of games, and the faults of those that do not agree."""

    games: int
    faults: dict[str, str]
    sums: str = ""  # what is wrong with the sums of all games


def check(folder: Path, program: Path, note: Callable[[int], None]) -> Checked:
    """Checks every game of a folder that is done; calls `note` with the number checked so far.

    A game agrees if its bots, places, food, words and hazards are those drawn from the seed, if
    `arena serve` writes for its file the same lines as the live host wrote, and if its last board
    is the one in the results. The sums, of which the standings are made, have to be those of all.
    """
    with closing(open_store(folder)) as store:
        store.names()
        outcomes = list(store.outcomes())
        identity = store.identity()
        if identity is None:
            raise StoreFault(f"{folder} has no results of a ladder")
        rounds = max((it.round for it in outcomes), default=1)
        config = config_from_identity(identity, folder, rounds)
        drawn = {fixture.name: fixture for fixture in drawn_again(config, store)}
        sums = store.sums.fault()

    def fault(outcome: Outcome) -> str | None:
        return fault_of(outcome, config, drawn.get(outcome.name), program)

    faults = {}
    with ThreadPoolExecutor(os.cpu_count()) as pool:
        for at, (outcome, why) in enumerate(zip(outcomes, pool.map(fault, outcomes)), 1):
            if why is not None:
                faults[outcome.name] = why
            note(at)
    return Checked(len(outcomes), faults, sums)


def drawn_again(config: Config, store: Store) -> Iterable[Fixture]:
    """The games of a ladder; those of an endless one are drawn from what was stored before each,
    those of a tournament follow from all results."""
    if config.is_tournament:
        return Tournament(config, by_name(store.results(0))).fixtures
    if not config.is_endless:
        return fixtures_of(config)
    rated = Rated(config.seed, config.snakes)
    return [Fixture(row.game, row.number, bots or ()) for row, bots in replay(store, rated)]


def fault_of(
    outcome: Outcome, config: Config, fixture: Fixture | None, program: Path
) -> str | None:
    """Why a game does not agree, or None if it does."""
    if fixture is None:
        return "the pairings have no such game"
    try:
        text = commands_of(config.folder, outcome.name)
    except OSError as fault:
        return f"its file can't be read: {fault.strerror}"
    lines = text.splitlines(keepends=True)
    wrong = fault_of_lines(lines, config, fixture)
    if wrong is not None:
        return wrong
    wrong, replies = fault_of_replies(text, outcome, program)
    return wrong or fault_of_boards(lines, replies, config, fixture)


def fault_of_lines(lines: list[bytes], config: Config, fixture: Fixture) -> str | None:
    """Why lines are not the opening of this game, moves with the drawn words, and its leave."""
    first = [config.rules.plan, *opening(config, fixture)]
    if lines[: len(first)] != first or lines[-1:] != [line_of(game=fixture.name, do="leave")]:
        return "its file does not begin as drawn from the seed, or has no end"
    turn = 0
    for line in lines[len(first) : -1]:
        try:
            command = json.loads(line)
            do = command["do"]
        except (ValueError, LookupError, TypeError):
            return "a line of its file is no command"
        if do == "move":
            fault = fault_of_move(command, turn, config, fixture)
            if fault is not None:
                return fault
            turn += 1
        elif do != "free":
            return f"its file has the command {do}"
    return None


def fault_of_move(
    command: dict[str, Any], turn: int, config: Config, fixture: Fixture
) -> str | None:
    """Why the move after a turn does not have the drawn words, hazards, and nothing else."""
    if command.get("words") != words_of(config.seed, fixture.key, turn, config.rules.words):
        return f"the words of the move after turn {turn} are not those that are drawn"
    hazards = config.rules.hazards
    if hazards is not None and hazards.needs_boards:
        return None  # `fault_of_boards` looks at them
    if given_by(command) != map_members(config, fixture.key, turn):
        return NOT_AS_DRAWN.format(turn)
    return None


def given_by(move: dict[str, Any]) -> dict[str, Any]:
    """What a move gives beside directions and words."""
    return {key: move[key] for key in ("hazards", "food") if key in move}


def fault_of_boards(
    lines: list[bytes], replies: list[bytes], config: Config, fixture: Fixture
) -> str | None:
    """Why moves do not give what the map draws from the boards before them, as replies show."""
    hazards = config.rules.hazards
    if hazards is None or not hazards.needs_boards:
        return None
    moves = [it for it in map(json.loads, lines[1:]) if it["do"] == "move"]
    boards = [it["board"] for it in map(json.loads, replies[:-1]) if it["do"] in ("new", "move")]
    for turn, before in enumerate(zip(boards, (it["moves"] for it in moves))):
        if given_by(moves[turn]) != map_members(config, fixture.key, turn, before):
            return NOT_AS_DRAWN.format(turn)
    return None


def fault_of_replies(
    text: bytes, outcome: Outcome, program: Path
) -> tuple[str | None, list[bytes]]:
    """Why the replies of `arena serve` are not those of the live host, or not this outcome; and
    the replies."""
    words = [str(program), "serve", "-", "--blocks", str(BLOCKS_OF_GAME), "--workers", "1"]
    try:
        ran = subprocess.run(words, input=text, capture_output=True, timeout=SERVE_SECONDS)
    except (OSError, subprocess.TimeoutExpired) as fault:
        return f"arena serve did not run: {fault}", []
    if ran.returncode != 0:
        return f"arena serve ended with status {ran.returncode}: {ran.stderr.decode().strip()}", []
    lines = ran.stdout.splitlines()
    if hashlib.sha256(ran.stdout).hexdigest() != outcome.digest or len(lines) != outcome.lines:
        return "arena serve writes other lines than the live host wrote", []
    board = json.loads(lines[-1])["board"]
    if finishes_of(board) != outcome.finishes or board["turn"] != outcome.turns:
        return "its last board is not the one in the results", []
    return None, lines
