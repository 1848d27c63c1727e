"""Finished games in the forms of other programs: the official engine's frames, and a list."""

from __future__ import annotations

import json
import subprocess
from collections.abc import Iterator, Mapping, Sequence
from contextlib import closing
from itertools import islice
from pathlib import Path
from typing import Any

from arena_client import BLOCKS_OF_GAME, Board
from arena_ladder.game.config import Config, config_from_identity
from arena_ladder.game.outcome import Outcome, SeatResult
from arena_ladder.game.payloads import Seat, bodies, game_text, living_of, seats_of, text_of
from arena_ladder.results.kept_answers import Heard, heard_in
from arena_ladder.results.packs import commands_of
from arena_ladder.results.store import StoreFault, open_store


def frames(folder: Path, game: str, program: Path) -> Iterator[str]:
    """The lines that the official engine's `--output` file would have for a finished game.

    They are its member `game`, a request for a move with each board, and the winner. `you` is the
    first living snake. Latencies, shouts and looks are there as far as the answers are kept.
    """
    config, outcome = finished_game(folder, game)
    text = game_text(config, game)
    seats = seats_of(config, game, [it.bot for it in outcome.finishes], {})
    heard = heard_in(folder, game) or []
    yield text
    for turn, board in enumerate(boards_of(commands_of(folder, game), program)):
        hear(seats, heard, turn)
        you = (living_of(board) or list(seats))[:1]
        yield bodies(text, board, seats, you)[0].decode()
    winner = next((it.bot for it in outcome.finishes if it.result is SeatResult.WIN), "")
    id = seats[winner].id if winner else ""
    yield text_of({"winnerId": id, "winnerName": winner, "isDraw": not winner})


def hear(seats: dict[str, Seat], heard: Sequence[Mapping[str, Heard]], turn: int) -> None:
    """Gives the seats what requests of a turn have, after those of the turn before."""
    for bot, it in (heard[turn - 1] if 0 < turn <= len(heard) else {}).items():
        seats[bot].latency, seats[bot].shout = it.latency, it.shout
    for bot, it in (heard[turn] if turn < len(heard) else {}).items():
        if it.look is not None:
            seats[bot].look = it.look


def request_body(folder: Path, game: str, bot: str, turn: int, program: Path) -> bytes:
    """The body of the request for the move after a turn, byte by byte as the bot got it."""
    config, outcome = finished_game(folder, game)
    finish = next((it for it in outcome.finishes if it.bot == bot), None)
    if finish is None:
        raise StoreFault(f"{bot!r} did not play in {game}")
    if not 0 <= turn < finish.turns:
        raise StoreFault(
            f"{bot} got no request for turn {turn} of {game}: its last is {finish.turns - 1}"
        )
    heard = heard_in(folder, game)
    if heard is None or len(heard) <= turn:
        raise StoreFault(f"the answers of {game}, which its requests contain, are not kept")
    seats = seats_of(config, game, [it.bot for it in outcome.finishes], {})
    for at in range(turn + 1):
        hear(seats, heard, at)
    board = next(islice(boards_of(commands_of(folder, game), program), turn, None))
    return bodies(game_text(config, game), board, seats, [bot])[0]


def finished_game(folder: Path, game: str) -> tuple[Config, Outcome]:
    """The configuration of a ladder and the result of one of its games."""
    with closing(open_store(folder)) as store:
        identity = store.identity()
        outcome = next((it for it in store.outcomes() if it.name == game), None)
    if identity is None or outcome is None:
        raise StoreFault(f"{folder} has no finished game {game!r}")
    return config_from_identity(identity, folder, 1), outcome


def boards_of(commands: bytes, program: Path) -> Iterator[Board]:
    """The boards of a command file of one game, turn by turn."""
    for line in transcript_of(commands, program).splitlines():
        reply = json.loads(line)
        if reply.get("do") in ("new", "move"):
            yield reply["board"]


def transcript_of(commands: bytes, program: Path) -> bytes:
    """What `arena serve` writes for a command file of one game."""
    words = [str(program), "serve", "-", "--blocks", str(BLOCKS_OF_GAME), "--workers", "1"]
    ran = subprocess.run(words, input=commands, capture_output=True)
    if ran.returncode != 0:
        why = ran.stderr.decode(errors="replace").strip()
        raise StoreFault(f"arena serve ended with status {ran.returncode}: {why}")
    return ran.stdout


def game_rows(folder: Path) -> list[dict[str, Any]]:
    """A row for each finished game, in the order in which they ended."""
    with closing(open_store(folder)) as store:
        return [row_of(outcome) for outcome in store.outcomes_by_end()]


def row_of(outcome: Outcome) -> dict[str, Any]:
    return {
        "game": outcome.name,
        "turns": outcome.turns,
        "bots": [it.bot for it in outcome.finishes],
        "winner": next((it.bot for it in outcome.finishes if it.result is SeatResult.WIN), None),
    }
