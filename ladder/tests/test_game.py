"""Games in this process: the requests to bots, and games continued from truncated files."""

from __future__ import annotations

import asyncio
import json
import random
import subprocess
import sys
from collections.abc import Sequence
from dataclasses import dataclass, field
from pathlib import Path
from typing import Any

import pytest
from aiohttp import web
from api import Request, strict

from arena_client import Board
from arena_ladder.game import game
from arena_ladder.game.config import Config, config_of
from arena_ladder.game.game_files import GameFiles, LineFile, answers_file, make_folders
from arena_ladder.game.outcome import Outcome
from arena_ladder.game.pairing import Fixture, Part
from arena_ladder.game.watch import Watch
from arena_ladder.results.export import request_body
from arena_ladder.results.kept_answers import kept_file
from arena_ladder.results.store import Store, StoreFault
from arena_ladder.run.play import Job, play

NAMES = ("left", "right")
NAME = "r0001-t001"
STEPS = ("up", "left", "down", "right")  # a bot that goes round a square
CUTS = 12


@dataclass
class Bots:
    """Bots in this process that go round in squares, shout, and record their requests."""

    asked: list[tuple[str, str, dict[str, Any]]] = field(default_factory=list)
    bodies: dict[tuple[str, int], bytes] = field(default_factory=dict)  # of moves, by bot and turn
    port: int = 0

    def __post_init__(self) -> None:
        app = web.Application()
        app.add_routes([web.route("*", "/{bot}/{what:.*}", self.answer)])
        self.runner = web.AppRunner(app, access_log=None)

    async def answer(self, request: web.Request) -> web.Response:
        bot, what = request.match_info["bot"], request.match_info["what"]
        body = await request.read()
        state = json.loads(body) if body else {}
        self.asked.append((bot, what, state))
        if what == "move":
            self.bodies[bot, state["turn"]] = body
        if what != "move":
            return web.json_response({"apiversion": "1", "color": "#123456"})
        turn = state["turn"]
        return web.json_response({"move": STEPS[turn % 4], "shout": f"{bot} in turn {turn}"})

    async def __aenter__(self) -> Bots:
        await self.runner.setup()
        await web.TCPSite(self.runner, "127.0.0.1", 0).start()
        self.port = self.runner.addresses[0][1]
        return self

    async def __aexit__(self, *_: object) -> None:
        await self.runner.cleanup()

    def requests(self, bot: str, what: str) -> list[dict[str, Any]]:
        return [state for name, path, state in self.asked if (name, path) == (bot, what)]


def config_for(folder: Path, port: int, **members: Any) -> Config:
    bots = [{"name": name, "url": f"http://127.0.0.1:{port}/{name}"} for name in NAMES]
    usual = {"folder": str(folder), "bot": bots, "turns": 30, "timeout": 5000, "food_chance": 60}
    return config_of({**usual, **members}, "here")


async def played(config: Config, program: Path, watches: Sequence[Watch] = ()) -> list[Outcome]:
    """Plays a ladder in this process, and returns its games."""
    make_folders(config.folder)
    store = Store(config.folder)
    try:
        await play(Job(config, config.folder, Part(1, 1), program), store, watches)
        return list(store.outcomes())
    finally:
        store.close()


class Breaks(Watch):
    """Interrupts a run after a turn."""

    def __init__(self, turn: int) -> None:
        self.turn = turn

    def show(self, fixture: Fixture, board: Board) -> None:
        if board["turn"] == self.turn:
            raise InterruptedError


def run(work: Any) -> Any:
    return asyncio.run(asyncio.wait_for(work, 120))


def test_bots_get_the_requests_of_the_api(program: Path, tmp_path: Path) -> None:
    """Each bot gets a start, a request a turn with all last shouts, and an end."""

    async def work() -> None:
        async with Bots() as bots:
            config = config_for(tmp_path / "x", bots.port)
            (outcome,) = await played(config, program)
            for name in NAMES:
                moves = bots.requests(name, "move")
                assert len(bots.requests(name, "")) == 1
                assert [it["turn"] for it in bots.requests(name, "start")] == [0]
                assert [it["turn"] for it in moves] == list(range(outcome.turns))
                (end,) = bots.requests(name, "end")
                assert end["turn"] == outcome.turns == 30
                assert {it["game"]["id"] for it in moves} == {f"{config.letters}-{NAME}"}
                assert {it["you"]["id"] for it in moves} == {f"{config.letters}-{NAME}-{name}"}
                assert all(strict(Request, it).you.name == name for it in [*moves, end])
                shouts = [
                    {it["name"]: it["shout"] for it in each["board"]["snakes"]} for each in moves
                ]
                assert shouts[0] == {bot: "" for bot in NAMES}
                for turn, sent in enumerate(shouts[1:]):
                    assert sent == {bot: f"{bot} in turn {turn}" for bot in NAMES}
                looks = [it["customizations"]["color"] for it in end["board"]["snakes"]]
                assert looks == ["#123456"] * 2

    run(work())


def test_resumed_game_sends_the_last_shouts(program: Path, tmp_path: Path) -> None:
    """After an interruption bots get the shouts of the turn before it, and no second start."""

    async def work() -> None:
        async with Bots() as bots:
            config = config_for(tmp_path / "x", bots.port)
            with pytest.raises(InterruptedError):
                await played(config, program, [Breaks(11)])
            await played(config, program)
            moves = bots.requests("left", "move")
            assert [it["turn"] for it in moves] == list(range(30))
            snakes = {it["name"]: it for it in moves[11]["board"]["snakes"]}
            assert snakes["right"]["shout"] == "right in turn 10"
            assert len(bots.requests("left", "start")) == len(bots.requests("left", "end")) == 1

    run(work())


def test_requests_are_exported_as_the_bots_got_them(program: Path, tmp_path: Path) -> None:
    """Byte by byte, with latencies, shouts and looks, also of a game that was interrupted."""

    async def work() -> None:
        async with Bots() as bots:
            config = config_for(tmp_path / "x", bots.port, mode="wrapped")
            with pytest.raises(InterruptedError):
                await played(config, program, [Breaks(11)])
            await played(config, program)
            for (bot, turn), body in bots.bodies.items():
                if turn in (0, 1, 10, 11, 12, 29):
                    assert request_body(config.folder, NAME, bot, turn, program) == body
            assert len(bots.bodies) == 60
            for turn, why in ((30, "no request for turn 30 of"), (-1, "its last is 29")):
                with pytest.raises(StoreFault, match=why):
                    request_body(config.folder, NAME, "left", turn, program)
            kept_file(config.folder, NAME).unlink()
            with pytest.raises(StoreFault, match="are not kept"):
                request_body(config.folder, NAME, "left", 0, program)

    run(work())


@pytest.mark.parametrize("free_at", [10_000_000, 400])
def test_game_goes_on_from_a_file_that_was_cut_anywhere(
    program: Path, tmp_path: Path, monkeypatch: pytest.MonkeyPatch, free_at: int
) -> None:
    """From a file truncated at any byte the run restores the whole file, records freed or not."""
    monkeypatch.setattr(game, "FREE_AT", free_at)

    async def work() -> None:
        async with Bots() as bots:
            whole = await played(config_for(tmp_path / "whole", bots.port), program)
            text = (tmp_path / "whole" / "games" / f"{NAME}.jsonl").read_bytes()
            assert (b'"do":"free"' in text) == (free_at == 400)
            draw = random.Random(5)
            ends = [at + 1 for at, byte in enumerate(text) if byte == 10]
            cuts = [draw.randrange(len(text)) for _ in range(CUTS)] + draw.sample(ends, CUTS)
            for cut in cuts:
                config = config_for(tmp_path / str(cut), bots.port)
                make_folders(config.folder)
                path = config.folder / "games" / f"{NAME}.jsonl"
                path.write_bytes(text[:cut])
                assert await played(config, program) == whole
                assert path.read_bytes() == text

    run(work())


class Says(Watch):
    """Keeps what is said."""

    def __init__(self) -> None:
        self.said: list[str] = []

    def say(self, text: str) -> None:
        self.said.append(text)


@pytest.mark.parametrize("harm", ["cut", "changed", "unknown"])
def test_lost_answers_are_said(program: Path, tmp_path: Path, harm: str) -> None:
    """A file of answers that was cut or changed loses times, and stops no game."""

    async def work() -> None:
        async with Bots() as bots:
            config = config_for(tmp_path / "x", bots.port)
            with pytest.raises(InterruptedError):
                await played(config, program, [Breaks(11)])
            path = answers_file(config.folder, NAME)
            lines = path.read_bytes().splitlines(keepends=True)
            unknown = lines[4].replace(b"null", b'"bored"')
            changed = {"changed": b"[" + lines[4], "unknown": unknown}
            lines[4:] = [] if harm == "cut" else [changed[harm], *lines[5:]]
            path.write_bytes(b"".join(lines))
            says = Says()
            await played(config, program, [says])
            assert says.said == [
                f"{NAME} lost the answers of 7 turns: their times and missed moves are not counted"
            ]

    run(work())


def test_bot_that_was_down_is_asked_for_its_look_again(
    program: Path, tmp_path: Path, monkeypatch: pytest.MonkeyPatch
) -> None:
    monkeypatch.setattr("arena_ladder.run.play.LOOK_AGAIN_SECONDS", 0.05)

    class Down(Bots):
        """Bots that say how they look from the tenth request for a move on."""

        async def answer(self, request: web.Request) -> web.Response:
            if request.match_info["what"] == "" and len(self.requests("left", "move")) < 10:
                return web.Response(status=503)
            return await super().answer(request)

    async def work() -> None:
        async with Down() as bots:
            config = config_for(tmp_path / "x", bots.port, rounds=40, games_a_bot=1, turns=20)
            await played(config, program)
            colors = [it["you"]["customizations"]["color"] for it in bots.requests("left", "start")]
            assert colors[0] == "#888888" and colors[-1] == "#123456"

    run(work())


def test_quota_is_never_exceeded(program: Path, tmp_path: Path) -> None:
    """Records of the longest boards are freed before the quota is exhausted."""
    assert game.FREE_AT + 166_888 < 1_835_007  # the longest record, docs/FORMATS.md


def test_line_files_have_whole_lines_alone(tmp_path: Path) -> None:
    path = tmp_path / "lines"
    path.write_bytes(b"one\ntwo\nthr")
    file = LineFile(path)
    assert file.lines == [b"one\n", b"two\n"]
    file.write(b"three\n")
    file.cut(1)
    file.close()
    assert path.read_bytes() == b"one\n"


def test_line_that_was_written_in_part_is_a_fault(tmp_path: Path) -> None:
    """If the disk is full, the line is not sent; the written part is removed later."""
    code = (
        "import resource, sys; from pathlib import Path\n"
        "from arena_ladder.game.game_files import LineFile\n"
        "resource.setrlimit(resource.RLIMIT_FSIZE, (10, 10))\n"
        "file = LineFile(Path(sys.argv[1])); file.write(b'12345\\n'); file.write(b'12345\\n')\n"
    )
    path = tmp_path / "lines"
    ran = subprocess.run([sys.executable, "-c", code, path], capture_output=True, text=True)
    assert ran.returncode == 1 and "No space left on device" in ran.stderr
    assert path.read_bytes() == b"12345\n1234"
    assert LineFile(path).lines == [b"12345\n"]


def test_answers_of_turns_without_a_move_are_forgotten(tmp_path: Path) -> None:
    make_folders(tmp_path)
    with GameFiles(tmp_path, NAME) as files:
        files.commands.write(b'{"game":"x","do":"move","moves":{},"words":[]}\n')
        for _ in range(2):
            files.add_answers({}, {})
    with GameFiles(tmp_path, NAME) as files:
        assert (len(files.old_lines), files.old_answers()) == (1, [{}])
