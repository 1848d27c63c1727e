"""Tests of the client of `arena live`: answers, refusals, and the death of the host."""

from __future__ import annotations

import asyncio
import hashlib
import io
import os
import signal
import subprocess
from collections.abc import Coroutine
from pathlib import Path
from typing import Any

import pytest

from arena_client import PLAN, Host, HostDied, HostFault, Refused, Start, Stay, line_of

SOLO: dict[str, Any] = {"mode": "solo", "width": 3, "height": 3, "min_food": 0, "food_chance": 0}
LARGE: dict[str, Any] = {**SOLO, "width": 25, "height": 25}
SNAKE: list[Start] = [{"id": "s", "x": 1, "y": 1}]


def run(work: Coroutine[Any, Any, Any]) -> Any:
    return asyncio.run(asyncio.wait_for(work, 60))


async def refusal(work: Coroutine[Any, Any, Any]) -> str:
    """The code and the reason of the refusal that a call raises."""
    with pytest.raises(Refused) as fault:
        await work
    return str(fault.value)


def test_game_of_the_tutorial(program: Path) -> None:
    """The first file of docs/FIRST_FILE.md, command by command: its boards, charge and refusals."""

    async def work() -> None:
        async with Host(program=program) as host:
            stay = await host.admit("a", 4096)
            await stay.new(**SOLO, snakes=SNAKE, food=[{"x": 2, "y": 2}])
            await stay.move({"s": "up"})
            board = await stay.move({"s": "up"})
            assert board["snakes"][0]["cause"] == "wall-collision"
            assert board["snakes"][0]["body"][0] == {"x": 1, "y": 3}
            assert (board["over"], board["turn"], stay.charge) == (True, 2, 96)
            assert await refusal(stay.move({"s": "left"})) == "G4 over"
            assert (await stay.turn(1))["turn"] == 1
            await stay.free()
            assert stay.charge == 32
            assert await refusal(stay.turn(1)) == "G6 record"
            assert await stay.leave() == board
            assert not stay.is_open
            assert await refusal(stay.show()) == "L2 game"

    run(work())


def test_admissions_are_refused_by_their_code(program: Path) -> None:
    async def work() -> None:
        async with Host(blocks=12, program=program) as host:
            one = await host.admit("one")
            assert await refusal(host.admit("one")) == "A2 open"
            assert await refusal(host.admit("")) == "A1 admit"
            assert await refusal(host.admit("small", 15)) == "A1 admit"
            two = await host.admit("two")
            assert await refusal(host.admit("three")) == "A4 pool"
            assert await one.leave() is None
            three = await host.admit("three")
            assert await refusal(three.show()) == "G2 none"
            assert await refusal(one.leave()) == "A5 none"
            assert await two.leave() is None

    run(work())


def test_65th_game_is_refused(program: Path) -> None:
    async def work() -> None:
        async with Host(blocks=400, program=program) as host:
            for number in range(64):
                await host.admit(str(number))
            assert await refusal(host.admit("64")) == "A3 games"

    run(work())


def test_tasks_share_a_host(program: Path) -> None:
    """64 games are played at once, each by one task; every answer reaches its game."""

    async def play(host: Host, number: int) -> None:
        stay = await host.admit(f"game {number}")
        await stay.new(**LARGE, snakes=[{"id": "s", "x": 0, "y": 0}])
        for turn in range(1, 20):
            board = await stay.move({"s": "up" if turn % 20 <= number % 20 else "right"})
            ups = min(turn, number % 20)
            assert board["turn"] == turn
            assert board["snakes"][0]["body"][0] == {"x": turn - ups, "y": ups}
        await stay.leave()

    async def work() -> None:
        async with Host(blocks=384, program=program) as host:
            await asyncio.gather(*(play(host, number) for number in range(64)))

    run(work())


def test_neither_pipe_fills_up(program: Path) -> None:
    """A replay sends lines whose answers fill a pipe 40 times, before it reads the first answer."""

    async def work() -> Stay:
        async with Host(program=program) as host:
            stay = await host.admit("a")
            await stay.new(**LARGE, snakes=SNAKE)
            await stay.replay([line_of(game="a", do="show")] * 10_000)
            return stay

    assert run(work()).replies == 10_001


def test_log_replays_to_the_same_lines(program: Path, tmp_path: Path) -> None:
    """The digest of a stay is that of the output of `arena serve` for its log."""
    log = io.BytesIO(PLAN)
    log.seek(len(PLAN))

    async def work() -> Stay:
        async with Host(program=program) as host:
            await host.admit("other")
            stay = await host.admit("a", log=log)
            await stay.new(**SOLO, snakes=SNAKE)
            await stay.move({"s": "left"}, [7, 8])
            await stay.leave()
            return stay

    stay = run(work())
    path = tmp_path / "log.jsonl"
    path.write_bytes(log.getvalue())
    written = subprocess.run([program, "serve", path], capture_output=True, check=True).stdout
    assert hashlib.sha256(written).hexdigest() == stay.digest
    assert len(written.splitlines()) == stay.replies == 3


def test_death_of_the_host_is_raised_in_all_calls(program: Path) -> None:
    async def work() -> None:
        with pytest.raises(HostDied) as death:
            async with Host(program=program) as host:
                stays = [await host.admit(name) for name in "abc"]
                os.kill(host.pid, signal.SIGKILL)
                found = await asyncio.gather(
                    *(stay.show() for stay in stays), return_exceptions=True
                )
                assert [type(fault) for fault in found] == [HostDied] * 3
                await stays[0].show()
        assert death.value.status == -signal.SIGKILL

    run(work())


def test_open_stays_are_closed_at_the_end(program: Path) -> None:
    """The final lines of games that did not leave are ignored."""

    async def work() -> None:
        async with Host(program=program) as host:
            stay = await host.admit("a")
            await stay.new(**SOLO, snakes=SNAKE)
            await host.admit("b")

    run(work())


def test_words_that_the_host_refuses_are_its_death(program: Path) -> None:
    async def work() -> None:
        async with Host(blocks=0, program=program) as host:
            await host.admit("a")

    with pytest.raises(HostDied) as death:
        run(work())
    assert death.value.status == 2


def test_line_that_answers_nothing_is_a_fault(tmp_path: Path) -> None:
    """A line of the program that answers nothing is a fault."""
    program = tmp_path / "liar"
    program.write_text(
        '#!/bin/sh\nread plan; echo \'{"line":7,"no":"L2","why":"game"}\'; exec cat\n'
    )
    program.chmod(0o755)

    async def work() -> None:
        async with Host(program=program) as host:
            await host.admit("a")

    with pytest.raises(HostFault, match="answers nothing"):
        run(work())


def test_caller_that_is_cancelled_disturbs_no_other(program: Path) -> None:
    async def work() -> None:
        async with Host(program=program) as host:
            one, other = await host.admit("one"), await host.admit("other")
            for stay in (one, other):
                await stay.new(**SOLO, snakes=SNAKE)
            asking = asyncio.create_task(one.show())
            await asyncio.sleep(0)
            asking.cancel()
            assert (await other.show())["turn"] == 0
            assert (await one.move({"s": "up"}))["turn"] == 1

    run(work())
