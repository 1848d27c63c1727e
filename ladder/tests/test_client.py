"""Tests of arena_client as a package: its example, what it imports, and its types of lines."""

from __future__ import annotations

import asyncio
import doctest
import json
import subprocess
import sys
from pathlib import Path
from typing import Any, get_type_hints

import pytest

import arena_client
from arena_client import Board, Cause, Host, HostFault, Mode, Snake, host
from arena_client.lines import (
    Accepted,
    Admit,
    Bare,
    Denied,
    Final,
    Move,
    New,
    Stray,
    Turn,
    reply_of,
)

PACKAGES = Path(arena_client.__file__).resolve().parent.parent
EXAMPLES = PACKAGES.parent.parent / "examples"
COMMANDS = {
    **{"admit": Admit, "new": New, "move": Move, "turn": Turn},
    **dict.fromkeys(("show", "free", "end", "leave"), Bare),
}
FILES = [path.name for path in EXAMPLES.glob("*.jsonl")]
WITH_STRAYS = {"food_from_words.jsonl", "six_games.jsonl", "stray_lines.jsonl"}
TRANSCRIPTS = sorted(path.name for path in EXAMPLES.glob("*.transcript"))


def test_example_of_the_package_is_true(program: Path, monkeypatch: pytest.MonkeyPatch) -> None:
    monkeypatch.setattr(host, "PROGRAM", program)
    ran = doctest.testmod(arena_client)
    assert (ran.failed, ran.attempted) == (0, 4)


def test_package_needs_the_standard_library_alone() -> None:
    code = "import sys; sys.path.insert(0, sys.argv[1]); import arena_client; print(*sys.modules)"
    words = [sys.executable, "-I", "-S", "-c", code, str(PACKAGES)]
    ran = subprocess.run(words, capture_output=True, text=True, check=True)
    names = {name.partition(".")[0] for name in ran.stdout.split()}
    assert names - sys.stdlib_module_names - {"__main__"} == {"arena_client"}


@pytest.mark.parametrize("name", TRANSCRIPTS)
def test_types_have_the_members_of_each_line(name: str) -> None:
    for line in (EXAMPLES / name).read_bytes().splitlines():
        reply: Any = reply_of(line)
        assert reply == json.loads(line)
        (kind,) = (it for it in (Accepted, Denied, Final, Stray) if is_of(reply, it))
        board: Any = reply.get("board")
        if board is not None:
            assert is_of(board, Board) and all(is_of(it, Snake) for it in board["snakes"])
            assert type(board["mode"]) is Mode
            assert {type(it["cause"]) for it in board["snakes"]} <= {Cause, type(None)}


@pytest.mark.parametrize("name", sorted(set(FILES) - WITH_STRAYS))
def test_types_have_the_members_of_each_command(name: str) -> None:
    for line in (EXAMPLES / name).read_bytes().splitlines()[1:]:
        command = json.loads(line)
        assert is_of(command, COMMANDS[command["do"]])


def is_of(members: Any, kind: Any) -> bool:
    """Whether an object has all members that a type has to have, and no others."""
    needed: frozenset[str] = kind.__required_keys__
    return needed <= set(members) <= set(get_type_hints(kind))


def test_line_with_an_unknown_cause_is_none() -> None:
    lines = (EXAMPLES / "first_file.transcript").read_bytes().splitlines()
    line = next(it for it in lines if b'"wall-collision"' in it)
    assert reply_of(line) is not None
    assert reply_of(line.replace(b'"wall-collision"', b'"old age"')) is None


def test_host_is_started_closed_and_killed_by_calls(program: Path) -> None:
    async def work() -> None:
        for end in (Host.close, Host.kill):
            running = Host(program=program)
            with pytest.raises(HostFault, match="not started"):
                await running.admit("a")
            await running.start()
            stay = await running.admit("a")
            with pytest.raises(LookupError, match="has not begun"):
                stay.board
            await end(running)
            assert running.running.process.returncode == (0 if end is Host.close else -9)

    asyncio.run(work())
