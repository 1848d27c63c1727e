"""The log of each bot: a line for each request of a game, of a bounded size in the folder."""

from __future__ import annotations

import asyncio
import json
import os
import re
from collections import defaultdict
from collections.abc import Callable, Iterable, Iterator, Mapping
from contextlib import suppress
from dataclasses import dataclass, replace
from pathlib import Path

from arena_ladder.game.watch import Watch
from arena_ladder.net.bots import Answer
from arena_ladder.net.misses import Miss
from arena_ladder.texts import printable

MOST_BYTES = 512 * 1024  # at which a file becomes the older one, and that are added at a time
TICK_SECONDS = 1.0


@dataclass(frozen=True)
class Asked:
    """A request, and what came back. `call` is empty for a move, else `start` or `end`."""

    game: str
    turn: int
    status: int  # of the response; 0 if no head of one came
    bytes: int
    ms: int
    cause: Miss | None  # why the move was missed
    start: str = ""  # the first bytes of a bad answer
    id: str = ""  # of the request
    call: str = ""

    def line(self) -> str:
        """The request as a line for a terminal. JSON's form of a text moves no cursor."""
        start = json.dumps(self.start) if self.start else ""
        status = str(self.status or "-")
        return (
            f"{self.game}  {self.call or self.turn:>5}  {self.id or '-':12}  {status:>6}  "
            f"{self.bytes:6}  {self.ms:5}  {self.cause or '-':9}  {start}"
        ).rstrip()


HEADING = (
    f"{'game':10}  {'turn':>5}  {'request':12}  {'status':>6}  {'bytes':>6}  {'ms':>5}  "
    f"{'cause':9}  answer"
)


def asked_of(game: str, turn: int, answer: Answer, call: str = "") -> Asked:
    got = answer.received
    start = printable(re.sub(r"\s", " ", got.excerpt.decode(errors="backslashreplace")))
    what = (game, turn, got.status, got.size, answer.latency, answer.cause)
    return Asked(*what, start, answer.request_id, call)


def asked_in(line: bytes) -> Asked:
    """A request in a line of a log; raises ValueError or TypeError for another line."""
    asked = Asked(**json.loads(line))
    return asked if asked.cause is None else replace(asked, cause=Miss(asked.cause))


def log_files(folder: Path, bot: str) -> tuple[Path, Path]:
    """The files of a bot's log, the older one first."""
    path = folder / "log" / f"{bot}.jsonl"
    return path.with_name(f"{path.name}.1"), path


def read_log(folder: Path, bot: str) -> Iterator[Asked]:
    """The requests in the log of a bot, in their order; lines that were cut are left out."""
    for path in log_files(folder, bot):
        with suppress(FileNotFoundError):
            for line in path.read_bytes().splitlines():
                with suppress(ValueError, TypeError):
                    yield asked_in(line)


def last_missed(folder: Path, bot: str, count: int) -> list[Asked]:
    """The last requests whose moves a bot missed, the newest first."""
    missed = [it for it in read_log(folder, bot) if it.cause is not None and not it.call]
    return missed[: -count - 1 : -1]


def add_lines(folder: Path, bot: str, lines: Iterable[str]) -> None:
    """Adds lines to the log of a bot, which never has more than four times MOST_BYTES."""
    older, path = log_files(folder, bot)
    path.parent.mkdir(exist_ok=True)
    if path.exists() and path.stat().st_size >= MOST_BYTES:
        os.replace(path, older)
    with open(path, "a") as file:
        file.write("".join(lines)[-MOST_BYTES:])


def add_all(folder: Path, gathered: Mapping[str, Iterable[str]]) -> None:
    for bot, lines in gathered.items():
        add_lines(folder, bot, lines)


class BotLog(Watch):
    """Writes the logs of all bots, once a second. It is an `async with` context.

    No file stays open, so that many bots need no descriptors. If a log can't be written, `tell` is
    called with the reason, and the games go on without logs.
    """

    def __init__(self, folder: Path, tell: Callable[[str], None]) -> None:
        self.folder = folder
        self.tell = tell
        self.lines: defaultdict[str, list[str]] = defaultdict(list)
        self.is_broken = False
        self._writing: asyncio.Task[None] | None = None

    async def __aenter__(self) -> BotLog:
        self._writing = asyncio.create_task(self.run())
        return self

    async def __aexit__(self, *_: object) -> None:
        if self._writing is not None:
            self._writing.cancel()
            with suppress(asyncio.CancelledError):
                await self._writing
        await self.write()

    def answered(self, game: str, turn: int, answers: Mapping[str, Answer]) -> None:
        for bot, answer in answers.items():
            self.add(bot, asked_of(game, turn, answer))

    def notified(self, game: str, what: str, turn: int, answers: Mapping[str, Answer]) -> None:
        for bot, answer in answers.items():
            self.add(bot, asked_of(game, turn, answer, what))

    def add(self, bot: str, asked: Asked) -> None:
        kept = {key: it for key, it in vars(asked).items() if it or key not in ("start", "call")}
        self.lines[bot].append(json.dumps(kept, separators=(",", ":")) + "\n")

    async def run(self) -> None:
        while True:
            await asyncio.sleep(TICK_SECONDS)
            await self.write()

    async def write(self) -> None:
        """Writes what was gathered."""
        gathered, self.lines = self.lines, defaultdict(list)
        if self.is_broken:
            return
        try:
            await asyncio.to_thread(add_all, self.folder, gathered)
        except OSError as fault:
            self.is_broken = True
            self.tell(f"the logs of the bots can't be written: {fault}")
