"""The transcripts of finished games, made by `arena serve` when they are asked for."""

from __future__ import annotations

import asyncio
import resource
from collections import OrderedDict
from contextlib import suppress
from pathlib import Path
from tempfile import TemporaryFile

from arena_client import BLOCKS_OF_GAME
from arena_ladder.results.packs import commands_of

MOST_BYTES = 32 * 1024 * 1024  # of a transcript
MOST_KEPT = 4 * 1024 * 1024  # bytes of all that are kept, unless it is one alone
MOST_WAITING = 8  # requests; they are served one after the other
SERVE_SECONDS = 30.0
PROCESSOR_SECONDS = 20  # of the program, which also ends it if this process is killed
MEMORY = 1024 * 1024 * 1024  # of its addresses
PIECE = 256 * 1024


class NoTranscript(Exception):
    """A transcript that can't be made now, with the reason. `is_busy`: another try may succeed."""

    def __init__(self, why: str, is_busy: bool = False) -> None:
        super().__init__(why)
        self.is_busy = is_busy


class Transcripts:
    """Makes transcripts, one at a time, and keeps the last ones that were asked for."""

    def __init__(self, folder: Path, program: Path) -> None:
        self.folder = folder
        self.program = program
        self.kept: OrderedDict[str, bytes] = OrderedDict()
        self.waiting = 0
        self.lock = asyncio.Lock()

    async def of(self, game: str) -> bytes:
        """The transcript of a game that is done; raises `NoTranscript`."""
        if game not in self.kept:
            if self.waiting == MOST_WAITING:
                raise NoTranscript("too many transcripts are asked for", is_busy=True)
            self.waiting += 1
            try:
                async with self.lock:
                    if game not in self.kept:
                        self.keep(game, await self.make(game))
            finally:
                self.waiting -= 1
        self.kept.move_to_end(game)
        return self.kept[game]

    def keep(self, game: str, transcript: bytes) -> None:
        """Keeps a transcript, and forgets those that were asked for longest ago."""
        self.kept[game] = transcript
        while len(self.kept) > 1 and sum(map(len, self.kept.values())) > MOST_KEPT:
            self.kept.popitem(last=False)

    async def make(self, game: str) -> bytes:
        """Runs the program, and reads what it writes."""
        words = ("serve", "-", "--blocks", str(BLOCKS_OF_GAME), "--workers", "1")
        try:
            text = await asyncio.to_thread(commands_of, self.folder, game)
        except OSError as fault:
            raise NoTranscript(f"its file can't be read: {fault.strerror}") from None
        with TemporaryFile() as commands:
            commands.write(text)
            commands.seek(0)
            process = await asyncio.create_subprocess_exec(
                str(self.program),
                *words,
                stdin=commands,
                stdout=asyncio.subprocess.PIPE,
                stderr=asyncio.subprocess.DEVNULL,
            )
        assert process.stdout is not None
        try:
            limit(process.pid)
            async with asyncio.timeout(SERVE_SECONDS):
                text = await read_all(process.stdout)
                status = await process.wait()
        except TimeoutError:
            raise NoTranscript("arena serve took too long") from None
        finally:
            with suppress(ProcessLookupError):
                process.kill()
            await process.wait()
        if status != 0:
            raise NoTranscript(f"arena serve ended with status {status}")
        return text


def limit(pid: int) -> None:
    """Limits the time and the memory of a process, if it has not ended."""
    with suppress(ProcessLookupError):
        for what, most in ((resource.RLIMIT_CPU, PROCESSOR_SECONDS), (resource.RLIMIT_AS, MEMORY)):
            resource.prlimit(pid, what, (most, most))


async def read_all(stream: asyncio.StreamReader) -> bytes:
    """All that comes; raises `NoTranscript` if it is too long."""
    text = bytearray()
    while piece := await stream.read(PIECE):
        text += piece
        if len(text) > MOST_BYTES:
            raise NoTranscript("its transcript is too long for this page")
    return bytes(text)
