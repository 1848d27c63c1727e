"""A running `arena live`.

The host answers lines in their order, so each line of its output answers the first line sent that
has no answer yet. A task reads the output all the time, so no pipe fills up during a write.
"""

from __future__ import annotations

import asyncio
import shutil
from collections import deque
from contextlib import suppress
from dataclasses import dataclass
from pathlib import Path

from arena_client.faults import HostDied, HostFault, Refused
from arena_client.lines import NO_GAME, PLAN, Reply, line_of, reply_of
from arena_client.stay import Log, Stay

QUOTA = 1_835_007  # the largest quota of a game that needs only BLOCKS_OF_GAME
BLOCKS_OF_GAME = 6
LONGEST_LINE = 16 * 1024 * 1024  # of the host's output; the longest board has 1.3 MB
CLOSING_SECONDS = 30


def usual_program() -> Path:
    """The built program of the repository around this package, or else the installed one."""
    built = Path(__file__).resolve().parents[3] / "crates/arena/out/arena"
    installed = shutil.which("arena")
    return built if built.is_file() or installed is None else Path(installed)


PROGRAM = usual_program()


@dataclass(slots=True)
class Asked:
    """A line that was sent and has no answer yet."""

    number: int
    stay: Stay | None
    is_admit: bool
    answer: asyncio.Future[Reply | None]

    def is_answered_by(self, reply: Reply) -> bool:
        """Whether a reply of the host answers this line: by its line number or its game."""
        if "line" in reply:
            return reply["line"] == self.number
        if self.stay is None or self.is_admit:
            return False
        return reply.get("game") == self.stay.name

    def settle(self, reply: Reply | None) -> None:
        """Completes the answer; None means that the line was accepted without a reply."""
        if not self.answer.done():
            self.answer.set_result(reply)

    def fail(self, fault: Exception) -> None:
        if not self.answer.done():
            self.answer.set_exception(fault)
            self.answer.exception()  # marks it as retrieved: nobody has to await it


@dataclass(frozen=True, slots=True)
class Running:
    """The process of a host, and the task that reads its output."""

    process: asyncio.subprocess.Process
    reader: asyncio.Task[None]

    @property
    def input(self) -> asyncio.StreamWriter:
        assert self.process.stdin is not None
        return self.process.stdin


class Host:
    """A running `arena live`. `blocks` is the number of memory blocks that its open games share,
    `plan` the first line of its input, `program` the path of arena if it is not `PROGRAM`.

    `start` starts it. As an `async with` context it is started, and closed at the end of the block;
    if the block raises an exception, it is killed. Any number of tasks may use one host, each with
    separate stays.
    """

    def __init__(
        self, blocks: int = 64, program: Path | str | None = None, plan: bytes = PLAN
    ) -> None:
        self.blocks = blocks
        self.program = Path(program or PROGRAM)
        self.plan = plan
        self.lines_sent = 0
        self._running: Running | None = None
        self._asked: deque[Asked] = deque()
        self._fault: Exception | None = None
        self._closing = False

    async def __aenter__(self) -> Host:
        await self.start()
        return self

    async def __aexit__(self, kind: type[BaseException] | None, *_: object) -> None:
        await (self.close() if kind is None else self.kill())

    async def start(self) -> None:
        """Starts the program."""
        process = await asyncio.create_subprocess_exec(
            self.program,
            *("live", "--blocks", str(self.blocks)),
            stdin=asyncio.subprocess.PIPE,
            stdout=asyncio.subprocess.PIPE,
            stderr=asyncio.subprocess.PIPE,
            limit=LONGEST_LINE,
            start_new_session=True,  # Ctrl-C ends this program alone, not the host
        )
        self._running = Running(process, asyncio.create_task(self._read(process)))
        with suppress(HostDied):  # the first call raises it
            await self._write(self._running, self.plan)

    async def close(self) -> None:
        """Closes its input and waits for its end; raises `HostDied` if its status is not 0."""
        status = await self._end_input()
        if status != 0:
            raise self._fault or HostDied(status)

    async def kill(self) -> None:
        """Kills it if it runs, and waits for its end."""
        if self.running.process.returncode is None:
            self.running.process.kill()
        await self._end_input()

    async def _end_input(self) -> int:
        """Closes its input, and waits for its end; returns its status."""
        self._closing = True
        running = self.running
        running.input.close()
        try:
            await asyncio.wait_for(running.reader, CLOSING_SECONDS)
        except asyncio.TimeoutError:
            running.process.kill()
        status = await running.process.wait()
        with suppress(ConnectionError):
            await running.input.wait_closed()
        return status

    @property
    def running(self) -> Running:
        if self._running is None:
            raise HostFault("the host was not started")
        return self._running

    @property
    def pid(self) -> int:
        return self.running.process.pid

    async def admit(self, name: str, quota: int = QUOTA, log: Log | None = None) -> Stay:
        """Admits a game under a name of 1 to 64 bytes; raises `Refused` if the host refuses it.

        The lines of the stay are written to the log before they are sent, this one too. An accepted
        admission has no reply. So a line of no game follows it, whose reply shows the acceptance.
        """
        stay = Stay(self, name, log)
        line = line_of(game=name, do="admit", quota=quota)
        stay.write(line)
        admitted = await self.send(line, stay, is_admit=True)
        await self.ask(NO_GAME)
        reply = await admitted
        if reply is not None and "no" in reply:
            raise Refused(reply["no"], reply["why"])
        return stay

    async def ask(self, line: bytes, stay: Stay | None = None) -> Reply | None:
        """Sends a line, and waits for its answer."""
        return await (await self.send(line, stay))

    async def send(
        self, line: bytes, stay: Stay | None = None, is_admit: bool = False
    ) -> asyncio.Future[Reply | None]:
        """Sends a line, and returns the future of its answer."""
        running = self.running
        if self._fault is not None:
            raise self._fault
        answer = asyncio.get_running_loop().create_future()
        self._asked.append(Asked(self.lines_sent + 1, stay, is_admit, answer))
        await self._write(running, line)
        return answer

    async def _write(self, running: Running, line: bytes) -> None:
        self.lines_sent += 1
        with suppress(ConnectionError):
            if not running.input.is_closing():
                running.input.write(line)
                await running.input.drain()
                return
        await asyncio.wait([running.reader])  # it finds the reason why the input is closed
        assert self._fault is not None
        raise self._fault

    async def _read(self, process: asyncio.subprocess.Process) -> None:
        """Reads the lines of the host until it ends."""
        assert process.stdout is not None and process.stderr is not None
        try:
            async for line in process.stdout:
                self._take(line)
        except (HostFault, ValueError) as fault:
            process.kill()
            self._end(fault)
        error = await process.stderr.read()
        self._end(HostDied(await process.wait(), error.decode(errors="replace").strip()))

    def _take(self, line: bytes) -> None:
        """Passes a reply to the line that it answers; admissions before that were accepted."""
        reply = reply_of(line)
        if reply is None:
            raise HostFault(f"arena live wrote no line of a transcript: {line[:200]!r}")
        while self._asked:
            asked = self._asked[0]
            is_answered = asked.is_answered_by(reply)
            if not is_answered and not asked.is_admit:
                break
            self._asked.popleft()
            asked.settle(reply if is_answered else None)
            if is_answered:
                if asked.stay is not None and "line" not in reply:
                    asked.stay.count(line)
                return
        if not (self._closing and "final" in reply):
            raise HostFault(f"arena live wrote a line that answers nothing: {line[:200]!r}")

    def _end(self, fault: Exception) -> None:
        """Fails all lines without an answer, and all that will be sent."""
        self._fault = self._fault or fault
        while self._asked:
            self._asked.popleft().fail(self._fault)
