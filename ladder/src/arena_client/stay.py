"""A game in a host, from its admission until it leaves."""

from __future__ import annotations

import hashlib
from collections.abc import Iterable, Mapping, Sequence
from typing import TYPE_CHECKING, Any, Protocol

from arena_client.faults import Refused
from arena_client.lines import Accepted, Board, Cell, Final, Reply, Start, line_of

if TYPE_CHECKING:
    from arena_client.host import Host


class Log(Protocol):
    """A file to which a stay's lines are written before they are sent."""

    def write(self, data: bytes, /) -> object:
        ...


class Stay:
    """A game from its admission until it leaves, one command at a time.

    `charge` is the charge of the kept records in bytes, `replies` the number of lines that the host
    wrote for the stay. Each command raises `Refused` if the host refuses it, and `HostDied` if the
    host has ended.
    """

    def __init__(self, host: Host, name: str, log: Log | None) -> None:
        self.host = host
        self.name = name
        self.log = log
        self.charge = 0
        self.replies = 0
        self.is_open = True
        self._board: Board | None = None
        self._digest = hashlib.sha256()

    @property
    def board(self) -> Board:
        """The last board; raises `LookupError` if there was none yet."""
        if self._board is None:
            raise LookupError(f"the game {self.name} has not begun")
        return self._board

    @property
    def digest(self) -> str:
        """The SHA-256 of the lines that the host wrote for this stay so far."""
        return self._digest.hexdigest()

    async def new(
        self,
        *,
        mode: str,
        width: int,
        height: int,
        snakes: Sequence[Start],
        food: Sequence[Cell] = (),
        **more: int | Sequence[Cell],
    ) -> Board:
        """Begins the game. The other members are `min_food`, `food_chance`, and in a host with
        `PLAN_WITH_HAZARDS` `hazards` and `hazard_damage`; docs/FORMATS.md has their usual values.
        """
        members = {"mode": mode, "width": width, "height": height, "snakes": snakes, "food": food}
        await self._command("new", **members, **more)
        return self.board

    async def move(
        self, moves: Mapping[str, str], words: Iterable[int] = (), **more: Sequence[Cell]
    ) -> Board:
        """Plays a turn. A snake without a direction goes straight on. A host with
        `PLAN_WITH_HAZARDS` takes the members `hazards` and `food` too.
        """
        await self._command("move", moves=dict(sorted(moves.items())), words=list(words), **more)
        return self.board

    async def show(self) -> Board:
        """Asks for the last board."""
        await self._command("show")
        return self.board

    async def turn(self, at: int) -> Board:
        """Asks for the board of a turn whose record is kept; it becomes the last board here."""
        await self._command("turn", at=at)
        return self.board

    async def free(self) -> None:
        """Frees all records but the last."""
        await self._command("free")

    async def end(self) -> None:
        """Ends the game, and frees all its records."""
        await self._command("end")

    async def leave(self) -> Board | None:
        """Closes the stay; returns the last board, None if no game runs."""
        return (await self._command("leave")).get("board")

    async def replay(self, lines: Iterable[bytes]) -> None:
        """Sends lines that are in the log already, and waits for all answers."""
        waiting = [await self.host.send(line, self) for line in lines]
        for answer in waiting:
            self._taken(await answer)

    def write(self, line: bytes) -> None:
        """Writes a line to the log."""
        if self.log is not None:
            self.log.write(line)

    def count(self, line: bytes) -> None:
        """Adds a line of the host to the digest and counts it."""
        self._digest.update(line)
        self.replies += 1

    async def _command(self, do: str, **members: Any) -> Accepted | Final:
        line = line_of(game=self.name, do=do, **members)
        self.write(line)
        return self._taken(await self.host.ask(line, self))

    def _taken(self, reply: Reply | None) -> Accepted | Final:
        """Keeps what an accepted command changed; raises `Refused` for another reply."""
        assert reply is not None, "only an admission has no reply"
        if "no" in reply:
            raise Refused(reply["no"], reply["why"])
        self.charge = reply["charge"]
        self._board = reply.get("board") or self._board
        self.is_open = "final" not in reply
        return reply
