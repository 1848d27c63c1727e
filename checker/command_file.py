"""The check of a whole command file: each line that the host refuses, and the blocks it needs.

The stays are followed as docs/FORMATS.md has them, with as many blocks as the file can need. How
the games go is not followed, so the refusals G2 to G7 are not found.
"""

from __future__ import annotations

from collections import Counter
from collections.abc import Iterable
from dataclasses import dataclass, field
from typing import Any

from checker.commands import (
    PLAN_SCHEMA,
    STAY_WORDS,
    WORDS,
    admit_faults,
    command_faults,
    idle_moves,
    plan_code,
    plan_faults,
    unread_in_command,
    unread_members,
)
from checker.json_text import JsonFault, parse
from checker.schemas import Fault, shown

MOST_FILE = 16_777_216  # bytes
MOST_LINE = 65_536  # bytes
MOST_GAMES = 64  # open at once
SPACE = b" \t\n\r"
QUOTA_OF_BLOCK = 1_835_008
MORE_BLOCKS = 6  # 2 for the records of a game, and 4 for the parts of a turn
WHY = {
    "file": "file too long",
    "P1": "plan",
    "P2": "plan",
    "P3": "plan",
    "L1": "json",
    "L2": "game",
    "L3": "long",
    "A1": "admit",
    "A2": "open",
    "A3": "games",
    "A5": "none",
    "G1": "command",
}


@dataclass(frozen=True)
class Refusal:
    """Why the host refuses a line."""

    line: int
    code: str
    message: str
    path: str = ""
    column: int | None = None

    def why(self) -> str:
        """The word that the host writes beside the code."""
        return WHY[self.code]

    def text(self) -> str:
        """The refusal in one line."""
        where = f", column {self.column}" if self.column else ""
        path = f"{self.path}: " if self.path else ""
        return f"line {self.line}{where}: {path}{self.message} ({self.code} {self.why()})"


@dataclass(frozen=True)
class Note:
    """What the host takes in a line, but has no effect."""

    line: int
    path: str
    message: str

    def text(self) -> str:
        """The note in one line."""
        return f"line {self.line}: note: {self.path}: {self.message}"


def blocks_of(quota: int) -> int:
    """The blocks that a game reserves."""
    return quota // QUOTA_OF_BLOCK + MORE_BLOCKS


@dataclass
class Checked:
    """What was found in a file."""

    refusals: list[Refusal] = field(default_factory=list)
    notes: list[Note] = field(default_factory=list)
    version: int = 1
    plan_blocks: int = 0
    most_blocks: int = 0  # at the busiest moment
    most_open: int = 0
    stays: int = 0
    lines: int = 0
    commands: Counter[str] = field(default_factory=Counter)

    def refused_lines(self) -> dict[int, str]:
        """The code of each refused line."""
        return {it.line: it.code for it in self.refusals}


class Check:
    """The check of one file, line by line."""

    def __init__(self) -> None:
        self.found = Checked()
        self.open: dict[str, int] = {}  # the blocks of each open stay
        self.ids: dict[str, set[str]] = {}  # of the snakes of each open stay
        self.blocks = 0  # of all of them

    def refuse(self, line: int, code: str, message: str, path: str = "") -> None:
        """Notes a refusal."""
        self.found.refusals.append(Refusal(line, code, message, path))

    def note(self, number: int, faults: Iterable[Fault]) -> None:
        """Notes what has no effect."""
        notes = self.found.notes
        notes.extend(Note(number, fault.where(), fault.message) for fault in faults)

    def parsed(self, number: int, line: bytes, code: str) -> Any:
        """The value of a line; None, and a refusal, if it is no JSON."""
        try:
            return parse(line)
        except JsonFault as fault:
            refusal = Refusal(number, code, fault.message, column=fault.column)
            self.found.refusals.append(refusal)
            return None

    def plan(self, line: bytes) -> bool:
        """Reads the first line. Returns whether the host takes it."""
        if len(line) > MOST_LINE:
            self.refuse(1, "P1", f"{len(line)} bytes are more than {MOST_LINE}")
            return False
        plan = self.parsed(1, line, "P1")
        if self.found.refusals:
            return False
        faults = plan_faults(plan)
        for fault in faults:
            self.refuse(1, plan_code(faults), fault.message, fault.where())
        if faults:
            return False
        self.found.version = plan.get("version", 1)
        self.note(1, unread_members(plan, PLAN_SCHEMA))
        for row in plan["games"]:
            self.admit(row["game"], row["quota"])
        self.found.plan_blocks = self.blocks
        return True

    def admit(self, game: str, quota: int) -> None:
        """Opens a stay."""
        self.open[game] = blocks_of(quota)
        self.ids[game] = set()
        self.blocks += self.open[game]
        found = self.found
        found.stays += 1
        found.most_open = max(found.most_open, len(self.open))
        found.most_blocks = max(found.most_blocks, self.blocks)

    def line(self, number: int, line: bytes) -> None:
        """Reads a line after the first."""
        if len(line) > MOST_LINE:
            self.refuse(number, "L3", f"{len(line)} bytes are more than {MOST_LINE}")
        elif line.strip(SPACE):
            before = len(self.found.refusals)
            value = self.parsed(number, line, "L1")
            if len(self.found.refusals) > before:
                return
            if isinstance(value, dict):
                self.object(number, value)
            else:
                self.refuse(number, "L1", f"{shown(value)} is no object")

    def object(self, number: int, line: Any) -> None:
        """Reads a line that is an object."""
        word = line.get("do")
        if self.found.version >= 3 and word == "admit":
            self.admission(number, line)
        elif self.found.version >= 3 and word == "leave":
            self.leave(number, line)
        elif self.names_open_game(number, line, "L2"):
            self.command(number, line)

    def names_open_game(self, number: int, line: Any, code: str) -> bool:
        """Whether a line names an open game; if not, it is refused."""
        game = line.get("game")
        if isinstance(game, str) and game in self.open:
            return True
        message = f"{shown(game)} is no open game"
        if "game" not in line:
            message = "is missing; it has to be the name of an open game"
        elif self.found.version < 3 and line.get("do") in STAY_WORDS:
            message += f'; {shown(line["do"])} is for a plan with "version":3 or 5'
        self.refuse(number, code, message, "game")
        return False

    def admission(self, number: int, line: Any) -> None:
        """Reads a line that admits a game."""
        faults = admit_faults(line)
        for fault in faults:
            self.refuse(number, "A1", fault.message, fault.where())
        if faults:
            return
        if line["game"] in self.open:
            self.refuse(number, "A2", f"{shown(line['game'])} is open", "game")
        elif len(self.open) == MOST_GAMES:
            self.refuse(number, "A3", f"{MOST_GAMES} games are open")
        else:
            self.admit(line["game"], line["quota"])
            self.found.commands["admit"] += 1

    def leave(self, number: int, line: Any) -> None:
        """Reads a line with which a game leaves."""
        if self.names_open_game(number, line, "A5"):
            self.blocks -= self.open.pop(line["game"])
            self.found.commands["leave"] += 1

    def command(self, number: int, line: Any) -> None:
        """Reads a command of an open game."""
        faults = command_faults(line, self.found.version)
        for fault in faults:
            self.refuse(number, "G1", fault.message, fault.where())
        word, ids = line.get("do"), self.ids[line["game"]]
        if word in WORDS:
            self.note(number, unread_in_command(line, self.found.version))
        if faults:
            return
        self.found.commands[word] += 1
        if word == "new":
            ids.update(snake["id"] for snake in line["snakes"])
        elif word == "move":
            self.note(number, idle_moves(line["moves"], ids))


def check(text: bytes) -> Checked:
    """Checks the bytes of a command file. A refused plan ends the check, as it ends a run."""
    checking = Check()
    if len(text) > MOST_FILE:
        checking.refuse(1, "file", f"the file has more than {MOST_FILE} bytes")
        return checking.found
    first, *rest = text.split(b"\n")
    if checking.plan(first):
        read_lines(checking, rest)
    checking.found.lines = len(rest) + 1 - text.endswith(b"\n")
    return checking.found


def read_lines(checking: Check, lines: Iterable[bytes]) -> None:
    """Checks the lines after the first."""
    for number, line in enumerate(lines, start=2):
        checking.line(number, line)
