"""What is wrong with a plan, an admission or a command: their schemas, and what no schema says."""

from __future__ import annotations

from collections.abc import Iterable, Iterator, Sequence
from dataclasses import replace
from typing import Any

from checker.schemas import Fault, schema_of, shown

Path = tuple[str | int, ...]  # of a member

LONGEST_NAME = 64  # bytes
WORDS = ("new", "move", "show", "turn", "free", "end")
STAY_WORDS = ("admit", "leave")  # from version 3 on
NEW = {1: "new_1", 2: "new_2", 3: "new_2", 5: "new_5"}
MOVE = {1: "move_1", 2: "move_1", 3: "move_1", 5: "move_5"}
DIRECTIONS = ("up", "down", "left", "right")
COMMAND_SCHEMA, PLAN_SCHEMA = "command.json", "plan.json"


def is_long(name: str) -> bool:
    """Whether a name or an id is too long; its characters are counted by the schema."""
    return len(name.encode()) > LONGEST_NAME


def long_names(names: Iterable[tuple[Path, str]]) -> Iterator[Fault]:
    """The faults of the names that have too many bytes, each with its path."""
    for path, name in names:
        if is_long(name):
            count = len(name.encode())
            yield Fault(path, f"{count} bytes are not a text of 1 to {LONGEST_NAME} bytes")


def repeated(values: Iterable[tuple[Path, Any]]) -> Iterator[Fault]:
    """The faults of the values that occurred before, each with its path."""
    first: dict[Any, Path] = {}
    for path, value in values:
        if value in first:
            what = f"x {value[0]}, y {value[1]}" if isinstance(value, tuple) else shown(value)
            yield Fault(path, f"{what} is that of {Fault(first[value], '').where()} too")
        first.setdefault(value, path)


def plan_faults(plan: Any) -> list[Fault]:
    """What is wrong with a plan."""
    faults = schema_of(PLAN_SCHEMA).faults(plan)
    rows = plan.get("games") if isinstance(plan, dict) else None
    if not isinstance(rows, list):
        return faults
    named = [
        (("games", at, "game"), row["game"])
        for at, row in enumerate(rows)
        if isinstance(row, dict) and isinstance(row.get("game"), str)
    ]
    return [*faults, *long_names(named), *repeated(named)]


def plan_code(faults: Sequence[Fault]) -> str:
    """The code with which the host refuses a plan with these faults."""
    if any(len(it.path) < 2 and it.keyword != "maxItems" for it in faults):
        return "P1"
    return "P2" if any(len(it.path) > 1 for it in faults) else "P3"


def admit_faults(line: Any) -> list[Fault]:
    """What is wrong with an admission."""
    faults = schema_of(COMMAND_SCHEMA, "admit").faults(line)
    name = line.get("game")
    return [*faults, *long_names([(("game",), name)] if isinstance(name, str) else [])]


def cells_of(line: Any, member: str) -> list[tuple[Path, tuple[int, int]]]:
    """The cells of a list, with their paths."""
    return [((member, at), (it["x"], it["y"])) for at, it in enumerate(line.get(member, []))]


def off_board(line: Any, members: Iterable[str]) -> Iterator[Fault]:
    """The coordinates of the lists of a `new` that are not on its board."""
    for member in members:
        for path, (x, y) in cells_of(line, member):
            if x >= line["width"]:
                yield Fault((*path, "x"), f"{x} is not below width {line['width']}")
            if y >= line["height"]:
                yield Fault((*path, "y"), f"{y} is not below height {line['height']}")


def new_faults(line: Any, version: int) -> list[Fault]:
    """What is wrong with a `new`. What the schema does not say is looked at where it holds."""
    faults = schema_of(COMMAND_SCHEMA, NEW[version]).faults(line)
    if version == 1 and line.get("mode") == "wrapped":
        more = '; that mode is for a plan with "version":2, 3 or 5'
        faults = [
            replace(it, message=it.message + more) if it.path == ("mode",) else it for it in faults
        ]
    if faults:
        return faults
    ids = [(("snakes", at, "id"), snake["id"]) for at, snake in enumerate(line["snakes"])]
    members = ["snakes", "food", "hazards"] if version >= 5 else ["snakes", "food"]
    return [
        *off_board(line, members),
        *long_names(ids),
        *repeated(ids),
        *repeated(cells_of(line, "snakes")),
        *repeated(cells_of(line, "food")),
    ]


def word_fault(line: Any, version: int) -> Fault:
    """The fault of a `do` that is no command."""
    words = WORDS + STAY_WORDS if version >= 3 else WORDS
    be = f"{', '.join(map(shown, words[:-1]))} or {shown(words[-1])}"
    if "do" not in line:
        return Fault(("do",), f"is missing; it has to be {be}")
    return Fault(("do",), f"{shown(line['do'])} is not {be}")


def command_faults(line: Any, version: int) -> list[Fault]:
    """What is wrong with a command of a game, in a file of that version."""
    word = line.get("do")
    if not isinstance(word, str) or word not in WORDS:
        return [word_fault(line, version)]
    if word == "new":
        return new_faults(line, version)
    if word == "move":
        return schema_of(COMMAND_SCHEMA, MOVE[version]).faults(line)
    return schema_of(COMMAND_SCHEMA, word).faults(line)


def unread_members(line: Any, file: str, name: str = "") -> Iterator[Fault]:
    """The members of a plan or a command that the host does not read."""
    for member in line:
        if member not in schema_of(file, name).members and member != "game":
            yield Fault((member,), "no such member is read here")


def unread_in_command(line: Any, version: int) -> Iterator[Fault]:
    """The members of a command that the host does not read."""
    word = line["do"]
    name = {"new": NEW[version], "move": MOVE[version]}.get(word, word)
    yield from unread_members(line, COMMAND_SCHEMA, name)


def idle_moves(moves: dict[str, Any], ids: set[str]) -> Iterator[Fault]:
    """The members of `moves` that have no effect. `ids` are those of all snakes that the game has
    had; none if they are not known."""
    for snake, step in moves.items():
        if ids and snake not in ids:
            yield Fault(("moves", snake), "no snake of the game has this id")
        elif step not in DIRECTIONS:
            be = f"{', '.join(DIRECTIONS[:-1])} or {DIRECTIONS[-1]}"
            yield Fault(("moves", snake), f"{shown(step)} is not {be}: the snake goes straight on")
