#!/usr/bin/env python3
"""Splits a command file of any number of games into files that `arena serve` accepts.

    examples/split.py PLAN_FILE --games N --into FOLDER

Each file has at most N games (N is 1 to 64), which follow each other in the plan, and their lines
in their order. The plan may have any number of rows, and PLAN_FILE any length. FOLDER must be new
or empty. It then holds

    0001.jsonl ..   the command files; a file has fewer games if it would be too long
    0001.lines ..   for each line of the file beside it, its number in PLAN_FILE
    files.tsv       a row for each file: file, blocks, memory, games, bytes; memory is in MB
    files.json      the games of each file with the number of their commands, and the stray lines:
                    what examples/merge.py reads

The plan has version 1 or 2. Lines are assigned to games as by the host (docs/FORMATS.md). The lines
that belong to no game are counted on the standard error and are in no file; the last line there has
the number of files.

Status 1, with the reason and without files.json: the plan is refused (P1, P2) or has version 3 or
5, the lines of one game make a file too long, or a file can't be read or written. 2: a fault of the
command line.
"""
import argparse
import json
import math
import mmap
import re
import sys
from array import array
from collections import Counter
from collections.abc import Iterator
from dataclasses import dataclass
from itertools import chain
from pathlib import Path

from round_robin import LONGEST_NAME, MOST_GAMES, blocks_for, line

LONGEST_FILE = 16_777_216  # bytes
LONGEST_LINE = 65_536  # bytes without the line feed
QUOTAS = range(16, 16_777_217)
VERSIONS = (1, 2)
WITH_STAYS = (3, 5)  # in which games can come and go
DEEPEST = 127  # nested arrays and objects
SPACE = b" \t\r\n"
WHY = {"L1": "json", "L2": "game", "L3": "long"}
BLOCK = 2.097152  # MB
BESIDE_BLOCKS = 64  # MB

STRING_OR_BRACKET = re.compile(r'"(?:[^"\\]|\\.)*"|[][{}]')
SHORT_ESCAPE_OR_PAIR = re.compile(r"\\(?:[^u]|u[dD][89abAB]..\\u[dD][c-fC-F]..)")
SURROGATE = re.compile(r"\\u[dD][89a-fA-F]")
SHORT_NUMERAL = 300  # digits, which always fit a binary64

Data = bytes | mmap.mmap


@dataclass(frozen=True)
class Game:
    name: str
    quota: int


@dataclass(frozen=True)
class Plan:
    version: int
    games: list[Game]


@dataclass(frozen=True)
class Routed:
    """The assignment of the lines of a file to games, by line numbers from 1."""

    starts: "array[int]"  # of each line, and the end of the last
    games: "list[array[int]]"  # the lines of each game
    strays: list[tuple[int, str]]


def finite(numeral: str) -> float:
    number = float(numeral)
    if math.isinf(number):
        raise ValueError(f"{numeral} is too large")
    return number


def whole(numeral: str) -> int | float:
    return int(numeral) if len(numeral) < SHORT_NUMERAL else finite(numeral)


def no_number(word: str) -> float:
    raise ValueError(f"{word} is no JSON")


DECODER = json.JSONDecoder(parse_int=whole, parse_float=finite, parse_constant=no_number)


def depth(text: str) -> int:
    """The depth to which arrays and objects are nested."""
    now = deepest = 0
    for found in STRING_OR_BRACKET.finditer(text):
        if found[0] in "[{":
            now += 1
            deepest = max(deepest, now)
        elif found[0] in "]}":
            now -= 1
    return deepest


def json_of(text: bytes) -> object:
    """Parses JSON as `serde_json` does; raises ValueError if it would refuse the text.

    Python's parser also accepts NaN, numbers beyond a binary64, lone surrogates and more nesting.
    """
    decoded = text.decode()
    if decoded.count("[") + decoded.count("{") > DEEPEST and depth(decoded) > DEEPEST:
        raise ValueError("too deep")
    if "\\u" in decoded and SURROGATE.search(SHORT_ESCAPE_OR_PAIR.sub(" ", decoded)):
        raise ValueError("a lone surrogate")
    return DECODER.decode(decoded)


def game_of(row: object) -> Game | None:
    """The game of a row; None if the host refuses the row."""
    if not isinstance(row, dict):
        return None
    name, quota = row.get("game"), row.get("quota")
    if not isinstance(name, str) or not 1 <= len(name.encode()) <= LONGEST_NAME:
        return None
    return Game(name, quota) if type(quota) is int and quota in QUOTAS else None


def plan_of(text: bytes) -> Plan:
    """Parses the plan in the first line; with over 64 rows it may be longer than other lines."""
    try:
        value = json_of(text)
    except ValueError:
        value = None
    if not isinstance(value, dict):
        raise ValueError("plan P1: the first line is no plan")
    version, rows = value.get("version", 1), value.get("games")
    if type(version) is int and version in WITH_STAYS:
        raise ValueError(
            f"a file of version {version} is not split: which games it admits depends on all its "
            "lines"
        )
    if type(version) is not int or version not in VERSIONS or not isinstance(rows, list):
        raise ValueError("plan P1: the first line is no plan of version 1 or 2")
    if len(text) > LONGEST_LINE and len(rows) <= MOST_GAMES:
        raise ValueError(f"plan P1: the first line has more than {LONGEST_LINE} bytes")
    games = [game_of(row) for row in rows]
    fit = [game for game in games if game is not None]
    if len(fit) < len(games):
        raise ValueError(f"plan P2: row {games.index(None) + 1} is bad")
    if len({game.name for game in fit}) < len(fit):
        name = Counter(game.name for game in fit).most_common(1)[0][0]
        raise ValueError(f"plan P2: two rows are named {name}")
    return Plan(version, fit)


def route_of(text: bytes, rows: dict[str, int]) -> int | str | None:
    """The row of the line's game, the code of a stray line, or None for a blank line."""
    if len(text) > LONGEST_LINE:
        return "L3"
    if not text.strip(SPACE):
        return None
    try:
        value = json_of(text)
    except ValueError:
        return "L1"
    if not isinstance(value, dict):
        return "L1"
    name = value.get("game")
    return rows.get(name, "L2") if isinstance(name, str) else "L2"


def line_starts(data: Data) -> "array[int]":
    """The start of each line, and of a line after the last; one byte ends each line."""
    starts = array("Q", [0])
    end = data.find(b"\n")
    while end >= 0:
        starts.append(end + 1)
        end = data.find(b"\n", end + 1)
    starts.append(len(data) + 1)
    return starts


def line_at(data: Data, starts: "array[int]", number: int) -> bytes:
    return data[starts[number - 1] : starts[number] - 1]


def routed(data: Data, plan: Plan, starts: "array[int]") -> Routed:
    rows = {game.name: row for row, game in enumerate(plan.games)}
    found = Routed(starts, [array("Q") for _ in plan.games], [])
    for number in range(2, len(starts)):
        route = route_of(line_at(data, starts, number), rows)
        if isinstance(route, int):
            found.games[route].append(number)
        elif route is not None:
            found.strays.append((number, route))
    return found


def row_text(game: Game) -> str:
    return line(game=game.name, quota=game.quota)


def plan_text(games: list[Game], version: int) -> str:
    rows = [{"game": game.name, "quota": game.quota} for game in games]
    return line(games=rows) if version == 1 else line(games=rows, version=version)


def groups(plan: Plan, found: Routed, most: int) -> Iterator[range]:
    """The rows of each file: at most `most`, and fewer if the file would be too long."""
    frame = len(plan_text([], plan.version))
    first, size = 0, frame
    for row, game in enumerate(plan.games):
        own = sum(found.starts[at] - found.starts[at - 1] for at in found.games[row])
        own += len(row_text(game).encode()) + 1
        if frame + own > LONGEST_FILE:
            alone = f"the file of the game {game.name} alone has {frame + own} bytes"
            raise ValueError(f"{alone}, and a file has at most {LONGEST_FILE}")
        if row - first == most or size + own > LONGEST_FILE:
            yield range(first, row)
            first, size = row, frame
        size += own
    if plan.games:
        yield range(first, len(plan.games))


def write_file(path: Path, data: Data, plan: Plan, found: Routed, rows: range) -> None:
    """Writes the command file of these rows, and a file with the number of each of its lines."""
    numbers = sorted(chain.from_iterable(found.games[row] for row in rows))
    with open(path, "wb") as file:
        file.write(plan_text(plan.games[rows.start : rows.stop], plan.version).encode() + b"\n")
        for number in numbers:
            file.write(line_at(data, found.starts, number) + b"\n")
    path.with_suffix(".lines").write_text("".join(f"{number}\n" for number in [1, *numbers]))


def write_files(folder: Path, data: Data, plan: Plan, found: Routed, most: int) -> list[list[int]]:
    """Writes the folder. Returns the blocks and the memory of each file."""
    parts = list(groups(plan, found, most))
    folder.mkdir(parents=True, exist_ok=True)
    if any(folder.iterdir()):
        raise ValueError(f"{folder} is not empty")
    table, files = [], []
    for at, rows in enumerate(parts, 1):
        path = folder / f"{at:04}.jsonl"
        write_file(path, data, plan, found, rows)
        blocks = sum(blocks_for(1, plan.games[row].quota) for row in rows)
        memory = math.ceil(blocks * BLOCK) + BESIDE_BLOCKS
        table.append((path.name, blocks, memory, len(rows), path.stat().st_size))
        games = [[plan.games[row].name, len(found.games[row])] for row in rows]
        files.append({"file": path.name, "games": games})
    heads = ("file", "blocks", "memory", "games", "bytes")
    rows_of_text = ["\t".join(map(str, row)) + "\n" for row in (heads, *table)]
    (folder / "files.tsv").write_text("".join(rows_of_text))
    (folder / "files.json").write_bytes(line(files=files, strays=found.strays).encode() + b"\n")
    return [list(row[1:3]) for row in table]


def describe_strays(strays: list[tuple[int, str]]) -> str:
    counts = Counter(f"{code} {WHY[code]}" for _, code in strays)
    each = ", ".join(f"{word} {count}" for word, count in sorted(counts.items()))
    return f"lines of no game: {each}; the first is line {strays[0][0]}"


def split(path: Path, most: int, folder: Path) -> str:
    """Writes the folder, and returns the text for the standard error."""
    with open(path, "rb") as file:
        empty = path.stat().st_size == 0
        data: Data = b"" if empty else mmap.mmap(file.fileno(), 0, access=mmap.ACCESS_READ)
        starts = line_starts(data)
        plan = plan_of(line_at(data, starts, 1))
        found = routed(data, plan, starts)
        sizes = write_files(folder, data, plan, found, most)
    summary = [describe_strays(found.strays)] if found.strays else []
    games, files = len(plan.games), len(sizes)
    counts = f"{games} game{'s' * (games != 1)} in {files} file{'s' * (files != 1)}"
    summary.append(f"{counts} of at most {most}")
    if sizes:
        blocks, memory = map(max, zip(*sizes))
        summary[-1] += f": --array=1-{len(sizes)} --mem={memory} ({blocks} blocks at most)"
    return "\n".join(summary)


def games_to_a_file(word: str) -> int:
    most = int(word)
    if not 1 <= most <= MOST_GAMES:
        raise argparse.ArgumentTypeError(f"a file has 1 to {MOST_GAMES} games")
    return most


def main() -> None:
    raw = argparse.RawDescriptionHelpFormatter
    parser = argparse.ArgumentParser(description=__doc__, formatter_class=raw)
    parser.add_argument("plan_file", metavar="PLAN_FILE", type=Path)
    parser.add_argument("--games", metavar="N", type=games_to_a_file, required=True)
    parser.add_argument("--into", metavar="FOLDER", type=Path, required=True)
    given = parser.parse_args()
    try:
        print(split(given.plan_file, given.games, given.into), file=sys.stderr)
    except (OSError, ValueError) as fault:
        sys.exit(f"split: {fault}")


if __name__ == "__main__":
    main()
