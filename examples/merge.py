#!/usr/bin/env python3
"""Merges the transcripts of the files that examples/split.py wrote.

    examples/merge.py FOLDER > TRANSCRIPT

FOLDER/NAME.transcript is what `arena serve FOLDER/NAME.jsonl` wrote. The result has the games in
the order of the whole file's plan and then its stray lines, with their numbers in the whole file.
These are the bytes that one host would write for the file if it could have that many games.

Before anything is written, each transcript is checked: it has a reply for each command of each of
its games, numbered from 1, and each game's final line. Status 1, with the reason and nothing
written, if one is missing or incomplete; 2: a fault of the command line.
"""
import argparse
import json
import shutil
import sys
from collections.abc import Iterator
from pathlib import Path
from typing import IO

from round_robin import line
from split import WHY


def wanted(games: list[tuple[str, int]]) -> Iterator[tuple[str, int | None]]:
    """The game and the number of each line of a transcript; a final line has none."""
    for game, commands in games:
        for seq in range(1, commands + 1):
            yield game, seq
        yield game, None


def fault_of(path: Path, games: list[tuple[str, int]]) -> str | None:
    """Why the transcript is not that of these games; None if it is."""
    rest = wanted(games)
    number = 0
    with open(path, "rb") as file:
        for number, text in enumerate(file, 1):
            try:
                reply = json.loads(text)
                found = reply.get("game"), reply.get("seq")
            except (ValueError, AttributeError):
                return f"{path}: line {number} is no line of a transcript"
            if found != next(rest, None) or not text.endswith(b"\n"):
                return f"{path}: line {number} is not the one that comes next"
    missing = sum(1 for _ in rest)
    return f"{path}: it ends after line {number}, {missing} too early" if missing else None


def merge(folder: Path, out: IO[bytes]) -> None:
    listed = json.loads((folder / "files.json").read_bytes())
    paths = [(folder / it["file"]).with_suffix(".transcript") for it in listed["files"]]
    absent = [path.name for path in paths if not path.exists()]
    if absent:
        raise ValueError(f"{len(absent)} of {len(paths)} are missing: {', '.join(absent)}")
    for path, it in zip(paths, listed["files"]):
        fault = fault_of(path, it["games"])
        if fault:
            raise ValueError(fault)
    for path in paths:
        with open(path, "rb") as file:
            shutil.copyfileobj(file, out)
    for number, code in listed["strays"]:
        out.write(line(line=number, no=code, why=WHY[code]).encode() + b"\n")


def main() -> None:
    raw = argparse.RawDescriptionHelpFormatter
    parser = argparse.ArgumentParser(description=__doc__, formatter_class=raw)
    parser.add_argument("folder", metavar="FOLDER", type=Path)
    try:
        merge(parser.parse_args().folder, sys.stdout.buffer)
        sys.stdout.flush()
    except (OSError, ValueError) as fault:
        sys.exit(f"merge: {fault}")


if __name__ == "__main__":
    main()
