"""The commands that change the bots of an endless ladder, also while it is played."""

from __future__ import annotations

import argparse
from pathlib import Path
from typing import Any

from arena_ladder.results.roster import add, mark, replace

WORDS = {
    "add": "adds a bot to an endless ladder",
    "replace": "replaces a bot by its next version",
    "remove": "removes a bot; its results stay",
    "pause": "draws no game of a bot until it is resumed",
    "resume": "draws games of a bot again",
}


def run_change(given: argparse.Namespace) -> int:
    """Changes the roster of a folder."""
    if given.what == "add":
        said = add(given.folder, given.name, given.url)
    elif given.what == "replace":
        said = replace(given.folder, given.name, given.url)
    else:
        said = mark(given.folder, given.what, given.name)
    print(f"ladder: {said}")
    return 0


def add_roster_commands(commands: Any) -> None:
    """Adds the commands to a parser's."""
    for what, help in WORDS.items():
        one = commands.add_parser(what, help=help)
        one.add_argument("folder", metavar="FOLDER", type=Path)
        one.add_argument("name", metavar="NAME")
        if what in ("add", "replace"):
            one.add_argument("url", metavar="URL")
        one.set_defaults(run=run_change, what=what)
