"""The commands for authors of bots and for other programs: matches, logs, and exports."""

from __future__ import annotations

import argparse
import asyncio
import json
import sys
from contextlib import closing
from pathlib import Path
from typing import Any

from arena_ladder.commands.match import Boards, match_config, new_folder, result_lines
from arena_ladder.commands.program import add_program, program_of
from arena_ladder.commands.view import print_all, step_through
from arena_ladder.game.config import MAPS, MODES
from arena_ladder.game.game_files import make_folders
from arena_ladder.game.pairing import Part
from arena_ladder.game.watch import Watch
from arena_ladder.page.viewer_page import viewer_page
from arena_ladder.results.bot_log import HEADING, BotLog, read_log
from arena_ladder.results.export import frames, game_rows, request_body, transcript_of
from arena_ladder.results.kept_answers import rows_of_answers
from arena_ladder.results.lock import locked
from arena_ladder.results.packs import commands_of
from arena_ladder.results.seeds import with_seed
from arena_ladder.results.store import Store, StoreFault, open_store
from arena_ladder.run.play import Job, play
from arena_ladder.texts import counted

RULES = ("mode", "map", "width", "height", "seed", "timeout", "turns")


class Says(Watch):
    """Prints messages."""

    def say(self, text: str) -> None:
        print(f"ladder: {text}", file=sys.stderr)


def run_match(given: argparse.Namespace) -> int:
    """Plays one game, and shows it or says where it is."""
    program = program_of(given)
    members: dict[str, Any] = {name: getattr(given, name) for name in RULES}
    match_config(Path("out"), given.bots, members)  # finds faults before the folder is made
    folder = new_folder()
    config = with_seed(match_config(folder, given.bots, members))
    boards, says = Boards(), Says()

    async def work() -> None:
        async with BotLog(folder, says.say) as log:
            await play(Job(config, folder, Part(1, 1), program), store, [boards, says, log])

    make_folders(folder)
    with locked(folder), closing(Store(folder)) as store:
        asyncio.run(work())
    assert boards.outcome is not None
    text = transcript_of(commands_of(folder, boards.outcome.name), program)
    (folder / "game.transcript").write_bytes(text)
    if given.view:
        shown = step_through if sys.stdin.isatty() and sys.stdout.isatty() else print_all
        shown(boards.boards)
    print("\n".join([*result_lines(boards.outcome), *boards.missed_lines()]))
    link = folder / "game.html"
    answers = json.dumps(rows_of_answers(folder, boards.outcome.name))
    link.write_text(viewer_page(f"match {folder.name}", text, answers))
    print(f"{link.resolve().as_uri()} opens in a browser")
    return 0


def run_log(given: argparse.Namespace) -> int:
    """Prints what a bot was asked and answered."""
    with closing(open_store(given.folder)) as store:
        if given.bot not in {bot.name for bot in store.bots()}:
            raise StoreFault(f"{given.folder} has no bot {given.bot!r}")
    print(HEADING)
    for asked in read_log(given.folder, given.bot):
        if given.game in (None, asked.game) and (asked.cause is not None or not given.missed):
            print(asked.line())
    return 0


def run_export(given: argparse.Namespace) -> int:
    """Prints a game as the official engine's frames, or the body of one request."""
    program = program_of(given, given.folder)
    if given.bot is not None:
        turn = 0 if given.turn is None else given.turn
        sys.stdout.buffer.write(request_body(given.folder, given.game, given.bot, turn, program))
        return 0
    for line in frames(given.folder, given.game, program):
        print(line)
    return 0


def run_games(given: argparse.Namespace) -> int:
    """Prints a list of the finished games."""
    rows = game_rows(given.folder)
    if given.json:
        print(json.dumps(rows, indent=2))
        return 0
    for row in rows:
        bots = " - ".join(row["bots"])
        turns = counted(row["turns"], "turn", "5")
        print(f"{row['game']}  {turns:11}  {row['winner'] or '-'}  ({bots})")
    return 0


def add_author_commands(commands: Any) -> None:
    """Adds the commands to a parser's."""
    one = commands.add_parser("match", help="plays one game of some bots")
    one.add_argument("bots", metavar="BOT", nargs="+", help="NAME=URL, or a URL")
    one.add_argument(
        "--view", action="store_true", help="shows it on the terminal, to step by keys"
    )
    one.add_argument("--mode", choices=MODES)
    one.add_argument("--map", choices=MAPS)
    for name in ("width", "height", "seed", "timeout", "turns"):
        one.add_argument(f"--{name}", metavar="N", type=int)
    add_program(one)
    one.set_defaults(run=run_match)
    one = commands.add_parser("log", help="prints what a bot was asked and answered")
    one.add_argument("folder", metavar="FOLDER", type=Path)
    one.add_argument("bot", metavar="BOT")
    one.add_argument("--game", metavar="G", help="of one game")
    one.add_argument("--missed", action="store_true", help="the requests without a move")
    one.set_defaults(run=run_log)
    one = commands.add_parser("export", help="prints a game as the official engine's frames")
    one.add_argument("folder", metavar="FOLDER", type=Path)
    one.add_argument("game", metavar="GAME")
    help = "prints the body of the request that this bot got in a turn, for curl --data @-"
    one.add_argument("--bot", metavar="BOT", help=help)
    one.add_argument("--turn", metavar="T", type=int, help="0 if not given")
    add_program(one)
    one.set_defaults(run=run_export)
    one = commands.add_parser("games", help="prints a list of the finished games")
    one.add_argument("folder", metavar="FOLDER", type=Path)
    one.add_argument("--json", action="store_true")
    one.set_defaults(run=run_games)
