"""The command line of the ladder."""

from __future__ import annotations

import argparse
import asyncio
import json
import math
import signal
import sqlite3
import sys
import time
from collections.abc import Sequence
from contextlib import AsyncExitStack, closing
from dataclasses import replace
from pathlib import Path

from rich.console import Console

from arena_client import HostDied, HostFault
from arena_ladder.commands.author_commands import add_author_commands
from arena_ladder.commands.contests import add_contests
from arena_ladder.commands.keeping_commands import add_keeping_commands
from arena_ladder.commands.program import ProgramFault, add_program, program_of, remember_program
from arena_ladder.commands.results_page import add_page_command
from arena_ladder.commands.roster_commands import add_roster_commands
from arena_ladder.commands.tournament_commands import add_tournaments
from arena_ladder.game.config import ENDLESS, Config, ConfigFault, read_config
from arena_ladder.game.game import GameFault
from arena_ladder.game.game_files import make_folders
from arena_ladder.game.pairing import Part, part_of
from arena_ladder.game.watch import Watch
from arena_ladder.heap import use_one_heap
from arena_ladder.page.page_link import Address, PageFault, PageLink, address_of
from arena_ladder.results.bot_log import BotLog
from arena_ladder.results.lock import LockFault, locked
from arena_ladder.results.merge import merge
from arena_ladder.results.seasons import season_of
from arena_ladder.results.seeds import seed_line, seed_line_of, with_seed
from arena_ladder.results.store import Store, StoreFault, open_store
from arena_ladder.run.check import check
from arena_ladder.run.hook import Hook
from arena_ladder.run.play import Job, play
from arena_ladder.run.progress import Counts, ProgressBar
from arena_ladder.texts import counted, printable

INTERRUPTED = 130
FAULTS = (
    ConfigFault,
    GameFault,
    HostDied,
    HostFault,
    LockFault,
    PageFault,
    ProgramFault,
    StoreFault,
    OSError,
    sqlite3.Error,
)


async def play_job(job: Job, store: Store, counts: Counts, address: Address | None) -> None:
    """Plays a job with its progress bar and, if there is an address, its page.

    SIGTERM cancels the task, as Ctrl-C does: an exception raised in a library might be lost.
    """
    task = asyncio.current_task()
    assert task is not None
    asyncio.get_running_loop().add_signal_handler(signal.SIGTERM, task.cancel)
    async with AsyncExitStack() as stack:
        bar = stack.enter_context(ProgressBar(counts))
        log = await stack.enter_async_context(BotLog(job.folder, bar.say))
        watches: list[Watch] = [counts, bar, log]
        if job.config.hook:
            hook = Hook(job.folder, job.config.hook, bar.say)
            watches.append(await stack.enter_async_context(hook))
        if address is not None:
            link = PageLink(job.folder, address, counts.line, bar.say, job.program)
            watches.append(await stack.enter_async_context(link))
            bar.say(f"the page is {link.address}")
        await play(job, store, watches)


def run_play(given: argparse.Namespace) -> int:
    """Plays the games of a ladder that are not done."""
    return play_config(with_seed(read_config(given.config)), given)


def play_config(config: Config, given: argparse.Namespace) -> int:
    """Plays the games of a configuration that are not done, by the options of a command."""
    if given.part and (config.is_endless or config.is_tournament):
        raise ConfigFault("an endless ladder or a tournament has no parts")
    if given.rounds is not None:
        config = replace(config, rounds=given.rounds)
    use_one_heap()
    part = given.part or Part(1, 1)
    folder = config.folder / str(part) if given.part else config.folder
    ends_at = math.inf if given.hours is None else time.monotonic() + 3600 * given.hours
    job = Job(config, folder, part, program_of(given, folder), ends_at)
    counts = Counts()
    make_folders(folder)
    remember_program(folder, given)
    with locked(folder), closing(Store(folder)) as store:
        asyncio.run(play_job(job, store, counts, given.page))  # waits for its threads
    most = counted(config.rounds, "game", ",")
    ends = [f"it ends at {most}: a higher --rounds, or `rounds`, lets it go on"]
    has_ended = config.is_endless and counts.done >= config.rounds
    for line in [
        *counts.summary(),
        *(ends if has_ended else []),
        seed_line(config.identity, is_closed=False),
    ]:
        print(f"ladder: {line}")
    return 0


def run_standings(given: argparse.Namespace) -> int:
    """Prints the standings of a folder. The other commands do without numpy, which loads slowly."""
    from arena_ladder.results.standings import as_csv, as_json, as_table, standings_of

    with closing(open_store(given.folder)) as store:
        if given.season:
            print(json.dumps(season_of(store, given.season).rows, indent=2))
            return 0
        standings = standings_of(store)
        seed = seed_line_of(store)
    if given.csv or given.json:
        print(as_csv(standings) if given.csv else as_json(standings), end="")
    else:
        Console(width=None if sys.stdout.isatty() else 160).print(as_table(standings))
        print(f"\n{seed}" if seed else "")
    return 0


def run_close(given: argparse.Namespace) -> int:
    """Closes a ladder, and prints its seed."""
    with closing(open_store(given.folder)) as store, locked(given.folder):
        if not store.is_closed():
            store.close_ladder()
        print(f"ladder: {seed_line_of(store)}")
    return 0


def run_check(given: argparse.Namespace) -> int:
    """Replays all games of a folder; the status is 1 if one does not agree."""
    console = Console(stderr=True)
    with console.status("checking") as status:
        checked = check(
            given.folder,
            program_of(given, given.folder),
            lambda games: status.update(f"{counted(games, 'game')} checked"),
        )
    for name, why in checked.faults.items():
        print(printable(f"{name}: {why}"))
    if checked.sums:
        print(printable(f"results.sqlite: {checked.sums}"))
    agreeing = checked.games - len(checked.faults)
    agree = "agrees" if agreeing == 1 else "agree"
    print(f"{agreeing} of {counted(checked.games, 'game')} {agree}")
    return 1 if checked.faults or checked.sums else 0


def run_merge(given: argparse.Namespace) -> int:
    """Merges folders."""
    added = merge(given.into, given.folders)
    were = "was" if added == 1 else "were"
    print(f"ladder: {counted(added, 'game')} {were} added to {given.into}")
    return 0


def rounds_of(word: str) -> int:
    rounds = int(word) if word.isascii() and word.isdigit() else 0
    if not 1 <= rounds <= ENDLESS:
        raise argparse.ArgumentTypeError(f"{word!r} is not a whole number of 1 or more")
    return rounds


def hours_of(word: str) -> float:
    try:
        hours = float(word)
    except ValueError:
        hours = math.nan
    if not 0 <= hours < math.inf:
        raise argparse.ArgumentTypeError(f"{word!r} is not a number of hours")
    return hours


def parser(prog: str | None) -> argparse.ArgumentParser:
    words = argparse.ArgumentParser(prog=prog, description=__doc__)
    commands = words.add_subparsers(required=True, metavar="COMMAND")
    one = commands.add_parser("play", help="plays the games that are not done yet")
    one.add_argument("config", metavar="CONFIG.toml", type=Path)
    one.add_argument("--part", metavar="K/N", type=part_of, help="one part of the games")
    help = "a page with the standings and the running games; on 127.0.0.1 if no host is named"
    one.add_argument("--page", metavar="[HOST:]PORT", type=address_of, help=help)
    one.add_argument(
        "--rounds", metavar="N", type=rounds_of, help="in place of the configuration's"
    )
    one.add_argument("--hours", metavar="H", type=hours_of, help="no game begins later")
    add_program(one)
    one.set_defaults(run=run_play)
    one = commands.add_parser("standings", help="prints the standings of a folder")
    one.add_argument("folder", metavar="FOLDER", type=Path)
    form = one.add_mutually_exclusive_group()
    form.add_argument("--csv", action="store_true")
    form.add_argument("--json", action="store_true")
    form.add_argument("--season", metavar="NAME", help="of a season that has ended, as JSON")
    one.set_defaults(run=run_standings)
    one = commands.add_parser("check", help="plays all games of a folder again, and compares")
    one.add_argument("folder", metavar="FOLDER", type=Path)
    add_program(one)
    one.set_defaults(run=run_check)
    one = commands.add_parser("close", help="adds no more games, and publishes a drawn seed")
    one.add_argument("folder", metavar="FOLDER", type=Path)
    one.set_defaults(run=run_close)
    one = commands.add_parser("merge", help="joins the folders of the parts of a ladder")
    one.add_argument("into", metavar="INTO", type=Path)
    one.add_argument("folders", metavar="FOLDER", type=Path, nargs="+")
    one.set_defaults(run=run_merge)
    add_page_command(commands)
    add_author_commands(commands)
    add_contests(commands)
    add_tournaments(commands, play_config, address_of)
    add_roster_commands(commands)
    add_keeping_commands(commands)
    return words


def main(words: Sequence[str] | None = None, prog: str | None = None) -> int:
    """Runs a command. A fault is a line on the standard error, and status 1.

    `prog` is the name of the program in its help, if it is not that by which it was called.
    """
    given = parser(prog).parse_args(words)
    try:
        return int(given.run(given))
    except FAULTS as fault:
        print(f"ladder: {printable(str(fault))}", file=sys.stderr)
        return 1
    except (KeyboardInterrupt, asyncio.CancelledError):
        print("ladder: stopped; the same command goes on", file=sys.stderr)
        return INTERRUPTED
