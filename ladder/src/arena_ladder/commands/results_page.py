"""The command that serves the page of a ladder from its folder alone, after a run or without."""

from __future__ import annotations

import argparse
import asyncio
import signal
from contextlib import closing
from pathlib import Path
from typing import Any

from arena_ladder.commands.program import add_program, program_of
from arena_ladder.heap import use_one_heap
from arena_ladder.page.page_link import Address, address_of
from arena_ladder.results.store import open_store
from arena_ladder.texts import counted

USUAL = Address("127.0.0.1", 8080)
LOOK_SECONDS = 2.0  # from one look at the folder to the next


def games_in(folder: Path) -> int:
    """The number of games that are done."""
    with closing(open_store(folder)) as store:
        return store.count_games()


async def serve_results(folder: Path, program: Path, address: Address) -> None:
    """Serves the page until the task is cancelled; results that are added appear on it."""
    from arena_ladder.page.feed import Feed
    from arena_ladder.page.page import keep_quiet, page, results_of
    from arena_ladder.page.page_calls import Calls

    task = asyncio.current_task()
    assert task is not None
    asyncio.get_running_loop().add_signal_handler(signal.SIGTERM, task.cancel)
    keep_quiet()
    feed = Feed(lambda: results_of(folder))
    words: dict[str, Any] = {"summary": "", "left": "", "waits": ""}
    words |= {"boards": {}, "running": [], "ended": {}, "colours": {}}
    seen = games_in(folder)
    async with page(Calls(feed, folder, program), address) as served:
        print(f"ladder: the page is {served}", flush=True)
        await feed.refresh()
        while True:
            games = await asyncio.to_thread(games_in, folder)
            feed.is_stale = feed.is_stale or games != seen
            seen = games
            await feed.take({**words, "games": counted(games, "game", ",")})
            await asyncio.sleep(LOOK_SECONDS)


def run_page(given: argparse.Namespace) -> int:
    """Serves the results of a folder until Ctrl-C or SIGTERM."""
    program = program_of(given, given.folder)
    use_one_heap()
    open_store(given.folder).close()  # finds faults before the page is served
    asyncio.run(serve_results(given.folder, program, given.address))
    return 0


def add_page_command(commands: Any) -> None:
    """Adds the command to a parser's."""
    one = commands.add_parser("page", help="serves the page of a folder that is not played")
    one.add_argument("folder", metavar="FOLDER", type=Path)
    one.add_argument(
        "address",
        metavar="[HOST:]PORT",
        type=address_of,
        nargs="?",
        default=USUAL,
        help=f"{USUAL.port}, and {USUAL.host}, if not given",
    )
    add_program(one)
    one.set_defaults(run=run_page)
