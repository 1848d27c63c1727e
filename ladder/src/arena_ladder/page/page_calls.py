"""What the page's server answers: its files, the viewer's, its events, and the results.

    /standings.json                      the rows of `standings --json`
    /games.json?bot=NAME&before=N&count=N   games that are done, the newest first
    /games/GAME.jsonl                    the command file of a game
    /games/GAME.transcript               its transcript, which the viewer shows
    /seasons.json                        the seasons that have ended, with their standings
    /games/GAME.answers                  what the bots answered, turn by turn, as far as it is kept
    /bracket.json                        the matches and tables of a tournament
    /about.json                          the ladder's name, what is played, and how a bot enters
    /looks.json                          the colour and the mark of each bot
    /bots/NAME.json                      how a bot did
"""

from __future__ import annotations

import asyncio
import json
import re
import sqlite3
import time
from collections import OrderedDict
from collections.abc import Callable, Mapping
from concurrent.futures import ThreadPoolExecutor
from contextlib import closing
from pathlib import Path
from typing import Any

from aiohttp import web

from arena_ladder.game.pairing import GAME_NAME
from arena_ladder.page.feed import REST, Feed
from arena_ladder.page.viewer_page import VIEWER
from arena_ladder.results.about import about_of
from arena_ladder.results.history import OverTime, games_of, record_of
from arena_ladder.results.kept_answers import rows_of_answers
from arena_ladder.results.packs import commands_of
from arena_ladder.results.seasons import seasons_of
from arena_ladder.results.standings import standings_of
from arena_ladder.results.store import Store, StoreFault, open_store
from arena_ladder.results.transcripts import NoTranscript, Transcripts
from arena_ladder.run.tournament_play import tournament_of

HERE = Path(__file__).resolve().parent
KINDS = {"html": "text/html", "js": "text/javascript", "css": "text/css"}
FRESH_SECONDS = 2.0
MOST_ANSWERS = 64  # that are kept
MOST_GAMES = 200  # in one answer
USUAL_GAMES = 20
LAST = 10**17  # above each number of a game
MOST_AT = 64  # letters
SENDING_SECONDS = 120.0
PIECE = 64 * 1024
PLAIN = "text/plain; charset=utf-8"


def files_of_page() -> dict[str, Path]:
    """The files that are served, by their paths: those of the page and of the viewer."""
    page = [*(HERE / "static").iterdir()]
    viewer = [*VIEWER.glob("*.*"), *VIEWER.glob("drawing/*.*"), *VIEWER.glob("samples/*.js")]
    files = {f"/{path.name}": path for path in page}
    files |= {f"/viewer/{path.relative_to(VIEWER)}": path for path in viewer}
    files |= {f"/drawing/{path.name}": path for path in (VIEWER / "drawing").iterdir()}
    files |= {"/": HERE / "static/index.html", "/viewer/": VIEWER / "index.html"}
    return {name: path for name, path in files.items() if path.suffix[1:] in KINDS}


class Answers:
    """Values that are read from the results in a thread, and kept until they have rested."""

    def __init__(self, folder: Path) -> None:
        self.folder = folder
        self.thread = ThreadPoolExecutor(1, "results")
        self.lock = asyncio.Lock()
        self.kept: OrderedDict[object, tuple[float, Any]] = OrderedDict()  # with their ends

    async def get(self, key: object, read: Callable[[Store], Any]) -> Any:
        """The kept value of a key, or a new one; reading takes at most one part in REST."""
        async with self.lock:
            until, value = self.kept.get(key, (0.0, None))
            now = time.monotonic()
            if now < until:
                return value
            value = await asyncio.get_running_loop().run_in_executor(self.thread, self.read, read)
            took = time.monotonic() - now
            self.kept[key] = (now + max(FRESH_SECONDS, REST * took), value)
            self.kept.move_to_end(key)
            if len(self.kept) > MOST_ANSWERS:
                self.kept.popitem(last=False)
            return value

    def read(self, read: Callable[[Store], Any]) -> Any:
        with closing(open_store(self.folder)) as store:
            return read(store)


class Calls:
    """The handlers of the requests for results, of one folder."""

    def __init__(self, feed: Feed, folder: Path, program: Path) -> None:
        self.feed = feed
        self.folder = folder
        self.answers = Answers(folder)
        self.over_time = OverTime()  # for the thread of the answers
        self.transcripts = Transcripts(folder, program)

    def routes(self) -> list[web.RouteDef]:
        return [
            web.get("/standings.json", self.standings),
            web.get("/games.json", self.games),
            web.get("/looks.json", self.looks),
            web.get("/seasons.json", self.seasons),
            web.get("/bots/{bot}.json", self.bot),
            web.get("/games/{game}.jsonl", self.commands),
            web.get("/games/{game}.transcript", self.transcript),
            web.get("/games/{game}.answers", self.game_answers),
            web.get("/bracket.json", self.bracket),
            web.get("/about.json", self.about),
        ]

    async def standings(self, request: web.Request) -> web.Response:
        return web.json_response(await self.answers.get("standings", rows_of))

    async def seasons(self, request: web.Request) -> web.Response:
        return web.json_response(await self.answers.get("seasons", season_rows))

    async def looks(self, request: web.Request) -> web.Response:
        return web.json_response(self.feed.looks)

    async def games(self, request: web.Request) -> web.Response:
        query = request.query
        bot, before = query.get("bot", ""), number_in(query, "before", LAST)
        count = max(1, min(MOST_GAMES, number_in(query, "count", USUAL_GAMES)))
        key = ("games", bot, before, count, query.get("at", "")[:MOST_AT])
        text = await self.answers.get(
            key, lambda store: json.dumps(games_of(store, bot, before, count))
        )
        return web.json_response(text=text)

    async def bot(self, request: web.Request) -> web.Response:
        bot = request.match_info["bot"]
        rows = await self.answers.get("standings", rows_of)
        row = next((it for it in rows if it["bot"] == bot), None)
        if row is None:
            raise web.HTTPNotFound(text="there is no such bot")
        record = await self.answers.get(("bot", bot), lambda store: record_of(store, bot))
        over_time = await self.answers.get("ratings", self.over_time.read)
        more = {"standing": row, "place": 1 + rows.index(row), "ratings": over_time.get(bot, [])}
        return web.json_response({**record, **more})

    async def game_in(self, request: web.Request) -> str:
        """The game that a request names, which has to be done."""
        game = request.match_info["game"]
        if not GAME_NAME.fullmatch(game):
            raise web.HTTPNotFound(text="there is no such game")
        if not await self.answers.get(("game", game), lambda store: store.has_game(game)):
            raise web.HTTPNotFound(text="there is no such game, or it is not done")
        return game

    async def commands(self, request: web.Request) -> web.StreamResponse:
        game = await self.game_in(request)
        text = await asyncio.to_thread(commands_of, self.folder, game)
        return await send_text(request, text, "application/x-ndjson")

    async def transcript(self, request: web.Request) -> web.StreamResponse:
        try:
            text = await self.transcripts.of(await self.game_in(request))
        except NoTranscript as fault:
            if fault.is_busy:
                raise web.HTTPServiceUnavailable(text=str(fault)) from None
            raise web.HTTPInternalServerError(text=str(fault)) from None
        return await send_text(request, text)

    async def game_answers(self, request: web.Request) -> web.Response:
        game = await self.game_in(request)
        return web.json_response(await asyncio.to_thread(rows_of_answers, self.folder, game))

    async def about(self, request: web.Request) -> web.Response:
        return web.json_response(
            await self.answers.get("about", lambda store: about_of(store, self.folder))
        )

    async def bracket(self, request: web.Request) -> web.Response:
        return web.json_response(
            await self.answers.get("bracket", lambda store: bracket_of(store, self.folder))
        )


async def send_text(request: web.Request, text: bytes, kind: str = PLAIN) -> web.StreamResponse:
    """Sends a text piece by piece, so that no slow reader has a copy of it in memory."""
    response = web.StreamResponse(headers={"Content-Type": kind})
    response.content_length = len(text)
    await response.prepare(request)
    async with asyncio.timeout(SENDING_SECONDS):
        for at in range(0, len(text), PIECE):
            await response.write(text[at : at + PIECE])
        await response.write_eof()
    return response


def bracket_of(store: Store, folder: Path) -> dict[str, Any]:
    """The matches and tables of a tournament."""
    tournament = tournament_of(store, folder)
    return {
        "stages": tournament.stages(),
        "tables": tournament.tables(),
        "champion": tournament.champion,
    }


def rows_of(store: Store) -> list[dict[str, Any]]:
    return [standing.row() for standing in standings_of(store)]


def season_rows(store: Store) -> list[dict[str, Any]]:
    """The seasons that have ended, the newest first, with their standings."""
    return [season.members for season in seasons_of(store)[::-1]]


def number_in(query: Mapping[str, str], name: str, usual: int) -> int:
    """A whole number in the query of an address; refuses what is none."""
    word = query.get(name, str(usual))
    if not re.fullmatch("[0-9]{1,18}", word):
        raise web.HTTPBadRequest(text=f"{name} is no whole number")
    return int(word)


@web.middleware
async def faults_as_answers(
    request: web.Request, handler: Callable[[web.Request], Any]
) -> web.StreamResponse:
    """Answers faults of the results and of the connection without a traceback."""
    try:
        answer: web.StreamResponse = await handler(request)
        return answer
    except (StoreFault, sqlite3.Error, FileNotFoundError):
        raise web.HTTPServiceUnavailable(text="the results can't be read now") from None
    except (ConnectionError, TimeoutError):
        if request.transport is not None:
            request.transport.abort()
        raise web.HTTPServiceUnavailable() from None
