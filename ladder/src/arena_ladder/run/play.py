"""Plays the games of a ladder that are not done yet, several at once."""

from __future__ import annotations

import asyncio
import math
import threading
from collections.abc import Awaitable, Sequence
from concurrent.futures import ThreadPoolExecutor
from contextlib import suppress
from dataclasses import dataclass, replace
from pathlib import Path

from arena_client import BLOCKS_OF_GAME, HostDied, Refused
from arena_ladder.game.config import ENDLESS, Config
from arena_ladder.game.game import Game, GameFault, RunContext
from arena_ladder.game.game_files import command_file, running_games
from arena_ladder.game.pairing import Fixture, Part, fixtures_of
from arena_ladder.game.rated import Change
from arena_ladder.game.watch import Watch, Watches
from arena_ladder.heap import keep_heap_small
from arena_ladder.net.bots import Bot, BotClient, Look, NoLook
from arena_ladder.net.urls import shown
from arena_ladder.results import packs
from arena_ladder.results.about import write_about
from arena_ladder.results.kept_answers import KeptAnswers
from arena_ladder.results.roster import add_config_bots, keep_networks, networks_of, urls_of
from arena_ladder.results.store import Store
from arena_ladder.run.endless import Endless
from arena_ladder.run.keeper import HostKeeper
from arena_ladder.run.schedule import CALM_SECONDS, Pace, Schedule
from arena_ladder.run.tournament_play import Playing

LOOK_AGAIN_SECONDS = 60.0
NOBODY = (
    "no bot answered. Are they served? What a bot that is not there misses counts all the same. "
    "ladder/bots/serve COMMAND .. serves the small bots while a command runs"
)

Source = Schedule | Endless | Playing


@dataclass(frozen=True)
class Job:
    """What to play, the folder of the results, and the arena program."""

    config: Config
    folder: Path
    part: Part
    program: Path
    ends_at: float = math.inf  # of the monotonic clock: no game begins later


async def play(job: Job, store: Store, watches: Sequence[Watch]) -> None:
    """Plays the games of a job that are not in the store."""
    store.begin(job.config.identity, job.config.bots)
    write_about(replace(job.config, folder=job.folder))
    config = job.config
    is_listed = not (config.is_endless or config.is_tournament)
    fixtures = fixtures_of(config, job.part) if is_listed else []
    if config.is_endless:
        add_config_bots(store, config.bots)
        keep_networks(store, config)
        done, count = set(filter(store.has_game, running_games(job.folder))), store.count_games()
    else:
        done = store.names()
        done = done & {fixture.name for fixture in fixtures} if is_listed else done
        count = len(done)
    kept = KeptAnswers(job.folder)
    for name in running_games(job.folder) & done:
        kept.keep(name)
    async with (
        BotClient(config.timeout / 1000) as client,
        HostKeeper(job.program, BLOCKS_OF_GAME * config.at_once, config.rules.plan) as keeper,
    ):
        given, networks = {bot.url for bot in config.bots}, networks_of(store)
        client.connections.permits = lambda bot, at: bot in given or networks.permits(at)
        watch = Watches([*watches, keeper])
        watch.begin(count, planned(config, fixtures))
        context = await run_context(job, client, watch)
        asking = asyncio.create_task(ask_looks_again(context))
        trimming = asyncio.create_task(keep_heap_small())
        try:
            run = Run(context, store, keeper, kept, job.ends_at)
            run.pack()
            await run.play([fixture for fixture in fixtures if fixture.name not in done])
        finally:
            asking.cancel()
            trimming.cancel()


def planned(config: Config, fixtures: Sequence[Fixture]) -> int:
    """The number of games of a run; 0 if there is no end."""
    if not config.is_endless:
        return len(fixtures)
    return 0 if config.rounds == ENDLESS else config.rounds


async def run_context(job: Job, client: BotClient, watch: Watch) -> RunContext:
    """Makes the context of a run, with the looks of the bots that say how they look."""
    looks: dict[str, Look] = {}
    client.trust(job.config.bots)
    await ask_looks(job.config.bots, client, looks, watch)
    if not looks:
        watch.say(NOBODY)
    return RunContext(
        config=job.config,
        folder=job.folder,
        client=client,
        urls={bot.name: bot.url for bot in job.config.bots},
        looks=looks,
        watch=watch,
    )


async def ask_looks(
    bots: Sequence[Bot], client: BotClient, looks: dict[str, Look], watch: Watch
) -> None:
    """Asks bots for their looks, all at once; one that sends none is grey."""

    async def ask(bot: Bot) -> None:
        try:
            looks[bot.name] = await client.look(bot.url)
        except NoLook as fault:
            watch.say(f"{bot.name} did not say how it looks ({fault}): {shown(bot.url)}")

    await asyncio.gather(*map(ask, bots))


async def ask_looks_again(context: RunContext) -> None:
    """Asks the bots that were down for their looks, again and again, for their next games."""
    while True:
        await asyncio.sleep(LOOK_AGAIN_SECONDS)
        missing = [Bot(*it) for it in context.urls.items() if it[0] not in context.looks]
        await ask_looks(missing, context.client, context.looks, Watch())


class Run:
    """The games that one call of a ladder plays."""

    def __init__(
        self,
        context: RunContext,
        store: Store,
        keeper: HostKeeper,
        kept: KeptAnswers,
        ends_at: float = math.inf,
    ) -> None:
        self.kept = kept
        self.ends_at = ends_at
        self.asking: set[asyncio.Task[None]] = set()
        self.packing: set[asyncio.Task[None]] = set()
        self.ends = threading.Event()
        self.packing_lock = asyncio.Lock()
        self.asked = {(bot.name, bot.url) for bot in context.config.bots}  # for their looks
        self.said: set[str] = set()
        self.serial: set[str] = set()  # bots of which it was said
        self.context = context
        self.store = store
        self.keeper = keeper
        self.storing = ThreadPoolExecutor(1, "store")
        self.stored = store.count_games()
        self.ended = asyncio.Event()  # a game has ended

    async def play(self, fixtures: Sequence[Fixture]) -> None:
        """Plays games, as many at once as the configuration says. The first fault stops all."""
        config = self.context.config
        source = self.source(fixtures)
        pace = Pace(config.at_once, self.context.client.pulse)
        try:
            async with asyncio.TaskGroup() as group:
                await self.begin_games(source, pace, group)
        except BaseExceptionGroup as faults:
            raise faults.exceptions[0] from None
        finally:
            for task in self.asking:
                task.cancel()
            self.ends.set()
            await asyncio.gather(*self.packing, return_exceptions=True)
            self.storing.shutdown(cancel_futures=True)

    def source(self, fixtures: Sequence[Fixture]) -> Source:
        """Where the games come from: a list, or the results so far."""
        config = self.context.config
        if config.is_endless:
            return Endless(config, self.store, self.storing, self.on_changes, self.ends_at)
        if config.is_tournament:
            return Playing(config, self.store, self.storing, self.ends_at)
        return Schedule(fixtures, config.games_a_bot, self.ends_at)

    def on_changes(self, changes: list[Change], gone: set[str]) -> None:
        """Takes changes of the roster, and bots that are gone; asks those with new addresses for
        their looks."""
        urls = self.context.urls
        urls.update(urls_of(changes, self.context.config.bots))
        self.forget(gone)
        fresh = {(it.bot, urls[it.bot]) for it in changes if it.url and it.bot in urls}
        fresh -= self.asked
        self.asked |= fresh
        bots = [Bot(*it) for it in sorted(fresh)]
        looks = ask_looks(bots, self.context.client, self.context.looks, self.context.watch)
        task = asyncio.get_running_loop().create_task(looks)
        self.asking.add(task)
        task.add_done_callback(self.asking.discard)

    def forget(self, gone: set[str]) -> None:
        """Forgets bots that are gone, and the addresses at which no bot is any more."""
        urls, looks = self.context.urls, self.context.looks
        for bot in gone:
            urls.pop(bot, None)
            self.context.watch.leave(bot)
        for bot in looks.keys() - urls.keys():
            del looks[bot]
        self.asked.intersection_update(urls.items())
        self.serial.intersection_update(urls)
        self.context.client.keep_only(set(urls.values()))

    async def begin_games(self, source: Source, pace: Pace, group: asyncio.TaskGroup) -> None:
        """Begins each game as soon as there is room for it, and returns when all have ended."""
        while True:
            self.ended.clear()
            self.name_serial_bots()
            while pace.may_begin(source.running) and (fixture := await source.begin()) is not None:
                group.create_task(self.play_and_store(fixture, source))
            if source.running == 0:
                if source.is_over:
                    return
                if self.context.config.is_endless:
                    self.say_once("waits for bots: too few are in and do not rest")
            if pace.allowed < pace.most:
                self.say_once("this machine is too busy: it plays fewer games at once")
            with suppress(TimeoutError):
                async with asyncio.timeout(CALM_SECONDS):
                    await self.ended.wait()

    def name_serial_bots(self) -> None:
        """Says which bots serve one connection at a time, where that costs them time."""
        serial = set(self.context.client.connections.serial_bots())
        for bot, url in list(self.context.urls.items()):
            if url in serial and bot not in self.serial:
                self.serial.add(bot)
                self.context.watch.say(
                    f"{bot} serves one connection at a time, so each is closed after its answer: "
                    "games_a_bot = 1, or a server with threads, may serve it better"
                )

    def say_once(self, text: str) -> None:
        if text not in self.said:
            self.said.add(text)
            self.context.watch.say(text)

    async def play_and_store(self, fixture: Fixture, source: Source) -> None:
        """Plays a game, makes room for the next one, and stores the result."""
        game = await self.play_one(fixture)
        source.leave(fixture)
        self.ended.set()
        outcome = game.outcome()
        added = (self.store.add, [(outcome, game.tallies)])
        await asyncio.get_running_loop().run_in_executor(self.storing, *added)
        self.ended.set()  # an endless ladder draws from the results that are stored
        self.stored += 1
        if self.stored % packs.GAMES == 0:
            self.pack()
        await asyncio.get_running_loop().run_in_executor(self.storing, self.kept.keep, outcome.name)
        self.context.watch.end(outcome)

    def pack(self) -> None:
        """Packs the files of games that are done, in a thread, while others are played."""
        work = asyncio.to_thread(
            packs.pack_games, self.context.folder, self.stored, self.ends.is_set
        )
        task = asyncio.get_running_loop().create_task(self.packed(work))
        self.packing.add(task)
        task.add_done_callback(self.packing.discard)

    async def packed(self, work: Awaitable[None]) -> None:
        try:
            async with self.packing_lock:
                await work
        except OSError as fault:
            self.say_once(f"the files of games can't be packed: {fault}")

    async def play_one(self, fixture: Fixture) -> Game:
        """Plays a game; if its host dies, continues it in another host."""
        while True:
            host = await self.keeper.host()
            game = Game(self.context, fixture)
            try:
                await game.play(host)
                return game
            except HostDied as death:
                if await self.keeper.replace(host, death):
                    self.context.watch.say(f"{death}; its games go on in another")
            except Refused as fault:
                path = command_file(self.context.folder, fixture.name)
                raise GameFault(
                    f"the host refused a line of {path}: {fault}; delete the file, and the game "
                    "begins anew"
                ) from None
