#!/usr/bin/python3
"""Counts the moves of honest bots that the ladder finds late.

    benches/late.py [--program PATH] [--ms N..] [--games N] [--turns N]

Each bot answers N ms after it read a request, and the timeout is 500 ms. All games are duels of
bots of their own, and are played at the same time. A row for each N and each kind of connections,
which are kept or are made for each request: the moves, how many of them the ladder found late, and
how many of those the bots themselves may have sent too late, by their own clock: their processes
measure from the last moment at which they waited for requests. The program is
crates/arena/out/arena if not given.
"""
import argparse
import asyncio
import tempfile
import time
from multiprocessing import Pipe, Process, Value
from pathlib import Path

import paths  # noqa: F401
from arena_client import PROGRAM
from arena_ladder.game.config import config_of
from arena_ladder.game.game_files import make_folders
from arena_ladder.game.pairing import Part
from arena_ladder.results.store import Store
from arena_ladder.run.play import Job, play
from arena_ladder.run.progress import Counts

SERVERS = 2
STEPS = (b"up", b"left", b"down", b"right")
TITLES = ("answer after", "connections", "moves", "late", "sent late")
IN_TIME = 0.49  # seconds
BEAT_SECONDS = 0.004


SLOW = Value("i")  # answers that the bots sent after IN_TIME
waited_at = 0.0  # the last moment at which this process waited for requests


async def beat():
    global waited_at
    while True:
        await asyncio.sleep(BEAT_SECONDS)
        waited_at = time.perf_counter()


async def serve(reader, writer):
    """Answers the requests of a connection; the path has milliseconds, and `close` or `keep`."""
    try:
        keeps = True
        while keeps:
            head = await reader.readuntil(b"\r\n\r\n")
            came_at = waited_at
            length = head.lower().partition(b"content-length:")[2].partition(b"\r\n")[0]
            body = await reader.readexactly(int(length or 0))
            _, ms, how, what = head.split(b" ")[1].split(b"/")[:4]
            keeps = how == b"keep"
            at = body.find(b'"turn":') + 7
            turn = int(body[at : body.find(b",", at)]) if at > 6 else 0
            if what == b"move":
                await asyncio.sleep(int(ms) / 1000)
            answer = b'{"move":"%b"}' % STEPS[turn % 4]
            first = b"HTTP/1.1 200 OK" if keeps else b"HTTP/1.0 200 OK"
            writer.write(b"%b\r\nContent-Length: %d\r\n\r\n%b" % (first, len(answer), answer))
            if what == b"move" and time.perf_counter() - came_at > IN_TIME:
                with SLOW.get_lock():
                    SLOW.value += 1
    except (ConnectionError, asyncio.IncompleteReadError):
        pass
    finally:
        writer.close()


def serve_bots(pipe):
    """Serves bots on a free port, which it sends through the pipe, until the process ends."""

    async def run():
        server = await asyncio.start_server(serve, "127.0.0.1", 0, backlog=1024)
        beating = asyncio.create_task(beat())
        pipe.send(server.sockets[0].getsockname()[1])
        await server.serve_forever()
        beating.cancel()

    asyncio.run(run())


def started():
    """Starts a process with bots. Returns it and its port."""
    ours, theirs = Pipe()
    process = Process(target=serve_bots, args=(theirs,), daemon=True)
    process.start()
    return process, ours.recv()


def measure(given, ports, program, path):
    """Plays once; returns the numbers of moves, of late ones, and of those sent late."""
    SLOW.value = 0
    with tempfile.TemporaryDirectory() as folder:
        bots = [
            {"name": f"bot{at}", "url": f"http://127.0.0.1:{ports[at % len(ports)]}/{path}"}
            for at in range(2 * given.games)
        ]
        words = {"folder": folder, "bot": bots, "turns": given.turns, "at_once": given.games}
        rules = {"pairing": "duels", "mode": "wrapped", "min_food": 0, "food_chance": 0}
        config = config_of({**words, **rules}, "here")
        make_folders(config.folder)
        store, counts = Store(config.folder), Counts()
        asyncio.run(play(Job(config, config.folder, Part(1, 1), program), store, [counts]))
        store.close()
        assert set(counts.missed) <= {"late"}, counts.missed
        return counts.moves, counts.missed["late"], min(SLOW.value, counts.missed["late"])


def main():
    words = argparse.ArgumentParser(
        description=__doc__, formatter_class=argparse.RawDescriptionHelpFormatter
    )
    words.add_argument("--program", type=Path, default=PROGRAM)
    words.add_argument("--ms", type=int, nargs="+", default=[300, 400, 450])
    words.add_argument("--games", type=int, default=64, choices=range(1, 65), metavar="N")
    words.add_argument("--turns", type=int, default=15)
    given = words.parse_args()
    servers = [started() for _ in range(SERVERS)]
    ports = [port for _, port in servers]
    print("  ".join(TITLES))
    for ms in given.ms:
        for how in ("keep", "close"):
            row = [ms, how, *measure(given, ports, given.program.resolve(), f"{ms}/{how}")]
            print(
                "  ".join(f"{value:{len(title)}}" for title, value in zip(TITLES, row)), flush=True
            )
    for process, _ in servers:
        process.terminate()


if __name__ == "__main__":
    main()
