#!/usr/bin/python3
"""Times the ladder with bots that answer at once.

    benches/pace.py [--program PATH] [--games N] [--turns N] [--runs N]

All games, of four snakes each, are played at once. The ladder has one processor, the host another,
and the bots the rest; they go round in squares and ignore the board. A row for each run has the
turns a second; the median and the 99th percentile of the ladder's own time, from the last answer of
a turn to the next request of the same game; and the processor time of the ladder and of the host
for a turn. The program is crates/arena/out/arena if not given.
"""
import argparse
import asyncio
import os
import resource
import tempfile
from multiprocessing import Pipe, Process
from pathlib import Path

import paths  # noqa: F401
from arena_client import PROGRAM
from arena_ladder.game.config import config_of
from arena_ladder.game.game_files import make_folders
from arena_ladder.game.pairing import Part
from arena_ladder.results.store import Store
from arena_ladder.run.play import Job, play
from arena_ladder.run.progress import Counts

BOTS = 4
SERVERS = 2
STEPS = (b"up", b"left", b"down", b"right")
TITLES = ("turns a second", "own median ms", "own 99 % ms", "ladder ms a turn", "host ms a turn")


async def serve(reader, writer):
    """Answers each request of a connection at once, from the number of the turn alone."""
    try:
        while head := await reader.readuntil(b"\r\n\r\n"):
            length = next(
                (int(it[15:]) for it in head.split(b"\r\n") if it.lower().startswith(b"content-l")),
                0,
            )
            body = await reader.readexactly(length)
            at = body.find(b'"turn":') + 7
            turn = int(body[at : body.find(b",", at)] or 0) if at > 6 else 0
            answer = b'{"move":"%b"}' % STEPS[turn % 4]
            writer.write(b"HTTP/1.1 200 OK\r\nContent-Length: %d\r\n\r\n%b" % (len(answer), answer))
    except (ConnectionError, asyncio.IncompleteReadError):
        writer.close()


def serve_bots(processors, pipe):
    """Serves bots on a free port, which it sends through the pipe, until the process ends."""
    os.sched_setaffinity(0, processors)

    async def run():
        server = await asyncio.start_server(serve, "127.0.0.1", 0, backlog=1024)
        pipe.send(server.sockets[0].getsockname()[1])
        await server.serve_forever()

    asyncio.run(run())


def started(processors):
    """Starts a process with bots. Returns it and its port."""
    ours, theirs = Pipe()
    process = Process(target=serve_bots, args=(processors, theirs), daemon=True)
    process.start()
    return process, ours.recv()


def used(who):
    usage = resource.getrusage(who)
    return usage.ru_utime + usage.ru_stime


def measure(given, ports, program):
    """Plays once, and returns the numbers of a row."""
    with tempfile.TemporaryDirectory() as folder:
        bots = [
            {"name": f"bot{at}", "url": f"http://127.0.0.1:{ports[at % len(ports)]}"}
            for at in range(BOTS)
        ]
        rules = {"pairing": "tables", "min_food": 0, "food_chance": 0, "timeout": 60_000}
        words = {"folder": folder, "bot": bots, "rounds": given.games, "turns": given.turns}
        words |= {"at_once": given.games, "games_a_bot": given.games}
        config = config_of({**words, **rules}, "here")
        make_folders(config.folder)
        store, counts = Store(config.folder), Counts()
        before = used(resource.RUSAGE_SELF), used(resource.RUSAGE_CHILDREN)
        asyncio.run(play(Job(config, config.folder, Part(1, 1), program), store, [counts]))
        after = used(resource.RUSAGE_SELF), used(resource.RUSAGE_CHILDREN)
        store.close()
    median, most = counts.own_times()
    spent = [1000 * (end - begin) / counts.turns for begin, end in zip(before, after)]
    return (counts.rate(), median, most, *spent)


def host_on(program, processor, folder):
    """Writes a program that runs the host on one processor."""
    path = Path(folder) / "arena"
    path.write_text(f'#!/bin/sh\nexec taskset -c {processor} {program} "$@"\n')
    path.chmod(0o755)
    return path


def main():
    words = argparse.ArgumentParser(
        description=__doc__, formatter_class=argparse.RawDescriptionHelpFormatter
    )
    words.add_argument("--program", type=Path, default=PROGRAM)
    words.add_argument("--games", type=int, default=64, choices=range(1, 65), metavar="N")
    words.add_argument("--turns", type=int, default=90)
    words.add_argument("--runs", type=int, default=3)
    given = words.parse_args()
    first, second, *rest = sorted(os.sched_getaffinity(0)) * 2
    servers = [started(rest) for _ in range(SERVERS)]
    os.sched_setaffinity(0, {first})
    print("  ".join(TITLES))
    with tempfile.TemporaryDirectory() as folder:
        program = host_on(given.program.resolve(), second, folder)
        for _ in range(given.runs):
            row = measure(given, [port for _, port in servers], program)
            print("  ".join(f"{value:{len(title)}.2f}" for title, value in zip(TITLES, row)))
    for process, _ in servers:
        process.terminate()


if __name__ == "__main__":
    main()
