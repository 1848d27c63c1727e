#!/usr/bin/env python3
"""Plays 64 games of random snakes at once on `arena live`, by arena_client.

    examples/simulator.py [PROGRAM]

It prints how many games the left snake has won, how many the right one, and how many nobody.
"""
import asyncio
import random
import sys
from pathlib import Path

sys.path.insert(0, str(Path(__file__).resolve().parent.parent / "ladder/src"))

from arena_client import PROGRAM, Host  # noqa: E402

STARTS = [{"id": "left", "x": 3, "y": 5}, {"id": "right", "x": 7, "y": 5}]


async def simulate(host, number):
    """Plays a game, and returns the snakes that are left."""
    draw = random.Random(number)
    stay = await host.admit(f"game {number}")
    board = await stay.new(mode="standard", width=11, height=11, snakes=STARTS)
    while not board["over"]:
        moves = {it["id"]: draw.choice(["up", "down", "left", "right"]) for it in STARTS}
        board = await stay.move(moves, [draw.getrandbits(32) for _ in range(2)])
    await stay.leave()
    return [it["id"] for it in board["snakes"] if it["out"] is None]


async def main(program):
    async with Host(blocks=384, program=program) as host:
        ends = await asyncio.gather(*(simulate(host, number) for number in range(64)))
    print(ends.count(["left"]), ends.count(["right"]), ends.count([]))


if __name__ == "__main__":
    asyncio.run(main(Path(sys.argv[1]) if sys.argv[1:] else PROGRAM))
