"""A client of `arena live`: plays games turn by turn through a pipe.

>>> import asyncio
>>> from arena_client import Host
>>> async def play():
...     async with Host(blocks=6) as host:
...         stay = await host.admit("a")
...         snake = {"id": "s", "x": 1, "y": 1}
...         await stay.new(mode="solo", width=3, height=3, snakes=[snake])
...         board = await stay.move({"s": "up"})
...         while not board["over"]:
...             board = await stay.move({}, words=[1, 2])
...         await stay.leave()
...         return board["turn"], board["snakes"][0]["cause"].value
>>> asyncio.run(play())
(2, 'wall-collision')

It needs nothing but Python's standard library. `lines` has the types of what is sent and written.
"""

from arena_client.faults import HostDied, HostFault, Refused
from arena_client.host import BLOCKS_OF_GAME, PROGRAM, QUOTA, Host
from arena_client.lines import (
    NO_GAME,
    PLAN,
    PLAN_WITH_HAZARDS,
    Board,
    Cause,
    Cell,
    Mode,
    Snake,
    Start,
    line_of,
)
from arena_client.stay import Log, Stay

__all__ = [
    "BLOCKS_OF_GAME",
    "NO_GAME",
    "PLAN",
    "PLAN_WITH_HAZARDS",
    "PROGRAM",
    "QUOTA",
    "Board",
    "Cause",
    "Cell",
    "Host",
    "HostDied",
    "HostFault",
    "Log",
    "Mode",
    "Refused",
    "Snake",
    "Start",
    "Stay",
    "line_of",
]
