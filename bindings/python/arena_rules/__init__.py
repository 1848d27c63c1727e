"""The rules of Battlesnake games in this process: see docs/SIMULATOR.md, also for what is proved.

    games = Games(1024, width=11, height=11, seats=4)
    games.start(starts, food)
    games.step(moves, words)

Exact calls on records are in `arena_rules.records`. For learning there are `VectorEnv`, an
environment a game, `SeatEnv`, an environment a seat, and `ParallelEnv`, one game of several agents;
they need numpy. `built()` says what the library was built from, and whether it is proved.
"""

from typing import TYPE_CHECKING, Any

from arena_rules.games import Games
from arena_rules.library import ArenaError, library
from arena_rules.royale import Royale

if TYPE_CHECKING:
    from arena_rules.parallel import ParallelEnv
    from arena_rules.seats import SeatEnv
    from arena_rules.vector import VectorEnv

__version__ = "1.1.0"
__all__ = ["ArenaError", "Games", "ParallelEnv", "Royale", "SeatEnv", "VectorEnv"]
__all__ += ["__version__", "built"]

_LATER = {"VectorEnv": "vector", "SeatEnv": "seats", "ParallelEnv": "parallel"}


def built() -> dict[str, str]:
    """The version, commit and kit that the library was built from, and whether it is proved."""
    lines = library.arena_built().decode().splitlines()
    return dict(line.split(": ", 1) for line in lines)


def __getattr__(name: str) -> Any:
    """Imports what needs numpy only when it is asked for."""
    if name in _LATER:
        from importlib import import_module

        return getattr(import_module(f"arena_rules.{_LATER[name]}"), name)
    raise AttributeError(f"module {__name__!r} has no attribute {name!r}")
