"""Spaces and base classes: those of gymnasium and PettingZoo, or the stand-ins for them."""

from __future__ import annotations

from typing import Any

from arena_rules import standins

try:
    from gymnasium import spaces as _spaces
    from gymnasium.utils.seeding import np_random as generator
    from gymnasium.vector import AutoresetMode, VectorEnv as VectorBase
    from gymnasium.vector.utils import batch_space

    Box: Any = _spaces.Box
    Discrete: Any = _spaces.Discrete
    MultiDiscrete: Any = _spaces.MultiDiscrete
    HAS_GYMNASIUM = True
except ImportError:
    from arena_rules.standins import AutoresetMode, VectorEnv as VectorBase, batch_space, generator

    Box = standins.Box
    Discrete, MultiDiscrete = standins.Discrete, standins.MultiDiscrete
    HAS_GYMNASIUM = False

try:
    from pettingzoo import ParallelEnv as ParallelBase
except ImportError:
    ParallelBase = standins.ParallelEnv

__all__ = [
    "AutoresetMode",
    "Box",
    "Discrete",
    "HAS_GYMNASIUM",
    "MultiDiscrete",
    "ParallelBase",
    "VectorBase",
    "batch_space",
    "generator",
]


def planes_space(planes: int, height: int, width: int) -> Any:
    """So many planes of bytes."""
    return Box(0, 255, (planes, height, width), "uint8")
