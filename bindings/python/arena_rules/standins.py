"""What gymnasium 1.x and PettingZoo have, for where they are not installed.

The names, arguments and attributes are those of their documentation. Written from it, and not
copied; where the packages are installed `spaces.py` takes theirs.
"""

from __future__ import annotations

from collections.abc import Sequence
from enum import Enum
from typing import Any

import numpy as np
from numpy.typing import NDArray


class AutoresetMode(Enum):
    """When an environment that has ended is reset: gymnasium.vector.AutoresetMode."""

    NEXT_STEP = "NextStep"
    SAME_STEP = "SameStep"
    DISABLED = "Disabled"


class Space:
    """gymnasium.spaces.Space: the values that an action or an observation may have."""

    def __init__(self, shape: Sequence[int] | None, dtype: Any, seed: Any = None) -> None:
        self._shape = None if shape is None else tuple(int(side) for side in shape)
        self.dtype = None if dtype is None else np.dtype(dtype)
        self._np_random: np.random.Generator | None = None
        if seed is not None:
            self.seed(seed)

    @property
    def shape(self) -> Any:
        return self._shape

    @property
    def np_random(self) -> np.random.Generator:
        if self._np_random is None:
            self.seed()
        assert self._np_random is not None
        return self._np_random

    @property
    def is_np_flattenable(self) -> bool:
        return True

    def seed(self, seed: int | None = None) -> Any:
        self._np_random, seed = generator(seed)
        return seed

    def sample(self, mask: Any = None, probability: Any = None) -> Any:
        raise NotImplementedError

    def contains(self, x: Any) -> bool:
        raise NotImplementedError

    def __contains__(self, x: Any) -> bool:
        return self.contains(x)

    def _array(self, x: Any) -> Any:
        """What may be in the space: whole numbers of its shape, or None."""
        if not isinstance(x, (np.ndarray, np.generic, int, list, tuple)) or isinstance(x, bool):
            return None
        found = np.asarray(x)
        is_whole = found.dtype.kind in "iu" and found.shape == self.shape
        return found if is_whole else None

    def _key(self) -> tuple[Any, ...]:
        return (self.shape, self.dtype)

    def __eq__(self, other: object) -> bool:
        return (
            isinstance(other, Space) and type(self) is type(other) and self._key() == other._key()
        )

    __hash__ = None  # type: ignore[assignment]


class Box(Space):
    """gymnasium.spaces.Box: arrays whose numbers lie between two bounds."""

    def __init__(
        self, low: Any, high: Any, shape: Any = None, dtype: Any = "float32", seed: Any = None
    ) -> None:
        super().__init__(np.shape(low) if shape is None else shape, dtype, seed)
        self.low = np.broadcast_to(np.asarray(low, self.dtype), self.shape)
        self.high = np.broadcast_to(np.asarray(high, self.dtype), self.shape)
        self.bounded_below = self.bounded_above = np.ones(self.shape, bool)

    def sample(self, mask: Any = None, probability: Any = None) -> NDArray[Any]:
        high = self.high.astype("i8") + 1
        return self.np_random.integers(self.low.astype("i8"), high).astype(self.dtype)

    def contains(self, x: Any) -> bool:
        found = self._array(x)
        if found is None or not np.can_cast(found.dtype, self.dtype):
            return False
        return bool((found >= self.low).all() and (found <= self.high).all())

    def _key(self) -> tuple[Any, ...]:
        return (*super()._key(), self.low.tobytes(), self.high.tobytes())

    def __repr__(self) -> str:
        return f"Box({self.low.min()}, {self.high.max()}, {self.shape}, {self.dtype})"


class Discrete(Space):
    """gymnasium.spaces.Discrete: the whole numbers from `start` on."""

    def __init__(self, n: int, seed: Any = None, start: int = 0, dtype: Any = np.int64) -> None:
        super().__init__((), dtype, seed)
        self.n, self.start = np.int64(n), np.int64(start)

    def sample(self, mask: Any = None, probability: Any = None) -> np.int64:
        if mask is not None:
            allowed = np.flatnonzero(np.asarray(mask))
            drawn = int(self.np_random.choice(allowed)) if len(allowed) else 0
            return self.start + np.int64(drawn)
        return self.start + np.int64(self.np_random.integers(self.n))

    def contains(self, x: Any) -> bool:
        found = self._array(x)
        return found is not None and bool(self.start <= found < self.start + self.n)

    def _key(self) -> tuple[Any, ...]:
        return (int(self.n), int(self.start))

    def __repr__(self) -> str:
        return f"Discrete({self.n})"


class MultiDiscrete(Space):
    """gymnasium.spaces.MultiDiscrete: arrays of whole numbers below those of `nvec`."""

    def __init__(
        self, nvec: Any, dtype: Any = np.int64, seed: Any = None, start: Any = None
    ) -> None:
        self.nvec = np.array(nvec, dtype)
        self.start = np.zeros_like(self.nvec) if start is None else np.array(start, dtype)
        super().__init__(self.nvec.shape, dtype, seed)

    def sample(self, mask: Any = None, probability: Any = None) -> NDArray[Any]:
        drawn = self.np_random.integers(self.nvec).astype(self.dtype)
        return np.asarray(self.start + drawn)

    def contains(self, x: Any) -> bool:
        found = self._array(x)
        if found is None:
            return False
        return bool(((found >= self.start) & (found < self.start + self.nvec)).all())

    def _key(self) -> tuple[Any, ...]:
        return (self.shape, self.nvec.tobytes(), self.start.tobytes())

    def __repr__(self) -> str:
        return f"MultiDiscrete({self.nvec})"


def batch_space(space: Any, n: int = 1) -> Any:
    """gymnasium.vector.utils.batch_space: the space of n values side by side."""
    if isinstance(space, Discrete):
        return MultiDiscrete(np.full(n, space.n))
    if isinstance(space, MultiDiscrete):
        high = np.broadcast_to(space.nvec - 1, (n, *space.shape))
        return Box(np.zeros_like(high), high, dtype=space.dtype)
    low, high = (np.broadcast_to(it, (n, *space.shape)) for it in (space.low, space.high))
    return Box(low, high, dtype=space.dtype)


def generator(seed: int | None) -> tuple[np.random.Generator, int]:
    """gymnasium.utils.seeding.np_random: a generator, and the seed that it was made from."""
    if seed is not None and not (isinstance(seed, (int, np.integer)) and seed >= 0):
        raise ValueError(f"seed is {seed!r}, and may be None or a whole number from 0 on")
    made = np.random.SeedSequence(None if seed is None else int(seed))
    return np.random.Generator(np.random.PCG64(made)), int(made.entropy)  # type: ignore[arg-type]


class VectorEnv:
    """gymnasium.vector.VectorEnv: its attributes, and what it does by itself."""

    metadata: dict[str, Any] = {}
    spec: Any = None
    render_mode: str | None = None
    closed = False
    num_envs: int
    observation_space: Any
    action_space: Any
    single_observation_space: Any
    single_action_space: Any
    _np_random: np.random.Generator | None = None
    _np_random_seed: int | None = None

    def reset(self, *, seed: int | None = None, options: dict[str, Any] | None = None) -> Any:
        if seed is not None:
            self._np_random, self._np_random_seed = generator(seed)

    def close(self, **kwargs: Any) -> None:
        if not self.closed:
            self.close_extras(**kwargs)
            self.closed = True

    def close_extras(self, **kwargs: Any) -> None:
        """What a subclass closes."""

    @property
    def np_random(self) -> np.random.Generator:
        if self._np_random is None:
            self._np_random, self._np_random_seed = generator(None)
        return self._np_random

    @np_random.setter
    def np_random(self, value: np.random.Generator) -> None:
        self._np_random, self._np_random_seed = value, -1

    @property
    def np_random_seed(self) -> int | None:
        if self._np_random_seed is None:
            self._np_random, self._np_random_seed = generator(None)
        return self._np_random_seed

    @property
    def unwrapped(self) -> Any:
        return self

    def __repr__(self) -> str:
        return f"{type(self).__name__}(num_envs={self.num_envs})"


class ParallelEnv:
    """pettingzoo.ParallelEnv: its attributes, and what it does by itself."""

    metadata: dict[str, Any] = {}
    agents: list[str]
    possible_agents: list[str]
    observation_spaces: dict[str, Any]
    action_spaces: dict[str, Any]

    @property
    def num_agents(self) -> int:
        return len(self.agents)

    @property
    def max_num_agents(self) -> int:
        return len(self.possible_agents)

    @property
    def unwrapped(self) -> Any:
        return self

    def __str__(self) -> str:
        return self.metadata.get("name", type(self).__name__)
