"""An environment a game, in the shape of gymnasium's vector environments. Needs numpy."""

from __future__ import annotations

from typing import Any

import numpy as np
from numpy.typing import NDArray

from arena_rules import render as drawing
from arena_rules.core import Core, Rooms, masks, refuse_options
from arena_rules.library import LAST_TURN
from arena_rules.spaces import AutoresetMode, MultiDiscrete, VectorBase, batch_space, planes_space

__all__ = ["LAST_TURN", "VectorEnv"]
RENDER_MODES = ["rgb_array", "ansi"]
# Observations, rewards, terminations, truncations and infos.
Turned = tuple[
    NDArray[np.uint8], NDArray[np.float64], NDArray[np.bool_], NDArray[np.bool_], dict[str, Any]
]


class Environments(VectorBase):  # type: ignore[misc]
    """What the environments of a game and those of a seat share."""

    metadata: dict[str, Any] = {
        "render_modes": RENDER_MODES,
        "render_fps": 4,
        "autoreset_mode": AutoresetMode.NEXT_STEP,
    }

    def __init__(
        self, games: int, seed: int | None, words: int, render_mode: str | None, settings: Any
    ) -> None:
        if render_mode not in (None, *RENDER_MODES):
            may = ", ".join(RENDER_MODES)
            raise ValueError(f"render_mode is {render_mode!r}, and may be None, {may}")
        self.core = Core(games, words, settings)
        self.games, self.seats = self.core.games, self.core.seats
        self.spec, self.render_mode, self._first_seed = None, render_mode, seed
        self._is_begun = False

    def _begin(self, seed: int | None, options: Any) -> None:
        """Starts every game. A seed that is left out is that of the constructor, the first time;
        later the drawing goes on."""
        refuse_options(options)
        if seed is None:
            seed, self._first_seed = self._first_seed, None
        super().reset(seed=seed)
        if seed is not None or self.core.rng is not self.np_random:
            self.core.seed(self.np_random)
        self._first_seed, self._is_begun = None, True
        self.core.begin()

    def _take(self, actions: Any, shape: tuple[int, ...]) -> None:
        """Takes the actions of the next turn."""
        if not self._is_begun:
            raise RuntimeError("there is no game yet: call reset")
        self.core.take(actions, shape)

    def _frames(self) -> tuple[Any, ...] | None:
        """A frame for each game."""
        if self.render_mode is None:
            return None
        draw = drawing.ansi if self.render_mode == "ansi" else drawing.rgb
        return tuple(draw(self.games, game) for game in range(self.core.count))

    def close_extras(self, **_: Any) -> None:
        """Ends the threads of the games."""
        self.games.close()


class VectorEnv(Environments):
    """Each environment is a game, and an action has a direction for each seat: (num_envs, seats).

    After a game has ended, the next step starts another in its place and ignores the action
    (`AutoresetMode.NEXT_STEP`). Observations are planes of bytes (num_envs, 1 + 3 * seats, height,
    width): the food; the snake of each seat, see `Games.planes`; then for each seat a plane of its
    health, and for each one of its length, at most 255, both 0 for a snake that is out. With
    `scalars=False` there are no planes of health and length, and with `observe=False` none is
    written: all are zeros. Rewards are (num_envs, seats): 1 for the last one alive, -1 in the turn
    in which a snake goes out. A game that reaches turn 10,000 is truncated. Infos have `alive`,
    `cause`, `killer` (255 for none) and `turn`, and for each the mask that gymnasium has. With
    `map="royale"`, see `Royale`, one more plane, the last, has 1 on each hazard.

    Observations and infos stay as they are when the games go on. With `copy=False` that is NOT so:
    each call writes the observations of the last one anew.
    """

    def __init__(
        self,
        num_envs: int,
        *,
        seed: int | None = None,
        words: int = 2,
        observe: bool = True,
        scalars: bool = True,
        copy: bool = True,
        render_mode: str | None = None,
        **settings: Any,
    ) -> None:
        super().__init__(num_envs, seed, words, render_mode, settings)
        self.num_envs, self._observe, self._scalars = self.core.count, observe, scalars
        sides = (self.games.height, self.games.width)
        self.single_observation_space = planes_space(self.core.planes(scalars), *sides)
        self.single_action_space = MultiDiscrete([4] * self.seats)
        self.observation_space = batch_space(self.single_observation_space, self.num_envs)
        self.action_space = batch_space(self.single_action_space, self.num_envs)
        self._shape = (self.num_envs, *self.single_observation_space.shape)
        self._rooms = Rooms(self._shape)
        self._kept = None if copy else self._rooms.take()
        self._masks = masks(self.num_envs)

    def _room(self) -> NDArray[np.uint8]:
        """Where the observations of a call are written."""
        if self._kept is not None:
            return self._kept
        return self._rooms.take() if self._observe else np.zeros(self._shape, "u1")

    def _observed(self, planes: NDArray[np.uint8]) -> NDArray[np.uint8]:
        if self._observe and self._scalars:
            self.core.show_seats(planes)
        if self._observe:
            self.core.show_hazards(planes)
        return planes

    def reset(
        self, *, seed: int | None = None, options: dict[str, Any] | None = None
    ) -> tuple[NDArray[np.uint8], dict[str, Any]]:
        """Starts every game. Returns observations and infos."""
        self._begin(seed, options)
        planes = self._room()
        if self._observe:
            self.core.show(planes)
        return self._observed(planes), {**self.core.infos(), **self._masks}

    def step(self, actions: Any) -> Turned:
        """Plays a turn. Returns observations, rewards, terminations, truncations and infos."""
        core = self.core
        self._take(actions, (self.num_envs, self.seats))
        before, planes = core.alive, self._room()
        core.turn(planes if self._observe else None)
        last = core.over[:, None] & core.alive
        rewards = np.subtract(last, before > core.alive, dtype="f8")
        infos = {**core.infos(), **self._masks}
        return self._observed(planes), rewards, core.over.copy(), core.cut.copy(), infos

    def render(self) -> tuple[Any, ...] | None:
        """A frame for each game: text or pictures, by `render_mode`; None without one."""
        return self._frames()
