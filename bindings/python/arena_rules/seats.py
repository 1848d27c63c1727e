"""An environment a seat, for learners of single agents, in the shape of gymnasium's vector
environments. Needs numpy."""

from __future__ import annotations

from typing import Any

import numpy as np
from numpy.typing import NDArray

from arena_rules.core import Rooms, masks
from arena_rules.spaces import Discrete, batch_space, planes_space
from arena_rules.vector import Environments, Turned


def seat_order(seats: int) -> NDArray[Any]:
    """For each seat all seats, the own one first: (seats, seats)."""
    return np.array([[own, *(it for it in range(seats) if it != own)] for own in range(seats)])


def copy_own_first(from_: NDArray[Any], own: int, into: NDArray[Any], run: int) -> None:
    """Copies what each seat has, `run` bytes side by side, for all games, in the order of a seat:
    three runs, which is faster than one plane after the other."""
    behind = (own + 1) * run
    into[:, :run] = from_[:, own * run : behind]
    into[:, run:behind] = from_[:, : own * run]
    into[:, behind:] = from_[:, behind:]


class SeatView:
    """What each seat sees of its game: planes with the own snake first.

    (1 + 3 * seats, height, width): the food; the snakes as in `Games.planes`; then for each snake,
    in the same order, a plane of its health, and a plane of its length, at most 255. Both are 0 for
    a snake that is out. On the map royale one more plane, the last, has 1 on each hazard.
    """

    def __init__(self, core: Any) -> None:
        self.core, games = core, core.games
        self.planes = np.zeros((core.count, 1 + core.seats, games.height, games.width), "u1")
        self._order = seat_order(core.seats)
        self.shape = (core.count, core.seats, core.planes(), games.height, games.width)
        self.rooms = Rooms(self.shape)

    def observed(self, into: NDArray[np.uint8] | None = None) -> NDArray[np.uint8]:
        """The observations of all seats of all games, in the shape `shape`, from `planes`."""
        core, seats = self.core, self.core.seats
        out = self.rooms.take() if into is None else into
        planes = self.planes.reshape(core.count, -1)
        run = planes.shape[1] // (1 + seats)
        flat = out.reshape(core.count, seats, -1)
        flat[:, :, :run] = planes[:, None, :run]
        for seat in range(seats):
            copy_own_first(planes[:, run:], seat, flat[:, seat, run : run * (1 + seats)], run)
        self._show_seats(out.reshape(*out.shape[:3], run))
        if core.games.map is not None:
            out[:, :, -1] = core.games.hazards[:, None]
        return out

    def _show_seats(self, out: NDArray[Any]) -> None:
        """Writes the planes of health and of length."""
        seats, both = self.core.seats, self.core.health_and_length()
        for first, mine in ((1 + seats, both[:, :seats]), (1 + 2 * seats, both[:, seats:])):
            out[:, :, first : first + seats] = mine[:, self._order, None]


class SeatEnv(Environments):
    """Each environment is a seat: num_envs = games * seats, the seats of a game side by side.

    An observation is that of `SeatView`, (num_envs, planes, height, width); an action is a
    direction, Discrete(4); rewards are (num_envs,): 1 for the last one alive, -1 for going out. A
    seat that is out has terminations True once. Then it waits until its game begins anew: its
    rewards are 0, its actions do nothing, and `infos["waiting"]` is True, so that a learner can
    leave these steps out. A game that has ended begins anew in the next step.

    Observations and infos stay as they are when the games go on. With `copy=False` that is NOT so:
    each call writes the observations of the last one anew.
    """

    def __init__(
        self,
        games: int,
        *,
        seed: int | None = None,
        words: int = 2,
        copy: bool = True,
        render_mode: str | None = None,
        **settings: Any,
    ) -> None:
        super().__init__(games, seed, words, render_mode, settings)
        core = self.core
        self.num_envs = core.count * core.seats
        sides = (core.games.height, core.games.width)
        self.single_observation_space = planes_space(core.planes(), *sides)
        self.single_action_space = Discrete(4)
        self.observation_space = batch_space(self.single_observation_space, self.num_envs)
        self.action_space = batch_space(self.single_action_space, self.num_envs)
        self._view = SeatView(core)
        self._kept = None if copy else self._view.rooms.take()
        self._playing = np.zeros((core.count, core.seats), bool)
        self._masks = masks(self.num_envs, "waiting")

    def _flat(self, by_seat: NDArray[Any]) -> NDArray[Any]:
        return np.ascontiguousarray(by_seat).reshape(self.num_envs, *by_seat.shape[2:])

    def _infos(self, waiting: NDArray[Any]) -> dict[str, Any]:
        infos = self.core.infos()
        infos["turn"] = infos["turn"].repeat(self.seats)
        flat = {name: it if it.ndim == 1 else self._flat(it) for name, it in infos.items()}
        return {**flat, "waiting": self._flat(waiting), **self._masks}

    def reset(
        self, *, seed: int | None = None, options: dict[str, Any] | None = None
    ) -> tuple[NDArray[np.uint8], dict[str, Any]]:
        """Starts every game. Returns observations and infos."""
        self._begin(seed, options)
        self._playing = self.core.alive.copy()
        self.core.show(self._view.planes)
        return self._flat(self._view.observed(self._kept)), self._infos(~self._playing)

    def step(self, actions: Any) -> Turned:
        """Plays a turn. Returns observations, rewards, terminations, truncations and infos."""
        core, before = self.core, self._playing
        self._take(actions, (self.num_envs,))
        done = core.turn(self._view.planes)[:, None]
        alive, over = core.alive, core.over[:, None]
        before = before & ~done
        ended = before & (~alive | over)
        cut = before & alive & core.cut[:, None]
        rewards = (before & over & alive).astype("f8") - (before & ~alive)
        waiting = ~before & ~done
        self._playing = (before | done) & ~ended & ~cut
        seen = self._flat(self._view.observed(self._kept))
        return (seen, self._flat(rewards), self._flat(ended), self._flat(cut), self._infos(waiting))

    def render(self) -> tuple[Any, ...] | None:
        """A frame for each seat, that of its game; None without a `render_mode`."""
        frames = self._frames()
        return None if frames is None else tuple(it for it in frames for _ in range(self.seats))
