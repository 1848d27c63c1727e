"""One game as an environment of several agents, in the shape of PettingZoo's parallel environments.

It is a subclass of `pettingzoo.ParallelEnv` where that package is installed. Needs numpy.
"""

from __future__ import annotations

from typing import Any

import numpy as np
from numpy.typing import NDArray

from arena_rules import render as drawing
from arena_rules.buffers import number
from arena_rules.core import Core, refuse_options
from arena_rules.library import CAUSES
from arena_rules.seats import SeatView
from arena_rules.spaces import Discrete, ParallelBase, generator, planes_space
from arena_rules.vector import RENDER_MODES

STRAIGHT_ON = 4
Answers = tuple[
    dict[str, NDArray[np.uint8]],
    dict[str, float],
    dict[str, bool],
    dict[str, bool],
    dict[str, dict[str, Any]],
]


class ParallelEnv(ParallelBase):  # type: ignore[misc]
    """The agents are `snake_0` and so on; an action is 0 to 3 for up, down, left and right.

    An agent observes its game as in `SeatView`, with its own snake first. It is rewarded with 1 if
    it is the last one alive, and with -1 when it goes out, and then is no agent any more. Its infos
    say whether it is `alive`, and the `cause` and `killer` if not. An agent without an action goes
    straight on. After turn 10,000 all are truncated.
    """

    metadata: dict[str, Any] = {
        "name": "arena_rules",
        "render_modes": RENDER_MODES,
        "render_fps": 4,
        "is_parallelizable": True,
    }

    def __init__(
        self,
        *,
        seed: int | None = None,
        words: int = 2,
        render_mode: str | None = None,
        **settings: Any,
    ) -> None:
        if render_mode not in (None, *RENDER_MODES):
            may = ", ".join(RENDER_MODES)
            raise ValueError(f"render_mode is {render_mode!r}, and may be None, {may}")
        self.core = Core(1, words, settings)
        self.games, self.render_mode, self._first_seed = self.core.games, render_mode, seed
        self._view = SeatView(self.core)
        self.possible_agents = [f"snake_{seat}" for seat in range(self.core.seats)]
        self.agents: list[str] = []
        sides = (self.core.planes(), self.games.height, self.games.width)
        self.observation_spaces = {agent: planes_space(*sides) for agent in self.possible_agents}
        self.action_spaces = {agent: Discrete(4) for agent in self.possible_agents}
        self.state_space = planes_space(*sides)

    def observation_space(self, agent: str) -> Any:
        """The space of an agent's observations: the same object each time."""
        return self.observation_spaces[agent]

    def action_space(self, agent: str) -> Any:
        """The space of an agent's actions: the same object each time."""
        return self.action_spaces[agent]

    def _seats(self) -> list[tuple[int, str]]:
        return [(int(agent.removeprefix("snake_")), agent) for agent in self.agents]

    def _observations(self) -> dict[str, NDArray[np.uint8]]:
        seen = self._view.observed()[0]
        return {agent: seen[seat] for seat, agent in self._seats()}

    def reset(
        self, seed: int | None = None, options: dict[str, Any] | None = None
    ) -> tuple[dict[str, NDArray[np.uint8]], dict[str, dict[str, Any]]]:
        """Starts a game. Returns the observations and infos by agent."""
        refuse_options(options)
        if seed is None:
            seed, self._first_seed = self._first_seed, None
        if seed is not None or self.core.rng is None:
            self.np_random, self.np_random_seed = generator(seed)
            self.core.seed(self.np_random)
        self.core.begin()
        self.core.show(self._view.planes)
        self.agents = list(self.possible_agents)
        return self._observations(), self._infos()

    def _infos(self) -> dict[str, dict[str, Any]]:
        infos = {}
        seats = self.games.memory[0].head.seats
        for seat, agent in self._seats():
            killer = seats[seat].killer
            infos[agent] = {
                "alive": seats[seat].cause == 0,
                "cause": CAUSES[seats[seat].cause],
                "killer": f"snake_{killer}" if killer < self.core.seats else None,
                "turn": self.games.memory[0].head.turn,
            }
        return infos

    def step(self, actions: dict[str, int]) -> Answers:
        """Plays a turn. Returns observations, rewards, terminations, truncations and infos."""
        if not self.agents:
            raise RuntimeError("the game is over: call reset")
        unknown = [agent for agent in actions if agent not in self.possible_agents]
        if unknown:
            raise ValueError(f"actions has {unknown[0]!r}, and may have {self.possible_agents}")
        self.core.moves[0] = STRAIGHT_ON
        for seat, agent in self._seats():
            if agent in actions:
                self.core.moves[0, seat] = number(f"the action of {agent}", actions[agent], 0, 3)
        self.core.turn(self._view.planes)
        return self._results()

    def _results(self) -> Answers:
        core = self.core
        over, cut = bool(core.over[0]), bool(core.cut[0])
        alive = {agent: bool(core.alive[0, seat]) for seat, agent in self._seats()}
        rewards = {agent: float(over) if lives else -1.0 for agent, lives in alive.items()}
        ended = {agent: over or not lives for agent, lives in alive.items()}
        truncated = {agent: cut and not ended[agent] for agent in alive}
        seen, infos = self._observations(), self._infos()
        self.agents = [it for it in self.agents if not (ended[it] or truncated[it])]
        return seen, rewards, ended, truncated, infos

    def state(self) -> NDArray[np.uint8]:
        """The whole game as in `VectorEnv`, in `state_space`: the seats in their order."""
        planes = np.empty((1, *self.state_space.shape), "u1")
        self.core.show(planes)
        self.core.show_seats(planes)
        self.core.show_hazards(planes)
        whole: NDArray[np.uint8] = planes[0]
        return whole

    def render(self) -> Any:
        """The board as text or as a picture, by `render_mode`; None without one."""
        if self.render_mode is None:
            return None
        return (drawing.ansi if self.render_mode == "ansi" else drawing.rgb)(self.games, 0)

    def close(self) -> None:
        """Ends the threads of the games."""
        self.games.close()
