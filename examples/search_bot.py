#!/usr/bin/env python3
"""A bot that plays random games: serve it by `examples/search_bot.py [PORT]` (it needs aiohttp and
numpy).

For each of its four moves it plays GAMES games of DEPTH turns on, in which all snakes take random
free steps, all at once in one block of memory (a flat Monte Carlo search). The move whose games go
best is taken. To be out at once counts twice, and food the more, the hungrier the snake is. Hazards
are left out.
"""
import sys
from pathlib import Path

ROOT = Path(__file__).resolve().parent.parent
sys.path[:0] = [str(ROOT / "bindings/python"), str(ROOT / "ladder/bots")]
try:
    import numpy as np
    from arena_rules import Games, records
except (ImportError, OSError) as fault:
    sys.exit(
        f"search_bot: no library of the rules: {fault}\ndocs/SIMULATOR.md says how to build it"
    )

WORDS = ("up", "down", "left", "right")
GAMES, DEPTH = 64, 16


def copies(state, count):
    """The board of a request, `count` times, without its hazards."""
    board, mode = {**state["board"], "hazards": []}, state["game"]["ruleset"]["name"]
    games = Games(
        count,
        width=board["width"],
        height=board["height"],
        seats=len(board["snakes"]),
        mode="standard" if mode == "royale" else mode,
    )
    games.load(0, records.from_state({**state, "board": board}))
    games.states[1:] = games.states[0]
    return games


def worth(games, me, turn):
    """What each game's end is worth to a seat: to live, to live long, length, and few others."""
    alive = games.alive[:, me]
    lived = np.where(alive, DEPTH, games.states["head"]["seats"]["out"][:, me] - turn)
    others = games.alive.sum(axis=1) - alive
    return 4.0 * alive + lived / DEPTH + 0.05 * games.lengths[:, me] - others


def risk(games, me):
    """What the first turn costs: to be out at once, and to be far from food when hungry."""
    food = np.array(games.food(0) or games.heads[0, me][None])
    away = np.abs(games.heads[:, me, None] - food).sum(axis=2).min(axis=1)
    hunger = 0.02 + 0.002 * np.maximum(0, 60 - games.health[0, me].astype(int))
    return away * hunger + 4.0 * ~games.alive[:, me]


def choose(state, rng=np.random.default_rng()):
    """The direction whose random games are worth most on average."""
    me = [snake["id"] for snake in state["board"]["snakes"]].index(state["you"]["id"])
    games, cost = copies(state, 4 * GAMES), np.zeros(4 * GAMES)
    for depth in range(DEPTH):
        free = games.free_steps()
        moves = (rng.random(free.shape) + free).argmax(axis=2)
        if depth == 0:
            moves[:, me] = np.repeat(np.arange(4), GAMES)
        games.step(moves)
        if depth == 0:
            cost = risk(games, me)
    values = (worth(games, me, state["turn"]) - cost).reshape(4, GAMES).mean(axis=1)
    return WORDS[int(values.argmax())]


if __name__ == "__main__":
    from server import serve

    serve({"searcher": ("#b03060", choose)}, int(sys.argv[1]) if len(sys.argv) > 1 else 8002)
