#!/usr/bin/env python3
"""Learns to play by self-play in a minute, with numpy alone.

    examples/learn.py [--seconds S] [--updates N] [--picture FILE]

Two snakes on 7 by 7 cells, in 512 games at once, play by one policy: each direction has five
features, and a direction is drawn by the softmax of their weighted sum. The weights follow
REINFORCE: a move is made more likely if the rewards after it were better than the mean. It begins
with weights 0, which is random play, and prints the mean length of a game as it goes on. It ends
after S seconds (60), or N updates. FILE is its curve as a picture in SVG.
"""
import argparse
import sys
import time
from pathlib import Path

ROOT = Path(__file__).resolve().parent.parent
sys.path.insert(0, str(ROOT / "bindings/python"))
import numpy as np
from arena_rules import VectorEnv

GAMES, SEATS, SIDE = 512, 2, 7
TURNS, RATE, DISCOUNT = 32, 2.0, 0.9  # turns of an update
STEPS = np.array([(0, 1), (0, -1), (-1, 0), (1, 0)])
NAMES = ("free", "food", "room", "rival", "bias")


def features(games, planes):
    """Five numbers for each game, seat and direction.

    Whether the next cell is free, whether it is nearer to food, how many cells around it are free,
    and whether the rival's head is next to it; the last is 1.
    """
    free, heads = games.free_steps(), games.heads
    to = heads[:, :, None] + STEPS
    taken = np.ones((len(planes), SIDE + 4, SIDE + 4), bool)
    taken[:, 2:-2, 2:-2] = planes[:, 1 : 1 + SEATS].any(axis=1)
    game = np.arange(len(planes))[:, None, None, None]
    around = np.clip(to[:, :, :, None] + STEPS + 2, 0, SIDE + 3)
    room = (~taken[game, around[..., 1], around[..., 0]]).sum(axis=3)
    food = planes[:, 0].reshape(len(planes), -1)
    at = np.stack([food.argmax(axis=1) % SIDE, food.argmax(axis=1) // SIDE], axis=-1)[:, None]
    before = np.abs(heads - at).sum(axis=2)[:, :, None]
    nearer = (np.abs(to - at[:, :, None]).sum(axis=3) < before) & food.any(axis=1)[:, None, None]
    rival = np.abs(to - heads[:, ::-1, None]).sum(axis=3) <= 1
    return np.stack([free, nearer, room / 4, rival, np.ones_like(free)], axis=-1).astype("f8")


class Learner:
    """The policy, its games and its curve."""

    def __init__(self, seed):
        self.env = VectorEnv(GAMES, seed=seed, width=SIDE, height=SIDE, seats=SEATS)
        self.rng = np.random.default_rng(seed)
        self.weights = np.zeros(len(NAMES))
        self.seen, _ = self.env.reset()
        self.turns, self.curve = 0, []

    def act(self):
        """Draws a direction for each seat, and returns it with the gradient of its logarithm."""
        given = features(self.env.games, self.seen)
        scores = given @ self.weights
        odds = np.exp(scores - scores.max(axis=-1, keepdims=True))
        odds /= odds.sum(axis=-1, keepdims=True)
        drawn = (odds.cumsum(axis=-1) < self.rng.random((GAMES, SEATS, 1))).sum(axis=-1).clip(0, 3)
        chosen = np.take_along_axis(given, drawn[..., None, None], 2)[:, :, 0]
        slope = chosen - (odds[..., None] * given).sum(axis=2)
        return drawn, slope * self.env.games.alive[..., None]

    def update(self):
        """Plays some turns, and moves the weights once."""
        slopes, rewards, ends, lengths = [], [], [], []
        for _ in range(TURNS):
            actions, slope = self.act()
            self.seen, reward, over, _, infos = self.env.step(actions)
            slopes.append(slope)
            rewards.append(reward)
            ends.append(over)
            lengths += infos["turn"][over].tolist()
        later, step = np.zeros((GAMES, SEATS)), np.zeros(len(NAMES))
        for slope, reward, over in zip(slopes[::-1], rewards[::-1], ends[::-1]):
            later = reward + DISCOUNT * later * ~over[:, None]
            step += (slope * (later - later.mean())[..., None]).sum(axis=(0, 1))
        self.weights += RATE * step / (GAMES * TURNS)
        self.turns += GAMES * TURNS
        self.curve.append((self.turns, float(np.mean(lengths)) if lengths else 0.0))


def svg(curve):
    """The curve as a picture: turns played to the right, the mean length of games up."""
    most, high = curve[-1][0], max(length for _, length in curve) * 1.1
    points = " ".join(f"{60 + 520 * x / most:.1f},{260 - 230 * y / high:.1f}" for x, y in curve)
    marks = "".join(
        f'<text x="50" y="{264 - 230 * k / 4:.0f}" text-anchor="end">{high * k / 4:.0f}</text>'
        f'<path d="M60 {260 - 57.5 * k}H580" stroke="#ddd"/>'
        for k in range(5)
    )
    return (
        '<svg xmlns="http://www.w3.org/2000/svg" width="600" height="300" font-family="sans-serif"'
        f' font-size="12"><rect width="600" height="300" fill="#fff"/>{marks}'
        f'<polyline points="{points}" fill="none" stroke="#2060c0" stroke-width="2"/>'
        '<text x="60" y="18">mean length of a game, in turns</text>'
        f'<text x="580" y="285" text-anchor="end">{most:,} turns of self-play</text></svg>\n'
    )


def main():
    words = argparse.ArgumentParser(
        description=__doc__, formatter_class=argparse.RawDescriptionHelpFormatter
    )
    words.add_argument("--seconds", type=float, default=60.0)
    words.add_argument("--updates", type=int, default=1_000_000)
    words.add_argument("--picture", metavar="FILE", type=Path)
    given = words.parse_args()
    learner, until = Learner(1), time.monotonic() + given.seconds
    while len(learner.curve) < given.updates and time.monotonic() < until:
        learner.update()
        if len(learner.curve) % 20 == 1:
            turns, length = learner.curve[-1]
            print(f"{turns:>10,} turns: a game lasts {length:5.1f}", flush=True)
    print("weights", ", ".join(f"{n} {w:.2f}" for n, w in zip(NAMES, learner.weights)))
    if given.picture:
        given.picture.write_text(svg(learner.curve))


if __name__ == "__main__":
    main()
