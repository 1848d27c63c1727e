"""Boards as text, and the steps through the boards of a game on a terminal."""

from __future__ import annotations

import os
import re
import sys
import termios
import tty
from collections.abc import Iterator, Sequence
from contextlib import contextmanager

from rich.console import Console
from rich.text import Text

from arena_client import Board, Snake
from arena_ladder.game.payloads import is_living

COLORS = ("green", "blue", "yellow", "magenta", "cyan", "red", "bright_green", "bright_blue")
KEYS = "right: next, left: back, end: last, home: first, q: quit"
STEPS = {  # by key: how far to go
    **{b"\x1b[C": 1, b"l": 1, b" ": 1, b"\x1b[D": -1, b"h": -1},
    **{b"\x1b[5~": -10, b"\x1b[6~": 10},
    **{b"\x1b[H": -(10**6), b"g": -(10**6), b"\x1b[F": 10**6, b"G": 10**6},
}
QUITS = frozenset((b"q", b"Q", b"\x03", b"\x04"))
KEY = re.compile(rb"\x1b\[[0-9]*[~A-Z]|.", re.DOTALL)


def text_of_board(board: Board) -> Text:
    """A board with its turn, and a line for each snake.

    Heads are capital letters, bodies small ones, food is `*`, hazards are `:`.
    """
    marks = marks_of(board)
    text = Text(f"turn {board['turn']}{', over' if board['over'] else ''}\n")
    for y in reversed(range(board["height"])):
        for x in range(board["width"]):
            mark, color = marks.get((x, y), (".", "bright_black"))
            text.append(f"{mark} ", style=color)
        text.append("\n")
    for at, snake in enumerate(board["snakes"]):
        text.append(f"{letter_of(at).upper()} {snake['id']}: ", style=COLORS[at])
        text.append(state_of(snake) + "\n")
    return text


def letter_of(seat: int) -> str:
    return "abcdefgh"[seat]


def marks_of(board: Board) -> dict[tuple[int, int], tuple[str, str]]:
    """The mark and the colour of each cell that is not empty."""
    marks: dict[tuple[int, int], tuple[str, str]] = {}
    for cell in board.get("hazards", ()):
        marks[cell["x"], cell["y"]] = (":", "red")
    for cell in board["food"]:
        marks[cell["x"], cell["y"]] = ("*", "bright_red")
    for at, snake in enumerate(board["snakes"]):
        if is_living(snake):
            for cell in reversed(snake["body"]):
                marks[cell["x"], cell["y"]] = (letter_of(at), COLORS[at])
            head = snake["body"][0]
            marks[head["x"], head["y"]] = (letter_of(at).upper(), f"bold {COLORS[at]}")
    return marks


def state_of(snake: Snake) -> str:
    """The health and the length of a snake, or how it went out."""
    if is_living(snake):
        return f"health {snake['health']}, length {len(snake['body'])}"
    by = f" by {snake['by']}" if snake["by"] else ""
    return f"out in turn {snake['out']}: {snake['cause']}{by}"


def step(at: int, key: bytes, count: int) -> int:
    """The place of the board to which a key leads."""
    return max(0, min(count - 1, at + STEPS.get(key, 0)))


@contextmanager
def raw_keys(terminal: int) -> Iterator[None]:
    """Reads a terminal key by key within the context."""
    before = termios.tcgetattr(terminal)
    try:
        tty.setcbreak(terminal, termios.TCSADRAIN)
        yield
    finally:
        termios.tcsetattr(terminal, termios.TCSADRAIN, before)


def step_through(boards: Sequence[Board]) -> None:
    """Shows the boards of a game on the terminal, and steps by keys, from the last board on."""
    console = Console()
    terminal = sys.stdin.fileno()
    at = len(boards) - 1
    with raw_keys(terminal), console.screen():
        while True:
            console.clear()
            console.print(text_of_board(boards[at]), end="")
            console.print(KEYS, style="bright_black")
            keys = KEY.findall(os.read(terminal, 64)) or [b"q"]
            for key in keys:
                at = step(at, key, len(boards))
            if not QUITS.isdisjoint(keys):
                return


def print_all(boards: Sequence[Board]) -> None:
    """Prints the boards of a game one after the other, for a pipe."""
    print("\n".join(text_of_board(board).plain for board in boards))
