# Drops files that are no transcripts on the page: it shows a clear message, and stays usable.
import json
from collections.abc import Callable
from pathlib import Path
from typing import Any

import pytest
from testing.chromium import Browser
from testing.made import text
from testing.page import Page, TOURNAMENT
from testing.reading import read
from testing.served import ROOT
from testing.test_boards import expected

GOOD = (ROOT / "examples" / "quota_of_two_records.transcript").read_text()
LINES = GOOD.splitlines(keepends=True)
STRAY = '{"line":2,"no":"L1","why":"json"}\n'


def changed(line: int, *path: Any, to: Any) -> str:
    """The good transcript with one member of a line changed, the one at `path`."""
    value = json.loads(LINES[line - 1])
    inner = value
    for member in path[:-1]:
        inner = inner[member]
    inner[path[-1]] = to
    return "".join([*LINES[: line - 1], text(value) + "\n", *LINES[line:]])


# By name, a file's content and the message of the page.
BROKEN: dict[str, tuple[Any, str]] = {
    "nothing": ("", "The file is empty."),
    "picture": (b"\x89PNG\r\n\x1a\n\0\0\0\rIHDR", "Line 1 is no line of a transcript."),
    "commands": (
        (ROOT / "examples" / "four_snakes.jsonl").read_text(),
        "Line 1 is a plan: this is a command file, of which arena serve writes the transcript.",
    ),
    "carriage returns": (
        GOOD.replace("\n", "\r\n"),
        "Line 1 ends with a carriage return, as no line of a transcript does.",
    ),
    "prose": ("All snakes live.\n", "Line 1 is no line of a transcript."),
    "cut in a line": (GOOD[:-10], "Line 8 is cut off: no line feed ends it."),
    "cut between lines": (
        "".join(LINES[:-1]),
        "Line 7 is the last, and its game has no final line.",
    ),
    "an empty line": (GOOD + "\n", "Line 9 is no line of a transcript."),
    "twice": ((GOOD + STRAY) * 2, "Line 10 is of a game, and comes after a stray line."),
    "a reason that is none": (
        GOOD + STRAY.replace("L1", "A6"),
        "Line 9 is no line of a transcript.",
    ),
    "a line left out": ("".join(LINES[:2] + LINES[3:]), "Line 3 has the number 4, not 3."),
    "another game between": (
        changed(4, "game", to="b"),
        "Line 4 is of another game, and the one before has no final line.",
    ),
    "a turn left out": (
        changed(5, "board", "turn", to=3),
        "Line 5 shows turn 3, which can't follow the turns before it.",
    ),
    "a second new": (
        changed(2, "do", to="new"),
        "Line 2 shows a board after new while a game runs.",
    ),
    "a move first": (
        changed(1, "do", to="move"),
        "Line 1 shows a board after move while no game runs.",
    ),
    "another last board": (
        changed(8, "board", "turn", to=1),
        "Line 8 shows turn 1 at last, which is not the turn before it.",
    ),
    "no last board": (
        changed(8, "board", to=None),
        "Line 8 is a final line without a board, which can't follow the lines before it.",
    ),
    "a stray between": (
        LINES[0] + '{"line":2,"no":"L1","why":"json"}\n',
        "Line 2 comes before the final line of a game.",
    ),
    "a broken last board": (
        changed(8, "board", "snakes", 0, "health", to=101),
        "Line 8 holds no board that can be drawn: the health of s is no number from 0 to 100.",
    ),
    "another kind of board": (
        changed(8, "board", "mode", to="royale"),
        "Line 8 holds no board that can be drawn: its mode or its member over is missing or wrong.",
    ),
    "an endless line": (
        b"x" * (3 << 20),
        "The file holds a line that is longer than any line of a transcript.",
    ),
}

# A member of the board in line 2, a wrong value for it, and the fault in the message. The board is
# read only when its turn is shown.
BROKEN_LATER = [
    (("width",), 26, "its sides are no numbers from 3 to 25"),
    (("min_food",), -1, "its turn or the numbers for its food are out of their range"),
    (("over",), 0, "its mode or its member over is missing or wrong"),
    (("food",), [{"x": 5, "y": 0}], "its food is no list of cells"),
    (("hazards",), [], "its hazards are no list of cells with a damage from 0 to 100"),
    (("hazard_damage",), 14, "its hazards are no list of cells with a damage from 0 to 100"),
    (("snakes",), [], "it has no list of 1 to 8 snakes"),
    (("snakes", 0, "id"), 7, "a snake has no unique id"),
    (("snakes", 0, "body", 1, "x"), 5, "the body of s is no list of cells"),
    (("snakes", 0, "by"), "s", "why s is out can't be read"),
    (("snakes", 0, "cause"), "old age", "why s is out can't be read"),
]


def is_dropped(page: Page, make_file: Callable[[str, str], Path], name: str) -> None:
    """Drops a broken file, and compares what the page says of it."""
    content, message = BROKEN[name]
    page.drop(make_file(f"{name}.txt", content))
    assert page.state() == "fault"
    assert page.text("#notice") == f"{name}.txt can't be shown. {message}"
    assert not page.browser.run("return document.querySelector('main').checkVisibility()")


@pytest.mark.parametrize("name", BROKEN)
def test_what_is_no_transcript_gets_a_clear_line(
    page: Page, make_file: Callable[[str, str], Path], name: str
) -> None:
    page.open_empty()
    is_dropped(page, make_file, name)


def test_one_broken_file_after_another_gets_its_line(
    page: Page, make_file: Callable[[str, str], Path]
) -> None:
    page.open_empty()
    for name in BROKEN:
        is_dropped(page, make_file, name)


def test_after_a_broken_file_a_good_one_opens(
    page: Page, make_file: Callable[[str, str], Path]
) -> None:
    page.open_empty()
    page.drop(make_file("prose.txt", "All snakes live.\n"))
    page.drop(TOURNAMENT)
    assert (page.state(), page.text("#notice")) == ("open", "")
    boards = read(TOURNAMENT)[0][0].rounds[0]
    page.wait_for_turn(0, len(boards) - 1)
    assert page.board() == expected(boards[0], len(boards) - 1)


@pytest.mark.parametrize("path, value, fault", BROKEN_LATER)
def test_a_board_that_cannot_be_drawn_is_reported_when_its_turn_is_shown(
    page: Page,
    browser: Browser,
    make_file: Callable[[str, str], Path],
    path: Any,
    value: Any,
    fault: str,
) -> None:
    page.open_empty()
    page.choose(make_file("broken.transcript", changed(2, "board", *path, to=value)))
    assert page.state() == "open"
    page.wait_for_turn(0, 2)
    browser.click("#forward")
    message = f"Line 2 holds no board that can be drawn: {fault}."
    browser.wait("return document.getElementById('notice').textContent === arguments[0]", message)
    page.wait_for_turn(0, 2)
