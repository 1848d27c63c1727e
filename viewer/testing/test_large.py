# Large transcripts: 85 MB with 64 games, and one game of 10,000 turns. The page has to stay
# responsive while it reads them.
import os
import time
from pathlib import Path

import pytest
from testing.chromium import Browser
from testing.made import tour_boards, write_large, write_long
from testing.page import Page, TOURNAMENT
from testing.reading import read
from testing.test_boards import expected

SIZE = 85_000_000
GAMES = 64
# Seconds on an idle machine; silence is that in which the page may not answer at a stretch.
OPEN_SECONDS = 30
TURN_SECONDS = 2
MOST_SILENCE = 2
LONG = 10_000

HEARTBEAT = """
window.silence = 0;
let before = performance.now();
window.heartbeat = setInterval(() => {
  const now = performance.now();
  window.silence = Math.max(window.silence, now - before);
  before = now;
}, 5);
"""


def busy(seconds: float) -> float:
    """What takes some seconds on an idle machine may take this long at the load of this one."""
    processors = len(os.sched_getaffinity(0))
    return seconds * max(1.0, os.getloadavg()[0] / processors)


def open_timed(page: Page, browser: Browser, path: Path) -> tuple[float, float]:
    """Opens a file. Returns how long that took, and the longest time without a response of the
    page."""
    page.open_empty()
    browser.run(HEARTBEAT)
    began = time.monotonic()
    page.choose(path, seconds=busy(OPEN_SECONDS))
    took = time.monotonic() - began
    assert (page.state(), page.text("#notice")) == ("open", "")
    return took, browser.run("return window.silence") / 1000


@pytest.mark.slow
def test_85_megabytes_of_64_games_open_within_a_time(
    page: Page, browser: Browser, tmp_path: Path
) -> None:
    path = tmp_path / "large.transcript"
    rounds = write_large(path, TOURNAMENT.read_text().splitlines(), "eight", GAMES, SIZE)
    assert path.stat().st_size >= SIZE
    took, silence = open_timed(page, browser, path)
    boards = read(TOURNAMENT)[0][0].rounds[0]
    last = len(boards) - 1
    living = [snake["id"] for snake in boards[-1]["snakes"] if snake["cause"] is None]
    assert page.games() == [
        [f"game {index}", "ended", living, str(last), str(rounds), "0", "0"]
        for index in range(GAMES)
    ]
    page.choose_game(f"game {GAMES - 1}")
    page.choose_round(rounds)
    began = time.monotonic()
    browser.press("\ue010")
    page.wait_for_turn(last, last)
    turn_took = time.monotonic() - began
    assert page.board() == expected(boards[-1], last)
    print(
        f"\n{path.stat().st_size / 1e6:.1f} MB, {GAMES} games: open after {took:.2f} s,"
        f" at most {silence * 1000:.0f} ms without an answer,"
        f" the last turn of the last game after {turn_took * 1000:.0f} ms"
    )
    assert silence < busy(MOST_SILENCE)
    assert turn_took < busy(TURN_SECONDS)


@pytest.mark.slow
def test_ten_thousand_turns_of_one_game(page: Page, browser: Browser, tmp_path: Path) -> None:
    path = tmp_path / "long.transcript"
    write_long(path, LONG)
    took, _ = open_timed(page, browser, path)
    boards = list(tour_boards(LONG))
    for turn in (LONG, LONG // 2):
        browser.run("location.hash = arguments[0]", f"game=long&turn={turn}")
        page.wait_for_turn(turn, LONG)
        assert page.board() == expected(boards[turn], LONG)
    longest = len(boards[-1]["snakes"][0]["body"])
    page.wait_for_plots(seconds=busy(OPEN_SECONDS))
    silence = browser.run("return window.silence") / 1000
    plot = page.plots()[0]
    top = min(y for _, y in plot["length"])
    assert top == 0, f"the plot reaches the greatest length, {longest}"
    lowest = min(board["snakes"][0]["health"] for board in boards)
    assert max(y for _, y in plot["health"]) == pytest.approx(48 * (1 - lowest / 100), abs=0.051)
    assert len(plot["health"]) < 2 * 240 + 2
    print(
        f"\n{path.stat().st_size / 1e6:.1f} MB, one game of {LONG} turns:"
        f" open after {took:.2f} s, at most {silence * 1000:.0f} ms without an answer,"
        " its plot read as well"
    )
    assert silence < busy(MOST_SILENCE)
