# The start page: its samples, what it shows and hides, and its colours where the system is dark.
from pathlib import Path

import pytest
from testing.chromium import Browser
from testing.page import CASES, Page, stem_of
from testing.reading import read
from testing.served import ROOT

SAMPLES = {"duel": (2, "standard"), "eight": (8, "standard"), "wrapped": (4, "wrapped")}
QUIET = ROOT / "examples" / "four_snakes.transcript"  # without refusals and stray lines
VISIBLE = """
const shown = (selector) => document.querySelector(selector).checkVisibility();
return arguments[0].filter(shown);
"""
COLOURS = """
const style = getComputedStyle(document.body);
return [style.color, style.backgroundColor];
"""
PANELS = ["#start", "#games", "#panel", "#refusals", "#strays", "#watch", "#board"]


def visible(browser: Browser) -> list[str]:
    """Which of the panels are to be seen."""
    found: list[str] = browser.run(VISIBLE, PANELS)
    return found


def emulate(browser: Browser, scheme: str) -> None:
    """Makes the browser prefer a colour scheme; none if it is empty."""
    features = [{"name": "prefers-color-scheme", "value": scheme}]
    body = {"cmd": "Emulation.setEmulatedMedia", "params": {"features": features}}
    browser.call("POST", "/goog/cdp/execute", body)


def test_only_the_start_page_is_there_at_first(page: Page, browser: Browser) -> None:
    page.open_empty()
    assert (page.state(), visible(browser)) == ("empty", ["#start"])
    assert len(page.texts("#samples button")) == len(SAMPLES)


@pytest.mark.parametrize("name", SAMPLES)
def test_each_sample_opens_from_a_folder(page: Page, browser: Browser, name: str) -> None:
    snakes, mode = SAMPLES[name]
    page.open_empty()
    browser.click(f"#sample-{name}")
    page.wait_until_read(f"sample {name}")
    assert (page.state(), page.text("#notice")) == ("open", "")
    assert visible(browser) == ["#games", "#panel", "#watch", "#board"]
    shown = page.board()
    assert len(shown["snakes"]) == snakes
    assert mode in shown["facts"]
    page.wait_for_plots()
    browser.click("#last")
    last = int(page.text("#turn").rpartition(" ")[2])
    page.wait_for_turn(last, last)
    assert last > 50


@pytest.mark.parametrize("path", CASES, ids=stem_of)
def test_empty_lists_are_hidden(page: Page, browser: Browser, path: Path) -> None:
    games, strays = read(path)
    page.open_empty()
    page.choose(path)
    seen = visible(browser)
    assert ("#strays" in seen) == bool(strays)
    assert ("#refusals" in seen) == bool(games[0].refusals)
    assert "#start" not in seen


def test_another_file_hides_the_lists_again(page: Page, browser: Browser) -> None:
    page.open_empty()
    page.choose(next(path for path in CASES if path.name == "six_games.transcript"))
    assert "#strays" in visible(browser)
    page.choose(QUIET)
    assert visible(browser) == ["#games", "#panel", "#watch", "#board"]


def test_it_is_dark_where_the_system_is(page: Page, browser: Browser) -> None:
    page.open_empty()
    light = browser.run(COLOURS)
    emulate(browser, "dark")
    try:
        ink, paper = browser.run(COLOURS)
    finally:
        emulate(browser, "")
    assert light == ["rgb(29, 35, 41)", "rgb(255, 255, 255)"]
    assert (ink, paper) == ("rgb(230, 234, 238)", "rgb(23, 27, 32)")
