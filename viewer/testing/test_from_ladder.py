# A game that a ladder's page opens: it plays by itself, shows what bots answered, and leads back.
import json
import os
from collections.abc import Iterator
from pathlib import Path

import pytest
from testing.chromium import Browser
from testing.page import Page
from testing.served import ROOT, Server

FILE = "../examples/four_snakes.transcript"
SAID = """
const answers = [...document.querySelectorAll('.answer')];
return answers.map((it) => it.hidden ? null : it.textContent);
"""
BACK = """
const link = document.getElementById('back_link');
return link.hidden ? null : link.href;
"""
SNAKES = "return [...document.querySelectorAll('#snakes strong')].map((it) => it.textContent)"


@pytest.fixture
def answers() -> Iterator[Path]:
    """A file of answers that the server has: of turn 1 a move and a missed one, and junk."""
    folder = ROOT / "viewer" / "out"
    folder.mkdir(exist_ok=True)
    path = folder / f"answers-{os.getpid()}.json"
    yield path
    path.unlink()


def open_game(browser: Browser, server: Server, words: str) -> None:
    browser.go(f"{server.root}/viewer/index.html?file={FILE}{words}")
    browser.wait("return document.body.dataset.state === 'open'")


def test_answers_are_shown_with_their_turn(
    page: Page, browser: Browser, server: Server, answers: Path
) -> None:
    answers.write_text("[]")
    open_game(browser, server, "")
    one, two, three, _ = browser.run(SNAKES)
    first = {
        one: ["up", None, 12, ""],
        two: [None, "late", 500, "<b>"],
        three: ["up", None, "x", ""],
    }
    answers.write_text(json.dumps([first, None]))
    open_game(browser, server, f"&answers=out/{answers.name}")
    assert page.text("#turn").startswith("Turn 0 of")  # it was not opened by a ladder
    assert browser.run(SAID) == [""] * 4
    browser.click("#forward")
    page.wait_for_turn(1, int(page.text("#turn").rpartition(" ")[2]))
    words = ["answered up in 12 ms", "missed its move: late, shouted “<b>”", "", ""]
    assert browser.run(SAID) == words
    assert browser.run("return document.querySelectorAll('.answer.missed').length") == 1
    open_game(browser, server, "&answers=out/missing.json")
    assert browser.run(SAID) == [None] * 4
    browser.complaints()  # the missing file is one


def test_way_back_is_to_the_own_server_alone(page: Page, browser: Browser, server: Server) -> None:
    """A game with a way back plays at once, and its page has the game's name."""
    open_game(browser, server, "&back=../docs/images/")
    assert browser.run(BACK) == f"{server.root}/docs/images/"
    browser.wait("return /^Turn [1-9]/.test(document.getElementById('turn').textContent)")
    assert browser.run("return document.title") == f"{page.text('#name')} – Ladder"
    for wrong in ("https://example.org/", "javascript:alert(1)", "//example.org", "file:///etc"):
        open_game(browser, server, f"&back={wrong}")
        assert browser.run(BACK) is None
        assert page.text("#turn").startswith("Turn 0 of")
