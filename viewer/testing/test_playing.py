# Playing, pausing, stepping, speed, the slider, the keys, and the address of a turn.
from pathlib import Path
from typing import Any
from urllib.parse import urlencode

import pytest
from testing.chromium import Browser
from testing.page import PAGE, Page, TOURNAMENT
from testing.reading import read
from testing.served import ROOT, Server
from testing.test_boards import expected

SPACE, LEFT, UP, RIGHT, HOME, END, SHIFT = (
    " ",
    "\ue012",
    "\ue013",
    "\ue014",
    "\ue011",
    "\ue010",
    "\ue008",
)


GAMES, _ = read(TOURNAMENT)
LAST = len(GAMES[0].rounds[0]) - 1  # the last turn of the first game


@pytest.fixture(autouse=True)
def opened(page: Page) -> None:
    """Shows the first turn of the first game."""
    page.open_empty()
    page.choose(TOURNAMENT)
    page.wait_for_turn(0, LAST)


def choose_speed(browser: Browser, value: str) -> None:
    browser.run("document.getElementById('speed').value = arguments[0]", value)


def turn(page: Page) -> int:
    return int(page.text("#turn").split()[1])


def test_it_plays_to_the_last_turn_and_stops(page: Page, browser: Browser) -> None:
    choose_speed(browser, "50")
    browser.click("#play")
    assert page.text("#play") == "Pause"
    page.wait_for_turn(LAST, LAST)
    browser.wait("return document.getElementById('play').textContent === 'Play'")


def test_played_at_the_end_it_begins_anew(page: Page, browser: Browser) -> None:
    browser.press(END)
    page.wait_for_turn(LAST, LAST)
    browser.press(SPACE)
    browser.wait(
        """
        const turn = document.getElementById('turn').textContent.split(' ')[1];
        return parseInt(turn) < arguments[0];
    """,
        LAST,
    )


def test_a_pause_holds_the_turn(page: Page, browser: Browser) -> None:
    choose_speed(browser, "20")
    browser.press(SPACE)
    browser.wait("return parseInt(document.getElementById('turn').textContent.split(' ')[1]) >= 3")
    browser.press(SPACE)
    assert page.text("#play") == "Play"
    held = browser.run(
        """
        const turn = () => document.getElementById('turn').textContent;
        const turnAfter = (rest) =>
          new Promise((done) => setTimeout(() => done(turn()), rest));
        // A board that was being read at the pause is shown before the first.
        return Promise.all([turnAfter(150), turnAfter(450)]);
    """
    )
    assert held[0] == held[1]
    assert turn(page) < LAST


def test_a_greater_speed_shows_more_turns(page: Page, browser: Browser) -> None:
    reached = {}
    for speed in ("2", "20"):
        choose_speed(browser, speed)
        browser.press(HOME)
        page.wait_for_turn(0, LAST)
        reached[speed] = browser.run(
            """
            document.getElementById('play').click();
            return new Promise((done) => setTimeout(() => {
              document.getElementById('play').click();
              done(parseInt(document.getElementById('turn').textContent.split(' ')[1]));
            }, 1100));
        """
        )
    assert reached["2"] in (1, 2)
    assert reached["20"] > 5
    assert reached["20"] <= 22


def test_keys_step(page: Page, browser: Browser) -> None:
    for keys, turn in (
        ((RIGHT, RIGHT), 2),
        ((LEFT,), 1),
        (((SHIFT, RIGHT),), 11),
        (((SHIFT, LEFT),), 1),
        ((END,), LAST),
        ((RIGHT,), LAST),
        ((HOME,), 0),
        ((LEFT,), 0),
    ):
        for key in keys:
            browser.press(key)
        page.wait_for_turn(turn, LAST)


def test_a_board_that_is_read_too_late_is_not_shown(page: Page, browser: Browser) -> None:
    browser.run(
        """
        const read = Blob.prototype.text;
        Blob.prototype.text = function () {
          Blob.prototype.text = read;
          const isRead = () => { window.isReadLate = true; };
          return new Promise((done) => {
            setTimeout(() => read.call(this).then(done).finally(isRead), 200);
          });
        };
    """
    )
    browser.press(RIGHT, RIGHT)
    page.wait_for_turn(2, LAST)
    browser.wait("return window.isReadLate")
    assert turn(page) == 2


def test_keys_change_the_speed_and_the_game(browser: Browser) -> None:
    speed = "return document.getElementById('speed').value"
    browser.press("+")
    assert browser.run(speed) == "10"
    browser.press("-", "-")
    assert browser.run(speed) == "2"
    browser.press("n")
    browser.wait(
        "return document.getElementById('name').textContent === arguments[0]", GAMES[1].name
    )
    assert (
        browser.run("return document.querySelector('#games [aria-current]').dataset.game")
        == GAMES[1].name
    )
    browser.press("p")
    browser.wait(
        "return document.getElementById('name').textContent === arguments[0]", GAMES[0].name
    )


def test_the_slider_goes_to_a_turn(page: Page, browser: Browser) -> None:
    browser.type_into("#slider", RIGHT * 5)
    page.wait_for_turn(5, LAST)
    browser.type_into("#slider", END)
    page.wait_for_turn(LAST, LAST)
    label = browser.run("return document.getElementById('slider').getAttribute('aria-valuetext')")
    assert label == f"Turn {LAST} of {LAST}"


def test_a_click_on_a_plot_goes_to_its_turn(page: Page, browser: Browser) -> None:
    page.wait_for_plots()
    browser.click("#snakes li:first-child .plot")
    page.wait_for_turn(LAST // 2, LAST)


def address(server: Server, path: Path, **place: Any) -> str:
    query = urlencode({"file": f"../{path.relative_to(ROOT)}"})
    return f"{server.root}/viewer/index.html?{query}#{urlencode(place)}"


def test_an_address_names_the_file_the_game_and_the_turn(
    page: Page, browser: Browser, server: Server
) -> None:
    for game in read(TOURNAMENT)[0]:
        for number, boards in enumerate(game.rounds, 1):
            board = boards[len(boards) // 2]
            browser.go(
                address(server, TOURNAMENT, game=game.name, round=number, turn=board["turn"])
            )
            page.wait_for_turn(board["turn"], len(boards) - 1)
            assert page.text("#name") == game.name
            assert page.board() == expected(board, len(boards) - 1)


def test_the_address_follows_the_turn_and_leads_back_to_it(
    page: Page, browser: Browser, server: Server
) -> None:
    boards = read(TOURNAMENT)[0][0].rounds[0]
    browser.go(address(server, TOURNAMENT))
    page.wait_for_turn(0, len(boards) - 1)
    browser.press(END)
    page.wait_for_turn(len(boards) - 1, len(boards) - 1)
    link = browser.run("return document.getElementById('link').href")
    browser.wait("return location.href === arguments[0]", link)
    browser.go(link)
    page.wait_for_turn(len(boards) - 1, len(boards) - 1)


def test_an_address_waits_for_its_file_to_be_chosen(page: Page) -> None:
    page.open_empty("#game=hungry&turn=42")
    page.choose(TOURNAMENT)
    page.wait_for_turn(42, 100)
    assert page.text("#name") == "hungry"


def test_a_file_that_is_chosen_next_takes_the_address_of_the_one_before_away(
    page: Page, browser: Browser, server: Server
) -> None:
    browser.go(address(server, TOURNAMENT, game="hungry", turn=42))
    page.wait_for_turn(42, 100)
    page.choose(ROOT / "examples" / "four_snakes.transcript")
    page.wait_for_turn(0, 4)
    assert page.text("#notice") == ""
    browser.wait(
        "return location.href === arguments[0]",
        f"{server.root}/viewer/index.html#game=arena&round=1&turn=0",
    )


def test_an_address_of_nothing_is_reported(page: Page) -> None:
    for fragment, notice in (
        ("game=nobody", "The transcript has no game nobody."),
        ("game=hungry&turn=101", "The game hungry has no turn 101 in round 1."),
        ("game=hungry&round=2", "The game hungry has no turn 0 in round 2."),
        ("game=hungry&turn=x", "The game hungry has no turn x in round 1."),
    ):
        page.open_empty(f"#{fragment}")
        page.choose(TOURNAMENT)
        assert page.text("#notice") == notice


def test_a_missing_file_is_reported(page: Page, browser: Browser, server: Server) -> None:
    name = "../examples/nothing.transcript"
    browser.go(f"{server.root}/viewer/index.html?file={name}")
    page.wait_until_read(name)
    assert page.text("#notice") == f"{name} can't be shown. The server answered 404."
    assert len(browser.complaints()) == 1


def test_no_other_server_is_asked(page: Page, browser: Browser, server: Server) -> None:
    name = "http://127.0.0.2:9/some.transcript"
    for start in (f"{server.root}/viewer/index.html", PAGE.as_uri()):
        browser.go(f"{start}?{urlencode({'file': name})}")
        page.wait_until_read(name)
        why = "An address can name a file only of the server that the page comes from."
        assert page.text("#notice") == f"{name} can't be shown. {why}"
    browser.go(address(server, TOURNAMENT, game="hungry", turn=1))
    page.wait_for_turn(1, 100)
    asked = browser.run(
        "return performance.getEntriesByType('resource').map((entry) => entry.name)"
    )
    assert len(asked) > 10
    assert [name for name in asked if not name.startswith(server.root)] == []
