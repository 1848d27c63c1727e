# Takes pictures of four boards for people to look at; counts the colours, and measures their
# distances for colour-blind eyes.
import itertools
import re
from collections import Counter
from pathlib import Path

from testing.chromium import Browser
from testing.colours import EYES, distance, lab
from testing.page import Page, TOURNAMENT
from testing.png import pixels
from testing.reading import read
from testing.served import ROOT

# The name of a picture; the file, game and turn that it shows; whether snakes that went out earlier
# are drawn.
PICTURES = [
    ("board_of_eight", TOURNAMENT, "eight", 10, False),
    ("board_of_constrictor", TOURNAMENT, "constrictor", 24, True),
    ("board_of_hazards", ROOT / "examples" / "hazards.transcript", "closing", 2, False),
    ("board_of_four", ROOT / "examples" / "four_snakes.transcript", "arena", 4, False),
]
LEAST_DISTANCE = 20  # of two colours in lab, for each eye; 2 is just visible side by side


def rgb(painted: str) -> tuple[int, ...]:
    return tuple(int(part) for part in re.findall(r"\d+", painted)[:3])


def show(page: Page, browser: Browser, game: str, turn: int, last: int) -> None:
    browser.run("location.hash = arguments[0]", f"game={game}&turn={turn}")
    page.wait_for_turn(turn, last)
    page.wait_for_plots()


def test_pictures_show_each_living_snake_in_its_colour(
    page: Page, browser: Browser, pictures: Path
) -> None:
    for name, path, game, turn, with_earlier in PICTURES:
        boards = next(each for each in read(path)[0] if each.name == game).rounds[0]
        page.open_empty()
        page.choose(path)
        show(page, browser, game, turn, len(boards) - 1)
        if with_earlier:
            browser.click("#earlier")
        (pictures / f"{name}.png").write_bytes(browser.picture("#panel"))
        colours = [rgb(painted) for painted in page.seat_colours()[:-1]]
        counts = Counter(pixels(browser.picture("#board")))
        cell = (
            browser.run(
                "return document.querySelector('#board .wall').getBoundingClientRect().width"
            )
            / boards[turn]["width"]
        )
        shown = page.board()["snakes"]
        assert shown
        for snake, colour in zip(shown, colours):
            if not snake["out"]:
                assert (
                    counts[colour] > len(snake["cells"]) * cell * cell / 4
                ), f"{name}, seat {snake['seat']}"


def test_colour_blind_eyes_can_tell_the_seats_apart(page: Page, browser: Browser) -> None:
    page.open_empty()
    page.choose(TOURNAMENT)
    show(page, browser, "eight", 1, len(read(TOURNAMENT)[0][0].rounds[0]) - 1)
    colours = [rgb(painted) for painted in page.seat_colours()]
    assert len(set(colours)) == 9
    apart = [
        (distance(lab(first, eye), lab(second, eye)), eye, first, second)
        for first, second in itertools.combinations(colours, 2)
        for eye in EYES
    ]
    least = min(apart)
    print(f"\nthe nearest colours are {least[0]:.1f} apart, {least[1]}: {least[2]} and {least[3]}")
    assert least[0] > LEAST_DISTANCE
