# The page as the tests see it: opens transcripts in it, and reads what it shows.
from pathlib import Path

from testing.chromium import Browser
from typing import Any

from testing.served import ROOT

PAGE = ROOT / "viewer" / "index.html"
TOURNAMENT = ROOT / "examples" / "six_games.transcript"
CASES = sorted((ROOT / "examples").glob("*.transcript"))

GAMES = """
const textOf = (cell) => {
  const chips = [...cell.querySelectorAll('.chip')].map((chip) => chip.textContent);
  return chips.length ? chips : cell.textContent;
};
return [...document.querySelectorAll('#games tbody tr')].map((row) => [...row.cells].map(textOf));
"""

BOARD = """
// The direction from the centre of a head to the point between its eyes, as the browser drew it.
const looks = (head) => {
  const { a, b } = head.transform.baseVal.consolidate().matrix;
  const eyes = [...head.querySelectorAll('.eye')];
  const forward = eyes.reduce((sum, eye) => sum + eye.cx.baseVal.value, 0);
  const names = { '1,0': 'right', '-1,0': 'left', '0,-1': 'up', '0,1': 'down', '0,0': 'nowhere' };
  return names[[a, b].map((part) => Math.round(Math.sign(forward) * part) || 0)];
};
const places = /[ML]([-.0-9]+) ([-.0-9]+)/g;
const cells = (path) => [...path.matchAll(places)].map(([, x, y]) => [Number(x), Number(y)]);
return {
  turn: document.getElementById('turn').textContent,
  facts: document.getElementById('facts').textContent,
  view: document.getElementById('board').getAttribute('viewBox'),
  food: [...document.querySelectorAll('#board .food')].map(
    (disc) => [disc.cx.baseVal.value, disc.cy.baseVal.value]),
  hazards: [...document.querySelectorAll('#board .hazards')].map((group) => ({
    shade: Number(group.dataset.shade),
    corners: cells(group.querySelector('.squares').getAttribute('d')),
    lines: group.querySelector('.hatch').getAttribute('d').split('M').length - 1,
  })),
  legend: document.getElementById('hazards').hidden
    ? null : document.getElementById('hazards').textContent,
  samples: document.querySelectorAll('#hazards:not([hidden]) .sample').length,
  snakes: [...document.querySelectorAll('#board .snake')].map((snake) => ({
    seat: Number(snake.dataset.seat),
    out: snake.classList.contains('out'),
    crossed: snake.querySelector('.cross') !== null,
    cells: cells(snake.querySelector('.body').getAttribute('d')),
    pieces: snake.querySelector('.body').getAttribute('d').split('M').length - 1,
    looks: looks(snake.querySelector('.head')),
  })),
  cards: [...document.querySelectorAll('#snakes li')].map((card) => ({
    id: card.querySelector('strong').textContent,
    fate: card.querySelector('.fate').textContent,
    numbers: card.querySelector('.numbers').textContent,
    meter: card.querySelector('meter').value,
  })),
};
"""

PLOTS = """
const places = /[ML]([-.0-9]+) ([-.0-9]+)/g;
const pointOf = ([, x, y]) => [Number(x), Number(y)];
const points = (path) => [...path.getAttribute('d').matchAll(places)].map(pointOf);
return [...document.querySelectorAll('#snakes .plot')].map((plot) => ({
  health: plot.querySelector('.health') ? points(plot.querySelector('.health')) : [],
  length: plot.querySelector('.length') ? points(plot.querySelector('.length')) : [],
}));
"""


def stem_of(path: object) -> str:
    """The name of a test by the path of its file."""
    return Path(str(path)).stem


class Page:
    """The viewer in a browser."""

    def __init__(self, browser: Browser) -> None:
        self.browser = browser

    def open_empty(self, fragment: str = "") -> None:
        """Opens the page from its file, without a transcript."""
        self.browser.go(PAGE.as_uri() + fragment)

    def choose(self, path: Path, seconds: float = 60) -> None:
        """Chooses a file, and waits until it has been opened or refused."""
        self.browser.type_into("#choose", str(path))
        self.wait_until_read(path.name, seconds)

    def drop(self, path: Path) -> None:
        self.browser.drop(path)
        self.wait_until_read(path.name)

    def wait_until_read(self, name: str, seconds: float = 60) -> None:
        self.browser.wait(
            """
            const isRead = ['open', 'fault'].includes(document.body.dataset.state);
            return isRead && document.getElementById('file').textContent === arguments[0];
        """,
            name,
            seconds=seconds,
        )

    def state(self) -> str:
        return str(self.browser.run("return document.body.dataset.state"))

    def text(self, selector: str) -> str:
        script = "return document.querySelector(arguments[0]).textContent"
        return str(self.browser.run(script, selector))

    def texts(self, selector: str) -> list[str]:
        found: list[str] = self.browser.run(
            "const found = [...document.querySelectorAll(arguments[0])];"
            "return found.map((element) => element.textContent)",
            selector,
        )
        return found

    def games(self) -> list[list[str]]:
        rows: list[list[str]] = self.browser.run(GAMES)
        return rows

    def board(self) -> dict[str, Any]:
        board: dict[str, Any] = self.browser.run(BOARD)
        return board

    def plots(self) -> Any:
        return self.browser.run(PLOTS)

    def choose_game(self, name: str, stay: int = 1) -> None:
        """Clicks a game's name in the table, and waits until the page shows it."""
        self.browser.run(
            """
            const rows = [...document.querySelectorAll('#games tbody tr')];
            const [game, stay] = arguments;
            const isWanted = (row) => row.dataset.game === game && row.dataset.stay === stay;
            rows.find(isWanted).querySelector('button').click();
        """,
            name,
            str(stay),
        )
        self.browser.wait(
            """
            const marked = document.querySelector('#games [aria-current]');
            const [game, stay] = arguments;
            const isMarked = marked?.dataset.game === game && marked.dataset.stay === stay;
            return isMarked && document.getElementById('name').textContent === game;
        """,
            name,
            str(stay),
        )

    def choose_round(self, number: int) -> None:
        self.browser.run(
            """
            document.getElementById('round').value = arguments[0];
            document.getElementById('round').dispatchEvent(new Event('change'));
        """,
            number,
        )

    def wait_for_turn(self, turn: int, last: int) -> None:
        self.browser.wait(
            "return document.getElementById('turn').textContent === arguments[0]",
            f"Turn {turn} of {last}",
        )

    def wait_for_plots(self, seconds: float = 60) -> None:
        self.browser.wait(
            "return document.getElementById('snakes').getAttribute('aria-busy') === 'false'",
            seconds=seconds,
        )

    def seat_colours(self) -> list[str]:
        """The colours of the bodies on the board, and that of the board's cells."""
        found: list[str] = self.browser.run(
            """
            const all = (selector) => [...document.querySelectorAll(selector)];
            const painted = (selector, property) =>
              all(selector).map((element) => getComputedStyle(element)[property]);
            return [...painted('#board .body', 'stroke'), ...painted('#board .cells', 'fill')];
        """
        )
        return found
