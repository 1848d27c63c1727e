"""Tests of the results on the page: finished games, the record of a bot, transcripts, colours."""

from __future__ import annotations

import asyncio
import json
import re
import stat
import subprocess
import urllib.error
import urllib.request
from collections.abc import Iterator
from contextlib import closing, contextmanager
from dataclasses import dataclass
from pathlib import Path
from typing import Any

import pytest
from served import LADDER, Served, first_line, free_port, run_ladder, start_play, write_config
from testing import chromium  # of viewer/

from arena_ladder.page.colours import COLOURS, GROUNDS, is_apart, looks_of, oklab
from arena_ladder.page.page_calls import rows_of
from arena_ladder.results import transcripts
from arena_ladder.results.history import games_of, record_of
from arena_ladder.results.store import open_store
from arena_ladder.results.transcripts import NoTranscript, Transcripts

BOTS = ("fleer", "hungry", "lazy")
WIDE, NARROW = (1280, 900), (390, 844)
TURN = (
    "(/Turn ([0-9]+) of ([0-9]+)/.exec(document.getElementById('turn').textContent) ?? [])"
    ".slice(1).map(Number)"
)
PAUSE = """
const button = document.getElementById('play');
if (button.textContent === 'Pause') {
  button.click();
}
"""
SHOWN = """
const [games] = arguments;
const seats = [...document.querySelectorAll('#standings tbody tr')]
  .map((row) => Number(row.cells[4].textContent));
return document.querySelectorAll('#finished li').length === games
  && seats.reduce((sum, it) => sum + it, 0) === 2 * games;
"""


@dataclass(frozen=True)
class Site:
    """A folder with the results of a ladder, and the address of its page."""

    folder: Path
    address: str

    def get(self, path: str) -> tuple[int, bytes]:
        """The status and the body of an answer."""
        opener = urllib.request.build_opener(urllib.request.ProxyHandler({}))
        try:
            with opener.open(self.address + path, timeout=60) as answer:
                return answer.status, answer.read()
        except urllib.error.HTTPError as fault:
            return fault.code, fault.read()

    def json(self, path: str) -> Any:
        status, body = self.get(path)
        assert status == 200, body
        return json.loads(body)


@pytest.fixture(scope="module")
def site(
    program: Path, small_bots: Served, tmp_path_factory: pytest.TempPathFactory
) -> Iterator[Site]:
    """A ladder of three small bots and one that is gone, whose folder alone is served."""
    folder = tmp_path_factory.mktemp("ladder") / "results"
    urls = [(name, small_bots.url(name)) for name in BOTS]
    bots = [*urls, ("gone", f"http://127.0.0.1:{free_port()}")]
    words = {"folder": str(folder), "rounds": 4, "turns": 40, "timeout": 5000, "seed": 1}
    config = write_config(folder.parent / "four.toml", bots, **words)
    playing = start_play(config, program)
    playing.communicate(timeout=240)
    assert playing.returncode == 0
    with page_of(folder, program) as (_, address):
        yield Site(folder, address)


@contextmanager
def page_of(folder: Path, program: Path) -> Iterator[tuple[subprocess.Popen[str], str]]:
    """Serves the page of a folder within the context, whose value has the page's address."""
    words: list[str | Path] = [LADDER, "page", folder, "0", "--program", program]
    serving = subprocess.Popen(words, stdout=subprocess.PIPE, stderr=subprocess.PIPE, text=True)
    try:
        line = first_line(serving.stdout)
        (address,) = re.findall(r"\Aladder: the page is (http://127\.0\.0\.1:\d+/)\n\Z", line)
        yield serving, address
    finally:
        serving.kill()
        serving.communicate()


def games_at(address: str, at: str) -> int:
    """The number of games in an answer that is not kept from another `at`."""
    with urllib.request.urlopen(f"{address}games.json?at={at}", timeout=60) as answer:
        return len(json.load(answer)["games"])


def test_page_of_a_folder_follows_it_and_is_stopped(
    program: Path, small_bots: Served, browser: chromium.Browser, tmp_path: Path
) -> None:
    """Games that are played after it was opened appear on it. SIGTERM ends it."""
    urls = [(name, small_bots.url(name)) for name in BOTS]
    words = {"folder": str(tmp_path / "results"), "turns": 10, "timeout": 5000, "seed": 1}

    def play(rounds: int) -> None:
        config = write_config(tmp_path / "three.toml", urls, rounds=rounds, **words)
        assert run_ladder("play", config, "--program", program).returncode == 0

    play(1)
    with page_of(tmp_path / "results", program) as (serving, address):
        browser.go(address)
        browser.wait(SHOWN, 3, seconds=60)
        assert games_at(address, "3") == games_at(address, "") == 3
        play(2)
        assert games_at(address, "6") == 6
        browser.wait(SHOWN, 6, seconds=60)
        serving.terminate()
        assert serving.wait(60) == 130


def test_page_of_a_folder_without_results_is_refused(program: Path, tmp_path: Path) -> None:
    ran = run_ladder("page", tmp_path, "0", "--program", program)
    assert (ran.returncode, ran.stdout) == (1, "")
    assert str(tmp_path) in ran.stderr


def test_results_are_json(site: Site) -> None:
    with closing(open_store(site.folder)) as store:
        assert site.json("standings.json") == rows_of(store)
        assert site.json("games.json") == games_of(store, "", 10**9, 20)
    names, before = [], 10**9
    while before is not None:
        answer = site.json(f"games.json?count=7&before={before}")
        names += [game["game"] for game in answer["games"]]
        before = answer["next"]
    assert sorted(names) == sorted(path.stem for path in (site.folder / "games").iterdir())
    assert len(names) == 24
    games = site.json("games.json?bot=lazy&count=100")["games"]
    assert len(games) == 12
    assert all("lazy" in [seat["bot"] for seat in game["seats"]] for game in games)
    assert site.json("games.json?bot=nobody") == {"games": [], "next": None}
    for query in ("count=x", "before=-1", "count=1e3", f"before={10**20}"):
        assert site.get(f"games.json?{query}")[0] == 400


def test_files_of_finished_games_are_served(site: Site, program: Path) -> None:
    path = site.folder / "games/r0002-t001.jsonl"
    words: list[str | Path] = [program, "serve", path, "--blocks", "6", "--workers", "1"]
    transcript = subprocess.run(words, stdout=subprocess.PIPE, check=True).stdout
    assert site.get("games/r0002-t001.jsonl") == (200, path.read_bytes())
    for _ in range(2):
        assert site.get("games/r0002-t001.transcript") == (200, transcript)
    for name in ("r0009-t001", "x", "..%2fresults", "%2e%2e/r0002-t001"):
        for kind in ("jsonl", "transcript"):
            assert site.get(f"games/{name}.{kind}")[0] == 404


def test_record_of_a_bot(site: Site) -> None:
    record = site.json("bots/gone.json")
    standing = record["standing"]
    assert record["place"] == 4
    assert [(it["bot"], it["games"]) for it in record["against"]] == [(it, 4) for it in BOTS]
    assert sum(record["deaths"].values()) == 12
    assert len(record["missed"]) == 12
    assert {it["cause"] for it in record["missed"]} == {"refused"}
    assert sum(it["moves"] for it in record["missed"]) == standing["refused"] == record["moves"]
    for bot in ("gone", *BOTS):
        record = site.json(f"bots/{bot}.json")
        games, elo, error = record["ratings"][-1]
        assert games == 24
        now = record["standing"]
        assert abs(elo - now["elo"]) < 0.6 and abs(error - now["error"]) < 0.6
        assert [it[0] for it in record["ratings"]] == sorted(it[0] for it in record["ratings"])
    with closing(open_store(site.folder)) as store:
        both = [{it["bot"]: it for it in record_of(store, bot)["against"]} for bot in BOTS[:2]]
    assert both[0]["hungry"]["equal"] == both[1]["fleer"]["equal"]
    won = both[0]["hungry"]["outlived"] + both[1]["fleer"]["outlived"]
    assert won + both[0]["hungry"]["equal"] == both[0]["hungry"]["games"] == 4
    assert site.get("bots/nobody.json")[0] == 404


def program_that(folder: Path, script: str) -> Path:
    """A program in place of arena."""
    path = folder / "arena"
    path.write_text(f"#!/bin/sh\n{script}\n")
    path.chmod(path.stat().st_mode | stat.S_IXUSR)
    return path


def test_transcripts_have_limits(tmp_path: Path, monkeypatch: pytest.MonkeyPatch) -> None:
    """What is too long, too slow, or one request too many is refused; old ones are forgotten."""
    monkeypatch.setattr(transcripts, "MOST_BYTES", 1000)
    monkeypatch.setattr(transcripts, "MOST_KEPT", 1200)
    (tmp_path / "games").mkdir()
    for at in range(9):
        (tmp_path / "games" / f"r0001-t00{at}.jsonl").write_text(f"game {at}")

    async def fault_of(script: str) -> str:
        made = Transcripts(tmp_path, program_that(tmp_path, script))
        with pytest.raises(NoTranscript) as caught:
            await made.of("r0001-t001")
        assert made.kept == {} and made.waiting == 0
        return str(caught.value)

    async def work() -> None:
        assert await fault_of("exec yes") == "its transcript is too long for this page"
        assert await fault_of("exit 3") == "arena serve ended with status 3"
        monkeypatch.setattr(transcripts, "SERVE_SECONDS", 0.2)
        assert await fault_of("exec sleep 60") == "arena serve took too long"
        monkeypatch.setattr(transcripts, "SERVE_SECONDS", 60)
        made = Transcripts(tmp_path, program_that(tmp_path, "printf %500s; cat"))
        asked = [made.of(f"r0001-t00{at}") for at in range(9)]
        found = await asyncio.gather(*asked, return_exceptions=True)
        assert [isinstance(it, NoTranscript) and it.is_busy for it in found] == [False] * 8 + [True]
        assert list(made.kept) == ["r0001-t006", "r0001-t007"]
        assert (await made.of("r0001-t006")).endswith(b"  game 6")

    asyncio.run(work())


def test_bots_have_colours_that_are_apart() -> None:
    chosen = {"b": "#ff0000", "c": "#fe0101", "d": "#eceff3", "e": "#00FF00"}
    looks = looks_of(["a", "b", "c", "d", "e"], chosen)
    assert looks["b"]["colour"] == "#ff0000"
    assert looks["e"]["colour"] == "#00FF00"
    assert {looks[it]["colour"] for it in "acd"} < set(COLOURS)
    many = looks_of([f"bot{at}" for at in range(16)], {})
    given = [it["colour"] for it in many.values()]
    assert all(is_apart(it, map(oklab, given[:at])) for at, it in enumerate(given))
    assert all(is_apart(it, map(oklab, GROUNDS)) for it in given)
    assert len(looks_of([f"bot{at}" for at in range(200)], chosen)) == 200


def resize(browser: chromium.Browser, size: tuple[int, int]) -> None:
    """Gives the window the size and the scale of a screen."""
    screen: dict[str, Any] = {"width": size[0], "height": size[1], "deviceScaleFactor": 1}
    params = {**screen, "mobile": size == NARROW}
    command = "Emulation.setDeviceMetricsOverride"
    browser.call("POST", "/goog/cdp/execute", {"cmd": command, "params": params})


def fits(browser: chromium.Browser) -> bool:
    """Whether the page is no wider than the window: a phone would show a wider one smaller."""
    widths = "const it = document.documentElement; return it.scrollWidth <= it.clientWidth"
    return bool(browser.run(widths))


@pytest.mark.parametrize("size", [WIDE, NARROW], ids=["wide", "narrow"])
def test_finished_game_and_bot_are_looked_at(
    site: Site, browser: chromium.Browser, size: tuple[int, int]
) -> None:
    """From the page to a bot, from there to one of its games, and turn by turn through it."""
    resize(browser, size)
    browser.complaints()
    browser.go(site.address)
    browser.wait("return document.querySelectorAll('#finished li').length === 20", seconds=60)
    words = browser.run("return document.body.innerText")
    assert "standard, map standard, 11 by 11, 2 snakes, 5000 ms for a move" in words
    assert "Ask whoever runs this ladder" in words and "How to enter" in words
    assert browser.run("return document.title") == "results"
    assert browser.run("return document.querySelector('#standings tbody td').textContent") == "1"
    assert not re.search(r"wall missed|missed 1 moves", words)
    browser.click("#more")
    browser.wait("return document.querySelectorAll('#finished li').length === 24", seconds=60)
    colour = "return document.querySelector('[data-bot=gone] .body').getAttribute('stroke')"
    shown = browser.run(colour)
    assert fits(browser)
    browser.click("#standings [data-bot=gone] a")
    browser.wait("return document.body.dataset.state === 'open'", seconds=60)
    text = browser.run("return document.body.innerText")
    assert browser.run("return document.querySelectorAll('#elos span').length") >= 2
    counts = "return [...document.querySelectorAll('#counts span')].map(it => it.textContent)"
    assert browser.run(counts)[-1] == "game 24"
    assert re.search(r"place 4\b.*12 games: 0 won", text, re.DOTALL)
    assert re.search(r"refused \d+", text)
    assert (
        browser.run("return document.querySelector('#name .body').getAttribute('stroke')") == shown
    )
    assert browser.run("return document.querySelectorAll('#ratings .rating').length") == 1
    assert fits(browser)
    browser.click("#finished li a")
    browser.wait("return document.body.dataset.state === 'open'", seconds=60)
    browser.wait(f"return {TURN}[0] > 1", seconds=60)  # it plays by itself
    browser.run(PAUSE)
    last = browser.run(f"return {TURN}[1]")
    browser.click("#first")
    browser.wait(f"return {TURN}[0] === 0", seconds=60)
    browser.click("#forward")
    browser.wait(f"return {TURN}[0] === 1 && {TURN}[1] === {last}", seconds=60)
    said = browser.run("return [...document.querySelectorAll('.answer')].map(it => it.textContent)")
    assert "missed its move: refused" in said
    assert any(re.fullmatch(r"answered (up|down|left|right) in \d+ ms", it) for it in said)
    assert browser.run("return document.title").endswith(" – Ladder")
    strokes = (
        "return [...document.querySelectorAll('#board .body')].map(it => it.getAttribute('stroke'))"
    )
    assert shown in browser.run(strokes)
    assert fits(browser)
    browser.click("#back_link")
    browser.wait("return document.getElementById('name')?.textContent === ' gone'", seconds=60)
    assert browser.complaints() == []
    resize(browser, (1500, 1250))
