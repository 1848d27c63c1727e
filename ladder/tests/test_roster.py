"""Tests of endless ladders: the rule that draws games, and bots that come and go meanwhile."""

from __future__ import annotations

import json
import math
import random
import re
import sqlite3
import subprocess
import time
from collections import defaultdict
from collections.abc import Callable
from contextlib import closing
from pathlib import Path

import pytest
from served import BUSY, SMALL, Served, complaints, run_ladder, start_play, write_config

from arena_ladder.game.rated import START, Change, Drawn, Player, Rated, Result, gains_of
from arena_ladder.net.bots import Bot
from arena_ladder.results.rating import ratings
from arena_ladder.results.roster import add, add_config_bots, mark, replace, urls_of
from arena_ladder.results.store import Store, open_store

NAMES = [f"bot{at}" for at in range(8)]
SEEDS = 20
GAP = 150  # Elo from one simulated bot to the next
LONGEST = 240  # seconds of a run


def added(names: list[str]) -> list[Change]:
    return [Change(at, "add", name, 0) for at, name in enumerate(names, 1)]


def simulated(seed: int, games: int) -> tuple[list[str], list[str]]:
    """The bots by strength, and by rating after simulated games."""
    chance = random.Random(seed)
    order = chance.sample(NAMES, len(NAMES))
    rated = Rated(seed, 2)
    rated.advance((), added(NAMES))
    lived = []
    for number in range(1, games + 1):
        game = f"r{number:04}-t001"
        bots = rated.draw(game, number, 2)
        assert bots is not None and len(set(bots)) == 2
        rated.begin(game, bots)
        one, two = bots
        ahead = GAP * (order.index(one) - order.index(two))
        won = chance.random() < 1 / (1 + 10 ** (-ahead / 400))
        rated.advance([Result(game, ((one, None if won else 9), (two, 9 if won else None)))], ())
        lived.append([(one, float(won)), (two, float(not won))])
    found = ratings(NAMES, lived)
    return order, sorted(NAMES, key=lambda name: found[name].elo)


def test_order_of_simulated_bots_is_right_after_400_games() -> None:
    """In 19 of 20 seeds at least, for bots that are 150 Elo apart."""
    runs = [simulated(seed, 400) for seed in range(SEEDS)]
    assert sum(order == found for order, found in runs) >= SEEDS - 1


def test_bots_that_played_least_meet_those_that_are_near() -> None:
    rated = Rated(1, 2)
    rated.advance((), added(NAMES))
    for at, name in enumerate(NAMES):
        rated.players[name].points = START + 100 * at
        rated.players[name].games = 9
    rated.players["bot7"].games = 3
    for number in range(1, 30):
        bots = rated.draw(f"r{number:04}-t001", number, 2)
        assert bots is not None and "bot7" in bots
        assert set(bots) < {"bot7", "bot6", "bot5", "bot4", "bot3"}


def test_bots_rest_and_have_no_more_games_than_there_is_room() -> None:
    rated = Rated(1, 2)
    changes = added(NAMES[:3])
    rated.advance((), [*changes, Change(4, "pause", "bot0", 0)])
    assert set(rated.draw("r0001-t001", 1, 1) or ()) == {"bot1", "bot2"}
    rated.begin("r0001-t001", ("bot1", "bot2"))
    assert rated.draw("r0002-t001", 2, 1) is None
    assert rated.draw("r0002-t001", 2, 2) is not None
    rated.advance((), [Change(5, "remove", "bot1", 0)])
    assert rated.draw("r0002-t001", 2, 2) is None
    rated.advance((), [Change(6, "resume", "bot0", 0)])
    assert set(rated.draw("r0002-t001", 2, 2) or ()) == {"bot0", "bot2"}


def test_new_version_begins_at_the_points_of_the_old_one_at_its_time() -> None:
    """However results and changes are taken, a change comes after the results before it."""
    wins = [Result(f"r{at:04}-t001", (("bot0", None), ("bot1", 5))) for at in range(1, 7)]
    change = Change(3, "replace", "bot0@2", 4, "", "bot0")
    together, apart = Rated(1, 2), Rated(1, 2)
    for rated in (together, apart):
        rated.advance((), added(NAMES[:2]))
    together.advance(wins, [change])
    for at in range(4):
        apart.advance(wins[at : at + 1], ())
    apart.advance((), [change])
    apart.advance(wins[4:], ())
    assert together.players == apart.players
    new, old = (together.players[name] for name in ("bot0@2", "bot0"))
    assert START < new.points < old.points and not old.is_in


def test_points_are_whole_and_none_are_lost() -> None:
    players = {"a": Player(1500), "b": Player(1700), "c": Player(3000)}
    gains = gains_of(Result("r", (("a", None), ("b", 4), ("c", 4))), players)
    assert gains == {"a": (16 + 8) + (16 + 15), "b": -(16 + 8) + 15, "c": -(16 + 15) - 15}
    assert sum(gains.values()) == 0


def test_rating_of_a_new_version_begins_at_that_of_the_old_one() -> None:
    games = [[("a", 2.0), ("b", 1.0)]] * 9
    found = ratings(["a", "b", "a@2"], games, {"a@2": "a"})
    assert found["a@2"].elo == pytest.approx(found["a"].elo)
    assert found["a@2"].error > found["a"].error


def separate_ratings(store: Store) -> dict[str, float]:
    """The ratings by minorisation: each strength in turn, from the wins and the others."""
    names = [bot.name for bot in store.bots()]
    replaced = store.replaced()
    pairs: defaultdict[tuple[str, str], float] = defaultdict(float)
    for outcome in store.outcomes():
        (one, its), (two, others) = [
            (it.bot, math.inf if it.out is None else it.out) for it in outcome.finishes
        ]
        pairs[one, two] += 1.0 if its > others else 0.5 if its == others else 0.0
        pairs[two, one] += 1.0 if others > its else 0.5 if its == others else 0.0
    for name in names:
        for pair in ((name, replaced.get(name, "")), (replaced.get(name, ""), name)):
            pairs[pair] += 0.5  # "" is the bot of 1500
    strength = dict.fromkeys([*names, ""], 1.0)
    for _ in range(3000):
        for name in names:
            wins = sum(pairs[name, other] for other in strength)
            rest = sum(
                (pairs[name, other] + pairs[other, name]) / (strength[name] + strength[other])
                for other in strength
                if other != name
            )
            strength[name] = wins / rest
    elos = {name: 400 * math.log10(strength[name]) for name in names}
    mean = sum(elos.values()) / len(elos)
    return {name: elo - mean + 1500 for name, elo in elos.items()}


def games_stored(folder: Path) -> int:
    """The number of results in a folder, which another process may be about to make."""
    try:
        with closing(
            sqlite3.connect(f"file:{folder / 'results.sqlite'}?mode=ro", uri=True)
        ) as base:
            return int(base.execute("SELECT COUNT(*) FROM game").fetchone()[0])
    except sqlite3.OperationalError:
        return 0


def wait_for_games(process: subprocess.Popen[str], folder: Path, count: int) -> None:
    """Waits until a ladder that runs has stored some games."""
    ends = time.monotonic() + LONGEST
    while games_stored(folder) < count:
        assert process.poll() is None, process.communicate()
        assert time.monotonic() < ends
        time.sleep(0.05)


def test_bots_come_and_go_in_a_ladder_that_is_killed(
    program: Path, small_bots: Served, request: pytest.FixtureRequest, tmp_path: Path
) -> None:
    """No game is lost or played twice, `check` agrees, and the ratings are computed separately."""
    games = 300 if request.config.getoption("--all") else 40
    folder = tmp_path / "results"
    config = open_config(tmp_path, small_bots)
    process = start_play(config, program)
    wait_for_games(process, folder, 1)
    added_by_word = run_ladder("add", folder, "seventh", small_bots.url("fleer"))
    assert added_by_word.stdout == "ladder: seventh plays from its next game on\n"
    changes: list[Callable[[], str]] = [
        lambda: replace(folder, "lazy", small_bots.url("seeker")),
        lambda: mark(folder, "pause", "hungry"),
        lambda: mark(folder, "remove", "late"),
        lambda: add(folder, "eighth", small_bots.url("careful")),
        lambda: mark(folder, "resume", "hungry"),
        lambda: replace(folder, "lazy@2", small_bots.url("hungry")),
    ]
    for at, change in enumerate(changes, 1):
        enough = max(at * games // (len(changes) + 2), games_stored(folder) + 4)
        wait_for_games(process, folder, enough)  # so that each new bot is drawn
        change()
        if at % 2 == 0:
            process.kill()
            process.communicate()
            process = start_play(config, program)
    wait_for_games(process, folder, games)
    process.kill()
    process.communicate()
    assert_whole(folder, finished(config, folder, program), program)


def open_config(path: Path, bots: Served) -> Path:
    """An endless ladder of six bots, on small boards."""
    return write_config(
        path / "open.toml",
        [*((name, bots.url(name)) for name in SMALL), ("late", bots.url("lazy"))],
        **{"folder": str(path / "results"), "pairing": "rating", "seed": 5, "at_once": 4},
        **{"mode": "constrictor", "width": 7, "height": 7, "turns": 40, "timeout": 5000},
    )


def finished(config: Path, folder: Path, program: Path) -> int:
    """Plays the games that were drawn to their ends, and returns their number."""
    with closing(open_store(folder)) as store:
        drawn = len(store.drawn())
    ran = run_ladder("play", config, "--rounds", str(drawn), "--program", program)
    assert (ran.returncode, complaints(ran.stderr)) == (0, "")
    assert ran.stdout.startswith(f"ladder: {drawn} of {drawn} games are done")
    return drawn


def assert_whole(folder: Path, games: int, program: Path) -> None:
    """Checks the games of the folder, its bots and its ratings."""
    checked = run_ladder("check", folder, "--program", program)
    assert (checked.returncode, checked.stdout) == (0, f"{games} of {games} games agree\n")
    store = open_store(folder)
    drawn, outcomes = store.drawn(), list(store.outcomes())
    expected = separate_ratings(store)
    changes = store.changes(0)
    store.close()
    names = [f"r{number:04}-t001" for number in range(1, games + 1)]
    assert [row.game for row in drawn] == [it.name for it in outcomes] == names
    assert sorted(path.stem for path in (folder / "games").iterdir()) == names
    assert [row.bots for row in drawn] == [tuple(f.bot for f in it.finishes) for it in outcomes]
    assert_drawn_from_the_roster(drawn, changes)
    rows = json.loads(run_ladder("standings", folder, "--json").stdout)
    assert {row["bot"]: row["elo"] for row in rows} == pytest.approx(expected, abs=0.51)
    assert sum(row["games"] for row in rows) == 2 * games


def assert_drawn_from_the_roster(drawn: list[Drawn], changes: list[Change]) -> None:
    """No bot has a game that was drawn while it was not in the roster or rested."""
    for row in drawn:
        fit: set[str] = set()
        for change in changes[: row.changes]:
            if change.what in ("remove", "pause"):
                fit.discard(change.bot)
            elif change.what != "url":
                fit.add(change.bot)
            fit.discard(change.old)
        assert set(row.bots) <= fit, row
    later = {bot for row in drawn for bot in row.bots}
    assert {"seventh", "eighth", "lazy@2"} <= later


@pytest.fixture(scope="module")
def endless(program: Path, small_bots: Served, tmp_path_factory: pytest.TempPathFactory) -> Path:
    """A configuration without an end, of which no game is played yet."""
    folder = tmp_path_factory.mktemp("endless")
    return write_config(
        folder / "open.toml",
        [(name, small_bots.url(name)) for name in SMALL[:3]],
        **{"folder": str(folder / "results"), "pairing": "rating", "turns": 5, "timeout": 5000},
    )


def test_endless_ladder_ends_by_hours_and_by_rounds(program: Path, endless: Path) -> None:
    ran = run_ladder("play", endless, "--hours", "0", "--program", program)
    assert (ran.returncode, complaints(ran.stderr)) == (0, "")
    assert ran.stdout.startswith("ladder: 0 games are done, 0 of them now")
    ran = run_ladder("play", endless, "--rounds", "3", "--program", program)
    assert (ran.returncode, complaints(ran.stderr)) == (0, "")
    assert ran.stdout.startswith("ladder: 3 of 3 games are done, 3 of them now")
    folder = endless.parent / "results"
    refused = {
        ("add", "seeker", "http://127.0.0.1:1"): "already: `replace` takes a new version",
        ("add", "x", "http://a:b@127.0.0.1:1"): "password",
        ("add", "../x", "http://127.0.0.1:1"): "is not 1 to 32 letters",
        ("add", "x", "ftp://127.0.0.1"): "is no address",
        ("remove", "nobody"): "has no bot 'nobody'",
    }
    for (what, *words), why in refused.items():
        ran = run_ladder(what, folder, *words)
        assert ran.returncode == 1 and why in ran.stderr, ran.stderr
    ran = run_ladder("play", endless, "--part", "1/2", "--program", program)
    assert "has no parts" in ran.stderr
    assert re.search("has no parts", run_ladder("merge", folder.parent / "m", folder).stderr)


def test_ladder_waits_for_bots(program: Path, small_bots: Served, tmp_path: Path) -> None:
    """With one bot it says that it waits, and goes on when another one is added."""
    folder = tmp_path / "results"
    config = write_config(
        tmp_path / "one.toml",
        [("seeker", small_bots.url("seeker"))],
        **{"folder": str(folder), "pairing": "rating", "turns": 5, "timeout": 5000},
    )
    process = start_play(config, program)
    assert process.stderr is not None
    while (line := process.stderr.readline()) == BUSY:
        pass
    assert line == "ladder: waits for bots: too few are in and do not rest\n"
    add(folder, "fleer", small_bots.url("fleer"))
    wait_for_games(process, folder, 1)
    process.terminate()
    error = process.communicate()[1]
    assert complaints(error) == "ladder: stopped; the same command goes on\n"
    assert process.returncode == 130


def test_addresses_of_the_configuration_are_taken_again(tmp_path: Path) -> None:
    """Its passwords are in no file, and an address may come back."""
    one, two = "http://me:s3cret@h:1", "http://h:2"
    with closing(Store(tmp_path)) as store:
        for url in (one, two, one, one):
            bots = (Bot("a", url),)
            add_config_bots(store, bots)
            assert urls_of(store.changes(0), bots) == {"a": url}
        assert [it.what for it in store.changes(0)] == ["add", "url", "url"]
    assert b"s3cret" not in (tmp_path / "results.sqlite").read_bytes()


def test_game_that_was_not_drawn_is_found(program: Path, endless: Path) -> None:
    folder = endless.parent / "results"
    base = sqlite3.connect(folder / "results.sqlite")
    base.execute("UPDATE drawn SET results = 0 WHERE number = 3")
    base.execute("UPDATE roster SET bot = 'x' WHERE number = 1")
    base.commit()
    base.close()
    checked = run_ladder("check", folder, "--program", program)
    assert checked.returncode == 1 and "does not begin as drawn" in checked.stdout
