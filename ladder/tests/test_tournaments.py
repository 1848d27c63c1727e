"""Tournaments: their matches for all numbers of bots, drawn matches, and whole tournaments."""

from __future__ import annotations

import asyncio
import json
import random
import sqlite3
from collections import Counter
from contextlib import closing
from pathlib import Path
from typing import Any

import pytest
from served import SMALL, Served, complaints, run_ladder, write_config

from arena_ladder.commands.tournament_commands import bracket_lines
from arena_ladder.game.config import Config, ConfigFault, config_of, read_config
from arena_ladder.game.game_files import make_folders
from arena_ladder.game.groups import groups_of
from arena_ladder.game.matches import BYE
from arena_ladder.game.pairing import Part
from arena_ladder.game.rated import Result
from arena_ladder.game.tournament import Tournament
from arena_ladder.results.store import Store, open_store
from arena_ladder.run.check import check
from arena_ladder.run.play import Job, play
from arena_ladder.run.tournament_play import tournament_of

KINDS = ("single_elimination", "double_elimination", "groups", "swiss")
COUNTS = (2, 3, 4, 5, 6, 7, 8, 9, 11, 16, 17, 33)


def config(kind: str, count: int, **members: Any) -> Config:
    bots = [{"name": f"b{at}", "url": "http://127.0.0.1:1"} for at in range(1, count + 1)]
    table = {"folder": "x", "bot": bots, "pairing": kind, "seed": 1, "games": 2, **members}
    return config_of(table, "here")


def strength(bot: str) -> int:
    return -int(bot[1:])


def better_wins(name: str, bots: tuple[str, ...]) -> Result:
    loser = min(bots, key=strength)
    return Result(name, tuple((bot, 5 if bot == loser else None) for bot in bots))


def drawn(name: str, bots: tuple[str, ...]) -> Result:
    return Result(name, tuple((bot, 7) for bot in bots))


def by_chance(draw: random.Random) -> Any:
    def result(name: str, bots: tuple[str, ...]) -> Result:
        if draw.random() < 0.3:
            return drawn(name, bots)
        loser = draw.choice(bots)
        return Result(name, tuple((bot, 5 if bot == loser else None) for bot in bots))

    return result


def played(of: Config, result: Any, draw: random.Random | None = None) -> Tournament:
    """A tournament of which all games are played, each time one that is drawn among the open."""
    results: dict[str, Result] = {}
    while True:
        tournament = Tournament(of, results)
        waiting = [it for it in tournament.fixtures if it.name not in results]
        if not waiting:
            assert tournament.is_over and tournament.champion
            return tournament
        chosen = [draw.choice(waiting)] if draw else waiting
        results |= {it.name: result(it.name, it.bots) for it in chosen}


def real(tournament: Tournament) -> list[tuple[str, str]]:
    """The bots of the matches that were played."""
    return [it.bots for it in tournament.matches if it.bots is not None and BYE not in it.bots]


@pytest.mark.parametrize("count", COUNTS)
def test_best_bot_wins_and_each_is_out_after_its_losses(count: int) -> None:
    single = played(config("single_elimination", count), better_wins)
    assert single.champion == "b1" and len(real(single)) == count - 1
    assert single.matches[-1].bots == ("b1", "b2")
    double = played(config("double_elimination", count), better_wins)
    assert double.champion == "b1" and len(real(double)) == 2 * count - 2
    lost = Counter(it.loser for it in double.matches if it.bots and BYE not in it.bots)
    assert lost == {f"b{at}": 2 for at in range(2, count + 1)}
    assert double.matches[-2].bots == ("b1", "b2")


@pytest.mark.parametrize("kind", KINDS)
@pytest.mark.parametrize("count", [2, 5, 9, 16])
def test_results_in_any_order_give_the_same_tournament(kind: str, count: int) -> None:
    """Whichever games end first, and whoever wins: the matches follow from the results."""
    for seed in range(3):
        draw = random.Random(seed)
        one = played(config(kind, count), by_chance(draw), draw)
        again = Tournament(config(kind, count), one.results)
        assert [it.bots for it in again.matches] == [it.bots for it in one.matches]
        names = [it.name for it in again.fixtures]
        assert len(set(names)) == len(names) == len(one.results)
        if kind.endswith("elimination"):
            most = 1 if kind.startswith("single") else 2
            lost = Counter(it.loser for it in one.matches if it.bots and BYE not in it.bots)
            assert set(lost) == {it.name for it in one.config.bots} - {one.champion} or most == 2
            assert max(lost.values()) <= most and lost[one.champion] < most


def test_winner_of_the_losers_has_to_win_twice() -> None:
    """The second final is played only if the bot that had not lost before loses the first one."""

    def upset(name: str, bots: tuple[str, ...]) -> Result:
        loser = "b1" if "b1" in bots and name[:5] == "r0005" else min(bots, key=strength)
        return Result(name, tuple((bot, 5 if bot == loser else None) for bot in bots))

    four = played(config("double_elimination", 4), upset)
    assert [it.round for it in four.matches if it.stage.endswith("inal")] == [2, 5, 6]
    first, second = four.matches[-2:]
    assert (first.bots, first.winner) == (("b1", "b2"), "b2")
    assert (second.bots, second.winner) == (("b2", "b1"), "b1") and four.champion == "b1"


def test_drawn_match_goes_on_and_then_the_better_seed_does() -> None:
    two = played(config("single_elimination", 2), drawn)
    (match,) = two.matches
    assert (len(match.games), match.points, match.winner) == (8, (4.0, 4.0), "b1")
    assert match.games[1].bots == match.games[0].bots[::-1]
    assert match.games[1].key == match.games[0].name
    names = [f"r0001-t001{at:02}" for at in range(1, 9)]
    assert [it.name for it in match.games] == names
    results = {name: two.results[name] for name in names[:2]}
    assert [it.name for it in Tournament(two.config, results).fixtures] == names[:4]
    results = {name: two.results[name] for name in names[:1]}
    assert [it.name for it in Tournament(two.config, results).fixtures] == names[:2]


def test_better_seed_goes_on_whichever_half_it_comes_from() -> None:
    def first_loses(name: str, bots: tuple[str, ...]) -> Result:
        if name.startswith("r0002"):
            return drawn(name, bots)
        loser = "b1" if "b1" in bots else "b3"
        return Result(name, tuple((bot, 5 if bot == loser else None) for bot in bots))

    four = played(config("single_elimination", 4), first_loses)
    assert four.matches[-1].bots == ("b4", "b2") and four.champion == "b2"


def test_groups_are_even_and_two_of_each_go_on() -> None:
    assert groups_of(10, 4) == [[1, 6, 7], [2, 5, 8], [3, 4, 9, 10][:3] + [10]]
    sixteen = played(config("groups", 16), better_wins)
    assert [[row["bot"] for row in table["rows"]] for table in sixteen.tables()] == [
        *(["b1", "b8", "b9", "b16"], ["b2", "b7", "b10", "b15"]),
        *(["b3", "b6", "b11", "b14"], ["b4", "b5", "b12", "b13"]),
    ]
    final = [it.bots for it in sixteen.matches if it.stage == "Quarterfinals"]
    assert {frozenset(it or ()) for it in final} == {
        frozenset(it) for it in (("b1", "b5"), ("b2", "b6"), ("b3", "b7"), ("b4", "b8"))
    }
    assert sixteen.champion == "b1" and len(real(sixteen)) == 4 * 6 + 7


@pytest.mark.parametrize("count", [4, 7, 8, 13, 32])
def test_nobody_meets_twice_in_a_swiss_tournament(count: int) -> None:
    for seed in range(3):
        draw = random.Random(seed)
        swiss = played(config("swiss", count), by_chance(draw))
        pairs = [frozenset(it.bots or ()) for it in swiss.matches]
        assert len(pairs) == len(set(pairs))
        rounds = max(it.round for it in swiss.matches)
        assert rounds == (count - 1).bit_length()
        for number in range(1, rounds + 1):
            bots = Counter(
                bot for it in swiss.matches if it.round == number and it.bots for bot in it.bots
            )
            assert set(bots) - {BYE} == {it.name for it in swiss.config.bots}
            assert set(bots.values()) == {1}
    assert played(config("swiss", count), better_wins).champion == "b1"
    assert [it.bots for it in played(config("swiss", 8), better_wins).matches[:4]] == [
        *(("b1", "b5"), ("b2", "b6"), ("b3", "b7"), ("b4", "b8"))
    ]


def test_members_of_tournaments_are_checked() -> None:
    for members, why in (
        ({"snakes": 3}, "a game has 2 snakes"),
        ({"games": 0}, "games is 0"),
        ({"group": 4}, "no such member: group"),
    ):
        with pytest.raises(ConfigFault, match=why):
            config("swiss", 4, **members)
    assert config("swiss", 4).identity["rounds"] == 2
    with pytest.raises(ConfigFault, match="no such member: games"):
        config("round_robin", 4)


def play_here(path: Path, program: Path) -> Path:
    """Plays a configuration in this process; returns the folder of the results."""
    config = read_config(path)
    make_folders(config.folder)
    with closing(Store(config.folder)) as store:
        asyncio.run(play(Job(config, config.folder, Part(1, 1), program), store, []))
    return config.folder


@pytest.mark.parametrize("kind", KINDS)
def test_tournament_is_played_checked_and_goes_on(
    program: Path, small_bots: Served, tmp_path: Path, kind: str
) -> None:
    """With the same command it plays nothing; a changed result changes the pairs, and is found."""
    path = write_config(
        tmp_path / "cup.toml",
        [(name, small_bots.url(name)) for name in SMALL],
        **{"folder": str(tmp_path / "cup"), "pairing": kind, "games": 2, "turns": 25},
        **{"timeout": 5000, "seed": 1},
    )
    folder = play_here(path, program)
    with closing(open_store(folder)) as store:
        tournament = tournament_of(store, folder)
        games = store.names()
    assert tournament.is_over and {it.name for it in tournament.fixtures} == games
    assert bracket_lines(tournament)[-1] == f"{tournament.champion} has won"
    assert check(folder, program, lambda _: None).faults == {}
    play_here(path, program)
    with closing(open_store(folder)) as store:
        assert store.names() == games
    first = next(it for it in tournament.matches if it.games)
    with closing(sqlite3.connect(folder / "results.sqlite")) as base, base:
        names = [it.name for it in first.games]
        marks = ",".join("?" * len(names))
        base.execute(
            f"UPDATE seat SET out = CASE bot WHEN ? THEN 5 ELSE NULL END WHERE game IN ({marks})",
            (first.winner or first.games[0].bots[0], *names),
        )
    faults = check(folder, program, lambda _: None).faults
    assert set(names) <= set(faults)
    if kind == "single_elimination":
        assert "the pairings have no such game" in faults.values() or any(
            "as drawn from the seed" in it for it in faults.values()
        )


def test_tournament_of_the_bots_of_a_ladder(
    program: Path, small_bots: Served, tmp_path: Path
) -> None:
    """Its seeds are their ratings, and its rules those of the ladder."""
    path = write_config(
        tmp_path / "four.toml",
        [(name, small_bots.url(name)) for name in SMALL],
        **{"folder": str(tmp_path / "four"), "width": 7, "height": 7, "turns": 25},
        **{"timeout": 5000, "seed": 1},
    )
    play_here(path, program)
    rows = json.loads(run_ladder("standings", tmp_path / "four", "--json").stdout)
    words: list[str | Path] = [
        tmp_path / "cup",
        tmp_path / "four",
        "single_elimination",
        "--bots",
        "4",
    ]
    ran = run_ladder("tournament", *words, "--games", "2", "--program", program)
    assert (ran.returncode, complaints(ran.stderr)) == (0, "")
    with closing(open_store(tmp_path / "cup")) as store:
        identity = store.identity() or {}
    assert identity["bots"] == [row["bot"] for row in rows[:4]]
    assert identity["rules"]["width"] == 7 and identity["timeout"] == 5000
    bracket = run_ladder("bracket", tmp_path / "cup").stdout.splitlines()
    assert bracket[0] == "Semifinals" and bracket[-1].endswith(" has won")
    assert bracket[1].split()[1::2][:2] == [rows[0]["bot"], rows[3]["bot"]]
    checked = run_ladder("check", tmp_path / "cup", "--program", program)
    assert checked.returncode == 0, checked.stdout
    assert run_ladder("bracket", tmp_path / "four").returncode == 1
