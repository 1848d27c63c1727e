"""Tests of a ladder that runs for months: seasons, backups, packs, and folders of old versions."""

from __future__ import annotations

import json
import sqlite3
import time
import zipfile
from contextlib import closing
from datetime import UTC, date, datetime
from pathlib import Path
from typing import Any

import pytest
from served import Served, run_ladder, start_play, write_config

from arena_ladder.game.config import ENDLESS
from arena_ladder.game.game_files import command_file
from arena_ladder.game.pairing import GAME_NAME
from arena_ladder.page.days import with_days
from arena_ladder.page.page_calls import season_rows
from arena_ladder.results import packs
from arena_ladder.results.about import about_of
from arena_ladder.results.kept_answers import heard_in
from arena_ladder.results.packs import commands_of, pack_games
from arena_ladder.results.roster import change_roster
from arena_ladder.results.seasons import season_day
from arena_ladder.results.store import open_store
from arena_ladder.run.endless import name_of, number_of

KEPT = Path(__file__).resolve().parent / "kept"
NAMES = ("fleer", "hungry", "lazy", "seeker")
SECONDS = 240


def kept_folder(version: str, to: Path) -> Path:
    """A folder as a released version left it: its database from its text, and its games, each
    behind a line with its name."""
    for name in ("games", "running"):
        (to / name).mkdir(parents=True)
    with closing(sqlite3.connect(to / "results.sqlite")) as base:
        base.executescript((KEPT / f"{version}.sql").read_text())
    for game in (KEPT / f"{version}.games").read_text().split("== ")[1:]:
        name, _, lines = game.partition("\n")
        (to / f"games/{name}.jsonl").write_text(lines)
    return to


def config_for(path: Path, folder: Path, bots: Served, **members: Any) -> Path:
    """A configuration of the ladder of the kept folders."""
    rules = {"folder": str(folder), "seed": 1, "width": 7, "height": 7, "turns": 30}
    return write_config(path, [(it, bots.url(it)) for it in NAMES], **{**rules, **members})


def rows_of(folder: Path, *words: str) -> dict[str, dict[str, int]]:
    ran = run_ladder("standings", folder, *(words or ("--json",)))
    assert ran.returncode == 0, ran.stderr
    return {row["bot"]: row for row in json.loads(ran.stdout)}


def assert_agrees(folder: Path, games: int, program: Path) -> None:
    ran = run_ladder("check", folder, "--program", program)
    assert ran.stdout == f"{games} of {games} games agree\n"


def test_no_number_ends_an_endless_ladder() -> None:
    for number in (1, 9_999, 999_999, 1_000_000, 123_456_789, ENDLESS):
        assert GAME_NAME.fullmatch(name_of(number)) and number_of(name_of(number)) == number
    assert ENDLESS > 64 * 86_400 * 365 * 100  # a game a second at each place, a century


def test_ladder_goes_on_behind_the_old_last_number(
    program: Path, small_bots: Served, tmp_path: Path
) -> None:
    """And where it ends, it says why."""
    folder = kept_folder("1.1", tmp_path / "x")
    with closing(sqlite3.connect(folder / "results.sqlite")) as base:
        base.execute("UPDATE drawn SET number = 999999 WHERE number = 12")
        base.commit()
    config = config_for(tmp_path / "x.toml", folder, small_bots, pairing="rating")
    ran = run_ladder("play", config, "--rounds", "1000002", "--program", program)
    assert ran.returncode == 0, ran.stderr
    with closing(open_store(folder)) as store:
        assert store.has_game("r1000000-t001") and store.has_game("r1000002-t001")
    ran = run_ladder("play", config, "--rounds", "14", "--program", program)
    assert "it ends at 14 games: a higher --rounds, or `rounds`, lets it go on" in ran.stdout


def test_folder_of_version_1_1_goes_on(program: Path, small_bots: Served, tmp_path: Path) -> None:
    """Its standings are what they were, with a mark of each bot, and all its games agree with the
    new ones."""
    folder = kept_folder("1.1", tmp_path / "x")
    old = json.loads((KEPT / "1.1.json").read_text())
    rows: list[dict[str, Any]] = list(rows_of(folder).values())
    assert [row.pop("mark") for row in rows] == ["new"] * len(old)
    assert rows == old
    assert_agrees(folder, 12, program)
    config = config_for(tmp_path / "x.toml", folder, small_bots, pairing="rating")
    ran = run_ladder("play", config, "--rounds", "20", "--program", program)
    assert ran.returncode == 0, ran.stderr
    assert_agrees(folder, 20, program)
    assert sum(row["games"] for row in rows_of(folder).values()) == 40


def test_ratings_of_version_1_0_are_points_to_begin_with(
    program: Path, small_bots: Served, tmp_path: Path
) -> None:
    old = kept_folder("1.0", tmp_path / "old")
    ratings = {bot: row["elo"] for bot, row in rows_of(old).items()}
    assert len(set(ratings.values())) > 2
    folder = tmp_path / "x"
    config = config_for(tmp_path / "x.toml", folder, small_bots, pairing="rating")
    played = [run_ladder("play", config, "--rounds", "1", "--program", program)]
    ran = run_ladder("carry", old, folder)
    assert ran.stdout.startswith("ladder: 4 bots got their Elo in"), ran.stderr
    points: dict[str, int] = {}
    with closing(open_store(folder)) as store:
        (first,) = store.outcomes()
    change_roster(folder, lambda _, rated: points.update(points_of(rated)) or "")
    assert points == ratings and len(first.finishes) == 2
    played.append(run_ladder("play", config, "--rounds", "6", "--program", program))
    assert [it.returncode for it in played] == [0, 0], played[1].stderr
    assert_agrees(folder, 6, program)


def points_of(rated: object) -> dict[str, int]:
    return {name: it.points for name, it in rated.players.items()}  # type: ignore[attr-defined]


def test_season_begins_while_the_ladder_plays(
    program: Path, small_bots: Served, tmp_path: Path
) -> None:
    """Its standings count later games alone; those of the season before are kept."""
    folder = tmp_path / "x"
    config = config_for(tmp_path / "x.toml", folder, small_bots, pairing="rating")
    playing = start_play(config, program)
    wait_for_games(folder, 10)
    began = run_ladder("season", folder, "spring")
    assert began.returncode == 0, began.stderr
    with closing(open_store(folder)) as store:
        wait_for_games(folder, store.count_games() + 10)
    playing.terminate()
    error = playing.communicate(timeout=SECONDS)[1]
    assert playing.returncode == 130, error
    with closing(open_store(folder)) as store:
        games = len(store.drawn())
    ran = run_ladder("play", config, "--rounds", str(games), "--program", program)
    assert ran.returncode == 0, ran.stderr
    assert run_ladder("season", folder, "summer").returncode == 0
    first, spring = rows_of(folder, "--season", "1"), rows_of(folder, "--season", "spring")
    counts = [sum(row["games"] for row in rows.values()) for rows in (first, spring)]
    assert sum(counts) == 2 * games and counts[0] >= 20 <= counts[1]
    with closing(open_store(folder)) as store:
        assert [(it["name"], it["games"]) for it in season_rows(store)] == [
            *(("spring", counts[1] // 2), ("1", counts[0] // 2))
        ]
    assert all(row["games"] == 0 and row["elo"] == 1500 for row in rows_of(folder).values())
    assert_agrees(folder, games, program)
    ran = run_ladder("play", config, "--rounds", str(games + 4), "--program", program)
    assert ran.returncode == 0, ran.stderr
    assert sum(row["games"] for row in rows_of(folder).values()) == 8
    assert_agrees(folder, games + 4, program)
    assert "is named 'winter'" in run_ladder("standings", folder, "--season", "winter").stderr


def wait_for_games(folder: Path, count: int) -> None:
    """Waits until a ladder that plays has stored some games."""
    ends = time.monotonic() + SECONDS
    while time.monotonic() < ends:
        if (folder / "results.sqlite").exists():
            with closing(open_store(folder)) as store:
                if store.count_games() >= count:
                    return
        time.sleep(0.1)
    raise AssertionError("the ladder plays no games")


def test_backup_is_whole_while_the_ladder_plays(
    program: Path, small_bots: Served, tmp_path: Path
) -> None:
    """All games in its results agree, and it goes on by itself, also when it is restored."""
    folder = tmp_path / "x"
    config = config_for(tmp_path / "x.toml", folder, small_bots, pairing="rating")
    playing = start_play(config, program, "--rounds", "40")
    copies = []
    for at in range(2):
        wait_for_games(folder, 10 + 15 * at)
        copy = tmp_path / f"copy{at}"
        ran = run_ladder("backup", folder, copy)
        assert ran.returncode == 0, ran.stderr
        copies.append((copy, int(ran.stdout.split(" has ")[1].split()[0])))
    assert playing.wait(SECONDS) == 0
    for copy, games in copies:
        assert_agrees(copy, games, program)
    again = tmp_path / "again"
    assert run_ladder("restore", copies[1][0], again).returncode == 0
    more = config_for(tmp_path / "again.toml", again, small_bots, pairing="rating")
    ran = run_ladder("play", more, "--rounds", "40", "--program", program)
    assert ran.returncode == 0, ran.stderr
    assert_agrees(again, 40, program)
    assert "is there already" in run_ladder("backup", folder, again).stderr


def kept_beside(folder: Path) -> dict[str, bytes]:
    """What a folder keeps beside its games and its database, which a page and a log show."""
    parts = [folder / "about.json", *(folder / "days").iterdir(), *(folder / "answers").iterdir()]
    return {str(path.relative_to(folder)): path.read_bytes() for path in parts}


def test_days_answers_and_name_come_back_and_seasons_keep_them(
    program: Path, small_bots: Served, tmp_path: Path
) -> None:
    folder = tmp_path / "x"
    members = {"pairing": "rating", "name": "Long", "enter": "Ask me"}
    config = config_for(tmp_path / "x.toml", folder, small_bots, **members)
    ran = run_ladder("play", config, "--rounds", "3", "--program", program)
    assert ran.returncode == 0, ran.stderr
    with_days(folder, [{"bot": "fleer", "elo": 1510, "games": 1}], date(2026, 11, 1))
    (folder / "answers/r0009-t001.jsonl.unfinished").write_bytes(b"killed there")
    before = kept_beside(folder)
    del before["answers/r0009-t001.jsonl.unfinished"]
    assert len(before) == 1 + 1 + 3
    for source, to in (("x", "copy"), ("copy", "again")):
        ran = run_ladder("backup" if to == "copy" else "restore", tmp_path / source, tmp_path / to)
        assert (ran.returncode, kept_beside(tmp_path / to)) == (0, before), ran.stderr
    again = tmp_path / "again"
    assert run_ladder("season", again, "spring").returncode == 0
    assert kept_beside(again) == before
    with closing(open_store(again)) as store:
        assert about_of(store, again)["name"] == "Long"
    assert len(heard_in(again, "r0001-t001") or ()) > 2
    assert (folder / "log").is_dir() and (again / "log").is_dir()


def test_change_of_a_rating_is_not_counted_over_a_season(tmp_path: Path) -> None:
    """Points and ratings begin anew, so the ratings of the days before mean nothing then."""
    folder = kept_folder("1.1", tmp_path / "x")
    with closing(open_store(folder)) as store:
        assert season_day(store) == ""
    first, second, third = (date(2026, 11, day) for day in (1, 2, 3))
    rows = [{"bot": "fleer", "elo": 1700, "games": 30}]
    with_days(folder, rows, first)
    assert with_days(folder, rows, second)[0]["day"] == 0
    assert run_ladder("season", folder, "spring").returncode == 0
    with closing(open_store(folder)) as store:
        assert season_day(store) == datetime.now(UTC).date().isoformat()
        store.base.execute("DROP TABLE season")
        assert season_day(store) == ""
    rows = [{"bot": "fleer", "elo": 1520, "games": 3}]
    assert with_days(folder, rows, second, begun=str(second))[0]["day"] is None
    assert with_days(folder, rows, third, begun=str(second))[0]["day"] is None
    rows = [{"bot": "fleer", "elo": 1540, "games": 5}]
    assert with_days(folder, rows, date(2026, 11, 4), begun=str(second))[0]["day"] == 20


def test_games_are_packed_by_thousands_and_read_alike(
    program: Path, small_bots: Served, tmp_path: Path, monkeypatch: pytest.MonkeyPatch
) -> None:
    folder = tmp_path / "x"
    config = config_for(tmp_path / "x.toml", folder, small_bots, pairing="rating")
    ran = run_ladder("play", config, "--rounds", "11", "--program", program)
    assert ran.returncode == 0, ran.stderr
    games = {path.stem: path.read_bytes() for path in (folder / "games").iterdir()}
    monkeypatch.setattr(packs, "GAMES", 4)
    pack_games(folder, 11, lambda: False)
    names = sorted(path.name for path in (folder / "games").iterdir())
    assert [name for name in names if name.endswith("zip")] == ["000001.zip", "000002.zip"]
    assert len(names) == 2 + 3
    assert {name: commands_of(folder, name) for name in games} == games
    with pytest.raises(FileNotFoundError):
        commands_of(folder, "r9999-t001")
    with zipfile.ZipFile(folder / "games" / "000002.zip") as archive:
        again = archive.namelist()[0]
    (folder / "games" / again).write_bytes(games[again.partition(".")[0]])  # it was killed there
    pack_games(folder, 11, lambda: False)
    assert not (folder / "games" / again).exists()


def test_packs_of_a_folder_are_checked_exported_and_backed_up(
    program: Path, tmp_path: Path
) -> None:
    """A folder of version 1.1, whose games are packed as if they were a thousand."""
    folder = kept_folder("1.1", tmp_path / "x")
    with closing(open_store(folder)) as store:
        names = [it.name for it in store.outcomes_by_end()]
    before = run_ladder("export", folder, names[3], "--program", program)
    with zipfile.ZipFile(folder / "games" / "000001.zip", "w") as archive:
        for name in names:
            archive.write(command_file(folder, name), f"{name}.jsonl")
            command_file(folder, name).unlink()
    assert_agrees(folder, 12, program)
    after = run_ladder("export", folder, names[3], "--program", program)
    assert after.stdout == before.stdout != ""
    assert run_ladder("backup", folder, tmp_path / "copy").returncode == 0
    assert_agrees(tmp_path / "copy", 12, program)
    (folder / "games" / "000001.zip").write_bytes(b"no archive")
    ran = run_ladder("check", folder, "--program", program)
    assert ran.returncode == 1 and "the pack is damaged" in ran.stdout
