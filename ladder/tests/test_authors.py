"""Tests of the commands for authors: a match, its boards on a terminal, and the log of a bot."""

from __future__ import annotations

import json
import os
import pty
import re
import subprocess
from collections import Counter
from pathlib import Path

import pytest
from served import LADDER, Served, run_ladder, write_config
from testing import chromium  # of viewer/

from arena_ladder.commands.match import bots_of_words
from arena_ladder.commands.view import step
from arena_ladder.game.config import ConfigFault
from arena_ladder.game.game_files import answers_file, make_folders
from arena_ladder.net.bots import Look
from arena_ladder.page.viewer_page import viewer_page
from arena_ladder.results import kept_answers
from arena_ladder.results.bot_log import (
    MOST_BYTES,
    Asked,
    add_lines,
    last_missed,
    log_files,
    read_log,
)
from arena_ladder.results.kept_answers import Heard, KeptAnswers, heard_in
from arena_ladder.results.store import open_store

TURNS = 15
PLANNED = (4, 13)  # turns in which the faulty bots fail
IS_ID = re.compile("[0-9a-f]{12}")


@pytest.fixture(scope="module")
def match_words(program: Path, small_bots: Served) -> list[str | Path]:
    bots = [small_bots.url("fleer"), f"second={small_bots.url('seeker')}"]
    rules = ["--seed", "3", "--turns", str(TURNS), "--timeout", "5000"]
    return [LADDER, "match", *bots, *rules, "--program", program]


def test_match_prints_its_boards_and_keeps_a_transcript(
    match_words: list[str | Path], tmp_path: Path
) -> None:
    ran = subprocess.run([*match_words, "--view"], cwd=tmp_path, capture_output=True, text=True)
    assert ran.returncode == 0, ran.stderr
    turns = re.findall(r"^turn ([0-9]+)", ran.stdout, re.MULTILINE)
    assert turns == [str(at) for at in range(TURNS + 1)]
    rows = re.findall(r"^(?:[.*A-Ba-b] ){11}$", ran.stdout, re.MULTILINE)
    assert len(rows) == 11 * (TURNS + 1)
    heads = Counter(mark for row in rows for mark in row if mark in "AB")
    assert heads == {"A": TURNS + 1, "B": TURNS + 1}
    *_, result, link = ran.stdout.splitlines()
    assert re.fullmatch(rf"(fleer|second): draw, length [0-9]+, {TURNS} turns", result)
    folder = tmp_path / "out/matches/0001"
    assert link == f"{(folder / 'game.html').as_uri()} opens in a browser"
    transcript = (folder / "game.transcript").read_text().splitlines()
    assert json.loads(transcript[-1])["board"]["turn"] == TURNS


def test_link_of_a_match_opens_its_game(
    match_words: list[str | Path], browser: chromium.Browser, tmp_path: Path
) -> None:
    """The link names a file, which shows the game without a server, to its last turn."""
    folder = tmp_path / "<b>&#65; %41"
    folder.mkdir()
    ran = subprocess.run(match_words, cwd=folder, capture_output=True, text=True)
    assert ran.returncode == 0, ran.stderr
    link, *_ = ran.stdout.splitlines()[-1].split()
    browser.complaints()
    browser.go(link)
    browser.wait("return document.body.dataset.state === 'open'", seconds=60)
    assert browser.run("return document.getElementById('file').textContent") == "match 0001"
    browser.click("#last")
    turn = f"return document.getElementById('turn').textContent === 'Turn {TURNS} of {TURNS}'"
    browser.wait(turn, seconds=60)
    assert browser.run("return document.querySelectorAll('#board .body').length") == 2
    assert browser.complaints() == []


def test_page_of_the_viewer_keeps_any_transcript_as_text() -> None:
    page = viewer_page("match", b'{"id":"</script><b>"}\n')
    assert r'{"id":"\u003c/script>\u003cb>"}' in page
    assert page.count("</script>") == page.count("<script")


def test_match_is_stepped_through_on_a_terminal(
    match_words: list[str | Path], tmp_path: Path
) -> None:
    """After the keys for back and home the terminal has shown the turns to which they lead."""
    ours, theirs = pty.openpty()
    with subprocess.Popen(
        [*match_words, "--view"], cwd=tmp_path, stdin=theirs, stdout=theirs, stderr=theirs
    ) as ran:
        os.close(theirs)
        shown = b""
        while b"q: quit" not in shown:
            shown += os.read(ours, 65_536)
        os.write(ours, b"h")
        while f"turn {TURNS - 1}".encode() not in shown:
            shown += os.read(ours, 65_536)
        os.write(ours, b"\x1b[Hq")
        while b"opens in" not in shown:
            shown += os.read(ours, 65_536)
        assert ran.wait() == 0
    os.close(ours)


def test_keys_lead_to_boards_that_exist() -> None:
    assert [step(5, key, 9) for key in (b"l", b"\x1b[D", b"G", b"g", b"\x1b[6~", b"x")] == [
        *(6, 4, 8, 0, 8, 5)
    ]


def test_bots_of_a_match_have_names() -> None:
    words = ["http://h:1/a/fleer/", "b=http://h:2/fleer", "https://host.example"]
    assert [bot["name"] for bot in bots_of_words(words)] == ["fleer", "b", "host.example"]
    for wrong in (["nothing=", "nothing="], ["http://"], ["a=http://h", "a=http://i"]):
        with pytest.raises(ConfigFault):
            bots_of_words(wrong)


def test_log_says_why_moves_were_missed(program: Path, faulty_bots: Served, tmp_path: Path) -> None:
    """The log has each request, the causes that the results have, and the start of bad answers."""
    names = ("good", "error", "text", "garbage")
    folder = tmp_path / "results"
    config = write_config(
        tmp_path / "x.toml",
        [(name, faulty_bots.url(name)) for name in names],
        **{"folder": str(folder), "pairing": "tables", "turns": TURNS, "timeout": 5000, "seed": 1},
    )
    assert run_ladder("play", config, "--program", program).returncode == 0
    store = open_store(folder)
    missed = store.missed()
    (outcome,) = store.outcomes()
    store.close()
    ids = faulty_bots.told("ids")
    starts = {"error": '{"move":"up"}', "text": "[" * 200, "garbage": "\\xff\\xfe this is"}
    for finish in outcome.finishes:
        whole = list(read_log(folder, finish.bot))
        asked = [it for it in whole if not it.call]
        assert [it.call for it in (whole[0], whole[-1])] == ["start", "end"]
        assert len(whole) == len(asked) + 2 and whole[-1].turn == outcome.turns
        assert [it.turn for it in asked] == list(range(finish.turns))
        bad = [it for it in asked if it.cause is not None]
        assert [it.turn for it in bad] == [
            it for it in PLANNED if it < finish.turns and finish.bot != "good"
        ]
        assert Counter(it.cause for it in bad) == missed.get(finish.bot, {})
        assert last_missed(folder, finish.bot, 1) == bad[-1:]
        assert all(it.start.startswith(starts[finish.bot]) for it in bad)
        assert all(it.status == 200 and it.bytes > 0 for it in asked if it.cause is None)
        assert [it.id for it in asked] == [
            ids[f"{outcome.name} {it.turn} {finish.bot}"] for it in asked
        ]
    assert len(set(ids.values())) == len(ids) and all(map(IS_ID.fullmatch, ids.values()))
    printed = run_ladder("log", folder, "error", "--missed").stdout.splitlines()
    first = [outcome.name, "4", ids[f"{outcome.name} 4 error"], "500", str(bad_bytes(folder))]
    assert printed[1].split()[:5] == first
    assert run_ladder("log", folder, "error", "--game", "r0009-t001").stdout.count("\n") == 1
    assert "has no bot 'nobody'" in run_ladder("log", folder, "nobody").stderr


def bad_bytes(folder: Path) -> int:
    return last_missed(folder, "error", 9)[-1].bytes


def test_match_says_what_was_missed_and_why(
    program: Path, faulty_bots: Served, tmp_path: Path
) -> None:
    bots = [faulty_bots.url(name) for name in ("good", "error")]
    words = [*bots, "--turns", str(TURNS), "--timeout", "5000", "--seed", "1"]
    ran = subprocess.run(
        [LADDER, "match", *words, "--program", program],
        cwd=tmp_path,
        capture_output=True,
        text=True,
    )
    assert ran.returncode == 0, ran.stderr
    (line,) = [it for it in ran.stdout.splitlines() if "missed" in it]
    found = re.fullmatch(
        r"error missed (\d) moves? \(status (\d)\); the last in turn (\d+), status 500: (.*)", line
    )
    assert found is not None and found[1] == found[2] and int(found[3]) in PLANNED
    assert json.loads(found[4]) == '{"move":"up"}'


def test_answers_of_the_last_games_are_kept(
    tmp_path: Path, monkeypatch: pytest.MonkeyPatch
) -> None:
    monkeypatch.setattr(kept_answers, "MOST_GAMES", 2)
    make_folders(tmp_path)
    kept = KeptAnswers(tmp_path)
    for game in ("r0001-t001", "r0002-t001", "r0003-t001"):
        answers_file(tmp_path, game).write_text(
            '{"a":["up",null,12,"hi",["#123456","x","y"]],"b":[null,"late",500,""]}\n{"a":[]}\n'
        )
        kept.keep(game)
        kept = KeptAnswers(tmp_path)
    assert heard_in(tmp_path, "r0001-t001") is None
    (turn,) = heard_in(tmp_path, "r0003-t001") or []
    assert turn["a"] == Heard("up", None, 12, "hi", Look("#123456", "x", "y"))
    assert turn["b"] == Heard(None, "late", 500)
    assert not list((tmp_path / "running").iterdir())


def test_log_is_bounded_and_read_over_cut_lines(tmp_path: Path) -> None:
    for turn in range(40):
        line = json.dumps({**vars(Asked("g", turn, 200, 9, 1, None)), "start": "x" * 99_000})
        add_lines(tmp_path, "bot", [line + "\n"])
    sizes = [path.stat().st_size for path in log_files(tmp_path, "bot")]
    assert sum(sizes) < 4 * MOST_BYTES
    turns = [it.turn for it in read_log(tmp_path, "bot")]
    assert turns == list(range(turns[0], 40)) and 5 < len(turns) < 40
    add_lines(tmp_path, "bot", ["x" * 9 * MOST_BYTES])
    assert sum(path.stat().st_size for path in log_files(tmp_path, "bot")) < 4 * MOST_BYTES
    assert [it.turn for it in read_log(tmp_path, "bot")][-1] == 39
