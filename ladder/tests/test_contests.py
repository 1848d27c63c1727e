"""Tests of the test of likelihoods, and of the commands `sprt` and `gauntlet`."""

from __future__ import annotations

import json
import math
import random
from pathlib import Path

import pytest
from served import Served, complaints, run_ladder

from arena_ladder.game.outcome import Finish, Outcome, SeatResult
from arena_ladder.results.sprt import BOUND, Sprt, expected, log_ratio

RUNS = 40


def outcome(name: str, result: SeatResult) -> Outcome:
    win, draw, loss = SeatResult.WIN, SeatResult.DRAW, SeatResult.LOSS
    others = {win: loss, loss: win, draw: draw}
    finishes = [
        Finish(bot, it, None, None, None, 3, 9)
        for bot, it in (("new", result), ("old", others[result]))
    ]
    return Outcome(name, 1, 9, 9, "", tuple(finishes))


@pytest.mark.parametrize(("lost", "won"), [(10, 30), (25, 25), (1, 60), (0, 20)])
def test_ratio_of_wins_and_losses_is_that_of_wald(lost: int, won: int) -> None:
    """Without other scores the shares under a hypothesis are given, so the ratio has a formula."""
    low, high = expected(0), expected(60)
    wald = won * math.log(high / low) + lost * math.log((1 - high) / (1 - low))
    assert log_ratio([lost, 0, 0, 0, won], 0, 60) == pytest.approx(wald, abs=0.02)


def test_ratio_is_zero_without_pairs_and_changes_its_sign_with_the_hypotheses() -> None:
    counts = [3, 8, 20, 11, 5]
    assert log_ratio([0] * 5, 0, 20) == 0
    assert log_ratio(counts, 0, 50) == pytest.approx(-log_ratio(counts, 50, 0))
    assert log_ratio(counts, 0, 50) == pytest.approx(log_ratio(counts[::-1], 0, -50))


def decided(elo: float, draw: random.Random) -> bool:
    """Whether a test of 0 against 100 Elo is for the bot of a strength; a third are draws."""
    sprt, number = Sprt("new", 0, 100), 0
    while not sprt.is_decided:
        number += 1
        for game in (1, 2):
            share = draw.random()
            result = SeatResult.DRAW if share < 1 / 3 else SeatResult.LOSS
            if share > 1 - (expected(elo) - 1 / 6):
                result = SeatResult.WIN
            sprt.end(outcome(f"r{number:04}-t{game:03}", result))
    return sprt.ratio > 0


def test_decisions_are_seldom_wrong() -> None:
    """Of tests between the hypotheses that they compare, few are wrong, as 5 % of errors allow."""
    draw = random.Random(7)
    assert sum(decided(100, draw) for _ in range(RUNS)) >= RUNS - 5
    assert sum(decided(0, draw) for _ in range(RUNS)) <= 5


def test_pairs_count_in_their_order() -> None:
    sprt = Sprt("new", 0, 20)
    for name in ("r0002-t001", "r0002-t002", "r0001-t002"):
        sprt.end(outcome(name, SeatResult.WIN))
        assert sprt.counts == [0] * 5
    sprt.end(outcome("r0001-t001", SeatResult.DRAW))
    assert sprt.counts == [0, 0, 0, 1, 1] and sprt.ratio > 0


@pytest.fixture(scope="module")
def tested(program: Path, small_bots: Served, tmp_path_factory: pytest.TempPathFactory) -> Path:
    """A test of fleer against lazy, which is far weaker."""
    folder = tmp_path_factory.mktemp("sprt") / "results"
    words = ["--elo0", "0", "--elo1", "300", "--seed", "4", "--timeout", "5000", "--at-once", "4"]
    bots = [small_bots.url("fleer"), small_bots.url("lazy")]
    for _ in range(2):  # the second plays nothing
        ran = run_ladder("sprt", folder, *bots, *words, "--program", program)
        assert (ran.returncode, complaints(ran.stderr)) == (0, "")
        first, second = ran.stdout.splitlines()
        assert "fleer is better than lazy: 300 Elo, and not 0" in first, ran.stdout
        assert f"(from -{BOUND:.2f} to {BOUND:.2f})" in first
        assert second.startswith("ladder: pairs by score: 0: ")
    return folder


def test_pairs_have_one_start_with_the_seats_changed(program: Path, tested: Path) -> None:
    def snakes(name: str) -> list[dict[str, object]]:
        line = (tested / "games" / f"{name}.jsonl").read_text().splitlines()[2]
        found: list[dict[str, object]] = json.loads(line)["snakes"]
        return found

    one, two = snakes("r0001-t001"), snakes("r0001-t002")
    assert [it["id"] for it in one] == [it["id"] for it in reversed(two)]
    assert [(it["x"], it["y"]) for it in one] == [(it["x"], it["y"]) for it in two]
    checked = run_ladder("check", tested, "--program", program)
    assert checked.returncode == 0 and checked.stdout.endswith("games agree\n")


def test_gauntlet_is_of_one_bot_against_each_other(
    program: Path, small_bots: Served, tmp_path: Path
) -> None:
    bots = [small_bots.url(name) for name in ("fleer", "seeker", "lazy")]
    words: list[str | Path] = ["--turns", "20", "--timeout", "5000", "--program", program]
    ran = run_ladder("gauntlet", tmp_path / "results", *bots, *words)
    assert (ran.returncode, complaints(ran.stderr)) == (0, "")
    played = {line.split()[0]: line.split()[1] for line in ran.stdout.splitlines()[1:]}
    assert played == {"fleer": "4", "seeker": "2", "lazy": "2"}
