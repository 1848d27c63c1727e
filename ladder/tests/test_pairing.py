"""Tests of pairings, draws and starting cells."""

from __future__ import annotations

import hashlib
from argparse import ArgumentTypeError
from collections import Counter
from itertools import combinations
from typing import Any

import pytest

from arena_ladder.game.config import Config, config_of
from arena_ladder.game.draws import Draw, words_of
from arena_ladder.game.pairing import GAME_NAME, Fixture, Part, circle, fixtures_of, orbits, part_of
from arena_ladder.game.starts import Cell, first_food, start_cells

NAMES = [f"bot{at}" for at in range(7)]


def config(**members: Any) -> Config:
    bots = [{"name": name, "url": "http://127.0.0.1:1"} for name in NAMES]
    return config_of({"folder": "x", "bot": bots, **members}, "here")


def met(fixtures: list[Fixture]) -> Counter[frozenset[str]]:
    return Counter(frozenset(fixture.bots) for fixture in fixtures)


def test_round_robin_has_each_two_once_a_round() -> None:
    fixtures = fixtures_of(config(rounds=3))
    assert met(fixtures) == {frozenset(pair): 3 for pair in combinations(NAMES, 2)}
    assert [fixture.round for fixture in fixtures] == sorted([1, 2, 3] * 21)
    assert fixtures[22].name == "r0002-t002"


@pytest.mark.parametrize("count", range(2, 10))
def test_bots_take_turns_in_a_round_robin(count: int) -> None:
    """In each circle every bot plays once; one sits out if their number is odd."""
    pairs = [tuple(sorted(pair)) for pair in circle(count, 2)]
    assert sorted(pairs) == list(combinations(range(count), 2))
    for at in range(0, len(pairs), count // 2):
        assert len({it for pair in pairs[at : at + count // 2] for it in pair}) == count // 2 * 2


@pytest.mark.parametrize("size", range(1, 7))
def test_bots_take_turns_at_larger_tables(size: int) -> None:
    """Every table comes once; while all the shifted ones are played each bot plays as often."""
    for count in range(size, 10):
        tables = list(orbits(count, size))
        assert sorted(tuple(sorted(it)) for it in tables) == list(combinations(range(count), size))
    seated = Counter(it for table in list(orbits(7, size))[:7] for it in table)
    assert size == 7 or set(seated.values()) == {size}


def test_round_robin_of_three_has_each_three() -> None:
    expected = {frozenset(table): 1 for table in combinations(NAMES, 3)}
    assert met(fixtures_of(config(snakes=3))) == expected


@pytest.mark.parametrize(("pairing", "snakes"), [("duels", 2), ("tables", 4)])
def test_drawn_rounds_fill_tables_and_share_the_games(pairing: str, snakes: int) -> None:
    fixtures = fixtures_of(config(pairing=pairing, rounds=40))
    for number in range(1, 41):
        tables = [fixture.bots for fixture in fixtures if fixture.round == number]
        seated = [bot for table in tables for bot in table]
        assert (
            len(tables) == 7 // snakes and len(set(seated)) == len(seated) == 7 // snakes * snakes
        )
    played = Counter(bot for fixture in fixtures for bot in fixture.bots)
    assert max(played.values()) - min(played.values()) <= 1
    pairs = {frozenset(pair) for it in fixtures for pair in combinations(it.bots, 2)}
    assert len(pairs) == 21


def test_seats_and_tables_depend_on_the_seed_alone() -> None:
    fixtures = fixtures_of(config(pairing="tables", rounds=9))
    assert fixtures == fixtures_of(config(pairing="tables", rounds=12))[: len(fixtures)]
    assert fixtures != fixtures_of(config(pairing="tables", rounds=9, seed=2))
    first = Counter(fixture.bots[0] for fixture in fixtures_of(config(rounds=20)))
    assert min(first.values()) > 30  # of 60 on average


def test_parts_make_the_whole() -> None:
    whole = fixtures_of(config(rounds=2))
    parts = [fixtures_of(config(rounds=2), Part(number, 4)) for number in (1, 2, 3, 4)]
    assert sorted((it for part in parts for it in part), key=lambda it: it.name) == whole
    assert {len(part) for part in parts} == {10, 11}
    assert all(GAME_NAME.fullmatch(fixture.name) for fixture in whole)


@pytest.mark.parametrize("word", ["0/4", "5/4", "1", "1/0", "a/b", "-1/4", "1/4/2"])
def test_words_that_are_no_part(word: str) -> None:
    with pytest.raises(ArgumentTypeError, match="is not a part, such as 2/4"):
        part_of(word)
    assert part_of("2/4") == Part(2, 4)


def test_draws_are_digests_that_anybody_can_make() -> None:
    digest = hashlib.sha256(b"5/r0001-t001/3/0").digest()
    assert Draw(5, "r0001-t001", 3).number() == int.from_bytes(digest[:8], "big")
    second = hashlib.sha256(b"5/r0001-t001/3/1").digest()
    expected = [int.from_bytes(it[:4], "big") for it in (digest, second)]
    assert words_of(5, "r0001-t001", 3, 2) == expected
    assert sorted(Draw("x").shuffled(range(50))) == list(range(50)) != Draw("x").shuffled(range(50))


# The cells of the official standard map on 11 by 11.
CORNERS = {(1, 1), (1, 9), (9, 1), (9, 9)}
EDGES = {(1, 5), (5, 1), (5, 9), (9, 5)}


def test_starts_on_the_usual_board() -> None:
    """Up to four snakes start all in corners or all at edges, eight on all these cells."""
    kinds: Counter[bool] = Counter()
    for seed in range(40):
        cells = start_cells(Draw(seed), 11, 11, 4)
        assert set(cells) in (CORNERS, EDGES)
        kinds[set(cells) == CORNERS] += 1
        assert set(start_cells(Draw(seed), 11, 11, 8)) == CORNERS | EDGES
        assert len(set(start_cells(Draw(seed), 11, 11, 2))) == 2
    assert min(kinds[True], kinds[False]) > 5


def test_starts_on_other_boards_are_even_cells_apart_from_the_centre() -> None:
    cells = start_cells(Draw(1), 9, 7, 8)
    assert len(set(cells)) == 8
    assert all((x + y) % 2 == 0 and 0 <= x < 9 and 0 <= y < 7 for x, y in cells)
    assert (4, 3) not in start_cells(Draw(1), 9, 7, 31)


def test_first_food_lies_outward_of_each_head_and_in_the_centre() -> None:
    for seed in range(20):
        food = first_food(Draw(seed), 11, 11, [Cell(1, 1), Cell(1, 5), Cell(9, 9), Cell(5, 9)])
        assert food[0] in {(0, 2), (2, 0)}
        assert food[1] in {(0, 4), (0, 6)}
        assert food[2] in {(10, 8), (8, 10)}
        assert food[3] in {(4, 10), (6, 10)}
        assert food[4:] == [(5, 5)]


def test_small_boards_have_food_near_at_most_four_heads() -> None:
    heads = start_cells(Draw(3), 7, 7, 5)
    assert first_food(Draw(3), 7, 7, heads) == [(3, 3)]
    assert len(first_food(Draw(3), 7, 7, heads[:4])) == 5


def test_drawn_food_keeps_away_from_heads() -> None:
    for seed in range(20):
        food = first_food(Draw(seed), 9, 7, [Cell(2, 2), Cell(6, 4)])
        assert len(set(food)) == 2
        assert not {(2, 2), (2, 3), (1, 2), (6, 4), (6, 5), (7, 4)} & set(food)
    assert first_food(Draw(1), 3, 3, [Cell(1, 1)])[0] in {(0, 0), (0, 2), (2, 0), (2, 2)}
