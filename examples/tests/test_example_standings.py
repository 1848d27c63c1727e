"""Tests of standings.py."""
import json

import standings


def board(over, *snakes, turn=9):
    """A final line of a board with these snakes, each an id, its cause, and the turn in which it
    went out."""
    members = [{"id": id, "cause": cause, "out": out} for id, cause, out in snakes]
    board = {"over": over, "turn": turn, "snakes": members}
    return json.dumps({"final": True, "game": "g", "board": board})


def test_draws_go_before_turns():
    lines = [
        board(True, ("x", "head-collision", 1), ("z", "head-collision", 1), turn=1),
        board(True, ("w", None, None), ("y", "wall-collision", 9)),
    ]
    assert [row.split()[0] for row in standings.report(lines).splitlines()] == [
        "snake",
        "w",
        "x",
        "z",
        "y",
    ]


def test_nobody_wins_a_game_that_is_not_over():
    rows = standings.report(
        [board(False, ("a", None, None), ("b", "wall-collision", 2))]
    ).splitlines()
    assert [row.split()[:5] for row in rows[1:]] == [
        ["a", "1", "0", "1", "0"],
        ["b", "1", "0", "0", "1"],
    ]


def test_the_table_of_a_few_games():
    lines = [
        board(True, ("a", None, None), ("b", "wall-collision", 9)),
        board(True, ("a", "head-collision", 4), ("b", "head-collision", 4), turn=4),
        board(False, ("a", None, None), ("c", None, None)),
        board(
            True,
            ("a", "wall-collision", 3),
            ("b", "wall-collision", 7),
            ("c", "out-of-health", 7),
            turn=7,
        ),
        '{"game":"g","no":"G4","seq":2,"why":"over"}',
        '{"line":3,"no":"L1","why":"json"}',
        '{"board":null,"charge":0,"final":true,"game":"h"}',
        '{"board":{},"charge":32,"do":"show","game":"g","seq":3}',
    ]
    met = "head-collision 1"
    assert standings.report(lines).splitlines() == [
        "snake  games  wins  draws  losses  turns lived  went out by",
        f"a      4      1     2      1       25           {met}, wall-collision 1",
        f"b      3      0     2      1       20           {met}, wall-collision 2",
        "c      2      0     2      0       16           out-of-health 1",
        "refused: G4 over 1, L1 json 1",
        "no final board: h",
    ]


def test_a_game_of_one_snake_is_not_won():
    rows = standings.report([board(True, ("a", "wall-collision", 2), turn=2)]).splitlines()
    assert rows[1].split() == ["a", "1", "0", "0", "0", "2", "wall-collision", "1"]
