"""Tests of round_robin.py: its bots, and the games that it writes."""
import json

import pytest
import round_robin


def test_comments_are_left_out():
    assert round_robin.moves_of("# a bot\nup down # and\n\nleft") == ["up", "down", "left"]


def test_other_words_are_refused():
    with pytest.raises(ValueError, match="'north' is none of"):
        round_robin.moves_of("up north")


def test_a_file_without_moves_is_refused():
    with pytest.raises(ValueError, match="no move"):
        round_robin.moves_of("# up\n")


def test_bots_go_by_the_names_of_their_files(tmp_path):
    paths = [tmp_path / name for name in ("a/one.moves", "a/two.moves", "b/one.moves")]
    for path in paths:
        path.parent.mkdir(exist_ok=True)
        path.write_text("up")
    assert round_robin.read_bots(paths[:2]) == {"one": ["up"], "two": ["up"]}
    with pytest.raises(ValueError, match="two bots are named one"):
        round_robin.read_bots(paths)


def lines(names, turns=5, seed=1):
    bots = {name: ["up", "left", "down"] for name in names}
    return [json.loads(text) for text in round_robin.command_lines(bots, turns, seed)]


def test_each_two_meet_once_and_start_on_both_sides():
    plan, *rest = lines("abcd")
    games = [tuple(snake["id"] for snake in it["snakes"]) for it in rest if it["do"] == "new"]
    assert sorted(tuple(sorted(it)) for it in games) == [
        ("a", "b"),
        ("a", "c"),
        ("a", "d"),
        ("b", "c"),
        ("b", "d"),
        ("c", "d"),
    ]
    assert [row["game"] for row in plan["games"]] == ["-".join(it) for it in games]
    for name in "abcd":
        assert {it.index(name) for it in games if name in it} == {0, 1}


def test_moves_begin_again_and_games_are_interleaved():
    moves = [it for it in lines("abc") if it.get("do") == "move"]
    assert [it["moves"]["a"] for it in moves if it["game"] == "a-b"] == [
        "up",
        "left",
        "down",
        "up",
        "left",
    ]
    assert [it["game"] for it in moves[:6]] == ["a-b", "c-a", "b-c"] * 2


def test_a_seed_gives_one_file():
    assert lines("ab", seed=7) == lines("ab", seed=7)
    assert lines("ab", seed=7) != lines("ab", seed=8)


def test_one_bot_has_no_game():
    with pytest.raises(ValueError, match="a round wants two bots or more"):
        lines("a")


def test_more_games_than_a_file_holds_are_reported():
    assert len(lines("abcdefghijkl", turns=1)[0]["games"]) == 66
    assert "needs --blocks 384 or more" in round_robin.summary(64, 5)
    assert "give it to examples/split.py" in round_robin.summary(65, 5)


def test_games_that_come_and_go_are_given_the_same_moves_and_numbers():
    bots = {name: ["up", "left", "down"] for name in "abcd"}
    plan, *rest = lines("abcd")
    open_plan, *open_rest = map(json.loads, round_robin.command_lines(bots, 5, 1, most_open=4))
    assert open_plan == {"games": [], "version": 3}
    names = [row["game"] for row in plan["games"]]
    for word in ("admit", "leave"):
        assert [it["game"] for it in open_rest if it["do"] == word] == names
    for name in names:
        own = [it for it in open_rest if it["game"] == name]
        assert (own[0]["do"], own[-1]["do"]) == ("admit", "leave")
        assert own[1:-1] == [it for it in rest if it["game"] == name]
    open_now = most = 0
    for it in open_rest:
        open_now += (it["do"] == "admit") - (it["do"] == "leave")
        most = max(most, open_now)
    assert (open_now, most) == (0, 4)
    assert (
        round_robin.summary(500, 150, 64)
        == "500 games of 150 moves, 64 at once: arena serve needs --blocks 384 or more"
    )
    assert "--blocks 36 or more" in round_robin.summary(6, 5, 64)


def test_rounds_change_sides():
    games = {"a-b": ("a", "b"), "b-a-2": ("b", "a"), "a-b-3": ("a", "b")}
    assert round_robin.named_games("ab", 3) == games


def test_two_games_of_one_name_are_refused():
    with pytest.raises(ValueError, match="two games have the same name"):
        lines(["a-b", "b", "c", "c-a"])


def test_a_game_has_a_name_of_at_most_64_bytes():
    assert len(lines(["a" * 31, "b" * 32], turns=1)) == 3
    with pytest.raises(ValueError, match="more than 64 bytes"):
        lines(["a" * 32, "b" * 32])
