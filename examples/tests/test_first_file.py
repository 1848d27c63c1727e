"""The figures of docs/FIRST_FILE.md, and its programs."""
import json
import subprocess

import cases
import pytest
import standings
from program import ROOT, run

EXAMPLES = ROOT / "examples"
CHECK = ROOT / "checker/arena-check"
BOTS = sorted((EXAMPLES / "bots").glob("*.moves"))
REFUSED_PLAN = 4  # exit status


@pytest.fixture(scope="module")
def plan():
    """The text of the command file that the guide writes."""
    words = [EXAMPLES / "round_robin.py", *BOTS]
    return subprocess.run(words, capture_output=True, text=True, check=True).stdout


@pytest.fixture(scope="module")
def transcript(plan):
    """The transcript of that file."""
    status, output, _ = run("serve", "-", "--blocks", "168", text=plan)
    assert status == 0
    return output


def section_by_game(transcript):
    """The lines of each game by its name, of a transcript in which each game has one stay."""
    return {name: lines.decode() for name, lines in cases.sections(transcript.encode())}


def test_live_bot_plays_until_its_snake_is_out(program):
    words = [EXAMPLES / "live_bot.py", program]
    ran = subprocess.run(words, capture_output=True, text=True, check=True, timeout=600)
    *replies, final = map(json.loads, ran.stdout.splitlines())
    assert [it["seq"] for it in replies] == list(range(1, len(replies) + 1))
    assert (final["board"], final["final"]) == (replies[-1]["board"], True)
    assert final["board"]["over"]
    assert len(final["board"]["snakes"][0]["body"]) > 5  # it found food


def check(*words, text=None):
    found = subprocess.run([CHECK, *words, "--json"], input=text, capture_output=True, text=True)
    return json.loads(found.stdout)


def test_arena_check_takes_the_tournament(plan):
    found = check("-", text=plan)
    assert (found["refusals"], found["games"], found["blocks"]) == ([], 28, 168)


def test_arena_check_takes_games_that_come_and_go():
    for most_open in (1, 5, 64):
        words = [EXAMPLES / "round_robin.py", "--open", str(most_open), *BOTS]
        ran = subprocess.run(words, capture_output=True, text=True, check=True)
        found = check("-", text=ran.stdout)
        assert (found["refusals"], found["games"]) == ([], 28)
        assert f"--blocks {found['blocks']} or more" in ran.stderr


def test_the_line_of_arena_check_is_that_of_the_guide():
    ran = subprocess.run(
        [CHECK, "examples/first_file.jsonl"], cwd=ROOT, capture_output=True, text=True
    )
    guide = (ROOT / "docs/FIRST_FILE.md").read_text()
    assert f"    {ran.stdout.splitlines()[0]}\n" in guide
    assert "`serve it with --blocks 6 or more`" in guide
    assert "serve it with --blocks 6 or more; " in ran.stdout


def test_one_block_less_is_refused(plan, transcript):
    assert transcript
    refused = (REFUSED_PLAN, "", "arena: plan P4\n")
    assert run("serve", "-", "--blocks", "167", text=plan) == refused


def test_the_standings_are_those_of_the_guide(transcript):
    report = standings.report(transcript.splitlines())
    guide = (ROOT / "docs/FIRST_FILE.md").read_text()
    assert len(report.splitlines()) == 1 + len(BOTS) + 1
    for text in report.splitlines():
        assert f"    {text}\n" in guide


def test_games_that_come_and_go_give_the_same_transcript(transcript):
    for most_open, blocks in ((1, "6"), (5, "30"), (64, "168")):
        words = [EXAMPLES / "round_robin.py", "--open", str(most_open), *BOTS]
        ran = subprocess.run(words, capture_output=True, text=True, check=True)
        assert f"--blocks {blocks} or more" in ran.stderr
        for workers in "14":
            seen = run("serve", "-", "--blocks", blocks, "--workers", workers, text=ran.stdout)
            assert seen == (0, transcript, "")


def test_each_game_alone_gives_its_own_lines(plan, transcript, tmp_path):
    found = section_by_game(transcript)
    assert len(found) == 28
    file = tmp_path / "file"
    file.write_text(plan)
    for game, wanted in found.items():
        assert run("alone", str(file), "--game", game) == (0, wanted, ""), game


def test_the_first_lines_of_a_file_give_the_first_replies(plan, transcript):
    whole = section_by_game(transcript)
    for count in (29, 30, 500):
        front = "".join(plan.splitlines(True)[:count])
        status, output, _ = run("serve", "-", "--blocks", "168", text=front)
        assert status == 0
        for game, lines in section_by_game(output).items():
            *replies, final = lines.splitlines()
            assert replies == whole[game].splitlines()[: len(replies)]
            boards = [it["board"] for it in map(json.loads, replies) if "board" in it]
            assert json.loads(final)["board"] == boards[-1]
