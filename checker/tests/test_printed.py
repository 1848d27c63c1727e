"""Tests of what arena-check prints."""
import json
import os
import subprocess
import sys
from typing import Any

import pytest
from program import ROOT

CHECK = ROOT / "checker/arena-check"

PLAN = '{"games":[{"game":"a","quota":64}],"version":5}'
NEW: dict[str, Any] = {
    **{"game": "a", "do": "new", "mode": "solo", "width": 11, "height": 7, "food": []},
    "snakes": [{"id": name, "x": at, "y": at} for at, name in enumerate("stu")],
}


def changed(**members: Any) -> str:
    """A `new` line with other members."""
    return json.dumps({**NEW, **members}, ensure_ascii=False)


def snake(**members: Any) -> str:
    """A `new` line whose third snake has other members."""
    return changed(snakes=[*NEW["snakes"][:2], {**NEW["snakes"][2], **members}])


# A line, and what arena-check says of it after "line 2".
TEXTS = [
    (snake(x=11), ": snakes[2].x: 11 is not below width 11 (G1 command)"),
    (snake(y=8), ": snakes[2].y: 8 is not below height 7 (G1 command)"),
    (snake(x=25), ": snakes[2].x: 25 is not a whole number from 0 to 24 (G1 command)"),
    (snake(id="s"), ': snakes[2].id: "s" is that of snakes[0].id too (G1 command)'),
    (snake(x=1, y=1), ": snakes[2]: x 1, y 1 is that of snakes[1] too (G1 command)"),
    (snake(id="é" * 33), ": snakes[2].id: 66 bytes are not a text of 1 to 64 bytes (G1 command)"),
    (changed(width=2), ": width: 2 is not a whole number from 3 to 25 (G1 command)"),
    (changed(snakes=[]), ": snakes: 0 items are not a list of 1 to 8 (G1 command)"),
    (changed(hazards=3), ": hazards: 3 is not a list of at most 2500 (G1 command)"),
    (
        changed(mode="torus"),
        ': mode: "torus" is not "standard", "solo", "constrictor" or "wrapped" (G1 command)',
    ),
    (
        '{"game":"a","do":"turn","at":1.0}',
        ": at: 1.0 is not a whole number from 0 to 10000 (G1 command)",
    ),
    ('{"game":"a","do":"move"}', ": moves: is missing; it has to be an object (G1 command)"),
    (
        '{"game":"a","do":"turn","at":-0}',
        ": at: -0 is not a whole number from 0 to 10000 (G1 command)",
    ),
    ('{"game":"b","do":"show"}', ': game: "b" is no open game (L2 game)'),
    (
        '{"game":"a","do":"show"',
        ", column 24: the line ends too early; a line has to be a whole object (L1 json)",
    ),
    ('{"game" "a"}', ", column 9: expecting ':' delimiter (L1 json)"),
    ('{"game":"a","do":"show" ,}', ", column 25: there is a comma too much before } (L1 json)"),
    ("{'game':1}", ", column 2: ' is no quotation mark of JSON, which has only \" (L1 json)"),
    (
        '\ufeff{"game":"a"}',
        ", column 1: a byte order mark stands here; save the file as UTF-8 without one (L1 json)",
    ),
    (
        "{}{}",
        ", column 3: the JSON text has ended before; each object has a line of its own (L1 json)",
    ),
    ('{"game":"a","do":1e999}', ", column 18: 1e999 is no number that is read (L1 json)"),
    ('{"game":"\\ud800"}', ", column 10: \\ud800 is half of a pair (L1 json)"),
    ("[1]", ": [1] is no object (L1 json)"),
    (" " * 65_537, ": 65537 bytes are more than 65536 (L3 long)"),
    (
        '{"game":"b","do":"admit","quota":15}',
        ": quota: 15 is not a whole number from 16 to 16777216 (A1 admit)",
    ),
    ('{"game":"a","do":"admit","quota":16}', ': game: "a" is open (A2 open)'),
    ('{"game":"b","do":"leave"}', ': game: "b" is no open game (A5 none)'),
]

# A line, and what arena-check notes of it after "line 3", where line 2 is NEW.
NOTES = [
    (
        '{"game":"a","do":"move","moves":{"s":"north"}}',
        'moves.s: "north" is not up, down, left or right: the snake goes straight on',
    ),
    (
        '{"game":"a","do":"move","moves":{"v":"up","t":"up"}}',
        "moves.v: no snake of the game has this id",
    ),
    ('{"game":"a","do":"show","at":3}', "at: no such member is read here"),
]

# The bytes of a file without a plan, and what arena-check says of it.
NO_PLANS = [
    (b"", "line 1, column 1: the line is empty (P1 plan)"),
    (b"\xff\xfe{", "line 1, column 1: byte 0xff is no UTF-8; the file looks like UTF-16 (P1 plan)"),
    (changed().encode(), "line 1: games: is missing; it has to be a list of at most 64"),
]


def run_check(text: str, *words: str) -> tuple[int, list[str], str]:
    ran = subprocess.run([CHECK, "-", *words], input=text.encode(), capture_output=True)
    return ran.returncode, ran.stdout.decode().splitlines(), ran.stderr.decode()


def shortened(text: object) -> str:
    """The name of a test by its text."""
    return str(text)[:40]


@pytest.mark.parametrize("line, wanted", TEXTS, ids=shortened)
def test_the_text_of_each_fault(line: str, wanted: str) -> None:
    status, printed, _ = run_check(f"{PLAN}\n{line}\n")
    assert (status, printed[0]) == (1, f"-: line 2{wanted}")


def test_a_good_file() -> None:
    games = [{"game": f"g{at}", "quota": 64} for at in range(28)]
    status, printed, errors = run_check(json.dumps({"games": games}) + "\n")
    assert (status, errors) == (0, "")
    assert printed[-1] == "-: serve it with --blocks 168 or more; without the option there are 64"


@pytest.mark.parametrize("line, wanted", NOTES, ids=shortened)
def test_the_text_of_each_note(line: str, wanted: str) -> None:
    status, printed, _ = run_check(f"{PLAN}\n{changed()}\n{line}\n")
    assert (status, printed[0]) == (0, f"-: line 3: note: {wanted}")
    assert len(printed) == 4


def test_what_needs_a_later_version() -> None:
    plan = PLAN.replace(',"version":5', ',"verison":5')
    lines = [plan, changed(mode="wrapped"), '{"game":"b","do":"admit","quota":64}']
    _, printed, _ = run_check("\n".join(lines))
    wanted = [
        'line 2: mode: "wrapped" is not "standard", "solo" or "constrictor"; that mode is for '
        'a plan with "version":2, 3 or 5 (G1 command)',
        'line 3: game: "b" is no open game; "admit" is for a plan with "version":3 or 5 '
        "(L2 game)",
        "line 1: note: verison: no such member is read here",
    ]
    assert printed[:3] == [f"-: {line}" for line in wanted]


@pytest.mark.parametrize("text, why", NO_PLANS, ids=("empty", "UTF-16", "a command"))
def test_what_stands_for_a_plan(text: str, why: str) -> None:
    ran = subprocess.run([CHECK, "-"], input=text, capture_output=True)
    printed = ran.stdout.decode().splitlines()
    assert printed[0].startswith(f"-: {why}"), printed[0]
    assert "the first line has to be the plan, such as" in printed[-1]


def test_a_refused_plan() -> None:
    status, printed, _ = run_check('{"games":[{"game":"a","quota":8}]}\n{oops')
    wanted = "line 1: games[0].quota: 8 is not a whole number from 16 to 16777216 (P2 plan)"
    assert (status, printed[0], len(printed)) == (1, f"-: {wanted}", 2)


def test_json() -> None:
    status, printed, _ = run_check(f"{PLAN}\n{snake(x=11)}\n", "--json")
    found = json.loads("\n".join(printed))
    assert (status, found["blocks"], found["refused_lines"]) == (1, 6, 1)
    wanted: dict[str, Any] = {
        "line": 2,
        "column": None,
        "path": "snakes[2].x",
        "code": "G1",
        "why": "command",
    }
    assert found["refusals"] == [{**wanted, "message": "11 is not below width 11"}]


def test_a_file_that_cannot_be_read() -> None:
    ran = subprocess.run([CHECK, "no such file"], capture_output=True, text=True)
    assert (ran.returncode, ran.stdout) == (2, "")
    assert ran.stderr == "arena-check: no such file: No such file or directory\n"


def test_a_python_without_jsonschema_hands_over_to_debians() -> None:
    """`-S` leaves out all installed packages."""
    words = [sys.executable, "-S", str(CHECK), "examples/first_file.jsonl"]
    ran = subprocess.run(words, cwd=ROOT, capture_output=True, text=True)
    assert (ran.returncode, ran.stderr) == (1, "")
    assert ran.stdout.endswith(
        "serve it with --blocks 6 or more; without the option there are 64\n"
    )
    second = {**os.environ, "ARENA_CHECK_IS_SECOND": "1"}
    ran = subprocess.run(words, cwd=ROOT, capture_output=True, text=True, env=second)
    assert (ran.returncode, ran.stdout) == (1, "")
    assert "apt-get install python3-jsonschema" in ran.stderr
    assert "pip install jsonschema" in ran.stderr
