"""Runs the examples of docs/LADDER.md and docs/LADDER_REFERENCE.md."""

from __future__ import annotations

import re
import subprocess
import sys
from pathlib import Path

from served import HERE, Served, free_port, run_ladder

from arena_ladder.game.config import read_config
from arena_ladder.net.misses import Miss

ROOT = Path(__file__).resolve().parent.parent.parent
PAGE = (ROOT / "docs" / "LADDER.md").read_text()
REFERENCE = (ROOT / "docs" / "LADDER_REFERENCE.md").read_text()


def test_page_has_each_cause_of_a_missed_move() -> None:
    part = PAGE.split("\n## Missed moves\n")[1].split("\n## ")[0]
    assert re.findall(r"^\| `(\w+)` \|", part, re.MULTILINE) == list(Miss)


def test_page_of_the_ladder_shows_each_cause() -> None:
    text = (ROOT / "ladder/src/arena_ladder/page/static/links.js").read_text()
    listed = text.split("const causes = [")[1].split("]")[0]
    assert re.findall(r"'(\w+)'", listed) == list(Miss)


def test_simulator_prints_what_the_page_says(program: Path) -> None:
    ran = subprocess.run(
        [ROOT / "examples/simulator.py", program], capture_output=True, text=True, cwd="/"
    )
    assert ran.stderr == ""
    assert f"prints `{ran.stdout.strip()}`" in REFERENCE


IS_BUSY = re.compile("ladder: (the ladder itself was late in|[a-z]+ answers in) ")


def without_times(text: str) -> str:
    return re.sub(r"[0-9.]+ (s|a second|ms)\b", r"TIME \1", text)


def test_five_bots_give_the_standings_of_the_page(
    program: Path, small_bots: Served, tmp_path: Path
) -> None:
    """Games, results, turns and ratings are those of LADDER.md.

    Times are not compared, nor what the ladder says of a busy machine.
    """
    example = ROOT / "ladder" / "five.toml"
    bots = read_config(example).bots
    text = example.read_text().replace(
        "http://127.0.0.1:8001", f"http://127.0.0.1:{small_bots.port}"
    )
    config = tmp_path / "five.toml"
    config.write_text("timeout = 5000\n" + text.replace("out/five", str(tmp_path / "five")))
    ran = run_ladder("play", config, "--program", program)
    assert ran.returncode == 0, ran.stderr
    summary = [it for it in without_times(ran.stdout).splitlines() if not IS_BUSY.match(it)]
    assert len(summary) == 3, summary
    assert all(f"    {line}\n" in without_times(PAGE) for line in summary), summary
    table = run_ladder("standings", tmp_path / "five").stdout.splitlines()
    assert table[len(bots) + 1] == "" and f"    {table[-1]}\n" in PAGE
    for line in table[1 : len(bots) + 1]:
        numbers = " +".join(line.split()[:7])
        assert re.search(rf"^    {numbers} ", PAGE, re.MULTILINE), line


def test_small_bots_are_served_while_a_command_runs() -> None:
    """The command reaches them; its status is that of the whole."""
    port = free_port()
    ask = (
        "import http.client, sys\n"
        f"bots = http.client.HTTPConnection('127.0.0.1', {port})\n"
        "bots.request('GET', '/fleer/')\n"
        "print(bots.getresponse().status)\n"
        "sys.exit(7)\n"
    )
    words: list[str | Path] = [HERE.parent / "bots" / "serve", "--port", str(port)]
    ran = subprocess.run([*words, sys.executable, "-c", ask], capture_output=True, text=True)
    assert (ran.returncode, ran.stdout) == (7, "200\n")
    said = f"serve: seeker, fleer, hungry, careful, lazy at http://127.0.0.1:{port}/NAME, "
    assert ran.stderr == f"{said}while {sys.executable} -c runs\n"
