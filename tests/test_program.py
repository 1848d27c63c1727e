"""Tests of the built program, for tests/test."""
import contextlib
import itertools
import json
import os
import random
import re
import subprocess
import tempfile
from collections import Counter
from pathlib import Path

import cases
import drawn
import program
import pytest
import round_robin
import shapes
from program import ROOT, line, run, text_of

EXAMPLES = ROOT / "examples"
BOTS = sorted((EXAMPLES / "bots").glob("*.moves"))
REFUSED_PLAN = 4  # exit status
LONGEST_FILE = 16_777_216  # bytes
LARGE = 10  # rounds of many games, which are more than four megabytes
# The lines of the first file's transcript that docs/FIRST_FILE.md shows.
SHOWN = [2, 3, 5]


def tournament():
    """The text of the command file that docs/FIRST_FILE.md writes."""
    words = [EXAMPLES / "round_robin.py", *BOTS]
    return subprocess.run(words, capture_output=True, text=True, check=True).stdout


class TestStored:
    def test_each_case_gives_its_transcript(self):
        assert "first_file" in [case.name for case in cases.cases()]
        for case in cases.cases():
            for workers in ("1", "2", "4"):
                wanted = case.transcript.read_text()
                assert run(*case.words(workers)) == (0, wanted, "")

    def test_each_stay_of_each_case_is_played_alone(self):
        for case in cases.cases():
            for alone in cases.stays(case):
                assert run(*alone.words) == (0, alone.section.decode(), "")

    def test_each_case_has_a_line_that_says_what_it_is_for(self):
        assert sorted(cases.purposes()) == [case.name for case in cases.cases()]

    def test_each_transcript_belongs_to_a_case(self):
        assert {path.stem for path in EXAMPLES.glob("*.transcript")} == {
            path.stem for path in EXAMPLES.glob("*.jsonl")
        }

    def test_no_case_has_a_second_copy(self):
        files = [path for case in cases.cases() for path in (case.file, case.transcript)]
        places = {}
        for folder, folders, names in os.walk(ROOT):
            folders[:] = [name for name in folders if name not in (".git", "out")]
            for path in [Path(folder) / name for name in names]:
                if path.stat().st_size in {file.stat().st_size for file in files}:
                    places.setdefault(path.read_bytes(), []).append(path)
        for file in files:
            assert places[file.read_bytes()] == [file]

    def test_the_tutorial_shows_the_first_file_and_some_of_its_transcript(self):
        page = (ROOT / "docs/FIRST_FILE.md").read_text()
        transcript = (EXAMPLES / "first_file.transcript").read_text().splitlines()
        shown = [transcript[at] for at in SHOWN]
        for text in [*(EXAMPLES / "first_file.jsonl").read_text().splitlines(), *shown]:
            assert f"    {text}\n" in page


class TestWords:
    def test_a_word_that_is_no_utf_8_is_refused(self):
        for words in ([b"\xff"], ["serve", b"examples/\xc3"], ["alone", "-", "--game", b"\x80a"]):
            assert run(*words, text="") == (
                2,
                "",
                "arena: a word of the command line is no UTF-8\n",
            )

    def test_the_version(self):
        assert run("--version") == (0, "arena 1.1.0\n", "")
        assert run("-V") == (0, "arena 1.1.0\n", "")


def threads_at_work(wanted, *words):
    """The greatest number of threads of a run at one time. Its output is dropped. A thread that
    ends may be listed for a moment with those of the next stage. As they can be there for less than
    the time between two looks, it runs until the wanted number was seen, at most a hundred times.
    """
    most = 1
    for _ in range(100):
        started = subprocess.Popen([program.path, *words], stdout=subprocess.DEVNULL)
        while started.poll() is None:
            with contextlib.suppress(OSError):
                most = max(most, len(os.listdir(f"/proc/{started.pid}/task")))
        if most >= wanted:
            break
    return most


def processor_time(*words):
    """The processor time of a run, whose output is dropped."""
    before = os.times()
    subprocess.run([program.path, *words], stdout=subprocess.DEVNULL, check=True)
    now = os.times()
    return now.children_user + now.children_system - before.children_user - before.children_system


class TestUsage:
    """The table of docs/USAGE.md has the commands and the options that there are."""

    @pytest.fixture(autouse=True)
    def read_table(self):
        text = (ROOT / "docs/USAGE.md").read_text()
        part = text.split("\n| word | meaning | if left out |\n|---|---|---|\n")[1]
        rows = [row.strip("|").split("|") for row in part.split("\n\n")[0].splitlines()]
        self.rows = [[cell.strip() for cell in row] for row in rows]

    def shown(self, heading, *words):
        """The lines below that heading of a help text."""
        status, output, errors = run(*words, "--help")
        assert (status, errors) == (0, "")
        return output.split(f"\n{heading}:\n")[1].split("\n\n")[0].splitlines()

    def test_the_commands(self):
        named = {re.match("`([a-z]+)", row[0])[1] for row in self.rows if row[0][1].islower()}
        found = {line.split()[0] for line in self.shown("Commands")}
        assert found == named | {"help"}

    def options(self, command):
        """The options of a command, by the table, and their defaults."""
        found = {"--help": ""}
        for word, meaning, otherwise in self.rows:
            is_own = word.startswith(f"`{command} ")
            of_all = word.startswith("`--") and not re.match("only of", meaning)
            if is_own or of_all or re.match(f"only of `{command}`", meaning):
                names = re.findall("--[a-z]+", word)
                found.update({name: otherwise for name in names if name != "--version"})
        return found

    def test_the_options_of_each_command(self):
        for command in ("serve", "alone", "live"):
            lines = self.shown("Options", command)
            found = {re.search("--[a-z]+", line)[0]: line for line in lines}
            wanted = self.options(command)
            assert set(found) == set(wanted)
            for name, otherwise in wanted.items():
                default = f"[default: {otherwise}]" if otherwise.isdigit() else ""
                assert ("default" in found[name]) == (default != "")
                assert default in found[name]

    def test_the_options_without_a_command(self):
        found = {re.search("--[a-z]+", line)[0] for line in self.shown("Options")}
        assert found == {"--help", "--version"}


class TestMemory:
    """The memory that docs/USAGE.md gives for the longest file of `show` lines."""

    def test_the_longest_file_of_shows(self):
        usage = " ".join((ROOT / "docs/USAGE.md").read_text().split())
        most = int(re.search("for at most ([0-9]+) MB of memory", usage)[1])
        head = (EXAMPLES / "first_file.jsonl").read_text().splitlines()[:2]
        show = line(game="a", do="show") + "\n"
        text = text_of(head)
        text += show * ((LONGEST_FILE - len(text)) // len(show))
        with tempfile.TemporaryFile() as file:
            file.write(text.encode())
            file.seek(0)
            words = [program.path, "serve", "-"]
            with subprocess.Popen(words, stdin=file, stdout=subprocess.PIPE) as started:
                # All memory is allocated before the first byte is written.
                first = started.stdout.read(1)
                memory = program.peak_memory(started.pid)
                started.kill()
        assert first == b"{"
        assert memory < most * 1_000_000


class TestRequest:
    """Command lines, what they do, and their statuses."""

    def test_without_a_number_there_are_64_blocks(self):
        for count, wanted in ((10, (0, "")), (11, (4, "arena: plan P4\n"))):
            plan = line(games=[{"game": f"g{game}", "quota": 64} for game in range(count)])
            for words in ((), ("serve", "-"), ("serve", "-", "--workers", "1"), ("live",)):
                status, output, errors = run(*words, text=plan)
                assert (status, errors) == wanted
                assert output.count("final") == (count if status == 0 else 0)

    def test_help_that_cannot_be_written(self):
        for words in (["--help"], ["serve", "--help"], ["live", "--help"], ["--version"]):
            with open("/dev/full", "wb") as full:
                ran = program.run_bytes(*words, stdout=full)
                assert (ran[0], ran[2]) == (6, b"arena: flush failed\n")

    def test_errors_that_cannot_be_written(self):
        for words, status in ((["play"], 2), (["serve", "no such file"], 3)):
            with open("/dev/full", "wb") as full:
                assert program.run_bytes(*words, stderr=full) == (status, b"", None)

    @pytest.mark.parametrize("rounds", [2, LARGE])
    def test_each_worker_is_a_thread(self, rounds):
        with tempfile.NamedTemporaryFile("w", suffix=".jsonl") as file:
            file.write("\n".join(shapes.many_games(rounds)))
            file.flush()
            assert rounds < LARGE or file.tell() > 4_000_000
            more = ["--blocks", shapes.BLOCKS]
            for workers in range(1, 5):
                words = ["serve", file.name, "--workers", str(workers), *more]
                # At most the first thread, and those of two stages.
                most = 2 * workers + 1 if workers > 1 else 1
                assert workers <= threads_at_work(workers, *words) <= most
            assert 2 <= threads_at_work(2, "serve", file.name, *more) <= 5
            assert threads_at_work(1, "alone", file.name, "--game", "g0") == 1

    def test_four_workers_do_the_work_once(self):
        """Four threads take at most twice the processor time of one (1.2 is usual)."""
        with tempfile.NamedTemporaryFile("w", suffix=".jsonl") as file:
            file.write("\n".join(shapes.many_games(LARGE)))
            file.flush()
            words = ["serve", file.name, "--blocks", shapes.BLOCKS, "--workers"]
            alone, shared = (
                min(processor_time(*words, workers) for _ in range(3)) for workers in "14"
            )
        assert 0 < shared < 2 * alone

    def test_a_stay_of_the_longest_file(self):
        commands = [line(game="a", do="show"), line(game="b", do="show")]
        rows = [{"game": name, "quota": 64} for name in "ab"]
        text = "\n".join([line(games=rows), *commands, ""]).ljust(LONGEST_FILE, "\n")
        section = run("alone", "-", "--game", "b", text="\n".join([line(games=rows), *commands]))
        assert (section[0], section[1].count("\n")) == (0, 2)
        with tempfile.NamedTemporaryFile("w") as file:
            file.write(text)
            file.flush()
            assert run("alone", file.name, "--game", "b") == section
            assert run("alone", "-", "--game", "b", text=text) == section
            file.write("\n")
            file.flush()
            too_long = (3, "", "arena: file too long\n")
            assert run("alone", file.name, "--game", "b") == too_long


def bytes_of(board):
    """The charge of a board's record, by docs/USAGE.md."""
    snakes = sum(
        8 + len(snake["id"].encode()) + 2 * len(snake["body"]) for snake in board["snakes"]
    )
    return (11 + 2 * len(board["food"]) + snakes + 15) // 16 * 16


class TestBlocks:
    def test_a_record_is_charged_what_the_page_tells(self):
        _, transcript, _ = run("serve", "-", "--blocks", "168", text=tournament())
        charges, sizes = {}, set()
        for reply in map(json.loads, transcript.splitlines()):
            if reply.get("do") in ("new", "move"):
                size, game = bytes_of(reply["board"]), reply["game"]
                sizes.add(size)
                charges[game] = charges.get(game, 0) + size
                assert reply["charge"] == charges[game]
        assert (len(charges), min(sizes), max(sizes)) == (28, 64, 96)

    def test_the_table_of_blocks(self):
        for games, quota, blocks in [
            (1, 16, 6),
            (1, 1_835_007, 6),
            (1, 1_835_008, 7),
            (1, 3_670_015, 7),
            (1, 16_777_216, 15),
            (10, 1_835_007, 60),
            (10, 3_670_015, 70),
            (10, 16_777_216, 150),
            (28, 1_835_007, 168),
            (28, 3_670_015, 196),
            (28, 16_777_216, 420),
            (64, 1_835_007, 384),
            (64, 3_670_015, 448),
            (64, 16_777_216, 960),
        ]:
            plan = line(games=[{"game": f"g{at}", "quota": quota} for at in range(games)])
            assert round_robin.blocks_for(games, quota) == blocks
            assert run("serve", "-", "--blocks", str(blocks), text=plan)[0] == 0
            assert run("serve", "-", "--blocks", str(blocks - 1), text=plan)[0] == REFUSED_PLAN


# The first board of a solo game of one snake, as the program writes it.
A0 = (
    '{"food":[],"food_chance":0,"height":5,"min_food":0,"mode":"solo","over":false,'
    '"snakes":[{"body":[{"x":1,"y":1},{"x":1,"y":1},{"x":1,"y":1}],"by":null,"cause":null,'
    '"health":100,"id":"s","out":null}],"turn":0,"width":5}'
)
PLAN = '{"games":[{"game":"a","quota":64}],"version":3}'
NEW = (
    '{"game":"b","do":"new","mode":"solo","width":5,"height":5,"snakes":[{"id":"s","x":1,"y":1}],'
    '"food":[],"min_food":0,"food_chance":0}'
)
# Two stays of one name, an admission that fits once another game has left, and five refusals.
STAYS = [
    PLAN,
    '{"game":"b","do":"admit","quota":64}',
    '{"game":"c","do":"admit","quota":64}',
    NEW,
    '{"game":"b","do":"leave"}',
    '{"game":"b","do":"show"}',
    '{"game":"c","do":"admit","quota":64}',
    '{"game":"c","do":"show"}',
    '{"game":"c","do":"admit","quota":64}',
    '{"game":"d","do":"admit","quota":15}',
    '{"game":"z","do":"leave"}',
    '{"game":"c","do":"leave"}',
    '{"game":"b","do":"admit","quota":64}',
    '{"game":"b","do":"show"}',
]
# The lines of each stay, and the stray lines.
STAY_A = ['{"board":null,"charge":0,"final":true,"game":"a"}']
STAY_B = [
    '{"board":%s,"charge":32,"do":"new","game":"b","seq":1}' % A0,
    '{"board":%s,"charge":32,"final":true,"game":"b"}' % A0,
]
STAY_C = [
    '{"game":"c","no":"G2","seq":1,"why":"none"}',
    '{"board":null,"charge":0,"final":true,"game":"c"}',
]
SECOND_STAY_B = [
    '{"game":"b","no":"G2","seq":1,"why":"none"}',
    '{"board":null,"charge":0,"final":true,"game":"b"}',
]
STRAYS = [
    '{"line":3,"no":"A4","why":"pool"}',
    '{"line":6,"no":"L2","why":"game"}',
    '{"line":9,"no":"A2","why":"open"}',
    '{"line":10,"no":"A1","why":"admit"}',
    '{"line":11,"no":"A5","why":"none"}',
]
NO_SUCH_GAME = (4, "", "arena: no such game\n")


class TestRules:
    def test_two_heads_meet_on_food(self):
        """Both snakes are fed before they collide, and the game is over."""
        ways = ({"a": "up", "b": "up"}, {"a": "right", "b": "left"}, {"a": "right", "b": "left"})
        snakes = [{"id": "a", "x": 0, "y": 1}, {"id": "b", "x": 4, "y": 1}]
        new = {"mode": "standard", "width": 5, "height": 5, "snakes": snakes, "min_food": 0}
        lines = [
            shapes.plan(["g"], 4096),
            line(game="g", do="new", food_chance=0, food=[{"x": 2, "y": 2}], **new),
        ]
        lines += [line(game="g", do="move", moves=way) for way in ways]
        status, transcript, errors = run("serve", "-", text=text_of(lines))
        assert (status, errors) == (0, "")
        board = json.loads(transcript.splitlines()[-1])["board"]
        assert (board["turn"], board["over"], board["food"]) == (3, True, [])
        cells = ([(2, 2), (1, 2), (0, 2), (0, 2)], [(2, 2), (3, 2), (4, 2), (4, 2)])
        for snake, body, by in zip(board["snakes"], cells, ("b", "a")):
            assert [(cell["x"], cell["y"]) for cell in snake["body"]] == body
            end = (snake["health"], snake["cause"], snake["by"], snake["out"])
            assert end == (100, "head-collision", by, 3)


class TestStays:
    def served_as(self, lines, blocks, wanted):
        """Serves the lines with 1 to 4 workers."""
        for workers in "1234":
            seen = run(
                "serve", "-", "--workers", workers, "--blocks", str(blocks), text=text_of(lines)
            )
            assert seen == (0, text_of(wanted), "")

    def alone(self, stay, *words, blocks="12", game="b", lines=STAYS):
        return run(
            "alone",
            "-",
            "--game",
            game,
            "--stay",
            stay,
            "--blocks",
            blocks,
            *words,
            text=text_of(lines),
        )

    def test_games_come_and_go(self):
        self.served_as(STAYS, 12, [*STAY_A, *STAY_B, *STAY_C, *SECOND_STAY_B, *STRAYS])

    def test_each_stay_is_its_cut(self):
        for game, stay, own, wanted in (
            ("a", "1", [], STAY_A),
            ("b", "1", [STAYS[3]], STAY_B),
            ("c", "1", [STAYS[7]], STAY_C),
            ("b", "2", [STAYS[13]], SECOND_STAY_B),
        ):
            assert self.alone(stay, game=game) == (0, text_of(wanted), "")
            cut = ['{"games":[{"game":"%s","quota":64}],"version":3}' % game, *own]
            self.served_as(cut, 12, wanted)
            self.served_as(cut, 6, wanted)
            assert self.alone("1", game=game, lines=cut, blocks="6") == (0, text_of(wanted), "")
            assert self.alone("2", game=game, lines=cut, blocks="6") == NO_SUCH_GAME

    def test_the_number_of_a_stay(self):
        first, last = 1, 2**32 - 1
        for stay in (3, 4, 65_537, last):
            assert self.alone(str(stay)) == NO_SUCH_GAME, stay
        for game in "dz":
            assert self.alone(str(first), game=game) == NO_SUCH_GAME
        for stay in ("0", "-1", str(last + 1), str(2**64 + 1), "1.0", "x", ""):
            status, output, errors = self.alone(stay)
            assert (status, output) == (2, ""), stay
            assert errors.startswith("error: "), errors
        for words in (
            ["serve", "-", "--stay", "1"],
            ["alone", "-", "--stay", "1"],
            ["alone", "-", "--game", "b", "--stay"],
            ["alone", "-", "--game", "b", "--stay", "1", "--stay", "1"],
        ):
            assert run(*words, text=text_of(STAYS))[:2] == (2, ""), words

    def test_without_a_number_the_first_stay_is_played(self):
        seen = run("alone", "-", "--game", "b", "--blocks", "12", text=text_of(STAYS))
        assert seen == (0, text_of(STAY_B), "")

    def test_in_versions_1_and_2_a_game_has_one_stay(self):
        for version in (1, 2):
            lines = [PLAN.replace("3}", f"{version}}}"), '{"game":"a","do":"show"}']
            refused = '{"game":"a","no":"G2","seq":1,"why":"none"}'
            assert self.alone("1", game="a", lines=lines) == (0, text_of([refused, *STAY_A]), "")
            assert self.alone("2", game="a", lines=lines) == NO_SUCH_GAME

    def test_the_blocks_decide_who_is_admitted(self):
        # With room for three games line 3 admits c, which has not left at line 7; with room for
        # one, no game is admitted.
        short, gone = '{"line":%d,"no":"A4","why":"pool"}', '{"line":%d,"no":"%s","why":"%s"}'
        self.served_as(
            STAYS,
            18,
            [
                *STAY_A,
                *STAY_B,
                *STAY_C,
                *SECOND_STAY_B,
                STRAYS[1],
                gone % (7, "A2", "open"),
                *STRAYS[2:],
            ],
        )
        self.served_as(
            STAYS,
            11,
            [
                *STAY_A,
                short % 2,
                short % 3,
                gone % (4, "L2", "game"),
                gone % (5, "A5", "none"),
                STRAYS[1],
                short % 7,
                gone % (8, "L2", "game"),
                short % 9,
                *STRAYS[3:],
                gone % (12, "A5", "none"),
                short % 13,
                gone % (14, "L2", "game"),
            ],
        )
        assert self.alone("1", blocks="11") == NO_SUCH_GAME
        # The plan alone needs six blocks; that is checked before the game is looked up.
        for game in "abz":
            assert self.alone("1", blocks="5", game=game) == (REFUSED_PLAN, "", "arena: plan P4\n")

    def test_the_65th_open_game(self):
        names = [f"g{at}" for at in range(64)]
        plan = line(games=[{"game": name, "quota": 64} for name in names], version=3)
        finals = ['{"board":null,"charge":0,"final":true,"game":"%s"}' % name for name in names]
        admit = '{"game":"new","do":"admit","quota":64}'
        self.served_as([plan, admit], 400, [*finals, '{"line":2,"no":"A3","why":"games"}'])
        # There are blocks for 66 games. After a game has left, one more is admitted, and no second.
        last = '{"board":null,"charge":0,"final":true,"game":"new"}'
        self.served_as(
            [plan, '{"game":"g7","do":"leave"}', admit, admit.replace("new", "g7")],
            400,
            [*finals, last, '{"line":4,"no":"A3","why":"games"}'],
        )

    def test_the_same_file_as_version_2(self):
        lines = [PLAN.replace("3}", "2}"), *STAYS[1:]]
        self.served_as(
            lines,
            12,
            [*STAY_A, *('{"line":%d,"no":"L2","why":"game"}' % number for number in range(2, 15))],
        )

    def test_the_same_file_as_version_5(self):
        shown = '"hazard_damage":14,"hazards":[],"height"'
        first = [text.replace('"height"', shown) for text in STAY_B]
        lines = [PLAN.replace("3}", "5}"), *STAYS[1:]]
        self.served_as(lines, 12, [*STAY_A, *first, *STAY_C, *SECOND_STAY_B, *STRAYS])
        assert self.alone("1", lines=lines) == (0, text_of(first), "")
        assert self.alone("2", lines=lines) == (0, text_of(SECOND_STAY_B), "")
        assert self.alone("3", lines=lines) == NO_SUCH_GAME

    def test_two_thousand_stays_of_which_64_are_open(self):
        lines = list(shapes.stays(2_000))
        for workers in "14":
            status, transcript, errors = run(
                "serve", "-", "--workers", workers, "--blocks", "384", text=text_of(lines)
            )
            assert (status, errors) == (0, "")
            replies = [json.loads(line) for line in transcript.splitlines()]
            assert [line for line in replies if "line" in line] == []
            ends = [(line["game"], line["board"]["turn"]) for line in replies if "final" in line]
            assert ends == [(f"g{at}", shapes.STAYED) for at in range(2_000)]
        # With one block less the 64th is refused wherever 63 are open.
        status, transcript, errors = run("serve", "-", "--blocks", "383", text=text_of(lines))
        assert (status, errors) == (0, "")
        assert '"no":"A4"' in transcript
        assert '"no":"A3"' not in transcript


DRAWN = 200  # plans
WORKERS = "1234"


def drawn_game(draw, name, turns):
    """Drawn lines of a game, some of which are refused."""
    game = drawn.Game(draw, name, draw.choice((1, 2, 5)))
    for _ in range(turns):
        members = json.loads(json.dumps(game.command()))
        if drawn.chance(draw, 3):
            drawn.spoil_member(draw, members)
        yield drawn.written(draw, members, drawn.chance(draw, 10))


def drawn_plan(number):
    """The rows and the lines of a file of 1 to 12 games, some of which have no line or nearly all
    lines. Some lines belong to no game."""
    draw = random.Random(f"workers {number}")
    count = 1 if number % 8 == 0 else draw.randint(1, 12)
    quotas = drawn.QUOTAS[:10] + [65_536, 1_048_576, 4_000_000] * 5
    rows = [{"game": f"g{row}", "quota": draw.choice(quotas)} for row in range(count)]
    left = {
        row["game"]: drawn_game(draw, row["game"], draw.choice((0, 1, 5, 20, 20, 60, 150)))
        for row in rows
    }
    lines = []
    while left:
        name = draw.choice(list(left))
        some = list(itertools.islice(left[name], draw.choice((1, 1, 3, 40))))
        if not some:
            del left[name]
        lines += [*some, line(game="nobody", do="show")] if drawn.chance(draw, 4) else some
    return rows, lines


class TestDrawnPlans:
    """Games of every mode, with quotas that are too small and commands that are refused, give the
    same bytes on every number of threads: each reply and each last board."""

    def served(self, rows, lines, workers):
        blocks = sum(round_robin.blocks_for(1, row["quota"]) for row in rows)
        words = ["serve", "-", "--workers", workers, "--blocks", str(blocks)]
        text = text_of([line(games=rows, version=5), *lines])
        return program.run_bytes(*words, text=text.encode())

    def test_each_number_of_workers_gives_the_same_bytes(self):
        seen = Counter()
        for number in range(DRAWN):
            rows, lines = drawn_plan(number)
            one = self.served(rows, lines, "1")
            assert (one[0], one[2]) == (0, b""), number
            for workers in WORKERS[1:]:
                assert self.served(rows, lines, workers) == one, (number, workers)
            seen.update(re.findall(r'"(?:no|mode)":"(\w+)"', one[1].decode()))
            seen[len(rows)] += 1
        assert {*range(1, 13), *"G1 G2 G3 G4 G6 G7".split(), *drawn.MODES[5]} <= seen.keys()
