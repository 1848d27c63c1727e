"""Tests of `arena live`, for tests/live."""
import contextlib
import fcntl
import json
import os
import random
import re
import select
import struct
import subprocess
import tempfile
import termios
import threading
import time

import cases
import program
import pytest
from cases import lines_by_game
from program import ROOT, line, run, run_bytes, text_of

SECONDS = 300  # the limit of an answer, on a busy machine
PACKET = 4_096  # bytes of a packet of a packet pipe
LONG_TEXT = 65_536  # bytes of answers that are written before the next line is answered
MOST_LINE = 65_536  # bytes of a line
MOST_GAMES = 64  # that are open at once
SEED = 7
# Arguments that `live` refuses.
REFUSED_WORDS = [
    ["-"],
    ["some file"],
    ["--workers", "1"],
    ["--game", "a"],
    ["--stay", "1"],
    ["--blocks", "0"],
    ["--blocks", "4097"],
]
REFUSED, UNREAD, NO_PLAN, UNWRITTEN = 2, 3, 4, 6  # exit statuses


def new(game, mode, side, snakes, food=()):
    """The members of a line that starts a game on a square board."""
    placed = [{"id": id, "x": x, "y": y} for id, x, y in snakes]
    return dict(
        game=game,
        do="new",
        mode=mode,
        width=side,
        height=side,
        snakes=placed,
        food=[{"x": x, "y": y} for x, y in food],
        min_food=0,
        food_chance=0,
    )


CELL = {"x": 1, "y": 2}
# A small file with each kind of line: admissions, replies, refusals, strays, a blank line, a stay
# that leaves, one that stays, and no line feed at the end.
SMALL = "\n".join(
    [
        line(games=[], version=3),
        line(game="a", do="admit", quota=4096),
        line(**new("a", "solo", 3, [("s", 1, 1)])),
        "{oops",
        "",
        line(game="b", do="admit", quota=16),
        line(game="a", do="move", moves={"s": "up"}),
        line(game="z", do="show"),
        line(game="a", do="jump"),
        line(game="b", do="show"),
        line(game="a", do="leave"),
        line(game="a", do="admit", quota=64),
        line(game="a", do="show"),
    ]
).encode()
# The same with hazards, which a move changes.
HAZARDOUS = (
    SMALL.replace(b'"version":3', b'"version":5')
    .replace(b'"do":"new",', b'"do":"new","hazards":[%b],' % line(**CELL).encode())
    .replace(b'"do":"move",', b'"do":"move","hazards":[],"food":[%b],' % line(**CELL).encode())
)


class Talk:
    """A run of `arena live` with input and output in pieces."""

    def __init__(self, *words):
        pipe = subprocess.PIPE
        self.run = subprocess.Popen(
            [program.path, "live", *words], stdin=pipe, stdout=pipe, stderr=pipe
        )
        self.heard = b""

    def say(self, text):
        """Writes the bytes at once."""
        self.run.stdin.write(text)
        self.run.stdin.flush()

    def is_read(self):
        """Waits until the program has read all input, and reads its output meanwhile. Returns
        whether it has, within SECONDS."""
        ends = time.monotonic() + SECONDS
        while time.monotonic() < ends:
            unread = fcntl.ioctl(self.run.stdin, termios.FIONREAD, struct.pack("i", 0))
            if struct.unpack("i", unread)[0] == 0:
                return True
            if select.select([self.run.stdout], [], [], 0.0002)[0]:
                self.heard += os.read(self.run.stdout.fileno(), 1 << 16)
        return False

    def lines(self, count):
        """The next `count` lines of the output, which have to come within SECONDS."""
        while self.heard.count(b"\n") < count:
            if not select.select([self.run.stdout], [], [], SECONDS)[0]:
                raise TimeoutError(f"{self.heard!r} and no more")
            some = os.read(self.run.stdout.fileno(), 1 << 16)
            if not some:
                raise EOFError(f"{self.heard!r} and the end")
            self.heard += some
        *found, self.heard = self.heard.split(b"\n", count)
        return [each + b"\n" for each in found]

    def is_silent(self):
        """Whether nothing can be read at this moment."""
        return not self.heard and not select.select([self.run.stdout], [], [], 0)[0]

    def close(self):
        """Kills it if it runs, and closes its input and its output."""
        self.run.kill()
        self.run.wait()
        for stream in (self.run.stdin, self.run.stdout, self.run.stderr):
            stream.close()

    def end(self):
        """Ends the input. Returns the status, the rest of the output, and the errors."""
        rest, errors = self.run.communicate(timeout=SECONDS)
        return self.run.returncode, self.heard + rest, errors


def in_pieces(text, places, *words):
    """The output for the text, of which each piece is written once the one before was read."""
    talk = Talk(*words)
    for start, end in zip([0, *places], [*places, len(text)]):
        talk.say(text[start:end])
        if not talk.is_read():
            raise TimeoutError(f"unread: {text[start:end]!r}")
    return talk.end()


class TestSame:
    """The lines of a stay are those of its section of the transcript."""

    def test_each_case_has_the_sections_and_strays_of_its_transcript(self):
        for case in cases.cases():
            status, output, errors = run_bytes(*case.live_words, text=case.file.read_bytes())
            assert (status, errors) == (0, b"")
            assert lines_by_game(output) == lines_by_game(case.transcript.read_bytes())

    def test_few_blocks_admit_as_in_a_file(self):
        for case in cases.cases():
            if not case.has_stays:
                continue
            for blocks in ("6", "7", "12", "13", "64"):
                text = case.file.read_bytes()
                live = run_bytes("live", "--blocks", blocks, text=text)
                served = run_bytes("serve", "-", "--blocks", blocks, text=text)
                assert (live[0], live[2]) == (served[0], served[2])
                assert lines_by_game(live[1]) == lines_by_game(served[1])

    def test_lines_are_in_the_order_of_the_input(self):
        for text in (SMALL, HAZARDOUS):
            found = [
                (
                    reply.get("game", reply.get("line")),
                    reply.get("seq", "final" if "final" in reply else reply.get("why")),
                )
                for reply in map(json.loads, run_bytes("live", text=text)[1].splitlines())
            ]
            wanted = [("a", 1), (4, "json"), ("a", 2), (8, "game"), ("a", 3), ("b", 1)]
            wanted += [("a", "final"), ("a", 1), ("b", "final"), ("a", "final")]
            assert found == wanted

    def test_hazards_hurt_and_are_replaced(self):
        lines = run_bytes("live", text=HAZARDOUS)[1].splitlines()
        first, second = (json.loads(lines[at])["board"] for at in (0, 2))
        assert (first["hazards"], first["hazard_damage"]) == ([CELL], 14)
        # 100 - 1 - 14. The food that the move gives lies under the snake, where no cell is free.
        assert (second["hazards"], second["food"]) == ([], [])
        assert second["snakes"][0]["health"] == 85

    def test_long_lines(self):
        filler = '{"x":"%s"}'
        short = (filler % ("y" * (MOST_LINE - len(filler) + 2))).encode()
        assert len(short) == MOST_LINE
        for text, whys in (
            (short, ["game"]),
            (short + b" ", ["long"]),
            (b" " * MOST_LINE, []),
            (b" " * (MOST_LINE + 1), ["long"]),
            (short * 5, ["long"]),
        ):
            for end in (b"", b"\n", b"\nx"):
                file = b'{"games":[]}\n' + text + end
                found = [
                    json.loads(reply)["why"]
                    for reply in run_bytes("live", text=file)[1].splitlines()
                ]
                assert found == whys + ["json"] * (end == b"\nx")
                if len(file) < 1 << 24:
                    assert run_bytes("live", text=file) == run_bytes("serve", "-", text=file)


class TestCut:
    """The bytes that are written do not depend on how they are read."""

    def test_after_each_byte(self):
        for text in (SMALL, HAZARDOUS):
            wanted = run_bytes("live", text=text)
            assert (wanted[0], wanted[2]) == (0, b"")
            for place in range(1, len(text)):
                assert in_pieces(text, [place]) == wanted

    def test_each_byte_alone(self):
        for text in (SMALL, HAZARDOUS):
            places = list(range(1, len(text)))
            assert in_pieces(text, places) == run_bytes("live", text=text)

    def test_at_drawn_places(self):
        drawn = random.Random(SEED)
        for case in cases.cases():
            text = case.file.read_bytes()
            words = ["--blocks", str(case.blocks)]
            wanted = run_bytes("live", *words, text=text)
            for count in (1, 7, 40):
                places = sorted(drawn.sample(range(1, len(text)), min(count, len(text) - 1)))
                assert in_pieces(text, places, *words) == wanted

    def test_long_lines_in_pieces(self):
        text = b'{"games":[]}\n' + b" " * MOST_LINE + b"\n" + b"x" * 300_000 + b"\n{oops\n"
        wanted = run_bytes("live", text=text)
        for places in ([13 + MOST_LINE, 100_000, 200_000], list(range(1, len(text), 9_999))):
            assert in_pieces(text, places) == wanted


class TestPrompt:
    """Each answer is there before the next line is sent."""

    @pytest.fixture(autouse=True)
    def begin(self):
        self.talk = Talk("--blocks", str(6 * MOST_GAMES))
        self.talk.say(line(games=[], version=3).encode() + b"\n")
        yield
        self.talk.close()

    def ask(self, **members):
        """The answer to a line, which is one line."""
        self.talk.say(line(**members).encode() + b"\n")
        return json.loads(self.talk.lines(1)[0])

    def test_ping_pong_with_all_games_open(self):
        names = [f"game {number}" for number in range(MOST_GAMES)]
        for name in names:
            self.talk.say(line(game=name, do="admit", quota=4096).encode() + b"\n")
            reply = self.ask(**new(name, "standard", 7, [("s", 1, 1), ("t", 5, 5)]))
            assert (reply["game"], reply["seq"], reply["do"]) == (name, 1, "new")
        refused = self.ask(game="one more", do="admit", quota=4096)
        assert (refused["no"], refused["why"]) == ("A3", "games")
        for turn in range(1, 4):
            for name in names:
                reply = self.ask(game=name, do="move", moves={"s": "up", "t": "down"})
                assert (reply["game"], reply["seq"], reply["board"]["turn"]) == (
                    name,
                    turn + 1,
                    turn,
                )
                assert self.talk.is_silent()
        for name in names:
            reply = self.ask(game=name, do="leave")
            assert (reply["game"], reply["final"]) == (name, True)
        assert self.talk.end() == (0, b"", b"")

    def test_no_length_of_a_line_waits(self):
        """A line is answered before the next one is sent, whatever its length, and so are many."""
        lengths = [*range(1, 1_200), 4_095, 4_096, 4_097, 32_768, 65_535, 65_536, 65_537, 70_000]
        for number, length in enumerate(lengths, 2):
            self.talk.say(b"x" * length + b"\n")
            why = {"L1": "json", "L3": "long"}[no := "L3" if length > MOST_LINE else "L1"]
            wanted = {"line": number, "no": no, "why": why}
            assert json.loads(self.talk.lines(1)[0]) == wanted
        for count in range(1, 200):
            self.talk.say(b"x\n" * count)
            assert len(self.talk.lines(count)) == count

    def test_half_a_line_waits_for_its_end(self):
        self.talk.say(b"{oo")
        assert self.talk.is_read()
        time.sleep(0.05)
        assert self.talk.is_silent()
        self.talk.say(b"ps\n")
        assert json.loads(self.talk.lines(1)[0]) == {"line": 2, "no": "L1", "why": "json"}

    def test_a_long_line_is_answered_when_it_ends(self):
        self.talk.say(b"x" * 300_000)
        assert self.talk.is_read()
        assert self.talk.is_silent()
        self.talk.say(b"\n")
        assert json.loads(self.talk.lines(1)[0]) == {"line": 2, "no": "L3", "why": "long"}

    def test_a_writer_that_stops_taking_bytes_stops_the_reading(self):
        food = [(x, y) for x in range(25) for y in range(2, 25)]
        snakes = [(f"s{number}", number, 1) for number in range(8)]
        self.talk.say(line(game="a", do="admit", quota=8192).encode() + b"\n")
        started = self.ask(**new("a", "standard", 25, snakes, food))
        show = line(game="a", do="show").encode() + b"\n"
        count = 20_000
        os.set_blocking(self.talk.run.stdin.fileno(), False)
        left = show * count
        while select.select([], [self.talk.run.stdin], [], 1)[1]:
            left = left[os.write(self.talk.run.stdin.fileno(), left[:4096]) :]
        # A pipe and one read take 72 KiB of the 500 KB. The answers fill the other pipe.
        assert len(left) > len(show) * count // 2
        sent = (len(show) * count - len(left)) // len(show)
        for number in range(sent):
            reply = json.loads(self.talk.lines(1)[0])
            assert (reply["seq"], reply["board"]) == (number + 2, started["board"])


class TestWrites:
    """The writes of a host whose output is a packet pipe: whole packets and a shorter last one."""

    @pytest.fixture(autouse=True)
    def begin(self):
        self.reader, writer = os.pipe2(os.O_DIRECT)
        self.run = subprocess.Popen(
            [program.path, "live"], stdin=subprocess.PIPE, stdout=writer, bufsize=0
        )
        os.close(writer)
        self.run.stdin.write(line(games=[], version=3).encode() + b"\n")
        yield
        self.run.kill()
        self.run.wait()
        self.run.stdin.close()
        os.close(self.reader)

    def ask(self, lines):
        """The writes of the answers to these lines, which are read at once: a line each."""
        assert len(lines) <= PACKET
        self.run.stdin.write(lines)
        found = []
        while b"".join(found).count(b"\n") < lines.count(b"\n"):
            found.append(b"")
            while len(found[-1]) % PACKET == 0:
                if not select.select([self.reader], [], [], SECONDS)[0]:
                    raise TimeoutError(f"{found[-1]!r} and no more")
                found[-1] += os.read(self.reader, PACKET)
        return found

    def test_a_read_of_many_lines_is_answered_by_one_write(self):
        for count in (1, 2, 50, 90):
            lines = (b"x" * 40 + b"\n") * count
            assert [answers.count(b"\n") for answers in self.ask(lines)] == [count]

    def test_long_answers_are_written_before_the_last_line_is_answered(self):
        food = [(x, y) for x in range(25) for y in range(2, 25)]
        started = line(**new("a", "standard", 25, [("s", 0, 0)], food)).encode() + b"\n"
        self.run.stdin.write(line(game="a", do="admit", quota=4096).encode() + b"\n")
        self.run.stdin.write(started[:-1])
        self.ask(b"\n")
        *some, last = self.ask((line(game="a", do="show") + "\n").encode() * 150)
        most = max(map(len, b"".join([*some, last]).splitlines(True)))
        assert len(some) > 5
        for answers in some:
            assert LONG_TEXT <= len(answers) < LONG_TEXT + most
        assert len(last) < LONG_TEXT + most


class TestMemory:
    """The memory that docs/USAGE.md gives for stays that leave, for one that stays open, and for a
    long line."""

    @pytest.fixture(autouse=True)
    def begin(self):
        usage = " ".join((ROOT / "docs/USAGE.md").read_text().split())
        self.most = int(re.search("a live host takes at most ([0-9]+) MB", usage)[1]) * 1_000_000
        self.talk = Talk()
        self.talk.say(line(games=[], version=3).encode() + b"\n")
        yield
        self.talk.close()

    def end(self):
        assert (memory := program.peak_memory(self.talk.run.pid)) > 0
        assert self.talk.end() == (0, b"", b"")
        assert memory < self.most

    def test_stays_that_leave(self):
        show = line(game="a", do="show").encode() + b"\n"
        admit = line(game="a", do="admit", quota=4096).encode() + b"\n"
        leave = line(game="a", do="leave").encode() + b"\n"
        first = line(**new("a", "standard", 7, [("s", 1, 1), ("t", 5, 5)])).encode() + b"\n"
        for _ in range(2_000):
            self.talk.say(admit + first + show * 50 + leave)
            self.talk.lines(52)
        self.end()

    def fill(self, lines, count):
        """Writes the lines `count` times, and reads an answer to each."""
        for _ in range(count):
            self.talk.say(lines)
            self.talk.lines(lines.count(b"\n"))

    def stays_open(self, lines):
        """The peak of the memory rises by less than a megabyte after the first thousand lines."""
        count = 1_000 // lines.count(b"\n")
        self.fill(lines, count)
        before = program.peak_memory(self.talk.run.pid)
        self.fill(lines, 30 * count)
        assert program.peak_memory(self.talk.run.pid) < before + 1_000_000

    def test_stays_that_stay(self):
        """What is asked, refused, started, moved and ended leaves nothing behind."""
        names = [f"g{number}" for number in range(MOST_GAMES)]
        say = lambda **members: line(**members).encode() + b"\n"
        games = [new(name, "standard", 7, [("s", 1, 1), ("t", 5, 5)]) for name in names]
        moves = {"s": "up", "t": "down"}
        for name in names:
            self.talk.say(say(game=name, do="admit", quota=4096))
        for lines in (
            b"".join(say(game=name, do="jump") for name in names[:10]),
            b"".join(
                say(**game) + say(game=name, do="move", moves=moves) + say(game=name, do="end")
                for name, game in zip(names, games)
            ),
            b"".join(say(**game) for game in games),
            b"".join(say(game=name, do="show") for name in names),
        ):
            self.stays_open(lines)
        status, rest, errors = self.talk.end()
        assert (status, rest.count(b"\n"), errors) == (0, MOST_GAMES, b"")

    def test_a_long_line(self):
        for _ in range(1_000):
            self.talk.say(b"x" * 50_000)
            assert self.talk.is_read()
        self.talk.say(b"\n")
        assert json.loads(self.talk.lines(1)[0])["no"] == "L3"
        self.end()


class TestLong:
    def test_two_million_lines(self):
        """A host that plays for hours: each line is answered, in its place. The answers take 500
        MB, so they are read at once and kept nowhere."""
        head = [
            line(games=[{"game": "a", "quota": 4096}]),
            line(**new("a", "solo", 3, [("s", 1, 1)])),
        ]
        some = (line(game="a", do="show") + "\n").encode() * 1_000
        with tempfile.TemporaryFile() as errors, subprocess.Popen(
            [program.path, "live"], stdin=subprocess.PIPE, stdout=subprocess.PIPE, stderr=errors
        ) as run:

            def say():
                with contextlib.suppress(BrokenPipeError), run.stdin:
                    run.stdin.write(text_of(head).encode())
                    for _ in range(2_000):
                        run.stdin.write(some)

            speaker = threading.Thread(target=say)
            speaker.start()
            count = 0
            for count, answer in enumerate(run.stdout, 1):
                assert count > 2_000_001 or answer.endswith(b'"game":"a","seq":%d}\n' % count)
            speaker.join(SECONDS)
            run.wait(SECONDS)
            errors.seek(0)
            assert (run.returncode, errors.read(), count) == (0, b"", 2_000_002)

    def test_two_million_reads(self):
        """A host whose lines come one by one: no read of a packet pipe has more than one write."""
        reader, writer = os.pipe2(os.O_DIRECT)
        with tempfile.TemporaryFile() as answers, open(writer, "wb", 0) as given:
            run = subprocess.Popen(
                [program.path, "live"], stdin=reader, stdout=answers, stderr=subprocess.PIPE
            )
            os.close(reader)
            given.write(line(games=[{"game": "a", "quota": 4096}]).encode() + b"\n")
            for _ in range(2_000_000):
                given.write(b"\n")
            given.write(line(game="a", do="show").encode())
            given.close()
            assert (run.communicate(timeout=SECONDS)[1], run.returncode) == (b"", 0)
            answers.seek(0)
            none, last = (json.loads(answer) for answer in answers)
        assert none == {"game": "a", "no": "G2", "seq": 1, "why": "none"}
        assert last == {"board": None, "charge": 0, "final": True, "game": "a"}


class TestStatuses:
    def test_refused_words(self):
        for words in REFUSED_WORDS:
            status, output, errors = run("live", *words, text='{"games":[]}')
            assert (status, output) == (REFUSED, "")
            assert errors.startswith("error: ")

    def test_help(self):
        status, output, errors = run("live", "--help")
        assert (status, errors) == (0, "")
        assert "--blocks" in output
        assert "--workers" not in output

    def test_refused_plans_at_once(self):
        row = {"game": "a", "quota": 64}
        many = [{"game": f"g{number}", "quota": 64} for number in range(65)]
        for number, text in (
            (1, b"{}\n"),
            (1, b"x" * (MOST_LINE + 1)),
            (2, line(games=[row, row]).encode() + b"\n"),
            (3, line(games=many).encode() + b"\n"),
            (4, line(games=many[:11]).encode() + b"\n"),
        ):
            talk = Talk()
            talk.say(text)
            assert talk.run.wait(timeout=SECONDS) == NO_PLAN
            assert talk.run.stdout.read() == b""
            assert talk.run.stderr.read() == b"arena: plan P%d\n" % number
            talk.close()

    def test_an_empty_input(self):
        assert run("live") == (NO_PLAN, "", "arena: plan P1\n")

    def test_a_plan_alone(self):
        final = '{"board":null,"charge":0,"final":true,"game":"a"}\n'
        plan = line(games=[{"game": "a", "quota": 64}])
        for text in (plan, plan + "\n", plan + "\n\n"):
            assert run("live", text=text) == (0, final, "")

    def test_ten_games_of_six_blocks_fit(self):
        for count, status in ((10, 0), (11, NO_PLAN)):
            games = [{"game": f"g{number}", "quota": 64} for number in range(count)]
            assert run("live", text=line(games=games))[0] == status

    def test_an_input_that_cannot_be_read(self):
        folder = os.open("/", os.O_RDONLY)
        unread = (UNREAD, b"", b"arena: cannot read the file\n")
        try:
            assert run_bytes("live", stdin=folder) == unread
        finally:
            os.close(folder)

    def test_an_output_that_is_full(self):
        with open("/dev/full", "wb") as full:
            ran = run_bytes("live", text=SMALL, stdout=full)
        assert (ran[0], ran[2]) == (UNWRITTEN, b"arena: write failed after 0 bytes\n")

    def test_an_output_that_is_closed(self):
        talk = Talk()
        first = SMALL[: SMALL.index(b"{oops")]
        talk.say(first)
        reply = talk.lines(1)[0]
        talk.run.stdout.close()
        talk.say(SMALL[len(first) :] + b"\n")
        assert talk.run.wait(timeout=SECONDS) == UNWRITTEN
        assert talk.run.stderr.read() == b"arena: write failed after %d bytes\n" % len(reply)
        talk.close()
