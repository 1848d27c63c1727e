"""Truncated and damaged files, limits, and devices that fail, for tests/hostile."""
import fcntl
import itertools
import json
import os
import resource
import subprocess
import tempfile
from pathlib import Path

import program
import pytest
import shapes
from member_limits import CELL, E_ACUTE, G1, G2, HAZARDS, MAPS, OTHERS, SETUPS, cells, snake
from program import ROOT, SECONDS, line, run_bytes, text_of

EXAMPLES = ROOT / "examples"
MOST_LINE, MOST_FILE = 65_536, 16_777_216
VERSIONS = (1, 2, 3, 5)
# Refused plans, files and commands, and no game at the end.
P1, P2, P3, P4 = ((4, b"", b"arena: plan P%d\n" % number) for number in range(1, 5))
TOO_LONG = (3, b"", b"arena: file too long\n")
UNREAD = (3, b"", b"arena: cannot read the file\n")
NO_GAME = '{"board":null,"charge":0,"final":true,"game":"%s"}'

# Two games whose commands alternate, and their boards.
TWO_GAMES = (EXAMPLES / "two_games_interleaved.jsonl").read_bytes()
A0 = (
    '{"food":[],"food_chance":0,"height":5,"min_food":0,"mode":"solo","over":false,'
    '"snakes":[{"body":[{"x":1,"y":1},{"x":1,"y":1},{"x":1,"y":1}],"by":null,"cause":null,'
    '"health":100,"id":"s","out":null}],"turn":0,"width":5}'
)
A1 = (
    '{"food":[],"food_chance":0,"height":5,"min_food":0,"mode":"solo","over":false,'
    '"snakes":[{"body":[{"x":1,"y":2},{"x":1,"y":1},{"x":1,"y":1}],"by":null,"cause":null,'
    '"health":99,"id":"s","out":null}],"turn":1,"width":5}'
)
B0 = (
    '{"food":[{"x":1,"y":2}],"food_chance":0,"height":7,"min_food":0,"mode":"standard",'
    '"over":false,"snakes":[{"body":[{"x":1,"y":1},{"x":1,"y":1},{"x":1,"y":1}],"by":null,'
    '"cause":null,"health":100,"id":"s","out":null},{"body":[{"x":5,"y":1},{"x":5,"y":1},{"x":5,'
    '"y":1}],"by":null,"cause":null,"health":100,"id":"t","out":null},{"body":[{"x":3,"y":5},'
    '{"x":3,"y":5},{"x":3,"y":5}],"by":null,"cause":null,"health":100,"id":"u","out":null}],'
    '"turn":0,"width":7}'
)
B1 = (
    '{"food":[],"food_chance":0,"height":7,"min_food":0,"mode":"standard","over":false,'
    '"snakes":[{"body":[{"x":1,"y":2},{"x":1,"y":1},{"x":1,"y":1},{"x":1,"y":1}],"by":null,'
    '"cause":null,"health":100,"id":"s","out":null},{"body":[{"x":5,"y":2},{"x":5,"y":1},{"x":5,'
    '"y":1}],"by":null,"cause":null,"health":99,"id":"t","out":null},{"body":[{"x":3,"y":4},'
    '{"x":3,"y":5},{"x":3,"y":5}],"by":null,"cause":null,"health":99,"id":"u","out":null}],'
    '"turn":1,"width":7}'
)


# A game of one snake that runs into the wall, and its transcript.
SOLO = (ROOT / "crates/arena/stdin").read_bytes()
SOLO_TEXT = (ROOT / "crates/arena/stdout").read_bytes()


WHYS = {
    "L1": "json",
    "L2": "game",
    "L3": "long",
    "A1": "admit",
    "A2": "open",
    "A3": "games",
    "A4": "pool",
    "A5": "none",
}


def stray(number, code):
    why = WHYS[code]
    return '{"line":%d,"no":"%s","why":"%s"}' % (number, code, why)


def served(*lines):
    """The result with these lines as output."""
    return 0, "".join(line + "\n" for line in lines).encode(), b""


def shown(board, charge, do, game, seq):
    members = (board, charge, do, game, seq)
    return '{"board":%s,"charge":%d,"do":"%s","game":"%s","seq":%d}' % members


def final(board, charge, game):
    return '{"board":%s,"charge":%d,"final":true,"game":"%s"}' % (board, charge, game)


def refused(game, seq, code, why):
    return '{"game":"%s","no":"%s","seq":%d,"why":"%s"}' % (game, code, seq, why)


# The lines of each of the two games, and its final line after each number of its commands.
A_LINES = [shown(A0, 32, "new", "a", 1), shown(A1, 64, "move", "a", 2)]
A_LINES += ['{"charge":0,"do":"end","game":"a","seq":3}']
A_ENDS = [final("null", 0, "a"), final(A0, 32, "a"), final(A1, 64, "a"), final("null", 0, "a")]
B_LINES = [shown(B0, 64, "new", "b", 1), shown(B1, 128, "move", "b", 2)]
B_LINES += [shown(B1, 128, "show", "b", 3)]
B_ENDS = [final("null", 0, "b"), final(B0, 64, "b"), final(B1, 128, "b"), final(B1, 128, "b")]
A_WHOLE, B_WHOLE = [*A_LINES, A_ENDS[3]], [*B_LINES, B_ENDS[3]]
# The number of commands of each game by the number of lines of the file.
A_COMMANDS, B_COMMANDS = [0, 0, 1, 1, 2, 2, 3, 3], [0, 0, 0, 1, 1, 2, 2, 3]
# The transcript if the line of that number is a stray line instead of its command.
WITHOUT = {
    2: [refused("a", 1, "G2", "none"), refused("a", 2, "G2", "none"), A_ENDS[0], *B_WHOLE],
    3: [*A_WHOLE, refused("b", 1, "G2", "none"), refused("b", 2, "G2", "none"), B_ENDS[0]],
    4: [A_LINES[0], '{"charge":0,"do":"end","game":"a","seq":2}', A_ENDS[0], *B_WHOLE],
    5: [*A_WHOLE, B_LINES[0], shown(B0, 64, "show", "b", 2), B_ENDS[1]],
    6: [*A_LINES[:2], A_ENDS[2], *B_WHOLE],
    7: [*A_WHOLE, *B_LINES[:2], B_ENDS[2]],
}


class Hostile:
    def served_as(self, text, wanted, *words):
        """Serves a file with one worker and with four."""
        text = text.encode() if isinstance(text, str) else text
        for workers in "14":
            seen = run_bytes("serve", "-", "--workers", workers, *words, text=text)
            assert seen == wanted, text[:300]


class TestBent(Hostile):
    def test_each_prefix_of_two_games(self):
        assert TWO_GAMES.count(b"\n") == 7
        for length in range(len(TWO_GAMES) + 1):
            lines = TWO_GAMES[:length].split(b"\n")
            is_cut = lines[-1] != b"" and TWO_GAMES[length : length + 1] != b"\n"
            whole = len(lines) - (is_cut or lines[-1] == b"")
            strays = [stray(whole + 1, "L1")] if is_cut else []
            self.served_as(TWO_GAMES[:length], self.begun(whole, strays) if whole else P1)

    def begun(self, lines, strays):
        """The result of the first `lines` lines of the two games, with these stray lines."""
        a, b = A_COMMANDS[lines], B_COMMANDS[lines]
        return served(*A_LINES[:a], A_ENDS[a], *B_LINES[:b], B_ENDS[b], *strays)

    def test_a_byte_that_is_no_utf_8_at_each_place(self):
        number = 1
        for at, byte in enumerate(TWO_GAMES):
            if byte == 10:
                number += 1
                continue
            bent = TWO_GAMES[:at] + b"\xff" + TWO_GAMES[at + 1 :]
            wanted = P1 if number == 1 else served(*WITHOUT[number], stray(number, "L1"))
            assert run_bytes("serve", "-", text=bent) == wanted, at

    def test_a_member_of_nested_arrays(self):
        show = '{"game":"a","do":"show","x":%s}'
        plan = '{"games":[{"game":"a","quota":64}],"x":%s}'
        refused, accepted = served(NO_GAME % "a", stray(2, "L1")), served(G2, NO_GAME % "a")
        for depth in (127, 128, 200, 10_000, 32_000):
            nested = "[" * depth + "]" * depth
            self.served_as(plan % 0 + "\n" + show % nested, refused)
            self.served_as(plan % nested, P1)
            self.served_as(plan % 0 + "\n" + show % ("[" * depth), refused)
        for depth, wanted in ((126, accepted), (127, refused), (200, refused), (8_000, refused)):
            objects = '{"x":' * depth + "1" + "}" * depth
            self.served_as(plan % 0 + "\n" + show % objects, wanted)
        nested = "[" * 126 + "]" * 126
        self.served_as(plan % nested + "\n" + show % nested, accepted)

    def test_a_command_with_spaces_up_to_the_longest_line(self):
        plan = '{"games":[{"game":"a","quota":64}]}\n'
        command = '{"game":"a","do":"show"}'
        shown, long = served(G2, NO_GAME % "a"), served(NO_GAME % "a", stray(2, "L3"))
        for before, after in ((command, ""), ("", command), (command[:12], command[12:])):
            for space in (" ", "\t", "\r"):
                room = MOST_LINE - len(before) - len(after)
                for end in ("", "\n"):
                    self.served_as(plan + before + space * room + after + end, shown)
                    self.served_as(plan + before + space * (room + 1) + after + end, long)

    def test_other_lines_at_the_longest(self):
        plan = '{"games":[{"game":"a","quota":64}]}\n'
        none, long = served(NO_GAME % "a"), served(NO_GAME % "a", stray(2, "L3"))
        self.served_as(plan + " " * MOST_LINE, none)
        self.served_as(plan + " " * (MOST_LINE + 1), long)
        self.served_as(plan + "x" * MOST_LINE, served(NO_GAME % "a", stray(2, "L1")))
        self.served_as(plan + "x" * (MOST_LINE + 1), long)
        self.served_as(plan[:-1].ljust(MOST_LINE), none)
        self.served_as(plan[:-1].ljust(MOST_LINE + 1), P1)


def one_game(version, *lines, quota=MOST_FILE):
    return "\n".join([line(games=[{"game": "a", "quota": quota}], version=version), *lines])


def new(**members):
    usual = {"mode": "solo", "width": 5, "height": 5, "snakes": [snake()], "food": []}
    given = {key: value for key, value in {**usual, **members}.items() if value is not None}
    return line(game="a", do="new", **given)


class TestMembers(Hostile):
    def test_a_new_at_both_sides_of_each_limit(self):
        for version in VERSIONS:
            for members, piece in SETUPS:
                self.new_is_answered(version, members, piece)

    def new_is_answered(self, version, members, piece):
        text = one_game(version, new(**members))
        if piece is None:
            return self.served_as(text, served(G1, NO_GAME % "a"), "--blocks", "15")
        status, output, errors = run_bytes("serve", "-", text=text.encode())
        assert (status, errors) == (0, b"")
        self.served_as(text, (status, output, errors))
        reply, last = output.decode().splitlines()
        assert reply.startswith('{"board":{"food":['), reply[:200]
        assert piece in reply
        assert reply.endswith(',"do":"new","game":"a","seq":1}'), reply[-200:]
        board = reply.removesuffix('"do":"new","game":"a","seq":1}')
        assert last == board + '"final":true,"game":"a"}'

    def test_wrapped_is_no_mode_of_version_1(self):
        self.new_is_answered(1, {"mode": "wrapped"}, None)
        for version in (2, 3, 5):
            self.new_is_answered(version, {"mode": "wrapped"}, '"mode":"wrapped","over":true')

    def test_hazards_at_both_sides_of_each_limit(self):
        for members, piece in HAZARDS:
            self.new_is_answered(5, members, piece)
        for members, refusal in MAPS:
            text = one_game(5, line(game="a", do="move", moves={}, **members))
            self.served_as(text, served(refusal, NO_GAME % "a"))

    def test_other_versions_have_no_hazards(self):
        for version in (1, 2, 3):
            for members, _ in HAZARDS:
                if "width" not in members:
                    piece = '"food":[],"food_chance":15,"height":5,"min_food":1'
                    self.new_is_answered(version, members, piece)
            for members, _ in MAPS:
                text = one_game(version, line(game="a", do="move", moves={}, **members))
                self.served_as(text, served(G2, NO_GAME % "a"))

    def test_a_board_that_is_full_of_hazards(self):
        # The record has 11 bytes, 3 and 5,000 for the hazards, and 15 for the snake: charged 5,040.
        first = new(hazards=[CELL] * 2_500, min_food=0, food_chance=0)
        status, output, errors = run_bytes(
            "serve", "-", text=one_game(5, first, quota=5_040).encode()
        )
        assert (status, errors) == (0, b"")
        assert b',"charge":5040,"do":"new"' in output
        wanted = served(refused("a", 1, "G7", "quota"), NO_GAME % "a")
        self.served_as(one_game(5, first, quota=5_039), wanted)
        # Ten thousand hazards in four lists come and go, and the last of them stay.
        moves = [line(game="a", do="move", moves={}, hazards=cells(25, 25) * 4)] * 4
        moves.append(line(game="a", do="move", moves={}, hazards=[CELL]))
        first = new(width=25, height=25, hazards=[CELL] * 2_500, hazard_damage=0, min_food=0)
        status, output, errors = run_bytes("serve", "-", text=one_game(5, first, *moves).encode())
        assert (status, errors) == (0, b"")
        boards = [json.loads(text)["board"] for text in output.decode().splitlines()]
        lists = [[CELL] * 2_500, *[cells(25, 25) * 4] * 4, [CELL], [CELL]]
        assert [board["hazards"] for board in boards] == lists

    def test_other_commands_at_both_sides_of_each_limit(self):
        for version in VERSIONS:
            for members, refusal in OTHERS:
                text = one_game(version, line(game="a", **members))
                self.served_as(text, served(refusal, NO_GAME % "a"))

    def test_lines_of_no_game(self):
        for text, code in (
            ('{"do":"show"}', "L2"),
            ('{"game":null,"do":"show"}', "L2"),
            ('{"game":1,"do":"show"}', "L2"),
            ('{"game":["a"]}', "L2"),
            ('{"game":"","do":"show"}', "L2"),
            ('{"game":"b","do":"show"}', "L2"),
            ("{}", "L2"),
            ('{"game":"a\\u0000"}', "L2"),
            ("[]", "L1"),
            ("3", "L1"),
            ("null", "L1"),
            ('"a"', "L1"),
            ("{oops", "L1"),
            ('{"game":"a"}x', "L1"),
            ('{"game":"a",}', "L1"),
            ("{'game':'a'}", "L1"),
            ('{"game":"\t"}', "L1"),
            ('{"game":"\\ud800"}', "L1"),
            ("\x0c", "L1"),
            ("\x00", "L1"),
            ("\ufeff{}", "L1"),
            ('{"game":"a","x":01}', "L1"),
            ('{"game":"a","x":1e999}', "L1"),
            ('{"game":"a","x":NaN}', "L1"),
            ("{}{}", "L1"),
        ):
            for version in VERSIONS:
                self.served_as(one_game(version, text), served(NO_GAME % "a", stray(2, code)))

    def test_the_last_turn(self):
        for version in VERSIONS:
            first, *rest = shapes.long_game(10_002)
            plan = first.replace("]}", '],"version":%d}' % version)
            rest.append(line(game="g", do="turn", at=10_000))
            text = "\n".join([plan, *rest]).encode()
            status, output, errors = run_bytes("serve", "-", text=text)
            assert (status, errors) == (0, b"")
            lines = output.decode().splitlines()
            assert len(lines) == 10_005
            end = ',"do":"move","game":"g","seq":10001}'
            last = lines[10_000]  # behind `new` and 9,999 moves
            assert last.endswith(end), last[-100:]
            assert '"turn":10000,' in last
            assert '"over":false,' in last
            assert lines[10_001:] == [
                refused("g", 10_002, "G5", "limit"),
                refused("g", 10_003, "G5", "limit"),
                last.removesuffix(end) + ',"do":"turn","game":"g","seq":10004}',
                last.removesuffix(end) + ',"final":true,"game":"g"}',
            ]


def rows(count):
    return [{"game": f"g{at}", "quota": 16} for at in range(count)]


def ends(*names):
    return served(*(NO_GAME % name for name in names))


# Plans, the blocks that they are given, and the answer.
PLANS = [
    *[({"games": [{"game": "a", "quota": quota}]}, 15, ends("a")) for quota in (16, MOST_FILE)],
    ({"games": [{"game": "a", "quota": MOST_FILE}]}, 14, P4),
    *[
        ({"games": [{"game": "a", "quota": quota}]}, 4096, P2)
        for quota in (-16, 0, 15, MOST_FILE + 1, 2**32 + 16, 2**64, 16.0, "16", None)
    ],
    *[
        ({"games": [{"game": name, "quota": 16}]}, 6, ends(name))
        for name in ("x", "x" * 64, E_ACUTE * 32)
    ],
    *[
        ({"games": [{"game": name, "quota": 16}]}, 6, P2)
        for name in ("", "x" * 65, E_ACUTE * 33, E_ACUTE * 32 + "e", 1, None)
    ],
    ({"games": rows(64)}, 384, ends(*(f"g{at}" for at in range(64)))),
    ({"games": rows(64)}, 383, P4),
    ({"games": rows(65)}, 4096, P3),
    ({"games": rows(65) + rows(1)}, 4096, P2),
    ({"games": rows(65) + [3]}, 4096, P2),
    ({"games": rows(2) + rows(1)}, 4096, P2),
    *[({"games": [row]}, 4096, P2) for row in (3, [], {}, {"game": "a"}, {"quota": 16})],
    *[({"games": games}, 4096, P1) for games in (1, {}, None, "a", True)],
    ({}, 1, P1),
    ({"games": []}, 1, served()),
]


class TestPlans(Hostile):
    def test_a_plan_at_both_sides_of_each_limit(self):
        for version in VERSIONS:
            for plan, blocks, wanted in PLANS:
                self.served_as(line(**plan, version=version), wanted, "--blocks", str(blocks))

    def test_the_version_is_1_2_3_or_5(self):
        for version in VERSIONS:
            self.served_as('{"games":[],"version":%d}' % version, served())
        for version in (
            "0",
            "4",
            "6",
            "-1",
            "1.0",
            '"1"',
            "null",
            "true",
            "[1]",
            "257",
            "259",
            "18446744073709551617",
        ):
            self.served_as('{"games":[],"version":%s}' % version, P1)

    @pytest.mark.slow
    def test_the_longest_file(self):
        for version in (b"", b',"version":2', b',"version":3', b',"version":5'):
            longest = b'{"games":[]%b}' % version
            self.served_as(longest.ljust(MOST_FILE, b"\n"), served())
            self.served_as(longest.ljust(MOST_FILE + 1, b"\n"), TOO_LONG)
        self.served_as(b"x" * (MOST_FILE + 1), TOO_LONG)
        self.served_as(b"x" * MOST_FILE, P1)

    def test_a_cut_of_the_longest_file(self):
        """A cut is never longer than its file, so the cut of a served file is never too long."""
        show = line(game="a", do="show")
        admit = line(game="a", do="admit", quota=MOST_FILE)
        admitted = [line(games=[], version=version) + "\n" + admit for version in (3, 5)]
        for first in (*map(one_game, VERSIONS), *admitted):
            lines, last = divmod(MOST_FILE - len(first), MOST_LINE + 1)
            text = "\n".join([first, *[show.ljust(MOST_LINE)] * lines, show.ljust(last - 1)])
            assert len(text) == MOST_FILE
            replies = [refused("a", seq, "G2", "none") for seq in range(1, lines + 2)]
            for more, wanted in (("", served(*replies, NO_GAME % "a")), ("\n", TOO_LONG)):
                seen = run_bytes("alone", "-", "--game", "a", text=(text + more).encode())
                assert seen == wanted, first

    def test_words_at_both_sides_of_each_limit(self):
        for words in (
            ["--workers", "1"],
            ["--workers", "4"],
            ["--blocks", "1"],
            ["--blocks", "4096"],
        ):
            assert run_bytes("serve", "-", *words, text=b'{"games":[]}') == served(), words
        for words in (
            ["--workers", "0"],
            ["--workers", "5"],
            ["--blocks", "0"],
            ["--blocks", "4097"],
            ["--blocks", "-1"],
            ["--workers", "4294967297"],
            ["--blocks", "18446744073709551617"],
            ["--workers", "1.0"],
            ["--workers", ""],
            ["--workers"],
            ["--workers", "1", "--workers", "1"],
            ["-"],
            ["--game", "a"],
            ["x" * 100_000],
        ):
            status, output, errors = run_bytes("serve", "-", *words, text=b'{"games":[]}')
            assert (status, output) == (2, b""), words
            assert errors.startswith(b"error: "), errors[:200]
        assert run_bytes(
            "alone",
            "-",
            f"--game={E_ACUTE * 32}",
            text=line(games=[{"game": E_ACUTE * 32, "quota": 16}]).encode(),
        ) == ends(E_ACUTE * 32)
        for name in ("z", "", E_ACUTE * 33, "x" * 100_000):
            seen = run_bytes("alone", "-", f"--game={name}", text=SOLO)
            assert seen == (4, b"", b"arena: no such game\n")


# Members of an `admit` beside `do`, and whether it admits a game, from 15 blocks and with no game
# open.
ADMISSIONS = [
    *[({"game": "a", "quota": quota}, True) for quota in (16, MOST_FILE)],
    *[
        ({"game": "a", "quota": quota}, False)
        for quota in (
            -16,
            0,
            15,
            MOST_FILE + 1,
            2**32 + 16,
            2**64,
            2**64 + 16,
            16.0,
            "16",
            None,
            [16],
        )
    ],
    ({"game": "a"}, False),
    ({"quota": 16}, False),
    ({}, False),
    *[
        ({"game": name, "quota": 16}, True)
        for name in ("x", "x" * 64, E_ACUTE * 32, "\U0001f40d" * 16)
    ],
    *[
        ({"game": name, "quota": 16}, False)
        for name in ("", "x" * 65, E_ACUTE * 33, E_ACUTE * 32 + "e", 1, None, ["a"], {})
    ],
    ({"game": "a", "quota": 16, "width": 3, "do it": None}, True),
]


class TestStays(Hostile):
    version = 3

    def test_an_admit_at_both_sides_of_each_limit(self):
        for members, is_admitted in ADMISSIONS:
            text = line(games=[], version=self.version) + "\n" + line(do="admit", **members)
            name = members.get("game")
            self.served_as(
                text,
                served(NO_GAME % name) if is_admitted else served(stray(2, "A1")),
                "--blocks",
                "15",
            )

    def test_a_leave_at_both_sides_of_each_limit(self):
        for name in ("a", "x" * 64, E_ACUTE * 32):
            plan = line(games=[{"game": name, "quota": 16}], version=self.version)
            leave = line(game=name, do="leave")
            self.served_as(f"{plan}\n{leave}", served(NO_GAME % name))
            self.served_as(f"{plan}\n{leave}\n{leave}", served(NO_GAME % name, stray(3, "A5")))
        plan = line(games=[{"game": "a", "quota": 16}], version=self.version)
        for members in (
            {},
            {"game": ""},
            {"game": "b"},
            {"game": "A"},
            {"game": "a "},
            {"game": "a\0"},
            {"game": 1},
            {"game": None},
            {"game": ["a"]},
            {"game": "x" * 65},
            {"game": E_ACUTE * 33},
        ):
            self.served_as(
                f"{plan}\n{line(do='leave', **members)}", served(NO_GAME % "a", stray(2, "A5"))
            )

    def test_a_line_that_is_refused_for_several_reasons(self):
        # 64 open games, which leave no block: each admission has the first reason of the table.
        plan = line(
            games=[{"game": f"g{at}", "quota": 64} for at in range(64)], version=self.version
        )
        names = [f"g{at}" for at in range(64)]
        for quota, name, code in (
            (15, "g3", "A1"),
            (16, "g3", "A2"),
            (MOST_FILE, "g3", "A2"),
            (16, "h", "A3"),
            (MOST_FILE, "h", "A3"),
            (15, "h", "A1"),
        ):
            text = f"{plan}\n{line(game=name, do='admit', quota=quota)}"
            self.served_as(
                text, served(*(NO_GAME % name for name in names), stray(2, code)), "--blocks", "384"
            )
        one = line(games=[{"game": "a", "quota": 64}], version=self.version)
        for quota, name, blocks, code in (
            (15, "a", 6, "A1"),
            (64, "a", 6, "A2"),
            (64, "b", 11, "A4"),
            (1_835_007, "b", 11, "A4"),
            (1_835_008, "b", 12, "A4"),
        ):
            text = f"{one}\n{line(game=name, do='admit', quota=quota)}"
            self.served_as(text, served(NO_GAME % "a", stray(2, code)), "--blocks", str(blocks))
        for quota, blocks in ((64, 12), (1_835_007, 12), (1_835_008, 13)):
            text = f"{one}\n{line(game='b', do='admit', quota=quota)}"
            self.served_as(text, served(NO_GAME % "a", NO_GAME % "b"), "--blocks", str(blocks))

    def test_lines_are_judged_before_their_do(self):
        plan = line(games=[{"game": "a", "quota": 16}], version=self.version)
        for text, code in (
            ('{"game":"a","do":"leave"', "L1"),
            ('["leave"]', "L1"),
            ('{"game":"a","do":"leave"}x', "L1"),
            ('{"game":"a","do":"leave"}' + " " * MOST_LINE, "L3"),
            ('{"do":"Leave"}', "L2"),
            ('{"game":"b","do":"Admit","quota":16}', "L2"),
            ('{"game":"b","do":["admit"]}', "L2"),
            ('{"game":"b"}', "L2"),
            ('{"game":"b","do":"show"}', "L2"),
        ):
            self.served_as(f"{plan}\n{text}", served(NO_GAME % "a", stray(2, code)))
        # The last of two members counts, as serde_json reads them.
        self.served_as(plan + '\n{"game":"a","do":"show","do":"leave"}', served(NO_GAME % "a"))
        self.served_as(plan + '\n{"game":"a","do":"leave","do":"show"}', served(G2, NO_GAME % "a"))
        # In a line of another version the words are a command of the game that is not known.
        for version in (1, 2):
            for do in ("admit", "leave"):
                text = (
                    line(games=[{"game": "a", "quota": 16}], version=version)
                    + "\n"
                    + line(game="a", do=do, quota=16)
                )
                self.served_as(text, served(G1, NO_GAME % "a"))

    def test_a_game_that_left_has_no_commands(self):
        plan = line(games=[{"game": "a", "quota": 64}], version=self.version)
        commands = [
            new(),
            line(game="a", do="show"),
            line(game="a", do="end"),
            '{"game":"a"}',
            line(game="a", do="fly"),
        ]
        for command in commands:
            text = "\n".join([plan, line(game="a", do="leave"), command])
            self.served_as(text, served(NO_GAME % "a", stray(3, "L2")))

    def test_a_stay_in_each_prefix(self):
        # The example of stays, cut after each line: what was answered stays as it is.
        text = (EXAMPLES / "stays.jsonl").read_text()
        lines = text.replace('"version":3', f'"version":{self.version}').splitlines(True)
        whole = (EXAMPLES / "stays.transcript").read_text().splitlines()
        strays = [text for text in whole if text.startswith('{"line"')]
        for count in range(1, len(lines) + 1):
            status, output, errors = run_bytes(
                "serve", "-", "--blocks", "12", text="".join(lines[:count]).encode()
            )
            assert (status, errors) == (0, b"")
            found = [text for text in output.decode().splitlines() if text.startswith('{"line"')]
            assert found == [text for text in strays if json.loads(text)["line"] <= count]


class TestStaysOfVersion5(TestStays):
    version = 5


class TestDevices(Hostile):
    @pytest.mark.slow
    def test_an_output_of_each_length_below_the_transcript(self):
        # A file with a size limit takes that number of bytes, and then writing fails. Python
        # ignores the signal of the limit (SIGXFSZ), and the program inherits that.
        _, hard = resource.getrlimit(resource.RLIMIT_FSIZE)
        handle, name = tempfile.mkstemp(prefix="hostile-")
        os.close(handle)
        place = Path(name)
        try:
            for room in range(len(SOLO_TEXT) + 1):
                limit = lambda: resource.setrlimit(resource.RLIMIT_FSIZE, (room, hard))
                with open(place, "wb") as output:
                    how = {"stdout": output, "restore_signals": False, "preexec_fn": limit}
                    status, _, errors = run_bytes("serve", "-", text=SOLO, **how)
                is_whole = room == len(SOLO_TEXT)
                wanted = b"" if is_whole else b"arena: write failed after %d bytes\n" % room
                assert (status, errors) == (0 if is_whole else 6, wanted)
                assert place.read_bytes() == SOLO_TEXT[:room]
        finally:
            place.unlink()

    def test_outputs_that_take_nothing(self):
        failed = (6, None, b"arena: write failed after 0 bytes\n")
        with open("/dev/full", "wb") as output:
            assert run_bytes("serve", "-", text=SOLO, stdout=output) == failed
        reader, writer = os.pipe()
        os.close(reader)
        with open(writer, "wb") as output:
            how = {"stdout": output, "restore_signals": False}
            assert run_bytes("serve", "-", text=SOLO, **how) == failed
        with open("/dev/null", "rb") as output:
            assert run_bytes("serve", "-", text=SOLO, stdout=output) == failed

    def test_a_pipe_that_is_full(self):
        reader, writer = os.pipe()
        room = fcntl.fcntl(writer, fcntl.F_SETPIPE_SZ, 4096)
        os.set_blocking(writer, False)
        text = SOLO + b'{"game":"a","do":"show"}\n' * 40
        with open(writer, "wb") as output, open(reader, "rb") as taken:
            status, _, errors = run_bytes("serve", "-", text=text, stdout=output)
            assert (status, errors) == (6, b"arena: write failed after %d bytes\n" % room)
            output.close()
            assert taken.read() == run_bytes("serve", "-", text=text)[1][:room]

    def test_a_reader_that_goes(self):
        """A transcript of 24 MB, which several threads render, and a reader that closes the pipe
        after some bytes."""
        names = [f"g{number}" for number in range(16)]
        rows = [{"game": name, "quota": 65_536} for name in names]
        solo = {"mode": "solo", "width": 11, "height": 11, "snakes": [snake(x=5, y=5)], "food": []}
        lines = [line(games=rows), *(line(game=name, do="new", **solo) for name in names)]
        lines += [line(game=name, do="show") for _ in range(5_000) for name in names]
        with tempfile.NamedTemporaryFile("w") as file:
            file.write(text_of(lines))
            file.flush()
            for workers, size in itertools.product((1, 2, 3, 4), (1, 300_000, 4_000_000)):
                words = ["serve", file.name, "--blocks", "512", "--workers", str(workers)]
                with subprocess.Popen(
                    [program.path, *words], stdout=subprocess.PIPE, stderr=subprocess.PIPE
                ) as ran:
                    assert len(ran.stdout.read(size)) == size
                    ran.stdout.close()
                    status = ran.wait(SECONDS)
                    assert (status, b"arena: write failed" in ran.stderr.read()) == (6, True)

    def test_inputs_that_cannot_be_read(self):
        reader, writer = os.pipe()
        os.set_blocking(reader, False)
        with open(reader, "rb") as empty, open(writer, "wb"):
            assert run_bytes("serve", "-", stdin=empty) == UNREAD
        with open("/dev/null", "wb") as output:
            assert run_bytes("serve", "-", stdin=output) == UNREAD
        for file in ("/", "no such file", "/dev/null/x", "x" * 300, "x/" * 3000, ""):
            assert run_bytes("serve", file) == UNREAD, file[:50]
            assert run_bytes("alone", file, "--game", "a") == UNREAD, file[:50]
        assert run_bytes("serve", "/dev/null") == P1
        assert run_bytes("serve", "/dev/zero") == TOO_LONG

    def test_an_input_that_comes_a_byte_at_a_time(self):
        pipe = subprocess.PIPE
        child = subprocess.Popen([program.path], stdin=pipe, stdout=pipe, stderr=pipe)
        for at in range(len(SOLO)):
            child.stdin.write(SOLO[at : at + 1])
            child.stdin.flush()
        output, errors = child.communicate(timeout=SECONDS)
        assert (child.returncode, output, errors) == (0, SOLO_TEXT, b"")
