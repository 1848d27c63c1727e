"""Worked examples on the built program, for tests/worked."""
import json

from program import ROOT, line, run, text_of

P1, P2, P3, P4 = ((4, "", f"arena: plan P{number}\n") for number in range(1, 5))
UNREAD = (3, "", "arena: cannot read the file\n")
NO_SUCH_GAME = (4, "", "arena: no such game\n")
PLAN = '{"games":[{"game":"a","quota":4096}]}'
TWO_PLANNED = '{"games":[{"game":"a","quota":64},{"game":"b","quota":64}]}'
LARGE_PLAN = '{"games":[{"game":"a","quota":16777216}]}'
ADMIT = '{"game":"%s","do":"admit","quota":64}'
SHOW_B = '{"game":"b","do":"show"}'
SIX_BLOCKS = text_of(['{"games":[],"version":3}', ADMIT % "a", ADMIT % "b", SHOW_B])
WITHOUT_A = text_of(['{"games":[],"version":3}', ADMIT % "b", SHOW_B])
SIX_BLOCKS_LEFT = '{"line":3,"no":"A4","why":"pool"}\n{"line":4,"no":"L2","why":"game"}\n'
NONE_B = '{"game":"b","no":"G2","seq":1,"why":"none"}\n'
L1 = '{"line":%d,"no":"L1","why":"json"}\n'
END_A, END_B = ('{"board":null,"charge":0,"final":true,"game":"%s"}\n' % name for name in "ab")
# A snake alone on a board of three by three that goes straight on and into the wall.
INTO_THE_WALL = (ROOT / "crates/arena/stdin").read_text()


# Command lines, the standard input, and the status, the output and the errors.
ANSWERS = [
    ([], "", P1),
    ([], '{"games":[]}', (0, "", "")),
    ([], '{"games":[]}\nx\n', (0, '{"line":2,"no":"L1","why":"json"}\n', "")),
    ([], '{"games":1}', P1),
    ([], '{"games":[{"game":"a","quota":15}]}', P2),
    ([], '{"games":[{"game":"a","quota":64},{"game":"a","quota":64}]}', P2),
    ([], line(games=[{"game": f"g{at}", "quota": 64} for at in range(65)]), P3),
    ([], '{"games":[],"version":4}', P1),
    ([], '{"games":[],"version":5}', (0, "", "")),
    ([], '{"games":[],"version":6}', P1),
    ([], TWO_PLANNED, (0, END_A + END_B, "")),
    (["serve", "-"], TWO_PLANNED, (0, END_A + END_B, "")),
    (["serve", "-", "--workers", "1"], TWO_PLANNED, (0, END_A + END_B, "")),
    (["serve", "-", "--workers", "4", "--blocks", "12"], TWO_PLANNED, (0, END_A + END_B, "")),
    (["serve", "-", "--blocks", "11"], TWO_PLANNED, P4),
    (["serve", "-", "--blocks", "14"], LARGE_PLAN, P4),
    (["serve", "-", "--blocks", "15"], LARGE_PLAN, (0, END_A, "")),
    (["serve", "-", "--workers", "4", "--blocks", "4096"], "", P1),
    (["serve", "-", "--workers", "1", "--blocks", "1"], '{"games":[]}', (0, "", "")),
    (["alone", "-", "--game", "a", "--blocks", "4096"], TWO_PLANNED, (0, END_A, "")),
    (["serve", "no such file"], "", UNREAD),
    (["serve", "/"], "", UNREAD),
    (["alone", "-", "--game", "a"], TWO_PLANNED, (0, END_A, "")),
    (["alone", "-", "--game", "b", "--blocks", "6"], TWO_PLANNED, (0, END_B, "")),
    (["alone", "-", "--game", "b", "--blocks", "5"], TWO_PLANNED, P4),
    (["alone", "-", "--game", "z"], INTO_THE_WALL, NO_SUCH_GAME),
    (["alone", "-", "--game", "z"], TWO_PLANNED, NO_SUCH_GAME),
    (["alone", "-", "--game", "z"], "x", P1),
    # Ten words with the program's name, and eleven.
    (
        ["alone", "--game", "b", "--stay", "1", "--blocks", "12", "--", "-"],
        TWO_PLANNED,
        (0, END_B, ""),
    ),
    (
        ["alone", "--game", "b", "--stay", "2", "--blocks", "12", "--", "-"],
        TWO_PLANNED,
        NO_SUCH_GAME,
    ),
    # An admission depends on the open games alone: the four lines of docs/ISOLATION.md.
    (["serve", "-", "--blocks", "6"], SIX_BLOCKS, (0, END_A + SIX_BLOCKS_LEFT, "")),
    (["live", "--blocks", "6"], SIX_BLOCKS, (0, SIX_BLOCKS_LEFT + END_A, "")),
    (["serve", "-", "--blocks", "6"], WITHOUT_A, (0, NONE_B + END_B, "")),
    (["serve", "-", "--blocks", "12"], SIX_BLOCKS, (0, END_A + NONE_B + END_B, "")),
    # Blank lines of each white space of JSON; a line of another white space is no JSON.
    ([], '{"games":[]}\n \n\t\n\r\n \t\r\n\n', (0, "", "")),
    ([], '{"games":[]}\n\t{oops\n', (0, '{"line":2,"no":"L1","why":"json"}\n', "")),
    ([], '{"games":[]}\n\v\n\f\n', (0, "".join(L1 % number for number in (2, 3)), "")),
    ([], '\t{"games":[]}\r\n', (0, "", "")),
]
# Command lines that are refused with a message of clap.
REFUSED = [
    ["serve"],
    ["serve", "-", "--blocks", "0"],
    ["serve", "-", "--blocks", "4097"],
    ["serve", "-", "--workers", "0"],
    ["serve", "-", "--workers", "5"],
    ["serve", "-", "--stay", "1"],
    ["alone", "-"],
    ["alone", "-", "--game", "a", "--workers", "2"],
    ["alone", "-", "--game", "a", "--blocks", "0"],
    ["alone", "-", "--game", "a", "--blocks", "4097"],
    ["alone", "-", "--game", "a", "--stay", "0"],
    ["play"],
    # More than nine words: none may be dropped.
    ["alone", "-", "--game", "a", "--stay", "1", "--blocks", "64", "more"],
    ["alone", "-", "--game", "a", "--stay", "1", "--blocks", "64", "--workers", "1"],
    ["serve", "-", *["--blocks", "64"] * 5],
]


class TestStatuses:
    def test_each_answer(self):
        for words, text, wanted in ANSWERS:
            assert run(*words, text=text) == wanted

    def test_refused_command_lines(self):
        for words in REFUSED:
            status, output, errors = run(*words, text='{"games":[]}')
            assert (status, output) == (2, "")
            assert errors.startswith("error: "), errors

    def test_help_has_the_options_and_their_defaults(self):
        for words, texts in (
            ([], ["serve", "alone", "Without a word it serves the standard input"]),
            (["serve"], ["--blocks", "[default: 64]", "--workers", "[default: 2]"]),
            (["alone"], ["--blocks", "[default: 64]", "--game", "--stay", "[default: 1]"]),
            (["live"], ["--blocks", "[default: 64]"]),
        ):
            status, output, errors = run(*words, "--help")
            assert (status, errors) == (0, "")
            for text in texts:
                assert text in output
            example = output.splitlines()[-1]
            assert example.startswith(" ".join(["Example: arena", *words])), example


def cells(*pairs):
    return [{"x": x, "y": y} for x, y in pairs]


def snake(name, x, y):
    return {"id": name, "x": x, "y": y}


def new(mode, side, snakes, **more):
    """A `new` on a square board, by default without food now or later."""
    members = {"food": [], "min_food": 0, "food_chance": 0, **more}
    return line(game="a", do="new", mode=mode, width=side, height=side, snakes=snakes, **members)


def move(*words):
    """A move without directions, with these words for food."""
    return line(game="a", do="move", moves={}, words=list(words))


EIGHT = [snake(name, 3 * at, 0) for at, name in enumerate("abcdefgh")]
G1 = '{"game":"a","no":"G1","seq":%d,"why":"command"}'


class TestGames:
    def answers(self, *lines):
        """The replies to the lines of a game with a quota of 4096 bytes."""
        status, transcript, errors = run(text=text_of([PLAN, *lines]))
        assert (status, errors) == (0, "")
        *replies, last = transcript.splitlines()
        assert '"final":true' in last
        assert len(replies) == len(lines)
        return [json.loads(reply) for reply in replies]

    def test_constrictor_has_no_food_and_grows(self):
        snakes = [snake("s", 1, 1), snake("t", 5, 1)]
        size = {"width": 7, "height": 7, "food": [{"x": 3, "y": 3}]}
        first = line(game="a", do="new", mode="constrictor", snakes=snakes, **size)
        replies = self.answers(first, move(), move(), move())
        assert [reply["charge"] for reply in replies] == [48, 96, 144, 208]
        assert [reply["board"]["turn"] for reply in replies] == [0, 1, 2, 3]
        for reply, parts in zip(replies, (3, 3, 4, 5)):
            assert reply["board"]["food"] == []
            for seat in reply["board"]["snakes"]:
                assert (len(seat["body"]), seat["health"]) == (parts, 100)
        body = replies[3]["board"]["snakes"][0]["body"]
        assert body == cells((1, 4), (1, 3), (1, 2), (1, 1), (1, 1))

    def test_words_decide_the_food(self):
        one, two = [(0, 2)], [(0, 2), (2, 2)]
        for min_food, chance, words, food in (
            (1, 0, [5], one),
            (1, 0, [], []),
            (2, 0, [5, 5], two),
            (0, 15, [115, 8], []),
            (0, 15, [114, 8], [(1, 0)]),
            (0, 99, [99, 8], []),
            (0, 100, [99, 8], [(1, 0)]),
            (255, 0, [0, 0, 0], [(0, 0), (1, 0), (2, 0)]),
        ):
            first = new("solo", 3, [snake("s", 1, 1)], min_food=min_food, food_chance=chance)
            replies = self.answers(first, move(*words))
            assert replies[0]["board"]["food"] == []
            assert replies[1]["board"]["food"] == cells(*food)

    def test_the_most_words_of_a_move(self):
        # s is on (0, 1) and (0, 0) then, so the first free cells are (1, 0) to (24, 0), and then
        # (1, 1) to (8, 1): one for each of 32 words. The 33rd food has no word.
        first = new("solo", 25, [snake("s", 0, 0)], min_food=33)
        boards = [it["board"] for it in self.answers(first, move(*[0] * 32), move(0))]
        row = [(x, 0) for x in range(1, 25)]
        assert boards[1]["food"] == cells(*row, *((x, 1) for x in range(1, 9)))
        assert len(boards[2]["food"]) == 33

    def test_the_longest_id_of_a_move(self):
        name = "s" * 64
        way = line(game="a", do="move", moves={name: "right", name + "s": "left"})
        board = self.answers(new("solo", 5, [snake(name, 1, 1)]), way)[1]["board"]
        assert board["snakes"][0]["body"] == cells((2, 1), (1, 1), (1, 1))

    def test_one_snake_of_standard_is_over_at_once(self):
        first, second = self.answers(new("standard", 3, [snake("s", 1, 1)]), move())
        assert first["board"]["over"]
        assert second == {"game": "a", "no": "G4", "seq": 2, "why": "over"}

    def test_eight_snakes_and_the_longest_sides(self):
        snakes = [*EIGHT, snake("i", 24, 0)]
        first, *others = self.answers(
            new("standard", 25, EIGHT), new("standard", 26, EIGHT[:1]), new("standard", 25, snakes)
        )
        assert (first["charge"], first["board"]["turn"], first["seq"]) == (144, 0, 1)
        assert [seat["id"] for seat in first["board"]["snakes"]] == list("abcdefgh")
        assert others == [json.loads(G1 % seq) for seq in (2, 3)]


# The cells of two squares and the way from each to the next: s goes round in one, t in the other.
ROUND_OF_S = [((2, 0), "up"), ((2, 1), "left"), ((1, 1), "down"), ((1, 0), "right")]
ROUND_OF_T = [((3, 2), "right"), ((4, 2), "down"), ((4, 1), "left"), ((3, 1), "up")]


def approach(turns):
    """The starts of two snakes, and their moves of that many turns, at least four. Then s is on
    (2, 2), (2, 1) and (2, 0), and t on (3, 2), (3, 1) and (4, 1). Each turn costs 1 health."""
    first_of_s, first_of_t = (2 - turns) % 4, -turns % 4
    moves_of_s = [ROUND_OF_S[(first_of_s + turn) % 4][1] for turn in range(turns - 2)]
    moves_of_t = [ROUND_OF_T[(first_of_t + turn) % 4][1] for turn in range(turns)]
    starts = snake("s", *ROUND_OF_S[first_of_s][0]), snake("t", *ROUND_OF_T[first_of_t][0])
    return list(starts), list(zip([*moves_of_s, "up", "up"], moves_of_t))


def moved(s, t, **more):
    return line(game="a", do="move", moves={"s": s, "t": t}, **more)


def after(turns, hazards, *last, **more):
    """The lines of a game on a board of five by five: the approach, and these last moves."""
    starts, moves = approach(turns)
    first = new("standard", 5, starts, hazards=cells(*hazards), **more)
    return [first, *(moved(s, t) for s, t in moves), *last]


def end_of(snake):
    return snake["health"], snake["cause"], snake["by"], snake["out"]


AHEAD = (2, 3)  # the cell that s enters after its approach
ONTO_IT = moved("up", "right")
ALIVE = (None, None, None)


class TestHazards:
    def replies(self, lines, version=5):
        plan = line(games=[{"game": "a", "quota": 65_536}], version=version)
        status, transcript, errors = run(text=text_of([plan, *lines]))
        assert (status, errors) == (0, "")
        replies = [json.loads(reply) for reply in transcript.splitlines()]
        assert len(replies) == len(lines) + 1
        return replies[:-1]

    def last_board(self, lines, version=5):
        return self.replies(lines, version)[-1]["board"]

    def test_the_approach(self):
        for turns in (10, 11, 85, 99):
            s, t = self.last_board(after(turns, []))["snakes"]
            assert s["body"] == cells((2, 2), (2, 1), (2, 0))
            assert t["body"] == cells((3, 2), (3, 1), (4, 1))
            for snake in (s, t):
                assert end_of(snake) == (100 - turns, *ALIVE)

    def test_a_head_on_a_hazard_is_hurt(self):
        # 90 - 1 - 14, and 14 for each further entry of the cell.
        for hazards, more, health in (
            ([AHEAD], {}, 75),
            ([AHEAD, AHEAD], {}, 61),
            ([AHEAD, (0, 4), AHEAD, AHEAD], {}, 47),
            ([AHEAD] * 5, {}, 19),
            ([AHEAD] * 6, {}, 5),
            ([AHEAD] * 2_500, {"hazard_damage": 0}, 89),
            ([(2, 4), (1, 3), (3, 3)], {}, 89),
            ([AHEAD], {"hazard_damage": 0}, 89),
            ([AHEAD], {"hazard_damage": 88}, 1),
        ):
            board = self.last_board(after(10, hazards, ONTO_IT, **more))
            s, t = board["snakes"]
            assert end_of(s) == (health, *ALIVE)
            assert end_of(t) == (89, *ALIVE)
            assert s["body"] == cells((2, 3), (2, 2), (2, 1))
            assert board["hazards"] == cells(*hazards)
            assert board["hazard_damage"] == more.get("hazard_damage", 14)

    def test_food_under_the_head_protects(self):
        lines = after(10, [AHEAD, AHEAD], ONTO_IT, food=cells(AHEAD), hazard_damage=100)
        board = self.last_board(lines)
        s = board["snakes"][0]
        assert end_of(s) == (100, *ALIVE)
        assert s["body"] == cells((2, 3), (2, 2), (2, 1), (2, 1))
        assert (board["food"], board["hazards"]) == ([], cells(AHEAD, AHEAD))

    def test_no_health_left(self):
        # 15 - 1 - 14 is 0. t comes onto the body of s in the same turn, and lives.
        board = self.last_board(after(85, [AHEAD], moved("up", "left")))
        s, t = board["snakes"]
        assert end_of(s) == (0, "hazard", None, 86)
        assert s["body"] == cells((2, 3), (2, 2), (2, 1))
        assert end_of(t) == (14, *ALIVE)
        assert t["body"] == cells((2, 2), (3, 2), (3, 1))
        assert board["over"]

    def test_starved_on_a_hazard_and_beside_one(self):
        for damage in (0, 14, 100):
            board = self.last_board(after(99, [AHEAD], ONTO_IT, hazard_damage=damage))
            s, t = board["snakes"]
            assert end_of(s) == (0, "hazard", None, 100)
            assert end_of(t) == (0, "out-of-health", None, 100)

    def test_two_heads_on_one_hazard(self):
        # Both go round in squares. s eats in turn 1, t in turn 81, so in turn 91 their health is 10
        # and 90. In turn 92 they meet: 10 - 1 - 14 is below 0, and 90 - 1 - 14 is 75.
        starts = [snake("s", 1, 2), snake("t", 3, 2)]
        ways = [("left", "right"), ("up", "up"), ("right", "left"), ("down", "down")]
        moves = [moved(*ways[turn % 4]) for turn in range(91)]
        moves[79] = moved("down", "down", food=cells((4, 2)))
        first = new("standard", 5, starts, food=cells((0, 2)), hazards=cells(AHEAD))
        boards = [it["board"] for it in self.replies([first, *moves, moved("right", "left")])]
        assert [end_of(it)[0] for it in boards[91]["snakes"]] == [10, 90]
        s, t = boards[92]["snakes"]
        assert end_of(s) == (0, "hazard", None, 92)
        assert end_of(t) == (75, *ALIVE)
        assert s["body"] == cells((2, 3), (1, 3), (0, 3), (0, 2))
        assert t["body"] == cells((2, 3), (3, 3), (4, 3), (4, 2))

    def test_at_the_edge(self):
        everywhere = [(x, y) for y in range(5) for x in range(5)]
        starts = [snake("s", 4, 2), snake("t", 0, 0)]
        for mode, ends in (
            ("standard", [(99, "wall-collision", None, 1), (85, *ALIVE)]),
            ("wrapped", [(85, *ALIVE), (85, *ALIVE)]),
            ("constrictor", [(99, "wall-collision", None, 1), (100, *ALIVE)]),
        ):
            first = new(mode, 5, starts, hazards=cells(*everywhere))
            board = self.last_board([first, moved("right", "up")])
            assert [end_of(it) for it in board["snakes"]] == ends

    def test_wrapped_counts_the_cell_across_the_edge(self):
        starts = [snake("s", 4, 2), snake("t", 2, 4)]
        first = new("wrapped", 5, starts, hazards=cells((0, 2), (2, 0), (2, 0)))
        s, t = self.last_board([first, moved("right", "up")])["snakes"]
        assert (s["body"][0], end_of(s)) == ({"x": 0, "y": 2}, (85, *ALIVE))
        assert (t["body"][0], end_of(t)) == ({"x": 2, "y": 0}, (71, *ALIVE))

    def test_constrictor_has_full_health_at_the_end_of_a_turn(self):
        starts = [snake("s", 1, 1), snake("t", 3, 1)]
        for damage, end in ((98, (100, *ALIVE)), (99, (0, "hazard", None, 1))):
            more = {"hazards": cells((1, 2)), "hazard_damage": damage}
            lines = [new("constrictor", 5, starts, **more), moved("up", "up")]
            ends = [end_of(it) for it in self.last_board(lines)["snakes"]]
            assert ends == [end, (100, *ALIVE)]

    def test_hazards_that_a_move_gives_hurt_from_the_next_turn_on(self):
        lines = after(10, [(0, 0)], moved("up", "up", hazards=cells(AHEAD)), moved("up", "left"))
        *_, first, second = [it["board"] for it in self.replies(lines)]
        assert first["hazards"] == cells(AHEAD)
        assert [end_of(it) for it in first["snakes"]] == [(89, *ALIVE)] * 2
        # t comes onto the hazard, and so onto the body of s: 89 - 1 - 14.
        assert second["hazards"] == cells(AHEAD)
        ends = [end_of(it) for it in second["snakes"]]
        assert ends == [(88, *ALIVE), (74, "snake-collision", "s", 12)]

    def test_which_hazards_a_move_gives(self):
        starts = [snake("s", 0, 0), snake("t", 4, 4)]
        first = new("standard", 5, starts, hazards=cells((2, 2), (1, 3)))
        off = [(5, 0), (0, 5), (24, 24)]
        for more, hazards in (
            ({}, [(2, 2), (1, 3)]),
            ({"hazards": []}, []),
            ({"hazards": cells(*off)}, []),
            ({"hazards": cells(off[0], (4, 0), *off[1:], (4, 0), (0, 4))}, [(4, 0)] * 2 + [(0, 4)]),
        ):
            board = self.last_board([first, moved("up", "down", **more)])
            assert board["hazards"] == cells(*hazards)

    def test_which_food_a_move_gives(self):
        # s is on (1, 0) and (0, 0) then, t on (4, 3) and (4, 4). If t runs into the wall, its body
        # takes no cell.
        starts = [snake("s", 0, 0), snake("t", 4, 4)]
        first = new("standard", 5, starts, food=cells((2, 2)), hazards=cells((3, 1)))
        for given, way, food in (
            ([(1, 1)], "down", [(2, 2), (1, 1)]),
            ([(2, 2)], "down", [(2, 2)]),
            ([(0, 0)], "down", [(2, 2)]),
            ([(1, 0)], "down", [(2, 2)]),
            ([(4, 4)], "down", [(2, 2)]),
            ([(5, 0)], "down", [(2, 2)]),
            ([(0, 5), (24, 24)], "down", [(2, 2)]),
            ([(3, 1), (1, 1), (3, 1)], "down", [(2, 2), (3, 1), (1, 1)]),
            ([(4, 4)], "up", [(2, 2), (4, 4)]),
        ):
            board = self.last_board([first, moved("right", way, food=cells(*given))])
            assert board["food"] == cells(*food)

    def test_the_longest_list_of_food(self):
        # All cells of the longest board, of which the snakes take four: s is on (1, 0) and (0, 0)
        # then, t on (24, 23) and (24, 24).
        starts = [snake("s", 0, 0), snake("t", 24, 24)]
        all_cells = [(x, y) for y in range(25) for x in range(25)]
        lines = [new("standard", 25, starts), moved("right", "down", food=cells(*all_cells))]
        food = self.last_board(lines)["food"]
        assert food == cells(*all_cells[2:599], *all_cells[600:624])
        assert len(food) == 621

    def test_food_that_a_move_gives_comes_after_that_of_its_words(self):
        # The first free cell is (2, 0): s is on (1, 0) and (0, 0).
        starts = [snake("s", 0, 0), snake("t", 4, 4)]
        for mode, food in (("standard", [(2, 0), (3, 0)]), ("constrictor", [])):
            first = new(mode, 5, starts, min_food=1)
            given = cells((2, 0), (3, 0))
            board = self.last_board([first, moved("right", "down", words=[0], food=given)])
            assert board["food"] == cells(*food)

    def test_other_versions_ignore_the_members(self):
        given = moved("up", "right", hazards=cells(AHEAD), food=cells((0, 4)))
        bad = moved("up", "right", hazards="x", food=[3])
        for version in (1, 2, 3):
            for lines in (
                after(10, [AHEAD], given, hazard_damage=100),
                after(10, [(5, 0)], bad, hazard_damage=101),
            ):
                boards = [it["board"] for it in self.replies(lines, version)]
                for board in (boards[0], boards[-1]):
                    assert "hazards" not in board
                    assert "hazard_damage" not in board
                assert end_of(boards[-1]["snakes"][0]) == (89, *ALIVE)
                assert boards[-1]["food"] == []

    def test_refused_members(self):
        one = [snake("s", 1, 1)]
        for more in (
            {"hazard_damage": 101},
            {"hazards": cells((5, 0))},
            {"hazards": cells(*[(0, 0)] * 2_501)},
        ):
            replies = self.replies([new("solo", 5, one, **more)])
            assert replies == [json.loads(G1 % 1)]
        most = {"hazard_damage": 100, "hazards": cells(*[(4, 4)] * 2_500)}
        board = self.last_board([new("solo", 5, one, **most)])
        assert board["hazards"] == cells(*[(4, 4)] * 2_500)

    def test_the_lines_of_a_game(self):
        # The record has 11 bytes, 3 and 4 for two hazards, and 15 for the snake: 33, charged 48.
        # After the move there is one hazard less, and one food: 33 again.
        plan = '{"games":[{"game":"a","quota":4096}],"version":5}'
        lines = [
            '{"game":"a","do":"new","mode":"solo","width":7,"height":5,"food":[],"min_food":0,'
            '"food_chance":0,"snakes":[{"id":"s","x":1,"y":1}],"hazard_damage":14,'
            '"hazards":[{"x":6,"y":4},{"x":1,"y":2}]}',
            '{"game":"a","do":"move","moves":{"s":"up"},"food":[{"x":0,"y":0}],'
            '"hazards":[{"x":6,"y":0},{"x":6,"y":5}]}',
        ]
        rest = '"height":5,"min_food":0,"mode":"solo","over":false,"snakes":[{"body":'
        here, there = '{"x":1,"y":1}', '{"x":1,"y":2}'
        start = (
            '{"board":{"food":[],"food_chance":0,"hazard_damage":14,'
            f'"hazards":[{{"x":6,"y":4}},{{"x":1,"y":2}}],{rest}[{here},{here},{here}],"by":null,'
            '"cause":null,"health":100,"id":"s","out":null}],"turn":0,"width":7},"charge":48,'
        )
        end = (
            '{"board":{"food":[{"x":0,"y":0}],"food_chance":0,"hazard_damage":14,'
            f'"hazards":[{{"x":6,"y":0}}],{rest}[{there},{here},{here}],"by":null,'
            '"cause":null,"health":85,"id":"s","out":null}],"turn":1,"width":7},"charge":96,'
        )
        wanted = [
            start + '"do":"new","game":"a","seq":1}',
            end + '"do":"move","game":"a","seq":2}',
            end + '"final":true,"game":"a"}',
        ]
        text = text_of([plan, *lines])
        for words in ([], ["alone", "-", "--game", "a"], ["live"]):
            assert run(*words, text=text) == (0, text_of(wanted), "")
