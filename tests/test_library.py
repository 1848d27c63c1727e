"""Tests of the library for C, Rust and Python, for tests/library."""
import ctypes
import shutil
from pathlib import Path

import library_page
import pytest
from library_page import ran
from program import ROOT

WARNINGS = ["-std=c11", "-O2", "-Wall", "-Wextra", "-Werror"]
BUILT = ROOT / "out/bindings/libarena.a"
pytestmark = [pytest.mark.slow, pytest.mark.usefixtures("library")]
with_cargo = pytest.mark.skipif(not shutil.which("cargo"), reason="there is no cargo")


@pytest.fixture
def library_games():
    """The module that draws games."""
    import library_games

    return library_games


def compiled(source, folder, *more):
    """A C program in a folder, linked with the library."""
    to = folder / Path(source).stem
    ran("gcc", *WARNINGS, f"-I{ROOT}/bindings/c", "-o", to, source, BUILT, *more)
    return to


def cargo_run(example, *words):
    """Runs an example of the Rust crate."""
    ran(
        "cargo", "build", "--offline", "--release", "--example", example, cwd=ROOT / "bindings/rust"
    )
    return ran(ROOT / "bindings/rust/target/release/examples" / example, *words)


class TestGames:
    """The same boards as `arena serve`, which are in the file of games."""

    @pytest.fixture(scope="class")
    def drawn(self, request, library):
        """The drawn games."""
        import library_games

        return library_games.draw(*map(request.config.getoption, ("--games", "--seed")))

    @pytest.fixture(scope="class")
    def file(self, drawn, tmp_path_factory):
        """The file of the drawn games."""
        import library_games

        file = tmp_path_factory.mktemp("library") / "games"
        library_games.write(drawn, file)
        return file

    def test_serve_has_the_same_boards(self, library_games, drawn, program):
        assert library_games.differences(drawn, program) == []

    def test_c(self, drawn, file, tmp_path):
        replay = compiled(ROOT / "tests/c/replay.c", tmp_path)
        assert ran(replay, file) == said(drawn)

    @with_cargo
    def test_rust(self, drawn, file):
        assert cargo_run("replay", file) == said(drawn)

    def test_python(self, library_games, drawn):
        assert library_games.replay(drawn) == said(drawn)


def said(games):
    """What each replay of these games prints."""
    return f"{len(games)} games, {sum(len(game.turns) for game in games)} turns agree\n"


class TestHazards:
    """Games with hazards, by the calls on records."""

    def test_serve_has_the_same_boards(self, library_games, program, request):
        games, seed = map(request.config.getoption, ("--games", "--seed"))
        drawn = library_games.draw_hazardous(max(games // 10, 20), seed)
        assert library_games.differences(drawn, program) == []


class TestRefusals:
    """What the calls refuse."""

    @pytest.fixture(autouse=True)
    def rules(self, library):
        from arena_rules import ArenaError, Games, records

        self.error, self.games, self.records = ArenaError, Games, records
        self.record = records.start([(1, 1), (5, 5)], width=7, height=7)

    def status(self, call, *words, **more):
        with pytest.raises(self.error) as caught:
            call(*words, **more)
        return caught.value.status

    def test_bytes_that_are_no_record(self):
        for bytes_ in (b"", b"\0", self.record[:-1], self.record + b"\0"):
            assert not self.records.is_legal(bytes_)
            assert self.status(self.records.is_over, bytes_) == 1
            assert self.status(self.records.turn, bytes_, [0, 0]) == 1
            assert self.status(self.games(1).load, 0, bytes_) == 1

    def test_setups(self):
        start = self.records.start
        assert self.status(start, []) == 2
        assert self.status(start, [(1, 1), (1, 1)]) == 2
        assert self.status(start, [(11, 0)]) == 2
        assert self.status(start, [(1, 1)], width=2) == 2
        assert self.status(start, [(1, 1)], food=[(0, 0), (0, 0)]) == 2
        assert self.status(start, [(1, 1)], food_chance=101) == 2
        assert self.status(start, [(1, 1)], hazards=[(11, 11)]) == 2
        assert self.status(start, [(x, 0) for x in range(9)]) == 2

    def test_the_last_turn(self):
        last = self.record[:4] + (10_000).to_bytes(2, "big") + self.record[6:]
        assert self.records.is_legal(last)
        assert self.status(self.records.turn, last, [0, 0]) == 3

    def test_room(self):
        from arena_rules.library import SeatOrders, library

        orders = SeatOrders(b"", 0, b"", 0, b"", 0, b"", 0, 0, 0)
        into, length = ctypes.create_string_buffer(b"x" * 40), ctypes.c_size_t(7)
        status = library.arena_turn(
            self.record, len(self.record), ctypes.byref(orders), into, 40, ctypes.byref(length)
        )
        assert (status, into.value, length.value) == (4, b"x" * 40, 7)

    def test_loads(self):
        hazardous = self.records.start([(1, 1)], hazards=[(2, 2)])
        large = self.records.start([(1, 1)], width=12)
        assert self.status(self.games(1).load, 0, hazardous) == 6
        assert self.status(self.games(1).load, 0, large) == 4

    def test_starts(self):
        games = self.games(4, seats=2)
        starts = [1, 1, 2, 2] + [1, 1, 1, 1] + [1, 1, 11, 0] + [0, 0, 10, 10]
        assert games.start(bytes(starts)) == 2
        assert [games.is_over(at) for at in range(4)] == [False, True, True, False]
        assert games.start(bytes(starts), bytes([3, 3, 3, 3] * 4)) == 0


class TestMemory:
    """Memory that holds anything, and memory that is refused."""

    def test_drawn_contents(self, tmp_path):
        assert "10000 contents" in ran(compiled(ROOT / "tests/c/garbage.c", tmp_path))

    def test_each_request_refused(self, tmp_path):
        wraps = "-Wl,--wrap=malloc,--wrap=realloc"
        assert "refused" in ran(compiled(ROOT / "tests/c/refused.c", tmp_path, wraps))


class TestAdvance:
    """One step of many environments in one call."""

    def test_as_turns_starts_and_planes(self, tmp_path):
        said = ran(compiled(ROOT / "tests/c/advance.c", tmp_path), "400")
        assert said.startswith("800 steps") and said.endswith("turns agree\n")


class TestLayout:
    """The declarations of each binding; those of C and Rust are compared by their replays."""

    def test_python(self, library_games):
        library_games.check_layout()


class TestPage:
    """The programs of docs/SIMULATOR.md, and what it says that they print."""

    def test_each_has_its_output(self):
        assert library_page.has_all_outputs()
        counts = [len(library_page.blocks(it)) for it in ("c", "python")]
        assert counts == [1, 4]

    def test_c(self, tmp_path):
        for number, (text, wanted) in enumerate(library_page.blocks("c")):
            source = tmp_path / f"page_{number}.c"
            source.write_text(text)
            assert ran(compiled(source, tmp_path)) == wanted

    @with_cargo
    def test_rust(self):
        printed = cargo_run("random_games").strip()
        assert f"`{printed}`" in library_page.PAGE.read_text()

    def test_python(self, tmp_path):
        library_page.check_python(tmp_path)
