"""Tests of how the library is installed: the names that it exports, pkg-config, the wheel, the
packages, and the examples; for tests/library."""
import re
import shutil
import sys

import pytest
from library_page import ran
from program import ROOT

pytestmark = [pytest.mark.slow, pytest.mark.usefixtures("library")]
BUILT = ROOT / "out/bindings"
HEADER = (ROOT / "bindings/c/arena.h").read_text()
with_cargo = pytest.mark.skipif(not shutil.which("cargo"), reason="there is no cargo")


def defined(path, *words):
    """The names that an object defines for others."""
    lines = ran("nm", "--defined-only", *words, path).splitlines()
    return {line.split()[-1] for line in lines if " " in line}


def declared():
    """The functions of arena.h that are not in the header itself."""
    text = re.sub(r"/\*.*?\*/", "", HEADER, flags=re.S)
    names = set(re.findall(r"^(?!static).*?\b(arena_\w+)\([^;{]*\);", text, re.M))
    sized = re.findall(r"arena_##size##_(\w+)\(", text)
    return names | {f"arena_{size}_{name}" for size in ("small", "large") for name in sized}


class TestExports:
    """Nothing is exported but what arena.h declares."""

    def test_names(self):
        names = declared()
        assert {"arena_turn", "arena_built", "arena_large_step"} <= names and len(names) >= 22
        assert defined(BUILT / "libarena.so.1", "--dynamic") == names
        assert defined(BUILT / "libarena.a", "--extern-only") == names

    def test_soname_and_needs(self):
        said = ran("objdump", "-p", BUILT / "libarena.so.1")
        assert re.findall(r"SONAME +(.*)", said) == ["libarena.so.1"]
        assert re.findall(r"NEEDED +(.*)", said) == ["libc.so.6"]

    def test_versions_agree(self):
        import arena_rules

        version = re.search(r'#define ARENA_VERSION "(.*)"', HEADER)[1]
        major, minor, patch = map(int, version.split("."))
        number = re.search(r"#define ARENA_VERSION_NUMBER (\d+)", HEADER)[1]
        assert int(number) == 10_000 * major + 100 * minor + patch
        assert arena_rules.__version__ == version == arena_rules.built()["version"]
        assert f'\nversion = "{version}"\n' in (ROOT / "bindings/rust/Cargo.toml").read_text()

    def test_built(self):
        import arena_rules

        built = arena_rules.built()
        lines = [f"{name}: {value}\n" for name, value in built.items()]
        assert (BUILT / "BUILT").read_text() == "".join(lines)
        assert list(built) == ["version", "commit", "kit", "library"]
        assert built["kit"] == ran("rt", "version").strip()
        assert re.fullmatch(r"[0-9a-f]{40}( with changes)?|none: not from git", built["commit"])
        assert built["library"].startswith(("proved", "UNPROVED: nothing", "not known: "))


C_PROGRAM = """
#include <arena.h>
#include <stdio.h>
#include <string.h>

int main(void) {
    static uint8_t record[ARENA_RECORD_BYTES], next[ARENA_RECORD_BYTES];
    const arena_cell starts[2] = {{1, 5}, {9, 5}};
    const uint8_t moves[2] = {ARENA_RIGHT, ARENA_LEFT};
    arena_seat_setup setup = arena_setup(11, 11, starts, 2, NULL, 0);
    arena_seat_orders orders = arena_orders(moves, 2, NULL, 0);
    size_t length;
    uint8_t status = arena_start(&setup, record, sizeof record, &length);
    if (status == ARENA_OK)
        status = arena_turn(record, length, &orders, next, sizeof next, &length);
    printf("%s, %zu bytes; %s\\n", arena_status_text(status), length, arena_status_text(9));
    arena_small_game game;
    arena_settings settings = {ARENA_WRAPPED, 11, 11, 2, 1, 15};
    static const uint8_t all[1] = {1};
    arena_many_starts first = arena_starts_of(1, settings, starts, NULL, 0, all);
    arena_many_orders many = arena_orders_of(1, moves, 2, NULL, 0);
    size_t started = arena_small_start(&game, 1, &first);
    arena_small_step(&game, 1, &many);
    printf("%zu started, turn %d, cause %d\\n", started, game.head.turn,
           game.head.seats[0].cause == ARENA_ALIVE);
    setup.width = 2;
    printf("%s\\n", arena_status_text(arena_start(&setup, record, sizeof record, &length)));
    return strcmp(arena_version(), ARENA_VERSION) || strncmp(arena_built(), "version: ", 9);
}
"""
C_SAYS = (
    "no fault, 41 bytes; no status of arena.h\n"
    "1 started, turn 1, cause 1\n"
    "a setup that exceeds a limit\n"
)


class TestC:
    """The header, by pkg-config, statically and shared, in C and in C++."""

    @pytest.fixture
    def flags(self):
        path = {"PKG_CONFIG_PATH": str(BUILT), "PATH": "/usr/bin:/bin"}
        if not shutil.which("pkg-config"):
            text = (BUILT / "arena.pc").read_text()
            assert "Libs: -L${libdir} -larena\nCflags: -I${includedir}\n" in text
            return [f"-I{ROOT}/bindings/c", f"-L{BUILT}", "-larena"]
        return ran("pkg-config", "--cflags", "--libs", "arena", env=path).split()

    @pytest.mark.parametrize("compiler", ["gcc", "g++"])
    @pytest.mark.parametrize("linked", ["static", "shared"])
    def test_a_program(self, flags, tmp_path, compiler, linked):
        source = tmp_path / ("program.c" if compiler == "gcc" else "program.cpp")
        source.write_text(C_PROGRAM)
        warnings = ["-Wall", "-Wextra", "-Werror", "-O2"]
        libraries = flags if linked == "shared" else [flags[0], BUILT / "libarena.a"]
        ran(compiler, *warnings, "-o", tmp_path / "program", source, *libraries)
        path = {"LD_LIBRARY_PATH": str(BUILT)} if linked == "shared" else {}
        assert ran(tmp_path / "program", env=path) == C_SAYS


class TestRust:
    """The crate's own tests and documents."""

    @with_cargo
    def test_cargo_test(self):
        said = ran("cargo", "test", "--offline", cwd=ROOT / "bindings/rust")
        assert said.count("test result: ok.") == 3 and "9 passed" in said and "3 passed" in said

    @with_cargo
    def test_cargo_doc(self):
        import os

        words = ["cargo", "doc", "--offline", "--no-deps"]
        flags = {**os.environ, "RUSTDOCFLAGS": "-Dwarnings"}
        ran(*words, cwd=ROOT / "bindings/rust", env=flags)

    @with_cargo
    def test_a_crate_elsewhere(self, tmp_path):
        """By the line that docs/SIMULATOR.md gives for Cargo.toml."""
        line = 'arena-rules = { path = "/where/arena/is/bindings/rust" }'
        assert f"`{line}`" in (ROOT / "docs/SIMULATOR.md").read_text()
        line = line.replace("/where/arena/is", str(ROOT))
        about = '[package]\nname = "bot"\nversion = "0.1.0"\nedition = "2021"\n'
        (tmp_path / "Cargo.toml").write_text(f"{about}[dependencies]\n{line}\n")
        (tmp_path / "src").mkdir()
        code = 'fn main() { println!("{:?}", arena_rules::is_legal(&[1])); }\n'
        (tmp_path / "src/main.rs").write_text(code)
        assert ran("cargo", "run", "--quiet", "--offline", cwd=tmp_path) == "Ok(false)\n"


class TestBuild:
    """What bindings/build takes."""

    def test_other_words(self):
        import subprocess

        words = [ROOT / "bindings/build", "--quick"]
        done = subprocess.run(words, capture_output=True, text=True)
        assert done.returncode == 2 and "no option --quick" in done.stderr
        first = words[0].read_text().split("set -euo", 1)[0]
        assert re.search(r"build --unproved +# compiles it without any proof: a minute\n", first)


class TestWheel:
    """`pip install ./bindings/python` in a fresh environment, without the network."""

    @pytest.fixture(scope="class")
    def python(self, library, tmp_path_factory):
        room = tmp_path_factory.mktemp("venv")
        ran(sys.executable, "-m", "venv", room)
        words = ["install", "--quiet", "--no-index", "--disable-pip-version-check"]
        ran(room / "bin/python", "-m", "pip", *words, ROOT / "bindings/python", cwd=room)
        return room / "bin/python"

    def test_the_installed_module(self, python, tmp_path):
        code = (
            "import arena_rules as it; from arena_rules import records;"
            "g = it.Games(1, seats=2); g.start([(1, 5), (9, 5)]); g.step([3, 2]);"
            "print(it.__version__, it.__file__, g.body(0, 0)[0], it.built()['version'])"
        )
        said = ran(python, "-I", "-c", code, cwd=tmp_path).split(" ", 1)
        assert said[0] == "1.1.0" and "site-packages/arena_rules" in said[1]
        assert said[1].endswith("(2, 5) 1.1.0\n")

    def test_what_pip_knows(self, python):
        said = ran(python, "-m", "pip", "show", "--files", "arena-rules")
        assert "Version: 1.1.0\n" in said and "libarena_rules.so" in said and "py.typed" in said

    def test_same_wheel_each_time(self, tmp_path):
        code = (
            "import sys; sys.path.insert(0, sys.argv[1]); import build_wheel as it;"
            "[it.build_wheel(folder) for folder in sys.argv[2:]];"
            "print(it.build_sdist(sys.argv[2]))"
        )
        folders = [tmp_path / "one", tmp_path / "two"]
        for folder in folders:
            folder.mkdir()
        said = ran(sys.executable, "-c", code, ROOT / "bindings/python", *folders)
        assert said == "arena_rules-1.1.0.tar.gz\n"
        wheels = [
            (it / "arena_rules-1.1.0-py3-none-linux_x86_64.whl").read_bytes() for it in folders
        ]
        assert wheels[0] == wheels[1]


class TestTypes:
    """The module is typed: `py.typed` says so."""

    def test_each_function(self):
        import ast

        count, untyped = 0, []
        for path in sorted((ROOT / "bindings/python/arena_rules").glob("*.py")):
            for node in ast.walk(ast.parse(path.read_text())):
                if not isinstance(node, ast.FunctionDef):
                    continue
                own = node.args
                given = [*own.posonlyargs, *own.args, *own.kwonlyargs, own.vararg, own.kwarg]
                names = [it.arg for it in given if it is not None and it.annotation is None]
                if [it for it in names if it != "self"] or node.returns is None:
                    untyped.append(f"{path.name}: {node.name}")
                count += 1
        assert count > 150 and untyped == []


class TestPackages:
    """What is in the Debian packages of the library, and what they say."""

    @pytest.fixture(scope="class")
    def package(self, library):
        sys.path.append(str(ROOT / "tools"))
        import library_package

        return library_package

    @staticmethod
    def write(path, text):
        path.parent.mkdir(parents=True, exist_ok=True)
        path.write_bytes(text if isinstance(text, bytes) else text.encode())

    def test_the_library_for_c(self, package, tmp_path):
        package.fill(tmp_path, "libarena-dev", self.write)
        lib = tmp_path / package.LIB
        assert (lib / "libarena.so").resolve() == lib / "libarena.so.1"
        text = (lib / "pkgconfig/arena.pc").read_text()
        assert text.startswith("prefix=/usr\nlibdir=${prefix}/lib/x86_64-linux-gnu\n")
        source = tmp_path / "program.c"
        source.write_text(C_PROGRAM)
        words = ["-I", tmp_path / "include", "-L", lib, "-larena"]
        ran("gcc", "-o", tmp_path / "program", source, *words)
        assert ran(tmp_path / "program", env={"LD_LIBRARY_PATH": str(lib)}) == C_SAYS

    def test_the_module_for_python(self, package, tmp_path):
        package.fill(tmp_path, "python3-arena-rules", self.write)
        path = str(tmp_path / "lib/python3/dist-packages")
        code = "import arena_rules as it; print(it.built()['version'], it.__file__.startswith(%r))"
        said = ran("/usr/bin/python3", "-c", code % path, env={"PYTHONPATH": path})
        assert said == "1.1.0 True\n"
        assert (tmp_path / "share/doc/python3-arena-rules/BUILT").is_file()

    def test_an_unproved_package_claims_nothing(self, package):
        for name in package.NAMES:
            proved, unproved = (package.control(name, "1.1.0", it) for it in (True, False))
            assert "PROVED" in proved and "UNPROVED" not in proved
            assert "UNPROVED: nothing of it was checked" in unproved
            assert "exact" not in unproved
            assert not re.search(r"(?<!UN)PROVED", unproved) and "proved" not in unproved

    def test_an_unproved_program_claims_nothing(self):
        code = (
            "import runpy, sys; sys.path.insert(0, sys.argv[1]);"
            "it = runpy.run_path(sys.argv[1] + '/package');"
            "[print(it['text_of'](name, '1', False)) for name in ('control', 'arena.1')]"
        )
        said = ran(sys.executable, "-c", code, ROOT / "tools")
        assert "NOTHING OF THIS BUILD WAS CHECKED." in said
        assert not re.search(r"(is|are) proved|\bproved to\b", said)


class TestExamples:
    """The bot that searches and the program that learns."""

    @pytest.fixture(autouse=True)
    def needs(self):
        pytest.importorskip("numpy")

    def test_learning(self, tmp_path):
        picture = tmp_path / "curve.svg"
        words = ["--updates", "22", "--seconds", "300", "--picture", picture]
        said = ran(sys.executable, ROOT / "examples/learn.py", *words)
        lengths = [float(it) for it in re.findall(r"a game lasts +([\d.]+)", said)]
        assert len(lengths) == 2 and lengths[0] < 4 and lengths[1] > 3 * lengths[0]
        assert picture.read_text().startswith("<svg") and "<polyline" in picture.read_text()

    def test_the_search_bot_keeps_off_walls_and_finds_food(self):
        pytest.importorskip("aiohttp")
        sys.path[:0] = [str(ROOT / "examples"), str(ROOT / "ladder/bots")]
        import search_bot
        from numpy.random import default_rng

        body = [{"x": 10, "y": y} for y in (10, 9, 8)]
        other = [{"x": 2, "y": y} for y in (2, 3, 4)]
        snakes = [
            {"id": "me", "health": 5, "body": body},
            {"id": "it", "health": 90, "body": other},
        ]
        for name in ("standard", "royale", "wrapped"):
            food = [{"x": 9, "y": 10}]
            board = {"width": 11, "height": 11, "food": food, "snakes": snakes, "hazards": food}
            state = {"board": board, "turn": 20, "you": snakes[0]}
            state["game"] = {"ruleset": {"name": name}}
            assert search_bot.choose(state, default_rng(1)) == "left"
