"""Tests of ./arena and tools/prove, for tests/starter: over a small tree of crates, by a stand-in
for the kit, whose rt is the kit's own and whose prover only notes what it was called for."""
from __future__ import annotations

import os
import shutil
import signal
import subprocess
import time
from collections.abc import Callable
from dataclasses import dataclass
from pathlib import Path

import pytest
from program import ROOT

LISTED = """# Each line names a crate and the libraries that it uses.
low:
left: low
right: low
tests_left: left
arena: left right
"""
TOOLS = [ROOT / it for it in ("arena", "KIT", "tools/package", "tools/prove")]
TOOLS += (ROOT / "tools").glob("*.py")
CRATES = ["low", "left", "right", "arena"]
PROVER = '''#!/usr/bin/env python3
"""Notes each call, takes as long as the sources say, and builds what prints its sources."""
import os, re, sys, time
if "--help" in sys.argv:
    sys.exit(print("so far: new or changed"))
words = dict(zip(sys.argv, sys.argv[1:]))
name, to = words["--crate-name"], words["-o"]
text = open([it for it in sys.argv if it.startswith("src/")][0]).read()
log = os.path.dirname(os.path.dirname(os.path.abspath(__file__))) + "/log"
started = time.time()
print("so far: 1 of 2 checked", flush=True)
time.sleep(float(re.search("// seconds ([0-9.]+)", text)[1]))
with open(log, "a") as it:
    it.write(f"{name} {words['--jobs']} {started} {time.time()}\\n")
if "wrong" in text:
    sys.exit("fn f: not proved")
if to.endswith(".rlib"):
    os.makedirs(to)
    to += "/checked"
with open(to, "w") as it:
    it.write(f"#!/bin/sh\\necho {name} {len(text)} \\"$@\\"\\n")
'''
LINKER = """#!/usr/bin/env python3
import os, shutil, sys
to = sys.argv[sys.argv.index("-o") + 1]
shutil.copyfile(to + ".o", to)
os.chmod(to, 0o755)
"""


@dataclass
class Place:
    """A folder with a kit, a folder of proved libraries, and clones."""

    top: Path

    def environment(self, **more: str) -> dict[str, str]:
        paths = f"{self.top}/kit/bin:{os.environ['PATH']}"
        return {**os.environ, "PATH": paths, "ARENA_PROVED": f"{self.top}/proved", **more}

    def clone(self, name: str, **seconds: float) -> Path:
        """A clone, whose crates take this many seconds each to prove."""
        root = self.top / name
        for crate in [*CRATES, "tests_left"]:
            source = root / f"crates/{crate}/src/{'main' if crate == 'arena' else 'lib'}.rt"
            source.parent.mkdir(parents=True)
            source.write_text(f"// seconds {seconds.get(crate, 0)}\n")
        (root / "crates.txt").write_text(LISTED)
        (root / "tools").mkdir()
        for file in TOOLS:
            shutil.copy(file, root / file.relative_to(ROOT))
        return root

    def run(self, root: Path, *words: str, **more: str) -> subprocess.CompletedProcess[str]:
        """Runs ./arena of a clone."""
        command = [str(root / "arena"), *words]
        environment = self.environment(**more)
        return subprocess.run(command, capture_output=True, text=True, env=environment)

    def proofs(self) -> list[list[str]]:
        """What was proved since the last call, with its jobs, and the times of start and end."""
        log = self.top / "kit/log"
        lines = log.read_text().splitlines() if log.exists() else []
        log.unlink(missing_ok=True)
        return [line.split() for line in lines]

    def proved(self) -> list[str]:
        """The names of what was proved since the last call, in the order of their ends."""
        return [words[0] for words in self.proofs()]


@pytest.fixture(scope="module", autouse=True)
def run_given_program() -> None:
    """Nothing here runs the built program, in place of tests/conftest.py's."""


@pytest.fixture
def place(tmp_path: Path) -> Place:
    """A folder with a stand-in for the kit."""
    found = shutil.which("rt")
    if not found:
        pytest.fail("there is no rt on the PATH")
    kit, to = Path(found).resolve().parent.parent, tmp_path / "kit"
    (to / "bin").mkdir(parents=True)
    for path in [*kit.iterdir(), *(kit / "bin").iterdir()]:
        if path.name not in ("bin", "rattle", "rattle-link", "rt", "rtlib.py"):
            (to / path.relative_to(kit)).symlink_to(path)
    for name in ("rt", "rtlib.py"):  # rt takes the kit that it lies in
        shutil.copy(kit / "bin" / name, to / "bin" / name)
    for name, text in {"rattle": PROVER, "rattle-link": LINKER}.items():
        (to / "bin" / name).write_text(text)
        (to / "bin" / name).chmod(0o755)
    return Place(tmp_path)


def edit(root: Path, crate: str, text: str = "// edited\n") -> None:
    """Adds a line to a source."""
    source = next((root / f"crates/{crate}/src").iterdir())
    source.write_text(source.read_text() + text)


class TestFirst:
    """A clone in which nothing is built."""

    def test_all_below_is_proved_once(self, place: Place) -> None:
        root = place.clone("a")
        first, second = place.run(root, "x"), place.run(root, "y")
        assert (first.returncode, first.stdout) == (0, "arena 13 x\n")
        assert "the program is not built yet. First its 4 crates are proved" in first.stderr
        assert "4 of 4  arena is proved" in first.stderr
        assert (second.stdout, second.stderr) == ("arena 13 y\n", "")
        proved = place.proved()
        assert sorted(proved) == sorted(CRATES)
        assert (proved[0], proved[3]) == ("low", "arena")

    def test_two_run_side_by_side(self, place: Place) -> None:
        root = place.clone("a", left=2, right=2)
        assert place.run(root).returncode == 0
        times = {name: (float(start), float(end)) for name, _, start, end in place.proofs()}
        assert times["left"][0] < times["right"][1] and times["right"][0] < times["left"][1]

    def test_jobs_are_those_of_the_processors(self, place: Place) -> None:
        root = place.clone("a", left=0.5, right=0.5)
        command = ["taskset", "-c", "0", str(root / "arena")]
        assert subprocess.run(command, env=place.environment()).returncode == 0
        assert [jobs for _, jobs, *_ in place.proofs()] == ["1"] * 4

    def test_progress_is_said(self, place: Place) -> None:
        root = place.clone("a", left=1.5, right=1.5)
        command = [str(root / "tools/prove"), "--beat", "0.5"]
        ran = subprocess.run(command, capture_output=True, text=True, env=place.environment())
        goes_on = [line for line in ran.stderr.splitlines() if "left goes on" in line]
        assert ran.returncode == 0 and "right goes on: 1 of 2 checked" in goes_on[-1]
        assert " 1 of 4 " in goes_on[-1]

    def test_a_failure_is_explained(self, place: Place) -> None:
        root = place.clone("a")
        edit(root, "left", "// wrong\n")
        ran = place.run(root)
        assert (ran.returncode, ran.stdout) == (1, "")
        assert "left is NOT proved and built: rt ended with status 1" in ran.stderr
        assert "fn f: not proved" in ran.stderr
        assert "'cd crates/left && rt check' tells more" in ran.stderr
        assert "arena" not in place.proved()
        edit(root, "left", "// mended\n")
        assert place.run(root).returncode == 1
        source = root / "crates/left/src/lib.rt"
        source.write_text("// seconds 0\n")
        assert place.run(root).returncode == 0

    def test_a_signal_ends_all(self, place: Place) -> None:
        root = place.clone("a", left=60, right=60)
        words = {"stderr": subprocess.PIPE, "text": True, "env": place.environment()}
        ran = subprocess.Popen([root / "arena"], **words)  # type: ignore[call-overload]
        wait_for(lambda: (root / "crates/left/out/rlib").exists())
        ran.send_signal(signal.SIGTERM)
        said = ran.communicate()[1]
        assert ran.returncode == 130 and "stopped. What was proved is kept" in said
        wait_for(lambda: not running(str(root / "crates")))
        assert place.proved() == ["low"]


def wait_for(holds: Callable[[], bool]) -> None:
    """Waits until something holds."""
    for _ in range(3000):
        if holds():
            return
        time.sleep(0.1)
    pytest.fail("it never held")


def running(folder: str) -> list[str]:
    """The processes whose folder is below a folder."""
    found = []
    for process in Path("/proc").glob("[0-9]*"):
        try:
            if str((process / "cwd").readlink()).startswith(folder):
                found.append(process.name)
        except OSError:
            pass
    return found


class TestStale:
    """Whether what is built is of today's sources: first by times, and then by content."""

    def test_a_copied_out_runs_at_once(self, place: Place) -> None:
        first = place.clone("a")
        place.run(first)
        second = place.clone("b")
        for crate in CRATES:
            shutil.copytree(first / f"crates/{crate}/out", second / f"crates/{crate}/out")
        os.utime(second / "crates/arena/out/arena", (1, 1))
        place.proved()
        ran = place.run(second, "z", ARENA_PROVED="")
        assert (ran.stdout, ran.stderr) == ("arena 13 z\n", "")
        assert place.proved() == []
        program = second / "crates/arena/out/arena"
        assert program.stat().st_mtime > (second / "crates.txt").stat().st_mtime

    def test_a_copied_program_without_its_stamp_is_built_again(self, place: Place) -> None:
        first, second = place.clone("a"), place.clone("b")
        place.run(first)
        (second / "crates/arena/out").mkdir()
        shutil.copyfile(first / "crates/arena/out/arena", second / "crates/arena/out/arena")
        (second / "crates/arena/out/arena").chmod(0o755)
        os.utime(second / "crates/arena/out/arena", (1, 1))
        ran = place.run(second, ARENA_PROVED="")
        assert ran.returncode == 0 and "the program is older than crates" in ran.stderr

    def test_what_is_edited_is_proved_with_what_lies_above(self, place: Place) -> None:
        root = place.clone("a")
        place.run(root)
        place.proved()
        edit(root, "left")
        ran = place.run(root)
        assert "the program is older than crates/left/src/lib.rt" in ran.stderr
        assert place.proved() == ["left", "arena"]

    def test_a_time_alone_proves_nothing(self, place: Place) -> None:
        root = place.clone("a")
        place.run(root)
        place.proved()
        os.utime(root / "crates/low/src/lib.rt")
        assert place.run(root).stderr == "" and place.proved() == []

    def test_another_program_is_not_current(self, place: Place) -> None:
        root = place.clone("a")
        place.run(root)
        program = root / "crates/arena/out/arena"
        program.write_text("#!/bin/sh\necho another\n")
        os.utime(program, (1, 1))
        assert place.run(root).stdout == "arena 13\n"


class TestFolder:
    """The folder of proved libraries."""

    def test_a_second_clone_takes_the_program(self, place: Place) -> None:
        place.run(place.clone("a"))
        place.proved()
        second = place.clone("b")
        ran = place.run(second, "x")
        assert ran.stdout == "arena 13 x\n" and place.proved() == []
        assert f"it is taken from {place.top}/proved, proved there before" in ran.stderr
        assert not (second / "crates/low/out").exists()

    def test_a_second_clone_proves_what_differs(self, place: Place) -> None:
        place.run(place.clone("a"))
        place.proved()
        second = place.clone("b")
        edit(second, "right")
        ran = place.run(second)
        assert ran.returncode == 0 and place.proved() == ["right", "arena"]
        assert "low is taken from" in ran.stderr and "left is taken from" in ran.stderr

    def test_it_has_a_file_for_each_stamp(self, place: Place) -> None:
        root = place.clone("a")
        place.run(root)
        stamps = [(root / f"crates/{it}/out/rlib/stamp").read_text() for it in CRATES[:3]]
        stamps.append((root / "crates/arena/out/arena.stamp").read_text()[:64])
        assert sorted(it.name for it in (place.top / "proved").iterdir()) == sorted(
            f"{stamp}.tar" for stamp in stamps
        )
        assert (place.top / "proved").stat().st_mode & 0o777 == 0o700

    def test_a_file_of_another_crate_is_not_used(self, place: Place) -> None:
        first = place.clone("a")
        place.run(first)
        stamps = [(first / f"crates/{it}/out/rlib/stamp").read_text() for it in ("low", "left")]
        shutil.copyfile(*(place.top / f"proved/{stamp}.tar" for stamp in reversed(stamps)))
        arena = (first / "crates/arena/out/arena.stamp").read_text()[:64]
        (place.top / f"proved/{arena}.tar").write_bytes(b"cut")
        place.proved()
        assert place.run(place.clone("b")).returncode == 0
        assert place.proved() == ["low", "arena"]

    def test_none_is_used_if_it_is_empty(self, place: Place) -> None:
        home = str(place.top / "home")
        for name in "ab":
            place.run(place.clone(name), ARENA_PROVED="", XDG_CACHE_HOME=home)
            assert sorted(place.proved()) == sorted(CRATES)
        assert not Path(home).exists()

    def test_the_cache_folder_is_used_if_none_is_named(self, place: Place) -> None:
        for name, count in {"a": 4, "b": 0}.items():
            environment = place.environment(XDG_CACHE_HOME=str(place.top / "home"))
            del environment["ARENA_PROVED"]
            ran = subprocess.run([place.clone(name) / "arena"], env=environment)
            assert ran.returncode == 0 and len(place.proved()) == count
        assert len(list((place.top / "home/arena").iterdir())) == 4

    def test_one_that_others_write_to_is_not_used(self, place: Place) -> None:
        place.run(place.clone("a"))
        (place.top / "proved").chmod(0o777)
        place.proved()
        ran = place.run(place.clone("b"))
        assert "is not used: others than you may write to it" in ran.stderr
        assert sorted(place.proved()) == sorted(CRATES)


class TestArchive:
    """An archive of the folder, for another machine of its owner."""

    def test_what_is_unpacked_is_taken(self, place: Place) -> None:
        first = place.clone("a")
        place.run(first)
        words = ["tools/package", "--proved", "--into", str(place.top)]
        shutil.rmtree(place.top / "proved")  # what is built is laid again
        ran = subprocess.run(words, cwd=first, capture_output=True, env=place.environment())
        assert (ran.returncode, ran.stderr) == (0, b"")
        (place.top / "other").mkdir(mode=0o700)
        subprocess.run(["tar", "-C", "other", "-xf", "arena-proved-13.tar"], cwd=place.top)
        place.proved()
        second, other = place.clone("b"), str(place.top / "other")
        assert place.run(second, "x", ARENA_PROVED=other).stdout == "arena 13 x\n"
        edit(second, "right")
        assert place.run(second, ARENA_PROVED=other).returncode == 0
        assert place.proved() == ["right", "arena"]


class TestOtherKit:
    """A kit whose rt cannot be asked for stamps."""

    def test_crates_are_proved_one_after_another(self, place: Place) -> None:
        program = place.top / "kit/bin/rt"
        words = program.with_name("rt-itself")
        program.rename(words)
        program.write_text(f'#!/bin/sh\nexec python3 "{words}" "$@"\n')
        program.chmod(0o755)
        root = place.clone("a")
        ran = place.run(root, "x")
        assert ran.stdout == "arena 13 x\n" and "one after another" in ran.stderr
        assert place.proved() == CRATES
        assert not (place.top / "proved").exists()
        assert place.run(root).stderr == "" and place.proved() == []
