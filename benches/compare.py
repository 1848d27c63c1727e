#!/usr/bin/env python3
"""Compares the peer with the program, byte by byte: output, status and standard error.

    benches/compare.py [FILE..]            these command files, by default the cases
    benches/compare.py --shapes            the shapes of tests/shapes.py, without that of stays
    benches/compare.py --limits            files and command lines at the ends of limits
    benches/compare.py --drawn N           N random files, from --seed S on
    benches/compare.py --time RUNS FILE..  times both in turns as well

    --program PATH   crates/arena/out/arena if not given
    --stored         the peer against NAME.transcript beside each file, without the program
    --version 1|2|5  up to which version of plans to compare: 5 if not given
    --keep FOLDER    for drawn files on which the two disagree, reduced to the lines that matter

benches/peer/build builds the peer, which reads files of versions 1, 2 and 5, and no line by which a
game is admitted or leaves. The status is 0 if all agreed.
"""
import os
import random
import subprocess
import sys
import tempfile
import time
from pathlib import Path
from statistics import median

import paths  # noqa: F401
import cases
import drawn
import limits
import program
import shapes
from program import describe

HERE = Path(__file__).resolve().parent
PEER = HERE / "peer/out/release/peer"
DISAGREEMENTS = HERE / "peer/out/disagreements"
BLOCKS = ["--blocks", "512"]  # enough for each shape
NO_SUCH_GAME = "\U0001f40d"
NEWER = [shapes.stays.__name__]  # shapes of version 3, which the peer does not read


def run(file, words, text=None):
    """Status, output and standard error; of a refused command line only the status."""
    done = subprocess.run([file, *words], input=text, capture_output=True)
    return (2, b"", b"") if done.returncode == 2 else (done.returncode, done.stdout, done.stderr)


def first_difference(one, other):
    lines = zip(one[1].split(b"\n"), other[1].split(b"\n"))
    for number, (left, right) in enumerate(lines, 1):
        if left != right:
            return f"\n  line {number}\n    peer    {left[:600]!r}\n    program {right[:600]!r}"
    return ""


class Comparison:
    def __init__(self, program):
        self.program, self.compared, self.disagreements = program, 0, 0

    def differs(self, words, text=None):
        """The difference of the two, in words; None if they agree."""
        peer, program = run(PEER, words, text), run(self.program, words, text)
        self.compared += 1
        if peer == program:
            return None
        results = f"peer: {describe(peer)}; program: {describe(program)}"
        return results + first_difference(peer, program)

    def file(self, path, more=()):
        """Compares a file with 1 to 4 workers."""
        for workers in "1234":
            self.note(path, ["serve", str(path), "--workers", workers, *more])

    def note(self, name, words, text=None):
        difference = self.differs(words, text)
        if difference:
            self.disagreements += 1
            print(f"{name}: {' '.join(words)}\n  {difference}", flush=True)
        return difference

    def stored(self, path, transcript):
        self.compared += 1
        peer, wanted = run(PEER, ["serve", str(path)]), (0, transcript.read_bytes(), b"")
        if peer != wanted:
            self.disagreements += 1
            print(f"{path}: {describe(peer)}{first_difference(peer, wanted)}")

    def drawn(self, seed, version, keep):
        rng = random.Random(seed)
        names, text = drawn.command_file(rng, version)
        some = ["--blocks", rng.choice(["6", "12", "15", "64"])] if rng.random() < 0.2 else []
        runs = [["serve", "-", "--workers", rng.choice("1234"), *some]]
        if rng.random() < 0.3:
            runs.append(["alone", "-", "--game", rng.choice([*names, NO_SUCH_GAME]), *some])
        for words in runs:
            if self.note(f"seed {seed}", words, text):
                small = self.smallest(words, text)
                keep.mkdir(parents=True, exist_ok=True)
                path = keep / f"seed_{seed}_{words[0]}.jsonl"
                path.write_bytes(small)
                print(f"  cut to {len(small)} bytes: {path}\n  {self.differs(words, small)}")

    def smallest(self, words, text):
        """The text without the lines that are not needed for a difference."""
        lines = text.split(b"\n")
        size = len(lines) // 2
        while size:
            at = 0
            while at < len(lines):
                fewer = lines[:at] + lines[at + size :]
                if self.differs(words, b"\n".join(fewer)):
                    lines = fewer
                else:
                    at += size
            size //= 2
        return b"\n".join(lines)


def seconds(program, path, workers):
    with tempfile.TemporaryFile() as output:
        began = time.perf_counter()
        words = ["serve", str(path), "--workers", workers, *BLOCKS]
        child = subprocess.Popen([program, *words], stdout=output)
        _, _, usage = os.wait4(child.pid, 0)
        return time.perf_counter() - began, usage.ru_utime + usage.ru_stime, usage.ru_maxrss / 1024


def time_both(program, files, runs):
    """Times both in turns on each file, so that other load on the machine affects both."""
    heads = f"{'least s':>10}{'median s':>10}{'cpu s':>8}{'MB':>8}"
    print(f"{'file':24}{'workers':>8}{'':>9}{heads}")
    for path in files:
        for workers in "1234":
            both = {"peer": PEER, "program": program}
            found = {name: [] for name in both}
            for _ in range(runs):
                for name, it in both.items():
                    found[name].append(seconds(it, path, workers))
            for name, rows in found.items():
                wall, cpu, memory = zip(*rows)
                figures = f"{min(wall):10.3f}{median(wall):10.3f}{min(cpu):8.3f}{max(memory):8.1f}"
                print(f"{path.stem:24}{workers:>8}{name:>9}{figures}", flush=True)


def parse_args():
    parser = program.argument_parser(__doc__)
    parser.add_argument("files", nargs="*", metavar="FILE", type=Path)
    parser.add_argument("--stored", action="store_true")
    parser.add_argument("--shapes", action="store_true")
    parser.add_argument("--limits", action="store_true")
    parser.add_argument("--drawn", metavar="N", type=int, default=0)
    parser.add_argument("--seed", type=int, default=1)
    parser.add_argument("--version", type=int, choices=[1, 2, 5], default=5)
    parser.add_argument("--keep", metavar="FOLDER", type=Path, default=DISAGREEMENTS)
    parser.add_argument("--time", metavar="RUNS", type=int, default=0)
    given = parser.parse_args()
    if not given.stored:
        given.program = program.existing(given.program, parser)
    if not PEER.is_file():
        parser.error(f"there is no {PEER}; benches/peer/build builds it")
    return given


def main():
    given = parse_args()
    comparison = Comparison(given.program)
    files = given.files
    if not (files or given.drawn or given.shapes or given.limits):
        # The peer reads no file of version 3.
        files = [case.file for case in cases.cases() if case.version != 3]
    if given.stored:
        transcripts = {case.file: case.transcript for case in cases.cases()}
        for path in files:
            comparison.stored(path, transcripts.get(path, path.with_suffix(".transcript")))
    else:
        with tempfile.TemporaryDirectory() as folder:
            if given.shapes:
                shapes.write_all(Path(folder))
                files += sorted(
                    path for path in Path(folder).glob("*.jsonl") if path.stem not in NEWER
                )
            for path in files:
                comparison.file(path, BLOCKS)
            for name, words, text in limits.runs(given.version) if given.limits else ():
                comparison.note(name, words, text)
            for seed in range(given.seed, given.seed + given.drawn):
                comparison.drawn(seed, given.version, given.keep)
            if given.time:
                time_both(given.program, files, given.time)
    print(f"compared {comparison.compared} runs: {comparison.disagreements} disagreements")
    return 1 if comparison.disagreements else 0


if __name__ == "__main__":
    sys.exit(main())
