#!/usr/bin/env python3
"""Measures `arena live`: memory while stays come and go, the time of one answer, lines a second.

    benches/live.py [--program PROGRAM] [--stays N] [--part PART]

PROGRAM is crates/arena/out/arena if not given. PART is one of

    memory     N stays (100,000) come, play 20 turns and leave, 64 of them open at a time. Prints
               the peak of the resident memory in each tenth of the run, from /proc; a step of all
               64 is written at once, and the next one after its answers
    open       stays that stay open: one of a million "show", one of 300,000 refused lines, one that
               starts, moves and ends 100,000 times, and 64 of 100,000 lines each. Prints the peak
               after the first thousand lines and at the end
    latency    with 64 stays open one line is written and its answer read, 100 times
    lines      6,400 such stays from a file, by `live` and by `serve` with one worker, in turn

and all of them if not given. The status is 1 if the peak of the last tenth is more than 1.1 times
that of the first, or if a peak rises by more than a megabyte while stays are open; and else 0.
"""
import argparse
import json
import os
import statistics
import subprocess
import sys
import tempfile
import time
from pathlib import Path

ROOT = Path(__file__).resolve().parent.parent
OPEN = 64  # stays at a time
TURNS = 20
BLOCKS = 6 * OPEN
TENTHS = 10
MOST_GROWTH = 1.1
ASKED = 100  # timed lines
ROUNDS_OF_FILE = 100
RUNS_OF_FILE = 3
PARTS = ("memory", "open", "latency", "lines")
FIRST = 1_000  # lines before the first peak
MOST_RISE = 1_000  # KiB
MOST_AHEAD = 1 << 15  # bytes that are written before answers are read; a pipe takes twice as many
NEW: dict = {
    "do": "new",
    "mode": "standard",
    "width": 25,
    "height": 25,
    "snakes": [{"id": "s", "x": 1, "y": 1}, {"id": "t", "x": 5, "y": 1}],
    "food": [{"x": 3, "y": 3}],
    "min_food": 0,
    "food_chance": 0,
}
ADMIT: dict = {"do": "admit", "quota": 4096}
MOVE: dict = {"do": "move", "moves": {"s": "up", "t": "up"}}
SHOW, BAD, END = {"do": "show"}, {"do": "jump"}, {"do": "end"}
# Stays that stay open: what they are called, how many, the lines that each repeats, and how often.
OPEN_STAYS: list = [
    ("one shows", 1, [SHOW], 1_000_000),
    ("one is refused", 1, [BAD], 300_000),
    ("one starts, moves and ends", 1, [END, NEW, MOVE], 100_000),
    ("64 show, are refused and start anew", OPEN, [SHOW, BAD, END, NEW], 25_000),
]
# The lines of each stay of a round, step by step: one line of each step has an answer.
STEPS = [[ADMIT, NEW], *[[MOVE]] * TURNS, [{"do": "leave"}]]
LINES = sum(map(len, STEPS))  # of a stay
PLAN = b'{"games":[],"version":3}\n'


def line(members, name="%s"):
    return json.dumps({"game": name, **members}, separators=(",", ":")).encode() + b"\n"


TEXTS = [b"".join(line(members) * OPEN for members in step) for step in STEPS]


def steps_of(number):
    """The lines of the stays of one round, step by step. Names differ from round to round."""
    names = tuple(b"r%dg%d" % (number, game) for game in range(OPEN))
    return [text % (names * len(step)) for text, step in zip(TEXTS, STEPS)]


class Live:
    """A run of `arena live`."""

    def __init__(self, program):
        pipe = subprocess.PIPE
        words = [program, "live", "--blocks", str(BLOCKS)]
        self.run = subprocess.Popen(words, stdin=pipe, stdout=pipe, bufsize=0)
        self.say(PLAN)

    def say(self, text):
        left = memoryview(text)
        while left:
            left = left[self.run.stdin.write(left) :]

    def hear(self, count):
        """Reads at least `count` lines."""
        while count > 0:
            some = self.run.stdout.read(1 << 20)
            if not some:
                sys.exit(f"arena live ended with status {self.run.wait()}")
            count -= some.count(b"\n")

    def memory(self, field):
        """A field of /proc/PID/status, in KiB: VmHWM is the peak, VmRSS the resident memory."""
        status = Path(f"/proc/{self.run.pid}/status").read_text()
        return int(next(row for row in status.splitlines() if row.startswith(field)).split()[1])

    def forget_peak(self):
        Path(f"/proc/{self.run.pid}/clear_refs").write_text("5")

    def end(self):
        self.run.stdin.close()
        rest = self.run.stdout.read()
        return self.run.wait(), rest


def measure_memory(program, stays):
    """Whether the peak of the last tenth is at most 1.1 times that of the first."""
    rounds = -(-stays // OPEN)
    live, peaks, started = Live(program), [], time.perf_counter()
    for tenth in range(TENTHS):
        some = range(rounds * tenth // TENTHS, rounds * (tenth + 1) // TENTHS)
        live.forget_peak()
        for number in some:
            for text in steps_of(number):
                live.say(text)
                live.hear(OPEN)
        peaks.append(live.memory("VmHWM"))
        print(f"tenth {tenth + 1}: {len(some) * OPEN:,} stays, peak {peaks[-1]:,} KiB", flush=True)
    seconds = time.perf_counter() - started
    if live.end() != (0, b""):
        sys.exit("arena live did not end as it should")
    lines = rounds * OPEN * LINES
    print(
        f"{rounds * OPEN:,} stays, {lines:,} lines in {seconds:.1f} s:"
        f" {lines / seconds:,.0f} lines a second through pipes"
    )
    print(f"peak of the last tenth: {peaks[-1] / peaks[0]:.3f} times that of the first")
    return peaks[-1] <= MOST_GROWTH * peaks[0]


def repeat(live, text, count):
    """Writes the text that many times, each time after the answers to the one before."""
    lines = text.count(b"\n")
    for _ in range(count):
        live.say(text)
        live.hear(lines)


def measure_open(program):
    """Whether no peak rises by more than a megabyte after the first thousand lines."""
    is_flat = True
    for what, stays, steps, count in OPEN_STAYS:
        live, names = Live(program), [f"g{number}" for number in range(stays)]
        for name in names:
            live.say(line(ADMIT, name) + line(NEW, name))
        live.hear(stays)
        round_lines = b"".join(line(members, name) for members in steps for name in names)
        rounds = max(1, MOST_AHEAD // len(round_lines))
        text, repeats = round_lines * rounds, count // rounds
        first = -(-FIRST // text.count(b"\n"))
        started = time.perf_counter()
        repeat(live, text, first)
        before = live.memory("VmHWM")
        repeat(live, text, repeats - first)
        after = live.memory("VmHWM")
        seconds, lines = time.perf_counter() - started, repeats * text.count(b"\n")
        print(
            f"{what}: {lines:,} lines in {seconds:.1f} s,"
            f" peak {before:,} KiB after {first * text.count(10):,}, {after:,} KiB at the end",
            flush=True,
        )
        is_flat &= after <= before + MOST_RISE
        live.end()
    return is_flat


def measure_latency(program):
    live, names = Live(program), [f"g{number}" for number in range(OPEN)]
    for name in names:
        live.say(line(ADMIT, name) + line(NEW, name))
    live.hear(OPEN)
    times = []
    for number in range(ASKED):
        asked = line(MOVE, names[number % OPEN])
        started = time.perf_counter()
        live.say(asked)
        live.hear(1)
        times.append((time.perf_counter() - started) * 1e6)
    live.end()
    times.sort()
    worst = times[ASKED * 99 // 100 - 1]
    print(
        f"{ASKED} lines, {OPEN} stays open: median {statistics.median(times):.0f} us,"
        f" 99th {worst:.0f} us, most {times[-1]:.0f} us"
    )


def measure_lines(program):
    text = PLAN + b"".join(b"".join(steps_of(number)) for number in range(ROUNDS_OF_FILE))
    lines = text.count(b"\n")
    with tempfile.TemporaryDirectory(prefix="live-") as folder:
        file = Path(folder) / "file"
        file.write_bytes(text)
        for _ in range(RUNS_OF_FILE):
            for words in (["live"], ["serve", "-", "--workers", "1"]):
                with open(file, "rb") as input_file, open(Path(folder) / "out", "wb") as output:
                    before, started = os.times(), time.perf_counter()
                    subprocess.run(
                        [program, *words, "--blocks", str(BLOCKS)],
                        stdin=input_file,
                        stdout=output,
                        check=True,
                    )
                    seconds, after = time.perf_counter() - started, os.times()
                user = after.children_user - before.children_user
                print(
                    f"{words[0]}: {lines:,} lines, {len(text):,} bytes in {seconds:.2f} s,"
                    f" {user:.2f} s of user time: {lines / seconds:,.0f} lines a second"
                )


def main():
    raw = argparse.RawDescriptionHelpFormatter
    words = argparse.ArgumentParser(description=__doc__, formatter_class=raw)
    words.add_argument("--program", type=Path, default=ROOT / "crates/arena/out/arena")
    words.add_argument("--stays", metavar="N", type=int, default=100_000)
    words.add_argument("--part", choices=PARTS)
    given = words.parse_args()
    is_flat = True
    if given.part in (None, "memory"):
        is_flat = measure_memory(given.program, given.stays)
    if given.part in (None, "open"):
        is_flat &= measure_open(given.program)
    if given.part in (None, "latency"):
        measure_latency(given.program)
    if given.part in (None, "lines"):
        measure_lines(given.program)
    sys.exit(not is_flat)


if __name__ == "__main__":
    main()
