#!/usr/bin/env python3
"""Times the proved program on command files of known shape.

Each shape is served at a size and at twice that size. It prints the bytes read and written, the
time (the best of five runs), turns a second, MB a second, the peak of the resident memory, and the
growth of time and bytes when the file doubles. It runs from any folder:

    benches/measure.py [--program PATH]
    benches/measure.py --write FOLDER

PATH is crates/arena/out/arena if not given; `./arena --help` builds it. With --write nothing is
timed: the command file of each shape, at the smaller size, is written into the folder.
"""

import os
import subprocess
import sys
import tempfile
import time
from pathlib import Path

import paths  # noqa: F401
from program import argument_parser, existing
from shapes import BLOCKS, SHAPES, write, write_all

RUNS = 5


def run(program, path, output):
    """The seconds, and the peak of the resident memory in MB, of one run."""
    with open(output, "wb") as file:
        began = time.perf_counter()
        child = subprocess.Popen([program, "serve", str(path), "--blocks", BLOCKS], stdout=file)
        _, status, usage = os.wait4(child.pid, 0)
        seconds = time.perf_counter() - began
    if status != 0:
        sys.exit(f"{program} ended with status {os.waitstatus_to_exitcode(status)} on {path}")
    return seconds, usage.ru_maxrss / 1024


def measure(program, folder, shape, size):
    path, output = folder / "file", folder / "transcript"
    read = write(path, shape(size))
    runs = [run(program, path, output) for _ in range(RUNS)]
    seconds, memory = min(seconds for seconds, _ in runs), max(memory for _, memory in runs)
    return read, output.stat().st_size, seconds, memory


def measure_all(program):
    titles = f"{'shape':24}{'read MB':>9}{'written MB':>12}{'seconds':>9}{'turns/s':>10}"
    print(f"{titles}{'read MB/s':>11}{'written MB/s':>14}{'memory MB':>11}")
    with tempfile.TemporaryDirectory() as name:
        for title, shape, size, turns in SHAPES:
            rows = [
                (count, *measure(program, Path(name), shape, count)) for count in (size, 2 * size)
            ]
            for count, read, written, seconds, memory in rows:
                sizes = f"{title:24}{read / 1e6:9.2f}{written / 1e6:12.2f}{seconds:9.3f}"
                speeds = f"{turns(count) / seconds:10.0f}{read / seconds / 1e6:11.1f}"
                print(f"{sizes}{speeds}{written / seconds / 1e6:14.1f}{memory:11.1f}")
            (_, read, written, seconds, _), (_, read2, written2, seconds2, _) = rows
            grown = f"file x{read2 / read:.2f}, written x{written2 / written:.2f}"
            print(f"{'':24}{grown}, time x{seconds2 / seconds:.2f}")


def main():
    parser = argument_parser(__doc__)
    parser.add_argument("--write", metavar="FOLDER", type=Path)
    given = parser.parse_args()
    if given.write:
        write_all(given.write)
    else:
        measure_all(existing(given.program, parser))


if __name__ == "__main__":
    main()
