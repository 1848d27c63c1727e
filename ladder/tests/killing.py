"""The bots of ladder/bots, which kill their ladder or its host before they answer a move.

    killing.py --port PORT --before NUMBER --ladder FILE [--host]

They do so before the NUMBERth move in all, so that the run is not over by then, however fast it is.
FILE gets the number of the ladder's process once that runs; then that of its host, behind it.
"""

from __future__ import annotations

import argparse
import itertools
import os
import runpy
import signal
import time
from pathlib import Path
from typing import Any

from served import HERE, children_of
from server import Bots, Choose, serve  # of ladder/bots


def kill(file: Path, is_host: bool) -> None:
    """Kills a ladder or its host, and adds the number of the host to the file."""
    while not file.is_file():
        time.sleep(0.001)
    ladder = int(file.read_text())
    (host,) = children_of(ladder)
    file.write_text(f"{ladder} {host}")
    os.kill(host if is_host else ladder, signal.SIGKILL)


def main() -> None:
    words = argparse.ArgumentParser(description=__doc__)
    words.add_argument("--port", type=int, required=True)
    words.add_argument("--before", type=int, required=True)
    words.add_argument("--ladder", type=Path, required=True)
    words.add_argument("--host", action="store_true")
    given = words.parse_args()
    numbers = itertools.count(1)

    def killing(choose: Choose) -> Choose:
        def choose_later(state: dict[str, Any]) -> str:
            if next(numbers) == given.before:
                kill(given.ladder, given.host)
            return choose(state)

        return choose_later

    bots: Bots = runpy.run_path(str(HERE.parent / "bots" / "serve"))["BOTS"]
    serve({name: (color, killing(choose)) for name, (color, choose) in bots.items()}, given.port)


if __name__ == "__main__":
    main()
