"""Runs the ladder as `python3 -m arena_ladder`."""

import sys

from arena_ladder.commands.main import main

sys.exit(main(prog="python3 -m arena_ladder"))
