"""Lets the programs of this folder import modules of tests/, of the library and of the ladder.

Imported before those modules.
"""
import sys
from pathlib import Path

ROOT = Path(__file__).resolve().parent.parent
sys.path += [str(ROOT / folder) for folder in ("tests", "bindings/python", "ladder/src")]
