"""The programs of examples/ that tests import: round_robin and split."""
import sys
from pathlib import Path

sys.path.append(str(Path(__file__).resolve().parent.parent / "examples"))
import round_robin
import split

__all__ = ["round_robin", "split"]
