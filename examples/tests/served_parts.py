"""Serves command files whole, and in the parts that split.py makes."""
from pathlib import Path

import merge
import program
import split


def served(plan: bytes) -> bytes:
    """The output of one host for a command file, or its error line if it refuses the file."""
    status, output, errors = program.run_bytes("serve", "-", "--blocks", "960", text=plan)
    return errors if status else output


def split_and_served(plan: bytes, most: int, folder: Path) -> tuple[bytes, str]:
    """The merged transcript of the parts of a command file, and the summary of split.py."""
    whole, parts, merged = folder / "whole", folder / "parts", folder / "merged"
    whole.write_bytes(plan)
    summary = split.split(whole, most, parts)
    for row in rows_of(parts):
        status, output, errors = program.run_bytes("serve", parts / row[0], "--blocks", row[1])
        if status:
            raise AssertionError(f"{row[0]}: status {status}, {errors!r}")
        (parts / row[0]).with_suffix(".transcript").write_bytes(output)
    with open(merged, "wb") as out:
        merge.merge(parts, out)
    return merged.read_bytes(), summary


def rows_of(parts: Path) -> list[list[str]]:
    """The rows of files.tsv, without the titles."""
    return [row.split("\t") for row in (parts / "files.tsv").read_text().splitlines()[1:]]
