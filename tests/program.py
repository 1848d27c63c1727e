"""Shared by the tests: the path of the built program, runs of it, lines of files, and the parser of
a test's command line."""
import argparse
import hashlib
import json
import subprocess
from collections.abc import Iterable
from pathlib import Path
from typing import Any

ROOT = Path(__file__).resolve().parent.parent
BUILT = ROOT / "crates/arena/out/arena"  # ./arena --help and the gate build it
SECONDS = 600  # the limit of a run, on a busy machine

path = BUILT  # the program that is run; the fixture `program` sets it


def run_bytes(*words: Any, text: bytes = b"", **more: Any) -> tuple[int | None, bytes, bytes]:
    """The status, the output and the errors of the program; text is its standard input."""
    if "stdin" not in more:
        more["input"] = text
    more = {"stdout": subprocess.PIPE, "stderr": subprocess.PIPE, "timeout": SECONDS, **more}
    ran = subprocess.run([path, *words], **more)
    return ran.returncode, ran.stdout, ran.stderr


def run(*words: Any, text: str = "") -> tuple[int | None, str, str]:
    """Runs the program as `run_bytes` does, with texts in place of bytes."""
    status, output, errors = run_bytes(*words, text=text.encode())
    return status, output.decode(), errors.decode()


def line(**members: Any) -> str:
    """A line of a command file, without its line feed."""
    return json.dumps(members, ensure_ascii=False, separators=(",", ":"))


def compact(value: Any) -> str:
    """A value as the program writes it: no spaces, keys ascending."""
    return json.dumps(value, ensure_ascii=False, separators=(",", ":"), sort_keys=True)


def describe(answer: tuple[int | None, bytes, bytes]) -> str:
    """The status, the output and the errors of a run in a few words; None is a run that hung."""
    if answer is None or answer[0] is None:
        return "no end in time"
    status, output, errors = answer
    digest = hashlib.sha256(output).hexdigest()[:12]
    return f"status {status}, {len(output)} bytes written ({digest}), errors {errors[:200]!r}"


def text_of(lines: Iterable[str]) -> str:
    """The text of these lines, each with its line feed."""
    return "".join(f"{line}\n" for line in lines)


def peak_memory(pid: int) -> int:
    """The peak of a process's resident memory so far, in bytes."""
    for row in Path(f"/proc/{pid}/status").read_text().splitlines():
        if row.startswith("VmHWM:"):
            return int(row.split()[1]) * 1024
    return 0  # the process has ended


def argument_parser(about: str) -> argparse.ArgumentParser:
    """A parser of a test's command line that reads --program."""
    raw = argparse.RawDescriptionHelpFormatter
    parser = argparse.ArgumentParser(description=about, formatter_class=raw)
    add_program(parser)
    return parser


def add_program(parser: argparse.ArgumentParser) -> None:
    """Lets a parser read --program."""
    parser.add_argument("--program", metavar="PATH", type=Path, default=BUILT)


def parse_args(parser: argparse.ArgumentParser) -> argparse.Namespace:
    """Parses the command line. Ends with status 2 if the program is missing."""
    given = parser.parse_args()
    given.program = existing(given.program, parser)
    return given


def existing(file: Path, parser: argparse.ArgumentParser) -> Path:
    """The absolute path of the program. Ends with status 2 if it is missing."""
    if not file.is_file():
        parser.error(f"there is no {file}; ./arena --help builds it")
    return file.resolve()
