"""JSON as the host reads it: the texts that it takes, and where another text fails.

Beyond Python's `json`: no NaN and no infinity, also none by a large exponent; at most 127 lists and
objects in each other; in texts no half of a surrogate pair. Of two members of one name the last
counts, as in Python.
"""

from __future__ import annotations

import json
import re
from typing import Any, NoReturn

MOST_DEPTH = 127
LARGEST_WHOLE = 2**64 - 1
TOKEN = re.compile(r'"(?:[^"\\]|\\.)*"|-?[0-9][0-9.eE+-]*|[\[\]{}]|[A-Za-z]+')
ESCAPE = re.compile(r"\\(?:u([0-9a-fA-F]{4})|.)")
SPACE = " \t\n\r"
HALF_PAIR = re.compile(r"\\u[dD][89a-fA-F]")


class JsonFault(Exception):
    """A text that is no JSON for the host, with the column of the fault, from 1."""

    def __init__(self, column: int, message: str) -> None:
        super().__init__(message)
        self.column = column
        self.message = message


class Fraction(float):
    """A number that is no whole number for the host, such as `1.0`; it is shown as written."""

    text: str

    def __repr__(self) -> str:
        return self.text


class NumberFault(Exception):
    """A number that the host does not read; its argument is its text."""


def fraction(text: str) -> Fraction:
    """A number with a point or an exponent, or out of the range of 64 bits."""
    number = Fraction(text)
    if number in (float("inf"), float("-inf")):
        raise NumberFault(text)
    number.text = text
    return number


def integer(text: str) -> int | Fraction:
    """A number without a point and an exponent."""
    if text == "-0" or len(text) > 20 or int(text) > LARGEST_WHOLE:
        return fraction(text)
    return int(text)


def refuse_constant(text: str) -> NoReturn:
    """Refuses NaN and the infinities."""
    raise NumberFault(text)


DECODER = json.JSONDecoder(parse_int=integer, parse_float=fraction, parse_constant=refuse_constant)


def column_of(text: str, token: str) -> int:
    """The column of the first such token."""
    for found in TOKEN.finditer(text):
        if found[0] == token or "-" + found[0] == token:
            return found.start() + 1
    return 1


def check_depth(text: str) -> None:
    """Refuses more than 127 lists and objects in each other."""
    depth = 0
    for found in TOKEN.finditer(text):
        if found[0] in "[{":
            depth += 1
            if depth > MOST_DEPTH:
                raise JsonFault(found.start() + 1, f"more than {MOST_DEPTH} levels of [ and {{")
        elif found[0] in "]}":
            depth -= 1


def check_pairs(text: str) -> None:
    """Refuses an escape that is half of a surrogate pair without its other half."""
    high = None  # the place of the first half, if the last escape was one
    for found in ESCAPE.finditer(text):
        code = int(found[1], 16) if found[1] else 0
        if 0xDC00 <= code < 0xE000 and high is not None and high + 6 == found.start():
            high = None
            continue
        if high is not None or 0xDC00 <= code < 0xE000:
            place = found.start() if high is None else high
            raise JsonFault(place + 1, f"{text[place : place + 6]} is half of a pair")
        high = found.start() if 0xD800 <= code < 0xDC00 else None
    if high is not None:
        raise JsonFault(high + 1, f"{text[high : high + 6]} is half of a pair")


def decoded(line: bytes) -> str:
    """The text of a line, which has to be UTF-8."""
    try:
        return line.decode()
    except UnicodeDecodeError as fault:
        column = len(line[: fault.start].decode()) + 1
        looks = "; the file looks like UTF-16" if line[:2] in (b"\xff\xfe", b"\xfe\xff") else ""
        raise JsonFault(column, f"byte {line[fault.start]:#04x} is no UTF-8{looks}") from None


def syntax_fault(text: str, at: int, message: str) -> JsonFault:
    """The fault that Python's `json` found at a place, in words for the author of the text."""
    before = text[:at].rstrip(SPACE)
    here = text[at : at + 1]
    if not text.strip(SPACE):
        return JsonFault(1, "the line is empty")
    if text.startswith("\ufeff"):
        return JsonFault(1, "a byte order mark stands here; save the file as UTF-8 without one")
    if here in ("}", "]") and before.endswith(","):
        return JsonFault(len(before), f"there is a comma too much before {here}")
    if here == "'":
        return JsonFault(at + 1, "' is no quotation mark of JSON, which has only \"")
    if message == "Extra data":
        return JsonFault(
            at + 1, "the JSON text has ended before; each object has a line of its own"
        )
    if len(before) == len(text.rstrip(SPACE)):
        return JsonFault(at + 1, "the line ends too early; a line has to be a whole object")
    return JsonFault(at + 1, f"{message[:1].lower()}{message[1:]}")


def parse(line: bytes) -> Any:
    """The value of a line. Raises a JsonFault."""
    text = decoded(line)
    try:
        value = DECODER.decode(text)
    except json.JSONDecodeError as fault:
        raise syntax_fault(text, fault.pos, fault.msg) from None
    except NumberFault as fault:
        token = str(fault)
        message = f"{token[:40]} is no number that is read"
        raise JsonFault(column_of(text, token), message) from None
    except RecursionError:
        check_depth(text)
        raise JsonFault(1, "too many levels") from None
    if text.count("[") + text.count("{") > MOST_DEPTH:
        check_depth(text)
    if HALF_PAIR.search(text):
        check_pairs(text)
    return value
