"""The JSON Schemas of docs/schema/, and what they say of a value in words.

Whole numbers are those of the host, so that `1.0` is none. `Schema.faults` gives every fault of a
value with the path of the member.
"""

from __future__ import annotations

import json
from collections.abc import Iterator
from dataclasses import dataclass
from functools import cache
from pathlib import Path
from typing import Any

from jsonschema import Draft202012Validator, ValidationError
from jsonschema.validators import extend

FOLDER = Path(__file__).resolve().parent.parent / "docs/schema"
LONGEST_SHOWN = 60  # characters of a value in a message


@dataclass(frozen=True)
class Fault:
    """A fault of a value: where, such as `snakes[2].x`, and what is wrong there."""

    path: tuple[str | int, ...]
    message: str
    keyword: str = ""  # of the schema that is not met

    def where(self) -> str:
        """The path in words; empty for the value itself."""
        parts = (f"[{part}]" if isinstance(part, int) else f".{part}" for part in self.path)
        return "".join(parts).removeprefix(".")


def is_whole(_checker: Any, value: Any) -> bool:
    """Whether the host reads the value as a whole number, negative ones included."""
    return type(value) is int


WHOLE = Draft202012Validator.TYPE_CHECKER.redefine("integer", is_whole)
Validator = extend(Draft202012Validator, type_checker=WHOLE)


def shown(value: Any) -> str:
    """A value as JSON, cut if it is long."""
    text = json.dumps(value, ensure_ascii=False) if not isinstance(value, float) else repr(value)
    return text if len(text) <= LONGEST_SHOWN else f"{text[: LONGEST_SHOWN - 3]}..."


def listed(values: list[Any]) -> str:
    """Values in words: `1, 2 or 3`."""
    *some, last = map(shown, values)
    return f"{', '.join(some)} or {last}" if some else last


def wanted(schema: dict[str, Any]) -> str:
    """What a value may be by a schema, in words."""
    if "enum" in schema:
        return listed(schema["enum"])
    kind = schema["type"]
    if kind == "integer":
        return f"a whole number from {schema['minimum']} to {schema['maximum']}"
    if kind == "string":
        return f"a text of 1 to {schema['maxLength']} bytes" if "maxLength" in schema else "a text"
    if kind == "array" and "minItems" in schema:
        return f"a list of {schema['minItems']} to {schema['maxItems']}"
    if kind == "array":
        return f"a list of at most {schema['maxItems']}" if "maxItems" in schema else "a list"
    return "an object"


def inlined(schema: Any, defs: dict[str, Any]) -> Any:
    """A schema with its references replaced by what they name: a reference takes long to follow."""
    if isinstance(schema, list):
        return [inlined(item, defs) for item in schema]
    if not isinstance(schema, dict):
        return schema
    if "$ref" in schema:
        return inlined(defs[schema["$ref"].rpartition("/")[2]], defs)
    return {key: inlined(value, defs) for key, value in schema.items() if key != "$defs"}


def faults_of(error: ValidationError) -> Iterator[Fault]:
    """The faults that an error of jsonschema stands for."""
    path, value, keyword = tuple(error.absolute_path), error.instance, str(error.validator)
    if keyword == "required":
        for name in error.validator_value:
            if name not in value:
                be = wanted(error.schema["properties"][name])
                yield Fault((*path, name), f"is missing; it has to be {be}", keyword)
    elif keyword in ("maxItems", "minItems"):
        yield Fault(path, f"{len(value)} items are not {wanted(error.schema)}", keyword)
    else:
        kind = "it" if isinstance(value, (dict, list)) else shown(value)
        yield Fault(path, f"{kind} is not {wanted(error.schema)}", keyword)


class Schema:
    """One schema, ready to be used."""

    def __init__(self, schema: dict[str, Any]) -> None:
        self.validator = Validator(schema)
        self.members = frozenset(schema.get("properties", ()))

    def faults(self, value: Any) -> list[Fault]:
        """All faults of a value, in the order of the schema."""
        errors = self.validator.iter_errors(value)
        # Each missing member is an error of its own that does not name it.
        return list(dict.fromkeys(fault for error in errors for fault in faults_of(error)))


@cache
def schema_of(file: str, name: str = "") -> Schema:
    """The schema of a file of docs/schema/, or of that name in its `$defs`."""
    whole = json.loads((FOLDER / file).read_text())
    defs = whole["$defs"]
    return Schema(inlined(defs[name] if name else whole, defs))
