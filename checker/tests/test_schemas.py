"""Tests of the schemas, as another program would use them."""
import json

import cases
import program
from jsonschema import Draft202012Validator
from program import ROOT
from refusals import SPACE, refused_lines


def validator(file: str, name: str | None = None) -> Draft202012Validator:
    schema = json.loads((ROOT / "docs/schema" / file).read_text())
    Draft202012Validator.check_schema(schema)
    if name:
        schema = {**schema, "$ref": f"#/$defs/{name}"}
    return Draft202012Validator(schema)


def test_each_accepted_line_of_the_cases_is_valid() -> None:
    for case in cases.cases():
        plan, *lines = case.file.read_bytes().split(b"\n")
        assert validator("plan.json").is_valid(json.loads(plan)), case.name
        valid = validator("command.json", f"version_{case.version}")
        status, output, _ = program.run_bytes("serve", str(case.file), "--blocks", "384")
        assert status == 0
        refused = refused_lines(case.file.read_bytes(), output)
        for number, line in enumerate(lines, start=2):
            if number not in refused and line.strip(SPACE):
                assert valid.is_valid(json.loads(line)), f"{case.name} {number}"


def test_each_line_of_a_transcript_is_valid() -> None:
    valid = validator("transcript.json")
    for case in cases.cases():
        for line in case.transcript.read_text().splitlines():
            assert valid.is_valid(json.loads(line)), line[:200]


def test_what_is_no_line_of_a_transcript() -> None:
    valid = validator("transcript.json")
    for line in ({}, {"line": 1, "no": "L1", "why": "json"}, {"game": "a", "seq": 1}, 3):
        assert not valid.is_valid(line), line
