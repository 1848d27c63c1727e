"""Tests of split.py, whose parts have to give what the whole file gives."""
import json
import subprocess
import tempfile
from pathlib import Path

import cases
import pytest
import split
from program import ROOT
from served_parts import rows_of, served, split_and_served

EXAMPLES = ROOT / "examples"
BOTS = sorted((EXAMPLES / "bots").glob("*.moves"))

NEW = (
    b'{"game":"%b","do":"new","mode":"solo","width":3,"height":3,'
    b'"snakes":[{"id":"s","x":1,"y":1}],"food":[]}'
)
SHOW = b'{"game":"%b","do":"show"}'
A = SHOW % b"a"
PLAN = (
    b'{"games":[{"game":"a","quota":4096},{"game":"\\u0062","quota":1835008},'
    b'{"game":"c\\"\\n\\u001f\x7f\xc3\xa9","quota":16}]}'
)
# JSON values, and what is none, at the borders of what serde_json reads.
DOUBTFUL_VALUES = [
    *b"NaN Infinity -Infinity 1e999 -1e999 1e-999 -0 01 +1 .5 1. 1e 1e+ 0x1 1_000".split(),
    *b"1.7976931348623157e308 1.7976931348623159e308 18446744073709551616".split(),
    *(b"9" * 308, b"9" * 309, b"-" + b"9" * 400, b"0." + b"9" * 5000, b"1" + b"0" * 299),
    *b'tru True [1,] [,1] {"a"} {"a":} {1:2} //'.split(),
    *("\u0661".encode(), b"[1 2]", b"1 /**/"),
    *(b"[" * 126 + b"]" * 126, b"[" * 127 + b"]" * 127, b"[" * 30_000, b"[" * 3000 + b"]" * 3000),
    *(b'{"a":' * 126 + b"1" + b"}" * 126, b'{"a":' * 127 + b"1" + b"}" * 127),
    *(b'"' + b"[" * 300 + b'"', b'"\\"' + b"{" * 300 + b'"', b"[" + b"[]," * 300 + b"[]]"),
    *rb'"\ud800" "\udc00" "\ud83d\ude00" "\uD83D\uDE00" "\ud83d\ud83d\ude00" "\ud83dx"'.split(),
    *rb'"\\ud800" "\ud83d\\ude00" "\\\ud800" "\u12" "\u+123" "\x41" "\/\b\f" " "a'.split(),
    *(b'"\t"', b'"\x1f"', b'"\x7f"', b'"\xff"', b'"\xed\xa0\x80"', b'"\xc0\x80"'),
    *(b'"\xf4\x90\x80\x80"', '"\u2028"'.encode()),
]
# Lines at the borders of what the host takes for a line, and for a game's line.
DOUBTFUL = [
    *(b"", b" \t\r", b" " * 65_536, b" " * 65_537, b"\x0b", b"\xc2\xa0", b"\x00"),
    *(b"\xef\xbb\xbf" + A, b"\x0c" + A, A + b"\r", A + b" x", A + b"{}", b"x" * 65_537),
    *(A.ljust(65_536), A.ljust(65_537)),
    *b'[] 1 "a" null true { {} {"game":"a",} {"game":"a"} '.split(),
    *(b"{'game':'a'}", b'{"do":"show"}', b'{"game":1,"do":"show"}', b'{"game":null,"do":"show"}'),
    *(SHOW % b"", SHOW % b"z", SHOW % b"A", SHOW % b"\\u0061", b'{"game":"a","do":"jump"}'),
    *(b'{"game":"z","game":"a"}', b'{"game":"a","game":"z"}', b'{"game":"a","game":7}'),
    b'{"g\\u0061me":"a","do":"show"}',
    *(b'{"game":"b","do":"show","more":%b}' % value for value in DOUBTFUL_VALUES),
]
ROW = b'{"game":"a","quota":%b}'
LONG_NAME = b'{"games":[{"game":"%b","quota":16}]}'
REFUSED = [
    *(b"", b"\n{}", b"{", b"[]", b'{"games":1}', b'{"games":null}', b'{"games":[],"more":NaN}'),
    *(b'{"games":[],"version":%b}' % it for it in b'null 0 4 6 "1" 1.0 true'.split()),
    *(b'{"games":[%b]}' % it for it in b'1 {"game":"a"} {"game":7,"quota":16}'.split()),
    *(LONG_NAME % b"", LONG_NAME % (b"a" * 65), LONG_NAME % ("\u00e9".encode() * 33)),
    *(b'{"games":[%b]}' % (ROW % it) for it in b'15 16777217 -16 16.0 1e3 "16" true'.split()),
    b'{"games":[%b]}' % (ROW % (b"9" * 400)),
    b'{"games":[%b,%b]}' % (ROW % b"16", ROW % b"17"),
    b'{"games":[%b]}' % b",".join([ROW % b"16"] * 65),
    b'{"games":[' + b" " * 65_536 + b"]}",
    b'{"games":[' + b" " * 65_536 + ROW % b"1" + b"]}",
]
TAKEN = [
    *(b'{"games":[]}', b'{"games":[]}\n{', LONG_NAME % (b"a" * 64)),
    b' {"version":1,"games":[%b],"more":[]}\r' % (ROW % b"16"),
    b'{"games":[1],"games":[%b]}' % (ROW % b"16777216"),
    b'{"games":[%b]}' % (ROW % b"16").ljust(65_536 - 12),
]


def merged(plan, most):
    with tempfile.TemporaryDirectory() as folder:
        return split_and_served(plan, most, Path(folder))[0]


def cut(tmp_path, plan, most):
    (tmp_path / "whole").write_bytes(plan)
    return split.split(tmp_path / "whole", most, tmp_path / "parts")


def refused(tmp_path, plan):
    with pytest.raises(ValueError) as found:
        cut(tmp_path, plan, 64)
    return str(found.value)


# Which games a file of version 3 or 5 admits depends on all its lines: it is not split.
@pytest.mark.parametrize("most", [1, 2, 8])
@pytest.mark.parametrize(
    "case", [it for it in cases.cases() if it.version <= 2], ids=lambda it: it.name
)
def test_each_case_is_the_same_in_parts(case, most):
    assert merged(case.file.read_bytes(), most) == case.transcript.read_bytes()


def test_a_tournament_is_the_same_in_parts():
    plan = subprocess.run([EXAMPLES / "round_robin.py", *BOTS], capture_output=True).stdout
    for most in (1, 8):
        assert merged(plan, most) == served(plan)


def test_doubtful_lines_go_where_the_host_puts_them():
    for ending in (b"", b"\n", b"\n\n", b"\n{"):
        plan = b"\n".join([PLAN, NEW % b"a", NEW % b"b", *DOUBTFUL]) + ending
        wanted = served(plan)
        assert wanted.count(b'"no":"L') > 60
        for most in (1, 8):
            assert merged(plan, most) == wanted


def test_each_doubtful_line_is_named_as_the_host_names_it():
    lines = served(b"\n".join([PLAN, *DOUBTFUL])).splitlines()
    strays = [json.loads(text) for text in lines if b'"line":' in text]
    rows = {"a": 0, "b": 1}
    routes = [(at, split.route_of(text, rows)) for at, text in enumerate(DOUBTFUL, 2)]
    wanted = [(it["line"], it["no"]) for it in strays]
    assert [it for it in routes if isinstance(it[1], str)] == wanted


@pytest.mark.parametrize("plan", REFUSED, ids=lambda plan: repr(plan[:60]))
def test_plans_are_refused_as_the_host_refuses_them(tmp_path, plan):
    fault = served(plan)
    assert fault in (b"arena: plan P1\n", b"arena: plan P2\n")
    assert fault.decode()[7:14] in refused(tmp_path, plan)
    assert not (tmp_path / "parts").exists()


@pytest.mark.parametrize("plan", TAKEN, ids=lambda plan: repr(plan[:60]))
def test_plans_are_taken_as_the_host_takes_them(plan):
    wanted = served(plan)
    assert b"arena" not in wanted
    assert merged(plan, 64) == wanted


def test_more_games_than_one_host_plays():
    names = [b"g%d" % at for at in range(70)]
    # The first line is longer than a line may be with 64 games.
    row = b'{"game":"%b","quota":64' + b" " * 1000 + b"}"
    rows = b",".join(row % name for name in names)
    shows = [SHOW % name for name in reversed(names)]
    lines = [*(NEW % name for name in names), b"{", b"", *shows, b'{"game":"h"}']
    plan = b"\n".join([b'{"games":[%b]}' % rows, *lines]) + b"\n"
    assert served(plan) == b"arena: plan P1\n"
    lone = b'{"games":[{"game":"%b","quota":64}]}\n'
    sections = [served(lone % name + NEW % name + b"\n" + SHOW % name) for name in names]
    strays = b'{"line":72,"no":"L1","why":"json"}\n{"line":144,"no":"L2","why":"game"}\n'
    for most in (1, 8, 64):
        assert merged(plan, most) == b"".join(sections) + strays


def test_the_summary_and_the_lists(tmp_path):
    summary = cut(tmp_path, b"\n".join([PLAN, NEW % b"b", b"", b"x", NEW % b"a", b"{}", b"y"]), 2)
    assert summary.splitlines() == [
        "lines of no game: L1 json 2, L2 game 1; the first is line 4",
        "3 games in 2 files of at most 2: --array=1-2 --mem=92 (13 blocks at most)",
    ]
    parts = tmp_path / "parts"
    assert rows_of(parts) == [
        ["0001.jsonl", "13", "92", "2", "273"],
        ["0002.jsonl", "6", "77", "1", "49"],
    ]
    first = (parts / "0001.jsonl").read_bytes().splitlines()
    assert first[1:] == [NEW % b"b", NEW % b"a"]
    numbers = [path.read_text().split() for path in sorted(parts.glob("*.lines"))]
    assert numbers == [["1", "2", "5"], ["1"]]


def test_a_file_is_closed_before_it_is_too_long(tmp_path):
    plan = b'{"games":[{"game":"a","quota":16}%b]}\n'
    two = b',{"game":"b","quota":16},{"game":"c","quota":16}'
    full = (A.ljust(65_536) + b"\n") * 255
    last = A.ljust(16_777_216 - len(plan % b"") - len(full) - 1)
    cut(tmp_path, plan % two + SHOW % b"c" + b"\n" + full + last, 64)
    games_and_bytes = [row[3:] for row in rows_of(tmp_path / "parts")]
    assert games_and_bytes == [["1", "16777216"], ["2", "85"]]
    fault = "the file of the game a alone has 16777217 bytes, and a file has at most 16777216"
    assert refused(tmp_path, plan % b"" + full + last + b" ") == fault


def test_version_two_stays(tmp_path):
    rows = b'{"game":"a","quota":16},{"game":"b","quota":16}'
    cut(tmp_path, b'{"version":2,"games":[%b]}\n' % rows + SHOW % b"b", 1)
    assert [path.read_bytes() for path in sorted((tmp_path / "parts").glob("*.jsonl"))] == [
        b'{"games":[{"game":"a","quota":16}],"version":2}\n',
        b'{"games":[{"game":"b","quota":16}],"version":2}\n' + SHOW % b"b" + b"\n",
    ]


def test_a_file_in_which_games_can_come_and_go_is_refused(tmp_path):
    fault = "a file of version %d is not split: which games it admits depends on all its lines"
    for version in (3, 5):
        plan = b'{"games":[],"version":%d}' % version
        assert refused(tmp_path, plan) == fault % version


def test_a_folder_that_is_not_empty_is_refused(tmp_path):
    (tmp_path / "parts").mkdir()
    (tmp_path / "parts/0001.jsonl").write_text("")
    assert "is not empty" in refused(tmp_path, PLAN)


def test_the_statuses(tmp_path):
    (tmp_path / "whole").write_bytes(PLAN)
    for most, status in [("0", 2), ("65", 2), ("64", 0), ("64", 1)]:
        words = [tmp_path / "whole", "--games", most, "--into", tmp_path / "parts"]
        ran = subprocess.run([EXAMPLES / "split.py", *words], capture_output=True)
        assert ran.returncode == status
