"""Tests of the reader of responses: what it takes, what it refuses, and what it costs."""

from __future__ import annotations

import random

import pytest
from served import least_work

from arena_ladder.net.misses import BadAnswer
from arena_ladder.net.response import MOST_BYTES, MOST_HEAD, MOST_PIECES, Response

OK = b"HTTP/1.1 200 OK\r\n"
CHUNKED = OK + b"Transfer-Encoding: chunked\r\n\r\n"


def read(text: bytes, size: int = MOST_BYTES, ends: bool = False) -> Response | str | None:
    """What a text is read as, in pieces of a size: a response, a cause, or None if it waits."""
    response = Response()
    try:
        for at in range(0, len(text), size):
            if response.feed(text[at : at + size]):
                return response
        if ends:
            response.end()
            return response
    except BadAnswer as bad:
        return bad.cause
    return None


TAKEN = [
    (OK + b"Content-Length: 2\r\n\r\n{}", b"{}", True),
    (OK + b"content-length:2\r\nCONTENT-LENGTH: 2 \r\n\r\n{}", b"{}", True),
    (b"HTTP/1.1 200\nContent-Length: 2\n\n{}", b"{}", True),
    (b"HTTP/1.0 200 OK\r\nContent-Length: 2\r\n\r\n{}", b"{}", False),
    (b"HTTP/1.0 200 OK\r\nConnection: Keep-Alive\r\nContent-Length: 2\r\n\r\n{}", b"{}", True),
    (OK + b"Connection: x, Close\r\nContent-Length: 2\r\n\r\n{}", b"{}", False),
    (OK + b"Content-Length: 2\r\n\r\n{}HTTP/1.1 200", b"{}", False),
    (b"HTTP/1.1 100 Continue\r\n\r\n" + OK + b"Content-Length: 0\r\n\r\n", b"", True),
    (CHUNKED + b"2\r\n{}\r\n0\r\n\r\n", b"{}", True),
    (CHUNKED + b'1;a="b"\r\n{\r\n00000001 \r\n}\r\n0;x\r\nA: b\r\nC: d\r\n\r\n', b"{}", True),
    (CHUNKED + b"2\n{}\n0\n\n", b"{}", True),
    (CHUNKED + b"0\r\n\r\nx", b"", False),
    (CHUNKED[:-2] + b"Content-Length: 9\r\n\r\n2\r\n{}\r\n0\r\n\r\n", b"{}", False),
]


@pytest.mark.parametrize("size", [1, 2, 7, 64, MOST_BYTES])
@pytest.mark.parametrize(("text", "body", "keeps"), TAKEN)
def test_good_responses_are_taken_in_any_pieces(
    text: bytes, body: bytes, keeps: bool, size: int
) -> None:
    found = read(text, size)
    assert isinstance(found, Response) and found.body == body
    assert found.keeps == keeps or (size < 64 and not keeps and text.endswith((b"x", b"200")))


def test_body_without_a_length_ends_with_the_connection() -> None:
    found = read(OK + b"\r\n{}", ends=True)
    assert isinstance(found, Response) and (found.body, found.keeps) == (b"{}", False)
    assert read(OK + b"\r\n{}") is None
    for text in (b"", OK, OK + b"Content-Length: 3\r\n\r\n{}", CHUNKED + b"2\r\n{}\r\n"):
        assert read(text, ends=True) == "cut"


@pytest.mark.parametrize(
    ("text", "cause"),
    [
        (b"HTTP/2 200 OK\r\n\r\n", "cut"),
        (b"HTTP/1.1 99 OK\r\n\r\n", "cut"),
        (b"HTTP/1.1 2000 OK\r\n\r\n", "cut"),
        (b"\x16\x03\x01 no HTTP\r\n\r\n", "cut"),
        (b"HTTP/1.1 101 Switching Protocols\r\n\r\n", "cut"),
        (b"HTTP/1.1 100 C\r\n\r\nHTTP/1.1 102 P\r\n\r\n", "cut"),
        (b"HTTP/1.1 404 Not Found\r\nContent-Length: 0\r\n\r\n", "status"),
        (b"HTTP/1.1 500 Error\r\nContent-Length: 99999\r\n\r\n", "status"),
        (b"HTTP/1.1 500 Error\r\nContent-Length: 999\r\n\r\n" + b"x" * 200, "status"),
        (b"HTTP/1.1 500 Error\r\nTransfer-Encoding: chunked\r\n\r\nx\r\n", "status"),
        (b"HTTP/1.1 204 No Content\r\n\r\n", "status"),
        (OK + b"Content-Length: -1\r\n\r\n", "cut"),
        (OK + b"Content-Length: 1, 1\r\n\r\n", "cut"),
        (OK + b"Content-Length: 1\r\nContent-Length: 2\r\n\r\n{}", "cut"),
        (OK + b"Content-Length: \xb2\r\n\r\n", "cut"),
        (OK + b"Content-Length: 99999999\r\n\r\n", "long"),
        (OK + b"Transfer-Encoding: gzip, chunked\r\n\r\n", "cut"),
        (CHUNKED + b"x\r\n", "cut"),
        (CHUNKED + b"-1\r\n", "cut"),
        (CHUNKED + b"2\r\n{}}\r\n", "cut"),
        (CHUNKED + b"1" * 300, "cut"),
        (CHUNKED + b"7fffffff\r\n", "long"),
    ],
)
def test_bad_responses_have_their_cause(text: bytes, cause: str) -> None:
    assert read(text) == cause
    assert read(text, 1) == cause


@pytest.mark.parametrize("size", [1, 7, MOST_BYTES])
@pytest.mark.parametrize("more", ["Content-Length: 14\r\n", "Connection: close\r\n"])
def test_body_of_a_bad_status_is_kept_in_any_pieces(more: str, size: int) -> None:
    """Servers write head and body separately; what a log shows of the answer is the body."""
    response = Response()
    head = f"HTTP/1.1 422 Unprocessable Entity\r\n{more}\r\n".encode()
    text = head + b'{"detail":"x"}'
    with pytest.raises(BadAnswer) as bad:
        for at in range(0, len(text), size):
            response.feed(text[at : at + size])
        response.end()
    assert bad.value.cause == "status"
    assert response.received(is_bad=True).excerpt == b'{"detail":"x"}'
    assert response.received(is_bad=True).status == 422


def test_head_of_a_bad_status_is_kept_where_no_body_comes() -> None:
    response = Response()
    assert not response.feed(b"HTTP/1.1 503 Busy\r\nContent-Length: 5\r\n\r\n")
    assert response.is_refusal and not Response().is_refusal
    with pytest.raises(BadAnswer):
        response.end()
    assert response.received(is_bad=True).excerpt.startswith(b"HTTP/1.1 503 Busy")


def test_limits_are_exact() -> None:
    """All bytes count: head, body, chunk lines and trailers."""
    head = OK + b"Content-Length: 65450\r\nX: "
    room = MOST_BYTES - 65_450 - len(head) - 4
    for more, is_taken in ((0, True), (1, False)):
        text = head + b"x" * (room + more) + b"\r\n\r\n" + b" " * 65_450
        assert isinstance(read(text, 4096), Response) == is_taken
        assert is_taken or read(text, 4096) == "long"
        long = OK + b"X: " + b"x" * (MOST_HEAD - len(OK) - 7 + more) + b"\r\n\r\n"
        assert read(long) == (None if is_taken else "long")
        pieces = CHUNKED + b"1\r\n \r\n" * (MOST_PIECES - 1 + more) + b"0\r\n\r\n"
        assert isinstance(read(pieces), Response) == is_taken


FLOODS = {
    "chunks of one byte": CHUNKED + b"1\r\n \r\n" * 200_000,
    "interim responses": b"HTTP/1.1 100 C\r\n\r\n" * 100_000,
    "headers": OK + b"a:\r\n" * 200_000,
    "cookies": OK + b"Set-Cookie: " + b"a=" * 500_000,
    "a reason": b"HTTP/1.1 200 " + b"x" * 1_000_000,
    "returns": OK[:-2] + b"\r" * 1_000_000,
    "trailers": CHUNKED + b"0\r\n" + b"a: b\r\n" * 200_000,
    "an extension": CHUNKED + b"1;" + b"x" * 1_000_000,
    "spaces of a size": CHUNKED + b"1" + b" " * 1_000_000,
    "options": OK + b"Connection: close\r\n" * 800 + b"\r\n" + b" " * 1_000_000,
    "a body": OK + b"\r\n" + b" " * 1_000_000,
}


@pytest.mark.parametrize("size", [1, 61, 1000, 65_536, 262_144])
@pytest.mark.parametrize("name", FLOODS)
def test_floods_end_soon_and_cost_little(name: str, size: int) -> None:
    """A flood is over within the limit, and takes a few milliseconds of the processor."""
    assert read(FLOODS[name], size) in ("long", "cut")
    assert least_work(lambda: read(FLOODS[name], size)) < 5


def test_drawn_texts_raise_nothing_else() -> None:
    """Texts that are put together from pieces of responses are taken, refused or waited for."""
    draw = random.Random(7)
    pieces = [OK, CHUNKED, b"\r\n", b"\n", b"0", b"1", b";", b":", b"{}", b"2\r\n{}\r\n", b"\x00"]
    pieces += [b"Content-Length: 2\r\n", b"Connection: close\r\n", b"HTTP/1.1 100 C\r\n\r\n"]
    seen = set()
    for _ in range(20_000):
        text = b"".join(draw.choices(pieces, k=draw.randrange(1, 9)))
        whole, ends = read(text), draw.random() < 0.5
        assert type(read(text, draw.randrange(1, 9))) is type(whole)
        found = read(text, draw.randrange(1, 9), ends)
        seen.add(type(found) if isinstance(found, Response) else found)
    assert seen == {Response, "cut", None}
