"""Reads one HTTP/1.1 response from raw bytes, with limits on all that it sends."""

from __future__ import annotations

import re
from collections.abc import Callable
from dataclasses import dataclass

from arena_ladder.net.misses import BadAnswer, Miss

MOST_BYTES = 64 * 1024  # of all that an answer sends: heads, body, chunk lines and trailers
MOST_HEAD = 16 * 1024  # of a status line with its headers
MOST_PIECES = 1024  # in which an answer comes: reads from the socket, and chunks
LONGEST_LINE = 256  # of a chunk's size and extensions
EXCERPT = 200  # bytes that are kept of a bad answer
WITHOUT_BODY = (204, 205, 304)  # statuses

EMPTY_LINE = re.compile(rb"\n\r?\n")
STATUS = re.compile(rb"HTTP/1\.([01]) ([1-5][0-9][0-9])(?: [^\r\n]*)?(?=\r?\n|\Z)")
FIELD = re.compile(
    rb"\n(content-length|transfer-encoding|connection)[ \t]*:[ \t]*([^\r\n]*)", re.IGNORECASE
)
SIZE = re.compile(rb"([0-9A-Fa-f]{1,8})[ \t]{0,8}(?:;[^\r\n]{0,200})?\r?\n")
NUMBER = re.compile(rb"[0-9]{1,9}")


@dataclass(frozen=True, slots=True)
class Received:
    """What came of a response: its status, 0 if none came, its bytes, and the first of them."""

    status: int = 0
    size: int = 0
    excerpt: bytes = b""  # of a bad response: the first bytes of the body, or else of the head


NOTHING = Received()


class Response:
    """One response, which `feed` takes piece by piece.

    Of a status other than 200 the body is read as far as an excerpt needs it. `keeps` says at the
    end whether the connection can be used again: the server allows it, and sent nothing behind the
    response.
    """

    def __init__(self) -> None:
        self.seen = 0
        self.status = 0
        self.pieces = 0
        self.keeps = False
        self.is_refusal = False  # whether the head has come, with a status other than 200
        self.body = b""
        self._start = b""  # of the last head
        self._rest = bytearray()  # what was fed and is not read yet
        self._searched = 0  # its bytes before which no empty line begins
        self._parts: list[bytes] = []  # the chunks so far
        self._length = 0
        self._had_interim = False
        self._step = self._head

    def feed(self, data: bytes) -> bool:
        """Takes bytes, and returns whether the response is complete; raises `BadAnswer`."""
        self._rest += data[: MOST_BYTES - self.seen]
        self.seen += len(data)
        try:
            return self._fed()
        except BadAnswer:
            if self.is_refusal:
                raise BadAnswer(Miss.STATUS) from None
            raise

    def _fed(self) -> bool:
        """Reads what came, and returns whether the response is complete."""
        self._count_piece()
        is_long = self.seen > MOST_BYTES
        is_complete = self._step()
        if self.is_refusal and (is_complete or len(self._begun_body()) >= EXCERPT):
            raise BadAnswer(Miss.STATUS)
        if is_complete:
            self.keeps = self.keeps and not self._rest and not is_long
            return True
        if is_long:
            raise BadAnswer(Miss.LONG)
        return False

    def end(self) -> None:
        """Takes the end of the connection; raises `BadAnswer` if the response is incomplete."""
        if self.is_refusal:
            raise BadAnswer(Miss.STATUS)
        if self._step != self._until_end:
            raise BadAnswer(Miss.CUT)
        self.body = bytes(self._rest)

    def received(self, is_bad: bool) -> Received:
        """What came so far."""
        if not is_bad:
            return Received(self.status, self.seen)
        return Received(self.status, self.seen, (self._begun_body() or self._start)[:EXCERPT])

    def _begun_body(self) -> bytes:
        """The body, or as much of it as came."""
        return self.body or b"".join(self._parts) or bytes(self._rest[:EXCERPT])

    def _count_piece(self) -> None:
        self.pieces += 1
        if self.pieces > MOST_PIECES:
            raise BadAnswer(Miss.LONG)

    def _taken(self, size: int) -> bytes:
        """Removes the first bytes of the rest, and returns them."""
        taken = bytes(self._rest[:size])
        del self._rest[:size]
        self._searched = 0
        return taken

    def _empty_line(self) -> int:
        """The end of the first empty line in the rest; 0 if there is none."""
        found = EMPTY_LINE.search(self._rest, self._searched)
        self._searched = max(0, len(self._rest) - 2)
        return 0 if found is None else found.end()

    def _head(self) -> bool:
        """Reads the head, and at most one interim response (1xx) before it."""
        end = self._empty_line()
        if (end or len(self._rest)) > MOST_HEAD:
            raise BadAnswer(Miss.LONG)
        if end == 0:
            return False
        head = self._taken(end)
        self._start = head[:EXCERPT]
        line = STATUS.match(head)
        if line is None or line[2] == b"101":
            raise BadAnswer(Miss.CUT)
        self.status = int(line[2])
        if line[2].startswith(b"1"):
            if self._had_interim:
                raise BadAnswer(Miss.CUT)
            self._had_interim = True
            return self._head()
        self.is_refusal = self.status != 200
        if self.status in WITHOUT_BODY:
            raise BadAnswer(Miss.STATUS)
        self._step = self._step_after(head, line[1] == b"1")
        return self._step()

    def _step_after(self, head: bytes, keeps: bool) -> Callable[[], bool]:
        """The step that reads the body, by the fields of the head."""
        fields: dict[bytes, set[bytes]] = {}
        for name, value in FIELD.findall(head):
            fields.setdefault(name.lower(), set()).add(value.strip().lower())
        options = b",".join(fields.get(b"connection", ()))
        self.keeps = b"close" not in options and (keeps or b"keep-alive" in options)
        codings, lengths = fields.get(b"transfer-encoding"), fields.get(b"content-length")
        if codings is not None:
            if codings != {b"chunked"}:
                raise BadAnswer(Miss.CUT)
            self.keeps = self.keeps and lengths is None
            return self._chunks
        if lengths is None:
            self.keeps = False
            return self._until_end
        (length, *others) = lengths
        if others or not NUMBER.fullmatch(length):
            raise BadAnswer(Miss.CUT)
        self._length = int(length)
        if self._length > MOST_BYTES:
            raise BadAnswer(Miss.LONG)
        return self._whole

    def _whole(self) -> bool:
        """Reads a body of a known length."""
        if len(self._rest) < self._length:
            return False
        self.body = self._taken(self._length)
        return True

    def _until_end(self) -> bool:
        """Reads a body that ends with the connection."""
        return False

    def _chunks(self) -> bool:
        """Reads a body of chunks, as many as have come completely."""
        rest, at = self._rest, 0
        while (line := SIZE.match(rest, at)) is not None:
            size, begin = int(line[1], 16), line.end()
            if size > MOST_BYTES:
                raise BadAnswer(Miss.LONG)
            if size == 0:
                self._taken(begin)
                self.body = b"".join(self._parts)
                self._step = self._trailers
                return self._trailers()
            after = begin + size
            if len(rest) < after + 2:
                break
            at = after + line_feed_at(rest, after)
            self._parts.append(bytes(rest[begin:after]))
            self._count_piece()
        self._taken(at)
        if line is None and not is_begun_line(rest):
            raise BadAnswer(Miss.CUT)
        return False

    def _trailers(self) -> bool:
        """Reads the lines behind the last chunk, which are ignored."""
        for empty in (b"\r\n", b"\n"):
            if self._rest.startswith(empty):
                self._taken(len(empty))
                return True
        end = self._empty_line()
        if end > 0:
            self._taken(end)
        return end > 0


def line_feed_at(text: bytearray, at: int) -> int:
    """The length of the line feed at a place; raises `BadAnswer` if there is none."""
    if text.startswith(b"\r\n", at):
        return 2
    if text.startswith(b"\n", at):
        return 1
    raise BadAnswer(Miss.CUT)


def is_begun_line(text: bytearray) -> bool:
    """Whether a text may be the beginning of a chunk's line."""
    return len(text) <= LONGEST_LINE and b"\n" not in text
