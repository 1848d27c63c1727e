"""A bot that walks round a square, for servers of ASGI."""

from __future__ import annotations

import json
from collections.abc import Awaitable, Callable
from typing import Any

STEPS = ("up", "left", "down", "right")
Call = Callable[..., Awaitable[Any]]


async def application(scope: dict[str, Any], receive: Call, send: Call) -> None:
    if scope["type"] != "http":
        return
    text, more = b"", True
    while more:
        message = await receive()
        text += message.get("body", b"")
        more = message.get("more_body", False)
    body = {"apiversion": "1"}
    if scope["path"].endswith("/move"):
        body = {"move": STEPS[json.loads(text)["turn"] % 4]}
    headers = [(b"content-type", b"application/json")]
    await send({"type": "http.response.start", "status": 200, "headers": headers})
    await send({"type": "http.response.body", "body": json.dumps(body).encode()})
