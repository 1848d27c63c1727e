"""A bot that walks round a square, for servers of WSGI."""

from __future__ import annotations

import json
from collections.abc import Callable, Iterable
from typing import Any

STEPS = ("up", "left", "down", "right")


def application(environ: dict[str, Any], start_response: Callable[..., Any]) -> Iterable[bytes]:
    body = {"apiversion": "1"}
    if environ["PATH_INFO"].endswith("/move"):
        state = json.load(environ["wsgi.input"])
        body = {"move": STEPS[state["turn"] % 4]}
    text = json.dumps(body).encode()
    start_response(
        "200 OK", [("Content-Type", "application/json"), ("Content-Length", str(len(text)))]
    )
    return [text]
