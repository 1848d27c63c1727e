"""A bot that walks round a square, in Flask."""

from __future__ import annotations

import json
from typing import Any

from flask import Flask, request

STEPS = ("up", "left", "down", "right")
application = Flask(__name__)


@application.get("/")
def look() -> dict[str, Any]:
    return {"apiversion": "1"}


@application.post("/start")
@application.post("/end")
def hear() -> str:
    return "ok"


@application.post("/move")
def move() -> dict[str, Any]:
    return {"move": STEPS[json.loads(request.data)["turn"] % 4]}
