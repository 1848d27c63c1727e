"""A bot that walks round a square, in FastAPI, and takes the objects of the official API alone."""

# No `from __future__ import annotations`: FastAPI reads the types of functions.
from typing import Any, Literal, Optional

from fastapi import FastAPI
from pydantic import BaseModel

STEPS = ("up", "left", "down", "right")
application = FastAPI()


class Strict(BaseModel):
    class Config:
        extra = "forbid"


class Royale(Strict):
    shrinkEveryNTurns: int


class Squad(Strict):
    allowBodyCollisions: bool
    sharedElimination: bool
    sharedHealth: bool
    sharedLength: bool


class Settings(Strict):
    foodSpawnChance: int
    minimumFood: int
    hazardDamagePerTurn: int
    hazardMap: str
    hazardMapAuthor: str
    royale: Royale
    squad: Squad


class Ruleset(Strict):
    name: str
    version: str
    settings: Settings


class Game(Strict):
    id: str
    ruleset: Ruleset
    map: str
    timeout: int
    source: str


class Cell(Strict):
    x: int
    y: int


class Customizations(Strict):
    color: str
    head: str
    tail: str


class Snake(Strict):
    id: str
    name: str
    health: int
    body: list[Cell]
    latency: str
    head: Cell
    length: int
    shout: str
    squad: str
    customizations: Customizations


class Board(Strict):
    height: int
    width: int
    food: list[Cell]
    hazards: list[Cell]
    snakes: list[Snake]


class State(Strict):
    game: Game
    turn: int
    board: Board
    you: Snake


class Move(BaseModel):
    move: Literal["up", "left", "down", "right"]
    shout: Optional[str]


@application.get("/")
def look() -> dict[str, Any]:
    return {"apiversion": "1", "author": "arena", "color": "#2a9d4a"}


@application.post("/start")
@application.post("/end")
def hear(state: State) -> None:
    return None


@application.post("/move")
def move(state: State) -> Move:
    return Move(move=STEPS[state.turn % 4], shout=f"turn {state.turn}")
