"""Reads the configuration of a ladder from a TOML file, and checks it."""

from __future__ import annotations

import hashlib
import ipaddress
import json
import re
import tomllib
from collections.abc import Sequence
from dataclasses import asdict, dataclass
from pathlib import Path
from typing import Any

from arena_client import PLAN, PLAN_WITH_HAZARDS, Mode
from arena_ladder.game import official
from arena_ladder.game.maps import HazardMap, map_from_members
from arena_ladder.game.starts import Cell, most_snakes
from arena_ladder.net.bots import Bot
from arena_ladder.net.tls import client_context
from arena_ladder.net.urls import shown, target_of

BOT_NAME = re.compile(r"[A-Za-z0-9][A-Za-z0-9_.-]{0,31}")
MODES = tuple(Mode)
MAPS = ("standard", "royale", *official.MAPS)
TOURNAMENTS = ("single_elimination", "double_elimination", "groups", "swiss")
PAIRINGS = ("round_robin", "duels", "tables", "gauntlet", "rating", *TOURNAMENTS)
MOST_BOTS = 200
MOST_AT_ONCE = 64  # games that are open in a host
AT_ONCE = 16
GAMES_A_BOT = 2
ENDLESS = 10**12 - 1  # games of a ladder whose rounds are not given
ID_LETTERS = 8
ORDER = "circle"  # of the games of a round: a folder of another order is another ladder's
MOST_ROUNDS = 100_000
MOST_TURNS = 10_000
MOST_OF_MATCH = 50  # games
LONGEST_NAME, LONGEST_TEXT = 80, 2_000  # letters
MOST_HAZARDS = 2_500
LONGEST_URL = 2048  # bytes
MOST_NETWORKS = 256
LONGEST_FOOD = 32  # words of a move: at most this number of foods can appear in a turn


class ConfigFault(ValueError):
    """A configuration that can't be played, with the reason."""


@dataclass(frozen=True)
class Rules:
    """The rules of each game."""

    mode: str
    width: int
    height: int
    min_food: int
    food_chance: int
    turns: int  # after which a game ends undecided
    hazards: HazardMap | None = None

    @property
    def plan(self) -> bytes:
        """The first line of the command files. Only hazards need the newest version."""
        return PLAN if self.hazards is None else PLAN_WITH_HAZARDS

    @property
    def members(self) -> dict[str, Any]:
        """The values of JSON from which `rules_from_members` makes these rules."""
        members = asdict(self)
        del members["hazards"]
        return {**members, "hazards": self.hazards.members} if self.hazards else members

    @property
    def words(self) -> int:
        """The number of words that a move can need."""
        return max(2, self.min_food)


@dataclass(frozen=True)
class Config:
    """A ladder: its bots, rules and pairings, and the folder of its results."""

    folder: Path
    bots: tuple[Bot, ...]
    rules: Rules
    pairing: str
    snakes: int  # a game
    rounds: int
    seed: int
    has_seed: bool  # whether the configuration gives it; otherwise it is drawn
    timeout: int  # milliseconds
    at_once: int  # games
    games_a_bot: int  # at the same time
    games: int = 0  # of a match, in a tournament
    group: int = 0  # bots of a group, in a tournament with groups
    networks: tuple[str, ...] | None = None  # of addresses that are not public
    hook: tuple[str, ...] = ()  # the words of a command that is run with each result
    name: str = ""  # of the ladder, on its page
    enter: str = ""  # how a bot enters it, for its authors

    @property
    def is_tournament(self) -> bool:
        """Whether its games follow from results, between bots in the order of their seeds."""
        return self.pairing in TOURNAMENTS

    @property
    def is_endless(self) -> bool:
        """Whether its games are drawn one by one, between bots of a roster that changes."""
        return self.pairing == "rating"

    @property
    def letters(self) -> str:
        """Letters that no other ladder has, for the ids of its games."""
        return hashlib.sha256(json.dumps(self.identity).encode()).hexdigest()[:ID_LETTERS]

    @property
    def identity(self) -> dict[str, Any]:
        """What decides the games. A folder with results of another identity is refused.

        The addresses of the bots, the number of rounds and the games at once may change.
        """
        more = {"games": self.games, "group": self.group} if self.is_tournament else {}
        if self.pairing == "swiss":
            more["rounds"] = self.rounds
        return {
            **more,
            "bots": [] if self.is_endless else [bot.name for bot in self.bots],
            "rules": self.rules.members,
            "pairing": self.pairing,
            "snakes": self.snakes,
            "seed": self.seed,
            "has_seed": self.has_seed,
            "timeout": self.timeout,
            "order": ORDER,
        }


def config_from_identity(identity: dict[str, Any], folder: Path, rounds: int) -> Config:
    """The configuration of an identity. Its bots have no addresses."""
    if identity.get("order") != ORDER:
        raise ConfigFault(f"{folder} has games that an earlier version paired in another order")
    return Config(
        folder=folder,
        bots=tuple(Bot(name, "") for name in identity["bots"]),
        rules=rules_from_members(identity["rules"]),
        pairing=identity["pairing"],
        snakes=identity["snakes"],
        rounds=identity.get("rounds", rounds),
        seed=identity["seed"],
        has_seed=identity["has_seed"],
        timeout=identity["timeout"],
        at_once=1,
        games_a_bot=1,
        games=identity.get("games", 0),
        group=identity.get("group", 0),
    )


def rules_from_members(members: dict[str, Any]) -> Rules:
    if "hazards" in members:
        members = {**members, "hazards": map_from_members(members["hazards"])}
    return Rules(**members)


class Members:
    """Takes the members of a table one by one; `finish` raises a fault if one is left over."""

    def __init__(self, table: dict[str, Any], place: str) -> None:
        self.table = dict(table)
        self.place = place

    def fault(self, why: str) -> ConfigFault:
        return ConfigFault(f"{self.place}: {why}")

    def number(self, name: str, default: int, least: int, most: int) -> int:
        value = self.table.pop(name, default)
        if type(value) is not int or not least <= value <= most:
            raise self.fault(f"{name} is {value!r}, and has to be a number from {least} to {most}")
        return value

    def word(self, name: str, choices: Sequence[str]) -> str:
        """One of the choices, the first if the member is missing."""
        value = self.table.pop(name, choices[0])
        if not isinstance(value, str) or value not in choices:
            raise self.fault(f"{name} is {value!r}, and has to be one of {', '.join(choices)}")
        return value

    def text(self, name: str) -> str:
        value = self.table.pop(name, None)
        if not isinstance(value, str) or not value:
            raise self.fault(f"{name} is missing or not a text")
        return value

    def words(self, name: str, most: int) -> str:
        """A text that may be missing, of a limited length."""
        value = self.table.pop(name, "")
        if not isinstance(value, str) or len(value) > most:
            raise self.fault(f"{name} has to be a text of at most {most} letters")
        return value

    def flag(self, name: str, default: bool) -> bool:
        value = self.table.pop(name, default)
        if type(value) is not bool:
            raise self.fault(f"{name} is {value!r}, and has to be true or false")
        return value

    def texts(self, name: str) -> list[str] | None:
        """A list of texts; None if the member is missing."""
        value = self.table.pop(name, None)
        if value is not None and not (
            isinstance(value, list) and all(isinstance(it, str) and it for it in value)
        ):
            raise self.fault(f"{name} has to be a list of texts")
        return value

    def finish(self) -> None:
        if self.table:
            raise self.fault(f"no such member: {', '.join(sorted(self.table))}")


def read_config(path: Path) -> Config:
    """Reads a file; raises `ConfigFault` if it can't be played."""
    try:
        table = tomllib.loads(path.read_text())
    except (OSError, ValueError) as fault:
        raise ConfigFault(f"{path}: {fault}") from None
    return config_of(table, str(path))


def config_of(table: dict[str, Any], place: str) -> Config:
    """Makes a configuration from a parsed table."""
    members = Members(table, place)
    bots = bots_of(members)
    folder = Path(members.text("folder"))
    rules = rules_of(members)
    pairing = members.word("pairing", PAIRINGS)
    has_seed = "seed" in members.table
    is_endless = pairing == "rating"
    usual, most = (ENDLESS, ENDLESS) if is_endless else (1, MOST_ROUNDS)
    if pairing == "swiss":
        usual = max(1, (len(bots) - 1).bit_length())
    config = Config(
        folder=folder,
        bots=bots,
        rules=rules,
        pairing=pairing,
        snakes=snakes_of(members, rules, pairing),
        rounds=members.number("rounds", usual, 1, most),
        seed=members.number("seed", 0, 0, 2**63 - 1),
        has_seed=has_seed,
        timeout=members.number("timeout", 500, 10, 60_000),
        at_once=members.number("at_once", AT_ONCE, 1, MOST_AT_ONCE),
        games_a_bot=members.number("games_a_bot", GAMES_A_BOT, 1, MOST_AT_ONCE),
        games=members.number("games", 4, 1, MOST_OF_MATCH) if pairing in TOURNAMENTS else 0,
        group=members.number("group", 4, 3, 16) if pairing == "groups" else 0,
        networks=networks_of(members),
        hook=tuple(members.texts("hook") or ()),
        name=members.words("name", LONGEST_NAME),
        enter=members.words("enter", LONGEST_TEXT),
    )
    members.finish()
    if len(bots) < config.snakes and not is_endless:
        raise members.fault(f"a game of {config.snakes} snakes wants as many bots")
    return config


def rules_of(members: Members) -> Rules:
    board_map = members.word("map", MAPS)
    sides = official.MAPS[board_map].sides if board_map in official.MAPS else None
    width, height = (
        members.number(side, usual, 3, 25)
        for side, usual in zip(("width", "height"), sides or (11, 11))
    )
    if sides is not None and sides != (width, height):
        raise members.fault(f"the map {board_map} wants a board of {sides[0]} by {sides[1]} cells")
    return Rules(
        mode=members.word("mode", MODES),
        width=width,
        height=height,
        min_food=members.number("min_food", 1, 0, LONGEST_FOOD),
        food_chance=members.number("food_chance", 15, 0, 100),
        turns=members.number("turns", MOST_TURNS, 1, MOST_TURNS),
        hazards=hazards_of(members, board_map, width, height),
    )


def hazards_of(members: Members, board_map: str, width: int, height: int) -> HazardMap | None:
    """The map of the games, or one of the given cells; None if there are no hazards."""
    cells = members.table.pop("hazards", None)
    if board_map != "standard" and cells is not None:
        raise members.fault(f"the map {board_map} has hazards of its own, so none can be given")
    if board_map == "standard" and cells is None:
        return None
    chosen = official.MAPS.get(board_map, official.OfficialMap())
    every = 25 if board_map == "royale" else chosen.every
    return HazardMap(
        damage=members.number("hazard_damage", chosen.damage, 0, 100),
        shrink_every=members.number("shrink_every", every, 1, MOST_TURNS) if every else 0,
        cells=() if cells is None else hazard_cells(members, cells, width, height),
        name=chosen.name,
    )


def hazard_cells(members: Members, cells: Any, width: int, height: int) -> tuple[Cell, ...]:
    if not isinstance(cells, list) or not 1 <= len(cells) <= MOST_HAZARDS:
        raise members.fault(f"hazards has to be a list of 1 to {MOST_HAZARDS} cells [x, y]")
    for cell in cells:
        is_pair = isinstance(cell, list) and [type(part) for part in cell] == [int, int]
        if not is_pair or not (0 <= cell[0] < width and 0 <= cell[1] < height):
            raise members.fault(f"{cell!r} in hazards is no cell [x, y] of the board")
    return tuple(Cell(*cell) for cell in cells)


def networks_of(members: Members) -> tuple[str, ...] | None:
    """The networks whose addresses bots may have beside public ones; None if left out."""
    names = members.texts("networks")
    if names is None:
        return None
    if len(names) > MOST_NETWORKS:
        raise members.fault(f"networks has more than {MOST_NETWORKS} members")
    for name in names:
        try:
            ipaddress.ip_network(name)
        except ValueError:
            raise members.fault(f"{name!r} is no network such as 10.1.0.0/16") from None
    return tuple(names)


def snakes_of(members: Members, rules: Rules, pairing: str) -> int:
    """The number of snakes of a game; a game of one snake is possible in solo only."""
    usual = {"tables": 4}.get(pairing, 1 if rules.mode == "solo" else 2)
    most = min(8, most_snakes(rules.width, rules.height))
    if rules.hazards and rules.hazards.official and rules.hazards.official.starts:
        most = sum(map(len, rules.hazards.official.starts))
    snakes = members.number("snakes", usual, 1 if rules.mode == "solo" else 2, most)
    if pairing in ("duels", "gauntlet", *TOURNAMENTS) and snakes != 2:
        raise members.fault(f"{pairing}: a game has 2 snakes")
    return snakes


def bots_of(members: Members) -> tuple[Bot, ...]:
    """The bots of the tables [[bot]]; their names have to be valid and different."""
    tables = members.table.pop("bot", [])
    if not isinstance(tables, list) or not 1 <= len(tables) <= MOST_BOTS:
        raise members.fault(f"there have to be 1 to {MOST_BOTS} tables [[bot]]")
    bots = tuple(bot_of(table, members.place) for table in tables)
    names = [bot.name for bot in bots]
    twice = sorted({name for name in names if names.count(name) > 1})
    if twice:
        raise members.fault(f"two bots are named {twice[0]}")
    return bots


def bot_of(table: Any, place: str) -> Bot:
    if not isinstance(table, dict):
        raise ConfigFault(f"{place}: a bot has to be a table, [[bot]]")
    members = Members(table, f"{place}: a bot")
    name, url = members.text("name"), members.text("url")
    ca = members.text("ca") if "ca" in members.table else ""
    verify = members.flag("verify", True)
    members.finish()
    if not BOT_NAME.fullmatch(name):
        raise members.fault(f"the name {name!r} is not 1 to 32 letters, digits, _, . and -")
    try:
        if ca:
            client_context(ca)
    except (OSError, ValueError) as fault:
        raise members.fault(f"ca is {ca!r}, and can't be read: {fault}") from None
    return Bot(name, checked_url(url, members), ca, verify)


def checked_url(url: str, members: Members) -> str:
    """Checks the address of a bot, and removes slashes at its end."""
    if len(url.encode(errors="replace")) > LONGEST_URL:
        raise members.fault(f"an address has at most {LONGEST_URL:,} bytes")
    try:
        target_of(url)
        is_fit = re.search(r"[\x00-\x20\x7f?#]", url) is None
    except ValueError:
        is_fit = False
    if not is_fit:
        address = shown(url)
        raise members.fault(f"{address!r} is no address such as http://127.0.0.1:8001/name")
    return url.rstrip("/")
