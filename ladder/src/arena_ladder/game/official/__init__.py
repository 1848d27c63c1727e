"""The official maps that people play, each with its hazards; `MAPS` has them by name."""

from __future__ import annotations

from arena_ladder.game.official.arcade_maze import ArcadeMaze
from arena_ladder.game.official.base import OfficialMap, Terrain
from arena_ladder.game.official.castle_wall import CastleWall
from arena_ladder.game.official.columns import Columns
from arena_ladder.game.official.hazard_pits import HazardPits
from arena_ladder.game.official.inner_wall import InnerWall
from arena_ladder.game.official.rings import Rings
from arena_ladder.game.official.rivers import Islands, Rivers
from arena_ladder.game.official.scatter import Scatter
from arena_ladder.game.official.sinkholes import Sinkholes
from arena_ladder.game.official.snail_mode import SnailMode
from arena_ladder.game.official.spiral import Spiral

__all__ = ["MAPS", "OfficialMap", "Terrain"]

_ALL: tuple[OfficialMap, ...] = (
    *(ArcadeMaze(), CastleWall(), Columns(), HazardPits(), InnerWall(), Islands(), Rings()),
    *(Rivers(), Scatter(), Sinkholes(), SnailMode(), Spiral()),
)
MAPS = {it.name: it for it in _ALL}
