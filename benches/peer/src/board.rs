//! Boards as the transcript shows them: the fields stand in the order of their keys.

use std::sync::Arc;

use serde::Serialize;

pub const MAX_TURN: u16 = 10_000;
const ROUNDING: usize = 16; // bytes, of a record's charge

#[derive(Clone, Copy, PartialEq, Eq, Hash, Serialize)]
pub struct Cell {
    pub x: i8,
    pub y: i8,
}

#[derive(Clone, Copy)]
pub enum Direction {
    Up,
    Down,
    Left,
    Right,
}

#[derive(Clone, Copy, PartialEq, Eq, Serialize)]
#[serde(rename_all = "lowercase")]
pub enum Mode {
    Standard,
    Solo,
    Constrictor,
    Wrapped,
}

#[derive(Clone, Copy, Serialize)]
#[serde(rename_all = "kebab-case")]
pub enum Cause {
    OutOfHealth,
    WallCollision,
    SnakeSelfCollision,
    SnakeCollision,
    HeadCollision,
    Hazard,
}

#[derive(Clone, Serialize)]
pub struct Snake {
    /// The head first. At least three parts.
    pub body: Vec<Cell>,
    /// The id of the snake that killed this one.
    pub by: Option<Arc<str>>,
    /// Why the snake is out, if it is.
    pub cause: Option<Cause>,
    pub health: u8,
    pub id: Arc<str>,
    /// The turn in which the snake went out.
    pub out: Option<u16>,
}

impl Snake {
    pub fn head(&self) -> Cell {
        self.body[0]
    }

    pub fn lives(&self) -> bool {
        self.cause.is_none()
    }

    /// Whether a part behind the head is on the cell.
    pub fn covers_behind_head(&self, cell: Cell) -> bool {
        self.body[1..].contains(&cell)
    }

    /// Repeats the last part.
    pub fn grow(&mut self) {
        self.body.extend(self.body.last().copied());
    }
}

#[derive(Clone, Serialize)]
pub struct Board {
    pub food: Vec<Cell>,
    pub food_chance: u8,
    /// Given with the hazards, in files of version 5 alone.
    #[serde(skip_serializing_if = "Option::is_none")]
    pub hazard_damage: Option<u8>,
    /// A cell may occur several times.
    #[serde(skip_serializing_if = "Option::is_none")]
    pub hazards: Option<Vec<Cell>>,
    pub height: i8,
    pub min_food: u8,
    pub mode: Mode,
    pub over: bool,
    /// By seat, with those that are out.
    pub snakes: Vec<Snake>,
    pub turn: u16,
    pub width: i8,
}

impl Board {
    pub fn contains(&self, cell: Cell) -> bool {
        (0..self.width).contains(&cell.x) && (0..self.height).contains(&cell.y)
    }

    /// The neighbour of a cell; beyond an edge of a wrapped board, the cell across.
    pub fn step(&self, from: Cell, direction: Direction) -> Cell {
        let (x, y) = match direction {
            Direction::Up => (from.x, from.y + 1),
            Direction::Down => (from.x, from.y - 1),
            Direction::Left => (from.x - 1, from.y),
            Direction::Right => (from.x + 1, from.y),
        };
        match self.mode {
            Mode::Wrapped => Cell { x: x.rem_euclid(self.width), y: y.rem_euclid(self.height) },
            _ => Cell { x, y },
        }
    }

    pub fn living(&self) -> impl Iterator<Item = &Snake> {
        self.snakes.iter().filter(|snake| snake.lives())
    }

    pub fn living_mut(&mut self) -> impl Iterator<Item = &mut Snake> {
        self.snakes.iter_mut().filter(|snake| snake.lives())
    }

    pub fn is_over(&self) -> bool {
        self.living().count() <= usize::from(self.mode != Mode::Solo)
    }

    /// What the board's record is charged: its bytes, rounded up.
    pub fn charge(&self) -> usize {
        let snake_bytes = |snake: &Snake| 8 + snake.id.len() + 2 * snake.body.len();
        let hazard_bytes = self.hazards.as_ref().map_or(0, |cells| 3 + 2 * cells.len());
        let bytes = 11 + 2 * self.food.len() + self.snakes.iter().map(snake_bytes).sum::<usize>();
        (bytes + hazard_bytes).next_multiple_of(ROUNDING)
    }
}
