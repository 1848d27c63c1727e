//! The lines of a file behind the plan.

use std::collections::{BTreeMap, HashMap, HashSet};
use std::hash::Hash;

use serde_json::Value;

use crate::board::{Board, Cell, Direction, Mode, Snake, MAX_TURN};
use crate::host::MAX_LINE;
use crate::json::{self, Object};
use crate::plan::Version;
use crate::rules::FULL_HEALTH;
use crate::transcript::Reason;

const MAX_SNAKES: usize = 8;
const MAX_WORDS: usize = 32;
const MAX_HAZARDS: usize = 2_500;
const MAX_GIVEN_FOOD: usize = 625;
const MAX_SIDE: i8 = 25;
const USUAL_DAMAGE: u8 = 14;

pub struct Move {
    /// By id, without those of no known direction.
    pub directions: BTreeMap<String, Direction>,
    /// May lie off the board.
    pub food: Vec<Cell>,
    /// The hazards from this turn on, which may lie off the board. The old ones stay if there is
    /// no list.
    pub hazards: Option<Vec<Cell>>,
    pub words: Vec<u32>,
}

pub enum Command {
    /// The board of turn 0.
    New(Board),
    Move(Move),
    Show,
    Turn(u16),
    Free,
    End,
    Bad,
}

pub enum Line {
    Blank,
    /// A command, with the row of its game.
    Command(usize, Command),
    /// A line of no game, and why.
    Stray(Reason),
}

pub fn read(line: &[u8], row_of: &HashMap<&str, usize>, version: Version) -> Line {
    if line.len() > MAX_LINE {
        return Line::Stray(("L3", "long"));
    }
    if line.iter().all(|byte| b" \t\r".contains(byte)) {
        return Line::Blank;
    }
    let Ok(Value::Object(members)) = serde_json::from_slice(line) else {
        return Line::Stray(("L1", "json"));
    };
    let game = members.get("game").and_then(Value::as_str);
    match game.and_then(|game| row_of.get(game)) {
        Some(&row) => Line::Command(row, command(&members, version).unwrap_or(Command::Bad)),
        None => Line::Stray(("L2", "game")),
    }
}

fn command(members: &Object, version: Version) -> Option<Command> {
    Some(match members.get("do")?.as_str()? {
        "new" => Command::New(first_board(members, version)?),
        "move" => Command::Move(one_move(members, version)?),
        "show" => Command::Show,
        "turn" => Command::Turn(json::whole(members, "at", 0..=MAX_TURN.into())?),
        "free" => Command::Free,
        "end" => Command::End,
        _ => return None,
    })
}

fn first_board(members: &Object, version: Version) -> Option<Board> {
    let mode = match members.get("mode")?.as_str()? {
        "standard" => Mode::Standard,
        "solo" => Mode::Solo,
        "constrictor" => Mode::Constrictor,
        "wrapped" if version.has_wrapped => Mode::Wrapped,
        _ => return None,
    };
    let width = json::whole(members, "width", 3..=25)?;
    let height = json::whole(members, "height", 3..=25)?;
    let on_board = |value: &Value| cell(value.as_object()?, width, height);
    let snake = |value: &Value| {
        let id = json::text(value.as_object()?, "id")?.into();
        let body = vec![on_board(value)?; 3];
        Some(Snake { body, by: None, cause: None, health: FULL_HEALTH, id, out: None })
    };
    let snakes = json::list(members, "snakes", snake)?;
    let food = json::list(members, "food", on_board)?;
    let (hazard_damage, hazards) = if version.has_hazards {
        let (damage, hazards) = first_hazards(members, on_board)?;
        (Some(damage), Some(hazards))
    } else {
        (None, None)
    };
    let is_fit = (1..=MAX_SNAKES).contains(&snakes.len())
        && no_two(snakes.iter().map(|snake| &snake.id))
        && no_two(snakes.iter().map(Snake::head))
        && no_two(food.iter());
    let mut board = Board {
        food: if mode == Mode::Constrictor { Vec::new() } else { food },
        food_chance: json::or(members, "food_chance", 15, |it, key| json::whole(it, key, 0..=100))?,
        hazard_damage,
        hazards,
        height,
        min_food: json::or(members, "min_food", 1, |it, key| json::whole(it, key, 0..=255))?,
        mode,
        over: false,
        snakes,
        turn: 0,
        width,
    };
    board.over = board.is_over();
    is_fit.then_some(board)
}

/// The damage, and the hazards.
fn first_hazards(
    members: &Object,
    on_board: impl Fn(&Value) -> Option<Cell>,
) -> Option<(u8, Vec<Cell>)> {
    let damage = |it: &Object, key: &str| json::whole(it, key, 0..=100);
    let hazards = |it: &Object, key: &str| cells(it, key, MAX_HAZARDS, &on_board);
    let damage = json::or(members, "hazard_damage", USUAL_DAMAGE, damage)?;
    Some((damage, json::or(members, "hazards", Vec::new(), hazards)?))
}

fn cell(members: &Object, width: i8, height: i8) -> Option<Cell> {
    let x = json::whole(members, "x", 0..=width as u64 - 1)?;
    let y = json::whole(members, "y", 0..=height as u64 - 1)?;
    Some(Cell { x, y })
}

fn cells(
    members: &Object,
    key: &str,
    most: usize,
    read: impl Fn(&Value) -> Option<Cell>,
) -> Option<Vec<Cell>> {
    json::list(members, key, read).filter(|cells| cells.len() <= most)
}

fn no_two<T: Hash + Eq>(mut values: impl Iterator<Item = T>) -> bool {
    let mut seen = HashSet::new();
    values.all(|value| seen.insert(value))
}

fn one_move(members: &Object, version: Version) -> Option<Move> {
    let moves = members.get("moves")?.as_object()?;
    let known = |(id, word): (&String, &Value)| Some((id.clone(), direction(word)?));
    let words = json::or(members, "words", Vec::new(), |members, key| {
        json::list(members, key, |word| u32::try_from(word.as_u64()?).ok())
    })?;
    let anywhere = |value: &Value| cell(value.as_object()?, MAX_SIDE, MAX_SIDE);
    let given = |key: &str, most: usize| match members.get(key) {
        Some(_) if version.has_hazards => cells(members, key, most, anywhere).map(Some),
        _ => Some(None),
    };
    let food = given("food", MAX_GIVEN_FOOD)?.unwrap_or_default();
    let hazards = given("hazards", MAX_HAZARDS)?;
    let directions = moves.iter().filter_map(known).collect();
    (words.len() <= MAX_WORDS).then_some(Move { directions, food, hazards, words })
}

fn direction(word: &Value) -> Option<Direction> {
    match word.as_str()? {
        "up" => Some(Direction::Up),
        "down" => Some(Direction::Down),
        "left" => Some(Direction::Left),
        "right" => Some(Direction::Right),
        _ => None,
    }
}
