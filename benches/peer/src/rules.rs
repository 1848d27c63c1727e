//! The rules of a turn (docs/RULES.md).

use std::cmp::Reverse;
use std::mem;
use std::sync::Arc;

use crate::board::{Board, Cause, Cell, Direction, Mode, Snake};
use crate::command::Move;

pub const FULL_HEALTH: u8 = 100;

/// The board one turn on.
pub fn turn(old: &Board, given: &Move) -> Board {
    let mut board = old.clone();
    board.turn += 1;
    move_snakes(&mut board, old, given);
    hurt(&mut board);
    feed(&mut board);
    first_eliminations(&mut board);
    collisions(&mut board);
    if board.mode == Mode::Constrictor {
        constrict(&mut board);
    } else {
        spawn(&mut board, &given.words);
        add_food(&mut board, &given.food);
    }
    if let (Some(_), Some(cells)) = (&board.hazards, &given.hazards) {
        let on_board = |cell: &&Cell| board.contains(**cell);
        board.hazards = Some(cells.iter().filter(on_board).copied().collect());
    }
    board.over = board.is_over();
    board
}

fn move_snakes(board: &mut Board, old: &Board, given: &Move) {
    for snake in board.living_mut() {
        let direction = given.directions.get(&*snake.id).copied();
        let direction = direction.unwrap_or_else(|| ahead(old, snake));
        snake.body.rotate_right(1);
        snake.body[0] = old.step(snake.body[1], direction);
        snake.health -= 1;
    }
}

/// The direction in which a snake moved last, or up where it has not moved.
fn ahead(board: &Board, snake: &Snake) -> Direction {
    [Direction::Up, Direction::Down, Direction::Left, Direction::Right]
        .into_iter()
        .find(|&direction| board.step(snake.body[1], direction) == snake.head())
        .unwrap_or(Direction::Up)
}

/// Takes the damage once for each time that a head's cell is in the list, not where there is food.
fn hurt(board: &mut Board) {
    let (Some(damage), Some(hazards)) = (board.hazard_damage, board.hazards.take()) else { return };
    for seat in 0..board.snakes.len() {
        let head = board.snakes[seat].head();
        let times = hazards.iter().filter(|&&cell| cell == head).count();
        if times == 0 || !board.snakes[seat].lives() || board.food.contains(&head) {
            continue;
        }
        let loss = u8::try_from(times * usize::from(damage)).unwrap_or(u8::MAX);
        let health = board.snakes[seat].health.saturating_sub(loss);
        board.snakes[seat].health = health;
        if health == 0 {
            eliminate(board, seat, Cause::Hazard, None);
        }
    }
    board.hazards = Some(hazards);
}

fn feed(board: &mut Board) {
    let food = mem::take(&mut board.food);
    for snake in board.living_mut().filter(|snake| food.contains(&snake.head())) {
        snake.health = FULL_HEALTH;
        snake.grow();
    }
    let is_eaten = |cell: &Cell| board.living().any(|snake| snake.head() == *cell);
    board.food = food.into_iter().filter(|cell| !is_eaten(cell)).collect();
}

fn first_eliminations(board: &mut Board) {
    for seat in 0..board.snakes.len() {
        let snake = &board.snakes[seat];
        if snake.lives() && snake.health == 0 {
            eliminate(board, seat, Cause::OutOfHealth, None);
        } else if snake.lives() && !board.contains(snake.head()) {
            eliminate(board, seat, Cause::WallCollision, None);
        }
    }
}

fn eliminate(board: &mut Board, seat: usize, cause: Cause, killer: Option<usize>) {
    let by = killer.map(|killer| Arc::clone(&board.snakes[killer].id));
    let snake = &mut board.snakes[seat];
    (snake.by, snake.cause, snake.out) = (by, Some(cause), Some(board.turn));
}

/// Judges all collisions on one board, and only then eliminates.
fn collisions(board: &mut Board) {
    let judged: Vec<_> = (0..board.snakes.len()).map(|seat| collision(board, seat)).collect();
    for (seat, found) in judged.into_iter().enumerate() {
        if let Some((cause, killer)) = found {
            eliminate(board, seat, cause, Some(killer));
        }
    }
}

/// Why the snake of a seat goes out by a collision, and the seat of its killer.
fn collision(board: &Board, seat: usize) -> Option<(Cause, usize)> {
    let snakes = &board.snakes;
    let snake = &snakes[seat];
    let head = snake.head();
    if !snake.lives() {
        return None;
    }
    if snake.covers_behind_head(head) {
        return Some((Cause::SnakeSelfCollision, seat));
    }
    // The longest that qualifies, and of those the first.
    let longest = |qualifies: &dyn Fn(&Snake) -> bool| {
        (0..snakes.len())
            .filter(|&other| other != seat && snakes[other].lives() && qualifies(&snakes[other]))
            .min_by_key(|&other| (Reverse(snakes[other].body.len()), other))
    };
    if let Some(killer) = longest(&|other| other.covers_behind_head(head)) {
        return Some((Cause::SnakeCollision, killer));
    }
    longest(&|other| other.head() == head && other.body.len() >= snake.body.len())
        .map(|killer| (Cause::HeadCollision, killer))
}

fn constrict(board: &mut Board) {
    for snake in board.living_mut() {
        snake.health = FULL_HEALTH;
        if snake.body[snake.body.len() - 2..].windows(2).any(|last| last[0] != last[1]) {
            snake.grow();
        }
    }
}

/// Adds the food that is missing, or else one by chance.
fn spawn(board: &mut Board, words: &[u32]) {
    let mut words = words.iter();
    let missing = usize::from(board.min_food).saturating_sub(board.food.len());
    let wanted = if missing > 0 {
        missing
    } else if board.food_chance > 0 {
        let is_drawn = |word: &u32| word % 100 < u32::from(board.food_chance);
        usize::from(words.next().is_some_and(is_drawn))
    } else {
        0
    };
    for &word in words.take(wanted) {
        let free = free_cells(board);
        if free.is_empty() {
            return;
        }
        board.food.push(free[word as usize % free.len()]);
    }
}

/// Adds food on those of the cells that are free when their turn comes.
fn add_food(board: &mut Board, cells: &[Cell]) {
    for &cell in cells {
        let is_taken =
            board.food.contains(&cell) || board.living().any(|snake| snake.body.contains(&cell));
        if board.contains(cell) && !is_taken {
            board.food.push(cell);
        }
    }
}

/// The cells with no food and no part of a living snake, by `y`, then by `x`.
fn free_cells(board: &Board) -> Vec<Cell> {
    let place = |cell: Cell| cell.y as usize * board.width as usize + cell.x as usize;
    let mut taken = vec![false; board.width as usize * board.height as usize];
    let parts = board.living().flat_map(|snake| &snake.body);
    for &cell in board.food.iter().chain(parts) {
        taken[place(cell)] = true;
    }
    let cells = (0..board.height).flat_map(|y| (0..board.width).map(move |x| Cell { x, y }));
    cells.filter(|&cell| !taken[place(cell)]).collect()
}
