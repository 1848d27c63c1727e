//! The structs and calls of arena.h. A list crosses as a pointer and a number of entries.

use crate::words::{Cause, Mode};
use std::marker::PhantomData;
use std::os::raw::c_char;

/// A cell of a board; (0, 0) is the bottom left.
#[repr(C)]
#[derive(Clone, Copy, Debug, PartialEq, Eq)]
pub struct Cell {
    /// The column.
    pub x: u8,
    /// The row.
    pub y: u8,
}

/// A cell of a board, or one next to it.
#[repr(C)]
#[derive(Clone, Copy, Debug, Default, PartialEq, Eq)]
pub struct Place {
    /// The column.
    pub x: i8,
    /// The row.
    pub y: i8,
}

/// The settings of a game.
#[repr(C)]
#[derive(Clone, Copy, Debug, PartialEq, Eq)]
pub struct Settings {
    /// The mode; the library writes no other byte than one of its four.
    pub mode: Mode,
    /// The columns: 3 to 25, 3 to 11 for a small game.
    pub width: u8,
    /// The rows, as many as columns may be.
    pub height: u8,
    /// 1 to 8.
    pub seats: u8,
    /// The number of food below which each turn places some.
    pub min_food: u8,
    /// The chance of food in a turn, in percent.
    pub chance: u8,
}

impl Default for Settings {
    /// A standard game of four seats on 11 by 11 cells.
    fn default() -> Settings {
        Settings {
            mode: Mode::Standard,
            width: 11,
            height: 11,
            seats: 4,
            min_food: 1,
            chance: 15,
        }
    }
}

/// One seat of a game.
#[repr(C)]
#[derive(Clone, Copy, Debug, PartialEq, Eq)]
pub struct Seat {
    /// The number of parts of the body.
    pub parts: u16,
    /// The turn in which it went out, 0 for none.
    pub out: u16,
    /// 1 to 100 for a living snake.
    pub health: u8,
    /// 0 for a living snake; [`Seat::cause`] gives the others names.
    pub cause: u8,
    /// The seat of the killer, 255 for none.
    pub killer: u8,
    /// Nothing.
    pub spare: u8,
}

impl Seat {
    /// Why the snake is out; `None` if it lives.
    pub fn cause(&self) -> Option<Cause> {
        Cause::of(self.cause)
    }
}

/// A game without its cells.
#[repr(C)]
#[derive(Clone, Copy, Debug, PartialEq, Eq)]
pub struct Head {
    /// The settings.
    pub settings: Settings,
    /// The number of turns that were played.
    pub turn: u16,
    /// The number of cells with food.
    pub foods: u16,
    /// The number of living snakes.
    pub living: u8,
    /// 1 once the game is over, else 0.
    pub over: u8,
    /// The seats, of which the first `settings.seats` are used.
    pub seats: [Seat; 8],
}

/// A game on a board of at most 11 by 11 cells. A copy of the struct is a copy of the game.
///
/// In its lists the cell (x, y) is `(y + 1) * 32 + x + 1`.
#[repr(C)]
#[derive(Clone, Copy)]
pub struct SmallGame {
    /// All but the cells.
    pub head: Head,
    /// The cells with food, the oldest first.
    pub food: [u16; 121],
    /// The number of parts of living snakes on each cell, and 128 more where food is. Off the board
    /// a byte means nothing.
    pub plane: [u8; 416],
    /// The body of seat i from `125 * i` on, its head first.
    pub bodies: [u16; 1000],
}

/// A game on a board of at most 25 by 25 cells. A copy of the struct is a copy of the game.
///
/// In its lists the cell (x, y) is `(y + 1) * 32 + x + 1`.
#[repr(C)]
#[derive(Clone, Copy)]
pub struct LargeGame {
    /// All but the cells.
    pub head: Head,
    /// The cells with food, the oldest first.
    pub food: [u16; 625],
    /// The number of parts of living snakes on each cell, and 128 more where food is. Off the board
    /// a byte means nothing.
    pub plane: [u8; 864],
    /// The body of seat i from `629 * i` on, its head first.
    pub bodies: [u16; 5032],
}

/// A list that is borrowed for a call.
#[repr(C)]
#[derive(Clone, Copy)]
pub(crate) struct List<'a, T> {
    at: *const T,
    len: usize,
    borrowed: PhantomData<&'a [T]>,
}

impl<'a, T> List<'a, T> {
    pub(crate) fn new(list: &'a [T]) -> List<'a, T> {
        List {
            at: list.as_ptr(),
            len: list.len(),
            borrowed: PhantomData,
        }
    }
}

#[repr(C)]
pub(crate) struct ManyOrders<'a> {
    pub(crate) moves: List<'a, u8>,
    pub(crate) moves_each: usize,
    pub(crate) words: List<'a, u32>,
    pub(crate) words_each: usize,
    pub(crate) hazards: List<'a, u8>,
    pub(crate) hazards_each: usize,
    pub(crate) damages: List<'a, u8>,
}

#[repr(C)]
pub(crate) struct ManyStarts<'a> {
    pub(crate) starts: List<'a, Cell>,
    pub(crate) food: List<'a, Cell>,
    pub(crate) food_each: usize,
    pub(crate) which: List<'a, u8>,
    pub(crate) settings: Settings,
}

#[repr(C)]
pub(crate) struct SeatOrders<'a> {
    pub(crate) moves: List<'a, u8>,
    pub(crate) words: List<'a, u32>,
    pub(crate) hazards: List<'a, Cell>,
    pub(crate) food: List<'a, Cell>,
    pub(crate) has_hazards: u8,
    pub(crate) has_food: u8,
}

#[repr(C)]
pub(crate) struct SeatSetup<'a> {
    pub(crate) starts: List<'a, Cell>,
    pub(crate) food: List<'a, Cell>,
    pub(crate) hazards: List<'a, Cell>,
    pub(crate) mode: Mode,
    pub(crate) width: u8,
    pub(crate) height: u8,
    pub(crate) min_food: u8,
    pub(crate) chance: u8,
    pub(crate) has_hazards: u8,
    pub(crate) damage: u8,
}

macro_rules! game_calls {
    ($game:ty, $start:ident, $step:ident, $planes:ident, $advance:ident, $food:ident, $body:ident,
     $save:ident, $load:ident) => {
        extern "C" {
            pub(crate) fn $start(games: *mut $game, count: usize, starts: &ManyStarts<'_>)
                -> usize;
            pub(crate) fn $step(games: *mut $game, count: usize, orders: &ManyOrders<'_>);
            pub(crate) fn $planes(
                games: *const $game,
                count: usize,
                into: *mut u8,
                room: usize,
                each: usize,
            );
            pub(crate) fn $advance(
                games: *mut $game,
                count: usize,
                orders: &ManyOrders<'_>,
                starts: &ManyStarts<'_>,
                into: *mut u8,
                room: usize,
                each: usize,
            ) -> usize;
            pub(crate) fn $food(game: &$game, into: *mut Place, room: usize) -> usize;
            pub(crate) fn $body(game: &$game, seat: usize, into: *mut Place, room: usize) -> usize;
            pub(crate) fn $save(game: &$game, into: *mut u8, room: usize) -> usize;
            pub(crate) fn $load(game: &mut $game, record: *const u8, len: usize) -> u8;
        }
    };
}

game_calls!(
    SmallGame,
    arena_small_start,
    arena_small_step,
    arena_small_planes,
    arena_small_advance,
    arena_small_food,
    arena_small_body,
    arena_small_save,
    arena_small_load
);
game_calls!(
    LargeGame,
    arena_large_start,
    arena_large_step,
    arena_large_planes,
    arena_large_advance,
    arena_large_food,
    arena_large_body,
    arena_large_save,
    arena_large_load
);

extern "C" {
    pub(crate) fn arena_version() -> *const c_char;
    pub(crate) fn arena_built() -> *const c_char;
    pub(crate) fn arena_legal(record: *const u8, len: usize) -> u8;
    pub(crate) fn arena_over(record: *const u8, len: usize, over: &mut u8) -> u8;
    pub(crate) fn arena_start(
        setup: &SeatSetup<'_>,
        into: *mut u8,
        room: usize,
        length: &mut usize,
    ) -> u8;
    pub(crate) fn arena_turn(
        record: *const u8,
        len: usize,
        orders: &SeatOrders<'_>,
        into: *mut u8,
        room: usize,
        length: &mut usize,
    ) -> u8;
    pub(crate) fn arena_layout(
        small: &mut SmallGame,
        large: &mut LargeGame,
        sizes: *mut usize,
        count: usize,
    );
}
