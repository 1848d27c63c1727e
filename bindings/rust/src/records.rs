//! Exact calls on records: bytes in, bytes out.

use crate::raw::{
    arena_legal, arena_over, arena_start, arena_turn, Cell, List, SeatOrders, SeatSetup,
};
use crate::words::{answer, Fault, Mode};
use std::cell::RefCell;

const MOST_BYTES: usize = 166_888;

/// The setup of a game. The default has no snake: give the starts.
#[derive(Clone, Copy)]
pub struct Setup<'a> {
    /// The mode.
    pub mode: Mode,
    /// The columns, 3 to 25.
    pub width: u8,
    /// The rows, 3 to 25.
    pub height: u8,
    /// The starting cells, one for each seat. The snakes have the ids "0", "1" and so on.
    pub starts: &'a [Cell],
    /// The cells with food.
    pub food: &'a [Cell],
    /// The number of food below which each turn places some.
    pub min_food: u8,
    /// The chance of food in a turn, in percent.
    pub chance: u8,
    /// The damage and the cells of the hazards; `None` for a game without hazards.
    pub hazards: Option<(u8, &'a [Cell])>,
}

impl Default for Setup<'_> {
    fn default() -> Self {
        Setup {
            mode: Mode::Standard,
            width: 11,
            height: 11,
            starts: &[],
            food: &[],
            min_food: 1,
            chance: 15,
            hazards: None,
        }
    }
}

/// What the map gives in a turn.
#[derive(Clone, Copy, Default)]
pub struct Map<'a> {
    /// The hazards after the turn; `None` leaves them as they are.
    pub hazards: Option<&'a [Cell]>,
    /// Food that is added at the end of the turn.
    pub food: Option<&'a [Cell]>,
}

/// Whether the bytes are the record of a legal board.
pub fn is_legal(record: &[u8]) -> Result<bool, Fault> {
    // SAFETY: pointer and length are those of a slice that is borrowed for the call.
    match answer(unsafe { arena_legal(record.as_ptr(), record.len()) }) {
        Ok(()) => Ok(true),
        Err(Fault::NotARecord) => Ok(false),
        Err(fault) => Err(fault),
    }
}

/// Whether the game of a record is over.
pub fn is_over(record: &[u8]) -> Result<bool, Fault> {
    let mut over = 0;
    // SAFETY: as above; `over` is borrowed for the call.
    answer(unsafe { arena_over(record.as_ptr(), record.len(), &mut over) })?;
    Ok(over != 0)
}

thread_local! {
    /// Room for any record, made once for each thread.
    static ROOM: RefCell<Vec<u8>> = RefCell::new(vec![0; MOST_BYTES]);
}

/// Calls with room for any record, and adds the record that is written to a list.
fn record_to(
    to: &mut Vec<u8>,
    call: impl FnOnce(&mut [u8], &mut usize) -> u8,
) -> Result<(), Fault> {
    ROOM.with(|room| {
        let (mut room, mut length) = (room.borrow_mut(), 0);
        answer(call(&mut room, &mut length))?;
        to.clear();
        to.extend_from_slice(&room[..length]);
        Ok(())
    })
}

/// The record of turn 0.
pub fn start(setup: &Setup<'_>) -> Result<Vec<u8>, Fault> {
    let (damage, hazards) = setup.hazards.unwrap_or((0, &[]));
    let raw = SeatSetup {
        starts: List::new(setup.starts),
        food: List::new(setup.food),
        hazards: List::new(hazards),
        mode: setup.mode,
        width: setup.width,
        height: setup.height,
        min_food: setup.min_food,
        chance: setup.chance,
        has_hazards: u8::from(setup.hazards.is_some()),
        damage,
    };
    // SAFETY: the lists of `raw` and the room are borrowed for the call, and do not overlap.
    let call = |into: &mut [u8], length: &mut usize| unsafe {
        arena_start(&raw, into.as_mut_ptr(), into.len(), length)
    };
    let mut record = Vec::new();
    record_to(&mut record, call)?;
    Ok(record)
}

/// The record after a turn. A move is 0 to 3 for up, down, left, right; a seat with another byte,
/// or without one, goes straight on.
pub fn turn(record: &[u8], moves: &[u8], words: &[u32], map: Map<'_>) -> Result<Vec<u8>, Fault> {
    let mut next = Vec::new();
    turn_into(record, moves, words, map, &mut next)?;
    Ok(next)
}

/// As [`turn`], with the record in a list that is used again; after a fault it is as it was.
pub fn turn_into(
    record: &[u8],
    moves: &[u8],
    words: &[u32],
    map: Map<'_>,
    next: &mut Vec<u8>,
) -> Result<(), Fault> {
    let raw = SeatOrders {
        moves: List::new(moves),
        words: List::new(words),
        hazards: List::new(map.hazards.unwrap_or(&[])),
        food: List::new(map.food.unwrap_or(&[])),
        has_hazards: u8::from(map.hazards.is_some()),
        has_food: u8::from(map.food.is_some()),
    };
    // SAFETY: the record, the lists of `raw` and the room are borrowed for the call, and the room
    // overlaps none of them.
    record_to(next, |into, length| unsafe {
        arena_turn(
            record.as_ptr(),
            record.len(),
            &raw,
            into.as_mut_ptr(),
            into.len(),
            length,
        )
    })
}
