//! What the numbers of the library mean: modes, directions, causes and faults.

use std::fmt;

/// The mode of a game.
#[repr(u8)]
#[derive(Clone, Copy, Debug, Default, PartialEq, Eq, Hash)]
pub enum Mode {
    /// The last snake alive wins.
    #[default]
    Standard = 0,
    /// The game goes on with a single snake.
    Solo = 1,
    /// Snakes grow in every turn, and there is no food.
    Constrictor = 2,
    /// The edges of the board are joined.
    Wrapped = 3,
}

/// A move of a seat. The calls take bytes, `Direction::Up as u8`; any byte from 4 on goes straight
/// on.
#[repr(u8)]
#[derive(Clone, Copy, Debug, PartialEq, Eq, Hash)]
pub enum Direction {
    /// To the row above, y + 1.
    Up = 0,
    /// To the row below, y - 1.
    Down = 1,
    /// To the column before, x - 1.
    Left = 2,
    /// To the next column, x + 1.
    Right = 3,
    /// As in the turn before; up in a snake's first turn.
    StraightOn = 4,
}

/// Why a snake is out.
#[repr(u8)]
#[derive(Clone, Copy, Debug, PartialEq, Eq, Hash)]
pub enum Cause {
    /// Its health came to 0.
    OutOfHealth = 1,
    /// Its head left the board.
    WallCollision = 2,
    /// Its head met its own body.
    SelfCollision = 3,
    /// Its head met another's body.
    SnakeCollision = 4,
    /// Its head met a head of a snake that is not shorter.
    HeadCollision = 5,
    /// A hazard took its last health.
    Hazard = 6,
}

impl Cause {
    /// The cause of a byte of a game; `None` for a living snake's, 0, and for bytes that are none.
    pub fn of(byte: u8) -> Option<Cause> {
        Some(match byte {
            1 => Cause::OutOfHealth,
            2 => Cause::WallCollision,
            3 => Cause::SelfCollision,
            4 => Cause::SnakeCollision,
            5 => Cause::HeadCollision,
            6 => Cause::Hazard,
            _ => return None,
        })
    }
}

/// Why a call has no answer.
#[derive(Clone, Copy, Debug, PartialEq, Eq)]
#[non_exhaustive]
pub enum Fault {
    /// The bytes are not the record of a legal board.
    NotARecord,
    /// The setup exceeds a limit.
    NotASetup,
    /// No turn follows turn 10,000.
    LastTurn,
    /// The board does not fit the game.
    Room,
    /// Out of memory.
    Memory,
    /// The board has hazards, which games in memory do not.
    Hazards,
    /// A list has another length than the games need.
    Length {
        /// The name of the argument.
        list: &'static str,
        /// Its length.
        is: usize,
        /// The length that fits, or of which a multiple fits.
        fits: usize,
    },
}

impl fmt::Display for Fault {
    fn fmt(&self, f: &mut fmt::Formatter<'_>) -> fmt::Result {
        let words = match self {
            Fault::NotARecord => "not the record of a legal board",
            Fault::NotASetup => "a setup that exceeds a limit",
            Fault::LastTurn => "no turn follows turn 10,000",
            Fault::Room => "no room",
            Fault::Memory => "out of memory",
            Fault::Hazards => "a board with hazards",
            Fault::Length { list, is, fits } => {
                return write!(f, "{list} has the length {is}, and {fits} fits");
            }
        };
        f.write_str(words)
    }
}

impl std::error::Error for Fault {}

/// The answer of a status.
pub(crate) fn answer(status: u8) -> Result<(), Fault> {
    match status {
        0 => Ok(()),
        1 => Err(Fault::NotARecord),
        2 => Err(Fault::NotASetup),
        3 => Err(Fault::LastTurn),
        4 => Err(Fault::Room),
        6 => Err(Fault::Hazards),
        _ => Err(Fault::Memory),
    }
}
