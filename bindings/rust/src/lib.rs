//! The rules of Battlesnake games, in this process. docs/SIMULATOR.md says what is proved of them.
//!
//! Calls on records ([`start`], [`turn`], [`is_over`], [`is_legal`]) take bytes and return bytes.
//! [`Games`] holds many games as plain structs, and one call plays a turn in all of them: [`step`],
//! or [`advance`], which also starts some of them and writes their planes.
//!
//! ```
//! use arena_rules::{is_over, start, turn, Cell, Direction, Map, Setup};
//!
//! let starts = [Cell { x: 1, y: 5 }, Cell { x: 9, y: 5 }];
//! let first = start(&Setup { starts: &starts, ..Setup::default() })?;
//! let moves = [Direction::Right as u8, Direction::Left as u8];
//! let second = turn(&first, &moves, &[], Map::default())?;
//! assert!(!is_over(&second)?);
//! # Ok::<(), arena_rules::Fault>(())
//! ```
#![warn(missing_docs)]
#![warn(unsafe_op_in_unsafe_fn)]

mod advance;
mod games;
mod layout;
mod raw;
mod records;
mod words;

pub use advance::{advance, Act, Advance};
pub use games::{planes, start as start_games, step, step_among, Game, Games, Hazards, Starts};
pub use layout::check_layout;
pub use raw::{Cell, Head, LargeGame, Place, Seat, Settings, SmallGame};
pub use records::{is_legal, is_over, start, turn, turn_into, Map, Setup};
pub use words::{Cause, Direction, Fault, Mode};

/// The version of the library that is linked.
pub fn version() -> &'static str {
    // SAFETY: the library returns a constant text that ends in a zero.
    unsafe { text(raw::arena_version()) }
}

/// What the library was built from: lines of version, commit, kit, and whether it is proved.
pub fn built() -> &'static str {
    // SAFETY: as above.
    unsafe { text(raw::arena_built()) }
}

/// # Safety
/// The pointer is to a constant text that ends in a zero.
unsafe fn text(at: *const std::os::raw::c_char) -> &'static str {
    // SAFETY: as the caller has it.
    let bytes = unsafe { std::ffi::CStr::from_ptr(at) };
    bytes.to_str().unwrap_or("")
}
