//! Compares the declarations of this crate with those of the library.

use crate::games::Game;
use crate::raw::*;
use crate::words::Mode;
use std::mem::size_of;

/// The sizes of the structs, in the order in which `arena_layout` writes them.
type Layout = [usize; 11];

fn own_sizes() -> Layout {
    [
        size_of::<Settings>(),
        size_of::<Seat>(),
        size_of::<Head>(),
        size_of::<SmallGame>(),
        size_of::<LargeGame>(),
        size_of::<Cell>(),
        size_of::<Place>(),
        size_of::<ManyOrders<'_>>(),
        size_of::<ManyStarts<'_>>(),
        size_of::<SeatOrders<'_>>(),
        size_of::<SeatSetup<'_>>(),
    ]
}

fn numbered_seat(seat: u8) -> Seat {
    let first = 100 + 10 * seat;
    Seat {
        parts: u16::from(first) * 256,
        out: u16::from(first) * 256 + 1,
        health: first + 2,
        cause: first + 3,
        killer: first + 4,
        spare: first + 5,
    }
}

fn numbered_head() -> Head {
    Head {
        settings: Settings {
            mode: Mode::Solo,
            width: 2,
            height: 3,
            seats: 4,
            min_food: 5,
            chance: 6,
        },
        turn: 1793,
        foods: 2050,
        living: 9,
        over: 10,
        seats: std::array::from_fn(|seat| numbered_seat(seat as u8)),
    }
}

fn are_numbered(food: &[u16], plane: &[u8], bodies: &[u16]) -> bool {
    let from =
        |first: usize, list: &[u16]| (0..list.len()).all(|i| usize::from(list[i]) == first + i);
    from(10_000, food)
        && (0..plane.len()).all(|i| usize::from(plane[i]) == i % 251)
        && from(20_000, bodies)
}

/// Panics if a size or a field of this crate is not where the library has it.
pub fn check_layout() {
    let (mut small, mut large) = (SmallGame::empty(), LargeGame::empty());
    let mut sizes: Layout = [0; 11];
    // SAFETY: all are borrowed for the call.
    unsafe { arena_layout(&mut small, &mut large, sizes.as_mut_ptr(), sizes.len()) };
    assert_eq!(sizes, own_sizes());
    assert_eq!(small.head, numbered_head());
    assert_eq!(large.head, numbered_head());
    assert!(are_numbered(&small.food, &small.plane, &small.bodies));
    assert!(are_numbered(&large.food, &large.plane, &large.bodies));
}
