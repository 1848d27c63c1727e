//! One step of many environments.

use crate::games::{check, each_of, Game, Hazards, RawOrders, RawStarts};
use crate::raw::{Cell, List, ManyOrders, ManyStarts, Settings};
use crate::words::Fault;

/// What a step does with a game.
#[repr(u8)]
#[derive(Clone, Copy, Debug, Default, PartialEq, Eq, Hash)]
pub enum Act {
    /// Plays its turn, as [`step`](crate::step) does.
    #[default]
    Turn = 0,
    /// Starts it, as [`start_games`](crate::start_games) does.
    Start = 1,
    /// Leaves it and its planes as they are.
    Stay = 2,
}

/// What a step of many environments needs. Each list has as many entries for each game.
#[derive(Clone, Copy)]
pub struct Advance<'a> {
    /// What is done with each game.
    pub acts: &'a [Act],
    /// A byte for each seat, as [`step`](crate::step) takes them; read of games that play.
    pub moves: &'a [u8],
    /// Words for the food of games that play; without them no food appears.
    pub words: &'a [u32],
    /// A starting cell for each seat; read of games that start.
    pub cells: &'a [Cell],
    /// Cells with food; read of games that start.
    pub food: &'a [Cell],
    /// The hazards before the turn, of games that play.
    pub hazards: Hazards<'a>,
}

/// Plays a turn of some games, starts others, and writes the planes of both, in one pass. Returns
/// the number of games that started.
///
/// Each game does what its [`Act`] says: a turn as by [`step`](crate::step), a start with these
/// settings as by [`start_games`](crate::start_games), and then its planes are written as by
/// [`planes`](crate::planes), or nothing. An empty `into` takes no planes. The games that play have
/// as many seats as `settings`, or fewer. [`Fault::Length`] if a list does not fit the games and
/// the seats; nothing is played then.
///
/// Environments that start a game in the step after its end take `head.over` of each game for its
/// act:
///
/// ```
/// use arena_rules::{advance, Act, Advance, Cell, Games, Hazards, Settings, SmallGame};
///
/// let (count, seats) = (2, 2);
/// let settings = Settings { seats: 2, ..Settings::default() };
/// let mut games = Games::<SmallGame>::new(count);
/// let mut planes = vec![0; count * (1 + seats) * 121];
/// let cells = [Cell { x: 1, y: 5 }, Cell { x: 9, y: 5 }].repeat(count);
/// let mut acts = vec![Act::Start; count];
/// let mut begun = 0;
/// for _ in 0..10 {
///     // Both snakes of the first game go left; those of the second meet in the middle.
///     let one = Advance {
///         acts: &acts, moves: &[2, 2, 3, 2], words: &[], cells: &cells, food: &[],
///         hazards: Hazards::default(),
///     };
///     begun += advance(games.as_mut_slice(), settings, &one, &mut planes)?;
///     for (act, game) in acts.iter_mut().zip(games.as_slice()) {
///         *act = if game.head.over != 0 { Act::Start } else { Act::Turn };
///     }
/// }
/// // The first has ended after two turns each time, the second after four.
/// assert_eq!(begun, 4 + 2);
/// # Ok::<(), arena_rules::Fault>(())
/// ```
pub fn advance<G: Game>(
    games: &mut [G],
    settings: Settings,
    step: &Advance<'_>,
    into: &mut [u8],
) -> Result<usize, Fault> {
    let (count, seats) = (games.len(), usize::from(settings.seats));
    check("acts", step.acts.len(), count)?;
    check("moves", step.moves.len(), count * seats)?;
    check("cells", step.cells.len(), count * seats)?;
    let (hazards, hazards_each, damages) = step.hazards.lists(count)?;
    let orders = RawOrders(ManyOrders {
        moves: List::new(step.moves),
        moves_each: seats,
        words: List::new(step.words),
        words_each: each_of("words", step.words.len(), count)?,
        hazards,
        hazards_each,
        damages,
    });
    // SAFETY: an Act is a byte.
    let which = unsafe { std::slice::from_raw_parts(step.acts.as_ptr().cast::<u8>(), count) };
    let starts = RawStarts(ManyStarts {
        starts: List::new(step.cells),
        food: List::new(step.food),
        food_each: each_of("food", step.food.len(), count)?,
        which: List::new(which),
        settings,
    });
    let each = plane_bytes(settings, count, into.len())?;
    Ok(G::raw_advance(games, &orders, &starts, into, each))
}

/// The bytes of `into` for each game, which hold the planes of these settings; 1 if it is empty.
fn plane_bytes(settings: Settings, count: usize, room: usize) -> Result<usize, Fault> {
    if room == 0 {
        return Ok(1);
    }
    let each = each_of("into", room, count)?;
    let cells = usize::from(settings.width) * usize::from(settings.height);
    let most = (1 + usize::from(settings.seats)) * cells;
    if each < most {
        check("into", room, most * count)?;
    }
    Ok(each)
}
