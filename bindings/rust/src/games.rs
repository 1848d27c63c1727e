//! Many games at once.

use crate::raw::*;
use crate::words::{answer, Fault};

/// The two sizes of a game: [`SmallGame`] and [`LargeGame`].
pub trait Game: Copy {
    /// A game that has not started: all bytes are 0.
    fn empty() -> Self;
    /// All of the game but its cells.
    fn head(&self) -> &Head;
    #[doc(hidden)]
    fn raw_start(games: &mut [Self], starts: &RawStarts<'_>) -> usize;
    #[doc(hidden)]
    fn raw_step(games: &mut [Self], orders: &RawOrders<'_>);
    #[doc(hidden)]
    fn raw_planes(games: &[Self], into: &mut [u8], each: usize);
    #[doc(hidden)]
    fn raw_advance(
        games: &mut [Self],
        orders: &RawOrders<'_>,
        starts: &RawStarts<'_>,
        into: &mut [u8],
        each: usize,
    ) -> usize;
    /// The cells with food, the oldest first.
    fn food(&self) -> Vec<Place>;
    /// The parts of a seat, its head first; none for no seat.
    fn body(&self, seat: usize) -> Vec<Place>;
    /// The record of the board. Its snakes have the ids "0" to "7".
    fn record(&self) -> Vec<u8>;
    /// Makes the game of a record, whose ids are not kept.
    fn load(&mut self, record: &[u8]) -> Result<(), Fault>;
}

#[doc(hidden)]
pub struct RawStarts<'a>(pub(crate) ManyStarts<'a>);

#[doc(hidden)]
pub struct RawOrders<'a>(pub(crate) ManyOrders<'a>);

macro_rules! game {
    ($game:ident, $start:ident, $step:ident, $planes:ident, $advance:ident, $food:ident,
     $body:ident, $save:ident, $load:ident) => {
        // SAFETY of each call: what crosses is borrowed for the call as its type says, and a struct
        // that is written is borrowed alone. The calls require nothing of the contents.
        impl Game for $game {
            fn empty() -> $game {
                // SAFETY: the struct is of numbers, for which all bytes 0 are a value.
                unsafe { std::mem::zeroed() }
            }

            fn head(&self) -> &Head {
                &self.head
            }

            fn raw_start(games: &mut [$game], starts: &RawStarts<'_>) -> usize {
                unsafe { $start(games.as_mut_ptr(), games.len(), &starts.0) }
            }

            fn raw_step(games: &mut [$game], orders: &RawOrders<'_>) {
                unsafe { $step(games.as_mut_ptr(), games.len(), &orders.0) }
            }

            fn raw_planes(games: &[$game], into: &mut [u8], each: usize) {
                let (at, room) = (into.as_mut_ptr(), into.len());
                unsafe { $planes(games.as_ptr(), games.len(), at, room, each) }
            }

            fn raw_advance(
                games: &mut [$game],
                orders: &RawOrders<'_>,
                starts: &RawStarts<'_>,
                into: &mut [u8],
                each: usize,
            ) -> usize {
                let (at, room) = (into.as_mut_ptr(), into.len());
                let (own, count) = (games.as_mut_ptr(), games.len());
                unsafe { $advance(own, count, &orders.0, &starts.0, at, room, each) }
            }

            fn food(&self) -> Vec<Place> {
                let mut places = vec![Place::default(); 625];
                let count = unsafe { $food(self, places.as_mut_ptr(), places.len()) };
                places.truncate(count);
                places
            }

            fn body(&self, seat: usize) -> Vec<Place> {
                let mut places = vec![Place::default(); 629];
                let count = unsafe { $body(self, seat, places.as_mut_ptr(), places.len()) };
                places.truncate(count);
                places
            }

            fn record(&self) -> Vec<u8> {
                let mut into = vec![0; 20_000];
                let count = unsafe { $save(self, into.as_mut_ptr(), into.len()) };
                into.truncate(count);
                into
            }

            fn load(&mut self, record: &[u8]) -> Result<(), Fault> {
                answer(unsafe { $load(self, record.as_ptr(), record.len()) })
            }
        }
    };
}

game!(
    SmallGame,
    arena_small_start,
    arena_small_step,
    arena_small_planes,
    arena_small_advance,
    arena_small_food,
    arena_small_body,
    arena_small_save,
    arena_small_load
);
game!(
    LargeGame,
    arena_large_start,
    arena_large_step,
    arena_large_planes,
    arena_large_advance,
    arena_large_food,
    arena_large_body,
    arena_large_save,
    arena_large_load
);

/// Games of one size. A clone is a copy of all games.
///
/// ```
/// use arena_rules::{start_games, step, Cell, Games, Settings, SmallGame, Starts};
///
/// let mut games = Games::<SmallGame>::new(2);
/// let cells = [Cell { x: 1, y: 5 }, Cell { x: 9, y: 5 }].repeat(2);
/// let settings = Settings { seats: 2, ..Settings::default() };
/// let starts = Starts { cells: &cells, food: &[], which: None };
/// assert_eq!(start_games(games.as_mut_slice(), settings, &starts)?, 2);
/// step(games.as_mut_slice(), &[3, 2, 0, 0], &[])?;
/// assert_eq!(games.as_slice()[1].head.turn, 1);
/// // Three moves for four seats do not fit.
/// assert!(step(games.as_mut_slice(), &[3, 2, 0], &[]).is_err());
/// # Ok::<(), arena_rules::Fault>(())
/// ```
#[derive(Clone)]
pub struct Games<G: Game> {
    games: Vec<G>,
}

impl<G: Game> Games<G> {
    /// Games that have not started.
    pub fn new(count: usize) -> Games<G> {
        Games {
            games: vec![G::empty(); count],
        }
    }

    /// The games.
    pub fn as_slice(&self) -> &[G] {
        &self.games
    }

    /// The games, which may be split into ranges for threads: see [`step`].
    pub fn as_mut_slice(&mut self) -> &mut [G] {
        &mut self.games
    }
}

/// The first boards of games.
#[derive(Clone, Copy)]
pub struct Starts<'a> {
    /// A starting cell for each seat of each game.
    pub cells: &'a [Cell],
    /// As many cells with food for each game.
    pub food: &'a [Cell],
    /// Whether each game is started; `None` starts all.
    pub which: Option<&'a [bool]>,
}

/// Refuses a list whose length is not the one that fits.
pub(crate) fn check(list: &'static str, is: usize, fits: usize) -> Result<(), Fault> {
    if is == fits {
        Ok(())
    } else {
        Err(Fault::Length { list, is, fits })
    }
}

/// How many entries each game has of a list, which has as many for each.
pub(crate) fn each_of(list: &'static str, is: usize, games: usize) -> Result<usize, Fault> {
    let count = games.max(1);
    if is % count == 0 {
        Ok(is / count)
    } else {
        Err(Fault::Length {
            list,
            is,
            fits: count,
        })
    }
}

/// Starts games, and returns the number of those that started.
///
/// A game whose settings or cells are not those of a first board is over, with no living snake.
/// [`Fault::Length`] if a list does not fit the games and the seats.
pub fn start<G: Game>(
    games: &mut [G],
    settings: Settings,
    starts: &Starts<'_>,
) -> Result<usize, Fault> {
    let (count, seats) = (games.len(), usize::from(settings.seats));
    check("cells", starts.cells.len(), count * seats)?;
    let food_each = each_of("food", starts.food.len(), count)?;
    let all: Vec<bool>;
    let which = match starts.which {
        Some(which) => which,
        None => {
            all = vec![true; count];
            &all
        }
    };
    check("which", which.len(), count)?;
    // SAFETY: a bool is a byte, 0 or 1.
    let which = unsafe { std::slice::from_raw_parts(which.as_ptr().cast::<u8>(), which.len()) };
    let raw = RawStarts(ManyStarts {
        starts: List::new(starts.cells),
        food: List::new(starts.food),
        food_each,
        which: List::new(which),
        settings,
    });
    Ok(G::raw_start(games, &raw))
}

/// Plays a turn in each game that is not over and is below turn 10,000.
///
/// `moves` has a byte for each seat of each game, all of which have as many seats: 0 to 3 for up,
/// down, left and right, else straight on. `words` has as many for each game; without them no food
/// appears. [`Fault::Length`] if a list does not fit.
pub fn step<G: Game>(games: &mut [G], moves: &[u8], words: &[u32]) -> Result<(), Fault> {
    step_among(games, moves, words, Hazards::default())
}

/// The hazards of games on a map, which lie beside them; none by default.
#[derive(Clone, Copy, Default)]
pub struct Hazards<'a> {
    /// How often each cell of each game is a hazard, row by row from the bottom.
    pub counts: &'a [u8],
    /// A byte for each game: the health that each costs, 0 to 100.
    pub damages: &'a [u8],
}

impl<'a> Hazards<'a> {
    /// The fields of the orders: the counts, their number for each game, and the damages.
    pub(crate) fn lists(self, count: usize) -> Result<(List<'a, u8>, usize, List<'a, u8>), Fault> {
        let each = each_of("counts", self.counts.len(), count)?;
        if each > 0 {
            check("damages", self.damages.len(), count)?;
        }
        Ok((List::new(self.counts), each, List::new(self.damages)))
    }
}

/// Plays a turn as [`step`] does, in games with hazards.
///
/// The hazards are those of the boards before the turn; what they are next is the map's affair.
/// Each game has as many cells. [`Fault::Length`] if a list does not fit.
pub fn step_among<G: Game>(
    games: &mut [G],
    moves: &[u8],
    words: &[u32],
    hazards: Hazards<'_>,
) -> Result<(), Fault> {
    let count = games.len();
    let seats = games.iter().map(|game| game.head().settings.seats).max();
    let moves_each = usize::from(seats.unwrap_or(0));
    check("moves", moves.len(), count * moves_each)?;
    let (hazards, hazards_each, damages) = hazards.lists(count)?;
    let raw = RawOrders(ManyOrders {
        moves: List::new(moves),
        moves_each,
        words: List::new(words),
        words_each: each_of("words", words.len(), count)?,
        hazards,
        hazards_each,
        damages,
    });
    G::raw_step(games, &raw);
    Ok(())
}

/// Writes the planes of each game: food, then living snakes by their seats, row by row from the
/// bottom.
///
/// `into` has as many bytes for each game, at least those of its food and seats.
/// [`Fault::Length`] if it has fewer.
pub fn planes<G: Game>(games: &[G], into: &mut [u8]) -> Result<(), Fault> {
    let each = each_of("into", into.len(), games.len())?;
    let bytes = |game: &G| {
        let own = game.head().settings;
        (1 + usize::from(own.seats)) * usize::from(own.width) * usize::from(own.height)
    };
    let most = games.iter().map(bytes).max().unwrap_or(0);
    if each < most {
        let fits = most * games.len();
        return Err(Fault::Length {
            list: "into",
            is: into.len(),
            fits,
        });
    }
    G::raw_planes(games, into, each);
    Ok(())
}
