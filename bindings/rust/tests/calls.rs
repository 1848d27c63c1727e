//! What the calls take, and what they refuse.

use arena_rules::*;

const STARTS: [Cell; 2] = [Cell { x: 1, y: 5 }, Cell { x: 9, y: 5 }];

fn settings() -> Settings {
    Settings {
        seats: 2,
        ..Settings::default()
    }
}

fn started(count: usize) -> Games<SmallGame> {
    let mut games = Games::new(count);
    let cells = STARTS.repeat(count);
    let starts = Starts {
        cells: &cells,
        food: &[],
        which: None,
    };
    assert_eq!(
        start_games(games.as_mut_slice(), settings(), &starts),
        Ok(count)
    );
    games
}

fn length<T>(list: &'static str, is: usize, fits: usize) -> Result<T, Fault> {
    Err(Fault::Length { list, is, fits })
}

#[test]
fn moves_that_do_not_fit_are_refused() {
    let mut games = started(4);
    let games = games.as_mut_slice();
    for moves in [0, 3, 7, 9, 16] {
        assert_eq!(step(games, &vec![0; moves], &[]), length("moves", moves, 8));
    }
    assert_eq!(step(games, &[0; 8], &[0; 6]), length("words", 6, 4));
    assert_eq!(games[0].head.turn, 0);
    assert_eq!(step(games, &[0; 8], &[0; 8]), Ok(()));
    assert_eq!(games[3].head.turn, 1);
}

#[test]
fn starts_that_do_not_fit_are_refused() {
    let mut games = Games::<SmallGame>::new(2);
    let games = games.as_mut_slice();
    let all = STARTS.repeat(2);
    let mut first = Starts {
        cells: &all[..3],
        food: &[],
        which: None,
    };
    assert_eq!(
        start_games(games, settings(), &first),
        length("cells", 3, 4)
    );
    first.cells = &all;
    first.food = &all[..3];
    assert_eq!(start_games(games, settings(), &first), length("food", 3, 2));
    first.food = &[];
    first.which = Some(&[true]);
    assert_eq!(
        start_games(games, settings(), &first),
        length("which", 1, 2)
    );
    first.which = Some(&[false, true]);
    assert_eq!(start_games(games, settings(), &first), Ok(1));
    assert_eq!((games[0].head.living, games[1].head.living), (0, 2));
}

#[test]
fn planes_have_room() {
    let games = started(2);
    let mut into = vec![0; 2 * 363];
    assert_eq!(
        planes(games.as_slice(), &mut into[..725]),
        length("into", 725, 2)
    );
    assert_eq!(
        planes(games.as_slice(), &mut into[..724]),
        length("into", 724, 726)
    );
    assert_eq!(planes(games.as_slice(), &mut into), Ok(()));
    assert_eq!(into[121 + 5 * 11 + 1], 3);
    assert_eq!(into.iter().map(|byte| u32::from(*byte)).sum::<u32>(), 12);
}

/// Drawn bytes: xorshift.
fn drawn(state: &mut u64) -> u64 {
    *state ^= *state << 13;
    *state ^= *state >> 7;
    *state ^= *state << 17;
    *state >> 16
}

/// The acts, moves, words and first cells of one step of four games of two seats.
struct Drawn {
    acts: Vec<Act>,
    moves: Vec<u8>,
    words: Vec<u32>,
    cells: Vec<Cell>,
}

fn draw(state: &mut u64, games: &[SmallGame]) -> Drawn {
    let act_of = |game: &SmallGame, word: u64| match word % 8 {
        _ if game.head.living == 0 || game.head.over != 0 => Act::Start,
        0 => Act::Stay,
        1 => Act::Start,
        _ => Act::Turn,
    };
    Drawn {
        acts: games.iter().map(|it| act_of(it, drawn(state))).collect(),
        moves: (0..8).map(|_| (drawn(state) % 5) as u8).collect(),
        words: (0..8).map(|_| drawn(state) as u32).collect(),
        cells: (0..8)
            .map(|at| Cell {
                x: 1 + at % 2 * 8,
                y: (drawn(state) % 12) as u8,
            })
            .collect(),
    }
}

/// The same step by `step`, `start_games` and `planes`, game by game.
fn advance_singly(games: &mut [SmallGame], by: &Drawn, into: &mut [u8]) -> usize {
    let mut begun = 0;
    for (at, piece) in into.chunks_mut(363).enumerate() {
        let (game, two) = (&mut games[at..at + 1], 2 * at..2 * at + 2);
        match by.acts[at] {
            Act::Turn => step(game, &by.moves[two.clone()], &by.words[two]).unwrap(),
            Act::Start => {
                let first = Starts {
                    cells: &by.cells[two],
                    food: &[],
                    which: None,
                };
                begun += start_games(game, settings(), &first).unwrap();
            }
            Act::Stay => continue,
        }
        planes(game, piece).unwrap();
    }
    begun
}

#[test]
fn an_advance_is_turns_starts_and_planes() {
    let (mut games, mut singly) = (Games::<SmallGame>::new(4), Games::<SmallGame>::new(4));
    let (mut seen, mut wanted) = (vec![0; 4 * 363], vec![0; 4 * 363]);
    let (mut state, mut begun, mut refused) = (88_172_645_463_325_252, 0, 0);
    for _ in 0..400 {
        let by = draw(&mut state, games.as_slice());
        let one = Advance {
            acts: &by.acts,
            moves: &by.moves,
            words: &by.words,
            cells: &by.cells,
            food: &[],
            hazards: Hazards::default(),
        };
        let count = advance(games.as_mut_slice(), settings(), &one, &mut seen).unwrap();
        assert_eq!(
            count,
            advance_singly(singly.as_mut_slice(), &by, &mut wanted)
        );
        assert_eq!(seen, wanted);
        for (game, other) in games.as_slice().iter().zip(singly.as_slice()) {
            assert_eq!(game.record(), other.record());
        }
        let asked = by.acts.iter().filter(|it| **it == Act::Start).count();
        begun += count;
        refused += asked - count;
    }
    assert!(begun > 100 && refused > 10, "{begun} and {refused}");
}

#[test]
fn an_advance_that_does_not_fit_is_refused() {
    let mut games = started(2);
    let games = games.as_mut_slice();
    let all = Advance {
        acts: &[Act::Turn; 2],
        moves: &[3, 2, 3, 2],
        words: &[],
        cells: &STARTS.repeat(2),
        food: &[],
        hazards: Hazards::default(),
    };
    let mut into = vec![0; 726];
    let mut said = |one: &Advance<'_>, room: usize| {
        let answer = advance(games, settings(), one, &mut into[..room]);
        (answer, games[1].head.turn)
    };
    let refused = |list, is, fits| (length(list, is, fits), 0);
    let acts = Advance {
        acts: &all.acts[..1],
        ..all
    };
    assert_eq!(said(&acts, 726), refused("acts", 1, 2));
    let moves = Advance {
        moves: &[0; 3],
        ..all
    };
    assert_eq!(said(&moves, 726), refused("moves", 3, 4));
    let cells = Advance {
        cells: &STARTS,
        ..all
    };
    assert_eq!(said(&cells, 726), refused("cells", 2, 4));
    let words = Advance {
        words: &[1; 3],
        ..all
    };
    assert_eq!(said(&words, 726), refused("words", 3, 2));
    let food = Advance {
        food: &STARTS[..1],
        ..all
    };
    assert_eq!(said(&food, 726), refused("food", 1, 2));
    let hazards = Advance {
        hazards: Hazards {
            counts: &[0; 242],
            damages: &[14],
        },
        ..all
    };
    assert_eq!(said(&hazards, 726), refused("damages", 1, 2));
    assert_eq!(said(&all, 725), refused("into", 725, 2));
    assert_eq!(said(&all, 724), refused("into", 724, 726));
    assert_eq!(said(&all, 0), (Ok(0), 1));
    assert_eq!(said(&all, 726), (Ok(0), 2));
    assert_eq!(into[121 + 5 * 11 + 3], 3);
}

/// A head on two hazards and on no food loses twice the damage besides: docs/RULES.md. In the
/// second game the damage is all that is left, and the snake is out by a hazard.
#[test]
fn a_step_among_hazards_hurts() {
    let mut games = started(2);
    let mut counts = vec![0; 242];
    counts[5 * 11 + 2] = 2;
    counts[121 + 5 * 11 + 2] = 1;
    let damages = [20, 99];
    let hazards = Hazards {
        counts: &counts,
        damages: &damages,
    };
    step_among(games.as_mut_slice(), &[3, 2, 3, 2], &[], hazards).unwrap();
    let seats = |game: usize| games.as_slice()[game].head.seats;
    assert_eq!([seats(0)[0].health, seats(0)[1].health], [59, 99]);
    assert_eq!(
        (seats(1)[0].health, seats(1)[0].cause()),
        (0, Some(Cause::Hazard))
    );
    assert_eq!((seats(1)[1].health, games.as_slice()[1].head.over), (99, 1));
    let short = Hazards {
        counts: &counts[1..],
        damages: &damages,
    };
    let answer = step_among(games.as_mut_slice(), &[3, 2, 3, 2], &[], short);
    assert_eq!(answer, length("counts", 241, 2));
}

#[test]
fn a_record_keeps_no_more_than_its_bytes() {
    let setup = Setup {
        starts: &STARTS,
        ..Setup::default()
    };
    let first = start(&setup).unwrap();
    let next = turn(&first, &[3, 2], &[1, 2], Map::default()).unwrap();
    assert!(first.capacity() <= 64 + first.len());
    assert!(next.capacity() <= 64 + next.len());
    let mut again = vec![7; 3];
    turn_into(&first, &[3, 2], &[1, 2], Map::default(), &mut again).unwrap();
    assert_eq!(again, next);
    assert_eq!(
        turn_into(&[], &[], &[], Map::default(), &mut again),
        Err(Fault::NotARecord)
    );
    assert_eq!(again, next);
    assert_eq!((is_legal(&next), is_legal(&[])), (Ok(true), Ok(false)));
}

#[test]
fn causes_have_names() {
    let mut games = started(1);
    let games = games.as_mut_slice();
    for moves in [[2, 0], [2, 0]] {
        step(games, &moves, &[]).unwrap();
    }
    let seats = games[0].head.seats;
    assert_eq!(seats[0].cause(), Some(Cause::WallCollision));
    assert_eq!(seats[1].cause(), None);
    assert_eq!(games[0].head.over, 1);
}

#[test]
fn faults_have_words() {
    let fault: Fault = step(&mut started(1).as_mut_slice()[..], &[1], &[]).unwrap_err();
    assert_eq!(fault.to_string(), "moves has the length 1, and 2 fits");
    assert_eq!(version(), env!("CARGO_PKG_VERSION"));
    assert!(built().starts_with("version: 1.1.0\ncommit: "));
}
