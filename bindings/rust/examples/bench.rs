//! Times the crate on the games of a file that benches/library.py wrote: `bench FILE RUNS`.
//!
//! Prints seconds a turn, the least of the runs: all games side by side, one game, one record.

use arena_rules::*;

extern "C" {
    /// Microseconds of processor time, by the C library on Linux.
    fn clock() -> std::os::raw::c_long;
}

/// Seconds of processor time.
fn seconds() -> f64 {
    // SAFETY: it takes nothing.
    unsafe { clock() as f64 * 1e-6 }
}

/// A game of the file: four seats on 11 by 11 cells, two words a turn.
struct Played {
    starts: Vec<Cell>,
    food: Vec<Cell>,
    moves: Vec<u8>,
    words: Vec<u32>,
    turns: usize,
}

struct Input<'a>(&'a [u8]);

impl<'a> Input<'a> {
    fn take(&mut self, count: usize) -> &'a [u8] {
        let (taken, rest) = self.0.split_at(count);
        self.0 = rest;
        taken
    }

    fn number(&mut self) -> usize {
        u32::from_le_bytes(self.take(4).try_into().unwrap()) as usize
    }

    fn cells(&mut self, count: usize) -> Vec<Cell> {
        let bytes = self.take(2 * count).chunks(2);
        bytes.map(|at| Cell { x: at[0], y: at[1] }).collect()
    }

    fn game(&mut self) -> Played {
        let head = self.take(8);
        let starts = self.cells(4);
        let food = self.cells(usize::from(head[6]));
        let turns = self.number();
        let length = self.number();
        self.take(length);
        let (mut moves, mut words) = (Vec::new(), Vec::new());
        for _ in 0..turns {
            moves.extend_from_slice(self.take(4));
            words.extend((0..2).map(|_| self.number() as u32));
            let length = self.number();
            self.take(length);
        }
        Played {
            starts,
            food,
            moves,
            words,
            turns,
        }
    }
}

fn started(games: &[Played]) -> Games<SmallGame> {
    let mut small = Games::<SmallGame>::new(games.len());
    for (game, to) in games.iter().zip(small.as_mut_slice()) {
        let starts = Starts {
            cells: &game.starts,
            food: &game.food,
            which: None,
        };
        let one = std::slice::from_mut(to);
        assert_eq!(start_games(one, Settings::default(), &starts), Ok(1));
    }
    small
}

/// The moves and words of a turn for the games that last longer, which are the first ones.
fn spread(games: &[Played], turn: usize) -> (Vec<u8>, Vec<u32>) {
    let running = games.iter().take_while(|game| game.turns > turn);
    let (mut moves, mut words) = (Vec::new(), Vec::new());
    for game in running {
        moves.extend_from_slice(&game.moves[4 * turn..4 * turn + 4]);
        words.extend_from_slice(&game.words[2 * turn..2 * turn + 2]);
    }
    (moves, words)
}

fn batch(games: &[Played]) -> f64 {
    let mut small = started(games);
    let turns: Vec<_> = (0..games[0].turns).map(|at| spread(games, at)).collect();
    let from = seconds();
    for (moves, words) in &turns {
        step(&mut small.as_mut_slice()[..moves.len() / 4], moves, words).unwrap();
    }
    seconds() - from
}

fn alone(games: &[Played]) -> f64 {
    let mut small = started(games);
    let from = seconds();
    for (game, to) in games.iter().zip(small.as_mut_slice()) {
        let one = std::slice::from_mut(to);
        for (moves, words) in game.moves.chunks(4).zip(game.words.chunks(2)) {
            step(one, moves, words).unwrap();
        }
    }
    seconds() - from
}

fn records(games: &[Played]) -> f64 {
    let from = seconds();
    for game in games {
        let mut record = start(&Setup {
            starts: &game.starts,
            food: &game.food,
            ..Setup::default()
        })
        .unwrap();
        for (moves, words) in game.moves.chunks(4).zip(game.words.chunks(2)) {
            record = turn(&record, moves, words, Map::default()).unwrap();
        }
    }
    seconds() - from
}

fn main() {
    let words: Vec<String> = std::env::args().collect();
    let bytes = std::fs::read(&words[1]).expect("a file of games");
    let mut input = Input(&bytes);
    let mut games: Vec<Played> = (0..input.number()).map(|_| input.game()).collect();
    games.sort_by_key(|game| std::cmp::Reverse(game.turns));
    let turns: usize = games.iter().map(|game| game.turns).sum();
    for (name, time) in [
        ("batch", batch as fn(&[Played]) -> f64),
        ("one game", alone),
        ("one record", records),
    ] {
        let runs: usize = words[2].parse().expect("a number of runs");
        let least = (0..runs).map(|_| time(&games)).fold(f64::MAX, f64::min);
        println!("{name}\t{:.9}", least / turns as f64);
    }
}
