//! Plays 256 games of random moves, and begins each anew that has ended.

use arena_rules::{start_games, step, Cell, Fault, Games, Settings, SmallGame, Starts};

/// A generator of 32-bit words: xorshift.
fn draw(state: &mut u64) -> u32 {
    *state ^= *state << 13;
    *state ^= *state >> 7;
    *state ^= *state << 17;
    (*state >> 16) as u32
}

fn main() -> Result<(), Fault> {
    let settings = Settings {
        seats: 2,
        ..Settings::default()
    };
    let cells = [Cell { x: 1, y: 5 }, Cell { x: 9, y: 5 }];
    let (count, mut state, mut turns) = (256, 1, 0);
    let mut games = Games::<SmallGame>::new(count);
    let starts: Vec<Cell> = (0..count).flat_map(|_| cells).collect();
    let mut which = vec![true; count];
    for _ in 0..1000 {
        let first = Starts {
            cells: &starts,
            food: &[],
            which: Some(&which),
        };
        start_games(games.as_mut_slice(), settings, &first)?;
        let moves: Vec<u8> = (0..2 * count)
            .map(|_| (draw(&mut state) % 4) as u8)
            .collect();
        let words: Vec<u32> = (0..2 * count).map(|_| draw(&mut state)).collect();
        step(games.as_mut_slice(), &moves, &words)?;
        turns += count;
        for (ended, game) in which.iter_mut().zip(games.as_slice()) {
            *ended = game.head.over != 0;
        }
    }
    println!("{turns} turns of random moves");
    Ok(())
}
