//! A whole file: from its bytes to its transcript.

use std::collections::HashMap;
use std::thread;

use crate::command::{self, Command, Line};
use crate::game;
use crate::plan::{Plan, Row};
use crate::transcript;

pub const MAX_FILE: usize = 16_777_216;
pub const MAX_LINE: usize = 65_536;

/// Why nothing is played.
pub enum Fault {
    TooLong,
    NoPlan,
    BadRow,
    TooManyGames,
    TooFewBlocks,
    NoSuchGame,
}

pub struct Host {
    /// The game that is played alone, if one is.
    pub alone: Option<String>,
    pub blocks: usize,
    pub workers: usize,
}

impl Host {
    /// The pieces of the transcript: one for each game, and one for the stray lines.
    pub fn serve(&self, file: &[u8]) -> Result<Vec<Vec<u8>>, Fault> {
        if file.len() > MAX_FILE {
            return Err(Fault::TooLong);
        }
        let lines = file.split_inclusive(|&byte| byte == b'\n');
        let lines: Vec<_> = lines.map(|line| line.strip_suffix(b"\n").unwrap_or(line)).collect();
        let (first, lines) = lines.split_first().ok_or(Fault::NoPlan)?;
        let mut plan = Plan::read(first)?;
        if plan.version.has_stays && plan.blocks() > self.blocks {
            return Err(Fault::TooFewBlocks);
        }
        if let Some(game) = &self.alone {
            plan.rows.retain(|row| row.game == *game);
            if plan.rows.is_empty() {
                return Err(Fault::NoSuchGame);
            }
        }
        if plan.blocks() > self.blocks {
            return Err(Fault::TooFewBlocks);
        }

        let mut commands: Vec<Vec<Command>> = plan.rows.iter().map(|_| Vec::new()).collect();
        let mut strays = Vec::new();
        for (number, line) in (2..).zip(self.read(&plan, lines)) {
            match line {
                Line::Command(row, command) => commands[row].push(command),
                Line::Stray((no, why)) if self.alone.is_none() => {
                    transcript::Line::Stray { line: number, no, why }.write(&mut strays);
                }
                Line::Stray(_) | Line::Blank => {}
            }
        }
        let mut pieces = self.play(&plan.rows, &commands);
        pieces.push(strays);
        Ok(pieces)
    }

    /// Reads the lines, an equal share in each thread.
    fn read(&self, plan: &Plan, lines: &[&[u8]]) -> Vec<Line> {
        let names = plan.rows.iter().map(|row| &row.game[..]);
        let row_of: &HashMap<&str, usize> = &names.zip(0..).collect();
        let read = |line: &&[u8]| command::read(line, row_of, plan.version);
        thread::scope(|scope| {
            let shares = lines.chunks(lines.len().div_ceil(self.workers).max(1));
            let threads: Vec<_> = shares
                .map(|share| scope.spawn(move || share.iter().map(read).collect::<Vec<_>>()))
                .collect();
            threads.into_iter().flat_map(|thread| thread.join().expect("a reader ends")).collect()
        })
    }

    /// Plays the games, an equal share in each thread, and gives each game's lines.
    fn play(&self, rows: &[Row], commands: &[Vec<Command>]) -> Vec<Vec<u8>> {
        let share = |first: usize| -> Vec<(usize, Vec<u8>)> {
            let share = (first..rows.len()).step_by(self.workers);
            share.map(|row| (row, game::play(&rows[row], &commands[row]))).collect()
        };
        let mut pieces = vec![Vec::new(); rows.len()];
        thread::scope(|scope| {
            let threads: Vec<_> =
                (0..self.workers).map(|first| scope.spawn(move || share(first))).collect();
            for (row, piece) in
                threads.into_iter().flat_map(|thread| thread.join().expect("a player ends"))
            {
                pieces[row] = piece;
            }
        });
        pieces
    }
}
