//! One game: its kept boards and its answers to commands.

use crate::board::{Board, MAX_TURN};
use crate::command::Command;
use crate::plan::Row;
use crate::rules;
use crate::transcript::{Line, Reason};

struct Game {
    quota: usize,
    /// The kept boards, of turns one after the other. None where no game runs.
    kept: Vec<Board>,
    /// What the kept boards' records are charged.
    charge: usize,
}

/// Plays one game's commands, and gives its lines of the transcript.
pub fn play(row: &Row, commands: &[Command]) -> Vec<u8> {
    let mut game = Game { quota: row.quota, kept: Vec::new(), charge: 0 };
    let mut text = Vec::new();
    let name = &row.game[..];
    for (before, command) in commands.iter().enumerate() {
        let seq = before + 1;
        let line = match game.answer(command) {
            Ok((word, shown)) => {
                let board = shown.map(|place| &game.kept[place]);
                Line::Accepted { board, charge: game.charge, word, name, seq }
            }
            Err((no, why)) => Line::Refused { name, no, seq, why },
        };
        line.write(&mut text);
    }
    let board = game.kept.last();
    Line::Final { board, charge: game.charge, is_final: true, name }.write(&mut text);
    text
}

/// A command's word, and the place of the kept board that its reply shows.
type Answer = Result<(&'static str, Option<usize>), Reason>;

impl Game {
    fn answer(&mut self, command: &Command) -> Answer {
        let last = self.kept.last().ok_or(("G2", "none"));
        match command {
            Command::Bad => Err(("G1", "command")),
            Command::New(_) if last.is_ok() => Err(("G3", "running")),
            Command::New(board) => self.keep("new", board.clone()),
            Command::Move(given) => {
                let last = last?;
                if last.over {
                    return Err(("G4", "over"));
                }
                if last.turn == MAX_TURN {
                    return Err(("G5", "limit"));
                }
                self.keep("move", rules::turn(last, given))
            }
            Command::Show => last.map(|_| ("show", Some(self.kept.len() - 1))),
            Command::Turn(at) => {
                last?;
                let place = usize::from(*at).checked_sub(usize::from(self.kept[0].turn));
                let kept = place.filter(|&place| place < self.kept.len());
                kept.map(|place| ("turn", Some(place))).ok_or(("G6", "record"))
            }
            Command::Free => {
                self.charge = last?.charge();
                self.kept.drain(..self.kept.len() - 1);
                Ok(("free", None))
            }
            Command::End => {
                last?;
                self.charge = 0;
                self.kept.clear();
                Ok(("end", None))
            }
        }
    }

    fn keep(&mut self, word: &'static str, board: Board) -> Answer {
        let charge = self.charge + board.charge();
        if charge > self.quota {
            return Err(("G7", "quota"));
        }
        self.charge = charge;
        self.kept.push(board);
        Ok((word, Some(self.kept.len() - 1)))
    }
}
