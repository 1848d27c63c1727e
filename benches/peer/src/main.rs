//! The host of docs/FORMATS.md as plain Rust: what the proved program is compared with.
//!
//!     peer serve FILE [--blocks N] [--workers N]
//!     peer alone FILE --game NAME [--blocks N]
//!
//! The words, statuses and texts are those of `arena`, but for `--help` and a refused command line.
//! Files of versions 1, 2 and 5 are read. Games come from the plan alone: the lines by which games
//! are admitted and leave are no words of the peer.

mod board;
mod command;
mod game;
mod host;
mod json;
mod plan;
mod rules;
mod transcript;

use std::fs::File;
use std::io::{self, Read, Write};
use std::os::fd::AsFd;
use std::process::ExitCode;

use host::{Fault, Host, MAX_FILE};

const USAGE: &str = "usage: peer serve FILE [--blocks N] [--workers N]
       peer alone FILE --game NAME [--blocks N]";

struct Words {
    file: String,
    host: Host,
}

impl Words {
    fn parse(given: &[String]) -> Option<Words> {
        let subcommand = given.first().map_or("serve", |word| &word[..]);
        let is_alone = subcommand == "alone";
        let (mut file, mut game, mut blocks, mut workers) = (None, None, None, None);
        let mut rest = given.iter().skip(1);
        while let Some(word) = rest.next() {
            let (place, value) = match &word[..] {
                "--game" if is_alone => (&mut game, rest.next()?),
                "--blocks" => (&mut blocks, rest.next()?),
                "--workers" if !is_alone => (&mut workers, rest.next()?),
                _ if word != "-" && word.starts_with('-') => return None,
                _ => (&mut file, word),
            };
            if place.replace(value.clone()).is_some() {
                return None; // given twice
            }
        }
        if given.is_empty() {
            file = Some("-".into());
        }
        let blocks = number(blocks, 64, 4096)?;
        let workers = number(workers, if is_alone { 1 } else { 2 }, 4)?;
        let is_whole = game.is_some() == is_alone && (is_alone || subcommand == "serve");
        is_whole.then_some(Words { file: file?, host: Host { alone: game, blocks, workers } })
    }
}

fn number(word: Option<String>, default: usize, most: usize) -> Option<usize> {
    let number = word.map_or(Some(default), |word| word.parse().ok());
    number.filter(|number| (1..=most).contains(number))
}

/// An exit status, and the line of standard error.
struct Failure(u8, String);

impl From<Fault> for Failure {
    fn from(fault: Fault) -> Self {
        let (status, text) = match fault {
            Fault::TooLong => (3, "file too long"),
            Fault::NoPlan => (4, "plan P1"),
            Fault::BadRow => (4, "plan P2"),
            Fault::TooManyGames => (4, "plan P3"),
            Fault::TooFewBlocks => (4, "plan P4"),
            Fault::NoSuchGame => (4, "no such game"),
        };
        Failure(status, text.into())
    }
}

/// The bytes of a file, or of standard input, and of a long one a byte more than there may be.
fn read(path: &str) -> io::Result<Vec<u8>> {
    let mut bytes = Vec::new();
    let input: Box<dyn Read> =
        if path == "-" { Box::new(io::stdin()) } else { Box::new(File::open(path)?) };
    input.take(MAX_FILE as u64 + 1).read_to_end(&mut bytes)?;
    Ok(bytes)
}

/// Writes the pieces one after the other; after a fault, how many bytes were written before it.
fn write(pieces: &[Vec<u8>], output: &mut impl Write) -> Result<(), usize> {
    let mut written = 0;
    for mut piece in pieces.iter().map(|piece| &piece[..]) {
        while !piece.is_empty() {
            match output.write(piece) {
                Ok(0) | Err(_) => return Err(written),
                Ok(count) => {
                    piece = &piece[count..];
                    written += count;
                }
            }
        }
    }
    Ok(())
}

fn run(words: Words) -> Result<(), Failure> {
    let file = read(&words.file).map_err(|_| Failure(3, "cannot read the file".into()))?;
    let pieces = words.host.serve(&file)?;
    let failed = |count| Failure(6, format!("write failed after {count} bytes"));
    // Without standard output's buffer, so that all that it took was written.
    let output = io::stdout().as_fd().try_clone_to_owned().map_err(|_| failed(0))?;
    write(&pieces, &mut File::from(output)).map_err(failed)
}

fn main() -> ExitCode {
    let given = std::env::args_os().skip(1).map(|word| word.into_string());
    let words = given.collect::<Result<Vec<_>, _>>().ok().and_then(|given| Words::parse(&given));
    let Some(words) = words else {
        eprintln!("{USAGE}");
        return ExitCode::from(2);
    };
    match run(words) {
        Ok(()) => ExitCode::SUCCESS,
        Err(Failure(status, text)) => {
            eprintln!("arena: {text}");
            ExitCode::from(status)
        }
    }
}
