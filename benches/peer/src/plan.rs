//! The first line of a file: the games and their quotas.

use std::collections::HashSet;

use serde_json::Value;

use crate::host::{Fault, MAX_LINE};
use crate::json;

const MAX_GAMES: usize = 64;
const MAX_QUOTA: u64 = 16_777_216;
/// Bytes that records surely find in a block: 2 MiB less the largest record.
const USED_OF_BLOCK: usize = 2_097_152 - 262_144;
/// Blocks of a game beside those of its quota: two for its records and four for its turns.
const FURTHER_BLOCKS: usize = 6;

pub struct Row {
    pub game: String,
    pub quota: usize,
}

/// What the version of the file adds to version 1.
#[derive(Clone, Copy)]
pub struct Version {
    pub has_wrapped: bool,
    /// Whether the whole plan has to fit, also where one game is played alone. The lines that admit
    /// games are not read.
    pub has_stays: bool,
    pub has_hazards: bool,
}

pub struct Plan {
    pub rows: Vec<Row>,
    pub version: Version,
}

impl Plan {
    pub fn read(line: &[u8]) -> Result<Plan, Fault> {
        let (rows, version) = rows_and_version(line).ok_or(Fault::NoPlan)?;
        let rows: Vec<Row> = rows.iter().map(row).collect::<Option<_>>().ok_or(Fault::BadRow)?;
        let mut names = HashSet::new();
        if !rows.iter().all(|row| names.insert(&row.game)) {
            return Err(Fault::BadRow);
        }
        if rows.len() > MAX_GAMES {
            return Err(Fault::TooManyGames);
        }
        Ok(Plan { rows, version })
    }

    pub fn blocks(&self) -> usize {
        self.rows.iter().map(|row| row.quota / USED_OF_BLOCK + FURTHER_BLOCKS).sum()
    }
}

fn rows_and_version(line: &[u8]) -> Option<(Vec<Value>, Version)> {
    if line.len() > MAX_LINE {
        return None;
    }
    let Value::Object(mut plan) = serde_json::from_slice(line).ok()? else { return None };
    let number: u64 = json::or(&plan, "version", 1, |plan, key| json::whole(plan, key, 1..=5))?;
    match plan.remove("games")? {
        Value::Array(rows) => Some((rows, version(number)?)),
        _ => None,
    }
}

fn version(number: u64) -> Option<Version> {
    match number {
        1 => Some(Version { has_wrapped: false, has_stays: false, has_hazards: false }),
        2 => Some(Version { has_wrapped: true, has_stays: false, has_hazards: false }),
        5 => Some(Version { has_wrapped: true, has_stays: true, has_hazards: true }),
        _ => None,
    }
}

fn row(value: &Value) -> Option<Row> {
    let row = value.as_object()?;
    let game = json::text(row, "game")?.to_string();
    Some(Row { game, quota: json::whole(row, "quota", 16..=MAX_QUOTA)? })
}
