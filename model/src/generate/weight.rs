//! What a script must not ask for: neither side should need more than some hundred megabytes.

use crate::command::{self, Command, Place, Two};
use crate::making::filled_runs;
use crate::slots::Model;
use crate::tokens;
use crate::ROW_LIMIT;

/// More rows than this are not accepted anywhere in a script.
const MOST_ROWS: u128 = 2_000_000;

/// No place, no count of runs and no bit offset of a made mask is above this.
const MOST_SIZE: u64 = 1_000_000;

/// Whether a line would make too many rows or lend too much memory.
pub fn heavy(line: &[u8], model: &Model) -> bool {
    match command::parse(line) {
        Some(command) => heavy_command(&command, model),
        None => far_offset(line).is_some(),
    }
}

/// The bit offset of a made mask, where it is too large. A line with another fault beside it is misuse, but is
/// left out all the same: a driver may draw the bytes before it finds that fault.
fn far_offset(line: &[u8]) -> Option<u64> {
    let tokens = tokens::tokens(line)?;
    let offset = tokens::number(tokens.get(4)?)?;
    (tokens[0] == "fillmask" && offset > MOST_SIZE).then_some(offset)
}

fn heavy_command(command: &Command, model: &Model) -> bool {
    sizes(command).into_iter().any(|size| size > MOST_SIZE) || rows_made(command, model) > MOST_ROWS
}

/// The sizes of memory that a command names.
fn sizes(command: &Command) -> Vec<u64> {
    match command {
        Command::Runs { capacity, .. }
        | Command::Ranges { capacity, .. }
        | Command::Bytes { capacity, .. }
        | Command::Scan { capacity, .. }
        | Command::PageRows { capacity, .. } => vec![*capacity],
        Command::FillMask { offset, .. } => vec![*offset],
        Command::FillRuns { capacity, count, .. } => vec![*capacity, *count],
        Command::Convert { place, .. } | Command::Two { place, .. } | Command::One { place, .. } => {
            vec![capacity_of(place)]
        }
        Command::Split { answer, rest, .. } => vec![capacity_of(answer), capacity_of(rest)],
        _ => Vec::new(),
    }
}

fn capacity_of(place: &Place) -> u64 {
    match place {
        Place::Runs(capacity) | Place::Mask(capacity) => *capacity,
        Place::Natural => 0,
    }
}

/// The rows of what a command makes, 0 where they pass the row limit: then it is refused and makes nothing.
fn rows_made(command: &Command, model: &Model) -> u128 {
    let rows = match command {
        Command::Runs { runs, .. } => runs.iter().map(|run| run.rows as u128).sum(),
        Command::Ranges { total, .. } => *total as u128,
        Command::FillMask { length, .. } => *length as u128,
        Command::FillRuns { seed, count, most, .. } if *count <= MOST_SIZE => {
            filled_runs(*seed, *count, *most).iter().map(|run| run.rows as u128).sum()
        }
        Command::Two { rule: Two::Join, first, second, .. } => {
            let length = |slot: usize| model.slot(slot).map_or(0, |held| held.rows.len() as u128);
            length(*first) + length(*second)
        }
        _ => 0,
    };
    if rows > ROW_LIMIT as u128 {
        0
    } else {
        rows
    }
}
