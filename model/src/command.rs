//! Commands, and reading one from a line.

use crate::pages::Page;
use crate::tokens::{self, Run};

/// Where a result goes: a run place or a mask place of a capacity, or the natural form with room enough.
#[derive(Clone, Copy, Debug, PartialEq, Eq)]
pub enum Place {
    Runs(u64),
    Mask(u64),
    Natural,
}

/// The rules of one selection, which change it where it stands.
#[derive(Clone, Copy, Debug, PartialEq, Eq)]
pub enum One {
    Offset(u64),
    Limit(u64),
    Trim,
}

/// The rules of two selections.
#[derive(Clone, Copy, Debug, PartialEq, Eq)]
pub enum Two {
    AndThen,
    And,
    Or,
    Join,
}

#[derive(Clone, Debug, PartialEq, Eq)]
pub enum Command {
    Reset,
    Runs { to: usize, capacity: u64, runs: Vec<Run> },
    Mask { to: usize, offset: u64, length: u64, bytes: Vec<u8> },
    Ranges { to: usize, capacity: u64, total: u64, ranges: Vec<(u64, u64)> },
    FillMask { to: usize, seed: u64, length: u64, offset: u64, mode: u64 },
    FillRuns { to: usize, capacity: u64, seed: u64, count: u64, most: u64 },
    Copy { to: usize, from: usize },
    Convert { to: usize, from: usize, place: Place },
    Two { rule: Two, to: usize, first: usize, second: usize, place: Place },
    Split { to: usize, from: usize, n: u64, answer: Place, rest: Place },
    One { rule: One, slot: usize, place: Place },
    Rows { slot: usize },
    Bytes { slot: usize, capacity: u64 },
    Count { slot: usize },
    Sum { slot: usize },
    Eq { first: usize, second: usize },
    Strategy { slot: usize, threshold: u64 },
    Scan { slot: usize, capacity: u64, pages: Vec<Page> },
    PageRows { slot: usize, capacity: u64, total: u64, pages: Vec<Page> },
    Nth { slot: usize, n: u64 },
}

/// The tokens after a command's name, read from the left.
struct Args<'a> {
    left: &'a [&'a str],
}

impl<'a> Args<'a> {
    fn token(&mut self) -> Option<&'a str> {
        let (first, left) = self.left.split_first()?;
        self.left = left;
        Some(first)
    }

    fn slot(&mut self) -> Option<usize> {
        tokens::slot(self.token()?)
    }

    fn number(&mut self) -> Option<u64> {
        tokens::number(self.token()?)
    }

    fn place(&mut self) -> Option<Place> {
        match self.token()? {
            "r" => Some(Place::Runs(self.number()?)),
            "m" => Some(Place::Mask(self.number()?)),
            "-" => Some(Place::Natural),
            _ => None,
        }
    }

    /// Whatever is left, each piece read by `read`.
    fn rest<T>(&mut self, read: fn(&mut Self) -> Option<T>) -> Option<Vec<T>> {
        let mut all = Vec::new();
        while !self.left.is_empty() {
            all.push(read(self)?);
        }
        Some(all)
    }

    fn run(&mut self) -> Option<Run> {
        tokens::run(self.token()?)
    }

    fn range(&mut self) -> Option<(u64, u64)> {
        Some((self.number()?, self.number()?))
    }

    fn page(&mut self) -> Option<Page> {
        let offset = tokens::page_number(self.token()?, i64::MIN, i64::MAX)?;
        let size = tokens::page_number(self.token()?, i32::MIN as i64, i32::MAX as i64)?;
        let first_row = tokens::page_number(self.token()?, i64::MIN, i64::MAX)?;
        Some(Page { offset, size, first_row })
    }
}

/// The command that a line is, or none for a line not of the form. Commands that the driver has not yet
/// (`open`, `pos`, `next`, `give`, `chunk`, `batch`, `shots`, `view`) are none as well: they are misuse.
pub fn parse(line: &[u8]) -> Option<Command> {
    let tokens = tokens::tokens(line)?;
    let (name, left) = tokens.split_first()?;
    let mut args = Args { left };
    let command = match *name {
        "runs" | "mask" | "ranges" | "fillmask" | "fillruns" => making(name, &mut args),
        "scan" | "pagerows" => pages(name, &mut args),
        "rows" | "bytes" | "count" | "sum" | "eq" | "strategy" | "nth" => looking(name, &mut args),
        _ => changing(name, &mut args),
    }?;
    args.left.is_empty().then_some(command)
}

fn making(name: &str, args: &mut Args) -> Option<Command> {
    let to = args.slot()?;
    match name {
        "runs" => Some(Command::Runs { to, capacity: args.number()?, runs: args.rest(Args::run)? }),
        "mask" => {
            let (offset, length) = (args.number()?, args.number()?);
            Some(Command::Mask { to, offset, length, bytes: tokens::bytes(args.token()?)? })
        }
        "ranges" => {
            let (capacity, total) = (args.number()?, args.number()?);
            Some(Command::Ranges { to, capacity, total, ranges: args.rest(Args::range)? })
        }
        "fillmask" => {
            let (seed, length) = (args.number()?, args.number()?);
            let (offset, mode) = (args.number()?, args.number()?);
            (seed != 0 && mode <= 2).then_some(Command::FillMask { to, seed, length, offset, mode })
        }
        _ => {
            let (capacity, seed) = (args.number()?, args.number()?);
            let (count, most) = (args.number()?, args.number()?);
            (seed != 0 && most != 0).then_some(Command::FillRuns { to, capacity, seed, count, most })
        }
    }
}

fn changing(name: &str, args: &mut Args) -> Option<Command> {
    match name {
        "reset" => Some(Command::Reset),
        "copy" => Some(Command::Copy { to: args.slot()?, from: args.slot()? }),
        "convert" => Some(Command::Convert { to: args.slot()?, from: args.slot()?, place: args.place()? }),
        "andthen" => two(Two::AndThen, args),
        "and" => two(Two::And, args),
        "or" => two(Two::Or, args),
        "join" => two(Two::Join, args),
        "split" => {
            let (to, from, n) = (args.slot()?, args.slot()?, args.number()?);
            let (answer, rest) = (args.place()?, args.place()?);
            // Both parts would be written to the one slot.
            (to != from).then_some(Command::Split { to, from, n, answer, rest })
        }
        "offset" => {
            let (slot, n) = (args.slot()?, args.number()?);
            Some(Command::One { rule: One::Offset(n), slot, place: args.place()? })
        }
        "limit" => {
            let (slot, n) = (args.slot()?, args.number()?);
            Some(Command::One { rule: One::Limit(n), slot, place: args.place()? })
        }
        "trim" => Some(Command::One { rule: One::Trim, slot: args.slot()?, place: args.place()? }),
        _ => None,
    }
}

fn two(rule: Two, args: &mut Args) -> Option<Command> {
    let (to, first, second) = (args.slot()?, args.slot()?, args.slot()?);
    Some(Command::Two { rule, to, first, second, place: args.place()? })
}

fn looking(name: &str, args: &mut Args) -> Option<Command> {
    let slot = args.slot()?;
    match name {
        "rows" => Some(Command::Rows { slot }),
        "bytes" => Some(Command::Bytes { slot, capacity: args.number()? }),
        "count" => Some(Command::Count { slot }),
        "sum" => Some(Command::Sum { slot }),
        "eq" => Some(Command::Eq { first: slot, second: args.slot()? }),
        "strategy" => Some(Command::Strategy { slot, threshold: args.number()? }),
        _ => Some(Command::Nth { slot, n: args.number()? }),
    }
}

fn pages(name: &str, args: &mut Args) -> Option<Command> {
    let (slot, capacity) = (args.slot()?, args.number()?);
    if name == "scan" {
        return Some(Command::Scan { slot, capacity, pages: args.rest(Args::page)? });
    }
    let total = args.number()?;
    Some(Command::PageRows { slot, capacity, total, pages: args.rest(Args::page)? })
}
