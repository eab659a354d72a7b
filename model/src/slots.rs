//! The sixteen slots, and what a command answers and writes.

use crate::command::{self, Command, One, Place, Two};
use crate::refusal::{of_bits, of_selection, Refusal};
use crate::tokens::Run;
use crate::{making, pages, rules, ROW_LIMIT};

#[derive(Clone, Copy, Debug, PartialEq, Eq)]
pub enum Form {
    Runs,
    Mask,
}

/// What a slot holds. The form tells only which places are natural and whether `nth` may be asked.
#[derive(Clone, Debug)]
pub struct Selection {
    pub rows: Vec<bool>,
    pub form: Form,
    pub trimmed: bool,
}

/// Why a command is not done.
#[derive(Clone, Copy, Debug, PartialEq, Eq)]
pub enum Fault {
    Misuse,
    Refused(Refusal),
}

impl From<Refusal> for Fault {
    fn from(refusal: Refusal) -> Fault {
        Fault::Refused(refusal)
    }
}

/// What a command that is done answers, and what it leaves in which slots.
pub struct Done {
    pub answer: String,
    pub writes: Vec<(usize, Option<Selection>)>,
}

#[derive(Default)]
pub struct Model {
    slots: [Option<Selection>; 16],
}

impl Model {
    pub fn slot(&self, slot: usize) -> Option<&Selection> {
        self.slots[slot].as_ref()
    }

    /// The answer to a line, or none for an empty line or a remark.
    pub fn answer(&mut self, line: &[u8]) -> Option<String> {
        if line.is_empty() || line[0] == b'#' {
            return None;
        }
        let outcome = match command::parse(line) {
            Some(command) => self.outcome(&command),
            None => Err(Fault::Misuse),
        };
        Some(match outcome {
            Ok(done) => {
                for (slot, selection) in done.writes {
                    self.slots[slot] = selection;
                }
                done.answer
            }
            Err(Fault::Misuse) => "misuse".to_string(),
            Err(Fault::Refused(refusal)) => refusal.to_string(),
        })
    }

    /// What a command would do, with nothing done yet: so a command that is not done changes no slot.
    pub fn outcome(&self, command: &Command) -> Result<Done, Fault> {
        match command {
            Command::Reset => {
                let writes = (0..16).map(|slot| (slot, None)).collect();
                Ok(Done { answer: "ok".to_string(), writes })
            }
            Command::Copy { to, from } => {
                let Selection { rows, form, .. } = self.read(*from)?.clone();
                Ok(ok(*to, Selection { rows, form, trimmed: false }))
            }
            Command::Convert { to, from, place } => {
                let source = self.read(*from)?;
                Ok(ok(*to, put(source.rows.clone(), *place, source.form)?))
            }
            Command::Two { rule, to, first, second, place } => {
                let result = two(*rule, self.read(*first)?, self.read(*second)?, *place)?;
                Ok(ok(*to, result))
            }
            Command::Split { to, from, n, answer, rest } => {
                let source = self.read(*from)?;
                let (first_rows, other_rows) = rules::split(&source.rows, *n);
                let first = put(first_rows, *answer, source.form)?;
                let kept = put(other_rows, *rest, source.form)?;
                let writes = vec![(*to, Some(first)), (*from, Some(kept))];
                Ok(Done { answer: "ok".to_string(), writes })
            }
            Command::One { rule, slot, place } => Ok(ok(*slot, one(*rule, self.read(*slot)?, *place)?)),
            _ => match make(command) {
                Some(made) => made,
                None => self.look(command).map(|answer| Done { answer, writes: Vec::new() }),
            },
        }
    }

    fn read(&self, slot: usize) -> Result<&Selection, Fault> {
        self.slots[slot].as_ref().ok_or(Fault::Misuse)
    }

    fn look(&self, command: &Command) -> Result<String, Fault> {
        match command {
            Command::Rows { slot } => {
                Ok(format!("rows{}", run_tokens(&rules::whole_runs(&self.read(*slot)?.rows))))
            }
            Command::Bytes { slot, capacity } => bytes(&self.read(*slot)?.rows, *capacity),
            Command::Count { slot } => {
                let rows = &self.read(*slot)?.rows;
                let any = rows.contains(&true) as u8;
                Ok(format!("count {} {} {}", rules::selected_count(rows), rows.len(), any))
            }
            Command::Sum { slot } => Ok(sum(&self.read(*slot)?.rows)),
            Command::Eq { first, second } => {
                let equal = self.read(*first)?.rows == self.read(*second)?.rows;
                Ok(format!("eq {}", equal as u8))
            }
            Command::Strategy { slot, threshold } => {
                let mask = rules::prefers_mask(&self.read(*slot)?.rows, *threshold);
                Ok(format!("strategy {}", if mask { "mask" } else { "selectors" }))
            }
            Command::Scan { slot, capacity, pages } => {
                Ok(range_tokens(&pages::scan(&self.read(*slot)?.rows, *capacity, pages)?))
            }
            Command::PageRows { slot, capacity, total, pages } => {
                let rows = &self.read(*slot)?.rows;
                Ok(range_tokens(&pages::page_rows(rows, *capacity, *total, pages)?))
            }
            Command::Nth { slot, n } => match self.read(*slot)? {
                Selection { form: Form::Mask, rows, .. } => Ok(format!("nth {}", rules::nth(rows, *n))),
                _ => Err(Fault::Misuse),
            },
            _ => unreachable!("every other command changes a slot"),
        }
    }
}

fn ok(slot: usize, selection: Selection) -> Done {
    Done { answer: "ok".to_string(), writes: vec![(slot, Some(selection))] }
}

/// How much of a place rows take: whole runs of a run place, bytes of a mask place.
pub fn cost(rows: &[bool], form: Form) -> u64 {
    match form {
        Form::Runs => rules::whole_runs(rows).len() as u64,
        Form::Mask => rows.len().div_ceil(8) as u64,
    }
}

/// Rows in their place, or refused by 12.
fn put(rows: Vec<bool>, place: Place, natural: Form) -> Result<Selection, Refusal> {
    let (form, capacity) = match place {
        Place::Runs(capacity) => (Form::Runs, capacity),
        Place::Mask(capacity) => (Form::Mask, capacity),
        Place::Natural => (natural, u64::MAX),
    };
    let need = cost(&rows, form);
    match form {
        Form::Runs if need > capacity => Err(of_selection(12, need)),
        Form::Mask if need > capacity => Err(of_bits(12, need)),
        _ => Ok(Selection { rows, form, trimmed: false }),
    }
}

fn one(rule: One, source: &Selection, place: Place) -> Result<Selection, Refusal> {
    let rows = match rule {
        One::Offset(n) => rules::offset(&source.rows, n),
        One::Limit(n) => rules::limit(&source.rows, n),
        One::Trim => rules::trim(&source.rows),
    };
    let mut result = put(rows, place, source.form)?;
    result.trimmed = rule == One::Trim;
    Ok(result)
}

fn two(rule: Two, first: &Selection, second: &Selection, place: Place) -> Result<Selection, Refusal> {
    let selected = rules::selected_count(&first.rows);
    let (length, other) = (first.rows.len() as u64, second.rows.len() as u64);
    // Refusals with a smaller number than 12 come before the result is worked out.
    match rule {
        Two::AndThen if other < selected => return Err(of_selection(4, other)),
        Two::AndThen if other > selected => return Err(of_selection(5, selected)),
        Two::Join => joined_length(length, other)?,
        _ => {}
    }
    let rows = match rule {
        Two::AndThen => rules::and_then(&first.rows, &second.rows),
        Two::And => rules::combine(|one, other| one && other, &first.rows, &second.rows),
        Two::Or => rules::combine(|one, other| one || other, &first.rows, &second.rows),
        Two::Join => rules::join(&first.rows, &second.rows),
    };
    let natural = match (rule, first.form, second.form) {
        (Two::AndThen, form, _) => form,
        (_, Form::Mask, Form::Mask) => Form::Mask,
        _ => Form::Runs,
    };
    put(rows, place, natural)
}

/// Refused by 1 at the second part, which is the one that passes the limit.
pub fn joined_length(first: u64, second: u64) -> Result<(), Refusal> {
    if first + second > ROW_LIMIT {
        return Err(of_selection(1, 1));
    }
    Ok(())
}

/// The commands that make a selection out of nothing but their own tokens; none for the others.
fn make(command: &Command) -> Option<Result<Done, Fault>> {
    let (to, form, rows) = match command {
        Command::Runs { to, capacity, runs } => (to, Form::Runs, making::from_runs(*capacity, runs)),
        Command::Mask { to, offset, length, bytes } => {
            (to, Form::Mask, making::from_bytes(*offset, *length, bytes))
        }
        Command::Ranges { to, capacity, total, ranges } => {
            (to, Form::Runs, making::from_ranges(*capacity, *total, ranges))
        }
        Command::FillMask { to, seed, length, offset, mode } => {
            (to, Form::Mask, making::fill_mask(*seed, *length, *offset, *mode))
        }
        Command::FillRuns { to, capacity, seed, count, most } => {
            let runs = making::filled_runs(*seed, *count, *most);
            (to, Form::Runs, making::from_runs(*capacity, &runs))
        }
        _ => return None,
    };
    Some(match rows {
        Ok(rows) => Ok(ok(*to, Selection { rows, form, trimmed: false })),
        Err(refusal) => Err(refusal.into()),
    })
}

/// Each run after a space.
pub fn run_tokens(runs: &[Run]) -> String {
    let sign = |run: &Run| if run.selected { '+' } else { '-' };
    runs.iter().map(|run| format!(" {}{}", sign(run), run.rows)).collect()
}

fn range_tokens(ranges: &[(u64, u64)]) -> String {
    let tokens: String = ranges.iter().map(|(start, end)| format!(" {start} {end}")).collect();
    format!("ranges{tokens}")
}

fn bytes(rows: &[bool], capacity: u64) -> Result<String, Fault> {
    let need = cost(rows, Form::Mask);
    if need > capacity {
        return Err(of_bits(12, need).into());
    }
    Ok(format!("bytes {}", hex_token(&rules::as_bytes(rows))))
}

pub fn hex_token(bytes: &[u8]) -> String {
    if bytes.is_empty() {
        return "-".to_string();
    }
    bytes.iter().map(|byte| format!("{byte:02x}")).collect()
}

fn sum(rows: &[bool]) -> String {
    let runs = rules::whole_runs(rows);
    let selected = rules::selected_count(rows);
    format!("sum {} {} {} {}", rows.len(), selected, runs.len(), rules::digest(&runs))
}
