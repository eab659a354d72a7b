//! A script under way, with a model that has run every line of it.

use crate::command;
use crate::rules::whole_runs;
use crate::slots::{cost, hex_token, run_tokens, Form, Model};

#[derive(Default)]
pub struct Writer {
    pub model: Model,
    script: Vec<u8>,
    lines: usize,
}

impl Writer {
    /// Writes a line, and answers what the model answers.
    pub fn say(&mut self, line: &str) -> String {
        self.say_bytes(line.as_bytes())
    }

    /// The same for a line that need not be text. It has no line feed.
    pub fn say_bytes(&mut self, line: &[u8]) -> String {
        self.script.extend_from_slice(line);
        self.script.push(b'\n');
        self.lines += 1;
        self.model.answer(line).unwrap_or_default()
    }

    pub fn lines(&self) -> usize {
        self.lines
    }

    pub fn finish(self) -> Vec<u8> {
        self.script
    }

    /// The rows that a command would write first, or none where it would be refused.
    pub fn rows_of(&self, line: &str) -> Option<Vec<bool>> {
        rows_of(&self.model, line)
    }
}

/// The rows that a line would leave in the first slot it writes, or none where it is not done.
pub fn rows_of(model: &Model, line: &str) -> Option<Vec<bool>> {
    let command = command::parse(line.as_bytes())?;
    let done = model.outcome(&command).ok()?;
    let (_, selection) = done.writes.into_iter().next()?;
    Some(selection?.rows)
}

/// Every place up to what the rows need: the natural one, and of runs and of bytes each one too small, the one
/// just right and a bigger one.
pub fn places(rows: &[bool]) -> Vec<String> {
    let mut all = vec!["-".to_string()];
    for (letter, form) in [('r', Form::Runs), ('m', Form::Mask)] {
        let need = cost(rows, form);
        for capacity in (0..=need).chain([need + 2]) {
            all.push(format!("{letter} {capacity}"));
        }
    }
    all
}

/// The line that makes rows as runs, with just enough place.
pub fn runs_line(slot: usize, rows: &[bool]) -> String {
    let runs = whole_runs(rows);
    format!("runs {slot} {}{}", runs.len(), run_tokens(&runs))
}

/// The line that makes rows as a mask at a bit offset. The bits that are no rows are all `junk`, in as many
/// bytes as needed and `more`.
pub fn mask_line(slot: usize, rows: &[bool], offset: usize, junk: bool, more: usize) -> String {
    let size = (offset + rows.len()).div_ceil(8) + more;
    let mut bits = vec![junk; 8 * size];
    bits[offset..offset + rows.len()].copy_from_slice(rows);
    let hex = hex_token(&crate::rules::as_bytes(&bits));
    format!("mask {slot} {offset} {} {hex}", rows.len())
}
