//! Commands that only look.

use super::Ideas;
use crate::slots::{cost, Form, Model};

/// Rows with more runs than this are looked at by their sum, to keep the answers short.
const MOST_RUNS: u64 = 300;

struct Held {
    length: u64,
    runs: u64,
}

impl Ideas {
    /// A look at all rows of a slot.
    pub(super) fn looked_at(&mut self, model: &Model, slot: usize) -> String {
        let held = held(model, slot);
        if held.runs <= MOST_RUNS && self.dice.chance(40) {
            return format!("rows {slot}");
        }
        format!("sum {slot}")
    }

    pub(super) fn looked(&mut self, model: &Model) -> String {
        let slot = self.filled_slot(model);
        let held = held(model, slot);
        match self.dice.below(16) {
            0 => self.looked_at(model, slot),
            1 | 2 if held.length < 8000 => format!("bytes {slot} {}", self.capacity(held.length.div_ceil(8))),
            1..=3 => format!("count {slot}"),
            4 | 5 => format!("eq {slot} {}", self.filled_slot(model)),
            6..=8 => format!("strategy {slot} {}", self.threshold(&held)),
            9 | 10 => format!("nth {slot} {}", self.cut(model, slot)),
            11..=13 => self.scanned(slot, &held),
            _ => self.rows_of_pages(slot, &held),
        }
    }

    /// A threshold where the strategy turns, or a huge one.
    fn threshold(&mut self, held: &Held) -> u64 {
        let turn = held.length / held.runs.max(1);
        match self.dice.below(8) {
            0 => self.dice.below(5),
            1 => u64::MAX - self.dice.below(3),
            2 => u64::MAX / held.runs.max(1) + self.dice.below(3),
            _ => (turn + self.dice.below(3)).saturating_sub(1),
        }
    }

    fn scanned(&mut self, slot: usize, held: &Held) -> String {
        let (pages, _) = self.pages(held.length);
        format!("scan {slot} {}{}", self.capacity(pages.len() as u64), page_tokens(&pages))
    }

    fn rows_of_pages(&mut self, slot: usize, held: &Held) -> String {
        let (pages, last) = self.pages(held.length);
        let least = held.length.max(last + 1);
        let total = match self.dice.below(12) {
            0 => least.saturating_sub(1),
            1 => self.dice.below(least + 1),
            2 => 1_073_741_824 + self.dice.below(3),
            3 => 1_073_741_825 + self.dice.below(3),
            _ => least + self.dice.below(3),
        };
        format!("pagerows {slot} {} {total}{}", self.capacity(pages.len() as u64), page_tokens(&pages))
    }

    /// A page list over about this many rows, with its last page's first row. Some lists have a fault.
    fn pages(&mut self, length: u64) -> (Vec<[i64; 3]>, u64) {
        let count = if self.dice.chance(10) { self.dice.within(9, 40) } else { self.dice.within(1, 8) };
        let step = 2 * length / count + 2;
        let mut pages = Vec::new();
        let (mut offset, mut first_row) = (self.dice.below(50), 0);
        for _ in 0..count {
            let size = self.dice.below(500);
            pages.push([offset as i64, size as i64, first_row as i64]);
            offset += 1 + self.dice.below(600);
            first_row += 1 + self.dice.below(step);
        }
        let last = pages[pages.len() - 1][2] as u64;
        if self.dice.chance(12) {
            self.spoil(&mut pages);
        }
        (pages, last)
    }

    /// One number of one page made wrong, or no page left.
    fn spoil(&mut self, pages: &mut Vec<[i64; 3]>) {
        let (page, field) = (self.dice.below(pages.len() as u64) as usize, self.dice.below(3) as usize);
        let before = pages[page.saturating_sub(1)];
        match self.dice.below(6) {
            0 => pages.clear(),
            1 => pages[page][field] = -1 - self.dice.below(3) as i64,
            2 => pages[page][field] = before[field],
            3 => pages[page][field] = 1_073_741_824 + self.dice.below(2) as i64,
            4 => pages[0][2] = 1,
            _ => pages.swap(page, 0),
        }
    }
}

fn held(model: &Model, slot: usize) -> Held {
    let rows = model.slot(slot).map_or(&[] as &[bool], |held| &held.rows);
    Held { length: rows.len() as u64, runs: cost(rows, Form::Runs) }
}

fn page_tokens(pages: &[[i64; 3]]) -> String {
    pages.iter().flatten().map(|number| format!(" {number}")).collect()
}
