//! Making selections: long ones from a seed, short ones by hand, and ones that are refused.

use super::{Ideas, Next};
use crate::generate::writer::mask_line;
use crate::rules::whole_runs;
use crate::slots::run_tokens;

/// Selections up to this length may be written out by hand.
const BY_HAND: u64 = 400;

impl Ideas {
    pub(super) fn made(&mut self) -> String {
        let slot = self.any_slot();
        self.next = Some(Next::Look { slot });
        if self.dice.chance(40) {
            return self.filled_runs(slot);
        }
        let length = self.length();
        self.made_of(slot, length)
    }

    /// A length: often small or around whole words of 64, seldom large.
    pub(super) fn length(&mut self) -> u64 {
        let length = match self.dice.below(20) {
            0 => 0,
            1..=4 => self.dice.below(20),
            5..=8 => 64 * self.dice.within(1, 4) + self.dice.below(5) - 2,
            9..=13 => self.dice.below(1000),
            14..=17 => self.dice.below(10_000),
            _ => self.dice.below(100_001),
        };
        length.min(self.longest)
    }

    /// A selection of just this many rows.
    pub(super) fn made_of(&mut self, slot: usize, length: u64) -> String {
        if length > BY_HAND || self.dice.chance(40) {
            let (offset, mode) = (self.bit_offset(), self.dice.below(3));
            return format!("fillmask {slot} {} {length} {offset} {mode}", self.seed());
        }
        match self.dice.below(3) {
            0 => self.runs_by_hand(slot, length),
            1 => self.mask_by_hand(slot, length),
            _ => self.ranges_by_hand(slot, length),
        }
    }

    fn seed(&mut self) -> u64 {
        let wide = self.dice.draw();
        self.dice.pick(&[wide, wide >> 40, wide | 1 << 63]).max(1)
    }

    fn bit_offset(&mut self) -> u64 {
        match self.dice.below(10) {
            0 | 1 => 0,
            2..=6 => self.dice.below(8),
            7 | 8 => self.dice.below(130),
            _ => self.dice.below(5000),
        }
    }

    /// Smooth with a large MAX, ragged with a small one.
    fn filled_runs(&mut self, slot: usize) -> String {
        let most = self.dice.pick(&[1, 2, 3, 10, 64, 100, 3000]);
        let count = self.length() / most;
        let capacity = self.capacity(count);
        format!("fillruns {slot} {capacity} {} {count} {most}", self.seed())
    }

    /// Rows that change their mark now and then.
    fn rows(&mut self, length: u64) -> Vec<bool> {
        let change = self.dice.pick(&[2, 10, 50, 90, 100]);
        let mut mark = self.dice.chance(50);
        let mut rows = Vec::new();
        for _ in 0..length {
            rows.push(mark);
            mark ^= self.dice.chance(change);
        }
        rows
    }

    /// Raw runs: whole ones, some of them cut in two, with runs of zero rows among them.
    fn runs_by_hand(&mut self, slot: usize, length: u64) -> String {
        let whole = whole_runs(&self.rows(length));
        let need = whole.len() as u64;
        let mut raw = Vec::new();
        for run in whole {
            let mut rest = run;
            rest.rows = if self.dice.chance(20) { self.dice.below(run.rows + 1) } else { 0 };
            let mut start = run;
            start.rows -= rest.rows;
            raw.push(start);
            if self.dice.chance(10) {
                raw.push(crate::tokens::Run { selected: self.dice.chance(50), rows: 0 });
            }
            if rest.rows > 0 {
                raw.push(rest);
            }
        }
        format!("runs {slot} {}{}", self.capacity(need), run_tokens(&raw))
    }

    fn mask_by_hand(&mut self, slot: usize, length: u64) -> String {
        let rows = self.rows(length);
        let (offset, junk) = (self.dice.below(20) as usize, self.dice.chance(50));
        mask_line(slot, &rows, offset, junk, self.dice.below(2) as usize)
    }

    fn ranges_by_hand(&mut self, slot: usize, length: u64) -> String {
        let runs = whole_runs(&self.rows(length));
        let need = runs.len() as u64;
        let mut tokens = String::new();
        let mut start = 0;
        for run in runs {
            let end = start + run.rows;
            if run.selected {
                tokens += &format!(" {start} {end}");
            }
            if self.dice.chance(10) {
                let anywhere = self.dice.below(2 * length + 1);
                tokens += &format!(" {anywhere} {anywhere}");
            }
            start = end;
        }
        format!("ranges {slot} {} {length}{tokens}", self.capacity(need))
    }

    /// A selection that is refused, most of the time.
    pub(super) fn made_badly(&mut self) -> String {
        let slot = self.any_slot();
        self.next = Some(Next::Look { slot });
        let (small, past) = (self.dice.below(100), 1_073_741_825 + self.dice.below(5));
        match self.dice.below(7) {
            0 => format!("runs {slot} 9 +{small} -{} +0 +{}", 1_073_741_824 - small, self.dice.below(2) + 1),
            1 => format!("runs {slot} 9 -{small} +{past}"),
            2 => format!("mask {slot} {small} {} {:016x}", self.dice.below(100), self.dice.draw()),
            3 => format!("mask {slot} {small} {past} ff"),
            4 => {
                let borders: Vec<String> = (0..6).map(|_| self.dice.below(12).to_string()).collect();
                format!("ranges {slot} {} {} {}", self.dice.below(8), self.dice.below(14), borders.join(" "))
            }
            5 => format!("fillmask {slot} {} {past} {small} {}", self.seed(), self.dice.below(3)),
            _ => {
                let most = self.dice.pick(&[100_000_000, 1_000_000_000, 1 << 47, u64::MAX]);
                format!("fillruns {slot} {small} {} {} {most}", self.seed(), 40 + small)
            }
        }
    }
}
