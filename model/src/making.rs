//! Making selections. Every length is checked by arithmetic before a row is made, so that a refused one
//! takes no memory, however long it would be.

use crate::refusal::{of_bits, of_selection, Refusal};
use crate::tokens::Run;
use crate::ROW_LIMIT;

/// The rows of raw runs, for a run place of `capacity`.
pub fn from_runs(capacity: u64, runs: &[Run]) -> Result<Vec<bool>, Refusal> {
    let mut length: u128 = 0;
    for (index, run) in runs.iter().enumerate() {
        length += run.rows as u128;
        if length > ROW_LIMIT as u128 {
            return Err(of_selection(1, index as u64));
        }
    }
    let need = whole_runs_of(runs);
    if need > capacity {
        return Err(of_selection(12, need));
    }
    // All at once, since a selection near the row limit takes a gigabyte.
    let mut rows = Vec::with_capacity(length as usize);
    for run in runs {
        for _ in 0..run.rows {
            rows.push(run.selected);
        }
    }
    Ok(rows)
}

/// How many whole runs raw runs make: a run counts where it has rows and differs from the last that had.
fn whole_runs_of(runs: &[Run]) -> u64 {
    let mut count = 0;
    let mut last = None;
    for run in runs {
        if run.rows > 0 && last != Some(run.selected) {
            count += 1;
            last = Some(run.selected);
        }
    }
    count
}

/// The rows of ranges of a total, for a run place of `capacity`.
pub fn from_ranges(capacity: u64, total: u64, ranges: &[(u64, u64)]) -> Result<Vec<bool>, Refusal> {
    if total > ROW_LIMIT {
        return Err(of_selection(1, 0));
    }
    let mut previous_end = 0;
    let mut runs = Vec::new();
    for (index, &(start, end)) in ranges.iter().enumerate() {
        // Ignored wherever it stands: it need not be in order, nor within the total.
        if start == end {
            continue;
        }
        if start > end || start < previous_end || end > total {
            return Err(of_selection(3, index as u64));
        }
        runs.push(Run { selected: false, rows: start - previous_end });
        runs.push(Run { selected: true, rows: end - start });
        previous_end = end;
    }
    runs.push(Run { selected: false, rows: total - previous_end });
    from_runs(capacity, &runs)
}

/// Row i of a mask: bit (offset + i) mod 8 of byte (offset + i) div 8, bit 0 the least significant.
pub fn from_bytes(offset: u64, length: u64, bytes: &[u8]) -> Result<Vec<bool>, Refusal> {
    if length > ROW_LIMIT {
        return Err(of_selection(1, 0));
    }
    let bits = 8 * bytes.len() as u128;
    if offset as u128 + length as u128 > bits {
        let allowed = bits.saturating_sub(offset as u128);
        return Err(of_bits(2, allowed as u64));
    }
    let mut rows = Vec::new();
    for i in 0..length {
        let bit = offset + i;
        let byte = bytes[(bit / 8) as usize];
        rows.push(byte >> (bit % 8) & 1 == 1);
    }
    Ok(rows)
}

/// The draws of xorshift64*, from a seed that is not 0.
pub struct Draws {
    x: u64,
}

impl Draws {
    pub fn new(seed: u64) -> Draws {
        Draws { x: seed }
    }

    pub fn draw(&mut self) -> u64 {
        self.x ^= self.x >> 12;
        self.x ^= self.x << 25;
        self.x ^= self.x >> 27;
        self.x.wrapping_mul(2685821657736338717)
    }

    /// A word of a made mask.
    fn word(&mut self, mode: u64) -> u64 {
        match mode {
            0 => self.draw(),
            1 if self.draw() >> 63 == 1 => u64::MAX,
            1 => 0,
            _ => self.draw() & self.draw() & self.draw() & self.draw(),
        }
    }
}

/// The rows of a made mask. A little-endian word has bit b of the mask as its own bit b mod 64.
pub fn fill_mask(seed: u64, length: u64, offset: u64, mode: u64) -> Result<Vec<bool>, Refusal> {
    if length > ROW_LIMIT {
        return Err(of_selection(1, 0));
    }
    let mut draws = Draws::new(seed);
    let mut rows = Vec::new();
    let mut word = 0;
    for bit in 0..offset.saturating_add(length) {
        if bit % 64 == 0 {
            word = draws.word(mode);
        }
        if bit >= offset {
            rows.push(word >> (bit % 64) & 1 == 1);
        }
    }
    Ok(rows)
}

/// The runs of a made run list, up to the one that passes the row limit, where there is one.
pub fn filled_runs(seed: u64, count: u64, most: u64) -> Vec<Run> {
    let mut draws = Draws::new(seed);
    let mut selected = draws.draw() >> 63 == 1;
    let mut length = 0;
    let mut runs = Vec::new();
    for _ in 0..count {
        let rows = 1 + (draws.draw() >> 16) % most;
        runs.push(Run { selected, rows });
        selected = !selected;
        length += rows;
        // What comes after it would be refused by 1 at this run anyway.
        if length > ROW_LIMIT {
            break;
        }
    }
    runs
}
