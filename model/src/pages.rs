//! Page lists, and the pages that hold a selected row.

use crate::refusal::{of_selection, Refusal};
use crate::ROW_LIMIT;

/// A page, its numbers as they are written: any of them may be negative.
#[derive(Clone, Copy, Debug, PartialEq, Eq)]
pub struct Page {
    pub offset: i64,
    pub size: i64,
    pub first_row: i64,
}

/// Whether page k breaks the rules of page lists, by itself or beside the page before it.
fn at_fault(pages: &[Page], k: usize) -> bool {
    let page = pages[k];
    if page.offset < 0 || page.size < 0 || page.first_row < 0 {
        return true;
    }
    if page.first_row > ROW_LIMIT as i64 {
        return true;
    }
    if k == 0 {
        return page.first_row != 0;
    }
    let before = pages[k - 1];
    page.offset <= before.offset || page.first_row <= before.first_row
}

/// Refused by 6 at the first page at fault, and at 0 where there is no page.
fn accepted(pages: &[Page]) -> Result<(), Refusal> {
    if pages.is_empty() {
        return Err(of_selection(6, 0));
    }
    match (0..pages.len()).find(|&k| at_fault(pages, k)) {
        Some(k) => Err(of_selection(6, k as u64)),
        None => Ok(()),
    }
}

/// Whether page k of an accepted list holds row i. The last page holds every row from its first on.
fn holds(pages: &[Page], k: usize, i: usize) -> bool {
    let starts = pages[k].first_row <= i as i64;
    let ends = pages.get(k + 1).is_some_and(|next| next.first_row <= i as i64);
    starts && !ends
}

/// The pages that hold a selected row, in order.
fn wanted(rows: &[bool], pages: &[Page]) -> Vec<usize> {
    let holds_selected = |&k: &usize| (0..rows.len()).any(|i| rows[i] && holds(pages, k, i));
    (0..pages.len()).filter(holds_selected).collect()
}

fn fits(ranges: Vec<(u64, u64)>, capacity: u64) -> Result<Vec<(u64, u64)>, Refusal> {
    let need = ranges.len() as u64;
    if need > capacity {
        return Err(of_selection(12, need));
    }
    Ok(ranges)
}

/// The byte ranges of the pages that hold a selected row.
pub fn scan(rows: &[bool], capacity: u64, pages: &[Page]) -> Result<Vec<(u64, u64)>, Refusal> {
    accepted(pages)?;
    let bytes = |k: usize| {
        let start = pages[k].offset as u64;
        (start, start + pages[k].size as u64)
    };
    fits(wanted(rows, pages).into_iter().map(bytes).collect(), capacity)
}

/// The row ranges of the pages that hold a selected row. The last page ends at the total.
pub fn page_rows(
    rows: &[bool],
    capacity: u64,
    total: u64,
    pages: &[Page],
) -> Result<Vec<(u64, u64)>, Refusal> {
    if total > ROW_LIMIT {
        return Err(of_selection(1, 0));
    }
    accepted(pages)?;
    let last_first_row = pages[pages.len() - 1].first_row as u64;
    if total < rows.len() as u64 || total <= last_first_row {
        return Err(of_selection(7, total));
    }
    let row_range = |k: usize| {
        let end = pages.get(k + 1).map_or(total, |next| next.first_row as u64);
        (pages[k].first_row as u64, end)
    };
    fits(wanted(rows, pages).into_iter().map(row_range).collect(), capacity)
}
