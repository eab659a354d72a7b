//! The row rules. Each takes rows and answers rows, one after the other, with no run and no word in sight.

use crate::tokens::Run;

pub fn selected_count(rows: &[bool]) -> u64 {
    rows.iter().filter(|mark| **mark).count() as u64
}

/// Row i is selected iff the first selects it and the second selects its rank. The lengths were checked:
/// the second has one row for each that the first selects.
pub fn and_then(first: &[bool], second: &[bool]) -> Vec<bool> {
    let mut rank = 0;
    let mut rows = Vec::new();
    for &mark in first {
        rows.push(mark && second[rank]);
        if mark {
            rank += 1;
        }
    }
    rows
}

/// Where both have row i, the policy's mark of the two; beyond the shorter, the longer's mark.
pub fn combine(policy: fn(bool, bool) -> bool, first: &[bool], second: &[bool]) -> Vec<bool> {
    let mut rows = Vec::new();
    for i in 0..first.len().max(second.len()) {
        rows.push(match (first.get(i), second.get(i)) {
            (Some(&one), Some(&other)) => policy(one, other),
            (Some(&only), None) | (None, Some(&only)) => only,
            (None, None) => unreachable!("one of the two has row i"),
        });
    }
    rows
}

/// The second's rows after the first's.
pub fn join(first: &[bool], second: &[bool]) -> Vec<bool> {
    first.iter().chain(second).copied().collect()
}

/// The first n rows, or all when there are fewer, and the rest.
pub fn split(rows: &[bool], n: u64) -> (Vec<bool>, Vec<bool>) {
    let (mut answer, mut rest) = (Vec::new(), Vec::new());
    for (i, &mark) in rows.iter().enumerate() {
        if (i as u64) < n {
            answer.push(mark);
        } else {
            rest.push(mark);
        }
    }
    (answer, rest)
}

/// The first n selected rows are skipped instead. With no selected row past the n-th nothing is left at all,
/// except that n = 0 is the selection itself.
pub fn offset(rows: &[bool], n: u64) -> Vec<bool> {
    if n == 0 {
        return rows.to_vec();
    }
    if selected_count(rows) <= n {
        return Vec::new();
    }
    let mut seen = 0;
    let mut left = Vec::new();
    for &mark in rows {
        if mark {
            seen += 1;
        }
        left.push(mark && seen > n);
    }
    left
}

/// Ends just after the n-th selected row. With fewer it is the selection itself, trailing skips and all.
pub fn limit(rows: &[bool], n: u64) -> Vec<bool> {
    let mut seen = 0;
    let mut left = Vec::new();
    for &mark in rows {
        if seen == n {
            break;
        }
        left.push(mark);
        if mark {
            seen += 1;
        }
    }
    left
}

/// Drops the skipped rows at the end.
pub fn trim(rows: &[bool]) -> Vec<bool> {
    let mut left = rows.to_vec();
    while left.last() == Some(&false) {
        left.pop();
    }
    left
}

/// One past the n-th selected row; 0 for n = 0; the length when there are fewer.
pub fn nth(rows: &[bool], n: u64) -> u64 {
    if n == 0 {
        return 0;
    }
    let mut seen = 0;
    for (i, &mark) in rows.iter().enumerate() {
        if mark {
            seen += 1;
        }
        if seen == n {
            return i as u64 + 1;
        }
    }
    rows.len() as u64
}

/// The whole runs: the rows cut wherever the mark changes.
pub fn whole_runs(rows: &[bool]) -> Vec<Run> {
    let mut runs: Vec<Run> = Vec::new();
    for &mark in rows {
        match runs.last_mut() {
            Some(run) if run.selected == mark => run.rows += 1,
            _ => runs.push(Run { selected: mark, rows: 1 }),
        }
    }
    runs
}

/// The rows as bytes from bit 0 on, the least significant bit first, spare bits zero.
pub fn as_bytes(rows: &[bool]) -> Vec<u8> {
    let mut bytes = vec![0; rows.len().div_ceil(8)];
    for (i, &mark) in rows.iter().enumerate() {
        if mark {
            bytes[i / 8] |= 1 << (i % 8);
        }
    }
    bytes
}

/// Whether a mask is the better form at this threshold.
pub fn prefers_mask(rows: &[bool], threshold: u64) -> bool {
    let runs = whole_runs(rows).len() as u128;
    // 128 bits, because the product is the exact one.
    runs == 0 || (rows.len() as u128) < runs * threshold as u128
}

/// One number that tells run lists apart.
pub fn digest(runs: &[Run]) -> u64 {
    let mut h: u64 = 14695981039346656037;
    for run in runs {
        h = (h ^ (2 * run.rows + run.selected as u64)).wrapping_mul(1099511628211);
    }
    h
}
