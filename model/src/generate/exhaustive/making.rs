//! Making and looking: raw runs, masks and ranges, and everything that can be asked of them.

use super::super::writer::{mask_line, runs_line};
use super::{lists, Tour};
use crate::slots::{cost, Form};

const HUGE: u64 = u64::MAX;

pub fn all(tour: &mut Tour) {
    tour.say("# making and looking");
    for rows in lists(5) {
        made_and_seen(tour, &rows);
    }
    raw_runs(tour);
    mask_borders(tour);
    ranges(tour);
    from_seeds(tour);
}

/// One list as runs and as a mask at every bit offset, with the bits around it zero and one.
fn made_and_seen(tour: &mut Tour, rows: &[bool]) {
    tour.say(&runs_line(0, rows));
    seen(tour, 0, rows);
    tour.say("nth 0 0");
    for offset in 0..8 {
        for junk in [false, true] {
            let more = tour.any(2);
            tour.say(&mask_line(1, rows, offset, junk, more));
            tour.say("eq 0 1");
            tour.say("sum 1");
            for n in 0..=rows.len() + 1 {
                tour.say(&format!("nth 1 {n}"));
            }
        }
        seen(tour, 1, rows);
        tour.say("convert 2 1 r 5");
        tour.say("rows 2");
    }
    tour.say(&format!("nth 1 {HUGE}"));
    for threshold in thresholds() {
        tour.say(&format!("strategy 0 {threshold}"));
        tour.say(&format!("strategy 1 {threshold}"));
    }
}

/// Every small one, those around each power of 2, and those where a product of 64 bits would wrap.
fn thresholds() -> Vec<u64> {
    let mut all: Vec<u64> = (0..=7).collect();
    for power in 3..64 {
        all.extend([(1 << power) - 1, 1 << power, (1 << power) + 1]);
    }
    for runs in 1..=5 {
        all.extend([HUGE / runs - 1, HUGE / runs, (HUGE / runs).saturating_add(1)]);
    }
    all
}

fn seen(tour: &mut Tour, slot: usize, rows: &[bool]) {
    for look in ["rows", "count", "sum"] {
        tour.say(&format!("{look} {slot}"));
    }
    for capacity in 0..=cost(rows, Form::Mask) + 1 {
        tour.say(&format!("bytes {slot} {capacity}"));
    }
}

/// Every list of up to four raw runs of zero, one or two rows, with every place up to what it needs.
fn raw_runs(tour: &mut Tour) {
    let runs = ["+0", "-0", "+1", "-1", "+2", "-2"];
    let mut lists = vec![String::new()];
    let mut longest = lists.clone();
    for _ in 0..4 {
        longest = longest.iter().flat_map(|list| runs.map(|run| format!("{list} {run}"))).collect();
        lists.extend(longest.iter().cloned());
    }
    for list in lists {
        let rows = tour.out.rows_of(&format!("runs 2 9{list}")).expect("nine runs are enough");
        for capacity in 0..=cost(&rows, Form::Runs) + 1 {
            tour.say(&format!("runs 2 {capacity}{list}"));
        }
        tour.say("rows 2");
    }
}

/// Masks that just fit their bytes, and that do not.
fn mask_borders(tour: &mut Tour) {
    for bytes in ["-", "a5", "a53c"] {
        for offset in 0..=17 {
            for length in 0..=17 {
                let answer = tour.say(&format!("mask 3 {offset} {length} {bytes}"));
                if answer == "ok" {
                    tour.say("rows 3");
                }
            }
        }
    }
}

/// Two ranges in every order and position, and three over a few rows: backward ones, overlapping ones, ones
/// past the total, and empty ones wherever they may stand.
fn ranges(tour: &mut Tour) {
    for total in 0..=3 {
        ranges_of(tour, total, &[]);
        for code in 0..4u64.pow(4) {
            ranges_of(tour, total, &digits(code, 4, 4));
        }
    }
    for total in 1..=2 {
        for code in 0..3u64.pow(6) {
            ranges_of(tour, total, &digits(code, 3, 6));
        }
    }
}

fn ranges_of(tour: &mut Tour, total: u64, borders: &[u64]) {
    let tokens: String = borders.iter().map(|border| format!(" {border}")).collect();
    let Some(rows) = tour.out.rows_of(&format!("ranges 4 9 {total}{tokens}")) else {
        // A fault of the ranges is told before the place is looked at.
        let capacity = tour.any(3);
        tour.say(&format!("ranges 4 {capacity} {total}{tokens}"));
        return;
    };
    for capacity in 0..=cost(&rows, Form::Runs) + tour.any(2) as u64 {
        tour.say(&format!("ranges 4 {capacity} {total}{tokens}"));
    }
    tour.say("rows 4");
}

/// Made selections: masks of every mode around whole words, and runs with every place up to their count.
fn from_seeds(tour: &mut Tour) {
    for mode in 0..=2 {
        for length in [0, 1, 8, 63, 64, 65, 200] {
            for offset in [0, 1, 7, 8, 63, 64, 65, 1000] {
                let seed = 1 + tour.any(500);
                tour.say(&format!("fillmask 5 {seed} {length} {offset} {mode}"));
                tour.say("bytes 5 25");
                tour.say("sum 5");
            }
        }
    }
    for seed in [1, 2, 1 << 63, HUGE] {
        for count in 0..=4u64 {
            for most in [1, 2, 3, 7, 1000] {
                for capacity in 0..=count + 1 {
                    tour.say(&format!("fillruns 6 {capacity} {seed} {count} {most}"));
                    tour.say("rows 6");
                }
            }
        }
    }
}

/// The digits of a code in a base, the lowest first.
pub fn digits(code: u64, base: u64, count: u32) -> Vec<u64> {
    (0..count).map(|place| code / base.pow(place) % base).collect()
}
