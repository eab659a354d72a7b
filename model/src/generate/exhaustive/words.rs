//! Selections whose rows fill whole bytes and whole words of 64, or just do not.

use super::super::writer::mask_line;
use super::Tour;
use crate::rules::selected_count;

/// Lengths around whole bytes and whole words of 64 rows, at every bit offset.
pub fn all(tour: &mut Tour) {
    tour.say("# words");
    let lengths = [7, 8, 9, 63, 64, 65, 127, 128, 129, 191];
    for (i, length) in lengths.into_iter().enumerate() {
        for offset in 0..8 {
            let mode = tour.any(3);
            tour.say(&format!("fillmask 0 {} {length} {offset} {mode}", 7 * i + offset + 1));
            let (other, shift) = (lengths[tour.any(lengths.len())], 56 + tour.any(17));
            tour.say(&format!("fillmask 1 {} {other} {shift} 0", 11 * i + offset + 1));
            for rule in ["and", "or", "join"] {
                tour.say(&format!("{rule} 2 0 1 -"));
                tour.say("bytes 2 64");
                tour.say(&format!("{rule} 3 1 0 r 500"));
                tour.say("rows 3");
            }
            narrowed(tour);
            unlike(tour);
            one_by_one(tour, length);
        }
    }
}

/// Slot 0 narrowed by a mask of as many rows as it selects.
fn narrowed(tour: &mut Tour) {
    let selected = selected_count(&held(tour));
    let (seed, shift) = (1 + tour.any(500), tour.any(70));
    tour.say(&format!("fillmask 1 {seed} {selected} {shift} 0"));
    tour.say("andthen 2 0 1 -");
    tour.say("bytes 2 64");
    tour.say("andthen 2 0 1 r 500");
    tour.say("rows 2");
}

/// Slot 0 beside the same rows in other forms, and beside rows that differ in one place.
fn unlike(tour: &mut Tour) {
    let rows = held(tour);
    tour.say("convert 1 0 r 500");
    tour.say("eq 0 1");
    for place in [0, rows.len() / 2, rows.len() - 1] {
        let mut other = rows.clone();
        let offset = tour.any(70);
        tour.say(&mask_line(2, &other, offset, true, 1));
        tour.say("eq 0 2");
        other[place] = !other[place];
        tour.say(&mask_line(2, &other, offset, true, 1));
        tour.say("eq 0 2");
        tour.say("eq 2 1");
    }
    tour.say("strategy 0 2");
    tour.say("strategy 0 3");
}

/// The rows of slot 0.
fn held(tour: &Tour) -> Vec<bool> {
    tour.out.model.slot(0).expect("just filled").rows.clone()
}

/// The commands of one selection on slot 0, near its borders.
fn one_by_one(tour: &mut Tour, length: u64) {
    let selected = selected_count(&held(tour));
    for n in [1, selected / 2, selected.saturating_sub(1), selected, selected + 1] {
        tour.say(&format!("nth 0 {n}"));
        for rule in ["limit", "offset"] {
            tour.say("copy 4 0");
            tour.say(&format!("{rule} 4 {n} -"));
            tour.say("bytes 4 64");
        }
    }
    for n in [1, length / 2, length - 1, length] {
        tour.say("copy 4 0");
        tour.say(&format!("split 5 4 {n} - m 64"));
        tour.say("bytes 4 64");
        tour.say("bytes 5 64");
    }
    tour.say("trim 0 -");
    tour.say("rows 0");
}
