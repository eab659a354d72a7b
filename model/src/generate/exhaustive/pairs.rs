//! Commands of two selections, over every pair of lists and every pair of forms.

use super::super::writer::{mask_line, places};
use super::{lists, Tour};
use crate::rules::selected_count;

const RULES: [&str; 4] = ["andthen", "and", "or", "join"];

pub fn all(tour: &mut Tour) {
    tour.say("# two selections");
    for first in lists(5) {
        tour.both_forms(0, 1, &first);
        for second in lists(5) {
            tour.both_forms(2, 3, &second);
            pair(tour, selected_count(&first) == second.len() as u64);
        }
    }
    onto_operands(tour);
    distances(tour);
    offsets(tour);
}

/// Slots 0 and 1 hold the first as runs and as a mask, 2 and 3 the second.
fn pair(tour: &mut Tour, matching: bool) {
    for (a, b) in [(0, 2), (0, 3), (1, 2), (1, 3)] {
        for rule in ["and", "or", "join"] {
            let result = tour.out.rows_of(&format!("{rule} 4 {a} {b} -")).expect("room is enough");
            let mut every = places(&result);
            if result.len() > 3 {
                // One of them is enough, since the pairs are so many.
                every = vec![every[tour.any(every.len())].clone()];
            }
            tour.each_place(&every, "", |place| format!("{rule} 4 {a} {b} {place}"), 4);
        }
        tour.say(&format!("eq {a} {b}"));
        narrowed(tour, a, b, matching);
    }
}

fn narrowed(tour: &mut Tour, a: usize, b: usize, matching: bool) {
    if !matching {
        // Refused by 4 or 5 whatever the place.
        let place = ["-", "r 0", "m 0", "r 9", "m 9"][tour.any(5)];
        tour.say(&format!("andthen 4 {a} {b} {place}"));
        return;
    }
    let result = tour.out.rows_of(&format!("andthen 4 {a} {b} -")).expect("room is enough");
    let every = places(&result);
    tour.each_place(&every, "", |place| format!("andthen 4 {a} {b} {place}"), 4);
}

/// The slot written is the first operand, the second, or both.
fn onto_operands(tour: &mut Tour) {
    for first in lists(3) {
        tour.both_forms(0, 1, &first);
        for second in lists(3) {
            tour.both_forms(2, 3, &second);
            for rule in RULES {
                let a = tour.any(2);
                let b = 2 + tour.any(2);
                tour.say(&format!("copy 5 {a}"));
                tour.say(&format!("copy 6 {b}"));
                tour.say(&format!("{rule} 5 5 6 -"));
                tour.say("rows 5");
                tour.say(&format!("copy 5 {a}"));
                tour.say(&format!("{rule} 6 5 6 -"));
                tour.say("rows 6");
            }
        }
        for rule in RULES {
            let a = tour.any(2);
            tour.say(&format!("copy 5 {a}"));
            tour.say(&format!("{rule} 5 5 5 -"));
            tour.say("rows 5");
        }
    }
}

/// Every pair of lists as masks, the second at each distance from the first's bit offset, which is drawn.
fn distances(tour: &mut Tour) {
    for first in lists(5) {
        let (a, junk) = (tour.any(8), tour.any(2) == 1);
        tour.say(&mask_line(0, &first, a, junk, 0));
        for second in lists(5) {
            for b in 0..8 {
                tour.say(&mask_line(1, &second, b, !junk, 0));
                tour.say("eq 0 1");
                for rule in RULES {
                    let answer = tour.say(&format!("{rule} 2 0 1 -"));
                    if answer == "ok" {
                        tour.say("rows 2");
                    }
                }
            }
        }
    }
}

/// Two masks at every pair of bit offsets: combining must bring their rows beside each other first.
fn offsets(tour: &mut Tour) {
    let short: Vec<Vec<bool>> = lists(3).into_iter().filter(|rows| rows.len() >= 2).collect();
    for first in &short {
        for a in 0..8 {
            tour.say(&mask_line(0, first, a, a % 2 == 0, 0));
            for second in &short {
                for b in 0..8 {
                    let junk = tour.any(2) == 1;
                    tour.say(&mask_line(1, second, b, junk, 0));
                    tour.say("and 2 0 1 -");
                    tour.say("rows 2");
                    tour.say("or 2 0 1 -");
                    tour.say("rows 2");
                }
            }
        }
    }
}
