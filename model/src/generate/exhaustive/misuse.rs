//! Every command with one thing wrong at each of its tokens, and lines longer than a reader takes at once.

use super::super::weight::heavy;
use super::Tour;

/// A good line of each command. Slot 0 holds runs, slot 1 a mask, slot 2 what the mask may narrow.
const GOOD: [&str; 33] = [
    "reset",
    "runs 3 4 -2 +3 -1 +2",
    "mask 3 0 8 dc",
    "ranges 3 5 10 1 3 5 9",
    "fillmask 3 1 64 5 2",
    "fillruns 3 9 1 5 7",
    "copy 3 0",
    "convert 3 0 m 1",
    "andthen 3 1 2 -",
    "and 3 0 1 r 9",
    "or 3 0 1 m 9",
    "join 3 1 1 -",
    "split 3 1 4 - r 3",
    "offset 0 2 -",
    "limit 1 3 m 1",
    "trim 0 r 9",
    "rows 0",
    "bytes 0 1",
    "count 1",
    "sum 0",
    "eq 0 1",
    "strategy 1 2",
    "scan 0 3 100 50 0 150 50 4",
    "pagerows 1 3 9 100 50 0 150 50 4",
    "nth 1 3",
    "open 0",
    "pos 0",
    "next 0",
    "give 0 1",
    "chunk 0 2 -",
    "batch 0 2 1 9 9",
    "shots 0 2 - 9 9",
    "view 1 0 1",
];

/// What stands in a token's place: other kinds of tokens, numbers at the borders, an empty slot, and nothing.
const OTHERS: [&str; 16] = [
    "9",
    "15",
    "16",
    "x",
    "-",
    "r",
    "m",
    "r 4",
    "+1",
    "-1",
    "00",
    "18446744073709551615",
    "18446744073709551616",
    "dc",
    "DC",
    "",
];

pub fn all(tour: &mut Tour) {
    tour.say("# misuse");
    for good in GOOD {
        let tokens: Vec<&str> = good.split(' ').collect();
        said(tour, good);
        said(tour, &format!("{good} "));
        said(tour, &format!(" {good}"));
        for other in OTHERS {
            said(tour, &format!("{good} {other}"));
        }
        for at in 0..tokens.len() {
            let (before, after) = (&tokens[..at], &tokens[at + 1..]);
            said(tour, &[before, after].concat().join(" "));
            said(tour, &[before, &[tokens[at], tokens[at]], after].concat().join(" "));
            for other in OTHERS {
                said(tour, &[before, &[other], after].concat().join(" "));
            }
        }
    }
    long_lines(tour);
}

/// A line over the same slots each time, and what it leaves in those that it may write.
fn said(tour: &mut Tour, line: &str) {
    // No line here is to make a selection that nobody can hold.
    if heavy(line.as_bytes(), &tour.out.model) {
        return;
    }
    for made in ["runs 0 4 -2 +3 -1 +2", "mask 1 3 8 e706", "runs 2 3 +1 -1 +3", "mask 3 2 1 04"] {
        tour.say(made);
    }
    tour.say(line);
    for slot in 0..4 {
        tour.say(&format!("sum {slot}"));
    }
}

/// Lines and answers of many thousand bytes.
fn long_lines(tour: &mut Tour) {
    tour.say(&format!("# {}", "long ".repeat(4000)));
    tour.say(&format!("rows {}0", "0".repeat(10_000)));
    tour.say(&format!("mask 5 3 79990 {}", "5a".repeat(10_000)));
    tour.say("sum 5");
    tour.say("bytes 5 10000");
    tour.say("rows 5");
    tour.say(&format!("runs 6 6000{}", " +1 -2".repeat(3000)));
    tour.say("sum 6");
    tour.say("rows 6");
    tour.say(&format!("runs 7 1{}", " +0 -0 -1".repeat(3000)));
    tour.say("rows 7");
    tour.say(&format!("mask 5 0 8 {}g", "5a".repeat(10_000)));
    tour.say(&format!("rows 5{}", " ".repeat(10_000)));
    tour.say("sum 5");
}
