//! Chained commands at random over all slots, on selections of up to 100,000 rows.

use super::ideas::Ideas;
use super::weight::heavy;
use super::Writer;

const LINES: usize = 20_000;

pub fn script(seed: u64) -> Vec<u8> {
    let mut out = Writer::default();
    let mut ideas = Ideas::new(seed, 100_000);
    out.say(&format!("# random {seed}"));
    while out.lines() < LINES {
        let line = ideas.line(&out.model);
        if !heavy(line.as_bytes(), &out.model) {
            out.say(&line);
        }
    }
    // What all the commands have left.
    for slot in 0..16 {
        out.say(&format!("sum {slot}"));
    }
    out.finish()
}
