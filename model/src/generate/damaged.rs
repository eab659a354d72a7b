//! Random scripts in which most lines are damaged.

use super::damage::damaged;
use super::ideas::Ideas;
use super::weight::heavy;
use super::Writer;

const LINES: usize = 20_000;

/// Good lines among the damaged ones, in percent: without any the slots would soon hold nothing worth reading.
const GOOD: u64 = 25;

pub fn script(seed: u64) -> Vec<u8> {
    let mut out = Writer::default();
    let mut ideas = Ideas::new(seed, 2_000);
    out.say(&format!("# damaged {seed}"));
    while out.lines() < LINES {
        let mut line = ideas.line(&out.model).into_bytes();
        if !ideas.dice.chance(GOOD) {
            line = damaged(&mut ideas.dice, &line);
            if ideas.dice.chance(15) {
                line = damaged(&mut ideas.dice, &line);
            }
        }
        // Damage may have put a line feed in, and then there are two lines.
        for piece in line.split(|byte| *byte == b'\n') {
            if !heavy(piece, &out.model) {
                out.say_bytes(piece);
            }
        }
    }
    for slot in 0..16 {
        out.say(&format!("sum {slot}"));
    }
    let mut script = out.finish();
    // A last line without a line feed is a line too.
    script.pop();
    script
}
