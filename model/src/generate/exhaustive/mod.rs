//! Every small case: all lists of up to five rows, in runs and in masks, with every place up to what a result
//! needs, and by hand the numbers around the row limit and around what 64 bits hold.

use super::dice::Dice;
use super::writer::{mask_line, runs_line};
use super::Writer;

mod edges;
mod making;
mod misuse;
mod one;
mod paged;
mod pairs;
mod words;

/// The writer with dice: where the choices cannot all be tried at each case, one is drawn for each.
pub struct Tour {
    pub out: Writer,
    dice: Dice,
}

impl Tour {
    pub fn say(&mut self, line: &str) -> String {
        self.out.say(line)
    }

    /// Any number below n.
    pub fn any(&mut self, n: usize) -> usize {
        self.dice.below(n as u64) as usize
    }

    /// Puts rows into two slots, as runs and as a mask. The mask's bit offset and the bits around it are drawn.
    pub fn both_forms(&mut self, runs: usize, mask: usize, rows: &[bool]) {
        self.say(&runs_line(runs, rows));
        let offset = self.any(8);
        let junk = self.any(2) == 1;
        self.say(&mask_line(mask, rows, offset, junk, 0));
    }

    /// Says a command with each of the places, `before` it where there is something to say, and then looks at
    /// the slot that it wrote.
    pub fn each_place(
        &mut self,
        places: &[String],
        before: &str,
        command: impl Fn(&str) -> String,
        slot: usize,
    ) {
        for place in places {
            if !before.is_empty() {
                self.say(before);
            }
            self.say(&command(place));
            self.look(slot, place);
        }
    }

    /// The rows of a slot just written. Only a mask answers `nth`, so it shows which form is the natural one.
    pub fn look(&mut self, slot: usize, place: &str) {
        self.say(&format!("rows {slot}"));
        if place == "-" {
            self.say(&format!("nth {slot} 1"));
        }
    }
}

/// Every list of up to `most` rows.
pub fn lists(most: u32) -> Vec<Vec<bool>> {
    let mut all = Vec::new();
    for length in 0..=most {
        for marks in 0..1u32 << length {
            all.push((0..length).map(|i| marks >> i & 1 == 1).collect());
        }
    }
    all
}

/// The seed is that of the dice. The cases are the same for every seed.
pub fn script(seed: u64) -> Vec<u8> {
    let mut tour = Tour { out: Writer::default(), dice: Dice::new(seed) };
    making::all(&mut tour);
    one::all(&mut tour);
    pairs::all(&mut tour);
    words::all(&mut tour);
    paged::all(&mut tour);
    edges::all(&mut tour);
    misuse::all(&mut tour);
    tour.out.finish()
}
