//! Lines for a script at random, each fitted to what the slots hold at that moment.

use super::dice::Dice;
use crate::slots::{cost, Form, Model};

mod changing;
mod looking;
mod making;

pub struct Ideas {
    pub dice: Dice,
    /// No selection is made longer than this.
    longest: u64,
    next: Option<Next>,
}

/// What the next line is, where the last one left a reason for it.
enum Next {
    Look { slot: usize },
    Compare { first: usize, second: usize },
    Narrow { first: usize, second: usize },
}

impl Ideas {
    pub fn new(seed: u64, longest: u64) -> Ideas {
        Ideas { dice: Dice::new(seed), longest, next: None }
    }

    /// A line for the slots as they are.
    pub fn line(&mut self, model: &Model) -> String {
        if let Some(next) = self.next.take() {
            return self.followed(model, next);
        }
        let filled = (0..16).filter(|&slot| model.slot(slot).is_some()).count();
        if filled < 6 {
            return self.made();
        }
        match self.dice.below(1000) {
            0..=159 => self.made(),
            160..=199 => self.made_badly(),
            200..=349 => self.narrowed(model),
            350..=499 => self.combined(model),
            500..=699 => self.changed(model),
            700..=779 => self.copied(model),
            780..=997 => self.looked(model),
            998 => "reset".to_string(),
            _ => self.not_yet(),
        }
    }

    fn followed(&mut self, model: &Model, next: Next) -> String {
        match next {
            Next::Look { slot } => self.looked_at(model, slot),
            Next::Compare { first, second } => format!("eq {first} {second}"),
            Next::Narrow { first, second } => self.two(model, "andthen", first, second),
        }
    }

    fn any_slot(&mut self) -> usize {
        self.dice.below(16) as usize
    }

    /// A slot to read: seldom an empty one, and not often one whose selection has no rows.
    fn filled_slot(&mut self, model: &Model) -> usize {
        loop {
            let slot = self.any_slot();
            let percent = match model.slot(slot) {
                None => 3,
                Some(held) if held.rows.is_empty() => 25,
                Some(_) => 100,
            };
            if self.dice.chance(percent) {
                return slot;
            }
        }
    }

    /// A place for rows: often big enough, sometimes just so, and sometimes not.
    fn place(&mut self, rows: &[bool]) -> String {
        if self.dice.chance(35) {
            return "-".to_string();
        }
        let (letter, form) = self.dice.pick(&[('r', Form::Runs), ('m', Form::Mask)]);
        format!("{letter} {}", self.capacity(cost(rows, form)))
    }

    /// A capacity around what is needed.
    fn capacity(&mut self, need: u64) -> u64 {
        match self.dice.below(20) {
            0..=7 => need,
            8..=13 => need + self.dice.below(6),
            14 | 15 => need.saturating_sub(1),
            16 => self.dice.below(need + 1),
            17 => 0,
            _ => need + 500,
        }
    }

    /// A command of this library that no driver answers yet.
    fn not_yet(&mut self) -> String {
        let slot = self.any_slot();
        let calls = ["open S", "pos S", "next S", "give S 1", "chunk S 5 -", "view S 0 1"];
        self.dice.pick(&calls).replace('S', &slot.to_string())
    }
}
