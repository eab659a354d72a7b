//! Commands that read selections and write one: and_then, combining, joining, splitting and the like.

use super::{Ideas, Next};
use crate::generate::writer::rows_of;
use crate::rules::selected_count;
use crate::slots::Model;

impl Ideas {
    /// An and_then. For most first operands no slot has a second of the right length, so one is made first.
    pub(super) fn narrowed(&mut self, model: &Model) -> String {
        let first = self.filled_slot(model);
        let Some(held) = model.slot(first) else {
            return self.two(model, "andthen", first, first);
        };
        let selected = selected_count(&held.rows);
        let fits = |slot: &usize| model.slot(*slot).is_some_and(|other| other.rows.len() as u64 == selected);
        let fitting: Vec<usize> = (0..16).filter(fits).collect();
        if !fitting.is_empty() && self.dice.chance(70) {
            let second = self.dice.pick(&fitting);
            return self.two(model, "andthen", first, second);
        }
        let second = self.any_slot();
        if second == first || self.dice.chance(20) {
            return self.two(model, "andthen", first, second);
        }
        self.next = Some(Next::Narrow { first, second });
        // One row too many or too few, now and then.
        let length = match self.dice.below(20) {
            0 => selected + 1,
            1 => selected.saturating_sub(1),
            _ => selected,
        };
        self.made_of(second, length)
    }

    pub(super) fn combined(&mut self, model: &Model) -> String {
        let (first, second) = (self.filled_slot(model), self.filled_slot(model));
        let length = |slot: usize| model.slot(slot).map_or(0, |held| held.rows.len() as u64);
        let mut rule = self.dice.pick(&["and", "or", "join"]);
        // Joining again and again would double the length each time.
        if rule == "join" && length(first) + length(second) > 2 * self.longest {
            rule = "or";
        }
        self.two(model, rule, first, second)
    }

    /// A command of two selections, into any slot, its own operands among them.
    pub(super) fn two(&mut self, model: &Model, rule: &str, first: usize, second: usize) -> String {
        let slot = self.any_slot();
        self.next = Some(Next::Look { slot });
        self.placed(model, format!("{rule} {slot} {first} {second}"))
    }

    /// A command with a place fitted to its result.
    fn placed(&mut self, model: &Model, command: String) -> String {
        let rows = rows_of(model, &format!("{command} -")).unwrap_or_default();
        format!("{command} {}", self.place(&rows))
    }

    pub(super) fn changed(&mut self, model: &Model) -> String {
        let slot = self.filled_slot(model);
        self.next = Some(Next::Look { slot });
        let n = self.cut(model, slot);
        match self.dice.below(8) {
            0 | 1 => self.split(model, slot, n),
            2 | 3 => self.placed(model, format!("limit {slot} {n}")),
            4 | 5 => self.placed(model, format!("offset {slot} {n}")),
            _ => self.placed(model, format!("trim {slot}")),
        }
    }

    /// A number near the borders of what a slot holds.
    pub(super) fn cut(&mut self, model: &Model, slot: usize) -> u64 {
        let Some(held) = model.slot(slot) else {
            return 1;
        };
        let (length, selected) = (held.rows.len() as u64, selected_count(&held.rows));
        match self.dice.below(20) {
            0 => 0,
            1..=3 => self.dice.below(4),
            4 | 5 => selected,
            6 => selected.saturating_sub(1),
            7 => selected + 1,
            8 => length,
            9 => length + 1,
            10 => u64::MAX - self.dice.below(2),
            11..=14 => self.dice.below(length + 1),
            _ => self.dice.below(selected + 1),
        }
    }

    fn split(&mut self, model: &Model, slot: usize, n: u64) -> String {
        let mut to = self.any_slot();
        if to == slot && self.dice.chance(90) {
            to = (to + 1) % 16;
        }
        let rows = model.slot(slot).map_or(&[] as &[bool], |held| &held.rows);
        let cut = rows.len().min(n as usize);
        let (answer, rest) = (self.place(&rows[..cut]), self.place(&rows[cut..]));
        format!("split {to} {slot} {n} {answer} {rest}")
    }

    /// A copy or a conversion, which must then be equal to what it was made from.
    pub(super) fn copied(&mut self, model: &Model) -> String {
        let (to, from) = (self.any_slot(), self.filled_slot(model));
        self.next = Some(Next::Compare { first: to, second: from });
        if self.dice.chance(25) {
            return format!("copy {to} {from}");
        }
        self.placed(model, format!("convert {to} {from}"))
    }
}
