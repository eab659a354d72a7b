//! Refusals, each with its number, its place and its layer.

use std::fmt;

#[derive(Clone, Copy, Debug, PartialEq, Eq)]
pub enum Layer {
    Bits,
    Selection,
}

#[derive(Clone, Copy, Debug, PartialEq, Eq)]
pub struct Refusal {
    pub number: u8,
    pub place: u64,
    pub layer: Layer,
}

/// A refusal of the layer of selections.
pub fn of_selection(number: u8, place: u64) -> Refusal {
    Refusal { number, place, layer: Layer::Selection }
}

/// A refusal of the layer of bits.
pub fn of_bits(number: u8, place: u64) -> Refusal {
    Refusal { number, place, layer: Layer::Bits }
}

impl fmt::Display for Refusal {
    fn fmt(&self, f: &mut fmt::Formatter<'_>) -> fmt::Result {
        let layer = match self.layer {
            Layer::Bits => "bits",
            Layer::Selection => "selection",
        };
        write!(f, "refused {} {} {}", self.number, self.place, layer)
    }
}
