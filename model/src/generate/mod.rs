//! Scripts to drive the library and the model with. A generator keeps a model of its own beside the script it
//! writes, so that it knows what each slot holds: how much place a result needs, and how long it gets.

mod damage;
mod damaged;
mod dice;
mod exhaustive;
mod ideas;
mod random;
mod weight;
mod writer;

use writer::Writer;

/// The script of a kind, or none where there is no such kind.
pub fn script(kind: &str, seed: u64) -> Option<Vec<u8>> {
    match kind {
        "exhaustive" => Some(exhaustive::script(seed)),
        "random" => Some(random::script(seed)),
        "damaged" => Some(damaged::script(seed)),
        _ => None,
    }
}
