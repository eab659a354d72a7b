//! Choices drawn from a seed, the same ones each time.

use crate::making::Draws;

pub struct Dice {
    draws: Draws,
}

impl Dice {
    pub fn new(seed: u64) -> Dice {
        // The draws need a seed other than 0, and neighbouring seeds that do not look alike.
        let mixed = seed.wrapping_add(1).wrapping_mul(0x9e37_79b9_7f4a_7c15);
        let mut draws = Draws::new(mixed | 1);
        for _ in 0..8 {
            draws.draw();
        }
        Dice { draws }
    }

    pub fn draw(&mut self) -> u64 {
        self.draws.draw()
    }

    /// A number below n, which is not 0.
    pub fn below(&mut self, n: u64) -> u64 {
        (self.draws.draw() >> 16) % n
    }

    /// A number from `least` to `most`, both included.
    pub fn within(&mut self, least: u64, most: u64) -> u64 {
        least + self.below(most - least + 1)
    }

    pub fn chance(&mut self, percent: u64) -> bool {
        self.below(100) < percent
    }

    pub fn pick<T: Copy>(&mut self, choices: &[T]) -> T {
        choices[self.below(choices.len() as u64) as usize]
    }
}
