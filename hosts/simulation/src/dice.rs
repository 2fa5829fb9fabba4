//! Numbers that are drawn by a seed.
use std::ops::Range;
use std::time::Duration;

/// Draws the same numbers from the same seed.
#[derive(Clone, Debug)]
pub struct Dice(u64);

impl Dice {
    /// Begins at this seed.
    #[must_use]
    pub fn new(seed: u64) -> Dice {
        Dice(seed)
    }

    /// Other dice, of this name. What is drawn from them changes nothing of what these draw.
    #[must_use]
    pub fn named(&self, name: u64) -> Dice {
        Dice(Dice(self.0 ^ name.wrapping_mul(0xD6E8_FEB8_6659_FD93)).draw())
    }

    /// Any number.
    pub fn draw(&mut self) -> u64 {
        self.0 = self.0.wrapping_add(0x9E37_79B9_7F4A_7C15);
        let mixed = (self.0 ^ (self.0 >> 30)).wrapping_mul(0xBF58_476D_1CE4_E5B9);
        let mixed = (mixed ^ (mixed >> 27)).wrapping_mul(0x94D0_49BB_1331_11EB);
        mixed ^ (mixed >> 31)
    }

    /// A number of the range, which is not empty.
    pub fn among(&mut self, range: Range<u64>) -> u64 {
        range.start + self.draw() % (range.end - range.start)
    }

    /// A number below this one, which is not 0.
    pub fn below(&mut self, end: usize) -> usize {
        usize::try_from(self.draw() % end as u64).unwrap_or(0)
    }

    /// One of these, of which there is one at least.
    pub fn pick<T: Clone>(&mut self, things: &[T]) -> T {
        things[self.below(things.len())].clone()
    }

    /// A time of the range, in microseconds.
    pub fn time(&mut self, microseconds: Range<u64>) -> Duration {
        Duration::from_micros(self.among(microseconds))
    }

    /// Whether something happens that happens this many times in a thousand.
    pub fn happens(&mut self, in_a_thousand: u64) -> bool {
        self.among(0..1000) < in_a_thousand
    }

    /// The place of one of these weights, each as likely as it weighs, or `None` if all are 0.
    pub fn weighed(&mut self, weights: &[u64]) -> Option<usize> {
        let all = weights.iter().sum();
        let mut drawn = if all == 0 { return None } else { self.among(0..all) };
        weights.iter().position(|weight| match drawn.checked_sub(*weight) {
            Some(left) => {
                drawn = left;
                false
            }
            None => true,
        })
    }
}
