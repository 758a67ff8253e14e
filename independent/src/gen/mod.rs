//! Inputs and states by chance, the same for the same seed.

mod inputs;
pub mod logs;
mod parts;
pub mod requests;
mod tools;

use std::vec::Vec;

pub use inputs::random_run_input;
pub use parts::{padded, pool_name, unpadded, POOL};
pub use tools::{describe, random_sound_tool};

/// An input: its number and all the parts that one can have.
#[derive(Clone, PartialEq, Eq, Debug, Default)]
pub struct Input {
    pub number: u32,
    pub port: u32,
    pub value: u32,
    pub name: Vec<u8>,
    pub codes: Vec<u8>,
    /// P7's clock, and Tp or Te.
    pub clock: u32,
    pub time: u32,
    /// The times of P8's wafers, process, handling and so on, as the bits of f64: they are compared by their bits.
    pub wafers: Vec<u64>,
}

impl Input {
    /// The times of the wafers.
    pub fn times(&self) -> Vec<f64> {
        self.wafers.iter().map(|&bits| f64::from_bits(bits)).collect()
    }
}

/// A splitmix64 generator. A mood lasts for some inputs and tells whether a run fills the tool, or the
/// queue of P5, or drains it, so that runs come to both ends.
#[derive(Clone, Debug)]
pub struct Rng {
    state: u64,
    tool: Lasting,
    queue: Lasting,
}

#[derive(Clone, Copy, PartialEq, Debug)]
enum Mood {
    Fill,
    Even,
    Drain,
}

/// A mood, and for how many inputs it lasts.
#[derive(Clone, Copy, Debug)]
struct Lasting {
    mood: Mood,
    left: u32,
}

impl Rng {
    pub fn new(seed: u64) -> Rng {
        let over = Lasting { mood: Mood::Even, left: 0 };
        Rng { state: seed, tool: over, queue: over }
    }

    pub fn draw(&mut self) -> u64 {
        self.state = self.state.wrapping_add(0x9E37_79B9_7F4A_7C15);
        let mut z = self.state;
        z = (z ^ (z >> 30)).wrapping_mul(0xBF58_476D_1CE4_E5B9);
        z = (z ^ (z >> 27)).wrapping_mul(0x94D0_49BB_1331_11EB);
        z ^ (z >> 31)
    }

    /// A number below `n`, which is not 0.
    pub fn below(&mut self, n: u32) -> u32 {
        (((self.draw() >> 32) * n as u64) >> 32) as u32
    }

    pub fn chance(&mut self, percent: u32) -> bool {
        self.below(100) < percent
    }

    pub fn pick<T: Copy>(&mut self, items: &[T]) -> T {
        items[self.below(items.len() as u32) as usize]
    }

    fn flag(&mut self, percent: u32) -> u8 {
        self.chance(percent) as u8
    }

    fn mood(&mut self) -> Mood {
        if self.tool.left == 0 {
            self.tool.left = 50 + self.below(400);
            self.tool.mood = self.pick(&[Mood::Fill, Mood::Fill, Mood::Even, Mood::Drain]);
        }
        self.tool.left -= 1;
        self.tool.mood
    }

    fn queue_mood(&mut self) -> Mood {
        if self.queue.left == 0 {
            self.queue.left = 50 + self.below(400);
            self.queue.mood = self.pick(&[Mood::Fill, Mood::Even, Mood::Drain]);
        }
        self.queue.left -= 1;
        self.queue.mood
    }
}

/// Puts the items in any order.
pub fn shuffle<T>(items: &mut [T], rng: &mut Rng) {
    for i in (1..items.len()).rev() {
        items.swap(i, rng.below(i as u32 + 1) as usize);
    }
}
