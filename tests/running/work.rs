//! The spaces that are lent for a call to work in: full of old bytes before it, and after it as the refusal table says.

use crate::buffers::{whole, Buffer};
use crate::random::Random;
use crate::reference::FURTHER_SPACE;

static ZEROS: [u8; FURTHER_SPACE] = [0; FURTHER_SPACE];

/// The work space, or the further one: they differ in the bytes that a call needs.
pub struct Work {
    pub buffer: Buffer,
    least: usize,
    /// Random bytes, of which any stretch is an old content.
    old: Vec<u8>,
}

impl Work {
    pub fn new(random: &mut Random, least: usize) -> Work {
        Work {
            buffer: Buffer::new(),
            least,
            old: random.bytes(4 * least.next_power_of_two()),
        }
    }

    pub fn hold(&mut self, length: usize, random: &mut Random) {
        let at = random.below(self.old.len() - length);
        self.buffer.hold(whole(&self.old[at..at + length]), random);
    }

    /// Refusal 1 leaves it unchanged; after any other answer the bytes that a call needs are zero and later ones
    /// unchanged.
    pub fn is_left_by(&self, answer: i32) -> bool {
        let cleared = if answer == -1 { 0 } else { self.least };
        self.buffer.begins_with(&ZEROS[..cleared])
    }

    /// Long enough nearly always.
    pub fn any_length(&self, random: &mut Random) -> usize {
        match random.below(100) {
            0 => random.below(self.least),
            1..=10 => random.between(self.least, self.least + 6_000),
            _ => self.least,
        }
    }
}

/// Both sides of 64,000, and far from it.
pub const LENGTHS: [usize; 15] = [
    0, 1, 7, 8, 400, 20_100, 32_768, 63_992, 63_999, 64_000, 64_001, 64_007, 65_535, 65_536, 70_000,
];

/// Both sides of 262,144, and far from it; 64,000 too, which is enough for the other space.
pub const FURTHER_LENGTHS: [usize; 15] = [
    0, 1, 8, 63_999, 64_000, 65_536, 200_000, 262_136, 262_142, 262_143, 262_144, 262_145, 262_151,
    262_208, 270_000,
];
