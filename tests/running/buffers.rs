//! A buffer that is lent to the product, with guard bytes on both sides. It keeps a copy of everything, so that after
//! the call every byte can be held to what it was.

use crate::random::Random;

const GUARD: usize = 64;

/// The bytes that are lent, and what follows them in memory but is not lent: for an image that was cut this is what was
/// cut off, so that reading past the length would not look odd.
#[derive(Clone, Copy)]
pub struct Lent<'a> {
    pub bytes: &'a [u8],
    pub behind: &'a [u8],
}

pub fn whole(bytes: &[u8]) -> Lent<'_> {
    Lent { bytes, behind: &[] }
}

pub fn cut(bytes: &[u8], length: usize) -> Lent<'_> {
    let (bytes, behind) = bytes.split_at(length);
    Lent { bytes, behind }
}

pub struct Buffer {
    memory: Vec<u8>,
    copy: Vec<u8>,
    start: usize,
    length: usize,
}

impl Buffer {
    pub fn new() -> Buffer {
        Buffer {
            memory: Vec::new(),
            copy: Vec::new(),
            start: 0,
            length: 0,
        }
    }

    /// Takes new contents. The start is at any address, even or not.
    pub fn hold(&mut self, lent: Lent, random: &mut Random) {
        self.start = GUARD + random.below(16);
        self.length = lent.bytes.len();
        let mut guard = [0; 2 * GUARD + 16];
        random.fill(&mut guard);
        self.memory.clear();
        self.memory.extend_from_slice(&guard[..self.start]);
        self.memory.extend_from_slice(lent.bytes);
        self.memory.extend_from_slice(lent.behind);
        self.memory.extend_from_slice(&guard[self.start..]);
        self.copy.clone_from(&self.memory);
    }

    pub fn pointer(&mut self) -> *mut u8 {
        self.memory[self.start..].as_mut_ptr()
    }

    pub fn length(&self) -> usize {
        self.length
    }

    /// The bytes lent, as they are now.
    pub fn contents(&self) -> &[u8] {
        &self.memory[self.start..self.start + self.length]
    }

    /// Contents and guard bytes are as before the call.
    pub fn unchanged(&self) -> bool {
        self.memory == self.copy
    }

    /// The contents begin with `front`, and everything else, guard bytes too, is as before the call.
    pub fn begins_with(&self, front: &[u8]) -> bool {
        let end = self.start + front.len();
        front.len() <= self.length
            && self.memory[..self.start] == self.copy[..self.start]
            && self.memory[self.start..end] == *front
            && self.memory[end..] == self.copy[end..]
    }
}

/// A lent list of u32, with guard numbers on both sides.
pub struct Numbers {
    memory: Vec<u32>,
    copy: Vec<u32>,
    start: usize,
    length: usize,
}

impl Numbers {
    pub fn new() -> Numbers {
        Numbers {
            memory: Vec::new(),
            copy: Vec::new(),
            start: 0,
            length: 0,
        }
    }

    pub fn hold(&mut self, numbers: &[u32], random: &mut Random) {
        self.start = GUARD / 4 + random.below(4);
        self.length = numbers.len();
        self.memory.clear();
        self.memory.resize_with(self.start, || random.next() as u32);
        self.memory.extend_from_slice(numbers);
        let end = self.memory.len() + GUARD / 4;
        self.memory.resize_with(end, || random.next() as u32);
        self.copy.clone_from(&self.memory);
    }

    pub fn pointer(&mut self) -> *mut u32 {
        self.memory[self.start..].as_mut_ptr()
    }

    pub fn length(&self) -> usize {
        self.length
    }

    pub fn contents(&self) -> &[u32] {
        &self.memory[self.start..self.start + self.length]
    }

    pub fn unchanged(&self) -> bool {
        self.memory == self.copy
    }
}
