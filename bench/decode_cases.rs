//! The calls that bench/decode times and bench/instructions counts: an input with its frames and n. One seed makes them
//! all; those with one link and those with a link a letter differ in the links alone.

use crate::decode_inputs::{inputs, over_arcs, over_words, Input, Links};
use crate::random::Random;
use std::rc::Rc;

pub type Decode = unsafe extern "C" fn(
    *const u8,
    usize,
    *const u8,
    usize,
    *const u8,
    usize,
    u32,
    *mut u8,
    usize,
    *mut u8,
    usize,
) -> i32;

pub struct Case {
    pub input: Rc<Input>,
    pub links: Links,
    pub frames: Vec<u8>,
    pub n: u32,
}

/// Cases in which one size grows, each with that size.
pub struct Series {
    pub name: &'static str,
    pub cases: Vec<(usize, Case)>,
}

pub struct Cases {
    /// Every input with every T and n of the bench.
    pub table: Vec<Case>,
    pub series: [Series; 3],
}

impl Case {
    fn of(input: &Rc<Input>, links: Links, length: usize, n: u32, random: &mut Random) -> Case {
        let frames = (0..length).map(|_| random.below(input.symbols) as u8);
        Case {
            input: input.clone(),
            links,
            frames: frames.collect(),
            n,
        }
    }

    pub fn call(&self, decode: Decode, work: &mut [u8], out: &mut [u8]) -> i32 {
        let (voice, lexicon) = (self.input.voice(self.links), &self.input.lexicon);
        // Each pointer is valid for its length.
        unsafe {
            decode(
                voice.as_ptr(),
                voice.len(),
                lexicon.as_ptr(),
                lexicon.len(),
                self.frames.as_ptr(),
                self.frames.len(),
                self.n,
                work.as_mut_ptr(),
                work.len(),
                out.as_mut_ptr(),
                out.len(),
            )
        }
    }
}

impl Cases {
    /// A library from before a link a letter refuses it: a count that is out of range.
    pub fn are_refused(&self, decode: Decode, work: &mut [u8]) -> bool {
        self.table[0].call(decode, work, &mut [0; 64]) == -3
    }
}

fn shared(inputs: Vec<Input>) -> Vec<Rc<Input>> {
    inputs.into_iter().map(Rc::new).collect()
}

pub fn cases(links: Links) -> Cases {
    let random = &mut Random::from_seed(1);
    let mut table = Vec::new();
    for input in shared(inputs(random)) {
        for length in [50, 300, 1_000] {
            for n in [1, 3, 8] {
                table.push(Case::of(&input, links, length, n, random));
            }
        }
    }
    let arcs = shared(over_arcs(random));
    let words = shared(over_words(random));
    let mut series = |name, cases: Vec<(usize, &Rc<Input>, usize)>| Series {
        name,
        cases: cases
            .into_iter()
            .map(|(size, input, length)| (size, Case::of(input, links, length, 3, random)))
            .collect(),
    };
    let lengths = [50, 100, 200, 300, 400, 500, 600, 700, 800, 900, 1_000];
    let over_frames = lengths.map(|length| (length, &arcs[2], length));
    let over_arcs = arcs.iter().map(|input| (input.arcs, input, 300));
    let over_words = words.iter().map(|input| (input.words as usize, input, 50));
    let series = [
        series("frames", over_frames.to_vec()),
        series("arcs", over_arcs.collect()),
        series("words", over_words.collect()),
    ];
    Cases { table, series }
}
