//! Packing and unpacking, called with every width and number of codes and held to the reference: the answer, every output
//! byte, and every byte of the inputs and around the buffers.

mod groups;
mod reference;

use crate::buffers::{whole, Buffer, Lent, Numbers};
use crate::counts::Counts;
use crate::library;
use crate::random::Random;
use reference::Written;

const SHOWN_DIFFERENCES: usize = 10;
/// More room than eight codes take, packed or not.
const ROOM: usize = 40;

struct Packing {
    random: Random,
    codes: Numbers,
    packed: Buffer,
    out: Buffer,
    pack: Counts,
    unpack: Counts,
    differences: usize,
}

/// Runs all groups; says how many faults there are.
pub fn run(seed: u64) -> usize {
    let mut packing = Packing {
        random: Random::from_seed(seed),
        codes: Numbers::new(),
        packed: Buffer::new(),
        out: Buffer::new(),
        pack: Counts::of(&[9, 12, 15, 16]),
        unpack: Counts::of(&[9, 12, 14, 15, 16]),
        differences: 0,
    };
    packing.examples();
    packing.every_width(12);
    packing.each_bit();
    packing.word_counts(4_000);
    packing.numbers_of_codes(40);
    packing.padding();
    packing.lengths(4);
    packing.codes_that_are_none(3);
    packing.outputs(3);
    packing.anything(60_000);
    packing.several_at_once(30_000);
    packing.report()
}

impl Packing {
    fn report(&self) -> usize {
        let (mut missing, mut calls) = (0, 0);
        for (name, value, counts) in [
            ("packing", "packed", &self.pack),
            ("unpacking", "unpacked", &self.unpack),
        ] {
            println!("{name}");
            missing += counts.missing();
            counts.print(value);
            calls += counts.calls();
        }
        println!(
            "packed codes: {calls} calls, {} differences",
            self.differences
        );
        self.differences + missing
    }

    /// Opens a group in both tables, each with the answers that are due; where none is, the call is not made.
    fn begin(&mut self, group: &'static str, due: [&[usize]; 2]) {
        for (counts, due) in [&mut self.pack, &mut self.unpack].into_iter().zip(due) {
            if !due.is_empty() {
                counts.begin(group, due);
            }
        }
    }

    /// One call, held to the reference, whose answer is returned; so is the next.
    fn call_pack(&mut self, words: u32, codes: &[u32], out_length: usize) -> i32 {
        self.codes.hold(codes, &mut self.random);
        self.hold_out(out_length);
        let answer = library::pack(words, &mut self.codes, &mut self.out);
        let written = reference::pack(words, codes, out_length);
        let expected = written.as_ref().map_or_else(|k| -k, |b| b.len() as i32);
        self.pack.add(expected);
        let fault = if self.codes.unchanged() {
            self.fault(answer, expected, &written)
        } else {
            Some("the codes or numbers around them changed")
        };
        if let Some(fault) = fault {
            let codes = self.codes.contents().to_vec();
            let call = format!("packing W = {words}, {codes:?}, output of {out_length} bytes");
            self.difference(&format!(
                "{call}: {fault}; answered {answer}, expected {expected}"
            ));
        }
        expected
    }

    fn call_unpack(&mut self, words: u32, n: u32, packed: Lent, out_length: usize) -> i32 {
        self.packed.hold(packed, &mut self.random);
        self.hold_out(out_length);
        let answer = library::unpack(words, n, &mut self.packed, &mut self.out);
        let written = reference::unpack(words, n, packed.bytes, out_length);
        let expected = written.as_ref().map_or_else(|k| -k, |_| n as i32);
        self.unpack.add(expected);
        let fault = if self.packed.unchanged() {
            self.fault(answer, expected, &written)
        } else {
            Some("the packed bytes or bytes around them changed")
        };
        if let Some(fault) = fault {
            let bytes = packed.bytes;
            let call = format!("unpacking W = {words}, n = {n}, {bytes:?}, output of {out_length}");
            self.difference(&format!(
                "{call}: {fault}; answered {answer}, expected {expected}"
            ));
        }
        expected
    }

    fn hold_out(&mut self, length: usize) {
        let old = self.random.bytes(length);
        self.out.hold(whole(&old), &mut self.random);
    }

    fn fault(&self, answer: i32, expected: i32, written: &Written) -> Option<&'static str> {
        let bytes = written.as_ref().map_or(&[][..], Vec::as_slice);
        if answer != expected {
            Some("another answer")
        } else if !self.out.begins_with(bytes) {
            Some("output bytes or bytes around them differ")
        } else {
            None
        }
    }

    fn difference(&mut self, what: &str) {
        self.differences += 1;
        if self.differences <= SHOWN_DIFFERENCES {
            println!("difference in '{}', {what}", self.unpack.group());
        }
    }

    /// A call whose answer is known otherwise. The reference is tested too.
    fn hold_reference_to(&mut self, known: i32, answer: i32) {
        if answer != known {
            self.difference(&format!(
                "the reference says {answer} to a call made for {known}"
            ));
        }
    }

    /// Packs codes below W, and unpacks the bytes.
    fn call_both(&mut self, words: u32, codes: &[u32]) {
        let packed = reference::packed(words, codes);
        let length = packed.len();
        self.call_pack(words, codes, length);
        self.call_unpack(words, codes.len() as u32, whole(&packed), 4 * codes.len());
    }

    /// So many codes below W: any, or the ends of the range.
    fn any_codes(&mut self, words: u32, n: usize) -> Vec<u32> {
        (0..n)
            .map(|_| match self.random.below(5) {
                0 => 0,
                1 => words - 1,
                _ => self.random.below(words as usize) as u32,
            })
            .collect()
    }

    /// From 1 to 1,048,576, each width as often as another.
    fn any_words(&mut self) -> u32 {
        let most = 1 << self.random.between(0, 20);
        self.random.between(most / 2 + 1, most) as u32
    }
}
