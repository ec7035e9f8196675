//! The groups of calls of packing and unpacking.

use super::reference::{packed, packed_length, width, MOST_CODES};
use super::{Packing, ROOM};
use crate::buffers::{cut, whole};

/// Every W next to a power of two, as far as W may go.
fn words_at_powers() -> Vec<u32> {
    let mut words: Vec<u32> = (0..=20)
        .flat_map(|k| [(1 << k) - 1, 1 << k, (1 << k) + 1])
        .filter(|words| (1..=1 << 20).contains(words))
        .collect();
    words.sort_unstable();
    words.dedup();
    words
}

/// Values of W that are none.
const NO_WORDS: [u32; 9] = [
    0,
    1_048_577,
    1_048_578,
    1 << 21,
    1 << 24,
    (1 << 31) - 1,
    1 << 31,
    (1 << 31) + 5,
    u32::MAX,
];

impl Packing {
    /// b of the paper's rows, by the bits that eight codes take; the codes of P.
    pub(super) fn examples(&mut self) {
        self.begin("paper", [&[0, 15], &[0]]);
        for (words, b) in [(1, 0), (5, 3), (6, 3), (8, 3), (9, 4)] {
            let answer = self.call_pack(words, &[0; 8], ROOM);
            self.hold_reference_to(b, answer);
            let answer = self.call_unpack(words, 8, whole(&vec![0; b as usize]), ROOM);
            self.hold_reference_to(8, answer);
        }
        // 000 001 010 011 100
        self.hold_reference_to(0, (packed(5, &[0, 1, 2, 3, 4]) != [0x05, 0x38]).into());
        self.call_both(5, &[0, 1, 2, 3, 4]);
        let answer = self.call_pack(5, &[4], 1);
        self.hold_reference_to(1, answer);
        let answer = self.call_pack(5, &[5], 1);
        self.hold_reference_to(-15, answer);
    }

    /// Every W next to a power of two with every number of codes: the ends of the range, single bits, any.
    pub(super) fn every_width(&mut self, rounds: usize) {
        self.begin("every width", [&[0], &[0]]);
        for words in words_at_powers() {
            for n in 1..=MOST_CODES {
                self.call_both(words, &vec![0; n]);
                self.call_both(words, &vec![words - 1; n]);
                for place in 0..n {
                    let mut codes = vec![0; n];
                    codes[place] = words - 1;
                    self.call_both(words, &codes);
                    codes[place] = 1 << self.random.below(width(words).max(1));
                    codes[place] = codes[place].min(words - 1);
                    self.call_both(words, &codes);
                }
                for _ in 0..rounds {
                    let codes = self.any_codes(words, n);
                    self.call_both(words, &codes);
                }
            }
        }
    }

    /// Each bit of each code by itself, with every width and number of codes: it stands where the paper has it, code i
    /// from bit i × b on, in byte i × b / 8 rounded down, and no other bit is set.
    pub(super) fn each_bit(&mut self) {
        self.begin("each bit alone", [&[0], &[0]]);
        for b in 1..=20 {
            for n in 1..=MOST_CODES {
                for place in 0..n * b {
                    let mut codes = vec![0; n];
                    codes[place / b] = 1 << (b - 1 - place % b);
                    let mut due = vec![0; (n * b + 7) / 8];
                    due[place / 8] = 0x80 >> (place % 8);
                    let same = packed(1 << b, &codes) == due;
                    self.hold_reference_to(1, same.into());
                    self.call_both(1 << b, &codes);
                }
            }
        }
    }

    /// Values of W at both sides of the limits, whatever else is given.
    pub(super) fn word_counts(&mut self, calls: usize) {
        self.begin("word counts", [&[0, 9, 12], &[0, 9, 12, 14]]);
        for k in 0..calls {
            let words = match k % 3 {
                0 => *self.random.pick(&[1, 2, 1_048_575, 1_048_576]),
                _ => NO_WORDS[k / 3 % NO_WORDS.len()],
            };
            let n = self.random.below(10);
            let codes = self.any_codes(words.max(1), n);
            let out_length = *self.random.pick(&[0, ROOM]);
            self.call_pack(words, &codes, out_length);
            let length = self.random.below(24);
            let bytes = vec![0; length];
            self.call_unpack(words, n as u32, whole(&bytes), out_length);
            if (1..=1 << 20).contains(&words) && n > 0 {
                self.call_pack(words, &codes, ROOM);
                self.call_unpack(words, n as u32, whole(&packed(words, &codes)), ROOM);
            }
        }
    }

    /// 0, 1 to 8, 9 and many more, also such as are 1 to 8 if cut off at 3, 8 or 16 bits.
    pub(super) fn numbers_of_codes(&mut self, rounds: usize) {
        self.begin("numbers of codes", [&[0, 12], &[0, 12]]);
        for _ in 0..rounds {
            let words = self.any_words();
            for n in (0..=17).chain([255, 256, 257, 264, 1_000]) {
                let codes = self.any_codes(words, n);
                self.call_pack(words, &codes, 4 * n);
                let bytes = packed(words, &codes);
                self.call_unpack(words, n as u32, whole(&bytes), 4 * n);
                self.call_unpack(words, n as u32, whole(&[]), 0);
            }
            for n in [
                65_537,
                1 << 16,
                1 << 31,
                (1 << 31) + 1,
                u32::MAX,
                u32::MAX - 7,
            ] {
                self.call_unpack(words, n, whole(&[0; 20]), ROOM);
            }
        }
        let codes = vec![0; 65_537];
        self.call_pack(2, &codes, 10_000);
    }

    /// Every padding bit set alone, and all of them.
    pub(super) fn padding(&mut self) {
        self.begin("padding", [&[0], &[0, 14]]);
        for words in words_at_powers() {
            for n in 1..=MOST_CODES {
                let codes = self.any_codes(words, n);
                self.call_both(words, &codes);
                let good = packed(words, &codes);
                let padding = 8 * good.len() - n * width(words);
                for place in 0..padding {
                    let mut bytes = good.clone();
                    bytes[good.len() - 1] |= 1 << place;
                    let answer = self.call_unpack(words, n as u32, whole(&bytes), ROOM);
                    self.hold_reference_to(-14, answer);
                }
                if padding > 0 {
                    let mut bytes = good.clone();
                    bytes[good.len() - 1] |= (1 << padding) - 1;
                    self.call_unpack(words, n as u32, whole(&bytes), ROOM);
                }
            }
        }
    }

    /// Packed bytes one more, one less, none, many; the bytes that are missing lie behind.
    pub(super) fn lengths(&mut self, rounds: usize) {
        self.begin("lengths", [&[], &[0, 14]]);
        for words in words_at_powers() {
            for n in (1..=MOST_CODES).cycle().take(rounds * MOST_CODES) {
                let codes = self.any_codes(words, n);
                let good = packed(words, &codes);
                let room = *self.random.pick(&[0, ROOM]);
                for length in [0, good.len() / 2, good.len().saturating_sub(1), good.len()] {
                    self.call_unpack(words, n as u32, cut(&good, length), room);
                }
                for extra in [&[0][..], &[1], &[0; 4], &[0; 256]] {
                    let bytes = [&good, extra].concat();
                    let answer = self.call_unpack(words, n as u32, whole(&bytes), room);
                    self.hold_reference_to(-14, answer);
                }
            }
        }
    }

    /// One code of W or more, at every place: for packing any u32, for unpacking what b bits can hold.
    pub(super) fn codes_that_are_none(&mut self, rounds: usize) {
        self.begin("codes that are none", [&[15], &[0, 15]]);
        for words in words_at_powers() {
            let beyond = 1u32 << width(words);
            for n in (1..=MOST_CODES).cycle().take(rounds * MOST_CODES) {
                for place in 0..n {
                    let mut codes = self.any_codes(words, n);
                    for code in [
                        words,
                        words + 1,
                        beyond,
                        1 << 31,
                        u32::MAX,
                        u32::MAX - words,
                    ] {
                        codes[place] = code;
                        self.call_pack(words, &codes, ROOM);
                    }
                    if words < beyond {
                        let any = self.random.between(words as usize, beyond as usize - 1) as u32;
                        for code in [words - 1, words, beyond - 1, any] {
                            codes[place] = code;
                            let bytes = packed(words, &codes);
                            self.call_unpack(words, n as u32, whole(&bytes), ROOM);
                        }
                    }
                }
            }
        }
    }

    /// Outputs of every length from 0 to some bytes more than are due, at any address.
    pub(super) fn outputs(&mut self, rounds: usize) {
        self.begin("outputs", [&[0, 16], &[0, 16]]);
        for _ in 0..rounds {
            for words in words_at_powers() {
                for n in 1..=MOST_CODES {
                    let codes = self.any_codes(words, n);
                    let due = packed_length(words, n);
                    for out_length in [0, due.saturating_sub(1), due, due + 1, due + 9] {
                        self.call_pack(words, &codes, out_length);
                    }
                    let bytes = packed(words, &codes);
                    for out_length in [0, 4 * n - 4, 4 * n - 1, 4 * n, 4 * n + 1, 4 * n + 30] {
                        self.call_unpack(words, n as u32, whole(&bytes), out_length);
                    }
                }
            }
        }
    }

    /// Any bytes of the right length, any codes.
    pub(super) fn anything(&mut self, calls: usize) {
        self.begin("anything", [&[0, 15, 16], &[0, 14, 15, 16]]);
        for _ in 0..calls {
            let words = self.any_words();
            let n = self.random.between(1, MOST_CODES);
            let b = width(words);
            let codes: Vec<u32> = (0..n)
                .map(|_| self.random.below(words as usize + words as usize / 32 + 1) as u32)
                .collect();
            let out_length = self.random.below(ROOM);
            self.call_pack(words, &codes, out_length);
            let mut bytes = self.random.bytes(packed_length(words, n));
            if let Some(last) = bytes.last_mut() {
                let padding = 8 * packed_length(words, n) - n * b;
                *last = if self.random.once_in(8) {
                    *last
                } else {
                    *last >> padding << padding
                };
            }
            self.call_unpack(words, n as u32, whole(&bytes), out_length);
        }
    }

    /// Any set of conditions in one call: the lowest number wins.
    pub(super) fn several_at_once(&mut self, calls: usize) {
        self.begin(
            "several at once",
            [&[0, 9, 12, 15, 16], &[0, 9, 12, 14, 15, 16]],
        );
        for _ in 0..calls {
            let several = self.random.below(64) & self.random.below(64);
            let has = |condition: usize| several >> condition & 1 == 1;
            let words = self.any_words();
            let n = if has(1) {
                *self.random.pick(&[0, 9, 10, 16])
            } else {
                self.random.between(1, MOST_CODES)
            };
            let mut codes = self.any_codes(words, n);
            if has(2) && n > 0 {
                // as many bits as the others have, if W is no power of two
                *self.random.pick_mut(&mut codes) = (1 << width(words)) - u32::from(has(3));
            }
            let mut bytes = packed(words, &codes);
            if has(4) && self.random.once_in(2) {
                bytes.push(0);
            } else if has(4) {
                bytes.pop();
            }
            let given = if has(0) {
                *self.random.pick(&NO_WORDS)
            } else {
                words
            };
            let out_length = if has(5) { self.random.below(2) } else { 80 };
            self.call_pack(given, &codes, out_length);
            self.call_unpack(given, n as u32, whole(&bytes), out_length);
        }
    }
}
