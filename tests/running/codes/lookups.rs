//! The paper's rows, every word there and back, and outputs of every length.

use super::{Codes, Images, ROOM};
use crate::image::{small_lexicon, small_voice, Lexicon};
use crate::reference::WORK_SPACE;
use crate::sketch::{Sketch, SINK};

/// Up to so many words of a lexicon are looked up one by one.
const ALL_OF: usize = 400;

impl Codes {
    /// The rows of the paper's small lexicon that are about words and codes.
    pub(super) fn examples(&mut self) {
        self.begin("paper", &[10], [&[0, 13], &[0, 15], &[0]]);
        let mut lexicon = small_lexicon();
        self.hold_to_row(&lexicon, ["an", "at", "i", "in", "it"]);
        lexicon.successors[0] = vec![2, 1];
        self.hold_to_row(&lexicon, ["i", "in", "it", "an", "at"]);
        let mut twice = Sketch::new();
        twice.chain(0, &[0], SINK);
        twice.chain(0, &[0], SINK);
        let images = Images::of(&small_voice(), &twice.lexicon(&mut self.random));
        self.call_all(&images, b"a", 0, WORK_SPACE);
        let mut apart = Sketch::new();
        apart.chain(0, &[0, 2], SINK);
        apart.chain(0, &[0, 3], SINK);
        let images = Images::of(&small_voice(), &apart.lexicon(&mut self.random));
        for word in [&b"an"[..], b"at", b"a", b"ai", b"n"] {
            self.code_of(&images, word);
        }
    }

    /// The codes of these five words are 0 to 4, and 5 is none.
    fn hold_to_row(&mut self, lexicon: &Lexicon, row: [&str; 5]) {
        let images = Images::of(&small_voice(), lexicon);
        for (code, word) in row.iter().enumerate() {
            let answer = self.code_of(&images, word.as_bytes());
            self.hold_reference_to(code as i32, answer);
            let answer = self.word_of(&images, code as u32);
            self.hold_reference_to(word.len() as i32, answer);
            if images.word(code) != word.as_bytes() {
                self.hold_reference_to(code as i32, -13);
            }
        }
        let answer = self.word_of(&images, 5);
        self.hold_reference_to(-15, answer);
        for word in ["", "a", "n", "t", "ii", "ani", "ta"] {
            let answer = self.code_of(&images, word.as_bytes());
            self.hold_reference_to(-13, answer);
        }
        let answer = self.call_list(&images, WORK_SPACE, 14);
        self.hold_reference_to(14, answer);
    }

    /// Every word of a lexicon to its code, every code to its word, codes that are none, and the listing.
    pub(super) fn every_word(&mut self, lexicons: usize) {
        self.begin("every word", &[], [&[0], &[0, 15], &[0]]);
        for _ in 0..lexicons {
            let images = self.accepted();
            let count = images.count();
            for k in 0..count.min(ALL_OF) {
                let code = if count > ALL_OF {
                    self.random.below(count)
                } else {
                    k
                };
                let word = images.word(code);
                self.code_of(&images, &word);
                self.call_code_to_word(&images, code as u32, WORK_SPACE, word.len());
            }
            self.codes_that_are_none(&images);
            self.call_list(&images, WORK_SPACE, images.length());
        }
    }

    /// From W on, and where a code cut off at 8, 16, 20 or 31 bits would be one.
    pub(super) fn codes_that_are_none(&mut self, images: &Images) {
        let count = images.count() as u32;
        self.word_of(images, count - 1);
        for code in [count, count + 1, 1 << 31, u32::MAX, u32::MAX - count + 1] {
            self.word_of(images, code);
        }
        let high = *self.random.pick(&[8, 16, 20, 24, 31]);
        let low = self.random.below(count as usize) as u32;
        self.word_of(images, 1 << high | low);
        let any = self.random.next() as u32;
        self.word_of(images, any);
    }

    /// Outputs exactly long enough, one short, empty, and longer: later bytes keep their values.
    pub(super) fn outputs(&mut self, lexicons: usize) {
        self.begin("outputs", &[], [&[], &[0, 15, 16], &[0, 16]]);
        for _ in 0..lexicons {
            let images = self.accepted();
            let count = images.count();
            for _ in 0..4 {
                let code = self.random.below(count);
                let length = images.word(code).len();
                for out_length in around(length) {
                    self.call_code_to_word(&images, code as u32, WORK_SPACE, out_length);
                }
                // no output at all, and no such code
                self.call_code_to_word(&images, count as u32, WORK_SPACE, 0);
                self.call_code_to_word(&images, count as u32, WORK_SPACE, ROOM);
            }
            let length = images.length();
            let any = self.random.below(length);
            for out_length in around(length).into_iter().chain([any, 2 * length]) {
                self.call_list(&images, WORK_SPACE, out_length);
            }
        }
    }
}

fn around(length: usize) -> [usize; 9] {
    [
        0,
        1,
        length / 2,
        length - 1,
        length,
        length + 1,
        length + 2,
        length + 7,
        length + 100,
    ]
}
