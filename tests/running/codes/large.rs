//! Lexicons near the limits: up to 1,048,576 words, 400 nodes, 4,000 arcs, 32 letters.

use super::{Codes, Images};
use crate::draw;
use crate::reference::WORK_SPACE;
use crate::sketch::Sketch;

/// Words and codes that are looked up in each.
const LOOKUPS: usize = 120;

impl Codes {
    pub(super) fn large(&mut self) {
        self.begin("large", &[], [&[0, 13], &[0, 15], &[0, 16]]);
        for sketch in self.large_sketches() {
            let voice = draw::voice_of(&mut self.random, &[2; 64], 3);
            let images = Images::of(&voice, &sketch.lexicon(&mut self.random));
            let print_bytes: Vec<u8> = voice.letters.iter().map(|l| l.print_byte).collect();
            self.call_here_and_there(&images, &print_bytes);
        }
    }

    fn large_sketches(&mut self) -> Vec<Sketch> {
        let mut split = draw::so_many_words(&[3, 11, 31, 25], 1);
        for _ in 0..60 {
            split.split(&mut self.random);
        }
        let mut long = Sketch::new();
        let widths: Vec<usize> = (0..32).map(|k| 1 + k % 2).collect();
        long.layers(&widths, 0);
        vec![
            draw::so_many_words(&[2; 20], 0),
            draw::so_many_words(&[32; 4], 0),
            draw::so_many_words(&[3, 11, 31, 25, 41], 1),
            draw::trees(58),
            draw::dense(&mut self.random, 400, 4_000),
            split,
            long,
        ]
    }

    /// The first and last codes and any others, each word there and back and with another letter; the listing.
    fn call_here_and_there(&mut self, images: &Images, print_bytes: &[u8]) {
        let count = images.count();
        for k in 0..LOOKUPS {
            let code = match k {
                0..=2 => k.min(count - 1),
                3..=5 => count - (k - 2),
                _ => self.random.below(count),
            };
            let mut word = images.word(code);
            self.call_code_to_word(images, code as u32, WORK_SPACE, word.len());
            if k % 4 < 2 {
                let answer = self.code_of(images, &word);
                self.hold_reference_to(code as i32, answer);
            } else if k % 4 == 2 {
                let place = self.random.below(word.len());
                word[place] = *self.random.pick(print_bytes);
                self.code_of(images, &word);
            }
        }
        self.codes_that_are_none(images);
        let length = images.length();
        for out_length in [length, length - 1, length + 5] {
            self.call_list(images, WORK_SPACE, out_length);
        }
    }
}
