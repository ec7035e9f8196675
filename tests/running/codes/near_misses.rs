//! Words that a lexicon nearly has: one letter more, one less, another one; parts of words; bytes that are no letters;
//! words of other lexicons. The bytes that would make a word of it lie behind it in memory.

use super::{Codes, Images};
use crate::buffers::cut;
use crate::draw;
use crate::reference::{self, WORK_SPACE};

impl Codes {
    pub(super) fn near_misses(&mut self, lexicons: usize) {
        self.begin("near misses", &[], [&[0, 13], &[], &[]]);
        let mut other = self.accepted();
        for _ in 0..lexicons {
            let images = self.accepted();
            let letters =
                reference::read_voice(&images.voice).map_or(Vec::new(), |voice| voice.print_bytes);
            for _ in 0..3 {
                let code = self.random.below(images.count());
                let word = images.word(code);
                self.changed_words(&images, &word, &letters);
                self.parts_of_words(&images, &word);
                self.long_words(&images, &word, &letters);
                let foreign = other.word(self.random.below(other.count()));
                self.code_of(&images, &foreign);
            }
            self.code_of(&images, &[]);
            other = images;
        }
    }

    /// One byte more, one less, or another, at any place: a letter of the model, or any byte.
    fn changed_words(&mut self, images: &Images, word: &[u8], letters: &[u8]) {
        for _ in 0..12 {
            let mut changed = word.to_vec();
            let place = self.random.below(word.len());
            let byte = match self.random.below(4) {
                0 => self.random.next() as u8,
                1 => draw::no_letter(&mut self.random, letters),
                _ => *self.random.pick(letters),
            };
            match self.random.below(6) {
                0 => changed.insert(place, byte),
                1 => changed.push(byte),
                2 => {
                    changed.remove(place);
                }
                3 => changed.swap(place, self.random.below(word.len())),
                _ => changed[place] = byte,
            }
            self.code_of(images, &changed);
        }
    }

    /// A beginning with the rest behind it, an ending, and the word with what follows it in the listing.
    fn parts_of_words(&mut self, images: &Images, word: &[u8]) {
        let place = self.random.below(word.len());
        self.call_word_to_code(images, cut(word, place), WORK_SPACE);
        self.call_word_to_code(images, cut(word, word.len() - 1), WORK_SPACE);
        self.code_of(images, &word[place..]);
        let line = [word, &[10]].concat();
        self.code_of(images, &line);
        self.call_word_to_code(images, cut(&line, word.len()), WORK_SPACE);
        let another = images.word(self.random.below(images.count()));
        self.code_of(images, &[word, &another].concat());
    }

    /// The word, and then letters up to 31, 32, 33 and more; lengths that are the word's if cut off at 8 or 16 bits.
    fn long_words(&mut self, images: &Images, word: &[u8], letters: &[u8]) {
        for length in [31, 32, 33, 34, 64] {
            let mut long = word.to_vec();
            long.resize_with(length.max(word.len()), || *self.random.pick(letters));
            self.code_of(images, &long);
        }
        for more in [32, 64, 256, 65_536] {
            if more < 65_536 || self.random.once_in(20) {
                let mut long = word.repeat(more / word.len() + 2);
                long.truncate(more + word.len());
                self.code_of(images, &long);
            }
        }
    }
}
