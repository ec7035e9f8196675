//! Images that are refused, with every number, beside words, codes and outputs that would be refused too: the lowest
//! number that applies is answered.

use super::{Codes, Images, OF_IMAGES, ROOM};
use crate::buffers::whole;
use crate::damage::{damaged, damaged_voice};
use crate::draw;
use crate::faults::faulty_images;
use crate::image::{small_lexicon, small_voice, Lexicon, Voice};
use crate::reference::WORK_SPACE;
use crate::sketch::{Sketch, ROOT, SINK};
use crate::work;

impl Codes {
    /// The three calls with any word, code and output: often good ones, if the images are.
    fn call_with_any(&mut self, images: &Images, word: &[u8], code: u32) {
        let work_length = self.work.any_length(&mut self.random);
        let word = match self.random.below(4) {
            0 => {
                let length = self.random.below(4);
                self.random.bytes(length)
            }
            _ => word.to_vec(),
        };
        let code = match self.random.below(4) {
            0 => self.random.next() as u32,
            _ => code,
        };
        let out_length = *self.random.pick(&[0, 1, ROOM, ROOM, ROOM]);
        let of_list = match self.random.below(4) {
            0 => self.random.below(images.length() + 1),
            _ => images.length(),
        };
        self.call_word_to_code(images, whole(&word), work_length);
        self.call_code_to_word(images, code, work_length, out_length);
        self.call_list(images, work_length, of_list);
    }

    /// One damage to one of two images that were accepted, called with a word and a code that they had.
    pub(super) fn damaged_images(&mut self, pairs: usize) {
        let due = [1, 2, 3, 4, 5, 6, 10];
        self.begin("damaged", &due, [&[0, 13], &[0, 15, 16], &[0, 16]]);
        let mut drawn = self.drawn();
        for k in 0..pairs {
            if k % 8 == 0 {
                drawn = self.drawn();
            }
            let (voice, lexicon, good) = &drawn;
            let code = self.random.below(good.count());
            let word = good.word(code);
            let images = if self.random.once_in(3) {
                Images::new(damaged_voice(&mut self.random, voice), lexicon.bytes())
            } else {
                Images::new(voice.bytes(), damaged(&mut self.random, &lexicon.fields()))
            };
            self.call_with_any(&images, &word, code as u32);
        }
    }

    /// Models of two images that are accepted, and the images.
    fn drawn(&mut self) -> (Voice, Lexicon, Images) {
        loop {
            let letters = self.random.between(1, 6);
            let sketch = draw::few_words(&mut self.random, letters);
            let voice = draw::voice_for(&mut self.random, &sketch);
            let lexicon = sketch.lexicon(&mut self.random);
            let images = Images::of(&voice, &lexicon);
            if images.words.is_ok() {
                return (voice, lexicon, images);
            }
        }
    }

    /// Bytes that are no images at all: none, few, or many.
    pub(super) fn any_bytes(&mut self, pairs: usize) {
        self.begin("any bytes", &[1, 2, 3, 4, 5], [&[], &[], &[]]);
        for _ in 0..pairs {
            let most = *self.random.pick(&[1, 4, 20, 5_000]);
            let (first, second) = (self.random.below(most), self.random.below(most));
            let voice = if self.random.once_in(3) {
                self.random.bytes(first)
            } else {
                small_voice().bytes()
            };
            let mut lexicon = self.random.bytes(second);
            if self.random.once_in(2) {
                lexicon.iter_mut().for_each(|byte| *byte %= 4);
            }
            let images = Images::new(voice, lexicon);
            self.call_with_any(&images, b"an", 1);
        }
    }

    /// Images cut at every length, with what was cut off behind them in memory, called with a word and a code they had.
    pub(super) fn every_length(&mut self, pairs: usize) {
        self.begin("every length", &[2, 4], [&[0], &[0], &[0]]);
        for k in 0..pairs {
            let good = match k {
                0 => Images::of(&small_voice(), &small_lexicon()),
                _ => self.drawn().2,
            };
            let code = self.random.below(good.count());
            let (voice, lexicon) = (&good.voice, &good.lexicon);
            let word = good.word(code);
            for length in 0..=voice.len().min(200) {
                let images = Images::cut(voice, length, lexicon, lexicon.len());
                self.call_all(&images, &word, code as u32, WORK_SPACE);
            }
            for length in 0..=lexicon.len().min(200) {
                let images = Images::cut(voice, voice.len(), lexicon, length);
                self.call_all(&images, &word, code as u32, WORK_SPACE);
            }
        }
    }

    /// Any set of the conditions 2 to 10 in the images, and any of 1, 13, 15 and 16 beside them.
    pub(super) fn several_at_once(&mut self, pairs: usize) {
        let others: [&[usize]; 3] = [&[0, 13], &[0, 15, 16], &[0, 16]];
        self.begin("several at once", &OF_IMAGES, others);
        for k in 0..pairs {
            let images = self.with_several(k);
            let code = self.random.below(images.count() + 1);
            let word = if code < images.count() {
                images.word(code)
            } else {
                vec![33]
            };
            self.call_with_any(&images, &word, code as u32);
        }
    }

    /// First each condition with each other one, then any set.
    fn with_several(&mut self, k: usize) -> Images {
        let several = if k < 81 {
            1 << (k / 9) | 1 << (k % 9)
        } else {
            self.random.below(1 << 9) & self.random.below(1 << 9)
        };
        let (voice, lexicon) = faulty_images(&mut self.random, several);
        Images::new(voice, lexicon)
    }

    /// Every kind of answer with work spaces of every length.
    pub(super) fn work_spaces(&mut self, pairs: usize) {
        let others: [&[usize]; 3] = [&[0, 13], &[0, 15, 16], &[0, 16]];
        self.begin("work spaces", &OF_IMAGES, others);
        for k in 0..pairs {
            let images = match k % 3 {
                0 => self.accepted(),
                _ => self.with_several(k % 11 * 10),
            };
            let code = self.random.below(images.count() + 1);
            let word = if code < images.count() {
                images.word(code)
            } else {
                Vec::new()
            };
            for length in work::LENGTHS {
                self.call_all(&images, &word, code as u32, length);
                self.call_word_to_code(&images, whole(&[]), length);
                self.call_code_to_word(&images, code as u32, length, 0);
                self.call_code_to_word(&images, u32::MAX, length, 0);
                self.call_list(&images, length, images.length().saturating_sub(1));
            }
        }
    }

    /// Both sides of 32 letters, 1,000 places and 1,048,576 words: every call checks anew.
    pub(super) fn limits(&mut self) {
        self.begin("limits", &[5, 7, 8, 9], [&[0, 13], &[0, 15], &[0]]);
        for length in [31, 32, 33] {
            let mut sketch = Sketch::new();
            let word = draw::word(&mut self.random, 8, length);
            sketch.chain(ROOT, &word, SINK);
            sketch.chain(ROOT, &word[..length - 1], SINK);
            sketch.chain(ROOT, &word[..1], SINK);
            self.call_every_code(&sketch, 8, 1);
        }
        for nodes in [399, 400, 401] {
            let mut sketch = Sketch::new();
            draw::fill_up(&mut self.random, &mut sketch, nodes, 64);
            self.call_every_code(&sketch, 64, 1);
        }
        for nodes in [249, 250, 251] {
            let mut sketch = Sketch::new();
            draw::fill_up(&mut self.random, &mut sketch, nodes, 8);
            self.call_every_code(&sketch, 8, 4);
        }
        // one word too many, and more than 32 bits can count
        let too_many: [(&[usize], usize); 4] =
            [(&[2; 20], 1), (&[2; 21], 0), (&[2; 32], 5), (&[11; 32], 0)];
        for (widths, beside) in too_many {
            self.call_every_code(&draw::so_many_words(widths, beside), 64, 1);
        }
        self.one_word();
    }

    /// Every code, and a few that are none if the images are refused.
    fn call_every_code(&mut self, sketch: &Sketch, letters: usize, states: u8) {
        let voice = draw::voice_of(&mut self.random, &vec![states; letters], 2);
        let images = Images::of(&voice, &sketch.lexicon(&mut self.random));
        for code in 0..=images.count() {
            let word = if code < images.count() {
                images.word(code)
            } else {
                vec![voice.letters[0].print_byte; 33]
            };
            self.call_all(&images, &word, code as u32, WORK_SPACE);
        }
    }

    /// W = 1: the only code is 0.
    fn one_word(&mut self) {
        let mut lexicon = small_lexicon();
        lexicon.letters = vec![0];
        lexicon.successors = vec![vec![1], vec![2]];
        let images = Images::of(&small_voice(), &lexicon);
        self.call_all(&images, b"a", 0, WORK_SPACE);
        self.call_all(&images, b"", 1, WORK_SPACE);
        self.codes_that_are_none(&images);
    }
}
