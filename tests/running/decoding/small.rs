//! Small cases, by far the most of all calls, and damaged images.

use super::{scores, Decoding, Pair};
use crate::damage::{damaged, damaged_voice};
use crate::draw;
use crate::image::{Lexicon, Voice};
use crate::reference::{self, WORK_SPACE};
use crate::sketch::Sketch;

/// Small images have no more words than this.
const FEW_WORDS: i32 = 48;

/// Images that happen to have more words than this are not decoded.
const MANY_WORDS: i32 = 300;

impl Decoding {
    /// Few words, few states, few frames; every n for each pair of images.
    pub(super) fn small(&mut self, pairs: usize) {
        self.begin("small", &[0]);
        for _ in 0..pairs {
            let (voice, lexicon) = self.small_images();
            let pair = Pair::of(voice.bytes(), lexicon.bytes());
            for n in 1..=8 {
                let frames = self.frames_for(&pair);
                let longer = self.random.below(3) * self.random.below(20);
                let mut call = pair.call(&frames, n);
                call.out_length += longer;
                if let Err(number) = self.call(&pair.images, call) {
                    self.difference(&format!("the reference says {number} to small images"));
                }
            }
        }
    }

    /// Accepted images with few words.
    pub(super) fn small_images(&mut self) -> (Voice, Lexicon) {
        loop {
            let random = &mut self.random;
            let letters = random.between(1, 5);
            let sketch = match random.below(8) {
                0..=1 => draw::tangle(random, letters),
                2 => {
                    let widths = [(); 3].map(|()| random.between(1, letters));
                    let mut sketch = Sketch::new();
                    sketch.layers(&widths[..random.between(1, 3)], 0);
                    sketch
                }
                _ => draw::few_words(random, letters),
            };
            let most_states = random.between(1, 4);
            let mut voice = draw::voice(random, letters, most_states);
            scores::draw(random, &mut voice);
            let lexicon = sketch.lexicon(random);
            // one word or two now and then
            let least = if random.once_in(6) { 1 } else { 3 };
            let words = reference::check(&voice.bytes(), &lexicon.bytes(), WORK_SPACE);
            if (least..=FEW_WORDS).contains(&words) {
                return (voice, lexicon);
            }
        }
    }

    /// Any frames, of a length for which some word has a state path or nearly has one.
    pub(super) fn frames_for(&mut self, pair: &Pair) -> Vec<u8> {
        let Ok(images) = &pair.images else {
            let length = self.random.between(1, 6);
            return vec![0; length];
        };
        let mut states = || images.states_of(self.random.pick::<Vec<u8>>(&images.words));
        let least = states().max(states());
        let length = match self.random.below(8) {
            0 => self.random.between(1, 4),
            1 => self.random.between(1, least),
            _ => self.random.between(least, least + 4),
        };
        let used = self.random.between(1, images.symbols);
        self.any_frames(length, used)
    }

    pub(super) fn any_frames(&mut self, length: usize, symbols: usize) -> Vec<u8> {
        let mut frame = || self.random.below(symbols) as u8;
        (0..length).map(|_| frame()).collect()
    }

    /// Images of every kind, most of them damaged.
    pub(super) fn damaged_images(&mut self, calls: usize) {
        self.begin("damaged", &[0, 1, 2, 3, 4, 5, 6, 9, 10]);
        let mut images = self.small_images();
        for k in 0..calls {
            match k % 8 {
                0 | 4 => images = self.small_images(),
                2 | 6 => images = draw::images(&mut self.random),
                _ => {}
            }
            let (mut voice, mut lexicon) = (images.0.bytes(), images.1.bytes());
            let which = self.random.below(8);
            if which < 3 {
                voice = damaged_voice(&mut self.random, &images.0);
            }
            if which > 1 {
                lexicon = damaged(&mut self.random, &images.1.fields());
            }
            let words = reference::check(&voice, &lexicon, WORK_SPACE);
            if words > MANY_WORDS {
                continue;
            }
            let pair = Pair::of(voice, lexicon);
            let frames = self.frames_for(&pair);
            let mut call = pair.call(&frames, self.random.between(1, 8) as u32);
            call.work_length = self.work.any_length(&mut self.random);
            self.call(&pair.images, call).ok();
        }
    }
}
