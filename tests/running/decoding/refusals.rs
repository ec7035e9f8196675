//! The refusals of decoding: both sides of every limit, several conditions at once, and buffers of every length.

use super::{scores, Call, Decoding, Images, Pair, ALL};
use crate::buffers::cut;
use crate::draw;
use crate::faults::faulty_images;
use crate::image::small_voice;
use crate::reference::WORK_SPACE;
use crate::sketch::{Sketch, ROOT, SINK};
use crate::work;

/// Not 1 to 8, though some of them are where a number is cut to fewer bits, or where 8 × n is.
const WRONG_N: [u32; 14] = [
    0,
    9,
    10,
    16,
    255,
    256,
    257,
    65_537,
    1 << 29,
    (1 << 29) + 1,
    (1 << 31) - 1,
    1 << 31,
    u32::MAX - 7,
    u32::MAX,
];

/// Not 1 to 1,000, though some of them are where a number is cut to 16 bits.
const WRONG_T: [usize; 8] = [0, 1_001, 1_002, 1_024, 2_000, 65_536, 65_537, 66_000];

impl Decoding {
    pub(super) fn limits(&mut self, rounds: usize) {
        self.begin("limits", &[0, 11, 12, 16]);
        for _ in 0..rounds {
            let (voice, lexicon) = self.small_images();
            let pair = Pair::of(voice.bytes(), lexicon.bytes());
            let symbols = voice.symbols.into();
            self.numbers_of_frames(&pair, symbols);
            self.symbols(&pair, symbols);
            self.numbers_of_hits(&pair);
            self.lengths_of_output(&pair);
        }
    }

    /// Both sides of 400 nodes, 1,000 places, 32 letters and 1,048,576 words: every call checks anew.
    pub(super) fn limits_of_images(&mut self) {
        self.begin("limits of images", &[0, 5, 7, 8, 9]);
        for (nodes, known) in [(399, 0), (400, 0), (401, 5)] {
            self.long_chains(nodes, 64, 1, known);
        }
        for (nodes, known) in [(249, 0), (250, 0), (251, 7)] {
            self.long_chains(nodes, 8, 4, known);
        }
        for (length, known) in [(31, 0), (32, 0), (33, 8), (34, 8)] {
            let mut sketch = Sketch::new();
            let word = draw::word(&mut self.random, 8, length);
            sketch.chain(ROOT, &word, SINK);
            sketch.chain(ROOT, &word[..1], SINK);
            self.call_sketch(&sketch, 8, 4, known);
        }
        // the last ones are 2^32 words and 5, and far more than 64 bits can count
        let many: [(&[usize], usize, i32); 5] = [
            (&[4; 10], 0, 0),
            (&[4; 10], 1, 9),
            (&[2; 21], 0, 9),
            (&[2; 32], 5, 9),
            (&[11; 32], 0, 9),
        ];
        for (widths, beside, known) in many {
            self.call_sketch(&draw::so_many_words(widths, beside), 64, 1, known);
        }
    }

    fn long_chains(&mut self, nodes: usize, letters: usize, states: u8, known: i32) {
        let mut sketch = Sketch::new();
        draw::fill_up(&mut self.random, &mut sketch, nodes, letters);
        self.call_sketch(&sketch, letters, states, known);
    }

    /// Every n, with frames for which words have state paths.
    fn call_sketch(&mut self, sketch: &Sketch, letters: usize, states: u8, known: i32) {
        let mut voice = draw::voice_of(&mut self.random, &vec![states; letters], 2);
        scores::set_all(&mut voice, -1, -2);
        let lexicon = sketch.lexicon(&mut self.random);
        let pair = Pair::of(voice.bytes(), lexicon.bytes());
        let many = pair
            .images
            .as_ref()
            .is_ok_and(|images| images.words.len() > 1_000);
        for n in if many { 8..=8 } else { 1..=8 } {
            let frames = self.frames_for(&pair);
            self.call_made_for(known, &pair, pair.call(&frames, n));
        }
    }

    /// The call is made for a refusal, 0 for none.
    fn call_made_for(&mut self, number: i32, pair: &Pair, call: Call) {
        let refusal = self.call(&pair.images, call).err().unwrap_or(0);
        if refusal != number {
            self.difference(&format!(
                "the reference says {refusal} to a call made for {number}"
            ));
        }
    }

    fn numbers_of_frames(&mut self, pair: &Pair, symbols: usize) {
        for length in [1, 2, 3, 254, 255, 256, 257, 998, 999, 1_000] {
            let frames = self.any_frames(length, symbols);
            let n = self.random.between(1, 8) as u32;
            self.call_made_for(0, pair, pair.call(&frames, n));
        }
        for length in WRONG_T {
            let frames = self.any_frames(length, symbols);
            let n = self.random.between(1, 8) as u32;
            self.call_made_for(11, pair, pair.call(&frames, n));
            self.call_made_for(11, pair, pair.call(&frames, 9));
        }
        // lent but in part
        let frames = self.any_frames(1_100, symbols);
        for length in [0, 1, 5, 999, 1_000, 1_001] {
            let mut call = pair.call(&frames, 2);
            call.frames = cut(&frames, length);
            let known = if (1..=1_000).contains(&length) { 0 } else { 11 };
            self.call_made_for(known, pair, call);
        }
    }

    /// A symbol that is in range, or the first that is not, or the last, at any frame.
    fn symbols(&mut self, pair: &Pair, symbols: usize) {
        for length in [1, 2, 9, 1_000] {
            let frames = self.any_frames(length, symbols);
            for at in [0, length / 2, length - 1] {
                for symbol in [symbols - 1, symbols, 127, 128, 255] {
                    let mut frames = frames.clone();
                    frames[at] = symbol as u8;
                    let known = if symbol < symbols { 0 } else { 11 };
                    let n = self.random.between(1, 8) as u32;
                    self.call_made_for(known, pair, pair.call(&frames, n));
                }
            }
        }
    }

    fn numbers_of_hits(&mut self, pair: &Pair) {
        let frames = self.frames_for(pair);
        for n in 1..=8 {
            self.call_made_for(0, pair, pair.call(&frames, n));
        }
        for n in WRONG_N {
            for out_length in [0, 8, 64, 72, 800] {
                let mut call = pair.call(&frames, n);
                call.out_length = out_length;
                self.call_made_for(12, pair, call);
            }
        }
    }

    /// 8 × n bytes whatever is found: one less is refused, more keep their values.
    fn lengths_of_output(&mut self, pair: &Pair) {
        for n in 1..=8 {
            let frames = self.frames_for(pair);
            let least = 8 * n as usize;
            for length in [0, 1, 7, 8, 56, 63, least - 8, least - 1] {
                if length < least {
                    let mut call = pair.call(&frames, n);
                    call.out_length = length;
                    self.call_made_for(16, pair, call);
                }
            }
            for more in [0, 1, 7, 8, 9, 64, 1_000] {
                let mut call = pair.call(&frames, n);
                call.out_length = least + more;
                self.call_made_for(0, pair, call);
            }
        }
    }
}

impl Decoding {
    /// Any set of all conditions, and each with each other one.
    pub(super) fn several_at_once(&mut self, calls: usize) {
        self.begin("several at once", &ALL);
        for first in &ALL[1..] {
            for second in &ALL[1..] {
                for _ in 0..8 {
                    self.call_with_conditions(1 << first | 1 << second);
                }
            }
        }
        for _ in 0..calls {
            let all = 1 << 17;
            let several = self.random.below(all) & self.random.below(all);
            let fewer = several & self.random.below(all);
            self.call_with_conditions(fewer);
        }
    }

    /// A call to which conditions apply as wanted, or most of them: bit k of `several` stands for number k.
    fn call_with_conditions(&mut self, several: usize) {
        let has = |number: usize| several >> number & 1 == 1;
        let (voice, lexicon) = faulty_images(&mut self.random, several >> 2 & 0x1ff);
        let pair = Pair::of(voice, lexicon);
        let mut frames = self.frames_for(&pair);
        if has(11) {
            match self.random.below(3) {
                0 => frames.clear(),
                1 => frames.resize(*self.random.pick(&WRONG_T), 0),
                _ => *self.random.pick_mut(&mut frames) = 64,
            }
        }
        let right = self.random.between(1, 8) as u32;
        let wrong = *self.random.pick(&WRONG_N);
        let n = if has(12) { wrong } else { right };
        let mut call = pair.call(&frames, n);
        if has(16) {
            call.out_length = self.random.below(call.out_length.max(1));
        }
        if has(1) {
            call.work_length = self.random.below(WORK_SPACE);
        }
        self.call(&pair.images, call).ok();
    }
}

impl Decoding {
    /// Images and frames cut at every length, with what was cut off behind them in memory.
    pub(super) fn every_length(&mut self, pairs: usize) {
        self.begin("every length", &[0, 2, 4, 11]);
        for _ in 0..pairs {
            let (voice, lexicon) = self.small_images();
            let pair = Pair::of(voice.bytes(), lexicon.bytes());
            let frames = self.frames_for(&pair);
            let n = self.random.between(1, 8) as u32;
            let call = pair.call(&frames, n);
            for length in 0..pair.voice.len().min(300) {
                let mut call = call;
                call.voice = cut(&pair.voice, length);
                let images = Images::of(call.voice.bytes, call.lexicon.bytes);
                self.call(&images, call).ok();
            }
            for length in 0..pair.lexicon.len() {
                let mut call = call;
                call.lexicon = cut(&pair.lexicon, length);
                let images = Images::of(call.voice.bytes, call.lexicon.bytes);
                self.call(&images, call).ok();
            }
            for length in 0..=frames.len() {
                let mut call = call;
                call.frames = cut(&frames, length);
                self.call(&pair.images, call).ok();
            }
        }
    }

    /// Every kind of answer with work spaces of every length.
    pub(super) fn work_spaces(&mut self, pairs: usize) {
        self.begin("work spaces", &ALL);
        for k in 0..pairs {
            let condition = ALL[k % ALL.len()];
            let of_images = 1 << condition >> 2 & 0x1ff;
            let (voice, lexicon) = faulty_images(&mut self.random, of_images);
            let pair = Pair::of(voice, lexicon);
            let mut frames = self.frames_for(&pair);
            if condition == 11 {
                frames.clear();
            }
            let n = if condition == 12 { 9 } else { 1 + k as u32 % 8 };
            let mut call = pair.call(&frames, n);
            if condition == 16 {
                call.out_length -= 1;
            }
            for length in work::LENGTHS {
                call.work_length = length;
                let refusal = self.call(&pair.images, call).err();
                if length < WORK_SPACE && refusal != Some(1) {
                    self.difference("the reference does not say 1");
                }
            }
        }
    }

    /// Bytes that are no images at all: none, few, or many.
    pub(super) fn any_bytes(&mut self, calls: usize) {
        self.begin("any bytes", &[1, 2, 3, 4, 5]);
        for _ in 0..calls {
            let most = *self.random.pick(&[1, 4, 20, 5_000]);
            let (first, second) = (self.random.below(most), self.random.below(most));
            let voice = if self.random.once_in(3) {
                self.random.bytes(first)
            } else {
                small_voice().bytes()
            };
            let mut lexicon = self.random.bytes(second);
            if self.random.once_in(2) {
                lexicon.iter_mut().for_each(|byte| *byte %= 4);
            }
            let pair = Pair::of(voice, lexicon);
            let mut call = pair.call(&[0, 2], 3);
            call.work_length = self.work.any_length(&mut self.random);
            self.call(&pair.images, call).ok();
        }
    }
}
