//! Decoding at its limits: large lexicons, many frames, very many words, and the extreme scores.

use super::{scores, Decoding, Pair};
use crate::draw;
use crate::image::{Lexicon, Voice};
use crate::sketch::{Sketch, ROOT, SINK};

/// The highest score: 1,000 emissions and 999 moves of 32,767 each.
const HIGHEST: i64 = 65_501_233;

/// So many steps of the word-by-word decoder are enough for one call, and so many for a few.
const STEPS: usize = 2_000_000;
const MANY_STEPS: usize = 40_000_000;

impl Decoding {
    /// Up to 400 nodes, 1,000 places, 3,900 arcs, 1,000 frames.
    pub(super) fn large(&mut self, rounds: usize) {
        self.begin("large", &[0]);
        for _ in 0..rounds {
            let random = &mut self.random;
            let nodes = random.between(200, 400);
            let arcs = random.between(3 * nodes, 39 * nodes / 4);
            let width = random.between(4, 30);
            let sketches = [
                draw::dense(random, nodes, arcs),
                draw::trees(width),
                self.long_words(),
                self.list_of_words(),
            ];
            for sketch in sketches {
                let (voice, lexicon) = self.images_with_places(&sketch);
                let pair = Pair::of(voice.bytes(), lexicon.bytes());
                for n in 1..=8 {
                    let frames = self.many_frames(&pair);
                    self.call_accepted(&pair, &frames, n);
                }
            }
        }
    }

    /// Every number of frames from 1 to 1,000.
    pub(super) fn every_number_of_frames(&mut self, pairs: usize) {
        self.begin("every T", &[0]);
        for _ in 0..pairs {
            let (voice, lexicon) = self.small_images();
            let pair = Pair::of(voice.bytes(), lexicon.bytes());
            for length in 1..=1_000 {
                let frames = self.any_frames(length, voice.symbols.into());
                let n = self.random.between(1, 8) as u32;
                self.call_accepted(&pair, &frames, n);
            }
        }
    }

    fn call_accepted(&mut self, pair: &Pair, frames: &[u8], n: u32) {
        if let Err(number) = self.call(&pair.images, pair.call(frames, n)) {
            self.difference(&format!("the reference says {number} to images made for 0"));
        }
    }

    /// Words of their own nodes, each of 20 to 32 letters.
    fn long_words(&mut self) -> Sketch {
        let mut sketch = Sketch::new();
        let nodes = self.random.between(100, 400);
        let letters = self.random.between(2, 64);
        draw::fill_up(&mut self.random, &mut sketch, nodes, letters);
        sketch
    }

    /// The graph of some hundred words.
    fn list_of_words(&mut self) -> Sketch {
        loop {
            let letters = self.random.between(2, 26);
            let words = draw::word_list(&mut self.random, letters, 150, 9);
            let mut sketch = Sketch::of_words(&words);
            for _ in 0..self.random.below(20) {
                sketch.split(&mut self.random);
            }
            if sketch.nodes() <= 400 {
                return sketch;
            }
        }
    }

    /// As many states as go into 1,000 places, with any scores.
    fn images_with_places(&mut self, sketch: &Sketch) -> (Voice, Lexicon) {
        let letters = usize::from(*sketch.letters.iter().max().unwrap_or(&0)) + 1;
        let lexicon = sketch.lexicon(&mut self.random);
        loop {
            let random = &mut self.random;
            let mut states: Vec<u8> = (0..letters).map(|_| random.between(1, 4) as u8).collect();
            let places = |states: &[u8]| -> usize {
                let of_node = |letter: &u8| usize::from(states[usize::from(*letter)]);
                lexicon.letters.iter().map(of_node).sum()
            };
            while places(&states) > 1_000 {
                let fewer = random.pick_mut(&mut states);
                *fewer = (*fewer - 1).max(1);
            }
            let symbols = random.between(1, 64);
            let mut voice = draw::voice_of(random, &states, symbols);
            scores::draw(random, &mut voice);
            // most often some word has a state path
            let impossible = voice.emissions.iter().filter(|e| **e == i16::MIN).count();
            if 20 * impossible < voice.emissions.len() || random.once_in(20) {
                return (voice, lexicon);
            }
        }
    }

    /// As many as the word-by-word decoder can afford.
    fn many_frames(&mut self, pair: &Pair) -> Vec<u8> {
        let Ok(images) = &pair.images else {
            return Vec::new();
        };
        let states: usize = images.words.iter().map(|word| images.states_of(word)).sum();
        let steps = if self.random.once_in(40) {
            MANY_STEPS
        } else {
            STEPS
        };
        let most = (steps / states).clamp(50, 1_000);
        let length = match self.random.below(3) {
            0 => most,
            1 => self.random.between(1, most),
            _ => self.random.between(most / 2, most),
        };
        self.any_frames(length, images.symbols)
    }
}

impl Decoding {
    /// The highest and the lowest score, and -32,768 as a sum.
    pub(super) fn extremes(&mut self, rounds: usize) {
        self.begin("extremes", &[0]);
        for k in 0..rounds {
            let (mut voice, lexicon) = self.small_images();
            for (score, extreme) in [(32_767, HIGHEST), (-32_767, -HIGHEST)] {
                scores::set_all(&mut voice, score, score);
                self.hold_to_score(&voice, &lexicon, 1_000, extreme);
                self.hold_to_score(&voice, &lexicon, 999, extreme - 2 * i64::from(score));
            }
            scores::set_all(&mut voice, 0, -16_384);
            self.hold_to_score(&voice, &lexicon, 200, -200 * 16_384);
            // on the way through a long path, and at its end
            scores::set_all(&mut voice, 0, -512);
            self.hold_to_score(&voice, &lexicon, 64, -32_768);
            self.hold_to_score(&voice, &lexicon, 64 + k, -32_768 - 512 * k as i64);
            scores::set_all(&mut voice, -512, 0);
            self.hold_to_score(&voice, &lexicon, 65, -32_768);
            scores::set_all(&mut voice, 1, -1);
            self.hold_to_score(&voice, &lexicon, 70 + k, -1);
        }
        for (moves, emissions) in [(-32_767, -1), (-1, -32_767), (0, -16_384), (-32_766, -1)] {
            self.two_frames(moves, emissions);
        }
    }

    /// All state paths of so many frames have this score, so the list has the lowest codes.
    fn hold_to_score(&mut self, voice: &Voice, lexicon: &Lexicon, length: usize, score: i64) {
        let pair = Pair::of(voice.bytes(), lexicon.bytes());
        let words = pair.images.as_ref().map_or(0, |images| images.words.len());
        let n = self.random.between(1, 8);
        let known: Vec<(i64, u32)> = (0..n.min(words)).map(|code| (score, code as u32)).collect();
        let frames = self.any_frames(length, voice.symbols.into());
        self.call_for(Ok(&known), &pair, pair.call(&frames, n as u32));
    }

    /// Words of one and two states and one or two letters.
    fn two_frames(&mut self, moves: i16, emissions: i16) {
        let mut sketch = Sketch::new();
        for word in [&[0][..], &[1], &[0, 0]] {
            sketch.chain(ROOT, word, SINK);
        }
        let mut voice = draw::voice_of(&mut self.random, &[1, 2], 1);
        scores::set_all(&mut voice, moves, emissions);
        // 'a' is spelled by one node alone
        let lexicon = sketch.lexicon(&mut self.random);
        let score = i64::from(moves) + 2 * i64::from(emissions);
        self.hold_to_score(&voice, &lexicon, 2, score);
    }

    /// Codes up to 1,048,575, and up to 65,535: now with few scores and many ties, now with any.
    pub(super) fn very_many_words(&mut self) {
        self.begin("very many words", &[0]);
        let shapes: [(&[usize], usize); 7] = [
            (&[32; 4], 4),
            (&[32; 4], 2_000),
            (&[32; 4], 32_767),
            (&[16; 5], 4),
            (&[16; 5], 32_767),
            (&[4; 10], 500),
            (&[2; 16], 3),
        ];
        for (widths, scores) in shapes {
            let sketch = draw::so_many_words(widths, 0);
            let mut voice = draw::voice_of(&mut self.random, &vec![1; widths[0]], 8);
            for emission in &mut voice.emissions {
                *emission = -(self.random.below(scores) as i16);
            }
            voice.links.fill_with(|| -1 - self.random.below(3) as i16);
            voice.moves.fill([-2, 0]);
            let lexicon = sketch.lexicon(&mut self.random);
            let pair = Pair::of(voice.bytes(), lexicon.bytes());
            for n in [8, 8, 4, 1] {
                let frames = self.any_frames(widths.len() + 1, 8);
                self.call_accepted(&pair, &frames, n);
            }
        }
    }
}
