//! Both sides of the limits on the list and on its canonical image, and images near them, with the refusal known from
//! how the lexicon was made.

use super::graphs::{self, Fan};
use super::reference::Words;
use super::{Canonical, Images};
use crate::draw;
use crate::reference::read_lexicon;
use crate::sketch::{Sketch, ROOT, SINK};
use std::cmp::Reverse;

fn letters_of(words: &Words) -> usize {
    words.iter().map(Vec::len).sum()
}

impl Canonical {
    /// 2,000 words and 16,000 letters.
    pub(super) fn limits_of_lists(&mut self, rounds: usize) {
        self.counts.begin("limits of lists", &[0, 17]);
        for _ in 0..rounds {
            for count in [1_990, 1_999, 2_000, 2_001, 2_002, 2_010, 2_047] {
                let words = self.so_many_words(count);
                self.call_list(if count > 2_000 { 17 } else { 0 }, &words);
            }
            for letters in [15_999, 16_000, 16_001, 16_002, 16_383, 16_384, 16_640] {
                let words = self.so_many_letters(letters);
                self.call_list(if letters > 16_000 { 17 } else { 0 }, &words);
            }
        }
        // widths of layers, words of one letter beside them, and the refusal: both limits reached at once, passed alone
        // and together, and numbers that are small if they are cut off at 8 or 16 bits
        let layers: [(&[usize], usize, i32); 14] = [
            (&[10, 10, 20], 0, 0),
            (&[10, 10, 20], 1, 17),
            (&[50, 40], 0, 0),
            (&[50, 40], 1, 17),
            (&[2, 2, 2, 2, 5, 5, 5, 1], 0, 0),
            (&[2, 2, 2, 2, 5, 5, 5, 1], 1, 17),
            (&[8, 16, 16], 0, 17),
            (&[16, 16, 16], 1, 17),
            (&[2; 16], 0, 17),
            (&[2; 16], 2, 17),
            (&[16; 5], 0, 17),
            (&[1; 32], 0, 0),
            (&[2; 10], 0, 0),
            (&[5, 10, 40, 1, 1, 1, 1, 1, 1, 1, 1, 1, 1], 0, 17),
        ];
        for (widths, beside, known) in layers {
            self.call_sketch(known, &draw::so_many_words(widths, beside));
        }
        for (last, beside, known) in [(5, 0, 0), (5, 1, 17), (4, 50, 0), (6, 0, 17), (20, 0, 17)] {
            // so many hundred words of 32 letters
            let widths = [&[10, 10, last][..], &[1; 29]].concat();
            self.call_sketch(known, &draw::so_many_words(&widths, beside));
        }
    }

    /// So many words, and not too many letters.
    fn so_many_words(&mut self, count: usize) -> Words {
        let counts = [[13, 13, 13], [5, 21, 20], [40, 7, 8], [8, 8, 32]];
        loop {
            let counts = *self.random.pick(&counts);
            let longest = self.random.between(2, 3);
            let mut row = graphs::composed(&mut self.random, counts, longest);
            row.truncate(count - self.random.below(12));
            let mut words: Words = row.into_iter().collect();
            let missing = count - words.len();
            graphs::add_words(&mut words, missing);
            if letters_of(&words) <= 16_000 {
                return words;
            }
        }
    }

    /// So many letters, of not too many words.
    fn so_many_letters(&mut self, letters: usize) -> Words {
        let counts = [[14, 9, 8], [8, 12, 11], [16, 8, 8], [9, 10, 12]];
        let counts = *self.random.pick(&counts);
        let row = graphs::composed(&mut self.random, counts, 10);
        let mut words = Words::new();
        let mut left = letters;
        for word in row {
            if left < 500 {
                break;
            }
            left -= word.len();
            words.insert(word);
        }
        graphs::add_letters(&mut words, left);
        assert_eq!(letters_of(&words), letters);
        words
    }

    /// The smallest graph of the list, and one with nodes split.
    fn call_list(&mut self, known: i32, words: &Words) {
        let row: Vec<Vec<u8>> = words.iter().cloned().collect();
        let mut sketch = Sketch::of_words(&row);
        self.call_sketch(known, &sketch);
        for _ in 0..self.random.below(60) {
            if sketch.nodes() < 400 {
                sketch.split(&mut self.random);
            }
        }
        self.call_sketch(known, &sketch);
    }

    /// With an output that is long enough; then with one that is not, where 17 and 18 come before 16.
    fn call_sketch(&mut self, known: i32, sketch: &Sketch) {
        let voice = draw::voice_of(&mut self.random, &[1; 64], 1);
        let images = Images::of(&voice, &sketch.lexicon(&mut self.random));
        self.call_in_both_outputs(known, &images);
    }

    fn call_in_both_outputs(&mut self, known: i32, images: &Images) {
        self.call_for(known, images);
        let mut room = images.room();
        room.out = self.random.below(images.length().max(1));
        let answer = self.call(images, room);
        self.hold_reference_to(if known == 0 { 16 } else { known }, answer);
    }
}

/// A graph, and the letters of its canonical image's nodes.
struct Known {
    sketch: Sketch,
    letters: Vec<u8>,
}

impl Known {
    /// Adds words of nodes that nothing else shares, each of one letter from 60 on, so many nodes.
    fn fill_up(&mut self, nodes: usize) {
        let mut left = nodes;
        for letter in 60..64 {
            let length = left.min(32);
            if length > 0 {
                let word = vec![letter; length];
                self.sketch.chain(ROOT, &word, SINK);
                self.letters.extend(word);
                left -= length;
            }
        }
        assert_eq!(left, 0);
    }

    fn places(&self, states: &[u8]) -> usize {
        let of_node = |letter: &u8| usize::from(states[usize::from(*letter)]);
        self.letters.iter().map(of_node).sum()
    }
}

impl Canonical {
    /// 400 nodes and 1,000 places, of lexicons that have far fewer; arcs never come near 4,000, as they are at most
    /// nodes and words together.
    pub(super) fn limits_of_images(&mut self, rounds: usize) {
        self.counts.begin("limits of images", &[0, 16, 17, 18]);
        for _ in 0..rounds {
            for nodes in [398, 399, 400, 401, 402, 512, 640] {
                let known = self.so_many_nodes(nodes);
                let refusal = if nodes > 400 { 18 } else { 0 };
                self.call_known(refusal, &known, &[1; 64]);
                self.with_too_many_words(&known);
            }
            for places in [998, 999, 1_000, 1_001, 1_002, 1_024, 1_200] {
                let mut states = [1; 64];
                for of_letter in &mut states[..60] {
                    *of_letter = *self.random.pick(&[2, 3, 4, 4, 4]);
                }
                let known = self.so_many_places(places, &states);
                self.call_known(if places > 1_000 { 18 } else { 0 }, &known, &states);
            }
            self.by_the_reference();
        }
        // both limits at once: 400 nodes and 1,000 places, one node more, one place more
        for (nodes, more) in [(400, 0), (400, 1), (401, 0), (401, 1), (399, 0), (399, 1)] {
            self.nodes_and_places(nodes, 1_000 + more);
        }
    }

    /// A fan with at most so many places in its canonical image, and not many fewer where it can be.
    fn fan(&mut self, most: usize, states: &[u8]) -> Known {
        let ends = self.random.between(3, 6);
        let length = self.random.between(3, 30);
        let mut beginnings = ((1 << ends) - 1).min(39);
        loop {
            let fan = Fan::draw(&mut self.random, length, ends, beginnings);
            let mut sketch = Sketch::new();
            fan.add_to(&mut sketch);
            let letters = fan.canonical_letters();
            let known = Known { sketch, letters };
            if known.places(states) <= most || beginnings == 1 {
                return known;
            }
            beginnings -= 1;
        }
    }

    /// So many nodes, in a lexicon of at most 400.
    fn so_many_nodes(&mut self, nodes: usize) -> Known {
        loop {
            let known = self.filled_up(nodes, &[1; 64]);
            if known.sketch.nodes() <= 400 {
                return known;
            }
        }
    }

    /// So many places of at most 400 nodes, in a lexicon of at most 250.
    fn so_many_places(&mut self, places: usize, states: &[u8]) -> Known {
        loop {
            let known = self.filled_up(places, states);
            if known.letters.len() <= 400 && known.sketch.nodes() <= 250 {
                return known;
            }
        }
    }

    /// A fan and words of letters of one state, with so many places together.
    fn filled_up(&mut self, places: usize, states: &[u8]) -> Known {
        loop {
            let mut known = self.fan(places, states);
            let count = known.places(states);
            if (places - 128..=places).contains(&count) {
                known.fill_up(places - count);
                return known;
            }
        }
    }

    /// So many nodes with so many places: letters have two states, and some have more.
    fn nodes_and_places(&mut self, nodes: usize, places: usize) {
        let known = self.so_many_nodes(nodes);
        let uses = |letter: &u8| known.letters.iter().filter(|l| *l == letter).count();
        let mut used: Vec<u8> = (0..64).filter(|letter| uses(letter) > 0).collect();
        used.sort_by_key(|letter| Reverse(uses(letter)));
        let mut states = [2; 64];
        for letter in used {
            let more = (places - known.places(&states)) / uses(&letter);
            states[usize::from(letter)] += more.min(2) as u8;
        }
        assert_eq!(known.places(&states), places);
        let refused = nodes > 400 || places > 1_000;
        self.call_known(if refused { 18 } else { 0 }, &known, &states);
    }

    fn call_known(&mut self, refusal: i32, known: &Known, states: &[u8]) {
        let voice = draw::voice_of(&mut self.random, states, 1);
        let images = Images::of(&voice, &known.sketch.lexicon(&mut self.random));
        self.call_in_both_outputs(refusal, &images);
    }

    /// 17 comes before 18: the same with 2,197 words of three letters beside it.
    fn with_too_many_words(&mut self, known: &Known) {
        let mut sketch = known.sketch.clone();
        if sketch.nodes() + 39 <= 400 {
            sketch.layers(&[13, 13, 13], 47);
            self.call_sketch(17, &sketch);
        }
    }

    /// Lists joined from their ends, at random: the reference says what is due.
    fn by_the_reference(&mut self) {
        for _ in 0..12 {
            let longest = self.random.between(4, 28);
            let count = self.random.between(10, 60);
            let words = graphs::some_of_each(&mut self.random, count, longest);
            let sketch = Sketch::from_the_end(&words);
            if sketch.nodes() <= 400 {
                let voice = draw::voice_of(&mut self.random, &[1; 64], 1);
                let images = Images::of(&voice, &sketch.lexicon(&mut self.random));
                self.call(&images, images.room());
            }
        }
    }

    /// Lists of some hundred to 2,000 words, in several graphs, read back.
    pub(super) fn large(&mut self, rounds: usize) {
        self.counts.begin("large", &[0]);
        for k in 0..rounds {
            let words = match k % 4 {
                0 => self.so_many_words(2_000),
                1 => self.so_many_letters(16_000),
                2 => self.words_of(&draw::trees(36)),
                _ => self.dense(),
            };
            let voice = draw::voice_of(&mut self.random, &[1; 64], 1);
            let row: Vec<Vec<u8>> = words.iter().cloned().collect();
            let mut sketch = Sketch::of_words(&row);
            for _ in 0..4 {
                let images = Images::of(&voice, &sketch.lexicon(&mut self.random));
                let image = self.written(&images);
                self.read_back(&voice, &image, &words);
                while sketch.nodes() < 400 && !self.random.once_in(30) {
                    sketch.split(&mut self.random);
                }
            }
        }
    }

    fn words_of(&mut self, sketch: &Sketch) -> Words {
        let lexicon = sketch.lexicon(&mut self.random).bytes();
        let lexicon = read_lexicon(&lexicon, 64).expect("fields in order");
        let paths = lexicon.full_paths();
        paths.iter().map(|path| lexicon.spelling(path)).collect()
    }

    /// Many arcs, and as many words as there may be.
    fn dense(&mut self) -> Words {
        loop {
            let arcs = self.random.between(700, 1_100);
            let sketch = draw::dense(&mut self.random, 300, arcs);
            let words = self.words_of(&sketch);
            if words.len() <= 2_000 && letters_of(&words) <= 16_000 {
                return words;
            }
        }
    }
}
