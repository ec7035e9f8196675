//! Lists of every kind that the images do not refuse: any items, any number of them, any length, cut anywhere.

use super::{call_with, list_of, Call, Images, Stock};
use crate::buffers::cut;
use crate::draw;
use crate::ways::{self, Graph};

/// Numbers of items that are answered.
const NUMBERS: [usize; 14] = [0, 1, 2, 3, 7, 8, 255, 256, 257, 511, 512, 998, 999, 1_000];
/// Too many items, though some of them are not where a number is cut to 8, 10 or 16 bits.
const TOO_MANY: [usize; 10] = [
    1_001, 1_002, 1_023, 1_024, 1_025, 1_280, 2_000, 65_535, 65_537, 66_536,
];

impl Stock {
    /// An accepted lexicon of at most some hundred words.
    pub(super) fn accepted(&mut self) -> Images {
        loop {
            let random = &mut self.random;
            let sketch = draw::any_words(random);
            let voice = draw::voice_for(random, &sketch);
            let images = Images::of(&voice, &sketch.lexicon(random));
            if images.words.is_ok() {
                return images;
            }
        }
    }

    /// Up to 40 items of every kind.
    pub(super) fn any_lists(&mut self, lexicons: usize) {
        self.counts.begin("any list", &[0]);
        let mut other = self.accepted();
        for _ in 0..lexicons {
            let images = self.accepted();
            let count = self.random.below(41);
            let list = list_of(&self.any_items(&images, &other, count));
            self.call_for(count as i32, &images, &list);
            other = images;
        }
    }

    /// Lexicons in which a letter leads on in several ways: words, and items that lead astray, in any order.
    pub(super) fn several_ways(&mut self, lexicons: usize) {
        self.counts.begin("several ways", &[0]);
        for _ in 0..lexicons {
            let (images, graph) = self.accepted_with_ways();
            let mut items = Vec::new();
            for _ in 0..self.random.between(20, 60) {
                let (word, other) = (
                    images.any_word(&mut self.random),
                    images.any_word(&mut self.random),
                );
                items.push(match self.random.below(2) {
                    0 => word,
                    _ => graph.astray(&mut self.random, &word, &other),
                });
            }
            items.iter().for_each(|item| self.backs.add(&graph, item));
            self.call_for(items.len() as i32, &images, &list_of(&items));
        }
    }

    fn accepted_with_ways(&mut self) -> (Images, Graph) {
        loop {
            let sketch = ways::graph(&mut self.random);
            let voice = draw::voice_for(&mut self.random, &sketch);
            let images = Images::of(&voice, &sketch.lexicon(&mut self.random));
            if let (Ok(_), Some(graph)) = (&images.words, Graph::of(&images.voice, &images.lexicon))
            {
                return (images, graph);
            }
        }
    }

    /// Both sides of 1,000 items, and far from it: items of length 0, one word again and again, any.
    pub(super) fn numbers_of_items(&mut self, lexicons: usize) {
        self.counts.begin("numbers of items", &[0, 19]);
        for _ in 0..lexicons {
            let images = self.accepted();
            let word = images.any_word(&mut self.random);
            for count in [&NUMBERS[..], &TOO_MANY].concat() {
                let known = if count > 1_000 { -19 } else { count as i32 };
                self.call_for(known, &images, &vec![0; count]);
                self.call_for(known, &images, &list_of(&vec![&word; count]));
                let items = self.any_items(&images, &images, count);
                self.call_for(known, &images, &list_of(&items));
            }
            self.about_the_last(&images);
        }
    }

    /// 1,000 items and a byte more, the last one cut, and 1,001 of which so much is lent that 1,000 are left.
    fn about_the_last(&mut self, images: &Images) {
        let mut items = self.any_items(images, images, 1_001);
        items[999] = images.any_word(&mut self.random);
        items[1_000] = images.any_word(&mut self.random);
        let list = list_of(&items);
        let end = list_of(&items[..1_000]).len();
        for length in [end - 1, end, end + 1, list.len()] {
            let call = Call {
                list: cut(&list, length),
                ..call_with(&list)
            };
            let answer = self.call(images, call);
            self.hold_reference_to(if length == end { 1_000 } else { -19 }, answer);
        }
        for byte in [0, 1, 255] {
            self.call_for(-19, images, &[&list[..end], &[byte]].concat());
        }
    }

    /// Items of every length between two words: one word again and again, one and zeros, or words joined, cut to that
    /// length.
    pub(super) fn lengths(&mut self, lexicons: usize) {
        self.counts.begin("lengths", &[0]);
        for _ in 0..lexicons {
            let images = self.accepted();
            for length in 0..=255 {
                let word = images.any_word(&mut self.random);
                let mut item = match self.random.below(3) {
                    0 => word.repeat(255),
                    1 => [&word[..], &[0; 255]].concat(),
                    _ => (0..255)
                        .flat_map(|_| images.any_word(&mut self.random))
                        .collect(),
                };
                item.truncate(length);
                let (first, last) = (word, images.any_word(&mut self.random));
                self.call_for(3, &images, &list_of(&[first, item, last]));
            }
        }
    }

    /// Every byte as an item of its own, and in the place of a word's letter.
    pub(super) fn every_byte(&mut self, lexicons: usize) {
        self.counts.begin("every byte", &[0]);
        for _ in 0..lexicons {
            let images = self.accepted();
            let alone: Vec<[u8; 1]> = (0..=255).map(|byte| [byte]).collect();
            self.call_for(256, &images, &list_of(&alone));
            let word = images.any_word(&mut self.random);
            let place = self.random.below(word.len());
            let changed = |byte| [&word[..place], &[byte], &word[place + 1..]].concat();
            let inside: Vec<Vec<u8>> = (0..=255).map(changed).collect();
            self.call_for(256, &images, &list_of(&inside));
        }
    }

    /// Lists cut at every byte, with what was cut off behind them in memory; and lists in which one item is said to be
    /// longer: by one, to the end of the list, by one more than that, or as long as can be.
    pub(super) fn cut_lists(&mut self, lexicons: usize) {
        self.counts.begin("cut lists", &[0, 19]);
        for _ in 0..lexicons {
            let images = self.accepted();
            let count = self.random.between(1, 10);
            let items = self.any_items(&images, &images, count);
            let list = list_of(&items);
            // where the list of the first so many items ends
            let ends: Vec<usize> = (0..=count).map(|k| list_of(&items[..k]).len()).collect();
            for length in 0..=list.len() {
                let call = Call {
                    list: cut(&list, length),
                    ..call_with(&list)
                };
                let answer = self.call(&images, call);
                let whole_items = ends.iter().position(|end| *end == length);
                self.hold_reference_to(whole_items.map_or(-19, |k| k as i32), answer);
            }
            for (k, at) in ends[..count].iter().enumerate() {
                self.longer_item(&images, &list, k, *at);
            }
        }
    }

    /// Item k, whose length stands at this byte.
    fn longer_item(&mut self, images: &Images, list: &[u8], k: usize, at: usize) {
        let (length, left) = (usize::from(list[at]), list.len() - at - 1);
        for longer in [length + 1, left, left + 1, 255] {
            let mut changed = list.to_vec();
            changed[at] = longer.min(255) as u8;
            let answer = self.call(images, call_with(&changed));
            if longer == left && left <= 255 {
                self.hold_reference_to(k as i32 + 1, answer);
            } else if longer == left + 1 && left < 255 {
                self.hold_reference_to(-19, answer);
            }
        }
    }
}
