//! Lexicons near the limits, up to 1,048,576 words, 400 nodes, 4,000 arcs and 32 letters, and long lists for them.

use super::{list_of, Images, Stock};
use crate::draw;
use crate::sketch::Sketch;

/// Items of each list.
const ITEMS: usize = 300;

impl Stock {
    pub(super) fn large(&mut self) {
        self.counts.begin("large", &[0]);
        for sketch in self.large_sketches() {
            let voice = draw::voice_of(&mut self.random, &[2; 64], 3);
            let images = Images::of(&voice, &sketch.lexicon(&mut self.random));
            let mut items = self.any_items(&images, &images, ITEMS);
            if let Ok(words) = &images.words {
                // the first and the last code
                items.push(words.word(0).to_vec());
                items.push(words.word(words.count() - 1).to_vec());
            }
            self.call_for(items.len() as i32, &images, &list_of(&items));
        }
    }

    fn large_sketches(&mut self) -> Vec<Sketch> {
        let mut split = draw::so_many_words(&[3, 11, 31, 25], 1);
        for _ in 0..60 {
            split.split(&mut self.random);
        }
        let mut long = Sketch::new();
        let widths: Vec<usize> = (0..32).map(|k| 1 + k % 2).collect();
        long.layers(&widths, 0);
        vec![
            draw::so_many_words(&[2; 20], 0),
            draw::so_many_words(&[3, 11, 31, 25, 41], 1),
            draw::trees(58),
            draw::dense(&mut self.random, 400, 4_000),
            split,
            long,
        ]
    }
}
