//! Lexicons in which a letter leads on in several ways: a search has to go back, by many letters too, and the code is
//! that of the one way that is right.

use super::{Codes, Images};
use crate::draw;
use crate::ways::{self, Graph};

/// Up to so many words of a lexicon are looked up, and as many that lead astray.
const LOOKUPS: usize = 50;

impl Codes {
    pub(super) fn several_ways(&mut self, lexicons: usize) {
        self.begin("several ways", &[], [&[0, 13], &[0], &[]]);
        for _ in 0..lexicons {
            let (images, graph) = self.accepted_with_ways();
            for k in 0..LOOKUPS.min(images.count()) {
                let code = if images.count() > LOOKUPS {
                    self.random.below(images.count())
                } else {
                    k
                };
                let word = images.word(code);
                self.backs.add(&graph, &word);
                let answer = self.code_of(&images, &word);
                self.hold_reference_to(code as i32, answer);
                self.word_of(&images, code as u32);
                let other = images.word(self.random.below(images.count()));
                let astray = graph.astray(&mut self.random, &word, &other);
                self.backs.add(&graph, &astray);
                self.code_of(&images, &astray);
            }
        }
    }

    fn accepted_with_ways(&mut self) -> (Images, Graph) {
        loop {
            let sketch = ways::graph(&mut self.random);
            let voice = draw::voice_for(&mut self.random, &sketch);
            let images = Images::of(&voice, &sketch.lexicon(&mut self.random));
            if let (Ok(_), Some(graph)) = (&images.words, Graph::of(&images.voice, &images.lexicon))
            {
                return (images, graph);
            }
        }
    }
}
