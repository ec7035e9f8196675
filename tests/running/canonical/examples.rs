//! Lexicons whose canonical images are known by hand.

use super::{Canonical, Images};
use crate::image::{small_lexicon, small_voice, Lexicon};
use crate::sketch::{Sketch, SINK};

/// P, to the byte: its canonical image is P itself.
const OF_P: [u8; 36] = [
    4, 0, // nodes
    0, 1, 2, 3, // a, i, n, t
    2, 0, 1, 0, 2, 0, // the root to a and i
    2, 0, 3, 0, 4, 0, // a to n and t
    3, 0, 5, 0, 3, 0, 4, 0, // i to the sink, n and t
    1, 0, 5, 0, // n to the sink
    1, 0, 5, 0, // t to the sink
    0, 0, // reserve
];

fn lexicon(letters: &[u8], successors: &[&[u16]]) -> Lexicon {
    Lexicon {
        letters: letters.to_vec(),
        successors: successors.iter().map(|list| list.to_vec()).collect(),
    }
}

/// A chain for each word.
fn chains(words: &[&[u8]]) -> Sketch {
    let mut sketch = Sketch::new();
    for word in words {
        sketch.chain(0, word, SINK);
    }
    sketch
}

impl Canonical {
    pub(super) fn examples(&mut self) {
        self.counts.begin("by hand", &[0, 10]);
        let mut paper = small_lexicon();
        self.call_for_image(&OF_P, &paper);
        paper.successors[0] = vec![2, 1];
        self.call_for_image(&OF_P, &paper);
        paper.successors = vec![vec![2, 1], vec![4, 3], vec![4, 3, 5], vec![5], vec![5]];
        self.call_for_image(&OF_P, &paper);
        self.chains_of_words();
        self.several_nodes_at_once();
        let twice = chains(&[&[0], &[0]]).lexicon(&mut self.random);
        self.call_for(10, &Images::of(&small_voice(), &twice));
    }

    fn call_for_image(&mut self, known: &[u8], lexicon: &Lexicon) {
        let images = Images::of(&small_voice(), lexicon);
        let answer = self.call(&images, images.room());
        if images.canonical.as_deref() != Ok(known) {
            self.difference(&format!(
                "the reference says {answer} where {known:?} is known"
            ));
        }
    }

    /// Chains, which the canonical image joins.
    fn chains_of_words(&mut self) {
        let rows: [(&[&[u8]], Lexicon); 7] = [
            // one word
            (&[&[0]], lexicon(&[0], &[&[1], &[2]])),
            // an, in: the suffix once
            (
                &[&[0, 2], &[1, 2]],
                lexicon(&[0, 1, 2], &[&[1, 2], &[3], &[3], &[4]]),
            ),
            // an, at: 'a to n and another a to t'
            (
                &[&[0, 2], &[0, 3]],
                lexicon(&[0, 2, 3], &[&[1], &[2, 3], &[4], &[4]]),
            ),
            // a, an, ant: each the beginning of the next, and the sink before the letter
            (
                &[&[0], &[0, 2], &[0, 2, 3]],
                lexicon(&[0, 2, 3], &[&[1], &[4, 2], &[4, 3], &[4]]),
            ),
            // a, na: the letter a twice, first with nothing after it, then the same node
            (&[&[0], &[2, 0]], lexicon(&[2, 0], &[&[2, 1], &[2], &[3]])),
            // at, ia: of equals t comes first, since at comes before ia
            (
                &[&[0, 3], &[1, 0]],
                lexicon(&[0, 1, 3, 0], &[&[1, 2], &[3], &[4], &[5], &[5]]),
            ),
            // aan, ai: aan comes before ai, though it is longer and i before n
            (
                &[&[0, 0, 2], &[0, 1]],
                lexicon(&[0, 0, 2, 1], &[&[1], &[2, 4], &[3], &[5], &[5]]),
            ),
        ];
        for (words, known) in rows {
            for _ in 0..3 {
                let lexicon = chains(words).lexicon(&mut self.random);
                self.call_for_image(&known.bytes(), &lexicon);
            }
        }
    }

    /// aa, ai, aaa, aai, iaa, iai: up to one letter, then a, then a letter. In the five nodes below, a word that begins
    /// with a may be in two of them. The canonical image has six.
    fn several_nodes_at_once(&mut self) {
        let five = lexicon(
            &[0, 1, 0, 0, 1],
            &[&[1, 2, 3], &[3], &[3], &[4, 5], &[6], &[6]],
        );
        let six = lexicon(
            &[0, 1, 0, 0, 0, 1],
            &[&[1, 2], &[3, 6], &[4], &[7, 5, 6], &[5, 6], &[7], &[7]],
        );
        self.call_for_image(&six.bytes(), &five);
        self.call_for_image(&six.bytes(), &six);
    }
}
