//! One image for one list: however the graph of a list is built, the bytes are the same, and of any other list they are
//! others.

use super::graphs;
use super::reference::Words;
use super::{Canonical, Images};
use crate::draw;
use crate::image::Voice;

/// Graphs of each list.
const BUILDS: usize = 8;

impl Canonical {
    /// Random lists, each in several graphs, numbered and ordered at random.
    pub(super) fn every_build(&mut self, lists: usize) {
        self.counts.begin("every build", &[0]);
        for _ in 0..lists {
            let words = graphs::any_list(&mut self.random);
            let voice = self.voice_for(&words);
            let Some(first) = self.written_for(&voice, &words) else {
                continue;
            };
            for _ in 1..BUILDS {
                let other = self.written_for(&voice, &words);
                if other.is_some_and(|other| other != first) {
                    self.difference("two graphs of one list have two canonical images");
                }
            }
            self.read_back(&voice, &first, &words);
        }
    }

    /// A list, and the list with a word more, a word less, and a letter of one word changed, taken away or added.
    pub(super) fn one_word_apart(&mut self, lists: usize) {
        self.counts.begin("one word apart", &[0]);
        for _ in 0..lists {
            let words = graphs::any_list(&mut self.random);
            let mut all = vec![words.clone()];
            all.extend((0..6).map(|_| self.changed(&words)));
            all.retain(|list| !list.is_empty());
            let union: Words = all.iter().flatten().cloned().collect();
            let voice = self.voice_for(&union);
            let Some(first) = self.written_for(&voice, &words) else {
                continue;
            };
            for other in &all[1..] {
                let written = self.written_for(&voice, other);
                if written.is_some_and(|image| (image == first) != (*other == words)) {
                    self.difference("a word more, less or changed, and the same canonical image");
                }
            }
        }
    }

    fn changed(&mut self, words: &Words) -> Words {
        let random = &mut self.random;
        let mut row: Vec<Vec<u8>> = words.iter().cloned().collect();
        let letter = random.below(8) as u8;
        match random.below(5) {
            0 => row.push(draw::word(random, 8, 3)),
            1 => {
                row.swap_remove(random.below(words.len()));
            }
            2 => {
                let word = random.pick_mut(&mut row);
                *random.pick_mut(word) = letter;
            }
            3 => {
                let word = random.pick_mut(&mut row);
                let length = word.len();
                word.truncate(random.between(1, length));
            }
            _ => {
                let word = random.pick_mut(&mut row);
                word.insert(random.below(word.len() + 1), letter);
                word.truncate(32);
            }
        }
        row.into_iter().collect()
    }

    /// A voice model that has the letters of these words.
    pub(super) fn voice_for(&mut self, words: &Words) -> Voice {
        let highest = words.iter().flatten().max().map_or(0, |l| usize::from(*l));
        let letters = self.random.between(highest + 1, (highest + 4).min(64));
        draw::voice(&mut self.random, letters, 3)
    }

    /// What the library writes for some graph of these words, if one is found that is accepted.
    fn written_for(&mut self, voice: &Voice, words: &Words) -> Option<Vec<u8>> {
        for _ in 0..10 {
            let sketch = graphs::build(&mut self.random, words);
            let images = Images::of(voice, &sketch.lexicon(&mut self.random));
            if images.canonical.is_ok() {
                return Some(self.written(&images));
            }
        }
        None
    }
}
