//! Several conditions at once: the lowest number is answered, and inside an image the first faulty field.

use super::{Checking, ALL};
use crate::faults::faulty_images;

impl Checking {
    pub(super) fn several_at_once(&mut self, calls: usize) {
        self.counts.begin("several at once", &ALL);
        for _ in 0..calls {
            let several = self.random.below(1 << 9) & self.random.below(1 << 9);
            let (voice, lexicon) = faulty_images(&mut self.random, several);
            self.call_with(&voice, &lexicon);
        }
    }

    /// Each condition with each other one.
    pub(super) fn every_two(&mut self) {
        for first in 0..9 {
            for second in 0..9 {
                let (voice, lexicon) = faulty_images(&mut self.random, 1 << first | 1 << second);
                self.call_with(&voice, &lexicon);
            }
        }
    }
}
