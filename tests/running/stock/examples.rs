//! Lists whose answers are known by hand.

use super::{call_with, list_of, reference, Call, Images, Stock};
use crate::image::{small_lexicon, small_voice, Lexicon};
use crate::sketch::{Sketch, SINK};

impl Stock {
    /// P: an, at, i, in, it. -13 stands for an item that is no word.
    pub(super) fn examples(&mut self) {
        self.counts.begin("paper", &[0, 10, 19, 16]);
        let mut lexicon = small_lexicon();
        let paper = Images::of(&small_voice(), &lexicon);
        let words = ["an", "at", "i", "in", "it"];
        self.call_for_codes(&[0, 1, 2, 3, 4], &paper, &list_of(&words));
        self.call_for_codes(&[], &paper, &[]);
        self.call_for_codes(&[-13], &paper, &[0]);
        let mixed = ["it", "na", "", "it", "an", "ann", "a", "i", "i", "ta"];
        let codes = [4, -13, -13, 4, 0, -13, -13, 2, 2, -13];
        self.call_for_codes(&codes, &paper, &list_of(&mixed));
        let long = [
            "a".repeat(32),
            "in".to_string(),
            "a".repeat(33),
            "an".repeat(127),
        ];
        self.call_for_codes(&[-13, 3, -13, -13], &paper, &list_of(&long));
        lexicon.successors[0] = vec![2, 1];
        let turned = Images::of(&small_voice(), &lexicon);
        self.call_for_codes(&[3, 4, 0, 1, 2], &turned, &list_of(&words));
        self.refused_lists(&paper);
        self.nodes_of_one_letter();
    }

    fn call_for_codes(&mut self, known: &[i32], images: &Images, list: &[u8]) {
        let answer = self.call(images, call_with(list));
        let bytes: Vec<u8> = known
            .iter()
            .flat_map(|code| reference::answer(*code))
            .collect();
        let length = known.len() as i32;
        if answer != length || !self.out.begins_with(&bytes) {
            self.difference(&format!("the answers {known:?} are known"));
        }
    }

    fn refused_lists(&mut self, paper: &Images) {
        for list in [
            &[1][..],
            &[2, b'a'],
            &[255],
            &[2, b'a', b'n', 1],
            &[3, b'a', b'n'],
        ] {
            self.call_for(-19, paper, list);
        }
        self.call_for(1_000, paper, &[0; 1_000]);
        self.call_for(-19, paper, &[0; 1_001]);
        let list = list_of(&["an", "no", "it"]);
        for out in [0, 8, 23, 24, 25, 32] {
            let call = call_with(&list);
            let answer = self.call(paper, Call { out, ..call });
            self.hold_reference_to(if out < 24 { -16 } else { 3 }, answer);
        }
    }

    /// 'a to n and another a to t', and a word that is spelled twice.
    fn nodes_of_one_letter(&mut self) {
        let list = list_of(&["an", "at", "a", "an", "ai", "at", "n", "at", "an"]);
        for (order, an, at) in [([1, 2], 0, 1), ([2, 1], 1, 0)] {
            let apart = Lexicon {
                letters: vec![0, 0, 2, 3],
                successors: vec![order.to_vec(), vec![3], vec![4], vec![5], vec![5]],
            };
            let images = Images::of(&small_voice(), &apart);
            let known = [an, at, -13, an, -13, at, -13, at, an];
            self.call_for_codes(&known, &images, &list);
        }
        let mut twice = Sketch::new();
        twice.chain(0, &[0], SINK);
        twice.chain(0, &[0], SINK);
        let images = Images::of(&small_voice(), &twice.lexicon(&mut self.random));
        self.call_for(-10, &images, &list_of(&["a"]));
    }
}
