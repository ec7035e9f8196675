//! The items of answered lists: which were words and which were none, each by what stood before it in its list, since
//! nothing of one item may be left for the next. And items of every kind.

use super::{Images, Stock};
use crate::draw;

const KINDS: [&str; 4] = [
    "first in a list",
    "after a word",
    "after no word",
    "the same again",
];

#[derive(Default)]
pub struct Items {
    /// For each kind words, and items that are none. The last kind is among the two before it.
    seen: [[u64; 2]; 4],
    /// The item before in the same list, and whether it is a word.
    before: Option<(Vec<u8>, bool)>,
}

impl Items {
    pub fn add(&mut self, item: &[u8], is_word: bool) {
        let column = usize::from(!is_word);
        match &self.before {
            None => self.seen[0][column] += 1,
            Some((before, was_word)) => {
                self.seen[if *was_word { 1 } else { 2 }][column] += 1;
                self.seen[3][column] += u64::from(before == item);
            }
        }
        self.before = Some((item.to_vec(), is_word));
    }

    /// The next item is the first of another list.
    pub fn end(&mut self) {
        self.before = None;
    }

    fn all(&self) -> u64 {
        self.seen[..3].iter().flatten().sum()
    }

    pub fn print(&self) {
        let kinds = KINDS.iter().zip(self.seen);
        let said: Vec<String> = kinds
            .map(|(kind, [words, none])| format!("{kind} {words} and {none}"))
            .collect();
        println!("items looked up by themselves too: {}", self.all());
        println!("of them words and others: {}", said.join(", "));
    }

    /// Says how many kinds were seen too rarely: each has to be a hundredth of all.
    pub fn missing(&self) -> usize {
        let least = (self.all() / 100).max(1);
        let kinds = self.seen.iter().flatten();
        let missing = kinds.filter(|seen| **seen < least).count();
        if missing > 0 {
            println!("seen too rarely: {missing} kinds of items");
        }
        missing
    }
}

impl Stock {
    /// Words, items that are nearly words, and others: for each now and then the one before once more.
    pub(super) fn any_items(
        &mut self,
        images: &Images,
        other: &Images,
        count: usize,
    ) -> Vec<Vec<u8>> {
        let mut items: Vec<Vec<u8>> = Vec::new();
        for _ in 0..count {
            let item = match items.last() {
                Some(last) if self.random.once_in(6) => last.clone(),
                _ => self.any_item(images, other),
            };
            items.push(item);
        }
        items
    }

    fn any_item(&mut self, images: &Images, other: &Images) -> Vec<u8> {
        let random = &mut self.random;
        let mut item = images.any_word(random);
        let place = random.below(item.len());
        let letters = images
            .words
            .as_ref()
            .map_or(&[33][..], |words| words.letters());
        let byte = match random.below(4) {
            0 => draw::no_letter(random, letters),
            _ => *random.pick(letters),
        };
        match random.below(20) {
            0 => item.clear(),
            1 => item.push(byte),
            2 => item.truncate(item.len() - 1),
            3 => item.insert(place, byte),
            4..=6 => item[place] = byte,
            7 => item = other.any_word(random),
            8 => {
                let length = *random.pick(&[31, 32, 33, 34, 64, 255]);
                item.resize_with(length, || *random.pick(letters));
            }
            9 => {
                let length = random.below(8);
                item = random.bytes(length);
            }
            _ => {}
        }
        item
    }
}
