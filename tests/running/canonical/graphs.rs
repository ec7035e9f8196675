//! Lists of words of a wanted size, and several graphs of one list: with nodes split, with a chain for each word, in
//! parts that meet at the root only, and joined from the words' ends. And graphs that are smaller than the canonical
//! one.

use super::reference::Words;
use crate::draw;
use crate::random::Random;
use crate::sketch::{Sketch, ROOT, SINK};

/// The last letter of a voice model of 64. The lists below leave it free, so that words of it share no node with
/// others.
pub const LAST: u8 = 63;

/// A graph of these words, of one of four kinds. Each word is spelled once.
pub fn build(random: &mut Random, words: &Words) -> Sketch {
    let mut sketch = match random.below(6) {
        0 => Sketch::chains(words),
        1 => in_parts(random, words),
        2..=3 => Sketch::from_the_end(words),
        _ => Sketch::of_words(&Vec::from_iter(words.iter().cloned())),
    };
    let most = *random.pick(&[1, 4, 40]);
    for _ in 0..random.below(most) {
        sketch.split(random);
    }
    sketch
}

/// Two to four graphs with a part of the words each. At the root, one letter may lead into all of them.
fn in_parts(random: &mut Random, words: &Words) -> Sketch {
    let mut parts = vec![Vec::new(); random.between(2, 4)];
    for word in words {
        random.pick_mut(&mut parts).push(word.clone());
    }
    let mut sketch = Sketch::new();
    for part in parts {
        add(&mut sketch, &Sketch::of_words(&part));
    }
    sketch
}

/// Puts another graph beside the one that is there.
fn add(sketch: &mut Sketch, other: &Sketch) {
    let shift = sketch.nodes();
    let moved = |vertex: &usize| match *vertex {
        SINK => SINK,
        node => node + shift,
    };
    sketch.letters.extend(&other.letters[1..]);
    for (vertex, list) in other.successors.iter().enumerate() {
        let list = list.iter().map(moved);
        match vertex {
            ROOT => sketch.successors[ROOT].extend(list),
            _ => sketch.successors.push(list.collect()),
        }
    }
}

/// Words of so many beginnings, each with some of a few endings, which may begin alike and differ in their last
/// letters. From the words' ends their graph is small, and by letters from the root it is in many nodes at once.
pub fn some_of_each(random: &mut Random, beginnings: usize, longest: usize) -> Words {
    let letters = *random.pick(&[1, 1, 2, 3]);
    let mut endings = Vec::new();
    for last in 0..random.between(2, 8) as u8 {
        let length = random.between(longest - longest / 8, longest);
        endings.push(draw::word(random, letters, length));
        endings[usize::from(last)].push(7 - last);
    }
    let mut words = Words::new();
    for _ in 0..beginnings {
        let length = random.between(1, 3);
        let beginning = draw::word(random, 6, length);
        for ending in &endings {
            if words.is_empty() || random.once_in(2) {
                words.insert([&beginning[..], ending].concat());
            }
        }
    }
    words
}

/// Up to some hundred words of any kind.
pub fn any_list(random: &mut Random) -> Words {
    if random.once_in(4) {
        let (beginnings, longest) = (random.between(1, 30), random.between(1, 8));
        return some_of_each(random, beginnings, longest);
    }
    let letters = random.between(1, 8);
    let most = 1 << random.below(8);
    let count = random.between(1, most);
    let longest = random.between(1, 9);
    let mut words = draw::word_list(random, letters, count, longest);
    if random.once_in(6) {
        let length = random.between(20, 32);
        words.push(draw::word(random, letters, length));
    }
    words.into_iter().collect()
}

/// Words made of a beginning, a middle and an ending, so many of each, in dictionary order of these. The three have
/// letters of their own, so the graph is small, and it stays so where the row is cut off. No word is longer than 31.
pub fn composed(random: &mut Random, counts: [usize; 3], longest: usize) -> Vec<Vec<u8>> {
    let mut parts = Vec::new();
    for (count, first) in counts.into_iter().zip([0, 20, 40]) {
        let mut part = Words::new();
        while part.len() < count {
            let length = random.between(longest.div_ceil(2), longest);
            let letters = random.between(2, 20);
            let word = draw::word(random, letters, length);
            part.insert(word.iter().map(|letter| letter + first).collect());
        }
        parts.push(part);
    }
    let mut words = Vec::new();
    for beginning in &parts[0] {
        for middle in &parts[1] {
            for ending in &parts[2] {
                words.push([&beginning[..], middle, ending].concat());
            }
        }
    }
    words
}

/// Words of the last letter alone: of 1 letter, of 2, and so on, so many words.
pub fn add_words(words: &mut Words, count: usize) {
    words.extend((1..=count).map(|length| vec![LAST; length]));
}

/// Words of the last letter alone that have so many letters in all, at most 528.
pub fn add_letters(words: &mut Words, mut letters: usize) {
    for length in (1..=32).rev() {
        if length <= letters {
            words.insert(vec![LAST; length]);
            letters -= length;
        }
    }
    assert_eq!(letters, 0);
}

/// A graph that is smaller than the canonical one. A few ways have the same letters and differ in their ends only; each
/// of the beginnings, which are one letter, leads to some of the ways. By letters the ways are one, so the canonical
/// image needs them once for each beginning. Letter 0 to 7 stand on the ways, the beginnings have letters from 8 on.
pub struct Fan {
    way: Vec<u8>,
    /// Letters from 0 on, one for each way.
    ends: usize,
    /// For each beginning the set of its ways, one bit each. No two sets are equal.
    sets: Vec<usize>,
}

impl Fan {
    pub fn draw(random: &mut Random, length: usize, ends: usize, beginnings: usize) -> Fan {
        let all = (1 << ends) - 1;
        let mut sets: Vec<usize> = (1..all).collect();
        random.shuffle(&mut sets);
        // every way has a beginning
        sets.insert(0, all);
        sets.truncate(beginnings);
        random.shuffle(&mut sets);
        Fan {
            way: draw::word(random, 8, length),
            ends,
            sets,
        }
    }

    pub fn add_to(&self, sketch: &mut Sketch) {
        let firsts: Vec<usize> = (0..self.ends).map(|_| sketch.node(self.way[0])).collect();
        for (end, first) in firsts.iter().enumerate() {
            let rest = [&self.way[1..], &[end as u8]].concat();
            sketch.chain(*first, &rest, SINK);
        }
        for (k, set) in self.sets.iter().enumerate() {
            let beginning = sketch.node(8 + k as u8);
            sketch.arc(ROOT, beginning);
            for (_, first) in firsts
                .iter()
                .enumerate()
                .filter(|(end, _)| set >> end & 1 == 1)
            {
                sketch.arc(beginning, *first);
            }
        }
    }

    /// The letters of the canonical image's nodes: the ends once, and for each beginning its own and the way's.
    pub fn canonical_letters(&self) -> Vec<u8> {
        let mut letters: Vec<u8> = (0..self.ends as u8).collect();
        for k in 0..self.sets.len() {
            letters.push(8 + k as u8);
            letters.extend(&self.way);
        }
        letters
    }
}
