//! Graphs in which the same letters lead on in several ways, of which one is right, and how far a search that tries one
//! way after the other has to go back in them.

use crate::draw;
use crate::random::Random;
use crate::reference::{self, Lexicon};
use crate::sketch::{Sketch, ROOT, SINK};
use std::collections::BTreeSet;

/// The longest word of an accepted lexicon.
const LONGEST: usize = 32;

/// A graph of one of six kinds. It may have too many nodes.
pub fn graph(random: &mut Random) -> Sketch {
    match random.below(7) {
        0 => run(random),
        1 => Sketch::chains(&alike(random, 12, LONGEST)),
        2 => Sketch::chains(&of_one_length(random)),
        3 | 4 => Sketch::from_the_end(&alike_twice(random)),
        5 => draw::trees(random.between(2, 20)),
        _ => split_often(random),
    }
}

/// A row of nodes of one letter, into which the root leads at many places; at some of them another letter follows, at
/// each place its own. Of the ways into the row one has the right number of letters, and the others pass by the same
/// nodes.
fn run(random: &mut Random) -> Sketch {
    let mut sketch = Sketch::new();
    let (mut last, mut other) = (ROOT, 0);
    for _ in 0..random.between(2, LONGEST - 1) {
        let node = sketch.node(0);
        sketch.arc(last, node);
        if last != ROOT && !random.once_in(4) {
            sketch.arc(ROOT, node);
        }
        if random.once_in(4) {
            other += 1;
            sketch.chain(node, &[other], SINK);
        }
        last = node;
    }
    sketch.chain(last, &[other + 1], SINK);
    sketch
}

/// Up to so many words that begin alike, for as long as it comes.
fn alike(random: &mut Random, count: usize, longest: usize) -> BTreeSet<Vec<u8>> {
    let letters = random.between(1, 4);
    let length = random.between(2, longest - 1);
    let common = draw::word(random, letters, length);
    let mut words = BTreeSet::new();
    for _ in 0..random.between(2, count) {
        let mut word = common[..random.between(1, length)].to_vec();
        let more = random.between(1, 3).min(longest - word.len());
        word.extend(draw::word(random, letters + 1, more));
        words.insert(word);
    }
    words
}

/// Words of one length that differ in their last three letters, as many as 400 nodes can hold. With a chain for each,
/// numbered one after the other, the numbers of nodes in one place differ by multiples of 8, 16 or 32, and by 256 too.
fn of_one_length(random: &mut Random) -> BTreeSet<Vec<u8>> {
    let length = *random.pick(&[8, 16, LONGEST]);
    let letters = random.between(1, 4);
    let common = draw::word(random, letters, length - 3);
    let count = 400 / length;
    let rests = (0..count).map(|_| draw::word(random, 4, 3));
    rests.map(|rest| [&common[..], &rest].concat()).collect()
}

/// Words of a beginning and an ending, both from words that begin alike.
fn alike_twice(random: &mut Random) -> BTreeSet<Vec<u8>> {
    let (beginnings, endings) = (alike(random, 8, 16), alike(random, 5, 16));
    let mut words = BTreeSet::new();
    for beginning in &beginnings {
        words.extend(endings.iter().map(|e| [&beginning[..], e].concat()));
    }
    words
}

/// The graph of a word list over few letters, split far more often than it has nodes.
fn split_often(random: &mut Random) -> Sketch {
    let (letters, count) = (random.between(1, 3), random.between(10, 80));
    let longest = random.between(4, 10);
    let mut sketch = Sketch::of_words(&draw::word_list(random, letters, count, longest));
    for _ in 0..random.between(40, 300) {
        sketch.split(random);
    }
    sketch
}

/// An accepted lexicon in which words are searched, depth first and in stored order.
pub struct Graph {
    print_bytes: Vec<u8>,
    lexicon: Lexicon,
}

impl Graph {
    /// Nothing if a field of the images is not in order.
    pub fn of(voice: &[u8], lexicon: &[u8]) -> Option<Graph> {
        let voice = reference::read_voice(voice).ok()?;
        let lexicon = reference::read_lexicon(lexicon, voice.states.len()).ok()?;
        Some(Graph {
            print_bytes: voice.print_bytes,
            lexicon,
        })
    }

    /// A word that leads far into the graph and is hardly there: one with a letter of its second half changed, with its
    /// last letter taken off or one put after it, or the beginning of one and the rest of another.
    pub fn astray(&self, random: &mut Random, one: &[u8], other: &[u8]) -> Vec<u8> {
        let mut word = one.to_vec();
        let place = random.between(one.len() / 2, one.len() - 1);
        let letter = *random.pick(&self.print_bytes);
        match random.below(6) {
            0 => word.truncate(one.len() - 1),
            1 => word.push(letter),
            2 => word[one.len() - 1] = letter,
            3 | 4 if place < other.len() => {
                word.truncate(place);
                word.extend(&other[place..]);
            }
            _ => word[place] = letter,
        }
        word
    }

    fn has(&self, node: usize, byte: u8) -> bool {
        node != self.lexicon.sink() && self.print_bytes[self.lexicon.letters[node]] == byte
    }

    /// Nothing if a way from here spells the rest of the word; else how many letters of it the longest way spells.
    /// `back` becomes the most letters gone back before another way was tried.
    fn search(&self, vertex: usize, rest: &[u8], back: &mut usize) -> Option<usize> {
        let list = &self.lexicon.successors[vertex];
        let Some((first, later)) = rest.split_first() else {
            let is_word = list.contains(&self.lexicon.sink());
            return if is_word { None } else { Some(0) };
        };
        let mut longest = 0;
        for node in list.iter().filter(|node| self.has(**node, *first)) {
            *back = longest.max(*back);
            longest = longest.max(1 + self.search(*node, later, back)?);
        }
        Some(longest)
    }
}

/// Words by how many letters such a search goes back: none, one, up to five, more.
#[derive(Default)]
pub struct Backs {
    found: [u64; 4],
    not_found: [u64; 4],
}

impl Backs {
    pub fn add(&mut self, graph: &Graph, word: &[u8]) {
        let mut back = 0;
        let counts = match graph.search(ROOT, word, &mut back) {
            None => &mut self.found,
            Some(_) => &mut self.not_found,
        };
        let kind = match back {
            0 | 1 => back,
            2..=5 => 2,
            _ => 3,
        };
        counts[kind] += 1;
    }

    pub fn print(&self) {
        let said = |[none, one, few, more]: [u64; 4]| {
            format!("by none {none}, by 1 {one}, by 2 to 5 {few}, by more {more}")
        };
        println!(
            "letters gone back in a search, words found: {}",
            said(self.found)
        );
        println!(
            "letters gone back in a search, words not found: {}",
            said(self.not_found)
        );
    }

    /// Says how many kinds were seen too rarely: of the words found and of those not found, going back by 2 to 5
    /// letters and by more has to be a twentieth each, the others a hundredth.
    pub fn missing(&self) -> usize {
        let mut missing = 0;
        for counts in [self.found, self.not_found] {
            let all: u64 = counts.iter().sum();
            let least = [all / 100, all / 100, all / 20, all / 20];
            let kinds = counts.iter().zip(least);
            missing += kinds
                .filter(|(seen, least)| **seen < (*least).max(1))
                .count();
        }
        if missing > 0 {
            println!("seen too rarely: {missing} ways to go back");
        }
        missing
    }
}
