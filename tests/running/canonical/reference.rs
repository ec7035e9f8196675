//! What the canonical writer has to answer, by the words of the request: a lexicon is a set of words, each prefix has
//! the set of its continuations, and a node is a letter with such a set. No graph is made smaller, and none is walked
//! but to write out the words.

use crate::image::Lexicon;
use crate::reference::{self, Number, Voice, FURTHER_SPACE, WORK_SPACE};
use std::cmp::Reverse;
use std::collections::{BTreeMap, BTreeSet, HashMap, HashSet};

const MOST_WORDS: usize = 2_000;
const MOST_LETTERS: usize = 16_000;
const MOST_NODES: usize = 400;
const MOST_ARCS: usize = 4_000;
const MOST_PLACES: usize = 1_000;

/// Words, or continuations of a prefix, by letter index. The order of such a set is dictionary order: a word comes
/// before its extensions.
pub type Words = BTreeSet<Vec<u8>>;

/// A letter and a set of continuations. Two nodes are one if both agree.
type Node = (u8, Words);

/// The canonical image, or the first of 2 to 10, 17 and 18 that applies.
pub fn canonical(voice: &[u8], lexicon: &[u8]) -> Result<Vec<u8>, Number> {
    let (voice, lexicon, count) = reference::accepted(voice, lexicon)?;
    // no word is spelled twice, so W is the number of words; a million need not be written out
    if count as usize > MOST_WORDS {
        return Err(17);
    }
    let paths = lexicon.full_paths();
    let words = paths.iter().map(|path| lexicon.spelling(path)).collect();
    image_of(&words, &voice).map(|image| image.bytes())
}

/// The canonical image of these words, or 17 or 18.
pub fn image_of(words: &Words, voice: &Voice) -> Result<Lexicon, Number> {
    let letters: usize = words.iter().map(Vec::len).sum();
    if words.len() > MOST_WORDS || letters > MOST_LETTERS {
        return Err(17);
    }
    let nodes = nodes_of(words);
    let numbers: HashMap<&Node, u16> = nodes.iter().zip(1..).collect();
    let mut successors = vec![successors_of(words, &numbers)];
    for (_, rests) in &nodes {
        successors.push(successors_of(rests, &numbers));
    }
    let arcs: usize = successors.iter().map(Vec::len).sum();
    let states = nodes
        .iter()
        .map(|(letter, _)| voice.states[*letter as usize]);
    let places: usize = states.sum();
    if nodes.len() > MOST_NODES || arcs > MOST_ARCS || places > MOST_PLACES {
        return Err(18);
    }
    Ok(Lexicon {
        letters: nodes.iter().map(|(letter, _)| *letter).collect(),
        successors,
    })
}

/// Every node once, numbered by its longest continuation, longest first, and equals by the dictionary-first prefix that
/// reaches them.
fn nodes_of(words: &Words) -> Vec<Node> {
    let mut prefixes: BTreeMap<&[u8], Words> = BTreeMap::new();
    for word in words {
        for length in 1..=word.len() {
            let (prefix, rest) = word.split_at(length);
            let rests = prefixes.entry(prefix).or_default();
            rests.insert(rest.to_vec());
        }
    }
    let mut nodes = Vec::new();
    let mut known = HashSet::new();
    for (prefix, rests) in prefixes {
        let node = (prefix[prefix.len() - 1], rests);
        if known.insert(node.clone()) {
            nodes.push(node);
        }
    }
    // they stand by their first prefixes now, and this sort keeps the order of equals
    nodes.sort_by_key(|(_, rests)| Reverse(longest(rests)));
    nodes
}

fn longest(rests: &Words) -> usize {
    rests.iter().map(Vec::len).max().unwrap_or(0)
}

/// The sink first, then the letters in rising index, each once.
fn successors_of(rests: &Words, numbers: &HashMap<&Node, u16>) -> Vec<u16> {
    let sink = numbers.len() as u16 + 1;
    let mut list = Vec::new();
    let mut after: BTreeMap<u8, Words> = BTreeMap::new();
    for rest in rests {
        match rest.split_first() {
            None => list.push(sink),
            Some((letter, shorter)) => {
                let rests = after.entry(*letter).or_default();
                rests.insert(shorter.to_vec());
            }
        }
    }
    list.extend(after.into_iter().map(|node| numbers[&node]));
    list
}

/// The answer, and what the output begins with.
pub fn call(
    image: &Result<Vec<u8>, Number>,
    work_length: usize,
    further_length: usize,
    out_length: usize,
) -> (i32, &[u8]) {
    if work_length < WORK_SPACE || further_length < FURTHER_SPACE {
        return (-1, &[]);
    }
    match image {
        Err(number) => (-number, &[]),
        Ok(image) if out_length < image.len() => (-16, &[]),
        Ok(image) => (image.len() as i32, image),
    }
}
