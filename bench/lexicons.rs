//! The lexicons that the bench looks words and codes up in: as many words as are accepted, in several shapes, and some
//! that are hard for a search.

use crate::draw;
use crate::image::{small_lexicon, small_voice};
use crate::inputs::{input, Input};
use crate::random::Random;
use crate::sketch::{Sketch, ROOT, SINK};

const MOST_WORDS: u64 = 1_048_576;

/// How many of all are hard.
pub const HARD: usize = 2;

/// Those with the most words, and then the hard ones.
pub fn all(random: &mut Random) -> Vec<Input> {
    let mut inputs = lexicons(random);
    // a row of its own, so that what is drawn behind these is as it was before the hard ones
    inputs.extend(hard(&mut Random::from_seed(2)));
    inputs
}

fn lexicons(random: &mut Random) -> Vec<Input> {
    let (voice, lexicon) = (small_voice(), small_lexicon());
    let small = Input {
        name: "the paper's small lexicon",
        nodes: lexicon.letters.len(),
        arcs: lexicon.successors.iter().map(Vec::len).sum(),
        voice: voice.bytes(),
        lexicon: lexicon.bytes(),
    };
    let layers = draw::so_many_words(&[32; 4], 0);
    let mut beside = draw::so_many_words(&[32, 32, 32, 31], 0);
    draw::fill_up(random, &mut beside, 400, 64);
    let wide = grown(random, &[60, 85, 85, 85, 85], 64, 4_000);
    let narrow = grown(random, &[12; 32], 20, 4_000);
    let two_letters = draw::so_many_words(&[2; 20], 0);
    let mut split = draw::so_many_words(&[4; 10], 0);
    while split.arcs() < 3_000 && split.nodes() < 400 {
        split.split(random);
    }
    vec![
        small,
        input("32^4", &layers, random),
        input("32^3 × 31, long words beside", &beside, random),
        input("five wide layers", &wide, random),
        input("32 narrow layers", &narrow, random),
        input("2^20", &two_letters, random),
        input("4^10, nodes split", &split, random),
    ]
}

/// Lexicons in which letters decide late, so that a search for a word goes many wrong ways to their ends and back. That
/// has a limit: two paths from the root with the same letters do not meet again, or a word would be spelled twice, so a
/// search looks at no more than an arc to each vertex for each letter of the word and for its end.
fn hard(random: &mut Random) -> [Input; HARD] {
    [
        input("12 chains of one letter", &chains(12), random),
        input("183 ways behind one letter", &fan(183), random),
    ]
}

/// So many chains of 31 nodes of letter 0, each before a letter of its own. The root leads to every node of them, so a
/// search begins at each, and sees whether the way is right only where the chain ends or the word does.
fn chains(count: u8) -> Sketch {
    let mut sketch = Sketch::new();
    for last in 1..=count {
        let mut letters = [0; 32];
        letters[31] = last;
        chain_from_all(&mut sketch, &letters, 31);
    }
    sketch
}

/// One such chain of 29 nodes, and behind it so many nodes of letter 0, each before one of 61 letters and then one of
/// three. A search may come to all of these nodes at any letter of a long word but the first and the last two. If the
/// right way is the last that it tries, it looks at nearly as many arcs as can be.
fn fan(count: usize) -> Sketch {
    let mut sketch = Sketch::new();
    chain_from_all(&mut sketch, &[0; 29], 29);
    let hub = sketch.nodes();
    sketch.successors[hub].clear();
    let ends: Vec<usize> = (0..3).map(|letter| sketch.node(letter)).collect();
    for end in &ends {
        sketch.arc(*end, SINK);
    }
    for k in 0..count {
        let (first, second) = (sketch.node(0), sketch.node(1 + (k / 3) as u8));
        sketch.arc(hub, first);
        sketch.arc(first, second);
        sketch.arc(second, ends[k % 3]);
    }
    sketch
}

/// A path of new nodes from the root to the sink. The root leads to each of its first so many nodes.
fn chain_from_all(sketch: &mut Sketch, letters: &[u8], count: usize) {
    let first = sketch.nodes() + 1;
    sketch.chain(ROOT, letters, SINK);
    for node in first + 1..first + count {
        sketch.arc(ROOT, node);
    }
}

/// Nodes in layers, and arcs at random from one layer to the next, now and then to a later one or to the sink, as many
/// as arcs and words are permitted. No list has a letter twice, so no word is spelled twice.
fn grown(random: &mut Random, widths: &[usize], letters: usize, arcs: usize) -> Sketch {
    let mut sketch = Sketch::new();
    let mut layers = vec![vec![ROOT]];
    for (depth, width) in widths.iter().enumerate() {
        let mut layer = Vec::new();
        for k in 0..*width {
            let letter = if depth == 0 { k } else { random.below(letters) };
            let node = sketch.node(letter as u8);
            while !join(&mut sketch, *random.pick(&layers[depth]), node) {}
            layer.push(node);
        }
        layers.push(layer);
    }
    for depth in 1..=widths.len() {
        for node in &layers[depth] {
            while sketch.successors[*node].is_empty() {
                let to = layers
                    .get(depth + 1)
                    .map_or(SINK, |next| *random.pick(next));
                join(&mut sketch, *node, to);
            }
        }
    }
    let mut tries = 0;
    while sketch.arcs() < arcs && tries < 2_000 {
        let depth = random.between(1, widths.len());
        let from = *random.pick(&layers[depth]);
        let later = if random.once_in(10) { 2 } else { 1 };
        let to = match layers.get(depth + later) {
            Some(next) if !random.once_in(30) => *random.pick(next),
            _ => SINK,
        };
        tries += 1;
        if join(&mut sketch, from, to) {
            if words(&sketch, &layers) > MOST_WORDS {
                sketch.successors[from].pop();
            } else {
                tries = 0;
            }
        }
    }
    sketch
}

/// An arc, if its letter is new in the list.
fn join(sketch: &mut Sketch, from: usize, to: usize) -> bool {
    let letter = |vertex: usize| (vertex != SINK).then(|| sketch.letters[vertex]);
    let is_new = |successor: &usize| letter(*successor) != letter(to);
    let may = sketch.successors[from].iter().all(is_new);
    if may {
        sketch.arc(from, to);
    }
    may
}

/// W; arcs lead to later layers only.
fn words(sketch: &Sketch, layers: &[Vec<usize>]) -> u64 {
    let mut paths = vec![0u64; sketch.letters.len()];
    for vertex in layers.iter().rev().flatten() {
        let of = |successor: &usize| paths.get(*successor).copied().unwrap_or(1);
        paths[*vertex] = sketch.successors[*vertex].iter().map(of).sum();
    }
    paths[ROOT]
}
