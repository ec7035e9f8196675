//! Random voice models and word graphs of every kind, and graphs of a wanted size.

use crate::image::{Letter, Lexicon, Voice};
use crate::random::Random;
use crate::sketch::{Sketch, ROOT, SINK};
use std::collections::HashMap;

const SPECIAL_SCORES: [i16; 8] = [-32_768, -32_767, -1, 0, 1, 255, 256, 32_767];

fn score(random: &mut Random) -> i16 {
    if random.once_in(3) {
        *random.pick(&SPECIAL_SCORES)
    } else {
        random.next() as i16
    }
}

/// One link for all letters or one for each, as often. They are drawn from a seed of their own, so that whatever else
/// is drawn does not depend on how many they are.
fn links(random: &mut Random, letters: usize) -> Vec<i16> {
    let mut random = Random::from_seed(random.next() ^ random.next());
    let count = *random.pick(&[1, letters]);
    (0..count).map(|_| score(&mut random)).collect()
}

/// A voice model whose letters have these numbers of states. Nothing of it is out of range, if these numbers are not.
pub fn voice_of(random: &mut Random, states: &[u8], symbols: usize) -> Voice {
    let mut print_bytes: Vec<u8> = (34..=125).collect();
    random.shuffle(&mut print_bytes);
    if random.once_in(2) {
        // both ends of the range
        print_bytes.insert(0, 33);
        print_bytes.insert(random.below(2), 126);
    }
    print_bytes.truncate(states.len());
    print_bytes.sort_unstable();
    let letters = print_bytes.iter().zip(states);
    let letters = letters.map(|(print_byte, states)| Letter {
        print_byte: *print_byte,
        states: *states,
    });
    let mut moves = Vec::new();
    for of_letter in states {
        for state in 1..=*of_letter {
            let is_last = state == *of_letter;
            moves.push([score(random), if is_last { 0 } else { score(random) }]);
        }
    }
    Voice {
        letters: letters.collect(),
        links: links(random, states.len()),
        symbols: symbols as u8,
        emissions: (0..moves.len() * symbols).map(|_| score(random)).collect(),
        moves,
    }
}

pub fn voice(random: &mut Random, letters: usize, most_states: usize) -> Voice {
    let states: Vec<u8> = (0..letters)
        .map(|_| random.between(1, most_states) as u8)
        .collect();
    let symbols = if random.once_in(20) {
        random.between(1, 64)
    } else {
        random.between(1, 3)
    };
    voice_of(random, &states, symbols)
}

pub fn word(random: &mut Random, letters: usize, length: usize) -> Vec<u8> {
    (0..length).map(|_| random.below(letters) as u8).collect()
}

/// A list of words: any, or stems with common endings.
pub fn word_list(
    random: &mut Random,
    letters: usize,
    count: usize,
    longest: usize,
) -> Vec<Vec<u8>> {
    let any = |random: &mut Random| {
        let length = random.between(1, longest);
        word(random, letters, length)
    };
    if random.once_in(2) {
        return (0..count).map(|_| any(random)).collect();
    }
    let endings: Vec<Vec<u8>> = (0..random.between(1, 5)).map(|_| any(random)).collect();
    let mut words = Vec::new();
    while words.len() < count {
        let stem = any(random);
        words.extend(endings.iter().map(|ending| [&stem[..], ending].concat()));
        words.push(stem);
    }
    words
}

/// The graph of a short list of words, with some of its nodes split.
pub fn few_words(random: &mut Random, letters: usize) -> Sketch {
    let most = 1 << random.below(6);
    let count = random.between(1, most);
    let longest = random.between(1, 6);
    let mut sketch = Sketch::of_words(&word_list(random, letters, count, longest));
    for _ in 0..random.below(4) {
        sketch.split(random);
    }
    sketch
}

/// The graph of up to a hundred words, with many of its nodes split, so that lists have the same letter several times.
fn many_words(random: &mut Random, letters: usize) -> Sketch {
    let (count, longest) = (random.between(20, 100), random.between(2, 8));
    let words = word_list(random, letters, count, longest);
    let mut sketch = Sketch::of_words(&words);
    for _ in 0..random.below(40) {
        sketch.split(random);
    }
    sketch
}

/// A few nodes with any arcs; each node has a predecessor.
pub fn tangle(random: &mut Random, letters: usize) -> Sketch {
    let nodes = random.between(1, 10);
    let once_in = random.between(2, 6);
    let mut sketch = Sketch::new();
    for node in 1..=nodes {
        sketch.node(random.below(letters) as u8);
        for from in 0..node {
            if random.once_in(once_in) {
                sketch.arc(from, node);
            }
        }
        if !sketch.successors.iter().any(|list| list.contains(&node)) {
            sketch.arc(random.below(node), node);
        }
    }
    for node in 1..=nodes {
        if sketch.successors[node].is_empty() || random.once_in(once_in) {
            sketch.arc(node, SINK);
        }
    }
    sketch
}

fn few_layers(random: &mut Random) -> Sketch {
    let widths: Vec<usize> = (0..random.between(1, 7))
        .map(|_| random.between(1, 3))
        .collect();
    let mut sketch = Sketch::new();
    sketch.layers(&widths, 0);
    let once_in = random.between(2, 12);
    sketch.thin(random, once_in);
    sketch
}

/// At most some hundred words: graphs of word lists, tangles, layers, long words. Not always accepted.
pub fn any_words(random: &mut Random) -> Sketch {
    let letters = random.between(1, 8);
    let mut sketch = match random.below(8) {
        0 => tangle(random, letters),
        1 => few_layers(random),
        2..=4 => few_words(random, letters),
        _ => many_words(random, letters),
    };
    if random.once_in(6) {
        let length = random.between(20, 32);
        let word = word(random, letters, length);
        sketch.chain(ROOT, &word, SINK);
    }
    sketch
}

/// Layers of up to eight nodes, thinned out: from a handful of words to far more than can be accepted.
pub fn layered(random: &mut Random) -> Sketch {
    let bits = random.between(4, 28);
    let mut widths = Vec::new();
    let mut words = 1;
    while words < 1 << bits && widths.len() < 32 {
        widths.push(random.between(1, 8));
        words *= widths[widths.len() - 1];
    }
    let mut sketch = Sketch::new();
    sketch.layers(&widths, 0);
    let once_in = random.between(2, 12);
    sketch.thin(random, once_in);
    sketch
}

/// Adds words of their own nodes, each of 20 to 32 letters where that many nodes are left, up to so many nodes.
pub fn fill_up(random: &mut Random, sketch: &mut Sketch, nodes: usize, letters: usize) {
    while sketch.nodes() < nodes {
        let length = random.between(20, 32).min(nodes - sketch.nodes());
        let word = word(random, letters, length);
        sketch.chain(ROOT, &word, SINK);
    }
}

/// Many arcs between 60 nodes at the root, 140 in the middle and 200 at the sink (for 400 nodes), over 64 letters. No
/// list has a letter twice, so no word is spelled twice; few thousand words.
pub fn dense(random: &mut Random, nodes: usize, arcs: usize) -> Sketch {
    let (top, bottom) = (nodes * 3 / 20, nodes / 2);
    let mut sketch = Sketch::new();
    for node in 1..=nodes {
        let letter = if node <= top {
            node - 1
        } else {
            random.below(64)
        };
        sketch.node(letter as u8);
        if node <= top {
            sketch.arc(ROOT, node);
        } else if node <= nodes - bottom {
            join(random, &mut sketch, (1, top), (node, node));
        } else {
            join(random, &mut sketch, (top + 1, nodes - bottom), (node, node));
            sketch.arc(node, SINK);
        }
    }
    for node in 1..=nodes - bottom {
        if sketch.successors[node].is_empty() {
            join(
                random,
                &mut sketch,
                (node, node),
                (nodes - bottom + 1, nodes),
            );
        }
    }
    while sketch.arcs() < arcs {
        match random.below(12) {
            0 => join(random, &mut sketch, (1, top), (top + 1, nodes - bottom)),
            _ => join(
                random,
                &mut sketch,
                (1, nodes - bottom),
                (nodes - bottom + 1, nodes),
            ),
        }
    }
    sketch
}

/// An arc from some node of one stretch to some node of another, whose letter is new in the list.
fn join(random: &mut Random, sketch: &mut Sketch, from: (usize, usize), to: (usize, usize)) {
    loop {
        let (tail, head) = (random.between(from.0, from.1), random.between(to.0, to.1));
        let letter = sketch.letters[head];
        let is_new = |successor: &usize| *successor == SINK || sketch.letters[*successor] != letter;
        if sketch.successors[tail].iter().all(is_new) {
            sketch.arc(tail, head);
            return;
        }
    }
}

/// A tree of six-letter beginnings and a tree of six-letter endings over two letters, so many of each, and every
/// beginning joined to every ending: nodes with the same letter and very many arcs, but each word is spelled once.
pub fn trees(width: usize) -> Sketch {
    let mut sketch = Sketch::new();
    let mut known: HashMap<(bool, usize, usize), usize> = HashMap::new();
    let (mut beginnings, mut endings) = (Vec::new(), Vec::new());
    for k in 0..width {
        let (mut last, mut next) = (ROOT, SINK);
        for depth in 0..6 {
            let bits = k >> (5 - depth);
            let letter = (bits % 2) as u8;
            last = *known.entry((false, depth, bits)).or_insert_with(|| {
                let node = sketch.node(letter);
                sketch.arc(last, node);
                node
            });
            next = *known.entry((true, depth, bits)).or_insert_with(|| {
                let node = sketch.node(letter);
                sketch.arc(node, next);
                node
            });
        }
        beginnings.push(last);
        endings.push(next);
    }
    for beginning in beginnings {
        sketch.successors[beginning].extend(&endings);
    }
    sketch
}

/// Layers with these widths, whose product is the number of words, and so many words of one letter beside them.
pub fn so_many_words(widths: &[usize], beside: usize) -> Sketch {
    let mut sketch = Sketch::new();
    sketch.layers(widths, 0);
    for k in 0..beside {
        sketch.chain(ROOT, &[(widths[0] + k) as u8], SINK);
    }
    sketch
}

/// A byte that is no print byte of a model: next to one, with its highest bit set, a letter's index, or an end.
pub fn no_letter(random: &mut Random, print_bytes: &[u8]) -> u8 {
    loop {
        let letter = *random.pick(print_bytes);
        let index = random.below(print_bytes.len()) as u8;
        let near = [letter ^ 0x80, letter ^ 0x20, letter - 1, letter + 1];
        let ends = [index, 0, 10, 32, 33, 126, 127, 255];
        let byte = *random.pick(&[&near[..], &ends].concat());
        if !print_bytes.contains(&byte) {
            return byte;
        }
    }
}

/// A voice model that has the letters of this graph.
pub fn voice_for(random: &mut Random, sketch: &Sketch) -> Voice {
    let least = usize::from(*sketch.letters.iter().max().unwrap_or(&0)) + 1;
    let letters = random.between(least, (least + 3).min(64));
    let most_states = random.between(1, 4);
    voice(random, letters, most_states)
}

/// A voice model and a lexicon of any kind, well formed, but not always accepted: 6 to 10 are among them.
pub fn images(random: &mut Random) -> (Voice, Lexicon) {
    let letters = if random.once_in(8) {
        random.between(1, 64)
    } else {
        random.between(1, 8)
    };
    let mut sketch = match random.below(24) {
        0..=5 => tangle(random, letters),
        6..=7 => layered(random),
        _ => few_words(random, letters),
    };
    match random.below(24) {
        0..=2 => sketch.second_path(random, None),
        3..=4 => {
            let letter = random.below(letters) as u8;
            sketch.second_path(random, Some(letter));
        }
        5 => sketch.orphan(random),
        6 => {
            let length = random.between(30, 36);
            let word = word(random, letters, length);
            sketch.chain(ROOT, &word, SINK);
        }
        7 if sketch.nodes() < 240 => {
            let nodes = random.between(240, 400);
            fill_up(random, &mut sketch, nodes, letters);
        }
        _ => {}
    }
    let voice = voice_for(random, &sketch);
    (voice, sketch.lexicon(random))
}
