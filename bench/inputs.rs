//! What the bench calls checking with: the paper's small lexicon, the largest lexicons that are accepted, and large
//! ones that are refused late.

use crate::draw;
use crate::image::{small_lexicon, small_voice, Voice};
use crate::random::Random;
use crate::sketch::{Sketch, ROOT, SINK};

#[allow(dead_code)]
pub struct Input {
    pub name: &'static str,
    pub nodes: usize,
    pub arcs: usize,
    pub voice: Vec<u8>,
    pub lexicon: Vec<u8>,
}

/// 64 letters of so many states, with one link.
fn voice(random: &mut Random, states: u8) -> Voice {
    let mut voice = draw::voice_of(random, &[states; 64], 64);
    voice.links = vec![-1];
    voice
}

pub fn input(name: &'static str, sketch: &Sketch, random: &mut Random) -> Input {
    Input {
        name,
        nodes: sketch.nodes(),
        arcs: sketch.arcs(),
        voice: voice(random, 2).bytes(),
        lexicon: sketch.lexicon(random).bytes(),
    }
}

pub fn inputs(random: &mut Random) -> Vec<Input> {
    let (small, lexicon) = (small_voice(), small_lexicon());
    let mut inputs = vec![Input {
        name: "the paper's small lexicon",
        nodes: lexicon.letters.len(),
        arcs: lexicon.successors.iter().map(Vec::len).sum(),
        voice: small.bytes(),
        lexicon: lexicon.bytes(),
    }];
    inputs.extend(accepted(random));
    inputs.extend(refused(random));
    // a library that has one link only refuses it: it comes last
    inputs.push(by_letter(random, &inputs[1]));
    inputs
}

fn accepted(random: &mut Random) -> Vec<Input> {
    let full = draw::dense(random, 400, 4_000);
    let mut two_layers = draw::so_many_words(&[62, 62], 0);
    let longest = draw::word(random, 64, 31);
    two_layers.chain(ROOT, &longest, SINK);
    let mut three_layers = draw::so_many_words(&[38, 38, 38], 0);
    draw::fill_up(random, &mut three_layers, 400, 64);
    let mut two_letters = draw::trees(59);
    draw::fill_up(random, &mut two_letters, 400, 2);
    vec![
        input("400 nodes, 4,000 arcs", &full, random),
        input("two full layers, 4,000 arcs", &two_layers, random),
        input("three full layers, 400 nodes", &three_layers, random),
        input("2^20 words", &draw::so_many_words(&[32; 4], 0), random),
        input("blocks at the root", &blocks(), random),
        input("two letters", &two_letters, random),
        input("nearly one letter", &nearly_one_letter(), random),
        input("graph of a word list", &word_list(random), random),
    ]
}

/// 16 blocks of 12 nodes each before 12 others: the root has many successors of the same letter, but no two blocks have
/// both a first and a second letter in common.
fn blocks() -> Sketch {
    let mut sketch = Sketch::new();
    for block in 0..16 {
        let (first, second) = (block / 4 * 12, block % 4 * 12);
        let heads: Vec<usize> = (0..12).map(|k| sketch.node(first + k)).collect();
        let tails: Vec<usize> = (0..12).map(|k| sketch.node(second + k)).collect();
        for head in heads {
            sketch.arc(ROOT, head);
            sketch.successors[head].extend(&tails);
        }
        for tail in tails {
            sketch.arc(tail, SINK);
        }
    }
    sketch
}

/// Beginnings and endings over two letters, with a node of the same letter between each beginning and all endings, and
/// words that have but one other letter: as many pairs of nodes as can be have the same letter and long lists.
fn nearly_one_letter() -> Sketch {
    let width = 58;
    let mut sketch = draw::trees(width);
    for node in 1..=sketch.nodes() {
        if sketch.successors[node].len() == width {
            let between = sketch.node(0);
            sketch.successors[between] =
                std::mem::replace(&mut sketch.successors[node], vec![between]);
        }
    }
    let mut place = 1;
    while sketch.nodes() < 400 {
        let mut word = vec![0; 32.min(400 - sketch.nodes())];
        let last = word.len() - 1;
        word[last.min(place)] = 1;
        sketch.chain(ROOT, &word, SINK);
        place += 1;
    }
    sketch
}

/// The graph of as many random words of two to four letters as 400 nodes hold.
fn word_list(random: &mut Random) -> Sketch {
    let mut words = Vec::new();
    for _ in 0..4_000 {
        let length = random.between(2, 4);
        words.push(draw::word(random, 12, length));
    }
    loop {
        let sketch = Sketch::of_words(&words);
        if sketch.nodes() <= 400 && sketch.arcs() <= 4_000 {
            return sketch;
        }
        words.truncate(words.len() - words.len() / 50 - 1);
    }
}

fn refused(random: &mut Random) -> Vec<Input> {
    let mut reserve = input("5 at the reserve", &draw::dense(random, 400, 4_000), random);
    let last = reserve.lexicon.len() - 1;
    reserve.lexicon[last] = 1;
    let mut orphan = draw::dense(random, 399, 3_999);
    let node = orphan.node(0);
    orphan.arc(node, SINK);
    let mut places = input("7", &draw::dense(random, 400, 4_000), random);
    places.voice = voice(random, 3).bytes();
    let mut long = draw::dense(random, 367, 3_960);
    let word = draw::word(random, 64, 33);
    long.chain(ROOT, &word, SINK);
    let many = draw::so_many_words(&[11; 32], 0);
    vec![
        reserve,
        input("6", &orphan, random),
        places,
        input("8", &long, random),
        input("9", &many, random),
        input("10 at the root", &twice(random), random),
    ]
}

/// Two full paths with the same letters that have no node in common, so that they are found at the root only.
fn twice(random: &mut Random) -> Sketch {
    let mut sketch = draw::dense(random, 380, 3_960);
    let path = sketch.path(random);
    let letters: Vec<u8> = path.iter().map(|node| sketch.letters[*node]).collect();
    sketch.chain(ROOT, &letters, SINK);
    sketch
}

/// The same lexicon, and as many links as there can be.
fn by_letter(random: &mut Random, large: &Input) -> Input {
    let mut voice = voice(random, 2);
    voice.links = vec![-1; 64];
    Input {
        name: "4,000 arcs, 64 links",
        voice: voice.bytes(),
        lexicon: large.lexicon.clone(),
        ..*large
    }
}
