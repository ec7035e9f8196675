//! Images with several faults at once, any set of the conditions 2 to 10.

use crate::damage::{damaged, is_link_count, link_counts};
use crate::draw;
use crate::image::{bytes_of, Field, Lexicon, Voice};
use crate::random::Random;
use crate::sketch::{Sketch, ROOT, SINK};

/// Images to which conditions 2 to 10 apply: 2 if bit 0 of `several` is set, and so on.
pub fn faulty_images(random: &mut Random, several: usize) -> (Vec<u8>, Vec<u8>) {
    faulty_images_with(random, several, |_, _| {})
}

/// The same with more in the graph, for conditions beyond 10: `add` has for itself the words that begin with a letter
/// from 8 on, and up to 180 nodes.
pub fn faulty_images_with(
    random: &mut Random,
    several: usize,
    add: impl FnOnce(&mut Random, &mut Sketch),
) -> (Vec<u8>, Vec<u8>) {
    let has = |number: usize| several >> (number - 2) & 1 == 1;
    let (voice, lexicon) = faulty_graph(random, has, add);
    let (links_at, letters) = (voice.fields_before_links().len(), voice.letters.len());
    let (mut voice, mut lexicon) = (voice.fields(), lexicon.fields());
    if has(3) && random.once_in(6) {
        let mut counts = link_counts(letters);
        counts.retain(|count| !is_link_count(*count, letters));
        voice[links_at].value = *random.pick(&counts) as u16;
    } else if has(3) {
        set_out_of_range(random, &mut voice);
    }
    if has(5) {
        set_out_of_range(random, &mut lexicon);
    }
    let voice_bytes = of_wrong_length(random, has(2), &voice);
    let lexicon_bytes = of_wrong_length(random, has(4), &lexicon);
    (voice_bytes, lexicon_bytes)
}

/// A graph to which 6 to 10 apply as wanted: a long chain, many nodes and many words beside a few words, one of them
/// spelled twice, and a node that nobody names.
fn faulty_graph(
    random: &mut Random,
    has: impl Fn(usize) -> bool,
    add: impl FnOnce(&mut Random, &mut Sketch),
) -> (Voice, Lexicon) {
    let letters = random.between(3, 8);
    let mut sketch = draw::few_words(random, letters);
    while sketch.nodes() > 40 {
        sketch = draw::few_words(random, letters);
    }
    if has(10) {
        sketch.second_path(random, None);
    }
    if has(9) {
        let layers = random.between(21, 30);
        sketch.layers(&vec![2; layers], 0);
    }
    if has(8) {
        let word = draw::word(random, letters, 33);
        sketch.chain(ROOT, &word, SINK);
    }
    if has(6) {
        let node = sketch.node(0);
        sketch.arc(node, SINK);
    }
    add(random, &mut sketch);
    let states = if has(7) { 4 } else { 2 };
    if has(7) {
        let nodes = sketch.nodes().max(251);
        draw::fill_up(random, &mut sketch, nodes, letters);
    }
    let highest = sketch.letters.iter().max().map_or(0, |l| usize::from(*l));
    let voice = draw::voice_of(random, &vec![states; letters.max(highest + 1)], 1);
    (voice, sketch.lexicon(random))
}

fn set_out_of_range(random: &mut Random, fields: &mut [Field]) {
    let field = random.pick_mut(fields);
    field.value = if field.size == 1 { 255 } else { 65_535 };
}

fn of_wrong_length(random: &mut Random, wrong: bool, fields: &[Field]) -> Vec<u8> {
    let mut bytes = bytes_of(fields);
    if !wrong {
        return bytes;
    }
    match random.below(3) {
        0 => bytes.push(0),
        1 => bytes.truncate(random.below(bytes.len())),
        _ => return damaged(random, fields),
    }
    bytes
}
