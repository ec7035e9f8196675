//! Lists of 1,000 items for the call that looks up a list: words of a lexicon, and the same with a near-word in every
//! fourth place. The words come from the plain lookups of bench/plain_codes.c.

use crate::calls;
use crate::inputs::Input;
use crate::random::Random;

pub const ITEMS: usize = 1_000;

pub struct Stock {
    pub name: &'static str,
    pub items: Vec<Vec<u8>>,
    /// As the call takes them: a length byte before each.
    pub bytes: Vec<u8>,
}

impl Stock {
    fn new(name: &'static str, items: &[Vec<u8>]) -> Stock {
        let bytes = items.iter().flat_map(|item| {
            let length = [item.len() as u8];
            [&length, item.as_slice()].concat()
        });
        Stock {
            name,
            items: items.to_vec(),
            bytes: bytes.collect(),
        }
    }
}

/// Both lists of an accepted lexicon. The first item is a longest word, for which a search goes as deep as it can; then
/// come the first word, the last one, and any.
pub fn stocks(input: &Input, work: &mut [u8]) -> [Stock; 2] {
    let mut random = Random::from_seed(1);
    let count = calls::keep(input, work);
    assert!(count > 0, "{}: {count}", input.name);
    let word = |code: usize| calls::find_word(input, code as u32);
    let count = count as usize;
    let mut items = vec![longest(input), word(0), word(count - 1)];
    items.resize_with(ITEMS, || word(random.below(count)));
    let words = Stock::new("words", &items);
    for item in items.iter_mut().skip(3).step_by(4) {
        *item = near(input, item, &mut random);
    }
    [words, Stock::new("a fourth near-words", &items)]
}

/// A word of which a letter is changed, left out or added, and again until it is none: one change may give a word, as
/// with a, aa and aaa. The letter is one that the lexicon has.
fn near(input: &Input, word: &[u8], random: &mut Random) -> Vec<u8> {
    let mut near = word.to_vec();
    loop {
        // the empty word is none, so that there is a place
        let place = random.below(near.len());
        let letter = print_byte(input, random.between(1, input.nodes));
        match random.below(3) {
            0 => near[place] = letter,
            1 => drop(near.remove(place)),
            _ => near.insert(place, letter),
        }
        if calls::find_code(input, &near) < 0 {
            return near;
        }
    }
}

fn print_byte(input: &Input, node: usize) -> u8 {
    let letter = input.lexicon[1 + node];
    input.voice[1 + 2 * usize::from(letter)]
}

/// From the root on to where the longest rest begins, as long as it is not the sink.
fn longest(input: &Input) -> Vec<u8> {
    let lists = successors(input);
    let sink = lists.len();
    let mut letters = vec![0; sink + 1];
    let mut next = vec![sink; sink];
    for (vertex, list) in lists.iter().enumerate().rev() {
        let longest = list.iter().max_by_key(|to| letters[**to]);
        next[vertex] = *longest.unwrap_or(&sink);
        letters[vertex] = letters[next[vertex]] + 1;
    }
    let mut word = Vec::new();
    let mut vertex = next[0];
    while vertex != sink {
        word.push(print_byte(input, vertex));
        vertex = next[vertex];
    }
    word
}

/// The lists of the root and of the nodes. The sink's number is the next.
fn successors(input: &Input) -> Vec<Vec<usize>> {
    let number = |pair: &[u8]| usize::from(u16::from_le_bytes([pair[0], pair[1]]));
    let mut rest = &input.lexicon[2 + input.nodes..];
    let mut lists = Vec::new();
    for _ in 0..=input.nodes {
        let (list, later) = rest[2..].split_at(2 * number(rest));
        lists.push(list.chunks(2).map(number).collect());
        rest = later;
    }
    lists
}
